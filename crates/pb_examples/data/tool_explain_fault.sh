# What `--explain` counts after a fault: units that were kept before it, each once, and what the unit that was started last
# differs in. Also if the record of the next unit cannot be read, and if records are of format 1.
package . c '[dependencies]' 'aa = { path = "aa" }' 'b = { path = "b" }'
file src/lib.rs 'use aa' 'use b'
package aa aa
file aa/src/lib.rs
package b b
file b/src/lib.rs
# A compiler that dies at the library `c` if there is a file `dies`, and at the library `aa` makes the record of `c` too
# large if there is a file `grows`.
program compiler.sh '#!/bin/sh' \
    "[ -e $PWD/dies ] && case \"\$*\" in *\"--crate-name c \"*) kill -9 \$\$ ;; esac" \
    "[ -e $PWD/grows ] && case \"\$*\" in *\"--crate-name aa \"*) truncate -s 5G $PWD/target/debug/c.target.lib.record ;; esac" \
    "exec $RUSTC \"\$@\""
RUSTC=$PWD/compiler.sh
export RUSTC
run() {
    echo "- $1"
    build --explain > all
    grep -v '^{' all
    rm all
}
run 'the first build'
file aa/src/lib.rs '# c'
file grows
run 'the record of the third unit cannot be read'
rm grows target/debug/c.target.lib.record
run 'it is gone'
copy() {
    printf '%s\n' "${#2}" "$2" "$(wc -c < "$1/$2")"
    cat "$1/$2"
    echo
}
copies() {
    printf '%s\n' "${#1}" "$1" 2
    copy "$1" "$2.d"
    copy "$1" "lib$2.rlib"
}
# Writes the records as an earlier version did.
age() {
    cd target/debug || exit
    sed '1s/2/1/; 2d' aa.target.lib.record > aa
    sed '1s/2/1/; 2d' b.target.lib.record > b
    {
        sed '1s/2/1/; 2d; /^aa.target.lib$/q' c.target.lib.record | sed '$d' | sed '$d'
        copies aa.target.lib aa
        copies b.target.lib b
        printf '0\n\n0\n\nend\n'
    } > c
    for unit in aa b c; do
        mv $unit $unit.target.lib.record
    done
    cd ../..
}
age
file dies
file src/lib.rs 'use aa' 'use b' '# c'
run 'two units are of format 1, and the child of the third dies'
rm dies
run 'it does not die'
age
file dies
file aa/src/lib.rs 'print x'
run 'the files of a unit that a record of format 1 names differ, and the child dies'
rm dies
run 'it does not die'
run 'nothing differs'
