# How something differs: a word, a variable, a path that is gone or new, and the file of a folder. The same after a fault
# and after a bad unit. Without -v, values are shown of the builder's own variables only: of a long one a part, and for
# a control character a question mark.
package . a '[dependencies]' 'b = { path = "b" }' '[features]' 'more = []'
file src/lib.rs
file src/main.rs
file build.rs 'print cargo::rerun-if-changed=words' 'print cargo::rerun-if-changed=folder' 'show GREETING'
file folder/one
package b b
file b/src/lib.rs
# A compiler that is another version if there is a file `newer`, and dies at the library `a` if there is a file `dies`.
program compiler.sh '#!/bin/sh' \
    "[ \"\$1\" = -vV ] && [ -e $PWD/newer ] && { $RUSTC -vV | sed 's/0.1.0/0.2.0/'; exit; }" \
    "[ -e $PWD/dies ] && case \"\$*\" in *\"--crate-name a \"*\"--crate-type lib\"*) kill -9 \$\$ ;; esac" \
    "exec $RUSTC \"\$@\""
RUSTC=$PWD/compiler.sh
export RUSTC
run() {
    echo "- $1"
    shift
    build --explain --runner "$RUSTC --run" "$@" > all
    grep -v '^{' all
    rm all
}
run 'the first build'
file words 'one'
run 'a path is new'
rm words
run 'a path is gone'
file folder/three
run 'a file of a folder is new'
file folder/three 'changed'
run 'it has changed'
rm folder/one
run 'one is gone'
rm -r folder
file folder 'now a file'
run 'a folder is a file'
GREETING=hello
export GREETING
run 'a variable is set'
GREETING=other
run 'it has another value'
unset GREETING
run 'it is unset'
show() {
    echo "- $1"
    build --explain -v --runner "$RUSTC --run" > all
    grep ': started, since' all
    rm all
}
GREETING='two words'
export GREETING
show 'with -v, all values are shown'
unset GREETING
show 'also of what is unset'
cp Cargo.toml before
sed -i 's/^edition.*/&\ndescription = "two\\nlines"/' Cargo.toml
run 'a variable of the builder has another value'
sed -i "s/^description.*/description = \"$(printf '%0300d' 0)\"/" Cargo.toml
run 'it is long'
sed -i 's/00"/01"/' Cargo.toml
run 'only its end differs'
mv before Cargo.toml
run 'it is as before'
run 'a word is new' --features more
run 'a word is gone'
printf '[profile.dev]\nopt-level = 3\n' >> Cargo.toml
run 'a word is another one'
run 'the tool has another name' --tool other
file newer
run 'another compiler' --tool other
file b/src/lib.rs '# c'
file dies
run 'the child of the second of two units dies' --tool other
rm dies
file b/src/lib.rs 'fail no'
run 'a unit is bad' --tool other
file b/src/lib.rs
run 'it is good again' --tool other
