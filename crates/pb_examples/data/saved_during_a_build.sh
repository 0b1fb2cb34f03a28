# Files that are saved while a compiler is at work: if the child read one, its unit is built again; else nothing is. The
# artifact of this compiler is the source. Once it is made, the compiler carries out the commands in the file `act`, later
# than the clock of a file system can tell from the start.
package . a
cat > compiler.sh <<'END'
#!/bin/sh
if [ "$1" = -vV ]; then printf 'sh 0.1.0\nhost: sh\n'; exit; fi
while [ $# -gt 0 ]; do
    case $1 in
        --out-dir) out=$2; shift ;;
        --crate-name) name=$2; shift ;;
        --crate-type) shift ;;
        -C | -L | -l | --cfg | --check-cfg | --extern) shift ;;
        -*) ;;
        *) source=$1 ;;
    esac
    shift
done
cp "$source" "$out/lib$name.rlib"
echo "$out/lib$name.rlib: $source src/part" > "$out/$name.d"
if [ -e act ]; then sleep 0.05; . ./act; rm act; fi
exit 0
END
chmod 755 compiler.sh
RUSTC=$PWD/compiler.sh
saved() {
    echo "saved: $1"
    rm -rf target src
    file src/lib.rs old
    file src/part old
    file act "$1"
    for number in 1 2 3; do
        pb_tool build --explain 2>&1 > lines
    done
}
saved true
saved 'echo new > src/lib.rs'
saved 'cp src/lib.rs old; echo new > src/lib.rs; cp old src/lib.rs'
saved 'echo new > new; mv new src/lib.rs'
saved 'echo new > src/lib.rs; touch -d 2001-01-01 src/lib.rs'
saved 'echo new > src/part'
saved 'rm src/part'
saved 'echo new > src/other'
