# Five units or more that are started for one reason have one line.
file Cargo.toml '[workspace]' 'members = ["?"]'
for name in a b c d e f; do
    package $name $name
    file $name/src/lib.rs
done
run() {
    build --explain "$@" > all
    grep -v '^{' all
    rm all
}
run
run --tool other
file e/src/lib.rs '# c'
file d/src/lib.rs '# c'
run --tool other
file b/src/lib.rs 'fail no'
run --tool other
pb_tool build --dry-run --tool another 2>&1
