# The small compiler on its own: where its files go, words that it does not take, and what cannot be written.
mini() {
    pb_mini "$@" 2>&1
    echo "status $?"
}
compile() {
    mini --crate-name a --crate-type lib --cfg --out-dir --out-dir "$PWD/$1" "$PWD/a.rs"
}
file a.rs 'print x'
compile made/out
cat made/out/liba.rlib made/out/a.d
compile a.rs/out
mini
mini --run /no/such/image
mini -vV
pb_mini -vV > /dev/full
echo "status $?"
