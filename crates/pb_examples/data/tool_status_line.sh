# A build on a terminal: which unit begins, on one line that is written over itself, and how many were built. In what is
# printed here, `<` stands for a carriage return and `^` for an escape; a time is `TIME`.
package . a '[dependencies]' 'b = { path = "b" }'
file src/lib.rs
package b b
file b/src/lib.rs 'warn look here'
shown() {
    tr -d '\n' | tr '\r\033' '<^' | sed 's/in [0-9.]* s/in TIME/; s/<</</g; s/$/\n/'
}
terminal() {
    script -qec "pb_tool build $* > lines" /dev/null < /dev/null > typed
    echo "status $?"
    shown < typed
}
terminal
terminal
file b/src/lib.rs 'warn look again'
terminal --render
terminal --release -v | sed "s|$RUSTC|pb_mini|g; s/ --crate-name [^<]*</ ..</g"
# Messages on the same terminal.
script -qec 'pb_tool build' /dev/null < /dev/null > typed
shown < typed | sed 's/{[^<]*}/{..}/g'
# Nothing of it with -q, and where standard error is no terminal; there only with --progress.
terminal -q
pb_tool build 2>&1 > lines | shown
pb_tool build --progress 2>&1 > lines | shown
# A unit that is bad.
file src/lib.rs 'fail no'
terminal
