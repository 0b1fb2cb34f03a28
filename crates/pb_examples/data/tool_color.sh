# Levels in colours: on a terminal, unless `--color` or `NO_COLOR` says otherwise; elsewhere only with `--color always`. In
# what is printed here, `<` stands for a carriage return and `^` for an escape.
package . a '[dependencies]' 'b = { path = "b" }'
file build.rs 'print cargo::warning=well'
file src/lib.rs 'warn so'
package b b
file b/src/main.rs
shown() {
    tr '\r\033' '<^'
}
terminal() {
    echo "on a terminal: $*"
    script -qec "pb_tool build -q --render --runner '$RUSTC --run' $* > lines" /dev/null < /dev/null | shown
}
elsewhere() {
    echo "elsewhere: $*"
    pb_tool build --render --runner "$RUSTC --run" "$@" 2>&1 > lines | shown
}
terminal
terminal --color auto
terminal --color never
elsewhere
elsewhere --color always
NO_COLOR=1
export NO_COLOR
terminal
terminal --color always
NO_COLOR=
terminal
# A unit that fails, words that begin as a level does, and another value.
file src/lib.rs 'fail no'
file build.rs 'print cargo::error=helpless'
elsewhere --color always
elsewhere --color alway
