# A variable's value, a file's name and an argument of the command line that are not UTF-8.
no_text=$(printf 'a\377')
package . a
file src/lib.rs
RUSTFLAGS=$no_text
export RUSTFLAGS
build
unset RUSTFLAGS
file "src/bin/$no_text.rs"
build
rm -r src/bin
build -p "$no_text"
build
