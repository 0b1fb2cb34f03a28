# A manifest of 1,048,576 bytes is read, and one with a byte more is not.
file src/lib.rs
head -c 1048576 /dev/zero | tr '\0' '\n' > Cargo.toml
build
echo >> Cargo.toml
build
