# What is over a limit is refused, and notes say how large it is: 257 members, 257 packages that need each other in a
# chain, and a package of 4,097 units.
numbers() {
    number=0
    while [ $number -lt "$1" ]; do
        echo $number
        number=$((number + 1))
    done
}
file Cargo.toml '[workspace]' 'resolver = "2"' 'members = ["m*"]'
for number in $(numbers 257); do
    package m$number m$number
done
build
rm -r m*
for number in $(numbers 256); do
    package p$number p$number '[dependencies]' "p$((number + 1)) = { path = \"../p$((number + 1))\" }"
done
package p256 p256
build --manifest-path p0/Cargo.toml
rm -r p*
package . a
file src/lib.rs
mkdir src/bin
for number in $(numbers 4096); do
    : > src/bin/b$number.rs
done
build
