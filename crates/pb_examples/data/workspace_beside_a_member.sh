# Below a member lie a link to a folder above, a name that is no text, and a folder that cannot be read. Nothing looks
# there: the pattern of the members looks at the folders in m alone, and a package is asked for its files by their names.
file Cargo.toml '[workspace]' 'members = ["m/*"]' 'resolver = "2"'
package m/a a
file m/a/src/main.rs 'print a'
mkdir -p m/a/data m/a/closed m/empty
ln -s .. m/a/data/above
: > "m/a/data/$(printf '\377')"
chmod 0 m/a/closed
build
build --explain
chmod 700 m/a/closed
