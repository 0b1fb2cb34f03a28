# The options of a build: the files that are made, and the features that are on.
package . a '[features]' 'default = ["f"]' 'f = []' 'g = []' '[workspace]' 'members = ["m"]'
file src/lib.rs
file src/main.rs
file src/bin/b.rs
package m m
file m/src/lib.rs
made() {
    echo "build $*"
    pb_tool build "$@" | sed -n 's/.*"features":\(.*\),"filenames":\["\(.*\)"\],"executable".*/\2 \1/p'
}
made --workspace
made -p m
made --package m -p a --lib
made
made --bins
made --bin b
made -F g
made --features g --no-default-features --bin a
made --all-features --lib
made --release --lib
made -r --lib
made --profile bench --lib
made --target-dir out --lib
made --manifest-path m/Cargo.toml
