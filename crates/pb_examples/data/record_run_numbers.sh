# The numbers that records give to runs: one above all others each time, so that a package that was built by itself, and
# back again, is another one to those that need it.
file Cargo.toml '[workspace]' 'members = ["a", "b"]'
package a a
file a/src/lib.rs
package b b '[dependencies]' 'a = { path = "../a" }'
file b/src/lib.rs 'use a'
numbers() {
    echo "fresh: $(pb_tool build "$@" | grep -c fresh.:true)"
    for name in a b; do sed -n 2p "target/debug/$name.target.lib.record"; done | tr "\n" " "
    sed -n "/^a.target.lib$/{n;s/^/b needs a as /p;}" target/debug/b.target.lib.record
}
numbers
file a/src/lib.rs 'print y'
numbers -p a
file a/src/lib.rs
numbers -p a
numbers
numbers
