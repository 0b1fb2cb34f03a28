# Command lines that are bad, with the status of each; and good ones, by what they build.
bad() {
    pb_tool "$@" 2> said
    echo "status $? for: $*"
    [ -s said ] || echo nothing is said
}
bad a.json
bad session
bad session a b
bad session --fast b
bad build --message-format human
bad build --release --profile dev
bad build a
bad build --jobs +1
bad build -j 1.0
bad build --jobs 18446744073709551616
bad build --jobs defaults
bad explain
bad explain BadKind BadName
file Cargo.toml '[workspace]' 'members = ["?"]'
for name in a b c; do
    package $name $name
    file $name/src/lib.rs
done
build --message-format json -p a --package=c --jobs 18446744073709551615
build -p a --jobs default -q
build -p d
# An option that cargo has and this program has not: why, and never another that means something else.
for option in --target=a --all-targets --exclude --targ --realese -Z -x; do
    pb_tool build "$option" 2> said
    echo "status $?"
    sed -n '1p; /tip:/p' said
done
# A plan has one form, and a removal one profile.
bad plan --json --dot
bad plan --jobs 2
bad clean --release --profile dev
bad clean --all-features
bad clean app
