# What a build would start and why, while nothing is built or changed; and the build after it, which starts that.
package . a '[dependencies]' 'b = { path = "b" }'
file src/lib.rs 'when made print made'
file src/main.rs 'use a'
file build.rs 'print cargo::rerun-if-changed=words' 'print cargo::rustc-cfg=made' 'read words'
file words 'one'
package b b
file b/src/lib.rs
look() {
    find . -type f -exec cksum {} + | sort > ../before
    pb_tool build --dry-run --runner "$RUSTC --run" "$@" > ../lines 2> ../said
    status=$?
    cat ../lines ../said
    echo "status $status"
    find . -type f -exec cksum {} + | sort | cmp - ../before && rm ../before ../lines ../said
}
run() {
    build --explain --runner "$RUSTC --run" "$@" > all
    grep -v '^{' all
    rm all
}
look
ls
run
look
file src/lib.rs 'when made print more'
look
run
file b/src/lib.rs '# c'
look --bins
run --bins
# What a script has said is known from its record, so its package's library is as it was.
file words 'two'
look
run
# A file that is gone from the folder of a unit.
rm target/debug/b.target.lib/b.d
look
run
# A build that is refused, and a compiler that is none.
look -p c
RUSTC=/w/none
look
