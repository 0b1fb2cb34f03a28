# A compile whose output, diagnostics or dep-info have 4,194,304 bytes, and one more, each from nothing; a query that is
# answered with more.
package . a
file src/lib.rs
fill_by() {
    program fills.sh '#!/bin/sh' "[ \"\$1\" = -vV ] && exec $RUSTC -vV" "$RUSTC \"\$@\"" \
        "head -c $1 /dev/zero | tr '\\0' '#' $2"
    rm -rf target
    build_by "$PWD/fills.sh"
}
fill_by 4194304 ''
fill_by 4194305 ''
fill_by 4194304 '>&2'
fill_by 4194305 '>&2'
fill_by 4194304 '> target/debug/a.target.lib/a.d'
fill_by 4194305 '> target/debug/a.target.lib/a.d'
program answers.sh '#!/bin/sh' "$RUSTC -vV" 'head -c 4194304 /dev/zero'
build_by "$PWD/answers.sh"
