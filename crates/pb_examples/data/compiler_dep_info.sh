# A compiler that leaves no dep-info, and one that leaves these, each from nothing: rules, none, and names of files in
# the target folder.
package . a
file src/lib.rs
program leaves.sh '#!/bin/sh' '[ "$1" = -vV ] && echo host: h && exit' \
    '[ "${DEP_INFO+set}" ] && printf %s "$DEP_INFO" > target/debug/a.target.lib/a.d' 'exit 0'
leaves() (
    DEP_INFO=$1
    export DEP_INFO
    rm -rf target
    build_by "$PWD/leaves.sh"
)
build_by "$PWD/leaves.sh"
leaves ''
leaves "o: $PWD/src/lib.rs src/more.rs ${PWD}/targets /other"
leaves 'no rule'
leaves '# env-dep:'
leaves "o: $PWD/a $PWD/target/x
no rule"
leaves "o: $PWD/target"
leaves "o: $PWD/target/x"
leaves 'o: target/x'
leaves "o: /x/..$PWD/./target/debug"
leaves "o: $PWD/target/debug/a.target.lib/a.d"
