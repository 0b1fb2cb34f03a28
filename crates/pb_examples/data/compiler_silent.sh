# A compiler that says nothing, and one that says its version and then nothing.
package . a
file src/lib.rs
program silent.sh '#!/bin/sh' 'exit 0'
program leaves_nothing.sh '#!/bin/sh' "[ \"\$1\" = -vV ] && exec $RUSTC -vV" 'exit 0'
build_by "$PWD/silent.sh"
build_by "$PWD/leaves_nothing.sh"
build
