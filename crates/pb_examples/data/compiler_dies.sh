# A compiler that a signal ends, at its first compile and at once; the build after it is as ever.
package . a
file src/lib.rs
program dies.sh '#!/bin/sh' "[ \"\$1\" = -vV ] && exec $RUSTC -vV" 'kill -9 $$'
program dies_at_once.sh '#!/bin/sh' 'kill -9 $$'
build_by "$PWD/dies.sh"
build_by "$PWD/dies_at_once.sh"
build
