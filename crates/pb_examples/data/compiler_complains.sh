# What a compiler complains of when it is asked for its version, and one that a signal ends.
package . a
file src/lib.rs
program complains.sh '#!/bin/sh' "echo 'no toolchain' >&2" "echo 'install one' >&2" 'exit 1'
program dies.sh '#!/bin/sh' "[ \"\$1\" = -vV ] && exec $RUSTC -vV" 'kill -11 $$'
build_by "$PWD/complains.sh"
build_by "$PWD/dies.sh"
