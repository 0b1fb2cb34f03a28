# The builder itself is killed while the compiler is at work on an edited source. The edit is undone, but the library is
# made again, since its record is gone.
package . a
file src/lib.rs
program compiles.sh '#!/bin/sh' '[ "$1" = -vV ] || [ ! -e kills ] || kill -9 $PPID $$' "exec $RUSTC \"\$@\""
build_by "$PWD/compiles.sh"
file src/lib.rs 'print x'
file kills
build_by "$PWD/compiles.sh" | tail -n 1
rm kills
file src/lib.rs
build_by "$PWD/compiles.sh"
build_by "$PWD/compiles.sh"
