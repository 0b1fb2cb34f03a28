# A compiler inherits the variables of the builder under those of its command, and its input is empty.
package . a
file src/lib.rs 'env COLOUR' 'env SHADE' 'env CARGO_PKG_NAME'
COLOUR=blue
CARGO_PKG_NAME=other
export COLOUR CARGO_PKG_NAME
unset SHADE
program reads.sh '#!/bin/sh' 'cat > /dev/null' "exec $RUSTC \"\$@\""
echo something | build_by "$PWD/reads.sh"
cat target/debug/a.target.lib/liba.rlib target/debug/a.target.lib/a.d
