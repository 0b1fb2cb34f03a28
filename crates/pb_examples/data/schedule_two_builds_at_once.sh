# A second build in one target folder waits until the first has ended, and then starts no child. The compiler of the
# first waits until the second one says so.
package . a
file src/lib.rs
program compile '#!/bin/sh' "[ \"\$1\" = -vV ] || { : > $PWD/begun; until [ -s $PWD/second ]; do sleep 0.02; done; }" \
    "exec $RUSTC \"\$@\""
RUSTC=$PWD/compile
pb_tool build > lines 2> first &
until [ -e begun ]; do sleep 0.02; done
pb_tool build > more 2> second
echo "status $?"
wait $!
echo "status $?"
cat first lines second more
