# What stands in an output folder is removed before its unit is made, a link without what it leads to. Where the compiler
# cannot write, its unit is bad, and the build after it is as ever.
package . a
file src/lib.rs
file target/debug/a.target.lib/old/file
build
ls target/debug/a.target.lib
rm -r target/debug/a.target.lib
file kept/file
ln -s ../../kept target/debug/a.target.lib
program blocks.sh '#!/bin/sh' "[ \"\$1\" = -vV ] || mkdir target/debug/a.target.lib/liba.rlib" "exec $RUSTC \"\$@\""
build_by "$PWD/blocks.sh"
ls kept
build
ls target/debug/a.target.lib
