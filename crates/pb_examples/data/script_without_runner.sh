# Without a runner a build script is started itself, without words. The small compiler's is no program; another
# compiler leaves one that fails, and then, of an edited script, one that tells its words and its folder.
package . a
file src/lib.rs
file build.rs
build
program compiles.sh '#!/bin/sh' "$RUSTC \"\$@\" || exit" '[ "$2" != build_script_build ] || cp -p own.sh target/debug/a.target.script/build_script_build'
program own.sh '#!/bin/sh' 'exit 2'
build_by "$PWD/compiles.sh"
program own.sh '#!/bin/sh' 'echo "cargo::warning=$# words in $PWD"'
file build.rs '# edited'
build_by "$PWD/compiles.sh"
