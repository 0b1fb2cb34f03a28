# Compilers that do not tell their host as they should, and one that tells it in its second line.
package . a
file src/lib.rs
query_by() {
    program says.sh '#!/bin/sh' "[ \"\$1\" = -vV ] || exec $RUSTC \"\$@\"" "$@"
    build_by "$PWD/says.sh"
}
query_by 'echo mini 0.1.0'
query_by 'echo host:'
query_by 'echo "host: "'
query_by 'echo "my host: h"'
query_by 'printf "host: h\n\377\n"'
query_by 'echo host: h' 'exit 1'
query_by 'echo host: h >&2'
query_by 'echo mini' 'echo host: h'
