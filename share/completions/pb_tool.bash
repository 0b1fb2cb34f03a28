# Completions of pb_tool for bash. `bench/pages/completions.py` writes this file.
_pb_tool() {
    local word="${COMP_WORDS[COMP_CWORD]}" before="${COMP_WORDS[COMP_CWORD-1]}" words=""
    case "${COMP_WORDS[1]}" in
        build) words="-p --package --workspace --lib --bins --bin -F --features --all-features --no-default-features -r --release --profile -j --jobs --explain --dry-run --render -v --verbose --progress -q --quiet --color --manifest-path --target-dir --message-format --runner --tool --locked --offline --frozen -h --help" ;;
        plan) words="-p --package --workspace --lib --bins --bin -F --features --all-features --no-default-features -r --release --profile --manifest-path --target-dir --json --dot -h --help" ;;
        clean) words="-p --package -r --release --profile --manifest-path --target-dir -h --help" ;;
        session) words="-h --help" ;;
        explain) words="-h --help" ;;
        *) words="build plan clean session explain --help --version" ;;
    esac
    case "$before" in
        --manifest-path) COMPREPLY=($(compgen -f -- "$word")); return ;;
        --target-dir) COMPREPLY=($(compgen -d -- "$word")); return ;;
        session) COMPREPLY=($(compgen -f -- "$word")); return ;;
    esac
    COMPREPLY=($(compgen -W "$words" -- "$word"))
}
complete -F _pb_tool pb_tool
