# Proves and makes a program where it stands, as `rt run` in its crate's folder does, and copies it into a folder, so
# that no later edit changes what is measured: `make_program TOP FOLDER` prints the path of the copy of `pb_tool`, and
# `make_compiler TOP FOLDER` that of `pb_mini`, the small compiler. Nothing else is copied, and what is proved already
# stays so. Read by the other scripts of this folder.
make_one() {
    local top="$1" folder="$2" crate="$3" name="$4"
    shift 4
    (cd "$top/crates/$crate" && rt run -- "$@") > "$folder/made" 2>&1 || { cat "$folder/made" >&2; return 1; }
    cp "$top/crates/$crate/out/$crate" "$folder/$name"
    echo "$folder/$name"
}

make_program() {
    make_one "$1" "$2" pb_tool pb_tool build --help
}

make_compiler() {
    make_one "$1" "$2" pb_mini_main pb_mini -vV
}
