# For the benchmarks beside it: a folder with copies of crates, in which a program over them is made and proved.

# The folder that was given, which a later run may use again, or a new one, which is removed at the end: the proofs of
# the crates take some minutes where `rt` kept none.
folder_for_run() {
    if [ $# -gt 0 ]; then
        made="$1"
    else
        made="$(mktemp -d)"
        trap 'rm -rf "$made"' EXIT
    fi
    mkdir -p "$made/crates"
}

# Copies crates from the repository at `top` to the folder `made`, without what checks kept of them.
copy_crates() {
    local name part
    : >"$made/crates.txt"
    for name in "$@"; do
        mkdir -p "$made/crates/$name"
        for part in src specs proofs; do
            rm -rf "$made/crates/$name/$part"
            if [ -d "$top/crates/$name/$part" ]; then cp -r "$top/crates/$name/$part" "$made/crates/$name/"; fi
        done
        grep "^$name:" "$top/crates.txt" >>"$made/crates.txt"
    done
}

# Runs the program in the crate of this name, and puts what it prints into a file.
run_program() {
    (cd "$made/crates/$1" && rt run >"$2" 2>"$made/log") || { tail -20 "$made/log"; exit 1; }
}
