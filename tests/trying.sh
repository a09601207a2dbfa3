# Must-fail edits tried in a copy of a crate and what it stands on: read by tests/tried,
# tests/loosened and tools/one-edit, which call these from the repository's folder.

# stands_on CRATE: what it stands on, through other crates too, each once and the lowest first
stands_on() {
    local name
    for name in $(sed -nE "s/^$1( [^:]*)?: //p" crates.txt); do
        if grep -qE "^$name( |:)" crates.txt; then
            stands_on "$name"
            echo "$name"
        fi
    done | awk '!seen[$0]++'
}

# cut FOLDER CRATE..: these crates alone, without their edits, and their lines of crates.txt
cut() {
    local folder=$1 name part
    shift
    mkdir -p "$folder/crates"
    [ ! -e HANDLES ] || cp HANDLES "$folder"
    for name in "$@"; do
        grep -E "^$name( |:)" crates.txt >>"$folder/crates.txt"
        mkdir "$folder/crates/$name"
        for part in src specs proofs; do
            [ ! -e "crates/$name/$part" ] || cp -r "crates/$name/$part" "$folder/crates/$name"
        done
    done
}

# attempt CRATE HOW EDIT..: tries these edit files of a crate in a copy, by `rt ci` or by
# `rt must-fail`. The first takes what it proved here before, and proves the rest from nothing; the
# second takes what `rt check` kept. It fails where one is not refused, or not for what its first
# lines say
attempt() {
    local crate=$1 how=$2 folder
    shift 2
    folder=$(mktemp -d)
    # word splitting is meant
    cut "$folder" $(stands_on "$crate") "$crate"
    mkdir "$folder/crates/$crate/must-fail"
    cp "$@" "$folder/crates/$crate/must-fail"
    (cd "$folder" && rt "$how") >"$folder/log" 2>&1 || true
    grep -e ' NOT PROVED' -e 'NOT REFUSED' -e 'NOT TRIED' -e 'BAD EDIT' "$folder/log" | head -n 5 || true
    tests/edits "$folder/log" "$folder" || { rm -r "$folder"; return 1; }
    rm -r "$folder"
}
