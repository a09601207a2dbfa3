# What the launchers in bin/ share (R15.13): how a program is run, and how it comes to an exit
# status.

# A stream that is closed is opened so that to read or write it fails, as it would have: else the
# next file that is opened takes its place. (To copy a descriptor onto itself would test nothing.)
{ true 9<&0; } 2>/dev/null || exec 0>/dev/null
{ true 9>&1; } 2>/dev/null || exec 1</dev/null
{ true 9>&2; } 2>/dev/null || exec 2</dev/null

# A write to a pipe that nobody reads any more, or to a file that may grow no further, is to fail, so
# that the program can say so.
trap '' PIPE XFSZ

programs=$(dirname "$(readlink -f "${BASH_SOURCE[0]}")")

# run NAME WORD..: the program, on another processor than its own under the emulator put beside it
run() {
    local start=() emulated=$programs/emulator
    [ ! -d "$emulated" ] || start=("$emulated/bin/qemu-x86_64" "$emulated/lib/ld-linux-x86-64.so.2" --library-path "$emulated/lib")
    "${start[@]}" "$programs/$1" "${@:2}"
}

# told NAME WORD..: runs the program; then $status is what it told on descriptor 3, and 1 where it
# was killed before it told anything
told() {
    { status=$(run "$1" --status-3 "${@:2}" 3>&1 >&4 4>&-); } 4>&1
    if [[ $status != [012] ]]; then
        echo "$1 was stopped before its end" >&2
        status=1
    fi
}

# plain WORD: sets $plain to the word as it may be shown: what is not printable ASCII might be an
# order to the terminal
plain() {
    local LC_ALL=C
    plain=${1//[^ -~]/?}
    [ "${#plain}" -le 64 ] || plain=${plain:0:64}...
}

# wrong WORD WHY
wrong() {
    plain "$1"
    printf "wrong word '%s': %s\n" "$plain" "$2" >&2
    exit 2
}
