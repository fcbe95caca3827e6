# What the jobs of this folder have in common: sourced with the words of a job, and its name in `job`. It sets $tree, the mounted tree, $place,
# a folder of the job's own there, and $room, one outside of the tree; both are removed when the job ends.
set -eu
top=$(readlink -f "$(dirname "$0")/../..")
stop() {
    echo "$job: $*" >&2
    exit "${with:-1}"
}
with=
[ $# -eq 1 ] || with=2 stop "usage: examples/mount/$job DIR, of a mounted tree"
tree=$(readlink -e -- "$1") && [ -d "$tree/.tx" ] || stop "$1 is no mounted tree"

# Ends the job where one of these programs is missing.
needs() {
    local program
    for program; do
        command -v "$program" >/dev/null || { echo "skipped: $program is not here" && exit 0; }
    done
}
place=$tree/$job
# What commands have complained of is shown where the job fails: a transaction that loses, and is begun anew, complains too.
finish() {
    [ $? = 0 ] || cat "$room/complaints" >&2 || true
    cd /
    rm -rf "$place" "$room"
}
begin() {
    mkdir "$place" || stop "there is a $place already"
    room=$(mktemp -d)
    trap finish EXIT
    trap 'exit 130' INT TERM
    cd "$place"
}
# Runs a command in one transaction of the tree.
as_one() { "$top/txrun" --retries 1000 "$tree" "$@" 2>>"$room/complaints"; }
# Prints lines as one.
joined() { paste -s -d ' '; }
# Runs a command that is to fail, and shows with which status.
fails() {
    local status=0
    "$@" || status=$?
    [ "$status" != 0 ] || stop "it should have failed: $*"
    echo "it ended with status $status"
}
# Ends the job where two texts differ.
same() { [ "$1" = "$2" ] || stop "\"$1\" in place of \"$2\""; }
