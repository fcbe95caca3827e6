# What tests of a mounted tree have in common: sourced with the test's name in `test`, it mounts a tree on $mnt, in a mount namespace of its
# own, with the options of txfs that stand in `options`. $room is a folder beside it. It ends the test where nothing can be mounted here, which one line says.
set -u
top=$(dirname "$(dirname "$(readlink -f "$0")")")

if [ "${1-}" != inside ]; then
    [ -c /dev/fuse ] || { echo "$test: skipped: there is no /dev/fuse here" && exit 0; }
    if [ "$(id -u)" = 0 ]; then way=(unshare -m); else way=(unshare -Urm); fi
    "${way[@]}" true 2>/dev/null || { echo "$test: skipped: no rights to make a mount namespace" && exit 0; }
    exec "${way[@]}" "$0" inside
fi

room=$(readlink -f "$(mktemp -d)")
mnt=$room/mnt
mkdir "$mnt"
# Another user has to get to the tree.
chmod 711 "$room"
cleanup() {
    cd /
    "$top/mount" -u "$mnt" 2>/dev/null || umount -l "$mnt" 2>/dev/null
    rm -rf "$room"
}
trap cleanup EXIT
trap 'exit 130' INT TERM

"$top/mount" "$mnt" ${options:+-- $options} >"$room/said" 2>&1 &
for _ in $(seq 100); do
    [ -d "$mnt/.tx" ] && break
    sleep 0.1
done
if [ ! -d "$mnt/.tx" ]; then
    if grep -q 'was refused' "$room/said"; then
        echo "$test: skipped: $(cat "$room/said")"
        exit 0
    fi
    cat "$room/said" >&2
    echo "$test: nothing was mounted" >&2
    exit 1
fi

passed=0
failed=0
# Runs a test: a function that is to succeed. What it prints is shown where it fails.
try() {
    local name=$1 out=$room/out view
    # Where a condition is asked for, the shell would go on behind a command that fails.
    (set -e; cd "$mnt"; "$2") >"$out" 2>&1
    if [ $? -eq 0 ]; then
        echo "ok: $name"
        passed=$((passed + 1))
    else
        echo "FAILED: $name"
        sed 's/^/    /' "$out" | tail -20
        failed=$((failed + 1))
    fi
    for view in $(ls "$mnt/.tx" | grep -v '\.ctl$'); do rmdir "$mnt/.tx/$view"; done
}
# Whether a command fails, as it is to.
fails() {
    if "$@"; then
        echo "should have failed: $*"
        return 1
    fi
}
# Whether programs are there that a test needs.
has() {
    local program
    for program; do
        command -v "$program" >/dev/null || { echo "skipped: no $program here" && return 1; }
    done
}
