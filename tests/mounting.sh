# What tests/mounting goes by: sourced behind mounted.sh, it makes $kit, a copy of ./mount with its program, and names an empty directory, $at.

# What is tried is a copy beside the program, which another user can read as well, wherever the repository stands.
kit=$room/kit
mkdir -p "$kit/tools" "$kit/crates/txfs/out"
cp "$top/mount" "$top/mount.fuse.kagzuvis" "$top/txrun" "$kit"
cp "$top/tools/"{shared.sh,by_fusermount.py,txrun.py,inside.py,signals.py,changes.py,transaction.py} "$kit/tools"
# It is the program that serves the tree on $mnt.
program=$(pgrep -P "$!" -x txfs) && cp "/proc/$program/exe" "$kit/crates/txfs/out/txfs" ||
    { echo "$test: no program serves $mnt" >&2 && exit 1; }
mount=$kit/mount
at=$room/at

# Unmounts what a test has left, as a user's or as a dead tree too.
clear_mounts() {
    local point
    for point in $(awk -v at="$at" 'index($5, at) == 1 { print $5 }' /proc/self/mountinfo | tac); do umount -l "$(printf %b "$point")"; done
}
# Whether something is mounted on this path or below. What is mounted there may be a part of this machine, so that nothing is removed then.
has_mounts() { [ -n "$(awk -v at="$1" 'index($5, at) == 1' /proc/self/mountinfo)" ]; }
cleanup() {
    cd /
    clear_mounts 2>/dev/null
    "$top/mount" -u "$mnt" 2>/dev/null || umount -l "$mnt" 2>/dev/null
    has_mounts "$room" || rm -rf "$room"
}
# Runs a test on an empty directory $at, and takes away what it has mounted.
attempt() {
    mkdir -p "$at"
    chmod 755 "$at"
    try "$@"
    clear_mounts
    has_mounts "$at" || rm -rf "$at"
}
# How a tree on a path is mounted: the type, the name and the options.
told() { awk -v at="$1" '$5 == at { sub(/.* - /, " &"); print $0 }' /proc/self/mountinfo; }
is_mounted() { grep -q " $1 .* - fuse.kagzuvis " /proc/self/mountinfo; }
# Waits until a condition holds, for five seconds.
await() {
    for _ in $(seq 250); do
        if "$@"; then return 0; fi
        sleep 0.02
    done
    echo "it did not come: $*"
    return 1
}
# (who has ended may wait for long to be noticed by the first process of a container)
is_gone() { [ ! -e "/proc/$1" ] || grep -q '^[0-9]* (.*) Z ' "/proc/$1/stat"; }
is_free() { ! grep -q " $1 " /proc/self/mountinfo && [ -z "$(ls -A "$1")" ]; }
is_there() { [ -d "$1/.tx" ]; }
# The processes that serve, and those that have started them, by the program's place.
servers() { pgrep -f "^$kit/crates/txfs/out/txfs"; }
server_of() { pgrep -P "$1" -f "^$kit/crates/txfs/out/txfs"; }
# The process of ./mount that has started the only server that there is.
watcher() { ps -o ppid= -p "$(servers)" | tr -d ' '; }
# Whether a command fails with this status, and says this on standard error.
refuses() {
    local status=0 wanted=$1 text=$2 said
    shift 2
    said=$("$@" 2>&1 >/dev/null </dev/null) || status=$?
    [ "$status" = "$wanted" ] && [[ $said = *"$text"* ]] || { echo "status $status: $said" && return 1; }
}
# Another user.
other() { setpriv --reuid 65534 --regid 65534 --clear-groups "$@"; }
is_root_here() { [ "$(awk '{ print $3; exit }' /proc/self/uid_map)" = 4294967295 ] || { echo "skipped: another user can only be tried by root" && return 1; }; }
# Lets another user open /dev/fuse, as most machines do.
open_device() {
    other test -w /dev/fuse && return
    mknod "$room/fuse" c 10 229 && chmod 666 "$room/fuse" && mount --bind "$room/fuse" /dev/fuse && other sh -c ': <>/dev/fuse'
}
