# What the scripts at the top, in tools/ and in bench/ have in common. A script sets `top` to the repository and sources this file.

# How long ./build takes from nothing.
build_takes="some 22 minutes on four processors, 33 on two"

# Ends the script of this name where the kit's command is missing.
need_rt() {
    command -v rt >/dev/null && return
    echo "$1: rt, the kit's command, is not on the PATH" >&2
    exit 127
}

# Whether the kit's `rt ci` takes words: names of crates, and --anew. One that takes none proves everything from nothing each time.
ci_takes_words() { ! (cd / && rt ci --anew 2>&1) | grep -q '^usage: '; }

# Prints the lines of crates.txt for these crates and all that they use.
lines_for() {
    awk -F: -v names="$*" '
        function take(name, list, i, count) {
            if (name in taken || !(name in uses)) return
            taken[name]
            count = split(uses[name], list, " ")
            for (i = 1; i <= count; i++) take(list[i])
        }
        !/^#/ && NF > 1 { split($1, head, " "); uses[head[1]] = $2; line[head[1]] = $0 }
        END {
            count = split(names, wanted, " ")
            for (i = 1; i <= count; i++) take(wanted[i])
            for (name in taken) print line[name]
        }' "$top/crates.txt"
}

# What stands in the environment under this name is not meant.
room=
# Makes the folder $room, if there is none yet, which is removed when the script ends; in the folder of this name, or where temporary
# files stand.
make_room() {
    [ -z "$room" ] || return 0
    room=$(readlink -f "$(mktemp -d "${1:-${TMPDIR:-/tmp}}/room.XXXXXX")")
    trap 'rm -rf "$room"' EXIT
    trap 'exit 130' INT
}

# Makes it in memory, where this machine has such a folder.
make_room_in_memory() {
    if [ -d /dev/shm ] && [ -w /dev/shm ]; then make_room /dev/shm; else make_room; fi
}

# Sets how the C library of programs that are started gives out memory, where nothing else is set. Huge pages: what a large file
# or directory holds is then found in fewer steps, since each page has a translation of its own. And of each small size a thread
# keeps up to 128 blocks that were freed, where the library by itself keeps 7: a transaction asks for many and frees them together.
tune_memory() { export GLIBC_TUNABLES="${GLIBC_TUNABLES-glibc.malloc.hugetlb=1:glibc.malloc.tcache_count=128}"; }

# Says on what machine a script has measured.
say_machine() {
    local model
    model=$(sed -n 's/^model name[[:space:]]*: //p' /proc/cpuinfo | head -n 1)
    echo "Measured on $(nproc) processors, ${model:-of an unknown model}, with a load of $(cut -d ' ' -f 1 /proc/loadavg) at the end."
}

# Copies into a folder these folders and files of the repository, without what was built and without the edits that have to be refused.
copy_into() {
    local to=$1
    shift
    (cd "$top" && tar -cf - --exclude='crates/*/out' --exclude='crates/*/must-fail' --exclude='crates/*/more-edits' "$@") |
        tar -xf - -C "$to"
}

# Proves a program and all below it, builds it, and puts it to crates/NAME/out/NAME, for the script of the first name. Further words are
# those of the gate's command, which does it on a copy that has only these crates and none of their must-fail edits. It tells which
# crates are done, how many of how many, and which are at work and for how long; all that the command says where something failed.
build_proved() {
    local script=$1 program=$2 started out folders
    shift 2
    out=$top/crates/$program/out
    make_room
    mkdir -p "$room/$program" "$out" || return
    lines_for "$program" >"$room/$program/crates.txt" || return
    mapfile -t folders < <(sed 's/[ :].*//; s,^,crates/,' "$room/$program/crates.txt")
    # What is edited from now on is newer than the program.
    started=$(date +@%s.%N)
    copy_into "$room/$program" HANDLES "${folders[@]}" || return
    python3 "$top/tools/gate.py" "$script" "$room/$program" "$@" || return
    cp "$room/$program/crates/$program/out/$program" "$out/$program.new" && touch -d "$started" "$out/$program.new" &&
        mv "$out/$program.new" "$out/$program"
}

# Whether the proved program of a crate is built and no source is newer. Folders count as well, since theirs is the time of a file
# that was moved or removed.
is_built() {
    local program=$top/crates/$1/out/$1
    [ -x "$program" ] &&
        [ -z "$(find "$top"/crates/*/{src,specs,proofs} "$top/crates.txt" -newer "$program" -print -quit 2>/dev/null)" ]
}

# Tells which kit this is, as `rt version` does. To start that takes longer than a short run, so the file that it prints is read,
# where it is there.
kit_version() {
    local kit
    kit=$(dirname "$(dirname "$(readlink -f "$(command -v rt)")")")
    cat "$kit/KIT-ID" 2>/dev/null || rt version
}

# Prints the name under which the unproved program of a crate is kept, or with --test that of its tests: by all sources that it is
# made of, by the kit and by the tool that makes it.
unproved_name() {
    local lines
    lines=$(lines_for "$1" | LC_ALL=C sort)
    printf '%s%s-' "$1" "${2:+_tests}"
    {
        kit_version
        echo "$lines"
        cd "$top"
        sed 's/[ :].*//; s,.*,crates/&/src,' <<<"$lines" | tr '\n' '\0' | xargs -0 sh -c 'find tools/compile "$@" -type f -print0' find |
            LC_ALL=C sort -z | xargs -0 sha256sum
    } | sha256sum | cut -c 1-32
}

# Prints the file in which the unproved program of a crate, or with --test that of its tests, is kept for these sources; nothing
# where nothing can be kept.
unproved_file() {
    local name folder=${XDG_CACHE_HOME:-${HOME:+$HOME/.cache}}/kagzuvis
    name=$(unproved_name "$@")
    [ "$folder" != /kagzuvis ] && mkdir -p "$folder/$name" 2>/dev/null && [ -w "$folder/$name" ] || return 0
    echo "$folder/$name/$1"
}

# Sets $program to the unproved program of a crate. It is compiled where it is not kept for these sources; where nothing can be kept
# it stands in $room. The status is that of tools/compile.
unproved() {
    local status
    while :; do
        program=$(unproved_file "$1")
        if [ -z "$program" ]; then
            make_room
            program=$room/$(unproved_name "$1")/$1
        elif [ -x "$program" ]; then
            # What was not used for long goes first.
            touch -c "$program" 2>/dev/null || true
            return 0
        fi
        status=0
        "$top/tools/compile" "$1" "$program" </dev/null >&2 || status=$?
        # The sources were edited before all of them were read.
        [ "$status" = 4 ] || return "$status"
    done
}
