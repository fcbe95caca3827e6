# The tests of tests/txrun about what a transaction changes, and how that is shown.

make_tree() {
    mkdir -p tree/old tree/both
    echo text >tree/file
    echo same >tree/same
    printf 'a\0b' >tree/bytes
    ln -s target tree/link
    echo moved >tree/old/name
    echo kind >tree/kind
    chmod 644 tree/file tree/same
}
change_tree='
    cd tree; printf "a\0c" >bytes; chmod 700 both; echo more >>file; chmod 600 file; rm kind; mkdir kind; echo x >kind/x
    ln -sf other link; mv old new; echo same >same; touch same; mkfifo pipe; ln same linked; ln -s made dangling
    echo y >"$(printf "two\nlines")"; chown 12:34 bytes'
lists_changes() {
    umask 022
    make_tree
    find tree >"$room/before"
    ends 0 --dry-run . sh -ec "$change_tree"
    [ ! -s "$room/stderr" ]
    shows 'changed tree/both: permissions 755 -> 700
changed tree/bytes: content, owner 0:0 -> 12:34
made tree/dangling: link
changed tree/file: content, permissions 644 -> 600
changed tree/kind: kind file -> directory
made tree/kind/x: file
changed tree/link: target target -> other
made tree/linked: file
made tree/new: directory
made tree/new/name: file
removed tree/old: directory
removed tree/old/name: file
made tree/pipe: FIFO
made "tree/two\nlines": file'
    # Nothing of it was done.
    find tree | diff "$room/before" -
    [ "$(cat tree/file)" = text ]
    ends 3 --dry-run . sh -c 'echo x >made; exit 3'
    [ ! -s "$room/stdout" ]
    tells "status 3, so nothing would change"
    ends 0 --dry-run . true
    [ ! -s "$room/stdout" ]
    # A link in the place of a directory is not followed.
    ends 0 --dry-run . sh -c 'mv tree/both tree/away; ln -s old tree/both'
    shows 'made tree/away: directory
changed tree/both: kind directory -> link'
    ends 0 --dry-run . chmod 711 .
    shows 'changed .: permissions 755 -> 711'
    rm -r tree
}
tar_dry() {
    mkdir -p "$room/packed/tree/below"
    seq 1000 >"$room/packed/tree/below/numbers"
    ln -s below "$room/packed/tree/link"
    tar -C "$room/packed" -cf "$room/packed.tar" tree
    ends 0 --dry-run . tar -xf "$room/packed.tar"
    shows 'made tree: directory
made tree/below: directory
made tree/below/numbers: file
made tree/link: link'
    [ ! -e tree ]
    ends 0 . tar -xf "$room/packed.tar"
    # What is laid down once more is the same.
    ends 0 --dry-run . tar -xf "$room/packed.tar"
    [ ! -s "$room/stdout" ]
    rm -r tree
}
differences() {
    umask 022
    make_tree
    seq 10 >tree/numbers
    cp -a tree "$room/tree"
    ends 0 --diff . sh -ec "$change_tree; seq 12 | grep -v 5 >numbers; printf 'no line' >new/end"
    # It is done.
    [ "$(tail -n 1 tree/numbers)" = 12 ]
    # Texts are those of diff, but for the times of its two files.
    local file
    for file in numbers file; do
        (diff -u "$room/tree/$file" "tree/$file" || true) | tail -n +3 >"$room/wanted"
        sed -n "/^--- tree\/$file\t/,/^changed\|^made\|^removed/p" "$room/stdout" | sed '1,2d;/^changed\|^made\|^removed/d' >"$room/found"
        diff "$room/wanted" "$room/found"
    done
    grep -q '^+++ tree/numbers	[0-9]*-[0-9]*-[0-9]* [0-9:]*\.[0-9]* [+-][0-9]*$' "$room/stdout"
    grep -q '^Binary files tree/bytes and tree/bytes differ$' "$room/stdout"
    grep -q '^changed tree/link: target target -> other$' "$room/stdout"
    grep -q '^changed tree/both: permissions 755 -> 700$' "$room/stdout"
    grep -A 1 '^--- /dev/null$' "$room/stdout" | grep -q '^+++ tree/new/end	'
    grep -q '^-moved$' "$room/stdout"
    grep -q '^\\ ' "$room/stdout"
    rm -r tree "$room/tree"
}
differences_dry() {
    echo text >file
    ends 0 --diff --dry-run . sh -c 'echo more >>file'
    grep -q '^+more$' "$room/stdout"
    [ "$(cat file)" = text ]
    cp "$room/stdout" "$room/patch"
    if command -v patch >/dev/null; then
        "$run" . patch -s -p0 <"$room/patch"
        [ "$(tail -n 1 file)" = more ]
    fi
    # What cannot be shown is told, and behind a commit takes nothing back.
    local status=0
    "$run" --diff . sh -c 'echo last >>file' >/dev/full 2>"$room/stderr" || status=$?
    [ "$status" = 71 ]
    tells "what changes cannot be shown: No space left"
    [ "$(tail -n 1 file)" = last ]
    nothing_left
    rm file
}
# A walk reads all, so it loses against one that has begun earlier and has written anything, which the command has not read.
reads_all() {
    mkdir .tx/one
    echo x >.tx/one/other
    "$run" . touch made
    local status=0
    "$run" --diff . touch more >"$room/stdout" 2>"$room/stderr" || status=$?
    [ "$status" = 75 ]
    tells "lost: aborted names read by P"
    [ ! -s "$room/stdout" ]
    [ ! -e more ]
    [ "$(cat .tx/one.ctl)" = live ]
    rmdir .tx/one
    rm made
}
