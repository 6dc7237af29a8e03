#!/usr/bin/env bash
# The built program and the files of the system: what it makes of each kind of output, that a file is whole or as before
# whatever stops the run, and that no input is written. `long` adds the runs that are killed.
#
#     tests/files.sh PROGRAM [long]
set -u
program=$(realpath "$1") || exit 1
long=${2-}
cd "$(dirname "$0")/.." || exit 1
. tests/check.sh || exit 1
room=$(mktemp -d) || exit 1
mounted=
end() {
    [ -z "$mounted" ] || umount "$mounted"
    rm -rf "$room"
}
trap end EXIT
cp "$program" "$room/nettletide"
program=$room/nettletide
chmod 755 "$program" "$room"
cp example/square.gds "$room" || exit 1
cd "$room" || exit 1

# deck OUTPUT..: a deck that writes the square under each of these names, on a layer of its own
deck() {
    local layer=0 output
    printf '%s\n' 'unit 1000' 'top TOP' 'layer A 1 0'
    for output in "$@"; do
        layer=$((layer + 1))
        printf 'write A %s %d 0\n' "$output" "$layer"
    done
}

# makes STATUS OUTPUT..: the run ends with this status, and leaves no file beside an output
makes() {
    local status=0 wanted=$1
    shift
    deck "$@" >deck
    "$program" fracture square.gds deck >said 2>told || status=$?
    [ "$status" -eq "$wanted" ] && no_parts
}

no_parts() {
    [ -z "$(find . -name '*nettletide-part*')" ]
}

# is_square FILE [LAYER]
is_square() {
    "$program" shots "$1" | cmp - <(printf 'unit 2000\nlayer %d 0\n0 20 0 20 0 20\nshots 1 triangles 800\n' "${2:-1}")
}

is_old() {
    cmp "$1" <(echo 'an older text')
}

old() {
    rm -f "$1"
    echo 'an older text' >"$1"
}

is_made_new() {
    makes 0 new.oas && is_square new.oas
}

# the mode is kept, and another name of the old file keeps its bytes
is_replaced() {
    old a.oas
    chmod 640 a.oas
    ln -f a.oas other
    makes 0 a.oas && is_square a.oas && [ "$(stat -c %a a.oas)" = 640 ] && is_old other
}

# a link to a link in a folder, with paths that begin at their own folders
follows_links() {
    mkdir -p folder
    old folder/target.oas
    ln -sf target.oas folder/second
    ln -sf folder/second first.oas
    makes 0 first.oas && is_square folder/target.oas && [ -L first.oas ] && [ -L folder/second ]
}

follows_a_dangling_link() {
    mkdir -p folder
    rm -f folder/none.oas
    ln -sf folder/none.oas dangling.oas
    makes 0 dangling.oas && is_square folder/none.oas && [ -L dangling.oas ]
}

refuses_a_loop() {
    ln -sf round.oas loop.oas
    ln -sf loop.oas round.oas
    makes 5 loop.oas && [ -L loop.oas ] && [ -L round.oas ]
}

refuses_a_folder() {
    mkdir -p folder.oas
    makes 5 folder.oas && [ -d folder.oas ]
}

# as_nobody COMMAND..: runs the command without the rights of root, who writes everything
as_nobody() {
    if [ "$(id -u)" -ne 0 ]; then
        "$@"
    else
        setpriv --reuid 65534 --regid 65534 --clear-groups "$@"
    fi
}

keeps_what_is_read_only() {
    local status=0
    mkdir -p open
    chmod 777 open
    old open/closed.oas
    chmod 444 open/closed.oas
    deck open/closed.oas >deck
    as_nobody "$program" fracture square.gds deck >said || status=$?
    [ "$status" -eq 5 ] && is_old open/closed.oas && no_parts
}

writes_a_device() {
    makes 0 /dev/null && [ -c /dev/null ]
}

writes_a_pipe() {
    rm -f pipe.oas
    mkfifo pipe.oas
    cat pipe.oas >through.oas &
    makes 0 pipe.oas && wait $! && is_square through.oas && [ -p pipe.oas ]
}

# what standard output is, if that is a pipe: first the file, then the report
writes_standard_output() {
    deck /dev/stdout >deck
    "$program" fracture square.gds deck 2>/dev/null | cat >both
    is_square_before_report
}

is_square_before_report() {
    makes 0 size.oas || return 1
    head -c "$(stat -c %s size.oas)" both | cmp - size.oas && tail -c +"$(($(stat -c %s size.oas) + 1))" both | grep -q '^format gdsii$'
}

# refuses_input NAME: the output is an input under this name, and is as before
refuses_input() {
    cp square.gds before.gds
    makes 5 "$1" && cmp square.gds before.gds && [ "$(cat said)" = 'write fault' ]
}

refuses_the_deck() {
    local status=0
    deck ./deck.oas >deck.oas
    cp deck.oas before.deck
    "$program" fracture square.gds deck.oas >said || status=$?
    [ "$status" -eq 5 ] && cmp deck.oas before.deck && no_parts
}

# packs_onto_input NAME
packs_onto_input() {
    local status=0
    makes 0 packed.oas || return 1
    "$program" pack packed.oas "$1" >said || status=$?
    [ "$status" -eq 5 ] && is_square packed.oas && no_parts
}

# refuses_twice FIRST SECOND: both names are one file, which has the first output in the end
refuses_twice() {
    makes 5 "$1" "$2" && is_square "$1" 1 && [ "$(cat said)" = 'write fault' ]
}

# an earlier run was killed: what it left stays, and is no hindrance
passes_by_leftovers() {
    deck left.oas >deck
    old left.oas.nettletide-part0
    "$program" fracture square.gds deck >said && is_square left.oas && is_old left.oas.nettletide-part0 &&
        rm left.oas.nettletide-part0 && no_parts
}

# stays_when_cut COMMAND..: with this before it the run can't write its second output, which stays as it was
stays_when_cut() {
    local status=0
    mkdir -p small
    old small/b.oas
    old small/c.oas
    printf '%s\n' 'unit 1000' 'top TOP' 'layer A 1 0' 'write A a.oas 1 0' 'write A small/b.oas 2 0' 'write A small/c.oas 3 0' >deck
    "$@" "$program" fracture large.gds deck >said 2>told || status=$?
    [ "$status" -eq 5 ] && is_old_or_whole a.oas && is_old small/b.oas && is_old small/c.oas && no_parts
}

# The text of a report that can't be said comes after the files.
is_in_place_before_report() {
    local status=0
    rm -f full.oas
    deck full.oas >deck
    "$program" fracture square.gds deck >/dev/full || status=$?
    [ "$status" -eq 5 ] && is_square full.oas && no_parts
}

two_at_once() {
    local first=0 second=0 turn
    deck a.oas b.oas c.oas >deck
    for turn in 1 2 3 4 5; do
        rm -f a.oas b.oas c.oas
        "$program" fracture large.gds deck >said &
        "$program" fracture large.gds deck >said2 || second=$?
        wait $! || first=$?
        [ "$first" -eq 0 ] && [ "$second" -eq 0 ] && no_parts && are_large || return 1
    done
}

are_large() {
    cmp a.oas right/a.oas && cmp b.oas right/b.oas && cmp c.oas right/c.oas
}

# is_old_or_whole NAME
is_old_or_whole() {
    cmp -s "$1" right/"$1" || is_old "$1"
}

# A run of four outputs is killed at 50 moments, spread over the time that it takes. Each file is old or whole, whole ones
# come before old ones, and at most one new file is left.
survives_kills() {
    local took moment name seen parts whole=0 cut=0
    took=$(ms "$program" fracture large.gds deck)
    for ((moment = 0; moment < 50; moment++)); do
        for name in a.oas b.oas c.oas d.oas; do old "$name"; done
        "$program" fracture large.gds deck >said &
        sleep "$(printf '%d.%03d' $((took * moment / 50 / 1000)) $((took * moment / 50 % 1000)))"
        kill -KILL $! 2>/dev/null
        wait $! 2>/dev/null
        seen=whole
        for name in a.oas b.oas c.oas d.oas; do
            is_old_or_whole "$name" || { echo "$name is cut at moment $moment"; return 1; }
            if is_old "$name" 2>/dev/null >&2; then
                seen=old
            else
                [ "$seen" = whole ] || return 1
                whole=$((whole + 1))
            fi
        done
        parts=$(find . -name '*nettletide-part*' | wc -l)
        [ "$parts" -le 1 ] || return 1
        cut=$((cut + parts))
        rm -f ./*nettletide-part*
    done
    printf 'of 200 outputs %d were whole, and %d were left in the middle\n' "$whole" "$cut"
    [ "$whole" -gt 0 ] && [ "$cut" -gt 0 ]
}

ms() {
    local from
    from=$(date +%s%N)
    "$@" >/dev/null
    echo $((($(date +%s%N) - from) / 1000000))
}

check 'a new output is made' is_made_new
check 'an old output is replaced, with its mode' is_replaced
check 'links are followed, and what they lead to is replaced' follows_links
check 'what a dangling link leads to is made' follows_a_dangling_link
check 'links in a circle end with status 5' refuses_a_loop
check 'a folder as output ends with status 5' refuses_a_folder
if as_nobody test -x "$program" 2>/dev/null; then
    check 'an output that is read-only ends with status 5, and stays' keeps_what_is_read_only
else
    echo 'skipped: a read-only output, since root writes everything and nobody can run the program here'
fi
check 'a device is written straight' writes_a_device
check 'a pipe is written straight' writes_a_pipe
check 'standard output is written straight' writes_standard_output
ln square.gds hard.oas
ln -s square.gds soft.oas
for name in ./square.gds hard.oas soft.oas; do
    check "an output that is the layout ends with status 5: $name" refuses_input "$name"
done
check 'an output that is the deck ends with status 5' refuses_the_deck
check 'packing a file onto itself ends with status 5' packs_onto_input ./packed.oas
rm -f hard.oas soft.oas
check 'two outputs on one file end with status 5' refuses_twice same.oas ./same.oas
ln -s linked.oas link.oas
check 'two outputs on one file by a link end with status 5' refuses_twice linked.oas link.oas
check 'what an earlier run left is no hindrance' passes_by_leftovers
if [ -c /dev/full ]; then
    check 'an output is in place before the report' is_in_place_before_report
fi

"$program" generate 20 large.gds >said || exit 1
deck a.oas b.oas c.oas >deck
"$program" fracture large.gds deck >said || exit 1
mkdir right
cp a.oas b.oas c.oas right/
check 'two runs at once into one folder give whole files' two_at_once
size=$(stat -c %s a.oas)
if mkdir small && mount -t tmpfs -o size=16k tmpfs small 2>/dev/null; then
    mounted=$room/small
    check 'a full disk leaves the old file' stays_when_cut env
    umount small
    mounted=
else
    echo 'skipped: a full disk, since no small file system can be mounted here'
fi
limited() {
    (
        trap '' XFSZ
        ulimit -f $((size / 2048))
        exec "$@"
    )
}
old a.oas
check 'a file that grows past the limit stays as it was' stays_when_cut limited
if [ "$long" = long ]; then
    "$program" generate 60 large.gds >said || exit 1
    deck a.oas b.oas c.oas d.oas >deck
    "$program" fracture large.gds deck >said || exit 1
    cp a.oas b.oas c.oas d.oas right/
    check 'a run that is killed leaves files that are old or whole' survives_kills
fi

printf '%d passed, %d failed\n' "$passed" "$failed"
[ "$failed" -eq 0 ]
