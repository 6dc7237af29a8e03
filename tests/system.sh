#!/usr/bin/env bash
# The built program on small inputs: what it prints, how it ends, which files it leaves, and what it makes of files that the
# system refuses.
#
#     tests/system.sh PROGRAM
set -u
program=$(realpath "$1") || exit 1
cd "$(dirname "$0")/.." || exit 1
. tests/check.sh || exit 1
room=$(mktemp -d) || exit 1
trap 'rm -rf "$room"' EXIT
version=$(cat VERSION)
cp "$program" "$room/nettletide"
program=$room/nettletide
chmod 755 "$program"

zeros() {
    head -c "$1" /dev/zero
}

# The shot file of the example: head, one rectangle, END of 256 bytes.
expected() {
    printf '%%SEMI-OASIS\r\n\001\0031.0\000\320\017\000'
    zeros 12
    printf '\016\005SHOTS'
    printf '\024\173\001\000\024\024\000\000'
    printf '\002\374\001'
    zeros 253
}

# ends_with STATUS LAYOUT DECK: fracture ends with this status, and makes a file exactly where it is 0
ends_with() {
    local status=0
    rm -f square.oas
    "$program" fracture "$2" "$3" >/dev/null || status=$?
    [ "$status" -eq "$1" ] || return 1
    if [ "$status" -eq 0 ]; then
        [ -e square.oas ]
    else
        [ ! -e square.oas ]
    fi
}

# ends_with_files LAYOUT DECK: fracture ends with status 0, and each file of a write line is there
ends_with_files() {
    "$program" fracture "$1" "$2" >/dev/null || return 1
    local file
    for file in $(awk '$1 == "write" { print $3 }' "$2"); do
        [ -s "$file" ] || return 1
    done
}

# says_with STATUS LINE WORD..: these words end with this status, and this line is all that is printed
says_with() {
    local status=0 wanted=$1 line=$2 said
    shift 2
    said=$("$program" "$@") || status=$?
    [ "$status" -eq "$wanted" ] && [ "$said" = "$line" ]
}

# What `shots` prints of the example's shot file.
listing() {
    printf 'unit 2000\nlayer 1 0\n0 20 0 20 0 20\nshots 1 triangles 800\n'
}

# What `fracture` prints of the example.
report() {
    printf 'format gdsii\ncells 1\nkept 1\nother 0\ntexts 0\nnodes 0\nboxes 0\nproperties 0\n'
    printf 'output square.oas shots 1 triangles 800\n'
}

is_reported() {
    cmp <("$program" fracture square.gds square.deck) <(report)
}

is_listed() {
    cmp <("$program" shots square.oas) <(listing)
}

is_expected() {
    cmp square.oas expected.oas
}

# A layout of some hundred thousand shapes, a band of which is swept in several strips of rows, with wires through all of
# them. `check` sweeps the band in one piece.
is_exact_in_strips() {
    "$program" generate 200 large.gds >/dev/null || return 1
    printf 'unit 1000\ntop TOP\nlayer A 1 0\nlayer B 2 0\nxor C A B\nwrite A a.oas 1 0\nwrite C c.oas 2 0\n' >large.deck
    "$program" fracture large.gds large.deck >/dev/null && "$program" check large.gds large.deck >/dev/null
}

# 1.4 million shots in one band, and 160 MB of address space: what is in memory is a strip of the band.
takes_little_memory() {
    "$program" generate 300 larger.gds >/dev/null || return 1
    printf 'unit 1000\ntop TOP\nlayer A 1 0\nwrite A larger.oas 1 0\n' >larger.deck
    (ulimit -v 163840 && exec "$program" fracture larger.gds larger.deck) >/dev/null
}

check 'small layouts give what was worked out for them' tests/rows.py "$program"
check 'each cut file is refused where it is cut' tests/cuts.py "$program"
check 'random layouts give what a plain program gives' tests/plain.py "$program" 20
check 'cells in any order, turned and repeated, give what their boxes give' tests/walks.py "$program"
check 'a layout in both formats gives the same files' tests/formats.py "$program" 12
check 'records that use lists again give what whole records give' tests/again.py "$program"
check 'hostile files are answered in time' tests/hostile/run.py "$program" quick
check 'layouts in strips give what one run gives' bash tests/strips.sh "$program"
tools/gds "$room/block.gds" <example/block.txt
cp example/square.gds example/square.deck example/block.deck "$room" || exit 1
cd "$room" || exit 1
expected >expected.oas
# the layout with WIDTH in place of DATATYPE, and the deck without its last line
{
    head -c 108 square.gds
    printf '\017\003'
    tail -c +111 square.gds
} >width.gds
head -n 3 square.deck >short.deck

check 'no words end with status 1' says_with 1 'words refused'
check 'a word that is no UTF-8 ends with status 8, and nothing is printed' says_with 8 '' shots $'\xff.oas'
check 'a deck without an output ends with status 2' ends_with 2 square.gds short.deck
check 'a layout of another form ends with status 3' ends_with 3 width.gds square.deck
check 'a missing layout ends with status 4' ends_with 4 missing.gds square.deck
check 'the example ends with status 0' ends_with 0 square.gds square.deck
check 'the example gives the expected bytes' is_expected
check 'the block ends with status 0' ends_with_files block.gds block.deck
check 'bands of several strips are exact' is_exact_in_strips
check 'a large band takes the memory of a strip' takes_little_memory
check 'the example is listed' is_listed
check 'the example is reported' is_reported
head -c 300 square.oas >cut.oas
check 'a cut shot file ends with status 7' says_with 7 'check refused: cut.oas: end at 49' shots cut.oas

# What the program makes of the system's answers.

# as_nobody COMMAND..: runs the command without the rights of root, who reads everything
as_nobody() {
    if [ "$(id -u)" -ne 0 ]; then
        "$@"
    else
        setpriv --reuid 65534 --regid 65534 --clear-groups "$@"
    fi
}

nobody_says_with() {
    local status=0 wanted=$1 line=$2 said
    shift 2
    said=$(as_nobody "$program" "$@") || status=$?
    [ "$status" -eq "$wanted" ] && [ "$said" = "$line" ]
}

# fails_on_device STATUS OUTPUT WORD..: these words end with this status where standard output goes there
fails_on_device() {
    local status=0 wanted=$1 output=$2
    shift 2
    "$program" "$@" >"$output" || status=$?
    [ "$status" -eq "$wanted" ]
}

fails_when_closed() {
    local status=0
    "$program" shots square.oas >&- || status=$?
    [ "$status" -eq 5 ]
}

# within BYTES COMMAND..: runs the command, which may make no file longer than that; a write past it takes less than its
# piece, and the next one is refused
within() {
    (
        trap '' XFSZ
        exec prlimit --fsize="$1" "${@:2}"
    )
}

# The output stops in the middle of END, which is one piece. What was written is taken away.
stops_in_file() {
    local status=0
    rm -f square.oas
    within 300 "$program" fracture square.gds square.deck >/dev/null || status=$?
    [ "$status" -eq 5 ] && [ -z "$(find . -name 'square.oas*')" ]
}

# The listing stops in the middle of its one piece, and so the line of the answer has no room either.
stops_in_listing() {
    local status=0
    within 50 "$program" shots expected.oas >listed.txt || status=$?
    [ "$status" -eq 5 ] && cmp listed.txt <(listing | head -c 50)
}

cp square.gds unreadable.gds
chmod 000 unreadable.gds
chmod 755 .
if as_nobody test -x "$program" 2>/dev/null; then
    check 'an unreadable layout ends with status 4' nobody_says_with 4 'read fault' fracture unreadable.gds square.deck
else
    echo 'skipped: an unreadable layout, since root reads everything and nobody can run the program here'
fi
sed 's|square.oas|none/square.oas|' square.deck >folder.deck
check 'a file in a missing folder ends with status 4' says_with 4 'read fault' shots none/square.oas
check 'an output in a missing folder ends with status 5' says_with 5 'write fault' fracture square.gds folder.deck
if [ -c /dev/full ]; then
    ln -s /dev/full full.oas
    sed 's|square.oas|full.oas|' square.deck >full.deck
    check 'an output on a full device ends with status 5' says_with 5 'write fault' fracture square.gds full.deck
    check 'a listing on a full device ends with status 5' fails_on_device 5 /dev/full shots square.oas
    check 'a line on a full device changes no status' fails_on_device 1 /dev/full
else
    echo 'skipped: a full device, since there is no /dev/full'
fi
check 'a listing with standard output closed ends with status 5' fails_when_closed
if within 50 true 2>/dev/null; then
    check 'an output that is taken in part ends with status 5' stops_in_file
    check 'a listing that is taken in part ends with status 5' stops_in_listing
else
    echo 'skipped: a write that takes less than its piece, since there is no prlimit'
fi

# What standard error has: the usage where the words are refused, and where it is a terminal a line that is written over.

# usage_is_told WORD..: these words are refused as ever, and standard error has the version and the commands
usage_is_told() {
    local status=0
    "$program" "$@" >said.txt 2>told.txt || status=$?
    [ "$status" -eq 1 ] && cmp said.txt <(echo 'words refused') || return 1
    grep -q "^nettletide $version " told.txt && grep -q 'fracture LAYOUT DECK' told.txt
}

# tells_nothing WORD..: these words end with status 0, and standard error, a file, has nothing
tells_nothing() {
    "$program" "$@" >/dev/null 2>told.txt && [ ! -s told.txt ]
}

# no_matter_where WHERE: refused words and the example end as ever where standard error goes there
no_matter_where() {
    local status=0
    rm -f square.oas
    if [ "$1" = closed ]; then
        "$program" help >said.txt 2>&- || status=$?
        "$program" fracture square.gds square.deck >report.txt 2>&- || return 1
    else
        "$program" help >said.txt 2>"$1" || status=$?
        "$program" fracture square.gds square.deck >report.txt 2>"$1" || return 1
    fi
    [ "$status" -eq 1 ] && cmp said.txt <(echo 'words refused') && cmp report.txt <(report) && is_expected
}

# The example on a pseudo terminal: what is shown of the files, that it is removed before the report, the lines after it, and the
# same answers.
is_shown() {
    local begin=$'\r\033[K\033[?7l' end=$'\033[?7h'
    rm -f square.oas
    env -u COLUMNS script -qec "$program fracture square.gds square.deck >report.txt" /dev/null </dev/null >shown.txt || return 1
    cmp report.txt <(report) && is_expected || return 1
    grep -qF "${begin}reading square.gds: 0:00, 0 of 168 bytes$end" shown.txt && grep -qF "${begin}judging square.gds: 0:0" shown.txt &&
        grep -qF "${begin}covering square.oas: 0 of 20 rows, 0:00" shown.txt || return 1
    # what stays is after the last time that the row was wiped
    sed 's/.*\r\o033\[K//' shown.txt | tail -n 2 | tr -d '\r' >stays.txt
    grep -qx 'square.oas: 1 shots, 0.000 um2, least width 0.010 um, least height 0.010 um, 0 thinner than a tenth of the median, [0-9]* s' stays.txt &&
        grep -qx 'reading [0-9]* s, in all [0-9]* s\(, [0-9]* MB of memory at most\)\?' stays.txt
}

# no_longer_than COLUMNS: where the environment tells that number of columns, each line is shorter and ends with a word
no_longer_than() {
    COLUMNS=$1 script -qec "$program fracture square.gds square.deck >report.txt" /dev/null </dev/null >shown.txt || return 1
    tr '\r' '\n' <shown.txt | sed -n 's/.*\o033\[?7l\(.*\)\o033\[?7h.*/\1/p' >lines.txt
    [ -s lines.txt ] && ! grep -q "^.\{$1\}" lines.txt && grep -qx 'reading square.gds:' lines.txt
}

for words in '' help --help -h --version 'fracture square.gds' 'fracture square.gds square.deck more' 'generate 0 a.gds'; do
    # shellcheck disable=SC2086
    check "the usage is told for: $words" usage_is_told $words
done
check 'nothing is told of a run into a file' tells_nothing fracture square.gds square.deck
check 'a closed standard error changes nothing' no_matter_where closed
if [ -c /dev/full ]; then
    check 'a full standard error changes nothing' no_matter_where /dev/full
fi
if script -qec true /dev/null </dev/null >/dev/null 2>&1; then
    check 'progress is shown on a terminal and removed' is_shown
    check 'no line is longer than a narrow terminal' no_longer_than 20
else
    echo 'skipped: a pseudo terminal, since there is no script'
fi

printf '%d passed, %d failed\n' "$passed" "$failed"
[ "$failed" -eq 0 ]
