#!/usr/bin/env bash
# A second opinion: KLayout reads layouts and shots, works the areas out with its own operations on doubled coordinates, and
# compares. The examples, the pictures' decks and COUNT random layouts with their decks (30 where it is missing, the first
# with the number FIRST, half of them as OASIS files) are judged; where the program has `pack` and `split`, so are packed
# files and the union of stripes. What tools/adapt writes must be read, and what tools/view prints must be the report's numbers.
#
#     usage: tests/klayout.sh PROGRAM [COUNT [FIRST]]
set -u
program=$(realpath "$1") || exit 1
count=${2:-30}
first=${3:-1}
top=$(cd "$(dirname "$0")/.." && pwd)
if ! command -v klayout >/dev/null; then
    echo 'skipped: a second opinion, since KLayout is not installed'
    exit 0
fi
export QT_QPA_PLATFORM=offscreen
room=$(mktemp -d) || exit 1
trap 'rm -rf "$room"' EXIT
stripe=64
failed=0

# knows COMMAND WORD..: whether these words are a command of the program; no file of theirs is there
knows() {
    [ "$(cd "$room" && "$program" "$@" 2>/dev/null)" != 'words refused' ]
}

# done_well COMMAND WORD..: the program ends with status 0
done_well() {
    local said
    if said=$("$program" "$@"); then
        printf '%s\n' "$said"
        return
    fi
    printf 'FAILED: %s: %s\n' "$*" "$said" >&2
    failed=$((failed + 1))
    return 1
}

packs=no
splits=no
knows pack none.oas none.packed && packs=yes
knows split $stripe none.oas none.oas && splits=yes

# derived FILE: packs and splits a shot file, and unpacks it again
derived() {
    if [ $packs = yes ]; then
        done_well pack "$1" "$1.packed" >/dev/null && done_well unpack "$1.packed" "$1.plain" >/dev/null || return
        cmp "$1" "$1.plain" || failed=$((failed + 1))
    fi
    if [ $splits = yes ]; then
        done_well split $stripe "$1" "$1" >"$1.split"
    fi
}

# case_of FOLDER LAYOUT DECK: fractures what the folder has, and puts it on the list of what KLayout judges
case_of() {
    local file
    cd "$1" || exit 1
    if done_well fracture "$2" "$3" >report; then
        for file in $(awk '$1 == "write" { print $3 }' "$3"); do
            derived "$file"
        done
        printf '%s %s %s\n' "$1" "$2" "$3" >>"$room/cases"
    fi
    cd "$room" || exit 1
}

for name in square block; do
    mkdir "$room/$name"
    cp "$top/example/$name.deck" "$room/$name/K"
done
cp "$top/example/square.gds" "$room/square/G.gds"
"$top/tools/gds" "$room/block/G.gds" <"$top/example/block.txt"
for deck in "$top"/example/pictures/*.deck; do
    name=picture-$(basename "$deck" .deck)
    mkdir "$room/$name"
    cp "$deck" "$room/$name/K"
    "$top/tools/gds" "$room/$name/G.gds" <"$top/example/pictures/shapes.txt"
done
for folder in "$room"/*/; do
    case_of "${folder%/}" G.gds K
done
for ((number = first; number < first + count; number++)); do
    mkdir "$room/$number"
    "$top/tests/plain.py" case "$room/$number" "$number" || exit 1
    if [ $((number % 2)) -eq 0 ]; then
        case_of "$room/$number" G.gds K
    else
        case_of "$room/$number" G.oas K
    fi
done

# viewed WANTED FILE..: tools/view of the block with these panels prints these lines
viewed() {
    local wanted=$1 said
    shift
    said=$("$top/tools/view" -o picture.png G.gds K "$@" 2>&1)
    [ "$said" = "$wanted" ] && [ -s picture.png ] && return
    printf 'FAILED: tools/view %s printed\n%s\nin place of\n%s\n' "$*" "$said" "$wanted"
    failed=$((failed + 1))
}
cd "$room/block" || exit 1
viewed "$(grep '^output ' report)"
if [ $packs = yes ]; then
    viewed "$(sed -n '/block_open/{s/ shots/.packed&/;p}' report)" block_open.oas.packed
fi
if [ $splits = yes ]; then
    shopt -s nullglob
    stripes=(block_open.oas.[0-9]* block_open.oas.-[0-9]*)
    shopt -u nullglob
    viewed "${#stripes[@]} files $(tail -n 1 block_open.oas.split)" "${stripes[@]}"
fi
cd "$room" || exit 1

# A layout with all that tools/adapt changes: it is read once that has written it, with steps and without.
"$top/tools/gds" odd.gds <<'END'
cell LEAF
boundary 1 0 0,0 100,0 300,170
cell TOP
box 2 0 0,0 100,100
path 3 0 type=1 width=40 0,0 0,300 500,300
path 4 0 width=40 0,0 0,300 500,500
boundary 5 0 0,0 1000,0 700,331
sref LEAF angle=422D000000000000 1000,1000
sref LEAF angle=90 mag=3 2000,2000
sref LEAF angle=90 mag=40C0000000000000 2000,2000
END
adapted() {
    "$top/tools/adapt" odd.gds "$1" ${2+"$2"} >/dev/null && "$top/tools/readable" "$1" "$program" >odd.said && return
    printf 'FAILED: tools/adapt odd.gds %s\n' "$*"
    cat odd.said
    failed=$((failed + 1))
}
adapted steps.gds 10
adapted steps.oas 10

# On another grid it is as large in micrometres.
regridded() {
    "$top/tools/adapt" --grid "$1" odd.gds grid.oas 10 >grid.said && grep -qx "$2" grid.said \
        && grep -q "^oasis, unit $3, " <("$top/tools/readable" grid.oas) && return
    printf 'FAILED: tools/adapt --grid %s\n' "$1"
    cat grid.said
    failed=$((failed + 1))
}
regridded 0.0005 'scaled by 2' 2000
regridded 0.002 'scaled by 1/2, and rounded' 500

[ $packs = yes ] || echo 'skipped: packed files, since the program has no command pack'
[ $splits = yes ] || echo 'skipped: stripes, since the program has no command split'
klayout -b -rd cases="$room/cases" -rd stripe=$stripe -r "$top/tests/klayout.py" | tee "$room/said"
grep -q ', 0 failed$' "$room/said" && [ "$failed" -eq 0 ]
