#!/usr/bin/env bash
# Recasts shots that KLayout made or saved. KLayout cuts the areas of ten decks into trapezoids in two ways
# of its own: as shot files `check` must find them exact, or name a tile. Shot files that KLayout read and
# saved must come back with the same shots.
#
#     usage: tests/recast.sh PROGRAM [COUNT [FIRST]]
#
# COUNT random layouts with their decks (8 where it is missing, the first with the number FIRST) are taken
# beside the examples.
set -u
. "$(dirname "$0")/check.sh" || exit 1
program=$(realpath "$1") || exit 1
count=${2:-8}
first=${3:-1}
top=$(cd "$(dirname "$0")/.." && pwd)
if ! command -v klayout >/dev/null; then
    echo 'skipped: recasting the shots of KLayout, since it is not installed'
    exit 0
fi
export QT_QPA_PLATFORM=offscreen
room=$(mktemp -d) || exit 1
trap 'rm -rf "$room"' EXIT

mkdir "$room/square" "$room/block"
cp "$top/example/square.gds" "$room/square/G.gds"
"$top/tools/gds" "$room/block/G.gds" "$top/example/block.txt"
for name in square block; do
    cp "$top/example/$name.deck" "$room/$name/K"
done
for ((number = first; number < first + count; number++)); do
    mkdir "$room/$number"
    "$top/tests/plain.py" case "$room/$number" "$number" || exit 1
done
# KLayout knows no limits of shots, so the decks have none.
for folder in "$room"/*/; do
    sed -i '/^limits/d' "$folder/K"
    (cd "$folder" && "$program" fracture G.gds K >report) && echo "$folder G.gds K" >>"$room/list"
done
klayout -b -rd list="$room/list" -r "$top/tests/recast_klayout.py" || exit 1

# recast FILE OUT: FILE as OUT, in place of what OUT was
recast() {
    local layer
    layer=$("$program" shots "$2.right" | awk '$1 == "layer" { print $2 "/" $3 }')
    "$top/tools/recast" --unit 1000 ${layer:+--as "$layer"} "$1" "$2" >/dev/null
}

# is_same FILE OUT: the shots of FILE are those of OUT, in whatever order
is_same() {
    recast "$1" "$2" && cmp <("$program" shots "$2" | sort) <("$program" shots "$2.right" | sort)
}

exact=0
named=0
# is_judged FILE OUT: `check` of the deck finds FILE exact as OUT, or names a tile
is_judged() {
    local said status
    recast "$1" "$2" || return 1
    said=$("$program" check G.gds K)
    status=$?
    if [ "$status" -eq 0 ]; then
        exact=$((exact + 1))
    elif [[ $said == "check refused: $2: tile "* || $said == "check refused: $2: shot "*' too large' ]]; then
        named=$((named + 1))
    else
        echo "$said"
        return 1
    fi
}

while read -r folder layout deck; do
    cd "$folder" || exit 1
    for out in $(awk '$1 == "write" { print $3 }' "$deck"); do
        cp "$out" "$out.right"
        check "$folder$out saved by KLayout as OASIS" is_same "$out.saved.oas" "$out"
        check "$folder$out saved by KLayout as GDSII" is_same "$out.saved.gds" "$out"
        check "$folder$out, trapezoids of KLayout" is_judged "$out.simple.oas" "$out"
        check "$folder$out, level trapezoids of KLayout" is_judged "$out.level.gds" "$out"
        cp "$out.right" "$out"
    done
done <"$room/list"
printf '%s: %d files recast, %d passed, %d failed; of those that KLayout cut %d are exact, and of %d a tile or shot is named\n' \
    "$(klayout -v)" $((passed + failed)) "$passed" "$failed" "$exact" "$named"
[ "$failed" -eq 0 ] && [ "$passed" -gt 0 ]
