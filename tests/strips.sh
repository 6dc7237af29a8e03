#!/usr/bin/env bash
# Runs small layouts in strips, on this machine without a batch system, and compares the joined files with those of one run
# byte for byte; then has the join refuse what isn't done, is doubled or lies outside.
#
#     usage: tests/strips.sh PROGRAM
set -u
. "$(dirname "$0")/check.sh" || exit 1
NETTLETIDE=$(realpath "$1") || exit 1
export NETTLETIDE
tools=$(realpath "$(dirname "$0")/../tools") || exit 1
room=$(mktemp -d) || exit 1
trap 'rm -rf "$room"' EXIT
cd "$room" || exit 1

# Bars and slanted shapes from Y = -8,000 to 25,000 half units.
shapes='cell LEAF
boundary 1 0 0,0 90,0 45,45
box 1 0 20,60 80,260
boundary 2 0 0,100 60,160 0,160
box 2 0 50,0 60,300
cell TOP
aref LEAF size=3x50 0,-4000 300,-4000 0,12500
sref LEAF flip mag=3 angle=90 -500,3000
box 1 0 -60,-3900 -50,12400'
"$tools/gds" G.gds <<<"$shapes"
"$tools/oas" G.oas <<<"$shapes"
layers=('layer A 1 0' 'layer B 2 0')

# deck SETTING.. -- LINE..: a deck with these settings, both layers, and these lines
deck() {
    printf 'unit 1000\ntop TOP\n'
    while [ "$1" != -- ]; do
        printf '%s\n' "$1"
        shift
    done
    shift
    printf '%s\n' "${layers[@]}" "$@"
}

# parts COUNT [LAYOUT]: the strips of the deck K
parts() {
    rm -rf strips
    "$tools/strips" K "${2:-G.gds}" "$1" strips >told && grep -qx "strips $1 .*" told
}

# runs NUMBER..: these strips, two at a time
runs() {
    printf '%s\n' "$@" | xargs -P 2 -n 1 strips/run
}

all_run() {
    runs $(seq 0 $(($(wc -l <strips/jobs) - 1)))
}

# is_same COUNT LAYOUT: this number of strips of the deck K, joined, give the files and the sums of one run
is_same() {
    local files=() joined=() file
    for file in $(awk '$1 == "write" { print $3 }' K); do
        files+=("$file")
        joined+=("joined-$file")
    done
    rm -f "${files[@]}" "${joined[@]}"
    "$NETTLETIDE" fracture "$2" K >report && parts "$1" "$2" && all_run && "$tools/join" strips "${joined[@]}" >said || return 1
    cmp said <(sed -n 's/^output /output joined-/p' report) || return 1
    for file in "${files[@]}"; do
        cmp "$file" "joined-$file" || return 1
        "$NETTLETIDE" shots "joined-$file" >/dev/null || return 1
    done
}

# same WHAT COUNT [LAYOUT]
same() {
    check "$1" is_same "$2" "${3:-G.gds}"
}

write='write A out.oas 1 0'
deck 'band 1024' -- "$write" >K
same 'a layer' 5
same 'a strip a band' 33
same 'a layer of OASIS' 4 G.oas
deck 'band 1024' 'limits 100 300' -- 'write B two.oas 7 3' "$write" 'write A three.oas 2 0' >K
same 'three outputs, two of one area' 3
deck 'band 1024' -- 'grow C A 40 3000' 'shrink D B 2' 'xor E C D' 'write E out.oas 1 0' >K
same 'grown by more than a band' 6
same 'the same in OASIS' 6 G.oas
deck 'band 1025' -- 'or C A B' 'write C out.oas 1 0' >K
same 'a band of an odd number of rows' 4
deck 'band 1024' -- 'mirror C A 401' 'sub D C B' 'write D out.oas 1 0' >K
same 'mirrored' 4
deck 'band 2048' 'frame -1200 -9000 700 28000' -- 'invert C A' 'and D C B' 'write C out.oas 1 0' 'write D two.oas 1 0' >K
same 'inverted in a frame' 7
same 'inverted in a frame, in OASIS' 7 G.oas
deck 'band 1024' 'frame -1201 -999 701 20001' -- 'invert C A' 'grow D C 4' 'write D out.oas 1 0' >K
same 'inverted in a frame with odd edges' 5
deck 'band 1025' 'frame -1200 -999 701 20000' -- 'invert C A' 'write C out.oas 1 0' >K
same 'inverted in a frame with odd and even edges' 5
deck 'band 1024' 'frame 0 0 1 1' -- 'or NONE_ A B' 'sub STRIP_ NONE_ B' 'or OUT_ STRIP_ A' 'write OUT_ out.oas 1 0' >K
same 'names that are taken, and a frame that nothing uses' 4
{
    printf '# a remark \377 \f or A A A\r\n\n'
    deck 'band 1024' -- "$write" | sed 's/ /\t  /; s/$/\r/'
} >K
same 'spaces, remarks and line ends' 2

# What can't be kept exact is refused.

# strips_refused WHAT LINE [LAYOUT]
is_refused() {
    rm -rf strips
    "$tools/strips" K "${2:-G.gds}" 4 strips 2>told && return 1
    grep -q "^strips: $1" told && [ ! -e strips ] && return
    cat told
    return 1
}
strips_refused() {
    check "$1" is_refused "${@:2}"
}
deck 'band 1024' -- 'mirror C A 1073741824' 'write C out.oas 1 0' >K
strips_refused 'mirrored beyond the reach' 'area C may reach further'
"$tools/gds" far.gds <<<$'cell TOP\nbox 1 0 0,536870900 10,536870912'
deck 'band 1024' -- 'grow C A 2' 'write C out.oas 1 0' >K
strips_refused 'grown beyond the reach' 'area C may reach further' far.gds
deck 'band 1025' -- "$write" >K
strips_refused 'a band beyond the reach' 'a band of 1025 rows straddles' far.gds
deck 'band 1024' -- 'write C out.oas 1 0' >K
strips_refused 'a deck that the program refuses' 'K: deck refused: line 6 unknown C'
deck 'band 1024' -- "$write" >K
echo 'no layout' >none.gds
strips_refused 'a layout that the program refuses' 'none.gds: layout refused: gdsii' none.gds
for ((k = 0; k < 254; k++)); do echo "layer X$k $k 1"; done >more
deck 'band 1024' -- "$(<more)" "$write" >K
strips_refused 'too many definitions' 'the deck has no room for 3 more definitions'

# What isn't whole isn't joined.

# not_joined LINE: the join says this and makes nothing
not_joined() {
    rm -f joined.oas
    "$tools/join" strips joined.oas 2>told >/dev/null && return 1
    grep -q "$1" told && [ ! -e joined.oas ] && [ ! -e joined.oas.nettletide-part0 ] && return
    cat told
    return 1
}
mended() {
    "$tools/join" strips joined.oas >/dev/null && cmp joined.oas out.oas
}
deck 'band 1024' -- "$write" >K
"$NETTLETIDE" fracture G.gds K >report
parts 5 && runs 0 1 3 4 5 6
check 'a strip that was never run' not_joined '^to run again: 2$'
runs 2
check 'and then it was' mended
if [ -c /dev/full ]; then
    ln -sf /dev/full strips/strip-3/out0.oas
    runs 3 2>/dev/null
    check 'a strip on a full device' not_joined 'strip-3 with status 5'
    rm strips/strip-3/out0.oas
    runs 3
    check 'and then there was room' mended
else
    echo 'skipped: a full device, since there is no /dev/full'
fi
cp strips/strip-1/{out0.oas,report} strips/strip-2/
check 'the file of another strip' not_joined 'strip-2/out0.oas has a shot in the rows of another strip'
cp strips/strip-1/* strips/strip-2/
check 'another strip in the place of one' not_joined 'the deck of strip-2'
parts 5 && all_run
cp strips/plan plan
sed -n '/strip-1/p' plan >>strips/plan
check 'a strip twice' not_joined "don't follow one another"
sed '/strip-1/d' plan >strips/plan
check 'a strip that is left out' not_joined "don't follow one another"
cp plan strips/plan
head -c 500 strips/strip-4/out0.oas >cut && cp cut strips/strip-4/out0.oas
check 'a cut file' not_joined 'strip-4/out0.oas has no'
runs 4
sed -i 's/shots [0-9]*/shots 7/' strips/strip-4/report
check 'a report of other shots' not_joined 'its report says 7'
runs 4
check 'and then all is whole' mended
rows=$(awk '$2 == "strip-4" { print $3 }' plan)
sed -i "/strip-4/d; s/job above [0-9]*/job above $rows/" strips/plan
sed -i "s/^frame .*/frame -1073741824 $rows 1073741824 1073741824/" strips/above/deck
runs "$(($(wc -l <strips/jobs) - 1))"
check 'shots above all strips' not_joined 'shots of output 0 lie above all strips'

printf '%d strips passed, %d failed\n' "$passed" "$failed"
[ "$failed" -eq 0 ]
