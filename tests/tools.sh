#!/usr/bin/env bash
# Tests how the tools end: with a file that isn't there, an empty one, a wrong one, a mistyped word, and an
# input as output each must print one line that names what is wrong, end with status 2, and leave all files
# as they were. Then all tools are run once as they are installed, from another folder.
#
#     usage: tests/tools.sh PROGRAM
set -u
. "$(dirname "$0")/check.sh" || exit 1
NETTLETIDE=$(realpath "$1") || exit 1
export NETTLETIDE
top=$(realpath "$(dirname "$0")/..") || exit 1
room=$(mktemp -d) || exit 1
trap 'rm -rf "$room"' EXIT
mkdir "$room/work" && cd "$room/work" || exit 1
tools=$top/tools

# The block of the example with its shots, and what the tools take of it.
"$tools/gds" block.gds "$top/example/block.txt" && cp "$top/example/block.deck" "$top/example/block.txt" . || exit 1
"$NETTLETIDE" fracture block.gds block.deck >/dev/null && "$NETTLETIDE" density 1000 block.gds block.deck >densities || exit 1
"$NETTLETIDE" shots block_open.oas >listing
: >empty
printf '\x00\x01\xffno file of any tool\n' >wrong
printf 'unit 1000\ntop TOP\nwrite A\n' >wrong.deck
ln -s block.gds link.gds
ln -s block_open.oas link.oas
ls >"$room/before"
sha256sum ./* >"$room/sums"

# ends NAMED WORD..: the tool with these words ends with status 2 and one line that names NAMED, and nothing
# is changed
ends() {
    local named=$1 status
    shift
    timeout 60 "$tools/$1" "${@:2}" >/dev/null 2>"$room/said" </dev/null
    status=$?
    if [ "$status" -ne 2 ] || [ "$(wc -l <"$room/said")" -ne 1 ] || ! grep -qF -- "$named" "$room/said" \
        || grep -q Traceback "$room/said"; then
        printf 'tools/%s: status %d\n' "$*" "$status"
        cat "$room/said"
        return 1
    fi
    [ "$(ls)" = "$(<"$room/before")" ] && sha256sum -c --quiet "$room/sums"
}

# refuses NAMED TOOL WORD..: the same, counted
refuses() {
    check "$*" ends "$@"
}

# A file that isn't there, an empty one and a wrong one, for each input.
for file in none empty wrong; do
    refuses "$file" gds out.gds $file
    refuses "$file" oas out.oas $file
    refuses "$file" draw -o out.svg $file
    refuses "$file" draw -o out.svg block_open.oas -- $file
    refuses "$file" density -o out.svg densities $file
    refuses "$file" recast $file out.oas
    refuses "$file" compare block.gds block.deck block_gates.oas $file
    refuses "$file" compare block.gds $file
    refuses "$file" report block.gds $file
    refuses "$file" stats block_open.oas $file
    refuses "$file" join $file out.oas
    refuses "$file" strips $file block.gds 2 folder
    if [ $file != wrong ]; then
        refuses "$file" readable $file
    fi
done
for file in none empty; do
    refuses "$file" strips block.deck $file 2 folder
    refuses "$file" compare $file block.deck
done
refuses 'the program says' compare wrong block.deck
refuses 'wrong: layout refused' strips block.deck wrong 2 folder
refuses 'wrong.deck: line 3' compare block.gds wrong.deck
check 'readable says what a wrong file is' grep -q 'no GDSII record' <("$tools/readable" wrong)
refuses 'listing: line 1' density -o out.svg listing
refuses 'densities: line 1' draw -o out.svg densities
refuses 'block.txt' compare block.gds block.deck block.txt block_open.oas
refuses '2 outputs' compare block.gds block.deck block_open.oas
refuses 'byte' recast block.gds out.oas

# Words that aren't those of the usage.
for tool in gds oas draw density recast compare report stats join strips readable view adapt; do
    refuses usage $tool
    refuses usage $tool --mistyped
done
refuses usage gds a b c
refuses usage recast --unit
refuses xx recast --unit xx block_open.oas out.oas
refuses 1-0 recast --layer 1-0 block_open.oas out.oas
refuses few compare --most few block.gds block.deck
refuses many strips block.deck block.gds many folder
refuses 'no program' readable block.gds none
refuses 'line 2' gds out.gds block.deck

# An input as output, by its name and by a link.
for out in block.txt ./block.txt; do
    refuses 'is the input' gds "$out" block.txt
    refuses 'is the input' oas "$out" block.txt
done
for out in block_open.oas link.oas; do
    refuses 'is the input' recast block_open.oas $out
    refuses 'is the input' draw -o $out block_gates.oas -- block_open.oas
    refuses 'is the input' compare -o $out block.gds block.deck
done
refuses 'is the input' density -o densities densities
refuses 'is the input' report --files --output link.oas block.gds block.deck
refuses 'is the input' compare -o link.gds block.gds block.deck
refuses "isn't an empty folder" strips block.deck block.gds 2 .
if command -v klayout >/dev/null; then
    refuses none view -o out.png none block.deck
    refuses empty view -o out.png block.gds empty
    refuses wrong view -o out.png wrong block.deck
    refuses 'is the input' view -o link.gds block.gds block.deck
    refuses 'is the input' adapt block.gds block.gds
    refuses wrong adapt wrong out.oas
    refuses empty adapt empty out.oas
    refuses out.txt adapt block.gds out.txt
    refuses 0.3 adapt --grid 0.3 block.gds out.oas
fi

# What is written is whole or as before; permissions and links stay.
is_replaced() {
    cp block_gates.oas old.oas && chmod 600 old.oas && ln -s old.oas new.oas && "$tools/recast" block_open.oas new.oas >/dev/null \
        && cmp old.oas block_open.oas && [ -L new.oas ] && [ "$(stat -c %a old.oas)" = 600 ] || return 1
    ! (ulimit -f 1 && trap '' XFSZ && exec "$tools/recast" block_gates.oas old.oas >/dev/null 2>&1) && cmp old.oas block_open.oas \
        && [ -z "$(find . -name '*part*')" ]
}
check 'a file is replaced whole, through a link, with its permissions' is_replaced
rm -f old.oas new.oas
check 'a pipe and a device are written straight' cmp block_open.oas <("$tools/recast" block_open.oas /dev/fd/3 3>&1 >/dev/null)

# ---- installed

make -s -C "$top" put-in-place PROGRAM="$NETTLETIDE" DESTDIR="$room/root" PREFIX=/usr >made 2>&1 || cat made
PATH=$room/root/usr/bin:$PATH
unset NETTLETIDE
mkdir elsewhere && cd elsewhere || exit 1

# each tool says its own name in its help, and has a page and a section of the man page
has_help() {
    local name=nettletide-$1
    "$name" --help >said && grep -q "usage: $name " said && ! grep -q 'tools/' said || return 1
    [ -f "$room/root/usr/share/man/man1/$name.1" ] && grep -q "^\.SS nettletide\\\\-$1 " "$room/root/usr/share/man/man1/nettletide.1"
}
for tool in "$room"/root/usr/bin/nettletide-*; do
    check "help and page of $(basename "$tool")" has_help "$(basename "$tool" | cut -d - -f 2)"
done
runs() {
    "$@" >said 2>&1 && return
    cat said
    return 1
}
check 'installed: gds' runs nettletide-gds b.gds ../block.txt
check 'installed: oas' runs nettletide-oas b.oas ../block.txt
check 'installed: readable' runs nettletide-readable b.gds
check 'installed: draw' runs nettletide-draw -o d.svg ../block_open.oas -- ../listing
check 'installed: density' runs nettletide-density -o e.svg ../densities
check 'installed: recast' runs nettletide-recast ../block_open.oas r.oas
cp ../block.deck . && cp ../block_gates.oas ../block_open.oas .
check 'installed: compare' runs nettletide-compare -o m.lyrdb b.gds block.deck
check 'installed: stats' runs nettletide-stats block_open.oas
check 'installed: report' runs nettletide-report --files b.gds block.deck
check 'installed: strips' runs nettletide-strips block.deck b.gds 2 strips
joins() {
    seq 0 $(($(wc -l <strips/jobs) - 1)) | xargs -n 1 strips/run && nettletide-join strips g.oas o.oas \
        && cmp g.oas block_gates.oas && cmp o.oas block_open.oas
}
check 'installed: join' runs joins
if command -v klayout >/dev/null; then
    check 'installed: view' runs nettletide-view -o v.png b.gds block.deck
    check 'installed: adapt' runs nettletide-adapt b.gds a.oas
fi
imports() {
    PYTHONPATH=$room/root/usr/share/nettletide python3 -c '
from nettletide_shots import read_shots
assert sum(1 for _ in read_shots("block_open.oas")) == 179'
}
check 'shot files are read by a script of a user' imports

printf '%d of the tools passed, %d failed\n' "$passed" "$failed"
[ "$failed" -eq 0 ]
