#!/usr/bin/env bash
# What the program tells of each refusal on standard error: the cases of tests/explained/cases, each in a folder of its own.
#
#     tests/explained.sh PROGRAM
#
# A case begins with `==` and what it is about: a line as docs/DECK.md has it, which each line there must have a case for, or
# another text. Lines that begin with `$ ` are commands that make its files. `! ` comes before the words of the command, and
# `? ` before the status and the line that it ends with. The lines after these are those of standard error; there may be more
# where the words are refused. Beside the usual commands there are
#
#     base                  a layout G.gds with one square, and a deck K for it
#     deck LINE..           a deck K of unit 1000, top TOP and these lines
#     gds FILE, oas FILE    make a layout from a description, as tools/gds and tools/oas do
#     made FILE TEXT        makes a file of the bytes of a Python expression over tools/layout_bytes.py
#     hex FILE DIGITS       put bytes after those of a file
#     set FILE OFFSET DIGITS    put bytes in the place of those at an offset
#
# A file `limit` has how many KiB of address space the program may take. Where it can't begin with so few, as one that was
# built with checks, the case is passed over.
set -u
program=$(realpath "$1") || exit 1
top=$(realpath "$(dirname "$0")/..") || exit 1
. "$top/tests/check.sh" || exit 1
room=$(mktemp -d) || exit 1
trap 'rm -rf "$room"' EXIT

cat >"$room/commands" <<END
program=$program
deck() { printf '%s\n' 'unit 1000' 'top TOP' "\$@" >K; }
base() { printf 'cell TOP\nbox 7 0 0,0 100,100\n' | gds G.gds; deck 'layer A 7 0' 'write A a.oas 1 0'; }
gds() { "$top/tools/gds" "\$1"; }
oas() { "$top/tools/oas" "\$1"; }
made() { PYTHONPATH="$top/tools" python3 -Bc "import sys; from layout_bytes import *; sys.stdout.buffer.write(\$2)" >"\$1"; }
hex() { printf "\$(printf '%s' "\$2" | sed 's/../\\\\x&/g')" >>"\$1"; }
set() { printf "\$(printf '%s' "\$3" | sed 's/../\\\\x&/g')" | dd of="\$1" bs=1 seek="\$2" conv=notrunc status=none; }
END

# One file for what each case makes, one for its words, its status and line, and its standard error.
awk -v room="$room" '
    /^#/ { next }
    /^== / { n++; print substr($0, 4) > (room "/about." n); next }
    /^\$ / { print substr($0, 3) > (room "/make." n); next }
    /^! / { print substr($0, 3) > (room "/words." n); next }
    /^\? / { print substr($0, 3) > (room "/answer." n); next }
    n && length { print > (room "/wanted." n) }
    END { print n > (room "/count") }
' "$top/tests/explained/cases"

# is_told CASE: the case ends with its status and line, and standard error begins with its text
is_told() {
    local status=0 words
    mkdir "$room/case.$1" && cd "$room/case.$1" || return 1
    if [ -e "$room/make.$1" ]; then
        bash -c ". '$room/commands'; . '$room/make.$1'" || return 1
    fi
    touch "$room/wanted.$1"
    if [ -e limit ] && ! (ulimit -v "$(cat limit)" && "$program" shots nothing) 2>&1 | grep -q 'read fault'; then
        echo "skipped: $(cat "$room/about.$1")"
        return
    fi
    mapfile -t words < <(xargs -n 1 printf '%s\n' <"$room/words.$1")
    [ -s "$room/words.$1" ] && grep -q . "$room/words.$1" || words=()
    (
        [ ! -e limit ] || ulimit -v "$(cat limit)"
        exec "$program" "${words[@]}"
    ) >said 2>told || status=$?
    { printf '%s ' "$status"; grep -m 1 'refused\|fault\|want\|format' said; } >answer
    diff "$room/answer.$1" answer && diff "$room/wanted.$1" <(head -n "$(wc -l <"$room/wanted.$1")" told) || return 1
    [ "$status" -eq 1 ] || [ "$(wc -l <told)" -eq "$(wc -l <"$room/wanted.$1")" ]
}

for ((n = 1; n <= $(cat "$room/count"); n++)); do
    check "$(cat "$room/about.$n")" is_told "$n"
done

# Each line of docs/DECK.md has a case.
all_have_cases() {
    ! comm -23 <(sed -n 's|^/// `\(.*\)`$|\1|p' "$top"/crates/explain/src/*advice.rt | sort) <(sort "$room"/about.*) | grep .
}
check 'each line has a case' all_have_cases

printf '%d passed, %d failed\n' "$passed" "$failed"
[ "$failed" -eq 0 ]
