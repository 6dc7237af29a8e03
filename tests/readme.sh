#!/usr/bin/env bash
# The commands of README.md, and after them those of docs/FIELDS.md, each with what the page says that it prints, in a fresh
# copy of the repository's files.
#
#     tests/readme.sh PROGRAM    runs the blocks marked `console`, with this program as `nettletide`
#     tests/readme.sh            runs the blocks marked `sh` first, which prove and build the program: hours
#
# Each file that README.md names in backquotes, with a folder before it or .md at its end, must be there.
#
# In a `console` block a line that begins with `$ ` is a command, and the lines up to the next one are its whole output.
set -u
program=${1:+$(realpath "$1")}
cd "$(dirname "$0")/.." || exit 1
room=$(mktemp -d) || exit 1
trap 'rm -rf "$room"' EXIT
mkdir "$room/copy" "$room/bin" "$room/wanted" || exit 1
git ls-files -z | xargs -0 cp --parents -t "$room/copy" || exit 1

# block WORD: the lines of the blocks that are marked so
block() {
    awk -v mark="\`\`\`$1" '$0 == mark { on = 1; next } /^```/ { on = 0 } on' README.md docs/FIELDS.md
}

if [ -z "$program" ]; then
    block sh >"$room/build.sh"
    (cd "$room/copy" && git init -q && git add -A && bash -eux "$room/build.sh") || exit 1
    program=$room/copy/build/nettletide
fi
cp "$program" "$room/bin/nettletide" && chmod 755 "$room/bin/nettletide" || exit 1
PATH=$room/bin:$PATH

# a file for each command, and one for what it is to print
block console | awk -v to="$room/wanted" '
    /^\$ / { n += 1; print substr($0, 3) >(to "/" n ".command"); printf "" >(to "/" n ".output"); next }
    { print >(to "/" n ".output") }'
count=$(find "$room/wanted" -name '*.command' | wc -l)
[ "$count" -gt 0 ] || { echo 'no commands in README.md and docs/FIELDS.md'; exit 1; }

failed=0
cd "$room/copy" || exit 1
for name in $(grep -oE '`[A-Za-z_./]+`' README.md | tr -d '`' | grep -E '^(tests|tools|docs)/.|\.md$' | sort -u); do
    if [ ! -e "$name" ] && [ ! -e "docs/$name" ]; then
        printf 'FAILED: README.md names %s, which is not there\n' "$name"
        failed=$((failed + 1))
    fi
done
for n in $(seq "$count"); do
    command=$(cat "$room/wanted/$n.command")
    if ! eval "$command" >"$room/printed" 2>&1 || ! diff -u "$room/wanted/$n.output" "$room/printed"; then
        printf 'FAILED: %s\n' "$command"
        failed=$((failed + 1))
    fi
done
printf '%d commands of README.md and docs/FIELDS.md, %d failures\n' "$count" "$failed"
[ "$failed" -eq 0 ]
