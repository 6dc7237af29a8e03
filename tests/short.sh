#!/usr/bin/env bash
# The cases of tests/rows with one byte a call, read and written: over real files, where a small library stands between the
# program and the C library (Linux and glibc), and over a depot in memory, by the built program of crates/memory_cli.
#
#     usage: tests/short.sh PROGRAM MEMORY
set -u
program=$(realpath "$1") || exit 1
memory=$(realpath "$2") || exit 1
here=$(realpath "$(dirname "$0")") || exit 1
. "$here/check.sh" || exit 1
room=$(mktemp -d) || exit 1
trap 'rm -rf "$room"' EXIT

cc -O1 -fno-builtin -shared -fPIC -o "$room/between.so" "$here/between.c" || exit 1
# Where a file has more than a mebibyte, or one is to be made in a folder, the program runs as ever.
cat >"$room/files" <<END
#!/usr/bin/env bash
[ -z "\$(find . -size +2048)" ] || exec "$program" "\$@"
exec env MOST=1 LD_PRELOAD="$room/between.so" "$program" "\$@"
END
# The depot holds each file of the folder, and may make those that a deck or the words name, and stripes -1 to 2. It knows no
# folders, so where there is one the program runs as ever.
cat >"$room/memory" <<END
#!/usr/bin/env bash
shopt -s nullglob
held=()
made=()
for name in *; do
    [ ! -f "\$name" ] || held+=("\$name")
done
[ ! -f "\${3-}" ] || mapfile -t made < <(awk '\$1 == "write" { print \$3 }' "\$3")
[ "\${1-}" != split ] || made+=("\${4-}".{-1,0,1,2})
[[ -z "\$(find . -mindepth 1 "(" -size +2048 -o -type d ")")" && "\${*: -1}" != */* ]] || exec "$program" "\$@"
exec "$memory" short "\${held[@]}" , "\${made[@]}" "\${@: -1}" , "\$@"
END
chmod +x "$room/files" "$room/memory"
check 'the rows with one byte a call over real files' "$here/rows.py" "$room/files"
check 'the rows with one byte a call over a depot in memory' "$here/rows.py" "$room/memory"
[ "$failed" -eq 0 ]
