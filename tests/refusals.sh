#!/usr/bin/env bash
# Refuses each allocation of some small runs in turn, and lets each of their calls for files fail in turn (opening, making,
# looking at, reading, writing, also what is said, syncing and renaming), and judges what is left: status and line, and that
# all outputs before some place are whole, those from there on as before, and that nothing is left beside them.
#
# A small library is put between the program and the C library for that, which cc makes: it needs Linux and glibc. With
# MEMORY, the built program of crates/memory_cli, the same is done once more over a depot in memory, which counts what it
# refuses: there the calls that fail are those of the depot, until a run has fewer, and one output may be empty or the
# beginning of the right text. A run over two bands is once refused memory there when the first band's shot is written and
# nothing of the second: bands are written one by one.
#
#     usage: tests/refusals.sh PROGRAM [MEMORY]
set -u
program=$(realpath "$1") || exit 1
memory=${2:+$(realpath "$2")} || exit 1
gds=$(realpath "$(dirname "$0")/../tools/gds") || exit 1
between=$(realpath "$(dirname "$0")/between.c") || exit 1
room=$(mktemp -d) || exit 1
trap 'rm -rf "$room"' EXIT
cd "$room" || exit 1
runs=0
failed=0

cc -O1 -fno-builtin -shared -fPIC -o between.so "$between" || exit 1

# run_with SETTING..: the command that is tried, with these settings; sets status. `over` is the program, and what comes
# before the words of the command.
command=(fracture G.gds K)
inputs=(G.gds K)
run_with() {
    status=0
    env "$@" LD_PRELOAD="$room/between.so" "${over[@]}" "${command[@]}" >said 2>told || status=$?
}

# over_memory HOW: the program over a depot in memory
over_memory() {
    over=("$memory" "$1" "${inputs[@]}" , "${outputs[@]}" ,)
}

# What the outputs hold before a run: nothing, or an older text.
prepare() {
    local name
    for name in "${outputs[@]}"; do
        rm -f "$name"
        [ "$1" = absent ] || echo 'an older text' >"$name"
    done
}

# as_before NAME HOW
as_before() {
    if [ "$2" = absent ]; then
        [ ! -e "$1" ]
    else
        cmp -s "$1" <(echo 'an older text')
    fi
}

# begins NAME: the file is empty, or the beginning of the right one
begins() {
    [ -e "$1" ] && cmp -s "$1" <(head -c "$(stat -c %s "$1")" "right/$1")
}

# outputs_are_sound HOW: some outputs are whole, those after them are as before; over a depot in memory one may be cut
outputs_are_sound() {
    local name place=no
    nothing_is_beside || return 1
    for name in "${outputs[@]}"; do
        if [ "$place" = yes ]; then
            as_before "$name" "$1" || return 1
        elif ! cmp -s "$name" "right/$name"; then
            place=yes
            as_before "$name" "$1" || { is_over_memory && begins "$name"; } || return 1
        fi
    done
}

# No file is left that was to take an output's place.
nothing_is_beside() {
    [ -z "$(find . -name '*nettletide-part*')" ]
}

is_over_memory() {
    [ "${over[0]}" != "$program" ]
}

inputs_are_untouched() {
    local name
    for name in "${inputs[@]}"; do
        cmp -s "$name" "right/$name" || return 1
    done
}

# line_is_right LINE..: the status is that of one of these lines, which alone is said
line_is_right() {
    local line
    for line in "$@"; do
        case "$status/$line" in
        4/'read fault' | 5/'write fault' | 6/'want of memory')
            [ "$(cat said)" != "$line" ] || return 0
            ;;
        esac
    done
    return 1
}

# nothing_began HOW: the words couldn't be taken, and so nothing was said or done
nothing_began() {
    local name
    [ "$status" -eq 8 ] && [ ! -s said ] || return 1
    for name in "${outputs[@]}"; do
        as_before "$name" "$1" || return 1
    done
}

# The program did without it, and the run ended as ever.
ended_as_ever() {
    local name
    [ "$status" -eq "$wanted" ] && cmp -s said right/said && nothing_is_beside || return 1
    for name in "${outputs[@]}"; do
        cmp -s "$name" "right/$name" || return 1
    done
}

# line_is_lost WHAT NUMBER: the call was to say the line of a refusal, which changes no status; there is one such call. Over a
# depot in memory that may want memory, which the depot counts.
line_is_lost() {
    [ "$wanted" -ne 0 ] && [ "$status" -eq "$wanted" ] && [ ! -s said ] || return 1
    if [ "$1" = call ]; then
        [ "$2" -eq "${lost:=$2}" ]
    else
        [ "$(cat told)" = 'counted: want of memory' ]
    fi
}

# The program of the test puts out what the depot in memory has after the run, and that was refused.
was_put_out_in_part() {
    is_over_memory && [ "$status" -eq 8 ] && [ ! -s said ] && outputs_are_sound "$1"
}

# What is told of a refusal on standard error may be refused, which changes nothing else.
explained_less() {
    [ "$wanted" -ne 0 ] && ended_as_ever
}

# judge WHAT NUMBER HOW LINE..
judge() {
    local what=$1 number=$2 how=$3
    shift 3
    runs=$((runs + 1))
    # how long the output is where want of memory is the answer, and no depot counted one
    [ "$what" != allocation ] || [ "$status" -ne 6 ] || [ ! -e out.oas ] || [ -s told ] || sizes+=" $(stat -c %s out.oas) "
    if inputs_are_untouched; then
        [ "$what" = allocation ] && { nothing_began "$how" || ended_as_ever || was_put_out_in_part "$how"; } && return
        explained_less && return
        line_is_lost "$what" "$number" && return
        line_is_right "$@" && outputs_are_sound "$how" && return
    fi
    failed=$((failed + 1))
    printf 'FAILED: %s, %s %d of it refused, outputs %s before: status %d, and it said:\n' "$row" "$what" "$number" "$how" "$status"
    head -n 5 said told
}

# each_allocation HOW COUNT: each allocation refused in turn, over outputs that were so before
each_allocation() {
    local number
    for ((number = 1; number <= $2; number++)); do
        prepare "$1"
        run_with REFUSE_ALLOCATION="$number"
        judge allocation "$number" "$1" 'want of memory'
    done
}

# row STATUS NAME OUTPUT..: all of it with the command on the files that stand there, which ends with this status
row() {
    wanted=$1
    row=$2
    shift 2
    outputs=("$@")
    sizes=
    lost=
    over=("$program")
    prepare absent
    run_with COUNTS=counts
    if [ "$status" -ne "$wanted" ]; then
        printf 'FAILED: %s ends with status %d\n' "$row" "$status"
        failed=$((failed + 1))
        return
    fi
    rm -rf right
    mkdir right
    cp "${inputs[@]}" said "${outputs[@]}" right/
    local allocations calls number how
    read -r allocations calls <counts
    for how in absent older; do
        each_allocation "$how" "$allocations"
        for ((number = 1; number <= calls; number++)); do
            prepare "$how"
            run_with REFUSE_CALL="$number"
            judge call "$number" "$how" 'read fault' 'write fault'
        done
    done
    printf '%s: %d allocations and %d calls, each refused twice\n' "$row" "$allocations" "$calls"
    [ -z "$memory" ] || row_over_memory
}

# The same row over a depot in memory, in which no output was made before.
row_over_memory() {
    local allocations calls number
    row="$row, over a depot in memory"
    sizes=
    lost=
    over_memory whole
    prepare absent
    run_with COUNTS=counts
    read -r allocations calls <counts
    each_allocation absent "$allocations"
    # the number of a call that there isn't is counted nowhere
    for ((number = 0; number < 1000; number++)); do
        over_memory "$number"
        prepare absent
        run_with
        [ -s told ] || break
        calls=$((number + 1))
        judge call "$calls" absent 'read fault' 'write fault'
    done
    runs=$((runs + 1))
    if ! ended_as_ever || [ -s told ]; then
        printf 'FAILED: %s, with no call refused: status %d\n' "$row" "$status"
        failed=$((failed + 1))
    fi
    printf '%s: %d allocations and %d calls, each refused\n' "$row" "$allocations" "$calls"
}

# In some run over a depot in memory where memory is refused, the head and the first band's shot are all that is written.
first_band_alone() {
    if [ -n "$memory" ] && [[ "$sizes" != *' 53 '* ]]; then
        printf 'FAILED: %s: no run ends with the first band alone, but with files of these lengths:%s\n' "$row" "$sizes"
        failed=$((failed + 1))
    fi
    if ! cmp -s <(head -c 53 right/out.oas | tail -c 12) <(printf '\x18\x7B\x01\x00\xD0\x0F\x80\x08\x80\x10\x00\x00'); then
        printf 'FAILED: %s: the first band has another shot\n' "$row"
        failed=$((failed + 1))
    fi
}

square='boundary 1 0 0,0 0,10 10,10 10,0'
layer='layer A 1 0'
printf '%s\n' 'cell TOP' "$square" | "$gds" G.gds
printf '%s\n' 'unit 1000' 'top TOP' "$layer" 'write A out.oas 1 0' 'write A two.oas 2 0' >K
row 0 'a square in two outputs' out.oas two.oas

printf '%s\n' 'cell TOP' 'boundary 1 0 0,0 11,0 11,11' 'boundary 2 0 0,0 11,0 0,11' | "$gds" G.gds
printf '%s\n' 'unit 1000' 'top TOP' 'band 1024' "$layer" 'layer B 2 0' 'and C A B' 'grow E C 1' 'shrink S A 2' \
    'write E out.oas 1 0' 'write S two.oas 1 0' 'write C three.oas 1 0' >K
row 0 'a tip, grown, in three outputs' out.oas two.oas three.oas

printf '%s\n' 'cell TOP' 'boundary 1 0 0,0 1000,0 1000,1000' | "$gds" G.gds
printf '%s\n' 'unit 1000' 'top TOP' 'band 1024' "$layer" 'write A out.oas 1 0' >K
row 0 'a triangle over two bands' out.oas
first_band_alone

printf '%s\n' 'unit 1000' 'top TOP' "$layer" 'write A out.oas 1 0' >K
# a square with a property, padding and the cell's name after it
{
    printf '%%SEMI-OASIS\r\n\001\0031.0\000\350\007\001\034\024\004TEST\010\005\015\000\024\173\001\000\012\012\000\000\000\003\003TOP\002'
    head -c 12 /dev/zero
    printf '\360\001'
    head -c 241 /dev/zero
} >G.oas
command=(fracture G.oas K)
inputs=(G.oas K)
row 0 'a square of OASIS' out.oas

printf '%s\n' 'cell TOP' "$square" | "$gds" G.gds
"$program" fracture G.gds K >said || exit 1
{
    head -c 49 out.oas
    tail -c +42 out.oas
} >doubled && mv doubled out.oas
command=(check G.gds K)
inputs=(G.gds K out.oas)
row 7 'a check of a doubled shot'

printf '%d runs, %d failed\n' "$runs" "$failed"
[ "$failed" -eq 0 ]
