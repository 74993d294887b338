#!/bin/sh
# The differential comparison: the proved log program against the C program of this folder, over logs made from seeds.
#
#     sh bench/differential.sh PROGRAM FOLDER [LINES [SEED...]]
#
# PROGRAM is the proved program, FOLDER takes what is built and written. Each seed gives a log of LINES lines. Where no
# seed is given they are 1 to 8 and a fresh one, which is told, so that its log can be made again. The two outputs have
# to be the same bytes, one line for each line of the log, and every answer that a letter can get has to occur. The
# status is 0 if so, else 1, and the first difference is shown.
set -u
unset CDPATH

here=$(cd "$(dirname "$0")" && pwd -P) || exit 1
. "$here/tools.sh"

[ $# -ge 2 ] || bench_fail "usage: differential.sh PROGRAM FOLDER [LINES [SEED...]]"
program=$1 folder=$2
shift 2
lines=${1:-50000}
[ $# -eq 0 ] || shift
[ $# -gt 0 ] || {
    fresh=$(od -A n -t u4 -N 4 /dev/urandom 2>/dev/null | tr -d ' ')
    set -- 1 2 3 4 5 6 7 8 "${fresh:=$(date +%s)}"
    printf 'bench: the fresh seed is %s\n' "$fresh"
}
[ -f "$program" ] || bench_fail "there is no program $program"
case $program in */*) ;; *) program=./$program ;; esac

began=$(date +%s)
bench_find
mkdir -p "$folder" || exit 1
bench_build "$here/card.c" "$folder/card-test" -DTEST_SOUND=1
bench_build "$here/logs.c" "$folder/logs"
# It stands on card.c, and is run by speed.sh alone.
bench_build "$here/recipe.c" "$folder/recipe-test" -DTEST_SOUND=1
log=$folder/log.in proved=$folder/log.proved c=$folder/log.c

# Runs both programs on the log.
run_both() { # WHAT THE LOG IS
    "$program" <"$log" >"$proved" || bench_fail "$1: the proved program ended with status $?"
    "$folder/card-test" <"$log" >"$c" || bench_fail "$1: the C program ended with status $?"
}

# Shows the first line in which the outputs differ. Where one is the beginning of the other, it is the line after.
difference() { # WHAT THE LOG IS
    number=$(cmp "$proved" "$c" 2>/dev/null | sed -n 's/.* line \([0-9]*\).*/\1/p')
    if [ -z "$number" ]; then
        number=$(bench_lines "$proved")
        other=$(bench_lines "$c")
        [ "$number" -le "$other" ] || number=$other
        number=$((number + 1))
    fi
    printf 'bench: %s: the outputs differ in line %s\n' "$1" "$number"
    printf '  log:    %s\n' "$(bench_show "$log" "$number")"
    printf '  proved: %s\n' "$(bench_show "$proved" "$number")"
    printf '  C:      %s\n' "$(bench_show "$c" "$number")"
    exit 1
}

# Runs both programs on the log and holds their outputs against each other and against the number of its lines.
compare() { # WHAT THE LOG IS
    run_both "$1"
    cmp -s "$proved" "$c" || difference "$1"
    wanted=$(bench_lines "$log")
    given=$(bench_lines "$proved")
    [ "$wanted" -eq "$given" ] || bench_fail "$1: $wanted lines of log, $given lines of output"
}

# A log whose output is known.
fixed() { # WHAT THE LOG IS, LOG, OUTPUT
    printf "$2" >"$log"
    compare "$1"
    printf "$3" | cmp -s - "$proved" || bench_fail "$1: both programs give another output than the one that is known"
}

fixed 'the empty log' '' ''
fixed 'a lone line feed' '\n' 'E\t13\t-\n'
fixed 'a last line without its line feed' 'X\t0\nX\t0' 'X\t3\t-\nX\t3\t-\n'
# Too long by far, and its last 400 bytes, behind 64 KiB, would be a line that can be read.
long=$(awk 'BEGIN { for (i = 0; i < 16484; i++) printf "T\t5\t" }')
fixed 'a line that is too long' "$long\nX\t0\n" 'E\t13\t-\nX\t3\t-\n'
fixed 'a last line that is too long' "X\t0\nX\t0\nX\t0\nX\t0\n$long" 'X\t3\t-\nX\t3\t-\nX\t3\t-\nX\t3\t-\nE\t13\t-\n'
fixed 'the whole case' \
    'N\t5\t33\t300\nT\t5\tSHZBG 050\nF\t680303682189701A16\nX\t5\nT\t5\tLHZBG\nF\t680303682189701A16\n' \
    'N\t0\t-\nT\t0\tQOK00\nF\t0\t680505682100703200C316\nX\t0\t-\nT\t3\t-\nF\t5\t-\n'

compared=0
: >"$folder/answers"
for seed in "$@"; do
    "$folder/logs" "$seed" "$lines" >"$log" || bench_fail "the log of seed $seed cannot be made"
    compare "seed $seed"
    [ "$given" -eq "$lines" ] || bench_fail "seed $seed: the log has $given lines in place of $lines"
    compared=$((compared + given))
    dd bs=$((600 + seed % 8)) <"$log" 2>/dev/null | "$program" | cmp -s - "$c" ||
        bench_fail "seed $seed: the proved program gives another output where the log comes through a pipe, in pieces"
    cut -f 1,2 "$proved" | sort | uniq -c >>"$folder/answers"
done

# Every answer that each letter can get; 1 and 2 no log can bring about.
missing=''
for answer in 'N 0' 'N 3' 'N 9' 'N 11' 'N 12' 'X 0' 'X 3' 'M 0' 'M 3' 'M 9' 'T 0' 'T 3' 'T 7' 'T 8' 'T 9' 'T 10' \
    'F 0' 'F 4' 'F 5' 'F 6' 'F 7' 'F 8' 'F 9' 'F 10' 'E 13'; do
    tr '\t' ' ' <"$folder/answers" | grep -q " $answer\$" || missing="$missing, $answer"
done
[ -z "$missing" ] || bench_fail "these answers do not occur: ${missing#, }"

printf 'bench: %s lines compared, the same from both programs (seeds %s; %s s)\n' \
    "$compared" "$*" $(($(date +%s) - began))
