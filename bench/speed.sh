#!/bin/sh
# The speed of the proved log program, and of loading recipes, beside that of the C programs of this folder, with and
# without the test of the record's soundness that answer 2 demands.
#
#     sh bench/speed.sh PROGRAM LOADER FOLDER [ROUNDS]
#
# PROGRAM is the proved log program and LOADER the proved program that is timed for recipes; FOLDER takes what is built
# and written; the logs stay there for the next time. There is one of ordinary traffic, a longer one like it, and one of
# the longest frames. The recipe has 64 lines, and is loaded, or its lines are sent singly, many times over. The proved
# program's status does not tell that it was loaded: that is seen where its output is compared. The programs take turns.
# A run reads from a file and writes to /dev/null, and its time is its processor time. Ratios are of the least times:
# other work on the machine adds to a time and never takes from it. Those of the medians stand beside them; where the
# two are far apart the machine was busy. The outputs are compared first.
set -u
unset CDPATH

here=$(cd "$(dirname "$0")" && pwd -P) || exit 1
. "$here/tools.sh"

[ $# -ge 3 ] || bench_fail "usage: speed.sh PROGRAM LOADER FOLDER [ROUNDS]"
program=$1 loader=$2 folder=$3 rounds=${4:-40}
for proved in "$program" "$loader"; do
    [ -f "$proved" ] || bench_fail "there is no program $proved"
done
case $program in */*) ;; *) program=./$program ;; esac
case $loader in */*) ;; *) loader=./$loader ;; esac

bench_find
mkdir -p "$folder" || exit 1
bench_build "$here/card.c" "$folder/card-test" -DTEST_SOUND=1
bench_build "$here/card.c" "$folder/card-plain" -DTEST_SOUND=0
bench_build "$here/recipe.c" "$folder/recipe-test" -DTEST_SOUND=1
bench_build "$here/recipe.c" "$folder/recipe-plain" -DTEST_SOUND=0
bench_build "$here/recipe.c" "$folder/recipe-cut" -DTEST_SOUND=0 -DCUT_ONCE=1
bench_build "$here/logs.c" "$folder/logs"
bench_build "$here/timed.c" "$folder/timed"

# A log of so many lines, made once for each generator.
bench_log() { # LINES KIND [LENGTH]
    name=$2${3:+-$3}-$1
    made=$folder/$name.$(cksum <"$here/logs.c" | cut -d ' ' -f 1)
    if [ ! -f "$made" ]; then
        rm -f "$folder/$name".*
        "$folder/logs" 2 "$@" >"$folder/making" && mv "$folder/making" "$made" ||
            bench_fail "the log of $1 lines cannot be made"
    fi
}

# The recipe of 64 lines, all of them done, behind how often and in which way: W is whole, S singly. The lengths of all
# replies are mixed bit by bit, so that an odd number of times leaves what one time does, whole or singly.
bench_recipe() { # TIMES LETTER
    awk -v times="$1" -v letter="$2" 'BEGIN {
        forms = split("SHZBG 232;LHZBG;SSOLW 188;LSOLW;SAHUE 1 010 020 251;LAHUE;SAHUE 1 010 020 100 162;SRRUE 1 010 020",
            form, ";")
        printf "%d\t%s\n", times, letter
        for (k = 0; k < 64; k++) printf "%d\t%s\n", k % 16, form[(k + int(k / 16)) % forms + 1]
    }' >"$folder/recipe-$2" || bench_fail "the recipe cannot be written"
}

tell() { # WORDS
    printf 'bench: %s\n' "$1" >&2
}

kind="$(uname -m), $(nproc 2>/dev/null || echo '?') cores"
tell "on $kind"
tell 'three logs are made, if they are not there yet: two of ordinary traffic and one of the longest frames'
bench_log 1000000 bench
small=$made
bench_log 4000000 bench
large=$made
bench_log 20000 frames 255
longest=$made
bench_recipe 99999 W
bench_recipe 4999 S

# The outputs first.
tell 'the outputs of the programs are compared'
for log in "$small" "$large" "$longest"; do
    "$folder/card-test" <"$log" >"$folder/speed.c" || bench_fail "the C program with the test failed"
    "$folder/card-plain" <"$log" >"$folder/speed.plain" || bench_fail "the C program without the test failed"
    "$program" <"$log" >"$folder/speed.proved" || bench_fail "the proved program failed"
    cmp "$folder/speed.c" "$folder/speed.plain" && cmp "$folder/speed.c" "$folder/speed.proved" ||
        bench_fail "the outputs differ"
done
"$loader" <"$folder/recipe-W" >"$folder/speed.proved" || bench_fail "the proved program for recipes failed"
"$loader" <"$folder/recipe-S" >"$folder/speed.singly" || bench_fail "the proved program for recipes failed"
"$folder/recipe-test" <"$folder/recipe-W" >"$folder/speed.c" || bench_fail "recipes in C with the test failed"
"$folder/recipe-plain" <"$folder/recipe-W" >"$folder/speed.plain" || bench_fail "recipes in C failed"
"$folder/recipe-cut" <"$folder/recipe-W" >"$folder/speed.cut" || bench_fail "recipes in C, cut once, failed"
for output in singly c plain cut; do
    cmp "$folder/speed.proved" "$folder/speed.$output" || bench_fail "the replies to the recipe differ"
done
rm -f "$folder"/speed.*

measure() { # NAME PROGRAM LOG
    "$folder/timed" "$3" /dev/null "$2" >>"$folder/times-$1" || bench_fail "$2 failed under the clock"
}

rm -f "$folder"/times-*
tell "$rounds rounds in turn; each dot is one"
round=0
while [ "$round" -lt "$rounds" ]; do
    printf '.' >&2
    measure proved "$program" "$small"
    measure test "$folder/card-test" "$small"
    measure plain "$folder/card-plain" "$small"
    [ $((round % 4)) -ne 0 ] || measure large "$program" "$large"
    measure longest "$program" "$longest"
    measure longest-test "$folder/card-test" "$longest"
    measure longest-plain "$folder/card-plain" "$longest"
    [ $((round % 4)) -ne 0 ] || {
        measure load "$loader" "$folder/recipe-W"
        measure load-test "$folder/recipe-test" "$folder/recipe-W"
        measure load-plain "$folder/recipe-plain" "$folder/recipe-W"
        measure load-cut "$folder/recipe-cut" "$folder/recipe-W"
        measure singly "$loader" "$folder/recipe-S"
    }
    round=$((round + 1))
done

# A program's times are lines of processor time and elapsed time, both in microseconds, and peak memory in KiB.
column() { # NAME COLUMN
    cut -d ' ' -f "$2" "$folder/times-$1" | sort -n
}

least() { # NAME COLUMN
    column "$1" "$2" | head -n 1
}

median() { # NAME COLUMN
    column "$1" "$2" | awk '{ v[NR] = $1 } END { print NR % 2 ? v[(NR + 1) / 2] : int((v[NR / 2] + v[NR / 2 + 1]) / 2) }'
}

row() { # NAME LINES WHAT-IT-IS
    awk -v lines="$2" -v what="$3" -v least="$(least "$1" 1)" -v median="$(median "$1" 1)" 'BEGIN {
        printf "%-24s %8d lines  %9.0f lines/s  %7.1f ms least  %7.1f ms median\n",
            what, lines, 1e6 * lines / least, least / 1000, median / 1000
    }'
}

ratio() { # NAME NAME least|median
    awk -v a="$($3 "$1" 1)" -v b="$($3 "$2" 1)" 'BEGIN { printf "%.2f", a / b }'
}

beside_c() { # PROVED PLAIN TEST
    printf 'the proved program, C = 1: %s (C without the test of soundness), %s (C testing it); by medians %s and %s\n' \
        "$(ratio "$1" "$2" least)" "$(ratio "$1" "$3" least)" "$(ratio "$1" "$2" median)" "$(ratio "$1" "$3" median)"
}

printf '\n' >&2
printf 'machine: %s\n' "$kind"
printf 'processor time from a file to /dev/null, %s rounds in turn; the long log and recipes in every fourth\n' "$rounds"
printf '\nordinary traffic: half lines and half frames, 2 in 100 of them refused\n'
row proved 1000000 'proved program'
row plain 1000000 'C, no test'
row test 1000000 'C, testing soundness'
row large 4000000 'proved program'
beside_c proved plain test
printf 'the proved program, 1000000 lines = 1: %s (4000000 lines)\n' "$(ratio large proved least)"
printf 'proved program, peak memory: %s KiB for 1000000 lines, %s KiB for 4000000\n' \
    "$(median proved 3)" "$(median large 3)"
printf '\nthe longest frames: 522 digits each, to a zone that is there, with a right checksum\n'
row longest 20000 'proved program'
row longest-plain 20000 'C, no test'
row longest-test 20000 'C, testing soundness'
beside_c longest longest-plain longest-test
printf '\nrecipes of 64 lines, loaded 99999 times; and their lines sent singly, 4999 times\n'
row load 6399936 'proved program, loaded'
row load-plain 6399936 'C, no test'
row load-test 6399936 'C, testing soundness'
row load-cut 6399936 'C, no test, cut once'
row singly 319936 'proved program, singly'
beside_c load load-plain load-test
printf 'the proved program, C that cuts each line once, as it does itself, = 1: %s\n' "$(ratio load load-cut least)"
printf 'a recipe loaded, its lines sent singly = 1: %s\n' \
    "$(awk -v a="$(least load 1)" -v b="$(least singly 1)" 'BEGIN { printf "%.2f", a / 99999 / (b / 4999) }')"
