#!/bin/sh
# Tests of the launcher, ./card.
#
#     sh tests/launcher.sh [TEST...]
#
# All of them, or those that are named. They need what the launcher needs; the program is proved first where it is not.
# Most run in a root of their own, with a copy of the launcher and a stand-in for rt, so that nothing is proved there.
set -u
unset CDPATH

here=$(cd "$(dirname "$0")" && pwd -P) || exit 1
root=$(dirname "$here")
. "$root/bench/tools.sh"
bench_find

day=$root/examples/day.log answers=$root/examples/day.answers
setup=$root/examples/setup.log night=$root/examples/night refused=$root/examples/night-refused
real_rt=$(command -v rt) real_sleep=$(command -v sleep)
export real_rt real_sleep
tab=$(printf '\t')

room=${TMPDIR:-/tmp}/card-tests.$$
(umask 077 && mkdir "$room") && room=$(cd "$room" && pwd -P) || exit 1
trap 'rm -rf "$room"' EXIT
trap 'exit 1' HUP INT TERM

# ---- what the tests are made with

# Ends a test that has failed.
wrong() { # WORDS
    printf 'card: %s: %s\n' "$name" "$1"
    exit 1
}

# Holds what was seen against what was expected.
expect() { # WHAT EXPECTED SEEN
    [ "$2" = "$3" ] || wrong "$1: expected '$2', seen '$3'"
}

# Holds all that was kept of a run against what was expected.
expect_all() { # STATUS OUTPUT SAID
    expect 'standard error' "$3" "$(cat err)"
    expect 'standard output' "$2" "$(cat out)"
    expect 'status' "$1" "$status"
}

# The sample day was answered, byte by byte, and nothing else happened.
expect_day() {
    expect_all 0 "$(cat "$answers")" ''
    cmp -s out "$answers" || wrong 'the answers have another end'
}

# Runs a command and keeps its output, what it says and its status.
run() { # COMMAND...
    "$@" >out 2>err
    status=$?
}

# Waits some ten seconds at most until a command is true.
await() { # COMMAND...
    turns=0
    until "$@"; do
        turns=$((turns + 1))
        [ "$turns" -lt 100 ] || return 1
        sleep 0.1 2>/dev/null || sleep 1
    done
}

# A root for one test: the launcher, the programs, a rt that does what the test says, and stand-ins for the tests and the
# comparison that ./card test runs. Its name has a blank.
make_root() {
    own="$PWD/a root" card="$PWD/a root/card" stand_ins=$PWD
    built=$own/crates/cardlog/out/cardlog
    export stand_ins
    mkdir -p bin "$own/crates/zone/src" "$own/crates/cardlog/out" "$own/crates/cardsay/out" "$own/crates/cardload/out" \
        "$own/target" "$own/bench" "$own/tests"
    cp "$root/card" "$root/toolchain.txt" "$own/"
    cp -R "$root/examples" "$own/"
    cp "$program" "$built"
    cp "$speaker" "$own/crates/cardsay/out/cardsay"
    cp "$loader" "$own/crates/cardload/out/cardload"
    printf '# A comment.\nzone:\ncardlog: zone\ncardsay: zone\ncardload: zone\n' >"$own/crates.txt"
    for script in bench/speed.sh bench/differential.sh tests/launcher.sh; do
        printf 'echo "%s ran"\n' "$script" >"$own/$script"
    done
    cat >bin/rt <<'END'
#!/bin/sh
case $1 in
doc | version) exec "$real_rt" "$@" ;;
run) call="run in ${PWD##*/}" ;;
*) call=$* ;;
esac
printf '%s\n' "$call" >>"$stand_ins/calls"
cat >/dev/null
. "$stand_ins/does"
END
    chmod +x bin/rt
    PATH=$PWD/bin:$PATH
    : >calls
    rt_does "$unchanged"
}

# What the stand-in for rt does from now on, as words for sh.
rt_does() { # WORDS
    printf '%s\n' "$1" >does
}

# What rt run says before it runs the program, what it says where nothing has changed, and what rt ci says at its end.
running='echo "rt: running out/${PWD##*/}; to give it other input, run that file yourself"'
unchanged='echo "rt: nothing has changed since the last proved build, by out/${PWD##*/}.stamp, so nothing is checked now"
'$running
well='rt: ok; handles allowed: none; must-fail edits: 7 refused; every proof and must-fail edit was done in this run'
passes="echo '$well'; echo '5 passed, 0 failed'"

# A sleep in place of the one on the PATH.
sleep_does() { # WORDS
    printf '#!/bin/sh\n%s\n' "$1" >bin/sleep
    chmod +x bin/sleep
}

# A log whose answers no pipe holds.
make_large_log() {
    awk 'BEGIN { for (i = 0; i < 200000; i++) print "X\t0" }' >large
}

# Ends a test that cannot be made here.
skip() { # WHY
    printf 'card: %s: skipped, %s\n' "$name" "$1"
    exit 77
}

# A signal that is ignored here is ignored by all that is started here.
is_ignored() { # SIGNAL
    sh -c 'kill -s "$0" $$' "$1" 2>/dev/null
}

# ---- a log: what is read

test_a_file_is_answered_by_the_proved_program() {
    run "$root/card" log "$day"
    expect_day
}

test_standard_input_is_answered_and_so_is_a_dash() {
    make_root
    run "$card" log <"$day"
    expect_day
    run "$card" log - <"$day"
    expect_day
}

test_a_blank_in_the_name_of_a_file() {
    make_root
    cp "$day" 'a day.log'
    run "$card" log 'a day.log'
    expect_day
}

test_an_empty_log_has_no_answers() {
    make_root
    run "$card" log </dev/null
    expect_all 0 '' ''
}

test_a_missing_file_is_told_before_anything_is_proved() {
    make_root
    run "$card" log 'no file'
    expect_all 1 '' 'card: there is no file no file'
    expect 'calls of rt' '' "$(cat calls)"
}

test_an_unreadable_file_is_told_before_anything_is_proved() {
    [ "$(id -u)" -ne 0 ] || skip 'since root reads every file'
    make_root
    cp "$day" closed
    chmod 000 closed
    run "$card" log closed
    expect_all 1 '' 'card: the file closed cannot be read'
    expect 'calls of rt' '' "$(cat calls)"
}

test_a_folder_is_no_log() {
    make_root
    run "$card" log bin
    expect_all 1 '' 'card: bin is a folder and cannot be read'
    expect 'calls of rt' '' "$(cat calls)"
    run "$card" log <bin
    expect_all 1 '' 'cardlog: the input cannot be read'
}

test_a_closed_input_is_told() {
    make_root
    run "$card" log <&-
    expect_all 1 '' 'card: standard input is closed'
    run "$card" log "$day" <&-
    expect_day
}

test_an_input_that_fails_in_the_middle_is_told() {
    make_root
    bench_build "$here/one_call.c" "$PWD/unblock" '-DCALL=fcntl(0, SET_FLAGS, NON_BLOCKING)'
    mkfifo log
    exec 5<>log
    printf 'X\t0\nX\t1\nX\t2' >&5
    {
        "$PWD/unblock"
        run "$card" log
    } <log
    expect_all 1 "X${tab}3${tab}-
X${tab}3${tab}-" 'cardlog: the input cannot be read'
}

test_a_line_of_300_megabytes_is_one_answer() {
    make_root
    {
        dd if=/dev/zero bs=1048576 count=300 2>/dev/null | tr '\0' x
        printf '\nX\t0\n'
    } | {
        run "$card" log
        expect_all 0 "E${tab}13${tab}-
X${tab}3${tab}-" ''
    }
}

# ---- a log: what is written

test_an_answer_comes_as_soon_as_its_line() {
    make_root
    mkfifo log
    exec 5<>log
    "$card" log log >out 2>err 5<&- &
    printf 'X\t0\n' >&5
    await [ -s out ] || wrong "no answer while the log is open: '$(cat err)'"
    expect 'the answer' "X${tab}3${tab}-" "$(cat out)"
    kill "$!"
}

test_a_full_output_is_told() {
    [ -c /dev/full ] || skip 'since there is no /dev/full'
    make_root
    "$card" log "$day" >/dev/full 2>err
    status=$?
    : >out
    expect_all 1 '' 'cardlog: the output cannot be written'
}

test_a_closed_output_is_told() {
    make_root
    "$card" log "$day" >&- 2>err
    status=$?
    : >out
    expect_all 1 '' 'card: standard output is closed'
}

test_a_reader_that_wants_no_more_is_no_failure() {
    ! is_ignored PIPE || skip 'since the signal of a closed pipe is ignored here'
    make_root
    make_large_log
    {
        "$card" log large 2>err
        echo "$?" >status
    } | head -n 1 >out
    status=$(cat status)
    expect_all 141 "X${tab}3${tab}-" ''
}

test_a_closed_pipe_is_told_where_its_signal_is_ignored() {
    make_root
    make_large_log
    (
        trap '' PIPE
        "$card" log large 2>err
        echo "$?" >status
    ) | head -n 1 >out
    status=$(cat status)
    expect_all 1 "X${tab}3${tab}-" 'cardlog: the output cannot be written'
}

test_a_program_that_ends_otherwise_gives_its_status() {
    make_root
    bench_build "$here/one_call.c" "$built" '-DCALL=_exit(7)'
    run "$card" log "$day"
    expect_all 7 '' 'card: the log program ended with status 7'
    bench_build "$here/one_call.c" "$built" '-DCALL=raise(KILL)'
    run "$card" log "$day"
    expect status 137 "$status"
    expect 'the last line on standard error' 'card: the log program ended with status 137' "$(tail -n 1 err)"
}

# ---- where the launcher is called from, and an operator's lines

test_the_launcher_works_from_any_folder_and_through_links() {
    make_root
    mkdir -p else/where
    ln -s '../a root/card' else/link
    ln -s ../link else/where/again
    ln -s "$own" folder
    for way in "$card" else/link else/where/again folder/card; do
        run "$way" log "$day"
        expect_day
    done
    cd else/where || exit 1
    run ./again log "$day"
    expect_day
}

test_a_cdpath_does_no_harm() {
    make_root
    mkdir -p 'other/a root'
    export CDPATH="$PWD/other"
    run 'a root/card' log "$day"
    expect_day
}

test_lines_are_sent_to_a_zone_of_the_named_range() {
    make_root
    printf 'SSOLW 301\nLSOLW' >lines
    run "$card" say 500 <lines
    expect_all 0 "0${tab}QOK00${tab}0
0${tab}ASOLW 301${tab}0" ''
    run "$card" say 300 <lines
    expect_all 0 "9${tab}QFE02${tab}6
  a figure is outside its range
  SSOLW 301
        ^ 0 to 300
0${tab}ASOLW 000${tab}0" ''
    expect 'calls of rt' 'run in cardsay
run in cardsay' "$(cat calls)"
    run "$card" say 300 </dev/null
    expect_all 0 '' ''
}

test_another_range_is_told_before_anything_is_proved() {
    make_root
    for range in 0 30 3000 301 400 300.0 '' ' 300' three; do
        run "$card" say "$range" <"$day"
        expect_all 2 '' "card: the temperature range is 300 or 500, and not \"$range\""
    done
    run "$card" say 300 <&-
    expect_all 1 '' 'card: standard input is closed'
    expect 'calls of rt' '' "$(cat calls)"
}

test_what_fails_while_lines_are_sent_is_told() {
    make_root
    run "$card" say 300 <bin
    expect_all 1 '' 'cardsay: the input cannot be read'
    [ -c /dev/full ] || skip 'since there is no /dev/full'
    printf 'LSOLW\n' >lines
    "$card" say 300 <lines >/dev/full 2>words
    expect status 1 "$?"
    expect 'standard error' 'cardsay: the output cannot be written' "$(cat words)"
    bench_build "$here/one_call.c" "$own/crates/cardsay/out/cardsay" '-DCALL=_exit(7)'
    run "$card" say 300 <lines
    expect_all 7 '' 'card: the program of an operator ended with status 7'
}

# ---- a recipe

# The sample recipe was loaded, byte by byte, and nothing else happened.
expect_night() {
    expect_all 0 "$(cat "$night.answer")" ''
    cmp -s out "$night.answer" || wrong 'the answer has another end'
}

# A recipe, as words for printf, is answered so by a card with the zones of the sample setup.
expect_recipe() { # RECIPE STATUS OUTPUT
    # shellcheck disable=SC2059
    printf "$1" >recipe
    run "$card" load "$setup" recipe
    expect_all "$2" "$3" ''
}

test_a_recipe_is_loaded_by_the_proved_program() {
    make_root
    run "$card" load "$setup" "$night.recipe"
    expect_night
    run "$card" load - "$night.recipe" <"$setup"
    expect_night
    expect 'calls of rt' 'run in cardload
run in cardload' "$(cat calls)"
}

test_a_refused_recipe_has_status_1_and_says_why() {
    make_root
    run "$card" load "$setup" "$refused.recipe"
    expect_all 1 "$(cat "$refused.answer")" ''
    cmp -s out "$refused.answer" || wrong 'the answer has another end'
    expect 'the line that was refused' "$(sed -n 9p "$refused.recipe" | tr '\t' ' ')" "$(sed -n '3s/^  //p' out)"
    expect 'lines of the recipe' 20 "$(($(wc -l <"$refused.recipe")))"
}

test_the_files_of_a_recipe_may_stand_anywhere() {
    make_root
    mkdir 'a folder'
    cp "$setup" 'a folder/a setup'
    cp "$night.recipe" 'a folder/a recipe'
    run "$card" load 'a folder/a setup' 'a folder/a recipe'
    expect_night
    cd 'a folder' || exit 1
    run "$card" load 'a setup' 'a recipe'
    expect_night
    ln -s 'a recipe' link
    run "$card" load ./../'a folder/a setup' "$PWD/link"
    expect_night
}

test_a_recipe_may_have_any_name() {
    make_root
    for odd in "$(printf 'a \377 recipe')" "$(printf 'a r\303\251cipe')"; do
        cp "$night.recipe" "$odd" 2>/dev/null || skip 'no file can have such a name here'
        run "$card" load "$setup" "$odd"
        expect_night
        run "$card" load - "$odd" <"$setup"
        expect_night
    done
}

test_a_recipe_has_up_to_64_lines() {
    make_root
    expect_recipe '' 0 loaded
    expect_recipe '1\tLSOLW' 0 "loaded
1${tab}ASOLW 000"
    awk 'BEGIN { for (i = 0; i < 64; i++) print "1\tLSOLW" }' >recipe
    run "$card" load "$setup" recipe
    expect_all 0 "$(awk 'BEGIN { print "loaded"; for (i = 1; i <= 64; i++) print i "\tASOLW 000" }')" ''
    none="refused${tab}0${tab}14${tab}0
  not a recipe: more than 64 lines, or a line without its zone and tab"
    printf '1\tLSOLW' >>recipe
    run "$card" load "$setup" recipe
    expect_all 1 "$none" ''
    # As many lines as a recipe of 4,096 bytes can have.
    dd if=/dev/zero bs=4096 count=1 2>/dev/null | tr '\0' '\n' >recipe
    run "$card" load "$setup" recipe
    expect_all 1 "$none" ''
    expect_recipe '\n' 1 "$none"
    expect_recipe '1\tLSOLW\n\n' 1 "$none"
    expect_recipe '1 LSOLW\n' 1 "$none"
    expect_recipe '01\tLSOLW\n' 1 "$none"
    expect_recipe '1\tLSOLW\nLSOLW' 1 "$none"
}

test_a_recipe_has_up_to_4096_bytes() {
    make_root
    {
        printf '1\tSHZBG 050'
        dd if=/dev/zero bs=4085 count=1 2>/dev/null | tr '\0' x
    } >recipe
    run "$card" load "$setup" recipe
    expect 'standard error' '' "$(cat err)"
    expect status 1 "$status"
    expect 'the first line' "refused${tab}1${tab}8${tab}9" "$(head -n 1 out)"
    expect 'the lengths of the lines' '13 46 4098 27' "$(awk '{ print length($0) }' out | tr '\n' ' ' | sed 's/ $//')"
    printf x >>recipe
    run "$card" load "$setup" recipe
    expect_all 1 '' 'cardload: the recipe has more than 4,096 bytes'
    make_large_log
    run "$card" load "$setup" large
    expect_all 1 '' 'cardload: the recipe has more than 4,096 bytes'
}

test_what_is_wrong_with_a_recipe_is_shown() {
    make_root
    expect_recipe '1\tLSOLW\n12\tLSOLW\n' 1 "refused${tab}2${tab}3${tab}0
  there is no such zone
  12 LSOLW
     ^"
    expect_recipe '99999\tSHZBG 050' 1 "refused${tab}1${tab}3${tab}0
  there is no such zone
  99999 SHZBG 050
        ^"
    expect_recipe '1\t' 1 "refused${tab}1${tab}7${tab}0
  unknown command: L or S comes first, then AHUE, HZBG, RRUE or SOLW
  1 
    ^"
    expect_recipe '4\tSHZBG' 1 "refused${tab}1${tab}8${tab}5
  syntax error: wrong length, spaces or digits
  4 SHZBG
         ^ a space"
    expect_recipe '1\tSSOLW 301' 1 "refused${tab}1${tab}9${tab}6
  a figure is outside its range
  1 SSOLW 301
          ^ 0 to 300"
    expect_recipe '4\tSSOLW 301\n4\tSAHUE 1 010 010 500 200\n' 1 "refused${tab}2${tab}9${tab}20
  a figure is outside its range
  4 SAHUE 1 010 010 500 200
                        ^ 501 to 999"
    expect_recipe '3\tSHZBG 050\n' 1 "refused${tab}1${tab}10${tab}0
  the write is not permitted in this state
  3 SHZBG 050
    ^"
}

test_bytes_of_a_recipe_that_do_not_print_are_dots() {
    make_root
    expect_recipe '1\tSHZBG 050\r\n1\tLHZBG\r\n' 1 "refused${tab}1${tab}8${tab}9
  syntax error: wrong length, spaces or digits
  1 SHZBG 050.
             ^ nothing more"
    expect_recipe '1\tSHZ\000G 050\n' 1 "refused${tab}1${tab}7${tab}0
  unknown command: L or S comes first, then AHUE, HZBG, RRUE or SOLW
  1 SHZ.G 050
    ^"
    expect_recipe '1\tLHZBG\t\033\200\377\n' 1 "refused${tab}1${tab}8${tab}5
  syntax error: wrong length, spaces or digits
  1 LHZBG....
         ^ nothing more"
}

test_a_setup_is_worked_on_to_its_end() {
    make_root
    printf '9\tLSOLW\n' >recipe
    missing="refused${tab}1${tab}3${tab}0
  there is no such zone
  9 LSOLW
    ^"
    run "$card" load /dev/null recipe
    expect_all 1 "$missing" ''
    printf 'no line\n\nN\t9\t40\t300\r\nX\t9' >lines
    run "$card" load lines recipe
    expect_all 1 "$missing" ''
    printf 'no line\n\nN\t9\t40\t300\nT\t9\tSSOLW 077' >lines
    run "$card" load lines recipe
    expect_all 0 "loaded
1${tab}ASOLW 077" ''
    make_large_log
    printf 'N\t9\t40\t300\nT\t9\tSSOLW 078\n' >>large
    run "$card" load large recipe
    expect_all 0 "loaded
1${tab}ASOLW 078" ''
}

test_files_that_a_recipe_lacks_are_told_before_anything_is_proved() {
    make_root
    run "$card" load 'no file' "$night.recipe"
    expect_all 1 '' 'card: there is no file no file'
    run "$card" load "$setup" 'no file'
    expect_all 1 '' 'card: there is no file no file'
    run "$card" load bin "$night.recipe"
    expect_all 1 '' 'card: bin is a folder and cannot be read'
    run "$card" load "$setup" bin
    expect_all 1 '' 'card: bin is a folder and cannot be read'
    run "$card" load - "$night.recipe" <&-
    expect_all 1 '' 'card: standard input is closed'
    expect 'calls of rt' '' "$(cat calls)"
}

test_an_unreadable_setup_or_recipe_is_told_before_anything_is_proved() {
    [ "$(id -u)" -ne 0 ] || skip 'since root reads every file'
    make_root
    cp "$night.recipe" closed
    chmod 000 closed
    run "$card" load closed "$night.recipe"
    expect_all 1 '' 'card: the file closed cannot be read'
    run "$card" load "$setup" closed
    expect_all 1 '' 'card: the file closed cannot be read'
    expect 'calls of rt' '' "$(cat calls)"
}

test_what_fails_while_a_recipe_is_loaded_is_told() {
    make_root
    run "$card" load - "$night.recipe" <bin
    expect_all 1 '' 'cardload: the log cannot be read'
    # A recipe that is gone once the program is proved.
    cp "$night.recipe" recipe
    rt_does "rm \"\$stand_ins/recipe\"; $unchanged"
    run "$card" load "$setup" recipe
    expect_all 1 '' 'cardload: the recipe cannot be read'
    rt_does 'echo "rt: the library zone did not build, so nothing above it was checked"; exit 1'
    run "$card" load "$setup" "$night.recipe"
    expect status 1 "$status"
    expect 'standard output' '' "$(cat out)"
    rt_does "$unchanged"
    bench_build "$here/one_call.c" "$own/crates/cardload/out/cardload" '-DCALL=_exit(7)'
    run "$card" load "$setup" "$night.recipe"
    expect_all 7 '' 'card: the program for recipes ended with status 7'
}

test_an_answer_that_cannot_be_written_is_no_loaded_recipe() {
    make_root
    for recipe in "$night" "$refused"; do
        [ ! -c /dev/full ] || {
            "$card" load "$setup" "$recipe.recipe" >/dev/full 2>err
            status=$?
            : >out
            expect_all 1 '' 'card: the output cannot be written'
        }
        # Nobody reads from the pipe by the time that it is written to.
        (
            trap '' PIPE
            sleep 1
            "$card" load "$setup" "$recipe.recipe" 2>err
            echo "$?" >status
        ) | :
        status=$(cat status)
        expect_all 1 '' 'card: the output cannot be written'
    done
    ! is_ignored PIPE || skip 'since the signal of a closed pipe is ignored here'
    {
        sleep 1
        "$card" load "$setup" "$night.recipe" 2>err
        echo "$?" >status
    } | :
    status=$(cat status)
    expect_all 141 '' ''
}

# ---- the words of the launcher

test_help_is_the_usage_with_status_0() {
    make_root
    run "$card"
    cp out usage
    grep -q '^  ./card log \[FILE\] .* -$' usage || wrong "no usage: '$(cat usage)'"
    expect_all 0 "$(cat usage)" ''
    for word in help -h --help 'log --help' 'log -h' 'say --help' 'load --help' 'test --help' 'bench --help'; do
        # shellcheck disable=SC2086
        run "$card" $word
        expect_all 0 "$(cat usage)" ''
    done
    expect 'calls of rt' '' "$(cat calls)"
}

test_wrong_words_end_with_status_2() {
    make_root
    run "$card" lug
    expect_all 2 '' 'card: there is no word "lug"; ./card alone says what there is'
    run "$card" log "$day" "$day"
    expect_all 2 '' 'card: usage: ./card log [FILE]'
    run "$card" say
    expect_all 2 '' 'card: usage: ./card say RANGE, which is 300 or 500'
    run "$card" say 300 "$day"
    expect_all 2 '' 'card: usage: ./card say RANGE, which is 300 or 500'
    for words in '' "$setup" "$setup $day $day"; do
        # shellcheck disable=SC2086
        run "$card" load $words
        expect_all 2 '' 'card: usage: ./card load SETUP RECIPE'
    done
    run "$card" test all
    expect_all 2 '' 'card: usage: ./card test'
    run "$card" bench twice
    expect_all 2 '' 'card: usage: ./card bench'
    expect 'calls of rt' '' "$(cat calls)"
}

test_a_missing_toolchain_is_told() {
    make_root
    mkdir tools
    ln -s "$(command -v dirname)" tools/
    run env "PATH=$PWD/tools" "$card" log "$day"
    expect_all 2 '' 'card: the Rattle toolchain is missing: there is no command rt on the PATH'
}

# ---- the check before a run

test_each_run_is_checked_first_whatever_the_dates_say() {
    make_root
    # A program that is newer than all sources, one of which has changed and is dated long ago.
    bench_build "$here/one_call.c" "$built" '-DCALL=_exit(7)'
    echo changed >"$own/crates/zone/src/lib.rt"
    touch -t 200001010000 "$own/crates/zone/src/lib.rt"
    cp "$program" built
    rt_does "cp \"\$stand_ins/built\" out/\${PWD##*/}; $running"
    run "$card" log - <"$day"
    expect_day
    mkdir -p "$own/crates/loadtime/out"
    printf 'echo "bench/speed.sh $*"\n' >"$own/bench/speed.sh"
    run "$card" bench
    expect_all 0 "bench/speed.sh $built $own/crates/loadtime/out/loadtime $own/target/bench" ''
    expect 'calls of rt' 'run in cardlog
run in cardlog
run in loadtime' "$(cat calls)"
}

test_a_program_that_is_gone_is_built_again() {
    make_root
    mv "$built" built
    rt_does "[ -f out/cardlog ] || cp \"\$stand_ins/built\" out/cardlog; $running"
    run "$card" log "$day"
    expect_day
    rt_does "$unchanged"
    rm "$built"
    run "$card" log "$day"
    expect_all 1 '' "card: the check passed, and there is no program $built"
}

test_a_check_that_fails_is_told_in_few_lines_and_nothing_runs() {
    make_root
    rt_does 'echo "rt: chose --jobs 2 for zone"
echo "fn zone::zones::Zone::new: proved"
long=$(awk '\''BEGIN { for (i = 0; i < 3000; i++) printf "x" }'\'')
for line in 1 2 3 4 5 6 7 8 9; do echo "note: src/zones.rt:$line:1: it is not proved that $long"; echo "$long"; done
echo "logic=not-proved"
echo "rattle build: nothing was built, since only a proved crate is built"
echo "rt: the library zone did not build, so nothing above it was checked"
exit 1'
    for word in log bench; do
        run "$card" "$word" </dev/null
        expect status 1 "$status"
        expect 'standard output' '' "$(cat out)"
        expect 'standard error, cut' 'card: the program is proved before it is
note: src/zones.rt:1:1: it is not proved
rt: the library zone did not build, so n
card: the check failed, so the program i' "$(cut -c 1-40 err)"
        expect 'the length of the error' yes "$(awk 'NR == 2 { print length($0) < 350 ? "yes" : length($0) }' err)"
        expect 'where all of it stands' "$own/target/card.log" "$(sed -n '4s/.* stands in //p' err)"
        expect 'lines there' 23 "$(($(wc -l <"$own/target/card.log")))"
    done
}

test_a_check_that_cannot_begin_says_why() {
    make_root
    rt_does 'echo "rt: crates.txt: cardlog is on two lines" >&2; exit 2'
    echo another >"$own/toolchain.txt"
    run "$card" log "$day"
    expect_all 1 '' "card: warning: the toolchain is \"$(rt version)\"; the card was proved with \"another\"
rt: crates.txt: cardlog is on two lines
card: the check failed, so the program is not run; all that the check said stands in $own/target/card.log"
}

test_a_quick_check_is_silent_and_nothing_holds_its_descriptors() {
    make_root
    echo another >"$own/toolchain.txt"
    sleep_does 'exec "$real_sleep" 4'
    from=$(date +%s)
    seen=$("$card" log "$day" 2>&1)
    expect 'output and standard error' "$(cat "$answers")" "$seen"
    took=$(($(date +%s) - from))
    [ "$took" -lt 4 ] || wrong "its output was held open for $took seconds"
}

test_progress_is_told_as_it_comes() {
    make_root
    printf 'zone:\ncard: zone\nwire:\ncardlog: card wire\n' >"$own/crates.txt"
    echo another >"$own/toolchain.txt"
    rt_does 'proves() { echo "rt: chose --jobs 2 for $1"; echo "fn $1::f: proved"; echo "logic=proved functions=$2 sum=0"; }
proves card 22
for turn in 1 2 3 4 5 6 7 8 9; do grep -q "card proved" "$stand_ins/err" || sleep 1; done
grep -q "card proved" "$stand_ins/err" && proves wire 2
proves cardlog 20
'"$running"
    run "$card" log "$day"
    expect_all 0 "$(cat "$answers")" "card: the program is proved before it is run; the 4 crates take some minutes, once
card: warning: the toolchain is \"$(rt version)\"; the card was proved with \"another\"
card: 2 of 4: card proved (22 functions)
card: 3 of 4: wire proved (2 functions)
card: 4 of 4: cardlog proved (20 functions)"
}

test_a_long_check_says_that_it_is_still_at_work() {
    make_root
    # Fifty seconds pass at once.
    : >slept
    sleep_does 'echo >>"$stand_ins/slept"; [ $(wc -l <"$stand_ins/slept") -lt 50 ] || exec "$real_sleep" 1'
    rt_does 'for turn in 1 2 3 4 5 6 7 8 9; do [ $(wc -l <"$stand_ins/slept") -ge 50 ] || "$real_sleep" 1; done
'"$running"
    run "$card" log "$day"
    expect_all 0 "$(cat "$answers")" 'card: the program is proved before it is run; the 2 crates take some minutes, once
card: still at work (22 s)
card: still at work (42 s)'
}

test_a_check_that_waits_for_another_rt_says_so() {
    make_root
    rt_does 'echo "rt: waiting for another rt to finish in crates/zone"
'"$unchanged"
    run "$card" log "$day"
    expect_all 0 "$(cat "$answers")" 'card: waiting for another rt to finish in crates/zone'
}

test_two_checks_are_never_at_work_at_once() {
    make_root
    rt_does 'mkdir "$stand_ins/busy" || : >"$stand_ins/twice"
sleep 0.3 2>/dev/null || sleep 1
rmdir "$stand_ins/busy"
'"$running"
    "$card" log "$day" >first 2>&1 &
    "$card" log "$day" >second 2>&1 &
    run "$card" log "$day"
    wait
    [ ! -e twice ] || wrong 'two checks were at work at once'
    expect_day
    expect 'the first of three' "$(cat "$answers")" "$(cat first)"
    expect 'the second of three' "$(cat "$answers")" "$(cat second)"
}

test_a_lock_that_was_left_behind_holds_nobody_up() {
    make_root
    ln -s "$(sh -c 'echo $$')" "$own/target/card.lock"
    "$card" log "$day" >out 2>err &
    await [ -s out ] || {
        kill "$!"
        wrong 'it waits for a process that is gone'
    }
    wait "$!"
    status=$?
    expect_day
    expect 'what is left in target' 'card.log ' "$(ls "$own/target" | tr '\n' ' ')"
}

test_what_the_gate_has_built_is_run_until_something_changes() {
    make_root
    rt_does "$passes"
    run "$card" test
    expect 'status of the gate' 0 "$status"
    rt_does "$unchanged"
    : >calls
    run "$card" log "$day"
    expect_day
    expect 'calls of rt where nothing has changed' '' "$(cat calls)"
    # A file that is new, or has other contents, and a program that is not the one that the gate has built.
    echo new >"$own/crates/zone/src/lib.rt"
    run "$card" log "$day"
    expect_day
    rm "$own/crates/zone/src/lib.rt"
    echo '# Another comment.' >>"$own/crates.txt"
    run "$card" log "$day"
    expect_day
    sed '$d' "$own/crates.txt" >crates.txt
    cp crates.txt "$own/"
    run "$card" log "$day"
    expect_day
    expect 'calls of rt where something has' 'run in cardlog
run in cardlog' "$(cat calls)"
    : >calls
    bench_build "$here/one_call.c" "$built" '-DCALL=_exit(7)'
    run "$card" log "$day"
    expect status 7 "$status"
    expect 'calls of rt where the program is another' 'run in cardlog' "$(cat calls)"
}

test_what_changes_during_the_gate_is_proved_again() {
    make_root
    rt_does "echo new >crates/zone/src/lib.rt; $passes"
    run "$card" test
    expect 'status of the gate' 0 "$status"
    rt_does "$unchanged"
    run "$card" log "$day"
    expect_day
    expect 'calls of rt' 'ci
run in cardlog' "$(cat calls)"
}

# A root with one small crate, and no stand-in for rt: the words of the real one are those that the launcher listens for.
test_the_toolchain_proves_and_builds_what_is_run() {
    make_root
    PATH=${PATH#*:}
    rm -r "$own/crates"
    mkdir -p "$own/crates/five/src"
    sed 's/^choose cardlog /choose five /' "$root/card" >"$card"
    echo five: >"$own/crates.txt"
    cat >"$own/crates/five/src/main.rt" <<'END'
#![tactic(auto)]

ghost use Rattle.std.specs.Prelude.{◌≡◌};

use std::io;

fn five() -> u32
    ensures { result ≡ 5 }
{
    5
}

fn main(rt: HostRuntime) -> io::Result<()> {
    let number = five();
    println!(rt; "{number}")
}
END
    run "$card" log </dev/null
    expect 'standard error' 'card: the program is proved before it is run; the 1 crates take some minutes, once
card: 1 of 1: five proved (2 functions)' "$(grep -v '^card: still at work ' err)"
    expect 'standard output' 5 "$(cat out)"
    run "$card" log </dev/null
    expect 'what is proved where nothing has changed' '' "$(grep ' proved (' err)"
    expect 'standard output where nothing has changed' 5 "$(cat out)"
    sed 's/^    5$/    6/' "$own/crates/five/src/main.rt" >main.rt
    cp main.rt "$own/crates/five/src/"
    run "$card" log </dev/null
    expect 'status of what is not proved' 1 "$status"
    expect 'standard output of what is not proved' '' "$(cat out)"
    grep -q '^note: src/main.rt:.* it is not proved that ' err || wrong "the place is not told: '$(cat err)'"
    grep -q '^card: the check failed, so the program is not run' err || wrong "no failure is told: '$(cat err)'"
}

# ---- the end by a signal

# The launcher has ended and left nothing behind: no file, and no process that reads from the pipe on 6.
expect_the_end() { # EXPECTED STATUS, STATUS
    expect status "$1" "$2"
    expect 'what is left in the folder for temporary files' '' "$(ls temporary)"
    expect 'what is left in target' 'card.log ' "$(ls "$own/target" | tr '\n' ' ')"
    await nobody_reads || wrong 'a process is left behind'
}

nobody_reads() {
    ! (printf 'X\t0\n' >&6) 2>/dev/null
}

# A root whose launcher will be ended. The pipe has a reader here until the launcher reads from it.
make_root_to_end() {
    make_root
    mkdir temporary
    export TMPDIR="$PWD/temporary"
    mkfifo log
    exec 5<>log 6>log
}

test_a_run_that_is_ended_leaves_nothing_behind() {
    make_root_to_end
    "$card" log log >out 2>err 5<&- 6>&- &
    printf 'X\t0\n' >&6
    await [ -s out ] || wrong "no answer: '$(cat err)'"
    exec 5<&-
    kill "$!"
    wait "$!" 2>/dev/null
    expect_the_end 143 "$?"
}

test_a_recipe_that_is_not_waited_for_leaves_nothing_behind() {
    make_root_to_end
    "$card" load log "$night.recipe" >out 2>err 5<&- 6>&- &
    printf 'X\t0\n' >&6
    await grep -q cardload calls || wrong "no check: '$(cat err)'"
    sleep 1
    exec 5<&-
    kill "$!"
    wait "$!" 2>/dev/null
    expect_the_end 143 "$?"
    expect 'standard output' '' "$(cat out)"
}

test_a_run_that_is_interrupted_leaves_nothing_behind() {
    ! is_ignored INT || skip 'since interrupts are ignored here'
    make_root_to_end
    printf 'X\t0\n' >&6
    {
        await [ -s out ]
        kill -s INT "$(cat process)"
    } 5<&- 6>&- &
    sh -c 'echo $$ >process; exec "$0" log log 5<&- 6>&-' "$card" >out 2>err
    status=$?
    exec 5<&-
    expect_the_end 130 "$status"
}

test_a_check_that_is_ended_leaves_nothing_behind() {
    make_root_to_end
    # With a ps, what rt has started ends too.
    rest='exec sleep 30'
    ! command -v ps >/dev/null || rest='sleep 30; :'
    rt_does 'exec <"$stand_ins/log"; : >"$stand_ins/busy"; '"$rest"
    "$card" log "$day" >out 2>err 5<&- 6>&- &
    await [ -e busy ] || wrong "no check: '$(cat err)'"
    exec 5<&-
    kill "$!"
    wait "$!" 2>/dev/null
    expect_the_end 143 "$?"
    expect 'standard output' '' "$(cat out)"
}

# ---- test: the verdict

# ./card test does not pass where rt does and ends so, and runs nothing behind it.
expect_refusal() { # WORDS FOR rt, LAST LINE
    rt_does "echo '$well'; $1"
    run "$card" test
    expect "the last line, where rt does: $1" "$2" "$(tail -n 1 out)"
    expect "status, where rt does: $1" 1 "$status"
    ! grep ' ran$' out || wrong "something ran behind rt, where rt does: $1"
}

test_no_other_verdict_of_rt_passes() {
    make_root
    expect_refusal 'echo "0 passed, 0 failed"; exit 2' '0 passed, 1 failed'
    expect_refusal 'echo "0 passed, 0 failed"' '0 passed, 1 failed'
    expect_refusal 'echo "5 passed, 0 failed"; exit 1' '0 passed, 1 failed'
    expect_refusal 'echo "5 passed, 0 failed"; kill -s KILL $$' '0 passed, 1 failed'
    expect_refusal 'echo "5 passed, 1 failed"; exit 1' '5 passed, 1 failed'
    expect_refusal 'echo "5 passed, 1 failed"' '5 passed, 1 failed'
    expect_refusal 'echo "5 passed, 0 failed"; echo more' '0 passed, 1 failed'
    expect_refusal 'echo "5 passed, 0 failed"; printf more' '0 passed, 1 failed'
    expect_refusal 'echo "nearly 5 passed, 0 failed"' '0 passed, 1 failed'
    expect_refusal 'echo "5 or so passed, 0 failed"' '0 passed, 1 failed'
    expect_refusal 'echo "5 passed, 0 failed (zone and the crates below alone: not the gate)"' '0 passed, 1 failed'
    expect_refusal ':' '0 passed, 1 failed'
    expect_refusal 'exit 2' '0 passed, 1 failed'
}

test_behind_rt_come_the_day_the_launcher_and_the_comparison() {
    make_root
    rt_does "$passes"
    run "$card" test
    expect_all 0 "$well
tests/launcher.sh ran
bench/differential.sh ran
5 passed, 0 failed" ''
    expect 'calls of rt' ci "$(cat calls)"
}

test_what_fails_behind_rt_is_told_and_counted() {
    make_root
    rt_does "$passes"
    echo 'echo the launcher; exit 1' >"$own/tests/launcher.sh"
    run "$card" test
    expect_all 1 "$well
the launcher
card: the launcher does not do what its tests ask
bench/differential.sh ran
5 passed, 1 failed" ''
    echo 'echo the comparison >&2; exit 1' >"$own/bench/differential.sh"
    echo >>"$own/examples/day.log"
    run "$card" test
    expect 'the last lines' 'card: examples/day.log is not answered as examples/day.answers says
the launcher
card: the launcher does not do what its tests ask
the comparison
card: the log program and its witness in C differ
5 passed, 3 failed' "$(tail -n 6 out)"
    expect status 1 "$status"
}

test_a_sample_recipe_that_is_answered_otherwise_is_told_and_counted() {
    make_root
    rt_does "$passes"
    for name_of in night night-refused; do
        cp "$root/examples/$name_of.recipe" "$own/examples/"
        echo >>"$own/examples/$name_of.recipe"
        run "$card" test
        expect 'the last lines' 'card: a recipe of examples/ is not answered as its answer there says
tests/launcher.sh ran
bench/differential.sh ran
5 passed, 1 failed' "$(tail -n 4 out)"
        expect status 1 "$status"
        cp "$root/examples/$name_of.recipe" "$own/examples/"
    done
    run "$card" test
    expect_all 0 "$well
tests/launcher.sh ran
bench/differential.sh ran
5 passed, 0 failed" ''
}

test_a_verdict_without_the_line_that_all_is_well_does_not_pass() {
    make_root
    well='rt: all is well'
    expect_refusal 'echo "5 passed, 0 failed"' '0 passed, 1 failed'
}

test_wrong_programs_that_could_not_be_tried_are_told_and_counted() {
    make_root
    words='rt: ok; handles allowed: none; must-fail edits'
    for said in '7 refused, 1 bad' '7 refused, 2 of them only by a limit, 1 bad'; do
        well="$words: $said; done in this run: 0 of the 9 proofs and 0 of the 8 must-fail edits"
        expect_refusal 'echo "5 passed, 0 failed"' '5 passed, 1 failed'
        expect 'the line before' 'card: wrong programs that could not be tried: 1' "$(tail -n 2 out | head -n 1)"
    done
    well="$words: 7 refused, 10 bad; every proof and must-fail edit was done in this run"
    expect_refusal 'echo "5 passed, 0 failed"' '5 passed, 10 failed'
    for said in '7 refused, 0 bad' '7 refused, 2 of them only by a limit, 0 bad' '7 refused, 1 of them only by a limit'; do
        rt_does "echo '$words: $said; every proof and must-fail edit was done in this run'; echo '5 passed, 0 failed'"
        run "$card" test
        expect 'the last line' '5 passed, 0 failed' "$(tail -n 1 out)"
        expect "status, where rt says: $said" 0 "$status"
    done
}

test_a_crate_folder_that_is_not_listed_is_told_before_anything_is_proved() {
    make_root
    mkdir "$own/crates/oven"
    run "$card" test
    expect_all 1 'card: crates/oven is not listed in crates.txt
0 passed, 1 failed' ''
    expect 'calls of rt' '' "$(cat calls)"
}

test_lines_of_rt_come_as_they_are_printed_but_for_the_last() {
    make_root
    rt_does 'echo "rt: one"; echo "rt: two"
for turn in 1 2 3 4 5 6 7 8 9; do grep -q "rt: one" "$stand_ins/out" || sleep 1; done
grep -q "rt: one" "$stand_ins/out" && echo "one was seen"
'"$passes"
    run "$card" test
    expect_all 0 "rt: one
rt: two
one was seen
$well
tests/launcher.sh ran
bench/differential.sh ran
5 passed, 0 failed" ''
}

# ---- the program itself

test_the_program_needs_little_stack() {
    (
        # The environment stands on the stack too, and is not the program's.
        for variable in $(env | sed -n 's/^\([A-Za-z_][A-Za-z0-9_]*\)=.*/\1/p'); do unset "$variable"; done
        ulimit -s 195 || exit 1
        "$program" <"$day"
    ) >out 2>err
    status=$?
    expect_day
}

# ---- all of them

program=$root/crates/cardlog/out/cardlog speaker=$root/crates/cardsay/out/cardsay loader=$root/crates/cardload/out/cardload
for words in log 'say 300' 'load /dev/null /dev/null'; do
    # shellcheck disable=SC2086
    "$root/card" $words </dev/null >/dev/null || exit 1
done
# shellcheck disable=SC2046
[ $# -gt 0 ] || set -- $(sed -n 's/^\(test_[a-z0-9_]*\)() {$/\1/p' "$here/launcher.sh")
passed=0 failed=0
for name in "$@"; do
    (mkdir "$room/$name" && cd "$room/$name" && { "$name" || wrong 'it failed'; })
    case $? in
    0) passed=$((passed + 1)) ;;
    77) ;;
    *) failed=$((failed + 1)) ;;
    esac
done
[ "$failed" -eq 0 ] || {
    printf 'card: %s of %s tests of the launcher failed\n' "$failed" "$#"
    exit 1
}
printf 'card: %s tests of the launcher passed\n' "$passed"
