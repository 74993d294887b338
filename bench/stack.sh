#!/bin/sh
# How much of its stack the checker uses: proves every crate again and prints, for each, the most that was seen.
#
#     sh bench/stack.sh
#
# The checker runs on a thread whose stack is one mapping of 1,024 MiB. A page of it that was used once stays
# resident, so the resident size of that mapping (at an address that begins with 7: the checker has another one of that
# size below), read from /proc while the checker is at work, is the most that it has used so far. What is used in the
# last moments before the checker ends may be missed. The crates are proved by rt ci --anew, in a copy of the repository
# without its wrong programs; it takes as long as the first proof of all.
set -u
unset CDPATH

here=$(cd "$(dirname "$0")" && pwd -P) || exit 1
copy=$(mktemp -d) && copy=$(cd "$copy" && pwd -P) || exit 1
trap 'rm -rf "$copy"' EXIT
trap 'exit 1' HUP INT TERM
for file in crates.txt HANDLES; do
    [ ! -f "$here/../$file" ] || cp "$here/../$file" "$copy/" || exit 1
done
for part in "$here"/../crates/*/*; do
    folder=$copy/crates/$(basename "$(dirname "$part")")
    case ${part##*/} in
    must-fail | out) ;;
    *) mkdir -p "$folder" && cp -R "$part" "$folder/" || exit 1 ;;
    esac
done

# One line for each checker that is at work on the copy: its crate, and the resident KiB of its stack.
look() {
    for maps in /proc/[0-9]*/smaps; do
        folder=$(readlink "${maps%smaps}cwd") || continue
        case $folder in "$copy"/crates/*) ;; *) continue ;; esac
        awk -v crate="${folder##*/}" '
            /^7[0-9a-f]*-7[0-9a-f]* rw-p / { mapped = 1 }
            /^[0-9a-f]*-[0-9a-f]* / && !/^7[0-9a-f]*-7[0-9a-f]* rw-p / { mapped = 0 }
            mapped && /^Size: +1048576 kB/ { stack = 1 }
            mapped && stack && /^Rss:/ { print crate, $2; stack = 0 }' "$maps" 2>/dev/null
    done
}

cd "$copy" || exit 1
rt ci --anew >log 2>&1 &
checking=$!
: >seen
while kill -0 "$checking" 2>/dev/null; do
    look >>seen 2>/dev/null
    sleep 0.2 2>/dev/null || sleep 1
done
wait "$checking"
status=$?
awk '$2 > most[$1] { most[$1] = $2 }
    END { for (crate in most) printf "%-10s %7.1f MiB of 1,024\n", crate, most[crate] / 1024 }' seen | sort
[ "$status" -eq 0 ] || {
    tail -n 3 log
    printf 'bench: the crates are not proved\n'
}
exit "$status"
