# Building the C programs of this folder and looking at what programs wrote. To be sourced: POSIX sh functions, each
# with a name that begins with bench_. They need the Rattle toolchain and nothing else: its clang, its linker and its C
# library. What is built runs by itself, as the proved programs do: over the C library of the machine.

# Says what is wrong and ends the script.
bench_fail() {
    printf 'bench: %s\n' "$1" >&2
    exit 1
}

# Finds the kit, which is where rt says that its guide is, and which has to have a compiler for this machine.
bench_find() {
    command -v rt >/dev/null && bench_kit=$(rt doc </dev/null) || bench_fail "the Rattle toolchain is missing"
    bench_kit=${bench_kit%/*}
    [ "$(uname -m)" = x86_64 ] && [ -x "$bench_kit/toolchain/bin/clang" ] ||
        bench_fail "the Rattle toolchain has no compiler for this machine, $(uname -m)"
}

# Compiles a C file for x86-64 Linux and links it, as rt compiles and links a proved program: the same clang, -O3 for
# the same processor, x86-64-v2, the same linker over the same C library. No header of the machine is read.
bench_build() { # SOURCE PROGRAM [WORDS FOR CLANG...]
    bench_source=$1 bench_program=$2
    shift 2
    "$bench_kit/toolchain/bin/clang" --no-default-config --target=x86_64-unknown-linux-gnu -march=x86-64-v2 -std=c11 \
        -O3 -fPIE -ffunction-sections -fdata-sections -nostdinc -Wall -Wextra -Werror "$@" -c -o "$bench_program.o" \
        "$bench_source" || bench_fail "$bench_source does not compile"
    bench_said=$("$bench_kit/bin/rattle-link" --target x86_64-unknown-linux-gnu --toolchain "$bench_kit/toolchain" \
        -o "$bench_program" "$bench_program.o" 2>&1) || bench_fail "$bench_source cannot be linked: $bench_said"
    rm -f "$bench_program.o"
}

# The number of lines of a file; a last one without its line feed counts.
bench_lines() { # FILE
    bench_count=$(wc -l <"$1")
    [ ! -s "$1" ] || [ "$(tail -c 1 "$1" | wc -l)" -eq 1 ] || bench_count=$((bench_count + 1))
    printf '%s\n' "$((bench_count))"
}

# One line of a file made printable, with \t for a tab, octal escapes for other control bytes and bytes above 7F, and
# cut where it is long; told to be missing where the file has fewer lines.
bench_show() { # FILE NUMBER
    [ "$2" -le "$(bench_lines "$1")" ] || {
        printf '(there is none)\n'
        return
    }
    LC_ALL=C sed -n "$2{l;q;}" "$1" | LC_ALL=C sed -e ':more' -e '/\\$/{N;s/\\\n//;b more' -e '}' -e 's/\$$//' |
        LC_ALL=C sed 's/^\(.\{200\}\).*/\1.../'
}
