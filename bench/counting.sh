# shellcheck shell=sh disable=SC2154
# Sourced behind tests/x86-64.sh. Counts the instructions between the marks of a program: by valgrind, or, where EMULATOR names
# qemu-x86_64, by its log, a line for each instruction. Both count each turn of a string instruction.

build_counter() {
    if [ -n "$emulator" ]; then
        ${CC:-cc} -std=c99 -O2 -Wall -Wextra -Wpedantic -Wconversion -Wshadow -Werror bench/tally.c -o target/c/tally
    else
        command -v valgrind >/dev/null || install_package valgrind
    fi
}

count_by_emulator() { # NAME PROGRAM WORD..
    name=$1
    program=$2
    shift 2
    "$emulator" -one-insn-per-tb -d exec,nochain -D /dev/fd/3 "target/c/$program" "$@" 3>&1 >"target/c/$name.labels" |
        target/c/tally >"target/c/$name.counts"
}

count_by_valgrind() { # NAME PROGRAM WORD..
    name=$1
    program=$2
    shift 2
    rm -rf target/c/callgrind
    mkdir target/c/callgrind
    LD_BIND_NOW=1 valgrind -q --tool=callgrind --compress-strings=no --compress-pos=no --dump-before=mark \
        --callgrind-out-file=target/c/callgrind/out "target/c/$program" "$@" >"target/c/$name.labels"
    bench/table dumps target/c/callgrind/out >"target/c/$name.counts"
}

# count NAME PROGRAM WORD..: what the program says it counts goes to target/c/NAME.labels, a line for each pair of marks, and the
# counts to target/c/NAME.counts.
count() {
    echo "bench: counting instructions, '$1'" >&2
    if [ -n "$emulator" ]; then
        count_by_emulator "$@"
    else
        count_by_valgrind "$@"
    fi
}
