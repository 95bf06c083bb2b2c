# shellcheck shell=sh
# Sourced at the top of the repository. The library's archive and the kit that builds it are for x86-64 alone.
# EMULATOR, if it is set, is an emulator under which programs run, and which bench/run counts by; the kit brings none.

mkdir -p target/c

install_package() { # PACKAGE..
    echo "installing $*" >&2
    { apt-get update && apt-get install -y "$@"; } >target/c/install.log 2>&1 ||
        { tail -n 20 target/c/install.log >&2; return 1; }
}

if [ "$(uname -m)" != x86_64 ]; then
    echo "this machine is $(uname -m): the kit and the library's archive are for x86-64 alone" >&2
    exit 1
fi
compiler=${CC:-cc}
emulator=${EMULATOR:-}

build_library() {
    ./kvk build library
}

# build PROGRAM SOURCE..: into target/c, with the library.
build() {
    program=$1
    shift
    echo "building target/c/$program" >&2
    "$compiler" -std=c99 -O2 -Wall -Wextra -Wpedantic -Wconversion -Wshadow -Werror -Iinclude -Isecond -Itests \
        "$@" target/staticlib/libkvk.a -o "target/c/$program"
}

# All of the second program but what makes a program of it.
second_parts=$(find second -name '*.c' ! -name main.c ! -name 'selftest*')

build_compare() {
    # shellcheck disable=SC2086
    build compare tests/compare*.c tests/material.c $second_parts
}

# run PROGRAM WORD..
run() {
    program=$1
    shift
    ${emulator:+"$emulator"} "target/c/$program" "$@"
}
