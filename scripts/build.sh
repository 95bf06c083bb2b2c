# shellcheck shell=sh disable=SC2154
# Sourced by kvk in the repository. Rt builds in the folders of the crates, one run at a time, and what is built goes into target/
# when all of it is proved: whatever interrupts a build leaves target/ as it was, and rt goes on there with what it had proved.

target=$root/target
fresh=''
log=''
job=''
progress=''

# What a proof reads. Beside it a crate's folder has what rt keeps there, which changes with each build.
find_sources() { # TEST..
    find "$root"/crates/*/src "$root"/crates/*/specs "$root"/crates/*/proofs "$root/crates.txt" "$@"
}

is_built() { # PRODUCT
    test -s "$target/$1" && test -z "$(find_sources -newer "$target/$1" | head -n 1)"
}

# Progress

# How many crates a crate needs, itself among them.
count_crates() { # CRATE
    awk -F: -v wanted="$1" '
        function visit(name, list, i, n) {
            if (!(name in needs) || seen[name]++)
                return
            count++
            n = split(needs[name], list, " ")
            for (i = 1; i <= n; i++)
                visit(list[i])
        }
        !/^#/ { sub(/ .*/, "", $1); needs[$1] = $2 }
        END { visit(wanted); print count }' "$root/crates.txt"
}

# How far rt is, by its log, where each crate has its heading once it is done.
how_far() { # CRATES
    [ -z "$log" ] || echo ", $(grep '^== [a-z0-9_]*$' "$log" | grep -cv summary) of $1 crates proved"
}

# Says each second on a terminal, and each half minute elsewhere, what is going on; until it is killed or this script has ended.
tell_progress() { # TEXT CRATES
    seconds=0
    while kill -0 $$ 2>/dev/null; do
        if [ -t 2 ]; then
            printf '\r\033[Kkvk: %s: %s s%s' "$1" $seconds "$(how_far "$2")" >&2
        elif [ $((seconds % 30)) -eq 0 ] && [ $seconds -gt 0 ]; then
            say "$1: $seconds s$(how_far "$2")"
        fi
        sleep 1
        seconds=$((seconds + 1))
    done
}

show_progress() { # TEXT CRATES
    tell_progress "$@" >/dev/null 9>&- &
    progress=$!
}

hide_progress() {
    [ -n "$progress" ] || return 0
    kill "$progress" 2>/dev/null
    wait "$progress" 2>/dev/null
    progress=''
    [ ! -t 2 ] || printf '\r\033[K' >&2
}

# Jobs: a job has a process group of its own, so that all of it can be ended.

attend() { # PROCESS
    job=$1
    wait "$job"
    status=$?
    job=''
    return $status
}

end_job() {
    [ -n "$job" ] || return 0
    kill -s TERM -- "-$job" 2>/dev/null
    wait "$job" 2>/dev/null
    tries=50
    while [ $tries -gt 0 ] && kill -s 0 -- "-$job" 2>/dev/null; do
        sleep 0.1
        tries=$((tries - 1))
    done
    kill -s KILL -- "-$job" 2>/dev/null
    job=''
}

tidy() {
    end_job
    hide_progress
    [ -z "$fresh" ] || rm -rf "$fresh"
    fresh=''
}

interrupted() { # STATUS
    trap '' INT TERM HUP
    tidy
    [ -z "$log" ] || rm -f "$log"
    say "interrupted; target is as it was"
    trap - EXIT
    exit "$1"
}

watch_signals() {
    trap 'interrupted 130' INT
    trap 'interrupted 143' TERM
    trap 'interrupted 129' HUP
    trap tidy EXIT
}

# The lock

need_target() { # WHAT
    mkdir -p "$target" 2>/dev/null
    (: >>"$target/kvk.lock") 2>/dev/null || die "the $1 is to be built, and $target cannot be written"
}

# Descriptor 9 holds the lock until it is closed.
take_lock() {
    exec 9>>"$target/kvk.lock"
    flock -n 9 && return
    say "another run is building; this one waits for it"
    show_progress "waiting for another run" 0
    setsid flock 9 &
    attend $!
    hide_progress
}

give_lock() {
    exec 9>&-
}

# The build

# A folder for what is built. Nobody else builds now, so that other such folders are left over.
make_fresh() {
    rm -rf "$target"/build.*
    fresh=$(mktemp -d "$target/build.XXXXXX") || die "$target cannot be written"
    touch "$fresh/began"
}

# As many checks at a time as there are processors, and three gigabytes of memory for each.
at_once() {
    awk -v most="$(nproc)" '/^MemAvailable:/ { fit = int($2 / 3000000) } END { n = fit < most ? fit : most; print n < 1 ? 1 : n }' /proc/meminfo
}

# Proves the crates that a crate needs, lowest first, several at a time, and then builds it.
prove() { # WHAT CRATE COMMAND WORD..
    what=$1
    crate=$2
    shift 2
    log=$(mktemp "$target/kvk-log.XXXXXX") || die "$target cannot be written"
    crates=$(count_crates "$crate")
    say "building the $what: $crates crates have to be proved, which takes a quarter of an hour and more from nothing"
    show_progress "building the $what" "$crates"
    # shellcheck disable=SC2016
    setsid env -C "$root/crates/$crate" sh -c 'rt all check --jobs "$1" || exit; shift; rt "$@"' sh "$(at_once)" "$@" </dev/null >"$log" 2>&1 9>&- &
    attend $!
    status=$?
    hide_progress
    return $status
}

# What is built is as old as the moment when the build began: an edit in the meantime is newer.
move_into_place() { # MADE PRODUCT
    mkdir -p "$target/$(dirname "$2")"
    cp "$root/crates/$1" "$fresh/made" && touch -r "$fresh/began" "$fresh/made" && mv "$fresh/made" "$target/$2"
}

# Rt has no command that builds a program and does not run it: how a run ends says nothing of the build, and its log does.
has_built() { # STATUS MADE
    [ "$1" -eq 0 ] || grep -q "^rt: running $2;" "$log"
}

build_locked() { # WHAT PRODUCT CRATE MADE COMMAND WORD..
    make_fresh
    what=$1
    product=$2
    crate=$3
    made=$4
    shift 4
    prove "$what" "$crate" "$@"
    if ! has_built $? "$made" || [ ! -s "$root/crates/$crate/$made" ]; then
        tail -n 10 "$log" >&2
        die "the $what was not built; $log has all that rt said"
    fi
    move_into_place "$crate/$made" "$product" || die "what was built could not be moved to $target"
    rm -f "$log"
    log=''
}

build() { # WHAT PRODUCT CRATE MADE COMMAND WORD..
    is_built "$2" && return
    need_target "$1"
    watch_signals
    take_lock
    is_built "$2" || build_locked "$@"
    tidy
    give_lock
    trap - INT TERM HUP EXIT
}

need_commands() {
    for name in rt flock setsid; do
        command -v $name >/dev/null || die "the command $name is not there"
    done
}

build_program() {
    need_commands
    build program bin/tool tool out/tool run -- length 00
}

build_library() {
    need_commands
    build library staticlib/libkvk.a kvk_c out/libkvk_c.a lib
}
