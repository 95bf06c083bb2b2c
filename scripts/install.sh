# shellcheck shell=sh disable=SC2154
# Sourced by kvk in the repository: the commands build and install.

command_build() { # build [library]
    case $#,${2-} in
    1,*) build_program ;;
    2,library) build_library ;;
    *) misused "build takes no word, or library" ;;
    esac
}

# A file under the prefix, and its name on standard output.
put() { # MODE FILE PLACE
    install -D -m "$1" "$2" "$prefix/$3" || die "$prefix/$3 could not be written"
    echo "$prefix/$3"
}

# The file that pkg-config reads: it goes by its own place, so that the whole prefix can be moved.
pkgconfig_file() {
    cat <<TEXT
prefix=\${pcfiledir}/../..

Name: kvk
Description: The German insured-person memory card, read and written by a proved library
Version: $version
Cflags: -I\${prefix}/include
Libs: -L\${prefix}/lib -lkvk
TEXT
}

# Text as roff: a command, a number or a tag begins an entry, an empty line a paragraph, a single word a part.
as_roff() {
    sed -e 's/\\/\\\\/g' -e 's/-/\\-/g' -e "s/'/\\\\(aq/g" | awk '
        /^$/ { print ".PP"; next }
        /^[A-Z][a-z]+$/ { print ".SS " $0; next }
        /^kvk / || /^ +[0-9A-F]+  / {
            sub(/^ +/, "")
            head = $0
            sub(/  .*/, "", head)
            print ".TP\n.B " head
            $0 = substr($0, length(head) + 1)
        }
        { sub(/^ +/, "") }
        /./'
}

man_section() { # NAME: its text is standard input
    echo ".SH $1"
    as_roff
}

man_page() {
    echo ".TH KVK 1 \"\" \"kvk $version\" \"User commands\""
    printf '.SH NAME\n%s\n' 'kvk \- reads, makes, shows and compares German insured-person memory cards'
    usage | sed '/^$/,$d' | man_section COMMANDS
    usage | sed -e '1,/^$/d' -e '/^Exit status/,$d' | man_section DESCRIPTION
    usage | sed -n -e 's/^Exit status: //' -e '/^0 accepted/,$p' | man_section 'EXIT STATUS'
    tell_numbers | sed 1,2d | man_section 'NUMBERS OF ANSWERS'
}

put_program() {
    find_loader
    put 755 "$here/kvk" bin/kvk
    put 755 "$program" libexec/kvk/tool
    put 755 "$libraries/ld-linux-x86-64.so.2" libexec/kvk/ld-linux-x86-64.so.2
    put 755 "$libraries/libc.so.6" libexec/kvk/libc.so.6
}

put_library() {
    put 644 "$header" include/kvk.h
    put 644 "$target/staticlib/libkvk.a" lib/libkvk.a
    pkgconfig_file | put 644 /dev/stdin lib/pkgconfig/kvk.pc || exit
}

put_pages() {
    put 644 "$numbers" share/doc/kvk/NUMBERS.md
    tell_build | put 644 /dev/stdin share/doc/kvk/BUILD || exit
    man_page | put 644 /dev/stdin share/man/man1/kvk.1 || exit
}

command_install() { # install PREFIX
    case $#,${2-} in
    2,?*) prefix=$2 ;;
    *) misused "install takes the folder that it puts everything under" ;;
    esac
    mkdir -p "$prefix" 2>/dev/null || die "$prefix cannot be written"
    [ -w "$prefix" ] || die "$prefix cannot be written"
    build_program
    build_library
    put_program
    put_library
    put_pages
    say "kvk $version is installed; for C: PKG_CONFIG_PATH=$prefix/lib/pkgconfig pkg-config --cflags --libs kvk"
}
