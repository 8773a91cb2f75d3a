# Sourced by the scripts that run a program in C above the proved library: how it is built. $me is the name that they have in what they say.

say() { echo "$me: $1" >&2; }

# fresh FILE SOURCE...: the file is there and newer than all that it is made of.
fresh() {
    made=$1
    shift
    [ -f "$made" ] && [ -z "$(find "$@" -newer "$made")" ]
}

# build_front NAME WHAT: from the repository's root, the proved library and above it target/native/NAME, the program for WHAT, unless they are there.
build_front() {
    library=target/native/libcorrection_c.a
    if command -v rt >/dev/null 2>&1; then
        if ! fresh "$library" crates/*/src crates/*/specs crates/*/proofs crates.txt; then
            say "first use: 'tools/native-lib correction_c' proves and builds the library, which takes minutes"
            tools/native-lib correction_c </dev/null >&2 || { say "the library was not built"; exit 1; }
        fi
    elif [ ! -f "$library" ]; then
        say "the library is built with the Rattle kit, and there is no rt on the PATH"
        exit 1
    fi
    fresh "target/native/$1" "tools/$1.c" tools/front.h include/rungtwine.h "$library" && return
    command -v cc >/dev/null 2>&1 || { say "the program for $2 is built with a C compiler, and there is no cc on the PATH"; exit 1; }
    { cc -std=c11 -O2 -Wall -Wextra -o "target/native/$1.$$" "tools/$1.c" "$library" && mv "target/native/$1.$$" "target/native/$1"; } || {
        rm -f "target/native/$1.$$"
        say "the program for $2 was not built"
        exit 1
    }
}
