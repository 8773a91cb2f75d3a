# Sourced from the repository's root by the scripts that build and compare: what they need and how they end. $me is the script's name in what it says.
# Exit status: 0 passed; 77 skipped, since something that it needs is not here; 78 passed, with a part left out for that reason; any other failed.

# here NAME: whether there is a program of that name.
here() {
    command -v "$1" >/dev/null 2>&1
}

# skip WHY: ends the script as skipped.
skip() {
    echo "$me: skipped, $1" >&2
    exit 77
}

# need NAME...: skips the script where one of these programs is missing.
need() {
    for name in "$@"; do
        here "$name" || skip "there is no $name here"
    done
}

# leave_out WHAT: a part cannot be run here, which `passed` tells.
left_out=
leave_out() {
    left_out=$left_out${left_out:+; }$1
}

# passed: ends a script in which nothing failed.
passed() {
    [ -n "$left_out" ] || exit 0
    echo "$me: passed without $left_out" >&2
    exit 78
}

# find_original: whether the original is here; $original is then the folder of its sources. One that is named and missing, or is there in part, is an error.
find_original() {
    original=${RUNGTWINE_ORIGINAL:-../shared/docs/src}
    [ -n "${RUNGTWINE_ORIGINAL:-}" ] || [ -d "$original" ] || return 1
    original=$(cd "$original/crates/bymsdfgen-core/src" && pwd -P) || exit 1
}

# quietly LOG WORD...: runs the words and shows what they say where they do not end with status 0, with which the script ends too.
quietly() {
    log=$1
    shift
    mkdir -p "${log%/*}"
    "$@" >"$log" 2>&1 || {
        status=$?
        cat "$log" >&2
        exit "$status"
    }
}

# proved_library NAME: makes target/native/libNAME.a, unless it is newer than all that it is made of: the crates' own files, their list and rt.
proved_library() {
    [ -f "target/native/lib$1.a" ] && [ -z "$(find crates/*/src crates/*/specs crates/*/proofs crates.txt "$(command -v rt)" -newer "target/native/lib$1.a")" ] && return
    quietly "target/native/$1.log" tools/native-lib "$1"
}

# compile_rust FILE OUT WORD...: compiles for release.
compile_rust() {
    file=$1
    out=$2
    shift 2
    mkdir -p "${out%/*}"
    rustc --edition 2021 -C opt-level=3 "$@" -o "$out" "$file"
}
