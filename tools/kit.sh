# Sourced from the repository's root by scripts that use the Rattle kit: a static library or a program proved and made by it, and the LLVM module of a library.
rt=$(command -v rt) || { echo "${0##*/}: there is no rt on the PATH" >&2; exit 1; }
kit=$(dirname "$(dirname "$(readlink -f "$rt")")")
toolchain=$kit/toolchain

# library_by RT NAME: proves the static library NAME and makes crates/NAME/out/libNAME.a, for the processor of this machine. rt itself compiles for x86-64.
library_by() {
    set -- "$1" "$2" "$(uname -m)"
    if [ "$3" = x86_64 ]; then
        (cd "crates/$2" && "$1" lib)
    else
        (cd "crates/$2" && "$1" lib --target "$3-unknown-linux-gnu")
    fi
}

# built_program NAME: proves the program NAME and makes crates/NAME/out/NAME. rt also runs what it has built, here on an empty input, and ends as that run
# does: that there is a program again tells that it was built.
built_program() {
    rm -f "crates/$1/out/$1"
    (cd "crates/$1" && "$rt" run </dev/null >/dev/null) || :
    [ -f "crates/$1/out/$1" ]
}

# keep_module NAME: $stand/module.bc, the LLVM module that rt compiles on its way to the proved static library NAME, and $stand/flags, how it compiles it.
# rt proves the library, and then makes it once more over a stand-in for the kit, whose clang keeps both: rt takes for the kit what its own file lies in, so
# that file is a copy there, as is the one that it loads from beside itself, and all others are links.
keep_module() {
    library_by "$rt" "$1" || return
    stand=$(mktemp -d)
    trap 'rm -rf "$stand"' EXIT
    mkdir -p "$stand/kit/bin" "$stand/kit/toolchain/bin"
    for file in "$kit"/* "$kit"/bin/* "$toolchain"/* "$toolchain"/bin/*; do
        case $file in
        "$kit/bin" | "$toolchain" | "$toolchain/bin" | "$toolchain/bin/clang") ;;
        "$kit/bin/rt" | "$kit"/bin/*.py) cp "$file" "$stand/kit/bin/" ;;
        *) ln -s "$file" "$stand/kit/${file#"$kit"/}" ;;
        esac
    done
    cat >"$stand/kit/toolchain/bin/clang" <<STAND_IN
#!/bin/sh
for word in "\$@"; do
    case \$word in *.bc) cp "\$word" "$stand/module.bc" && printf '%s\n' "\$@" >"$stand/words" ;; esac
done
exec "$toolchain/bin/clang" "\$@"
STAND_IN
    chmod +x "$stand/kit/toolchain/bin/clang"
    library_by "$stand/kit/bin/rt" "$1" || return
    [ -f "$stand/module.bc" ] || { echo "${0##*/}: no module was compiled on the way" >&2; return 1; }
    # Its words but those that name the files and tell what to make of them.
    sed -e '/^-o$/{N;d;}' -e '/^-c$/d' -e '/\.bc$/d' "$stand/words" >"$stand/flags"
}

# module_clang FILE OUT WORD...: what the words say of a module, by the kit's own clang, as rt has it compiled otherwise.
module_clang() {
    file=$1
    out=$2
    shift 2
    # shellcheck disable=SC2046 # the flags are separate on purpose
    "$toolchain/bin/clang" $(cat "$stand/flags") "$@" "$file" -o "$out"
}

# module_text OUT: the module that was kept, as text.
module_text() {
    mkdir -p "${1%/*}"
    module_clang "$stand/module.bc" "$1" -S -emit-llvm -Xclang -disable-llvm-passes
}
