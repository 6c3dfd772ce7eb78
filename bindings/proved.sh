# What is built from the proved crates: sourced in the repository's root, behind targets/common.sh and find_kit.
#
# `rt ci`, `rt lib` and `rt run` leave each library that they proved in crates/NAME/out/rlib, and a program in crates/NAME/out/NAME.
# target/proved/NAME says of which files what stands there for a crate and those below it was proved, so that nothing is proved
# twice, and nothing is built of anything else.

# One number for all that is proved: the kit, the list of crates, and their files.
sources() {
    {
        cat "$kit/KIT-ID" crates.txt
        find crates -path 'crates/*/out' -prune -o -type f -print0 | LC_ALL=C sort -z | xargs -0 sha256sum
    } | sha256sum | cut -d ' ' -f 1
}

# The crates that a crate uses, directly or through others; each behind those that it uses. With `direct`, those that it names.
crates_below() { # NAME [direct]
    awk -v top="$1" -v direct="${2:-}" '
        function visit(name,    each, count, i) {
            count = split(uses[name], each, " ")
            for (i = 1; i <= count; i++)
                if (!(each[i] in seen)) {
                    seen[each[i]] = 1
                    if (direct == "") visit(each[i])
                    print each[i]
                }
        }
        { sub(/#.*/, "") }
        split($0, part, ":") == 2 { split(part[1], word, " "); uses[word[1]] = part[2] }
        END { visit(top) }' crates.txt
}

# One number for the sources, for the libraries that stand below a crate, and for the program of its name, if it is one.
standing() { # NAME
    local name
    {
        sources
        for name in $(crates_below "$1"); do
            # The format of a library has a sum of its files.
            sha256sum "crates/$name/out/rlib/$name.rlib/format" 2>&1 || true
        done
        [ ! -f "crates/$1/src/main.rt" ] || sha256sum "crates/$1/out/$1" 2>&1 || true
    } | sha256sum | cut -d ' ' -f 1
}

note_proved() { # NAME
    mkdir -p target/proved
    standing "$1" >"target/proved/$1"
}

is_proved() { # NAME
    [ -f "target/proved/$1" ] && [ "$(cat "target/proved/$1")" = "$(standing "$1")" ]
}

# Proves the library, if it is not: what stands below it is then what it is built from.
prove_library() {
    is_proved "$crate" || { (cd "crates/$crate" && "$rt" lib --cpu x86-64) </dev/null && note_proved "$crate"; }
}

# Builds the library's archive from what was proved, as `rt lib --cpu x86-64` does, by the clang of a folder. The check of the crate
# itself is a part of it, so that only a proved library is built.
build_archive() { # TOOLCHAIN ARCHIVE
    local name words=(--crate-name "$crate" src/lib.rt --extern "std=$kit/rlibs/std.rlib" -L "dependency=$kit/rlibs")
    for name in $(crates_below "$crate" direct); do
        words+=(--extern "$name=$PWD/crates/$name/out/rlib/$name.rlib")
    done
    for name in $(crates_below "$crate"); do
        words+=(-L "dependency=$PWD/crates/$name/out/rlib")
    done
    words+=(--antt-project "$kit/rattle/logic/antt-project.json" --logic-built "$kit/logic_built" --jobs 2 --links "$crate="
        --crate-type staticlib --cpu x86-64 --toolchain "$1" --backend llvm --incremental out/incremental -o "$2")
    mkdir -p "crates/$crate/out/incremental"
    (cd "crates/$crate" && "$kit/bin/rattle" build "${words[@]}") </dev/null
}

# A folder in the place of the kit's toolchain, in which clang is a script that is read from standard input.
toolchain_with() { # FOLDER
    mkdir -p "$1/bin"
    ln -s "$kit/toolchain/lib" "$1/lib"
    local each
    for each in "$tools"/*; do
        [ "${each##*/}" = clang ] || ln -s "$(readlink -f "$each")" "$1/bin/${each##*/}"
    done
    cat >"$1/bin/clang"
    chmod 755 "$1/bin/clang"
}
