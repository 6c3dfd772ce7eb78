# What is looked at in the files of each machine: sourced by targets/check.

# Stops where the names on standard input are not the header's functions, in any order, and nothing else.
same_names() { # WHAT
    sort -u | diff - <(sort "$runs/names") >&2 || fail "$1 has other names than the header's functions"
}

# The archive defines the header's functions alone for others, and has no memory of its own.
check_archive() { # NAME
    local archive=$out/$1/libtarnoklej.a
    readelf -sW "$archive" | awk '$5 == "GLOBAL" && $6 == "DEFAULT" && $7 != "UND" && $7 != "Ndx" { print $8 }' | same_names "$archive"
    ! readelf -SW "$archive" | grep -E ' (PROGBITS|NOBITS) ' | sed -E 's/^ *\[ *[0-9]+\] //' |
        awk '$7 ~ /W/ && $5 !~ /^0+$/' | grep . >&2 || fail "$archive has memory of its own"
}

# The shared object exports the header's functions alone, needs no other library, is position independent and has its name.
check_shared() { # NAME
    local object=$out/$1/libtarnoklej.so
    readelf --dyn-syms -W "$object" | awk '$5 == "GLOBAL" && $7 != "UND" && $7 != "Ndx" { print $8 }' | same_names "$object"
    readelf -dW "$object" >"$runs/dynamic"
    ! grep -E 'TEXTREL|NEEDED' "$runs/dynamic" >&2 || fail "$object has text relocations, or needs another library"
    grep -q "soname: \[libtarnoklej.so.$(cut -d . -f 1 VERSION)\]" "$runs/dynamic" || fail "$object is not named by VERSION"
}

# Every loaded part of an object is aligned to a size at least.
check_pages() { # OBJECT SIZE
    readelf -lW "$1" | awk '$1 == "LOAD" { print $NF }' >"$runs/pages"
    [ -s "$runs/pages" ] || fail "$1 has no loaded part"
    local align
    while read -r align; do
        [ $((align)) -ge "$2" ] || fail "$1 has a part aligned to $align, not to $2"
    done <"$runs/pages"
}

# Android arm64: register x18 is its own, pages have up to 16 KiB, and an app links the archive into a shared object.
check_android() {
    local archive=$out/aarch64-linux-gnu/libtarnoklej.a
    aarch64-linux-gnu-objdump -d "$archive" >"$runs/code"
    grep -qE '\bx17\b' "$runs/code" || fail "no register is found in the code of $archive"
    ! grep -E '\b[wx]18\b' "$runs/code" >&2 || fail "$archive uses register x18, which Android keeps for itself"
    check_pages "$out/aarch64-linux-gnu/libtarnoklej.so" 16384
    aarch64-linux-gnu-gcc -shared -Wl,-z,text,-z,max-page-size=16384 -Wl,--whole-archive "$archive" -Wl,--no-whole-archive -o "$runs/app.so"
    check_pages "$runs/app.so" 16384
    ! readelf -dW "$runs/app.so" | grep TEXTREL >&2 || fail "$archive is not position independent"
    echo "targets: aarch64-linux-gnu names no register x18, is position independent and has pages of 16 KiB and more, as Android wants"
}

# The DLL exports the header's functions alone and imports nothing.
check_dll() {
    local dll=$out/x86_64-windows-gnu/tarnoklej.dll
    x86_64-w64-mingw32-objdump -p "$dll" >"$runs/dll"
    sed -nE 's/^[[:space:]]+\[ *[0-9]+\] (.*[^A-Za-z0-9_])?(tarnoklej_[a-z_]+)$/\2/p' "$runs/dll" | same_names "$dll"
    ! grep 'DLL Name:' "$runs/dll" >&2 || fail "$dll imports from another DLL"
}
