# What targets/check needs of Debian, machine by machine: sourced in the repository's root, behind common.sh.

# The commands that a machine's runs need, and the packages that have them.
commands_for() { # NAME
    case $1 in
    x86_64-linux-gnu) echo gcc g++ readelf ;;
    aarch64-linux-gnu) echo aarch64-linux-gnu-gcc aarch64-linux-gnu-objdump qemu-aarch64 ;;
    riscv64-linux-gnu) echo riscv64-linux-gnu-gcc qemu-riscv64 ;;
    wasm64) echo node ;;
    x86_64-windows-gnu) echo x86_64-w64-mingw32-gcc x86_64-w64-mingw32-objdump wine wineserver ;;
    esac
}
packages_for() { # NAME
    case $1 in
    x86_64-linux-gnu) echo gcc g++ libc6-dev binutils ;;
    aarch64-linux-gnu) echo gcc-aarch64-linux-gnu libc6-dev-arm64-cross qemu-user ;;
    riscv64-linux-gnu) echo gcc-riscv64-linux-gnu libc6-dev-riscv64-cross qemu-user ;;
    wasm64) echo nodejs ;;
    x86_64-windows-gnu) echo gcc-mingw-w64-x86-64 wine wine64 ;;
    esac
}

# The commands for a machine that are missing.
missing_for() { # NAME
    local command
    for command in $(commands_for "$1"); do
        type -P "$command" >/dev/null || printf '%s ' "$command"
    done
    [ "$1" != wasm64 ] || ! type -P node >/dev/null || find_node || printf 'a Node.js with memories of 64 bits '
}

# Sets run_node, the words that run Node.js with memories of 64 bits: newer ones need no option for it, and may refuse it.
find_node() {
    local empty_module='new WebAssembly.Module(Uint8Array.of(0, 97, 115, 109, 1, 0, 0, 0, 5, 3, 1, 4, 1))'
    run_node=(node)
    "${run_node[@]}" -e "$empty_module" 2>/dev/null && return
    run_node=(node --experimental-wasm-memory64)
    "${run_node[@]}" -e "$empty_module" 2>/dev/null
}

install_packages() { # PACKAGE..
    local install=(apt-get install -y -q --no-install-recommends -o DPkg::Lock::Timeout=120 "$@")
    mkdir -p target
    "${install[@]}" >target/packages.log 2>&1 || { apt-get update -q && "${install[@]}"; } >>target/packages.log 2>&1
}

# Installs what is missing, and sets machines, those that can be run. A machine for which something cannot be installed is left out
# where TARNOKLEJ_SKIP_TARGETS=1 allows it.
find_machines() {
    local name
    machines=()
    for name in "${all_targets[@]}"; do
        # shellcheck disable=SC2046
        [ -z "$(missing_for "$name")" ] || install_packages $(packages_for "$name") || true
        if [ -z "$(missing_for "$name")" ]; then
            machines+=("$name")
        elif [ "${TARNOKLEJ_SKIP_TARGETS:-}" = 1 ] && [ "$name" != x86_64-linux-gnu ]; then
            skipped+=("$name is not run, since this is missing: $(missing_for "$name")")
        else
            fail "missing and not to be installed, for $name: $(missing_for "$name"); TARNOKLEJ_SKIP_TARGETS=1 leaves such a machine out"
        fi
    done
}
