# What the scripts of this folder share: sourced by them in the repository's root.

header=include/tarnoklej.h
crate=capi                    # the crate of the exported functions
kit_machine=x86_64            # the machine on which the kit runs, and for which it compiles
kit_triple=x86_64-unknown-linux-gnu
out=target/targets
all_targets=(x86_64-linux-gnu aarch64-linux-gnu riscv64-linux-gnu wasm64 x86_64-windows-gnu)

fail() { echo "targets: $*" >&2; exit 1; }

# Sets rt, kit and tools: the command, the kit's folder, and its folder of compilers.
find_kit() {
    [ -f "$header" ] || fail "there is no $header here"
    [ "$(uname -m)" = "$kit_machine" ] || fail "the library is built on $kit_machine, and this machine is $(uname -m)"
    rt=$(type -P rt) || fail "rt is missing"
    rt=$(readlink -f "$rt")
    kit=$(cd "$(dirname "$rt")/.." && pwd -P)
    tools=$kit/toolchain/bin
    local tool
    for tool in clang ld.lld llvm-ar; do
        [ -x "$tools/$tool" ] || fail "the kit has no toolchain/bin/$tool"
    done
}

# The words with which the kit has its clang compile a module, for every machine the same.
module_words=(-mllvm -no-trap-after-noreturn -ffunction-sections -fdata-sections -mllvm -trap-unreachable -mllvm -no-x86-call-frame-opt
    -mllvm -disable-machine-licm -mllvm -disable-postra-machine-licm -mllvm -sink-common-insts=false --no-default-config
    -no-canonical-prefixes -fintegrated-cc1 -fno-crash-diagnostics -Werror)

# The words for C without a C library.
c_words=(--no-default-config -std=c11 -ffreestanding -nostdinc -isystem targets/freestanding -Iinclude -Wall -Wextra -Werror)
