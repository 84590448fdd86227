#!/bin/sh
# Writes the library for the machine at hand, target/native/libleafanchor.a. `tools/native.sh MACHINE` writes the one
# for another machine, x86_64 or aarch64, to target/for-MACHINE. The shipped library, target/staticlib/libleafanchor.a,
# is written too: it is what `rt lib` makes in crates/leafanchor, for x86-64, and there it is the one. For another
# machine the kit's own compiler makes one of the same LLVM module; the module hands over an answer of more than 16
# bytes as x86-64 does, so a shim in C, written from the header by tools/shim.awk, gives those calls the header's form.
# On every machine the shim is made, since that holds the header against the module. CC names the C compiler of the
# machine.
set -eu
cd "$(dirname "$0")/.."

here=$(uname -m)
machine=${1-$here}
folder=target/native
[ "$machine" = "$here" ] || folder=target/for-$machine

say() { printf 'native: %s\n' "$*"; }
die() { printf 'native: %s\n' "$*" >&2; exit 1; }

# quietly WORDS: runs them; what they say is shown where they fail.
quietly() {
    "$@" >"$room/log" 2>&1 || { cat "$room/log" >&2; die "this failed: $*"; }
}

# in_crate WORDS: runs them in the folder of the exported calls.
in_crate() { (cd crates/leafanchor && "$@"); }

# A kit like the one at hand, by links, whose compiler also keeps the module that it is given.
keeping_kit() {
    mkdir -p "$room/kit/bin" "$room/kit/toolchain/bin"
    cp "$kit/bin/rt" "$kit/bin/rtlib.py" "$room/kit/bin"
    printf '#!/bin/sh\ncp module.bc "%s/module.bc"\nexec "%s" "$@"\n' "$room" "$clang" >"$room/kit/toolchain/bin/clang"
    chmod +x "$room/kit/toolchain/bin/clang"
    for part in "$kit"/* "$kit/bin"/* "$kit/toolchain"/* "$kit/toolchain/bin"/*; do
        [ -e "$room/kit/${part#"$kit"/}" ] || ln -s "$part" "$room/kit/${part#"$kit"/}"
    done
}

# compiled WORDS: the kit's compiler on the module, for the machine, with the words that the kit has for x86-64, but for those
# that only x86-64 knows.
compiled() {
    quietly "$clang" --target="$machine-unknown-linux-gnu" --no-default-config -Wno-override-module -O3 -fPIC \
        -ffunction-sections -fdata-sections -mllvm -trap-unreachable -mllvm -no-trap-after-noreturn \
        -mllvm -disable-machine-licm -mllvm -disable-postra-machine-licm -mllvm -sink-common-insts=false \
        -x ir "$room/module.bc" "$@"
}

# The shim, and in the file `behind` the calls that it stands before.
shim() {
    compiled -S -emit-llvm -Xclang -disable-llvm-passes -o "$room/module.ll"
    "$cc" -std=c11 -E -P include/leafanchor.h >"$room/header.i"
    : >"$room/behind"
    awk -v machine="$machine" -v behind="$room/behind" -f tools/shim.awk "$room/module.ll" "$room/header.i" >"$room/shim.c"
    quietly "$cc" -std=c11 -O2 -fPIC -Wall -Wextra -Wpedantic -Werror -Iinclude -c "$room/shim.c" -o "$room/shim.o"
}

# The module for the machine, with the shim before the calls that need it.
library() {
    compiled -c -o "$room/leafanchor.o"
    ln -s "$clang" "$room/llvm-objcopy"
    quietly "$room/llvm-objcopy" --redefine-syms="$room/behind" "$room/leafanchor.o"
    quietly "$kit/toolchain/bin/llvm-ar" rcs "$room/libleafanchor.a" "$room/leafanchor.o" "$room/shim.o"
}

case $machine in
x86_64 | aarch64) ;;
*) die "no library can be made for $machine: the machines are x86_64 and aarch64" ;;
esac
cc=cc
[ "$machine" = "$here" ] || cc=$machine-linux-gnu-gcc
cc=${CC:-$cc}
command -v "$cc" >/dev/null || die "no C compiler for $machine: $cc is not there (CC can name another)"
command -v rt >/dev/null || die "rt is not in the path: the Rattle kit has it"
kit=$(dirname "$(rt doc)")
clang=$kit/toolchain/bin/clang
room=$(mktemp -d)
trap 'rm -rf "$room"' EXIT

# For every processor that there is. What is proved and built by the kit at hand serves the other.
quietly in_crate rt lib --cpu=x86-64
keeping_kit
quietly in_crate "$room/kit/bin/rt" lib --cpu=x86-64
mkdir -p "$folder" target/staticlib
cp crates/leafanchor/out/libleafanchor.a target/staticlib
shim
if [ "$machine" = x86_64 ]; then
    cp target/staticlib/libleafanchor.a "$room"
else
    library
fi
mv "$room/libleafanchor.a" "$folder/libleafanchor.a"
say "$folder/libleafanchor.a is for $machine"
