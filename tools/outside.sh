#!/bin/sh
# Everything outside Rattle, against the library of tools/native.sh on the machine at hand: the header from C and
# C++, the Rust wrapper, the examples, the comparison of every call with an independent reference, and the stack use
# of every call. On a machine that is not x86-64 at the same time the same against the shipped library, which is for
# x86-64: a cross compiler makes the programs and an emulator runs them. `tools/outside.sh MACHINE` holds the library for
# that machine alone, x86_64 or aarch64. `tools/outside.sh tools` only sees to it that the compilers and the emulator
# are there: as root on Debian it installs what is missing, and says so before. Ends with 0 if all holds.
set -eu
cd "$(dirname "$0")/.."

here=$(uname -m)
standards='c99 c11 c17 c2x c++98 c++11 c++17 c++20'
warnings='-O2 -Wall -Wextra -Wpedantic -Wconversion -Werror -Iinclude'

say() { printf 'outside: %s%s\n' "${machine:+$machine: }" "$*"; }
die() { say "$*" >&2; exit 1; }

# at MACHINE: its library, its compilers, and what runs their programs here.
at() {
    machine=$1 triple=$1-unknown-linux-gnu out=$PWD/rust/target/outside/$1
    built=$out/$triple/release
    library=$PWD/target/native/libleafanchor.a
    cc=gcc cxx=g++ emulator='' foreign='' packages='gcc g++ libc6-dev rustc cargo'
    mkdir -p "$out"
    [ "$machine" != "$here" ] || return 0
    case $machine in
    x86_64) foreign=amd64 library=$PWD/target/staticlib/libleafanchor.a ;;
    aarch64) foreign=arm64 library=$PWD/target/for-aarch64/libleafanchor.a ;;
    *) die "there is no library for $machine" ;;
    esac
    cc=$machine-linux-gnu-gcc cxx=$machine-linux-gnu-g++ emulator=qemu-$machine
    # The emulator runs x86-64's string instructions byte by byte: without erms the C library copies by vectors.
    [ "$machine" != x86_64 ] || export QEMU_CPU=max,-erms
    compilers=$(printf 'gcc-%s-linux-gnu g++-%s-linux-gnu' "$machine" "$machine" | tr _ -)
    packages="$compilers libc6-dev-$foreign-cross qemu-user rustc cargo libstd-rust-dev:$foreign"
}

# The first cargo and rustc in the path that have Rust's own library for the machine.
find_rust() {
    rest=$PATH:
    while [ -n "$rest" ]; do
        rust=${rest%%:*} rest=${rest#*:}
        if [ ! -x "$rust/cargo" ] || [ ! -x "$rust/rustc" ]; then continue; fi
        libraries=$("$rust/rustc" --print target-libdir --target "$triple" 2>/dev/null) || continue
        for found in "$libraries"/libstd-*.rlib; do
            [ ! -f "$found" ] || return 0
        done
    done
    return 1
}

# Whether every tool is there, and what the compiler makes can be run.
have_tools() {
    for tool in "$cc" "$cxx" $emulator; do
        command -v "$tool" >/dev/null || return 1
    done
    printf 'int main(void) { return 0; }\n' >"$out/empty.c"
    "$cc" "$out/empty.c" -o "$out/empty" && $emulator "$out/empty" && find_rust
}

# Installs what is missing, where that can be done.
install_tools() {
    if [ "$(id -u)" != 0 ] || ! command -v apt-get >/dev/null; then
        die "tools for $machine are missing; as root on Debian this would install: $packages"
    fi
    say "tools for $machine are missing: installs as root from Debian${foreign:+, with its architecture $foreign}: $packages"
    {
        [ -z "$foreign" ] || dpkg --add-architecture "$foreign"
        apt-get update
        # shellcheck disable=SC2086
        DEBIAN_FRONTEND=noninteractive apt-get install -y --no-install-recommends $packages
    } >"$out/install.log" 2>&1 || die "the installation failed: $out/install.log"
    have_tools || die "tools are still missing after the installation: $out/install.log"
}

# compile_both NAME FILE: as C11 to NAME.c11, as C++17 to NAME.cxx17, no warning allowed.
compile_both() {
    # shellcheck disable=SC2086
    "$cc" -std=c11 $warnings "$2" "$library" -Wl,-z,now -o "$out/$1.c11"
    # shellcheck disable=SC2086
    "$cxx" -std=c++17 $warnings -x c++ "$2" -x none "$library" -static-libstdc++ -o "$out/$1.cxx17"
}

# in_cargo WORDS: cargo, for the machine, with nothing from the network.
in_cargo() {
    command=$1
    shift
    (cd rust && "$rust/cargo" "$command" --quiet --offline --locked --target "$triple" "$@")
}

for_cargo() {
    export RUSTC="$rust/rustc" RUSTDOC="$rust/rustdoc"
    export LEAFANCHOR_LIB_DIR="${library%/*}" CARGO_TARGET_DIR="$out"
    name=$(printf '%s' "$triple" | tr a-z- A-Z_)
    export "CARGO_TARGET_${name}_LINKER=$cc"
    [ -z "$emulator" ] || export "CARGO_TARGET_${name}_RUNNER=$emulator"
}

# alone STANDARD COMPILER WORDS: the header by itself, in this standard.
alone() {
    in=-std=$1
    case $1 in c++*) language=c++ ;; *) language=c ;; esac
    shift
    "$@" "$in" -fsyntax-only -Iinclude -x "$language" "$out/alone.c"
}

# other_machine COMPILER WORDS: for a machine that has no library the header gives one sentence and no other error.
other_machine() {
    for standard in $standards; do
        alone "$standard" "$@" -ffreestanding >"$out/other.txt" 2>&1 && die "the header can be used with $*"
        case $(grep 'error:' "$out/other.txt" | tr '\n' '|') in
        *\|?*) die "the header says more than one sentence in $standard with $*: $out/other.txt" ;;
        *"Leafanchor's library is for"*) ;;
        *) die "the header's sentence is missing in $standard with $*: $out/other.txt" ;;
        esac
    done
}

# The header in every standard, and for machines of 32 bits or with the greater byte first: by the machine's own
# compiler, and natively by the kit's, which knows more machines and takes the other's plain headers.
hold_header() {
    say "the header in every standard, and where there is no library for it"
    printf '#include "leafanchor.h"\n' >"$out/alone.c"
    for standard in $standards; do
        # shellcheck disable=SC2086
        alone "$standard" "$cc" $warnings
    done
    # shellcheck disable=SC2086
    "$cc" -std=c99 $warnings -fsyntax-only tools/every_call.c
    case $machine in
    x86_64) other_machine "$cc" -m32 ;;
    aarch64) other_machine "$cc" -mbig-endian ;;
    esac
    [ -z "$emulator" ] || return 0
    clang=$(dirname "$(rt doc)")/toolchain/bin/clang
    [ -x "$clang" ] || die "the kit's compiler is missing: $clang"
    for target in thumbv7em-none-eabi riscv32 wasm32 x86_64-linux-gnux32 powerpc64; do
        other_machine "$clang" "--target=$target" -nostdinc -isystem "$("$cc" -print-file-name=include)"
    done
}

# The library has no data that could be written, and needs memcpy and memset alone: one function less than the header says at most.
hold_library() {
    "${cc%gcc}nm" "$library" >"$out/names.txt"
    other=$(awk 'NF > 1 && ($(NF - 1) ~ /[BbCDdGgSs]/ ||
        $(NF - 1) == "U" && $NF !~ /^(memcpy|memset|leafanchor_module_[a-z_]+)$/)' "$out/names.txt")
    [ -z "$other" ] || die "the library has data or needs more than memcpy and memset: $other"
}

hold_c() {
    say "the header, from C and C++"
    hold_library
    compile_both layout tools/layout.c
    compile_both every_call tools/every_call.c
    compile_both phrases tools/phrases.c
    compile_both plan_p1 examples/plan_p1.c
    compile_both plan_halves examples/plan_halves.c
    compile_both check_plan examples/check_plan.c
    compile_both choose_opening examples/choose_opening.c
    compile_both plan_tail examples/plan_tail.c
    compile_both make_frame examples/make_frame.c
    compile_both week_sheet examples/week_sheet.c
    for made in c11 cxx17; do
        $emulator "$out/every_call.$made"
        $emulator "$out/phrases.$made" <include/phrases.txt
        $emulator "$out/layout.$made" >"$out/layout.$made.txt"
    done
}

# The wrapper's tests, with overflow checked; on the machine at hand also those in its documentation, the wrapper without
# std, and clippy where it is at hand.
hold_wrapper() {
    say "the wrapper"
    in_cargo test -p leafanchor --lib --tests
    [ -z "$emulator" ] || return 0
    in_cargo test -p leafanchor --doc
    in_cargo check -p leafanchor --no-default-features
    in_cargo check -p leafanchor --no-default-features --features alloc
    if [ -x "$rust/cargo-clippy" ] && "$rust/cargo" clippy --version >/dev/null 2>&1; then
        say "clippy"
        in_cargo clippy --workspace --all-targets -- -D warnings
    fi
}

# stops FOLDER WORDS: with the library's folder this one, the wrapper's build stops and says these words.
stops() {
    if (LEAFANCHOR_LIB_DIR=$1 && in_cargo check -p leafanchor) >"$out/stops.txt" 2>&1; then
        die "the wrapper is built with the library of $1"
    fi
    grep -q "leafanchor: .*$2" "$out/stops.txt" || die "the wrapper's build stops with other words: $out/stops.txt"
}

# With no folder named the build script finds the library; it stops where there is none or it is for another machine.
hold_build_script() {
    say "the wrapper's build script"
    (unset LEAFANCHOR_LIB_DIR && in_cargo check -p leafanchor)
    mkdir -p "$out/none" "$out/other"
    printf '!<arch>\n%-48s20        `\n\177ELF\002\001%-12s\363\000' other.o/ '' >"$out/other/libleafanchor.a"
    stops "$out/none" "has no libleafanchor.a that can be read"
    stops "$out/other" "is for another machine, not for $machine"
    stops none "must be a whole path"
}

# shown FILE DOCUMENT: the document shows an example's output, whole.
shown() {
    case $(cat "$2") in
    *"
$(cat "$1")
"*) ;;
    *) die "$2 does not show $1" ;;
    esac
}

hold_p1() {
    say "P1 from C, C++ and Rust"
    in_cargo build --release -p leafanchor --example plan_p1
    for order in p1 p1_shorter; do
        shown "examples/$order.expected" README.md
        for program in "$out/plan_p1.c11" "$out/plan_p1.cxx17" "$built/examples/plan_p1"; do
            $emulator "$program" <"examples/$order.order" >"$out/p1.txt"
            cmp "$out/p1.txt" "examples/$order.expected" || die "$program prints another plan than examples/$order.expected"
        done
    done
    shown examples/refused.expected README.md
    for made in c11 cxx17; do
        $emulator "$out/plan_p1.$made" <examples/refused.order >"$out/refused.txt" && die "plan_p1.$made plans examples/refused.order"
        cmp "$out/refused.txt" examples/refused.expected || die "plan_p1.$made does not print examples/refused.expected"
    done
}

# prints PROGRAM EXPECTED: the program as C and as C++ prints these lines of examples.
prints() {
    for made in c11 cxx17; do
        $emulator "$out/$1.$made" >"$out/$1.txt"
        cmp "$out/$1.txt" "examples/$2" || die "$1.$made does not print examples/$2"
    done
}

hold_worked() {
    say "the worked order of halves, the plans checked, the openings, the tail, the frame and the sheet"
    prints plan_halves halves.expected
    prints check_plan check_plan.expected
    prints choose_opening choose_opening.expected
    prints plan_tail plan_tail.expected
    prints make_frame make_frame.expected
    prints week_sheet week_sheet.expected
    in_cargo build --release -p leafanchor --example week_sheet
    $emulator "$built/examples/week_sheet" >"$out/week_sheet.txt"
    cmp "$out/week_sheet.txt" examples/week_sheet.expected || die "week_sheet.rs prints other lines"
    for lines in halves check_plan choose_opening plan_tail make_frame week_sheet; do
        shown "examples/$lines.expected" docs/EXAMPLES.md
    done
}

hold_calls() {
    say "every call against the reference"
    in_cargo build --release -p outside
    $emulator "$built/outside" layout >"$out/layout.rust.txt"
    for made in cxx17 rust; do
        cmp "$out/layout.c11.txt" "$out/layout.$made.txt" || die "the answers are laid out otherwise: $made"
    done
    $emulator "$built/outside" >"$out/compared.txt" || {
        cat "$out/compared.txt"
        die "the library and the reference differ"
    }
    cat "$out/compared.txt"
}

hold_stack() {
    say "the stack"
    # shellcheck disable=SC2086
    "$cc" -std=c11 $warnings tools/stack.c "$library" -Wl,-z,now -o "$out/stack"
    $emulator "$out/stack" || die "a call uses too much stack"
}

only=''
if [ "${1-}" = tools ]; then
    only=tools
    shift
fi
if [ $# = 0 ]; then
    set -- "$here"
    [ "$here" = x86_64 ] || set -- "$here" x86_64
fi

# hold MACHINE: all of it.
hold() {
    at "$1"
    find_rust
    [ -f "$library" ] || die "$library is missing: tools/native.sh makes it"
    say "the library${emulator:+, under $emulator}: ${library#"$PWD"/}"
    for_cargo
    hold_header
    hold_c
    hold_wrapper
    [ -n "$emulator" ] || hold_build_script
    hold_p1
    hold_worked
    hold_calls
    hold_stack
}

for machine in "$@"; do
    at "$machine"
    have_tools || install_tools
done
[ -z "$only" ] || exit 0

# All at once: the emulator takes one processor for most of the time. What is started so hears no interrupt by itself.
trap 'trap "" TERM && kill 0 && exit 130' INT
started=''
for machine in "$@"; do
    hold "$machine" &
    started="$started $!"
done
machine='' failed=''
for each in $started; do
    wait "$each" || failed=yes
done
[ -z "$failed" ] || die "something does not hold"
say "all holds"
