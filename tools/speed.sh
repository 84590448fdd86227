#!/bin/sh
# Times the library's calls against plain Rust on this machine, with the library that tools/native.sh makes for it: on
# x86-64 the library that ships, elsewhere other code from the same LLVM module. Fails where a limit is passed.
#   tools/speed.sh --sheet             times only the sheet of a stream of 10,000 orders
#   tools/speed.sh --picture           times only how cost grows with the jobs, and draws docs/growth.svg
#   tools/speed.sh --search [TRIALS]   looks for orders that are dear for the library; 2000 trials a shape, or so many
set -eu
cd "$(dirname "$0")/.."
case ${1-} in
--picture) set -- --picture "$PWD/docs/growth.svg" ;;
--search) set -- --search "${2-2000}" ;;
'' | --sheet) ;;
*)
    echo "speed: the words are --sheet, --picture, or --search and a number of trials" >&2
    exit 2
    ;;
esac
tools/native.sh
export LEAFANCHOR_LIB_DIR="$PWD/target/native"
cd rust/bench
cargo run --quiet --release --offline --locked -- "$@"
