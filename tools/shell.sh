#!/bin/sh
# Tries the shell's command, ./leafanchor, and the gate's steps, .ci/run, sentence by sentence: output, what is said and the
# status. Plans and sheets are made by the programs as built. Builds and gates go through a stand-in for rt over a checkout of a
# few crates, so that they take a second or two.
# A line for each case; ends with 0 if every one is as it should be.
# shellcheck disable=SC2016,SC2034
set -u

# A signal that is shut out of us, as nohup does, would be shut out of all that we start, and some cases are about signals.
[ -n "${SIGNALS_HEARD-}" ] || SIGNALS_HEARD=yes exec env --default-signal=HUP,INT,TERM "$0" "$@"
cd "$(dirname "$0")/.." || exit 1
root=$(pwd -P)
room=$(mktemp -d) || exit 1
trap 'rm -rf "$room"' EXIT
trap 'exit 1' HUP INT TERM
chmod 755 "$room"
built=$root/target/bin
for program in plan_order week_sheet; do
    [ -x "$built/$program" ] || { echo "shell: $built/$program is missing: ./leafanchor plan and ./leafanchor sheet build them"; exit 1; }
done

# ---- cases

cases=0 wrong=0 out=$room/out err=$room/err status=0

# try COMMAND: keeps what it wrote, what it said and its status.
try() {
    "$@" >"$out" 2>"$err"
    status=$?
}

# holds NAME CONDITION: one case, and what was seen where it is wrong.
holds() {
    cases=$((cases + 1))
    if eval "$2"; then
        echo "shell: $1"
    else
        wrong=$((wrong + 1))
        printf 'shell: WRONG: %s\n  status %s\n  written: %s\n  said: %s\n' "$1" "$status" "$(cat "$out")" "$(cat "$err")"
    fi
}

# gives NAME STATUS WRITTEN SAID: of the last try; WRITTEN is the text itself, SAID a pattern for all that was said.
gives() {
    wanted=$2 written=$3 said=$4
    holds "$1" '[ "$status" = "$wanted" ] && [ "$(cat "$out")" = "$written" ] && case $(cat "$err") in $said) ;; *) false ;; esac'
}

# ---- orders

octets() { # COUNT VALUE
    left=$1
    while [ "$left" -gt 0 ]; do
        left=$((left - 1))
        # shellcheck disable=SC2059
        printf "\\$(printf %03o $(($2 >> 8 * left & 255)))"
    done
}
header() { octets 4 $(($1 << 26 | ($2 & 262143) << 8 | ${3-0})); } # JOBS T0 [KIND]
# job NUMBER CRITICAL WEIGHT LENGTH DEADLINE [READY]: ready at 0 where no time is told.
job() { octets 8 $(($1 << 58 | $2 << 57 | $3 << 50 | (${6-0} & 262143) << 32 | $4 << 18 | $5 & 262143)); }
# packed_job PACK NUMBER ...: the same of kind 1. Its first byte is the number and two bits of the pack; then comes the record
# of kind 0 with the other six bits where that has the number.
packed_job() {
    octets 1 $(($2 << 2 | $1 >> 6))
    low_bits=$(($1 & 63))
    shift 2
    job "$low_bits" "$@"
}

cp examples/p1.order "$room/p1"
cp examples/refused.order "$room/refused"
cp examples/week.stream "$room/week"
p1=$(cat examples/p1.expected)
week=$(cat examples/week.expected)

# ---- checkouts, and a stand-in for rt

real_rt=$(command -v rt)
mkdir "$room/bin" "$room/tmp" "$room/tools" "$room/links"
chmod 1777 "$room/tmp"
export TMPDIR="$room/tmp"

# Notes where it begins, and when it ends, in the file 'builds' above the checkout; what the file 'mood' there says comes after
# the first crate, at the top of the checkout.
cat >"$room/bin/rt" <<END
#!/bin/sh
case \$1 in
run) name=\${PWD##*/} ;;
ci) name='' ;;
*) exec "$real_rt" "\$@" ;;
esac
echo "\$*\${name:+ in \$name}" >>"\$ABOVE/builds"
[ -z "\$name" ] || cd ../..
pwd >"\$ABOVE/place"
echo 'rt: chose --jobs 2 for first'
[ "\$1" = run ] || echo 'rt: first proved'
[ ! -f "\$ABOVE/mood" ] || . "\$ABOVE/mood"
echo 'rt: chose --jobs 2 for second'
for program in \${name:-plan_order week_sheet}; do
    echo "rt: chose --jobs 2 for \$program"
    mkdir -p "crates/\$program/out"
    cp "$built/\$program" "crates/\$program/out"
done
echo ended >>"\$ABOVE/builds"
[ "\$1" = run ] || printf '%s\n' 'rt: plan_order proved' "rt: ok; must-fail edits: 1 refused\${bad-}; every proof was done" '3 passed, 0 failed'
END
chmod 755 "$room/bin/rt"
PATH=$room/bin:$PATH

# checkout NAME: a checkout of its own that is not built. plan_order is made of three of its five crates, week_sheet of two.
checkout() {
    export ABOVE="$room/$1"
    here=$ABOVE/stand
    mkdir -p "$here/include" "$here/tools" "$here/.ci"
    cp "$root/leafanchor" "$here/leafanchor"
    cp "$root/include/leafanchor.h" "$root/include/phrases.txt" "$here/include"
    cp "$root/tools/build_lock.sh" "$here/tools"
    cp "$root/.ci/run" "$here/.ci"
    printf '# crates\nfirst:\nsecond: first io\nplan_order: second io # a program\nweek_sheet: first io\nother: first\n' >"$here/crates.txt"
    for crate in first second plan_order week_sheet other; do
        mkdir -p "$here/crates/$crate/src" "$here/crates/$crate/must-fail"
        echo '// a source' >"$here/crates/$crate/src/lib.rt"
    done
    touch -d '1 hour ago' "$here/crates.txt" "$here"/crates/* "$here"/crates/*/* "$here"/crates/*/src/*
}
built_checkout() {
    checkout "$1"
    mkdir -p "$here/target/bin"
    cp "$built/plan_order" "$built/week_sheet" "$here/target/bin"
}
builds() { grep -c '^run' "$ABOVE/builds" 2>/dev/null; }

# soon CONDITION: waits for it, ten seconds at most.
soon() {
    tries=0
    until eval "$1" || [ "$tries" = 100 ]; do
        tries=$((tries + 1))
        sleep 0.1
    done
}

# mood WORDS: what rt does after the first crate of the next builds. 'wait' is up to the file 'go' beside the checkout.
mood() {
    rm -f "$ABOVE/go"
    case $1 in
    wait) echo 'n=0; until [ -f "$ABOVE/go" ] || [ "$n" = 100 ]; do n=$((n + 1)); sleep 0.1; done' ;;
    *) echo "$1" ;;
    esac >"$ABOVE/mood"
}

# program TEXT [NAME]: a program of this checkout, plan_order where none is named, does this.
program() {
    printf '#!/bin/sh\n%s\n' "$1" >"$here/target/bin/${2-plan_order}"
}

# Root may read and write everything: where we are root, nobody tries what is not allowed.
plainly() {
    if [ "$(id -u)" = 0 ]; then setpriv --reuid=65534 --regid=65534 --clear-groups "$@"; else "$@"; fi
}

# ---- a plan: words, files and standard input

try ./leafanchor plan examples/p1.order
gives "plan FILE, in this checkout" 0 "$p1" ''
try ./leafanchor plan examples/p1_shorter.order
gives "plan FILE, with a job made shorter" 0 "$(cat examples/p1_shorter.expected)" ''
try ./leafanchor sheet examples/week.stream
gives "sheet FILE, in this checkout" 0 "$week" ''
built_checkout plans
leafanchor=$here/leafanchor
try "$leafanchor" plan <"$room/p1"
gives "plan, from standard input" 0 "$p1" ''
try "$leafanchor" plan - <"$room/p1"
gives "plan -, from standard input" 0 "$p1" ''
piped() { { head -c 21 "$room/p1"; sleep 0.2; tail -c +22 "$room/p1"; } | "$leafanchor" plan; }
try piped
gives "a slow pipe is waited for" 0 "$p1" ''
cp "$room/p1" "$room/a * file"
try "$leafanchor" plan "$room/a * file"
gives "a file whose name has spaces" 0 "$p1" ''
cp "$room/p1" "$here/-x"
cd "$here" && try ./leafanchor plan ./-x
gives "a file whose name begins with -" 0 "$p1" ''
try ./leafanchor plan -x
gives "an option that plan has not" 2 '' "leafanchor: plan has no option '-x' (the file of that name is ./-x, or -x behind --)"
for words in '-- -x' '-- ./-x'; do
    # shellcheck disable=SC2086
    try ./leafanchor plan $words
    gives "plan $words" 0 "$p1" ''
done
for words in '--' '-- -' '- --'; do
    # shellcheck disable=SC2086
    try ./leafanchor plan $words <"$room/p1"
    gives "plan $words: standard input" 0 "$p1" ''
done
try ./leafanchor -- plan -x
gives "-- before the command: what is behind plan is its own" 2 '' "leafanchor: plan has no option '-x' *"
try ./leafanchor plan ./-x --fast
gives "an option behind the file" 2 '' "leafanchor: plan has no option '--fast' *"
try ./leafanchor plan -- -x --fast
gives "two files behind --" 2 '' "leafanchor: 'plan' takes one file at most: *"
cd "$room/tmp" && try ../plans/stand/leafanchor plan ../p1
gives "from another directory" 0 "$p1" ''
ln -s "$here/leafanchor" "$room/links/far"
ln -s far "$room/links/near"
cd "$room/links" && try ./near plan "$room/p1"
gives "through two symbolic links" 0 "$p1" ''
try env PATH="$room/links:$PATH" far plan "$room/p1"
gives "through a symbolic link on PATH" 0 "$p1" ''
cd "$room" && try env CDPATH="$room" "$leafanchor" plan p1
gives "with CDPATH set" 0 "$p1" ''
for shell in dash 'bash --posix' 'busybox sh'; do
    command -v "${shell%% *}" >/dev/null || continue
    # shellcheck disable=SC2086
    try $shell "$leafanchor" plan p1
    gives "by $shell" 0 "$p1" ''
done

try "$leafanchor" plan p1 p1
gives "two files" 2 '' "leafanchor: 'plan' takes one file at most: *"
try "$leafanchor" plan no/such/file
gives "a file that is not there" 3 '' "leafanchor: there is no file 'no/such/file'"
try "$leafanchor" plan ''
gives "a file with no name" 3 '' "leafanchor: there is no file ''"
try "$leafanchor" plan "$room"
gives "a directory" 3 '' "leafanchor: '$room' is a directory and not a file"
cp p1 closed && chmod 0 closed
try plainly "$leafanchor" plan closed
gives "a file that may not be read" 3 '' "leafanchor: the file 'closed' may not be read: there is no permission"
try "$leafanchor" plan <"$room"
gives "a directory as standard input" 3 '' "leafanchor: standard input cannot be read: Is a directory"
closed_input() { "$leafanchor" plan <&-; }
try closed_input
gives "standard input closed" 3 '' "leafanchor: standard input cannot be read: it is closed"
closed_and_file() { timeout 10 "$leafanchor" plan p1 <&-; }
try closed_and_file
gives "a file, with standard input closed" 0 "$p1" ''

# ---- other words

for word in --help -h help 'plan --help' 'plan -h' 'plan p1 --help' 'sheet -h' 'sheet --words --help' 'test --help' '-- help'; do
    # shellcheck disable=SC2086
    try "$leafanchor" $word
    holds "$word" '[ "$status" = 0 ] && [ ! -s "$err" ] && grep -q "^usage: ./leafanchor plan \[FILE\]" "$out" && grep -q "^ *./leafanchor sheet \[--words\] \[FILE\]" "$out" &&
        grep -q "^Status: 0 planned, or a sheet; 1 refused; 2 " "$out"'
done
try "$leafanchor"
gives "no word" 2 '' 'usage: *'
try "$leafanchor" fly
gives "a command that there is not" 2 '' "leafanchor: there is no command 'fly': *"
try "$leafanchor" -
gives "- is no command" 2 '' "leafanchor: there is no command '-': *"
for word in --frobnicate -x; do
    try "$leafanchor" "$word"
    gives "an option that there is not: $word" 2 '' "leafanchor: there is no option '$word': *"
    try "$leafanchor" test "$word"
    gives "nor has test one: $word" 2 '' "leafanchor: test has no option '$word': *"
    try "$leafanchor" -- "$word"
    gives "behind -- it is a command that there is not: $word" 2 '' "leafanchor: there is no command '$word': *"
done
for word in 'help me' 'test me' '--version 2' '-V 2'; do
    # shellcheck disable=SC2086
    try "$leafanchor" $word
    gives "$word" 2 '' "leafanchor: '${word% *}' takes no more words: *"
done
version=$(sed -n 's/^version = "\(.*\)"/\1/p' "$root/rust/leafanchor/Cargo.toml")
for word in --version -V; do
    try "$leafanchor" "$word"
    gives "$word: ours as the Rust crate has it, and the kit's" 0 "leafanchor $version
$("$real_rt" version)" ''
done

# ---- the script without its checkout

mkdir alone
cp "$root/leafanchor" alone/leafanchor
for word in 'plan p1' 'sheet week' test --version -V; do
    # shellcheck disable=SC2086
    try alone/leafanchor $word
    gives "a copy of the script alone: $word" 3 '' "leafanchor: this script is without its checkout: there is no $room/alone/crates.txt (*)"
done
try alone/leafanchor --help
holds "a copy of the script alone: --help" '[ "$status" = 0 ] && [ ! -s "$err" ] && grep -q "^usage: " "$out"'

# ---- refusals: the line as it is, the status and a phrase

# listed NUMBER [PLACE FIELD]: what include/phrases.txt has for a refusal; behind its bar, where the figures are given.
list=$root/include/phrases.txt
listed() {
    line=$(sed -n "s/^$1 //p" "$list")
    [ $# = 1 ] || line=$(printf '%s' "${line#* | }" | sed "s/{place}/$2/; s/{field}/$(sed -n "s/^field $3 //p" "$list")/")
    printf '%s' "${line%% | *}"
}

# refused NAME NUMBER [PLACE FIELD]: the order in the file 'order', with the list's phrase; none of these is text.
machine=$room/bin
refused() {
    name=$1
    shift
    try env PATH="$machine:$PATH" "$leafanchor" plan order
    gives "refused: $name" 1 "$1 ${2-0} ${3-0}" "leafanchor: refusal $1: $(listed "$@")"
}
printf '\001\002\003' >order
refused "three bytes" 1
: >order
refused "no bytes" 1
header 0 0 2 >order
refused "kind 2" 2
header 0 0 255 >order
refused "kind 255" 2
header 49 0 >order
refused "49 jobs" 3
header 1 0 >order
refused "a job missing" 4
{ header 1 0 1 && job 1 0 1 10 10; } >order
refused "kind 1 and a record of kind 0" 4
header 0 100001 >order
refused "a bus-free time of 100,001" 5
header 0 0 1 >order
refused "kind 1 and no jobs" 19
{ header 2 0 1 && packed_job 0 1 0 1 10 10 && packed_job 0 2 0 1 0 10; } >order
refused "kind 1 and every pack 0, before a length of 0" 19
{ header 2 0 1 && packed_job 0 1 0 1 10 10 && packed_job 255 2 0 1 0 10; } >order
refused "kind 1 and a length of 0" 6 1 6
cp refused order
refused "the README's, with a length of 10,001" 6 2 6
holds "with the words that the README shows" '[ "$(cat "$out") $(sed "s/^leafanchor: refusal 6: //" "$err")" = "$(cat "$root/examples/refused.expected")" ]'
{ header 2 0 && job 1 0 1 10 10 && job 2 0 51 0 10; } >order
refused "a weight of 51, and a length of 0" 6 1 4
{ header 2 0 && job 1 0 1 10 10 && job 2 1 1 10 10; } >order
refused "a critical job of weight 1" 6 1 4
{ header 2 0 && job 1 0 1 10 10 && job 2 0 1 10 10 -100001; } >order
refused "a ready time of -100,001" 6 1 5
{ header 2 0 && job 1 0 1 10 10 && job 2 0 1 0 10; } >order
refused "a length of 0" 6 1 6
{ header 3 0 && job 1 0 1 10 10 && job 2 0 1 10 100001 && job 3 0 0 10 10; } >order
refused "a deadline of 100,001 before a weight of 0" 6 1 7
{ header 4 0 && job 4 0 1 10 10 && job 9 0 1 10 10 && job 4 0 1 10 10 && job 9 0 1 10 10; } >order
refused "numbers 4, 9, 4, 9" 7 2 0
{ header 7 0 && for number in 1 2 3 4 5 6; do job "$number" 0 50 10 10; done && job 7 0 1 10 10; } >order
refused "weights of 301" 9
{ header 1 0 && job 0 1 0 10 9; } >order
refused "a critical job with no time" 11
{ header 1 0 && job 0 0 10 10 9; } >order
try "$leafanchor" plan order
gives "not refused: the same job, not critical" 0 '0 0 0 0 10 0 1
0 -' ''
{ header 2 0 && job 1 0 10 10 10 && job 2 0 5 10 35; } >order
try "$leafanchor" plan order
gives "a job starts 15 seconds after the one before it ends, and ends at its deadline" 0 '0 0 2 15 0 50 5
1 0
2 25' ''
{ header 2 0 1 && packed_job 0 1 0 10 10 10 && packed_job 200 2 0 5 10 35; } >order
try "$leafanchor" plan order
gives "the same two jobs, the second for pack 200: the same plan" 0 '0 0 2 15 0 50 5
1 0
2 25' ''
{ header 2 0 && job 1 0 10 10 10 && job 2 0 5 10 34; } >order
try "$leafanchor" plan order
gives "the same with a deadline a second earlier: it is left out" 0 '0 0 1 10 5 25 4
1 0
2 -' ''
{ header 1 90000 && job 1 1 0 10000 100000; } >order
try "$leafanchor" plan order
gives "a job that ends at 100,000: the bus is free at 100,015" 0 '0 0 1 0 0 100015 1
1 90000' ''
header 0 -100000 >order
try "$leafanchor" plan order
gives "not refused: no jobs" 0 '0 0 0 0 0 -100000 0' ''
{ header 48 0 && for number in 0 1 2 3 4 5; do for more in 0 1 2 3 4 5 6 7; do job $((8 * number + more)) 0 1 10 9; done; done; } >order
try "$leafanchor" plan order
holds "not refused: 388 bytes" '[ "$status" = 0 ] && [ "$(head -n 1 "$out")" = "0 0 0 0 48 0 48" ] && [ "$(wc -l <"$out")" = 49 ]'
echo >>order
refused "389 bytes" 4
{ header 48 0 1 && for number in 0 1 2 3 4 5; do for more in 0 1 2 3 4 5 6 7; do packed_job "$more" $((8 * number + more)) 0 1 10 9; done; done; } >order
try "$leafanchor" plan order
holds "not refused: 436 bytes, of kind 1" '[ "$status" = 0 ] && [ "$(head -n 1 "$out")" = "0 0 0 0 48 0 48" ] && [ "$(wc -l <"$out")" = 49 ]'
echo >>order
refused "437 bytes" 4
endless() { timeout 10 "$leafanchor" plan </dev/zero; }
try endless
gives "an endless input is not read to its end" 1 '4 0 0' 'leafanchor: refusal 4: *'
endless_pipe() { { cat p1 && yes; } | timeout 10 "$leafanchor" plan; }
try endless_pipe
gives "an endless pipe is not read to its end" 1 '4 0 0' 'leafanchor: refusal 4: *'

# The program itself, past what the command hands over: longer inputs, the longest order, none at all.
emulated() {
    [ "$(uname -m)" = x86_64 ] && { "$@"; return; }
    libraries=$("$real_rt" doc) && libraries=${libraries%/*}/toolchain/lib
    qemu-x86_64 "$libraries/ld-linux-x86-64.so.2" --library-path "$libraries" "$@"
}
for given in "$root"/tools/program/*.in; do
    name=${given##*/}
    case $name in
    week_*) of_it=week_sheet ;;
    *) of_it=plan_order ;;
    esac
    try emulated "$built/$of_it" <"$given"
    gives "the program $of_it on ${name%.in}" 0 "$(cat "${given%.in}.out")" ''
done

# ---- text instead of a packed order

# text NAME NUMBER: the file 'order' is refused, and it is said that it is text.
text() {
    try "$leafanchor" plan order
    gives "text: $1" 1 "$2 0 0" "leafanchor: refusal $2: $(listed "$2")
leafanchor: the input is text and not a packed order: *(docs/RULES.md, R21)*"
}
# bytes NAME NUMBER: it is refused, and nothing is said of text.
bytes() {
    try "$leafanchor" plan order
    gives "no text: $1" 1 "$2 0 0" "leafanchor: refusal $2: $(listed "$2")"
}
printf '7\tcritical\t-600\t495\t0\r\n' >order
text "a table" 2
od -A n -t x1 p1 >order
text "an order's bytes as figures" 2
printf 'abc' >order
text "three letters" 1
printf 'Pr\303\274fung \342\200\223 \360\237\232\226\n' >order
text "UTF-8 of two, three and four bytes" 2
{ header 1 0 && job 1 1 0 10 10; } | base64 >order
text "an order in base64" 2
yes '–' | head -c 1000 >order
text "a character cut at 437 bytes" 2
yes 'a table' | head -c 2000 >order
text "2,000 bytes" 2
printf 'abcd\177\n' >order
bytes "a byte 7F" 2
printf 'abc\033[1m' >order
bytes "an escape" 2
printf 'abc\377' >order
bytes "a byte that UTF-8 has not" 2
printf 'abc\303(' >order
bytes "a character of UTF-8 broken off" 2
printf 'abc\274' >order
bytes "a character of UTF-8 without its beginning" 2
piped_text() { printf 'job 7 critical\n' | "$leafanchor" plan; }
try piped_text
gives "text, piped" 1 '2 0 0' "leafanchor: refusal 2: *
leafanchor: the input is text and not a packed order: *"

# ---- a sheet: words, files and standard input

here=$room/plans/stand
for words in '' - -- '-- -' '- --'; do
    # shellcheck disable=SC2086
    try "$leafanchor" sheet $words <week
    gives "sheet $words, from standard input" 0 "$week" ''
done
cp week "a * week"
try "$leafanchor" sheet "a * week"
gives "sheet: a file whose name has spaces" 0 "$week" ''
cp week "$here/-w"
cp week "$here/--words"
cd "$here" || exit 1
for words in ./-w '-- -w' '-- --words' ./--words; do
    # shellcheck disable=SC2086
    try ./leafanchor sheet $words
    gives "sheet $words" 0 "$week" ''
done
for word in -w --wordy; do
    try ./leafanchor sheet "$word"
    gives "an option that sheet has not: $word" 2 '' "leafanchor: sheet has no option '$word' (the file of that name is ./$word, or $word behind --)"
done
try ./leafanchor plan --words "$room/p1"
gives "plan has no --words" 2 '' "leafanchor: plan has no option '--words' (*"
try ./leafanchor test --words
gives "nor has test" 2 '' "leafanchor: test has no option '--words': *"
cd "$room" || exit 1
for words in 'week week' '--words week -- week'; do
    # shellcheck disable=SC2086
    try "$leafanchor" sheet $words
    gives "two files: sheet $words" 2 '' "leafanchor: 'sheet' takes one file at most: *"
done
try "$leafanchor" sheet no/such/file
gives "sheet: a file that is not there" 3 '' "leafanchor: there is no file 'no/such/file'"
try "$leafanchor" sheet "$room"
gives "sheet: a directory" 3 '' "leafanchor: '$room' is a directory and not a file"
try plainly "$leafanchor" sheet closed
gives "sheet: a file that may not be read" 3 '' "leafanchor: the file 'closed' may not be read: there is no permission"
try "$leafanchor" sheet <"$room"
gives "sheet: where reading fails there is none" 3 '' "leafanchor: standard input cannot be read to its end, so there is no sheet"
closed_sheet() { "$leafanchor" sheet "$@" <&-; }
try closed_sheet
gives "sheet: standard input closed" 3 '' "leafanchor: standard input cannot be read: it is closed"
try closed_sheet week
gives "sheet: a file, with standard input closed" 0 "$week" ''
for shell in dash 'bash --posix' 'busybox sh'; do
    command -v "${shell%% *}" >/dev/null || continue
    # shellcheck disable=SC2086
    try $shell "$leafanchor" sheet week
    gives "sheet by $shell" 0 "$week" ''
done
try "$leafanchor" sheet --words week
holds "the README shows the words, but for refusals that did not occur" \
    '[ "$(grep -v " 0  " "$out" | grep -cvxFf "$root/README.md")" = 0 ]'
try "$leafanchor" sheet <"$root/crates/week_sheet/stdin"
gives "the program's stored stream" 0 "$(cat "$root/crates/week_sheet/stdout")" ''

# ---- streams: cut ones, pieces, long ones. What they should give is the model's

model() { python3 "$root/tools/model/week.py"; }
zeros() { head -c "$1" /dev/zero; }
# entries FILE ...: a stream of these orders, written as the README says.
entries() {
    for order in "$@"; do
        size=$(wc -c <"$order")
        # shellcheck disable=SC2059
        printf "\\$(printf %03o $((size / 256)))\\$(printf %03o $((size % 256)))"
        cat "$order"
    done
}
# counted NAME: the stream in the file 'stream' has the model's sheet.
counted() {
    try "$leafanchor" sheet stream
    gives "$1" 0 "$(model <stream)" ''
}
entries p1 refused p1 >stream
counted "a stream written from files of orders"

given=$root/tools/program/week_cut.in
head -c 46 "$given" >stream
counted "a stream up to the edge of an order"
cut=$(model <stream | sed 's/whole/cut/')
other='' size=47
while [ "$size" -lt 68 ]; do
    [ "$(head -c "$size" "$given" | emulated "$built/week_sheet")" = "$cut" ] || other="$other $size"
    size=$((size + 1))
done
holds "cut at any byte of the next length and order it has the same figures${other:+, but not at$other}" '[ -z "$other" ]'
head -c 68 "$given" >stream
counted "and with that order's last byte it has one order more"
cut_note='leafanchor: the stream ends inside an order or its length; whole orders before that:'
for size in 47 67; do
    head -c "$size" "$given" >stream
    try "$leafanchor" sheet stream
    gives "cut, it is said, and there is a sheet: $size bytes" 0 "$cut" "$cut_note 1"
done

# in_pieces SIZE FILE: writes the file in pieces of so many bytes, a moment apart.
in_pieces() {
    python3 -c '
import sys, time
with open(sys.argv[2], "rb") as given:
    data, size = given.read(), int(sys.argv[1])
for at in range(0, len(data), size):
    sys.stdout.buffer.write(data[at:at + size])
    sys.stdout.buffer.flush()
    time.sleep(0.001)' "$@"
}
pieces() { in_pieces "$@" | "$leafanchor" sheet; }
for size in 1 2 3 7; do
    try pieces "$size" week
    gives "through a pipe in pieces of $size" 0 "$week" ''
done
# Orders of the greatest length, which their headers have refused with 2, 3 and 4, between others.
{
    entries p1
    for head in '\000\000\000\002' '\304\000\000\000' '\300\000\000\000' '\377\377\377\377'; do
        # shellcheck disable=SC2059
        printf "\\377\\377$head"
        zeros 65531
    done
    entries p1
} >stream
counted "orders of 65,535 bytes"
long=$(model <stream)
for size in 65537 65536 40000; do
    try pieces "$size" stream
    gives "the same in pieces of $size" 0 "$long" ''
done

zeros 19998 >stream
counted "9,999 orders"
entries p1 >>stream
counted "10,000 orders, the last the only one with a plan"
zeros 20000 >stream
counted "10,000 orders of no bytes"
python3 -c 'import sys; sys.stdout.buffer.write((b"\0\54" + open("p1", "rb").read()) * 10000)' >stream
try "$leafanchor" sheet stream
gives "10,000 orders with plans" 0 "10000
$(yes 0 | head -n 19)
10000
500000
350000
40000
14 0
1/1
3/10
whole" ''
# broken NAME: 10,000 orders of no bytes and then what comes on standard input is cut.
broken() {
    { zeros 20000; cat; } >stream
    try "$leafanchor" sheet stream
    gives "10,000 orders and $1" 0 "$(model <stream)" "$cut_note 10000"
}
zeros 1 | broken "half a length"
printf '\000\005abcd' | broken "one that is cut"
too_many="leafanchor: refusal 18: $(listed 18)"
for size in 20002 20003; do
    zeros "$size" >stream
    try "$leafanchor" sheet stream
    gives "10,001 orders: $size bytes" 1 '18 0 0' "$too_many"
    try "$leafanchor" sheet --words <stream
    gives "the same, with --words: $size bytes" 1 '18 0 0' "$too_many"
done
{ zeros 20000; entries p1 p1; } >stream
try "$leafanchor" sheet stream
gives "10,002 orders, the last two with plans" 1 '18 0 0' "$too_many"
endless_stream() { timeout 10 "$leafanchor" sheet </dev/zero; }
try endless_stream
gives "an endless stream is not read to its end" 1 '18 0 0' "$too_many"

# ---- a sheet in words

# The lines of the week's sheet in words: refusals 6 and 11 have one order each.
week_in_words() {
    echo 'orders                    6'
    for number in 1 2 3 4 5 6 7 8 9 10 11 12 13 14 15 16 17 18 19; do
        case $number in
        6 | 11) figure=1 ;;
        *) figure=0 ;;
        esac
        printf '%-20s  %5s  %s\n' "refused with $number" "$figure" "$(listed "$number")"
    done
    cat <<'END'
feasible orders           4
weight offered          190
weight kept             165
jobs kept                16
greatest point total     28  at place 1
scheduling ability      4/5  80.0 %
loss                   5/38  13.2 %
the stream is         whole  no order is cut off
END
}
for words in '--words week' 'week --words' '--words --words -- week'; do
    # shellcheck disable=SC2086
    try "$leafanchor" sheet $words
    gives "sheet $words" 0 "$(week_in_words)" ''
done
try "$leafanchor" sheet --words <"$root/tools/program/week_one_byte.in"
gives "in words: half a length" 0 "$(cat "$out")" "$cut_note 0"
holds "with what is said where there is no figure" '[ "$(tail -n 4 "$out")" = "greatest point total    -  no order is feasible
scheduling ability      -  no order is feasible or refused with 11
loss                    -  no weight was offered
the stream is         cut  it ends inside an order or its length" ]'
other=''
for given in "$root"/tools/program/week_*.in; do
    "$leafanchor" sheet --words "$given" 2>/dev/null | cut -c 21- | sed 's/  at place/ /' >"$room/written"
    # The figures behind the names; of the greatest total also the place.
    [ "$(awk '{ print NR == 25 && $1 != "-" ? $1 " " $2 : $1 }' "$room/written")" = "$(cat "${given%.in}.out")" ] || other="$other ${given##*/}"
done
holds "in words every figure of every stored sheet is there${other:+, but not of$other}" '[ -z "$other" ]'

# ---- every phrase of the list

# Stand-ins for the program are for every machine, so the machine calls itself x86-64 here.
machine=$room/x86-64
mkdir "$machine"
printf '#!/bin/sh\necho x86_64\n' >"$machine/uname"
chmod 755 "$machine/uname"
built_checkout stand_ins
cp p1 order
leafanchor=$here/leafanchor
numbers=$(sed -n 's/^\([0-9][0-9]*\) .*/\1/p' "$list" | tr '\n' ' ')
holds "the list has every refusal, 1 to 19" '[ "$numbers" = "1 2 3 4 5 6 7 8 9 10 11 12 13 14 15 16 17 18 19 " ]'
for number in $numbers; do
    set -- "$number"
    ! grep -q "^$number .* | " "$list" || set -- "$number" 47 3
    program "echo $1 ${2-0} ${3-0}"
    refused "number $number of the list${2+, with a place}" "$@"
done
fields=$(sed -n 's/^field \([0-9]*\) .*/\1/p' "$list" | tr '\n' ' ')
holds "the list has every field, 1 to 7" '[ "$fields" = "1 2 3 4 5 6 7 " ]'
names=$(sed -n 's/^field //p' "$list" | tr '\n' ',' | sed 's/,$//; s/,/, /g')
try "$leafanchor" --help
holds "and --help names them as the list does" 'case $(tr "\n" " " <"$out") in *"($names)"*) ;; *) false ;; esac'
for number in $fields; do
    program "echo 6 0 $number"
    refused "field $number of the list" 6 0 "$number"
done
program 'echo 6 2 9'
try env PATH="$machine:$PATH" "$leafanchor" plan order
gives "a field with no name: no place is told" 1 '6 2 9' "leafanchor: refusal 6: $(listed 6)"
program 'echo 20 0 0'
try env PATH="$machine:$PATH" "$leafanchor" plan order
gives "a number that the list has not" 1 '20 0 0' "leafanchor: refusal 20: there is no phrase for it"
program 'echo 0 0 0 0 0 7 0'
printf 'text' >order
try env PATH="$machine:$PATH" "$leafanchor" plan order
gives "what is accepted is not called text, whatever its bytes" 0 '0 0 0 0 0 7 0' ''
program 'exit 5'
try env PATH="$machine:$PATH" "$leafanchor" plan p1
gives "a program that fails" 3 '' "leafanchor: the program $here/target/bin/plan_order cannot be run here: it ended with status 5"
program ''
try env PATH="$machine:$PATH" "$leafanchor" plan p1
gives "a program that says nothing" 3 '' "leafanchor: the program $here/target/bin/plan_order gave no answer"

# sheet_is ABILITY LOSS: the program's sheet has these.
sheet_is() { program "yes 0 | head -n 24; printf '%s\n' - $1 $2 whole" week_sheet; }
for figures in '1/1 100.0' '0/1 0.0' '2/3 66.7' '1/3 33.3' '1/2000 0.1' '1/2001 0.0' '1999/2000 100.0' '1998/2000 99.9' '2999999/3000000 100.0'; do
    sheet_is "${figures% *}" "${figures% *}"
    try env PATH="$machine:$PATH" "$leafanchor" sheet --words week
    holds "in words ${figures% *} is ${figures#* } %" '[ "$(tail -n 3 "$out" | head -n 2 | tr -s " ")" = "scheduling ability ${figures% *} ${figures#* } %
loss ${figures% *} ${figures#* } %" ]'
done
for does in 'exit 5' 'kill -s KILL "$$"'; do
    program "$does" week_sheet
    try env PATH="$machine:$PATH" "$leafanchor" sheet week
    gives "a program of sheets that fails: $does" 3 '' "*leafanchor: the program $here/target/bin/week_sheet cannot be run here: it ended with status [0-9]*"
done
for does in 'echo a sentence >&2' 'exit 1'; do
    program "$does" week_sheet
    try env PATH="$machine:$PATH" "$leafanchor" sheet week
    gives "one that writes nothing, since it could not read: $does" 3 '' "leafanchor: the file 'week' cannot be read to its end, so there is no sheet"
done
for does in 'echo 7' 'echo whole' 'echo 18'; do
    program "$does" week_sheet
    try env PATH="$machine:$PATH" "$leafanchor" sheet week
    gives "one that writes no sheet: $does" 3 '' "leafanchor: the program $here/target/bin/week_sheet gave no answer"
done

# ---- standard output that cannot be written

leafanchor=$room/plans/stand/leafanchor
unwritten='leafanchor: standard output cannot be written: *'
full() { "$leafanchor" "$@" >/dev/full; }
shut() { "$leafanchor" "$@" >&-; }
gone() {
    { sleep 0.3; "$leafanchor" "$@"; echo "$?" >"$room/ended"; } | true
    return "$(cat "$room/ended")"
}
for output in full shut gone; do
    for word in 'plan p1' 'sheet week' 'sheet --words week' '--help' '--version'; do
        # shellcheck disable=SC2086
        try "$output" $word
        gives "standard output $output: $word" 3 '' "$unwritten"
    done
done
header 1 0 >order
try full plan order
gives "standard output full: a refused order" 3 '' "$unwritten"
mute() { "$leafanchor" "$@" 2>&-; }
try mute plan order
gives "standard error closed: a refused order" 1 '4 0 0' ''
try mute plan p1 p1
gives "standard error closed: two files" 2 '' ''
zeros 20002 >stream
try full sheet stream
gives "standard output full: too many orders" 3 '' "$unwritten"
try mute sheet stream
gives "standard error closed: too many orders" 1 '18 0 0' ''
try mute sheet week
gives "standard error closed: a sheet" 0 "$week" ''

# ---- at a terminal

# at_terminal COMMAND: with a terminal that has no more to say; what it showed is in $out.
at_terminal() {
    timeout 60 script -qec "$1" /dev/null </dev/null >"$out" 2>/dev/null
    status=$?
}
at_terminal "$leafanchor plan >$room/written 2>$err"
mv "$room/written" "$out"
gives "at a terminal it says what it waits for" 1 '1 0 0' 'leafanchor: waiting for a packed order on standard input, up to its end (Ctrl-D)
leafanchor: refusal 1: *'
at_terminal "$leafanchor plan p1 2>$err"
holds "at a terminal, with a file, it waits for nothing" '[ "$status" = 0 ] && [ ! -s "$err" ] && [ "$(tr -d "\r" <"$out")" = "$p1" ]'
at_terminal "$leafanchor sheet >$room/written 2>$err"
mv "$room/written" "$out"
gives "at a terminal it says that it waits for a stream" 0 "$(cat "$root/tools/program/week_no_input.out")" \
    'leafanchor: waiting for a stream of packed orders on standard input, up to its end (Ctrl-D)'
at_terminal "$leafanchor sheet week >$room/written"
holds "at a terminal a short stream shows no progress" '[ "$status" = 0 ] && [ -z "$(tr -d "\r " <"$out")" ] && [ "$(cat "$room/written")" = "$week" ]'
# renewed WORDS: how often the progress was shown.
renewed() { tr '\r' '\n' <"$out" | grep -c "^leafanchor: $1 *$"; }
reading='reading the stream: [0-9]* [kM]B, [0-9]* s'
{ soon '[ "$(renewed "$reading")" -ge 2 ]' && touch go; } &
at_terminal "{ cat week; until [ -f go ]; do sleep 0.1; done; } | $leafanchor sheet >$room/written"
holds "a long one does: from the second second on one line that renews itself, and is gone at the end" '[ "$status" = 0 ] &&
    [ "$(cat "$room/written")" = "$week" ] && [ "$(renewed "$reading")" -ge 2 ] && [ "$(wc -l <"$out")" = 0 ] &&
    [ -z "$(tr "\r" "\n" <"$out" | tail -n 1 | tr -d " ")" ]'
slow_pipe() { { cat week; sleep 1.2; } | "$leafanchor" sheet; }
try slow_pipe
gives "without a terminal it does not" 0 "$week" ''

# Stand-ins for the program again: one that fails, and one that does not end.
beside="PATH=$room/x86-64:\$PATH $room/stand_ins/stand/leafanchor sheet week"
program 'exit 5' week_sheet
at_terminal "$beside 2>$err"
holds "without a line of progress its status is kept" '[ "$status" = 3 ] && grep -q "it ended with status 5$" "$err"'
at_terminal "$beside"
holds "and with one" '[ "$status" = 3 ] && grep -q "it ended with status 5.$" "$out"'
program "echo \$\$ >$room/pid; exec sleep 30" week_sheet
stopped() { { soon '[ -s "$room/pid" ]' && sleep 1.2 && printf '\003'; } | timeout 60 script -qec "$beside" /dev/null; }
try stopped
holds "Ctrl-C ends the program, and us" '[ "$status" = 130 ] && ! kill -0 "$(cat "$room/pid")" 2>/dev/null'

# ---- building

waiting='leafanchor: a build of this checkout is under way: waiting for its end'
checkout first_use
mood wait
"$here/leafanchor" plan p1 >"$out" 2>"$err" &
soon 'grep -q "crate 1" "$err"'
touch "$ABOVE/go"
wait "$!"
status=$?
gives "the first use builds, with a line of progress for each step" 0 "$p1" 'leafanchor: building the program: *
leafanchor: building: crate 1 of 3, [0-9]* s
leafanchor: built in [0-9]* s'
try "$here/leafanchor" plan p1
gives "the second does not" 0 "$p1" ''
touch "$here/crates/other/src/lib.rt" "$here/crates/first/must-fail/an.edit"
try "$here/leafanchor" plan p1
gives "nor does another crate or an edit make it" 0 "$p1" ''
mkdir -p "$here/crates/first/out" && touch "$here/crates/first/out/kept" "$here/crates/plan_order/out/kept"
try "$here/leafanchor" plan p1
gives "nor what is kept of a build" 0 "$p1" ''
echo '// another' >"$here/crates/first/src/lib.rt"
try "$here/leafanchor" plan p1
holds "a source that is newer does" '[ "$status" = 0 ] && grep -q "built in" "$err" && [ "$(builds)" = 2 ]'
try "$here/leafanchor" plan p1
gives "and once is enough" 0 "$p1" ''
rm "$here/crates/first/src/lib.rt"
try "$here/leafanchor" plan p1
holds "a source that is gone does" '[ "$status" = 0 ] && [ "$(builds)" = 3 ]'
mood 'sleep 0.1; touch crates/first/src/lib.rt'
touch "$here/crates.txt"
try "$here/leafanchor" plan p1
rm "$ABOVE/mood"
try "$here/leafanchor" plan p1
holds "what is edited during a build is built again" '[ "$status" = 0 ] && [ "$(builds)" = 5 ]'

checkout sheet_first
try "$here/leafanchor" sheet week
gives "the first sheet builds its own program" 0 "$week" 'leafanchor: building the program: *
leafanchor: built in [0-9]* s'
holds "and no other" '[ "$(cat "$ABOVE/builds")" = "run in week_sheet
ended" ] && [ ! -e "$here/target/bin/plan_order" ]'
echo '// another' >"$here/crates/second/src/lib.rt"
try "$here/leafanchor" sheet week
gives "a crate that only the other program has does not make it" 0 "$week" ''
echo '// another' >"$here/crates/week_sheet/src/lib.rt"
try "$here/leafanchor" sheet week
holds "its own does" '[ "$status" = 0 ] && [ "$(builds)" = 2 ]'
try "$here/leafanchor" plan p1
holds "a plan then builds its own" '[ "$status" = 0 ] && [ "$(tail -n 2 "$ABOVE/builds")" = "run in plan_order
ended" ]'

checkout at_terminal
mood wait
steps() { renewed "building: crate $1 of 3, [0-9]* s"; }
{ soon '[ "$(steps 1)" -ge 2 ]' && touch "$ABOVE/go"; } &
at_terminal "$here/leafanchor plan p1 >$room/written"
holds "at a terminal the progress is one line that renews itself" '[ "$status" = 0 ] && [ "$(cat "$room/written")" = "$p1" ] &&
    [ "$(steps 1)" -ge 2 ] && [ "$(steps 3)" = 1 ] && [ "$(wc -l <"$out")" = 3 ]'

checkout failing
mood 'echo "rt: second NOT PROVED (exit 1, 3 s)"; exit 1'
try "$here/leafanchor" plan p1
gives "a build that fails" 3 '' "leafanchor: building the program: *
rt: second NOT PROVED (exit 1, 3 s)
leafanchor: the build failed; all that it said: $here/target/build.log"
holds "its log is there" 'grep -q "NOT PROVED" "$here/target/build.log"'
mood 'exit 0'
try "$here/leafanchor" plan p1
gives "a build that leaves no program" 3 '' "leafanchor: building the program: *
leafanchor: the build left no $here/target/bin/plan_order: remove $here/target and try again"
try "$here/leafanchor" plan no/such/file
gives "a file that is not there is told before a build" 3 '' "leafanchor: there is no file 'no/such/file'"

checkout at_once
mood wait
"$here/leafanchor" plan p1 >"$room/written" 2>&1 &
one=$!
soon '[ "$(builds)" = 1 ]'
"$here/leafanchor" plan p1 >"$out" 2>"$err" &
two=$!
soon 'grep -q waiting "$err"'
touch "$ABOVE/go"
wait "$two"
status=$?
gives "a second build waits for the first, and then has nothing to do" 0 "$p1" "$waiting"
wait "$one"
holds "there was one build, and both planned" '[ "$(builds)" = 1 ] && [ "$(tail -n 6 "$room/written")" = "$p1" ]'

checkout stale
mkdir "$here/target" && : >"$here/target/build.lock"
try "$here/leafanchor" plan <p1
holds "a lock left behind holds up nobody" '[ "$status" = 0 ] && ! grep -q waiting "$err"'
holds "a build takes nothing of standard input" '[ "$(cat "$out")" = "$p1" ] && [ "$(builds)" = 1 ]'

checkout killed
mood wait
"$here/leafanchor" plan p1 >/dev/null 2>&1 &
one=$!
soon '[ "$(builds)" = 1 ]'
kill -s KILL "$one"
wait "$one" 2>/dev/null
"$here/leafanchor" plan p1 >"$out" 2>"$err" &
two=$!
soon 'grep -q waiting "$err"'
touch "$ABOVE/go"
wait "$two"
status=$?
gives "killed, it leaves its build to end, and the next waits for that" 0 "$p1" "$waiting"

# Whether rt and all that it started have ended: they hold the lock.
rt_ended() {
    soon 'flock -n "$here/target/build.lock" true'
    flock -n "$here/target/build.lock" true
}
checkout stopped
mood 'sleep 30'
"$here/leafanchor" plan p1 >"$out" 2>"$err" &
one=$!
soon '[ "$(builds)" = 1 ]'
kill -s TERM "$one"
wait "$one" 2>/dev/null
status=$?
holds "ended by a signal it ends its build too" '[ "$status" = 143 ] && rt_ended'
interrupted() { { soon '[ "$(builds)" = 2 ]' && printf '\003'; } | timeout 60 script -qec "$here/leafanchor plan p1" /dev/null; }
try interrupted
holds "and so it is with Ctrl-C" '[ "$status" = 130 ] && rt_ended'
rm "$ABOVE/mood"
try "$here/leafanchor" plan p1
holds "the next build waits for nothing" '[ "$status" = 0 ] && ! grep -q waiting "$err"'

# ---- the gate

# gate_checkout NAME: a checkout of its own whose gate has stand-ins for its tools.
gate_checkout() {
    checkout "$1"
    cp "$root/tools/timed" "$here/tools"
    for tool in unused definitions.py edits stored shell.sh native.sh outside.sh; do
        printf '#!/bin/sh\necho "%s $*"\n[ "%s $*" != "$(cat "$ABOVE/fault" 2>/dev/null)" ] || exit 1\n' "$tool" "$tool" >"$here/tools/$tool"
        chmod 755 "$here/tools/$tool"
    done
}
# files: all of the checkout but what is built.
files() { (cd "$here" && find . -name target -prune -o -name out -prune -o -type f -printf '%p %T@\n' | sort); }
# state: what is built for use, with the times.
state() { (cd "$here/target/bin" 2>/dev/null && find . -type f -printf '%p %i %T@\n' | sort); }

gate_checkout passing_gate
before=$(files)
cd "$room/tmp" && try "$here/leafanchor" test
cd "$room" || exit 1
holds "the tests pass, say nothing on standard error, and their last line is rt's" '[ "$status" = 0 ] && [ ! -s "$err" ] && [ "$(tail -n 1 "$out")" = "3 passed, 0 failed" ]'
holds "they went through every step" '[ "$(grep -cx "unused --check\|definitions.py \|edits \|stored --check\|outside.sh tools\|shell.sh \|native.sh \|outside.sh " "$out")" = 8 ]'
holds "what is quick came first, and the library behind the proofs" '[ "$(grep -x "stored --check\|rt: first proved\|native.sh " "$out")" = "stored --check
rt: first proved
native.sh " ]'
holds "rt was told nothing but ci, once, at the top of the checkout" '[ "$(cat "$ABOVE/builds")" = "ci
ended" ] && [ "$(cat "$ABOVE/place")" = "$here" ]'
holds "and no file of the checkout was touched" '[ "$(files)" = "$before" ]'
holds "target/gate.log has every line of rt with its second" '[ "$(sed "s/^ *[0-9]*\.[0-9] //" "$here/target/gate.log")" = "$(grep "^rt: \|passed, " "$out" | sed "\$d")" ]'
cd "$here" && try "$root/tools/gate_times"
holds "of which tools/gate_times tells where the time went" '[ "$status" = 0 ] && grep -q "^ *[0-9]* s  proofs, 2$" "$out"'
cd "$room" || exit 1
try "$here/leafanchor" plan p1
gives "after tests that passed a plan builds nothing" 0 "$p1" ''
before=$(state)
mood 'echo a fault; exit 1'
try "$here/leafanchor" test
holds "tests that fail in a proof" '[ "$status" = 1 ] && grep -q "a fault" "$out" && [ "$(state)" = "$before" ]'
mood 'bad=", 2 bad"'
try "$here/leafanchor" test
gives "tests with must-fail edits that could not be tried" 1 "$(cat "$out")" "gate: must-fail edits are bad, *"
rm "$ABOVE/mood"
for step in 'unused --check' 'definitions.py ' 'edits ' 'stored --check' 'outside.sh tools' 'shell.sh ' 'native.sh ' 'outside.sh '; do
    printf '%s' "$step" >"$ABOVE/fault"
    try "$here/.ci/run"
    holds "tests that fail in one step: $step" '[ "$status" = 1 ]'
done
rm "$ABOVE/fault" "$ABOVE/builds"
mood wait
"$here/leafanchor" test >"$room/gate.out" 2>&1 &
gate=$!
soon 'grep -q "first proved" "$room/gate.out" 2>/dev/null'
try_beside() { "$here/leafanchor" plan p1 >"$room/written" 2>&1; }
try_beside
holds "while tests run a plan is made at once" '[ "$(cat "$room/written")" = "$p1" ] && [ ! -f "$ABOVE/go" ]'
echo '// another' >"$here/crates/first/src/lib.rt"
touch "$ABOVE/go"
wait "$gate"
try "$here/leafanchor" plan p1
holds "what is edited during the tests is built again" '[ "$status" = 0 ] && [ "$(builds)" = 1 ] && grep -q "built in" "$err"'

# ---- a checkout that cannot be written

built_checkout read_only
chmod -R a-w "$here"
try plainly "$here/leafanchor" plan p1
gives "a read-only checkout that is built" 0 "$p1" ''
checkout not_built
chmod -R a-w "$here"
try plainly "$here/leafanchor" plan p1
gives "a read-only checkout that is not built" 3 '' "leafanchor: the program is not built, and $here cannot be written"
built_checkout old
touch -d '2 hours ago' "$here/target/bin/plan_order"
chmod -R a-w "$here"
try plainly "$here/leafanchor" plan p1
gives "a read-only checkout whose program is old" 3 '' "leafanchor: the program is older than its sources, and $here cannot be written"
chmod -R u+w "$room"

# ---- no rt, and another machine

for tool in sh awk cat date dirname find flock grep mkdir od readlink sed setsid sleep tail touch tr uname wc; do
    ln -s "$(command -v "$tool")" "$room/tools/$tool"
done
checkout no_rt
try env PATH="$room/tools" "$here/leafanchor" plan p1
gives "not built, and no rt on PATH" 3 '' 'leafanchor: the program is not built, and rt, which builds it, is not on PATH'
try env PATH="$room/tools" "$here/leafanchor" --version
gives "--version, and no rt on PATH" 0 "leafanchor $version" "leafanchor: the kit's version is not known: rt is not on PATH"
if [ "$(uname -m)" = x86_64 ]; then
    try env PATH="$room/tools" "$room/plans/stand/leafanchor" plan p1
    gives "built, and no rt on PATH" 0 "$p1" ''
    try env PATH="$room/tools" "$room/plans/stand/leafanchor" sheet --words week
    gives "the same: sheet --words" 0 "$(week_in_words)" ''
fi

# A machine of another kind: its emulator is a stand-in that says what it is given.
kit=$room/kit
machine=$room/other
mkdir -p "$machine"
printf '#!/bin/sh\n[ "$1" = doc ] && echo "%s/START-HERE.md"\n' "$kit" >"$machine/rt"
printf '#!/bin/sh\necho other\n' >"$machine/uname"
for of_it in plan_order week_sheet; do
    printf '[ "$*" != "%s" ] || exec cat "%s"\n' \
        "$kit/toolchain/lib/ld-linux-x86-64.so.2 --library-path $kit/toolchain/lib $room/plans/stand/target/bin/$of_it" \
        "$room/$of_it.text"
done | sed '1i #!/bin/sh' >"$machine/qemu-x86_64"
echo 0 0 0 0 0 7 0 >plan_order.text
printf '%s\n' 0 whole >week_sheet.text
chmod 755 "$machine/rt" "$machine/uname" "$machine/qemu-x86_64"
try env PATH="$machine:$PATH" "$room/plans/stand/leafanchor" plan p1
gives "on another machine an emulator runs the program" 0 '0 0 0 0 0 7 0' ''
try env PATH="$machine:$PATH" "$room/plans/stand/leafanchor" sheet week
gives "and that of sheets" 0 '0
whole' ''
rm "$machine/rt"
for words in 'plan p1' 'sheet week'; do
    # shellcheck disable=SC2086
    try env PATH="$machine:$room/tools" "$room/plans/stand/leafanchor" $words
    gives "on another machine, and no rt on PATH: $words" 3 '' "leafanchor: on this machine the program runs under an emulator, *"
done

# ---- nothing is left behind

holds "no temporary file is left" '[ -z "$(ls -A "$room/tmp")" ]'

[ "$wrong" = 0 ] || { echo "shell: $wrong of $cases cases are wrong"; exit 1; }
echo "shell: all $cases cases are as they should be"
