# shellcheck shell=sh disable=SC2154
# Read by ./leafanchor: one of them at a time builds for a checkout, $here, and what it starts ends with it. It has say WORDS and
# fail STATUS WORDS. rt itself waits where another rt works, that of the tests among them.

lock=$here/target/build.lock
child='' ticker=''

# apart FOLDER COMMAND: runs it there in a group of its own, so that a signal to us ends it with all that it started.
apart() {
    { cd "$1" && shift && exec setsid "$@"; } &
    child=$!
    wait "$child"
}

# Ends what runs beside us, and then ourselves by the same signal. A process that has just begun may lose any signal but KILL.
stop() {
    trap - HUP INT TERM
    [ ! -t 2 ] || printf '\n' >&2
    { kill -s TERM -- "-$child" || kill -s KILL "$child"; [ -z "$ticker" ] || kill -s KILL "$ticker"; } 2>/dev/null
    kill -s "$1" "$$"
}

# Whether the lock's file is there to be taken, or could be made.
can_lock() { (mkdir -p "$here/target" && : >>"$lock") 2>/dev/null; }

# Takes the lock, from here on until our end or let_go. It goes with the last process that holds descriptor 9, so it is never
# stale.
take_lock() {
    trap 'stop HUP' HUP
    trap 'stop INT' INT
    trap 'stop TERM' TERM
    exec 9>>"$lock"
    flock -n 9 2>/dev/null && return
    say "a build of this checkout is under way: waiting for its end"
    apart "$here" flock 9 >/dev/null 2>&1 || fail 3 "the lock on builds cannot be had: flock or setsid failed"
}

let_go() {
    exec 9>&-
    trap - HUP INT TERM
}
