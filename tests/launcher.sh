#!/usr/bin/env bash
# Tries the states that ./path_server, ./build and ./install can be left in, one by one: never built, killed in the
# middle, run twice at once, called from another folder or through a link, with sources newer or older than the program,
# with something else in the program's place. It works on the made repository of stand_in.bash. At the end the real
# program is called, where it is built.
# Prints a line for each state. Status: 0 all are as they should be; 1 one is not.
set -u
# shellcheck source=tests/stand_in.bash
. "$(dirname -- "${BASH_SOURCE[0]}")/stand_in.bash" || exit 1

# ---- the states ----

fresh
state "never built: builds and runs, with the words and standard input as they are"
judge "$(cd "$room/elsewhere" && "$repo/path_server" path 'a b' '' '*' 2>"$room/err" <<<text)" "one<path><a b><><*>text"
state "never built: each crate is proved once, lowest first, and no other"
judge "$(tr '\n' ' ' <"$calls")" "low beside path_server "
state "progress: all are done, and the time"
said "build: done, 3 of 3 crates in 0:0"

forget_calls
state "built: runs at once" && prints 0 "one<check><m>" "$repo/path_server" check m
state "built: asks rt for nothing" && worked 0
state "built: ./build says that nothing has changed" && prints 0 "" "$repo/build"
state "built: it says so in words" && said "nothing has changed since the last build"
state "built: it asks rt for nothing" && worked 0

state "sources touched: runs at once"
touch "$repo/crates/low/src/main.rt" "$repo/crates.txt"
prints 0 "one<x>" "$repo/path_server" x
state "sources touched: ./build says that nothing has changed"
"$repo/build" 2>"$room/err"
said "nothing has changed since the last build"
forget_calls
state "sources changed: the program that is there runs at once"
program two 3 >"$repo/crates/path_server/src/program"
prints 0 "one<x>" "$repo/path_server" x
state "sources changed: asks rt for nothing" && worked 0
state "sources changed: ./build builds" && prints 0 "" "$repo/build"
state "sources changed: just that crate is proved" && worked 3 path_server
state "its own status is the program's" && prints 3 "two<x>" "$repo/path_server" x
state "sources older than the program" && touch -d '2001-01-01' "$repo/crates/"*/src/* &&
    prints 3 "two<x>" "$repo/path_server" x
state "program older than the sources" && touch -d '2001-01-01' "$built" && prints 3 "two<x>" "$repo/path_server" x

ln -sfn "$repo/path_server" "$room/elsewhere/absolute"
ln -sfn absolute "$room/elsewhere/twice"
ln -sfn "../a repository" "$room/elsewhere/folder"
state "through a link to a link, from another folder" && prints 3 "two<x>" env -C "$room/elsewhere" ./twice x
state "through a link to its folder" && prints 3 "two<x>" env -C "$room/elsewhere" folder/path_server x
state "found by PATH" && prints 3 "two<x>" env PATH="$repo:$PATH" path_server x
fresh
state "./build through a link, from another folder" && ln -sfn "$repo/build" "$room/elsewhere/build" &&
    prints 0 "" env -C "$room/elsewhere" ./build
state "./build through a link builds" && prints 0 "one<x>" "$repo/path_server" x

fresh
SLOW=3 "$repo/build" 2>"$room/err"
state "progress: which crate, how many are done of how many, and the time"
said "build: proving beside, 1 of 3 crates are done, 0:0"

# A fourth crate, which stands beside the one named so
two_beside() {
    fresh
    mkdir -p "$repo/crates/away/src" && touch "$repo/crates/away/src/main.rt"
    printf '%s\n' 'low:' 'beside: low' 'away: low' 'path_server: beside away' >"$repo/crates.txt"
}
two_beside
SLOW=3 BUILD_JOBS=2 "$repo/build" 2>"$room/err"
state "two crates of which neither stands on the other: side by side"
for name in beside away; do said "build: proving $name, 1 of 4 crates are done, 0:0"; done
state "two crates side by side: each is proved once, and all before the program"
judge "$(sort "$calls.proved" | paste -sd ' ') $(tail -n 1 "$calls")" "away beside low path_server path_server"
two_beside
touch "$repo/crates/beside/broken"
state "one of two is refused: the other is stopped" && SLOW=60 prints 1 "" env BUILD_JOBS=2 "$repo/build"
state "one of two is refused: it is named" && said "build: beside failed; the whole log is"
if command -v script >/dev/null; then
    fresh
    script -qec "'$repo/build'" /dev/null >"$room/err" 2>&1 </dev/null
    state "progress on a terminal: one line that is rewritten"
    times=$(grep -o $'\r\e\[Kbuild: proving [a-z_]*, . of 3 crates are done, 0:..' "$room/err" | wc -l)
    judge "$(grep -c proving "$room/err") line, $times times" "1 line, 3 times"
fi

# A build is stopped in its second crate, and then once more run to its end: SIGNAL STATUS
killed() {
    fresh
    state "./build stopped by $1: its status"
    "$repo/build" 2>"$room/err" &
    local build=$!
    until grep -q beside "$calls"; do sleep 0.05; done
    kill "-$1" "$build"
    wait "$build" 2>/dev/null
    judge "$?" "$2"
    state "./build stopped by $1: the next one builds" && prints 0 "" "$repo/build"
    state "./build stopped by $1: the program runs" && prints 0 "one<x>" "$repo/path_server" x
    state "./build stopped by $1: what was proved is kept" && judge "$(grep -c low "$calls.proved")" 1
}
killed TERM 143
killed HUP 129
killed KILL 137

fresh
"$repo/path_server" x 2>/dev/null </dev/null >/dev/null &
launcher=$!
until grep -q beside "$calls"; do sleep 0.05; done
kill -KILL "$launcher"
wait "$launcher" 2>/dev/null
state "./path_server killed in its first build: the next one runs" && prints 0 "one<x>" "$repo/path_server" x

fresh
for i in 1 2 3; do "$repo/path_server" "$i" >"$room/out.$i" 2>/dev/null </dev/null & done
wait
state "three at once, never built: each prints its own" && judge "$(cat "$room"/out.[123])" $'one<1>\none<2>\none<3>'
state "three at once: each crate is proved once" && judge "$(sort "$calls.proved" | paste -sd ' ')" "beside low path_server"
state "program replaced while it runs"
program two 3 >"$repo/crates/path_server/src/program"
mkfifo "$room/pipe"
"$repo/path_server" x <"$room/pipe" >"$room/out.1" &
exec 5>"$room/pipe"
prints 0 "" "$repo/build"
echo text >&5
exec 5>&-
wait
state "program replaced while it runs: it goes on" && judge "$(cat "$room/out.1")" "one<x>text"
state "program replaced while it runs: the next call has the new one" && prints 3 "two<x>" "$repo/path_server" x

# The program is put out of the way, something is done in its place, and it is built anew: COMMAND..
replaced() {
    rm -rf "$built"
    "$@" "$built"
    state "in the program's place by '$*': built anew" && prints 3 "two<x>" "$repo/path_server" x
}
replaced true
replaced touch
replaced mkdir
replaced ln -s /nowhere
replaced cp "$repo/crates/path_server/src/program"

fresh
touch "$repo/crates/beside/broken"
state "a crate that is refused: status 125, and nothing on standard output" && prints 125 "" "$repo/path_server" x
state "a crate that is refused: rt's words are shown" && said "error: beside is broken"
state "a crate that is refused: it is named" && said "build: beside failed; the whole log is"
state "a crate that is refused: ./build ends with 1" && prints 1 "" "$repo/build"
rm "$repo/crates/beside/broken"
state "once it is mended: runs" && prints 0 "one<x>" "$repo/path_server" x
touch "$repo/crates/beside/out/unusable"
rm "$built"
state "kept work that cannot be used: all anew" && prints 0 "one<x>" "$repo/path_server" x

fresh
mkdir -p "$room/few"
for tool in bash dirname readlink env sed cat; do ln -sf "$(command -v $tool)" "$room/few/$tool"; done
state "no rt: status 125" && prints 125 "" env PATH="$room/few" "$repo/path_server" x
state "no rt: it says what is needed" && said "the Rattle toolchain is needed"
ln -s "$room/bin/rt" "$room/few"
state "no rt, no make: status 69" && prints 69 "" env PATH="$room/few" "$repo/build"
state "no make: it says what is needed" && said "there is no command make: GNU make is needed"

state "./install, never built: builds and copies" && prints 0 "" env -C "$room/elsewhere" "$repo/install" "to here"
state "./install: the copy runs" && prints 0 "one<x>" "$room/elsewhere/to here/bin/path_server" x
prefix="$room/elsewhere/to here"
state "./install: the licences"
judge "$(cat "$prefix/share/doc/path_server/"{LICENSE-*,NOTICES})" "$(cat "$top"/{LICENSE-*,NOTICES})"
state "./install, what a killed copy left"
echo half >"$prefix/bin/.path_server.new"
prints 0 "" "$repo/install" "$prefix"
state "./install, what a killed copy left is gone" && judge "$(ls -A "$prefix/bin")" path_server
for i in 1 2 3; do "$repo/install" "$room/elsewhere/three" 2>/dev/null & done
wait
state "./install three times at once" && prints 0 "one<x>" "$room/elsewhere/three/bin/path_server" x
state "./install with no folder" && prints 2 "" "$repo/install"
state "./install to a place where none can be" && prints 1 "" "$repo/install" /dev/null/x

# ---- the real program ----

real=$top/crates/path_server/out/path_server
if [[ -x $real ]]; then
    ln -sfn "$top/path_server" "$room/elsewhere/real"
    printf 'type octile\nheight 1\nwidth 3\nmap\n...\n' >"$room/elsewhere/three.map"
    state "the real program, through a link from another folder"
    prints 0 $'size 3 1\ncells 3\ncomponents 1\nruns 4' env -C "$room/elsewhere" ./real check three.map
fi
exit $failed
