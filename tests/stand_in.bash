# What the tests of the launcher and of the release share; it is sourced. A made repository of three crates, in which a
# script stands in for `rt`: it locks, keeps work by the sum of the sources and replaces the program as `rt` does, and
# takes half a second for a crate. And the judging of what a command prints and says.
top=$(cd -- "$(dirname -- "${BASH_SOURCE[0]}")/.." && pwd) || exit 1
room=$(mktemp -d) || exit 1
trap 'rm -rf "$room"' EXIT
repo="$room/a repository"
calls=$room/calls
failed=0
unset CDPATH

# ---- the made repository ----

stand_in() {
    cat <<'RT'
#!/usr/bin/env bash
# Stands in for `rt lib` and `rt run -- WORD..`, in a crate's folder, and for `rt version` and `rt ci`.
case $1 in
  version) echo "${KIT_LINE:-a made kit}"; exit ;;
  ci) cd crates/path_server && mkdir -p out && cp src/program out/path_server && chmod 755 out/path_server; exit ;;
esac
exec 7<. && flock 7
name=$(basename "$PWD")
echo "$name" >>"$CALLS"
if [ -e broken ]; then echo "error: $name is broken"; exit 1; fi
if [ -e out/unusable ]; then
  echo "rt: the kept work of $name cannot be used: remove $PWD/out, and run this again"
  exit 1
fi
mkdir -p out
sum=$(cat src/* ../low/src/* | sha256sum)
if [ "$(cat out/stamp 2>/dev/null)" != "$sum" ] || { [ "$1" = run ] && [ ! -e "out/$name" ]; }; then
  rm -f out/stamp
  sleep 0.4
  case $name in beside | away) sleep "${SLOW:-0}" ;; esac
  echo "$name" >>"$CALLS.proved"
  if [ "$1" = run ]; then
    cp src/program "out/.$name" && chmod 755 "out/.$name" && mv -fT "out/.$name" "out/$name"
  fi
  echo "$sum" >out/stamp
fi
if [ "$1" = run ]; then shift 2; exec "./out/$name" "$@"; fi
RT
}

# A program that prints its name, its words and a line of its input, and ends with a status, but for `check`:
# NAME STATUS
program() {
    cat <<END
#!/usr/bin/env bash
printf '$1'
printf '<%s>' "\$@"
read -r line
echo "\$line"
[ "\$1" = check ] || exit $2
END
}

# A repository in which nothing is built yet
fresh() {
    rm -rf "$repo" "$calls" "$calls.proved"
    mkdir -p "$repo/crates/"{low,beside,path_server}/src "$repo"/{maps,release} "$room/bin" "$room/elsewhere"
    cat >"$repo/crates.txt" <<'END'
# a comment
low: std_thing
beside: low
unused: low
path_server may_wait=1: beside low clap
END
    touch "$repo/crates/"{low,beside,path_server}/src/main.rt "$repo/maps/tutorial.map"
    program one 0 >"$repo/crates/path_server/src/program"
    cp -- "$top/path_server" "$top/build" "$top/install" "$top"/LICENSE-* "$top/NOTICES" "$repo"
    cp -- "$top/release/"{make,sources,verify} "$repo/release"
    stand_in >"$room/bin/rt" && chmod 755 "$room/bin/rt"
    : >"$calls" && : >"$calls.proved"
}

export CALLS=$calls PATH="$room/bin:$PATH"
built=$repo/crates/path_server/out/path_server

# ---- what is asked ----

state=''
state() { state=$1; }

# A command is as it should be: it ends with STATUS and prints TEXT on standard output: STATUS TEXT COMMAND..
prints() {
    local got status
    got=$("${@:3}" 2>"$room/err" </dev/null)
    status=$?
    judge "$status: $got" "$1: $2"
}

# Two texts are the same: GOT WANTED
judge() {
    if [[ $1 == "$2" ]]; then
        echo "ok: $state"
    else
        failed=1
        printf 'FAILED: %s\n  wanted: %s\n  got:    %s\n' "$state" "$2" "$1"
        sed 's/^/  | /' "$room/err" 2>/dev/null
    fi
}

# What was said on standard error has TEXT: TEXT
said() { judge "$(grep -o -m 1 -- "$1" "$room/err")" "$1"; }

# So often `rt` was called, and these crates were proved: NUMBER CRATE..
worked() { judge "$({ wc -l <"$calls" && sort "$calls.proved"; } | paste -sd ' ')" "$*"; }

forget_calls() { : >"$calls" && : >"$calls.proved"; }

