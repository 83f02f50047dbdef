#!/usr/bin/env bash
# Tries the release on the made repository of stand_in.bash: none yet, made, made again, refused; verified in a second
# clone in another folder, with one byte changed, with sources ahead, with a history that is cut or none, without `rt`
# and with another kit. Then the launcher, the installer and the gate, where there is a release alone, a built program
# beside it, or neither. At the end the real release is called, where there is one, without `rt` and with nothing built.
# Prints a line for each state. Status: 0 all are as they should be; 1 one is not.
set -u
# shellcheck source=tests/stand_in.bash
. "$(dirname -- "${BASH_SOURCE[0]}")/stand_in.bash" || exit 1
command -v git >/dev/null || { echo "there is no git"; exit 77; }
other=$room/elsewhere/other
export GIT_CONFIG_GLOBAL=/dev/null GIT_CONFIG_SYSTEM=/dev/null
export GIT_AUTHOR_NAME=one GIT_AUTHOR_EMAIL=one@localhost GIT_COMMITTER_NAME=one GIT_COMMITTER_EMAIL=one@localhost

# ---- folders of commands that lack some ----

mkdir -p "$room/no-rt" "$room/no-git"
IFS=: read -ra places <<<"$PATH"
for place in "${places[@]}"; do
    for folder in no-rt no-git; do ln -s "$place"/* "$room/$folder" 2>/dev/null; done
done
rm -f "$room"/no-{rt,git}/rt "$room/no-git/git"
without_rt=(env PATH="$room/no-rt")
without_git=(env PATH="$room/bin:$room/no-git")

# ---- the made repository, under git ----

in_repo() { git -C "$repo" -c init.defaultBranch=main "$@" >"$room/git" 2>&1 || cat "$room/git"; }
commit() { in_repo add -A && in_repo commit -m "$1"; }

# A repository that is committed, with no release: HEADING of the newest entry
fresh_commit() {
    fresh
    rm -rf "$other"
    mkdir -p "$repo/.ci" "$repo/tests"
    cp -- "$top/.ci/run" "$repo/.ci"
    printf '%s\n' '#!/bin/sh' 'echo tried' "exit \${TESTS_END-0}" >"$repo/tests/run" && chmod 755 "$repo/tests/run"
    printf 'out/\n' >"$repo/.gitignore"
    printf '# Changes\n\n## %s\n\n- All.\n' "$1" >"$repo/CHANGELOG.md"
    in_repo init
    commit "All"
}

# One that has a release, and a second clone of it in another folder
fresh_release() {
    fresh_commit 0.2.0
    "$repo/release/make" 2>"$room/err"
    commit "Release 0.2.0"
    git clone -q "$repo" "$other"
    forget_calls
}

# Puts another byte in place of one: FILE PLACE
change_byte() { printf '~' | dd of="$1" bs=1 seek="$2" conv=notrunc status=none; }

# A command ends with STATUS, and the last line that it prints on standard output ends with TEXT: STATUS TEXT COMMAND..
tells() {
    local got status
    got=$("${@:3}" 2>"$room/err" </dev/null)
    status=$?
    got=${got##*$'\n'}
    [[ $got != *"$2" ]] || got=$2
    judge "$status: $got" "$1: $2"
}

# ---- making one ----

fresh_commit 0.2.0
state "none yet: verify says so" && prints 3 "release: there is none yet" "$repo/release/verify"
state "none yet: the gate goes on" && prints 0 "" "$repo/.ci/run"
state "none yet: the gate says so" && said "release: there is none yet"
state "the gate runs the tests" && said tried
state "the gate, where a test fails" && prints 1 "" env TESTS_END=1 "$repo/.ci/run"
state "the gate without rt: a status of its own" && prints 69 "" "${without_rt[@]}" "$repo/.ci/run"
state "the gate without rt: it says what is needed" && said "the Rattle toolchain is needed"
state "the gate without rt runs the tests" && said tried
state "the gate without rt, where a test fails" && prints 1 "" "${without_rt[@]}" TESTS_END=1 "$repo/.ci/run"
state "none yet: the launcher builds" && prints 0 "one<x>" "$repo/path_server" x

state "made" && prints 0 "" "$repo/release/make"
state "made: it says what to commit"
said "bytes: commit release/path_server release/path_server.sha256 release/manifest"
state "made: the program is the one that is built"
judge "$(cmp "$repo/release/path_server" "$built" && stat -c %a "$repo/release/path_server")" 755
state "made: the SHA-256" && prints 0 "path_server: OK" env -C "$repo/release" sha256sum -c path_server.sha256
state "made: the manifest"
judge "$(cat "$repo/release/manifest")" "version 0.2.0
sources $(cd "$repo" && sha256sum crates.txt crates/{beside,low}/src/main.rt crates/path_server/src/{main.rt,program} |
    sha256sum | cut -d ' ' -f 1)
kit a made kit
bytes $(stat -c %s "$built")"
state "made: nothing else is in the folder"
judge "$(cd "$repo/release" && echo *)" "make manifest path_server path_server.sha256 sources verify"
commit "Release 0.2.0"
state "made again: the same files"
"$repo/release/make" 2>"$room/err"
judge "$? $(git -C "$repo" status --porcelain)" "0 "

state "made of what the gate has built: the same files"
forget_calls
"$repo/.ci/run" 2>/dev/null && "$repo/release/make" --built 2>"$room/err"
judge "$? $(git -C "$repo" status --porcelain)" "0 "
state "made of what the gate has built: nothing is built again" && worked 0
state "made in another way" && prints 2 "" "$repo/release/make" --build

# Not made, for a reason, and release/ is as before: TEXT COMMAND..
refuses() {
    local before
    before=$(cat "$repo/release/"{manifest,path_server}*)
    prints 1 "" "${@:2}"
    said "$1"
    judge "$(cat "$repo/release/"{manifest,path_server}*)" "$before"
}
state "made over changes that are not committed: refused"
echo >>"$repo/crates/low/src/main.rt"
refuses "these changes are not committed" "$repo/release/make"
commit "Low: a line more"
state "made anew under a version that is released: refused"
refuses "0.2.0 is released, with other sources" "$repo/release/make"
sed -i 's/## 0.2.0/## 0.3.0, unreleased/' "$repo/CHANGELOG.md" && commit "Changes"
state "made of what is called unreleased: refused" && refuses "calls 0.3.0 unreleased" "$repo/release/make"
sed -i 's/## 0.3.0, unreleased/## Next/' "$repo/CHANGELOG.md" && commit "Changes"
state "made of no version: refused" && refuses "is no version 0.N.0: ## Next" "$repo/release/make"
sed -i 's/## Next/## 0.3.0/' "$repo/CHANGELOG.md" && touch "$repo/crates/beside/broken" && commit "Changes"
state "made of what is not proved: refused" && refuses "0.3.0 could not be built" "$repo/release/make"
rm -r "$repo/crates/path_server/out"
state "made of what nothing has built: refused"
refuses "there is no crates/path_server/out/path_server" "$repo/release/make" --built
state "made without rt: refused" && refuses "there is no command rt" "${without_rt[@]}" "$repo/release/make"
rm "$repo/crates/beside/broken" && commit "Beside: mended"
state "the next one is made" && prints 0 "" "$repo/release/make"
state "the next one: its version" && judge "$(head -n 1 "$repo/release/manifest")" "version 0.3.0"

# ---- verifying it ----

fresh_release
state "verified in another folder"
tells 0 "with the right SHA-256; built again from its sources, and all bytes are the same" "$other/release/verify"
state "verified: each crate was proved" && worked 3 beside low path_server
state "verified: one line" && judge "$("$other/release/verify" 2>/dev/null | wc -l)" 1
state "called in another way" && prints 2 "" "$other/release/verify" --build
forget_calls
state "verified by the gate" && prints 0 "" "$other/.ci/run"
state "verified by the gate: it says so" && said "all bytes are the same"
state "verified by the gate: with what it has built" && worked 0
state "verified without rt: the SHA-256 alone"
tells 3 "with the right SHA-256; not compared: there is no command rt here" "${without_rt[@]}" "$other/release/verify"
state "verified by another kit: the SHA-256 alone"
tells 3 "it was built by a made kit, and rt here is a later kit" env KIT_LINE="a later kit" "$other/release/verify"
touch "$other/crates/beside/broken"
state "what cannot be built again fails" && tells 1 "0.2.0 could not be built again" "$other/release/verify"
rm "$other/crates/beside/broken"

change_byte "$other/release/path_server" 3
sum_differs="another SHA-256 than release/path_server.sha256 says"
state "one byte changed: fails" && tells 1 "$sum_differs" "$other/release/verify"
state "one byte changed: fails without rt too" && tells 1 "$sum_differs" "${without_rt[@]}" "$other/release/verify"
state "one byte changed: the gate fails" && prints 1 "" "$other/.ci/run"
(cd "$other/release" && sha256sum path_server >path_server.sha256)
state "one byte changed, and the SHA-256 too: fails"
tells 1 "0.2.0 is not what its sources give: crates/path_server/out/path_server differs" "$other/release/verify"
echo >>"$other/release/path_server"
state "a byte more: fails"
tells 1 "bytes, and not $(stat -c %s "$repo/release/path_server")" "$other/release/verify"
cp "$repo/release/path_server"* "$other/release" && chmod 644 "$other/release/path_server"
state "not to be executed: fails" && tells 1 "chmod 755 release/path_server" "$other/release/verify"
chmod 755 "$other/release/path_server"
(cd "$other/release" && sha256sum make >path_server.sha256)
state "the SHA-256 of another file: fails" && tells 1 "$sum_differs" "$other/release/verify"
sed -i '/^kit/d' "$other/release/manifest"
state "a line of the manifest gone: fails"
tells 1 "it has to say version, sources, kit and bytes" "$other/release/verify"
rm "$other/release/manifest"
state "no manifest: fails" && tells 1 "is missing in release/" "$other/release/verify"

fresh_release
mkdir "$other/release/pathdb" && cd "$other/release/pathdb" || exit 1
for name in libpathdb.a libpathdb.so path_bake; do echo "$name" >"$name"; done
sha256sum -- * >SHA256SUMS
cd "$top" || exit 1
sums_differ="another SHA-256 than release/pathdb/SHA256SUMS says"
state "the library beside it" && tells 0 "all bytes are the same" "$other/release/verify"
change_byte "$other/release/pathdb/libpathdb.so" 3
state "a byte of the library changed: fails" && tells 1 "$sums_differ" "$other/release/verify"
echo libpathdb.so >"$other/release/pathdb/libpathdb.so"
state "a byte of the library changed back" && tells 0 "all bytes are the same" "$other/release/verify"
sed -i '/path_bake/d' "$other/release/pathdb/SHA256SUMS"
state "no SHA-256 of path_bake: fails" && tells 1 "$sums_differ" "$other/release/verify"
rm "$other/release/pathdb/SHA256SUMS"
state "no SHA-256 of the library: fails" && tells 1 "$sums_differ" "$other/release/verify"

# ---- sources ahead of it ----

fresh_release
echo >>"$other/crates/low/src/main.rt"
state "a source changed: ahead"
tells 3 "the sources are ahead by changes that are not committed" "$other/release/verify"
state "a source changed: nothing is built" && worked 0
add_commits() {
    echo >>"$repo/crates/low/src/main.rt" && commit "Low: a line more"
    echo >>"$repo/crates/low/note.md" && commit "Low: a note that is no source"
}
add_commits
state "a commit: ahead by it" && tells 3 "the sources are ahead by 1 commit" "$repo/release/verify"
add_commits
state "two commits: ahead by these" && tells 3 "the sources are ahead by 2 commits" "$repo/release/verify"
state "two commits: the gate goes on" && prints 0 "" "$repo/.ci/run"
state "two commits: the gate says so" && said "the sources are ahead by 2 commits"
change_byte "$repo/release/path_server" 3
state "two commits, and a byte changed: fails" && tells 1 "$sum_differs" "$repo/release/verify"
in_repo checkout release/path_server

cut="or more, for the history here has no commit with those of the release"
git clone -q --depth 2 "file://$repo" "$room/elsewhere/shallow"
state "a history that is cut"
tells 3 "the sources are ahead by 1 commit $cut" "$room/elsewhere/shallow/release/verify"
git clone -q --depth 5 "file://$repo" "$room/elsewhere/deeper"
state "a history that is cut behind the release"
tells 3 "the sources are ahead by 2 commits" "$room/elsewhere/deeper/release/verify"
none="ahead, and by how many commits cannot be said without git's history"
state "no git" && tells 3 "$none" "${without_git[@]}" "$repo/release/verify"
cp -r "$repo" "$room/elsewhere/archive" && rm -rf "$room/elsewhere/archive/.git"
state "no history" && tells 3 "$none" "$room/elsewhere/archive/release/verify"
state "no history: the gate goes on" && prints 0 "" "$room/elsewhere/archive/.ci/run"

# ---- the launcher and the installer with it ----

fresh_release
other_built=$other/crates/path_server/out/path_server
state "a release alone: runs at once" && prints 0 "one<x>" env -C "$room/elsewhere" other/path_server x
state "a release alone: no word on it" && judge "$(cat "$room/err")" ""
state "a release alone: asks rt for nothing" && worked 0
state "a release alone, without rt" && prints 0 "one<x>" "${without_rt[@]}" "$other/path_server" x
touch "$other/crates/low/src/main.rt" && echo >>"$other/crates/low/src/main.rt"
state "a release alone, sources ahead: runs at once" && prints 0 "one<x>" "${without_rt[@]}" "$other/path_server" x
state "a release alone, sources ahead: no word on it" && judge "$(cat "$room/err")" ""

# What ./install copies is as it should be, and its list removes it again: TEXT that the program prints for x
installed() {
    local prefix="$room/elsewhere/to here"
    rm -rf "$prefix"
    prints 0 "" "${without_rt[@]}" "$other/install" "$prefix"
    prints 0 "$1" "$prefix/bin/path_server" x
    judge "$(cd "$prefix" && find . -type f | sort)" "$(sed 's,^,./,' "$prefix/share/doc/path_server/INSTALLED")"
    judge "$(stat -c %a "$prefix/bin/path_server" "$prefix/share/doc/path_server/INSTALLED" | paste -sd ' ')" "755 644"
    (cd "$prefix" && xargs -d '\n' rm -- <share/doc/path_server/INSTALLED)
    judge "$(find "$prefix" -type f)" ""
}
state "a release alone: ./install, without rt" && installed "one<x>"

program two 0 >"$other/crates/path_server/src/program"
"$other/build" 2>/dev/null
state "both: the one that is built runs" && prints 0 "two<x>" "$other/path_server" x
state "both, sources changed again: the one that is built runs"
program three 0 >"$other/crates/path_server/src/program"
prints 0 "two<x>" "${without_rt[@]}" "$other/path_server" x
state "both, the release newer" && touch "$other/release/path_server" && prints 0 "two<x>" "$other/path_server" x
state "both: ./install copies the one that is built" && installed "two<x>"

# Something is done in the place of the program that is built, and the release is run: COMMAND..
in_built_place() {
    rm -rf "$other_built"
    "$@" "$other_built"
    state "a release, and in the built program's place by '$*'"
    prints 0 "one<x>" "${without_rt[@]}" "$other/path_server" x
}
in_built_place true
in_built_place touch
in_built_place mkdir
in_built_place ln -s /nowhere
rm -rf "$other_built"

# The same for the release where nothing is built: ./build makes the program: COMMAND..
in_release_place() {
    rm -rf "$other_built" "$other/release/path_server"
    "$@" "$other/release/path_server"
    state "nothing built, and in the release's place by '$*': built" && prints 0 "three<x>" "$other/path_server" x
}
in_release_place true
in_release_place touch
in_release_place mkdir
in_release_place ln -s /nowhere
in_release_place cp "$other/release/manifest"
rm -rf "$other_built"
state "neither, and no rt: status 125" && prints 125 "" "${without_rt[@]}" "$other/path_server" x
state "neither, and no rt: it says what is needed" && said "the Rattle toolchain is needed"
state "neither, and no rt: ./install ends with 1"
prints 1 "" "${without_rt[@]}" "$other/install" "$room/elsewhere/none"
state "neither, and no rt: ./install copies nothing" && judge "$(find "$room/elsewhere/none" 2>/dev/null)" ""

# ---- the real release ----

if [[ -e $top/release/manifest ]]; then
    mkdir -p "$room/alone/crates" && cp -r -- "$top"/{path_server,build,release,maps,crates.txt} "$room/alone"
    state "the real release, with nothing built and without rt"
    moves="E E E E E E E E SE SE E E E E SE SE SE SE S S SE E E E SE E E S SE SE SE SE E E E E E E"
    prints 0 $'cost 26 12\nlength 42.970562\nmoves '"$moves" \
        "${without_rt[@]}" "$room/alone/path_server" path "$room/alone/maps/tutorial.map" 2 2 37 17
    for sums in release/path_server.sha256 release/pathdb/SHA256SUMS; do
        state "the real release: $sums"
        prints 0 "" env -C "$top/${sums%/*}" sha256sum --check --strict --quiet "${sums##*/}"
    done
fi
exit $failed
