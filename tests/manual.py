#!/usr/bin/env python3
"""Each shell that is here reads its completion, and bash completes by it what is typed at a terminal. The man pages and
the completions are what tools/manual makes of the program that was built; the release may be older than they are.
"""
import os, shutil, subprocess, sys, tempfile

from judging import TOP, Judge, program_here
from terminal import Terminal

FILES = "my map.map", "4000.map", "other.scen"
# in place of the program a function that tells its words
BEGIN = """bind 'set bell-style none'
bind 'set completion-query-items 0'
PS1=
path_server() { printf 'told '; printf '<%s>' "$@"; echo; }
. "$COMPLETION"
"""
# what is typed behind the program's name, and the words that it is called with then
TYPED = (
    ("che\t my\t", "<check><my map.map>"),
    ("check my\\ m\t", "<check><my map.map>"),
    ("check 'my m\t", "<check><my map.map>"),
    ("check --o\tdf\tmy\t", "<check><--order><dfs><my map.map>"),
    ("check --workers 4\t", "<check><--workers><4>"),
    ("scen my\toth\t", "<scen><my map.map><other.scen>"),
    ("ask 400\t status", "<ask><400><status>"),
    ("ask 400 q\t1", "<ask><400><query><1>"),
    ("ask 400 my\t", "<ask><400><my>"),
    ("ask 400 query oth\t", "<ask><400><query><oth>"),
    ("follow 40\t --\t", "<follow><40><--order>"),
)


def typed(completion, folder):
    """The lines that bash puts where they are typed."""
    terminal = Terminal()
    begin = os.path.join(folder, "begin")
    with open(begin, "w") as file:
        file.write(BEGIN)
    shell = subprocess.Popen(
        ["bash", "--rcfile", begin, "--noprofile", "-i"], cwd=folder, start_new_session=True,
        stdin=terminal.theirs, stdout=terminal.theirs, stderr=terminal.theirs,
        env={**os.environ, "COMPLETION": completion, "TERM": "dumb", "INPUTRC": "/dev/null", "HISTFILE": ""},
    )
    try:
        os.write(terminal.ours, ("".join("path_server %s\n" % keys for keys, _ in TYPED) + "exit\n").encode())
        shell.wait(30)
    except subprocess.TimeoutExpired:  # what is there by then is judged
        shell.kill()
        shell.wait()
    return terminal.text().splitlines()


judge = Judge()
completions = os.path.join(TOP, "docs/completions")
for shell, name in (("bash", "path_server.bash"), ("zsh", "_path_server"), ("fish", "path_server.fish")):
    if shutil.which(shell):
        judge(f"{shell} reads {name}", subprocess.call([shell, "-n", os.path.join(completions, name)]), 0)
with tempfile.TemporaryDirectory() as folder:
    for name in FILES:
        open(os.path.join(folder, name), "w").close()
    put = typed(os.path.join(completions, "path_server.bash"), folder)
lines = [line[5:] for line in put if line.startswith("told ")]
judge("how many lines", len(lines), len(TYPED))
for (keys, wanted), line in zip(TYPED, lines):
    judge("bash, %r" % keys, line, wanted)
program = program_here()
if program != os.path.join(TOP, "release/path_server"):
    judge("tools/manual", subprocess.call([os.path.join(TOP, "tools/manual"), "--check", program]), 0)
sys.exit(judge.failed)
