#!/usr/bin/env python3
"""What a person is told on standard error, beside the line on standard output and the status: each case of stderr.txt
is run over the maps of tests/maps and an empty input, and compared byte by byte.

A case is a line '$ WORDS', then 'status N', then the lines of standard output behind '> ' and those of standard error
behind '! '. Lines that begin with '#' are comments. Words are cut at spaces; '' is the empty word, and \\377 a byte
that is no text.
"""
import difflib, io, os, subprocess, sys

from judging import TOP, program_here

SPELLED = {b"''": b"", b"\\377": b"\xff"}
MAPS = os.path.join(TOP, "tests/maps")

program = program_here()


def lines_of(case):
    """What comes of a case, in the form of stderr.txt."""
    words = [SPELLED.get(word, word) for word in case[1:].split()]
    done = subprocess.run([program, *words], cwd=MAPS, stdin=subprocess.DEVNULL, capture_output=True, timeout=60)
    told = [mark + line for mark, text in ((b"> ", done.stdout), (b"! ", done.stderr)) for line in io.BytesIO(text)]
    return [case, b"status %d\n" % done.returncode, *told]


os.makedirs(os.path.join(MAPS, "folder"), exist_ok=True)
with open(os.path.join(TOP, "tests/stderr.txt"), "rb") as file:
    wanted = [line for line in file if line != b"\n" and not line.startswith(b"#")]
found = [line for case in wanted if case.startswith(b"$") for line in lines_of(case)]
sys.stdout.buffer.writelines(difflib.diff_bytes(difflib.unified_diff, wanted, found, b"stderr.txt", b"found", n=1))
sys.exit(found != wanted)
