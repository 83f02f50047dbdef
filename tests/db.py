#!/usr/bin/env python3
"""`export` and `verify` beside a plain model: files of made maps of land and water in both orders are those of the model
byte for byte, each is accepted, and of each file that was spoilt, by a bit, a word, a run, a row, a cut or bytes more,
`verify` names the first fault that the model names; it accepts none but the file of a map. Prints only where something
is not as it should be.

    tests/db.py [COUNT], where COUNT files are spoilt, 1,500 where it is not given
"""
import os, random, struct, subprocess, sys, tempfile

from db_model import fields, file_of, head_bytes, row_bytes, wanted
from judging import Judge, program_here
from map_model import Map, made_map, rows_of, text_of

program, count = program_here(), int(sys.argv[1]) if len(sys.argv) > 1 else 1500
judge = Judge()


# ---- files that are spoilt

def spoilt(chance, grid, prefix, order):
    """The file of a map with something in it changed."""
    data = bytearray(file_of(grid, prefix, order))
    kind = chance.randrange(9)
    if kind == 0:
        at = chance.randrange(len(data))
        data[at] ^= 1 << chance.randrange(8)
    elif kind == 1:
        del data[chance.randrange(len(data)):]
    elif kind == 2:
        data += bytes(chance.randrange(4) for _ in range(chance.randint(1, 5)))
    elif kind == 3:
        at = 21 + chance.randrange(len(data) - 20) // 4 * 4
        data[at:at + 4] = struct.pack(">I", chance.choice([0, 1, 2, 8, 0xFFFFFFFF, chance.randrange(64)]))
    else:
        parts = [(cells, rows_of(grid, cells)) for cells in (grid.ordered(each, order) for each in grid.components())]
        spoil_rows(chance, kind, parts)
        data = head_bytes(grid, prefix, order) + b"".join(row_bytes(row) for _, rows in parts for row in rows)
    return bytes(data)


def spoil_rows(chance, kind, parts):
    """Changes a row, or exchanges two."""
    if not parts:
        return
    cells, rows = chance.choice(parts)
    at = chance.randrange(len(rows))
    row = rows[at] = list(rows[at])
    run = chance.randrange(len(row))
    if kind == 4:  # another move
        row[run] = (row[run][0], chance.randrange(8))
    elif kind == 5 and len(row) > 1:  # two runs made one
        del row[max(run, 1)]
    elif kind == 6:  # a run cut in two
        start = chance.randrange(len(cells))
        if start not in [each[0] for each in row]:
            row.append((start, max(each for each in row if each[0] < start)[1]))
            row.sort()
    elif kind == 7:  # a run that starts elsewhere
        row[run] = (min(len(cells) - 1, row[run][0] + chance.randint(0, 2)), row[run][1])
    else:  # two rows exchanged
        other = chance.randrange(len(rows))
        rows[at], rows[other] = rows[other], rows[at]


# what a person is told of a fault, by the words behind its name
WALK = "component {0}, from cell {2} to cell {1}: "
ADVICE = {
    "magic": "expected PATHDB01 at the start",
    "size": "expected sides from 1 to 4096 and at most 1048576 cells",
    "kind": "expected order 0 (rows) or 1 (dfs), found {0}",
    "terrain": "expected terrain 0, 1 or 2 at cell {2}, found {0}",
    "cut": "ends too soon, after {1} bytes",
    "runs": "component {0}, row {1}: expected rising run starts from 0, at most one per cell",
    "walk": WALK + "the rows do not lead there",
    "worse": WALK + "a shorter path exists",
    "loose": WALK + "a run ends too soon, or its move is not the least",
    "extra": "expected the end after the last row, at byte {1}",
}


def told(refusal, file):
    """What is on standard error beside a line on standard output."""
    name, *values = refusal.removeprefix("database refused: ").split()
    return f"{file}: {ADVICE[name].format(*values)}\n" if name in ADVICE else ""


def run(*words):
    done = subprocess.run([program, *words], stdin=subprocess.DEVNULL, capture_output=True, timeout=60)
    return done.stdout, done.returncode, done.stderr.decode()


with tempfile.TemporaryDirectory() as folder:
    map_file, db_file = os.path.join(folder, "m.map"), os.path.join(folder, "m.db")
    chance = random.Random(18)
    for number in range(40):
        grid, order = made_map(chance), number % 2
        with open(map_file, "w") as file:
            file.write(text_of(grid))
        words = ["--order", ("rows", "dfs")[order], "--workers", str(1 + number % 3)]
        data, *end = run("export", map_file, *words)
        judge(f"export of map {number}", (data, *end), (file_of(grid, 0, order), 0, ""))
        with open(db_file, "wb") as file:
            file.write(data)
        size = run("check", map_file, *words)[0].split(b"\n", 1)[1]
        judge(f"verify of map {number}", run("verify", db_file), (b"version 0\n" + size, 0, ""))
    same = 0
    for number in range(count):
        grid, order, prefix = made_map(chance), chance.randrange(2), chance.choice([0, 1, 0xFFFFFFFF])
        data = spoilt(chance, grid, prefix, order)
        with open(db_file, "wb") as file:
            file.write(data)
        found, status, advice = run("verify", db_file)
        judge(f"spoilt file {number}: {data.hex()}", (found.decode(), status), wanted(data))
        judge(f"what is told of spoilt file {number}: {data.hex()}", advice, told(found.decode(), db_file))
        if status == 0:
            read, edits, _ = fields(data)
            same += 1
            judge(f"accepted file {number}", data, file_of(read, edits, data[20]))
    judge("some files were left as they were, and most were not", 0 < same < count / 2, True)
sys.exit(judge.failed)
