#!/usr/bin/env python3
"""The tools beside the program: `tools/draw`, `tools/scenarios`, `tools/judge` and `tools/plot` over made maps and
lists of scenarios. Prints only where something is not as it should be.
"""
import contextlib, csv, importlib.util, io, math, os, random, re, runpy, statistics, subprocess, sys, tempfile
from xml.etree import ElementTree

from judging import TOP, Judge, program_here

sys.path.insert(0, os.path.join(TOP, "tools"))
from path_tools.grids import MAX_PASSABLE, Grid, read_grid
from path_tools.searches import DIAGONAL, STRAIGHT, components, runs_by_row, search
from path_tools.problems import Problem
from path_tools.scenario_runs import fault_of, fault_of_answer
from path_server import Move, Path, Unreachable

program = program_here()
judge = Judge()
SETS = 20


def run(*words):
    done = subprocess.run(words, stdin=subprocess.DEVNULL, capture_output=True, timeout=120, text=True)
    return done.returncode, done.stdout, done.stderr


TOOLS = ("draw", "scenarios", "judge", "plot")
MAIN = {name: runpy.run_path(os.path.join(TOP, "tools", name))["main"] for name in TOOLS}


def tool(name, *words):
    """The status of a tool, and what it prints; it runs in this process, which is quicker."""
    sys.argv = [name, *words]
    with contextlib.redirect_stdout(io.StringIO()) as out, contextlib.redirect_stderr(io.StringIO()) as said:
        try:
            status = MAIN[name]()
        except SystemExit as end:
            status = end.code
    return status, out.getvalue(), said.getvalue()


def random_grid(rng, number):
    """A map: of one cell, all blocked, or of land and water at random."""
    if number < 2:
        return Grid(1, 1, bytes([number]))
    width, height = rng.randint(2, 14), rng.randint(2, 14)
    blocked = 1.0 if number == 2 else rng.choice((0.0, 0.2, 0.4))
    water = rng.choice((0.0, 0.0, 0.3))
    cells = (0 if rng.random() < blocked else 2 if rng.random() < water else 1 for _ in range(width * height))
    return Grid(width, height, bytes(cells))


def least_cost(grid, start, goal):
    """Straight and diagonal moves of a best path, or nothing."""
    if not (grid.is_free(start) and grid.is_free(goal)):
        return None
    units = search(grid, grid.place(start))[0].get(grid.place(goal))
    if units is None:
        return None
    return next(
        (straight, diagonal)
        for diagonal in range(400)
        for straight in [(units - diagonal * DIAGONAL) // STRAIGHT]
        if straight * STRAIGHT + diagonal * DIAGONAL == units
    )


def length_of(rng, cost):
    """A length as a list may state it: the right one, one at the border of what matches, or a wrong one."""
    straight, diagonal = cost or (3, 0)
    nano = straight * 10**9 + math.isqrt(2 * diagonal**2 * 10**18)
    nano = max(0, nano + rng.choice((0, 0, 0, 10**7, -(10**7), 10**7 + 1, -(10**7) - 1, 10**9, 4 * 10**6)))
    return (
        "%d.%09d" % divmod(nano, 10**9)
        if rng.random() < 0.8
        else "%d.%02d" % (nano // 10**9, nano // 10**7 % 100)
    )


def scenario(rng, grid, gap):
    """A line of a list: ends mostly inside, lengths right or wrong, sides at times of another map."""
    start, goal = [
        (rng.randint(0, grid.width - (rng.random() < 0.9)), rng.randint(0, grid.height - 1)) for _ in range(2)
    ]
    width = grid.width + (rng.random() < 0.1)
    numbers = (
        rng.randrange(4),
        "m.map",
        width,
        grid.height,
        *start,
        *goal,
        length_of(rng, least_cost(grid, start, goal)),
    )
    return gap.join(map(str, numbers))


def judge_lines(name, grid, lines, told):
    """Each line beside that of `scen`; and each path over again."""
    for line, text in zip(lines, told.splitlines()):
        result = line["result"]
        found = " ".join(
            [line["problem"], result] + [line[column] for column in ("straight", "diagonal", "length") if line[column]]
        )
        judge(f"{name}: a line", found, text)


def judge_totals(name, lines, parts, total):
    """The times and ratios of the totals are those of the lines."""
    times = sorted(int(line["nanoseconds"]) for line in lines if line["nanoseconds"])
    ranks = {part: next(time for time in times if 100 * sum(each <= time for each in times) >= part * len(times))
             for part in (50, 90, 99) if times}
    judge(f"{name}: percentiles", {part: int(total[f"p{part}_nanoseconds"]) for part in ranks}, ranks)
    ratios = [float(line["length"]) / float(line["stated"]) for line in lines
              if line["length"] and float(line["stated"])]
    if ratios:
        found = float(total["mean_ratio"]) - sum(ratios) / len(ratios), float(total["worst_ratio"]) - max(ratios)
        judge(f"{name}: ratios {found}", max(map(abs, found)) < 1e-5, True)
    buckets = {line["bucket"]: 0 for line in lines}
    for line in lines:
        buckets[line["bucket"]] += 1
    found = {part["bucket"]: int(part["problems"]) for part in parts if part["map"] == "all"}
    judge(f"{name}: buckets", found, buckets)
    judge(f"{name}: the build", float(total["build_seconds"]) > 0 and int(total["database_bytes"]) > 0, True)


def judge_paths(name, grid, lines, rows):
    """The file of paths has the cells of each path, and each leads from start to goal by legal moves."""
    cells = {}
    for row in rows:
        cells.setdefault(row["problem"], []).append((int(row["x"]), int(row["y"])))
    judge(f"{name}: paths", sorted(cells), sorted(line["problem"] for line in lines if line["moves"]))
    for line in (line for line in lines if line["moves"]):
        path = cells[line["problem"]]
        steps = [
            Move([move.step for move in Move].index((after[0] - before[0], after[1] - before[1])))
            for before, after in zip(path, path[1:])
        ]
        answer = Path(0, int(line["straight"]), int(line["diagonal"]), tuple(steps))
        goal = (int(line["goal_x"]), int(line["goal_y"]))
        judge(f"{name}: a path", fault_of(grid, (int(line["start_x"]), int(line["start_y"])), goal, answer), None)


def judge_set(rng, folder, number):
    """A map and a list of scenarios."""
    grid, name = random_grid(rng, number), f"set {number}"
    map_name, scen, paths, totals = [os.path.join(folder, each) for each in ("m.map", "m.scen", "paths", "totals")]
    end, gap = rng.choice(("\n", "\r\n")), rng.choice(("\t", " "))
    with open(map_name, "w", newline="") as file:
        file.write(grid.text().replace("\n", end))
    with open(scen, "w", newline="") as file:
        file.write(end.join(["version 1", *(scenario(rng, grid, gap) for _ in range(rng.choice((0, 30)))), ""]))
    told = run(program, "scen", map_name, scen)[1]
    order = rng.choice(("rows", "dfs"))
    status, text, said = tool(
        "scenarios", map_name, scen, "--paths", paths, "--totals", totals, "--rounds", "1", "--search", "--order", order
    )
    lines = list(csv.DictReader(text.splitlines()))
    judge_lines(name, grid, lines, told)
    # which of several optimal paths is told depends on the order; its cost does not
    with open(paths) as file:
        judge_paths(name, grid, lines, csv.DictReader(file))
    with open(totals) as file:
        *parts, total = csv.DictReader(file)
    judge_totals(name, lines, parts, total)
    results = " ".join(
        f"{result} {total[result]}" for result in ("match", "differs", "unreachable", "refused", "scaled")
    )
    judge(f"{name}: the totals", f"scenarios {total['problems']} {results}", told.splitlines()[-1])
    judge(f"{name}: the status", status, 0 if total["match"] == total["problems"] else 1)
    judge(f"{name}: the time is explained", "\nnanoseconds: a call of libpathdb, the least of 1," in said, True)
    check = dict(line.split(" ", 1) for line in run(program, "check", map_name, "--order", order)[1].splitlines())
    read = read_grid(map_name)
    judge(f"{name}: the map", read, grid)
    judge(f"{name}: runs", sum(count for _, count in runs_by_row(grid, order)), int(check["runs"]))
    judge(f"{name}: components", len(components(grid)), int(check["components"]))


def judge_faults(folder):
    """What the tools say of files that are none, and with which status."""
    maps = os.path.join(TOP, "tests/maps")
    row = os.path.join(maps, "row.map")
    for scen in ("fields.scen", "number.scen", "version.scen", "none.scen"):
        judge(scen, tool("scenarios", row, os.path.join(maps, scen))[0], 3)
    judge("no map", tool("scenarios", os.path.join(folder, "none.map"), os.path.join(maps, "row.scen"))[0], 3)
    for name in sorted(os.listdir(maps)):
        if name.endswith(".map"):
            is_map = run(program, "check", os.path.join(maps, name))[0] == 0
            judge(f"draw map {name}", tool("draw", "map", os.path.join(maps, name))[0], 0 if is_map else 1)
    judge("words", [tool("draw")[0], tool("draw", "path", row, "0", "0", "2")[0], tool("scenarios")[0]], [2, 2, 2])
    judge("no list beside a map", tool("scenarios", row)[0], 3)
    judge("a folder without maps", tool("scenarios", os.path.join(TOP, "docs"))[0], 3)
    judge("a blocked end", tool("draw", "path", row, "0", "0", "1", "0")[2], "tools/draw: the goal is blocked\n")


def judge_checker():
    """The check of paths finds a move through a wall, a cut corner, another end, and a cost that is not the moves'."""
    grid = Grid(3, 2, bytes((1, 0, 1, 1, 1, 1)))
    wrong = [
        Path(0, 2, 0, (Move.E, Move.E)),
        Path(0, 2, 1, (Move.SE, Move.E, Move.N)),
        Path(0, 1, 0, (Move.S,)),
        Path(0, 3, 1, (Move.S, Move.E, Move.E, Move.N)),
    ]
    judge("wrong paths", [fault_of(grid, (0, 0), (2, 0), path) is None for path in wrong], [False] * 4)
    judge("a right path", fault_of(grid, (0, 0), (2, 0), Path(0, 4, 0, (Move.S, Move.E, Move.E, Move.N))), None)
    shore = Grid(3, 2, bytes((1, 2, 1, 1, 1, 1)))
    for path in Path(0, 2, 0, (Move.E, Move.E)), Path(0, 1, 1, (Move.SE, Move.E, Move.N)):
        judge("a path over water", fault_of(shore, (0, 0), (2, 0), path) is None, False)


def judge_answers():
    """An answer that no right program gives is found: too long a path, none where there is one, one to a
    blocked cell."""
    grid = Grid(3, 2, bytes((1, 0, 1, 1, 1, 1)))
    around, away = (Move.S, Move.E, Move.E, Move.N), (Move.E, Move.W)
    answers = [
        ((0, 0), (2, 0), Path(0, 4, 0, around), None),
        ((0, 1), (0, 1), Path(0, 2, 0, away), "a shorter path exists"),
        ((0, 0), (2, 0), Unreachable(0), "a path exists"),
        ((1, 0), (1, 0), Path(0, 0, 0, ()), "the query is to be refused"),
        ((0, 0), (3, 0), Unreachable(0), "the query is to be refused"),
    ]
    for start, goal, answer, wanted in answers:
        problem = Problem(1, 0, 3, 2, start, goal, "0", 0)
        judge(f"the answer {answer}", fault_of_answer(grid, problem, answer, True), wanted)


def judge_example():
    """The list of scenarios beside the tutorial's map matches, line by line, and so do the costs of a search."""
    example = os.path.join(TOP, "maps/tutorial.map")
    status, text, said = tool("scenarios", example, example + ".scen", "--search", "--rounds", "1")
    results = {line["result"] for line in csv.DictReader(text.splitlines())}
    judge("the tutorial's scenarios", (status, results), (0, {"match"}))
    rows = tool("scenarios", example, example + ".scen", "--rounds", "1", "--order", "rows")[2]
    sizes = [re.findall(r"(\d+) bytes", each) for each in (said, rows)]
    judge("the size of the database where no order is given", *sizes)


SET = {"plain": "\n", "windows": "\r\n", "scaled": "\n", "wet": "\n", "deep/maze": "\n", "large": "\n"}
"""The maps of a folder, and how their lines end."""


def made_set(folder, maps, scens):
    """Writes maps and lists into two folders, `large` with a cell too many; some scenarios of `scaled` are of other
    sides. Returns how many scenarios there are of the others."""
    rng, count = random.Random(3), 0
    for name, end in SET.items():
        width, height = (4, 3) if name != "large" else (MAX_PASSABLE // 128, 129)
        cells = bytearray(b"\1" * (width * height))
        cells[0] = 2 if name == "wet" else 1
        grid = Grid(width, height, bytes(cells))
        lines = ["version 1"]
        for number in range(8):
            start, goal = [(rng.randint(1, 3), rng.randint(0, 2)) for _ in range(2)]
            straight, diagonal = least_cost(grid, start, goal) if name != "large" else (0, 0)
            sides = f"{width + (name == 'scaled' and number == 5)} {height}"
            length = straight + diagonal * 2**0.5
            lines.append(f"{number // 4} x {sides} {start[0]} {start[1]} {goal[0]} {goal[1]} {length:.8f}")
        count += 8 if name != "large" else 0
        for place, text in ((maps, grid.text()), (scens, "\n".join([*lines, ""]))):
            file = os.path.join(folder, place, name + (".map" if text.startswith("type") else ".map.scen"))
            os.makedirs(os.path.dirname(file), exist_ok=True)
            with open(file, "w", newline="") as opened:
                opened.write(text.replace("\n", end))
    return count


def judge_sets(folder):
    """A folder of maps in one command: the lists beside the maps or in a folder of their own, scaled lines, lines that
    end as on Windows, and a map with too many cells, which is skipped with the reason."""
    totals = os.path.join(folder, "totals")
    for maps, scens in (("maps", "scens"), ("both", "both")):
        count = made_set(folder, maps, scens)
        words = ["--scens", os.path.join(folder, scens)] if maps != scens else []
        status, text, said = tool("scenarios", os.path.join(folder, maps), *words, "--totals", totals, "--rounds", "1")
        lines = list(csv.DictReader(text.splitlines()))
        names = sorted(f"{name}.map" for name in SET if name != "large")
        judge(f"{maps}: its lines", (sorted({line["map"] for line in lines}), len(lines)), (names, count))
        others = [(line["map"], line["problem"], line["result"]) for line in lines if line["result"] != "match"]
        judge(f"{maps}: what does not match", (others, status), ([("scaled.map", "6", "scaled")], 1))
        reason = f"{os.path.join(folder, maps)}/large.map: {256 * 129} passable cells, more than 32768"
        with open(totals) as file:
            told = {(line["map"], line["bucket"]): line for line in csv.DictReader(file)}
        skipped = {key: line["skipped"] for key, line in told.items() if line["skipped"]}
        judge(f"{maps}: skipped", skipped, {("large.map", ""): reason})
        judge(f"{maps}: told", f"skipped: {reason}\n" in said, True)
        judge(f"{maps}: maps", [told[name, "all"]["problems"] for name in names], ["8"] * 5)
        os.remove(os.path.join(folder, maps, "scaled.map"))
        judge(f"{maps}: maps are skipped", tool("scenarios", os.path.join(folder, maps), *words, "--rounds", "1")[0], 5)
        os.rename(os.path.join(folder, scens, "wet.map.scen"), os.path.join(folder, scens, "none"))
        judge(f"{maps}: no list", tool("scenarios", os.path.join(folder, maps), *words, "--rounds", "1")[0], 3)


WALK = "E E E E E E E E SE SE E E E E SE SE SE SE S S SE E E E SE E E S SE SE SE SE E E E E E E"
"""The path of README.md, from (2, 2) to (37, 17)."""
CORNERS = "2,2 10,2 12,4 16,4 20,8 20,10 21,11 24,11 25,12 27,12 27,13 31,17 38,17"
"""Its corners, and one move more than it has."""


def judge_forms(folder):
    """One path as words, as digits, as its corners, and one move too far."""
    example, scen, answers = os.path.join(TOP, "maps/tutorial.map"), folder + "/scen", folder + "/answers"
    with open(scen, "w") as file:
        file.write("version 1\n" + "0 x 40 20 2 2 37 17 42.97\n" * 2)
    digits = "".join(str(Move[move].value) for move in WALK.split())
    for form, lines, wanted in (
        ("moves", [WALK, digits], ["best"] * 2),
        ("moves", [WALK[:-2], "W W " + WALK], ["ends elsewhere", "illegal"]),
        ("cells", [CORNERS, CORNERS.replace("38,", "37,")], ["ends elsewhere", "best"]),
        ("cells", [CORNERS.replace(" 12,4", ""), "(2, 2); (3, 2)"], ["illegal", "ends elsewhere"]),
    ):
        with open(answers, "w") as file:
            file.write("\n".join(lines))
        text = tool("judge", example, scen, answers, "--form", form)[1]
        judge(f"{lines}", [line["verdict"] for line in csv.DictReader(text.splitlines())], wanted)


def judge_judge(folder):
    """Answers that are too long by a move, illegal or cut short are found, and those alone; in each form."""
    example = os.path.join(TOP, "maps/tutorial.map")
    status, text, _ = tool("scenarios", example, example + ".scen", "--rounds", "1", "--paths", folder + "/paths")
    problems = [line["problem"] for line in csv.DictReader(text.splitlines())]
    with open(folder + "/paths") as file:
        cells = {problem: [] for problem in problems}
        for row in csv.DictReader(file):
            cells[row["problem"]].append((int(row["x"]), int(row["y"])))
    paths, wanted = [cells[problem] for problem in problems], ["best"] * len(problems)
    for number, verdict in ((3, "longer"), (8, "illegal"), (14, "ends elsewhere"), (20, "missed")):
        wanted[number] = verdict
        path = paths[number]
        if verdict == "longer":  # a step back and forth
            path[1:1] = [path[1], path[0]]
        elif verdict == "illegal":  # a cell is jumped
            del path[1]
            path[1:1] = [(path[0][0], path[0][1] - 20)]
        paths[number] = path if verdict != "ends elsewhere" else path[:-1]
    lines = [" ".join("%d,%d" % cell for cell in path) for path in paths]
    lines[20] = "-"
    with open(folder + "/answers", "w") as file:
        file.write("\n".join(lines) + "\n")
    status, text, said = tool("judge", example, example + ".scen", folder + "/answers")
    found = [line["verdict"] for line in csv.DictReader(text.splitlines())]
    judge("verdicts", (found, status), (wanted, 1))
    counts = "21 answers: 17 best, 1 longer, 1 illegal, 1 ends elsewhere, 1 missed\n"
    judge("their count", said.startswith(counts), True)
    with open(example + ".scen") as file:
        lengths = [line.split("\t")[-1] for line in file.read().splitlines()[1:]]
    wanted = ["best"] * len(lengths)
    lengths[2], wanted[2] = "1.0", "too short"
    lengths[7], wanted[7] = "99.5", "longer"
    with open(folder + "/answers", "w") as file:
        file.write("\n".join(lengths) + "\n")
    words = [example, example + ".scen", folder + "/answers"]
    text = tool("judge", *words, "--form", "lengths")[1]
    judge("lengths", [line["verdict"] for line in csv.DictReader(text.splitlines())], wanted)
    text = tool("judge", *words, "--form", "lengths", "--wrong")[1]
    judge("those that are wrong", [line["problem"] for line in csv.DictReader(text.splitlines())], ["3", "8"])
    judge("no cells", tool("judge", *words)[0], 3)


PLOTTED = {
    "one": {0: ([100, 900, 300], [2.0, 4.0]), 2: ([2000], [8.5]), 5: ([40000, 60000], [21.0, 23.0, 22.0])},
    "two & three": {0: ([7000], [2.5]), 2: ([8000, 9000], [10.0]), 5: ([500000], [30.0])},
}
"""Planners, and by bucket the nanoseconds and lengths of their runs."""


def points_of(chart, is_log):
    """The points of each line of a chart, read off by its own axes: pixels are turned into numbers by the numbers that
    stand at two places of each axis."""
    space = "{http://www.w3.org/2000/svg}"
    texts = [(text.text, float(text.get("x")), float(text.get("y")), text.get("text-anchor"))
             for text in chart.iter(space + "text") if text.get("x") and text.text != "bucket"]
    turn = math.log10 if is_log else float
    ups = [(turn(float(text)), y - 5) for text, _, y, anchor in texts if anchor == "end"]
    rights = [(float(text), x) for text, x, _, anchor in texts if anchor == "middle"]

    def read_off(ticks, pixel):
        (one, at), *_, (other, to) = ticks
        return one + (pixel - at) * (other - one) / (to - at)

    for line in chart.iter(space + "polyline"):
        places = [tuple(map(float, place.split(","))) for place in line.get("points").split()]
        yield [(read_off(rights, x), read_off(ups, y)) for x, y in places]


def judge_plot(folder):
    """The plain SVG has the medians of the times and the means of the lengths where its axes say that they are."""
    for name, buckets in PLOTTED.items():
        with open(os.path.join(folder, name), "w", newline="") as file:
            lines = [[bucket, time, ""] for bucket, (times, _) in buckets.items() for time in times]
            lines += [[bucket, "", length] for bucket, (_, lengths) in buckets.items() for length in lengths]
            csv.writer(file).writerows([["bucket", "nanoseconds", "length"], *lines])
    output, files = os.path.join(folder, "plot.svg"), [os.path.join(folder, name) for name in PLOTTED]
    judge("a plot", tool("plot", *files, "--plain", "-o", output), (0, "", ""))
    picture = ElementTree.parse(output).getroot()
    times, lengths = picture.findall("{http://www.w3.org/2000/svg}g")
    for found, buckets in zip(points_of(times, True), PLOTTED.values()):
        wanted = [(bucket, math.log10(statistics.median(all_of) / 1000)) for bucket, (all_of, _) in buckets.items()]
        judge(f"times {found}", near(found, wanted, 0.01), True)
    for found, buckets in zip(points_of(lengths, False), PLOTTED.values()):
        wanted = [(bucket, sum(all_of) / len(all_of)) for bucket, (_, all_of) in buckets.items()]
        judge(f"lengths {found}", near(found, wanted, 0.05), True)
    labels = [text.text for text in picture.findall("{http://www.w3.org/2000/svg}text")]
    judge("labels", labels, list(PLOTTED))
    judge("each chart has both", [len(list(points_of(times, True))), len(list(points_of(lengths, False)))], [2, 2])
    judge("no columns", tool("plot", os.path.join(TOP, "README.md"), "--plain", "-o", output)[0], 3)
    judge("no format", tool("plot", *files, "--plain", "-o", folder + "/plot.png")[0], 2)
    judge("no room", tool("plot", *files, "--plain", "-o", "/nowhere/plot.svg")[0], 4)
    if importlib.util.find_spec("matplotlib"):
        judge("by matplotlib", tool("plot", *files, "-o", folder + "/plot.png"), (0, "", ""))
        with open(folder + "/plot.png", "rb") as file:
            judge("a picture", file.read(4), b"\x89PNG")
    else:
        print("skipped: there is no matplotlib")


def near(found, wanted, most):
    """Whether points are these, but for what is rounded."""
    pairs = [pair for one, other in zip(found, wanted) for pair in zip(one, other)]
    return len(found) == len(wanted) and all(abs(one - other) <= most for one, other in pairs)


def judge_without_compiler():
    """Where no C compiler is found the times are taken in Python, and standard error says so."""
    words = [sys.executable, os.path.join(TOP, "tools/scenarios"), os.path.join(TOP, "maps/tutorial.map")]
    bare = {**os.environ, "PATH": ""}
    done = subprocess.run(words, stdin=subprocess.DEVNULL, capture_output=True, text=True, env=bare)
    judge("without a compiler", (done.returncode, "timed by Python, since no `cc` is here" in done.stderr), (0, True))


def judge_outputs():
    """Where an output takes nothing the status is 4, with a line, and without one behind a pipe that was closed."""
    example = os.path.join(TOP, "maps/tutorial.map")
    command = [os.path.join(TOP, "tools/scenarios"), example, example + ".scen"]
    reads, writes = os.pipe()
    os.close(reads)
    with open("/dev/full", "w") as full, os.fdopen(writes, "w") as closed:
        for name, words, output, wanted in (
            ("a full disk", [], full, "tools/scenarios: the output failed: [Errno 28] No space left on device\n"),
            ("no room for paths", ["--paths", "/dev/full"], subprocess.DEVNULL,
             "tools/scenarios: the output failed: [Errno 28] No space left on device\n"),
            ("no folder for totals", ["--totals", "/nowhere/t.csv"], subprocess.DEVNULL,
             "tools/scenarios: the output failed: [Errno 2] No such file or directory: '/nowhere/t.csv'\n"),
            ("a closed pipe", [], closed, ""),
        ):
            done = subprocess.run(
                [*command, *words], stdin=subprocess.DEVNULL, stdout=output, stderr=subprocess.PIPE, text=True
            )
            said = [line for line in done.stderr.splitlines(keepends=True) if " built in " not in line]
            judge(f"{name}: status and words", (done.returncode, "".join(said)), (4, wanted))


def judge_views(folder):
    """Each view is well-formed, on a map of one cell, on one that is all blocked, on those of two components, and on one
    with water."""
    for name, rows in (("one", "."), ("none", "@"), ("two", ".@."), ("three", "..@\n.@."), ("wet", ".WW\n.W@")):
        lines = rows.split("\n")
        cells = bytes("@.W".index(letter) for letter in "".join(lines))
        map_name, other = os.path.join(folder, name + ".map"), os.path.join(folder, name + ".other.map")
        with open(map_name, "w") as file:
            file.write(Grid(len(lines[0]), len(lines), cells).text())
        with open(other, "w") as file:
            file.write(Grid(len(lines[0]), len(lines), bytes(byte == 0 for byte in cells)).text())
        for words in (
            ["map"],
            ["components"],
            ["runs"],
            ["moves", "0", "0"],
            ["classes", "0", "0"],
            ["path", "0", "0", "0", "0"],
            ["difference", other],
        ):
            status, text, said = tool("draw", words[0], map_name, *words[1:])
            wanted = 1 if name == "none" and words[0] in ("moves", "classes", "path") else 0
            judge(f"{name}: {words[0]}: {said}", status, wanted)
            if status == 0:
                ElementTree.fromstring(text)


def judge_wide_picture(folder):
    """A picture of 200 by 200 cells is shown 1,000 pixels wide, with letters of 11 pixels and more, and marks in it."""
    name = os.path.join(folder, "wide.map")
    with open(name, "w") as file:
        file.write(Grid(200, 200, bytes([1]) * 20_000 + bytes(20_000)).text())
    _, text, _ = tool("draw", "moves", name, "0", "0")
    picture = ElementTree.fromstring(text)
    _, _, width, _ = map(float, picture.get("viewBox").split())
    judge("pixels", picture.get("width"), "1000")
    in_cells = picture.find(".//{*}g/{*}g")
    scale = float(in_cells.get("transform")[len("scale(") : -1])
    margin = float(picture.find("{*}g").get("transform")[len("translate(") : -1].split()[0])
    marks, others = in_cells.findall("{*}text"), picture.findall("{*}g/{*}text")
    letters = [scale * float(each.get("font-size")) for each in marks] + [float(each.get("font-size")) for each in others]
    judge("letters", (len(marks), len(others), min(letters) * 1000 / width >= 11), (1, 9, True))
    circle = in_cells.find("{*}circle")
    outermost = scale * (float(circle.get("r")) + float(circle.get("stroke-width")) / 2 - float(circle.get("cx")))
    judge("a mark in the corner is whole", outermost <= margin, True)


rng = random.Random(7)
with tempfile.TemporaryDirectory() as folder:
    for number in range(SETS):
        judge_set(rng, folder, number)
    judge_faults(folder)
    judge_views(folder)
    judge_sets(folder)
    judge_judge(folder)
    judge_forms(folder)
    judge_plot(folder)
    judge_wide_picture(folder)
judge_checker()
judge_answers()
judge_example()
judge_outputs()
judge_without_compiler()
sys.exit(judge.failed)
