"""Maps of the kinds that the benchmarks build databases of."""

WORD = 1 << 64
ROOM, PITCH = 16, 17


def mixed(column, row):
    """A number that a column and a row give at random."""
    state = (row * 65_536 + column + 1) * 0x9E3779B97F4A7C15 % WORD
    state = (state ^ state >> 30) * 0xBF58476D1CE4E5B9 % WORD
    state = (state ^ state >> 27) * 0x94D049BB133111EB % WORD
    return state ^ state >> 31


def is_left(column, row, percent):
    """Whether a cell is left passable where so many in a hundred are blocked."""
    return (mixed(column, row) >> 33) % 100 >= percent


def next_number(state):
    return (state * 1_664_525 + 1_013_904_223) % (1 << 32)


def is_room_or_door(column, row):
    """Whether a cell is in a room of 16 by 16 cells or in a door of one."""
    door = next_number(next_number((column // PITCH * 16 + row // PITCH) % 256)) >> 28
    across, down = column % PITCH, row % PITCH
    return down == door if across == ROOM else down != ROOM or across == door


def is_corridor(column, row, side):
    """Whether a cell is in a way of one cell that goes back and forth through the map, all but its last column."""
    turn = side - 2 if row % 4 == 1 else 0
    return column == turn if row % 2 else column < side - 1


def maze(side):
    """The rows of a maze: every second cell of every second row is a room, and one way joins any two. Its ways are one
    cell wide."""
    rows = [[False] * side for _ in range(side)]
    rows[0][0], trail = True, [(0, 0)]
    while trail:
        x, y = trail[-1]
        ways = [(across, down) for across, down in ((0, -1), (1, 0), (0, 1), (-1, 0))
                if 0 <= x + 2 * across < side and 0 <= y + 2 * down < side and not rows[y + 2 * down][x + 2 * across]]
        if not ways:
            trail.pop()
            continue
        across, down = ways[mixed(x + len(trail) * side, y) % len(ways)]
        for steps in 1, 2:
            rows[y + steps * down][x + steps * across] = True
        trail.append((x + 2 * across, y + 2 * down))
    return rows


def smoothed(rows, side):
    """Each cell made like most of the nine that it is the middle of; outside all is blocked."""
    near = range(-1, 2)

    def count(column, row):
        return sum(rows[row + down][column + across] for down in near for across in near
                   if 0 <= row + down < side and 0 <= column + across < side)
    return [[count(column, row) >= 5 for column in range(side)] for row in range(side)]


def neighbours(rows, side, column, row):
    """The passable cells to which a straight move leads: these join whatever a legal diagonal move joins."""
    for x, y in (column, row - 1), (column + 1, row), (column, row + 1), (column - 1, row):
        if 0 <= x < side and 0 <= y < side and rows[y][x]:
            yield x, y


def largest_alone(rows, side):
    """The cells of the largest component alone; of equal ones the first counts, row by row."""
    largest, met = [], set()
    for start in ((column, row) for row in range(side) for column in range(side) if rows[row][column]):
        if start in met:
            continue
        found = [start]
        met.add(start)
        for cell in found:
            fresh = [other for other in neighbours(rows, side, *cell) if other not in met]
            met.update(fresh)
            found += fresh
        if len(found) > len(largest):
            largest = found
    kept = set(largest)
    return [[(column, row) in kept for column in range(side)] for row in range(side)]


def drawn(kind, side):
    """The rows of the map of a kind, `open`, `blockedN` with so many cells in a hundred blocked, `rooms`, `caves`,
    `corridor` or `maze`, as text: `.` for a passable cell and `@` for a blocked one."""
    percent = {"open": 0, "caves": 45}.get(kind)
    if kind.startswith("blocked"):
        percent = int(kind[len("blocked"):])
    shapes = {"rooms": is_room_or_door, "corridor": lambda column, row: is_corridor(column, row, side)}
    if percent is None and kind not in (*shapes, "maze"):
        raise SystemExit("maps.py: no kind of map is named %s" % kind)
    is_passable = shapes.get(kind, lambda column, row: is_left(column, row, percent))
    rows = maze(side) if kind == "maze" else [[is_passable(column, row) for column in range(side)] for row in range(side)]
    for _ in range(4 if kind == "caves" else 0):
        rows = smoothed(rows, side)
    return ["".join(".@"[not cell] for cell in row) for row in largest_alone(rows, side)]


def map_text(rows):
    """Returns the text of a map's file."""
    return "type octile\nheight %d\nwidth %d\nmap\n%s\n" % (len(rows), len(rows[0]), "\n".join(rows))


def passable(rows):
    """Returns the passable cells, from the upper left corner to the lower right one."""
    cells = ((x, y) for y, row in enumerate(rows) for x, cell in enumerate(row) if cell == ".")
    return sorted(cells, key=lambda at: (sum(at), at))
