#!/usr/bin/env python3
"""What the cases `row edits` have to say, counted by a plain model of the packing and of the rules of row_edit.

    tests/row_edits.py | diff - <(tests/cases 'row edits |' | sed 's/^[0-9]*: //')

A row is a list of (start, move), a set a byte, and what is known a dict from places to sets.
"""

LISTS = 20000
LONG = 40
ALL = 255


class Random:
    """Numbers that follow one another, as those of crates/case_kit. (Knuth's MMIX constants)"""

    def __init__(self, seed):
        self.state = seed

    def below(self, bound):
        self.state = (self.state * 6364136223846793005 + 1442695040888963407) % 2**64
        return (self.state >> 33) % bound

    def set(self):
        return self.below(7) + 1

    def list(self):
        return [self.set() for _ in range(self.below(LONG) + 1)]


def least(moves):
    return (moves & -moves).bit_length() - 1


def pack(sets):
    row, start, common = [], 0, ALL
    for place, moves in enumerate(sets):
        if common & moves:
            common &= moves
        else:
            row.append((start, least(common)))
            start, common = place, moves
    return row + [(start, least(common))] if sets else []


def shared(known, first, end):
    common = ALL
    for place, moves in known.items():
        if first <= place < end:
            common &= moves
    return common


def run_of(row, places, place):
    """The number, start, end and move of the run that covers a place."""
    number = max(k for k, (start, _) in enumerate(row) if start <= place)
    end = row[number + 1][0] if number + 1 < len(row) else places
    return number, row[number][0], end, row[number][1]


def moved(row, number, by):
    """The row whose runs from that number on start so many places later."""
    return [(start + by if k >= number else start, move) for k, (start, move) in enumerate(row)]


def take_out(row, places, place, own, known):
    number, start, end, move = run_of(row, places, place)
    if number > 0 and start == place and place + 1 < places:
        if shared(known, row[number - 1][0], place) & known.get(place + 1, ALL) & ~own:
            return None
    if end - start > 1:
        fresh = shared(known, start, place) & shared(known, place + 1, end) & ~own
        if fresh % 2**move or end < places and fresh & known.get(end, ALL):
            return None
        return moved(row, number + 1, -1)
    if places < 2:
        return None
    return row[:number] + moved(row, 0, -1)[number + 1:]


def put_in(row, places, place, own, known):
    if not row:
        return None
    number, start, end, move = run_of(row, places, max(place - 1, 0))
    if own >> move & 1:
        return moved(row, number + 1, 1)
    if place > 0:
        if place != end or shared(known, start, place) & own & ~known.get(place, 0):
            return None
        number += 1
    if number < len(row):
        if own >> row[number][1] & 1:
            return moved(row, number + 1, 1)
        if own & known.get(place, ALL):
            return None
    return row[:number] + [(place, least(own))] + moved(row, 0, 1)[number:]


def some_edits(random, sets):
    """One to four edits, and the list after them."""
    edits, sets = [], list(sets)
    for _ in range(random.below(4) + 1):
        place = random.below(len(sets))
        if len(sets) > 1 and random.below(2) == 0:
            edits.append((True, place, sets.pop(place)))
        else:
            own = random.set()
            edits.append((False, place, own))
            sets.insert(place, own)
    return edits, sets


def edit_each(row, places, edits, known):
    for out, place, own in edits:
        if row is None:
            return None
        if out:
            rest = {at: moves for at, moves in known.items() if at != place}
            row = take_out(row, places, place, own, rest)
            known = {at - (at > place): moves for at, moves in rest.items()}
        else:
            row = put_in(row, places, place, own, known)
            known = {at + (at >= place): moves for at, moves in known.items()} | {place: own}
        places += -1 if out else 1
    return row


def main():
    for reach in 0, 2, 100:
        random, decided, differ = Random(2), 0, 0
        for _ in range(LISTS):
            sets = random.list()
            edits, changed = some_edits(random, sets)
            known = {at: moves for at, moves in enumerate(sets) if abs(at - edits[0][1]) < reach}
            row = edit_each(pack(sets), len(sets), edits, known)
            decided += row is not None
            differ += row is not None and row != pack(changed)
        print(f"row edits | {LISTS} | {reach}\n    {LISTS} tried, {decided} decided, {differ} differ")


if __name__ == "__main__":
    main()
