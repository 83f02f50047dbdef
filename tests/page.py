#!/usr/bin/env python3
"""Tries the page of ./demo in Chromium: drags the goal, closes a door, waits for the version, and compares what the
page says with `path` on the edited map; then the other layers, a second page, a reload, and the end of the demo.

    tests/page.py [--pictures FOLDER]

It needs `chromium` and `chromedriver` (Debian: chromium, chromium-driver), takes some ten seconds, and is skipped where
they are not there. --pictures keeps three pictures of the page. Status: 0 all is as it should be; 77 it was skipped; 1
something is not, and it is printed.
"""

import argparse
import base64
import contextlib
import json
import os
import shutil
import signal
import subprocess
import sys
import tempfile
import time
import urllib.error
import urllib.request

from judging import TOP, Judge, program_here, skip
from path_server import Client, Terrain, free_port

sys.path.insert(0, os.path.join(TOP, "tools"))
from path_tools.grids import read_grid
from path_tools.searches import stored_moves

judge = Judge()
PATIENCE = 15  # seconds
MAP = os.path.join(TOP, "maps/tutorial.map")
DOOR, START, GOAL = (20, 9), (2, 2), (25, 11)


class Browser:
    """A headless Chromium, driven over the WebDriver protocol (W3C)."""

    def __init__(self):
        port = free_port()
        self.driver = subprocess.Popen(
            ["chromedriver", "--port=%d" % port], stdout=subprocess.DEVNULL, stderr=subprocess.DEVNULL
        )
        self.base = "http://127.0.0.1:%d" % port
        wait_until(lambda: self.is_up(), "chromedriver")
        options = {
            "args": ["--headless=new", "--no-sandbox", "--disable-gpu", "--hide-scrollbars", "--window-size=1280,900"]
        }
        wanted = {"capabilities": {"alwaysMatch": {"goog:chromeOptions": options}}}
        self.base += "/session/" + self.ask("/session", wanted)["sessionId"]

    def is_up(self):
        try:
            return self.ask("/status")["ready"]
        except OSError:
            return False

    def ask(self, path, body=None, method=None):
        """What a command answers."""
        data = None if body is None else json.dumps(body).encode()
        request = urllib.request.Request(self.base + path, data, {"Content-Type": "application/json"}, method=method)
        with urllib.request.urlopen(request, timeout=60) as answer:
            return json.load(answer)["value"]

    def open(self, address):
        self.ask("/url", {"url": address})

    def run(self, script, *words):
        """What a script in the page returns."""
        return self.ask("/execute/sync", {"script": script, "args": words})

    def text(self, name):
        return self.run("return document.getElementById(arguments[0]).textContent", name)

    def at(self, cell):
        """Where a cell is in the window, in pixels."""
        script = """const box = document.getElementById("map").getBoundingClientRect();
                    return [box.left + (arguments[0] + 0.5 - corner[0]) * side,
                            box.top + (arguments[1] + 0.5 - corner[1]) * side];"""
        return [round(place) for place in self.run(script, *cell)]

    def drag(self, *cells, button=0):
        """Presses on the first cell, moves over the others, and lets go."""
        moves = [{"type": "pointerMove", "duration": 16, "x": x, "y": y} for x, y in map(self.at, cells)]
        down, up = ({"type": kind, "button": button} for kind in ("pointerDown", "pointerUp"))
        actions = [moves[0], down, *moves[1:], up]
        self.ask("/actions", {"actions": [{"type": "pointer", "id": "mouse", "actions": actions}]})

    def hover(self, cell):
        x, y = self.at(cell)
        actions = [{"type": "pointerMove", "duration": 0, "x": x, "y": y}]
        self.ask("/actions", {"actions": [{"type": "pointer", "id": "mouse", "actions": actions}]})

    def key(self, letter):
        actions = [{"type": "keyDown", "value": letter}, {"type": "keyUp", "value": letter}]
        self.ask("/actions", {"actions": [{"type": "key", "id": "keys", "actions": actions}]})

    def picture(self, folder, name):
        if folder:
            os.makedirs(folder, exist_ok=True)
            with open(os.path.join(folder, name + ".png"), "wb") as file:
                file.write(base64.b64decode(self.ask("/screenshot")))

    def close(self):
        with contextlib.suppress(OSError):
            self.ask("", method="DELETE")
        self.driver.kill()
        self.driver.wait()


def wait_until(is_so, what):
    """Waits until something is so; judges that it is."""
    end = time.monotonic() + PATIENCE
    while not is_so():
        if time.monotonic() > end:
            judge(what, "not in %d seconds" % PATIENCE, "so")
            return
        time.sleep(0.03)


def path_on(map_name, start, goal):
    """The length that `path` prints."""
    words = [program_here(), "path", map_name, *map(str, (*start, *goal))]
    lines = subprocess.run(words, stdout=subprocess.PIPE, text=True, check=True).stdout.splitlines()
    return lines[1].split()[1]


def start_demo(*words):
    """The demo, and the address of its page."""
    demo = subprocess.Popen([os.path.join(TOP, "demo"), "--no-browser", *words], stdout=subprocess.PIPE, text=True)
    address = demo.stdout.readline().split("; ")[0].split()[-1]
    return demo, address, int(demo.stdout.readline().split(",")[0].split()[-1])


def shows(browser, length):
    return lambda: browser.text("length").startswith(length + ",")


def try_door(browser, folder, address, pictures):
    """The goal is dragged, the door is closed, and the path is that of `path` on the edited map."""
    browser.open(address + "#2,2,37,17")
    wait_until(shows(browser, path_on(MAP, (2, 2), (37, 17))), "the first path")
    browser.drag((37, 17), (34, 17), (30, 15), (26, 12), GOAL)
    wait_until(shows(browser, path_on(MAP, START, GOAL)), "the path to the goal that was dragged")
    browser.picture(pictures, "1-path")
    browser.drag((DOOR[0], DOOR[1]), (DOOR[0] + 1, DOOR[1]))
    edited = os.path.join(folder, "edited.map")
    with open(edited, "w") as file:
        file.write(read_grid(MAP).changed({DOOR: False}).text())
    wait_until(
        lambda: browser.text("version") == "1" and browser.text("lag") == "0", "the version with the closed door"
    )
    wanted = path_on(edited, START, GOAL)
    judge("the door matters", wanted != path_on(MAP, START, GOAL), True)
    wait_until(shows(browser, wanted), "the path around the closed door")
    wait_until(lambda: browser.text("build").split(" ")[-1] in ("ms", "second", "seconds"), "a build time")
    return wanted


def try_layers(browser, pictures):
    """Components, first moves and runs; their numbers are those of the server."""
    browser.key("2")
    wait_until(
        lambda: browser.run("return document.getElementById('key').textContent").startswith(
            "one component, of 597 cells"
        ),
        "components",
    )
    browser.key("3")
    browser.hover((19, 5))
    grid = read_grid(MAP).changed({DOOR: False})
    source = grid.place((19, 5))
    wait_until(lambda: browser.run("return state.field && state.field.source") == source, "first moves")
    moves = stored_moves(grid, source, "rows")
    wanted = [moves.get(place, -1) if place != source else -1 for place in range(len(grid.terrain))]
    judge("first moves", browser.run("return Array.from(state.field.moves)"), wanted)
    time.sleep(0.1)  # a frame, until it is drawn
    browser.picture(pictures, "2-moves")
    browser.key("4")
    wait_until(lambda: browser.text("key").endswith("runs in 597 rows"), "all rows are counted")
    judge("runs as the server counts them", browser.text("runs") + " runs" in browser.text("key"), True)
    browser.picture(pictures, "3-runs")


def try_two_pages(browser, length):
    """A reload and a second page know the edits; an edit in one is seen in the other."""
    first = browser.ask("/window")
    browser.ask("/refresh", {})
    wait_until(shows(browser, length), "the path after a reload")
    address = browser.ask("/url")
    browser.ask("/window", {"handle": browser.ask("/window/new", {"type": "tab"})["handle"]})
    browser.open(address)
    wait_until(shows(browser, length), "the path in a second page")
    browser.key("l")
    browser.drag(DOOR, DOOR)
    wait_until(lambda: browser.text("version") == "2", "the second page opens the door again")
    browser.ask("/window", {"handle": first})
    wait_until(lambda: browser.text("version") == "2", "the first page sees it")
    wait_until(shows(browser, path_on(MAP, START, GOAL)), "the path through the door again")


def try_other_client(browser, port):
    """An edit of two cells by another client is drawn, and so is the next one."""
    cells = [(10, 10), (11, 12)]
    terrain = "return arguments[0].map(([column, row]) => state.editedGrid.at(column, row)).join()"
    with Client.connect(port) as client:
        for wanted in (Terrain.WATER, Terrain.LAND):
            client.edit([(cell, wanted) for cell in cells])
            drawn = ",".join(2 * [str(wanted.value)])
            wait_until(lambda: browser.run(terrain, cells) == drawn, "an edit by another client")
    wait_until(lambda: browser.text("lag") == "0", "the version with the edits by another client")


def try_zoom(browser):
    """The column under the pointer stays there as the map grows; arrow keys move B, and the map with it."""
    x, y = browser.at(GOAL)
    wheel = {"type": "scroll", "x": x, "y": y, "deltaX": 0, "deltaY": -120}
    browser.ask("/actions", {"actions": [{"type": "wheel", "id": "wheel", "actions": 3 * [wheel]}]})
    wait_until(lambda: browser.run("return zoom") > 1.9, "three steps of the wheel")
    judge("the column under the pointer", abs(browser.at(GOAL)[0] - x) <= 1, True)
    judge("the end under the pointer", browser.run("return state.goal"), list(GOAL))
    accepted = browser.run("return state.accepted")
    browser.drag(GOAL, (GOAL[0] - 3, GOAL[1]), button=1)
    moved = x - browser.at(GOAL)[0]
    judge("the map is moved by three columns", abs(moved - 3 * browser.run("return side")) <= 2, True)
    judge("nothing is drawn so", browser.run("return state.accepted"), accepted)
    browser.run("canvas.focus()")
    for _ in range(3):
        browser.key("\ue014")  # the arrow to the right
    judge("B after three arrow keys", browser.run("return state.goal"), [GOAL[0] + 3, GOAL[1]])
    for _ in range(3):
        browser.key("\ue012")
    browser.key("0")
    judge("the whole map", browser.run("return [zoom, ...corner]"), [1, 0, 0])


def try_contrast(browser):
    """Marks have a contrast of 3 or more with what they may lie on, by the formula of WCAG 2.1; on dark ground it is
    their ring."""

    def light(colour):
        parts = [int(colour[at : at + 2], 16) / 255 for at in (1, 3, 5)]
        red, green, blue = [part / 12.92 if part <= 0.04045 else ((part + 0.055) / 1.055) ** 2.4 for part in parts]
        return 0.2126 * red + 0.7152 * green + 0.0722 * blue + 0.05

    def contrast(one, other):
        return max(light(one), light(other)) / min(light(one), light(other))

    blocked, paper, *grounds = browser.run("return [BLOCKED, PAPER, LAND, WATER]")
    judge("rings on blocked cells", contrast(paper, blocked) >= 3, True)
    for mark, colour in zip(("path", "A", "B", "edit"), browser.run("return [PATH, START, GOAL, PENDING]")):
        for ground in (paper, *grounds):
            judge(f"{mark} on {ground}", contrast(colour, ground) >= 3, True)


def try_rate(browser):
    """A query a frame while the goal is dragged: how many answers, moves of the pointer and frames the busiest second
    had."""
    browser.run(
        """const times = { moves: [], frames: [] };
        window.most = [0, 0, 0];
        state.trips = [];
        const count = (name) => {
            const now = performance.now();
            times[name] = [...times[name].filter((time) => time > now - 1000), now];
            if (state.trips.length > window.most[0]) {
                window.most = [state.trips.length, times.moves.length, times.frames.length];
            }
        };
        canvas.addEventListener("pointermove", () => count("moves"));
        const onFrame = () => {
            count("frames");
            requestAnimationFrame(onFrame);
        };
        onFrame();"""
    )
    row = [(column, 15) for column in (24, 23, 22, 24, 25, 23, 22, 21)]
    browser.drag(GOAL, *row * 12)
    return tuple(browser.run("return window.most"))


def try_end(browser, demo):
    """A server that is killed is told of; Ctrl-C ends the demo, and the page says so."""
    children = subprocess.run(["ps", "-o", "pid=", "--ppid", str(demo.pid)], stdout=subprocess.PIPE, text=True).stdout
    os.kill(int(children.split()[0]), signal.SIGKILL)
    wait_until(lambda: "path_server is gone" in browser.text("fault"), "that the server is gone")
    judge("the answers are grey", browser.run("return document.body.classList.contains('gone')"), True)
    demo.send_signal(signal.SIGINT)
    judge("the demo's status", demo.wait(PATIENCE), 0)
    wait_until(lambda: "./demo has ended" in browser.text("fault"), "that the demo has ended")


def main():
    parser = argparse.ArgumentParser(description=__doc__.split("\n", maxsplit=1)[0])
    parser.add_argument("--pictures", metavar="FOLDER")
    pictures = parser.parse_args().pictures
    if not (shutil.which("chromedriver") and shutil.which("chromium")):
        skip("there is no chromium with chromedriver")
    demo, address, port = start_demo()
    browser = Browser()
    try:
        with tempfile.TemporaryDirectory() as folder:
            length = try_door(browser, folder, address, pictures)
        try_layers(browser, pictures)
        try_two_pages(browser, length)
        try_other_client(browser, port)
        try_zoom(browser)
        try_contrast(browser)
        rate = try_rate(browser)
        judge(
            "answers a second while dragging, beside moves and frames: %s" % (rate,),
            5 * rate[0] >= 4 * min(rate[1:]),
            True,
        )
        try_end(browser, demo)
    finally:
        browser.close()
        demo.kill()
    print("page.py: %d answers, %d moves of the pointer and %d frames in the busiest second of dragging" % rate)
    return judge.failed


if __name__ == "__main__":
    sys.exit(main())
