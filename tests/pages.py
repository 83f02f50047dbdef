#!/usr/bin/env python3
"""The pages: their links lead somewhere, their commands and snippets run, and the made ones are up to date.

Of README.md and docs/guide, blocks marked `sh` are run from the top of the repository, one page in one folder; a `text`
block after one is what it has to print. A `serve` or `lead` alone runs in the background until the page ends. `python`
blocks are run too, and `c` blocks are compiled. README.md has at most 1,200 words, and the pages that are written by hand
have at most 25,000: README.md, docs/, those of deploy/ and clients/, without what tools/reference and tools/manual make."""
import itertools
import os
import re
import signal
import socket
import subprocess
import sys
import tempfile
from pathlib import Path

from judging import Judge, program_here

TOP = Path(__file__).resolve().parent.parent
MOST_WORDS = 1200
MOST_BY_HAND = 25_000
MADE = re.compile(r"<!-- made by .*?<!-- until here -->", re.S)
BLOCK = re.compile(r"^```(\w*)\n(.*?)^```$", re.M | re.S)
SAMPLE = re.compile(r"`examples/([\w.]+)`")
LINK = re.compile(r"\]\(([^)\s]+)\)")
C_PRELUDE = """
#include <pathdb.h>
#include <stdio.h>
static void follow(const uint8_t *moves, uint32_t length) { (void)moves; (void)length; }
void sample(const uint8_t *text, uint32_t length, uint32_t *words, size_t room, size_t count, pathdb_cell start,
            pathdb_cell goal);
void sample(const uint8_t *text, uint32_t length, uint32_t *words, size_t room, size_t count, pathdb_cell start,
            pathdb_cell goal) {
    pathdb_baked baked;
    uint32_t part;
    uint8_t moves[512];
    (void)part;
"""
judge = Judge()


def pages():
    """Returns the pages of the repository."""
    listed = subprocess.run(["git", "ls-files", "*.md"], cwd=TOP, capture_output=True, text=True, check=False).stdout
    found = [TOP / name for name in dict.fromkeys(listed.split())] or list(TOP.glob("**/*.md"))
    return [page for page in found if page.is_file()]


def anchors(page):
    """Returns the names by which the headings of a page can be linked to."""
    heads = re.findall(r"^#+ (.*)$", page.read_text(encoding="utf-8"), re.M)
    return {re.sub(r"[^\w\- ]", "", head.lower()).replace(" ", "-") for head in heads}


def judge_links(page):
    """Each link within the repository leads to a file, and to a heading of it."""
    for link in LINK.findall(BLOCK.sub("", page.read_text(encoding="utf-8"))):
        if re.match(r"\w+:", link):
            continue
        place, _, anchor = link.partition("#")
        target = (page.parent / place) if place else page
        name = page.relative_to(TOP)
        judge(f"{name}: {link}", target.exists(), True)
        if anchor and target.suffix == ".md" and target.exists():
            judge(f"{name}: {link}", anchor in anchors(target), True)


def free_ports(count):
    """Returns ports that nobody uses."""
    sockets = [socket.create_server(("127.0.0.1", 0)) for _ in range(count)]
    ports = [str(each.getsockname()[1]) for each in sockets]
    for each in sockets:
        each.close()
    return ports


def words_by_hand():
    """Returns how many words, of at least a letter, stand in the pages that nothing makes."""
    found = [page for page in pages() if re.match(r"README|docs/|deploy/|clients/", str(page.relative_to(TOP)))]
    texts = [MADE.sub("", page.read_text(encoding="utf-8")) for page in found]
    return sum(len(re.findall(r"\S*[A-Za-z]\S*", text)) for text in texts if "Made by `tools/" not in text)


def front_page(root):
    """Returns the front page of a crate."""
    lines = root.read_text(encoding="utf-8").splitlines()
    return "".join(f"{line[4:]}\n" for line in itertools.takewhile(lambda line: line.startswith("//!"), lines))


def judge_examples():
    """Each library has an example on its front page: a case and the line that it prints, commands and what they print, or
    the name of a sample, which tests/samples.py runs."""
    lines = [(TOP / "crates/cases" / name).read_text(encoding="utf-8").split("\n") for name in ("stdin", "stdout")]
    cases = set(zip(*lines))
    for root in sorted((TOP / "crates").glob("*/src/lib.rt")):
        name, page = root.relative_to(TOP), front_page(root)
        blocks = BLOCK.findall(page)
        samples = SAMPLE.findall(page)
        judge(f"{name}: an example", bool(blocks or samples), True)
        for sample in samples:
            judge(f"{name}: {sample}", (TOP / "examples" / sample).is_file(), True)
        if any(kind == "sh" for kind, _ in blocks):
            run_blocks(name, page)
        else:
            for _, text in blocks:
                judge(f"{name}: {text}", tuple(text.replace(" \\\n", " ").splitlines()) in cases, True)


class Shell:
    """Runs the blocks of one page in a folder of their own, from which the repository is seen."""

    def __init__(self, page, folder):
        self.page, self.folder, self.behind, self.said = page, Path(folder), None, ""
        for entry in TOP.iterdir():
            if entry.name != ".git":
                (self.folder / entry.name).symlink_to(entry)
        self.ports = dict(zip(("4000", "4001"), free_ports(2)))
        self.environment = {**os.environ, "PATH_SERVER": program_here(),
                            "PYTHONPATH": f"{TOP}/clients/python", "PYTHONDONTWRITEBYTECODE": "1"}

    def begin(self, words):
        """Runs a server in the background, and waits until it serves."""
        self.end()
        self.behind = subprocess.Popen(["bash", "-c", "exec " + words], cwd=self.folder, env=self.environment,
                                       stdout=subprocess.PIPE, stderr=subprocess.DEVNULL, text=True)
        judge(f"{self.page}: {words}", self.behind.stdout.readline().split()[:1], ["serving"])

    def end(self):
        """Ends the server in the background."""
        if self.behind:
            self.behind.send_signal(signal.SIGTERM)
            self.behind.communicate()
            self.behind = None

    def run(self, kind, text):
        """Runs a block, or compares the output of the one before it."""
        if kind == "text":
            judge(f"{self.page}: the output", self.said, text)
            return
        for port, other in self.ports.items():
            text = text.replace(port, other)
        if kind == "sh" and re.fullmatch(r"\./path_server (serve|lead) .*\n", text):
            self.begin(text.strip())
            return
        if kind == "c":
            words = ["gcc", "-xc", "-std=c11", "-fsyntax-only", "-Wall", "-Wextra", "-Werror", "-I", f"{TOP}/include", "-"]
            done = subprocess.run(words, input=f"{C_PRELUDE}{take_includes(text)}}}\n", capture_output=True, text=True,
                                  check=False)
        else:
            words = [sys.executable, "-c", text] if kind == "python" else ["bash", "-euc", text]
            done = subprocess.run(words, cwd=self.folder, env=self.environment, capture_output=True, text=True,
                                  check=False, timeout=300)
        self.said = done.stdout
        if done.returncode:
            judge.fail(f"{self.page}: status {done.returncode} of\n{text}{done.stderr}")


def take_includes(text):
    """Returns the lines of a C snippet without its includes."""
    return "".join(line for line in text.splitlines(keepends=True) if not line.startswith("#include"))


def run_blocks(name, page):
    """Runs the blocks of a page."""
    with tempfile.TemporaryDirectory() as folder:
        shell = Shell(name, folder)
        try:
            for kind, text in BLOCK.findall(page):
                if kind in ("sh", "python", "text", "c"):
                    shell.run(kind, text)
        finally:
            shell.end()


def main():
    for page in pages():
        judge_links(page)
    judge_examples()
    words = len((TOP / "README.md").read_text(encoding="utf-8").split())
    judge("README.md has few words", words <= MOST_WORDS, True)
    by_hand = words_by_hand()
    judge(f"the {by_hand} words by hand are few", by_hand <= MOST_BY_HAND, True)
    judge("tools/reference --check", subprocess.run([TOP / "tools/reference", "--check"], check=False).returncode, 0)
    for page in [TOP / "README.md", *sorted((TOP / "docs/guide").glob("*.md"))]:
        if page.name != "games.md":  # tests/game_page.py runs that one
            run_blocks(page.relative_to(TOP), page.read_text(encoding="utf-8"))
    return judge.failed


if __name__ == "__main__":
    sys.exit(main())
