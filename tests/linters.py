#!/usr/bin/env python3
"""What other programs find wrong in the scripts of this repository: nothing.

    tests/linters.py shellcheck    over the shell scripts
    tests/linters.py mypy          over clients/, tools/, deploy/, demo, and the examples in Python, as mypy --strict
"""
import os, shutil, subprocess, sys, tempfile

from judging import SKIPPED, TOP

# A script that is sourced has no line '#!', and shares names with the one that sources it.
SOURCED = ["--shell=bash", "--exclude=SC2034,SC2154"]


def files():
    """The files of the repository, with the first line of each."""
    for folder, folders, names in os.walk("."):
        folders[:] = sorted(set(folders) - {".git", "out", "build", "__pycache__"})
        for name in sorted(names):
            path = os.path.normpath(os.path.join(folder, name))
            with open(path, "rb") as file:
                yield path, file.readline(200)


def shellcheck():
    scripts = [path for path, line in files() if line.startswith(b"#!") and b"bash" in line]
    sourced = [path for path, line in files() if path.endswith((".sh", ".bash")) and path not in scripts]
    own = [path for path in sourced if not path.startswith("docs/completions/")]
    return max(subprocess.call(["shellcheck", "--external-sources", *scripts]),
               subprocess.call(["shellcheck", "--external-sources", *SOURCED, *own]))


def mypy():
    tools = [path for path, line in files() if line.startswith(b"#!") and b"python3" in line
             and (path == "demo" or path.startswith(("tools/", "deploy/")) and path != "deploy/try")]
    os.environ["MYPYPATH"] = "clients/python:clients/pathdb:tools:deploy"
    clients = [f"clients/{name}" for name in ("python/make_wheel.py", "python/path_server", "python/tests",
                                              "pathdb/pathdb", "pathdb/tests")]
    with tempfile.TemporaryDirectory() as folder:
        return subprocess.call([
            "mypy", "--strict", "--scripts-are-modules", "--cache-dir", f"{folder}/cache", "--no-error-summary", *tools,
            "tools/path_tools", "deploy/path_deploy", *clients, "examples/path.py", *examples(folder)])


def examples(folder):
    """Files with the examples of the two clients' READMEs. Those of the second are one program, one after the other."""
    for client, joined in (("python", False), ("pathdb", True)):
        with open(f"clients/{client}/README.md", encoding="utf-8") as page:
            parts = [part.split("```")[0] for part in page.read().split("```python\n")[1:]]
        for number, part in enumerate(["".join(parts)] if joined else parts):
            name = f"{folder}/readme_{client}_{number}.py"
            with open(name, "w", encoding="utf-8") as file:
                file.write(part)
            yield name


def main(name):
    os.chdir(TOP)
    if not shutil.which(name):
        print(f"there is no {name}")
        return SKIPPED
    return {"shellcheck": shellcheck, "mypy": mypy}[name]()


if __name__ == "__main__":
    sys.exit(main(sys.argv[1]))
