#!/usr/bin/env python3
"""The systemd units of deploy/, installed in a folder as deploy/OPERATING.md says: what systemd-analyze finds wrong.

    tests/units.py

The commands are run that stand on the page, with the folder in front of each path. No systemd runs the units; each
ExecStart is run here with the words of its PORT.conf, and has to end on SIGTERM with a status that is a success there.
"""
import os, re, shlex, shutil, signal, subprocess, sys, tempfile, urllib.request

from judging import TOP, Judge, program_here, skip
from path_server import free_port

UNITS = ("path_server@", "path_leader@", "path_mirror@")
PATIENCE = 120
judge = Judge()


def commands():
    """The commands of the page, from `install` on."""
    with open(f"{TOP}/deploy/OPERATING.md", encoding="utf-8") as file:
        page = file.read().split("## As systemd units")[1]
    return page.split("```\n")[1]


def install(root):
    """Runs them below a folder."""
    text = re.sub(r"(?<=[ >'])/(?=usr|etc|var)", f"{root}/", commands()).replace("systemctl", ": systemctl")
    shutil.copytree("/lib/systemd/system", f"{root}/lib/systemd/system", symlinks=True)
    os.makedirs(f"{root}/usr/local/bin")
    shutil.copy(program_here(), f"{root}/usr/local/bin/path_server")
    done = subprocess.run(["bash", "-euc", text.replace("./install ", ": ./install ")], cwd=TOP, capture_output=True,
                          text=True)
    judge("the commands of the page", (done.returncode, done.stderr), (0, ""))


def settings(root, name):
    """The lines of a unit behind those of its drop-ins, in which the last one counts."""
    found, folder = {}, f"{root}/etc/systemd/system"
    files = [f"{folder}/{name}.service"]
    if os.path.isdir(f"{folder}/{name}.service.d"):
        files += [f"{folder}/{name}.service.d/{each}" for each in sorted(os.listdir(f"{folder}/{name}.service.d"))]
    for path in files:
        with open(path, encoding="ascii") as file:
            for line in file.read().replace("\\\n", " ").splitlines():
                if "=" in line and line[0] != "#":
                    key, value = line.split("=", 1)
                    found[key] = value
    return found


def run(root, name, port, conf):
    """Runs a unit's command: the process."""
    words = []
    for word in shlex.split(settings(root, name)["ExecStart"]):
        word = word.replace("%i", str(port)).replace("%S", f"{root}/var/lib")
        if word[0] == "$" and word[1] != "{":
            words += conf[word[1:]].split()
        else:
            words.append(re.sub(r"\$\{(\w+)\}", lambda each: str(conf[each[1]]), word))
    words[0] = root + words[0]
    os.makedirs(f"{root}/var/lib/path_server/{port}", exist_ok=True)
    return subprocess.Popen(words, stdin=subprocess.DEVNULL, stdout=subprocess.PIPE, text=True,
                            env={**os.environ, "PATH_SERVER": f"{root}/usr/local/bin/path_server"})


def try_running(root):
    """A server, a leader and its mirror, each by its unit's words, stopped by SIGTERM."""
    feed, relay = free_port(), free_port()
    conf = {"MAP": f"{TOP}/maps/tutorial.map", "DOORS": 4, "OPTIONS": "--order dfs", "FEED": feed, "RELAY": relay}
    running = []
    for name in UNITS:
        conf["NUMBERS"] = free_port()
        process = run(root, name, free_port(), conf)
        running.append((name, process))
        last = {"path_leader@": "recording", "path_mirror@": "mirroring"}.get(name, "serving")
        while (line := process.stdout.readline()) and line.split()[0] != last:
            pass
        judge(f"{name} begins", line.split()[:1], [last])
        if name != "path_server@":
            with urllib.request.urlopen(f"http://127.0.0.1:{conf['NUMBERS']}/metrics", timeout=PATIENCE) as reply:
                judge(f"the numbers of {name}", reply.status, 200)
        conf["FEED"] = feed if name == "path_server@" else relay
    for name, process in running[::-1]:
        process.send_signal(signal.SIGTERM)
    for name, process in running:
        judge(f"the end of {name}", process.wait(PATIENCE), 0)
        judge(f"a success of {name}", settings(root, name)["SuccessExitStatus"], "143")


def main():
    if not shutil.which("systemd-analyze"):
        skip("there is no systemd-analyze")
    with tempfile.TemporaryDirectory() as root:
        install(root)
        for name in UNITS:
            done = subprocess.run(["systemd-analyze", "verify", "--man=no", f"--root={root}", f"{name}4001.service"],
                                  capture_output=True, text=True)
            told = [line for line in done.stderr.splitlines() if "path_" in line]
            judge(f"what systemd finds wrong in {name}", told, [])
        try_running(root)
    return judge.failed


if __name__ == "__main__":
    sys.exit(main())
