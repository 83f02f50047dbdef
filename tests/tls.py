#!/usr/bin/env python3
"""deploy/tls.cfg: a session through both halves, and who is not let in.

    tests/tls.py
"""
import os, shutil, socket, ssl, subprocess, sys, tempfile, time

from judging import TOP, Judge, program_here, skip
from path_server import Client, PathServerError, Server, free_port

MAP = f"{TOP}/maps/tutorial.map"
PATIENCE = 60
judge = Judge()


def certificates(folder, name):
    """An authority, and a certificate of it with its key, in a folder of their own."""
    os.makedirs(f"{folder}/{name}")
    at = f"{folder}/{name}"
    new = ["openssl", "req", "-newkey", "ec", "-pkeyopt", "ec_paramgen_curve:prime256v1", "-nodes", "-days", "1"]
    for command in (
        [*new, "-x509", "-subj", "/CN=authority", "-keyout", f"{at}/key", "-out", f"{at}/authority.pem"],
        [*new, "-subj", "/CN=paths.example", "-addext", "subjectAltName=DNS:paths.example", "-keyout", f"{at}/own.key",
         "-out", f"{at}/request"],
        ["openssl", "x509", "-req", "-in", f"{at}/request", "-CA", f"{at}/authority.pem", "-CAkey", f"{at}/key",
         "-days", "1", "-CAcreateserial", "-copy_extensions", "copy", "-out", f"{at}/own.crt"],
    ):
        subprocess.run(command, check=True, capture_output=True)
    with open(f"{at}/own.pem", "wb") as both:
        for part in ("crt", "key"):
            with open(f"{at}/own.{part}", "rb") as file:
                both.write(file.read())
    return at


def haproxy(folder, own, port, near, far):
    """Both halves, before a server at a port."""
    with open(f"{TOP}/deploy/tls.cfg", encoding="ascii") as file:
        text = file.read()
    for old, new in (("/etc/path_server/tls", own), ("server front 127.0.0.1:4000", f"server front 127.0.0.1:{port}"),
                     ("bind 127.0.0.1:4000", f"bind 127.0.0.1:{near}"), ("bind :4443", f"bind 127.0.0.1:{far}"),
                     ("paths.example:4443", f"127.0.0.1:{far}")):
        judge(f"{old} stands there", old in text, True)
        text = text.replace(old, new)
    path = f"{folder}/haproxy.cfg"
    with open(path, "w", encoding="ascii") as file:
        file.write(text)
    return subprocess.Popen(["haproxy", "-f", path], stderr=subprocess.DEVNULL)


def status_by(near):
    """The status that a client gets, as soon as HAProxy is there."""
    until = time.monotonic() + PATIENCE
    while True:
        try:
            with Client.connect(near, timeout=PATIENCE) as client:
                return client.status()
        except PathServerError:
            if time.monotonic() > until:
                raise
            time.sleep(0.1)


def heard_by(far, authority, own):
    """What the far half lets in who shows this certificate, or none: the bytes of a status, or nothing."""
    context = ssl.create_default_context(cafile=f"{authority}/authority.pem")
    if own:
        context.load_cert_chain(f"{own}/own.pem")
    try:
        with socket.create_connection(("127.0.0.1", far), timeout=PATIENCE) as plain:
            with context.wrap_socket(plain, server_hostname="paths.example") as link:
                link.sendall(b"\0\1\4")
                return len(link.recv(29))
    except OSError:
        return 0


def main():
    if not shutil.which("haproxy") or not shutil.which("openssl"):
        skip("there is no haproxy or no openssl")
    with tempfile.TemporaryDirectory() as folder, Server(MAP, program=program_here()) as server:
        own, other = certificates(folder, "own"), certificates(folder, "other")
        near, far = free_port(), free_port()
        proxy = haproxy(folder, own, server.port, near, far)
        try:
            with server.connect() as client:
                judge("a status through both", status_by(near), client.status())
            judge("who shows a certificate of the authority", heard_by(far, own, own), 29)
            judge("who shows none", heard_by(far, own, None), 0)
            judge("who shows another one's", heard_by(far, own, other), 0)
        finally:
            proxy.terminate()
            proxy.wait()
    return judge.failed


if __name__ == "__main__":
    sys.exit(main())
