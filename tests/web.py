#!/usr/bin/env python3
"""clients/web beside include/pathdb_read.h: the same answers to queries, and the same status and part for spoilt
images; in node and in Chromium, by JavaScript and, where the module is there, by WebAssembly.

    tests/web.py [QUERIES [SPOILT]], 20,000 and 10,000 where they are not given
"""
import http.server, os, shutil, subprocess, sys, tempfile, threading

from judging import TOP, Judge, library_here, needs_new_library, skip
from read_images import put_images

judge = Judge()
needs_new_library()
for tool in ("gcc", "node"):
    if not shutil.which(tool):
        skip(f"there is no {tool}")
queries = int(sys.argv[1]) if len(sys.argv) > 1 else 20_000
spoilt = int(sys.argv[2]) if len(sys.argv) > 2 else 10_000
WEB, MODULE = os.path.join(TOP, "clients/web"), os.path.join(os.path.dirname(library_here()), "web/pathdb.wasm")
KINDS = {".js": "text/javascript", ".mjs": "text/javascript", ".wasm": "application/wasm"}
PAGE = """<!doctype html><title>pathdb</title><script type="module">
import { load } from "/web/pathdb.js";
import { digest } from "/web_digest.mjs";
let told;
try {
    const open = await load(%(options)s);
    const files = [];
    for (let k = 0; k < %(images)d; k++) files.push(new Uint8Array(await (await fetch(`/${k}.image`)).arrayBuffer()));
    told = [...await digest(open, %(queries)d, %(spoilt)d, files), open.isProved ? "proved" : "JavaScript"].join("\\n");
} catch (fault) {
    told = `${fault} ${fault.stack}`;
}
await fetch("/told", { method: "POST", body: told });
</script>"""


class Pages(http.server.BaseHTTPRequestHandler):
    """The page, the client and the images; what the page tells is kept by the server."""

    def do_GET(self):
        name = self.path[1:]
        place = os.path.join(folder, name) if name.endswith(".image") else os.path.join(folder, "site", name)
        if name == "page.html":
            self.put("text/html", self.server.page.encode())
        elif os.path.isfile(place):
            with open(place, "rb") as file:
                self.put(KINDS.get(os.path.splitext(name)[1], "application/octet-stream"), file.read())
        else:
            self.send_error(404)

    def do_POST(self):
        self.server.told = self.rfile.read(int(self.headers["Content-Length"])).decode()
        self.put("text/plain", b"")
        self.server.is_told.set()

    def put(self, kind, data):
        self.send_response(200)
        self.send_header("Content-Type", kind)
        self.send_header("Content-Length", str(len(data)))
        self.end_headers()
        self.wfile.write(data)

    def log_message(self, *words):
        pass


def told_by_chromium(options):
    """What the page tells in Chromium."""
    server = http.server.ThreadingHTTPServer(("127.0.0.1", 0), Pages)
    server.page = PAGE % {"options": options, "images": len(images), "queries": queries, "spoilt": spoilt}
    server.told, server.is_told = "nothing", threading.Event()
    threading.Thread(target=server.serve_forever, daemon=True).start()
    words = ["chromium", "--headless=new", "--no-sandbox", "--disable-gpu", f"--user-data-dir={folder}/profile",
             f"http://127.0.0.1:{server.server_address[1]}/page.html"]
    browser = subprocess.Popen(words, stdin=subprocess.DEVNULL, stdout=subprocess.DEVNULL, stderr=subprocess.DEVNULL)
    server.is_told.wait(300)
    browser.terminate()
    browser.wait()
    server.shutdown()
    return server.told.split("\n")


def told_by_node(module):
    """What node tells, and which reader it was."""
    flags = ["--experimental-wasm-memory64"] if module else []
    done = subprocess.run(["node", *flags, f"{folder}/site/web_digest.mjs", str(queries), str(spoilt), *images],
                          capture_output=True, text=True, env={**os.environ, "PATHDB_WASM": module or "no"})
    if done.returncode != 0:
        judge.fail(f"node: status {done.returncode}\n{done.stderr[:2000]}")
    return [*done.stdout.split("\n")[:-1], done.stderr.strip().split("\n")[-1] if module else "JavaScript"]


def compiled_reader():
    """What the C reader tells."""
    made = os.path.join(folder, "reader")
    source = os.path.join(TOP, "tests/pathdb_read.c")
    words = ["gcc", "-std=c99", "-O2", "-DREADER", "-I", os.path.join(TOP, "include"), "-o", made, source]
    subprocess.run(words, check=True)
    done = subprocess.run([made, str(queries), str(spoilt), *images], stdout=subprocess.PIPE, text=True, check=True)
    return done.stdout.split("\n")[:-1]


def put_site():
    """The folder that is served: the client, the module where it is there, and the digest."""
    shutil.copytree(WEB, f"{folder}/site/web")
    shutil.copy(os.path.join(TOP, "tests/web_digest.mjs"), f"{folder}/site")
    if os.path.isfile(MODULE):
        shutil.copy(MODULE, f"{folder}/site/web")
    else:
        print("skipped: there is no web/pathdb.wasm beside the library")
    return os.path.isfile(MODULE)


with tempfile.TemporaryDirectory() as folder:
    images = put_images(library_here(), folder)
    wanted, has_module = compiled_reader(), put_site()
    judge("JavaScript in node", told_by_node(None), [*wanted, "JavaScript"])
    if has_module:
        judge("WebAssembly in node", told_by_node("yes"), [*wanted, "proved"])
    if shutil.which("chromium"):
        judge("JavaScript in Chromium", told_by_chromium("{ wasm: null }"), [*wanted, "JavaScript"])
        if has_module:
            judge("WebAssembly in Chromium", told_by_chromium(""), [*wanted, "proved"])
    else:
        print("skipped: there is no chromium")
sys.exit(judge.failed)
