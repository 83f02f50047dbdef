#!/usr/bin/env python3
"""The library for C as a game links it: no name but its own, each call of the headers in the shared library with a
version, one number of the version everywhere; empty lists as NULL; a memory that is handed in, also where the library
is opened at run time; the headers without a warning in each language that they are for; and installed under DESTDIR,
moved, linked by pkg-config and by CMake in both ways, run, and removed.

    tests/library.py

What needs a tool that is not here is skipped.
"""
import ctypes, os, re, shutil, subprocess, sys, tempfile

from judging import TOP, Judge, library_here, needs_new_library, program_here

judge = Judge()
needs_new_library()
archive = os.path.abspath(library_here())
shared = archive.removesuffix("a") + "so"
os.chdir(TOP)
QUERY = ["maps/tutorial.map", "2", "2", "37", "17"]
WARNED = ["-Wall", "-Wextra", "-Wshadow", "-Wconversion", "-Wsign-conversion", "-pedantic", "-Werror", "-Iinclude"]
missing = set()


def is_here(tool):
    """Whether there is this tool; where there is none, a line says what is skipped."""
    if shutil.which(tool) is None and tool not in missing:
        missing.add(tool)
        print(f"skipped: there is no {tool}")
    return tool not in missing


def text_of(name):
    with open(os.path.join(TOP, name), encoding="utf-8") as file:
        return file.read()


def ran(what, *words, **more):
    """What a command prints; where it fails, nothing, and that is told."""
    done = subprocess.run(words, stdin=subprocess.DEVNULL, capture_output=True, text=True, errors="replace", **more)
    if done.returncode == 0:
        return done.stdout
    judge.fail(f"{what}: status {done.returncode}\n{done.stderr[:4000]}{done.stdout[:4000]}")
    return None


# ---- names and versions

def try_names():
    """What the two files show, beside what the header declares."""
    header = re.sub(r"/\*.*?\*/", "", text_of("include/pathdb.h"), flags=re.S)
    declared = {name for name in re.findall(r"^(?!static|typedef|#)\w[\w ]*[ *](pathdb_\w+)\(", header, re.M)}
    if is_here("nm"):
        names = (ran("nm", "nm", "-g", "--defined-only", archive) or "").split("\n")
        found = {line.split()[2] for line in names if len(line.split()) == 3}
        judge("names of the archive", found, declared)
        wanted = {"free", "malloc", "realloc", "memcpy", "memmove", "memset", "memcmp", "__tls_get_addr"}
        lines = (ran("nm", "nm", "-u", archive) or "").split("\n")
        used = {line.split()[1] for line in lines if len(line.split()) == 2}
        judge("what the archive wants", used - wanted, set())
        names = (ran("nm", "nm", "-D", "--defined-only", shared) or "").split("\n")
        found = [line.split()[2].split("@@") for line in names if line.split()[1:2] == ["T"]]
        judge("names of the shared library", {name for name, *_ in found}, declared)
        judge("their versions", {version[:9] for _, *rest in found for version in (rest or [""])}, {"PATHDB_0."})
    if is_here("readelf"):
        judge("soname", "[libpathdb.so.1]" in (ran("readelf", "readelf", "-d", shared) or ""), True)


def try_version():
    """One version everywhere: that of the newest entry of CHANGELOG.md that is not called unreleased."""
    entry = re.search(r"^## (0\.\d+\.0)(?!, unreleased)", text_of("CHANGELOG.md"), re.M).group(1)
    header = text_of("include/pathdb.h")
    parts = ("MAJOR", "MINOR", "PATCH")
    numbers = [re.search(rf"define PATHDB_VERSION_{part} (\d+)", header).group(1) for part in parts]
    judge("the header's text", re.search(r'define PATHDB_VERSION "(.*)"', header).group(1), entry)
    judge("the header's numbers", ".".join(numbers), entry)
    calls = ctypes.CDLL(shared)
    calls.pathdb_version.restype = ctypes.c_uint32
    judge("the library's number", calls.pathdb_version(), int(numbers[1]) * 1000)


# ---- memory, where the library is opened at run time

TAKE = ctypes.CFUNCTYPE(ctypes.c_void_p, ctypes.c_void_p, ctypes.c_size_t)
GIVE = ctypes.CFUNCTYPE(None, ctypes.c_void_p, ctypes.c_void_p)


class Memory(ctypes.Structure):
    _fields_ = [("alloc", TAKE), ("free", GIVE), ("user", ctypes.c_void_p)]


def try_memory():
    """A bake with functions in Python for its memory, which are told whose they are; and one that gets none."""
    calls, libc = ctypes.CDLL(shared), ctypes.CDLL(None)
    libc.malloc.restype, libc.malloc.argtypes = ctypes.c_void_p, [ctypes.c_size_t]
    libc.free.argtypes = [ctypes.c_void_p]
    asked = []

    def take(user, size):
        asked.append(user)
        return libc.malloc(size)

    words, baked = (ctypes.c_uint32 * 4096)(), (ctypes.c_uint32 * 7)()
    text = b"type octile\nheight 2\nwidth 3\nmap\n...\n.@.\n"
    for what, alloc, status in (("memory", take, 0), ("no memory", lambda user, size: None, 26)):
        memory = Memory(TAKE(alloc), GIVE(lambda user, block: libc.free(block)), 7)
        found = calls.pathdb_bake_text_with(ctypes.byref(memory), text, ctypes.c_size_t(len(text)), ctypes.c_uint32(0),
                                            words, ctypes.c_size_t(4096), baked)
        judge(f"a bake with {what} of Python", found, status)
    judge("whose memory it is", set(asked), {7})


# ---- the headers

def compiled(what, words, source, *options):
    """The program that a compiler makes of a file, or nothing where it fails."""
    made = os.path.join(folder, "program")
    return made if ran(what, *words, "-o", made, source, *options) is not None else None


def try_headers():
    """Each header in each language that it is for; and what the headers do."""
    for compiler, languages in (("gcc", ("c99", "c11", "c17")), ("clang", ("c99", "c11", "c17"))):
        for language in languages if is_here(compiler) else ():
            words = [compiler, f"-std={language}", *WARNED]
            made = compiled(f"empty lists, {compiler} {language}", words, "tests/pathdb_empty.c", archive)
            if made:
                ran(f"empty lists, {compiler} {language}", made)
    for compiler in ("g++", "clang++"):
        for language in ("c++11", "c++14", "c++17", "c++20") if is_here(compiler) else ():
            words = [compiler, f"-std={language}", *WARNED, "-fno-exceptions", "-fno-rtti"]
            made = compiled(f"pathdb.hpp, {compiler} {language}", words, "tests/pathdb_cpp.cpp", archive)
            if made:
                ran(f"pathdb.hpp, {compiler} {language}", made)
            source = os.path.join(folder, "unseen.cpp")
            with open(source, "w") as file:
                file.write('#include "pathdb.hpp"\nint main() { std::uint8_t m; pathdb::view().next({}, {}, m); }\n')
            done = subprocess.run([*words, "-fsyntax-only", source], capture_output=True)
            judge(f"a status that nobody looks at, {compiler} {language}", done.returncode != 0, language >= "c++17")


# ---- installed

CMAKE = """cmake_minimum_required(VERSION 3.13)
project(game C CXX)
{find}
add_executable(shared {top}/examples/path.c)
target_link_libraries(shared pathdb::pathdb)
add_executable(static {top}/examples/path.c)
target_link_libraries(static pathdb::static)
add_executable(reader read.c)
target_link_libraries(reader pathdb::read)
"""
READER = '#include "pathdb_read.h"\nint main(void) { uint32_t part; return pathdb_read_check(NULL, 0, &part) != 9; }\n'


def prints_path(what, *words, **more):
    found = ran(what, *words, **more)
    if found is not None:
        judge(what, found, wanted)


def try_cmake(name, find, *options):
    """A project of CMake over the library."""
    source, build = os.path.join(folder, name), os.path.join(folder, name, "build")
    os.makedirs(source)
    for file_name, text in (("CMakeLists.txt", CMAKE.format(find=find, top=TOP)), ("read.c", READER)):
        with open(os.path.join(source, file_name), "w") as file:
            file.write(text)
    if ran(f"{name}: cmake", "cmake", "-S", source, "-B", build, *options) is None:
        return
    if ran(f"{name}: build", "cmake", "--build", build) is not None:
        prints_path(f"{name}: shared", f"{build}/shared", *QUERY)
        prints_path(f"{name}: static", f"{build}/static", *QUERY)
        ran(f"{name}: reader", f"{build}/reader")


def try_installed():
    """The library under DESTDIR, moved elsewhere, found there in each way, and removed."""
    stage, prefix = os.path.join(folder, "stage"), os.path.join(folder, "a place", "pathdb")
    if ran("install", "./install", "/usr/local", env={**os.environ, "DESTDIR": stage}) is None:
        return
    os.makedirs(os.path.dirname(prefix))
    os.rename(f"{stage}/usr/local", prefix)
    with open(f"{prefix}/share/doc/path_server/INSTALLED") as file:
        listed = file.read().split("\n")[:-1]
    there = [os.path.relpath(os.path.join(at, name), prefix) for at, _, names in os.walk(prefix) for name in names]
    judge("what is installed", sorted(there), sorted(listed))
    for name in ("lib/libpathdb.so.1", "include/pathdb_read.h", "share/doc/path_server/formats.md",
                 "share/doc/path_server/examples/path.c", "share/doc/path_server/games.md"):
        judge(f"{name} is installed", name in listed, True)
    judge("the link's name", os.readlink(f"{prefix}/lib/libpathdb.so"), "libpathdb.so.1")
    if is_here("pkg-config") and is_here("gcc"):
        os.environ["PKG_CONFIG_PATH"] = f"{prefix}/lib/pkgconfig"
        flags = (ran("pkg-config", "pkg-config", "--cflags", "--libs", "pathdb") or "").replace("\\ ", "\0").split()
        flags = [flag.replace("\0", " ") for flag in flags]
        made = compiled("pkg-config: gcc", ["gcc", "-Werror"], "examples/path.c", *flags)
        if made:
            prints_path("pkg-config", made, *QUERY, env={**os.environ, "LD_LIBRARY_PATH": f"{prefix}/lib"})
    if is_here("cmake") and is_here("gcc") and is_here("g++"):
        try_cmake("find", "find_package(pathdb 0.22 REQUIRED)", f"-DCMAKE_PREFIX_PATH={prefix}")
        try_cmake("subdirectory", f"add_subdirectory({TOP} pathdb)")
    subprocess.run(["xargs", "-d", "\n", "rm", "--"], input="\n".join(listed), text=True, cwd=prefix, check=True)
    judge("what is left", [name for _, _, names in os.walk(prefix) for name in names], [])


wanted = subprocess.run([program_here(), "path", *QUERY], stdout=subprocess.PIPE, text=True, check=True).stdout
with tempfile.TemporaryDirectory() as folder:
    try_names()
    try_version()
    try_memory()
    try_headers()
    try_installed()
sys.exit(judge.failed)
