#!/usr/bin/env python3
"""Sessions of the program over real pipes: each reply is read before the next frame is written, the input ends
inside a frame or with a length that no frame has, and random bytes come in. Prints only where something is not as it
should be.
"""
import os, random, subprocess, sys, time

from judging import ROW_MAP, Judge, program_here
from path_server import ChildLink, PathServerError
from path_server.frames import decoded, framed, split_replies

program, row = program_here(), ROW_MAP
judge = Judge()

def start(*words):
    return ChildLink([program, "talk", *words])

def soon():
    return time.monotonic() + 5

def frame_from(talk):
    """The next reply's frame, or what came instead, in five seconds."""
    try:
        return talk.receive(soon()).hex()
    except PathServerError as fault:
        return repr(fault)

def end_of(talk):
    """How a session ended: its status, whether bytes came in behind the last reply, and what was told."""
    try:
        talk.end(soon())
        rest = ""
    except PathServerError as fault:
        rest = repr(fault)
    return talk.process.wait(5), rest, talk.told()

def whole(data, *words):
    """What a session over these bytes sends, what is told of it, and its status."""
    done = subprocess.run([program, "talk", *words], input=data, capture_output=True, timeout=10)
    return done.stdout, done.stderr, done.returncode

# one frame at a time: a request, and its reply on `.@.`
TURNS = [
    ("0009 01 0000 0000 0002 0000", "00000005 82 00000000"),
    ("0006 02 0001 0000 01", "00000005 84 00000001"),
    ("0009 01 0000 0000 0002 0000", "00000005 82 00000000"),
    ("0001 03", "0000000D 86 00000001 00000003 00000000"),
    ("0009 01 0000 0000 0002 0000", "0000000F 81 00000001 00000002 00000000 02 02"),
    ("0001 04", "00000019 89 00000001 00000001 00000003 00000001 0000000000000004"),
    ("0001 05", "00000001 8A"),
]
turns = [(bytes.fromhex(asked), bytes.fromhex(told)) for asked, told in TURNS]
for words in ([row], [row, "--room", "1"], [row, "--room=0", "--workers", "3", "--order", "dfs"]):
    talk = start(*words)
    for number, (asked, told) in enumerate(turns, 1):
        # two writes a frame, the second later: a frame may come in pieces
        talk.send(asked[:1], soon())
        if number % 2:
            time.sleep(0.01)
        talk.send(asked[1:], soon())
        judge(f"reply {number} of {words[1:]}", frame_from(talk), told[4:].hex())
    judge(f"the end of {words[1:]}", end_of(talk), (0, "", ""))
    talk.close()
    judge(f"all at once, {words[1:]}", whole(b"".join(asked for asked, _ in turns), *words),
          (b"".join(told for _, told in turns), b"", 0))

# ends of the input
query = turns[0][0]
for count in range(len(query) + 1):
    sent = turns[0][1] if count == len(query) else b""
    broken = 0 < count < len(query)
    size = 2 if count == 1 else len(query)
    said = f"path_server talk: the input ended inside a frame, {count} of {size} bytes\n" if broken else ""
    judge(f"{count} bytes of a query", whole(query[:count], row), (sent, said.encode(), 9 if broken else 0))
judge("a frame of 65 bytes", whole(bytes.fromhex("0041"), row),
      (b"", b"path_server talk: a frame of 65 bytes; the limit is 64, or 322 after a Hello\n", 9))
judge("behind a reply", whole(query + bytes.fromhex("FFFF"), row),
      (turns[0][1], b"path_server talk: a frame of 65535 bytes; the limit is 64, or 322 after a Hello\n", 9))

# an output that nobody reads, and an input that cannot be read
nobody, output = os.pipe()
os.close(nobody)
done = subprocess.run([program, "talk", row], input=query, stdout=output, stderr=subprocess.PIPE, timeout=10)
os.close(output)
judge("no reader", (done.stderr, done.returncode), (b"path_server: the output failed\n", 6))
folder = os.open("/", os.O_RDONLY)
done = subprocess.run([program, "talk", row], stdin=folder, capture_output=True, timeout=10)
judge("a folder as input", (done.stdout, done.stderr, done.returncode),
      (b"", b"path_server talk: the input failed\n", 5))

# a second of random bytes, of which most lengths are short: whole replies come, and one of the ends
random.seed(1)
end = time.monotonic() + 1
while time.monotonic() < end:
    data = b""
    for _ in range(random.randrange(200)):
        frame = bytes(random.choice((0, 1, 2, 3, 4, 6, random.randrange(256))) for _ in range(random.choice((0, 1, 6, 9, 64))))
        data += framed(frame)
    data += bytes(random.randrange(256) for _ in range(random.randrange(4)))
    sent, said, status = whole(data, row)
    judge("the end after random bytes", status in (0, 9) and (said == b"") == (status == 0), True)
    replies, rest = split_replies(sent)
    judge("whole replies", rest, b"")
    for reply in replies:
        decoded(reply)
sys.exit(judge.failed)
