"""The built program, and journals written by their format, for the scripts of this folder."""

import hashlib
import os
import subprocess
import sys
import tempfile
import time

TOP = os.path.dirname(os.path.dirname(os.path.abspath(__file__)))
EVIDENCE = f"{TOP}/bin/evidence"
PROGRAM = f"{TOP}/crates/evidence_tool/out/evidence_tool"
JOURNAL = "evidence.journal"
HEADER = b"EVIDENCE-ARCH-1\n"
OPEN, CLOSED = b"\x01", b"\x00"

NO_GROUP = b"fetch 4294967295\n"


def build():
    """Builds the program, where it isn't built."""
    subprocess.run([EVIDENCE], stdin=subprocess.DEVNULL)


def counted(number):
    return number.to_bytes(4, "big")


def body(groups):
    """What stands behind the gate of a frame that deposits these groups of documents."""
    payload = b"\x01" + counted(len(groups))
    for documents in groups:
        payload += counted(len(documents)) + b"".join(counted(len(it)) + it for it in documents)
    return counted(len(payload)) + payload + hashlib.sha256(payload).digest()


def write_journal(bodies):
    """Writes a journal of frames with these bodies, and gives its number of bytes."""
    with open(JOURNAL, "wb") as file:
        file.write(HEADER)
        for it in bodies:
            file.write(OPEN + it)
        file.write(CLOSED)
    return os.path.getsize(JOURNAL)


def deposit(data):
    return b"deposit 1\ngroup 1\ndoc %d\n%s\n" % (len(data), data)


def run(words, given=b""):
    """Runs the program from a file and into one, and gives what it wrote and the seconds that it took."""
    with tempfile.TemporaryFile() as requests, tempfile.TemporaryFile() as replies:
        requests.write(given)
        requests.seek(0)
        begun = time.perf_counter()
        ran = subprocess.run([PROGRAM, *words], stdin=requests, stdout=replies)
        took = time.perf_counter() - begun
        if ran.returncode != 0:
            sys.exit(f"bench: {' '.join(words)} ended with status {ran.returncode}")
        replies.seek(0)
        return replies.read(), took


def expect(found, wanted):
    if found != wanted:
        sys.exit(f"bench: the program wrote {found[-80:]!r} and not {wanted[-80:]!r}")
