"""Runs the program and its peers in turn, for bench/peers.sh: peers.py PROGRAM WORK RUNS. The C program is WORK/peer, where there is one."""
import os
import shutil
import statistics
import sys
import time

SIZES = [("5 KB", 5120), ("227 KB", 232448), ("16 MiB", 16777216)]
KEY = "a9993e364706816aba3e25717850c26c9cd0d89d"
STORE = ["--id=d", "--gpu=g", "--layout=folder", "--root=store", KEY]


class Peer:
    """A command, what it reads, where its output goes, and what is removed before each run of it."""

    def __init__(self, name, words, reads="/dev/null", writes="out", removes=()):
        self.name, self.words, self.reads, self.writes, self.removes = name, words, reads, writes, removes
        self.processor, self.clock = [], []

    def run(self):
        for path in self.removes:
            if os.path.exists(path):
                os.remove(path)
        actions = [
            (os.POSIX_SPAWN_OPEN, 0, self.reads, os.O_RDONLY, 0),
            (os.POSIX_SPAWN_OPEN, 1, self.writes, os.O_WRONLY | os.O_CREAT | os.O_TRUNC, 0o600),
        ]
        begun = time.perf_counter()
        child = os.posix_spawn(self.words[0], self.words, os.environ, file_actions=actions)
        _, status, usage = os.wait4(child, 0)
        self.clock.append(time.perf_counter() - begun)
        self.processor.append(usage.ru_utime + usage.ru_stime)
        if status != 0:
            sys.exit(f"{self.name}: ended in {os.waitstatus_to_exitcode(status)}")


def gets(program, entry):
    """The commands that write the blob to a file."""
    yield Peer("dawsettee", [program, "get"] + STORE)
    if os.path.exists("peer"):
        yield Peer("C", ["./peer", "get", entry])
    if shutil.which("cat"):
        yield Peer("cat", [shutil.which("cat"), "blob"])
    if shutil.which("cp"):
        yield Peer("cp", [shutil.which("cp"), "blob", "copy"], removes=["copy"])
    if shutil.which("sqlite3"):
        query = f"select writefile('row', blob) from entries where key = x'{KEY}'"
        yield Peer("sqlite3", [shutil.which("sqlite3"), "-readonly", "db", query])


def puts(program, entry):
    """The commands that keep the blob; the entry is a new one, and the row is replaced."""
    yield Peer("dawsettee", [program, "put"] + STORE, reads="blob", removes=[entry])
    if os.path.exists("peer"):
        folder = os.path.dirname(entry)
        yield Peer("C", ["./peer", "put", entry, entry + ".tmp", folder + "/lock"], reads="blob", removes=[entry])
    if shutil.which("cp"):
        yield Peer("cp", [shutil.which("cp"), "blob", "copy"], removes=["copy"])
    if shutil.which("sqlite3"):
        query = f"pragma synchronous = off; insert or replace into entries values (x'{KEY}', readfile('blob'))"
        yield Peer("sqlite3", [shutil.which("sqlite3"), "db", query])


def read(path):
    """The bytes of a file."""
    with open(path, "rb") as file:
        return file.read()


def check(peers):
    """A get's output is the blob: what is compared does the same."""
    for peer in peers:
        peer.run()
        if peer.name in ("dawsettee", "C", "cat") and read("out") != read("blob"):
            sys.exit(f"{peer.name}: wrote something else than the blob")


def measure(kind, size, peers, runs):
    """Prints a line for each peer."""
    for _ in range(runs):
        for peer in peers:
            peer.run()
    own = peers[0]
    for peer in peers:
        times = statistics.median(peer.processor), min(peer.clock)
        ratios = statistics.median(own.processor) / times[0], min(own.clock) / times[1]
        print(f"{kind} {size:7} {peer.name:10} {1000 * times[0]:9.3f} {1000 * times[1]:9.3f} {ratios[0]:9.2f} {ratios[1]:9.2f}")


def main():
    program, work, runs = os.path.abspath(sys.argv[1]), sys.argv[2], int(sys.argv[3])
    os.chdir(work)
    entry = f"store/{KEY[:2]}/{KEY[2:]}"
    print("what, size, of which: median processor ms, least clock ms, and the ratios of dawsettee's to them")
    for size, count in SIZES:
        with open("blob", "wb") as file:
            file.write(os.urandom(count))
        Peer("dawsettee", [program, "put"] + STORE, reads="blob", removes=[entry]).run()
        if shutil.which("sqlite3"):
            table = "create table if not exists entries (key blob primary key, blob blob)"
            row = f"insert or replace into entries values (x'{KEY}', readfile('blob'))"
            Peer("sqlite3", [shutil.which("sqlite3"), "db", f"{table}; {row}"]).run()
        check(gets(program, entry))
        measure("get", size, list(gets(program, entry)), runs)
        measure("put", size, list(puts(program, entry)), runs)


main()
