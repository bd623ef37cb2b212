"""Gerrit's SSH, as it is played for bench/gerrit: a stand-in for `ssh` asks it over a socket. It keeps a log, ssh.log.

It breaks off as a network does: a stream ends anywhere in a line, a query's answer is cut or is an error, and of a
stream some lines may be lost without a sign.
"""

import json
import queue
import random
import socket
import threading
import time
from pathlib import Path

from gerrit_play import Gerrit, compact

# What stands on PATH in place of ssh: it runs the `LocalCommand`, passes its words on, and writes what comes.
STAND_IN = r"""#!/usr/bin/python3 -SE
import json, os, socket, sys
words = sys.argv[sys.argv.index("gerrit") + 1:]
with socket.socket(socket.AF_UNIX) as wire:
    wire.connect(os.environ["GERRIT_SOCKET"])
    for word in sys.argv:
        if word.startswith("LocalCommand="):
            os.system(word.partition("=")[2])
    wire.sendall(json.dumps(words).encode() + b"\n")
    status = b""
    while block := wire.recv(65536):
        # What ends in a zero ended well.
        status, rest = block[-1:], block.rstrip(b"\0")
        while rest:  # a stop of the process may cut a write short
            rest = rest[os.write(1, rest):]
sys.exit(0 if status == b"\0" else 255)
"""


class Stream:
    """One who listens to the stream of events."""

    def __init__(self, wire: socket.socket, loss: float, dice: random.Random, most: int):
        self.wire, self.loss, self.dice = wire, loss, dice
        self.lines = queue.Queue(most)
        self.dropped = False

    def hear(self, line: bytes) -> None:
        """Gerrit doesn't wait: what finds no place is dropped, and that is said."""
        try:
            if self.dice.random() >= self.loss:
                self.lines.put_nowait(line)
        except queue.Full:
            self.dropped = True

    def run(self) -> None:
        while (line := self.lines.get()) is not None:
            if self.dropped:
                self.dropped = False
                self.wire.sendall(b'{"type":"dropped-output"}\n')
            self.wire.sendall(line + b"\n")

    def cut(self) -> None:
        """Breaks in the midst of a line, for whatever it sends."""
        try:
            self.wire.setblocking(False)
            self.wire.send(b'{"type":"comment-added","change":{"pro')
        except OSError:
            pass
        self.close()

    def close(self) -> None:
        try:
            self.wire.shutdown(socket.SHUT_RDWR)
        except OSError:
            pass


class Ssh:
    """Answers the stand-ins, each by a thread: a `page` of rows at once, and a stream for which so many lines may be
    `waiting`. While it `is_calm` nothing breaks.
    """

    def __init__(self, gerrit: Gerrit, folder: Path, seed: int, loss: float):
        self.gerrit, self.loss = gerrit, loss
        self.dice = random.Random(f"ssh {seed}")
        self.page, self.waiting = self.dice.choice([20, 60, 150, 500]), self.dice.choice([100, 4096])
        self.is_calm, self.streams = True, []
        self.whole = 0  # how many queries of all changes were answered to their end
        self.counts = {"streams": 0, "queries": 0, "rows": 0, "cut": 0, "errors": 0}
        self.began, self.log = time.monotonic(), (folder / "ssh.log").open("a")
        self.door = socket.socket(socket.AF_UNIX)
        self.door.bind(str(folder / "gerrit.socket"))
        self.door.listen(64)
        threading.Thread(target=self.accept, daemon=True).start()

    def note(self, text: str) -> None:
        print(f"{time.monotonic() - self.began:7.3f} {text}", file=self.log, flush=True)

    def accept(self) -> None:
        while True:
            wire, _ = self.door.accept()
            threading.Thread(target=self.serve, args=(wire,), daemon=True).start()

    def serve(self, wire: socket.socket) -> None:
        with wire:
            try:
                words = json.loads(wire.makefile("rb").readline())
                if words[0] == "stream-events":
                    self.stream(wire)
                else:
                    self.answer(wire, words[1:])
            except (OSError, ValueError):
                pass  # the stand-in was killed

    def stream(self, wire: socket.socket) -> None:
        stream = Stream(wire, self.loss, self.dice, self.waiting)
        with self.gerrit.lock:
            self.gerrit.listeners.append(stream.hear)
            self.streams.append(stream)
            self.counts["streams"] += 1
            self.note("a stream is opened")
        try:
            stream.run()
        finally:
            with self.gerrit.lock:
                self.gerrit.listeners.remove(stream.hear)
                self.streams.remove(stream)
                self.note("a stream is closed")

    def answer(self, wire: socket.socket, words: list) -> None:
        lines = self.gerrit.query(words, self.page)
        self.note(f"{len(lines)} lines answer {' '.join(words[6:])}")
        text = b"".join(line + b"\n" for line in lines)
        self.counts["queries"] += 1
        self.counts["rows"] += len(lines) - 1
        fate = 1.0 if self.is_calm else self.dice.random()
        if fate < 0.04:
            self.counts["errors"] += 1
            wire.sendall(compact({"type": "error", "message": "busy"}) + b"\n\0")
        elif fate < 0.1:
            self.counts["cut"] += 1
            wire.sendall(text[: self.dice.randint(0, len(text) - 1)])
        else:
            wire.sendall(text + b"\0")
            self.whole += "status:open" in " ".join(words) and b'"moreChanges":false' in lines[-1]

    def break_off(self) -> None:
        self.note("the streams are cut")
        with self.gerrit.lock:
            streams = list(self.streams)
        for stream in streams:
            stream.cut()


def put_stand_in(folder: Path) -> None:
    """Makes the stand-in in a folder that is to be on PATH."""
    folder.mkdir(exist_ok=True)
    (folder / "ssh").write_text(STAND_IN)
    (folder / "ssh").chmod(0o755)
