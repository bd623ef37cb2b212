#!/usr/bin/env python3
"""seal.py [ADDRESS KEYFILE NAME | --own]: an independent reading of the lines of docs/FORMATS.md, "Sealed connections":
Python's hmac and hashlib, and ChaCha20 by hand from RFC 8439. Without words it prints a key, both first lines, and three
sealed lines of each direction, which the tests of the crate seal_tests hold as worked rows, once it has met the vectors
of RFC 8439. With ADDRESS (a port of this machine, or HOST:PORT) it dials a running site with the key of NAME: it says
`hello 2`, asks `ready`, takes a body in, and then tells lies, each on a connection of its own, which must end it without
an answer. It ends with 1 where one differs. `--own` does the same with a small answerer of its own in place of a site."""

import base64
import hashlib
import hmac
import os
import socket
import struct
import sys
import threading

LABELS = {
    "id": b"reviewgate keyid",
    "proof": b"reviewgate proof",
    "tags in": b"reviewgate tags>",
    "cipher in": b"reviewgate ciph>",
    "tags out": b"reviewgate tags<",
    "cipher out": b"reviewgate ciph<",
}


def tag(key, message):
    return hmac.new(key, message, hashlib.sha256).digest()


def rotated(word, bits):
    return ((word << bits) | (word >> (32 - bits))) & 0xFFFFFFFF


def quarter(state, a, b, c, d):
    for one, two, three, bits in ((a, b, d, 16), (c, d, b, 12), (a, b, d, 8), (c, d, b, 7)):
        state[one] = (state[one] + state[two]) & 0xFFFFFFFF
        state[three] = rotated(state[three] ^ state[one], bits)


def block(key, counter, nonce):
    """RFC 8439, 2.3: a key of 32 bytes, a counter of 32 bits, and a nonce of 12 bytes."""
    start = [0x61707865, 0x3320646E, 0x79622D32, 0x6B206574]
    start += struct.unpack("<8I", key)
    start.append(counter)
    start += struct.unpack("<3I", nonce)
    state = list(start)
    for _ in range(10):
        quarter(state, 0, 4, 8, 12)
        quarter(state, 1, 5, 9, 13)
        quarter(state, 2, 6, 10, 14)
        quarter(state, 3, 7, 11, 15)
        quarter(state, 0, 5, 10, 15)
        quarter(state, 1, 6, 11, 12)
        quarter(state, 2, 7, 8, 13)
        quarter(state, 3, 4, 9, 14)
    return struct.pack("<16I", *((a + b) & 0xFFFFFFFF for a, b in zip(state, start)))


def crossed(key, nonce, text, first=0):
    out = bytearray()
    for at in range(0, len(text), 64):
        stream = block(key, first + at // 64, nonce)
        out += bytes(a ^ b for a, b in zip(text[at:at + 64], stream))
    return bytes(out)


def sealed(tags, cipher_key, count, text):
    """The line that seals a text: its count is the nonce's last eight bytes, low byte first, and its blocks are counted
    from 0."""
    cipher = crossed(cipher_key, bytes(4) + struct.pack("<Q", count), text)
    return base64.b64encode(cipher + tag(tags, struct.pack(">Q", count) + cipher))


def keys(secret, greeting, reply):
    lines = greeting + b"\n" + reply
    return {name: tag(secret, label + lines) for name, label in LABELS.items()}


def check():
    """RFC 8439: 2.3.2, 2.4.2, A.1 (1 to 5) by what they begin with, A.2 (3)."""
    key = bytes(range(32))
    nonce = bytes.fromhex("000000090000004a00000000")
    assert block(key, 1, nonce).hex().startswith("10f1e7e4d13b5915500fdd1fa32071c4c7d1f4c733c06803")
    nonce = bytes.fromhex("000000000000004a00000000")
    text = (b"Ladies and Gentlemen of the class of '99: If I could offer you only one tip for the future, sunscreen "
            b"would be it.")
    assert crossed(key, nonce, text, 1).hex().startswith("6e2e359a2568f98041ba0728dd0d6981e97e7aec1d4360c20a27afccfd9fae0b")
    assert block(bytes(32), 0, bytes(12)).hex().startswith("76b8e0ada0f13d90405d6ae55386bd28bdd219b8a08ded1aa836efcc8b770dc7")
    assert block(bytes(32), 1, bytes(12)).hex().startswith("9f07e7be5551387a98ba977c732d080dcb0f29a048e3656912c6533e32ee7aed")
    assert tag(b"Jefe", b"what do ya want for nothing?").hex().startswith("5bdcc146bf60754e6a042426089575c7")


def opened(tags, cipher_key, count, line):
    """The text of a line, or None where it isn't sealed so."""
    try:
        body = base64.b64decode(line, validate=True)
    except ValueError:
        return None
    cipher = body[:-32]
    if len(body) < 32 or body[-32:] != tag(tags, struct.pack(">Q", count) + cipher):
        return None
    return crossed(cipher_key, bytes(4) + struct.pack("<Q", count), cipher)


class Side:
    """One side of a connection, once its keys are there: `mine` and `theirs` are "in" and "out"."""

    def __init__(self, connection, stream, keys_of_both, mine, theirs):
        self.connection, self.stream, self.keys = connection, stream, keys_of_both
        self.mine, self.theirs, self.sent, self.got = mine, theirs, 0, 0
        self.heard = []

    def line(self, text):
        line = sealed(self.keys["tags " + self.mine], self.keys["cipher " + self.mine], self.sent, text)
        self.sent += 1
        return line + b"\n"

    def say(self, text):
        self.stream.write(self.line(text))
        self.stream.flush()

    def hear(self):
        """The next line, of which a text may have several; None at the end. A line that isn't sealed ends with
        ValueError."""
        if not self.heard:
            line = self.stream.readline()
            if not line.endswith(b"\n"):
                return None
            text = opened(self.keys["tags " + self.theirs], self.keys["cipher " + self.theirs], self.got, line[:-1])
            if text is None:
                raise ValueError(line)
            self.got += 1
            self.heard = text.split(b"\n")
        return self.heard.pop(0)


def secret_of(keyfile, name):
    """The secret of the first key under a name."""
    for line in open(keyfile, encoding="ascii"):
        words = line.split()
        if len(words) == 3 and words[0] == name:
            return bytes.fromhex(words[2])
    sys.exit("no key has the name")


def address_of(word):
    host, _, port = word.rpartition(":")
    return (host or "127.0.0.1", int(port))


def greeting_of(secret, site, nonce):
    return b"key 1 %d %s %s" % (site, tag(secret, LABELS["id"])[:8].hex().encode(), nonce.hex().encode())


def dialed(address, secret):
    """A connection whose first lines were exchanged, or None where the answer is a refusal or the end."""
    connection = socket.create_connection(address, 10)
    stream = connection.makefile("rwb")
    greeting = greeting_of(secret, 0, os.urandom(16))
    stream.write(greeting + b"\n")
    stream.flush()
    words = stream.readline().rstrip(b"\n").rpartition(b" ")
    if words[0].count(b" ") != 3:
        return None
    has = keys(secret, greeting, words[0])
    if has["proof"].hex().encode() != words[2]:
        sys.exit("the proof differs")
    return Side(connection, stream, has, "in", "out")


def flipped(line):
    """One bit of the cipher is another one; it stays base64."""
    body = bytearray(base64.b64decode(line))
    body[0] ^= 1
    return base64.b64encode(bytes(body)) + b"\n"


def lies(side, hello):
    """What is written after a true `hello 2` in each lie: `hello` is that line."""
    ready = side.line(b"ready")
    return {
        "a flipped bit": flipped(ready),
        "a repeated line": hello,
        "an early line": side.line(b"ready"),
        "a plain line": b"ready\n",
        "no base64": b"*" * 60 + b"\n",
        "a short line": b"AAAA\n",
        "a line that is cut": ready[:len(ready) // 2] + b"\n",
    }


def ends_unanswered(stream):
    """Whether the connection ends and no further line comes."""
    try:
        return stream.read(1) == b""
    except ConnectionError:
        return True


def told(address, secret, name):
    """Whether a lie ends a connection without an answer."""
    side = dialed(address, secret)
    hello = side.line(b"hello 2")
    side.stream.write(hello)
    side.stream.flush()
    answer = side.stream.readline()
    lie = answer if name == "a reflected line" else lies(side, hello)[name]
    side.stream.write(lie)
    side.stream.flush()
    return ends_unanswered(side.stream)


def cut_off(address, secret):
    """Whether half a line and the end give no answer."""
    side = dialed(address, secret)
    side.say(b"hello 2")
    side.hear()
    side.stream.write(side.line(b"ready")[:20])
    side.stream.flush()
    side.connection.shutdown(socket.SHUT_WR)
    return ends_unanswered(side.stream)


def unknown(address):
    """Whether a key that the site doesn't have is refused with the line that says so."""
    stream = socket.create_connection(address, 10).makefile("rwb")
    stream.write(greeting_of(os.urandom(32), 0, os.urandom(16)) + b"\n")
    stream.flush()
    return stream.readline() == b"no 12 NoKey\n" and ends_unanswered(stream)


def foreign(address, secret):
    """Whether a line under another secret ends a connection whose first line was repeated by who lacks the secret."""
    side = dialed(address, secret)
    side.keys = keys(os.urandom(32), b"", b"")
    side.say(b"hello 2")
    return ends_unanswered(side.stream)


BODY = b'take {"change":7000001,"message":"Sealed\\n","op":"patchset","set":1}'


def truth(address, secret):
    """The answers to `hello 2`, `ready` and a body."""
    side = dialed(address, secret)
    if side is None:
        sys.exit("the site has no such key")
    told = []
    for text in (b"hello 2", b"ready", BODY):
        side.say(text)
        told.append(side.hear())
    print("answers  ", b" | ".join(it or b"(the end)" for it in told).decode()[:200])
    return None not in told


def at_once(address, secret):
    """Whether two lines that are sealed as one text are both answered."""
    side = dialed(address, secret)
    side.say(b"hello 2\nready")
    return side.hear() is not None and side.hear() is not None


def try_all(address, secret):
    """Each check by its name; 1 where one fails."""
    checks = {"the truth": lambda: truth(address, secret), "two lines at once": lambda: at_once(address, secret),
              "a key that isn't there": lambda: unknown(address)}
    for name in ("a flipped bit", "a repeated line", "a reflected line", "an early line", "a plain line", "no base64",
                 "a short line", "a line that is cut"):
        checks[name] = lambda name=name: told(address, secret, name)
    checks["a connection that is cut"] = lambda: cut_off(address, secret)
    checks["another key's line"] = lambda: foreign(address, secret)
    bad = 0
    for name, check_one in checks.items():
        good = check_one()
        print("as wanted" if good else "DIFFERS  ", name)
        bad += not good
    return 1 if bad else 0


def answer_one(connection, secret):
    """A site's side, for --own: it answers each text with `ok` and the text."""
    with connection, connection.makefile("rwb") as stream:
        greeting = stream.readline().rstrip(b"\n")
        if greeting.split(b" ")[3:4] != [tag(secret, LABELS["id"])[:8].hex().encode()]:
            stream.write(b"no 12 NoKey\n")
            return
        reply = b"key 1 1 " + os.urandom(16).hex().encode()
        has = keys(secret, greeting, reply)
        stream.write(reply + b" " + has["proof"].hex().encode() + b"\n")
        stream.flush()
        side = Side(connection, stream, has, "out", "in")
        try:
            while (text := side.hear()) is not None:
                side.say(b"ok " + text)
        except ValueError:
            return


def own():
    """The same checks, of an answerer of this program's own."""
    secret = os.urandom(32)
    listener = socket.create_server(("127.0.0.1", 0))

    def serve():
        while True:
            connection, _ = listener.accept()
            threading.Thread(target=answer_one, args=(connection, secret), daemon=True).start()

    threading.Thread(target=serve, daemon=True).start()
    return try_all(listener.getsockname(), secret)


def rows():
    secret = bytes(range(1, 33))
    nonce_in = bytes(range(16))
    nonce_out = bytes(range(240, 256))
    name = tag(secret, LABELS["id"])[:8]
    greeting = b"key 1 2 " + name.hex().encode() + b" " + nonce_in.hex().encode()
    reply = b"key 1 1 " + nonce_out.hex().encode()
    has = keys(secret, greeting, reply)
    print("secret  ", secret.hex())
    print("greeting", greeting.decode())
    print("answer  ", (reply + b" " + has["proof"].hex().encode()).decode())
    texts = [b"hello 2", b"front {\"reach\":[]}", b"x" * 100]
    for direction in ("in", "out"):
        for count, text in enumerate(texts):
            line = sealed(has["tags " + direction], has["cipher " + direction], count, text)
            print(direction.ljust(8), line.decode())



def main(words):
    check()
    if words == ["--own"]:
        return own()
    if len(words) == 3:
        return try_all(address_of(words[0]), secret_of(words[1], words[2]))
    return rows()


if __name__ == "__main__":
    sys.exit(main(sys.argv[1:]))
