"""A plain model of reviewgate, written from docs/RULES.md and docs/FORMATS.md alone: for bench/fuzz.

It is as short as can be and slow. Texts are bytes, since that is what the program reads and compares.
"""

import json
import re
from dataclasses import dataclass, field, replace

TOP_U64 = 2**64 - 1
TOP_U32 = 2**32 - 1
KINDS = {
    "patchset": (["change", "message", "set"], ["parent"]),
    "vote": (["change", "label", "set", "value", "voter"], []),
    "withdraw": (["change", "label", "set", "voter"], []),
    "abandon": (["change"], []),
    "restore": (["change"], []),
    "merged": (["change"], []),
}
RANKS = ["patchset", "vote", "withdraw", "abandon", "restore", "merged"]
STAMP = {"time": (0, TOP_U64), "site": (0, 65535), "start": (0, TOP_U32), "seq": (1, TOP_U64)}
RANGES = dict(STAMP, change=(0, TOP_U32), set=(0, TOP_U32), parent=(0, TOP_U32), value=(-128, 127))


class Refused(Exception):
    """What a text or a call is refused with, as it is printed."""


# ---- JSON, as serde_json reads and writes it


class Fraction(float):
    """A number that is no whole one."""


def whole(digits: str):
    if digits == "-0":
        return Fraction(0)
    return real(digits) if float(digits) in (float("inf"), -float("inf")) else int(digits)


def real(digits: str):
    value = float(digits)
    if value in (float("inf"), -float("inf")):
        raise ValueError("out of range")
    return Fraction(value)


def constant(word: str):
    raise ValueError(word)


def depth(text: str) -> int:
    deepest = now = 0
    for char in re.sub(r'"(?:[^"\\]|\\.)*"', "", text, flags=re.S):
        now += (char in "[{") - (char in "]}")
        deepest = max(deepest, now)
    return deepest


def read_json(data: bytes):
    """The value, or ValueError."""
    text = data.decode()
    if depth(text) > 127:
        raise ValueError("deep")
    value = json.loads(text, parse_int=whole, parse_float=real, parse_constant=constant)
    json.dumps(value, ensure_ascii=False).encode()
    return value


def compact(value) -> bytes:
    return json.dumps(value, ensure_ascii=False, sort_keys=True, separators=(",", ":")).encode()


def is_whole(value, low: int, high: int) -> bool:
    return type(value) is int and low <= value <= high


# ---- operations


@dataclass(frozen=True)
class Deed:
    kind: str
    change: int
    set: int = 0
    message: bytes = b""
    parent: int | None = None
    label: bytes = b""
    voter: bytes = b""
    value: int = 0

    def key(self):
        fields = {
            "patchset": (self.set, self.message, -1 if self.parent is None else self.parent),
            "vote": (self.set, self.label, self.voter, self.value),
            "withdraw": (self.set, self.label, self.voter),
        }
        return (RANKS.index(self.kind), self.change) + fields.get(self.kind, ())

    def body(self) -> dict:
        names = [name for name in KINDS[self.kind][0]]
        value = {name: getattr(self, name) for name in names}
        if self.parent is not None:
            value["parent"] = self.parent
        return {"op": self.kind} | {k: v.decode() if isinstance(v, bytes) else v for k, v in value.items()}


@dataclass(frozen=True)
class Op:
    time: int
    site: int
    start: int
    seq: int
    deed: Deed

    def stamp(self):
        return (self.time, self.site, self.start, self.seq)

    def key(self):
        return (self.stamp(), self.deed.key())

    def text(self) -> bytes:
        return compact(self.deed.body() | dict(time=self.time, site=self.site, start=self.start, seq=self.seq))


def accepted(key: str, value) -> bool:
    return is_whole(value, *RANGES[key]) if key in RANGES else isinstance(value, str)


def read_object(data: bytes, stamped: bool) -> dict:
    """The members of a body or an operation, with the first of their faults."""
    try:
        value = read_json(data)
    except (ValueError, RecursionError):
        raise Refused("1 NotJson") from None
    if not isinstance(value, dict):
        raise Refused("1 NotJson")
    kind = value.get("op")
    if not isinstance(kind, str) or kind not in KINDS:
        raise Refused("2 BadShape op")
    required, optional = KINDS[kind]
    required = required + ["op"] + (list(STAMP) if stamped else [])
    for key in sorted(set(value) | set(required), key=str.encode):
        if key not in value or key not in required + optional or not accepted(key, value[key]):
            raise Refused(f"2 BadShape {key}")
    return value


def deed_of(value: dict) -> Deed:
    names = [name for name in Deed.__dataclass_fields__ if name != "kind" and name in value]
    fields = {name: value[name].encode() if isinstance(value[name], str) else value[name] for name in names}
    return Deed(value["op"], **fields)


def checked(deed: Deed) -> Deed:
    """The deed as it is kept, or the name of its first fault."""
    names = KINDS[deed.kind][0]
    faults = [
        ("BadChange", deed.change == 0),
        ("BadSet", "set" in names and deed.set == 0),
        ("BadLabel", "label" in names and not re.fullmatch(rb"[A-Za-z0-9-]{1,64}", deed.label)),
        ("BadVoter", "voter" in names and not re.fullmatch(rb"[\x21-\x7e]{1,64}", deed.voter)),
        ("LongMessage", len(deed.message) > 65536),
        ("BadParent", deed.parent == 0),
    ]
    for name, is_so in faults:
        if is_so:
            raise Refused(name)
    return Deed(**(deed.__dict__ | {"label": deed.label.lower()}))


def read_op(data: bytes) -> Op:
    value = read_object(data, True)
    try:
        deed = checked(deed_of(value))
    except Refused as cause:
        raise Refused(f"3 BadBody {cause}") from None
    return Op(value["time"], value["site"], value["start"], value["seq"], deed)


def read_front(data: bytes) -> dict:
    try:
        value = read_json(data)
    except (ValueError, RecursionError):
        raise Refused("1 NotJson") from None
    if not isinstance(value, list):
        raise Refused("1 NotJson")
    front = {}
    for row in value:
        ranges = [(0, 65535), (0, TOP_U32), (0, TOP_U64)]
        if not isinstance(row, list) or len(row) != 3 or not all(is_whole(n, *r) for n, r in zip(row, ranges)):
            raise Refused("2 BadShape front")
        site, start, seq = row
        front[site, start] = max(seq, front.get((site, start), 0))
    return {row: seq for row, seq in front.items() if seq}


def front_text(front: dict) -> bytes:
    return compact([[site, start, seq] for (site, start), seq in sorted(front.items())])


# ---- a record


@dataclass
class Record:
    ops: dict = field(default_factory=dict)
    time: int = 0  # the greatest of all
    seqs: dict = field(default_factory=dict)  # the greatest of each site and start

    def take(self, op: Op) -> bool:
        """Whether the operation is new; the order of arrival is that of the keys."""
        is_new = op not in self.ops
        self.ops.setdefault(op)
        self.time = max(self.time, op.time)
        self.seqs[op.site, op.start] = max(op.seq, self.seqs.get((op.site, op.start), 0))
        return is_new

    def copy(self):
        return Record(dict(self.ops), self.time, dict(self.seqs))

    def front(self) -> dict:
        rows = {}
        for op in self.ops:
            rows.setdefault((op.site, op.start), set()).add(op.seq)
        front = {}
        for row, seqs in rows.items():
            reach = 0
            while reach + 1 in seqs:
                reach += 1
            if reach:
                front[row] = reach
        return front

    def missing(self, front: dict) -> list:
        lacked = [op for op in self.ops if op.seq > front.get((op.site, op.start), 0)]
        return sorted(lacked, key=lambda op: (op.site, op.start, op.seq, op.time, op.deed.key()))

    def is_spent(self, site: int, start: int) -> bool:
        return TOP_U64 in (self.time, self.seqs.get((site, start), 0))

    def next_op(self, site: int, start: int, deed: Deed) -> Op:
        return Op(self.time + 1, site, start, self.seqs.get((site, start), 0) + 1, deed)


class State:
    """What a record's operations come to."""

    def __init__(self, record: Record):
        self.sets, self.votes, self.lives, self.merged, self.changes = {}, {}, {}, set(), set()
        self.current = {}
        for op in record.ops:
            self.take(op)

    def take(self, op: Op) -> None:
        deed, stamp = op.deed, op.stamp()
        self.changes.add(deed.change)
        if deed.kind == "patchset":
            parent = -1 if deed.parent is None else deed.parent
            self.win(self.sets, (deed.change, deed.set), (stamp, (deed.message, parent)))
            self.current[deed.change] = max(deed.set, self.current.get(deed.change, 0))
        elif deed.kind in ("vote", "withdraw"):
            self.win(self.votes, (deed.change, deed.set, deed.label, deed.voter), (stamp, deed.value))
        elif deed.kind == "merged":
            self.merged.add(deed.change)
        else:
            self.win(self.lives, deed.change, (stamp, deed.kind == "restore"))

    @staticmethod
    def win(registers: dict, slot, write) -> None:
        registers[slot] = max(write, registers.get(slot, write))

    def status(self, change: int) -> str:
        if change in self.merged:
            return "MERGED"
        return "ABANDONED" if change in self.lives and not self.lives[change][1] else "NEW"

    def approvals(self, change: int) -> list:
        now = self.current.get(change)
        found = [
            (slot[2], slot[3], value) for slot, (_, value) in self.votes.items() if slot[:2] == (change, now) and value
        ]
        return sorted(found)

    def text(self) -> bytes:
        lines = []
        for change in sorted(self.changes):
            lines.append(f"change {change} {self.status(change)}".encode())
            if change in self.lives:
                stamp, is_restored = self.lives[change]
                lines.append(f"life {change} {'restored' if is_restored else 'abandoned'} {stamp_text(stamp)}".encode())
            for (_, number), (stamp, (message, parent)) in sorted(
                item for item in self.sets.items() if item[0][0] == change
            ):
                line = f"set {change},{number} {stamp_text(stamp)} ".encode() + compact(message.decode())
                lines.append(line + (b"" if parent < 0 else f" parent {parent}".encode()))
            for (_, number, label, voter), (stamp, value) in sorted(
                item for item in self.votes.items() if item[0][0] == change
            ):
                lines.append(
                    b"vote %d,%d %s %s %d %s" % (change, number, label, voter, value, stamp_text(stamp).encode())
                )
        return b"".join(line + b"\n" for line in lines + [b"end %d" % len(self.changes)])


def stamp_text(stamp) -> str:
    return ",".join(map(str, stamp))


# ---- the gate


def label_rule(key: str) -> bool:
    return re.fullmatch(r"[A-Za-z0-9-]{1,64}", key) is not None


class Gate:
    def __init__(self, data: bytes):
        try:
            value = read_json(data)
        except (ValueError, RecursionError):
            raise Refused("gate 1 NotJson") from None
        if not isinstance(value, dict):
            raise Refused("gate 1 NotJson")
        name = value.get("connection")
        self.connection = name if isinstance(name, str) else "gerrit"
        self.walk(value)
        self.bases = [base.encode() for base in value["bases"]]
        self.cycles = value.get("allow-circular-dependencies", False)
        self.sides = {side: value.get(side, {}).get(self.connection, {}) for side in ("require", "reject")}

    def walk(self, value: dict) -> None:
        """The first fault in the order of the walk."""
        for key in sorted(value, key=str.encode):
            if key == "allow-circular-dependencies":
                self.want(isinstance(value[key], bool), key)
            elif key == "bases":
                self.want_bases(value[key])
            elif key == "connection":
                self.want(isinstance(value[key], str), key)
            elif key in ("require", "reject"):
                self.want(isinstance(value[key], dict), key)
                self.walk_side(value[key])
            else:
                raise Refused(f"gate 2 UnknownKey {key}")
        self.want("bases" in value, "bases")

    @staticmethod
    def want(is_good: bool, key: str) -> None:
        if not is_good:
            raise Refused(f"gate 3 BadValue {key}")

    def want_bases(self, value) -> None:
        """A list of bases; the first item that is none is named by its number, with what it lacks."""
        self.want(isinstance(value, list) and len(value) > 0, "bases")
        for number, base in enumerate(value, 1):
            flaw = "TooMany" if number > 8 else self.flaw_of(base)
            if flaw:
                raise Refused(f"gate 3 BadValue bases {number} {flaw}")

    @staticmethod
    def flaw_of(base) -> str:
        if not isinstance(base, str):
            return "NotText"
        if base == "":
            return "Empty"
        if len(base.encode()) > 256:
            return "TooLong"
        if not re.fullmatch(rb"[\x21-\x7e]+", base.encode()):
            return "BadByte"
        return "" if base.endswith("/") else "NoSlash"

    def walk_side(self, side: dict) -> None:
        for key in sorted(side, key=str.encode):
            if key != self.connection:
                raise Refused(f"gate 4 Unsupported {key}")
            self.want(isinstance(side[key], dict), key)
            for clause in sorted(side[key], key=str.encode):
                self.walk_clause(clause, side[key][clause])

    def walk_clause(self, key: str, value) -> None:
        if key in ("open", "current-patchset"):
            self.want(isinstance(value, bool), key)
        elif key == "status":
            names = value if isinstance(value, list) else [value]
            self.want(all(isinstance(name, str) for name in names), key)
        elif key == "approval":
            for pattern in value if isinstance(value, list) else [value]:
                self.want(isinstance(pattern, dict), key)
                self.walk_pattern(pattern)
        elif key in ("wip", "hashtags"):
            raise Refused(f"gate 4 Unsupported {key}")
        else:
            raise Refused(f"gate 2 UnknownKey {key}")

    def walk_pattern(self, pattern: dict) -> None:
        for key in sorted(pattern, key=str.encode):
            value = pattern[key]
            if key == "username":
                self.want(isinstance(value, str), key)
            elif key in ("email", "older-than", "newer-than"):
                raise Refused(f"gate 4 Unsupported {key}")
            elif label_rule(key):
                votes = value if isinstance(value, list) else [value]
                self.want(all(is_whole(vote, -128, 127) for vote in votes), key)
            else:
                raise Refused(f"gate 2 UnknownKey {key}")

    def own(self, state: State, item) -> str | None:
        """The item's own condition."""
        change, number = item
        for side in ("require", "reject"):
            conditions = self.sides[side]
            holds = []
            if "open" in conditions:
                holds.append(("open", (state.status(change) == "NEW") == conditions["open"]))
            if "current-patchset" in conditions:
                holds.append(("current-patchset", (state.current[change] == number) == conditions["current-patchset"]))
            if "status" in conditions:
                names = conditions["status"]
                holds.append(("status", state.status(change) in (names if isinstance(names, list) else [names])))
            patterns = conditions.get("approval", [])
            for place, pattern in enumerate(patterns if isinstance(patterns, list) else [patterns], 1):
                holds.append(
                    (f"approval {place}", any(takes(pattern, approval) for approval in state.approvals(change)))
                )
            for words, is_so in holds:
                if is_so != (side == "require"):
                    return f"{side} {words}"
        return None


def takes(pattern: dict, approval) -> bool:
    label, voter, value = approval
    labels = [key for key in pattern if key != "username"]
    if "username" in pattern and pattern["username"].encode() != voter or len(labels) > 1:
        return False
    if not labels:
        return True
    votes = pattern[labels[0]]
    return labels[0].lower().encode() == label and value in (votes if isinstance(votes, list) else [votes])


# ---- footers


NUMBER = re.compile(rb"([0-9]{1,10})(?:/(?:[0-9]{1,10}/?)?)?")
BLANKS = b" \t\r"


def number_of(text: bytes) -> int | None:
    found = NUMBER.fullmatch(text)
    return int(found[1]) if found and 1 <= int(found[1]) <= TOP_U32 else None


def read_under(base: bytes, value: bytes) -> int | None:
    if not value.startswith(base):
        return None
    rest = value[len(base) :]
    project, mark, last = rest[2:].rpartition(b"/+/")
    forms = (
        [rest]
        + [rest[4:]] * rest.startswith(b"#/c/")
        + [last] * (rest.startswith(b"c/") and bool(mark) and bool(project))
    )
    return next((number for form in forms if (number := number_of(form))), None)


def kept_message(message: str) -> tuple[bytes, bool]:
    """A message, or the first footers of a longer one, as many as fit; and whether others are lost."""
    text = message.encode()
    if len(text) <= 65536:
        return text, False
    kept = b""
    for line in text.split(b"\n"):
        if line.lower().startswith(b"depends-on:"):
            if len(kept) + len(line) + 1 > 65536:
                return kept, True
            kept += line + b"\n"
    return kept, False


def footers(bases: list, own: int, message: bytes):
    """The changes that a message needs, in order, and the values that it ignores."""
    needs, ignored = set(), []
    for line in message.split(b"\n"):
        word, colon, value = line.partition(b":")
        if not colon or word.lower() != b"depends-on":
            continue
        value = value.strip(BLANKS)
        named = next((number for base in bases if (number := read_under(base, value))), None)
        if named is None or named == own:
            ignored.append(value)
        else:
            needs.add(named)
    return sorted(needs), ignored


# ---- judgement


class Judged:
    """The ready items in gate order, and each other one with its refusal."""

    def __init__(self, gate: Gate, state: State):
        self.state, self.items = state, sorted(state.sets)
        self.targets = {item: self.targets_of(gate, item) for item in self.items}
        self.ends = {
            item: [(c, state.current[c]) for c in self.targets[item] if c in state.current] for item in self.items
        }
        self.reach = {item: self.reached(item, self.items) for item in self.items}
        first = {item: self.first_cause(gate, item) for item in self.items}
        ready = {item for item in self.items if first[item] is None}
        while any(end not in ready for item in ready for end in self.ends[item]):
            ready = {item for item in ready if all(end in ready for end in self.ends[item])}
        self.out = {item: first[item] for item in self.items if first[item]}
        ranks = dict.fromkeys(self.out, 0)
        waiting = [item for item in self.items if item not in ready and item not in ranks]
        rank = 0
        while waiting:
            rank += 1
            found = {}
            for item in waiting:
                near = [end[0] for end in self.ends[item] if ranks.get(end) == rank - 1]
                if near:
                    found[item] = f"dependency {min(near)}"
            self.out |= found
            ranks |= dict.fromkeys(found, rank)
            waiting = [item for item in waiting if item not in found]
        self.ready = sorted(ready, key=lambda item: self.place(item, ready))

    def targets_of(self, gate: Gate, item) -> list:
        message, parent = self.state.sets[item][1]
        names = set(footers(gate.bases, item[0], message)[0]) | (
            {parent} if parent > 0 and parent != item[0] else set()
        )
        return sorted(name for name in names if name not in self.state.merged)

    def reached(self, item, within) -> set:
        found, todo = set(), [item]
        while todo:
            for end in self.ends[todo.pop()]:
                if end not in found and end in within:
                    found.add(end)
                    todo.append(end)
        return found

    def first_cause(self, gate: Gate, item) -> str | None:
        if own := gate.own(self.state, item):
            return own
        if not gate.cycles and item in self.reach[item]:
            return "cycle"
        unknown = [change for change in self.targets[item] if change not in self.state.current]
        return f"unknown {unknown[0]}" if unknown else None

    def place(self, item, ready):
        reached = self.reached(item, ready) | {item}
        return (
            len(reached),
            min(other for other in reached if other == item or item in self.reached(other, ready)),
            item,
        )

    def text(self) -> bytes:
        lines = [f"ready {c},{p}" for c, p in self.ready] + [
            f"out {c},{p} {self.out[c, p]}" for c, p in sorted(self.out)
        ]
        return "".join(line + "\n" for line in lines + [f"end {len(self.ready)} {len(self.out)}"]).encode()


def report(gate: Gate, record: Record) -> bytes:
    return Judged(gate, State(record)).text()


# ---- snapshots


def lines_of(text: bytes) -> list:
    lines = text.split(b"\n")
    if not lines[-1]:
        lines.pop()
    return [line.removesuffix(b"\r") for line in lines]


def read_snapshot_file(text: bytes, name: str) -> Record:
    """A snapshot in the file of a name, which a refusal has after what is wrong."""
    try:
        return read_snapshot(text)
    except Refused as cause:
        raise Refused(f"{cause} {name}") from None


def read_snapshot(text: bytes) -> Record:
    lines, record, count = lines_of(text), Record(), 0
    if not lines or lines[0] not in (b"reviewgate 1", b"reviewgate 2"):
        raise Refused("snapshot 1 BadHeader")
    for number, line in enumerate(lines[1:], 2):
        if found := re.fullmatch(rb"end ([0-9]{1,20})", line):
            if int(found[1]) != count:
                raise Refused("snapshot 4 BadCount")
            if number < len(lines):
                raise Refused("snapshot 5 AfterEnd")
            return record
        try:
            record.take(read_op(line))
        except Refused as cause:
            raise Refused(f"snapshot 2 BadLine {number} {str(cause).partition(' ')[2]}") from None
        count += 1
    raise Refused("snapshot 3 NoEnd")


def snapshot(ops) -> bytes:
    lines = [op.text() for op in sorted(set(ops), key=Op.key)]
    return b"".join(line + b"\n" for line in [b"reviewgate 2"] + lines + [b"end %d" % len(lines)])


# ---- journals

HEADER = b"reviewgate 2\n"


def recovered(text: bytes, without=(), until: int = 2**64 - 1) -> bytes:
    """The snapshot of the operations of a journal's whole lines, but for those that are to be left out."""
    if HEADER.startswith(text) and text != HEADER:
        return snapshot([])
    if not text.startswith(HEADER):
        raise Refused("journal 1 BadHeader")
    record = Record()
    for number, line in enumerate(text.split(b"\n")[1:-1], 2):
        try:
            record.take(read_op(line))
        except Refused as cause:
            raise Refused(f"journal 2 BadLine {number} {str(cause).partition(' ')[2]}") from None
    return snapshot([op for op in record.ops if (op.site, op.start) not in without and op.time <= until])


def recover(text: bytes, without=(), until: int = 2**64 - 1):
    """What `recover` prints of a journal, but for the operations of some sites under some starts and those above a time;
    what the error output says, and the status."""
    try:
        printed = recovered(text, without, until)
    except Refused as cause:
        return b"", f"reviewgate: {cause}\n".encode(), 1
    torn = len(text) - (text.rfind(b"\n") + 1)
    return printed, b"reviewgate: journal 6 Torn %d\n" % torn if torn else b"", 0


# ---- sites


def intake(record: Record, site: int, start: int, deed: Deed, spent: str) -> bytes:
    """Takes a body in. Answers the stamp's text; refused as the script or the session says."""
    if record.is_spent(site, start):
        raise Refused(spent)
    op = record.next_op(site, start, checked(deed))
    record.take(op)
    return stamp_text(op.stamp()).encode()


@dataclass
class Site:
    number: int
    record: Record = field(default_factory=Record)
    saved: Record = field(default_factory=Record)
    start: int = 1


class World:
    """A script's sites and packets."""

    def __init__(self, sites: int, gate: Gate | None):
        self.sites = [Site(number) for number in range(1, sites + 1)]
        self.packets, self.gate = [], gate

    def site(self, number: int) -> Site:
        if not 1 <= number <= len(self.sites):
            raise Refused("1 NoSite")
        return self.sites[number - 1]

    def play(self, word: str, first: int, second) -> bytes:
        try:
            return getattr(self, word)(first, second)
        except Refused as cause:
            return f"no {cause}\n".encode()

    def intake(self, number, deed) -> bytes:
        site = self.site(number)
        try:
            return b"ok " + intake(site.record, number, site.start, deed, "4 ClockSpent") + b"\n"
        except Refused as cause:
            raise Refused(str(cause) if " " in str(cause) else "5 BadBody") from None

    def send(self, number, front) -> bytes:
        site = self.site(number)
        front = self.site(front).record.front() if isinstance(front, int) else front
        lacked = site.record.missing(front)
        self.packets.append(lacked[:256])
        return b"packet %d %d %s\n" % (len(self.packets), len(lacked[:256]), b"more" if len(lacked) > 256 else b"done")

    def deliver(self, packet, number) -> bytes:
        site = self.site(number)
        if not 1 <= packet <= len(self.packets):
            raise Refused("2 NoPacket")
        return b"took %d\n" % sum(site.record.take(op) for op in self.packets[packet - 1])

    def save(self, number, _) -> bytes:
        self.site(number).saved = self.site(number).record.copy()
        return b"saved\n"

    def restart(self, number, start) -> bytes:
        site = self.site(number)
        if start <= site.start:
            raise Refused("3 StartUsed")
        site.start, site.record = start, site.saved.copy()
        return b"restarted\n"

    def state(self, number, _) -> bytes:
        return State(self.site(number).record).text()

    def front(self, number, _) -> bytes:
        return front_text(self.site(number).record.front()) + b"\n"

    def ready(self, number, _) -> bytes:
        return report(self.gate, self.site(number).record)


def digits(text: bytes, most: int) -> int:
    if not re.fullmatch(rb"[0-9]{1,20}", text) or int(text) > most:
        raise Refused("BadLine")
    return int(text)


def step_of(line: bytes, has_gate: bool):
    """What a line of a script plays."""
    word, _, rest = line.partition(b" ")
    first, blank, last = rest.partition(b" ")
    if word == b"intake" and blank:
        return "intake", digits(first, 65535), deed_of(read_object(last, False))
    if word == b"send" and blank:
        site = digits(first, 65535)
        return "send", site, digits(last[1:], 65535) if last.startswith(b"@") else read_front(last)
    if word == b"deliver" and blank:
        return "deliver", digits(first, TOP_U64), digits(last, 65535)
    if word == b"restart" and blank:
        return "restart", digits(first, 65535), digits(last, TOP_U32)
    if word in (b"save", b"state", b"front") or word == b"ready" and has_gate:
        return word.decode(), digits(rest, 65535), None
    raise Refused("BadLine")


def simulate(script: bytes, gate: Gate | None):
    """What a script prints, and what it is refused with."""
    world, printed = None, b""
    for number, line in enumerate(lines_of(script), 1):
        if not line or line.startswith(b"#"):
            continue
        try:
            if world is None:
                if not line.startswith(b"sites ") or not 1 <= digits(line[6:], 64):
                    raise Refused("BadSites")
                world = World(digits(line[6:], 64), gate)
                continue
            step = step_of(line, gate is not None)
        except Refused:
            return printed, "script 1 BadSites" if world is None else f"script 2 BadLine {number}"
        printed += world.play(*step)
    return (printed, None) if world else (b"", "script 1 BadSites")


# ---- sessions


class Session:
    """What a site answers line by line."""

    def __init__(self, record: Record, gate: Gate, site: int, start: int):
        self.record, self.gate, self.site, self.start = record, gate, site, start

    def talk(self, text: bytes) -> bytes:
        answers, is_first = b"", True
        for line in text.split(b"\n")[:-1]:
            line = line.removesuffix(b"\r")
            if len(line) > 524288:
                return answers + b"no 1 LongLine\n"
            answer, goes_on = self.first(line) if is_first else self.answer(line)
            answers, is_first = answers + answer, False
            if not goes_on:
                break
        return answers

    def first(self, line: bytes):
        return (b"hello 2\n", True) if line == b"hello 2" else (b"no 2 BadVersion\n", False)

    def answer(self, line: bytes):
        if line == b"quit":
            return b"bye\n", False
        if line.startswith(b"hello "):
            return self.first(line)
        if line == b"ready":
            return report(self.gate, self.record), True
        if line == b"state":
            return State(self.record).text(), True
        try:
            if line.startswith(b"take "):
                return self.take(line[5:]), True
            if line.startswith(b"front "):
                lacked = self.record.missing(read_front(line[6:]))
                ops = b"".join(b"op " + op.text() + b"\n" for op in lacked[:256])
                return ops + (b"more\n" if len(lacked) > 256 else b"done\n"), True
        except Refused:
            return b"no 7 BadText\n", True
        return b"no 6 BadCommand\n", True

    def take(self, body: bytes) -> bytes:
        deed = deed_of(read_object(body, False))
        try:
            return b"ok " + intake(self.record, self.site, self.start, deed, "9 ClockSpent") + b"\n"
        except Refused as cause:
            return b"no 9 ClockSpent\n" if str(cause) == "9 ClockSpent" else b"no 8 BadBody\n"


# ---- Gerrit's events


MISSING, DROPPED = object(), object()
VOTED = {"comment-added": "author", "vote-deleted": "reviewer", "reviewer-deleted": "reviewer"}
TURNS = {
    "change-abandoned": "abandon",
    "change-deleted": "abandon",
    "change-restored": "restore",
    "change-merged": "merged",
}
TURNED = {"wip-state-changed": "wip", "private-state-changed": "private"}
STATUSES = {"NEW": "restore", "ABANDONED": "abandon", "MERGED": "merged"}
BODY_KEYS = {"BadLabel": "type", "BadVoter": "username", "LongMessage": "commitMessage"}
RESERVED = b"gerrit"
MARKS = {"wip": b"work-in-progress", "private": b"private", "outdated": b"outdated-parent"}


@dataclass(frozen=True)
class Shown:
    """A patch set that an event shows, or that there is no vote: it says nothing against what is known."""

    deed: Deed


@dataclass(frozen=True)
class Listed:
    """All who voted on a patch set, by label and voter."""

    change: int
    set: int
    ballots: frozenset


@dataclass
class ParsedLine:
    """What a line is, of which change, and what is found in it. A `part` is event, row, stats, error or None."""

    part: str | None
    change: int | None = None
    has_more: bool = False
    found: list = field(default_factory=list)


def under(value, key: str):
    return value.get(key, MISSING) if isinstance(value, dict) else MISSING


def listed(value) -> list:
    if value is MISSING:
        return []
    return value if isinstance(value, list) else [value]


def number_in(value, low: int = 1, high: int = TOP_U32) -> int | None:
    if isinstance(value, str) and re.fullmatch(r"[+-]?[0-9]+", value):
        value = int(value)
    return value if is_whole(value, low, high) else None


def user_in(account) -> bytes | None:
    username, email = under(account, "username"), under(account, "email")
    if isinstance(username, str):
        return username.encode()
    return f"<{email}>".encode() if isinstance(email, str) else None


class Event:
    """A line's object. What it brings are deeds, and what is lost of it are keys."""

    def __init__(self, value: dict, known: dict):
        self.value, self.known, self.kind = value, known, value.get("type")
        self.is_query = "type" not in value
        self.about = value if self.is_query else under(value, "change")
        self.patch = under(value, "currentPatchSet" if self.is_query else "patchSet")
        self.change, self.set = number_in(under(self.about, "number")), number_in(under(self.patch, "number"))
        self.message, self.revision = under(self.about, "commitMessage"), under(self.patch, "revision")
        project = under(self.about, "project")
        self.project = project if isinstance(project, str) else ""

    def parsed(self, projects: list | None) -> ParsedLine:
        if not self.is_query and not isinstance(self.kind, str):
            return ParsedLine(None, found=["type"])
        part = {"stats": "stats", "error": "error"}.get(self.kind, "row" if self.is_query else "event")
        change = None if part in ("stats", "error") or self.kind == "dropped-output" else self.change
        parsed = ParsedLine(part, change, part == "stats" and under(self.value, "moreChanges") is True)
        parsed.found = self.found() if self.is_fed(projects) else []
        return parsed

    def is_fed(self, projects: list | None) -> bool:
        return projects is None or self.about is MISSING or under(self.about, "project") in projects

    def found(self) -> list:
        if self.kind in ("stats", "error"):
            return []
        if self.kind == "dropped-output":
            return [DROPPED]
        if not self.is_query and self.kind not in {"patchset-created", *VOTED, *TURNS, *TURNED}:
            return self.first()
        if self.change is None:
            return ["number" if self.is_query else "change"]
        if self.kind in TURNS:
            return self.first() + [Deed(TURNS[self.kind], self.change)]
        closing, opening = self.status() if self.is_query else ([], [])
        if self.set is None:
            return closing + ["currentPatchSet" if self.is_query else "patchSet"]
        return closing + self.first() + self.beside() + opening

    def beside(self) -> list:
        """What a line brings beside its patch set."""
        if self.is_query:
            current = self.listing(self.set, under(self.patch, "approvals"), self.marks())
            return current + self.mark_votes() + self.older()
        if self.kind in VOTED:
            return self.votes(self.set, under(self.value, "approvals"))
        if self.kind in TURNED:
            mark = MARKS[TURNED[self.kind]]
            score = -1 if mark in self.marks() else 0
            return [self.ballot(self.set, mark, RESERVED, score)]
        return []

    def first(self) -> list:
        """The patch set, where the line brings it, which is known from then on."""
        is_new = self.kind == "patchset-created"
        if self.change is None or self.set is None or not isinstance(self.message, str):
            return ["commitMessage"] if self.is_query or is_new else []
        if not (self.is_query or is_new) and self.known_as(self.revision) == (self.change, self.set):
            return []
        named = listed(under(self.value, "dependsOn") if self.is_query else under(self.patch, "parents"))
        parents = [parent for parent in map(self.parent, named) if parent is not None]
        lost = len(named) - bool(parents) if self.is_query else len(parents[1:])
        if isinstance(self.revision, str):
            self.known.setdefault((self.project, self.revision), (self.change, self.set))
        message, is_cut = kept_message(self.message)
        deed = Deed("patchset", self.change, self.set, message, parents[0] if parents else None)
        keys = ["commitMessage"] * is_cut + ["dependsOn" if self.is_query else "parents"] * lost
        return [deed if self.is_query else Shown(deed)] + keys + ([] if self.is_query else self.mark_votes())

    def known_as(self, revision):
        return self.known.get((self.project, revision)) if isinstance(revision, str) else None

    def parent(self, named) -> int | None:
        if self.is_query:
            return number_in(under(named, "number"))
        place = self.known_as(named)
        return place and place[0]

    def marks(self) -> list:
        """What Gerrit says beside votes, of a change or of the parents in a row."""
        found = [MARKS[key] for key in ("wip", "private") if under(self.about, key) is True]
        parents = listed(under(self.value, "dependsOn")) if self.is_query else []
        is_outdated = any(under(parent, "isCurrentPatchSet") is False for parent in parents)
        return found + [MARKS["outdated"]] * is_outdated

    def mark_votes(self) -> list:
        return [self.ballot(self.set, mark, RESERVED, -1) for mark in self.marks()]

    def ballot(self, number: int, label: bytes, voter: bytes, score: int) -> Deed:
        kind = "vote" if score else "withdraw"
        return Deed(kind, self.change, number, label=label, voter=voter, value=score)

    def listing(self, number: int, approvals, marks: list) -> list:
        """All who voted on a patch set, and then each vote."""
        ballots = {(mark, RESERVED) for mark in marks}
        for approval in listed(approvals):
            label, voter = under(approval, "type"), user_in(under(approval, "by"))
            if isinstance(label, str) and voter not in (None, RESERVED):
                ballots.add((label.encode().lower(), voter))
        return [Listed(self.change, number, frozenset(ballots))] + self.votes(number, approvals)

    def votes(self, number: int, approvals) -> list:
        return [self.vote(number, approval) for approval in listed(approvals)]

    def vote(self, number: int, approval):
        label, value = under(approval, "type"), under(approval, "value")
        if not isinstance(label, str):
            return "type"
        voter = user_in(under(approval, "by") if self.is_query else under(self.value, VOTED[self.kind]))
        if voter is None:
            return "by" if self.is_query else VOTED[self.kind]
        if voter == RESERVED:
            return "username"
        score = 0 if value is MISSING else number_in(value, -128, 127)
        if score is None:
            return "value"
        ballot = self.ballot(number, label.encode(), voter, score)
        is_said = score or self.is_query or under(approval, "oldValue") is not MISSING
        return ballot if is_said else Shown(ballot)

    def older(self) -> list:
        found = []
        for patch in listed(under(self.value, "patchSets")):
            number = number_in(under(patch, "number"))
            if number is None:
                found.append("patchSets")
            elif number != self.set:
                found += self.listing(number, under(patch, "approvals"), [])
        return found

    def status(self) -> tuple:
        """What a row says first, that its change is closed, and what it says last, that it is open."""
        name = under(self.value, "status")
        if not isinstance(name, str):
            return [], ["status"]
        said = [Deed(STATUSES[name], self.change)] if name in STATUSES else []
        return ([], said) if name == "NEW" else (said, [])


def parse_line(line: bytes, known: dict, projects: list | None = None) -> ParsedLine:
    """What a line is, what it brings, and what is lost of it."""
    try:
        value = read_json(line)
    except (ValueError, RecursionError):
        return ParsedLine(None, found=["line"])
    if not isinstance(value, dict) or len(line) > 67108864:
        return ParsedLine(None, found=["line"])
    parsed = Event(value, known).parsed(projects)
    parsed.found = [settled(found) for found in parsed.found]
    return parsed


def settled(found):
    try:
        if isinstance(found, Shown):
            return Shown(checked(found.deed))
        return checked(found) if isinstance(found, Deed) else found
    except Refused as cause:
        return BODY_KEYS[str(cause)]


# ---- feeds

STREAM, QUERY, COMPLETE = "stream", "query", "complete"


class FeedEnds(Exception):
    """What ends a feed before its source: `line` says whether it was reported with a line already."""


class Feed:
    """A source that is read line by line; subclasses say what is done with what was found."""

    def __init__(self, way: str = STREAM, projects: list | None = None):
        self.way, self.projects = way, projects
        self.known, self.output, self.errors = {}, b"", b""
        self.progress, self.listed, self.is_sure = None, set(), True

    def run(self, text: bytes):
        """What it prints, what it reports, and its status."""
        try:
            *lines, rest = text.split(b"\n")
            for number, line in enumerate(lines, 1):
                self.line(number, line.removesuffix(b"\r"))
            if rest:
                self.is_sure = False
                self.report(len(lines) + 1, "line")
            self.end()
        except FeedEnds as cause:
            return self.output, self.errors + f"reviewgate: events {cause}\n".encode(), 1
        return self.output, self.errors, 0

    def line(self, number: int, line: bytes) -> None:
        parsed = parse_line(line, self.known, self.projects)
        self.is_sure = self.is_sure and not (parsed.part is None or parsed.part == "row" and parsed.change is None)
        self.take_line(number, parsed)
        if parsed.part == "error":
            raise FeedEnds("9 Incomplete")
        if parsed.part == "row":
            self.progress = "open"
            self.listed |= {parsed.change} - {None}
        elif parsed.part == "stats":
            self.progress = "open" if parsed.has_more else "whole"

    def end(self) -> None:
        if self.progress == "open" or self.progress is None and self.way != STREAM:
            raise FeedEnds("9 Incomplete")

    def take_line(self, number: int, parsed: ParsedLine) -> None:
        self.before(parsed)
        for found in self.in_turn(parsed.found):
            if found is DROPPED:
                raise FeedEnds(f"2 Dropped {number}")
            if isinstance(found, str):
                self.report(number, found)
            else:
                self.meet(number, found)

    def report(self, number: int, key: str) -> None:
        self.errors += b"reviewgate: events 1 BadEvent %d %s\n" % (number, key.encode())

    def before(self, parsed: ParsedLine) -> None:
        """What is said of a line before it is met."""

    def in_turn(self, found: list) -> list:
        """What was found in a line, in the order in which it is met."""
        return found

    def meet(self, number: int, found) -> None:
        raise NotImplementedError


class Written(Feed):
    """A feed whose bodies are written."""

    def run(self, text: bytes):
        self.output = b"hello 2\n"
        return super().run(text)

    def meet(self, number: int, found) -> None:
        deed = found.deed if isinstance(found, Shown) else found
        if isinstance(deed, Deed) and (deed is found or deed.kind == "patchset"):
            self.output += b"take " + compact(deed.body()) + b"\n"


class Offered(Feed):
    """A feed of a site's record, of which it keeps the state."""

    def __init__(self, record: Record, site: int, start: int, bases: list | None, *ways):
        super().__init__(*ways)
        self.record, self.site, self.start, self.bases = record, site, start, bases
        self.state, self.held = State(record), []

    def run(self, text: bytes):
        self.output = b"pulled %d\n" % len(self.record.ops)
        return super().run(text)

    def before(self, parsed: ParsedLine) -> None:
        for number in self.asked(parsed):
            is_own = parsed.part == "event" and parsed.change == number
            self.output += b"%s %d\n" % (b"ask" if is_own else b"need", number)

    def asked(self, parsed: ParsedLine) -> list:
        """The changes that have to be queried: that of an event which brings a patch set, restores an abandoned change,
        alters a vote on a patch set that was replaced, shows no vote where the record has one, or of which something
        was lost; what a new patch set of an event, but for the first, may outdate; and what it or that of an open row
        waits for and the record doesn't know.
        """
        patches = [found.deed if isinstance(found, Shown) else found for found in parsed.found]
        patches = [deed for deed in patches if isinstance(deed, Deed) and deed.kind == "patchset"]
        asked = set()
        if parsed.part == "event":
            asked = {child for found in parsed.found for child in self.left_behind(found)}
            patches = [deed for deed in patches if (deed.change, deed.set) not in self.state.sets]
            asked |= {deed.change for deed in patches}
            asked |= {child for deed in patches if deed.set > 1 for child in self.children(deed.change)}
            asked |= {found.change for found in parsed.found if self.is_return(found) or self.is_late(found)}
            asked |= {found.deed.change for found in parsed.found if self.is_doubtful(found)}
            if parsed.change is not None and any(isinstance(found, str) for found in parsed.found):
                asked.add(parsed.change)
        elif Deed("restore", parsed.change or 0) not in parsed.found:
            patches = []
        for deed in patches:
            asked |= {name for name in self.names(deed) if not self.is_known(name)}
        return sorted(asked)

    def left_behind(self, found) -> list:
        """What a patch set that an event shows, but for the first, may outdate, unless it is replaced."""
        if not isinstance(found, Shown) or found.deed.kind != "patchset" or found.deed.set <= 1:
            return []
        is_replaced = found.deed.set < self.state.current.get(found.deed.change, 0)
        return [] if is_replaced else self.children(found.deed.change)

    def is_return(self, found) -> bool:
        is_restore = isinstance(found, Deed) and found.kind == "restore"
        return is_restore and self.state.status(found.change) == "ABANDONED"

    def is_late(self, found) -> bool:
        """A vote, given or taken back, on a patch set that a later one has replaced, which the record doesn't say."""
        is_vote = isinstance(found, Deed) and found.kind in ("vote", "withdraw")
        return is_vote and found.set < self.state.current.get(found.change, 0) and not self.is_recorded(found)

    def is_doubtful(self, found) -> bool:
        """No vote is shown where the record has one."""
        is_unvoted = isinstance(found, Shown) and found.deed.kind == "withdraw"
        return is_unvoted and not self.is_recorded(found.deed)

    def children(self, parent: int) -> list:
        """The open changes whose current patch set has this parent."""
        current = [(change, self.state.sets[change, number][1]) for change, number in self.state.current.items()]
        return [change for change, (_, of) in current if of == parent and self.state.status(change) == "NEW"]

    def names(self, deed: Deed) -> set:
        named = footers(self.bases, deed.change, deed.message)[0] if self.bases is not None else []
        return set(named) | {deed.parent} - {None, deed.change}

    def is_known(self, change: int) -> bool:
        return change in self.state.current or change in self.state.merged

    def take_line(self, number: int, parsed: ParsedLine) -> None:
        """Of an answer what lowers an item and the losses come first; the rest waits until the answer is whole."""
        if self.way == STREAM:
            super().take_line(number, parsed)
            return
        losses = [found for found in parsed.found if isinstance(found, str) or found is DROPPED]
        later = [found for found in parsed.found if not isinstance(found, str) and found is not DROPPED]
        self.held.append((number, replace(parsed, found=later)))
        super().take_line(number, replace(parsed, found=self.lowering(parsed.found) + losses))

    def in_turn(self, found: list) -> list:
        """What lowers an item first, and then all that was found."""
        return self.lowering(found) + found

    def lowering(self, found: list) -> list:
        """What lowers a score of the record, or abandons an open change."""
        deeds = [deed for one in found for deed in (self.brought(one) if isinstance(one, Listed) else [one])]
        return [deed for deed in deeds if isinstance(deed, Deed) and self.lowers(deed)]

    def lowers(self, deed: Deed) -> bool:
        if deed.kind in ("vote", "withdraw"):
            slot = (deed.change, deed.set, deed.label, deed.voter)
            return deed.value < self.state.votes.get(slot, (None, 0))[1]
        return deed.kind == "abandon" and self.state.status(deed.change) == "NEW"

    def meet(self, number: int, found) -> None:
        if isinstance(found, Deed) and found.kind in ("abandon", "restore") and found.change in self.state.merged:
            self.report(number, "status")
            return
        for deed in self.brought(found):
            self.take(deed)

    def brought(self, found) -> list:
        """What brings the record to what was found."""
        if isinstance(found, Listed):
            place = (found.change, found.set)
            votes = [(slot, value) for slot, (_, value) in self.state.votes.items() if slot[:2] == place and value]
            gone = sorted(slot for slot, _ in votes if slot[2:] not in found.ballots)
            return [Deed("withdraw", *place, label=label, voter=voter) for _, _, label, voter in gone]
        if isinstance(found, Shown):
            return [found.deed] if self.is_news(found.deed) else []
        return [] if self.is_recorded(found) else [found]

    def is_news(self, deed: Deed) -> bool:
        """Of a patch set that is known without a parent that is news, of a commit that is the same; of another one all
        is, unless a later one is known, whose message it bears. That there is no vote is none.
        """
        if deed.kind != "patchset":
            return False
        held = self.state.sets.get((deed.change, deed.set))
        if held is None:
            return self.state.current.get(deed.change, 0) < deed.set
        message, parent = held[1]
        return deed.parent is not None and message == deed.message and parent == -1

    def is_recorded(self, deed: Deed) -> bool:
        if deed.kind == "patchset":
            held = self.state.sets.get((deed.change, deed.set))
            return bool(held) and held[1] == (deed.message, -1 if deed.parent is None else deed.parent)
        if deed.kind in ("vote", "withdraw"):
            return self.state.votes.get((deed.change, deed.set, deed.label, deed.voter), (None, 0))[1] == deed.value
        return STATUSES[self.state.status(deed.change)] == deed.kind

    def take(self, deed: Deed) -> None:
        op = self.record.next_op(self.site, self.start, deed)
        self.record.take(op)
        self.state.take(op)

    def end(self) -> None:
        super().end()
        for number, parsed in self.held:
            super().take_line(number, parsed)
        if self.way == COMPLETE:
            if not self.is_sure:
                raise FeedEnds("9 Incomplete")
            open_ones = {change for change in self.state.changes if self.state.status(change) == "NEW"}
            gone = sorted(open_ones - self.listed)
            self.output += b"".join(b"ask %d\n" % change for change in gone)
            for change in gone:
                self.take(Deed("abandon", change))


def events(text: bytes, way: str = STREAM, projects: list | None = None):
    """What a feed without a site prints, what it reports, and its status."""
    return Written(way, projects).run(text)
