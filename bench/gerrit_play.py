"""A Gerrit that is played, after Gerrit's documentation ("stream-events", "JSON Data", "query"): for bench/gerrit.

It has the attributes that Gerrit sends, in Gerrit's order, and leaves out those that Gerrit leaves out: `wip` and
`private` only where true, `approvals` where there are none, zeros in a query. A change's `commitMessage` is that of its
current patch set, also in an event of an older one.
"""

import json
import random
import threading
import time
from dataclasses import dataclass, field

LABELS = {"Code-Review": (-2, 2), "Verified": (-2, 2), "Workflow": (-1, 1)}
BASE = "https://review.example.org/"
YEAR = 365 * 24 * 3600
# Which votes a new patch set of a kind keeps, by the labels' copy conditions; a veto is always kept.
COPIED = {
    "REWORK": (),
    "TRIVIAL_REBASE": ("Code-Review", "Workflow"),
    "NO_CODE_CHANGE": ("Code-Review", "Verified"),
    "NO_CHANGE": ("Code-Review", "Verified", "Workflow"),
}


def compact(value) -> bytes:
    return json.dumps(value, ensure_ascii=False, separators=(",", ":")).encode()


def present(**members) -> dict:
    """An object without the members that Gerrit omits: null, false and empty ones."""
    return {key: value for key, value in members.items() if value not in (None, False, [], {})}


@dataclass(frozen=True)
class Account:
    name: str
    username: str | None = None
    email: str | None = None

    def voter(self) -> str | None:
        """How the record names it."""
        return self.username or (f"<{self.email}>" if self.email else None)

    def attribute(self) -> dict:
        return present(name=self.name, email=self.email, username=self.username)


@dataclass
class PatchSet:
    number: int
    revision: str
    parent: str
    message: str
    kind: str
    uploader: Account
    created: int
    votes: dict = field(default_factory=dict)  # (label, account) to a value, which isn't 0
    copied: set = field(default_factory=set)  # those of them that are copies of votes on the patch set before


@dataclass
class Change:
    number: int
    project: str
    owner: Account
    key: str
    created: int
    updated: float
    status: str = "NEW"
    is_wip: bool = False
    is_private: bool = False
    topic: str | None = None
    patch_sets: list = field(default_factory=list)

    @property
    def current(self) -> PatchSet:
        return self.patch_sets[-1]

    @property
    def is_open(self) -> bool:
        return self.status == "NEW"


class Gerrit:
    """Its changes, and what happens to them. `listeners` are called with each line of the stream of events."""

    def __init__(self, seed: int):
        self.dice = random.Random(f"gerrit {seed}")
        self.lock = threading.RLock()
        self.listeners, self.changes, self.deleted = [], {}, {}
        self.places = {}  # project and revision to the change and the patch set
        self.tips = {}
        self.last_number, self.revisions = 1000, 0

    # ---- what it holds

    def revision(self) -> str:
        self.revisions += 1
        return f"{self.dice.getrandbits(128):032x}{self.revisions:08x}"

    def parent_of(self, change: Change):
        """The change of the Git parent of the current patch set, and that patch set of it, where there is one."""
        return self.places.get((change.project, change.current.parent))

    def children_of(self, change: Change) -> list:
        """The changes whose current patch set is based on one of the change's."""
        found = [(other, self.parent_of(other)) for other in self.changes.values()]
        return [other for other, place in found if place and place[0] is change]

    def is_outdated(self, change: Change) -> bool:
        """The parent is a patch set of another change, which has a newer one."""
        place = self.parent_of(change)
        return place is not None and place[1] is not place[0].current

    # ---- attributes

    def change_attribute(self, change: Change) -> dict:
        return present(
            project=change.project,
            branch="main",
            topic=change.topic,
            id=change.key,
            number=change.number,
            subject=change.current.message.partition("\n")[0],
            owner=change.owner.attribute(),
            url=f"{BASE}c/{change.project}/+/{change.number}",
            commitMessage=change.current.message,
            createdOn=change.created,
            status=change.status,
            private=change.is_private,
            wip=change.is_wip,
        )

    def patch_attribute(self, change: Change, patch: PatchSet) -> dict:
        return present(
            number=patch.number,
            revision=patch.revision,
            parents=[patch.parent],
            ref=reference(change, patch),
            uploader=patch.uploader.attribute(),
            createdOn=patch.created,
            author=change.owner.attribute(),
            kind=patch.kind,
        ) | {"sizeInsertions": 3, "sizeDeletions": 0}

    @staticmethod
    def approvals(patch: PatchSet) -> list:
        return [
            {"type": label, "description": label, "value": str(value), "grantedOn": patch.created, "by": by.attribute()}
            for (label, by), value in patch.votes.items()
        ]

    def row(self, change: Change, options: set) -> dict:
        """A line of a query, by its options."""
        row = self.change_attribute(change)
        if "--commit-message" not in options:
            row.pop("commitMessage")
        row |= {"lastUpdated": int(change.updated), "open": change.is_open}
        if "--dependencies" in options:
            row |= present(dependsOn=self.depends_on(change), neededBy=self.needed_by(change))
        patches = [self.patch_with_approvals(change, patch) for patch in change.patch_sets]
        if "--current-patch-set" in options:
            row["currentPatchSet"] = patches[-1]
        if "--all-approvals" in options:
            row["patchSets"] = patches
        return row

    def patch_with_approvals(self, change: Change, patch: PatchSet) -> dict:
        return self.patch_attribute(change, patch) | present(approvals=self.approvals(patch))

    def depends_on(self, change: Change) -> list:
        place = self.parent_of(change)
        if place is None:
            return []
        return [dependency(*place) | {"isCurrentPatchSet": place[1] is place[0].current}]

    def needed_by(self, change: Change) -> list:
        """The patch sets that are based on the current one."""
        others = [(other, patch) for other in self.changes.values() for patch in other.patch_sets]
        return [dependency(other, patch) for other, patch in others if patch.parent == change.current.revision]

    # ---- events

    def emit(self, kind: str, change: Change | None, patch: PatchSet | None = None, **members) -> None:
        about = {}
        if patch:
            about["patchSet"] = self.patch_attribute(change, patch)
        if change:
            about |= {"change": self.change_attribute(change), "project": change.project}
            about |= {"refName": "refs/heads/main", "changeKey": {"key": change.key}}
        line = compact(members | about | {"type": kind, "eventCreatedOn": int(time.time())})
        for listener in self.listeners:
            listener(line)

    def touch(self, change: Change) -> None:
        change.updated = time.time()

    # ---- deeds

    def create(self, project: str, owner: Account, message: str, parent: str | None = None, **states) -> Change:
        self.last_number += self.dice.choice([1, 1, 2])
        key = f"I{self.dice.getrandbits(160):040x}"
        change = Change(self.last_number, project, owner, key, int(time.time()), time.time(), **states)
        self.changes[change.number] = change
        message = f"{message}\nChange-Id: {key}\n"
        self.add_patch_set(change, "REWORK", owner, message, parent or self.tips.setdefault(project, self.revision()))
        return change

    def add_patch_set(
        self, change: Change, kind: str, uploader: Account, message: str, parent: str, votes: dict | None = None
    ) -> PatchSet:
        """A push, which may set labels: then there is a second event."""
        patch = self.hold_patch_set(change, kind, uploader, message, parent)
        if votes:
            self.set_labels(patch, uploader, votes)
        self.emit("patchset-created", change, patch, uploader=uploader.attribute())
        if votes:
            approvals = [self.pushed(label, votes.get(label, 0)) for label in LABELS]
            text = f"Uploaded patch set {patch.number}."
            self.emit("comment-added", change, patch, author=uploader.attribute(), approvals=approvals, comment=text)
        return patch

    @staticmethod
    def set_labels(patch: PatchSet, by: Account, votes: dict) -> None:
        for label, value in votes.items():
            patch.votes[label, by] = value
            patch.copied.discard((label, by))

    @staticmethod
    def pushed(label: str, value: int) -> dict:
        """What the event of a push has of a label: 0 without an old value unless it set it, whatever was copied."""
        changed = {"oldValue": "0"} if value else {}
        return {"type": label, "description": label, "value": str(value)} | changed

    def hold_patch_set(self, change: Change, kind: str, uploader: Account, message: str, parent: str) -> PatchSet:
        """A new patch set, without an event: a vote that it keeps brings none either."""
        number = len(change.patch_sets) + 1
        patch = PatchSet(number, self.revision(), parent, message, kind, uploader, int(time.time()))
        if change.patch_sets:
            votes = change.current.votes.items()
            patch.votes = {(label, by): value for (label, by), value in votes if is_copied(label, value, kind)}
            patch.copied = set(patch.votes)
        change.patch_sets.append(patch)
        self.places[change.project, patch.revision] = (change, patch)
        self.touch(change)
        return patch

    def comment(self, change: Change, patch: PatchSet, author: Account, votes: dict) -> None:
        """A comment with votes or without: its event lists all labels of its author, also those that stay. What a vote
        on an older patch set alters on later ones no event says.
        """
        approvals = []
        for label in LABELS:
            old = patch.votes.pop((label, author), 0)
            new = votes.get(label, old)
            if new:
                patch.votes[label, author] = new
            if new != old:
                patch.copied.discard((label, author))
                self.copy_vote(change, patch, label, author)
            changed = {"oldValue": str(old)} if new != old else {}
            approvals.append({"type": label, "description": label, "value": str(new)} | changed)
        self.touch(change)
        text = f"Patch Set {patch.number}:"
        self.emit("comment-added", change, patch, author=author.attribute(), approvals=approvals, comment=text)

    @staticmethod
    def copy_vote(change: Change, patch: PatchSet, label: str, by: Account) -> None:
        """Alters the copies of a vote on later patch sets, up to one on which the same account has voted itself."""
        value = patch.votes.get((label, by), 0)
        for later in change.patch_sets[patch.number :]:
            if (label, by) in later.votes.keys() - later.copied:
                return
            later.votes.pop((label, by), None)
            value = value if is_copied(label, value, later.kind) else 0
            if value:
                later.votes[label, by] = value
                later.copied.add((label, by))

    def delete_vote(self, change: Change, label: str, voter: Account, remover: Account) -> None:
        old = change.current.votes.pop((label, voter))
        approval = {"type": label, "description": label, "value": "0", "oldValue": str(old)}
        self.touch(change)
        people = {"reviewer": voter.attribute(), "remover": remover.attribute()}
        self.emit("vote-deleted", change, change.current, **people, approvals=[approval], comment="Removed a vote")

    def delete_reviewer(self, change: Change, voter: Account, remover: Account) -> None:
        """All votes of the reviewer go; the event has those of the current patch set."""
        gone = [(label, value) for (label, by), value in change.current.votes.items() if by == voter]
        for patch in change.patch_sets:
            patch.votes = {slot: value for slot, value in patch.votes.items() if slot[1] != voter}
        approvals = [
            {"type": label, "description": label, "value": "0", "oldValue": str(value)} for label, value in gone
        ]
        self.touch(change)
        about = {"reviewer": voter.attribute(), "remover": remover.attribute()} | present(approvals=approvals)
        self.emit("reviewer-deleted", change, change.current, **about, comment="Removed")

    def turn(self, change: Change, what: str, by: Account) -> None:
        """Changes a state of a change, or its topic."""
        names = {"wip": "wip-state-changed", "private": "private-state-changed", "topic": "topic-changed"}
        if what == "topic":
            change.topic = None if change.topic else "a-topic"
        else:
            setattr(change, f"is_{what}", not getattr(change, f"is_{what}"))
        self.touch(change)
        self.emit(names[what], change, None if what == "topic" else change.current, changer=by.attribute())

    def abandon(self, change: Change, by: Account) -> None:
        change.status = "ABANDONED"
        self.touch(change)
        self.emit("change-abandoned", change, change.current, abandoner=by.attribute(), reason="")

    def restore(self, change: Change, by: Account) -> None:
        change.status = "NEW"
        self.touch(change)
        self.emit("change-restored", change, change.current, restorer=by.attribute(), reason="")

    def delete(self, change: Change, by: Account) -> None:
        del self.changes[change.number]
        self.deleted[change.number] = change
        for patch in change.patch_sets:
            del self.places[change.project, patch.revision]
        self.emit("change-deleted", change, deleter=by.attribute())

    def merge(self, change: Change, by: Account, is_picked: bool) -> None:
        """Merges a change: as it is, or picked onto the branch, which makes a patch set of it that has no event."""
        if is_picked:
            self.hold_patch_set(change, "NO_CHANGE", by, change.current.message, self.tips[change.project])
        change.status, change.is_wip, change.is_private = "MERGED", False, False
        change.current.votes["SUBM", by] = 1
        old, new = self.tips[change.project], change.current.revision
        self.tips[change.project] = new
        self.touch(change)
        update = {"oldRev": old, "newRev": new, "refName": "refs/heads/main", "project": change.project}
        self.emit("ref-updated", None, submitter=by.attribute(), refUpdate=update)
        self.emit("change-merged", change, change.current, submitter=by.attribute(), newRev=new)

    # ---- queries

    def query(self, words: list, limit: int) -> list:
        """The lines of a query's answer."""
        options, start, terms = read_query(words)
        with self.lock:
            began = time.monotonic()
            found = [change for change in self.changes.values() if meets(change, terms)]
            found.sort(key=lambda change: (-change.updated, -change.number))
            page = found[start : start + limit]
            rows = [compact(self.row(change, options)) for change in page]
        stats = {"type": "stats", "rowCount": len(rows), "runTimeMilliseconds": int(1000 * (time.monotonic() - began))}
        return rows + [compact(stats | {"moreChanges": len(found) > start + limit})]


def is_copied(label: str, value: int, kind: str) -> bool:
    """Whether a new patch set of this kind keeps a vote of the one before."""
    return label in COPIED[kind] or value == -2


def reference(change: Change, patch: PatchSet) -> str:
    return f"refs/changes/{change.number % 100:02d}/{change.number}/{patch.number}"


def dependency(change: Change, patch: PatchSet) -> dict:
    return {
        "id": change.key,
        "number": change.number,
        "revision": patch.revision,
        "ref": reference(change, patch),
    }


# ---- the queries that are played: OR over AND over parentheses, NOT, and four operators

UNITS = {"s": 1, "m": 60, "minutes": 60, "h": 3600, "d": 86400}


def read_query(words: list):
    """The options, where the answer begins, and the terms."""
    options, start, terms, rest = set(), 0, [], iter(words)
    for word in rest:
        if word in ("--start", "-S"):
            start = int(next(rest))
        elif word.startswith("--"):
            options.add(word)
        else:
            terms.append(word)
    return options, start, " ".join(terms).replace("(", " ( ").replace(")", " ) ").split()


def meets(change: Change, terms: list) -> bool:
    value, left = any_of(change, terms)
    if left:
        raise ValueError(f"query: {left}")
    return value


def any_of(change: Change, terms: list):
    value, terms = all_of(change, terms)
    while terms and terms[0] == "OR":
        other, terms = all_of(change, terms[1:])
        value = value or other
    return value, terms


def all_of(change: Change, terms: list):
    value = True
    while terms and terms[0] not in ("OR", ")"):
        other, terms = one_of(change, terms)
        value = value and other
    return value, terms


def one_of(change: Change, terms: list):
    word, rest = terms[0], terms[1:]
    if word == "NOT":
        value, rest = one_of(change, rest)
        return not value, rest
    if word == "(":
        value, rest = any_of(change, rest)
        return value, rest[1:]
    return is_met(change, *word.split(":", 1)), rest


def is_met(change: Change, key: str, value: str) -> bool:
    if key == "status":
        return change.is_open if value == "open" else change.status == value.upper()
    if key == "change":
        return change.number == int(value)
    if key == "project":
        return change.project == value
    if key == "age":
        digits = value.rstrip("smhdinute")
        return time.time() - change.updated > int(digits) * UNITS[value[len(digits) :]]
    raise ValueError(f"query: {key}")
