"""What people do with a Gerrit that is played: for bench/gerrit."""

from gerrit_play import BASE, LABELS, YEAR, Account, Change, Gerrit

PROJECTS = ["tools", "zuul/jobs", "docs"]
ZUUL = Account("Zuul", "zuul", "zuul@example.org")
# One of them has no username, and one has that of the record's reserved voter.
PEOPLE = [
    Account("Ann", "ann", "ann@example.org"),
    Account("Bob", "bob"),
    Account("Eve", None, "eve@example.org"),
    Account("Dan", "dan", "dan@example.org"),
    Account("Gerrit", "gerrit", "gerrit@example.org"),
]
# How often each deed is done, of all.
WEIGHTS = {
    "start": 12,
    "stack": 10,
    "rework": 7,
    "reword": 3,
    "rebase": 6,
    "approve": 40,
    "vote": 8,
    "comment": 5,
    "comment_older": 4,
    "withdraw": 4,
    "delete_vote": 3,
    "delete_reviewer": 2,
    "wip": 3,
    "private": 2,
    "topic": 2,
    "abandon": 2,
    "restore": 2,
    "delete": 2,
    "merge": 5,
    "push": 1,
}


class Life:
    """Deeds at random. What can't be done at the moment isn't."""

    def __init__(self, gerrit: Gerrit):
        self.gerrit, self.dice = gerrit, gerrit.dice
        self.counts = dict.fromkeys(WEIGHTS, 0)

    def begin(self, changes: int) -> None:
        """What was there before anybody listened: changes that were merged long ago, and open ones on top of some."""
        for _ in range(changes // 4):
            change = self.gerrit.create(self.dice.choice(PROJECTS), self.dice.choice(PEOPLE), self.message())
            self.gerrit.merge(change, ZUUL, False)
            change.updated -= YEAR
            if self.dice.random() < 0.5:
                self.gerrit.create(change.project, change.owner, self.message(), change.current.revision)
        for _ in range(changes):
            self.act()

    def act(self) -> None:
        """One deed."""
        name = self.dice.choices(list(WEIGHTS), list(WEIGHTS.values()))[0]
        with self.gerrit.lock:
            self.counts[name] += getattr(self, name)() is not None

    # ---- choices

    def changes(self, status: str = "NEW") -> list:
        return [change for change in self.gerrit.changes.values() if change.status == status]

    def change(self, status: str = "NEW") -> Change | None:
        found = self.changes(status)
        return self.dice.choice(found) if found else None

    def person(self) -> Account:
        return self.dice.choice(PEOPLE)

    def message(self, own: int = 0) -> str:
        """A message with some footers: of changes that are open, merged, deleted or not there at all."""
        lines = [f"Alter line {self.dice.randint(1, 999)}", ""]
        known = list(self.gerrit.changes) + list(self.gerrit.deleted)
        for _ in range(self.dice.choice([0, 0, 0, 0, 0, 1, 1, 2])):
            number = self.dice.choice(known) if known and self.dice.random() < 0.95 else self.dice.randint(1, 999)
            form = self.dice.choice(["", "c/tools/+/", "#/c/"])
            lines.append(f"Depends-On: {BASE}{form}{number}")
        if own and self.dice.random() < 0.3:
            lines.append(f"Depends-On: {BASE}{own}")
        return "\n".join(lines)

    # ---- deeds, each of which answers None where it can't be done

    def start(self):
        flags = {"is_wip": self.dice.random() < 0.1, "is_private": self.dice.random() < 0.05}
        return self.gerrit.create(self.dice.choice(PROJECTS), self.person(), self.message(), **flags)

    def stack(self):
        """A change on top of another, mostly on its newest patch set."""
        below = self.change() if self.dice.random() < 0.8 else self.change("MERGED")
        if below is None:
            return None
        patch = below.current if self.dice.random() < 0.85 else self.dice.choice(below.patch_sets)
        return self.gerrit.create(below.project, self.person(), self.message(below.number), patch.revision)

    def patched(self, kind: str, message: str | None, parent: str | None):
        change = self.change()
        if change is None:
            return None
        text = change.current.message if message is None else f"{message}\nChange-Id: {change.key}\n"
        above = self.gerrit.children_of(change) if self.dice.random() < 0.6 else []
        uploader = self.uploader(change)
        self.gerrit.add_patch_set(change, kind, uploader, text, parent or change.current.parent, self.labels())
        for child in above:
            if child.is_open:
                self.gerrit.add_patch_set(
                    child, "TRIVIAL_REBASE", change.owner, child.current.message, change.current.revision
                )
        return change

    def uploader(self, change: Change) -> Account:
        """Who pushes a patch set: its owner, or one who has voted on the one before."""
        voters = [by for _, by in change.current.votes if by in PEOPLE]
        return self.dice.choice(voters) if voters and self.dice.random() < 0.6 else change.owner

    def labels(self) -> dict:
        """What a push sets: nothing mostly, and never what takes a vote back."""
        return {"Workflow": 1} if self.dice.random() < 0.4 else {}

    def rework(self):
        return self.patched("REWORK", self.message() if self.dice.random() < 0.4 else None, None)

    def reword(self):
        return self.patched("NO_CODE_CHANGE", self.message(), None)

    def rebase(self):
        """Onto the newest patch set of the parent, or onto the branch where there is none that is open."""
        change = self.change()
        if change is None:
            return None
        place = self.gerrit.parent_of(change)
        on_parent = place is not None and place[0].is_open
        parent = place[0].current.revision if on_parent else self.gerrit.tips[change.project]
        kind = self.dice.choice(["TRIVIAL_REBASE", "TRIVIAL_REBASE", "REWORK"])
        message = change.current.message
        return self.gerrit.add_patch_set(change, kind, self.uploader(change), message, parent, self.labels())

    def approve(self):
        """All votes that a gate asks for, one after the other, as people and Zuul give them."""
        change = self.change()
        if change is None:
            return None
        reviewer = self.dice.choice(PEOPLE[:4])
        for voter, votes in [(ZUUL, {"Verified": 1}), (reviewer, {"Code-Review": 2, "Workflow": 1})]:
            self.gerrit.comment(change, change.current, voter, votes)
        return change

    def vote(self):
        change, label = self.change(), self.dice.choice(list(LABELS))
        if change is None:
            return None
        voter = ZUUL if label == "Verified" and self.dice.random() < 0.8 else self.person()
        low, high = LABELS[label]
        self.gerrit.comment(change, change.current, voter, {label: self.dice.randint(low, high)})
        return change

    def comment(self):
        change = self.change() or self.change("MERGED")
        return change and [self.gerrit.comment(change, change.current, self.person(), {})]

    def comment_older(self):
        """On an older patch set, with a vote there or without."""
        change = self.change()
        if change is None or len(change.patch_sets) < 2:
            return None
        votes = {"Code-Review": self.dice.randint(-2, 2)} if self.dice.random() < 0.5 else {}
        return [self.gerrit.comment(change, self.dice.choice(change.patch_sets[:-1]), self.person(), votes)]

    def voted(self):
        """An open change, and a vote on its current patch set."""
        found = [(change, slot) for change in self.changes() for slot in change.current.votes]
        return self.dice.choice(found) if found else None

    def withdraw(self):
        found = self.voted()
        return found and [self.gerrit.comment(found[0], found[0].current, found[1][1], {found[1][0]: 0})]

    def delete_vote(self):
        found = self.voted()
        return found and [self.gerrit.delete_vote(found[0], *found[1], self.person())]

    def delete_reviewer(self):
        found = self.voted()
        return found and [self.gerrit.delete_reviewer(found[0], found[1][1], self.person())]

    def turned(self, what: str):
        change = self.change()
        return change and [self.gerrit.turn(change, what, change.owner)]

    def wip(self):
        return self.turned("wip")

    def private(self):
        return self.turned("private")

    def topic(self):
        return self.turned("topic")

    def abandon(self):
        change = self.change()
        return change and [self.gerrit.abandon(change, self.person())]

    def restore(self):
        change = self.change("ABANDONED")
        return change and [self.gerrit.restore(change, self.person())]

    def delete(self):
        change = self.change() or self.change("ABANDONED")
        return change and [self.gerrit.delete(change, change.owner)]

    def merge(self):
        """One whose parent is merged as it is, or has none; the jobs' project picks what it merges."""
        found = [change for change in self.changes() if self.may_merge(change)]
        if not found:
            return None
        change = self.dice.choice(found)
        return [self.gerrit.merge(change, ZUUL, change.project == "zuul/jobs")]

    def may_merge(self, change: Change) -> bool:
        place = self.gerrit.parent_of(change)
        return place is None or (place[0].status == "MERGED" and place[1] is place[0].current)

    def push(self):
        """Somebody pushes past the review: no change has that revision."""
        project = self.dice.choice(PROJECTS)
        old, new = self.gerrit.tips.get(project), self.gerrit.revision()
        self.gerrit.tips[project] = new
        update = {"oldRev": old or "0" * 40, "newRev": new, "refName": "refs/heads/main", "project": project}
        self.gerrit.emit("ref-updated", None, submitter=self.person().attribute(), refUpdate=update)
        return update
