"""What a record has to say of a Gerrit that is played: for bench/gerrit.

The views of its changes, and which of them Zuul's rules would take under a gate file, from what Gerrit has alone.
"""

import re

import model
from gerrit_play import Change, Gerrit

# The record's own voter says what Gerrit has beside votes; an account of that name is refused.
RESERVED = "gerrit"


class View:
    """A change: its status, and of an open one the current patch set with its message, parent and votes."""

    def __init__(self, status: str, current=None, message=None, parent=None, votes=None):
        self.status, self.current, self.message, self.parent = status, current, message, parent
        self.votes = votes or {}

    def differences(self, other) -> list:
        """What the other one has in place of what this one has."""
        if self.status != "NEW" or other.status != "NEW":
            return [] if self.status == other.status else [f"status {other.status}, not {self.status}"]
        found = [
            f"{name} {getattr(other, name)!r}, not {getattr(self, name)!r}"
            for name in ("current", "message", "parent")
            if getattr(other, name) != getattr(self, name)
        ]
        for slot in sorted(set(self.votes) | set(other.votes)):
            had, has = other.votes.get(slot, 0), self.votes.get(slot, 0)
            if had != has:
                found.append(f"{' '.join(map(str, slot))} {had}, not {has}")
        return found


# ---- Gerrit's truth


def votes_of(gerrit: Gerrit, change: Change) -> dict:
    """The votes by patch set, label and voter: of all patch sets, and the reserved voter's on the current one."""
    votes = {
        (patch.number, label.lower(), voter.voter()): value
        for patch in change.patch_sets
        for (label, voter), value in patch.votes.items()
        if voter.voter() != RESERVED
    }
    flags = {
        "work-in-progress": change.is_wip,
        "private": change.is_private,
        "outdated-parent": gerrit.is_outdated(change),
    }
    return votes | {(change.current.number, label, RESERVED): -1 for label, is_so in flags.items() if is_so}


def view_of(gerrit: Gerrit, change: Change) -> View:
    if not change.is_open:
        return View(change.status)
    place = gerrit.parent_of(change)
    parent = place[0].number if place else None
    return View("NEW", change.current.number, change.current.message, parent, votes_of(gerrit, change))


def truth_of(gerrit: Gerrit, projects: list) -> dict:
    """The views of all changes of the projects; one that was deleted is to be as one that was abandoned."""
    known = {number: view_of(gerrit, change) for number, change in gerrit.changes.items() if change.project in projects}
    gone = {number: View("ABANDONED") for number, change in gerrit.deleted.items() if change.project in projects}
    return known | gone


def ready_in(truth: dict, gate: model.Gate) -> set:
    """The changes that Zuul's rules take: each meets the gate, and what it depends on is merged, or taken with it."""
    needs = {number: needs_of(truth, gate, number) for number, view in truth.items() if view.status == "NEW"}
    taken = {number for number in needs if meets(truth[number], gate)}
    if not gate.cycles:
        taken -= {number for number in taken if is_on_cycle(needs, number)}
    while any(not needs[number] <= taken for number in taken):
        taken = {number for number in taken if needs[number] <= taken}
    return taken


def needs_of(truth: dict, gate: model.Gate, number: int) -> set:
    """What an open change waits for: its parent and what its message names, but for what is merged."""
    view = truth[number]
    named = set(model.footers(gate.bases, number, view.message.encode())[0])
    named |= {view.parent} - {None, number}
    return {other for other in named if other not in truth or truth[other].status != "MERGED"}


def is_on_cycle(needs: dict, number: int) -> bool:
    reached, todo = set(), [number]
    while todo:
        for other in needs.get(todo.pop(), ()):
            if other not in reached:
                reached.add(other)
                todo.append(other)
    return number in reached


def meets(view: View, gate: model.Gate) -> bool:
    """The approvals of the gate; the gates that are played require `open` and `current-patchset`, too."""
    approvals = [
        (label.encode(), voter.encode(), value)
        for (number, label, voter), value in view.votes.items()
        if number == view.current
    ]
    wanted, refused = (patterns(gate.sides[side]) for side in ("require", "reject"))
    return all(any(model.takes(pattern, one) for one in approvals) for pattern in wanted) and not any(
        model.takes(pattern, one) for pattern in refused for one in approvals
    )


def patterns(side: dict) -> list:
    return side.get("approval", [])


def as_streamed(gerrit: Gerrit, truth: dict, record: dict) -> dict:
    """What the stream and the queries of single changes say of the truth: that a patch set is based on a deleted
    change, and what became of the votes on older patch sets, is as the record has it.
    """
    found = {}
    for number, view in truth.items():
        held = record.get(number, View("NEW"))
        is_orphan = view.parent is None and held.parent in gerrit.deleted
        now = {slot: value for slot, value in view.votes.items() if not is_unsaid(slot, view, is_orphan)}
        unsaid = {slot: value for slot, value in held.votes.items() if is_unsaid(slot, view, is_orphan)}
        parent = held.parent if is_orphan else view.parent
        found[number] = View(view.status, view.current, view.message, parent, now | unsaid)
    return found


def is_unsaid(slot, view: View, is_orphan: bool) -> bool:
    return slot[0] != view.current or is_orphan and slot[1:] == ("outdated-parent", RESERVED)


# ---- a record


def record_of(state: str) -> dict:
    """The views of a state text. Of older patch sets only the votes that Gerrit's people gave are looked at."""
    views, last = {}, None
    for line in state.split("\n"):
        if found := re.fullmatch(r"change (\d+) (\w+)", line):
            last = views[int(found[1])] = View(found[2])
        elif found := re.fullmatch(r"set \d+,(\d+) \S+ (.*?)(?: parent (\d+))?", line):
            last.current, last.message = int(found[1]), model.read_json(found[2].encode())
            last.parent = found[3] and int(found[3])
        elif found := re.fullmatch(r"vote \d+,(\d+) (\S+) (\S+) (-?\d+) \S+", line):
            if found[4] != "0":
                last.votes[int(found[1]), found[2], found[3]] = int(found[4])
    for view in views.values():
        view.votes = {
            slot: value for slot, value in view.votes.items() if slot[2] != RESERVED or slot[0] == view.current
        }
    return views


def differences(truth: dict, gate: model.Gate, state: str, report: str) -> list:
    """What a record says otherwise than Gerrit has it, a line each."""
    record, found = record_of(state), []
    for number in sorted(set(truth) | set(record)):
        if number not in truth:
            found += [f"{number}: is in no project that is fed"] * (record[number].status != "MERGED")
        elif number in record:
            found += [f"{number}: {text}" for text in truth[number].differences(record[number])]
        elif truth[number].status == "NEW":
            found.append(f"{number}: is missing")
    return found + ready_differences(truth, gate, report)


def ready_differences(truth: dict, gate: model.Gate, report: str) -> list:
    """What the report says is ready and isn't, what it lacks, and what it has before what it waits for."""
    lines = re.findall(r"^ready (\d+),(\d+)$", report, re.M)
    order = [(int(change), int(number)) for change, number in lines]
    wanted = {(number, truth[number].current) for number in ready_in(truth, gate)}
    found = [f"{change},{number}: is ready, which Zuul wouldn't take" for change, number in set(order) - wanted]
    found += [f"{change},{number}: isn't ready, which Zuul would take" for change, number in wanted - set(order)]
    if gate.cycles:
        return sorted(found)
    places = {change: at for at, (change, _) in enumerate(order)}
    for change in places.keys() & {change for change, _ in wanted}:
        late = [other for other in needs_of(truth, gate, change) if places.get(other, -1) > places[change]]
        found += [f"{change}: is ready before {other}, for which it waits" for other in late]
    return sorted(found)
