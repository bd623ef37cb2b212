#!/usr/bin/env python3
"""events_of.py < SNAPSHOT: the operations of a snapshot as lines of Gerrit's stream of events, in their order, for
speed.
"""
import json, sys

KINDS = {"abandon": "change-abandoned", "restore": "change-restored", "merged": "change-merged"}


def event_of(op):
    change = {"project": "project", "branch": "main", "number": op["change"], "status": "NEW"}
    if op["op"] == "patchset":
        change["commitMessage"] = op["message"]
        return {
            "type": "patchset-created",
            "change": change,
            "patchSet": {"number": op["set"], "revision": "%040x" % (op["change"] << 32 | op["set"]), "parents": []},
        }
    if op["op"] in ("vote", "withdraw"):
        approval = {"type": op["label"], "description": op["label"], "value": str(op.get("value", 0)), "oldValue": "0"}
        return {
            "author": {"name": op["voter"], "username": op["voter"]},
            "approvals": [approval],
            "comment": "Patch Set %d" % op["set"],
            "patchSet": {"number": op["set"]},
            "change": change,
            "type": "comment-added",
            "eventCreatedOn": op["time"],
        }
    return {"type": KINDS[op["op"]], "change": change}


for line in sys.stdin:
    if line.startswith("{"):
        print(json.dumps(event_of(json.loads(line)), separators=(",", ":")))
