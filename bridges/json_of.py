#!/usr/bin/env python3
"""Turns what the program prints into JSON, an object a line.

    ug_main check SESSION | json_of.py check
    ug_main groups CONFIG | json_of.py groups
    ug_main run CONFIG EVENTS DIR | json_of.py run

Each object says in `line` which kind of line it was.
"""
import argparse
import json
import sys


def number(word):
    return int(word) if word.isdigit() else word


def pairs(words):
    """NAME=VALUE words; one without a value is true."""
    return {name: value if sign else True for name, sign, value in (word.partition("=") for word in words)}


def counted(words):
    """Names and numbers by turns."""
    return {name: int(value) for name, value in zip(words[::2], words[1::2])}


def row(words):
    """A route. Lists are lists, segments of the AS path too: a set is an object."""
    fields = pairs(words[1:])
    made = {"line": "row", "prefix": words[0], "id": int(fields["id"]), "next_hop": fields["nh"], "origin": fields["origin"]}
    made["as_path"] = [] if fields["as"] == "-" else [
        {"set": [int(n) for n in part[1:-1].split(",")]} if part.startswith("{") else [int(n) for n in part.split(",")]
        for part in fields["as"].split(";")]
    for name, key in (("med", "med"), ("local_pref", "lp")):
        if key in fields:
            made[name] = int(fields[key])
    if "atomic" in fields:
        made["atomic_aggregate"] = True
    if "agg" in fields:
        asn, _, address = fields["agg"].partition(":")
        made["aggregator"] = {"as": int(asn), "address": address}
    if "originator" in fields:
        made["originator_id"] = fields["originator"]
    for name, key in (("communities", "comm"), ("cluster_list", "clusters")):
        if key in fields:
            made[name] = fields[key].split(",")
    return made


def status(words):
    """The last line of a run that didn't come to its end, or lost a session."""
    made = {"line": "status", "status": int(words[1]), "name": words[2]}
    names = {"config": ("number", "field"), "lost": ("peer", "session"), "malformed": ("cause", "offset")}.get(words[2], ())
    made.update(zip(names, (number(word) for word in words[3:])))
    return made


def checked(words):
    return {"line": "end", **counted(words)} if words[0] == "messages" else row(words)


def grouped(words):
    fields = pairs(words[3:])
    made = {"line": "group", "group": int(words[1]), "kind": words[2]}
    for name, value in fields.items():
        made[name.replace("-", "_")] = {"yes": True, "no": False, "-": None}.get(value, number(value))
    made["peers"] = fields["peers"].split(",")
    return made


def ran(words):
    if words[0] == "line":
        made = {"line": "refused", "number": int(words[1]), "code": int(words[3]), "name": words[4]}
        return made | ({"cause": int(words[5])} if len(words) > 5 else {})
    if words[0] in ("sync", "refresh"):
        return {"line": words[0], "version": int(words[1]), "peer": words[2], "session": int(words[3]), "messages": int(words[4])}
    if words[0] == "lost":
        return {"line": "lost", "peer": words[1], "session": int(words[2])}
    return {"line": "end", **counted(words)}


def object_of(kind, line):
    words = line.split(" ")
    return status(words) if words[0] == "status" else {"check": checked, "groups": grouped, "run": ran}[kind](words)


def main():
    parser = argparse.ArgumentParser(description=__doc__.split("\n")[0])
    parser.add_argument("command", choices=["check", "groups", "run"])
    words = parser.parse_args()
    for line in sys.stdin:
        print(json.dumps(object_of(words.command, line.rstrip("\n"))))


if __name__ == "__main__":
    main()
