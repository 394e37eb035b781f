#!/usr/bin/env python3
"""Tries the wrong bodies of the crates that are named, or of all, several in one check: one in each function, which has to be
refused with an error of its own. A function that waits for another's proof is tried again without that one. It changes the
files of the repository that it runs in, and puts them back: tests/wrong-bodies.sh runs it in a copy.
"""
import pathlib
import re
import subprocess
import sys

CRATES = pathlib.Path("crates")


class Edit:
    """A wrong body: its pairs of texts, each with its file, and the function in which the first of them stands."""

    def __init__(self, path):
        self.name = re.sub(r"\.edit(\.md)?$", "", path.name)
        self.crate = CRATES / path.parent.parent.name
        self.pairs = []
        file = old = None
        for line in path.read_text().splitlines():
            if line.startswith("file: "):
                file = self.crate / line[6:]
            elif line.startswith("old: "):
                old = line[5:]
            elif line.startswith("new: "):
                self.pairs.append((file, old, line[5:]))
        self.file = self.pairs[0][0]
        self.waited = False
        self.function = self.function_of() if self.file.suffix == ".rt" else None

    def function_of(self):
        """The path of the last function that begins before the text, as checks name it without the crate."""
        path = self.module(self.file)
        before = self.file.read_text().partition(self.pairs[0][1])[0]
        starts = re.findall(r"^( *)(?:pub(?:\(\w+\))? )?(?:const )?fn (\w+)", before, re.M)
        if not starts:
            return None
        indent, name = starts[-1]
        if indent:
            params, trait, kind, given = re.findall(
                r"^impl(<.*?>)? (?:(?:\w+::)*(\w+)(?:<.*>)? for )?(\w+)(?:<(\w+)>)?", before, re.M
            )[-1]
            path = path if trait else self.module(self.home_of(kind))
            # Methods for one type's argument alone have it in their name.
            path.append(kind + trait + (f"+{given}" if given and not params and not trait else ""))
        return "::".join([*path, name])

    def module(self, file):
        """The path of the module in a file."""
        path = list(file.relative_to(self.crate / "src").with_suffix("").parts)
        return path[:-1] if path[-1] in ("lib", "main") else path

    def home_of(self, kind):
        """The file in which a type is declared, after which checks name its methods, wherever these stand."""
        declared = re.compile(rf"^(?:pub(?:\(\w+\))? )?(?:struct|enum) {kind}\b", re.M)
        files = [self.file, *sorted((self.crate / "src").rglob("*.rt"))]
        return next((file for file in files if declared.search(file.read_text())), self.file)

    def apply(self):
        """Puts the wrong texts in, if each right one stands there once."""
        texts = {file: file.read_text() for file, _, _ in self.pairs}
        for file, old, new in self.pairs:
            if texts[file].count(old) != 1:
                return False
            texts[file] = texts[file].replace(old, new)
        for file, text in texts.items():
            file.write_text(text)
        return True


def check(batch):
    """Checks the functions of a batch, and what they call, or the whole crate where an edit stands in none."""
    only = [word for edit in batch if edit.function for word in ("--only", edit.function)]
    done = subprocess.run(["rt", "check", *only], cwd=batch[0].crate, capture_output=True, text=True)
    return done.returncode, done.stdout + done.stderr


def verdict(edit, out):
    """What the check says of the edit's function, if it says anything: refused, let through, or that it waits for another."""
    said = re.findall(rf"^fn {edit.crate.name}::{re.escape(edit.function)}: (.*)$", out, re.M)
    if not said:
        return None
    if said[0].startswith("proved"):
        return "LET THROUGH"
    if re.search(r"did not prove|^not proved|expected answers", said[0]):
        return "refused"
    if re.search(r"(which is|which are|are) not proved|which has no proof", said[0]):
        return "waits"
    return "BAD: " + said[0][:100]


def tried(batch):
    """The edits of a batch, each with what came of it."""
    kept = {file: file.read_text() for edit in batch for file, _, _ in edit.pairs}
    applied = [edit for edit in batch if edit.apply()]
    status, out = check(applied)
    for file, text in kept.items():
        file.write_text(text)
    said = {}
    for edit in batch:
        if edit not in applied:
            said[edit] = "waits" if len(batch) > 1 else "BAD: a text doesn't stand there once"
        elif edit.function:
            said[edit] = verdict(edit, out)
        if said.get(edit) is None:
            said[edit] = "waits"
        if said[edit] == "waits" and len(batch) == 1:
            said[edit] = "refused" if re.search(r"^fn .*did not prove", out, re.M) else "BAD: nothing is refused"
    return said


def batch_of(waiting):
    """Of each function one, without those that waited already; or else one alone."""
    batch = {}
    for edit in waiting:
        if edit.function and not edit.waited:
            batch.setdefault(edit.function, edit)
    return list(batch.values()) or waiting[:1]


def main():
    crates = sys.argv[1:] or sorted(folder.parent.name for folder in CRATES.glob("*/must-fail"))
    counts = {"refused": 0}
    for crate in crates:
        waiting = [Edit(path) for path in sorted((CRATES / crate / "must-fail").glob("*.edit*"))]
        while waiting:
            for edit, said in tried(batch_of(waiting)).items():
                if said == "waits":
                    edit.waited = True
                    continue
                waiting.remove(edit)
                counts[said.split(":")[0]] = counts.get(said.split(":")[0], 0) + 1
                print(f"{crate} {edit.name}: {said}", flush=True)
    print(", ".join(f"{count} {what}" for what, count in counts.items()))
    return len(counts) > 1


if __name__ == "__main__":
    sys.exit(main())
