#!/usr/bin/env python3
"""Asks whether what the pages name is there: each file that is named between backticks or by a link, each target of make, and, on
the pages that speak of the code, each name of it. Its last line says how many pages passed and failed.
"""
import pathlib
import re
import subprocess
import sys

OF_CODE = {"PROOFS.md", "ARCHITECTURE.md", "DECISIONS.md", "DEFINITIONS.md"}
PAGES = [*map(pathlib.Path, ["README.md", "CONTRIBUTING.md", "CHANGELOG.md", "bridges/README.md"]), *sorted(pathlib.Path("docs").glob("*.md"))]
FILES = subprocess.run(["git", "ls-files", "-co", "--exclude-standard"], capture_output=True, text=True, check=True).stdout.split()
# The ends of the ways to files and folders, by which a page may name them: `machine.rt`, `specs/Machine.antt`, `ug_groups`.
ENDS = set()
for file in FILES:
    parts = file.split("/")
    for last in range(1, len(parts) + 1):
        ENDS.update("/".join(parts[first:last]) for first in range(last))
# What a build or a run leaves, and what a page writes for any such file.
MADE = re.compile(r"(crates/ug_main/)?out(/.*)?|/.*|\d.*|(.*/)?[A-Z]+(\..*)?(/.*)?|there/.*|.*[*<>%: ].*")
IS_FILE = re.compile(r"[\w.-]+(/[\w.-]+)+/?|[\w-]+\.(rt|antt|sh|py|md|toml|events|tsv|in)")
IS_NAME = re.compile(r"[A-Za-z]\w*((::|\.)[A-Za-z]\w*)*")
TARGETS = set(re.findall(r"^([a-z-]+):", pathlib.Path("Makefile").read_text(), re.M))


def words():
    """All words of the sources and scripts."""
    found = set()
    for file in FILES:
        if not file.endswith(".md") and file.split("/")[0] in ("crates", "oracles", "tests", "bench", "bridges", "examples"):
            found.update(re.findall(r"\w+", pathlib.Path(file).read_text(errors="replace")))
    return found


def lacks(page, known):
    """What the page names that isn't there."""
    text = re.sub(r"^```.*?^```", "", page.read_text(), flags=re.M | re.S)
    for link in re.findall(r"\]\(([^)#]+)(?:#\w*)?\)", text):
        if "://" not in link and not (page.parent / link).exists():
            yield link
    for target in re.findall(r"`make ([a-z-]+)|^    make ([a-z-]+)", text, re.M):
        if not TARGETS & set(target):
            yield "make " + "".join(target)
    for said in re.findall(r"`([^`\n]+)`", text):
        said = said.split()[0] if said.split()[0].endswith((".sh", ".py")) else said
        if IS_FILE.fullmatch(said) and not MADE.fullmatch(said):
            if said.rstrip("/") not in ENDS:
                yield said
        elif page.name in OF_CODE and IS_NAME.fullmatch(said):
            yield from (it for it in re.split(r"::|\.", said) if it not in known and it not in ENDS)


known = words()
failed = 0
for page in PAGES:
    found = sorted(set(lacks(page, known)))
    failed += bool(found)
    if found:
        print(f"{page}: not there: {', '.join(found)}")
print(f"{len(PAGES) - failed} passed, {failed} failed")
sys.exit(failed > 0)
