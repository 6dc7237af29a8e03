#!/usr/bin/env python3
"""Checks the pages of the repository: README.md, CONTRIBUTING.md, CHANGELOG.md and docs/*.md.

    tests/docs.py

- Each path, `make` target, crate and command that a page names is there, and so is each function or clause that
  docs/THEOREMS.md names.
- No paragraph has more than 120 words.
- The tables and the picture that scripts make are up to date (tools/architecture, tools/reached).
"""
import glob
import os
import re
import subprocess
import sys

TOP = os.path.dirname(os.path.dirname(os.path.abspath(__file__)))
PAGES = ["README.md", "CONTRIBUTING.md", "CHANGELOG.md", *sorted(glob.glob("docs/*.md", root_dir=TOP))]
MOST_WORDS = 120
PATH = re.compile(r"^(?:crates|docs|tests|tools|measure|example|\.ci)/[\w./*-]+$")
# words of pages that look like paths of the repository, and are a user's own files or folders
NOT_OURS = {"docs/", "example/square.oas"}


def text_of(path):
    with open(f"{TOP}/{path}", encoding="utf-8") as it:
        return it.read()


def paragraphs(text):
    """Paragraphs of prose with the line in which each begins: no tables, code or lists of short items."""
    text = re.sub(r"^```.*?^```", lambda it: "\n" * it[0].count("\n"), text, flags=re.M | re.S)
    line = 1
    for part in re.split(r"(\n\s*\n)", text):
        for item in re.split(r"\n(?=- |\d+\. |\|)", part):
            if item.strip() and not item.lstrip().startswith(("|", "<!--")):
                yield line, item
            line += item.count("\n") + 1
        line -= 1


def targets():
    return set(re.findall(r"^([a-z][\w-]*):", text_of("Makefile"), re.M))


def names_of_code():
    """Each name of a function, type, clause, record, field or definition of the sources."""
    found = set()
    for path in glob.glob(f"{TOP}/crates/*/src/**/*.rt", recursive=True) + glob.glob(f"{TOP}/crates/*/specs/**/*.antt", recursive=True):
        with open(path, encoding="utf-8") as it:
            found |= set(re.findall(r"\b[A-Za-z_]\w*\b", it.read()))
    return found


def is_there(path):
    return path in NOT_OURS or glob.glob(f"{TOP}/{path.rstrip('/')}")


def faults():
    crates = set(os.listdir(f"{TOP}/crates"))
    known = targets()
    names = names_of_code()
    for page in PAGES:
        text = text_of(page)
        for line, part in paragraphs(text):
            count = len(part.split())
            if count > MOST_WORDS:
                yield f"{page}:{line}: a paragraph of {count} words"
        for code in re.findall(r"`([^`\n]+)`", text):
            first = code.split()[0] if code.split() else ""
            if PATH.match(first) and "NAME" not in first and not is_there(first):
                yield f"{page}: `{first}` isn't there"
            if first == "make" and len(code.split()) > 1 and re.match(r"^[a-z]", code.split()[1]) and code.split()[1] not in known:
                yield f"{page}: `{code}` is no target of the Makefile"
            if first == "bash" and not is_there(code.split()[1]):
                yield f"{page}: `{code}` isn't there"
        for name in re.findall(r"\]\(([\w./-]+)\)", text):
            if not os.path.exists(f"{TOP}/{os.path.dirname(page)}/{name}"):
                yield f"{page}: the link to {name} goes nowhere"
    theorems = text_of("docs/THEOREMS.md")
    for code in re.findall(r"`([A-Za-z_]\w*(?:::\w+)*)`", theorems):
        for name in code.split("::"):
            if name not in names and name not in crates and not is_kits(name):
                yield f"docs/THEOREMS.md: no function, clause or definition is named `{name}`"


def is_kits(name):
    return os.path.isdir(f"/opt/rattle/rlibs/{name}.rlib") or name in {"main"}


def main():
    found = list(faults())
    for tool in ("tools/architecture", "tools/reached"):
        ran = subprocess.run([f"{TOP}/{tool}", "--check"], stderr=subprocess.PIPE, text=True)
        if ran.returncode:
            found.append(ran.stderr.strip())
    print("\n".join(found) if found else f"{len(PAGES)} pages: what they name is there")
    sys.exit(bool(found))


if __name__ == "__main__":
    main()
