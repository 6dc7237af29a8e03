#!/usr/bin/env python3
"""Compares the lines that a refusal may print with those that docs/DECK.md explains, and what the program tells of each on
standard error with what the tables there say.

    tests/printed_lines.py

The lines are those of `line_of`, the definition of which the program is proved to print; each number, name or word that
changes is one word in capitals. In docs/DECK.md they are what is in backquotes in the first column of the tables
under `## What is refused, and what to do`, after the text that the column's title ends with; a rule's number is such a word
too. What the program tells are the texts of `ADVICE`, each after the line that it is about; the second and the third column
have the same texts. Ends with status 1 where a line isn't explained, one is explained that is never printed, or texts differ.
"""
import re
import sys
from pathlib import Path

TOP = Path(__file__).resolve().parent.parent
SPECS = ["crates/job_report/specs"]
ADVICE = "crates/explain/src"
# where the lines begin, and words that are said as one name whatever they are
ROOT = "line_of"
AS_ONE_WORD = {"variable_name": "VARIABLE"}


def equations():
    """The equations of all definitions: name to a list of (arguments, right side)."""
    found = {}
    for folder in SPECS:
        for path in sorted((TOP / folder).glob("*.antt")):
            text = re.sub(r"(?m)^\s*--.*$", "", path.read_text())
            text = re.sub(r"\n\s+", " ", text)
            for line in text.splitlines():
                match = re.match(r"([a-z_0-9]+)((?: (?:\([^()]*\)|[^\s()=:]+))*) = (.*)$", line)
                if match:
                    name, arguments, right = match.groups()
                    found.setdefault(name, []).append((words_of(arguments), right.strip()))
    return found


def words_of(text):
    """The words of a text, where what is in brackets or quotes is one."""
    words, depth, quoted, word = [], 0, False, ""
    for char in text:
        if char == '"':
            quoted = not quoted
        depth += 0 if quoted else (char == "(") - (char == ")")
        if char == " " and depth == 0 and not quoted:
            if word:
                words.append(word)
            word = ""
        else:
            word += char
    return words + [word] if word else words


def spelled(right, known, found):
    """All texts that a right side may be, by the texts of its variables."""
    right = right.strip()
    words = words_of(right)
    parts, part = [], []
    for word in words:
        if word == "++":
            parts.append(part)
            part = []
        else:
            part.append(word)
    parts.append(part)
    if len(parts) > 1:
        texts = [""]
        for part in parts:
            texts = [a + b for a in texts for b in spelled(" ".join(part), known, found)]
        return texts
    if len(words) == 1 and right.startswith("(") and right.endswith(")"):
        return spelled(right[1:-1], known, found)
    head, rest = words[0], words[1:]
    if head == "codes":
        return [rest[0][1:-1].replace("\\n", "")]
    if head == "names_text":
        return [" X"]
    if head in AS_ONE_WORD:
        return ["X"]
    if head in known:
        return known[head]
    if head in found and rest:
        return [text for equation in found[head] for text in applied(equation, rest, known, found)]
    if head in found and not found[head][0][0]:
        return spelled(found[head][0][1], {}, found)
    return [""] if head == "[]" else ["X"]


def applied(equation, values, known, found):
    """All texts of one equation of a function at these values."""
    names, right = equation
    own = {}
    for name, value in zip(names, values):
        if re.fullmatch(r"[a-z_0-9]+", name):
            own[name] = spelled(value, known, found)
    return spelled(right, own, found)


def printed():
    found = equations()
    if ROOT not in found:
        sys.exit(f"no definition of {ROOT}")
    lines = {text for equation in found[ROOT] for text in applied(equation, ["word", "top", "status"], {}, found)}
    return {line for line in lines if line}


def rows():
    """The rows of the tables: the line, or what a file is, and whether it is a line; what it means; what to do."""
    text = (TOP / "docs/DECK.md").read_text()
    text = text[text.index("## What is refused, and what to do"):]
    begin, is_line = "", True
    for row in text.splitlines():
        cells = row.split(" | ")
        if not row.startswith("|") or len(cells) != 3:
            continue
        first = cells[0].strip("| ")
        spans = re.findall(r"`([^`]*)`", first)
        if not first.startswith("`"):
            begin, is_line = spans[0] if spans else "", first.startswith("line printed")
            continue
        for span in spans:
            yield begin + span, is_line, cells[1].strip(), cells[2].strip("| ")


def explained():
    lines = [line for line, is_line, _, _ in rows() if is_line]
    return {re.sub(r"\b[A-Z]+\b|(?<= rule )\d+", "X", line) for line in lines}


def told():
    """What the program tells: the line, or what a file is, to what it means and what to do."""
    entry = re.compile(
        r"/// `([^`]*)`\n"
        r"pub\(crate\) const \w+: Advice = Advice \{\s*"
        r'means: "([^"]*)",\s*'
        r'advice: "([^"]*)",\s*\};'
    )
    found = {}
    for path in sorted((TOP / ADVICE).glob("*advice.rt")):
        text = path.read_text()
        entries = entry.findall(text)
        if len(entries) != text.count("Advice = Advice {"):
            sys.exit(f"{path}: a text stands after no line")
        for line, means, advice in entries:
            found[line] = (means, advice)
    return found


def main():
    wanted, lines = printed(), explained()
    faults = [f"docs/DECK.md doesn't explain: {line}" for line in sorted(wanted - lines)]
    faults += [f"docs/DECK.md explains what is never printed: {line}" for line in sorted(lines - wanted)]
    texts, table = told(), {line: (means, advice) for line, _, means, advice in rows()}
    for line in sorted(texts.keys() | table.keys()):
        if texts.get(line) != table.get(line):
            faults.append(f"{line}: told {texts.get(line)}, and docs/DECK.md has {table.get(line)}")
    for fault in faults:
        print(fault)
    sys.exit(1 if faults else 0)


main()
