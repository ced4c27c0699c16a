#!/usr/bin/env python3
"""Checks the documents against the sources. It ends with 1 and a line for each fault where

- a name in backticks stands nowhere in the sources, a `Type::call` is none, or a file, a folder or a link does not exist;
- a crate has no README.md, or README.md or docs/ARCHITECTURE.md does not name it;
- the list "Calls" of a crate's README.md names a call that is none of its public ones, or a clause that its call does not have;
- a row of README.md's list of claims names a call or a clause that the crate does not have, or is longer than 160 characters;
- README.md is longer than 150 lines;
- a generated page is not what tools/headline.py makes now.

    tools/check_documents.py              checks
    tools/check_documents.py --unlisted   also prints the public calls and the clauses that their crate's README.md does not name
"""

import os
import re
import sys

import headline
import repository
from repository import ROOT, read

README, ARCHITECTURE = "README.md", "docs/ARCHITECTURE.md"
MOST_LINES, MOST_COLUMNS = 150, 160

# Words in backticks that are none of the sources': programs, and words of other programs.
OUTSIDE = set("""
    python3 socat flock mkfifo apt git bash rt psi printf tail head od stdin stdout stderr README HANDLES main NAME TITLE PATH
    encrypt decrypt LLVM clang
""".split())

SPAN = re.compile(r"`([^`\n]+)`")
NAME = re.compile(r"[A-Za-z_]\w*")
ITEM_LINE = re.compile(r"( *)- (.*)")


class Names:
    """What the sources have."""

    def __init__(self, repo):
        self.repo, self.words = repo, set(OUTSIDE)
        for folder, ending in (("crates", ".rt"), ("crates", ".antt"), ("tools", ".py"), ("tools", ".sh"), ("crates", ".edit")):
            for path in repository.files_below(folder, ending):
                self.words |= set(NAME.findall(read(path)))
                self.words |= {os.path.splitext(os.path.basename(path))[0]}
                self.words |= set(path.split("/"))
        for path in ("crates.txt", "psi", ".ci/run", "docs/FORMATS.md"):
            text = read(path)
            self.words |= set(NAME.findall(re.sub(r"`[^`]*`", "", text) if path.endswith(".md") else text))
        self.calls = {}
        for source in repo.sources.values():
            for item in source.items:
                self.calls.setdefault(item.crate, []).append(item)
        self.members = {}
        for crate, items in self.calls.items():
            for item in items:
                if item.owner:
                    self.members.setdefault(item.owner, set()).add(item.name)
                else:
                    self.members.setdefault(item.name, set()).update(NAME.findall(item.text))

    def items(self, crate, name):
        """The items of a crate that a name stands for: `call`, `Type::call`, or a type with all its calls."""
        name = name.split("(")[0]
        return [it for it in self.calls.get(crate, []) if name in (it.full(), it.name) or it.owner == name]

    def is_path(self, path):
        tries = [path, "crates/" + path, "crates/" + path + ".antt", path + ".antt", "docs/" + path]
        return any(os.path.exists(os.path.join(ROOT, it)) for it in tries)


def is_pattern(span):
    return any(it in span for it in "*<>|$") or ".." in span or re.search(r"\b[A-Z]{2,}\b", span) is not None


def is_commit(span):
    return re.fullmatch(r"[0-9a-f]{7,12}", span) and any(it.isdigit() for it in span)


def span_fault(names, span):
    """What is wrong with a span in backticks, if anything is."""
    if re.fullmatch(r"[\w./-]*/[\w./-]*", span) and not is_pattern(span):
        first = span.split("/")[0]
        if first in ("crates", "docs", "tools", ".ci", "specs", "src", "proofs", "must-fail") or first in names.repo.crates:
            return None if names.is_path(span) or first in ("specs", "src", "proofs", "must-fail") else "no such file"
        return None
    if re.fullmatch(r"[A-Za-z_]\w*(::[A-Za-z_]\w*)+", span):
        owner, name = span.split("::")[-2:]
        if owner in names.members and owner[0].isupper():
            return None if name in names.members[owner] else "no such call"
        return None if name in names.words else "no such name"
    if re.fullmatch(r"[A-Za-z_]\w*", span):
        return None if span in names.words else "no such name"
    for word in NAME.findall(span):
        if ("_" in word.strip("_") or re.search(r"[a-z][A-Z]", word)) and word not in names.words:
            return "no such name: " + word
    return None


def check_spans(names, path, fault):
    in_code, base = False, os.path.dirname(path)
    own = set(NAME.findall("\n".join(re.findall(r"(?ms)^```.*?^```|^    .*?$", read(path)))))
    for number, line in enumerate(read(path).splitlines(), 1):
        if line.startswith("```"):
            in_code = not in_code
        if in_code or line.startswith("    "):
            continue
        for it in SPAN.finditer(line):
            span = it[1].strip()
            wrong = None if set(NAME.findall(span)) <= own or is_commit(span) else span_fault(names, span)
            local = os.path.join(ROOT, base, span)
            if wrong and not ("/" in span and (os.path.exists(local) or os.path.exists(local + ".antt"))):
                fault(path, number, "`" + span + "`: " + wrong)
        for target in re.findall(r"\]\(([^)#\s]+)[^)]*\)", line):
            if "://" not in target and not os.path.exists(os.path.join(ROOT, base, target)):
                fault(path, number, "no file for the link " + target)


def leading_spans(text):
    """The spans at the front of a list item, before its first other word: "`a`, `b`: .." gives a and b."""
    front = re.match(r"(?:`[^`]+`(?:, | and )?)+", text)
    return SPAN.findall(front[0]) if front else []


def check_calls(names, crate, path, fault):
    """The list below the heading "Calls": calls, and one level below each its clauses."""
    inside, items = False, []
    for number, line in enumerate(read(path).splitlines(), 1):
        if line.startswith("## "):
            inside = line == "## Calls"
        item = ITEM_LINE.match(line)
        if not inside or not item:
            continue
        spans = leading_spans(item[2])
        if not item[1]:
            items = []
            for span in spans:
                found = names.items(crate, span)
                items += found
                if not any(names.repo.is_shown(it) for it in found):
                    fault(path, number, "`" + span + "`: no public call of " + crate)
        else:
            clauses = {it for call in items for it in call.clauses}
            for span in spans:
                if span not in clauses:
                    fault(path, number, "`" + span + "`: no clause of the call above it")


def check_claims(names, fault):
    """README.md's rows of claims: `[`crate`](its page)` in the first cell, and a call and a clause first in the second."""
    lines = read(README).splitlines()
    if len(lines) > MOST_LINES:
        fault(README, len(lines), "more than " + str(MOST_LINES) + " lines")
    named = set()
    for number, line in enumerate(lines, 1):
        row = re.match(r"\| \[`(\w+)`\]\(crates/(\w+)/README\.md\) \| (.*) \|$", line)
        if not row:
            continue
        crate = row[1]
        named.add(crate)
        if len(line) > MOST_COLUMNS:
            fault(README, number, "a row of " + str(len(line)) + " characters")
        if crate not in names.repo.crates or row[2] != crate:
            fault(README, number, "`" + crate + "`: no such crate")
            continue
        spans = SPAN.findall(row[3])
        if not spans or not names.items(crate, spans[0]):
            fault(README, number, "a row without a call of " + crate)
        elif len(spans) > 1 and not any(spans[1] in it.clauses for it in names.items(crate, spans[0])):
            fault(README, number, "`" + spans[1] + "`: no clause of " + spans[0])
    for crate in names.repo.crates:
        if crate not in named:
            fault(README, 1, "no row of " + crate)


def check_crates(names, fault):
    pages = read(ARCHITECTURE)
    for crate in names.repo.crates:
        path = "crates/" + crate + "/README.md"
        if not os.path.exists(os.path.join(ROOT, path)):
            fault(path, 1, "missing")
            continue
        check_calls(names, crate, path, fault)
        if "`" + crate + "`" not in pages:
            fault(ARCHITECTURE, 1, "`" + crate + "` is not named")
    for module, file in names.repo.specs.items():
        if file.definitions and "| `" + file.file + "` |" not in pages:
            fault(ARCHITECTURE, 1, file.file + " is not listed")
        if file.definitions and not file.has:
            fault(file.path, 1, "no first comment line")


def check_generated(repo, fault):
    for path, text in headline.pages(repo).items():
        if text is None:
            fault(path, 1, "no markers for what tools/headline.py makes")
        elif not os.path.exists(os.path.join(ROOT, path)) or read(path) != text:
            fault(path, 1, "not what tools/headline.py makes now: run it")


def documents():
    found = [it for it in sorted(os.listdir(ROOT)) if it.endswith(".md")]
    return found + repository.files_below("docs", ".md") + repository.files_below("crates", ".md") + repository.files_below("tools", ".md")


def print_unlisted(names):
    for crate in names.repo.crates:
        text = read("crates/" + crate + "/README.md")
        is_program = "crates/" + crate + "/src/lib.rt" not in names.repo.sources
        for it in names.calls.get(crate, []):
            if it.kind != "fn" or not names.repo.is_shown(it) or is_program and (crate, it.name) != headline.TOP_CALL:
                continue
            if "`" + it.name not in text and "::" + it.name not in text:
                print(crate + ": " + it.full() + " " + it.path)
            new = [name for name, said in it.clauses.items() if name and said[0][0] == "ensures" and "`" + name + "`" not in text]
            if new:
                print(crate + ": " + it.full() + ": clauses " + ", ".join(new))


def main():
    repo = repository.Repository()
    names, faults = Names(repo), []

    def fault(path, line, text):
        faults.append(path + ":" + str(line) + ": " + text)

    for path in documents():
        check_spans(names, path, fault)
    check_crates(names, fault)
    check_claims(names, fault)
    check_generated(repo, fault)
    if "--unlisted" in sys.argv[1:]:
        print_unlisted(names)
    for it in faults:
        print(it)
    print("check_documents: " + str(len(documents())) + " documents, " + str(len(faults)) + " faults")
    return 1 if faults else 0


if __name__ == "__main__":
    sys.exit(main())
