#!/usr/bin/env python3
"""Makes the pages and parts of pages that are made from the sources:

- docs/HEADLINE.md: all definitions that the headline of the top call rests on, in reading order. It follows the names from
  the clauses below through specs/ and the types of src/, and has no other list of names.
- in docs/ARCHITECTURE.md, between markers: the table of all files of specs/, from the first comment line of each.
- in each crate's README.md, between markers: the wrong bodies of must-fail/, by their names.

    tools/headline.py            writes them
    tools/headline.py --names    prints the definitions that the headline rests on, a line each
"""

import os
import re
import sys

import repository
from repository import WORD, Definition, first_sentence, words_of

# The headline: of this function, the first of these lists whose clauses all exist.
TOP_CALL = ("psi_cli", "psi_run")
HEADLINE = [
    ["headline"],
    ["answered", "one_lane", "ended", "flushed", "no_read_failed", "no_write_failed"],
]

PAGE = "docs/HEADLINE.md"
ARCHITECTURE = "docs/ARCHITECTURE.md"


class Closure:
    """The definitions that some clauses rest on."""

    def __init__(self, repo):
        self.repo, self.found, self.waiting, self.library = repo, {}, [], {}

    def add(self, definition):
        key = (definition.file, definition.name)
        if key not in self.found:
            self.found[key] = definition
            self.waiting.append(definition)

    def follow(self, module, name):
        """Adds what a name of a module stands for."""
        parts = module.split(".")
        if parts[0] != "Rattle" or len(parts) < 3:
            return
        if parts[1] not in self.repo.crates:
            self.library.setdefault(module, set()).add(name)
        elif parts[2:4] == ["specs", "declared"]:
            self.follow_declared(parts[1], parts[4:], name)
        elif module in self.repo.specs and name in self.repo.specs[module].definitions:
            self.add(self.repo.specs[module].definitions[name])

    def follow_declared(self, crate, path, name):
        """Adds a type, a variant of it, or a constant of a source: `status.Status`, `status.Status.TheVariants`."""
        path = [it for it in path if it not in ("TheVariants", "TheConstants")]
        for names, wanted in ((path[:-1], path[-1]), (path, name)):
            source = self.repo.source_of(crate, names)
            for item in source.items if source else []:
                if item.name == wanted and item.kind != "fn" and not item.owner:
                    self.add_item(item, source)
                    return

    def add_item(self, item, source):
        definition = Definition(item.crate, item.crate + "/" + item.path.split("/", 2)[2], item.name, item.kind, source.items.index(item))
        definition.comment, definition.item, definition.source = item.doc, item, source
        self.add(definition)

    def words(self, scope, own, text, bounds, source):
        """Follows the words of a text. A name that the text itself binds is followed too, so that nothing is left out."""
        for word in words_of(text):
            head, _, rest = word.partition(".")
            if head in bounds and rest:
                self.follow_trait(bounds[head], source)
            elif head in scope.modules and rest:
                self.follow(scope.modules[head], rest.split(".")[0])
            elif head in own:
                self.add(own[head])
            elif head in scope.names:
                self.follow(*scope.names[head])

    def follow_trait(self, names, source):
        for name in names:
            crate = source.uses.get(name, ("", ""))[0].split("::")[0]
            for other in self.repo.sources.values():
                for item in other.items:
                    if other.crate == crate and item.kind == "trait" and item.name == name:
                        self.add_item(item, other)

    def run(self):
        while self.waiting:
            definition = self.waiting.pop()
            item = getattr(definition, "item", None)
            if item is None:
                self.follow_definition(definition)
            elif item.kind == "trait":
                self.follow_trait_clauses(definition, item)
            else:
                self.follow_fields(definition, item)

    def follow_definition(self, definition):
        file = next(it for it in self.repo.specs.values() if it.file == definition.file)
        text = definition.text()
        self.words(file.scope, file.definitions, text, {}, None)

    def follow_trait_clauses(self, definition, item):
        ghosts = "\n".join(re.findall(r"\bghost \w+: \{([^}]*)\}", item.text))
        self.words(definition.source.scope, {}, ghosts, {}, definition.source)
        for function in [it for it in definition.source.items if it.kind == "fn" and it.owner == item.name]:
            for clauses in function.clauses.values():
                for _, text in clauses:
                    self.words(definition.source.scope, {}, text, {}, definition.source)

    def follow_fields(self, definition, item):
        """Adds the types that a type's fields name."""
        for word in WORD.findall(item.text):
            source = definition.source
            if word in source.uses:
                crate = source.uses[word][0].split("::")
                self.follow_type(item.crate if crate[0] in ("crate", "super", "self") else crate[0], word)
            else:
                for other in source.items:
                    if other.name == word and other.kind in ("struct", "enum", "const") and other is not item:
                        self.add_item(other, source)

    def follow_type(self, crate, name):
        for other in self.repo.sources.values():
            for item in other.items:
                if other.crate == crate and item.name == name and item.kind in ("struct", "enum", "const") and item.is_public:
                    self.add_item(item, other)


def top_call(repo):
    return next(it for it in repo.functions(TOP_CALL[0]) if it.name == TOP_CALL[1])


def headline_clauses(repo):
    """The names of the headline's clauses."""
    clauses = top_call(repo).clauses
    for names in HEADLINE:
        if all(it in clauses for it in names):
            return names
    sys.exit("headline.py: the top call has none of the lists of clauses; see HEADLINE at the top of this file")


def headline_closure(repo):
    call = top_call(repo)
    source = repo.sources[call.path]
    closure = Closure(repo)
    for name in headline_clauses(repo):
        for _, text in call.clauses[name]:
            closure.words(source.scope, {}, text, call.bounds, source)
    closure.run()
    return closure


def in_reading_order(repo, closure):
    """The definitions by crate and file: [(crate, [(file, what it has, [definitions])])]."""
    by_file = {}
    for definition in closure.found.values():
        by_file.setdefault(definition.file, []).append(definition)
    order = []
    for crate in repo.crates:
        types = sorted(it for it in by_file if it.startswith(crate + "/src/"))
        rows = [(it, "", by_file[it]) for it in types]
        for file in repo.ordered_specs(crate):
            if file.file in by_file:
                rows.append((file.file, file.has, by_file[file.file]))
        if rows:
            order.append((crate, [(a, b, sorted(c, key=lambda it: it.order)) for a, b, c in rows]))
    return order


def said(definition):
    """What a definition says, as one line."""
    text = " ".join(definition.comment.split())
    if hasattr(definition, "item"):
        text = first_sentence(text)
    return text.rstrip(".")


def definition_lines(definitions):
    """A line each; definitions below one comment share a line."""
    lines = []
    for it in definitions:
        name = "`" + it.name + "`"
        if getattr(it, "is_ditto", False) and lines and lines[-1][1] == said(it):
            lines[-1][0].append(name)
        else:
            lines.append(([name], said(it)))
    return ["- " + ", ".join(names) + ": " + text for names, text in lines]


def headline_page(repo):
    closure = headline_closure(repo)
    order = in_reading_order(repo, closure)
    clauses = ", ".join("`" + it + "`" for it in headline_clauses(repo))
    files = sum(len(rows) for _, rows in order)
    lines = [
        "<!-- Made by tools/headline.py. Do not edit. -->",
        "# All that the headline rests on",
        "",
        "The headline is what these clauses of `" + TOP_CALL[1] + "` (`" + top_call(repo).path + "`) say together: " + clauses + ".",
        "This page has every definition that they name, and that these name, in reading order: the lowest crate and file first.",
        "What they say is what the clauses say. What is trusted beside them stands in `README.md`, and `main`, which hands the "
        + "process's words and streams to the call, has no contract.",
        "",
        "A clause on what is not told says nothing: it speaks of the bytes of a source and a sink where these tell them (`Some`).",
        "The other clauses of the call say when each status may come; `crates/" + TOP_CALL[0] + "/README.md` has them.",
        "",
        "It is " + str(len(closure.found)) + " definitions and types in " + str(files) + " files of " + str(len(order)) + " crates.",
        "A type of `src/` is read as the values of its fields. The files stand below `crates/`; those of specs/ end in `.antt`.",
    ]
    for crate, rows in order:
        lines += ["", "## `" + crate + "`"]
        for file, has, definitions in rows:
            lines += ["", "### [`" + file + "`](../crates/" + file + (".antt" if has else "") + ")", ""]
            lines += [has + "."] * bool(has) + [""] * bool(has)
            lines += definition_lines(definitions)
    lines += ["", "## The toolchain's library", "", "Names of the library, by module, which its own pages (`rt doc`) define:", ""]
    for module in sorted(closure.library):
        names = sorted(it for it in closure.library[module])
        lines.append("- `" + module.replace("Rattle.", "") + "`: " + ", ".join("`" + it.replace("◌", "_") + "`" for it in names))
    return "\n".join(lines) + "\n"


def public_files(repo):
    """The files of specs/ that the contracts of public calls rest on."""
    closure = Closure(repo)
    for source in repo.sources.values():
        for item in source.items:
            if repo.is_shown(item):
                for clauses in item.clauses.values():
                    for _, text in clauses:
                        closure.words(source.scope, {}, text, item.bounds, source)
    closure.run()
    return {file for file, _ in closure.found}


def specs_table(repo):
    lines, public, private = ["| File | Has |", "|---|---|"], public_files(repo), "for the private parts alone"
    for crate in repo.crates:
        for file in repo.ordered_specs(crate):
            alone = "" if file.file in public or private in file.has else " (named by no public contract)"
            lines.append("| `" + file.file + "` | " + file.has + alone + " |")
    return lines


def wrong_bodies(crate):
    """The must-fail edits of a crate, by their names."""
    folder = "crates/" + crate + "/must-fail"
    if not os.path.isdir(os.path.join(repository.ROOT, folder)):
        return ["None."]
    names = sorted(it[: -len(".edit")] for it in os.listdir(os.path.join(repository.ROOT, folder)) if it.endswith(".edit"))
    return ["- `" + it + "`" for it in names]


def between(text, name, lines):
    """The text with other lines between the markers of a name."""
    begin, end = "<!-- " + name + ": made by tools/headline.py -->", "<!-- end of " + name + " -->"
    if begin not in text or end not in text:
        return None
    head, rest = text.split(begin, 1)
    return head + begin + "\n" + "\n".join(lines) + "\n" + end + rest.split(end, 1)[1]


def pages(repo):
    """The generated pages: path, and the text that it should have (None: its markers are missing)."""
    made = {PAGE: headline_page(repo)}
    if os.path.exists(os.path.join(repository.ROOT, ARCHITECTURE)):
        made[ARCHITECTURE] = between(repository.read(ARCHITECTURE), "specs", specs_table(repo))
    for crate in repo.crates:
        path = "crates/" + crate + "/README.md"
        if os.path.exists(os.path.join(repository.ROOT, path)):
            made[path] = between(repository.read(path), "wrong bodies", wrong_bodies(crate))
    return made


def main():
    repo = repository.Repository()
    if sys.argv[1:] == ["--names"]:
        for crate, rows in in_reading_order(repo, headline_closure(repo)):
            for file, _, definitions in rows:
                for it in definitions:
                    print(file, it.name)
        return
    for path, text in pages(repo).items():
        if text is None:
            print("headline.py: no markers in " + path)
            continue
        with open(os.path.join(repository.ROOT, path), "w", encoding="utf-8") as file:
            file.write(text)


if __name__ == "__main__":
    main()
