"""What stands in this repository: its crates, the definitions of specs/, and the functions, types and clauses of src/.

It parses the texts as `rt fmt` lays them out, and has no list of names of its own. `headline.py` and `check_documents.py`
stand on it.
"""

import os
import re

ROOT = os.path.dirname(os.path.dirname(os.path.abspath(__file__)))

WORD = re.compile(r"(?<![\w.])[A-Za-z_]\w*(?:\.[A-Za-z_0-9]\w*)*")
STARTS = re.compile(r"(?:(abbrev|unfoldable)(?: pub)?|pub (record|data)|(record|data)|pub) ([A-Za-z_]\w*)")
STRING = re.compile(r'"(?:[^"\\]|\\.)*"')


def read(path):
    with open(os.path.join(ROOT, path), encoding="utf-8") as file:
        return file.read()


def files_below(folder, ending):
    """The files of a folder of the repository with an ending, as paths from the top, in order."""
    found = []
    for path, folders, names in os.walk(os.path.join(ROOT, folder)):
        folders[:] = sorted(it for it in folders if it not in ("out", ".git"))
        found += [os.path.relpath(os.path.join(path, it), ROOT) for it in sorted(names) if it.endswith(ending)]
    return found


def read_crates():
    """The groups of crates.txt, each with its crates, lowest first: (group, [(crate, [libraries])])."""
    groups = []
    for line in read("crates.txt").splitlines():
        row = re.match(r"([a-z0-9_]+)[^:]*:(.*)", line)
        if row:
            groups[-1][1].append((row[1], row[2].split()))
        elif line.startswith("# ") and ":" not in line:
            groups.append((line[2:], []))
    return groups


class Definition:
    """One definition of specs/, or one type, trait or constant of src/ that definitions name."""

    def __init__(self, crate, file, name, kind, order):
        self.crate, self.file, self.name, self.kind, self.order = crate, file, name, kind, order
        self.comment, self.lines, self.module = "", [], ""

    def text(self):
        return self.module + "\n" + "\n".join(self.lines)


class Scope:
    """What the names of one file stand for: (module, name) for an import, and the module for one that is named `as`."""

    def __init__(self):
        self.names, self.modules = {}, {}

    def add(self, clause):
        """One import: `A.B.{c, d as e}`, `A.B as f` or `A.B`."""
        clause = " ".join(clause.split()).rstrip(";").strip()
        listed = re.match(r"(.*?)\.\{(.*)\}$", clause)
        if listed:
            for it in listed[2].split(","):
                parts = it.split(" as ")
                name = parts[0].strip()
                self.names[parts[-1].strip()] = (listed[1], name)
        else:
            parts = clause.split(" as ")
            self.modules[parts[-1].strip().split(".")[-1]] = parts[0].strip()


def uncommented(line):
    """A line without its comment, and with its strings empty."""
    return STRING.sub('""', line).split("--")[0].rstrip()


class SpecFile:
    """A file of specs/: its first comment, its imports, and its definitions in their order."""

    def __init__(self, crate, path):
        self.crate, self.path, self.scope = crate, path, Scope()
        inner = path.split("/specs/")[1][: -len(".antt")]
        self.module = "Rattle." + crate + ".specs." + inner.replace("/", ".")
        self.file = crate + "/specs/" + inner
        self.definitions, self.mods = {}, []
        self.has = first_comment(read(path))
        self.parse(read(path).splitlines())

    def parse(self, lines):
        comment, above, current, modules, waiting = [], "", None, [], ""
        for raw in lines:
            line, indent = uncommented(raw), len(raw) - len(raw.lstrip())
            if waiting or line.startswith("use "):
                waiting += line + " "
                if "{" not in waiting or "}" in waiting:
                    self.scope.add(waiting.strip()[len("use "):])
                    waiting = ""
                continue
            if not raw.strip():
                comment = []
                continue
            inside = current is not None and current.kind in ("record", "data") and indent > current.indent
            if raw.strip().startswith("--"):
                if not inside:
                    comment.append(raw.strip()[2:].strip())
                    if re.match(r"-+ ", comment[-1]):
                        comment, above = [], ""
                continue
            if line.strip().startswith("pub mod "):
                self.mods.append(line.split()[2])
                continue
            if line.strip().startswith("module "):
                modules = [it for it in modules if it[0] < indent] + [(indent, line)]
                comment, current = [], None
                continue
            begins = None if inside else STARTS.match(line.strip())
            if begins and (current is None or indent <= current.indent):
                modules = [it for it in modules if it[0] < indent]
                kind = begins[2] or begins[3] or "definition"
                current = Definition(self.crate, self.file, begins[4], kind, len(self.definitions))
                current.indent, current.module = indent, "\n".join(it[1] for it in modules)
                if comment:
                    above = " ".join(comment)
                current.comment, current.is_ditto = above, not comment
                self.definitions[current.name] = current
                comment = []
            if current is not None:
                current.lines.append(line)


def first_comment(text):
    """The first sentence of the comment at the head of a file."""
    lines = []
    for line in text.splitlines():
        if not line.startswith("--"):
            break
        lines.append(line[2:].strip())
    return first_sentence(" ".join(lines))


def first_sentence(text):
    return re.split(r"(?<=[a-z0-9`)])\. ", text)[0].rstrip(".")


def words_of(text):
    """The words of a text that may stand for definitions, without declared and given fields."""
    text = re.sub(r"(?m)^(\s*)pub ([A-Za-z_]\w*) :", r"\1:", text)
    text = re.sub(r"([{;]\s*)[A-Za-z_]\w* =", r"\1=", text)
    text = re.sub(r"(?m)^(\s*)[A-Za-z_]\w* =", r"\1=", text)
    return WORD.findall(text)


# ---- sources

ITEM = re.compile(r"(?m)^( *)(pub(?:\(crate\))? )?(?:unsafe )?(const fn|fn|struct|enum|trait|type|const|static|union) ([A-Za-z_]\w*)")


def blank(text):
    """A source without its comments and strings, of the same length."""
    def spaces(it):
        return re.sub(r"[^\n]", " ", it[0])
    return re.sub(r'//[^\n]*|"(?:[^"\\]|\\.)*"|b?\'(?:[^\'\\\n]|\\[^\n])\'', spaces, text)


def closing(text, start):
    """The place behind the bracket that closes the one at `start`."""
    depth, pairs = 0, {"{": 1, "(": 1, "[": 1, "}": -1, ")": -1, "]": -1}
    for place in range(start, len(text)):
        depth += pairs.get(text[place], 0)
        if depth == 0:
            return place + 1
    return len(text)


class Item:
    """A function, type, trait or constant of a source, with its clauses or its body."""

    def __init__(self, crate, path, kind, name, is_public, owner, doc):
        self.crate, self.path, self.kind, self.name = crate, path, kind, name
        self.is_public, self.owner, self.doc = is_public, owner, doc
        self.clauses, self.text, self.bounds = {}, "", {}

    def full(self):
        return self.owner + "::" + self.name if self.owner else self.name


def doc_above(text, start):
    """The `///` comment above a place."""
    lines, above = [], text[:start].splitlines()
    for line in reversed(above):
        line = line.strip()
        if line.startswith("///"):
            lines.insert(0, line[3:].strip())
        elif not line.startswith("#["):
            break
    return " ".join(lines)


class Source:
    """A file of src/: its imports and its items."""

    def __init__(self, crate, path):
        self.crate, self.path, self.scope, self.items = crate, path, Scope(), []
        self.raw = read(path)
        self.code = blank(self.raw)
        for it in re.finditer(r"\bghost use ([^;]*);", self.code):
            self.scope.add(it[1])
        self.uses = {}
        for it in re.finditer(r"(?<!ghost )\buse ([^;]*);", self.code):
            self.add_use(" ".join(it[1].split()))
        self.owners = self.find_owners()
        for it in ITEM.finditer(self.code):
            self.add_item(it)

    def add_use(self, clause):
        listed = re.match(r"([\w:]+)::\{(.*)\}$", clause)
        pairs = [(listed[1], it.strip()) for it in listed[2].split(",")] if listed else [tuple(clause.rsplit("::", 1))]
        for pair in pairs:
            if len(pair) == 2 and pair[1]:
                parts = pair[1].split(" as ")
                self.uses[parts[-1].strip()] = (pair[0], parts[0].strip())

    def find_owners(self):
        """The bodies of `impl` and `trait`: (start, end, type)."""
        owners = []
        for it in re.finditer(r"(?m)^(?:unsafe )?(?:pub )?(?:unsafe )?(impl\b[^{;]*|trait [A-Za-z_]\w*[^{;]*)\{", self.code):
            head = it[1]
            if head.startswith("trait"):
                name = head.split()[1]
            else:
                name = re.split(r"\bfor\b(?!<)", re.sub(r"\bwhere\b.*", "", head, flags=re.S))[-1]
                name = re.sub(r"^impl\s*(<.*?>\s)?", "", name.strip())
            name = re.match(r"\W*(?:[a-z_]+::)*([A-Za-z_]\w*)", name)
            owners.append((it.start(), closing(self.code, it.end() - 1), name[1] if name else "", head))
        return owners

    def add_item(self, it):
        start = it.start()
        owner = next((o for o in self.owners if o[0] < start < o[1]), None)
        kind = "fn" if it[3].endswith("fn") else it[3]
        if owner and kind != "fn":
            owner = owner if kind == "const" else None
        is_public = bool(it[2]) and "crate" not in (it[2] or "")
        if owner and (owner[3].startswith("trait") or " for " in owner[3]):
            is_public = True
        item = Item(self.crate, self.path, kind, it[4], is_public, owner[2] if owner else "", doc_above(self.raw, start))
        item.head = owner[3] if owner else ""
        if kind == "fn":
            self.read_function(item, it.end())
        else:
            end = self.code.find("\n" + it[1] + "}", start)
            semi = self.code.find(";", start)
            brace = self.code.find("{", start)
            stop = closing(self.code, brace) if brace >= 0 and (semi < 0 or brace < semi) else semi
            item.text = self.code[start:stop]
        self.items.append(item)

    def read_function(self, item, place):
        """The clauses of a function, and the bounds of its type parameters."""
        place = self.skip_generics(item, place)
        place = closing(self.code, self.code.find("(", place))
        while True:
            clause = re.compile(r"\s*(?:->[^{;]*?)?\s*(requires|ensures)\s*([A-Za-z_]\w*)?\s*\{").match(self.code, place)
            result = re.compile(r"\s*->\s*").match(self.code, place)
            if clause:
                brace = clause.end() - 1
                end = closing(self.code, brace)
                item.clauses.setdefault(clause[2] or "", []).append((clause[1], self.code[brace + 1:end - 1]))
                place = end
            elif result:
                place = self.after_result(result.end())
            else:
                return

    def skip_generics(self, item, place):
        if self.code[place] != "<":
            return place
        depth, end = 0, place
        while True:
            depth += {"<": 1, ">": -1}.get(self.code[end], 0) if self.code[end - 1] != "-" else 0
            end += 1
            if depth == 0:
                break
        for name, bounds in re.findall(r"\b([A-Z]\w*): ([^,>]*)", self.code[place:end]):
            item.bounds[name] = [it.strip() for it in bounds.split("+")]
        return end

    def after_result(self, place):
        """The place behind a result type: where a clause, a `where` or the body begins."""
        found = re.compile(r"\b(?:requires|ensures|where)\b|[{;]").search(self.code, place)
        return found.start() if found else len(self.code)


class Repository:
    """All of it."""

    def __init__(self):
        self.groups = read_crates()
        self.crates = [crate for _, members in self.groups for crate, _ in members]
        self.libraries = {crate: below for _, members in self.groups for crate, below in members}
        self.specs, self.sources = {}, {}
        for crate in self.crates:
            for path in files_below("crates/" + crate + "/specs", ".antt"):
                file = SpecFile(crate, path)
                self.specs[file.module] = file
            for path in files_below("crates/" + crate + "/src", ".rt"):
                self.sources[path] = Source(crate, path)

    def source_of(self, crate, module):
        """The file of src/ of a module path, `declared.a.b` of specs."""
        path = "crates/" + crate + "/src/" + "/".join(module)
        for it in (path + ".rt", path + "/mod.rt"):
            if it in self.sources:
                return self.sources[it]
        return self.sources.get("crates/" + crate + "/src/lib.rt") if not module else None

    def ordered_specs(self, crate):
        """A crate's files of specs/, each behind those that it uses."""
        files = {it.module: it for it in self.specs.values() if it.crate == crate}
        lib = files.get("Rattle." + crate + ".specs.Lib")
        begin = [lib.module[:-3] + it for it in lib.mods] if lib else []
        done = []

        def visit(module):
            if module not in files or module in done:
                return
            used = [it[0] for it in files[module].scope.names.values()] + list(files[module].scope.modules.values())
            for it in used:
                if it != module:
                    visit(it)
            if module not in done:
                done.append(module)

        for module in begin + sorted(files):
            visit(module)
        return [files[it] for it in done if not it.split(".specs.")[1].endswith("Lib") and files[it].definitions]

    def functions(self, crate=None):
        return [it for source in self.sources.values() for it in source.items
                if it.kind == "fn" and (crate is None or it.crate == crate)]

    def is_shown(self, item):
        """Whether a crate's users see an item: lib.rt hands it or its type on, or has it, or makes its file public."""
        lib = self.sources.get("crates/" + item.crate + "/src/lib.rt")
        if not item.is_public or lib is None or item.path == lib.path:
            return item.is_public
        uses = re.findall(r"(?s)\bpub use ([^;]*);", lib.code)
        handed_on = {name for it in uses for name in WORD.findall(re.sub(r"\w+::", "", it))}
        open_files = ["crates/" + item.crate + "/src/" + it + ".rt" for it in re.findall(r"\bpub mod (\w+);", lib.code)]
        return (item.owner or item.name) in handed_on or item.path in open_files
