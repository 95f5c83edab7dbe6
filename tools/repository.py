"""What the tools here know about this repository: its crates, its sources, its functions with their clauses, its definitions.

Everything is read from crates.txt and from the present files, so a crate, a file or a folder that moves needs no change here.
"""
import functools
import os
import re
import sys
from dataclasses import dataclass, field

TOP = os.path.dirname(os.path.dirname(os.path.realpath(__file__)))
# crates to copy from
EXAMPLES = ("irtext_arith", "irtext_llvm", "irtext_examples")


def text_of(path):
    with open(path, encoding="utf-8") as file:
        return file.read()


def relative(path):
    return os.path.relpath(path, TOP)


def files_below(folder, ending):
    """Returns the files with this ending in the folder and the folders in it, in order of their paths."""
    found = []
    for at, folders, names in os.walk(folder):
        folders.sort()
        found += [os.path.join(at, name) for name in names if name.endswith(ending)]
    return sorted(found)


@dataclass
class Crate:
    name: str
    below: list

    @property
    def folder(self):
        return os.path.join(TOP, "crates", self.name)

    def sources(self):
        return files_below(os.path.join(self.folder, "src"), ".rt")

    def specs(self):
        return files_below(os.path.join(self.folder, "specs"), ".antt")

    def edits(self, folder):
        """Returns the edits directly in this folder of the crate."""
        here = os.path.join(self.folder, folder)
        return [it for it in files_below(here, ".edit") if os.path.dirname(it) == here]

    @property
    def is_example(self):
        """Whether it is an example to copy from, whose definitions are no part of the product's."""
        return self.name in EXAMPLES

    @property
    def is_library(self):
        """Whether it is a library of the product, and no program, no example and no crate of tests and rows."""
        is_program = os.path.isfile(os.path.join(self.folder, "src", "main.rt"))
        return not is_program and not self.is_example and not self.name.startswith("irtext_tests")


def crates():
    """Returns the crates, each after those of the repository that it depends on."""
    rows = [line.partition("#")[0].strip() for line in text_of(os.path.join(TOP, "crates.txt")).split("\n")]
    named = {}
    for row in rows:
        name, _, below = row.partition(":")
        if row:
            named[name.split()[0]] = below.split()
    found = []

    def add(name):
        for it in named[name]:
            if it in named:
                add(it)
        if name not in [it.name for it in found]:
            found.append(Crate(name, [it for it in named[name] if it in named]))

    for name in named:
        add(name)
    return found


# ---- functions and their clauses

@dataclass
class Clause:
    word: str  # requires, ensures, ..
    label: str
    text: str


@dataclass
class Function:
    name: str
    path: str
    line: int
    module: list
    holder: str  # the head of the impl or the trait that it is in
    is_public: bool  # by its own `pub`
    doc: str
    clauses: list = field(default_factory=list)


HEAD = re.compile(r"^(\s*)(pub(?:\([^)]*\))? )?(?:(?:const|async|unsafe) )*fn (\w+)")
GHOST = re.compile(r"^\s+ghost (\w+)(:| =) \{")
HOLDER = re.compile(r"^(\s*)(?:pub(?:\([^)]*\))? )?(impl\b|trait\b|macro_rules!)")
CLAUSE = re.compile(r"(requires|ensures|decreases)\*?(?:\s+(\w+))?\s*\{")


def past_braces(text, at):
    """Returns the place after the brace that closes the one at `at`; texts between quotation marks are skipped."""
    depth = 0
    while at < len(text):
        c = text[at]
        if c == '"':
            at = past_quotes(text, at)
            continue
        depth += c == "{"
        depth -= c == "}"
        at += 1
        if not depth:
            return at
    return at


def past_quotes(text, at):
    at += 1
    while at < len(text) and text[at] != '"':
        at += 2 if text[at] == "\\" else 1
    return at + 1


def clauses_behind(text, at):
    """Returns the clauses of the function whose name ends at `at`, up to its body or its `;`."""
    found, depth = [], 0
    while at < len(text):
        c = text[at]
        if text.startswith("//", at):
            at = text.find("\n", at)
            continue
        if c in "([":
            depth += 1
        elif c in ")]":
            depth -= 1
        elif not depth and c == ";":
            break
        elif not depth and c == "{":
            break
        elif not depth and c.isalpha() and not (text[at - 1].isalnum() or text[at - 1] == "_"):
            clause = CLAUSE.match(text, at)
            if clause:
                end = past_braces(text, clause.end() - 1)
                found.append(Clause(clause[1], clause[2] or "", text[clause.end() : end - 1].strip()))
                at = end
                continue
        at += 1
    return found


def module_of(crate, path):
    """Returns the module's path in its crate, from the path of its file."""
    parts = os.path.relpath(path, os.path.join(crate.folder, "src"))[: -len(".rt")].split(os.sep)
    return [it for it in parts if it not in ("lib", "main", "mod")]


def functions(crate, path):
    """Returns the functions of a file in their order. A trait's or an impl's ghost members are one more, without a name, whose
    clauses they are. Functions in a macro are left out."""
    text = text_of(path)
    lines = text.split("\n")
    found, doc, holders, start = [], [], [], 0
    for number, line in enumerate(lines, 1):
        indent = len(line) - len(line.lstrip())
        if line.strip() and line.lstrip().startswith("}"):
            holders = [it for it in holders if it[0] < indent]
        holder = HOLDER.match(line)
        if holder:
            head = text[start : text.find("{", start)].strip()
            holders.append((indent, re.sub(r"\s+", " ", head), number, " ".join(doc)))
        in_macro = any(it[1].startswith("macro_rules!") for it in holders)
        head, ghost = HEAD.match(line), GHOST.match(line)
        if head and not in_macro:
            at = start + head.end()
            found.append(
                Function(head[3], path, number, module_of(crate, path), holders[-1][1] if holders else "", head[2] == "pub ", " ".join(doc), clauses_behind(text, at))
            )
        elif ghost and holders and not in_macro:
            at = start + ghost.end() - 1
            _, head, above, said = holders[-1]
            same = [it for it in found if not it.name and it.line == above]
            if not same:
                same = [Function("", path, above, module_of(crate, path), head, False, said)]
                found += same
            same[0].clauses.append(Clause("ghost", ghost[1], text[at + 1 : past_braces(text, at) - 1].strip()))
        stripped = line.strip()
        if stripped.startswith("///"):
            doc.append(stripped[3:].strip())
        elif not stripped.startswith("#[") and stripped:
            doc = []
        start += len(line) + 1
    return found


# ---- definitions

@dataclass
class Word:
    name: str
    module: str  # Rattle.CRATE.specs.A.B
    path: str
    line: int
    kind: str  # data, record, abbrev (of a function that may be computed), or proof
    sentence: str
    parts: list  # of a `data`, its constructors; of a record, its fields
    text: str  # its own lines, with the heads of the modules that it is in
    lines: int


@dataclass
class Module:
    name: str
    path: str
    crate: str
    sentence: str
    imported: dict  # the name here to (module, name)
    aliases: dict  # the name here to the module
    handed: dict  # what it re-exports by `pub use`, as `imported`
    handed_modules: list
    words: list


IMPORT = re.compile(r"(pub )?(?:ghost )?use\s+(Rattle\.[\w.'-]+?)(?:\.\{([^}]*)\}|\s+as\s+([\w'-]+))?\s*;?\s*$", re.M)
START = re.compile(r"^(?:(?:abbrev|unfoldable|opaque|abstract) +)*(?:pub +)?(?:(data|record|codata) +)?([^\s:(){}]+)(?=\s|:|$)")
BLOCKS = re.compile(r"^(?:(?:abbrev|unfoldable|opaque) +)*(?:mutual|module\b)")
SKIPPED = re.compile(r"^(?:pub )?(?:use|mod)\b|^infix|^--")


@functools.lru_cache(None)
def named_in(path):
    """Returns the modules that a file declares, in its order."""
    return re.findall(r"^(?:pub )?mod ([\w'-]+)", text_of(path), re.M) if os.path.isfile(path) else []


def place_of(name):
    """Returns the index of a module in the order of specs/Lib.antt, and in those of the folders that it is in."""
    _, crate, _, *parts = name.split(".")
    folder, places = os.path.join(TOP, "crates", crate, "specs"), []
    for at, part in enumerate(parts):
        names = named_in(os.path.join(folder, *parts[:at]) + ".antt" if at else os.path.join(folder, "Lib.antt"))
        places.append(names.index(part) if part in names else len(names))
    return places, name


def imports_of(text):
    """Returns the words that a file imports, the modules that it names, and what it re-exports."""
    imported, aliases, handed, modules = {}, {}, {}, []
    for hands_on, module, names, alias in IMPORT.findall(text):
        if names:
            for it in (name.strip() for name in names.split(",")):
                if it:
                    imported[it] = (module, it)
                    if hands_on:
                        handed[it] = (module, it)
        elif alias:
            aliases[alias] = module
        elif hands_on:
            modules.append(module)
    return imported, aliases, handed, modules


def comment_above(lines, at):
    """Returns the comment directly above the line, ignoring an operator's `infix` line."""
    found = []
    at -= 1
    while at >= 0 and (lines[at].strip().startswith("--") or lines[at].strip().startswith("infix")):
        if lines[at].strip().startswith("--"):
            found.append(lines[at].strip()[2:].strip())
        at -= 1
    return " ".join(reversed(found))


def words_of(module, path):
    """Returns the definitions of a file of specs/, in their order."""
    lines = text_of(path).split("\n")
    starts, blocks, holder, above = [], [], None, ""
    for number, line in enumerate(lines):
        indent, bare = len(line) - len(line.lstrip()), line.strip()
        if not bare or SKIPPED.match(bare):
            continue
        blocks = [it for it in blocks if it[0] < indent]
        if holder and indent <= holder.indent:
            holder = None
        if BLOCKS.match(bare):
            blocks.append((indent, bare if "module" in bare.split() else "", bare.split()))
            above = comment_above(lines, number) if "mutual" in bare.split() else ""
            continue
        if holder:
            part = re.match(r"(?:pub +)?([^\s:(){}]+) +:", bare)
            if part:
                holder.parts.append(part[1])
            continue
        if indent != (blocks[-1][0] + 2 if blocks else 0):
            continue
        word = START.match(bare)
        is_type = word and word[1]
        if not word or not (is_type or re.match(r"\s*:(?:\s|$)", bare[word.end() :])):
            continue
        sentence, above = comment_above(lines, number) or above, ""
        is_computed = bare.startswith(("abbrev", "unfoldable")) or any("mutual" in it[2] for it in blocks)
        kind = word[1] or ("abbrev" if is_computed else "proof")
        found = Word(word[2], module, path, number + 1, kind, sentence, [], "\n".join(it[1] for it in blocks), 0)
        found.indent, found.at = indent, number
        starts.append(found)
        if is_type:
            holder = found
    for word, behind in zip(starts, starts[1:] + [None]):
        end = behind.at if behind else len(lines)
        own = [it for it in lines[word.at : end] if it.strip() and not it.strip().startswith("--") and not BLOCKS.match(it.strip())]
        word.text += "\n" + "\n".join(own)
        word.lines = len(own)
    return starts


def modules_of(crate):
    """Returns the files of a crate's specs/, by the names of their modules."""
    found = {}
    for path in crate.specs():
        parts = os.path.relpath(path, os.path.join(crate.folder, "specs"))[: -len(".antt")].split(os.sep)
        name = ".".join(["Rattle", crate.name, "specs", *parts])
        text = text_of(path)
        first = []
        for line in text.split("\n"):
            if not line.startswith("--"):
                break
            first.append(line[2:].strip())
        imported, aliases, handed, modules = imports_of(text)
        words = words_of(name, path)
        for word in words:
            if word.kind == "proof" and not word.sentence:
                word.sentence = " ".join(first)
        found[name] = Module(name, path, crate.name, " ".join(first), imported, aliases, handed, modules, words)
    return found


class Definitions:
    """All definitions of the repository, and which of them a text cites."""

    def __init__(self, found):
        self.modules = {}
        for crate in found:
            self.modules.update(modules_of(crate))
        self.named = {}
        for module in self.modules.values():
            for word in module.words:
                for name in [*word.parts * (word.kind == "data"), word.name]:
                    self.named[module.name, name] = word

    def find(self, module, name):
        """Returns the definition that this module has under this name, its own or one that it re-exports."""
        word = self.named.get((module, name))
        if word:
            return word
        if module in self.modules and name in self.modules[module].handed:
            return self.find(*self.modules[module].handed[name])
        # a crate re-exports a module of another under its own name
        parts = module.split(".")
        lib = self.modules.get(".".join([*parts[:3], "Lib"]))
        for it in lib.handed_modules if lib else []:
            if it.split(".")[3:] == parts[3:] and it != module:
                return self.find(it, name)
        return None

    def is_own(self, module):
        """Whether a module is one of specs/ as they are written, and not one that the checker generates from the types of src/."""
        parts = module.split(".")
        return len(parts) > 3 and parts[2] == "specs" and parts[3] not in ("declared", "contracts")

    def cited(self, text, imported, aliases, home=None):
        """Returns the definitions whose names are in a text, by what its file imports; `home` is its own module."""
        found, others = [], set()
        names = {}
        for name, (module, word) in imported.items():
            names.setdefault(name.strip("◌").replace("◌", " "), []).append((module, word))
        if home:
            for word in home.words:
                for name in [*word.parts * (word.kind == "data"), word.name]:
                    names.setdefault(name.strip("◌").replace("◌", " "), []).append((home.name, name))
        for token in set(re.findall(r"[^\s(){}\[\],;⦃⦄]+", text)):
            head, _, tail = token.partition(".")
            for module, word in names.get(token, []) + (names.get(head, []) if tail else []):
                it = self.find(module, word)
                found += [it] if it else []
                others |= set() if it else {(module, word)}
            if tail and head in aliases:
                word = tail.partition(".")[0]
                it = self.find(aliases[head], word)
                found += [it] if it else []
                # a variable may have the name of a module, and then this is a field of it
                others |= set() if it or self.is_own(aliases[head]) else {(aliases[head], word)}
        return found, others


def written(path, text, checks):
    """Writes the text, or reports whether the file has it; returns whether all is well."""
    old = text_of(path) if os.path.isfile(path) else ""
    if old == text:
        return True
    if checks:
        print(f"{relative(path)} is not what the sources say: run {relative(sys.argv[0])}")
        return False
    with open(path, "w", encoding="utf-8") as file:
        file.write(text)
    print(f"wrote {relative(path)}")
    return True


def between(text, name, made):
    """Returns the text with the output of the tool `name` in place of the text between its two marks."""
    begin, end = f"<!-- made by tools/{name}: begin -->", f"<!-- made by tools/{name}: end -->"
    if begin not in text:
        return f"{text.rstrip()}\n\n{begin}\n{made}\n{end}\n"
    front, _, rest = text.partition(begin)
    return f"{front}{begin}\n{made}\n{end}{rest.partition(end)[2]}"
