"""Random texts of the whole format, and random edits of them, for the tools that try the built programs."""
import random
import re
import string
from dataclasses import dataclass

# ---- texts: in all but the whole text each blank is where white space is allowed, and BLANK is a blank itself

BLANK = "\0"
LETTERS = string.ascii_letters + string.digits + "_"
WORDS = ["a", "b", "x", "y", "z", "x_v1", "v0", "v1", "block1v1", "_", "A9", "at", "line", "test", "builtin", "si64", "fused", "name"]
KEYS = ["a", "b", "dbg", "test_value", "builtin_func_type", "builtin_debug"]
QUOTED = ["a", "Z9", BLANK, "\\n", "\\t", "\\r", "\\0", "\\\\", '\\"', "\\'", "\\u{e9}", "\\u{1F600}", "\\u{7f}", "é", "😀", "\n", ";", "!3", "'"]
STYLES = [[" "], ["", " "], ["", " ", "\n", "\t", "\r\n", "\u00a0", "\u2028", " \n  "]]


class Chance(random.Random):
    """The random choices of a text; fast, since a text takes hundreds of them."""

    def choice(self, items):
        return items[int(self.random() * len(items))]

    def randrange(self, low, high=None):
        return int(self.random() * low) if high is None else low + int(self.random() * (high - low))


@dataclass
class Scope:
    """The values of a region that is isolated from above: all their names, and those that are not defined yet."""

    names: list
    left: list


class Text:
    """A random text of a root that resolves, with its section."""

    def __init__(self, chance, rooms):
        self.chance = chance
        self.room = chance.choice(rooms)  # operations that may still be made
        self.numbers = set()  # of marks
        self.entries = []
        self.shared = {}  # marks of attributes that the section has once, by what made them

    def whole(self):
        root = self.chance.choice([self.module, self.module, self.function, self.bare])(self.chance.randrange(1, 9))
        if self.numbers:
            self.chance.shuffle(self.entries)
            root += " outlined_attributes: " + " ".join(self.entries)
        gaps = self.chance.choice(STYLES)

        def gap(found):
            at, end = found.span()
            is_needed = at and root[at - 1] in LETTERS and root[end : end + 1] in LETTERS
            return self.chance.choice([it for it in gaps if it or not is_needed])

        return re.sub(" +", gap, root).replace(BLANK, " ")

    def some(self, most, make):
        return " , ".join(make() for _ in range(self.chance.randrange(most + 1)))

    def word(self):
        return self.chance.choice(WORDS)

    def words(self, most):
        """Returns different words."""
        return self.chance.sample(WORDS, self.chance.randrange(most + 1))

    # -- types, attributes and locations

    def width(self):
        return self.chance.choice(["si", "ui", "i"]) + self.chance.choice(["1", "32", "064", "65535"])

    def type(self):
        return self.chance.choice(["test.ptr", "builtin.integer " + self.width()])

    def quoted(self):
        return '"' + "".join(self.chance.choices(QUOTED, k=self.chance.randrange(5))) + '"'

    def note(self):
        return "test.dbg " + self.quoted()

    def attribute(self):
        number = self.chance.choice([0, 7, "+7", "-0", "007", 2**63 - 1, -(2**63)])
        return self.chance.choice(
            [
                f"builtin.integer < {number} : {self.width()} >",
                "builtin.string " + self.quoted(),
                f"builtin.function < ( {self.some(2, self.type)} ) -> ( {self.some(2, self.type)} ) >",
                "builtin.identifier " + self.word(),
                self.given_names(),
                self.note(),
            ]
        )

    def given_names(self):
        return f"builtin.given_names [ {self.some(3, lambda: self.chance.choice(WORDS + ['?']))} ]"

    def dictionary(self):
        return f"[ {self.some(3, lambda: f'{self.chance.choice(KEYS)} : {self.attribute()}')} ]"

    def location(self, deep):
        kind = self.chance.choice(["in-memory", "in-memory", "file", "file", "?", "fused", "fused with", "name", "callsite"][: 9 if deep else 5])
        if kind in ("in-memory", "file"):
            source = "<in-memory>" if kind == "in-memory" else self.quoted()
            line, column = self.chance.choices([1, 22, "+3", 0, -4, 2**31 - 1], k=2)
            return f"{source} : line : {line} , column : {column}"
        if kind == "name":
            return f"name : {self.quoted()} , loc : ({self.location(deep - 1)})"
        if kind == "callsite":
            return f"callsite ( {self.location(deep - 1)} at {self.location(deep - 1)} )"
        inside = f"[ {self.some(2, lambda: self.location(deep - 1))} ]"
        return {"?": "?", "fused": "fused " + inside, "fused with": f"fused < {self.attribute()} >{inside}"}[kind]

    # -- marks and their entries

    def number(self):
        number = self.chance.choice([self.chance.randrange(40), self.chance.getrandbits(64)])
        if number in self.numbers:
            return self.number()
        self.numbers.add(number)
        return number

    def reference(self, attribute):
        """Returns a reference to an attribute of the section, which is a new one or is there already."""
        shared = self.shared.setdefault(attribute.__name__, [])
        if not shared or self.chance.random() < 0.5:
            shared.append(f"!{self.number()}")
            self.entries.append(f"{shared[-1]} = {attribute()}")
        return self.chance.choice(shared)

    def mark(self, own="", asks=""):
        """Returns a mark or none. Its entry may have attributes that the section holds, and one that only its kind of item (operation
        or block) has; it has those that are required."""
        if not asks and self.chance.random() < 0.6:
            return ""
        number = self.number()
        if asks or self.chance.random() < 0.8:
            where = self.chance.choice(["", f"@[ {self.location(3)} ] ,"])
            notes = [self.chance.choice([self.note, lambda: self.reference(self.note)])() for _ in range(self.chance.randrange(3))]
            names = [f"builtin_given_names = {self.given_names()}"] * self.chance.choice([0, 0, 1])
            pairs = [f"{self.chance.choice(KEYS)} = {it}" for it in notes] + names + [it for it in [own, asks] if it]
            self.chance.shuffle(pairs)
            self.entries.append(f"!{number} = {where} [ {' , '.join(pairs)} ]")
        return self.chance.choice(["!", "!+", "!00"]) + str(number)

    # -- operations, blocks and regions

    def module(self, deep, *_):
        name = self.chance.choice(["", f"builtin_sym_name = builtin.identifier {self.word()}"])
        return f"builtin.module @{self.word()} {self.isolated(deep)} {self.mark(name)}"

    def function(self, deep, *_):
        kind, asks = self.held("builtin_func_type")
        return f"builtin.func @{self.word()} : {kind} {self.isolated(deep)} {self.mark(asks=asks)}"

    def bare(self, *_):
        return self.chance.choice(["", "= "]) + self.chance.choice(["test.nop ", "test.return "]) + self.mark()

    def held(self, key):
        """Returns an attribute in the text, or the marker that the section has it, and what the section has to have then."""
        if self.chance.random() < 0.7:
            return self.attribute(), ""
        return "!outlined", f"{key} = {self.reference(self.attribute)}"

    def isolated(self, deep):
        labels = self.words(4)
        names = self.words(5) if labels else []
        return self.region(deep, Scope(names, list(names)), labels, True)

    def region(self, deep, scope, labels, is_whole=False):
        blocks = [self.block(deep, scope, it, labels, is_whole and it == labels[-1]) for it in labels]
        return "{ " + " ".join(blocks) + " }"

    def block(self, deep, scope, label, labels, is_last):
        """Returns a block; the last one of a scope defines all names that are not defined yet."""
        arguments = self.some(2, lambda: f"{self.define(scope)} : {self.type()}")
        head = f"^{label} ( {arguments} ) {self.chance.choice(['', self.dictionary()])}"
        mark = self.mark(self.chance.choice(["", f"builtin_block_label = builtin.identifier {self.word()}"]))
        operations = [self.operation(deep - 1, scope, labels) for _ in range(self.chance.randrange(5))]
        while is_last and scope.left:
            operations.append(f"{self.define(scope)} = test.make : {self.type()} {self.mark()}")
        return f"{head} {mark} : {' ; '.join(operations)}"

    def define(self, scope):
        if scope.left and self.chance.random() < 0.8:
            return scope.left.pop(self.chance.randrange(len(scope.left)))
        scope.names.append(self.word() + f"{len(scope.names)}_")
        return scope.names[-1]

    def use(self, scope):
        return self.chance.choice(scope.names)

    def operation(self, deep, scope, labels):
        self.room -= 1
        kinds = [self.make, self.constant, self.general, self.general, self.bare, self.branch] + [self.uses, self.uses] * bool(scope.names)
        if self.room > 0 and deep > 0 and self.chance.random() < 0.4:
            kinds = [self.module, self.function, self.shared_region, self.tower]
        return self.chance.choice(kinds)(deep, scope, labels)

    def shared_region(self, deep, scope, _):
        return f"test.scope {self.region(deep, scope, self.words(2))} {self.mark()}"

    def tower(self, *_):
        high = self.chance.randrange(60)
        return "test.scope { ^a ( ) : " * high + "test.nop" + " } " * high + self.mark()

    def make(self, _deep, scope, _labels):
        return f"{self.define(scope)} = test.make : {self.type()} {self.mark()}"

    def constant(self, _deep, scope, _labels):
        value, asks = self.held("test_value")
        return f"{self.define(scope)} = test.constant {value} : {self.type()} {self.mark(asks=asks)}"

    def uses(self, _deep, scope, _labels):
        return self.chance.choice([f"test.use {self.use(scope)} ", f"test.return {self.some(3, lambda: self.use(scope))} "]) + self.mark()

    def branch(self, _deep, _scope, labels):
        return f"test.br ^{self.chance.choice(labels)} {self.mark()}"

    def general(self, deep, scope, labels):
        """Returns an operation in the canonical form."""
        names = self.some(2, lambda: self.define(scope))
        operands = self.some(2, lambda: self.use(scope)) if scope.names else ""
        targets = self.some(2, lambda: "^" + self.chance.choice(labels))
        types = f"< ( {self.some(2, self.type)} ) -> ( {' , '.join(self.type() for it in names.split(',') if it)} ) >"
        regions = " ".join(self.region(deep, scope, self.words(2)) for _ in range(self.chance.randrange(3) if deep > 0 and self.room > 0 else 0))
        own = self.chance.choice(["", f"a = {self.reference(self.attribute)}", f"b = {self.attribute()}"])
        return f"{names + ' = ' if names else ''}test.global ( {operands} ) [ {targets} ] {self.dictionary()} : {types} {regions} {self.mark(own)}"


# ---- edits

PIECES = list("{}[]()<>:;,=!@^?.\"\\ \n+-09aé") + ["{..}", "!0", "^a", "!outlined", "->", "@[?], ", "[]", "builtin.", 'test.dbg "s"', "x = "]
PIECES += ["builtin_given_names", "builtin_block_label", "builtin_sym_name", "\\u{d800}", "outlined_attributes:", "test.nop;", str(2**64)]


WORD = re.compile(r"\w+|\W")


def edited(chance, text):
    """Returns the text with a word, a character or a longer piece removed, doubled, moved or replaced, or with another before it."""
    at, end = WORD.search(text, chance.randrange(len(text))).span()
    end = chance.choice([end, end, end, at + 1, min(len(text), at + 8), min(len(text), at + 60)])
    before, piece, behind = text[:at], text[at:end], text[end:]
    if chance.random() < 0.2:
        rest = before + behind
        to = chance.randrange(len(rest) + 1)
        return rest[:to] + piece + rest[to:]
    other = chance.choice([chance.choice(PIECES), WORD.search(text, chance.randrange(len(text)))[0]])
    return before + chance.choice(["", piece + piece, other, other, other + piece]) + behind


def text_and_edit(seed, number, rooms=(0, 4, 15, 40)):
    """Returns the text of this number, which has to be accepted, and an edit of it. It has about as many operations as one of the rooms."""
    chance = Chance(f"{seed} {number}")
    text = Text(chance, rooms).whole()
    return text, edited(chance, text)
