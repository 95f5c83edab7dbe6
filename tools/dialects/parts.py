"""The parts of texts: how each is written in Rust, in the definitions and in the laws, and where it can stand."""
import re

NUMBERS = "u8 u16 u32 u64 usize i8 i16 i32 i64 isize".split()
BRACKETS = {"Angle": "<>", "Round": "()", "Square": "[]", "Curly": ("{ ", " }")}
# the parts of irtext_parts, with their types in definitions, their shapes and their laws, and that they can be the end of a text
MORE = {
    "Decimal": ("DecimalText", "decimal", "decimal_proved", "decimal_last", "decimal_missing"),
    "Digits": ("DigitsText", "digits", "digits_proved", "digits_spelled_last", "digits_missing"),
    "Hexadecimal": ("HexadecimalText", "hexadecimal", "hexadecimal_proved", "hexadecimal_last", "hexadecimal_missing"),
    "Symbol": ("Symbol", "symbol", "symbol_proved", "symbol_last", "symbol_missing"),
    "Truth": ("Truth", "truth", "truth_proved", "anything_ends", "truth_missing"),
}
SPACED = {"Equals": " = ", "Times": " x ", "Blank": " "}  # its fixed texts, which come after a part that can be the end of a text
PARTS = {"Number": 1, "Ranged": 1, "Characters": 0, "Name": 0, "Keyword": 1, "Flag": 1, "Own": 1, "Within": 2, "Then": 3, "ListOf": 2, "Option": 1, "Hex": 1}
PARTS |= {it: 0 for it in MORE}
FIXED = {"Colon": ": ", "Comma": ", ", "Arrow": "->", "SpacedArrow": " -> "} | SPACED


HOLES = {"whole": 0, "attribute": 0}  # a type or an attribute of the context, in one that holds it


class Wrong(Exception):
    """What is wrong with a line of the description."""


class Part:
    """A part as it is written in Rust, `Then<Number<i64>, Colon, Own<T>>`: a name and its arguments."""

    file = ""  # of a choice and of a part written by hand, its file
    text = ""  # of a keyword or a flag, its word
    field = ""  # the name of its value, if it is given one
    is_choice, words = False, ()  # whether it is a choice, and its words

    def __init__(self, name, arguments):
        self.name, self.arguments = name, arguments

    def __str__(self):
        return self.name + (f"<{', '.join(map(str, self.arguments))}>" if self.arguments else "")

    def all(self):
        return [self] + [it for argument in self.arguments for it in argument.all()]

    def type(self):
        """The type of its values, in a definition."""
        name, inner = self.name, self.arguments
        if name == "Number":
            return f"Number {'ℕ' if inner[0].name.startswith('u') else 'ℤ'} {inner[0]}.radix"
        if name == "Hex":
            return f"Hex ℕ {inner[0]}.radix"
        if name in MORE:
            return MORE[name][0]
        if name == "Ranged":
            return f"Ranged {inner[0]} {snake(inner[0].name)}.ghosts"
        if name in ("Option", "ListOf"):
            return f"{'Option' if name == 'Option' else 'List'} {grouped(inner[-1].type())}"
        if name in ("Within", "Then", "Own"):
            return " ".join([name, *(grouped(it.type()) for it in inner)])
        return {"Characters": "ScalarText", "Name": "WordText", "Keyword": "Unit", "Flag": "Bool"}.get(name, name)

    def shape(self):
        """What is parsed and printed for it, in a definition."""
        name, inner = self.name, self.arguments
        if name == "Number":
            return f"number {inner[0]}"
        if name == "Hex":
            return f"hex {inner[0]}"
        if name in MORE:
            return MORE[name][1]
        if name == "Ranged":
            return f"ranged {snake(inner[0].name)}.ghosts"
        if name in ("Keyword", "Flag"):
            return f'{name.lower()} (codes "{self.text}")'
        if name == "Own":
            return "own type_at type_text type_eq"
        if name == "Option":
            return f"maybe {grouped(inner[0].shape())}"
        if name in ("Within", "ListOf"):
            return f"{'within' if name == 'Within' else 'list_of'} {snake(inner[0].name)} {grouped(inner[1].shape())}"
        if name == "Then":
            return f"then_of {grouped(inner[0].shape())} {snake(inner[1].name)} {grouped(inner[2].shape())}"
        return {"Characters": "quoted", "Name": "name"}.get(name, self.file)

    def proved(self):
        """Its law, by those of its parts."""
        name, inner = self.name, self.arguments
        if name == "Number":
            return f"number_proved {inner[0]}"
        if name == "Hex":
            return f"hex_proved {inner[0]} refl"
        if name in MORE:
            return MORE[name][2]
        if name == "Ranged":
            return f"ranged_proved {snake(inner[0].name)}.ghosts"
        if name in ("Keyword", "Flag"):
            return f'{name.lower()}_proved (codes "{self.text}") refl'
        if name == "Own":
            return "own_proved lawful sincere decides"
        if name == "Option":
            return f"maybe_proved {grouped(inner[0].proved())} {grouped(inner[0].missing())}"
        if name == "Within":
            return f"within_proved {snake(inner[0].name)}_encloses {grouped(inner[1].proved())}"
        if name == "ListOf":
            return f"list_proved {snake(inner[0].name)}_encloses {grouped(inner[1].proved())} {grouped(inner[1].missing())}"
        if name == "Then":
            return f"then_proved {grouped(inner[0].proved())} {grouped(inner[0].joins(inner[1].name))} {grouped(inner[2].proved())}"
        return {"Characters": "quoted_proved", "Name": "name_proved"}.get(name, f"{self.file}_proved")

    def joins(self, between):
        """That a fixed text can come right after it."""
        if between == "Arrow":
            if not self.is_closed():
                raise Wrong(f"Arrow comes after a part in brackets or a quoted text, and not after {self}: take SpacedArrow")
            return "arrow_joins (λ rest. refl)"
        spaced = between == "SpacedArrow" or between in SPACED
        return f"{snake(between)}_joins {grouped(self.last())}" if spaced else f"{snake(between)}_joins"

    def is_closed(self):
        """Whether any text can come after it."""
        return self.arguments[2].is_closed() if self.name == "Then" else self.name in ("Within", "ListOf", "Characters", "Truth")

    def last(self):
        """That it can be the end of a text."""
        if self.name == "Then":
            return self.arguments[2].last()
        if self.name in ("Option", "Flag"):
            raise Wrong(f"{self} cannot be the end of a text: put it into brackets, so that a closing character comes after it")
        if self.is_closed():
            return "anything_ends"
        if self.name in MORE:
            return MORE[self.name][3]
        ready = {"Hex": "hex_last", "Number": "digits_last", "Ranged": "digits_last", "Name": "word_last", "Keyword": "word_last", "Own": "own_last"}
        return ready.get(self.name, f"{self.file}_last")

    def missing(self):
        """That it is missing where a closing character comes."""
        name, inner = self.name, self.arguments
        if name in ("Option", "Flag"):
            raise Wrong(f"{self} cannot be an item of a list, or be left out: it is never missing")
        if name == "Number":
            return f"number_missing {inner[0]}"
        if name == "Hex":
            return f"hex_missing {inner[0]} refl"
        if name in MORE:
            return MORE[name][4]
        if name == "Ranged":
            return f"ranged_missing {snake(inner[0].name)}.ghosts"
        if name == "Keyword":
            return f'keyword_missing (codes "{self.text}") refl'
        if name == "Own":
            return "own_missing lawful sincere decides"
        if name in ("Within", "ListOf"):
            return f"{'within' if name == 'Within' else 'list'}_missing {snake(inner[0].name)}_encloses {grouped(inner[1].proved())}"
        if name == "Then":
            return f"then_missing {grouped(inner[0].missing())} {grouped(inner[0].joins(inner[1].name))} {grouped(inner[2].proved())}"
        return {"Characters": "quoted_missing", "Name": "name_missing"}.get(name, f"{self.file}_missing")


def identifier(word, what):
    if not re.fullmatch(r"[a-z_][a-z0-9_]*", word):
        raise Wrong(f"`{word}` is no {what}: a lower-case letter or `_`, and then these and digits")
    return word


def grouped(text):
    return f"({text})" if " " in text else text


def snake(name):
    return re.sub(r"(?<!^)(?=[A-Z])", "_", name).lower()


def part_of(text):
    """Parses a part, with a name of its value and a colon before it or without these."""
    tokens = re.findall(r"\w+|\S", text)

    def one():
        if not tokens or not tokens[0].isidentifier():
            raise Wrong(f"a part is expected at `{''.join(tokens) or 'the end'}`")
        name, arguments, field = tokens.pop(0), [], ""
        if tokens and tokens[0] == ":":
            field = identifier(name, "name of a value")
            tokens.pop(0)
            if not tokens or not tokens[0].isidentifier():
                raise Wrong(f"a part is expected after `{field}:`")
            name = tokens.pop(0)
        if tokens and tokens[0] == "<":
            while tokens.pop(0) != ">":
                arguments.append(one())
                if not tokens or tokens[0] not in ",>":
                    raise Wrong(f"`,` or `>` is expected in the part {text}")
        part = Part(name, arguments)
        part.field = field
        return part

    found = one()
    if tokens:
        raise Wrong(f"the part {text} ends before `{''.join(tokens)}`")
    return found


def check_part(dialect, family, part):
    """Fails if the tool does not know the part, or if the part has other arguments."""
    wanted = PARTS | HOLES | {it: 0 for it in dialect.own}
    if part.name in dialect.own:
        part.file, part.is_choice = dialect.own[part.name][0], part.name in dialect.choices
        part.words = [word for word, _ in dialect.choices.get(part.name, [])]
    if part.name not in wanted:
        known = f"there are {', '.join(wanted)}"
        raise Wrong(f"no part {part.name} is known: {known}; `choice {part.name}: WORD ..` makes one, and `part FILE::{part.name} DEFINITIONS LAWS` names one written by hand")
    if len(part.arguments) != wanted[part.name]:
        raise Wrong(f"{part.name} has {['no argument', 'one argument', 'two arguments', 'three arguments'][wanted[part.name]]}")
    if part.field and part.name in ("Keyword", "Then", "Within"):
        raise Wrong(f"{part} is not one value, so it has no name: name its parts in place of `{part.field}`")
    for it in check_arguments(dialect, family, part):
        check_part(dialect, family, it)


def check_arguments(dialect, family, part):
    """Fails if an argument that is no part is not one that the part takes; returns those that are parts."""
    inner = list(part.arguments)
    if part.name == "Number":
        if str(inner.pop()) not in NUMBERS:
            raise Wrong(f"Number<N> is of one of the types {', '.join(NUMBERS)}")
    elif part.name == "Hex":
        if str(inner.pop()) not in ("u32", "u64"):
            raise Wrong("Hex<N> is of u32 or u64")
    elif part.name == "Ranged":
        name = str(inner.pop())
        if name not in dialect.ranges:
            raise Wrong(f"{name} is no range: `range LOW..HIGH: {name}` before this line names one")
    elif part.name in ("Keyword", "Flag"):
        name = str(inner.pop())
        if name not in dialect.fixed:
            raise Wrong(f"{name} is no word: `word TEXT: {name}` before this line names one")
        part.text = dialect.fixed[name]
    elif part.name == "Own":
        if family.is_type or str(inner.pop()) != "T":
            raise Wrong("Own<T>, a type of the context, is a part of attributes alone; a type holds types by `whole`")
    elif part.name in HOLES:
        if family.is_type != (part.name == "whole"):
            raise Wrong("`whole` is a type in a type, and `attribute` an attribute in an attribute; an attribute holds types by Own<T>")
    elif part.name in ("Within", "ListOf"):
        if str(inner.pop(0)) not in BRACKETS:
            raise Wrong(f"{part.name} has one of the brackets {', '.join(BRACKETS)}")
    elif part.name == "Then" and str(inner.pop(1)) not in FIXED:
        raise Wrong(f"Then has one of the fixed texts {', '.join(FIXED)}")
    return inner


def pieces_of(text):
    """Splits a text at the commas that are in no brackets."""
    found, depth = [""], 0
    for c in text:
        depth += (c == "<") - (c == ">")
        if c == "," and not depth:
            found.append("")
        else:
            found[-1] += c
    return [it.strip() for it in found]


def fields_of(variant, text):
    """Parses `NAME: PART, NAME: PART`: returns the part of the fields in braces, and the word of each field's name.

    Its text is `{ NAME: PART, NAME: PART }`."""
    found, words = None, {}
    for piece in reversed(pieces_of(text)):
        part = part_of(piece)
        if not part.field:
            raise Wrong(f"`NAME: PART` is expected in the braces, and not `{piece}`")
        word = variant + "".join(it.capitalize() for it in part.field.split("_"))
        if word in words:
            raise Wrong(f"the field `{part.field}`, or one that is spelled alike, is there already")
        words[word] = part.field
        field = Part("Then", [Part("Keyword", [Part(word, [])]), Part("Colon", []), part])
        found = Part("Then", [field, Part("Comma", []), found]) if found else field
    return Part("Within", [Part("Curly", []), found]), words


SHOWN = {"Number": "N", "Ranged": "N", "Digits": "N", "Decimal": "N.N", "Hex": "0xN", "Hexadecimal": "0xB", "Symbol": "@S", "Truth": "true|false"}


def shown(part):
    """How the text of a part looks, in a comment."""
    name, inner = part.name, part.arguments
    if name in SHOWN:
        return SHOWN[name]
    if name == "Keyword":
        return part.text
    if name == "Flag":
        return f"{part.text}?"
    if name == "Characters":
        return '"S"'
    if name == "Name":
        return "I"
    if name in ("Own", *HOLES):
        return "T" if name != "attribute" else "A"
    if name == "Within":
        opening, closing = BRACKETS[inner[0].name]
        return opening + shown(inner[1]) + closing
    if name == "Then":
        return shown(inner[0]) + FIXED[inner[1].name] + shown(inner[2])
    if name == "ListOf":
        opening, closing = BRACKETS[inner[0].name]
        return f"{opening}{shown(inner[1])}, ..{closing}"
    return "|".join(part.words) if part.is_choice else "P"
