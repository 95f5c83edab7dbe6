"""Formats of operations: how they are written, and whether their texts can be parsed in one way only."""
import re

from dialects.parts import Wrong

DIRECTIVE = re.compile(
    r"`(?P<literal>(?:[^`]|``)*)`(?!`)|type\(\$(?P<result>\d+)\)|\$(?P<operand>\d+)|\$(?P<key>[A-Za-z_]\w*)|\^(?P<successor>\d+)|\{(?P<region>\d+)\}"
    r"|(?P<word>@name|(?:operands|successors|attr_dict|regions|canonical)(?!\w))",
    re.A,
)
# how a directive is written, and what its text is called in an error
NOTATION = {"literal": "`{}`", "key": "${}", "operand": "${}", "successor": "^{}", "region": "{{{}}}", "result": "type(${})", "word": "{}"}
LIST_OF = {"operands": "operand", "successors": "successor", "regions": "region"}
GIVEN_NAMES, SYM_NAME = "builtin_given_names", "builtin_sym_name"
LETTER = "a letter or `_`"
BEGINS = {"operand": [LETTER], "successor": ["`^`"], "result": [LETTER], "region": ["`{`"], "key": [LETTER, "`!`"]}
BEGINS |= {"operands": [LETTER], "successors": ["`^`"], "regions": ["`{`"], "attr_dict": ["`[`"], "@name": ["`@`"]}
GOES_ON = {"operands": [LETTER, "`,`"], "successors": ["`^`", "`,`"], "regions": ["`{`"]}
AFTER = ["`!`", "`;`", "`}`", "`^`"]
NOUNS = {"operand": "operands", "successor": "successors", "result": "types of results", "region": "regions"}


class Directive:
    """A directive of a format: its kind, its argument, and its place in the format, counted from 1."""

    def __init__(self, kind, argument, place):
        self.kind, self.place = kind, place
        self.argument = int(argument) if kind in BEGINS and kind != "key" else argument.replace("``", "`") if kind == "literal" else argument

    def __iter__(self):
        return iter((self.kind, self.argument))

    def __str__(self):
        return NOTATION[self.kind].format(self.argument.replace("`", "``") if self.kind == "literal" else self.argument)

    @property
    def name(self):
        """The kind, and of a word itself."""
        return self.argument if self.kind == "word" else self.kind

    def begins(self):
        """What its text can begin with."""
        if self.kind == "literal":
            first = self.argument[0]
            return [LETTER if first.isalpha() or first == "_" else f"`{first}`"]
        return BEGINS[self.name]


class FormatFault(Exception):
    """The first condition that a format fails, by its number, the directive that fails it, and what is wrong."""

    def __init__(self, number, directive, says):
        super().__init__(f"the format fails condition C{number} at its directive {directive.place}, {quoted(directive)}: {says}")
        self.number, self.directive = number, directive


def quoted(directive):
    """A directive in an error; one that has a backquote is between two."""
    text = str(directive)
    return f"`` {text} ``" if "`" in text else f"`{text}`"


def directives_of(text):
    """Returns the directives of a format; an error says where none begins."""
    found, at = [], 0
    while text[at:].strip():
        at += len(text[at:]) - len(text[at:].lstrip())
        match = DIRECTIVE.match(text, at)
        if not match:
            begins = "after the last directive" if found else "at its begin"
            raise Wrong(f"in the format, {begins}: {text[at:].strip()} does not begin with a directive")
        found.append(Directive(match.lastgroup, match.group(match.lastgroup), len(found) + 1))
        at = match.end()
    if len(found) > 1 and any(it.name == "canonical" for it in found):
        raise Wrong("`canonical` is a format of its own, without other directives")
    return found


# ---- the conditions, in the order in which the library checks them


def check_literals(format_):
    for it in format_:
        if it.kind == "literal" and not (it.argument and all("!" <= c <= "~" for c in it.argument)):
            says = "it is empty" if not it.argument else "each of its characters has to be printable ASCII and no white space"
            raise FormatFault(1, it, f"a fixed text is parsed character by character, and {says}")


def check_places(number, kind, many):
    """The indices of this kind are 0, 1 and so on, each once, in any order; there is at most one list of all others."""

    def check(format_):
        named = [it for it in format_ if it.kind == kind]
        for at, it in enumerate(named):
            if any(it.argument == other.argument for other in named[:at]):
                raise FormatFault(number, it, f"index {it.argument} is there already")
        for it in named:
            if it.argument >= len(named):
                missing = min(set(range(len(named))) - {other.argument for other in named})
                raise FormatFault(number, it, f"the indices of {NOUNS[kind]} are 0, 1 and so on, and {missing} is not there")
        check_once(number, many, format_)

    return check


def check_once(number, name, format_):
    """At most one directive has this name."""
    for it in [it for it in format_ if it.name == name][1:]:
        raise FormatFault(number, it, f"`{name}` is there already")


def check_regions(format_):
    named = [it for it in format_ if it.kind == "region"]
    for wanted, it in enumerate(named):
        if it.argument != wanted:
            raise FormatFault(5, it, f"the indices of regions are 0, 1 and so on, in this order, and {wanted} comes here")
    check_once(5, "regions", format_)
    for late in (it for it in format_ if it.name == "regions"):
        for it in format_[late.place :]:
            if it.kind == "region":
                raise FormatFault(5, it, "`regions` are those that have no directive of their own, and come after all others")


def check_keys(format_):
    keys = [it for it in format_ if it.kind == "key"]
    for at, it in enumerate(keys):
        if any(it.argument == other.argument for other in keys[:at]):
            raise FormatFault(6, it, f"the key {it.argument} is there already")
        if it.argument == GIVEN_NAMES:
            raise FormatFault(6, it, "this key is reserved: names of results come before the operation")
    check_once(6, "attr_dict", format_)
    check_once(6, "@name", format_)
    for it in keys:
        if it.argument == SYM_NAME and any(other.name == "@name" for other in format_):
            raise FormatFault(6, it, "`@name` has this key already")


def check_order(format_):
    for at, early in enumerate(format_):
        if early.name in ("region", "regions"):
            for it in format_[at + 1 :]:
                if it.name in ("operand", "operands", "successor", "successors", "result"):
                    raise FormatFault(7, it, f"operands, successors and types come before regions, and {quoted(early)} comes before it")


def followers(rest):
    """Yields what can come first in the text of these directives or after it, and the directive, or `None` after the operation."""
    for it in rest:
        for first in it.begins():
            yield first, it
        if it.name not in GOES_ON:
            return
    for first in AFTER:
        yield first, None


def check_lists(format_):
    for at, it in enumerate(format_):
        for first, follower in followers(format_[at + 1 :]) if it.name in GOES_ON else []:
            if first in GOES_ON[it.name]:
                where = f"{quoted(follower)}, which comes after it," if follower else "what comes after the operation"
                raise FormatFault(8, it, f"{where} can begin with {first}, and so can the next of the {it.name}")


CONDITIONS = [check_literals, check_places(2, "operand", "operands"), check_places(3, "successor", "successors"), check_places(4, "result", None)]
CONDITIONS += [check_regions, check_keys, check_order, check_lists]


def check_format(format_):
    """Fails with the first condition that the directives fail, as `check_format` of the library does. `canonical` always passes."""
    if [it.name for it in format_] != ["canonical"]:
        for condition in CONDITIONS:
            condition(format_)
