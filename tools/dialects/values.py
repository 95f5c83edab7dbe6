"""What is written for programs that make types and attributes and look into them: constructors, getters, and the keys of attributes."""
import re

from dialects.definitions import range_imports, type_modules, using
from dialects.operations import listed
from dialects.parts import snake
from dialects.sources import more_uses, rust_uses

RUST = "as async await box break const continue crate dyn else enum extern false fn for gen if impl in let loop match mod move mut pub ref return self static "
RUST += "struct super trait true try type union unsafe use where while yield abstract become do final macro override priv typeof unsized virtual"
# methods that the types have from elsewhere
METHODS = "clone eq fmt has_word hash is_outlined is_print_once read try_clone write_text"
# words of clauses and of definitions
CLAUSES = "cond data elim ensures ghost module mutual now old open new record requires result rewrite rule ruleset search syntax with"
TAKEN = {*RUST.split(), *METHODS.split(), *CLAUSES.split()}


class Leaf:
    """A value in a part: its name, and how it is given, held and returned."""

    def __init__(self, name, part, path):
        self.name, self.part, self.path = name, part, path

    @property
    def given(self):
        """The type of the argument of a constructor."""
        part = self.part
        inner = {"Number": lambda: part.arguments[0], "Hex": lambda: part.arguments[0], "Truth": lambda: "bool", "Characters": lambda: "String", "Name": lambda: "Identifier", "Flag": lambda: "bool"}
        inner |= {"Own": lambda: "T", "ListOf": lambda: f"Vec<{part.arguments[1]}>"}
        return str(inner.get(part.name, lambda: part)())

    @property
    def made(self):
        """The part that is made of the argument."""
        by_new = f"{self.part.name}::new({self.name})"
        made = {name: by_new for name in ("Number", "Hex", "Characters", "Name", "Flag", "ListOf")}
        made |= {name: f"{name} {{ value: {self.name} }}" for name in ("Own", "Truth")}
        return made.get(self.part.name, self.name)

    @property
    def returned(self):
        """The type that a getter returns."""
        part = self.part
        if part.name == "ListOf":
            return f"&[{part.arguments[1]}]"
        plain = {name: str(part.arguments[0]) if part.arguments else "" for name in ("Number", "Hex")}
        plain |= {"Ranged": "u64", "Truth": "bool", "Flag": "bool", "Characters": "&str", "Name": "&Identifier", "Own": "&T"}
        return plain.get(part.name, str(part) if part.is_choice else f"&{part}")

    @property
    def got(self):
        """What a getter returns."""
        if self.part.name == "Truth":
            return f"{self.path}.value"
        calls = {"Number": "get", "Hex": "get", "Ranged": "get", "Flag": "is_set", "Characters": "as_str", "Name": "as_identifier", "ListOf": "as_slice"}
        if self.part.name in calls:
            return f"{self.path}.{calls[self.part.name]}()"
        if self.part.name == "Own":
            return f"&{self.path}.value"
        if self.path == "part":
            return "*part" if self.part.is_choice else "part"
        return self.path if self.part.is_choice else f"&{self.path}"

    # ---- the value in a contract

    @property
    def kind(self):
        """The type of the value in a definition."""
        part = self.part
        if part.name == "Number":
            return "ℕ" if part.arguments[0].name.startswith("u") else "ℤ"
        return {"Hex": "ℕ", "Ranged": "ℕ", "Flag": "Bool", "Truth": "Bool", "Characters": "Text", "Name": "Text", "Own": "T"}.get(part.name, part.type())

    @property
    def held(self):
        """The value of the part `x`, in a definition."""
        path = re.sub("^part", "x", self.path)
        return path + {"Hex": ".number.value", "Number": ".value", "Ranged": ".value", "Own": ".value", "Truth": ".value", "Characters": ".characters", "Name": ".characters"}.get(self.part.name, "")

    @property
    def given_value(self):
        """The value of the argument of a constructor, in its contract."""
        return {"Ranged": f"{self.name}.value", "Characters": f"(chars (string_bytes {self.name}))", "ListOf": f"{self.name}.items"}.get(self.part.name, self.name)

    def returned_value(self, result):
        """The value of what a getter returns, in its contract."""
        if self.part.name == "Characters":
            return f"chars {result}.now"
        return f"{result}.now" if self.returned.startswith("&") else result


def name_of(part):
    """The name of a value, after its part."""
    named = {"Number": "number", "Hex": "bits", "Truth": "is_true", "Characters": "text", "Name": "name", "Own": "of_type", "ListOf": "items", "Option": "option"}
    if part.name == "Ranged":
        return snake(part.arguments[0].name)
    return f"is_{part.text}" if part.name == "Flag" else named.get(part.name, snake(part.name))


def parts_within(part, path="part"):
    """Yields the parts that hold values, in their order, with their paths."""
    if part.name == "Within":
        yield from parts_within(part.arguments[1], f"{path}.inside")
    elif part.name == "Then":
        yield from parts_within(part.arguments[0], f"{path}.first")
        yield from parts_within(part.arguments[2], f"{path}.second")
    elif part.name != "Keyword":
        yield part, path


def leaves(part):
    """Returns the values of a part; names that come more than once are numbered."""
    found = list(parts_within(part))
    names = [it.field or name_of(it) for it, _ in found]
    names = [f"{it}_" if it in TAKEN else it for it in names]
    numbered = [f"{it}_{names[:at].count(it) + 1}" if names.count(it) > 1 else it for at, it in enumerate(names)]
    return [Leaf(name, it, path) for name, (it, path) in zip(numbered, found)]


def made_of(part, names):
    """The part that is made of arguments, whose values are taken from the front of a list."""
    if part.name == "Within":
        return f"Within {{ inside: {made_of(part.arguments[1], names)}, brackets: PhantomData }}"
    if part.name == "Then":
        first = made_of(part.arguments[0], names)
        return f"Then {{ first: {first}, second: {made_of(part.arguments[2], names)}, between: PhantomData }}"
    return "Keyword::new()" if part.name == "Keyword" else names.pop(0).made


class Values:
    """The constructors and getters of a family."""

    def __init__(self, family):
        self.family, self.dialect = family, family.dialect
        self.short = "ty" if family.is_type else "attr"
        self.enum = f"{family.enum}<T>" if family.generic else family.enum
        self.file = "TypeValues" if family.is_type else "AttributeValues"

    def constructor(self, row):
        return f"{row.name}_{'type' if self.family.is_type else 'attr'}" if row.name in TAKEN else row.name

    @property
    def viewed(self):
        """The variants that hold values."""
        return [row for row in self.family.held if leaves(row.part)]

    def definitions(self):
        """What each value holds, for the contracts."""
        family, body = self.family, []
        forall = "{T : Type 0} → " if family.generic else ""
        value = f"{family.enum} T" if family.generic else family.enum
        for row in self.viewed:
            found = leaves(row.part)
            kinds = [f"({it.kind})" if " " in it.kind else it.kind for it in found]
            kind = f"({' × '.join(kinds)})" if len(found) > 1 else kinds[0]
            held = ", ".join(it.held for it in found)
            body += ["", f"-- what `{row.text}` holds, if it is one: {', '.join(it.name for it in found)}"]
            body += [f"abbrev pub as_{row.name} : {forall}{value} → Option {kind}"]
            body += [f"as_{row.name} ({self.short}.{row.variant} x) = Some {f'({held})' if len(found) > 1 else held}"]
            body += [f"as_{row.name} _ = None"] if len(family.rows) > 1 else []
        text = "\n".join(body[1:]) + "\n"
        crate = self.dialect.crate
        lines = [f"-- For callers: what the {family.noun}s of the dialect `{self.dialect.name}` hold."]
        lines += using([
            ("Rattle.std.specs.Prelude", "ℕ ℤ Bool Option Some None List"),
            ("Rattle.irtext_base.specs.Text", "Text"),
            *type_modules(self.dialect),
        ], "\n".join(it for it in body if not it.startswith("--")))
        base = f"Rattle.{crate}.specs.declared.{family.module}.{family.enum}"
        lines += range_imports(self.dialect, text)
        lines += [f"use {base}.{{{family.enum}}}", f"use {base}.TheVariants as {self.short}"]
        return "\n".join(lines) + "\n\n" + text

    def methods(self):
        """The impl with a constructor and a getter for each variant that has a part."""
        family = self.family
        lines = [f"impl{'<T>' if family.generic else ''} {self.enum} {{"]
        if self.viewed:
            names = ", ".join(f"as_{row.name}" for row in self.viewed)
            lines += [f"    ghost use Rattle.{self.dialect.crate}.specs.{self.file}.{{{names}}};", ""]
        blocks = [it for row in family.held for it in (self.make(row), self.get(row)) if it]
        for at, block in enumerate(blocks):
            lines += ([""] if at else []) + [f"    {line}" for line in block]
        return lines + ["}"]

    def make(self, row):
        found = leaves(row.part)
        arguments = ", ".join(f"{it.name}: {it.given}" for it in found)
        values = ", ".join(it.given_value for it in found)
        values = f"({values})" if len(found) > 1 else values
        clause = [f"    ensures {{ as_{row.name} result ≡ Some {values} }}"] if found else []
        return [
            f"/// Returns the {self.family.noun} `{row.text}` of {listed([it.name for it in found])}." if found else f"/// Returns the {self.family.noun} `{row.text}`.",
            f"pub fn {self.constructor(row)}({arguments}) -> {self.enum}",
            *clause,
            "{",
            f"    {self.family.enum}::{row.variant}({made_of(row.part, list(found))})",
            "}",
        ]

    def get(self, row):
        found = leaves(row.part)
        if not found:
            return []
        if len(found) > 1:
            returned, got = f"({', '.join(it.returned for it in found)})", f"({', '.join(it.got for it in found)})"
            values = [it.returned_value(f"v.{at}") for at, it in enumerate(found)]
            is_plain = all(it.returned_value("v") == "v" for it in found)
            value = "result" if is_plain else f"option_map (λ v. ({', '.join(values)})) result"
        else:
            returned, got = found[0].returned, found[0].got
            value = found[0].returned_value("v")
            value = "result" if value == "v" else "option_copied result" if value == "v.now" else f"option_map (λ v. {value}) result"
        rest = ["        _ => None,"] if len(self.family.rows) > 1 else []
        return [
            f"/// Returns {listed([it.name for it in found])} of `{row.text}`, or `None` for any other {self.family.noun}.",
            f"pub fn as_{row.name}(&self) -> Option<{returned}>",
            f"    ensures {{ {value} ≡ as_{row.name} self.now }}",
            "{",
            "    match self {",
            f"        {self.family.enum}::{row.variant}(part) => Some({got}),",
            *rest,
            "    }",
            "}",
        ]


def values_source(dialect):
    """The file of constructors and getters, if there are any."""
    families = [it for it in dialect.families if it.held and not it.is_tree]
    body = "\n\n".join("\n".join(Values(it).methods()) for it in families) + "\n"
    head = [f"//! Constructors of the {' and the '.join(f'{it.noun}s' for it in families)} of the dialect `{dialect.name}`, and what each holds."]
    ghosts = using([("Rattle.std.specs.Prelude", "◌≡◌ Some option_copied option_map string_bytes"), ("Rattle.std.specs.Str", "chars")], body)
    head += [f"ghost {it};" for it in ghosts] + [""]
    modules = [(f"crate::{it.module}", it.enum) for it in families] + dialect.own_modules()
    modules += [("crate::fixed", " ".join([*dialect.fixed, *dialect.ranges]))]
    modules += [("irtext_base::base", "Identifier"), ("irtext_syntax", "Characters ListOf Name Number")]
    modules += [("irtext_syntax::keyword", "Flag Keyword"), ("irtext_syntax::own", "Own"), ("irtext_syntax::range", "Ranged")]
    modules += [("irtext_syntax::ready", "Angle Arrow Colon Comma Curly Round SpacedArrow Square"), ("irtext_syntax::sequence", "Then Within")]
    modules += [*more_uses(), ("std::marker", "PhantomData")]
    return "\n".join(head + rust_uses(modules, body)) + "\n\n" + body


# ---- keys


def keys_of(dialect):
    """Returns the keys that formats name, each with the operations that have it."""
    found = {}
    for op in dialect.operations:
        for it in op.directives:
            if it.kind == "key":
                found.setdefault(it.argument, []).append(f"{dialect.name}.{op.name}")
    return found


def constants(dialect):
    """Returns the name of the constant of each key: the key without the dialect's name, where that is no other one's."""
    keys = keys_of(dialect)
    short = {it: it.removeprefix(f"{dialect.name}_") or it for it in keys}
    counts = [it.upper() for it in short.values()]
    return {it: f"{(short[it] if counts.count(short[it].upper()) == 1 else it).upper()}_KEY" for it in keys}


def keys_source(dialect):
    """The file of the keys."""
    lines = [f"//! The keys of the attributes that the formats of the operations of the dialect `{dialect.name}` name."]
    names = constants(dialect)
    for key, ops in keys_of(dialect).items():
        lines += ["", f"/// The key `{key}`, of {listed(ops)}.", f"pub const {names[key]}: &'static str = \"{key}\";"]
    return "\n".join(lines) + "\n"
