"""What is written into src/ for the types and the attributes, and for words and ranges."""
import re

from dialects.definitions import SYNTAX, using
from dialects.parts import BRACKETS, FIXED, MORE, SPACED, shown
from dialects.words import Words


def rust_uses(modules, body):
    """Returns the imports of those of these names that occur in a source."""
    lines = []
    for line in using(modules, body):
        module, names = re.fullmatch(r"use (\S+)\.\{(.*)\}", line).groups()
        names = sorted(names.split(", "), key=lambda it: (it[0].islower(), it))
        lines += [f"use {module}::{names[0]};" if len(names) == 1 else f"use {module}::{{{', '.join(names)}}};"]
    return lines


def more_uses():
    """The modules of irtext_parts."""
    return [("irtext_parts", " ".join(["Hex", *MORE])), ("irtext_parts::spaced", " ".join(SPACED))]


class Sources:
    """The file of a family in src/."""

    def __init__(self, family):
        self.family, self.dialect = family, family.dialect
        self.name = "type" if family.is_type else "attr"
        self.enum = f"{family.enum}<T>" if family.generic else family.enum
        self.errors = "A" if family.is_type else "B"
        self.texts_given = " T.reading T.written T.eq" if family.generic else ""
        self.laws_given = " T.lawful T.sincere T.decides" if family.generic else ""

    def impl(self, more=""):
        """The parameters of an impl, for the errors of a context."""
        errors = f"{self.errors}: Drop" if self.family.has("ListOf") or self.family.has("Option") else self.errors
        return f"{errors}, T: IrText<{self.errors}>{more}" if self.family.generic else errors

    def ghosts(self, file, names):
        return f"    ghost use Rattle.{self.dialect.crate}.specs.{file}.{{{', '.join(names)}}};"

    def enums(self):
        family, name = self.family, self.dialect.name
        article = "A type" if family.is_type else "An attribute"
        of = ", over the types `T` of the context" if family.generic else ""
        lines = []
        for row in family.held:
            if row.is_named:
                lines += [f"/// What comes after `{row.text}`: `{shown(row.part)}`.", f"pub type {row.rust} = {row.part};", ""]
        lines += [f"/// {article} of the dialect `{name}`{of}."]
        if family.generic:
            lines += ["#[derive(Drop)]", "#[derive_where(PartialEq, Eq, Hash, Debug; T)]"]
        else:
            lines += ["#[derive(PartialEq, Eq, Hash, Debug, Drop)]"]
        lines += [f"pub enum {self.enum} {{"]
        for row in family.rows:
            shape = f" {shown(row.part)}" if row.part else ""
            where = ", once" if "once" in row.flags else ""
            where += ", in the section after the root" if "outlined" in row.flags else ""
            lines += [f"    /// Printed as `{row.text}{shape}`{where}."]
            lines += [f"    {row.variant}({row.rust})," if row.part else f"    {row.variant},"]
        lines += [
            "}",
            "",
            f"/// The words that {family.noun}s of the dialect begin with.",
            "#[derive(Clone, Copy)]",
            f"pub enum {family.words} {{",
        ]
        for row in family.rows:
            lines += [f"    /// `{row.text}`.", f"    {row.variant},"]
        return lines + ["}"]

    def table(self):
        family, n = self.family, self.name
        lines = [
            "",
            f"impl<{self.impl()}> Table<{self.enum}, {self.errors}> for {family.words} {{",
            self.ghosts(family.file, [f"{n}_word", f"{n}_after"]),
            "",
            f"    ghost word = {{ {n}_word }};",
            "",
            f"    ghost following = {{ {n}_after{self.texts_given} }};",
            "",
            f"    fn of(text: &str) -> Option<{family.words}> {{",
        ]
        lines += Words(family).of()
        lines += ["    }", ""]
        lines += [f"    fn parse(self, stream: &mut TextStream) -> ParseResult<{self.enum}, {self.errors}> {{", "        match self {"]
        for row in family.rows:
            made = f"{family.enum}::{row.variant}"
            what = f"Ok({made}(after_word(stream)?))" if row.part else f"word_alone(stream, {made})"
            lines += [f"            {family.words}::{row.variant} => {what},"]
        return lines + ["        }", "    }", "}"]

    def texts(self):
        family, n = self.family, self.name
        expected = "Type" if family.is_type else "Attribute"
        lines = ["", f"impl<{self.impl()}> IrText<{self.errors}> for {self.enum} {{"]
        if family.generic:
            lines += ["    ghost use Rattle.std.specs.Prelude.{refl};"]
            lines += [self.ghosts(f"declared.{family.module}.{family.enum}.TheVariants", [row.variant for row in family.rows])]
        lines += [
            self.ghosts(family.file, [f"{n}_at", f"{n}_text"]),
            self.ghosts(family.laws, [f"{n}_lawful", f"{n}_sincere", f"{n}_decides"]),
        ]
        for member, given in (("reading", f"at{self.texts_given}"), ("written", f"text{self.texts_given}")):
            lines += ["", f"    ghost {member} = {{ {n}_{given} }};"]
        for member in ("lawful", "sincere"):
            lines += ["", f"    ghost {member} = {{ {n}_{member}{self.laws_given} }};"]
        lines += ["", f"    ghost decides = {{ {n}_decides{self.laws_given}{self.alike()} }};"]
        lines += ["", f"    fn read(stream: &mut TextStream) -> ParseResult<{self.enum}, {self.errors}> {{"]
        lines += [
            f'        table_parse::<{family.words}, {self.enum}, {self.errors}>(stream, "Unregistered {family.noun} ", Expected::{expected})',
            "    }",
            "",
        ]
        lines += ["    fn write_text(&self, f: &mut String) -> Result<(), OutOfMemory> {", "        match self {"]
        for row in family.rows:
            made = f"{family.enum}::{row.variant}"
            if row.part:
                lines += [f'            {made}(part) => write_row::<{row.rust}, {self.errors}>("{row.text}", part, f),']
            else:
                lines += [f'            {made} => write_word("{row.text}", f),']
        return lines + ["        }", "    }", "}"]

    def alike(self):
        """That the derived test compares like with like, where it is not known to the definitions: by computation, for each pair."""
        if not self.family.generic:
            return ""
        case = lambda row, it: f"{row.variant} {it}" if row.part else row.variant
        inner = " | ".join(f"{case(row, 'y')} ↦ refl" for row in self.family.rows)
        outer = " | ".join(f"{case(row, 'x')} ↦ elim [ {inner} ]" for row in self.family.rows)
        return f" ⟦<{self.enum} as PartialEq>⟧.eq (elim [ {outer} ])"

    def copies(self):
        """The lines of a match that copies a value."""
        lines = ["        match self {"]
        for row in self.family.rows:
            made = f"{self.family.enum}::{row.variant}"
            lines += [f"            {made}(part) => Ok({made}(part.try_clone()?))," if row.part else f"            {made} => Ok({made}),"]
        return lines + ["        }"]

    def held_in_section(self):
        family = self.family
        bounds = self.impl(" + Hash + TryClone")
        lines = ["", f"impl<{bounds}> AttrText<B> for {self.enum} {{", self.ghosts(family.file, ["is_outlined", "is_print_once"])]
        lines += [
            self.ghosts(family.laws, ["attr_unreserved"]),
            "",
            "    ghost outlined = { is_outlined };",
            "",
            "    ghost print_once = { is_print_once };",
            "",
        ]
        lines += [f"    ghost unreserved = {{ attr_unreserved{self.laws_given} }};"]
        for method, flag in (("is_outlined", "outlined"), ("is_print_once", "once")):
            rows = [f"{family.enum}::{row.variant}{'(_)' if row.part else ''}" for row in family.rows if flag in row.flags]
            body = f"matches!(self, {' | '.join(rows)})" if rows else "false"
            lines += ["", f"    fn {method}(&self) -> bool {{", f"        {body}", "    }"]
        return lines + ["", f"    fn try_clone(&self) -> Result<{self.enum}, AllocError> {{"] + self.copies() + ["    }", "}"]

    def family_of(self):
        family, n = self.family, self.name
        forall = "<T>" if family.generic else ""
        lines = [
            "",
            f"impl{forall} Worded for {self.enum} {{",
            self.ghosts(family.file, [f"{n}_words"]),
            "",
            f"    ghost words = {{ {n}_words }};",
            "",
        ]
        lines += [
            "    fn has_word(word: &str) -> bool {",
            *Words(family).has_word(),
            "    }",
            "}",
            "",
        ]
        lines += [f"impl<{self.impl()}> Family<{self.errors}> for {self.enum} {{", self.ghosts(family.laws, [f"{n}_led"]), ""]
        return lines + [f"    ghost led = {{ {n}_led{self.laws_given} }};", "}"]

    def written(self):
        family = self.family
        body = self.enums() + Words(family).methods() + self.table() + self.texts()
        if family.is_type:
            body += ["", f"impl TryClone for {self.enum} {{", f"    fn try_clone(&self) -> Result<{self.enum}, AllocError> {{"] + self.copies() + ["    }", "}"]
        else:
            body += self.held_in_section()
        text = "\n".join(body + self.family_of()) + "\n"
        of = ", over the types of a context" if family.generic else ""
        head = [f"//! The {family.noun}s of the dialect `{self.dialect.name}`{of}."]
        own = [*self.dialect.own_modules(), ("crate::fixed", " ".join([*self.dialect.fixed, *self.dialect.ranges]))]
        clones = "try_clone()" in text
        syntax = [
            ("part", "TryClone"),
            ("keyword", "Flag Keyword"),
            ("own", "Own"),
            ("range", "Ranged"),
            ("ready", " ".join([*BRACKETS, *(it for it in FIXED if it not in SPACED)])),
            ("sequence", "Then Within"),
        ]
        syntax += [("table", "Table after_word table_parse word_alone write_row write_word")]
        modules = own + [("irtext_base::parsable", "ParseResult TextStream"), ("irtext_base::result", "Expected")]
        modules += [("irtext_base::text", "AttrText Family IrText Worded"), ("irtext_memory", "OutOfMemory"), ("irtext_syntax", "Characters ListOf Name Number match_text matches_text")]
        modules += [(f"irtext_syntax::{module}", names) for module, names in syntax]
        modules += [*more_uses(), ("std::alloc", "AllocError")]
        shown_names = text + ("TryClone" if clones else "")
        head += rust_uses(modules, shown_names)
        if " Hash + " in text:
            head += ["use std::hash::Hash;"]
        return "\n".join(head) + "\n\n" + text


def fixed_source(dialect):
    """The file of the fixed words and the ranges of numbers in src/."""
    kinds = (["fixed words"] if dialect.fixed else []) + (["ranges of numbers"] if dialect.ranges else [])
    lines = [f"//! The {' and the '.join(kinds)} in the texts of the dialect `{dialect.name}`."]
    lines += [f"ghost use Rattle.std.specs.Prelude.{{{'codes, ' if dialect.fixed else ''}refl}};"]
    lines += [f"ghost use {SYNTAX}.KeywordTexts.{{fixed_word}};"] if dialect.fixed else []
    lines += [f"ghost use {SYNTAX}.Ranges.{{from_to}};"] if dialect.ranges else []
    lines += [""]
    lines += ["use irtext_syntax::keyword::Word;"] if dialect.fixed else []
    lines += ["use irtext_syntax::range::Range;"] if dialect.ranges else []
    for name, text in dialect.fixed.items():
        lines += ["", f"/// The word `{text}`.", f"pub struct {name};", "", f"impl Word for {name} {{"]
        lines += [f'    ghost word = {{ fixed_word (codes "{text}") refl }};', "", "    fn word() -> &'static str {", f'        "{text}"', "    }", "}"]
    for name, ends in dialect.ranges.items():
        low, high = (f"{it:_}" for it in ends)
        lines += ["", f"/// The numbers from {ends[0]} to {ends[1]}.", f"pub struct {name};", "", f"impl Range for {name} {{"]
        lines += [f"    ghost bounds = {{ from_to {ends[0]} {ends[1]} refl }};", "", "    fn bounds() -> (u64, u64) {", f"        ({low}, {high})", "    }", "}"]
    return "\n".join(lines) + "\n"
