"""What is written for a choice of words: an enum with a variant for each word, as a part of other texts."""
import textwrap

from dialects.definitions import SYNTAX
from dialects.operations import listed
from dialects.parts import snake
from dialects.words import matched, one_of


def either(words):
    """Words in a sentence, of which one is chosen."""
    return listed(words).replace(" and ", " or ")


class Word:
    """A row of the table of words, as that of a type."""

    def __init__(self, text, variant):
        self.text, self.variant = text, variant


class Choice:
    """A choice, with its files."""

    def __init__(self, dialect, name):
        self.dialect, self.name, self.rows = dialect, name, dialect.choices[name]
        self.file, _, self.texts, self.laws = dialect.own[name]
        self.says = f"Unknown {snake(name).replace('_', ' ')} "
        # what is expected where no word comes: an attribute, where an attribute has the choice
        self.is_of_attribute = dialect.attributes.has(name) or not dialect.types.has(name)

    def is_cited(self, lemma):
        """Whether the laws of the types or of the attributes need a lemma."""
        laws = [row.part for family in self.dialect.families for row in family.held]
        text = " ".join(f"{it.proved()} {it.last()}" for it in laws)
        return lemma in text.replace("(", " ").replace(")", " ").split()

    def source(self):
        return "\n".join([*self.enum(), "", *self.impl_choice(), "", *self.impl_part(), "", *self.other_impls()]) + "\n"

    def enum(self):
        says = f"One of the words {either([word for word, _ in self.rows])}. Another word is an error with the text `{self.says}` and the word, at its beginning."
        lines = [
            f"//! The choice `{self.name}` of the dialect `{self.dialect.name}`: a word, as a part of other texts.",
            f"ghost use {SYNTAX}.OwnLaws.{{own_last}};",
            f"ghost use {SYNTAX}.Owns.{{ends_text}};",
            "",
            "use irtext_base::parsable::{ParseResult, TextStream};",
            "use irtext_base::result::Expected;",
            "use irtext_memory::OutOfMemory;",
            "use irtext_syntax::match_text;",
            "use irtext_syntax::part::{Item, Last, Part, Plain};",
            "use irtext_syntax::table::{Choice, table_parse, write_word};",
            "",
            *[f"/// {it}" for it in textwrap.wrap(says, 136)],
            "#[derive(Clone, Copy, PartialEq, Eq, Hash, Debug)]",
            f"pub enum {self.name} {{",
        ]
        for word, variant in self.rows:
            lines += [f"    /// Printed as `{word}`.", f"    {variant},"]
        return [*lines, "}"]

    def impl_choice(self):
        name, file = self.name, self.file
        return [
            f"impl Choice for {name} {{",
            f"    ghost use Rattle.{self.dialect.crate}.specs.{self.texts}.{{{file}_word}};",
            "",
            f"    ghost chosen = {{ {file}_word }};",
            "",
            f"    fn choice(text: &str) -> Option<{name}> {{",
            *matched([Word(*it) for it in self.rows], name, 8),
            "    }",
            "}",
        ]

    def impl_part(self):
        name, file, crate = self.name, self.file, self.dialect.crate
        expected = "Attribute" if self.is_of_attribute else "Type"
        return [
            f"impl<A> Part<A> for {name} {{",
            f"    ghost use Rattle.{crate}.specs.{self.texts}.{{{file}_at, {file}_text}};",
            f"    ghost use Rattle.{crate}.specs.{self.laws}.{{{file}_law, {file}_decides}};",
            "",
            f"    ghost text = {{ record {{ reading = {file}_at; written = {file}_text; ends = ends_text }} }};",
            "",
            f"    ghost sound = {{ record {{ law = {file}_law; decides = {file}_decides }} }};",
            "",
            f"    fn read(stream: &mut TextStream) -> ParseResult<{name}, A> {{",
            f'        table_parse::<{name}, {name}, A>(stream, "{self.says}", Expected::{expected})',
            "    }",
            "",
            "    fn write_text(&self, f: &mut String) -> Result<(), OutOfMemory> {",
            "        match self {",
            *[f'            {name}::{variant} => write_word("{word}", f),' for word, variant in self.rows],
            "        }",
            "    }",
            "}",
        ]

    def other_impls(self):
        name, file = self.name, self.file
        return [
            f"impl<A> Item<A> for {name} {{",
            f"    ghost use Rattle.{self.dialect.crate}.specs.{self.laws}.{{{file}_misses}};",
            "",
            f"    ghost misses = {{ {file}_misses }};",
            "}",
            "",
            f"impl<A> Last<A> for {name} {{",
            "    ghost last = { own_last };",
            "}",
            "",
            f"impl Plain for {name} {{}}",
        ]

    @property
    def declared(self):
        """The imports of the enum, of its variants and of its test of equality."""
        base = f"Rattle.{self.dialect.crate}.specs.declared.{self.file}.{self.name}"
        return [
            f"use {base}.{{{self.name}}}",
            f"use {base}.TheVariants as word",
            f"use Rattle.{self.dialect.crate}.specs.contracts.{self.file}.{self.name}PartialEq.TheImpl as test",
        ]

    @property
    def demand(self):
        return "AnAttribute" if self.is_of_attribute else "AType"

    def definitions(self):
        lines = [
            f"-- For callers: the texts of the choice `{self.name}`, each a word.",
            "use Rattle.std.specs.Prelude.{cond, Option, Some, None, List, [], ◌∷◌, codes}",
            "use Rattle.std.specs.Str.{bytes_eq}",
            "use Rattle.irtext_base.specs.Text.{Text}",
            f"use Rattle.irtext_base.specs.Faults.{{{self.demand}}}",
            "use Rattle.irtext_tokens.specs.Infix.{Reader, nothing}",
            f"use {SYNTAX}.Owns.{{ends_text}}",
            f"use {SYNTAX}.Shapes.{{Shape}}",
            f"use {SYNTAX}.Tables.{{table_at}}",
            *self.declared,
            "",
            *self.tables(),
        ]
        return "\n".join(lines) + "\n"

    def tables(self):
        """The definitions, each in a line for a word."""
        name, file = self.name, self.file
        words = " ∷ ".join([f'codes "{word}"' for word, _ in self.rows] + ["[]"])
        return [
            "-- the words",
            f"abbrev pub {file}_words : List Text",
            f"{file}_words = {words}",
            "",
            "-- the value of which a text is the word, if there is one",
            f"abbrev pub {file}_word : Text → Option {name}",
            f"{file}_word text = {one_of([Word(*it) for it in self.rows])}",
            "",
            "-- the text that is printed for a value",
            f"abbrev pub {file}_text : {name} → Text",
            *[f'{file}_text word.{variant} = codes "{word}"' for word, variant in self.rows],
            "",
            "-- the word of a value, with nothing after it; any other word is an error",
            f"abbrev pub {file}_at : Reader {name}",
            f'{file}_at = table_at {file}_word nothing (codes "{self.says}") {self.demand}',
            "",
            "-- as a part of other texts",
            f"abbrev pub {file} : Shape {name}",
            f"{file} = record {{ reading = {file}_at; written = {file}_text; ends = ends_text; test = test.ghosts.eq }}",
        ]

    def law(self):
        file = self.file
        is_last, can_miss = self.is_cited(f"{file}_last"), self.is_cited(f"{file}_missing")
        lines = [*self.law_imports(is_last, can_miss), "", *self.part_law(), "", *self.proved()]
        if is_last:
            lines += ["", "-- whatever can come after a type or an attribute can come after it", f"pub {file}_last : EndsAnywhere {file}.ends", f"{file}_last = own_last"]
        if can_miss:
            lines += ["", "-- it is missing where a closing character comes", f"pub {file}_missing : CanMiss {file}", f"{file}_missing = record {{ law = {file}_misses }}"]
        return "\n".join(lines) + "\n"

    def law_imports(self, is_last, can_miss):
        file = self.file
        return [
            f"-- For callers: the choice `{self.name}` obeys the law of a part. Its texts are those of a table of words, so a row for each gives the law.",
            "use Rattle.std.proofs.Common.{◌≡◌, refl, codes}",
            "use Rattle.std.specs.Prelude.{◌↔◌, IsTrue}",
            f"use Rattle.irtext_base.specs.Faults.{{{self.demand}}}",
            "use Rattle.irtext_base.specs.Own.{texts_of, Lawful, Sincere}",
            "use Rattle.irtext_tokens.specs.Infix.{nothing}",
            f"use {SYNTAX}.OwnLaws.{{{'own_last, ' if is_last else ''}text_law, text_misses}}",
            f"use {SYNTAX}.Owns.{{ends_text}}",
            f"use {SYNTAX}.PartLaws.{{PartLaw, MissesClosers{', EndsAnywhere' if is_last else ''}}}",
            f"use {SYNTAX}.ShapeLaws.{{Proved{', CanMiss' if can_miss else ''}}}",
            f"use {SYNTAX}.TableLaws.{{word_row, word_sincere, table_lawful, table_sincere}}",
            f"use {SYNTAX}.Tables.{{Row}}",
            f"use Rattle.{self.dialect.crate}.specs.{self.texts}.{{{file}_words, {file}_word, {file}_text, {file}_at, {file}}}",
            *self.declared,
        ]

    def part_law(self):
        name, file = self.name, self.file
        at, refusal = f"{file}_at {file}_text", f'(codes "{self.says}") {self.demand}'
        return [
            "-- how the text of each value is parsed back",
            f"rows : (x : {name}) → Row {file}_word nothing {file}_words {file}_text x",
            *[f'rows word.{it} = word_row (codes "{word}") word.{it} word.{it} refl refl refl (λ text. refl)' for word, it in self.rows],
            "",
            f"lawful : Lawful {name} (texts_of {at})",
            f"lawful = table_lawful {refusal} rows",
            "",
            f"sincere : Sincere {file}_at",
            f"sincere = table_sincere {file}_word {refusal} word_sincere",
            "",
            "-- as a part of other texts",
            f"pub {file}_law : PartLaw {at} ends_text",
            f"{file}_law = text_law {at} lawful sincere",
            "",
            f"pub {file}_misses : MissesClosers {file}_at",
            f"{file}_misses = text_misses {at} lawful",
        ]

    def proved(self):
        name, file = self.name, self.file
        return [
            "-- two values are equal exactly if they are the same",
            f"pub {file}_decides : (x y : {name}) → IsTrue (test.ghosts.eq x y) ↔ (x ≡ y)",
            *[f"{file}_decides word.{it} word.{it} = (λ e. refl, λ e. refl)" for _, it in self.rows],
            *([f"{file}_decides _ _ = (λ e. absurd (cc), λ e. absurd (cc))"] if len(self.rows) > 1 else []),
            "",
            f"pub {file}_proved : Proved {file}",
            f"{file}_proved = record {{ law = {file}_law; decides = {file}_decides }}",
        ]
