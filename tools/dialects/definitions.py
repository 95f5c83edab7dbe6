"""What is written into specs/ for the types and the attributes."""
import re

from dialects.parts import BRACKETS, FIXED, MORE, NUMBERS, SPACED, grouped, shown, snake
from dialects.words import Words

SYNTAX = "Rattle.irtext_syntax.specs"
MORE_PARTS = "Rattle.irtext_parts.specs"
MORE_SHAPES = "DecimalText DigitsText HexadecimalText equals times blank hex " + " ".join(it[1] for it in MORE.values())
MORE_LAWS = "equals_joins times_joins blank_joins hex_proved hex_missing " + " ".join(it for laws in MORE.values() for it in laws[2:] if it != "anything_ends")
SHAPE_LAWS = (
    "Proved angle_encloses round_encloses square_encloses curly_encloses colon_joins comma_joins arrow_joins spaced_arrow_joins number_proved quoted_proved "
    "name_proved keyword_proved flag_proved ranged_proved own_proved then_proved within_proved list_proved maybe_proved number_missing quoted_missing "
    "name_missing keyword_missing ranged_missing own_missing then_missing within_missing list_missing"
)


def using(modules, body):
    """Returns the imports of those of these names that occur in the body."""
    lines = []
    for module, names in modules:
        used = [it for it in names.split() if re.search(r"(?<![\w.])" + re.escape(it.strip("◌")) + r"(?!\w)", body)]
        if used:
            lines.append(f"use {module}.{{{', '.join(used)}}}")
    return lines


def arrows(*types):
    return " → ".join(types)


def type_modules(dialect):
    """The modules of the types that parts have in definitions, with their names."""
    declared, own = f"{SYNTAX}.declared", f"Rattle.{dialect.crate}.specs.declared"
    return [
        (f"{SYNTAX}.IntegerKinds", " ".join(NUMBERS)),
        (f"{SYNTAX}.NameTexts", "WordText"),
        (f"{SYNTAX}.ScalarTexts", "ScalarText"),
        (f"{declared}.number.Number", "Number"),
        (f"{declared}.own.Own", "Own"),
        (f"{declared}.range.Ranged", "Ranged"),
        *[(f"{declared}.ready.{it}", it) for it in [*BRACKETS, *FIXED] if it not in SPACED],
        (f"{MORE_PARTS}.Shapes", MORE_SHAPES),
        (f"{MORE_PARTS}.declared.hex.Hex", "Hex"),
        *[(f"{MORE_PARTS}.declared.{it.lower()}.{it}", it) for it in ("Symbol", "Truth")],
        *[(f"{MORE_PARTS}.declared.spaced.{it}", it) for it in SPACED],
        (f"{declared}.sequence.Then", "Then"),
        (f"{declared}.sequence.Within", "Within"),
        *[(f"{own}.{files[0]}.{files[1]}", files[1]) for files in dialect.own.values()],
        *[(f"{own}.fixed.{it}", it) for it in dialect.ranges],
    ]


def range_imports(dialect, text):
    """The imports of the ranges that occur in a text."""
    base = f"Rattle.{dialect.crate}.specs.contracts.fixed"
    return [f"use {base}.{it}Range.TheImpl as {snake(it)}" for it in dialect.ranges if f"{snake(it)}.ghosts" in text]


class Definitions:
    """The files of a family in specs/."""

    def __init__(self, family):
        self.family, self.dialect = family, family.dialect
        self.name = "type" if family.is_type else "attr"
        self.short = "ty" if family.is_type else "attr"
        self.article = "a" if family.is_type else "an"
        self.value = f"{family.enum} T" if family.generic else family.enum
        self.held_value = f"({self.value})" if family.generic else self.value
        self.given = " type_at type_text type_eq" if family.generic else ""
        self.depth = "  " if family.generic else ""

    def made(self, row, variable="x"):
        return f"({self.short}.{row.variant} {variable})" if row.part else f"{self.short}.{row.variant}"

    def over(self, name):
        """The name of a definition, applied to what the types of the context are."""
        return f"{self.name}_{name}{self.given}"

    def held(self, name):
        return f"({self.over(name)})" if self.given else self.over(name)

    def declared(self):
        family = self.family
        base = f"Rattle.{self.dialect.crate}.specs.declared.{family.module}"
        return [
            f"use {base}.{family.words}.{{{family.words}}}",
            f"use {base}.{family.words}.TheVariants as word",
            f"use {base}.{family.enum}.{{{family.enum}}}",
            f"use {base}.{family.enum}.TheVariants as {self.short}",
        ]

    def tables(self):
        """The definitions that are about values, one line for each variant."""
        family, n = self.family, self.name
        lines = []
        for row in family.held:
            lines += [f"-- what comes after `{row.text}`: {shown(row.part)}", f"abbrev pub {row.name}_shape : Shape {grouped(row.part.type())}"]
            lines += [f"{row.name}_shape = {row.part.shape()}", ""]
        lines += [f"-- the text that is printed for {self.article} {family.noun}", f"abbrev pub {n}_text : {self.value} → Text"]
        for row in family.rows:
            tail = f' " ++ {row.name}_shape.written x' if row.part else '"'
            lines += [f'{n}_text {self.made(row)} = codes "{row.text}{tail}']
        lines += ["", f"-- the rest of {self.article} {family.noun}, after its word"]
        lines += [f"abbrev pub {n}_after : {family.words} → Reader {self.held_value}"]
        for row in family.rows:
            what = f"(space_at ▷ {row.name}_shape.reading) ⇒ {self.short}.{row.variant}" if row.part else f"nothing {self.short}.{row.variant}"
            lines += [f"{n}_after word.{row.variant} = {what}"]
        demand = "AType" if family.is_type else "AnAttribute"
        lines += ["", f"-- {self.article} {family.noun}'s word, and the rest of the {family.noun}", f"abbrev pub {n}_at : Reader {self.held_value}"]
        lines += [f'{n}_at = table_at {n}_word {n}_after (codes "Unregistered {family.noun} ") {demand}']
        if not family.generic:
            return lines
        lines += ["", f"-- whether two {family.noun}s are equal", f"abbrev pub {n}_eq : {arrows(self.value, self.value, 'Bool')}"]
        for row in family.rows:
            answer = f"{row.name}_shape.test x y" if row.part else "true"
            lines += [f"{n}_eq {self.made(row)} {self.made(row, 'y')} = {answer}"]
        return lines + ([f"{n}_eq _ _ = false"] if len(family.rows) > 1 else [])

    def in_section(self):
        forall = "{T : Type 0} → " if self.family.generic else ""
        lines = []
        for test, flag, says in (("is_outlined", "outlined", "the section after the root holds"), ("is_print_once", "once", "the section prints once")):
            lines += ["", f"-- the attributes that {says}", f"abbrev pub {test} : {forall}{self.value} → Bool"]
            flagged = [row for row in self.family.rows if flag in row.flags]
            lines += [f"{test} {self.made(row)} = true" for row in flagged]
            lines += [f"{test} _ = false"] if len(flagged) < len(self.family.rows) else []
        return lines

    def texts(self):
        family = self.family
        body = Words(family).definitions() + [""]
        if family.generic:
            body += ["module _ {T : Type 0} (type_at : Reader T) (type_text : T → Text) (type_eq : T → T → Bool) where"]
        body += indented(self.tables(), self.depth)
        if not family.is_type:
            body += self.in_section()
        text = "\n".join(body) + "\n"
        of = ", over the types `T` of the context" if family.generic else ""
        lines = [f"-- For callers: the texts of the {family.noun}s of the dialect `{self.dialect.name}`{of}."]
        lines += using([
            ("Rattle.std.specs.Prelude", "ℕ ℤ Bool true false cond Option Some None List [] ◌∷◌ ◌++◌ codes"),
            ("Rattle.std.specs.Option", "option_or"),
            ("Rattle.std.specs.Str", "bytes_eq"),
            ("Rattle.irtext_base.specs.Text", "Text"),
            ("Rattle.irtext_base.specs.Faults", "AType AnAttribute"),
            ("Rattle.irtext_tokens.specs.Infix", "Reader nothing ◌▷◌ ◌⇒◌"),
            ("Rattle.irtext_tokens.specs.Tokens", "space_at"),
            (f"{SYNTAX}.Shapes", "Shape angle round square curly colon comma arrow spaced_arrow number quoted name keyword flag ranged own then_of within list_of maybe"),
            (f"{SYNTAX}.Tables", "table_at"),
            *[(f"Rattle.{self.dialect.crate}.specs.{files[2]}", files[0]) for files in self.dialect.own.values()],
            *type_modules(self.dialect),
        ], text)
        lines += range_imports(self.dialect, text) + self.declared()
        return "\n".join(lines) + "\n\n" + text

    def rows(self):
        """A row for each variant: its word, its part, and that each table has them."""
        family, n = self.family, self.name
        lines = [f"-- how the text of each {family.noun} is parsed back"]
        lines += [f"rows : (x : {self.value}) → Row {n}_word {self.held('after')} {n}_words {self.held('text')} x"]
        for row in family.rows:
            what = f'(codes "{row.text}") word.{row.variant} {self.short}.{row.variant}'
            if row.part:
                what = f"part_row {what} x {row.name}_shape_proved.law {row.part.last()}"
            else:
                what = f"word_row {what}"
            lines += [f"rows {self.made(row)} = {what} refl refl refl (λ text. refl)"]
        lines += ["", "-- what comes after each word is about the text", f"after_sincere : (w : {family.words}) → Sincere ({self.over('after')} w)"]
        for row in family.rows:
            how = f"part_sincere {self.short}.{row.variant} {row.name}_shape_proved.law" if row.part else f"word_sincere {self.short}.{row.variant}"
            lines += [f"after_sincere word.{row.variant} = {how}"]
        return lines

    def decides(self):
        """That `==` is equality of values: the derived test is `test.ghosts.eq`, or over types of the whole it is given, and compares alike."""
        family, n = self.family, self.name
        test = self.over("eq") if family.generic else "test.ghosts.eq"
        lines = [f"same : (x y : {self.value}) → {test} x y ≡ true → x ≡ y"]
        for row in family.rows:
            how = f"ap {self.short}.{row.variant} (({row.name}_shape_proved.decides x y).0 e)" if row.part else "refl"
            lines += [f"same {self.made(row)} {self.made(row, 'y')} e = {how}"]
        lines += ["same _ _ e = absurd (true≢false (sym e))"] if len(family.rows) > 1 else []
        lines += ["", f"own : (x : {self.value}) → {test} x x ≡ true"]
        for row in family.rows:
            how = f"({row.name}_shape_proved.decides x x).1 refl" if row.part else "refl"
            lines += [f"own {self.made(row)} = {how}"]
        lines += ["", f"-- {family.noun}s are equal exactly if they are the same values"]
        if not family.generic:
            lines += [f"pub {n}_decides : (x y : {self.value}) → IsTrue ({test} x y) ↔ (x ≡ y)"]
            return lines + [f"{n}_decides x y = (same x y, λ e. subst (λ z. {test} x z ≡ true) e (own x))"]
        lines += [f"pub {n}_decides : (eq : {arrows(self.value, self.value, 'Bool')}) → ((x y : {self.value}) → eq x y ≡ {test} x y) → (x y : {self.value}) → IsTrue (eq x y) ↔ (x ≡ y)"]
        return lines + [f"{n}_decides eq is x y = (λ e. same x y (sym (is x y) ∙ e), λ e. subst (λ z. eq x z ≡ true) e (is x x ∙ own x))"]

    def laws(self):
        family, n = self.family, self.name
        refusal = f'(codes "Unregistered {family.noun} ") {"AType" if family.is_type else "AnAttribute"}'
        own = f"(texts_of {self.held('at')} {self.held('text')})"
        lines = []
        for row in family.held:
            shape = f"({row.name}_shape{self.given})" if self.given else f"{row.name}_shape"
            lines += [f"{row.name}_shape_proved : Proved {shape}", f"{row.name}_shape_proved = {row.part.proved()}", ""]
        lines += self.rows()
        lines += ["", f"pub {n}_lawful : Lawful {self.held_value} {own}", f"{n}_lawful = table_lawful {refusal} rows"]
        lines += ["", f"pub {n}_led : BeginsWithWord {n}_words {self.held('text')}", f"{n}_led = table_led rows"]
        if not family.is_type:
            lines += ["", f"pub attr_unreserved : Unreserved {self.held_value} {own}"]
            lines += [f"attr_unreserved = table_unreserved {self.held('at')} rows refl"]
        lines += ["", f"pub {n}_sincere : Sincere {self.held('at')}", f"{n}_sincere = table_sincere {n}_word {refusal} after_sincere"]
        return lines + [""] + self.decides()

    def law(self):
        family, n = self.family, self.name
        body = []
        if family.generic:
            body += ["module _ {T : Type 0} {type_at : Reader T} {type_text : T → Text} {type_eq : T → T → Bool}"]
            body += ["    (lawful : Lawful T (texts_of type_at type_text)) (sincere : Sincere type_at) (decides : (x y : T) → IsTrue (type_eq x y) ↔ (x ≡ y)) where"]
        body += indented(self.laws(), self.depth)
        text = "\n".join(body) + "\n"
        head = [
            f"-- For callers: the {family.noun}s of the dialect `{self.dialect.name}` obey the laws of parsing and printing: a row for each.",
        ]
        named = [f"{row.name}_shape" for row in family.held] + [f"{n}_{it}" for it in ("words", "word", "text", "after", "at", "eq")]
        head += using([
            ("Rattle.std.proofs.Common", "◌≡◌ Bool true refl sym ◌∙◌ ap subst codes true≢false"),
            ("Rattle.std.specs.Prelude", "◌↔◌ IsTrue"),
            ("Rattle.irtext_base.specs.Families", "BeginsWithWord"),
            ("Rattle.irtext_base.specs.Faults", "AType AnAttribute"),
            ("Rattle.irtext_base.specs.Own", "texts_of Lawful Sincere Unreserved"),
            ("Rattle.irtext_base.specs.Text", "Text"),
            ("Rattle.irtext_tokens.specs.Infix", "Reader"),
            (f"{SYNTAX}.IntegerKinds", " ".join(NUMBERS)),
            (f"{SYNTAX}.NameLaws", "word_last"),
            (f"{SYNTAX}.NumberLaws", "digits_last"),
            (f"{SYNTAX}.OwnLaws", "own_last"),
            (f"{SYNTAX}.Sequences", "anything_ends"),
            (f"{SYNTAX}.ShapeLaws", SHAPE_LAWS),
            (f"{MORE_PARTS}.HexLaws", "hex_last"),
            (f"{MORE_PARTS}.ShapeLaws", MORE_LAWS),
            (f"{SYNTAX}.TableLaws", "part_row word_row part_sincere word_sincere table_lawful table_led table_sincere table_unreserved"),
            (f"{SYNTAX}.Tables", "Row"),
            (f"Rattle.{self.dialect.crate}.specs.{family.file}", " ".join(named)),
            *[(f"Rattle.{self.dialect.crate}.specs.{it[3]}", f"{it[0]}_proved {it[0]}_last {it[0]}_missing") for it in self.dialect.own.values()],
        ], text)
        if not family.generic:
            head += [f"use Rattle.{self.dialect.crate}.specs.contracts.{family.module}.{family.enum}PartialEq.TheImpl as test"]
        return "\n".join(head + range_imports(self.dialect, text) + self.declared()) + "\n\n" + text

    def printed(self):
        """The proofs that the printer prints the text of each part, which is not always seen without unfolding it."""
        family = self.family
        if not family.held:
            return {}
        where = f"{family.module}.{family.enum}IrText.write_text"
        lines = [f"use Rattle.{self.dialect.crate}.proofs.{where}.Goals as goal"]
        for row in family.held:
            called = "write_row" if row is family.held[0] else f"write_row-in-{row.variant}"
            goal = f"returns-in-{row.variant}-clause-text"
            lines += ["", f"pub {goal} : goal.{goal}", f"{goal} g c = rw c.in-{row.variant}.is c.{called}.ensures.text"]
        return {f"proofs/{where.replace('.', '/')}/Answers.antt": "\n".join(lines) + "\n"}


PARSED = """-- What comes after a word is parsed as the value of the word's variant.
use Rattle.std.proofs.Common.{Ok, Err, refl}
use Rattle.irtext_base.specs.Answers.{Outcome, mapped}
use Rattle.irtext_base.specs.Stream.{StreamView}
use Rattle.irtext_base.specs.Text.{Text}
use Rattle.irtext_base.specs.declared.parsable.fault.ParseFault.{ParseFault}
use Rattle.irtext_base.proofs.Compose.{refuses_mapped_demanded}
use Rattle.irtext_tokens.specs.MustRead.{MustRead}
use Rattle.irtext_tokens.proofs.Steps.{alone, seen_alone}

pub parsed : {V W A : Type 0} {f : Text → Outcome V} {old new : StreamView} {v : V} (k : V → W) → MustRead {A = A} (λ s. s) (λ s v. v) (λ x. x) f old (Ok v) new → MustRead {A = A} (λ s. s) (λ s v. v) (λ x. x) (λ t. mapped k (f t)) old (Ok (k v)) new
parsed k h = seen_alone alone (λ x. x) k _ refl h

pub failed : {V W A : Type 0} {f : Text → Outcome V} {old new : StreamView} {fault : ParseFault A} (k : V → W) → MustRead {Y = V} (λ s. s) (λ s v. v) (λ x. x) f old (Err fault) new → MustRead {Y = W} (λ s. s) (λ s v. v) (λ x. x) (λ t. mapped k (f t)) old (Err fault) new
failed {f = f} {old = old} {new = new} {fault = fault} k h = record { answers = refuses_mapped_demanded (λ s. s) (λ s v. v) (λ s v. refl) (λ s v w. refl) k old.failed (f old.rest) old new fault h.answers }
"""


def parsed_by_hand(family, rows):
    """The proofs that rows are parsed as the table says, where that is not always seen without unfolding it: of those with a part written by
    hand inside of another part, of all if there are many, and beside types with `whole` of those with a choice as their part. What is parsed
    after the words of `rows` is a part."""
    both = rows if Words(family).are_many else family.by_hand
    if not both and not family.by_choice:
        return {}
    short, made = ("head", f"{family.enum}Head") if family.is_tree else ("ty" if family.is_type else "attr", family.enum)
    crate, where = family.dialect.crate, f"{family.module}.{family.words}Table{made}.parse"
    lines = ["use Rattle.irtext_tokens.proofs.Exits.{propagated}"] if both else []
    lines += [
        f"use Rattle.{crate}.proofs.Parsed.{{{'parsed, failed' if both else 'parsed'}}}",
        f"use Rattle.{crate}.specs.declared.{family.module}.{made}.TheVariants as {short}",
        f"use Rattle.{crate}.proofs.{where}.Goals as goal",
    ]
    for row in rows:
        at = f"after_word-in-{row.variant}"
        if row in both:
            exit_ = "from_residual" if row is rows[0] else f"from_residual-in_err-{at}"
            lines += ["", f"pub returns-in_err-{at} : goal.returns-in_err-{at}"]
            lines += [f"returns-in_err-{at} g c =", f"    rw (propagated c.{exit_}.result c.{exit_}.ensures.1) ("]
            lines += [f"    rw c.in-{row.variant}.is (failed {short}.{row.variant} c.in_err-{at}.ensures))"]
        if row in both or row in family.by_choice:
            lines += ["", f"pub returns-in_ok-{at} : goal.returns-in_ok-{at}"]
            lines += [f"returns-in_ok-{at} g c = rw c.in-{row.variant}.is (parsed {short}.{row.variant} c.in_ok-{at}.ensures)"]
    return {f"proofs/{where.replace('.', '/')}/Answers.antt": "\n".join(lines) + "\n", "proofs/Parsed.antt": PARSED}


def indented(lines, depth):
    return [depth + line if line else line for line in lines]
