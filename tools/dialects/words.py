"""What is written to find the word that a text is: one `match_text!`, or for many words methods of a group each, since what a check of
`match_text!` costs grows with the third power of its words."""
import textwrap

TOGETHER = 17  # as many words as one `match_text!` has
GROUP = 10  # and as many as it has in a group


def one_of(rows):
    """The chain of tests that finds the word of a text."""
    text = "None"
    for row in reversed(rows):
        tail = text if text == "None" else f"({text})"
        text = f'cond (bytes_eq text (codes "{row.text}")) (Some word.{row.variant}) {tail}'
    return text


def matched(rows, enum, depth):
    """The lines of a `match_text!` over the words."""
    cells = ", ".join(f'"{row.text}"~=>~{enum}::{row.variant}' for row in rows)
    filled = textwrap.wrap(f"match_text!(text; {cells})", 100, initial_indent=" " * depth, subsequent_indent=" " * (depth + 4))
    return [line.replace("~", " ") for line in filled]


class Words:
    """The words of the types or of the attributes of a dialect."""

    def __init__(self, family):
        self.family, self.rows, self.enum = family, family.rows, family.words
        self.name = "type" if family.is_type else "attr"
        self.made = f"{family.enum}Head" if family.is_tree else family.enum

    @property
    def groups(self):
        """The rows in groups of about the same length, or in one if they are few."""
        count = 1 if len(self.rows) <= TOGETHER else -(-len(self.rows) // GROUP)
        ends = [len(self.rows) * it // count for it in range(count + 1)]
        return [self.rows[begin:end] for begin, end in zip(ends, ends[1:])]

    @property
    def are_many(self):
        return len(self.groups) > 1

    def names(self):
        """The definitions that find words."""
        return [f"{self.name}_word"] + [f"{self.name}_word_{at}" for at in range(1, len(self.groups) + 1) if self.are_many]

    def definitions(self):
        """The definitions of the words, and of the word that a text is."""
        family, n = self.family, self.name
        listed = " ∷ ".join([f'codes "{row.text}"' for row in self.rows] + ["[]"])
        lines = [f"-- the words that {family.noun}s begin with", f"abbrev pub {n}_words : List Text", f"{n}_words = {listed}", ""]
        found = one_of(self.rows)
        if self.are_many:
            for at, rows in enumerate(self.groups, 1):
                lines += [f"-- the word that a text is, if it is one {self.between(rows)}"]
                lines += [f"abbrev pub {n}_word_{at} : Text → Option {self.enum}", f"{n}_word_{at} text = {one_of(rows)}", ""]
            *before, found = [f"{it} text" for it in self.names()[1:]]
            for it in reversed(before):
                found = f"option_or ({it}) {found if found.startswith('(') else f'({found})'}"
        says = "the word that a text is" if family.is_tree or self.are_many else f"the word of {'a' if family.is_type else 'an'} {family.noun} that a text is"
        return lines + [f"-- {says}, if it is one", f"abbrev pub {n}_word : Text → Option {self.enum}", f"{n}_word text = {found}"]

    @staticmethod
    def between(rows):
        return f"from `{rows[0].text}` to `{rows[-1].text}`"

    def of(self):
        """The body of the function that finds the word of a text."""
        return [f"        {self.enum}::of_text(text)"] if self.are_many else matched(self.rows, self.enum, 8)

    def has_word(self):
        """The body of the function that tells whether a text is one of the words."""
        if self.are_many:
            return [f"        {self.enum}::of_text(word).is_some()"]
        return ["        matches_text!(word, " + " | ".join(f'"{row.text}"' for row in self.rows) + ")"]

    def methods(self):
        """The methods of the enum of words, if they are many."""
        if not self.are_many:
            return []
        n, enum, count = self.name, self.enum, len(self.groups)
        lines = ["", f"impl {enum} {{", "    ghost use Rattle.std.specs.Prelude.{◌≡◌};"]
        lines += [f"    ghost use Rattle.{self.family.dialect.crate}.specs.{self.family.file}.{{{', '.join(self.names())}}};", ""]
        lines += ["    /// The word that a text is, if it is one.", f"    fn of_text(text: &str) -> Option<{enum}>"]
        lines += [f"        ensures {{ result ≡ {n}_word text.now }}", "    {"]
        for at in range(1, count):
            lines += [f"        if let Some(word) = {enum}::of_text_{at}(text) {{", "            return Some(word);", "        }"]
        lines += [f"        {enum}::of_text_{count}(text)", "    }"]
        for at, rows in enumerate(self.groups, 1):
            lines += ["", f"    /// The word that a text is, if it is one {self.between(rows)}.", f"    fn of_text_{at}(text: &str) -> Option<{enum}>"]
            lines += [f"        ensures {{ result ≡ {n}_word_{at} text.now }}", "    {", *matched(rows, enum, 8), "    }"]
        return lines + ["}"]

    def proofs(self):
        """The proof that a text has a word exactly if it is one of the words."""
        if not self.are_many:
            return {}
        family, n, crate = self.family, self.name, self.family.dialect.crate
        where = f"{family.module}.{self.made}Worded.has_word"
        given = "g c" if family.generic else "c"
        lines = [
            "use Rattle.std.proofs.Common.{◌∙◌, ap, codes}",
            "use Rattle.std.specs.Option.{is_some}",
            "use Rattle.irtext_base.specs.Families.{is_one_of}",
            "use Rattle.irtext_base.specs.Text.{Text}",
            f"use Rattle.{crate}.specs.{family.file}.{{{n}_words, {n}_word}}",
            f"use Rattle.{crate}.proofs.Words.{{IsFound, in_group, in_others, in_last, in_none}}",
            f"use Rattle.{crate}.proofs.{where}.Goals as goal",
            "",
            "-- a word is found exactly if it is one of the words",
            f"all_found : (text : Text) → IsFound ({n}_word text) (is_one_of {n}_words text)",
            "all_found text =",
        ]
        *before, last = self.groups
        for rows in before:
            lines += [f'    in_group text (codes "{row.text}") _ _ _ (' for row in rows] + ["    in_others _ ("]
        lines += [f'    in_last text (codes "{row.text}") _ _ (' for row in last]
        lines[-1] = lines[-1][: -len("(")] + "in_none" + ")" * (len(self.rows) + len(before) - 1)
        lines += ["", "pub returns : goal.returns"]
        lines += [f"returns {given} = c.is_some.ensures ∙ (ap is_some c.of_text.ensures ∙ (all_found c.args.word.now).is_found)"]
        return {f"proofs/{where.replace('.', '/')}/Answers.antt": "\n".join(lines) + "\n", "proofs/Words.antt": FOUND}


FOUND = """-- That a text is found among groups of words exactly if it is one of the words.
use Rattle.std.proofs.Common.{◌≡◌, Bool, true, false, Option, Some, None, refl}
use Rattle.std.specs.Option.{is_some, option_or}
use Rattle.std.specs.Prelude.{cond, ◌||◌}
use Rattle.std.specs.Str.{bytes_eq}
use Rattle.irtext_base.specs.Text.{Text}

-- there is a value exactly if the test holds
pub record IsFound {A : Type 0} (o : Option A) (test : Bool) : Type 0 where
  pub is_found : is_some o ≡ test

by_test : (b : Bool) {A : Type 0} (x : A) (o r : Option A) {c : Bool} → IsFound (option_or o r) c → IsFound (option_or (cond b (Some x) o) r) (b || c)
by_test true x o r e = record { is_found = refl }
by_test false x o r e = record { is_found = e.is_found }

by_last_test : (b : Bool) {A : Type 0} (x : A) (o : Option A) {c : Bool} → IsFound o c → IsFound (cond b (Some x) o) (b || c)
by_last_test true x o e = record { is_found = refl }
by_last_test false x o e = record { is_found = e.is_found }

-- one word more, in a group before others
pub in_group : (text word : Text) {A : Type 0} (x : A) (o r : Option A) {c : Bool} → IsFound (option_or o r) c → IsFound (option_or (cond (bytes_eq text word) (Some x) o) r) (bytes_eq text word || c)
in_group text word x o r e = by_test (bytes_eq text word) x o r e

-- the groups after one
pub in_others : {A : Type 0} (r : Option A) {c : Bool} → IsFound r c → IsFound (option_or None r) c
in_others r e = record { is_found = e.is_found }

-- one word more, in the last group
pub in_last : (text word : Text) {A : Type 0} (x : A) (o : Option A) {c : Bool} → IsFound o c → IsFound (cond (bytes_eq text word) (Some x) o) (bytes_eq text word || c)
in_last text word x o e = by_last_test (bytes_eq text word) x o e

pub in_none : {A : Type 0} → IsFound {A = A} None false
in_none = record { is_found = refl }
"""
