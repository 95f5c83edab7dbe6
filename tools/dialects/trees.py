"""What is written for types that hold types, and for attributes that hold attributes: heads, places and their laws.

A part is cut at its holes. What comes before the first hole is the text of a head, and so is what comes between two holes and after the last:
`array: Array(Within<Angle, Then<Number<u64>, Comma, whole>>)` has the heads `llvm.array <N, ` and `>`."""
from dialects.definitions import MORE_LAWS, MORE_PARTS, SHAPE_LAWS, SYNTAX, indented, range_imports, type_modules, using
from dialects.parts import BRACKETS, HOLES, Part, Wrong, grouped, shown
from dialects.sources import more_uses, rust_uses
from dialects.words import Words

TREE = "Rattle.irtext_tree.specs"
ONE_CHARACTER = {"Comma": ",", "Colon": ":"}  # the fixed texts that can come before and between holes
AROUND = ("Angle", "Round", "Square")  # the brackets that can be around holes
PRINTED = {"part": "write_row", "open_part": "write_spaced_row"}  # the calls that print heads with a part; `write_word` prints the others


class Head:
    """A head: its variant, its kind, its text, and the places that wait after it.

    Kinds: `word` and `part` are whole texts; `open` and `open_part` come before a hole; `opened` before the items of a list, and `empty` is a
    list without items; `mark` is a fixed text at a place of its own; `more` and `end` come after an item of a list."""

    def __init__(self, kind, variant, text, waits=(), place=None, row=None, part=None):
        self.kind, self.variant, self.text, self.waits = kind, variant, text, waits
        self.place, self.row, self.part = place, row, part

    @property
    def is_first(self):
        """Whether a type or an attribute begins with it."""
        return self.place is None

    def pattern(self, variable="x"):
        return f"(head.{self.variant} {variable})" if self.part else f"head.{self.variant}"


def has_hole(part):
    return any(it.name in HOLES for it in part.all())


def flat(part):
    """The parts of nested `Then`, with the fixed texts between them."""
    if part.name != "Then":
        return [part]
    first, between, second = part.arguments
    return [*flat(first), between.name, *flat(second)]


def joined(pieces):
    """The part that these parts and fixed texts make."""
    if len(pieces) == 1:
        return pieces[0]
    return Part("Then", [pieces[0], Part(pieces[1], []), joined(pieces[2:])])


class Grammar:
    """The heads and places of a family."""

    def __init__(self, family):
        self.family, self.dialect = family, family.dialect
        self.head, self.place = f"{family.enum}Head", f"{family.enum}Place"
        self.start = "Type" if family.is_type else "Attribute"
        self.first, self.after, self.places, self.brackets = [], {}, [self.start], {}
        for row in family.rows:
            self.cut(row)

    @property
    def heads(self):
        return [*self.first, *self.after.values()]

    def add(self, head):
        """Adds a head that no type and no attribute begins with, unless it is there, and its place."""
        if any(it.variant == head.variant for it in self.first):
            raise Wrong(f"the variant {head.variant} is that of a text between or after others too: take another name")
        self.after.setdefault(head.variant, head)
        if head.place not in self.places:
            self.places.append(head.place)

    def cut(self, row):
        """Adds the heads of a row."""
        part = row.part
        if part is None:
            self.first.append(Head("word", row.variant, row.text, row=row))
        elif not has_hole(part):
            self.first.append(Head("part", row.variant, row.text, row=row, part=part))
        elif part.name == "ListOf" and part.arguments[1].name in HOLES:
            self.cut_list(row, part.arguments[0].name)
        elif part.name == "Within":
            self.cut_sequence(row, part.arguments[0].name, flat(part.arguments[1]))
        else:
            raise Wrong(f"{part}: {part_of_hole(part)} has to be in brackets, or to be the item of a list")

    def cut_list(self, row, brackets):
        opening, closing = around(brackets)
        place = f"More{brackets}"
        self.first.append(Head("opened", row.variant, f"{row.text} {opening}", (self.start, place), row=row))
        self.first.append(Head("empty", f"Empty{row.variant}", f"{row.text} {opening}{closing}", row=row))
        self.add(Head("more", f"Next{brackets}", ", ", (self.start, place), place))
        self.add(Head("end", f"End{brackets}", closing, (), place))

    def cut_sequence(self, row, brackets, pieces):
        opening, closing = around(brackets)
        first = next(at for at, it in enumerate(pieces) if isinstance(it, Part) and has_hole(it))
        holes = pieces[first:]
        for at, it in enumerate(holes):
            if at % 2 == 0 and it.name not in HOLES:
                raise Wrong(f"{row.part}: after {part_of_hole(row.part)} only fixed texts and further ones can come, and not {it}")
            if at % 2 and it not in ONE_CHARACTER:
                raise Wrong(f"{row.part}: Comma or Colon can come between {part_of_hole(row.part)} and the next, and not {it}")
        last = f"Close{brackets}"
        places = [*(f"{row.variant}{at}" for at in range(2, len(holes) // 2 + 2)), last]
        waits = self.start, places[0]
        if first:
            before = pieces[first - 1]
            if before not in ONE_CHARACTER:
                raise Wrong(f"{row.part}: Comma or Colon can come before {part_of_hole(row.part)}, and not {before}")
            self.brackets[brackets + before] = opening, ONE_CHARACTER[before]
            part = Part("Within", [Part(brackets + before, []), joined(pieces[: first - 1])])
            self.first.append(Head("open_part", row.variant, row.text, waits, row=row, part=part))
        else:
            self.first.append(Head("open", row.variant, f"{row.text} {opening}", waits, row=row))
        for at, place in enumerate(places[:-1]):
            self.add(Head("mark", place, f"{ONE_CHARACTER[holes[2 * at + 1]]} ", (self.start, places[at + 1]), place))
        self.add(Head("mark", last, closing, (), last))


def check_tree(family):
    """Fails if a part of the family cannot be cut, or if it has what a family with holes cannot have."""
    if family.generic:
        raise Wrong("attributes that hold attributes by `attribute` hold no types by Own<T>: describe these in a dialect of their own")
    variants = [it.variant for it in Grammar(family).heads]
    twice = [it for it in variants if variants.count(it) > 1]
    if twice:
        raise Wrong(f"the variant {twice[0]} is that of a text between or after types too: take another name")


def part_of_hole(part):
    return f"`{next(it.name for it in part.all() if it.name in HOLES)}`"


def around(brackets):
    if brackets not in AROUND:
        raise Wrong(f"the brackets around `whole` and `attribute` are {', '.join(AROUND)}, and not {brackets}")
    return BRACKETS[brackets]


# ---- definitions


class TreeDefinitions:
    """The files of the grammar in specs/."""

    def __init__(self, family):
        self.family, self.dialect, self.grammar = family, family.dialect, Grammar(family)
        self.name = "type" if family.is_type else "attr"
        self.article = "a" if family.is_type else "an"
        self.base = f"Rattle.{self.dialect.crate}.specs.declared.{family.module}"
        self.refusal = f'(codes "Unregistered {family.noun} ") {"AType" if family.is_type else "AnAttribute"}'

    def declared(self):
        g, words = self.grammar, self.family.words
        lines = [f"use Rattle.{self.dialect.crate}.specs.declared.brackets.{it}.{{{it}}}" for it in g.brackets]
        for kind, short in ((words, "word"), (g.head, "head"), (g.place, "place")):
            lines += [f"use {self.base}.{kind}.{{{kind}}}", f"use {self.base}.{kind}.TheVariants as {short}"]
        return lines

    def shape(self, head):
        """The shape of a head's part. The brackets before a hole are the dialect's own."""
        if head.kind == "part":
            return head.part.shape()
        return f"within {snake_of(head.part.arguments[0].name)} {grouped(head.part.arguments[1].shape())}"

    def texts(self):
        body = [*Words(self.family).definitions(), "", *self.parts(), *self.written(), "", *self.after(), "", *self.at(), "", *self.growth(), *self.in_section()]
        text = "\n".join(body) + "\n"
        lines = [f"-- For callers: the texts of the heads of the {self.family.noun}s of the dialect `{self.dialect.name}`."]
        lines += using([
            ("Rattle.std.specs.Prelude", "ℕ ℤ Bool true false cond Option Some None List [] ◌∷◌ ◌++◌ codes"),
            ("Rattle.std.specs.Option", "option_or"),
            ("Rattle.std.specs.Str", "bytes_eq"),
            ("Rattle.irtext_base.specs.Text", "Text"),
            ("Rattle.irtext_base.specs.Faults", "AType AnAttribute"),
            ("Rattle.irtext_tokens.specs.Infix", "Reader nothing ◌▷◌ ◌⇒◌"),
            ("Rattle.irtext_tokens.specs.Tokens", "space_at"),
            (f"{SYNTAX}.Shapes", "Shape Around angle round square curly colon comma arrow spaced_arrow number quoted name keyword flag ranged then_of within list_of maybe"),
            (f"{SYNTAX}.Tables", "table_at"),
            (f"{TREE}.Growths", "Growth"),
            (f"{TREE}.Marks", "mark_at more_at opened_at"),
            (f"{TREE}.declared.waits.Waits", "Waits"),
            *[(f"Rattle.{self.dialect.crate}.specs.{files[2]}", files[0]) for files in self.dialect.own.values()],
            *type_modules(self.dialect),
        ], text)
        lines += [f"use {TREE}.declared.waits.Waits.TheVariants as waits"]
        return "\n".join(lines + range_imports(self.dialect, text) + self.declared()) + "\n\n" + text

    def parts(self):
        """The brackets before holes, and the shapes of the heads' parts."""
        lines = []
        for name, (opening, closing) in self.grammar.brackets.items():
            texts = f'opener = codes "{opening}"; closer = codes "{closing}"; opener_printed = codes "{opening}"; closer_printed = codes "{closing}"'
            lines += [f"-- `{opening}` and `{closing}` as brackets", f"abbrev pub {snake_of(name)} : Around", f"{snake_of(name)} = record {{ {texts} }}", ""]
        for head in self.held:
            lines += [f"-- what comes after `{head.row.text}`: {shown_before(head)}"]
            lines += [f"abbrev pub {head.row.name}_shape : Shape {grouped(head.part.type())}", f"{head.row.name}_shape = {self.shape(head)}", ""]
        return lines

    @property
    def held(self):
        return [it for it in self.grammar.heads if it.part]

    def written(self):
        g = self.grammar
        lines = ["-- the text that is printed for a head", f"abbrev pub {self.name}_text : {g.head} → Text"]
        for head in g.heads:
            shape = f"{head.row.name}_shape.written x" if head.part else ""
            tail = {"part": f' " ++ {shape}', "open_part": f' " ++ ({shape} ++ codes " ")'}.get(head.kind, '"')
            lines += [f'{self.name}_text {head.pattern()} = codes "{head.text}{tail}']
        return lines

    def rest(self, row):
        """What is parsed after a word."""
        head = next(it for it in self.grammar.first if it.row is row)
        if head.part:
            return f"(space_at ▷ {row.name}_shape.reading) ⇒ head.{row.variant}"
        if head.kind == "word":
            return f"nothing head.{row.variant}"
        opening = head.text[-1]
        if head.kind == "open":
            return f'space_at ▷ mark_at (codes "{opening}") head.{row.variant}'
        return f'opened_at (codes "{opening}") head.{row.variant} {ord(closing_of(opening))} head.Empty{row.variant}'

    def after(self):
        lines = ["-- the rest of a head, after its word", f"abbrev pub {self.name}_after : {self.family.words} → Reader {self.grammar.head}"]
        return lines + [f"{self.name}_after word.{row.variant} = {self.rest(row)}" for row in self.family.rows]

    def heads_at(self, place):
        return [it for it in self.grammar.after.values() if it.place == place]

    def at(self):
        g, n = self.grammar, self.name
        lines = ["-- a head at a place", f"abbrev pub {n}_at : {g.place} → Reader {g.head}", f"{n}_at place.{g.start} = table_at {n}_word {n}_after {self.refusal}"]
        for place in g.places[1:]:
            heads = self.heads_at(place)
            if len(heads) == 2:
                what = f'more_at 44 head.{heads[0].variant} (codes "{heads[1].text}") head.{heads[1].variant}'
            else:
                what = f'mark_at (codes "{heads[0].text.strip()}") head.{heads[0].variant}'
            lines += [f"{n}_at place.{place} = {what}"]
        return lines

    def growth(self):
        g, n = self.grammar, self.name
        lines = ["-- whether two places are the same", f"abbrev pub same_place : {g.place} → {g.place} → Bool"]
        lines += [f"same_place place.{it} place.{it} = true" for it in g.places] + ["same_place _ _ = false", ""]
        lines += ["-- the place of a head", f"abbrev pub place_of : {g.head} → {g.place}"]
        lines += [f"place_of head.{it.variant} = place.{it.place}" for it in g.after.values()] + [f"place_of _ = place.{g.start}", ""]
        lines += ["-- what comes after a head", f"abbrev pub waits_of : {g.head} → Waits {g.place}"]
        lines += [f"waits_of {it.pattern()} = waits.Two {' '.join(f'place.{place}' for place in it.waits)}" for it in g.heads if it.waits]
        lines += ["waits_of _ = waits.Nothing", "", "-- the places of the dialect, and what comes after each head"]
        lines += [f"abbrev pub {n}_growth : Growth {g.place} {g.head}"]
        return lines + [f"{n}_growth = record {{ start = place.{g.start}; same = same_place; place = place_of; waits = waits_of }}"]

    def flagged(self, flag):
        """The heads with which an attribute that has the flag begins."""
        return [it for it in self.grammar.first if flag in it.row.flags]

    def in_section(self):
        if self.family.is_type:
            return []
        lines = []
        for test, flag, says in (("is_outlined", "outlined", "the section after the root holds"), ("is_print_once", "once", "the section prints once")):
            lines += ["", f"-- the heads of the attributes that {says}", f"abbrev pub {test} : {self.grammar.head} → Bool"]
            lines += [f"{test} {it.pattern()} = true" for it in self.flagged(flag)] + [f"{test} _ = false"]
        return lines

    # ---- laws

    def law(self):
        body = [*self.part_laws(), *self.rows(), "", *self.back(), "", *self.readers(), "", *self.closes(), "", *self.places(), "", *self.starts()]
        body += ["", *self.record(), "", *self.led()] + ([] if self.family.is_type else ["", *self.unreserved()]) + ["", *self.same()]
        text = "\n".join(body) + "\n"
        crate, n = self.dialect.crate, self.name
        named = [f"{it.row.name}_shape" for it in self.held] + [f"{n}_{it}" for it in ("words", "word", "after", "text", "at", "growth")] + ["same_place", "place_of", "waits_of"]
        lines = [f"-- For callers: the heads of the {self.family.noun}s of the dialect `{self.dialect.name}` obey the law of a grammar: a row for each."]
        lines += using([
            ("Rattle.std.proofs.Common", "◌≡◌ Bool true false ◌++◌ ◌∷◌ length refl sym ap subst codes true≢false inr"),
            ("Rattle.std.specs.Prelude", "◌↔◌ ◌<◌ IsTrue"),
            ("Rattle.std.specs.Str", "all_scalars"),
            ("Rattle.irtext_base.specs.Answers", "Read"),
            ("Rattle.irtext_base.specs.Families", "is_one_of"),
            ("Rattle.irtext_base.specs.Faults", "AType AnAttribute"),
            ("Rattle.irtext_base.specs.Own", "Ends Sincere"),
            ("Rattle.irtext_base.specs.Reading", "keyword"),
            ("Rattle.irtext_base.specs.Text", "Text begins begins_word front in_dotted"),
            (f"{SYNTAX}.IntegerKinds", "u8 u16 u32 u64 usize i8 i16 i32 i64 isize"),
            (f"{SYNTAX}.NameLaws", "word_last"),
            (f"{SYNTAX}.NumberLaws", "digits_last"),
            (f"{SYNTAX}.PartLaws", "IsRead"),
            (f"{SYNTAX}.Sequences", "anything_ends"),
            (f"{SYNTAX}.SequenceLaws", "within_law within_decides"),
            (f"{SYNTAX}.ShapeLaws", SHAPE_LAWS),
            (f"{MORE_PARTS}.HexLaws", "hex_last"),
            (f"{MORE_PARTS}.ShapeLaws", MORE_LAWS),
            (f"{SYNTAX}.TableLaws", "part_row word_row part_sincere word_sincere table_sincere"),
            (f"{TREE}.GrammarLaws", "GrammarLaw Follows IfMore Occurs Placed SecondIs"),
            (f"{TREE}.HeadRows", "HeadRow closed_row spaced_open_row mark_row opened_row head_starts head_back head_scalars head_led head_given_names head_identifier heads_missing "
             "advances_if table_advances mark_advances mark_sincere more_advances more_sincere opening_sincere opened_sincere table_placed part_placed word_placed mark_placed "
             "more_placed opening_placed opened_placed"),
            (f"{TREE}.Words", "HeadsLed HeadsUnreserved"),
            *[(f"Rattle.{crate}.specs.{it[3]}", f"{it[0]}_proved {it[0]}_last {it[0]}_missing") for it in self.dialect.own.values()],
            (f"Rattle.{crate}.specs.Brackets", " ".join(f"{snake_of(it)}_law" for it in self.grammar.brackets)),
            (f"Rattle.{crate}.specs.{self.family.file}", " ".join(named)),
        ], text)
        lines += range_imports(self.dialect, text) + [it for it in self.declared() if ".brackets." not in it]
        lines += [f"use Rattle.{crate}.specs.contracts.{self.family.module}.{self.grammar.head}PartialEq.TheImpl as test"]
        return "\n".join(lines) + "\n\n" + text

    def part_laws(self):
        """The law of each head's part. A comma that closes cannot separate items, so brackets before a hole have no law of lists."""
        lines = []
        for head in self.held:
            proved = head.part.proved() if head.kind == "part" else self.before_hole(head)
            lines += [f"{head.row.name}_proved : Proved {head.row.name}_shape", f"{head.row.name}_proved = {proved}", ""]
        return lines

    @staticmethod
    def before_hole(head):
        brackets, inside = head.part.arguments
        proved = grouped(inside.proved())
        law = f"within_law _ _ _ _ _ _ _ {snake_of(brackets.name)}_law {proved}.law"
        return f"record {{ law = {law}; decides = within_decides _ _ (λ x y. refl) {proved}.decides }}"

    def rows(self):
        """A row for each head with which a type or an attribute begins."""
        g, n = self.grammar, self.name
        lines = ["-- how the text of a head that begins with a word is parsed back", f"abbrev HeadOf : {g.head} → Type 0"]
        lines += [f"HeadOf h = HeadRow {n}_word {n}_after {n}_words {n}_text (Follows {n}_growth (waits_of h)) h"]
        for head in g.first:
            word, made = f'(codes "{head.row.text}") word.{head.row.variant}', f"head.{head.variant}"
            tail = head.text[len(head.row.text) :]
            if head.kind == "word":
                what = f"closed_row (word_row {word} {made} refl refl refl (λ text. refl))"
            elif head.kind == "part":
                what = f"closed_row (part_row {word} {made} x {head.row.name}_proved.law {head.part.last()} refl refl refl (λ text. refl))"
            elif head.kind == "open_part":
                what = f"spaced_open_row {word} {made} x {head.row.name}_proved.law (λ rest. refl) refl refl refl (λ text. refl)"
            elif head.kind == "opened":
                closing, empty = ord(closing_of(tail[-1])), f"head.Empty{head.variant}"
                what = f'opened_row (codes "{head.row.text}") (codes "{tail.strip()}") {closing} word.{head.row.variant} {made} {empty}'
                what += " refl refl refl refl refl (λ rest. refl) (λ rest e. e) (λ text. refl)"
            else:
                what = f'mark_row (codes "{head.row.text}") (codes "{tail}") word.{head.row.variant} {made} refl refl refl refl (λ rest. refl) (λ rest. (rest, refl, refl))'
            lines += ["", f"{row_of(head)} : {'(x : _) → ' if head.part else ''}HeadOf {head.pattern()}"]
            lines += [f"{row_of(head)}{' x' if head.part else ''} = {what}"]
        return lines

    def by_head(self, name, first, after, rest=""):
        """A line for each head: what `first` says of one that begins with a word, and `after` of another."""
        return [f"{name} {it.pattern()}{rest} = {first(it) if it.is_first else after(it)}" for it in self.grammar.heads]

    def row(self, head):
        return f"({row_of(head)} x)" if head.part else row_of(head)

    def back(self):
        g, n = self.grammar, self.name
        lines = [f"back : (h : {g.head}) (rest : Text) → Follows {n}_growth (waits_of h) rest → IsRead ({n}_at (place_of h)) h ({n}_text h ++ rest) rest"]
        first = lambda it: f"head_back {self.refusal} {self.row(it)} rest e"
        after = lambda it: "(32 ∷ rest, refl, refl)" if it.text.endswith(" ") else "(rest, refl, refl)"
        return lines + self.by_head("back", first, after, " rest e")

    def readers(self):
        """That what is parsed is about the text, is of its place, and takes a character."""
        g, n, words = self.grammar, self.name, self.family.words
        sincere, placed = [], []
        for row in self.family.rows:
            head = next(it for it in g.first if it.row is row)
            made, mark = f"head.{row.variant}", f'(codes "{head.text[-1]}")'
            given = f"{n}_growth place.{g.start}"
            empty = f"{ord(closing_of(head.text[-1]))} head.Empty{row.variant}" if head.kind == "opened" else ""
            by_kind = {
                "word": (f"word_sincere {made}", f"word_placed {given} {made} refl"),
                "open": (f"opening_sincere {mark} {made}", f"opening_placed {given} {mark} {made} refl"),
                "opened": (f"opened_sincere {mark} {made} {empty}", f"opened_placed {given} {mark} {made} {empty} refl refl"),
            }
            of_part = f"part_sincere {made} {row.name}_proved.law", f"part_placed {given} {row.name}_shape.reading {made} (λ x. refl)"
            how = by_kind.get(head.kind, of_part)
            sincere += [f"after_sincere word.{row.variant} = {how[0]}"]
            placed += [f"after_placed word.{row.variant} = {how[1]}"]
        lines = [f"after_sincere : (w : {words}) → Sincere ({n}_after w)", *sincere, ""]
        lines += [f"after_placed : (w : {words}) → Placed {n}_growth place.{g.start} ({n}_after w)", *placed, ""]
        return lines + self.at_places()

    def at_places(self):
        g, n = self.grammar, self.name
        sincere = [f"sincere place.{g.start} = table_sincere {n}_word {self.refusal} after_sincere"]
        placed = [f"placed place.{g.start} o = table_placed {n}_growth place.{g.start} {n}_word {n}_after {self.refusal} after_placed"]
        advances = [f"advances place.{g.start} = advances_if {n}_growth (table_advances {n}_word {n}_after {self.refusal} after_sincere)"]
        for place in g.places[1:]:
            heads, at = self.heads_at(place), f"{n}_growth place.{place}"
            made = [f"head.{it.variant}" for it in heads]
            mark = heads[-1].text.strip()
            if len(heads) == 2:
                sincere += [f'sincere place.{place} = more_sincere 44 {made[0]} (codes "{mark}") {made[1]}']
                placed += [f'placed place.{place} o = more_placed {at} 44 {made[0]} (codes "{mark}") {made[1]} refl refl']
                advances += [f"advances place.{place} = advances_if {n}_growth (more_advances 44 {made[0]} {ord(mark)} {made[1]})"]
            else:
                sincere += [f'sincere place.{place} = mark_sincere (codes "{mark}") {made[0]}']
                placed += [f'placed place.{place} o = mark_placed {at} (codes "{mark}") {made[0]} refl']
                advances += [f"advances place.{place} = advances_if {n}_growth (mark_advances {ord(mark)} {made[0]})"]
        lines = [f"sincere : (s : {g.place}) → Sincere ({n}_at s)", *sincere, ""]
        lines += [f"placed : (s : {g.place}) → Occurs {n}_growth s → Placed {n}_growth s ({n}_at s)", *placed, ""]
        lines += [f"advances : (s : {g.place}) (text : Text) (h : {g.head}) (taken left : Text) → {n}_at s text ≡ Read h taken left → IfMore (waits_of h) (length left < length text)"]
        return lines + advances

    def closes(self):
        g, n = self.grammar, self.name
        lines = [f"abbrev closing : {g.place} → Bool", f"closing place.{g.start} = false", "closing _ = true", ""]
        lines += [f"closes : (h : {g.head}) (rest : Text) → closing (place_of h) ≡ true → Ends ({n}_text h ++ rest)"]
        lines += [f"closes head.{it.variant} rest e = inr refl" for it in g.after.values()] + ["closes _ rest e = absurd (true≢false (sym e))", ""]
        lines += [f"second : (h : {g.head}) → SecondIs closing (waits_of h)"]
        says = lambda it: "refl" if it.waits else "tt"
        return lines + self.by_head("second", says, says)

    def places(self):
        g = self.grammar
        lines = [f"place_same : (s t : {g.place}) → same_place s t ≡ true → s ≡ t"]
        lines += [f"place_same place.{it} place.{it} e = refl" for it in g.places] + ["place_same _ _ e = absurd (true≢false (sym e))", ""]
        return lines + [f"place_own : (s : {g.place}) → same_place s s ≡ true"] + [f"place_own place.{it} = refl" for it in g.places]

    def starts(self):
        g, n = self.grammar, self.name
        lines = [f"scalars : (h : {g.head}) → all_scalars ({n}_text h) ≡ true"]
        by_row = lambda it: f"head_scalars {self.row(it)}" if it.part else "refl"
        lines += self.by_head("scalars", by_row, by_row)
        lines += ["", f"starts : (h : {g.head}) (rest : Text) → place_of h ≡ place.{g.start} → begins begins_word ({n}_text h ++ rest) ≡ true"]
        return lines + self.by_head("starts", lambda it: f"head_starts {self.row(it)} rest", self.other, " rest e")

    @staticmethod
    def other(head):
        """What is said of a head that no type begins with."""
        return "absurd (true≢false (ap closing e))"

    def record(self):
        n = self.name
        members = ["closing = closing", "not_start = refl", "closes = closes", "second = second"]
        members += ["decides = λ s t. (place_same s t, λ e. subst (λ z. same_place s z ≡ true) e (place_own s))", "back = back", "scalars = scalars"]
        members += ["sincere = sincere", "placed = placed", "advances = advances", "starts = starts"]
        members += [f"misses = λ text e. heads_missing {n}_word {self.refusal} {n}_after text e"]
        return [f"pub {n}_law : GrammarLaw {n}_growth {n}_at {n}_text", f"{n}_law = record {{", *[f"  {it};" for it in members], "}"]

    def led(self):
        g, n = self.grammar, self.name
        given = f"(h : {g.head}) (rest : Text) → place_of h ≡ place.{g.start} → Follows {n}_growth (waits_of h) rest"
        lines = [f"-- each {self.family.noun} begins with one of the words", f"led : {given} → is_one_of {n}_words (front in_dotted ({n}_text h ++ rest)) ≡ true"]
        lines += self.by_head("led", lambda it: f"head_led {self.row(it)} rest f", self.other, " rest e f")
        return lines + ["", f"pub {n}_led : HeadsLed {n}_growth {n}_words {n}_text", f"{n}_led = led"]

    def unreserved(self):
        g, n = self.grammar, self.name
        lines = []
        for lemma, word in (("not_given_names", "given_names"), ("not_identifier", "identifier")):
            lines += [f"{lemma} : (h : {g.head}) (rest left : Text) → place_of h ≡ place.{g.start} → keyword (codes \"builtin.{word}\") ({n}_text h ++ rest) left → ⊥"]
            lines += self.by_head(lemma, lambda it, word=word: f"head_{word} {self.row(it)} refl rest left", self.other, " rest left e") + [""]
        lines += ["-- no attribute begins with a reserved word", f"pub {n}_unreserved : HeadsUnreserved {n}_growth {n}_text"]
        return lines + [f"{n}_unreserved = record {{ given_names = not_given_names; identifier = not_identifier }}"]

    def same(self):
        g, n = self.grammar, self.name
        lines = [f"same : (x y : {g.head}) → test.ghosts.eq x y ≡ true → x ≡ y"]
        for it in g.heads:
            how = f"ap head.{it.variant} (({it.row.name}_proved.decides x y).0 e)" if it.part else "refl"
            lines += [f"same {it.pattern()} {it.pattern('y')} e = {how}"]
        lines += ["same _ _ e = absurd (true≢false (sym e))", "", f"own : (x : {g.head}) → test.ghosts.eq x x ≡ true"]
        for it in g.heads:
            lines += [f"own {it.pattern()} = {f'({it.row.name}_proved.decides x x).1 refl' if it.part else 'refl'}"]
        lines += ["", "-- heads are equal exactly if they are the same values", f"pub {n}_same : (x y : {g.head}) → IsTrue (test.ghosts.eq x y) ↔ (x ≡ y)"]
        return lines + [f"{n}_same x y = (same x y, λ e. subst (λ z. test.ghosts.eq x z ≡ true) e (own x))"]


    def printed(self):
        """The proofs that the text of each head is printed, which is not always seen without unfolding it."""
        crate, g = self.dialect.crate, self.grammar
        where = f"{self.family.module}.{g.place}Grammar{g.head}.write_head"
        lines = [f"use Rattle.{crate}.proofs.{where}.Goals as goal"]
        seen = set()
        for it in g.heads:
            call = PRINTED.get(it.kind, "write_word")
            called = f"{call}-in-{it.variant}" if call in seen else call
            seen.add(call)
            goal = f"returns-in-{it.variant}-clause-text"
            lines += ["", f"pub {goal} : goal.{goal}", f"{goal} g c = rw c.in-{it.variant}.is c.{called}.ensures.text"]
        return {f"proofs/{where.replace('.', '/')}/Answers.antt": "\n".join(lines) + "\n"}


def snake_of(name):
    """The definition of brackets before a hole, as `angle_comma` of `AngleComma`."""
    return "".join(f"_{c.lower()}" if c.isupper() and at else c.lower() for at, c in enumerate(name))


def closing_of(opening):
    return next(closing for it in AROUND for start, closing in [BRACKETS[it]] if start == opening)


def row_of(head):
    return f"{snake_of(head.variant)}_row"


def shown_before(head):
    """How the text of a head's part looks, in a comment."""
    if head.kind == "part":
        return shown(head.part)
    return f"{around_of(head)[0]}{shown(head.part.arguments[1])}{around_of(head)[1]}"


def around_of(head):
    """The brackets before the hole of a head, as they are printed with the space after them."""
    name = head.part.arguments[0].name
    fixed = next(it for it in ONE_CHARACTER if name.endswith(it))
    return BRACKETS[name.removesuffix(fixed)][0], f"{ONE_CHARACTER[fixed]} "


# ---- sources


class TreeSources:
    """The file of the grammar in src/."""

    def __init__(self, family):
        self.family, self.dialect, self.grammar = family, family.dialect, Grammar(family)
        self.name = "type" if family.is_type else "attr"
        held = [it.part for it in self.grammar.first if it.part]
        self.errors = "A: Drop" if any(it.name in ("ListOf", "Option") for part in held for it in part.all()) else "A"

    def ghosts(self, file, names):
        return f"    ghost use Rattle.{self.dialect.crate}.specs.{file}.{{{', '.join(names)}}};"

    def rust(self, head):
        """The type of a head's part: a composed one has a name."""
        return f"{head.row.variant}Text" if head.part.name in ("Within", "Then", "ListOf") else str(head.part)

    def says(self, head):
        """What a head is, in a comment."""
        what = f"`{head.text}" + (f" {shown_before(head)}" if head.part else "") + "`"
        before = f", before {self.holes(head)}" if head.waits else ""
        return what + before + (", where one more could come" if head.kind == "end" else "")

    def holes(self, head):
        article = "a type" if self.family.is_type else "an attribute"
        return f"{article} and {self.place_says(head.waits[1])}"

    def place_says(self, place):
        return " or ".join(f"`{it.text}`" for it in self.grammar.after.values() if it.place == place)

    def enums(self):
        g, family, name = self.grammar, self.family, self.dialect.name
        lines = []
        for head in (it for it in g.first if it.part and self.rust(it).endswith("Text")):
            lines += [f"/// What comes after `{head.row.text}`: `{shown_before(head)}`.", f"pub type {self.rust(head)} = {head.part};", ""]
        lines += [f"/// The {family.noun}s of a context of the dialect `{name}` alone. `Places` makes one of those of several dialects."]
        lines += [f"pub type {family.enum} = Tree<{g.place}, {g.head}>;", ""]
        lines += [f"/// A head of {'a type' if family.is_type else 'an attribute'} of the dialect `{name}`.", "#[derive(PartialEq, Eq, Hash, Debug, Drop)]", f"pub enum {g.head} {{"]
        for head in g.heads:
            lines += [f"    /// {self.says(head)}.", f"    {head.variant}({self.rust(head)})," if head.part else f"    {head.variant},"]
        lines += ["}", "", f"/// The places of the {family.noun}s of the dialect.", "#[derive(Clone, Copy, PartialEq, Eq)]", f"pub enum {g.place} {{"]
        for place in g.places:
            says = ("A type" if family.is_type else "An attribute") if place == g.start else self.place_says(place)
            lines += [f"    /// {says}.", f"    {place},"]
        lines += ["}", "", f"/// The words that {family.noun}s of the dialect begin with.", "#[derive(Clone, Copy)]", f"pub enum {family.words} {{"]
        for row in family.rows:
            lines += [f"    /// `{row.text}`.", f"    {row.variant},"]
        return lines + ["}"]

    def parse(self, row):
        """How what comes after a word is parsed."""
        head = next(it for it in self.grammar.first if it.row is row)
        made = f"{self.grammar.head}::{row.variant}"
        if head.part:
            return f"Ok({made}(after_word(stream)?))"
        opening = head.text[-1]
        if head.kind == "opened":
            return f"opened_parse(stream, \"{opening}\", {made}, '{closing_of(opening)}', {self.grammar.head}::Empty{row.variant})"
        return f'opening_parse(stream, "{opening}", {made})' if head.kind == "open" else f"word_alone(stream, {made})"

    def table(self):
        family, g, n = self.family, self.grammar, self.name
        return [
            "",
            f"impl<{self.errors}> Table<{g.head}, A> for {family.words} {{",
            self.ghosts(family.file, [f"{n}_word", f"{n}_after"]),
            "",
            f"    ghost word = {{ {n}_word }};",
            "",
            f"    ghost following = {{ {n}_after }};",
            "",
            f"    fn of(text: &str) -> Option<{family.words}> {{",
            *Words(family).of(),
            "    }",
            "",
            f"    fn parse(self, stream: &mut TextStream) -> ParseResult<{g.head}, A> {{",
            "        match self {",
            *[f"            {family.words}::{row.variant} => {self.parse(row)}," for row in family.rows],
            "        }",
            "    }",
            "}",
        ]

    def cases(self, heads):
        """The heads in a pattern."""
        return " | ".join(f"{self.grammar.head}::{it.variant}{'(_)' if it.part else ''}" for it in heads)

    def grows(self):
        g, n = self.grammar, self.name
        lines = ["", f"impl Grows<{g.head}> for {g.place} {{", self.ghosts(self.family.file, [f"{n}_growth"]), "", f"    ghost growth = {{ {n}_growth }};", ""]
        lines += [f"    fn start() -> {g.place} {{", f"        {g.place}::{g.start}", "    }", ""]
        lines += ["    fn is_start(self) -> bool {", f"        matches!(self, {g.place}::{g.start})", "    }", ""]
        lines += [f"    fn takes(self, head: &{g.head}) -> bool {{", "        match head {"]
        for place in g.places[1:]:
            lines += [f"            {self.cases(it for it in g.after.values() if it.place == place)} => matches!(self, {g.place}::{place}),"]
        lines += [f"            {self.cases(g.first)} => matches!(self, {g.place}::{g.start}),", "        }", "    }", ""]
        lines += [f"    fn waits(head: &{g.head}) -> Waits<{g.place}> {{", "        match head {"]
        for waits in dict.fromkeys(it.waits for it in g.heads if it.waits):
            places = ", ".join(f"{g.place}::{it}" for it in waits)
            lines += [f"            {self.cases(it for it in g.heads if it.waits == waits)} => Waits::Two({places}),"]
        return lines + [f"            {self.cases(it for it in g.heads if not it.waits)} => Waits::Nothing,", "        }", "    }", "}"]

    def read(self, place):
        heads = [it for it in self.grammar.after.values() if it.place == place]
        made = [f"{self.grammar.head}::{it.variant}" for it in heads]
        mark = heads[-1].text.strip()
        if len(heads) == 2:
            return f"more_parse(stream, ',', {made[0]}, \"{mark}\", {made[1]})"
        return f'mark_parse(stream, "{mark}", {made[0]})'

    def write(self, head):
        made = f"{self.grammar.head}::{head.variant}"
        if head.kind in PRINTED:
            return f'{made}(part) => {PRINTED[head.kind]}::<{self.rust(head)}, A>("{head.text}", part, f)'
        return f'{made} => write_word("{head.text}", f)'

    def grammar_of(self):
        family, g, n = self.family, self.grammar, self.name
        expected = "Type" if family.is_type else "Attribute"
        lines = ["", f"impl<{self.errors}> Grammar<{g.head}, A> for {g.place} {{", self.ghosts(family.file, [f"{n}_at", f"{n}_text"])]
        lines += [self.ghosts(family.laws, [f"{n}_same", f"{n}_law"])]
        for member, given in (("reading", "at"), ("written", "text"), ("same", "same"), ("sound", "law")):
            lines += ["", f"    ghost {member} = {{ {n}_{given} }};"]
        lines += ["", f"    fn read(self, stream: &mut TextStream) -> ParseResult<{g.head}, A> {{", "        match self {"]
        lines += [f'            {g.place}::{g.start} => table_parse::<{family.words}, {g.head}, A>(stream, "Unregistered {family.noun} ", Expected::{expected}),']
        lines += [f"            {g.place}::{it} => {self.read(it)}," for it in g.places[1:]]
        lines += ["        }", "    }", "", f"    fn write_head(head: &{g.head}, f: &mut String) -> Result<(), OutOfMemory> {{", "        match head {"]
        return lines + [f"            {self.write(it)}," for it in g.heads] + ["        }", "    }", "}"]

    def worded(self):
        family, g, n = self.family, self.grammar, self.name
        lines = ["", f"impl Worded for {g.head} {{", self.ghosts(family.file, [f"{n}_words"]), "", f"    ghost words = {{ {n}_words }};", ""]
        lines += ["    fn has_word(word: &str) -> bool {", *Words(family).has_word(), "    }", "}"]
        lines += ["", f"impl<{self.errors}> LedGrammar<{g.head}, A> for {g.place} {{", self.ghosts(family.laws, [f"{n}_led"]), ""]
        lines += [f"    ghost led = {{ {n}_led }};", "}", "", f"impl TryClone for {g.head} {{"]
        lines += [f"    fn try_clone(&self) -> Result<{g.head}, AllocError> {{", "        match self {"]
        for it in g.heads:
            made = f"{g.head}::{it.variant}"
            lines += [f"            {made}(part) => Ok({made}(part.try_clone()?))," if it.part else f"            {made} => Ok({made}),"]
        return lines + ["        }", "    }", "}"]

    def in_section(self):
        family, g, n = self.family, self.grammar, self.name
        lines = ["", f"impl<{self.errors}> AttrGrammar<{g.head}, A> for {g.place} {{", self.ghosts(family.file, ["is_outlined", "is_print_once"])]
        lines += [self.ghosts(family.laws, [f"{n}_unreserved"]), "", "    ghost outlined = { is_outlined };", "", "    ghost print_once = { is_print_once };", ""]
        lines += [f"    ghost unreserved = {{ {n}_unreserved }};"]
        for method, flag in (("is_outlined", "outlined"), ("is_print_once", "once")):
            flagged = [it for it in g.first if flag in it.row.flags]
            body = f"matches!(head, {self.cases(flagged)})" if flagged else "false"
            lines += ["", f"    fn {method}({'head' if flagged else '_'}: &{g.head}) -> bool {{", f"        {body}", "    }"]
        return lines + ["", f"    fn clone_head(head: &{g.head}) -> Result<{g.head}, AllocError> {{", "        head.try_clone()", "    }", "}"]

    def written(self):
        body = [*self.enums(), *Words(self.family).methods(), *self.table(), *self.grows(), *self.grammar_of(), *self.worded()] + ([] if self.family.is_type else self.in_section())
        text = "\n".join(body) + "\n"
        own = [*self.dialect.own_modules(), ("crate::fixed", " ".join([*self.dialect.fixed, *self.dialect.ranges])), ("crate::brackets", " ".join(self.grammar.brackets))]
        modules = own + [("irtext_base::parsable", "ParseResult TextStream"), ("irtext_base::result", "Expected"), ("irtext_base::text", "Worded")]
        modules += [("irtext_memory", "OutOfMemory")]
        modules += [("irtext_syntax", "Characters ListOf Name Number match_text matches_text"), ("irtext_syntax::keyword", "Flag Keyword"), ("irtext_syntax::part", "TryClone")]
        modules += [("irtext_syntax::range", "Ranged"), ("irtext_syntax::ready", " ".join([*BRACKETS, "Arrow Colon Comma SpacedArrow"])), ("irtext_syntax::sequence", "Then Within")]
        modules += [("irtext_syntax::table", "Table after_word table_parse word_alone write_row write_word")]
        modules += [("irtext_tree", "AttrGrammar Grammar Grows LedGrammar Tree Waits"), ("irtext_tree::marks", "mark_parse more_parse opened_parse opening_parse write_spaced_row")]
        modules += [*more_uses(), ("std::alloc", "AllocError")]
        head = [f"//! The heads of the {self.family.noun}s of the dialect `{self.dialect.name}`, which hold {self.family.noun}s of the context.", *rust_uses(modules, text)]
        return "\n".join(head) + "\n\n" + text


def brackets_of(grammars):
    """Returns the brackets before holes, by their names."""
    return {name: texts for grammar in grammars for name, texts in grammar.brackets.items()}


def brackets_law(dialect, found):
    """The file of the laws of the brackets before holes."""
    lines = ["-- The laws of the brackets before holes.", "use Rattle.std.proofs.Common.{codes, refl}", f"use {SYNTAX}.FixedTexts.{{BracketsLaw}}"]
    laws = "opens = λ rest. refl; shuts = λ rest. refl; closing = λ rest. refl; opening = refl; ascii_open = refl; ascii_close = refl"
    for name, (opening, closing) in found.items():
        texts = " ".join(f'(codes "{it}")' for it in (opening, closing, opening, closing))
        lines += ["", f"pub {snake_of(name)}_law : BracketsLaw {texts}", f"{snake_of(name)}_law = record {{ {laws} }}"]
    return "\n".join(lines) + "\n"


def brackets_source(dialect, found):
    """The file of the brackets before holes in src/."""
    names = ", ".join(f"{snake_of(it)}_law" for it in found)
    lines = [f"//! The brackets before holes in the texts of the dialect `{dialect.name}`: an opening bracket, and the fixed text after the part."]
    lines += ["ghost use Rattle.std.specs.Prelude.{codes};", f"ghost use Rattle.{dialect.crate}.specs.Brackets.{{{names}}};"]
    lines += ["", "use irtext_syntax::fixed::Brackets;"]
    for name, (opening, closing) in found.items():
        lines += ["", f"/// `{opening}` and `{closing}`.", f"pub struct {name};", "", f"impl Brackets for {name} {{"]
        for member, text in (("opener", opening), ("closer", closing), ("opener_printed", opening), ("closer_printed", closing)):
            lines += [f'    ghost {member} = {{ codes "{text}" }};', ""]
        lines += [f"    ghost law = {{ {snake_of(name)}_law }};"]
        for method, text in (("opening", opening), ("closing", closing), ("printed_opening", opening), ("printed_closing", closing)):
            lines += ["", f"    fn {method}() -> &'static str {{", f'        "{text}"', "    }"]
        lines += ["}"]
    return "\n".join(lines) + "\n"
