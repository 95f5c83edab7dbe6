"""The files of a crate, laid out."""
import os
import subprocess
import tempfile
import textwrap

from dialects.choices import Choice
from dialects.definitions import Definitions, parsed_by_hand
from dialects.description import described
from dialects.operations import Operations, code_span
from dialects.parts import MORE, SPACED, Wrong, shown
from dialects.sources import Sources, fixed_source
from dialects.trees import TreeDefinitions, TreeSources, brackets_law, brackets_of, brackets_source
from dialects.values import Values, keys_of, keys_source, values_source
from dialects.words import Words
from repository import text_of

BELOW = "irtext_memory irtext_syntax irtext_tokens irtext_base irtext_stream irtext_context irtext_format_check"


def files_of(dialect):
    """Returns the files of the crate, by their paths in it."""
    files, specs = {"src/lib.rt": ""}, ["-- What callers rely on, in reading order"]
    files.update(files_of_choices(dialect))
    specs += [f"pub mod {it}" for own in dialect.own.values() for it in own[2:]]
    brackets = brackets_of(TreeSources(it).grammar for it in dialect.families if it.is_tree)
    if brackets:
        files["src/brackets.rt"] = brackets_source(dialect, brackets)
        files["specs/Brackets.antt"] = brackets_law(dialect, brackets)
        specs += ["pub mod Brackets"]
    for family in dialect.families:
        files.update(files_of_family(family))
        specs += [f"pub mod {family.file}", f"pub mod {family.laws}"]
        specs += [f"pub mod {Values(family).file}"] if f"specs/{Values(family).file}.antt" in files else []
    if any(it.held and not it.is_tree for it in dialect.families):
        files["src/values.rt"] = values_source(dialect)
    if dialect.operations:
        operations = Operations(dialect)
        files["src/operations.rt"] = operations.source()
        files["specs/Operations.antt"] = operations.definitions()
        files.update(operations.proofs())
        specs += ["pub mod Operations"]
    if keys_of(dialect):
        files["src/keys.rt"] = keys_source(dialect)
    if dialect.fixed or dialect.ranges:
        files["src/fixed.rt"] = fixed_source(dialect)
    files["specs/Lib.antt"] = "\n".join(specs) + "\n"
    proofs = ["mod OperationFormats"] if dialect.operations else []
    proofs += [f"mod {it}" for it in ("Parsed", "Words") if f"proofs/{it}.antt" in files]
    says = "-- What is needed besides the laws of texts"
    files["proofs/Lib.antt"] = "\n".join([says, *proofs] if proofs else [f"{says}: nothing"]) + "\n"
    files["src/lib.rt"] = root_of(dialect, files)
    return files


def files_of_choices(dialect):
    """Returns the files of the choices, by their paths."""
    files = {}
    for name in dialect.choices:
        choice = Choice(dialect, name)
        files[f"src/{choice.file}.rt"] = choice.source()
        files[f"specs/{choice.texts}.antt"] = choice.definitions()
        files[f"specs/{choice.laws}.antt"] = choice.law()
    return files


def files_of_family(family):
    """Returns the files of the types or of the attributes, by their paths."""
    if family.is_tree:
        tree = TreeDefinitions(family)
        files = {
            f"src/{family.module}.rt": TreeSources(family).written(),
            f"specs/{family.file}.antt": tree.texts(),
            f"specs/{family.laws}.antt": tree.law(),
        }
        return files | tree.printed() | parsed_by_hand(family, [it.row for it in tree.held]) | Words(family).proofs()
    files = {
        f"src/{family.module}.rt": Sources(family).written(),
        f"specs/{family.file}.antt": Definitions(family).texts(),
        f"specs/{family.laws}.antt": Definitions(family).law(),
    }
    if Values(family).viewed:
        files[f"specs/{Values(family).file}.antt"] = Values(family).definitions()
    return files | Definitions(family).printed() | parsed_by_hand(family, family.held) | Words(family).proofs()


MEANT = {"Number Ranged": "N is a number", "Flag": "`w?` the word `w` or nothing", "Characters": "S a string", "Name": "I an identifier", "Own whole": "T a type of the context", "attribute": "A an attribute of the context"}


def root_of(dialect, files):
    """Returns the root of the crate, with the modules that are among the files."""
    name = dialect.name
    kinds = [f"{it.noun}s" for it in dialect.families] + (["operations"] if dialect.operations else [])
    says = kinds[0] if len(kinds) == 1 else ", ".join(kinds[:-1]) + " and " + kinds[-1]
    head = [f"//! The dialect `{name}`: its {says}."]
    if dialect.families:
        meant = [it for parts, it in MEANT.items() if any(family.has(part) for family in dialect.families for part in parts.split())]
        meant += ["P a part of the dialect's own"] if any(it not in dialect.choices for it in dialect.own) else []
        says = f"The texts of its {' and '.join(f'{it.noun}s' for it in dialect.families)}" + (f", where {', '.join(meant)}" if meant else "") + ":"
        head += ["//!"] + [f"//! {it}" for it in textwrap.wrap(says, 136)] + ["//!"]
        for family in dialect.families:
            head += [f"//! - `{row.text}{' ' + shown(row.part) if row.part else ''}`" for row in family.rows]
    if "src/values.rt" in files:
        head += ["//!", "//! `values` has a constructor and a getter for each of these that has a part."]
    if dialect.operations:
        head += ["//!", f"//! `register_{name}` registers its operations, by these formats:", "//!"]
        head += [f"//! - `{name}.{op.name}`: {code_span(op.format_text) or 'nothing'}{', isolated from above' if op.isolated else ''}" for op in dialect.operations]
    modules = {os.path.basename(it)[: -len(".rt")] for it in files if it.startswith("src/")} - {"lib"} | {it[0] for it in dialect.own.values()}
    uses = [f"pub use {it.module}::{it.enum};" for it in dialect.families if not it.is_tree]
    uses += [f"pub use {it.module}::{{{it.enum}, {it.enum}Head, {it.enum}Place}};" for it in dialect.families if it.is_tree]
    uses += [f"pub use operations::register_{name};"] if dialect.operations else []
    uses += [f"pub use {file}::{part};" for part, (file, _, _, _) in dialect.own.items()]
    return "\n".join([*head, "#![tactic(auto)]", "", *(f"pub mod {it};" for it in sorted(modules)), "", *sorted(uses)]) + "\n"


def laid_out(files):
    """Returns the files with the sources laid out by `rt fmt`."""
    with tempfile.TemporaryDirectory() as folder:
        write(folder, files)
        try:
            done = subprocess.run(["rt", "fmt"], cwd=folder, capture_output=True, text=True)
        except FileNotFoundError:
            raise Wrong("the Rattle kit's command rt is not on the path: it lays out what is written") from None
        if done.returncode:
            raise Wrong(f"rt fmt fails: {done.stdout}{done.stderr}")
        return {path: text_of(os.path.join(folder, path)) for path in files}


def write(folder, files):
    for path, text in files.items():
        at = os.path.join(folder, path)
        os.makedirs(os.path.dirname(at), exist_ok=True)
        with open(at, "w", encoding="utf-8") as file:
            file.write(text)


def crate_line(dialect):
    tree = "irtext_tree " if any(it.is_tree for it in dialect.families) else ""
    more = "irtext_parts " if any(it.name in (*MORE, "Hex", *SPACED) for family in dialect.families for it in family.parts()) else ""
    return f"{dialect.crate}: {tree}{more}{BELOW}"


def notes(dialect):
    """Yields what the dialect needs beside what is written."""
    for part, (at, _, _, _) in dialect.own.items():
        if part in dialect.choices:
            continue
        yield f"write the part {part} yourself: crates/{dialect.crate}/src/{at}.rt and its two files in specs/ (docs/DIALECTS.md)"
    for family in dialect.families:
        if len(family.rows) == 1 and family.held:
            yield f"the only {family.noun} has a part: the checker does not prove that yet, so describe a second one before you prove it"


def dialect_in(file):
    """Parses the description in a file, which has to describe something."""
    try:
        dialect = described(text_of(file))
    except OSError as error:
        raise Wrong(f"cannot be read: {error.strerror}") from None
    except UnicodeDecodeError:
        raise Wrong("is not UTF-8") from None
    if not dialect.families and not dialect.operations:
        raise Wrong("the dialect has no types, attributes or operations")
    return dialect
