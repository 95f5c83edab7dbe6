r"""The text of LLVM IR, as `clang -S -emit-llvm` or `opt -S` write it (a `.ll` file), as plain objects: `module_of` reads it.

Types are tuples: `("int", 32)`, `("ptr", 0)`, `("struct", (TYPE, ..))`. So are constants and other values: `("int", "4")`,
`("local", "x")`, `("list", ((TYPE, VALUE), ..))`, and `("expr", OPCODE, TYPE, OPERANDS, WORDS)` for a constant expression, whose fields are
those of an `Instruction`. Pointers are opaque: `i8*` is read as `ptr`. Metadata, groups of attributes and the attributes of parameters are
read over. What the reader does not know is `Unknown`, with the line.
"""
import re
import struct
from dataclasses import dataclass, field

TOKEN = re.compile(
    r"""[ \t\r\n]+ | ;[^\n]* | ^(?:!|\^|attributes[ ]\#)[^\n]* | \#dbg_[^\n]*
    | ^(?P<label>[-\w$.]+|"(?:[^"\\]|\\.)*"):(?=\s)
    | (?P<string>c?"[^"]*") | (?P<local>%(?:[-\w$.]+|"[^"]*")) | (?P<global>@(?:[-\w$.]+|"[^"]*"))
    | (?P<float>[-+]?\d+\.\d*(?:[eE][-+]?\d+)? | 0x[KLMHR]?[0-9A-Fa-f]+) | (?P<number>-?\d+) | (?P<word>[A-Za-z_$][\w$.]*)
    | (?P<meta>![\w.$\\-]*) | (?P<group>\#\d+) | (?P<point>\.\.\.|[][(){}<>,=*|:])""",
    re.X | re.M,
)
FLOATS = "half bfloat float double x86_fp80 fp128 ppc_fp128".split()
BINARY = "add sub mul shl udiv sdiv urem srem lshr ashr and or xor fadd fsub fmul fdiv frem".split()
CASTS = "trunc zext sext fptrunc fpext fptoui fptosi uitofp sitofp ptrtoint inttoptr bitcast addrspacecast".split()
FAST = "nnan ninf nsz arcp contract afn reassoc".split()
FLAGS = set("nuw nsw exact inbounds nusw disjoint nneg samesign fast".split() + FAST)
LINKAGES = "private internal available_externally linkonce weak common appending extern_weak linkonce_odr weak_odr external".split()
CONVENTIONS = "ccc fastcc coldcc ghccc tailcc swiftcc swifttailcc preserve_mostcc preserve_allcc".split()
ORDERINGS = "unordered monotonic acquire release acq_rel seq_cst".split()
SINGLE = {"null": "zero", "none": "zero", "zeroinitializer": "zero", "undef": "undef", "poison": "poison", "true": "true", "false": "false"}
# attributes of parameters, results and functions, and what else a module may say of a symbol, which are read over
SKIPPED = set(
    """zeroext signext inreg noalias nocapture nofree nest returned nonnull noundef swiftself swiftasync swifterror immarg readnone readonly
    writeonly writable dead_on_unwind allocptr allocalign byval byref sret inalloca preallocated elementtype align alignstack dereferenceable
    dereferenceable_or_null captures range nofpclass initializes dead_on_return noinline alwaysinline inlinehint optnone optsize minsize noreturn
    nounwind norecurse willreturn nosync nobuiltin builtin cold hot convergent argmemonly inaccessiblememonly inaccessiblemem_or_argmemonly
    memory nocallback mustprogress ssp sspreq sspstrong uwtable vscale_range speculatable returns_twice naked jumptable noredzone
    noimplicitfloat nomerge nonlazybind strictfp safestack sanitize_address sanitize_memory sanitize_thread sanitize_hwaddress
    sanitize_memtag shadowcallstack null_pointer_is_valid no_sanitize_address no_sanitize_hwaddress allocsize allockind presplitcoroutine
    dso_local dso_preemptable dllimport dllexport unnamed_addr local_unnamed_addr default externally_initialized nosanitize_coverage
    nosanitize_bounds nodivergencesource noprofile skipprofile fn_ret_thunk_extern disable_sanitizer_instrumentation hidden protected""".split()
)


class Unknown(Exception):
    """What the reader or the writer does not know, with its line."""


@dataclass
class Instruction:
    opcode: str
    line: int
    type: tuple = ("void",)  # of its result
    operands: list = field(default_factory=list)  # pairs of a type and a value
    targets: list = field(default_factory=list)  # the names of blocks
    words: dict = field(default_factory=dict)  # what else it says
    result: str = ""
    place: str = ""  # the name of its metadata under `!dbg`


@dataclass
class Block:
    name: str
    line: int
    phis: list = field(default_factory=list)
    instructions: list = field(default_factory=list)


@dataclass
class Function:
    name: str
    type: tuple
    words: dict
    line: int
    parameters: list = field(default_factory=list)  # pairs of a type and a name
    blocks: list = field(default_factory=list)  # none of a declaration


@dataclass
class Variable:
    name: str
    type: tuple
    words: dict
    line: int
    value: tuple = None  # none of a declaration


@dataclass
class Module:
    words: dict = field(default_factory=dict)  # source_filename, datalayout, triple
    types: dict = field(default_factory=dict)  # of named types
    symbols: list = field(default_factory=list)  # functions and variables, in their order
    assembly: list = field(default_factory=list)


def unescaped(text):
    r"""Returns the bytes of a quoted text, in which `\XX` is a byte."""
    return re.sub(rb"\\([0-9A-Fa-f]{2})|\\\\", lambda it: bytes.fromhex(it[1].decode()) if it[1] else b"\\", text.encode())


def plain(name):
    """Returns a name without its sigil and its quotation marks."""
    return unescaped(name[1:-1]).decode("utf-8", "backslashreplace") if name.startswith('"') else name


class Tokens:
    """The tokens of a text, and how they are taken."""

    def __init__(self, text):
        self.text, self.kinds, self.tokens, self.starts, self.at = text, [], [], [], 0
        end = 0
        for found in TOKEN.finditer(text):
            if found.start() != end:
                break
            end = found.end()
            if found.lastgroup:
                self.kinds.append(found.lastgroup)
                self.tokens.append(found[found.lastgroup])
                self.starts.append(found.start())
        self.kinds.append("end" if end == len(text) else "other")
        self.tokens.append("" if end == len(text) else text[end])
        self.starts.append(end)
        self.counted = (0, 1)  # a place, and its line

    @property
    def kind(self):
        return self.kinds[self.at]

    @property
    def token(self):
        return self.tokens[self.at]

    def line(self):
        """Returns the line of the next token; the lines before are not counted again."""
        place, line = self.counted
        start = self.starts[self.at]
        line = line + self.text.count("\n", place, start) if start >= place else self.text.count("\n", 0, start) + 1
        self.counted = start, line
        return line

    def fail(self, wanted):
        found = f"`{self.token}`" if self.token else "the end"
        raise Unknown(f"line {self.line()}: {wanted} is expected, and not {found}")

    def next(self):
        self.at += 1
        return self.tokens[self.at - 1]

    def sees(self, token):
        return self.tokens[self.at] == token and self.kinds[self.at] != "string"

    def take(self, token):
        if self.sees(token):
            self.at += 1
            return True
        return False

    def need(self, token):
        if not self.take(token):
            self.fail(f"`{token}`")

    def of(self, kind, wanted=None):
        """Takes a token of a kind."""
        if self.kind != kind:
            self.fail(wanted or f"a {kind}")
        return self.next()

    def name(self, kind):
        return plain(self.of(kind)[1:])

    def number(self):
        return int(self.of("number"))

    def word_of(self, words, wanted):
        if self.kind != "word" or self.token not in words:
            self.fail(wanted)
        return self.next()

    def words_of(self, words):
        """Takes the words of a set that come next."""
        found = []
        while self.kind == "word" and self.token in words:
            found.append(self.next())
        return found

    def in_brackets(self):
        """Takes a bracket and all up to the one that closes it."""
        depth = 0
        while True:
            token = self.next() if self.kind != "end" else self.fail("a closing bracket")
            depth += token in ("(", "{", "<", "[")
            depth -= token in (")", "}", ">", "]")
            if not depth:
                return

    def items(self, closing, one):
        """Takes what `one` takes, with commas between, and the closing token."""
        found = []
        while not self.take(closing):
            if found:
                self.need(",")
            found.append(one())
        return found


class Reader(Tokens):
    """The parser: a method for each thing that a module has."""

    def __init__(self, text):
        super().__init__(text)
        self.module, self.unnamed = Module(), 0

    # ---- types

    def type(self):
        found = self.first_type()
        while True:
            if self.take("*"):
                found = ("ptr", 0)
            elif self.sees("addrspace"):
                found = ("ptr", self.space())
                self.take("*")
            elif self.take("("):
                variadic, parameters = self.parameter_types()
                found = ("varargs" if variadic else "func", found, tuple(parameters))
            else:
                return found

    def space(self):
        self.need("addrspace")
        self.need("(")
        number = self.number()
        self.need(")")
        return number

    def parameter_types(self):
        variadic, found = False, []

        def one():
            nonlocal variadic
            variadic = self.take("...")
            if not variadic:
                found.append(self.type())

        self.items(")", one)
        return variadic, found

    def first_type(self):
        token, kind = self.token, self.kind
        if kind == "local":
            return ("named", self.name("local"))
        if kind == "word":
            self.at += 1
            if token[0] == "i" and token[1:].isdigit():
                return ("int", int(token[1:]))
            if token in FLOATS:
                return ("fp", token)
            if token == "ptr":
                return ("ptr", 0)
            if token in ("void", "label", "token", "metadata", "opaque"):
                return (token,)
            self.at -= 1
        elif self.take("["):
            return self.sized("array", "]")
        elif self.take("{"):
            return ("struct", tuple(self.items("}", self.type)))
        elif self.take("<"):
            if self.take("{"):
                found = ("packed", tuple(self.items("}", self.type)))
                self.need(">")
                return found
            return self.sized("scalable" if self.take("vscale") and self.need("x") is None else "vector", ">")
        return self.fail("a type")

    def sized(self, kind, closing):
        number = self.number()
        self.need("x")
        element = self.type()
        self.need(closing)
        return (kind, number, element)

    def resolved(self, of):
        return self.resolved(self.module.types.get(of[1], ("opaque",))) if of[0] == "named" else of

    def inside(self, of, indices):
        """Returns the type of a part of an aggregate."""
        for index in indices:
            of = self.resolved(of)
            if of[0] in ("struct", "packed") and index < len(of[1]):
                of = of[1][index]
            elif of[0] == "array":
                of = of[2]
            else:
                self.fail("an index of a part that the aggregate has")
        return of

    def like(self, of, element):
        """Returns a vector as `of` is one, with other elements, or the element alone."""
        return (of[0], of[1], element) if of[0] in ("vector", "scalable") else element

    # ---- values

    def value(self, of):
        token, kind = self.token, self.kind
        if of == ("metadata",):
            return self.metadata()
        if kind in ("local", "global"):
            return (kind, self.name(kind))
        if kind in ("number", "float"):
            return ("int" if kind == "number" else "float", self.next())
        if kind == "string" and token.startswith("c"):
            return ("string", unescaped(self.next()[2:-1]))
        if kind == "word":
            if token in SINGLE:
                self.at += 1
                return (SINGLE[token],)
            if token == "asm":
                return self.assembly()
            if token == "splat":
                return self.splat(of)
            if token == "blockaddress":
                return self.block_address()
            if token in ("dso_local_equivalent", "no_cfi"):
                self.at += 1
                return ("global", self.name("global"))
            return self.expression()
        for opening, closing in (("[", "]"), ("{", "}"), ("<", ">")):
            if self.take(opening):
                if opening == "<" and self.take("{"):
                    found = self.items("}", self.typed)
                    self.need(">")
                else:
                    found = self.items(closing, self.typed)
                return ("list", tuple(found))
        return self.fail("a value")

    def typed(self):
        """Takes a type and a value of it."""
        of = self.type()
        self.attributes()
        return (of, self.value(of))

    def metadata(self):
        """Takes an operand that is metadata, of which a text is kept."""
        if self.kind != "meta":
            self.typed()
        elif self.next() == "!" and self.kind == "string":
            return ("string", unescaped(self.next()[1:-1]))
        elif self.sees("(") or self.sees("{"):
            self.in_brackets()
        return ("metadata",)

    def assembly(self):
        self.need("asm")
        flags = self.words_of(("sideeffect", "alignstack", "inteldialect", "unwind"))
        text = unescaped(self.of("string")[1:-1])
        self.need(",")
        return ("asm", text, unescaped(self.of("string")[1:-1]), tuple(flags))

    def splat(self, of):
        self.next()
        self.need("(")
        one = self.typed()
        self.need(")")
        return ("list", (one,) * of[1])

    def block_address(self):
        self.next()
        self.need("(")
        function = self.name("global")
        self.need(",")
        block = self.name("local")
        self.need(")")
        return ("block", function, block)

    def expression(self):
        """Takes a constant expression."""
        opcode = self.next()
        words = {}
        if opcode in ("icmp", "fcmp"):
            words["predicate"] = self.of("word")
        flags = self.flags()
        if not self.take("("):
            self.at -= 1 + len(flags) + len(words)
            self.fail("a value")
        if opcode == "getelementptr":
            of, operands, words = self.element_pointer(")")
        elif opcode in CASTS:
            operands = [self.typed()]
            self.need("to")
            of = self.type()
            self.need(")")
        else:
            operands = self.items(")", lambda: self.number() if self.kind == "number" else self.typed())
            words |= self.indices_in(operands)
            operands = [it for it in operands if not isinstance(it, int)]
            of = self.type_of(opcode, operands, words)
        words |= {"flags": tuple(flags)} if flags else {}
        return ("expr", opcode, of, tuple(operands), tuple(sorted(words.items())))

    def indices_in(self, operands):
        found = tuple(it for it in operands if isinstance(it, int))
        return {"at": found} if found else {}

    def type_of(self, opcode, operands, words):
        """Returns the type of the result of an operation by its operands."""
        first = operands[0][0] if operands else self.fail("an operand")
        if opcode in ("icmp", "fcmp"):
            return self.like(first, ("int", 1))
        if opcode == "select":
            return operands[1][0]
        if opcode == "extractvalue":
            return self.inside(first, words["at"])
        if opcode == "extractelement":
            return first[2]
        if opcode == "shufflevector":
            return (operands[2][0][0], operands[2][0][1], first[2])
        if opcode in BINARY or opcode in ("insertvalue", "insertelement", "fneg", "freeze"):
            return first
        return self.fail(f"a constant expression that is known, which {opcode} is not,")

    def element_pointer(self, closing=None):
        """Takes a `getelementptr` behind its flags, and returns the type, the operands and what else it says."""
        words = {"element": self.type()}
        operands = []
        while self.take(","):
            if self.kind == "meta":
                self.at -= 1
                break
            self.take("inrange")
            operands.append(self.typed())
        if closing:
            self.need(closing)
        shape = next((it for it, _ in operands if it[0] in ("vector", "scalable")), operands[0][0])
        pointer = operands[0][0] if operands[0][0][0] == "ptr" else operands[0][0][2]
        return self.like(shape, pointer), operands, words

    # ---- attributes

    def attributes(self):
        """Takes the attributes of a parameter or of a symbol, of which nothing is kept."""
        while True:
            if self.kind == "group":
                self.at += 1
            elif self.kind == "string" and not self.token.startswith("c"):
                self.at += 1
                if self.take("="):
                    self.of("string")
            elif self.kind == "word" and self.token in SKIPPED:
                aligned = self.next() == "align"
                if self.sees("("):
                    self.in_brackets()
                elif self.take("=") or aligned:
                    self.number()
            else:
                return

    def flags(self):
        """Takes flags of an operation, as `nuw` and `inbounds`."""
        found = self.words_of(FLAGS)
        if found and found[-1] == "inbounds" or self.sees("inrange"):
            if self.take("inrange"):
                self.in_brackets()
        return found

    def notes(self, instruction):
        """Takes the metadata behind an instruction, of which its place is kept."""
        while self.sees(",") and self.kinds[self.at + 1] == "meta":
            self.at += 1
            kind, value = self.next(), self.of("meta")
            if self.sees("(") or self.sees("{"):
                self.in_brackets()
            if kind == "!dbg":
                instruction.place = value

    # ---- instructions

    def instruction(self):
        line, result = self.line(), ""
        if self.kind == "local":
            result = self.name("local")
            self.need("=")
        opcode = self.of("word", "an instruction")
        found = Instruction(opcode, line)
        if opcode in ("tail", "musttail", "notail"):
            found.words["tail"], opcode, found.opcode = opcode, self.of("word"), "call"
        if opcode in BINARY or opcode in ("fneg", "freeze"):
            self.plain_operation(found, 2 if opcode in BINARY else 1)
        elif opcode in CASTS:
            self.cast(found)
        elif hasattr(self, f"read_{opcode}"):
            getattr(self, f"read_{opcode}")(found)
        else:
            self.at -= 1
            self.fail("an instruction that is known")
        found.result = result
        if found.type == ("void",) and result:
            self.fail("an instruction with a result")
        if found.type != ("void",) and not result:
            found.result = self.next_number()
        self.notes(found)
        return found

    def next_number(self):
        self.unnamed += 1
        return f" {self.unnamed}"  # (no name has a space before it)

    def keep_flags(self, found):
        flags = self.flags()
        if flags:
            found.words["flags"] = tuple(flags)

    def plain_operation(self, found, count):
        self.keep_flags(found)
        of = found.type = self.type()
        found.operands.append((of, self.value(of)))
        for _ in range(count - 1):
            self.need(",")
            found.operands.append((of, self.value(of)))

    def cast(self, found):
        self.keep_flags(found)
        found.operands = [self.typed()]
        self.need("to")
        found.type = self.type()

    def read_icmp(self, found):
        self.keep_flags(found)
        found.words["predicate"] = self.of("word")
        of = self.type()
        first = self.value(of)
        self.need(",")
        found.operands = [(of, first), (of, self.value(of))]
        found.type = self.like(of, ("int", 1))

    read_fcmp = read_icmp

    def several(self):
        """Takes operands with commas between, up to what is none."""
        found = [self.typed()]
        while self.sees(",") and self.kinds[self.at + 1] not in ("meta", "number") and self.tokens[self.at + 1] not in ("align", "addrspace"):
            self.at += 1
            found.append(self.typed())
        return found

    def read_select(self, found):
        self.keep_flags(found)
        found.operands = self.several()
        found.type = self.type_of(found.opcode, found.operands, found.words)

    read_extractelement = read_insertelement = read_shufflevector = read_select

    def read_extractvalue(self, found):
        found.operands = self.several()
        indices = []
        while self.sees(",") and self.kinds[self.at + 1] == "number":
            self.at += 1
            indices.append(self.number())
        found.words["at"] = tuple(indices)
        found.type = self.type_of(found.opcode, found.operands, found.words)

    read_insertvalue = read_extractvalue

    def read_getelementptr(self, found):
        self.keep_flags(found)
        found.type, found.operands, words = self.element_pointer()
        found.words |= words

    def read_phi(self, found):
        self.keep_flags(found)
        found.type = self.type()
        while True:
            self.need("[")
            found.operands.append((found.type, self.value(found.type)))
            self.need(",")
            found.targets.append(self.name("local"))
            self.need("]")
            if not self.sees(",") or self.kinds[self.at + 1] == "meta":
                return
            self.at += 1

    def access(self, found):
        """Takes what comes before the operands of an access to memory."""
        for word in self.words_of(("atomic", "volatile", "weak", "inalloca", "swifterror")):
            found.words[word] = True

    def access_ends(self, found):
        """Takes the scope, the orderings and the alignment of an access to memory."""
        if self.take("syncscope"):
            self.need("(")
            found.words["scope"] = unescaped(self.of("string")[1:-1])
            self.need(")")
        orderings = self.words_of(ORDERINGS)
        if orderings:
            found.words["ordering"] = orderings[0]
            found.words["failure"] = orderings[-1]
        while self.sees(",") and self.tokens[self.at + 1] in ("align", "addrspace"):
            self.at += 1
            if self.take("align"):
                found.words["align"] = self.number()
            else:
                found.type = ("ptr", self.space())

    def read_load(self, found):
        self.access(found)
        found.type = self.type()
        self.need(",")
        found.operands = [self.typed()]
        self.access_ends(found)

    def read_store(self, found):
        self.access(found)
        found.operands = self.several()
        self.access_ends(found)

    def read_alloca(self, found):
        self.access(found)
        found.words["element"] = self.type()
        found.type = ("ptr", 0)
        if self.sees(",") and self.kinds[self.at + 1] != "meta" and self.tokens[self.at + 1] not in ("align", "addrspace"):
            self.at += 1
            found.operands = [self.typed()]
        self.access_ends(found)

    def read_atomicrmw(self, found):
        self.access(found)
        found.words["rmw"] = self.of("word")
        found.operands = self.several()
        found.type = found.operands[-1][0]
        self.access_ends(found)

    def read_cmpxchg(self, found):
        self.access(found)
        found.operands = self.several()
        found.type = ("struct", (found.operands[-1][0], ("int", 1)))
        self.access_ends(found)

    def read_fence(self, found):
        self.access_ends(found)

    def read_va_arg(self, found):
        found.operands = [self.typed()]
        self.need(",")
        found.type = self.type()

    def call_head(self, found):
        """Takes what comes before the operands of a call: flags, the convention, the type and what is called."""
        self.keep_flags(found)
        found.words |= self.convention()
        self.attributes()
        of = self.type()
        self.attributes()
        if of[0] in ("func", "varargs"):
            found.words["called"] = of
            of = of[1]
        found.type = of
        found.words["callee"] = self.value(("ptr", 0))

    def convention(self):
        for word in self.words_of(CONVENTIONS):
            return {"convention": word} if word != "ccc" else {}
        if self.sees("cc") and self.kinds[self.at + 1] == "number":
            self.at += 1
            return {"convention": f"cc {self.number()}"}
        return {}

    def call_arguments(self, found):
        self.need("(")
        found.operands = self.items(")", self.typed)
        self.attributes()
        if self.sees("["):
            self.fail("a call without operand bundles")

    def read_call(self, found):
        self.call_head(found)
        self.call_arguments(found)

    def target(self):
        self.need("label")
        return self.name("local")

    def read_invoke(self, found):
        self.call_head(found)
        self.call_arguments(found)
        self.need("to")
        found.targets = [self.target()]
        self.need("unwind")
        found.targets.append(self.target())

    def read_ret(self, found):
        of = self.type()
        if of != ("void",):
            found.operands = [(of, self.value(of))]

    def read_br(self, found):
        if self.sees("label"):
            found.targets = [self.target()]
            return
        found.operands = [self.typed()]
        for _ in range(2):
            self.need(",")
            found.targets.append(self.target())

    def read_switch(self, found):
        found.operands = [self.typed()]
        self.need(",")
        found.targets = [self.target()]
        self.need("[")
        cases = []
        while not self.take("]"):
            self.type()
            cases.append(self.of("number") if self.kind == "number" else str(int(self.word_of(("true", "false"), "a number") == "true")))
            self.need(",")
            found.targets.append(self.target())
        found.words["cases"] = tuple(cases)

    def read_indirectbr(self, found):
        found.operands = [self.typed()]
        self.need(",")
        self.need("[")
        found.targets = self.items("]", self.target)

    def read_resume(self, found):
        found.operands = [self.typed()]

    def read_unreachable(self, found):
        pass

    def read_landingpad(self, found):
        found.type = self.type()
        clauses = self.words_of(("cleanup",))
        while self.sees("catch") or self.sees("filter"):
            clauses.append(self.next())
            found.operands.append(self.typed())
        found.words["clauses"] = tuple(clauses)

    # ---- symbols

    def symbol_words(self):
        """Takes what comes before a symbol's type: its linkage, its visibility and others."""
        found = {"linkage": "external"}
        while True:
            if self.kind == "word" and self.token in LINKAGES:
                found["linkage"] = self.next()
            elif self.sees("hidden") or self.sees("protected"):
                found["visibility"] = self.next()
            elif self.take("thread_local"):
                found["thread_local"] = "general"
                if self.take("("):
                    found["thread_local"] = self.of("word")
                    self.need(")")
            elif self.sees("addrspace"):
                found["space"] = self.space()
            elif self.kind == "word" and self.token in SKIPPED and self.token not in ("align",):
                before = self.at
                self.attributes()
                if self.at == before:
                    return found
            else:
                return found

    def symbol_ends(self, words):
        """Takes what comes behind a symbol: attributes, its section, its alignment and others."""
        while True:
            before = self.at
            comma = self.sees(",")
            if comma:
                self.at += 1
            if self.take("section"):
                words["section"] = unescaped(self.of("string")[1:-1])
            elif self.take("align"):
                words["align"] = self.number()
            elif self.take("comdat"):
                if self.sees("("):
                    self.in_brackets()
            elif self.take("personality"):
                words["personality"] = self.typed()
            elif self.take("partition") or self.take("gc"):
                self.of("string")
            elif self.kind == "meta":
                kind = self.next()
                words |= {"place": self.of("meta")} if kind == "!dbg" else {"": self.of("meta")}
            elif not comma:
                self.attributes()
                if self.at == before:
                    return
            else:
                self.fail("what a symbol can have")

    def variable(self):
        line, name = self.line(), self.name("global")
        self.need("=")
        words = self.symbol_words()
        if self.sees("alias") or self.sees("ifunc"):
            words["alias"] = self.next()
            of = self.type()
            self.need(",")
            found = Variable(name, of, words, line, self.typed()[1])
        else:
            words["constant"] = self.word_of(("global", "constant"), "`global` or `constant`") == "constant"
            of = self.type()
            found = Variable(name, of, words, line, self.value(of) if self.goes_on() else None)
        self.symbol_ends(words)
        self.module.symbols.append(found)

    def goes_on(self):
        """Whether a value comes next, on the line of what is before it."""
        return self.kind != "end" and not self.sees(",") and "\n" not in self.text[self.starts[self.at - 1] : self.starts[self.at]]

    def header(self):
        """Takes a function's header."""
        line, words = self.line(), self.symbol_words()
        words |= self.convention()
        self.attributes()
        result = self.type()
        name = self.name("global")
        self.need("(")
        variadic, parameters = False, []
        while not self.take(")"):
            if parameters or variadic:
                self.need(",")
            variadic = self.take("...")
            if not variadic:
                of = self.type()
                self.attributes()
                parameters.append((of, self.name("local") if self.kind == "local" else str(len(parameters))))
        self.symbol_ends(words)
        of = ("varargs" if variadic else "func", result, tuple(it for it, _ in parameters))
        return Function(name, of, words, line, parameters)

    def function(self):
        found = self.header()
        self.need("{")
        self.unnamed = 0
        while not self.take("}"):
            found.blocks.append(self.block(found))
        self.module.symbols.append(found)

    def block(self, function):
        name = plain(self.next()) if self.kind == "label" else self.entry_name(function)
        found = Block(name, self.line())
        while self.kind != "label" and not self.sees("}"):
            it = self.instruction()
            if it.opcode == "phi":
                found.phis.append(it)
            elif it.opcode != "call" or it.words["callee"][0] != "global" or not is_note(it.words["callee"][1]):
                found.instructions.append(it)
        return found

    def entry_name(self, function):
        """Returns the name of the first block, which may have no label: the number after those of the parameters without a name."""
        if function.blocks:
            self.fail("a label")
        return str(sum(name.isdigit() for _, name in function.parameters))

    # ---- the module

    def whole(self):
        while self.kind != "end":
            if self.take("define"):
                self.function()
            elif self.take("declare"):
                while self.kind == "meta":
                    self.at += 2
                self.module.symbols.append(self.header())
            elif self.kind == "global":
                self.variable()
            elif self.kind == "local":
                name = self.name("local")
                self.need("=")
                self.need("type")
                self.module.types[name] = self.type()
            else:
                self.rest()
        return self.module

    def rest(self):
        """Takes what else a module may have."""
        if self.take("target"):
            key = self.of("word")
        elif self.take("module"):
            self.need("asm")
            self.module.assembly.append(unescaped(self.of("string")[1:-1]))
            return
        elif self.kind == "word" and self.token.startswith("$"):
            self.at += 1
            self.need("=")
            self.need("comdat")
            self.of("word")
            return
        else:
            key = self.of("word", "a function, a variable, a type, or another part of a module")
        if key not in ("source_filename", "datalayout", "triple"):
            self.at -= 1
            self.fail("a function, a variable, a type, or another part of a module")
        self.need("=")
        self.module.words[key] = unescaped(self.of("string")[1:-1])


def is_note(name):
    """Whether a call of this function only hands metadata to a debugger or to the optimizer."""
    return name.startswith("llvm.dbg.") or name == "llvm.experimental.noalias.scope.decl"


NODE = re.compile(r"^!(\d+) = (?:distinct )?!(DILocation|DISubprogram|DILexicalBlock|DILexicalBlockFile|DIFile)\((.*)\)$", re.M)
FIELD = re.compile(r"""(line|column|scope|file|name|filename|inlinedAt): !?("[^"]*"|\d+)""")


class Places:
    """The places in the sources that a text built with `-g` names, as locations of the IR."""

    def __init__(self, text):
        self.nodes = {f"!{name}": (kind, dict(FIELD.findall(fields))) for name, kind, fields in NODE.findall(text)}
        self.texts = {}

    def function_of(self, scope):
        """Returns the node of the function that a scope is in."""
        seen = set()
        while scope in self.nodes and scope not in seen and self.nodes[scope][0] != "DISubprogram":
            seen.add(scope)
            scope = f"!{self.nodes[scope][1].get('scope')}"
        return scope

    def own(self, name):
        """Returns the file, the line and the column of a node, or nothing if it says none."""
        fields = self.nodes.get(name, ("", {}))[1]
        scope = fields if "file" in fields else self.nodes.get(f"!{fields.get('scope')}", ("", {}))[1]
        file = self.nodes.get(f"!{scope.get('file')}", ("", {}))[1].get("filename")
        if not file or fields.get("line", "0") == "0":
            return ""
        return f"{quoted(plain(file))}: line: {fields['line']}, column: {max(1, int(fields.get('column', 1)))}"

    def location(self, name):
        """Returns the text of a node's location, with the calls that were inlined, or nothing if it says none."""
        chain = []
        while name in self.nodes and name not in chain and name not in self.texts:
            chain.append(name)
            name = f"!{self.nodes[name][1].get('inlinedAt')}"
        outer = self.texts.get(name, "")
        for inner in reversed(chain):
            found = self.own(inner)
            if found and outer:
                function = self.nodes.get(self.function_of(f"!{self.nodes[inner][1].get('scope')}"), ("", {}))[1]
                called = f"name: {quoted(plain(function['name']))}, loc: ({found})" if "name" in function else found
                found = f"callsite({called} at {outer})"
            outer = self.texts[inner] = found
        return outer


ESCAPES = {"\n": "\\n", "\r": "\\r", "\t": "\\t", "\0": "\\0", "\\": "\\\\", '"': '\\"'}


def quoted(text):
    """Returns a text in quotes, as the IR has it."""
    return '"' + "".join(ESCAPES.get(c) or (c if c.isprintable() else f"\\u{{{ord(c):x}}}") for c in text) + '"'


def module_of(text):
    """Returns the module of a text; what is not known is `Unknown`."""
    return Reader(text).whole()


def bits_of(text, kind):
    """Returns the bits of a floating number that is given in hexadecimal, `0x..`, as a number of its type's own width."""
    if text[2] in "KLMHR":
        return int(text[3:], 16)
    bits = int(text[2:], 16)
    if kind == "double":
        return bits
    exponent, sign, fraction = bits >> 52 & 0x7FF, bits >> 63, bits & (1 << 52) - 1
    if exponent == 0x7FF:
        return sign << 31 | 0xFF << 23 | fraction >> 29
    return struct.unpack("<I", struct.pack("<f", struct.unpack("<d", struct.pack("<Q", bits))[0]))[0]
