"""Roots with blocks in the shapes that are measured, as this library's texts and as those of peers of the same shape."""

# How deep regions are nested in the shape of towers.
DEPTH = 64

# The type of most values in the shapes below.
SI = "builtin.integer si64"


def module(body):
    """A module of one block with this body."""
    return "builtin.module @m\n{\n^entry():\n%s\n}" % body


def adding(i, more=""):
    """An operation that uses the value before its own."""
    return "x%d = test.global (x%d) [] [%s]: <(%s) -> (%s)>" % (i + 1, i, more, SI, SI)


def function_of(body):
    """A module with one function of one block with this body."""
    return module("builtin.func @f: builtin.function <()->()>\n{\n^b(x0: %s):\n%s\n}" % (SI, body))


def chain(count):
    """One block of so many operations, each of which uses the one before."""
    return function_of(";\n".join(adding(i) for i in range(count)))


def blocks(count):
    """Functions of 50 operations in five blocks, with branches to each."""
    def block(b):
        first = 10 * b
        adds = ";\n".join(adding(first + i) for i in range(8))
        return "^b%d(x%d: %s):\n%s;\ntest.use x%d;\ntest.br ^b%d" % (b, first, SI, adds, first + 8, (3, 0, 4, 2, 1)[b])
    body = "\n\n".join(block(b) for b in range(5))
    return module(";\n".join("builtin.func @f%d: builtin.function <()->()>\n{\n%s\n}" % (f, body) for f in range(count // 50)))


def nest(count):
    """Regions 64 deep, one tower beside the other."""
    tower = "test.scope {\n^c():\n" * (DEPTH - 1) + "test.nop\n" + "}" * (DEPTH - 1)
    return module(";\n".join([tower] * (count // DEPTH)))


def locattr(count):
    """The chain with attributes on each operation, and a location, a name and a shared attribute for each in the section."""
    body = ";\n".join("%s !%d" % (adding(i, 'a: builtin.integer <%d: si64>, s: builtin.string "v\\n%d"' % (i, i % 100)), i) for i in range(count))
    entries = "".join('!%d = @["f.c": line: %d, column: %d], [builtin_given_names = builtin.given_names [x%d], dbg = !%d]\n'
                      % (i, i // 8 + 1, i % 8 * 9 + 1, i + 1, count + i % 100) for i in range(count))
    shared = "".join('!%d = test.dbg "note %d"\n' % (count + j, j) for j in range(100))
    return "%s\n\noutlined_attributes:\n%s%s" % (function_of(body), entries, shared)


# Shapes of roots with blocks, as texts of so many operations.
SHAPES = (("chain", chain), ("blocks", blocks), ("nest", nest), ("locattr", locattr))


# Where the last operation of each of five blocks goes: forward, backward, to itself.
TARGETS = (3, 0, 4, 2, 1)


def mlir_module(lines, section=""):
    """A module of the generic form, which may have operations that no dialect registers."""
    return '"builtin.module"() ({\n%s\n}) : () -> ()\n%s' % ("\n".join(lines), section)


def mlir_function(name, lines):
    """A function of these lines."""
    return ['"test.func"() ({', *lines, '}) {sym_name = "%s"} : () -> ()' % name]


def mlir_chain(count):
    """One block of so many operations, each of which uses the one before."""
    lines = ['%%x%d = "test.global"(%%x%d) : (si64) -> si64' % (i + 1, i) for i in range(count)]
    return mlir_module(mlir_function("f", ["^b(%x0: si64):", *lines, '"test.return"() : () -> ()']))


def mlir_blocks(count):
    """Functions of 50 operations in five blocks, with branches to each."""
    def block(b):
        first = 10 * b
        yield "^b%d(%%x%d: si64):" % (b, first)
        for i in range(first, first + 8):
            yield '%%x%d = "test.global"(%%x%d) : (si64) -> si64' % (i + 1, i)
        yield '"test.use"(%%x%d) : (si64) -> ()' % (first + 8)
        yield '"test.br"(%%x%d)[^b%d] : (si64) -> ()' % (first + 8, TARGETS[b] or 1)
    body = [line for b in range(5) for line in block(b)]
    return mlir_module(line for f in range(count // 50) for line in mlir_function("f%d" % f, body))


def mlir_nest(count):
    """Regions 64 deep, one tower beside the other."""
    tower = ['"test.scope"() ({'] * (DEPTH - 1) + ['"test.nop"() : () -> ()'] + ["}) : () -> ()"] * (DEPTH - 1)
    return mlir_module(tower * (count // DEPTH))


def mlir_locattr(count):
    """The chain with attributes on each operation, and a location and a name for each after the module."""
    lines = ['%%x%d = "test.global"(%%x%d) {a = %d : si64, s = "v\\0A%d"} : (si64) -> si64 loc(#loc%d)' % (i + 1, i, i, i % 100, i + 1) for i in range(count)]
    places = "".join('#loc%d = loc("note %d"("f.c":%d:%d))\n' % (i + 1, i % 100, i // 8 + 1, i % 8 * 9 + 1) for i in range(count))
    return mlir_module(mlir_function("f", ["^b(%x0: si64):", *lines, '"test.return"() : () -> ()']), places)


def llvm_chain(count):
    """One block of so many additions, each of which uses the one before."""
    lines = ["  %%x%d = add i64 %%x%d, %d" % (i + 1, i, i) for i in range(count)]
    return "\n".join(["define i64 @f(i64 %x0) {", "b:", *lines, "  ret i64 %%x%d" % count, "}", ""])


def llvm_blocks(count):
    """Functions of 50 operations in five blocks, with branches to each."""
    def block(b):
        first = 10 * b
        yield "b%d:" % b
        yield "  %%x%d = add i64 %%a, %d" % (first + 1, b)
        for i in range(first + 1, first + 9):
            yield "  %%x%d = add i64 %%x%d, %d" % (i + 1, i, i)
        yield "  br label %%b%d" % TARGETS[b]
    body = [line for b in range(5) for line in block(b)]
    functions = (["define void @f%d(i64 %%a) {" % f, "entry:", "  br label %b0", *body, "}"] for f in range(count // 50))
    return "\n".join(line for function in functions for line in function) + "\n"


def llvm_locattr(count):
    """The chain with a debug location for each operation."""
    lines = ["  %%x%d = add i64 %%x%d, %d, !dbg !%d" % (i + 1, i, i, i + 10) for i in range(count)]
    head = """!llvm.module.flags = !{!0}
!llvm.dbg.cu = !{!1}
!0 = !{i32 2, !"Debug Info Version", i32 3}
!1 = distinct !DICompileUnit(language: DW_LANG_C, file: !2, emissionKind: FullDebug)
!2 = !DIFile(filename: "f.c", directory: "/")
!3 = distinct !DISubprogram(name: "f", scope: !2, file: !2, type: !4, unit: !1, spFlags: DISPFlagDefinition)
!4 = !DISubroutineType(types: !5)
!5 = !{null}
"""
    places = "".join("!%d = !DILocation(line: %d, column: %d, scope: !3)\n" % (i + 10, i // 8 + 1, i % 8 * 9 + 1) for i in range(count))
    return "\n".join(["define i64 @f(i64 %x0) !dbg !3 {", "b:", *lines, "  ret i64 %%x%d" % count, "}", head + places])


def wat_nest(count):
    """Blocks 64 deep, one tower beside the other."""
    tower = "".join("(block $c%d\n" % d for d in range(DEPTH - 1)) + "(nop)\n" + ")\n" * (DEPTH - 1)
    return "(module\n  (func $f\n%s  )\n)\n" % (tower * (count // DEPTH))


# For each shape the peers that have it: the name, the words of the command before the file, and the text of so many operations.
MLIR = ["--mlir-disable-threading", "--allow-unregistered-dialect", "--mlir-print-op-generic"]
PEERS = {
    "chain": (("mlir-opt", MLIR, mlir_chain), ("opt", ["-S", "-o", "-"], llvm_chain)),
    "blocks": (("mlir-opt", MLIR, mlir_blocks), ("opt", ["-S", "-o", "-"], llvm_blocks)),
    "nest": (("mlir-opt", MLIR, mlir_nest), ("wat-desugar", [], wat_nest)),
    "locattr": (("mlir-opt", MLIR + ["--mlir-print-debuginfo"], mlir_locattr), ("opt", ["-S", "-o", "-"], llvm_locattr)),
}
