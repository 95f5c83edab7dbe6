"""The operations of the dialect `llvm`, as examples/llvm.dialect describes them."""
import os
import re

from repository import TOP, text_of

DESCRIPTION = os.path.join(TOP, "examples", "llvm.dialect")
OPERATION = re.compile(r"^op (\w+)(?: isolated)?:(.*)$", re.M)
# a directive: a fixed text, the type of a result, an operand, an attribute, a successor, a region, or a word
DIRECTIVE = re.compile(r"`([^`]+)`|type\(\$(\d+)\)|\$(\d+)|\$(\w+)|\^(\d+)|\{(\d+)\}|(@name|operands|successors|attr_dict)")


def formats():
    """Returns the directives of each operation, each as seven texts of which one is there."""
    found = {}
    for name, body in OPERATION.findall(text_of(DESCRIPTION)):
        found[name] = [tuple(it if it != "" else None for it in directive.groups()) for directive in DIRECTIVE.finditer(body)]
    return found
