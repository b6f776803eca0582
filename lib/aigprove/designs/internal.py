"""Replaces the names that yosys generates, which mean nothing to a user, in its messages."""
import re

# COMPUTED is the name of an expression's result, which contains the source location, perhaps below
# instances. NEXT is the prefix of a register's next value. PARAMETERS is a module with parameter
# values. ASKED is an assertion or another property. OTHER is any other generated name.
COMPUTED = re.compile(r"\\?\$(?:flatten\\[^\s$]+\$)?[a-z_0-9]+\$([^\s$]+:[0-9]+)\$[0-9]+\w*")
NEXT = re.compile(r"(?<![\w$])\$[0-9]+\\(?=[^\s$])")
PARAMETERS = re.compile(r"\\?\$paramod(?:\$[0-9a-f]+)?\\([\w$]+)"
                        r"(?:\\[\w$]+=[a-z]?[0-9]*'[01xz]*)*")
ASKED = re.compile(r"\$(assert|assume|live|fair|cover)\$[^\s'`\",;]*")
OTHER = re.compile(r"(?<![\w$])\$[a-z_0-9]+[\\$][^\s'`\",;]*")


def without_internal(said: str) -> str:
    """Returns a message of yosys with its generated names replaced by descriptions."""
    said = PARAMETERS.sub(r"\1", ASKED.sub(r"\1", said))
    said = COMPUTED.sub(lambda it: f"what {it[1]} computes", said)
    return OTHER.sub("what yosys made", NEXT.sub("", said))
