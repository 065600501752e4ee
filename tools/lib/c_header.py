"""What c/hokhtura.h declares: its calls with their parameters and comments, and its codes."""
import os
import re

TOP = os.path.dirname(os.path.dirname(os.path.dirname(os.path.abspath(__file__))))
C = os.path.join(TOP, "c")
HEADER = os.path.join(C, "hokhtura.h")

COMMENT = r"/\*.*?\*/"
CALL = re.compile(r"(?:HK_API|static inline)\s+(?:HK_CHECKED\s+)?([\w\s]+?[\s*]+)(hk_\w+)\(([^)]*)\)(?:;| (\{.*?^\}))",
                  re.S | re.M)
CODE = re.compile(r"^\s*(HK_(?:OK|E_\w+)) = (-?\d+)", re.M)


class Call:
    """A call: its name, the type of its result, its parameters as (type, name), and what its comment says. A call that
    is inline in the header is no name of the library."""

    def __init__(self, name, result, parameters, comment, inline):
        self.name, self.result, self.parameters, self.comment, self.inline = name, result, parameters, comment, inline


def type_and_name(text):
    """`const uint64_t *HK_RESTRICT words` as ("const uint64_t *", "words")."""
    found = re.fullmatch(r"(.*?)(\w+)", " ".join(text.replace("HK_RESTRICT", "").split()))
    return found[1].strip(), found[2]


def parameters_of(text):
    return [] if text.strip() in ("", "void") else [type_and_name(one) for one in text.split(",")]


def read():
    with open(HEADER, encoding="utf-8") as file:
        return file.read()


def version(text):
    """The version, as `0.1.0`."""
    return ".".join(re.search(rf"#define HK_VERSION_{part} (\d+)", text)[1] for part in ("MAJOR", "MINOR", "PATCH"))


def calls(text):
    """The calls in the order of the header. A comment is that of all calls up to the next one; where it says "Codes as
    above", the one before it is added."""
    found, comment = [], ""
    for part in re.finditer(f"{COMMENT}|{CALL.pattern}", text, re.S | re.M):
        if part[0].startswith("/*"):
            said = re.sub(r"\s*\*?\n \* ?", " ", part[0])
            comment = f"{comment} {said}" if "Codes as above" in said else said
        else:
            inline = part[4] is not None
            found.append(Call(part[2], " ".join(part[1].split()), parameters_of(part[3]), comment, inline))
    declared = set(re.findall(r"\b(hk_\w+)\s*\(", re.sub(COMMENT, "", text, flags=re.S)))
    missing = declared - {call.name for call in found}
    if missing:
        raise ValueError(f"hokhtura.h: not read: {' '.join(sorted(missing))}")
    return found


def codes(text):
    """The codes with their numbers."""
    return {name: int(number) for name, number in CODE.findall(text)}
