"""Makes the C of two tables: c/tests/refusals.txt, each call of hokhtura.h with each bad argument, and
c/tests/texts.tsv, the text of each code. A call or a code of the header without its rows is a mistake."""
import itertools
import os
import re

import c_header

TABLE = os.path.join(c_header.C, "tests", "refusals.txt")
TEXTS = os.path.join(c_header.C, "tests", "texts.tsv")

# The handles of refusals.c by their types. A call is given all of them but the one that it accepts.
HANDLES = {
    "hk_hand *": ["idle", "putting", "taking", "holding", "closed"],
    "hk_pool *": ["pool"],
    "hk_routes *": ["table", "shared"],
    "hk_fib *": ["fib"],
    "hk_forward *": ["forwarder"],
    "hk_reorder *": ["window"],
}
TYPE = {name: kind for kind, names in HANDLES.items() for name in names}
GROUPS = {"hands": HANDLES["hk_hand *"], "tables": HANDLES["hk_routes *"]}
# The calls that move more words on a multi side.
ON_MULTI = re.compile(r"hk_ring_(try_(put|take)_(bulk|burst)|finish_put)")
# The counts of calls that forward, and the values that the table has to have of each.
OF_FORWARD = {
    "port": {"PORTS", "SIZE_MAX"},
    "port_count": {"0", "HK_MAX_PORTS + 1", "SIZE_MAX"},
    "hop_count": {"0", "HK_MAX_HOPS + 1", "SIZE_MAX"},
    "held": {"0"},
    "wire": {"0", "HELD - 1"},
}
ACCEPTED = "-"
NOTHING = "nothing"
ANY = "any"


class Wrong(Exception):
    """A table that doesn't fit the header."""


def split_list(text):
    """The values of a list. A comma between parentheses separates none."""
    found, depth = [""], 0
    for letter in text:
        depth += (letter == "(") - (letter == ")")
        if letter == "," and not depth:
            found.append("")
        else:
            found[-1] += letter
    return [one.strip() for one in found if one.strip()]


def spread(name):
    """`put_{bulk,burst}` as put_bulk and put_burst."""
    parts = [part.split(",") for part in re.split(r"[{}]", name)]
    return ["".join(words) for words in itertools.product(*parts)]


class Row:
    """An argument, one value of it, and what the call then returns."""

    def __init__(self, line, place, value, code):
        self.line, self.place, self.value, self.code = line, place, value, code
        self.is_code = code.startswith("HK_E_")


class Entry:
    """A call, the arguments that it accepts, and its rows."""

    def __init__(self, call, line, arguments):
        self.call, self.line, self.arguments, self.rows = call, line, arguments, []
        if len(arguments) != len(call.parameters):
            raise Wrong(f"refusals.txt:{line}: {call.name} has {len(call.parameters)} parameters")

    def add(self, line, name, values, code):
        names = [name for _, name in self.call.parameters]
        if name not in names:
            raise Wrong(f"refusals.txt:{line}: {self.call.name} has no parameter {name}")
        for value in split_list(values):
            for one in GROUPS.get(value, [value]):
                self.rows.append(Row(line, names.index(name), one, code))

    def written(self, *rows):
        """The call in C, with the values of these rows."""
        words = list(self.arguments)
        for row in rows:
            kind = self.call.parameters[row.place][0]
            cast = f"({kind})" if TYPE.get(row.value, kind) != kind.removeprefix("const ") else ""
            words[row.place] = "NULL" if row.value == "null" else cast + row.value
        return f"{self.call.name}({', '.join(words)})"


def read_table(calls):
    """The entries of refusals.txt, call by call."""
    named, entries, current = {call.name: call for call in calls}, {}, []
    with open(TABLE, encoding="utf-8") as file:
        lines = list(enumerate(file, 1))
    for line, text in lines:
        words = re.split(r" {2,}", text.rstrip())
        if not text.strip() or text.startswith("#"):
            continue
        if text.startswith(" "):
            for entry in current:
                entry.add(line, *words[1:])
            continue
        found = re.fullmatch(r"([\w{},]+?)\((.*)\)", text.strip())
        current = []
        for name in spread(found[1]):
            if name not in named:
                raise Wrong(f"refusals.txt:{line}: hokhtura.h has no call {name}")
            entries[name] = Entry(named[name], line, split_list(found[2]))
            current.append(entries[name])
    return entries


def most(name):
    """The largest count of a call."""
    if name == "hk_hand_open":
        return "HK_MAX_RINGS"
    if name.endswith("_lookup_bulk"):
        return "SIZE_MAX / 8"
    if ON_MULTI.fullmatch(name):
        return "HK_MAX_WORDS_MULTI"
    limits = {"pool": "HK_MAX_NUMBERS", "forward": "HK_MAX_FRAMES"}
    return limits.get(name.split("_")[1], "HK_MAX_WORDS")


def wanted(entry, place):
    """The values of an argument that the table has to have, by its type and name."""
    kind, name = entry.call.parameters[place]
    if kind.removeprefix("const ") in HANDLES:
        return {"null", *TYPE} - {entry.arguments[place]}
    if kind.endswith("*"):
        return {"null"}
    if kind == "size_t" and name in OF_FORWARD:
        return OF_FORWARD[name]
    if kind == "size_t" and name == "ring":
        return {"POOL_RINGS" if entry.call.name.startswith("hk_pool") else "RINGS", "SIZE_MAX"}
    if kind == "size_t":
        return {"0", f"{most(entry.call.name)} + 1", "SIZE_MAX"}
    return set()


def check_values(entry):
    for place, (_, name) in enumerate(entry.call.parameters):
        values = {row.value for row in entry.rows if row.place == place}
        missing = sorted(wanted(entry, place) - values)
        if missing or not values:
            raise Wrong(f"refusals.txt: no row for {entry.call.name}, {name}: {', '.join(missing) or 'any value'}")


def is_first(entry, row):
    """Whether the header lets this row come before the codes that the call's comment lists: a count above the largest,
    of a call with an array."""
    has_array = any(is_array(entry, place) for place in range(len(entry.arguments)))
    above = row.value in (f"{most(entry.call.name)} + 1", "SIZE_MAX")
    return has_array and above and row.code == "HK_E_COUNT"


def is_array(entry, place):
    return entry.call.parameters[place][0].removeprefix("const ") in ("uint64_t *", "uint32_t *", "hk_frame *",
                                                                        "hk_port *", "hk_next_hop *")


def check_order(entry, codes):
    """The codes of the rows stand in the comment of the call, in the order of the rows."""
    last, stage = 0, 0
    for row in entry.rows:
        if not row.is_code:
            continue
        if row.code not in codes:
            raise Wrong(f"refusals.txt:{row.line}: hokhtura.h has no code {row.code}")
        place = entry.call.comment.find(row.code)
        if place < 0:
            raise Wrong(f"refusals.txt:{row.line}: the comment of {entry.call.name} doesn't name {row.code}")
        now = 0 if is_first(entry, row) else 1 if row.code == "HK_E_NULL" else 2
        if now < stage or (now == 2 and place < last):
            raise Wrong(f"refusals.txt:{row.line}: {row.code} stands in another order than in hokhtura.h")
        stage, last = now, place if now == 2 else last


def check_lines(entry):
    """Each of the C lines of a call: with one bad argument, and with each two."""
    for row in entry.rows:
        if row.value == ANY or row.code == ACCEPTED:
            continue
        if row.code == NOTHING:
            yield f"KEEPS({entry.written(row)});"
        else:
            yield f"REFUSES({entry.written(row)}, {row.code});"
    for first, second in itertools.combinations(entry.rows, 2):
        if first.place != second.place and first.is_code and (second.is_code or is_none(entry, second)):
            code = second.code if is_none_of_nothing(entry, first, second) else first.code
            if code != ACCEPTED:
                yield f"REFUSES({entry.written(first, second)}, {code});"


def is_none(entry, row):
    """A count of 0. The bytes of a frame are no array here: a frame may have none."""
    kind, name = entry.call.parameters[row.place]
    return kind == "size_t" and row.value == "0" and name not in ("held", "wire")


def is_none_of_nothing(entry, first, second):
    """An array with a count of 0, which isn't read: that it is null is no mistake, and neither is what it has."""
    return is_array(entry, first.place) and is_none(entry, second)


def refusals():
    """The lines of C for refusals.c."""
    text = c_header.read()
    calls = c_header.calls(text)
    entries, codes = read_table(calls), c_header.codes(text)
    for call in calls:
        if call.name not in entries:
            raise Wrong(f"refusals.txt: no row for {call.name}")
        check_values(entries[call.name])
        check_order(entries[call.name], codes)
        yield from check_lines(entries[call.name])


def texts():
    """The rows of C for texts.c."""
    codes = c_header.codes(c_header.read())
    with open(TEXTS, encoding="utf-8") as file:
        rows = dict(line.rstrip("\n").split("\t") for line in file if not line.startswith("#"))
    for name in codes.keys() - rows.keys():
        raise Wrong(f"texts.tsv: no row for {name}")
    for name in rows.keys() - codes.keys():
        raise Wrong(f"texts.tsv: hokhtura.h has no code {name}")
    for name, number in codes.items():
        yield f'{{{number}, "{name}", "{rows[name]}"}},'


def write(folder):
    """Leaves refusals.inc and texts.inc in a folder. Raises Wrong."""
    os.makedirs(folder, exist_ok=True)
    for name, lines in [("refusals.inc", refusals()), ("texts.inc", texts())]:
        with open(os.path.join(folder, name), "w", encoding="utf-8") as file:
            file.write("\n".join(lines) + "\n")
