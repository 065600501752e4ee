"""Compares what c/hokhtura.c and c/hokhtura.h declare with what the crate capi exports: the
names of the exports hkx_*, the names, order and types of their parameters, the structs that pass, the codes and the
largest counts. A function of the crates is in C's ABI as the toolchain says: a `Global` takes no argument, and a slice
is an array and its length."""
import glob
import os
import re

import c_header

CRATES = os.path.join(c_header.TOP, "crates")
EXPORT = re.compile(r'#\[unsafe\(no_mangle\)\]\s*pub extern "C" fn (\w+)\(([^)]*)\)\s*(?:->\s*(\w+))?')
DECLARED = re.compile(r"^extern\s+(\w+)\s+(hkx_\w+)\(([^)]*)\);", re.M)

NUMBERS = {"u8": "uint8_t", "u32": "uint32_t", "u64": "uint64_t", "i64": "int64_t", "usize": "size_t", "bool": "bool"}
# What C has for a struct of the crates. `structs` compares the fields, or that the one field has this width.
ITEMS = {"Asked": "hk_ring_plan", "Word64": "uint64_t", "Number": "uint32_t", "Port": "hk_port", "Hop": "hk_next_hop",
         "Frame": "hk_frame", "FibRoute": "hk_fib_route", **NUMBERS}
WRAPPED = {"Word64": ("capi/src/rings/word64.rt", "uint64_t"), "Number": ("capi/src/pools/member.rt", "uint32_t")}
# Structs whose fields are compared one by one; arrays and slices in them are read, too.
FIELDS = {"Port": "live_routes/src/ports.rt", "Hop": "ipv4/src/ports.rt", "Frame": "live_routes/src/frame.rt",
          "FibRoute": "capi/src/fibs.rt"}
# A code of C whose name isn't that of the fault in capital letters.
RENAMED = {"EMPTY": "NULL"}
# A code that the C side alone returns.
OF_C = {"HK_OK", "HK_E_NOTHING", "HK_E_BEGUN"}
# A fault that no call of C can meet: its handles are empty where one is made.
UNPUBLISHED = {"HK_E_USED"}
LIMITS = {"HK_MAX_WORDS": [("capi/src/rings/member.rt", "MAX_WORDS"), ("capi/src/reorder_windows.rt", "MAX_WORDS")],
          "HK_MAX_WORDS_MULTI": [("capi/src/rings/member.rt", "MAX_WORDS_MULTI")],
          "HK_MAX_RINGS": [("capi/src/rings/opening.rt", "MAX_RINGS")],
          "HK_MAX_NUMBERS": [("capi/src/pools/member.rt", "MAX_NUMBERS")],
          "HK_MAX_PORTS": [("live_routes/src/ports.rt", "MAX_PORTS")],
          "HK_MAX_HOPS": [("live_routes/src/ports.rt", "MAX_HOPS")],
          "HK_MAX_FRAMES": [("live_routes/src/bursts.rt", "MAX_FRAMES")],
          "HK_TAGGED": [("live_routes/src/frame.rt", "TAGGED")],
          "HK_DROP": [("live_routes/src/frame.rt", "DROP")]}


def read(path):
    with open(os.path.join(CRATES, path), encoding="utf-8") as file:
        return re.sub(r"//.*", "", file.read())


def c_parameters(name, kind):
    """A parameter of an export as C passes it: (type, name) for each argument."""
    kind = " ".join(kind.split()).replace("<'_>", "")
    if kind == "Global":
        return []
    if kind == "&mut Handle":
        return [("struct hk_cell *", name)]
    if kind in NUMBERS:
        return [(NUMBERS[kind], name)]
    found = re.fullmatch(r"&(mut )?(\[)?(\w+)\]?", kind)
    if not found or found[3] not in ITEMS:
        return [(f"a type that this check doesn't know: {kind}", name)]
    pointer = (f"{'' if found[1] else 'const '}{ITEMS[found[3]]} *", name)
    return [pointer, ("size_t", f"{name}_length")] if found[2] else [pointer]


def shown(result, parameters):
    return f"{result} ({', '.join(f'{kind} {name}' for kind, name in parameters)})"


def exports():
    """The exports of the crate, as C would declare them."""
    found = {}
    for path in sorted(glob.glob(os.path.join(CRATES, "capi", "src", "*.rt"))):
        text = read(path)
        for name, parameters, result in EXPORT.findall(text):
            words = [one.split(":", 1) for one in parameters.split(",") if one.strip()]
            passed = [c for name_of, kind in words for c in c_parameters(name_of.strip(), kind)]
            found[name] = shown(NUMBERS.get(result, f"no integer: {result}"), passed)
        if text.count("no_mangle") != len(EXPORT.findall(text)):
            found[path] = "an export that this check can't read"
    return found


def declarations():
    """What hokhtura.c declares."""
    with open(os.path.join(c_header.C, "hokhtura.c"), encoding="utf-8") as file:
        text = re.sub(c_header.COMMENT, "", file.read(), flags=re.S)
    found = {name: shown(result, c_header.parameters_of(words)) for result, name, words in DECLARED.findall(text)}
    for name in set(re.findall(r"\b(hkx_\w+)\(", text)) - set(found):
        found[name] = "a call of what isn't declared"
    return found


def fields(text, pattern, order):
    """The fields of a struct as (type, name)."""
    found = re.search(pattern, text, re.S)
    return [one if order else one[::-1] for one in re.findall(r"(\w+):? +(\w+)[,;]", found[1])] if found else []


def c_fields(text):
    """The fields of a struct of C as (type, name, count)."""
    return [(kind.strip() + (" *" if star else ""), name, count) for kind, star, name, count in
            re.findall(r"(\w+) +(\*?)(\w+)(?:\[(\d+)\])?;", text)]


def rattle_fields(text):
    """The same of a struct of Rattle; a slice is an array, and its length, which C calls `held`."""
    found = []
    for name, kind in re.findall(r"pub (\w+): ([^\n]+),", text):
        array, part = re.fullmatch(r"\[(\w+); (\d+)\]", kind), re.fullmatch(r"&'a mut \[(\w+)\]", kind)
        if part:
            found += [(NUMBERS[part[1]] + " *", name, ""), ("size_t", "held", "")]
        else:
            found.append((NUMBERS[array[1]], name, array[2]) if array else (NUMBERS.get(kind, kind), name, ""))
    return found


def structs(header):
    """Where a struct that passes is another one in C."""
    asked = read("capi/src/rings/opening.rt")
    here = fields(header, r"typedef struct hk_ring_plan \{(.*?)\}", True)
    there = [(NUMBERS.get(kind, kind), name) for kind, name in
             fields(asked, r"#\[repr\(C\)\]\s*#\[derive[^\]]*\]\s*pub struct Asked \{(.*?)\}", False)]
    if not here or here != there:
        yield f"hk_ring_plan: {here} in C, {there} in Rattle"
    for name, path in FIELDS.items():
        here = c_fields(re.search(rf"typedef struct {ITEMS[name]} \{{(.*?)\}}", header, re.S)[1])
        passed = rf"#\[repr\(C\)\]\s*(?:#\[derive[^\]]*\]\s*)?pub struct {name}(?:<'a>)? \{{(.*?)\}}"
        there = rattle_fields(re.search(passed, read(path), re.S)[1])
        if here != there:
            yield f"{ITEMS[name]}: {here} in C, {there} in Rattle"
    for name, (path, kind) in WRAPPED.items():
        one = fields(read(path), rf"#\[repr\(C\)\]\s*#\[derive[^\]]*\]\s*pub struct {name} \{{(.*?)\}}", False)
        if [NUMBERS.get(width) for width, _ in one] != [kind]:
            yield f"{name}: {one} in Rattle, one {kind} in C"


def numbers(header):
    """Where a code or a limit is another one in C."""
    body = re.search(r"pub enum Fault \{(.*?)\}", read("capi/src/rings/fault.rt"), re.S)[1]
    there = {}
    for name, number in re.findall(r"(\w+) = (\d+),", body):
        there[f"HK_E_{RENAMED.get(name.upper(), name.upper())}"] = -int(number)
    there = {name: number for name, number in there.items() if name not in UNPUBLISHED}
    here = {name: number for name, number in c_header.codes(header).items() if name not in OF_C}
    for name in sorted(here.keys() | there.keys()):
        if here.get(name) != there.get(name):
            yield f"{name}: {here.get(name)} in C, {there.get(name)} in Rattle"
    body = re.search(r"pub enum Reason \{(.*?)\n\}", read("ipv4/src/verdicts.rt"), re.S)[1]
    there = {f"HK_DROP_{name.upper()}": int(number) for name, number in re.findall(r"(\w+) = (\d+),", body)}
    here = {name: int(number) for name, number in re.findall(r"(HK_DROP_\w+) = HK_DROP \+ (\d+)", header)}
    if here != there:
        yield f"enum hk_drop: {here} in C, {there} in Rattle"
    for name, places in LIMITS.items():
        limit = int(re.search(rf"#define {name} (\w+)", header)[1], 0)
        for path, constant in places:
            found = re.search(rf"const {constant}: (?:usize|u32) = (\w+);", read(path))
            if not found or int(found[1], 0) != limit:
                yield f"{name}: {limit} in C, {found and found[1]} in crates/{path}"


def differences():
    """A line for each difference."""
    there, here = exports(), declarations()
    for name in sorted(there.keys() | here.keys()):
        if here.get(name) != there.get(name):
            yield f"{name}: {here.get(name, 'nothing')} in C, {there.get(name, 'nothing')} in Rattle"
    header = re.sub(r"/\*.*?\*/", "", c_header.read(), flags=re.S)
    yield from structs(header)
    yield from numbers(header)
