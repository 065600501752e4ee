"""Lists the wrong bodies of a crate's public functions that its contracts let through, by rule.

`tools/try-mutants --public` runs this in the folder of a crate, in a copy of the crates. A body stands under the
signature and the clauses of its function, and the prover is asked whether it meets them. `rt plant` makes such bodies
and judges them; most rules are its own:

  refuses         returns a refusal, always
  nothing         does nothing and returns a value, or an argument, as if it had
  refuses anew    calls the function, and returns another refusal than it, or the same one with another number
  succeeds        calls the function, and returns a value, as if it had succeeded, when it refuses
  result          calls the function, and returns another value
  argument        calls the function with an argument changed
  twice           calls the function twice
  then refuses    calls the function, and then returns a refusal
  empty           returns a refusal if an argument is empty or zero
  field           calls the function, and then resets a field
  handed back     calls the function, and hands back another value than the argument with the refusal

Added here are refusals that hand back an argument that can't be made (`rt plant` makes its refusals of constants, so it
has none for a function that takes a hand or an item), another refusal or answer with what the real one carries, the
same one with another number, and another value handed back.

Printed are the bodies that are let through, with function and rule; for each function that can refuse, the rules of
which no body could be made or judged; and the counts. A body that is let through is right, as `None` of a function that
may always answer so, or a clause says too little. No body answers for want of memory: no clause can say that memory is
available. The exit status is 1 if a body is let through."""
import collections
import importlib.machinery
import os
import re
import shutil
import sys
import types

MAX_PLANTS, MINUTES = "2000", "90"
ANSWER, REFUSAL, BACK = "result", "refuses anew", "handed back"


def kit_part(name):
    """A part of `rt plant`, which stands beside `rt`."""
    path = os.path.join(os.path.dirname(os.path.realpath(shutil.which("rt"))), name)
    module = types.ModuleType(name)
    module.__file__ = path
    importlib.machinery.SourceFileLoader(name, path).exec_module(module)
    return module


sys.dont_write_bytecode = True
plant = kit_part("rt-plant")
bodies = plant.bodies
Body, split, named, without_attributes = bodies.Body, bodies.split, bodies.named, bodies.without_attributes


def without_comments(words):
    """Words without the attributes and the `///` before them, which `rt plant` takes for the name of a variant."""
    rest = without_attributes(words)
    while rest[:1] and rest[0].startswith("///"):
        rest = without_attributes(rest[1:])
    return rest


bodies.without_attributes = without_comments


def variants(declared):
    """The variants of an enum: each name, and the types that it carries; None if these have names."""
    for part in map(without_comments, split(declared[1:-1])):
        held = [ty for _, ty in bodies.fields_of(part[1:])] if part[1:2] == ["("] else []
        yield part[0], None if part[1:2] == ["{"] else held


class Lazy(bodies.Bodies):
    """The bodies of `rt plant`, and more of the kinds that hand back what they were given."""

    hands_back = False

    def __init__(self, source, f):
        super().__init__(source, f)
        source.of_memory.add("Memory")

    def values_anew(self, ty, depth, is_far):
        """As there; while `hands_back` is set, a type of which no value can be made has the argument of that type."""
        found = super().values_anew(ty, depth, is_far)
        if found or not self.hands_back or is_far:
            return found
        given = [(n, self.resolved(it)) for n, it in self.f.params]
        given += [("self", self.resolved(["Self"]))] * (self.f.takes_self in ("self", "mutself", "mut self"))
        return [n for n, it in given if it == self.resolved(ty) and "&" not in it][:1]

    def giving_up(self):
        found = super().giving_up()
        self.known, self.hands_back = {}, True
        more = super().giving_up()
        self.known, self.hands_back = {}, False
        there = {it.text for it in found}
        return found + [it for it in more if it.text not in there]

    def over_the_real_one(self, fails):
        found, call = super().over_the_real_one(fails), self.f.call()
        there = {it.text for it in found}
        more = [*self.other_answers(), *[Body(f"let _ = {call}; {call}")] * bool(self.f.changes_self and self.f.ret)]
        return found + [it for it in more if it.text not in there]

    def other_kinds(self, ty):
        """Arms that give another value for one of an enum type, each as a pattern and a value: the same variant with
        another number, any other variant that carries nothing, and the next variant with what this one carries."""
        declared = self.declared(named(ty)[0])
        if not declared or declared[0][1] != "enum":
            return
        path = named(ty)[1]
        kinds = [it for it in variants(declared[0][3]) if it[0] not in self.source.of_memory]
        for (name, held), (other, same) in zip(kinds, kinds[1:] + kinds[:1]):
            names = [f"n{at}" for at in range(len(held or []))]
            found = f"{path}::{name}({', '.join(names)})"
            if held and all(named(it)[0] in bodies.INTS for it in held):
                yield found, f"{path}::{name}({', '.join(f'{it}.wrapping_add(1)' for it in names)})"
            if held and held == same and name != other:
                yield found, f"{path}::{other}({', '.join(names)})"
            if held == []:
                yield "_", f"{path}::{name}"

    def other_answers(self):
        """Bodies that call the function and return another answer or refusal, or hand back another value with it."""
        ret, call = self.resolved(self.f.ret), self.f.call()
        name, _, inside = named(ret)
        if name != "Result" or len(inside) != 2:
            arms = [(found, value) for found, value in self.other_kinds(ret) if found != "_"]
            yield from (Body(f"match {call} {{ {found} => {value}, x => x }}", None, ANSWER) for found, value in arms)
            return
        error = self.resolved(inside[1])
        parts = [self.resolved(it) for it in split(error[1:-1])] if error[:1] == ["("] else [error]
        names = [f"e{at}" for at in range(len(parts))]

        def refusal(at, word):
            words = [*names[:at], word, *names[at + 1 :]]
            return f"Err(({', '.join(words)}))" if error[:1] == ["("] else f"Err({words[0]})"

        def body(*arms):
            return f"match {call} {{ {', '.join(['Ok(x) => Ok(x)', *arms])} }}"

        for at, ty in enumerate(parts):
            kinds = list(self.other_kinds(ty))
            for found, value in kinds:
                test = f"if !matches!(&{names[at]}, {value}) {{ {bodies.NEVER} }}"
                same = body(f"{refusal(at, names[at])} => {{ {test} {refusal(at, names[at])} }}")
                others = ["Err(e) => Err(e)"] * (found != "_")
                made = body(f"{refusal(at, found)} => {refusal(at, value)}", *others)
                yield Body(made, same * (found == "_"), REFUSAL)
            if len(parts) > 1 and not kinds and named(ty)[0] not in bodies.PLAIN:
                for value in self.values(ty, 1)[:1]:
                    yield Body(body(f"{refusal(at, '_')} => {refusal(at, value)}"), None, BACK)


def rule_of(f, body, form):
    """The rule by which a body was made."""
    call, plain = f.call(), form in plant.GIVES_UP
    starts = ((f"let _ = {call}; {call}", "twice"), (f"let _ = {call};", "then refuses"), ("if ", "empty"),
              (f"let x = {call}; self.", "field"), ("let x = ", "result"))
    if form == "failure" or plain:
        return "refuses" if form == "failure" else "nothing"
    if form in (ANSWER, REFUSAL, BACK, "other error"):
        return {"other error": REFUSAL}.get(form, form)
    if body == bodies.NEVER:
        return "no call meets it"
    if body.startswith(f"match {call} {{"):
        return "succeeds" if re.search(r"(Err\(_\)|None) => (Ok|Some)\(", body) else "result"
    return next((rule for start, rule in starts if body.startswith(start)), "argument")


def rules_for(f, source):
    """The rules for a function whose result can be a refusal: a Result, an Option, an enum of answers."""
    made = Lazy(source, f)
    name = named(made.resolved(f.ret))[0]
    rules = {"Result": ["refuses", "nothing", "refuses anew", "succeeds"], "Option": ["refuses", "nothing", "succeeds"]}
    found = rules.get(name, ["nothing"] * any(it[1] == "enum" for it in made.declared(name)))
    return [*found, *["twice"] * bool(found and f.changes_self)]


def main(words):
    kept = {}
    real = plant.plant

    def kept_plant(crate, copy, functions, proved, most):
        kept.update(source=copy.source, functions=functions, plants=real(crate, copy, functions, proved, most))
        return kept["plants"]

    bodies.Bodies, plant.plant = Lazy, kept_plant
    out, sys.stdout = sys.stdout, open(os.devnull, "w", encoding="utf-8")
    try:
        plant.main("--max", MAX_PLANTS, "--minutes", MINUTES, *words)
    finally:
        sys.stdout = out
    crate, count, judged = os.path.basename(os.getcwd()), collections.Counter(), collections.defaultdict(set)
    for it in kept["plants"]:
        rule = rule_of(it.f, it.body, it.form)
        count[it.kind] += 1
        if it.kind in ("proves", "same", "refused"):
            judged[it.f].add(rule)
        if it.kind == "proves":
            print(f"{crate}: LET THROUGH: {it.f.shown}: {rule}: {{ {it.body} }}", flush=True)
    for f in kept["functions"]:
        lacking = [rule for rule in rules_for(f, kept["source"]) if rule not in judged[f]]
        if lacking:
            print(f"{crate}: not made: {f.shown}: {', '.join(lacking)}", flush=True)
    if "--all" in sys.argv:
        for it in kept["plants"]:
            print(f"{it.kind:<10} {it.f.shown}: {rule_of(it.f, it.body, it.form)}: {{ {it.body} }} {it.why}")
    counts = ", ".join(f"{count[it]} {it}" for it in plant.KINDS)
    print(f"{crate}: {len(kept['functions'])} functions, {counts}", flush=True)
    return 1 if count["proves"] else 0


if __name__ == "__main__":
    sys.exit(main(sys.argv[1:]))
