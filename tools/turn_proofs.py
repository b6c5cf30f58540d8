#!/usr/bin/env python3
"""Turns proofs that walk the code, as an older Rattle has them, into invariants and answers.

usage: python3 tools/turn_proofs.py CRATE NAMES

CRATE is a crate's folder after the kit's port.py and tools/respell_names.py, NAMES the file names.json that `rt check --generated
FOLDER --old-names` writes for it: it says how each step and each goal was called and is called now. Each proofs/F/Proof.antt becomes
Invariants.antt and Answers.antt beside it, and goes. This goes by text and proves nothing: `rt check` decides. What it can't turn
is marked by ¿ in what it writes, and where a join of branches is cited by position (`w.1`) the name is to be written by hand.
"""

import functools
import json
import os
import re
import sys

STARTS = r"(?<![\w'§\-.₀₁₂₃₄₅₆₇₈₉])"
ENDS = r"(?![\w'\-₀₁₂₃₄₅₆₇₈₉])"
AFTER = r"(?=[\s)\],;]|$)"
# Fields of the whole context, not of a step.
WHOLE = {it.replace("_", ""): it for it in ("args", "requires", "decreases", "ranges", "lifetimes", "well_formed", "utf8", "type_inv")}
# Answers that the check finds alone.
FOUND = {"search rules", "omega arith", "(search rules)", "(omega arith)", "(search rules, search rules)"}
TACTIC = re.compile(r"(omega|search|cc|grind)\b")
TRIVIAL = re.compile(r"^\(λ \S+?( \S+?)*\. (search rules|omega arith)\)$")
LAMBDA = re.compile(r"^\(λ (\S+?)((?: \S+?)*)\. (.*)\)$", re.S)


def plain(name):
    """A name without its dashes, underscores and case: the older form had one spelling in code and another in proofs."""
    return name.replace("-", "").replace("_", "").lower()


# Terms, as text


def depths(text):
    """Each position of a text with the depth of brackets at it."""
    depth = 0
    for i, it in enumerate(text):
        depth -= it in ")]}"
        yield i, it, depth
        depth += it in "([{"


def end_of_term(text, start):
    for i, it, depth in depths(text[start:]):
        if depth < 0 or (depth == 0 and (it.isspace() or it in ",;")):
            return start + i
    return len(text)


def terms(text):
    found, i = [], 0
    while i < len(text):
        if text[i].isspace():
            i += 1
            continue
        end = max(end_of_term(text, i), i + 1)
        found.append(text[i:end])
        i = end
    return found


def arguments(text, at, count):
    """So many terms from a position on, and where they end."""
    found = []
    while len(found) < count:
        while at < len(text) and text[at].isspace():
            at += 1
        end = end_of_term(text, at)
        if end == at:
            return None, at
        found.append(text[at:end])
        at = end
    return found, at


def parts(text, count):
    """The parts of a tuple, also of pairs in each other."""
    text = text.strip()
    if not (text.startswith("(") and text.endswith(")")):
        return None
    cut = [0]
    for i, it, depth in depths(text[1:-1]):
        if depth < 0:
            return None
        if it == "," and depth == 0:
            cut.append(i + 1)
    found = [text[1:-1][a : b - 1].strip() for a, b in zip(cut, [*cut[1:], len(text) - 1])]
    if len(found) == 2 and count > 2:
        rest = parts(found[1], count - 1)
        return rest and [found[0], *rest]
    return found if len(found) == count else None


def without_lets(text):
    """The lets that a term begins with, and what follows them."""
    text, lets = text.strip(), ""
    while text.startswith("let "):
        at = next((i for i, _, depth in depths(text) if depth == 0 and re.match(r"\sin\s", text[i : i + 4])), None)
        if at is None:
            break
        lets += text[: at + 3] + "\n    "
        text = text[at + 3 :].strip()
    return lets, text


def by_name(path, names):
    """`.1.0.2` of pairs in each other, where each part has a name now."""
    numbers = [it for it in path.split(".") if it]
    for name in names[:-1]:
        if not numbers or numbers[0] not in "01":
            return None
        if numbers.pop(0) == "0":
            return "." + ".".join([name, *numbers])
    return "." + ".".join([names[-1], *numbers])


def record(names, values):
    return "record { " + "; ".join(f"{name} = {value}" for name, value in zip(names, values)) + " }"


def as_record(text, names, own):
    """A tuple of facts as a record of clauses; own are the clauses of the function's own requires."""
    lets, body = without_lets(text)
    if body == "c.requires" and own and len(own) == len(names):
        return " " + lets + record(names, [f"c.requires.{it}" for it in own])
    if body.startswith("rw "):
        words = terms(body)
        found = parts(words[-1], len(names))
        return " " + lets + (" ".join(words[:-1]) + f" ({record(names, found)})" if found else "¿" + body)
    found = parts(body, len(names)) or ([body] * len(names) if TACTIC.match(body) else None)
    if found:
        return " " + lets + record(names, found)
    last = len(names) - 1
    return f" {lets}let q = {body} in " + record(names, ["q" + ".1" * k + ".0" * (k < last) for k in range(last + 1)])


def replaced(text, names):
    if not names:
        return text
    each = "|".join(re.escape(it) for it in sorted(names, key=len, reverse=True))
    return re.sub(f"{STARTS}({each}){ENDS}", lambda m: names[m[1]], text)


# A function's steps and goals


class Function:
    def __init__(self, given, in_cycle):
        self.given, self.in_cycle, self.branches = given, in_cycle, set()
        self.places = {it[0]: it for it in given["places"]}
        self.now = dict(zip(self.places, given["places_by_name"]))
        self.arms = {it[0]: arm for it, arm in zip(given["places"], given["arms"]) if arm}
        self.place_of = {new: place[0] for (_, new), place in zip(given["needs"], given["asked_at"])}
        self.clauses = {it[2][1]: c["fields"] for it, c in zip(given["places"], given["clauses"]) if c}
        self.requires = (given["pre"] or {}).get("fields")

    def asked(self, old, new):
        """The names of the clauses that a goal asks for, where there are several."""
        each = {plain(goal): names for goal, names in self.given["asked"].items()}
        return each.get(plain(new)) or each.get(plain(old))

    def above(self, place):
        while place in self.places:
            yield place
            place = self.places[place][1]

    def step(self, place, name):
        steps = [self.places[it][2] for it in self.above(place)] + [it[2] for it in self.given["places"]]
        return next((now for old, now in steps if plain(old) == plain(name)), None)

    def arms_above(self, place):
        found = {}
        for it in reversed(list(self.above(place))):
            arm = self.arms.get(it)
            for now, step, fields in arm[2] if arm else ():
                found[plain(step), tuple(fields)] = f"{arm[0]}.{now}"
        return found

    def flat(self, place, text, variable):
        """The text of an answer, whose variable is the context of a place, with today's names of steps."""
        names, text = self.contexts(variable, text)
        if self.in_cycle:
            text = re.sub(rf"\.requires\.0{ENDS}", ".decreases", text)
            text = re.sub(rf"\.requires\.1{ENDS}", ".requires", text)
        if self.requires:
            text = self.without_names_of_requires(text)
        arms = self.arms_above(place)
        for name in names:
            text = re.sub(rf"{STARTS}{re.escape(name)}(?:\.[^\s.(){{}}\[\],;]+)+", lambda m: self.arm(m, name, arms), text)
            field = r"((?:\.before)*)(?:\.([^\s.(){}\[\],;]+))?"
            text = re.sub(STARTS + re.escape(name) + field + ENDS, lambda m: self.field(m, place), text)
        text = text.replace("§c", "c").replace("type-inv", "type_inv")
        rest = r"c\.in_default[^\s.(){},;]*\.in_default[^\s.(){},;]*-own\.keys\d+"
        text = re.sub(STARTS + rest + ENDS, lambda m: f"(opened {m[0]})", text)
        return self.joins(without_nots(self.named(text)))

    def contexts(self, variable, text):
        """The names that stand for a context, and the text without the lets that give them."""
        names, at = [variable], 0
        pattern = re.compile(r"let (\S+) = (\S+?)((?:\.before)*) in\s*")
        while m := pattern.search(text, at):
            at = m.end()
            if m[2] in names:
                names.append(m[1])
                text, at = text[: m.start()] + text[m.end() :], m.start()
        return names, text

    def without_names_of_requires(self, text):
        while m := re.search(r"let (\S+) = (\S*?\.requires(?:\.\d+)*) in\s*", text):
            rest = re.sub(rf"{STARTS}{re.escape(m[1])}(?=[.\s)\],;]|$)", lambda _: m[2], text[m.end() :])
            text = text[: m.start()] + rest
        return text

    def arm(self, m, name, arms):
        fields = [it for it in m[0][len(name) :].split(".")[1:]]
        while fields and fields[0] == "before":
            fields = fields[1:]
        for k in range(len(fields), 0, -1):
            now = arms.get((plain(fields[0]), tuple(fields[1:k])))
            if now:
                return ".".join(["§c", now, *fields[k:]])
        return m[0]

    def field(self, m, place):
        if m[2] is None:
            return "¿c"
        return f"c.{WHOLE.get(plain(m[2])) or self.step(place, m[2]) or '¿' + m[2]}"

    def named(self, text):
        """Clauses and parameters by their names, where they were cited by position."""
        if self.requires:
            text = re.sub(rf"{STARTS}c\.requires((?:\.\d+)+)", lambda m: "c.requires" + (by_name(m[1], self.requires) or "¿" + m[1]), text)
        for step, names in self.clauses.items():
            text = re.sub(rf"{STARTS}c\.{re.escape(step)}\.ensures((?:\.\d+)+)", lambda m: f"c.{step}.ensures" + (by_name(m[1], names) or "¿" + m[1]), text)
        for _, _, (_, step), callee, _ in self.places.values():
            params = self.given["params"].get(callee)
            aliases = re.findall(rf"let (\S+) = c\.{re.escape(step)} in", text) if params else ()
            for it in [f"c.{step}", *aliases] if params else ():
                text = re.sub(rf"{STARTS}{re.escape(it)}\.(new|auto)((?:\.\d+)+)", lambda m: f"{it}.{m[1]}" + (by_name(m[2], [*params, "¿"]) or m[2]), text)
        return text

    def joins(self, text):
        """`⊎_elim` on the branches of a join as cases; what is cited of a branch by position stays."""
        at = 0
        while m := re.compile(r"⊎_elim\s").search(text, at):
            at = m.end()
            found, end = arguments(text, at, 3)
            step = found and re.match(r"c\.(if-(\S+))\.branch$", found[2])
            if not step:
                continue
            cases = []
            for side, each in zip(("then", "else"), found):
                variable, body = re.match(r"^\(λ (\S+)\. (.*)\)$", each, re.S).groups()
                body = re.sub(rf"{STARTS}{re.escape(variable)}\.0\.(true|taken)", f"{variable}.{step[1]}.true", body)
                body = re.sub(rf"{STARTS}{re.escape(variable)}\.0\.(false|left)", f"{variable}.{step[1]}.false", body)
                cases.append(f"{side}-{step[2]} {variable} ↦ {body}")
                self.branches.add(f"{side}-{step[2]}")
            text = text[: m.start()] + f"elim {found[2]} [ {' | '.join(cases)} ]" + text[end:]
            at = m.start()
        return text

    def loop(self, kind, name, params, body):
        """An invariant or a measure, whose parameters were the variables and then those that the body changes."""
        for (old, now), variables, changed in zip(*zip(*self.given["loops"]), self.given["changed"]):
            if plain(old) == plain(name):
                later = [it for it, c in zip(variables, changed) if c]
                names = dict(zip(params, [f"l.initial.{it}" if c else f"l.{it}" for it, c in zip(variables, changed)]))
                names |= dict(zip(params[len(variables) :], [f"l.{it}" for it in later]))
                names.pop("_", None)
                return f"{kind}-{self.given['stem']}{now}", replaced(body, names)
        return f"{kind}-¿{name}", body


def without_nots(text):
    """`not-true x h` and `not-false x h` are h: a test of `!x` says what that of `x` says."""
    while m := re.search(r"\bnot-(true|false)\b", text):
        found, end = arguments(text, m.end(), 2)
        text = text[: m.start()] + (found[1] + text[end:] if found else "¿" + text[m.start() + 3 :])
    return text


# Files


class Item:
    """A declaration: comments, name, signature, unfolding lines, what stands left and right of its equals sign."""

    def __init__(self, lines):
        self.text = "\n".join(lines)
        self.comments = [it for it in lines if it.startswith("--")]
        rest = lines[len(self.comments) :]
        m = re.match(r"(?:pub |abbrev )*(\S+) :(?: |$)", rest[0]) if rest else None
        self.name = m[1] if m else None
        if not m:
            return
        k = 1
        while k < len(rest) and not re.match(re.escape(self.name) + "( |$)", rest[k]) and not rest[k].startswith("unfolding"):
            k += 1
        self.signature = " ".join(it.strip() for it in rest[:k])
        self.unfolding = [it for it in rest[k:] if it.startswith("unfolding")]
        left, _, self.right = "\n".join(rest[k + len(self.unfolding) :]).partition("=")
        self.params = left.split()[1:]


def read(path):
    """A file's use lines and declarations."""
    uses, items = [], []
    with open(path, encoding="utf-8") as f:
        blocks = [it.split("\n") for it in re.split(r"\n\s*\n", f.read().strip("\n"))]
    for lines in blocks:
        comments = [it for it in lines if it.startswith("--")]
        text = "\n".join(lines[len(comments) :])
        if text.startswith(("use ", "pub use ")):
            found = re.findall(r"(?:pub )?use [^{\n]*(?:\{[^}]*\}[^\n]*)?", text)
            uses += [" ".join(it.split()) for it in found]
            lines = comments
        if lines:
            items.append(Item(lines))
    return uses, items


def matched(function, given, items, where):
    """Which of the given answers is for which goal: both are in the code's order, and goals have gone and come."""
    goals = function.given["needs"]

    def score(goal, answer):
        old, new = goal
        asks = "-requires" in new
        if answer.startswith("(λ"):
            return -99 if bool(re.match(r"^\(λ \S+ \S+?\. ", answer)) != asks else 3 if asks else 1
        if answer not in items:
            return -99
        want = re.search(r"\.Need-(\S+)", items[answer].signature)
        want, old = plain(want[1] if want else answer), plain(old)
        if want.endswith(old):
            return 5
        short = want.replace("overflow", "").replace("slicebounds", "part").replace("slice", "")
        return 4 if short == old.replace("slice", "") else -50

    @functools.lru_cache(None)
    def best(i, j):
        ways = []
        if i < len(goals) and j < len(given) and (value := score(goals[i], given[j])) > -90:
            rest = best(i + 1, j + 1)
            ways.append((rest[0] + value, ((i, j), *rest[1])))
        if i < len(goals):
            rest = best(i + 1, j)
            ways.append((rest[0] - 2, rest[1]))
        if j < len(given):
            rest = best(i, j + 1)
            ways.append((rest[0] - (0 if TRIVIAL.match(given[j]) else 4), rest[1]))
        return max(ways, key=lambda it: it[0]) if ways else (0, ())

    pairs = best(0, 0)[1]
    taken = {j for _, j in pairs}
    for j, it in enumerate(given):
        if j not in taken and not TRIVIAL.match(it):
            print(f"{where}: no goal for {it[:80]}")
    return [(goals[i], given[j]) for i, j in pairs]


class Walk:
    """One file Proof.antt."""

    def __init__(self, folder, module, names):
        self.folder, self.module, self.names = folder, module, names
        self.uses, items = read(os.path.join(folder, "Proof.antt"))
        self.head = [line for it in items if it.name is None for line in it.comments]
        self.helpers = [it.text for it in items if it.name is None and it.text != "\n".join(it.comments)]
        self.items = {it.name: it for it in items if it.name}
        self.in_cycle = module.rpartition(".")[2].startswith("+")
        self.members, self.invariants, self.answers, self.used, self.now = {}, [], [], set(), {}

    def key(self, end):
        return self.module.replace("Rattle.", "Rattle-", 1).replace(".proofs.", "-proofs.", 1) + end

    def turn(self):
        spec = next(it for it in self.items.values() if it.name.endswith(("-spec", "_spec")) and "statement" in it.signature)
        del self.items[spec.name]
        whole = " ".join(spec.right.split())
        for member, given in self.cycle(whole) if self.in_cycle else self.alone(whole):
            self.loops(member)
            function = self.members[member]
            for (old, new), answer in matched(function, given, self.items, self.folder):
                self.answer(function, old, new, answer)
        self.write()

    def alone(self, whole):
        self.members[""] = Function(self.names[self.key(".Lts")], False)
        self.places = self.records(self.members[""])
        text = whole.partition("tie.spec")[2]
        end = next((i for i, _, depth in depths(text) if depth < 0), len(text))
        yield "", [it for it in terms(text[:end]) if not re.match(r"(invariant|decreases)-", it)]

    def cycle(self, whole):
        """The members of a cycle: `close MEASURES (λ t. a-lts.spec ..) .. λ t. z-lts.spec ..`."""
        self.places = {}
        aliases = dict(re.findall(r"\.Lts-(\S+) as (\S+)$", it)[0][::-1] for it in self.uses if ".Lts-" in it)
        for alias, member in aliases.items():
            self.members[member] = Function(self.names[self.key(".Lts-" + member)], True)
        self.measures({alias[: -len("-lts")]: member for alias, member in aliases.items()})
        text = whole.partition("close ")[2]
        last = next((i for i, _, depth in depths(text) if depth == 0 and text.startswith("λ ", i)), None)
        for it in terms(text if last is None else f"{text[:last]}({text[last:]})"):
            m = re.match(r"^\(λ (\S+)\. (\S+)-lts\.spec (.*)\)$", it)
            if m:
                member = aliases[m[2] + "-lts"]
                given = terms(m[3])[3 + 2 * len(self.members[member].given["loops"]) :]
                names = [re.match(rf"^\((\S+) {re.escape(m[1])}\)$", it) for it in given]
                yield member, [n[1] if n and n[1] in self.items else it for n, it in zip(names, given)]

    def measures(self, members):
        params = {}
        for function in self.members.values():
            params |= {it.rpartition("::")[2]: names for it, names in function.given["params"].items()}
        for it in self.items.values():
            m = re.match(r"abbrev \S+ : Measures \d+ (\S+)-kinds\.ps", it.signature)
            if m:
                member, args = members[m[1]], it.params[-1]
                place = lambda m: "l" + by_name(m[1], [*params[member], ""])
                body = re.sub(rf"{STARTS}{re.escape(args)}((?:\.\d+)*?\.0|(?:\.\d+)+)(?!\.\d)", place, it.right)
                self.invariants.append(self.declared(it, f"decreases-{member}", ["l"], body, "abbrev pub"))
            if m or re.match(r"abbrev \S+ : ℕ → (In|\S+-lts\.Claims)", it.signature):
                self.used.add(it.name)

    def loops(self, member):
        for it in self.items.values():
            m = re.match(r"abbrev \S+ : (\S+)\.(invariant|decreases)-(\S+)$", it.signature)
            if m and (not self.in_cycle or plain(m[1]) == plain(member + "-lts")):
                name, body = self.members[member].loop(m[2], m[3], it.params, it.right)
                self.invariants.append(self.declared(it, name, ["l"], body, "abbrev pub"))
                self.used.add(it.name)

    def declared(self, item, name, params, body, how="pub"):
        comments, unfolding = (item.comments, item.unfolding) if item else ([], [])
        gap = "" if body.startswith((" ", "\n")) else " "
        return "\n".join([*comments, f"{how} {name} : goal.{name}", *unfolding, f"{' '.join([name, *params])} ={gap}{body}"])

    def records(self, function):
        """Lemmas over the record of a place, and that place."""
        found = {}
        for it in self.items.values():
            m = re.search(r"\((\S+) : tie\.([^\s)]+)\)", it.signature)
            place = m and next((p for p in function.places if plain(p) == plain(m[2])), None)
            if place:
                found[it.name] = (m[0], m[1], place)
        return found

    def answer(self, function, old, new, answer):
        place, name = function.place_of[new], function.given["stem"] + new
        lead = ["t", "c"] if self.in_cycle else ["c"]
        m, item = LAMBDA.match(answer), self.items.get(answer)
        if m:
            if m[3].strip() in FOUND or re.match(r"enum_(known|told)", new):
                return
            body = function.flat(place, " " + m[3], m[1] if m[1] != "_" else "c")
        else:
            self.used.add(answer)
            self.now[answer] = name
            more = item.params[len(lead) :]
            body = function.flat(place, item.right, item.params[len(lead) - 1])
            lead = lead + more["-requires" in new :]
        for lemma, (_, _, at) in self.places.items():
            body = re.sub(rf"{STARTS}{re.escape(lemma)} ¿c(?:\.before)*{AFTER}", f"{lemma} (goal.at.{new} c).{function.now[at]}", body)
        clauses = function.asked(old, new)
        if clauses:
            body = self.clauses(function, body, clauses)
        self.answers.append((name, self.declared(None if m else item, name, lead, body)))

    def clauses(self, function, body, clauses):
        """Clauses as a record; in a cycle it may stand behind the proof that the measure falls."""
        lets, rest = without_lets(body)
        pair = parts(rest, 2) if self.in_cycle else None
        if pair and (parts(pair[1], len(clauses)) or pair[1] == "c.requires" or TACTIC.match(pair[1])):
            return f" {lets}({pair[0]},{as_record(pair[1], clauses, function.requires)})"
        return as_record(body, clauses, function.requires)

    def helper(self, item):
        """A lemma of the file's own; one over a place is over its record now."""
        if item.name not in self.places:
            return item.text
        function = self.members[""]
        binder, variable, place = self.places[item.name]
        body = function.flat(place, "\n".join(item.text.split("\n")[len(item.comments) :]).replace(binder, "«»"), variable)
        body = body.replace("«»", f"(c : {function.now[place]})").replace("¿c", "c")
        for it in self.places:
            body = re.sub(rf"{STARTS}{re.escape(it)} c(?:\.before)*{ENDS}", f"{it} c", body)
        return "\n".join([*item.comments, body])

    def ordered(self):
        """The answers, those that cite another behind it."""
        first, later = [], []
        for name, text in self.answers:
            cites = False
            for old, now in self.now.items():
                text, n = re.subn(rf"{STARTS}{re.escape(old)}( t)? ¿c(?:\.before)*{AFTER}", lambda m: f"{now}{m[1] or ''} c", text)
                cites = cites or (n > 0 and now != name)
            (later if cites else first).append(text)
        return first + later

    def write(self):
        rest = [it for it in self.items.values() if it.name not in self.used]
        records = {self.members[""].now[self.places[it.name][2]] for it in rest if it.name in self.places}
        answers = self.helpers + [self.helper(it) for it in rest] + self.ordered()
        branches = set().union(*(it.branches for it in self.members.values()))
        gone = r"\.Statement\.|\.(Tie|Lts) as |\.Lts-| as \S+-(reads|kinds)$|\.Reads as |\.Kinds as |\.\{ ?statement|\.Tie\.|PlainCycle|Fn\.Kinds\.\{In\}"
        uses = [it for it in self.uses if not re.search(gone, it)]
        uses += ["use borrow.Enum.Refused.{opened}"] if any("(opened " in it for it in answers) else []
        named = [f"use {self.module}.Goals.{{{', '.join(sorted(it))}}}" for it in (records, branches) if it]
        if self.invariants:
            self.file("Invariants", [*self.head, *uses, f"use {self.module}.Given as goal"], self.invariants)
        if answers:
            head = [] if self.invariants else self.head
            self.file("Answers", [*head, *uses, f"use {self.module}.Goals as goal", *named], answers)
        os.remove(os.path.join(self.folder, "Proof.antt"))

    def file(self, name, head, items):
        with open(os.path.join(self.folder, name + ".antt"), "w", encoding="utf-8") as f:
            f.write("\n".join(head) + "\n\n" + "\n\n".join(items) + "\n")


def main():
    crate, given = sys.argv[1:]
    with open(given, encoding="utf-8") as f:
        names = json.load(f)
    proofs = os.path.join(crate, "proofs")
    for folder, _, files in sorted(os.walk(proofs)):
        if "Proof.antt" in files:
            path = os.path.relpath(folder, proofs).replace(os.sep, ".")
            Walk(folder, f"Rattle.{os.path.basename(os.path.abspath(crate))}.proofs.{path}", names).turn()


sys.setrecursionlimit(100_000)
main()
