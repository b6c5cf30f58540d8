"""Inputs with the answers of the reference model. src/corpus.rs, src/answers.rs, src/lists.rs and src/listings.rs describe
the formats.

    python3 host/data/corpus.py REFERENCE make              writes the corpus beside this file
    python3 host/data/corpus.py REFERENCE lists             writes the lists of screens beside this file
    python3 host/data/corpus.py REFERENCE listings          writes the calls for listings beside this file
    python3 host/data/corpus.py REFERENCE compare FILE..    holds the answers of files, FILE.lists and FILE.calls too, to
                                                            the model's
    python3 host/data/corpus.py REFERENCE answers FILE..    writes the whole run's answers beside each file

REFERENCE is the folder of the reference model (model.py, generate.py, rows.py, requests/).
"""

import contextlib
import os
import random
import struct
import sys
from collections import Counter

NONE = 0xFFFFFFFF
LIMIT = 65_536
MOST_TABLES = 16_777_216
LANDED = 4                      # of document 02 the answers have 2.1 to 2.4, and no later request
LONGEST_LOOKUPS = 2_000         # words, and name bytes; longer inputs are those that `lengths` makes
LIST_ROW, ANSWER_ROW, MOST_ROWS = 5, 9, 256
LENT = "work_len", "table_len", "answer_len"
LONGEST_LISTED = 900            # words of an image that a listing is asked of, but for zeros at its end
HERE = os.path.dirname(os.path.abspath(__file__))


def number(value):
    digits = bytearray()
    while value > 127:
        digits.append(value & 127 | 128)
        value >>= 7
    digits.append(value)
    return bytes(digits)


def word(value):
    return number((value + 1) & NONE)


def words_of(values):
    return number(len(values)) + b"".join(map(word, values))


class Writer:
    """Collects records; counts the answers."""

    def __init__(self, check):
        self.check, self.out, self.answers = check, bytearray(), Counter()
        self.words, self.names = [], b""          # of the last record 0

    def finish(self, words, names, budget, work):
        answer = self.check(words, names, budget, work)
        self.answers[answer] += 1
        self.out += number(budget) + number(work) + number(answer)

    def whole(self, words, names, budget, work):
        self.words, self.names = list(words), bytes(names)
        self.out += number(0) + words_of(words) + number(len(names)) + names
        self.finish(words, names, budget, work)

    def changed(self, words, name_count, budget, work):
        old = resized(self.words, len(words), [0])
        changes = [(at, new) for at, new in enumerate(words) if new != old[at]]
        self.out += number(1) + number(len(words)) + number(len(changes))
        for at, new in changes:
            self.out += number(at) + word(new)
        self.out += number(name_count)
        self.finish(words, resized(self.names, name_count, b"\0"), budget, work)


def resized(items, count, filler):
    return items[:count] + filler * (count - len(items))


class Reader:
    def __init__(self, data):
        self.data, self.at = data, 0

    def is_at_end(self):
        return self.at == len(self.data)

    def number(self):
        value = shift = 0
        while True:
            digit = self.data[self.at]
            self.at += 1
            value |= (digit & 127) << shift
            if digit < 128:
                return value
            shift += 7

    def numbers(self, count):
        return [self.number() for _ in range(count)]

    def word(self):
        return (self.number() - 1) & NONE

    def words(self):
        return [self.word() for _ in range(self.number())]

    def bytes(self):
        count = self.number()
        self.at += count
        return bytes(self.data[self.at - count:self.at])

    def padded_words(self):
        count = self.number()
        return resized(self.words(), count, [0])

    def padded_bytes(self):
        count = self.number()
        return resized(self.bytes(), count, b"\0")

    def expect(self, right, what):
        """The next bytes have to be these."""
        if not self.data.startswith(right, self.at):
            sys.exit(what)
        self.at += len(right)


def read(data):
    """(words, names, budget, work, answer) of each record."""
    reader, words, names = Reader(data), [], b""
    while not reader.is_at_end():
        if reader.number() == 0:
            words, names = reader.words(), reader.bytes()
            now_words, now_names = words, names
        else:
            now_words = resized(words, reader.number(), [0])
            for _ in range(reader.number()):
                position = reader.number()
                now_words[position] = reader.word()
            now_names = resized(names, reader.number(), b"\0")
        yield now_words, now_names, *reader.numbers(3)


def enough(words, budget):
    return 8 * (len(words) + budget)


def lengths(rng, writer):
    """A record at the edge of one of the refusals 1 to 4."""
    words, count, budget = writer.words, len(writer.names), 1_024
    which = rng.randrange(6)
    if which == 0:
        words = resized(words, rng.choice((0, 1, 19, 20, len(words) - 1, len(words) + 1)), [0])
    elif which == 1:
        words = resized(words, rng.choice((LIMIT, LIMIT + 1)), [0])
        words[19] = len(words)
    elif which == 2:
        count = rng.choice((0, max(0, count - 1), LIMIT, LIMIT + 1))
    elif which == 3:
        budget = rng.choice((0, LIMIT, LIMIT + 1, NONE))
    work = enough(words, budget) - (which == 4) + rng.choice((0, 0, 1, 1_000_000)) * (which > 4)
    writer.changed(words, count, budget, work)


def damage(rng, writer, generate):
    """A record with words changed by the reference's own damager."""
    damager = generate.Damager(rng, writer.words, writer.names)
    while damager.words == writer.words:
        aim = rng.choice((5, 6, 7, 8, 8, 9, 9, 10, 10, 10, 0))
        if aim:
            getattr(damager, "aim_%d" % aim)()
        for _ in range(rng.choice((0, 0, 0, 1)) if aim else rng.randint(1, 3)):
            damager.anywhere()
    budget = rng.choice((0, 1_024, LIMIT))
    writer.changed(damager.words, len(writer.names), budget, enough(damager.words, budget))


def images(rng, writer, generate, sizes, changes):
    for most in sizes:
        words, names, budget = generate.valid(rng, most)
        writer.whole(words, names, budget, enough(words, budget))
        for _ in range(changes):
            (lengths if rng.random() < 0.1 else lambda r, w: damage(r, w, generate))(rng, writer)


def edges(rng, writer, generate, count):
    for _ in range(count):
        data = generate.edge(rng, rng.choice((200, 400, 2_000)))
        word_count, name_count, budget = struct.unpack("<3I", data[:12])
        words = list(struct.unpack_from("<%dI" % word_count, data, 12))
        names = data[12 + 4 * word_count:]
        assert len(names) == name_count
        writer.whole(words, names, budget, enough(words, budget))


def rows(writer):
    """The reference's own rows, edges and mistakes."""
    import rows as reference
    checks = reference.Checks()
    with contextlib.redirect_stdout(None):
        for part in (reference.check_rows, reference.check_edges, reference.check_mistakes):
            part(checks)
    for row in checks.inputs:
        writer.whole(row.words, row.name_bytes, row.budget, enough(row.words, row.budget))


def sort_of(case):
    """A run's number, the rules that its lookups met before it ended, and whether it has refs that make none."""
    from requests import as_of
    from requests.base import run_to_tables

    def solved(words):
        run = run_to_tables(**{**case, "words": words, "table_len": MOST_TABLES}, rules=as_of(LANDED))
        return run.answer.number, run.solved.counts if run.solved else []

    words = case["words"]
    number, counts = solved(words)
    with_option = counts and words[1] & 1
    refs = with_option and sum(solved([words[0], words[1] ^ 1] + words[2:])[1]) > sum(counts)
    return number, tuple(count > 0 for count in counts), bool(refs)


def lookups(rng, writer, tries, each):
    """Runs by document 02's generator: so many tries, so many kept of each sort; some at the edges of 1 to 4 too."""
    from requests import as_of, cases, images
    images.allow(as_of(LANDED))
    kept = Counter()
    for _ in range(tries):
        case = cases.run_arguments(rng, sizes=(250, 500, 900), refused=0.4)
        words, names = case["words"], case["name_bytes"]
        if max(len(words), len(names)) > LONGEST_LOOKUPS:
            continue
        sort = sort_of(case)
        kept[sort] += 1
        if kept[sort] <= each:
            writer.whole(words, names, case["budget"], case["work_len"])
            if sort[0] == 0 and rng.random() < 0.5:
                lengths(rng, writer)


def make(model, generate):
    parts = {
        "small": lambda rng, w: images(rng, w, generate, [rng.choice((150, 250, 400, 600))
                                                          for _ in range(1_200)], 9),
        "large": lambda rng, w: images(rng, w, generate, [1_000, 2_000, 4_000, 8_000, 16_000,
                                                          32_000, 65_536] * 2, 30),
        "edges": lambda rng, w: edges(rng, w, generate, 400),
        "rows": lambda rng, w: rows(w),
        "lookups": lambda rng, w: lookups(rng, w, 6_000, 14),
    }
    for name, part in parts.items():
        writer = Writer(model.check)
        part(random.Random(name), writer)
        with open(os.path.join(HERE, name + ".corpus"), "wb") as file:
            file.write(writer.out)
        print(name, len(writer.out), "bytes", sorted(writer.answers.items()))


def compare(model, files):
    for path in files:
        if path.endswith((".lists", ".calls")):
            compare_records(path, compare_list if path.endswith(".lists") else compare_calls)
            continue
        answers = Counter()
        with open(path, "rb") as file:
            for at, (words, names, budget, work, answer) in enumerate(read(file.read())):
                right = model.check(words, names, budget, work)
                if answer != right:
                    sys.exit("%s, record %d: answer %d, the model's is %d" % (path, at, answer, right))
                answers[answer] += 1
                if at % 10_000 == 9_999:
                    print(path, at + 1, "records so far", flush=True)
        print(path, sum(answers.values()), "agree", sorted(answers.items()))


def sum_of(tables):
    """FNV-1a, 64 bits, over the words."""
    value = 0xCBF29CE484222325
    for one in tables:
        value = (value ^ one) * 0x100000001B3 % 2 ** 64
    return value


def run(words, names, budget, work):
    """The model's answer with the counts of lookups, and its tables, for which words enough are lent."""
    import requests
    answer, written = requests.run(words, names, budget, work, MOST_TABLES, rules=requests.as_of(LANDED))
    return answer, written["tables"]


def stored(answer, tables):
    """An answer as src/answers.rs reads it."""
    out = number(answer.number)
    if answer.number in (0, 11, 12, 13, 14, 17, 18):
        out += number(answer.steps)
    if answer.number == 14:
        out += number(answer.table_words)
    if answer.number == 0:
        out += b"".join(map(number, answer[2:9])) + struct.pack("<Q", sum_of(tables))
    return out


def answers(files):
    for path in files:
        out, counts = bytearray(), Counter()
        with open(path, "rb") as file:
            for words, names, budget, work, _ in read(file.read()):
                answer, tables = run(words, names, budget, work)
                counts[answer.number] += 1
                out += stored(answer, tables)
        with open(os.path.splitext(path)[0] + ".answers", "wb") as file:
            file.write(out)
        print(path, len(out), "bytes", sorted(counts.items()))


def called(case):
    """The model's number of a list, and the answers of its rows, each with its own tables."""
    import requests
    from requests.base import Answer
    call, written = requests.batch(**case, rules=requests.as_of(LANDED))
    rows, tables = [], written["tables"]
    for at in range(0, len(written["answers"]), ANSWER_ROW):
        answer = Answer(*written["answers"][at:at + ANSWER_ROW])
        count = answer.table_words if answer.number == 0 else 0
        rows.append((answer, tables[:count]))
        tables = tables[count:]
    return call.number, rows


def without_zeros(items):
    """All but the zeros at the end."""
    count = len(items)
    while count and items[count - 1] == 0:
        count -= 1
    return items[:count]


def padded_words(words):
    return number(len(words)) + words_of(without_zeros(words))


def padded_bytes(names):
    kept = without_zeros(names)
    return number(len(names)) + number(len(kept)) + kept


def list_record(case):
    """What a list lends, as src/lists.rs reads it."""
    out = words_of(case["list_words"]) + padded_words(case["image_words"]) + padded_bytes(case["name_bytes"])
    return out + b"".join(number(case[lent]) for lent in LENT)


def read_list(reader):
    listed, images, names = reader.words(), reader.padded_words(), reader.padded_bytes()
    return {"list_words": listed, "image_words": images, "name_bytes": names,
            **dict(zip(LENT, reader.numbers(len(LENT))))}


def list_answers(call, rows):
    return number(call) + b"".join(stored(*row) for row in rows)


def place_of(at, count):
    return "first" if at == 0 else "last" if at == count - 1 else "between"


def sort_of_list(case, call, rows):
    """Why a list is refused; else how many rows it has, their numbers, and where one of them is 14."""
    listed, lent = case["list_words"], {0: len(case["image_words"]), 2: len(case["name_bytes"])}
    count, over = divmod(len(listed), LIST_ROW)
    size = count if count < 2 or count >= MOST_ROWS else 2
    if call == 15:
        return call, size, over > 0, case["answer_len"] < ANSWER_ROW * count
    if call == 16:
        return call, size, tuple((place_of(at, count), field) for at in range(count) for field in lent
                                 if sum(listed[LIST_ROW * at + field:][:2]) > lent[field])
    numbers = [answer.number for answer, _ in rows]
    return call, size, frozenset(numbers), 14 in numbers and place_of(numbers.index(14), count)


def lengthen(rng, case):
    """A range of one row becomes as long as an image or its names may be, or a little longer; zeros are lent for it."""
    listed = case["list_words"]
    at = LIST_ROW * rng.randrange(len(listed) // LIST_ROW) + rng.choice((0, 2))
    listed[at + 1] = LIMIT + rng.choice((0, 1, 1, LIMIT))
    lent, zero = ("image_words", [0]) if at % LIST_ROW == 0 else ("name_bytes", b"\0")
    if listed[at] <= len(case[lent]):
        case[lent] += zero * (listed[at] + listed[at + 1] - len(case[lent]))
    case["work_len"] += 8 * LIMIT * rng.randint(0, 1)


def lists(tries, each, lengthened):
    """Lists by document 02's generator: so many tries, so many kept of each sort, and so many more made longer."""
    from requests import as_of, cases
    out, kept, calls, answered = bytearray(), Counter(), Counter(), Counter()
    for seed in range(tries):
        case = cases.case("batch", seed, as_of(LANDED))
        is_longer = seed >= tries - lengthened and len(case["list_words"]) >= LIST_ROW
        if is_longer:
            lengthen(random.Random(seed), case)
        call, rows = called(case)
        sort = is_longer, sort_of_list(case, call, rows)
        kept[sort] += 1
        if kept[sort] <= each:
            out += list_record(case) + list_answers(call, rows)
            calls[call] += 1
            answered.update(answer.number for answer, _ in rows)
    with open(os.path.join(HERE, "batch.lists"), "wb") as file:
        file.write(out)
    print("batch", len(out), "bytes", sorted(calls.items()), "rows", sorted(answered.items()))


def compare_records(path, compare_one):
    """Each record of a file; `compare_one` gives the numbers of its calls."""
    numbers, records = Counter(), 0
    with open(path, "rb") as file:
        reader = Reader(file.read())
    while not reader.is_at_end():
        numbers.update(compare_one(reader, "%s, record %d" % (path, records)))
        records += 1
    print(path, sum(numbers.values()), "agree", sorted(numbers.items()))


def compare_list(reader, name):
    call, rows = called(read_list(reader))
    reader.expect(list_answers(call, rows), "%s: the model answers %d %s" % (name, call, rows))
    return [call]


def listed(run, slot, table_len, listing_len):
    """The model's answer to a call for a listing, and what it writes."""
    import requests
    return requests.listing(**run, slot=slot, table_len=table_len, listing_len=listing_len,
                            rules=requests.as_of(LANDED))


def listing_answer(answer, written):
    """An answer as src/listings.rs reads it."""
    out = stored(answer, written["tables"])
    if answer.number in (0, 18):
        out += number(answer.listing_words)
    if answer.number == 0:
        out += struct.pack("<Q", sum_of(written["listing"]))
    return out


def compare_calls(reader, name):
    run = {"words": reader.padded_words(), "name_bytes": reader.padded_bytes(),
           **dict(zip(("budget", "work_len"), reader.numbers(2)))}
    numbers = []
    for _ in range(reader.number()):
        answer, written = listed(run, reader.word(), *reader.numbers(2))
        reader.expect(listing_answer(answer, written), "%s: the model answers %s" % (name, answer))
        numbers.append(answer.number)
    return numbers


def calls_record(run, calls):
    """A run and the calls for its listings, with the model's answers, as src/listings.rs reads them; and the numbers."""
    out = padded_words(run["words"]) + padded_bytes(run["name_bytes"])
    out += number(run["budget"]) + number(run["work_len"]) + number(len(calls))
    numbers = []
    for slot, table_len, listing_len in calls:
        answer, written = listed(run, slot, table_len, listing_len)
        out += word(slot) + number(table_len) + number(listing_len) + listing_answer(answer, written)
        numbers.append(answer.number)
    return out, numbers


def sort_of_listing(slot, image_slots, bindings):
    """How many rows a listing has, by powers of two, and what is in them."""
    from requests.base import variables
    from requests.listing import listing_rows
    rows = listing_rows(slot, bindings)
    inside = [variables(bindings[row[0]]) if row[0] in bindings else [] for row in rows]
    return (len(rows).bit_length(), slot >= image_slots, slot in bindings,
            any(row[1] == 0 for row in rows),                               # a chain
            sum(map(len, inside)) > len({one for row in inside for one in row}),
            any(len(set(one)) < len(one) for one in inside),                # a variable twice in a Phi
            any(row[1] in (5, 6) and row[3] in (5, 6) for row in rows))     # a Function that returns one


def finished(run):
    """(slots, bindings, table words) if the run ends with 0, lent enough."""
    from requests import as_of
    from requests.base import run_to_tables
    done = run_to_tables(**run, table_len=MOST_TABLES, rules=as_of(LANDED))
    return None if done.answer.number else (done.answer.slots, done.solved.bindings, done.answer.table_words)


def calls_of(rng, run, slots):
    """Just enough words; of the listing's one too few, none, and more; of the tables' one too few and more; and slots
    that aren't there."""
    count, _, tables = finished(run)
    calls = []
    for slot in slots:
        words = listed(run, slot, tables, MOST_TABLES)[0].listing_words
        calls += [(slot, tables, words), (slot, tables, words - 1), (slot, tables - 1, words),
                  (slot, tables + rng.randint(1, 100), words + rng.randint(1, 100)),
                  (slot, tables - 1, words - 1), (slot, tables, rng.randrange(words))]
    outside = rng.choice((count, count, count + 1, NONE - 1, NONE))
    return calls + [(outside, tables, rng.choice((0, 2, 100))), (outside, tables - 1, rng.choice((0, 100)))]


def web(rng):
    """A run whose variables are bound to types with others inside, many of them more than once."""
    from image import Builder, block, body, instruction, place
    b = Builder(options=rng.randrange(4))
    leaves = [b.primitive(), b.object(), b.method()]
    count = rng.choice((3, 6, 12, 20, 30))
    places = [b.identifier(slot=b.slot(leaves[0]) if rng.random() < 0.5 else None) for _ in range(count)]
    rng.shuffle(places)                          # each is bound to a type of later ones

    def inside(at, depth):
        chance = rng.random()
        if at + 1 == count or chance < 0.1:
            return rng.choice(leaves)
        if depth == 0 or chance < 0.4:
            return b.var(b.identifiers[rng.choice(places[at + 1:at + 7])][0])
        if chance < 0.65:
            return b.function_type(inside(at, depth - 1), rng.choice((NONE, 3)), rng.random() < 0.3)
        return b.phi([inside(at, depth - 1) for _ in range(rng.randint(1, 4))])

    made, phis = [], []
    for at in range(count - 1):
        chance, later = rng.random(), places[at + 1:at + 7]
        if chance < 0.15:
            phis.append((places[at], [rng.choice(later) for _ in range(rng.randint(1, 5))]))
        elif chance < 0.3:
            made.append(instruction(rng.choice(("CallExpression", "NewExpression")), rng.choice(later),
                                    [place(places[at])]))
        elif chance < 0.45:
            made.append(instruction("LoadLocal", places[at], [place(rng.choice(later))]))
        elif chance < 0.95:
            made.append(instruction("LoadGlobal", places[at], aux=inside(at, rng.randint(1, 3))))
    rng.choice((made.reverse, lambda: rng.shuffle(made), lambda: None))()
    b.function(body(places[0], [block(made, phis)]))
    return b.write()


def run_of(rng, generate, seed):
    """A run, and the slot that was chosen for it or None: by document 02's generator, document 01's, or a web."""
    from requests import as_of, cases
    which = seed % 4
    if which < 2:
        case = cases.case("listing", seed, as_of(LANDED))
        return {one: case[one] for one in ("words", "name_bytes", "budget", "work_len")}, case["slot"]
    if which == 2:
        words, names, budget = generate.valid(rng, rng.choice((250, 400, 600)))
    else:
        (words, names), budget = web(rng), 4_096
    run = {"words": words, "name_bytes": names, "budget": budget, "work_len": enough(words, budget)}
    return run, None


def with_least_steps(run):
    """The same run with no step over, and no work word."""
    steps = listed(run, 0, MOST_TABLES, MOST_TABLES)[0].steps
    return {**run, "budget": steps, "work_len": enough(run["words"], steps)}


def slots_of(rng, count, bindings):
    """Some slots: any, the last, and that of the longest listing among a few."""
    from requests.listing import listing_rows
    few = rng.sample(sorted(bindings), min(len(bindings), 30))
    longest = max(few, key=lambda slot: len(listing_rows(slot, bindings)), default=0)
    return [longest, rng.choice((longest, rng.randrange(count), count - 1))]


def listings(generate, tries, each):
    """Runs and calls for their listings: so many tries, so many kept of each sort of listing or refusal."""
    out, kept, numbers, runs = bytearray(), Counter(), Counter(), 0
    for seed in range(tries):
        rng = random.Random("listings %d" % seed)
        run, chosen = run_of(rng, generate, seed)
        if len(without_zeros(run["words"])) > LONGEST_LISTED:
            continue
        done = finished(run)
        if done is None:
            sort = listed(run, chosen or 0, MOST_TABLES, MOST_TABLES)[0].number
            calls = [(chosen or 0, 0, 0), (chosen or 0, 100, 100)]
        else:
            if rng.random() < 0.5:
                run = with_least_steps(run)
            count, bindings, _ = done
            slots = slots_of(rng, count, bindings) if chosen is None or chosen >= count else [chosen]
            sort = sort_of_listing(slots[0], run["words"][7], bindings)
            calls = calls_of(rng, run, dict.fromkeys(slots))
        kept[sort] += 1
        if kept[sort] <= each:
            record, answered = calls_record(run, calls)
            out += record
            numbers.update(answered)
            runs += 1
    with open(os.path.join(HERE, "listing.calls"), "wb") as file:
        file.write(out)
    print("listing", len(out), "bytes", runs, "runs", sorted(numbers.items()))


def main():
    if len(sys.argv) < 3 or sys.argv[2] not in ("make", "lists", "listings", "compare", "answers"):
        sys.exit(__doc__)
    sys.path.insert(0, sys.argv[1])
    import generate
    import model
    if sys.argv[2] == "make":
        make(model, generate)
    elif sys.argv[2] == "lists":
        lists(4_000, 2, 300)
    elif sys.argv[2] == "listings":
        listings(generate, 8_000, 9)
    elif sys.argv[2] == "compare":
        compare(model, sys.argv[3:])
    else:
        answers(sys.argv[3:])


if __name__ == "__main__":
    main()
