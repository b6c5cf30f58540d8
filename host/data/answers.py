"""Answers of the reference model, in the format that compare/src/stored.rs describes.

    python3 host/data/answers.py REFERENCE answer IN OUT              IN's inputs with the model's answers
    python3 host/data/answers.py REFERENCE generate SEED COUNT WORDS OUT   inputs of the model's own generator

REFERENCE is the folder of the reference model (generate.py, requests/).
"""

import struct
import sys

from corpus import Reader, number, run, word, words_of


def record(image, names, budget, work, answer, tables):
    lookups = answer.exact, answer.star, answer.hook, answer.nothing
    return (words_of(image) + number(len(names)) + bytes(names) + number(budget) + number(work)
            + number(answer.number) + word(answer.steps) + number(answer.slots)
            + number(answer.binds) + b"".join(map(word, lookups)) + words_of(tables))


def read(data):
    """Each record's (image, names, budget, work); its answer is passed over."""
    reader = Reader(data)
    while not reader.is_at_end():
        image, names = reader.words(), reader.bytes()
        budget, work = reader.numbers(2)
        reader.numbers(8)
        reader.words()
        yield image, names, budget, work


def generated(generate, seed, count, most):
    """Valid, damaged and edge inputs of the model's generator, work words just enough."""
    for at in range(seed, seed + count):
        kind = ("valid", "valid", "damaged", "edge")[at % 4]
        data = generate.generate_input(at, most, kind)
        size, names, budget = struct.unpack_from("<3I", data)
        if len(data) != 12 + 4 * size + names:
            continue
        image = list(struct.unpack_from("<%dI" % size, data, 12))
        yield image, data[12 + 4 * size:], budget, 8 * (size + budget)


def main():
    reference, command, *rest = sys.argv[1:]
    sys.path.insert(0, reference)
    import generate
    if command == "generate":
        seed, count, most = map(int, rest[:3])
        inputs = generated(generate, seed, count, most)
    else:
        with open(rest[0], "rb") as file:
            inputs = list(read(file.read()))
    with open(rest[-1], "wb") as out:
        for image, names, budget, work in inputs:
            out.write(record(image, names, budget, work, *run(image, names, budget, work)))


if __name__ == "__main__":
    main()
