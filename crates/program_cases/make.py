#!/usr/bin/env python3
"""Writes the cases that crates/program_cases reads: programs, counts, assignments and the answers that document 01's rules give for them.

    python3 make.py > stdin

The answers come from this file alone. It was written from document 01's section 'The program and its stack rules' and shares nothing with the Rattle
code: the rules are checked over the list of heights, and what passes is turned into an expression of Python's own `and` and `or`, which Python
evaluates. The seed is fixed, so the output is always the same.

A line is: count and assignment (16 hex digits each), refusal number, 00 where the program passes (2), start (4), length (2), the runner's answer (1),
how many words (2), and the words (2 each), with a blank between the fields.
"""
import random
import sys

AND, OR, YES = 64, 65, 66


def refusal_of(words, count):
    """(number, start, length) of the refusal, or None: the rules in document 01's order."""
    if count > 64:
        return (31, 0, 1)
    # the heights before each word and at the end, as if nothing were at fault
    heights = [0]
    for w in words:
        heights.append(heights[-1] + (-1 if w in (AND, OR) else 1))
    for place, w in enumerate(words):
        known = w <= 66
        number_good = w > 63 or w < count
        operands = w not in (AND, OR) or heights[place] >= 2
        room = heights[place + 1] <= 35
        if place >= 127 or not (known and number_good and operands and room):
            return (30, place, 1)
    if not words:
        return (30, 0, 1)
    if heights[-1] != 1:
        return (30, len(words), 1)
    return None


def answer(words, assignment):
    """What a program that passes says: as an expression that Python evaluates."""
    texts = []
    for w in words:
        if w in (AND, OR):
            right = texts.pop()
            left = texts.pop()
            texts.append("(%s %s %s)" % (left, "and" if w == AND else "or", right))
        elif w == YES:
            texts.append("True")
        else:
            texts.append("c[%d]" % w)
    (text,) = texts
    return eval(text, {"c": [bool(assignment >> k & 1) for k in range(64)]})


def tree(rng, leaves, top, lean):
    """The words of a random tree. `lean` is how likely the right side is the small one."""
    if leaves == 1:
        return [YES] if rng.random() < 0.1 or top == 0 else [rng.randrange(top)]
    r = rng.random()
    left = leaves - 1 if r < lean else 1 if r < lean + 0.2 else rng.randrange(1, leaves)
    return tree(rng, left, top, lean) + tree(rng, leaves - left, top, lean) + [rng.choice((AND, OR))]


def damage(rng, words):
    words = list(words)
    for _ in range(rng.choice((1, 1, 1, 2, 3))):
        kind = rng.randrange(6)
        place = rng.randrange(len(words) + 1)
        if kind == 0:
            words.insert(place, rng.choice((0, 1, 63, AND, OR, YES, 67, 255, rng.randrange(256))))
        elif not words:
            continue
        else:
            place = rng.randrange(len(words))
            if kind == 1:
                del words[place]
            elif kind == 2:
                words[place] = rng.choice((0, 62, 63, AND, OR, YES, 67, 128, 255))
            elif kind == 3:
                other = rng.randrange(len(words))
                words[place], words[other] = words[other], words[place]
            elif kind == 4:
                words = words[:place]
            else:
                words[place] ^= 1 << rng.randrange(8)
    return words


def cases():
    rng = random.Random(20260815)
    bits = lambda: rng.choice((0, 2**64 - 1, rng.getrandbits(64), rng.getrandbits(64), rng.getrandbits(64)))
    count = lambda top: rng.choice((top, top, top, 64, 64, max(top - 1, 0), 63, 65, 0, rng.getrandbits(64)))
    # trees, most within the limits
    for _ in range(1500):
        leaves = rng.choice((1, 2, 3, 4, 5, 6, 8, 10, 14, 20))
        top = rng.randrange(1, 65)
        yield tree(rng, leaves, top, rng.choice((0.2, 0.5, 0.8))), rng.choice((top, top, 64)), bits()
    # the same, damaged, or with another count
    for _ in range(1700):
        leaves = rng.choice((1, 2, 3, 4, 5, 6, 8, 10, 14, 20))
        top = rng.randrange(1, 65)
        words = tree(rng, leaves, top, rng.choice((0.2, 0.5, 0.8)))
        if rng.random() < 0.85:
            words = damage(rng, words)
            yield words, rng.choice((top, 64)), bits()
        else:
            yield words, count(top), bits()
    # a few words of any sort
    for _ in range(600):
        words = [rng.choice((0, 1, 2, YES, AND, OR, AND, OR, 63, 67, rng.randrange(256))) for _ in range(rng.randrange(9))]
        yield words, count(3), bits()
    # about the limits: words and slots
    for _ in range(150):
        leaves = rng.choice((62, 63, 64, 64, 64, 65, 66))
        words = tree(rng, leaves, 64, 0.8)
        if rng.random() < 0.4:
            words = damage(rng, words)
        yield words[:200], 64, bits()
    for _ in range(150):
        pushes = rng.choice((33, 34, 35, 35, 35, 36, 37, 40))
        ops = pushes - rng.choice((0, 1, 1, 1, 1, 2))
        words = [rng.randrange(64) for _ in range(pushes)] + [rng.choice((AND, OR)) for _ in range(ops)]
        yield words, 64, bits()


def main():
    for words, count, assignment in cases():
        refusal = refusal_of(words, count)
        number, start, length = refusal or (0, 0, 0)
        value = 0 if refusal else int(answer(words, assignment))
        print("%016x %016x %02x %04x %02x %d %02x %s"
              % (count, assignment, number, start, length, value, len(words), bytes(words).hex()))


if __name__ == "__main__":
    sys.setrecursionlimit(10000)
    main()
