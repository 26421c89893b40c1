"""Changes to a text that a fuzzer tries: lines doubled, dropped, moved or cut, bytes changed, numbers at the ends of ranges, words swapped."""

import re

NUMBER = re.compile(rb"(?<![0-9a-f\"])\d+(?![0-9a-f])")
# the ends of the ranges that docs/FORMATS.md has, and what is no number there
EDGES = [0, 1, 2, 5, 8, 9, 10, 15, 16, 17, 31, 32, 64, 65, 119, 120, 121, 255, 256, 1_000_000, 1_000_001, 65_535, 65_536, 2**31, 2**32 - 1, 2**32,
         2**62, 2**62 + 1, 2**63 - 1, 2**63, 2**64 - 1, 2**64, 10**40]
NO_NUMBERS = [b"01", b"-1", b"+1", b"1.0", b"", b"x", b"0x10"]
BYTES = b" \n\r\t\0\x7f\xff-0aA\"=[]#"


def place_of(dice, lines):
    """A line: more often one of the later ones, where the events are."""
    return dice.randrange(len(lines)) if dice.random() < 0.3 else dice.randrange(len(lines) // 3, len(lines))


def double(dice, lines):
    at = place_of(dice, lines)
    lines[at:at] = [lines[at]] * dice.choice([1, 1, 2, 20])


def drop(dice, lines):
    at = place_of(dice, lines)
    del lines[at:at + dice.choice([1, 1, 2, 5])]


def move(dice, lines):
    line = lines.pop(place_of(dice, lines))
    lines.insert(dice.randrange(len(lines) + 1), line)


def cut_line(dice, lines):
    at = place_of(dice, lines)
    lines[at] = lines[at][:dice.randrange(len(lines[at]) + 1)]


def change_byte(dice, lines):
    at = place_of(dice, lines)
    if lines[at]:
        place = dice.randrange(len(lines[at]))
        byte = dice.choice([dice.choice(BYTES), lines[at][place] ^ (1 << dice.randrange(8)), dice.randrange(256)])
        lines[at] = lines[at][:place] + bytes([byte]) + lines[at][place + dice.randrange(2):]


def change_number(dice, lines):
    for _ in range(8):
        at = place_of(dice, lines)
        found = list(NUMBER.finditer(lines[at]))
        if found:
            one = dice.choice(found)
            number = dice.choice(NO_NUMBERS) if dice.random() < 0.1 else b"%d" % dice.choice([*EDGES, int(one.group(0)) + 1, max(0, int(one.group(0)) - 1)])
            lines[at] = lines[at][:one.start()] + number + lines[at][one.end():]
            return


def nudge(dice, lines):
    """A number becomes the one beside it, or one of the same text: what may still be a good line."""
    for _ in range(8):
        at, from_line = place_of(dice, lines), place_of(dice, lines)
        found, others = list(NUMBER.finditer(lines[at])), NUMBER.findall(lines[from_line])
        if found and others:
            one = dice.choice(found)
            number = dice.choice([b"%d" % (int(one.group(0)) + 1), b"%d" % max(0, int(one.group(0)) - 1), dice.choice(others)])
            lines[at] = lines[at][:one.start()] + number + lines[at][one.end():]
            return


def swap_words(dice, lines):
    first, second = place_of(dice, lines), place_of(dice, lines)
    one, other = lines[first].split(b" "), lines[second].split(b" ")
    here, there = dice.randrange(len(one)), dice.randrange(len(other))
    one[here], other[there] = other[there], one[here]
    lines[first], lines[second] = b" ".join(one), b" ".join(other)


def copy_word(dice, lines):
    """A word of one line stands in another's place too, or a word goes."""
    at = place_of(dice, lines)
    words = lines[at].split(b" ")
    words[dice.randrange(len(words))] = dice.choice(lines[place_of(dice, lines)].split(b" "))
    if dice.random() < 0.2:
        del words[dice.randrange(len(words))]
    lines[at] = b" ".join(words)


def change_hex(dice, lines):
    """Bytes written as digits get longer, shorter or others."""
    at = place_of(dice, lines)
    found = list(re.finditer(rb"[0-9a-f]{2,}|-", lines[at]))
    if found:
        one = dice.choice(found)
        digits = one.group(0)
        other = dice.choice([b"-", digits * 2, digits[:-2], digits[:-1], digits.upper(), bytes(reversed(digits)), digits[:2] * 1_024, digits[:2] * 1_025])
        lines[at] = lines[at][:one.start()] + other + lines[at][one.end():]


# changes after which a text is often still a good one, and all
GENTLE = [double, drop, move, nudge, nudge]
LINE_CHANGES = [double, drop, move, cut_line, change_byte, change_number, change_number, swap_words, copy_word, change_hex]


def changed(dice, text, other):
    """This text with one to four changes; `other` is a text of the same kind, of which a line may come in."""
    lines = text.split(b"\n")
    changes = GENTLE if dice.random() < 0.5 else LINE_CHANGES
    for _ in range(dice.choice([1, 1, 1, 2, 3, 4])):
        if not lines:
            break
        if dice.random() < 0.06:
            lines.insert(place_of(dice, lines), dice.choice(other.split(b"\n")))
        else:
            dice.choice(changes)(dice, lines)
    result = b"\n".join(lines)
    if dice.random() < 0.05:
        result = result[:dice.randrange(len(result) + 1)]
    return result
