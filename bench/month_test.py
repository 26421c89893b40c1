"""Tries the judge of bench/month.py by hand: what two nodes tell that is as it should be, and the same with one fault each: python3 bench/month_test.py

Its status is 1 where the judge finds nothing in a fault, or a fault in what is good.
"""

import contextlib
import io
import sys

import month_judge
from lives import Life
from month_judge import Message, Pair

PAIR, AGAIN = Pair(1, 1, 2, 1), Pair(1, 1, 2, 2)
SENT = [("rel", PAIR, Message(number, f"{number:02x}")) for number in (1, 2, 3)]
TAKEN = [(1, 1, message.payload) for _, _, message in SENT]
URGENT, LATER = [("prio", PAIR, Message(1, "aa"))], [("prio", AGAIN, Message(1, "aa"))]


def told(node, boot=1, bounds=(0, 32), accepted=(), delivered=(), taken=(), signed=b"", verified=(0, "verified 1"), differing=0):
    """What a life tells; `signed` is what it saw under index 3 of node 1."""
    life = Life("path", boot, *bounds, b"", True)
    return month_judge.Told(node, life, 1, 1, accepted, delivered, taken, {(1, 3): {signed}} if signed else {}, differing, 0, 0, verified)


SOURCE = told(1, accepted=SENT)
# what nodes tell, and whether something is wrong with it
ROWS = [
    ("all arrived", [SOURCE, told(2, delivered=SENT, taken=TAKEN)], False),
    ("the last one didn't arrive", [SOURCE, told(2, delivered=SENT[:2], taken=TAKEN[:2])], True),
    ("the last one wasn't taken", [SOURCE, told(2, delivered=SENT, taken=TAKEN[:2])], True),
    ("one arrived twice", [SOURCE, told(2, delivered=[SENT[0], *SENT], taken=TAKEN)], True),
    ("two changed places", [SOURCE, told(2, delivered=[SENT[1], SENT[0], SENT[2]], taken=TAKEN)], True),
    ("one was made up", [SOURCE, told(2, delivered=[*SENT, ("rel", PAIR, Message(4, "04"))], taken=TAKEN)], True),
    ("another was taken", [SOURCE, told(2, delivered=SENT, taken=[(1, 1, "07"), *TAKEN[1:]])], True),
    ("an earlier life of the destination lacks some", [told(1, accepted=SENT), told(2, delivered=SENT[:1]), told(2, 2, (32, 64))], False),
    ("a priority message came", [told(1, accepted=URGENT), told(2, delivered=URGENT)], False),
    ("it came twice", [told(1, accepted=URGENT), told(2, delivered=URGENT * 2)], True),
    ("it was made up", [told(1), told(2, delivered=URGENT)], True),
    ("it came in two lives", [told(1, accepted=URGENT), told(2, delivered=URGENT), told(2, 2, (32, 64), delivered=LATER)], False),
    ("an index signed one message", [told(1, signed=b"a"), told(2, signed=b"a")], False),
    ("an index signed two", [told(1, signed=b"a"), told(2, signed=b"b")], True),
    ("two lives have an index", [told(1), told(1, 2, (31, 63))], True),
    ("two lives have a boot", [told(1), told(1, 1, (32, 64))], True),
    ("a recording doesn't verify", [told(1, verified=(10, "mismatch 3"))], True),
    ("the kit computes another answer", [told(1, differing=1)], True),
]


def main():
    wrong = 0
    for name, rows, is_wrong in ROWS:
        with contextlib.redirect_stdout(io.StringIO()):
            judge = month_judge.Judge(rows)
            judge.per_pair()
            judge.stayed((1, 2))
            judge.urgent()
            judge.signed_once()
            judge.verified()
        if (judge.wrong > 0) != is_wrong:
            wrong += 1
            print(f"{name}: {judge.wrong} faults were found")
    print(f"{len(ROWS) - wrong} looks at the judge of a rehearsal as wanted, {wrong} not")
    sys.exit(1 if wrong else 0)


if __name__ == "__main__":
    main()
