"""What reading a spreadsheet has to answer, from document 02's A5 alone: no reader of ours is asked, and none is written here. The four languages that the
request nests, well-formed CSV, of which those with the header and two fields a record, of which those whose fields are such numbers, of which those of at most
50 entries, are written down as expressions and made into machines that say of any beginning whether a file of the language can go on so. The answer is
decided at the first byte, the end counting as one, after which no file of the innermost language can go on, and is the lowest number of whose
language no file can go on there.

    expect_spreadsheet.py line FILE         prints what examples/ have to say of a refused file, behind its name
    expect_spreadsheet.py table FILE        prints what examples/ have to show of a file that is read
    expect_spreadsheet.py packed FILE AUTHORISATION AGENT KEY ORIGINATOR REFERENCE FIRST LAST
                                            the packed notification of a file that is read, as bytes: document 01's layout
    expect_spreadsheet.py story FILE FOLDER
                                            the messages of a packed story one by one, as FOLDER/N.packed, and of each N.says: of a notification the
                                            header values and, behind them, its spreadsheet, or why it has none; of another message what it is
"""
import csv
import decimal
import io
import os
import sys

sys.path.insert(0, os.path.join(os.path.dirname(os.path.abspath(__file__)), "..", "examples"))
from ghendufika import WORDS  # noqa: E402

END = 256  # as a byte of its own, behind all others


# ---- expressions. Each is a function that puts itself before a state of a machine and gives the state where it begins; every state leads to the end.

class Machine:
    def __init__(self, expression):
        self.steps, self.forks = [], []  # of each state: the bytes it takes and where they lead; the states that it also is
        self.state = self.closed({expression(self, self.add(frozenset(), None))})

    def add(self, taken, then):
        self.steps.append((taken, then))
        self.forks.append([])
        return len(self.steps) - 1

    def closed(self, states):
        found, left = set(), list(states)
        while left:
            state = left.pop()
            if state not in found:
                found.add(state)
                left += self.forks[state]
        return found

    def take(self, byte):
        self.state = self.closed({then for taken, then in map(self.steps.__getitem__, self.state) if byte in taken})

    def is_left(self):
        return not self.state


def one(taken):
    taken = frozenset(taken)
    return lambda machine, then: machine.add(taken, then)


def row(*parts):
    def put(machine, then):
        for part in reversed(parts):
            then = part(machine, then)
        return then
    return put


def either(*parts):
    def put(machine, then):
        state = machine.add(frozenset(), None)
        machine.forks[state] = [part(machine, then) for part in parts]
        return state
    return put


def many(part):
    def put(machine, then):
        state = machine.add(frozenset(), None)
        machine.forks[state] = [then, part(machine, state)]
        return state
    return put


def perhaps(part):
    return either(row(), part)


def up_to(most, part):
    return row() if most == 0 else perhaps(row(part, up_to(most - 1, part)))


def word(text):
    return row(*(one({ord(letter)}) for letter in text))


# ---- RFC 4180, with LF as a line end beside CR LF

TEXTDATA = [*range(0x20, 0x22), *range(0x23, 0x2C), *range(0x2D, 0x7F)]
QUOTE, COMMA = word('"'), word(",")
LINE_END = row(perhaps(word("\r")), word("\n"))
FIELD = either(many(one(TEXTDATA)), row(QUOTE, many(either(one(TEXTDATA), COMMA, word("\r"), word("\n"), word('""'))), QUOTE))


def file(first, records):
    """A record, more of them each behind a line end, and a last line end that may be missing."""
    return row(first, records, perhaps(LINE_END), one({END}))


def in_quotes_or_not(value):
    return either(value, row(QUOTE, value, QUOTE))


def digits(least, most):
    digit = one(map(ord, "0123456789"))
    return row(*[digit] * least, up_to(most - least, digit))


RECORD = row(FIELD, many(row(COMMA, FIELD)))
HEADER = row(in_quotes_or_not(word("period")), COMMA, in_quotes_or_not(word("mwh")))
PERIOD = digits(1, 2)
MWH = row(perhaps(word("-")), digits(1, 5), perhaps(row(word("."), digits(1, 3))))
ENTRY = row(LINE_END, in_quotes_or_not(PERIOD), COMMA, in_quotes_or_not(MWH))

LANGUAGES = {
    29: file(RECORD, many(row(LINE_END, RECORD))),
    30: file(HEADER, many(row(LINE_END, FIELD, COMMA, FIELD))),
    31: file(HEADER, many(ENTRY)),
    32: file(HEADER, up_to(50, ENTRY)),
}
MACHINES = {number: Machine(language) for number, language in LANGUAGES.items()}
BEGINNINGS = {number: machine.state for number, machine in MACHINES.items()}


def answer(data):
    """The answer and its place."""
    for number, machine in MACHINES.items():
        machine.state = BEGINNINGS[number]
    for place, byte in enumerate([*data, END]):
        for machine in MACHINES.values():
            machine.take(byte)
        if MACHINES[32].is_left():
            return min(number for number, machine in MACHINES.items() if machine.is_left()), place
    return 0, len(data)


def entries(data):
    """Of a file that is read, by Python's own reader of CSV and its decimal numbers."""
    records = list(csv.reader(io.StringIO(data.decode("ascii"), newline="")))
    assert records[0] == ["period", "mwh"], records[0]
    return [(int(period), int(decimal.Decimal(mwh) * 1000)) for period, mwh in records[1:]]


# ---- what the programs of examples/ have to say

NAMED = {0x09: "a tab", 0x0A: "a line end", 0x0D: "a carriage return", 0x20: "a space", 0x22: "a double quote"}


def standing(data, place):
    if place == len(data):
        return "here the file ends"
    if place == 0 and data[:3] == bytes([239, 187, 191]):
        return "here stands a byte order mark"
    byte = data[place]
    return "here stands " + NAMED.get(byte, f'"{chr(byte)}"' if 0x20 < byte < 0x7F else f"byte {byte}")


def refusal(data):
    number, place = answer(data)
    assert number, "it is read"
    lines = data[:place].split(b"\n")
    return f"line {len(lines)}, column {len(lines[-1]) + 1}: refused by {number}: {WORDS[number]}; {standing(data, place)}"


def mwh(kwh):
    return f"{decimal.Decimal(kwh) / 1000:.3f}"


def table(data):
    found = entries(data)
    yield "entry  period         MWh"
    for k, (period, kwh) in enumerate(found, 1):
        yield f"{k:5}  {period:6}  {mwh(kwh):>10}"
    yield f"in all: {len(found)} {'entry' if len(found) == 1 else 'entries'}, {mwh(sum(kwh for _, kwh in found))} MWh"


def packed(data, *values):
    """Document 01, "Packed messages": kind 1 and the header's fields, then period and volume of each entry."""
    fields = list(zip((2, 6, 8, 16, 6, 16, 16, 16, 6), (1, *values, len(entries(data)))))
    fields += [field for period, kwh in entries(data) for field in ((6, period), (28, kwh % 2**28))]
    assert all(0 <= value < 2**width for width, value in fields), fields
    bits = "".join(format(value, f"0{width}b") for width, value in fields)
    bits += "0" * (-len(bits) % 8)
    return bytes(int(bits[k:k + 8], 2) for k in range(0, len(bits), 8))


class Bits:
    def __init__(self, data):
        self.data, self.at = int.from_bytes(data, "big"), 8 * len(data)

    def take(self, width):
        self.at -= width
        return self.data >> self.at & 2**width - 1


HEADER_BITS = (("authorisation", 6), ("agent", 8), ("key", 16), ("originator", 6), ("reference", 16), ("first", 16), ("last", 16))
NOTIFICATION, NULLIFICATION = 1, 2


def setup_length(data):
    """Document 01: the days' codes of 2 bits and the authorisations of 78, behind 34."""
    bits = Bits(data)
    _, days, _, authorisations = (bits.take(width) for width in (16, 4, 7, 7))
    return (34 + 2 * days + 78 * authorisations + 7) // 8


def unpacked(data):
    """The message at the front: its length, and the lines that tell of it."""
    bits = Bits(data)
    kind = bits.take(2)
    if kind != NOTIFICATION:
        return (4, ["a nullification"]) if kind == NULLIFICATION else (1, ["a gate"])
    values = [(name, bits.take(width)) for name, width in HEADER_BITS]
    found = [(bits.take(6), (bits.take(28) + 2**27) % 2**28 - 2**27) for _ in range(bits.take(6))]
    told = ["has first day 65535, which is no day" if ("first", 65535) in values else
            " ".join(f"{name} {'evergreen' if (name, value) == ('last', 65535) else value}" for name, value in values)]
    wrong = [f"entry {k} of {len(found)}: {kwh} kWh, and the most is 99999999 either way" for k, (_, kwh) in enumerate(found, 1) if abs(kwh) > 99999999]
    told += [f"refused by 23, {wrong[0]}"] if wrong else ["period,mwh"] + [f"{period},{mwh(kwh)}" for period, kwh in found]
    return (92 + 34 * len(found) + 7) // 8, told


def tell_story(data, folder):
    data, number = data[setup_length(data):], 0
    while data:
        number += 1
        length, told = unpacked(data)
        with open(f"{folder}/{number}.packed", "wb") as made, open(f"{folder}/{number}.says", "w") as says:
            made.write(data[:length])
            says.write("\n".join(told) + "\n")
        data = data[length:]


def read(path):
    with open(path, "rb") as opened:
        return opened.read()


def main(what, *asked):
    if what == "line":
        print(refusal(read(asked[0])))
    elif what == "table":
        print("\n".join(table(read(asked[0]))))
    elif what == "packed":
        sys.stdout.buffer.write(packed(read(asked[0]), *map(int, asked[1:])))
    elif what == "story":
        tell_story(read(asked[0]), asked[1])
    else:
        sys.exit(__doc__)


if __name__ == "__main__":
    if sys.argv[1:] in ([], ["--help"]):
        print(__doc__, end="")
    else:
        main(*sys.argv[1:])
