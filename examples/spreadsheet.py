"""use: spreadsheet.py LIBRARY check FILE.csv    the entries of a spreadsheet as a table
     spreadsheet.py LIBRARY tidy FILE.csv     the same entries as a spreadsheet without quotes, with three decimals
What spreadsheet.c prints, by ctypes, from the archive as a shared object (examples/build makes target/examples/libghendufika.so). FILE may be - for
standard input.
Leaves as spreadsheet.c does: with 0 where it is done, 1 where the file is refused for what it holds, 2 where it was used wrongly or the file cannot be read.
And with 3 where this Python cannot load the library: it has x86-64 code, and ctypes loads only code of Python's own machine.
"""
import sys
from ctypes import c_uint8

from ghendufika import ALL_SHOWN, MOST_SPREADSHEET_BYTES, NOTHING_SHOWN, WORDS, Trouble, leave, read

REFUSED = 1
MOST_FILE_BYTES = 2**24  # far above what any spreadsheet has
FUNCTIONS = "read_spreadsheet", "write_spreadsheet"
NAMED_BYTES = {0x09: "a tab", 0x0A: "a line end", 0x0D: "a carriage return", 0x20: "a space", 0x22: "a double quote"}


class Refused(Exception):
    """Why the file is refused, and where."""


def name_of(path):
    return "standard input" if path == "-" else path


def standing(data, place):
    """What stands there; what cannot be seen is named."""
    if place == len(data):
        return "here the file ends"
    if place == 0 and data.startswith(b"\xef\xbb\xbf"):
        return "here stands a byte order mark"  # some programs put one in front of what they save, where nobody sees it
    byte = data[place]
    return "here stands " + NAMED_BYTES.get(byte, f'"{chr(byte)}"' if 0x20 < byte < 0x7F else f"byte {byte}")


def entries_of(library, path):
    """The spreadsheet as the archive has it. Lines and columns count from 1, columns in bytes; a line ends at its LF."""
    data = read(path, MOST_FILE_BYTES)
    found = library.ghendufika_read_spreadsheet(data, len(data))
    if found.answer != 0:
        line, column = data.count(b"\n", 0, found.place) + 1, found.place - data.rfind(b"\n", 0, found.place)
        raise Refused(f"{name_of(path)}: line {line}, column {column}: refused by {found.answer}: {WORDS[found.answer]}; {standing(data, found.place)}")
    return found.spreadsheet


def mwh(kwh):
    """Whole kWh as MWh; a float has no room for each of them."""
    return f"{'-' if kwh < 0 else ''}{abs(kwh) // 1000}.{abs(kwh) % 1000:03}"


def check(library, path):
    spreadsheet = entries_of(library, path)
    entries = spreadsheet.entries[: spreadsheet.count]
    print("entry  period         MWh")
    for k, entry in enumerate(entries, 1):
        print(f"{k:5}  {entry.period:6}  {mwh(entry.volume):>10}")
    print(f"in all: {len(entries)} {'entry' if len(entries) == 1 else 'entries'}, {mwh(sum(entry.volume for entry in entries))} MWh")


def tidy(library, path):
    text = (c_uint8 * MOST_SPREADSHEET_BYTES)()
    written = library.ghendufika_write_spreadsheet(entries_of(library, path), text, len(text))
    if written.answer != 0:
        raise Refused(f"{name_of(path)}: refused by {written.answer}: {WORDS[written.answer]}")
    sys.stdout.buffer.write(bytes(text[: written.length]))


COMMANDS = {"check": check, "tidy": tidy}


def show(library, command, path):
    try:
        COMMANDS[command](library, path)
        return ALL_SHOWN
    except (Refused, Trouble) as why:  # nothing goes to standard output, where a program may wait for a spreadsheet
        print(f"spreadsheet.py: {why}", file=sys.stderr)
        return REFUSED if isinstance(why, Refused) else NOTHING_SHOWN


if __name__ == "__main__":
    sys.exit(leave("spreadsheet.py", __doc__, FUNCTIONS, lambda asked: len(asked) == 2 and asked[0] in COMMANDS, show, sys.argv[1:]))
