"""What the Python programs of this folder share: the structs and functions of include/ghendufika.h by ctypes, the documents' words for answer numbers, and
how a program reads its arguments and leaves. It is no program itself.
"""
import ctypes
import os
import platform
import sys
from ctypes import POINTER, Structure, c_double, c_int32, c_int64, c_size_t, c_uint8, c_uint16, c_uint32

SLOTS = 256  # as many as a book may have
MOST_DAYS = 8
PLACES_A_DAY = 50
EVERGREEN = 65535
MOST_VOLUME = 99999999
MOST_MESSAGE_BYTES = 224
MOST_ENTRIES = 50
MOST_SPREADSHEET_BYTES = 711
PERIOD_WRONG, VOLUME_WRONG = 10, 11  # the answers that have the place of an entry
ALL_SHOWN, NOT_ALL_SHOWN, NOTHING_SHOWN, NOT_LOADED = range(4)

WORDS = (
    "done", "the tables handed in are not a sound book", "every gate is closed", "authorisation number unknown",
    "key wrong, or agent is neither of its two", "authorisation not in force on the current day",
    "originator is neither this authorisation nor an expired one of the same accounts", "last day before first day",
    "last day before the current day", "first day after the book's last day", "a period is 0 or too high, or periods do not strictly rise",
    "a volume out of range", "a replacement, and the type is additional", "an additional, and the type is replacement",
    "identifier not held and every slot held", "account not in the book, not in the pair, or the two equal", "no such day number, period or side",
    "setup counts, day code, last day or lent lengths wrong", "an authorisation row wrong", "bytes end too soon", "message kind 3",
    "more than 50 entries", "a padding bit is 1", "a value does not fit its field, or more than 50 entries to write", "no room for what is to be written",
    "identifier not held", "an account total beyond 99,999,999,999 either way", "day or date not in 2000 to 2099", "code disagrees with the calendar",
    "not well-formed CSV", "the header is not period,mwh, or a record has not two fields",
    "a field is not a period of one or two digits, or not a number of MWh", "more than 50 entries in a spreadsheet",
)


class Trouble(Exception):
    """Why there is nothing to show."""


# ---- structs

class Authorisation(Structure):
    _fields_ = [(name, c_uint8) for name in ("agent1", "agent2", "account1", "account2")] + [
        (name, c_uint16) for name in ("key", "first", "last")] + [("amendment", c_uint8)]


class Setup(Structure):
    _fields_ = [("first", c_uint16), ("days", c_uint8), ("accounts", c_uint8), ("authorisations", c_uint8),
                ("codes", c_uint8 * MOST_DAYS), ("rows", Authorisation * 64)]


class SetupRead(Structure):
    _fields_ = [("answer", c_uint8), ("length", c_size_t), ("setup", Setup)]


class Book(Structure):
    _fields_ = [("setup", Setup), ("closed", c_uint16)]


class Opened(Structure):
    _fields_ = [("answer", c_uint8), ("book", Book)]


class OpenedPacked(Structure):
    _fields_ = [("answer", c_uint8), ("length", c_size_t), ("book", Book)]


class AppliedAll(Structure):
    _fields_ = [("answer", c_uint8), ("done", c_size_t), ("used", c_size_t), ("book", Book)]


class DayFigures(Structure):
    _fields_ = [("sold", c_double), ("bought", c_double), ("net", c_double)]


class Figured(Structure):
    _fields_ = [("answer", c_uint8), ("day", DayFigures)]


class Date(Structure):
    _fields_ = [("year", c_uint16), ("month", c_uint8), ("day", c_uint8)]


class Measured(Structure):
    _fields_ = [("answer", c_uint8), ("periods", c_uint8)]


class Coded(Structure):
    _fields_ = [("answer", c_uint8), ("code", c_uint8)]


class Numbered(Structure):
    _fields_ = [("answer", c_uint8), ("day", c_uint16)]


class Dated(Structure):
    _fields_ = [("answer", c_uint8), ("date", Date)]


class Proposed(Structure):
    _fields_ = [("answer", c_uint8), ("codes", c_uint8 * MOST_DAYS)]


class Entry(Structure):
    _fields_ = [("period", c_uint8), ("volume", c_int32)]


class Spreadsheet(Structure):
    _fields_ = [("count", c_uint8), ("entries", Entry * MOST_ENTRIES)]


class SpreadsheetRead(Structure):
    _fields_ = [("answer", c_uint8), ("place", c_size_t), ("spreadsheet", Spreadsheet)]


class SpreadsheetWritten(Structure):
    _fields_ = [("answer", c_uint8), ("length", c_size_t)]


# ---- functions, each with its result and its arguments

TABLES = [POINTER(c_uint32), c_size_t, POINTER(c_int32), c_size_t, POINTER(c_int32), c_size_t]
BYTES = [ctypes.c_char_p, c_size_t]
FUNCTIONS = {
    "message_length": (c_size_t, BYTES),
    "message_field": (c_int64, BYTES + [c_uint32]),
    "read_setup": (SetupRead, BYTES + [c_size_t] * 3),
    "read_setup_checked": (SetupRead, BYTES + [c_size_t] * 3),
    "open": (Opened, [Setup] + TABLES),
    "open_checked": (Opened, [Setup] + TABLES),
    "open_packed_checked": (OpenedPacked, BYTES + TABLES),
    "apply_all": (AppliedAll, [Book] + BYTES + TABLES + [POINTER(c_uint8), c_size_t] * 2),
    "figures": (Figured, [Book] + TABLES + [c_uint32] * 2),
    "day_marks": (c_uint8, [Book] + TABLES + [c_uint32] * 4 + [POINTER(c_uint8), c_size_t] + [POINTER(c_double), c_size_t] * 2),
    "day_length": (Measured, [c_uint32]),
    "code_of_day": (Coded, [c_uint32]),
    "day_of_date": (Numbered, [c_uint32] * 3),
    "date_of_day": (Dated, [c_uint32]),
    "propose_codes": (Proposed, [c_uint32] * 2),
    "read_spreadsheet": (SpreadsheetRead, BYTES),
    "write_spreadsheet": (SpreadsheetWritten, [Spreadsheet, POINTER(c_uint8), c_size_t]),
}


def load(path, names):
    """The library with these functions. Where one is missing there is an AttributeError."""
    library = ctypes.CDLL(path)
    for name in names:
        function = getattr(library, "ghendufika_" + name)
        function.restype, function.argtypes = FUNCTIONS[name]
    return library


def lend(days):
    """Tables for a book of so many days, as the functions take them."""
    places = SLOTS * days * PLACES_A_DAY
    sides = [(c_int32 * max(places, 1))() for _ in range(2)]  # a pointer must point somewhere, also where its length is 0
    return (c_uint32 * SLOTS)(), SLOTS, sides[0], places, sides[1], places


def days_of(packed):
    """Those of a packed setup, bits 16 to 19: what has to be lent depends on them."""
    return packed[2] >> 4 if len(packed) > 2 else 0


# ---- programs

def number(text, most, what):
    """ctypes cuts a number to its field without a word, so one that does not fit is refused here; of very many digits Python makes no number at all."""
    if not (text.isascii() and text.isdigit() and len(text.lstrip("0")) <= len(str(most)) and int(text) <= most):
        raise Trouble(f"{text} is no {what}: a number from 0 to {most}")
    return int(text)


def read(path, most=None):
    """All bytes of a file, or of standard input; where they are more than so many, that is a trouble."""
    try:
        with (sys.stdin.buffer if path == "-" else open(path, "rb")) as file:
            data = file.read() if most is None else file.read(most + 1)
    except OSError as why:
        raise Trouble(f"{path} cannot be read: {os.strerror(why.errno)}") from None
    if most is not None and len(data) > most:
        raise Trouble(f"{path} has more than {most} bytes, and so much is not read")
    return data


def run(name, use, names, takes, show, arguments):
    """LIBRARY and what the program takes: what it shows with these functions of the library."""
    if arguments == ["--help"]:
        print(use, end="")
        return ALL_SHOWN
    if not arguments or not takes(arguments[1:]):
        print(use, end="", file=sys.stderr)
        return NOTHING_SHOWN
    try:
        library = load(arguments[0], names)
    except (OSError, AttributeError) as why:
        print(f"{name}: cannot load the library, which has x86-64 code, into a Python on {platform.machine()}: {why}", file=sys.stderr)
        return NOT_LOADED
    try:
        return show(library, *arguments[1:])
    except Trouble as why:
        print(f"Nothing to show: {why}")
        print(f"{name}: nothing to show: {why}", file=sys.stderr)
        return NOTHING_SHOWN


def leave(name, *program):
    """What the program gives, or NOTHING_SHOWN where standard output could not be written; Python tells that too late by itself."""
    try:
        status = run(name, *program)
        sys.stdout.flush()
        return status
    except OSError as why:
        print(f"{name}: standard output cannot be written: {why.strerror}", file=sys.stderr)
        os.dup2(os.open(os.devnull, os.O_WRONLY), sys.stdout.fileno())  # what is left to write goes nowhere
        return NOTHING_SHOWN
