"""use: bars.py LIBRARY FILE ACCOUNT DAY
The report of bars.c, by ctypes, from the archive as a shared object (examples/build makes target/examples/libghendufika.so).
Leaves as bars.c does: with 0 where everything is shown, 1 where a message was refused or unreadable, 2 where nothing is shown.
And with 3 where this Python cannot load the library: it has x86-64 code, and ctypes loads only code of Python's own machine.
"""
import datetime
import itertools
import sys
from ctypes import c_double, c_uint8

from ghendufika import (ALL_SHOWN, MOST_MESSAGE_BYTES, MOST_VOLUME, NOT_ALL_SHOWN, PERIOD_WRONG, PLACES_A_DAY, SLOTS, VOLUME_WRONG, WORDS, Trouble, days_of,
                        leave, lend, number, read)

MARK = -(2**31)
ONE_SIDE, MATCHED, DIFFERENT = 1, 2, 3  # the cases of ghendufika_day_marks; 0 is blank
NOT_IN_THE_PAIR = 15
FIRST_DAY, LAST_DAY, COUNT, PERIOD, VOLUME = 6, 7, 8, 100, 200  # fields of ghendufika_message_field; the last two are those of entry 0
PERIODS_OVER_SEVERAL_DAYS = 48
FUNCTIONS = "message_length", "message_field", "read_setup", "open", "apply_all", "figures", "day_marks"


class Story:
    """A packed setup and messages, taken into a book over tables that this object lends."""

    def __init__(self, library, packed):
        self.library = library
        self.tables = self.held, _, self.side1, lent, self.side2, _ = lend(days_of(packed))
        read = library.ghendufika_read_setup(packed, len(packed), SLOTS, lent, lent)
        self.refusal, self.answers, self.entries_at_fault, self.messages, self.unread = read.answer, [], [], [], 0
        if self.refusal == 0:
            self.book = library.ghendufika_open(read.setup, *self.tables).book
            self.apply(packed[read.length:])

    def apply(self, messages):
        answers, places = (c_uint8 * (len(messages) + 1))(), (c_uint8 * (len(messages) + 1))()
        applied = self.library.ghendufika_apply_all(self.book, messages, len(messages), *self.tables, answers, len(answers), places, len(places))
        self.book, self.answers, self.entries_at_fault, self.unread = applied.book, answers[: applied.done], places[: applied.done], len(messages) - applied.used
        self.messages = list(self.take_apart(messages))

    def take_apart(self, messages):
        """The bytes of each message that was answered; of an unreadable one, which is the last, none."""
        start = 0
        for _ in self.answers:
            front = messages[start:start + MOST_MESSAGE_BYTES]
            length = self.library.ghendufika_message_length(front, len(front))
            yield front[:length]
            start += length

    def field(self, message, field):
        packed = self.messages[message]
        return self.library.ghendufika_message_field(packed, len(packed), field)

    def is_cut_short(self):
        return bool(self.answers) and 19 <= self.answers[-1] <= 22

    def count_refused(self):
        return sum(answer != 0 for answer in self.answers) - self.is_cut_short()

    def missing(self):
        """How much is missing in the book, in one line; nothing where every message was read and done."""
        refused, messages = self.count_refused(), len(self.answers)
        told = [f"{refused} of {messages} messages REFUSED"] * (refused > 0)
        told += [f"from message {messages} on UNREADABLE, {self.unread} bytes missing"] * self.is_cut_short()
        return "; ".join(told)

    def periods_on(self, day):
        return (46, 48, 50)[self.book.setup.codes[day - self.book.setup.first]]

    def gates_closed_on(self, day):
        earlier = sum(self.periods_on(other) for other in range(self.book.setup.first, day))
        return min(max(self.book.closed - earlier, 0), self.periods_on(day))

    def figures(self, account, day):
        return self.library.ghendufika_figures(self.book, *self.tables, account, day)

    def bars(self, slot, account, day):
        """Of each period (standing, own MWh, other MWh), None where a side says nothing; and nothing at all where the account is no party."""
        originator, reference = divmod(self.held[slot] - 1, 65536)
        cases, firsts, seconds = (c_uint8 * PLACES_A_DAY)(), (c_double * PLACES_A_DAY)(), (c_double * PLACES_A_DAY)()
        answer = self.library.ghendufika_day_marks(
            self.book, *self.tables, originator, reference, account, day, cases, PLACES_A_DAY, firsts, PLACES_A_DAY, seconds, PLACES_A_DAY)
        if answer == NOT_IN_THE_PAIR:
            return None
        if answer != 0:
            raise Trouble(f"question refused by {answer} ({WORDS[answer]})")
        pair = self.book.setup.rows[originator]
        on_side_one = pair.account1 == account
        own_side = self.side1 if on_side_one else self.side2
        start = (slot * self.book.setup.days + day - self.book.setup.first) * PLACES_A_DAY
        shown = [bar_of(cases[p], firsts[p], seconds[p], on_side_one, own_side[start + p] != MARK) for p in range(self.periods_on(day))]
        return f"{originator}/{reference}", pair.account2 if on_side_one else pair.account1, shown


def bar_of(case, first, second, on_side_one, own_stands):
    if case == MATCHED:
        return "agreed", first, first
    if case == DIFFERENT:  # side 1's figure comes first, and this account may be on either side
        return ("disagreed", first, second) if on_side_one else ("disagreed", second, first)
    if case == ONE_SIDE:
        return ("this account only", first, None) if own_stands else ("the other only", None, first)
    return "nothing", None, None


# ---- the report

def signed_mwh(mwh):
    return "nothing" if mwh is None else "0.000" if mwh == 0 else f"{mwh:+.3f}"


def wrong_period(story, message, entry):
    """Which entry it is, is the book's word; how its period is wrong is seen: it is 0, or not above the one before, and else too high for its days."""
    period, before = story.field(message, PERIOD + entry), story.field(message, PERIOD + entry - 1) if entry > 0 else 0
    first, last = story.field(message, FIRST_DAY), story.field(message, LAST_DAY)
    if period == 0:
        return "period 0, and the first is 1"
    if period <= before:
        return f"period {period} after period {before}"
    if first == last:
        return f"period {period} on a day of {story.periods_on(first)}"
    return f"period {period}, and over several days the last is {PERIODS_OVER_SEVERAL_DAYS}"


def reason(story, message):
    """The number that refused a message and its words; where one entry was at fault, which it was, counted from 1, and what it says."""
    answer, entry = story.answers[message], story.entries_at_fault[message]
    if answer not in (PERIOD_WRONG, VOLUME_WRONG):
        return f"{answer}: {WORDS[answer]}"
    wrong = wrong_period(story, message, entry) if answer == PERIOD_WRONG else (
        f"{story.field(message, VOLUME + entry)} kWh, and the most is {MOST_VOLUME} either way")
    return f"{answer}, entry {entry + 1} of {story.field(message, COUNT)}: {wrong}"


def refusals(story):
    """Which messages are missing: a line for each row of them that were refused for the same reason, word for word."""
    first = 0
    for why, row in itertools.groupby(range(len(story.answers)), lambda message: reason(story, message)):
        last = first + len(list(row))
        answer = story.answers[first]
        if answer != 0:
            which = f"message {last} could not be read, by" if 19 <= answer <= 22 else (
                f"message {last} refused by" if last == first + 1 else f"messages {first + 1} to {last} refused by")
            yield f"{which} {why}"
        first = last


def report_messages(story):
    refused, unreadable = story.count_refused(), int(story.is_cut_short())
    print(f"{len(story.answers)} messages: {len(story.answers) - refused - unreadable} done, {refused} refused, {unreadable} unreadable")
    for line in refusals(story):
        print(f"  {line}")
    if story.missing():
        print(f"INCOMPLETE: {story.missing()}")


def report_bars(identifiers, periods, closed):
    count = {}
    for period in range(1, periods + 1):
        gate = "closed" if period <= closed else "open"
        for name, other_account, bars in identifiers:
            standing, own, other = bars[period - 1]
            zero = not own and not other
            kind = standing, "zero" if zero else gate
            count[kind] = count.get(kind, 0) + 1
            if not zero:
                print(f"{period:6}  {gate:6}  {name:>10}  {other_account:4}  {standing:17}  {signed_mwh(own):>13}  {signed_mwh(other):>13}")
    counted = lambda where, *standings: ", ".join(f"{count.get((one, where), 0)} {one}" for one in standings)  # noqa: E731
    one_side = "this account only", "the other only"
    print(f"agreed: {count.get(('agreed', 'open'), 0) + count.get(('agreed', 'closed'), 0)}")
    print("not agreed yet, gate open: " + counted("open", "disagreed", *one_side))
    print("never agreed, gate closed: " + counted("closed", "disagreed", *one_side))
    print("at zero, not listed: " + counted("zero", "agreed", *one_side))


def report(story, account, day, figures):
    date = datetime.date(2000, 1, 1) + datetime.timedelta(day)
    periods, closed = story.periods_on(day), story.gates_closed_on(day)
    seen = [story.bars(slot, account, day) for slot in range(SLOTS) if story.held[slot] != 0]
    print(f"Account {account} on day {day} ({date:%A} {date.day} {date:%B %Y}): {periods} periods, {closed} gates closed")
    report_messages(story)
    print(f"Sold {figures.sold:.3f} MWh, bought {figures.bought:.3f} MWh, net {figures.net:.3f} MWh; only agreed volumes count\n")
    print(f"MWh, plus is sold by account {account}, minus is bought")
    print("period  gate    identifier  with  what stands         this account      the other")
    report_bars([one for one in seen if one is not None], periods, closed)
    if story.missing():
        print("INCOMPLETE: messages are missing in these figures, see above")


# ---- the program

def show(library, path, account, day):
    account, day = number(account, 255, "account"), number(day, 65535, "day")
    story = Story(library, read(path))
    if story.refusal != 0:
        raise Trouble(f"setup refused by {story.refusal} ({WORDS[story.refusal]})")
    figured = story.figures(account, day)
    if figured.answer != 0:
        raise Trouble(f"question refused by {figured.answer} ({WORDS[figured.answer]})")
    report(story, account, day, figured.day)
    if not story.missing():
        return ALL_SHOWN
    print(f"bars.py: INCOMPLETE: {story.missing()}", file=sys.stderr)
    return NOT_ALL_SHOWN


if __name__ == "__main__":
    sys.exit(leave("bars.py", __doc__, FUNCTIONS, lambda arguments: len(arguments) == 3, show, sys.argv[1:]))
