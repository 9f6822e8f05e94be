"""use: settlement_calendar.py LIBRARY YEAR                           the days of a year when the clocks change
     settlement_calendar.py LIBRARY YEAR MONTH DAY                 a date's day number, periods and code
     settlement_calendar.py LIBRARY day NUMBER                     the same of a day number
     settlement_calendar.py LIBRARY propose YEAR MONTH DAY DAYS    the codes of so many days from a date on, and a checked book opened with them
     settlement_calendar.py LIBRARY typed YEAR MONTH DAY CODES     a checked book opened with codes that were typed, a digit a day, as 1121
     settlement_calendar.py LIBRARY check FILE                     the same with the packed setup of FILE (- is standard input)
What calendar.c prints, by ctypes, from the archive as a shared object (examples/build makes target/examples/libghendufika.so).
Leaves as calendar.c does: with 0 where all is well, 1 where the calendar refuses, by 27 or 28, 2 where there is nothing to show.
And with 3 where this Python cannot load the library: it has x86-64 code, and ctypes loads only code of Python's own machine.
"""
import sys

from ghendufika import EVERGREEN, MOST_DAYS, SLOTS, WORDS, Authorisation, Setup, Trouble, days_of, leave, lend, number, read

DONE, NOT_IN_CALENDAR, CODE_DISAGREES = 0, 27, 28
DAY_OF_48 = 1
MOST_ASKED = 2**32 - 1  # numbers go to the calendar as they are, whole: it is the calendar that has no year 67,536
ALL_WELL, CALENDAR_REFUSES = 0, 1
FUNCTIONS = "day_length", "code_of_day", "day_of_date", "date_of_day", "propose_codes", "read_setup", "read_setup_checked", "open_checked", \
    "open_packed_checked"
WEEKDAYS = "Saturday", "Sunday", "Monday", "Tuesday", "Wednesday", "Thursday", "Friday"  # day 0 is a Saturday (document 02, A2)
MONTHS = ("January", "February", "March", "April", "May", "June", "July", "August", "September", "October", "November", "December")


class Refused(Exception):
    """Why the calendar refuses."""


def refusal(answer):
    return f"{answer} ({WORDS[answer]})"


def of_calendar(answer):
    """All is well, or the calendar refuses. With any other answer there is no setup whose days could be shown."""
    if answer not in (DONE, NOT_IN_CALENDAR, CODE_DISAGREES):
        raise Trouble(f"setup refused by {refusal(answer)}")
    return answer


class Calendar:
    def __init__(self, library):
        self.library = library

    # ---- days

    def day_of(self, year, month, day):
        found = self.library.ghendufika_day_of_date(year, month, day)
        if found.answer != DONE:
            raise Refused(f"NOT IN THE CALENDAR: year {year}, month {month}, day {day}, by {refusal(found.answer)}")
        return found.day

    def line(self, day):
        """What the calendar says of a day."""
        dated = self.library.ghendufika_date_of_day(day)
        if dated.answer != DONE:
            return f"{day:5}  {'not in the calendar':27}  {'-':>7}  {'-':>4}"
        date = f"{WEEKDAYS[day % 7]} {dated.date.day} {MONTHS[dated.date.month - 1]} {dated.date.year}"
        return f"{day:5}  {date:27}  {self.library.ghendufika_day_length(day).periods:7}  {self.library.ghendufika_code_of_day(day).code:4}"

    def print_days(self, days):
        print_heading()
        for day in days:
            print(self.line(day))

    def print_given_day(self, day, given):
        """Beside what the calendar says, the code that a setup has for the day."""
        coded = self.library.ghendufika_code_of_day(day)
        verdict = "  NOT IN THE CALENDAR" if coded.answer != DONE else f"  DISAGREES: by the calendar {coded.code}" if coded.code != given else ""
        print(f"{self.line(day)}  {given:5}{verdict}")

    # ---- books

    def open_checked(self, setup):
        return self.library.ghendufika_open_checked(setup, *lend(min(setup.days, MOST_DAYS))).answer

    def show_setup(self, setup, answer):
        """The days of a setup that was checked, and what became of it."""
        print_codes("as given", setup.first, setup.codes[: setup.days])
        print_heading("  given")
        for k in range(setup.days):
            self.print_given_day(setup.first + k, setup.codes[k])
        return tell_opening(answer)

    # ---- what can be asked

    def show_year(self, *asked):
        year, = numbers(asked, "year")
        first, last = self.day_of(year, 1, 1), self.day_of(year, 12, 31)
        print(f"Days of {year} when the clocks change, of days {first} to {last}")
        self.print_days(day for day in range(first, last + 1) if self.library.ghendufika_code_of_day(day).code != DAY_OF_48)
        return ALL_WELL

    def show_date(self, *asked):
        self.print_days([self.day_of(*numbers(asked, "year", "month", "day"))])
        return ALL_WELL

    def show_day(self, *asked):
        day, = numbers(asked, "day")
        answer = self.library.ghendufika_date_of_day(day).answer
        if answer != DONE:
            raise Refused(f"NOT IN THE CALENDAR: day {day}, by {refusal(answer)}")
        self.print_days([day])
        return ALL_WELL

    def propose(self, *asked):
        *date, days = numbers(asked, "year", "month", "day", "number of days")
        first = self.day_of(*date)
        proposed = self.library.ghendufika_propose_codes(first, days)
        if of_calendar(proposed.answer) != DONE:
            self.print_days(range(first, first + days))
            raise Refused(f"NO CODES: refused by {refusal(proposed.answer)}")
        answer = of_calendar(self.open_checked(small_setup(first, days, proposed.codes)))
        print_codes("by the calendar", first, proposed.codes[:days])
        self.print_days(range(first, first + days))
        return tell_opening(answer)

    def open_typed(self, *asked):
        first = self.day_of(*numbers(asked[:3], "year", "month", "day"))
        typed = asked[3]
        if typed and not (typed.isascii() and typed.isdigit()):
            raise Trouble(f"{typed} are no codes: a digit a day")
        # what a setup has no room for is no code of it, and more days than its field can say are as many too many
        setup = small_setup(first, min(len(typed), 255), [int(code) for code in typed[:MOST_DAYS]])
        return self.show_setup(setup, of_calendar(self.open_checked(setup)))

    def check(self, path):
        """calendar.c opens the bytes at once; here they are read before, and what is read and what is opened must be one setup."""
        packed = read(path)
        tables = lend(days_of(packed))
        asked = packed, len(packed), SLOTS, tables[3], tables[5]
        found = self.library.ghendufika_read_setup_checked(*asked)
        opened = self.library.ghendufika_open_packed_checked(packed, len(packed), *tables)
        answer = of_calendar(opened.answer)
        if (found.answer, found.length, found.setup.first, found.setup.codes[:]) != (answer, opened.length, opened.book.setup.first, opened.book.setup.codes[:]):
            raise Trouble(f"the setup is read with {refusal(found.answer)} and opened with {refusal(answer)}, or as another setup")
        if answer != DONE:  # a refusal gives no setup, so the day that it is for is seen by reading without the check
            found = self.library.ghendufika_read_setup(*asked)
        if found.answer == DONE:
            return self.show_setup(found.setup, answer)
        print(f"Its days cannot be shown: without the calendar it is refused by {refusal(found.answer)}")
        return tell_opening(answer)


def numbers(asked, *names):
    return [number(text, MOST_ASKED, name) for text, name in zip(asked, names)]


def small_setup(first, days, codes):
    """As small as a setup can be: two accounts, and one authorisation between them that has no end."""
    setup = Setup(first=first, days=days, accounts=2, authorisations=1)
    setup.codes[: len(codes)] = list(codes)
    setup.rows[0] = Authorisation(agent1=7, agent2=9, account1=0, account2=1, key=500, first=first, last=EVERGREEN, amendment=0)
    return setup


# ---- printing

def print_heading(more=""):
    print(f"{'day':>5}  {'date':27}  {'periods':>7}  {'code':>4}{more}")


def print_codes(whose, first, codes):
    print(f"Days {first} to {first + len(codes) - 1}, codes {whose}: {''.join(map(str, codes))}")


def tell_opening(answer):
    if answer == DONE:
        print("OPENED: a book of these days, checked against the calendar")
        return ALL_WELL
    raise Refused(f"NOT OPENED: setup refused by {refusal(answer)}")


# ---- the program

QUESTIONS = {"day": {1: Calendar.show_day}, "propose": {4: Calendar.propose}, "typed": {4: Calendar.open_typed}, "check": {1: Calendar.check}}
WITHOUT_WORD = {1: Calendar.show_year, 3: Calendar.show_date}


def question(asked):
    """What answers these arguments, with what it is asked; nothing where there are too few or too many."""
    answers, arguments = (QUESTIONS[asked[0]], asked[1:]) if asked and asked[0] in QUESTIONS else (WITHOUT_WORD, asked)
    return answers.get(len(arguments)), arguments


def show(library, *asked):
    answer, arguments = question(asked)
    try:
        return answer(Calendar(library), *arguments)
    except Refused as why:
        print(why)
        print(f"settlement_calendar.py: {why}", file=sys.stderr)
        return CALENDAR_REFUSES


if __name__ == "__main__":
    sys.exit(leave("settlement_calendar.py", __doc__, FUNCTIONS, lambda asked: question(asked)[0] is not None, show, sys.argv[1:]))
