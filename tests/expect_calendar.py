"""What calendar.c and settlement_calendar.py of examples/ have to print, from what the independent program answers (tests/ask_calendar.c) alone.

    expect_calendar.py ASK_CALENDAR ARGUMENTS..          with these arguments; it leaves with the status with which they have to leave
    expect_calendar.py ASK_CALENDAR years FIRST LAST     with each year from FIRST to LAST alone, one after the other

ASK_CALENDAR is the built program. The names of weekdays and months are Python's own. Only the words for answer numbers are those of examples/.
"""
import datetime
import os
import subprocess
import sys

sys.path.insert(0, os.path.join(os.path.dirname(os.path.abspath(__file__)), "..", "examples"))
from ghendufika import WORDS  # noqa: E402

HEADING = "  day  date                         periods  code"
NOT_IN_CALENDAR = 27
OF_CALENDAR = 27, 28


def ask(*question):
    """The lines of the independent program's answer, as numbers."""
    answered = subprocess.run([sys.argv[1], *map(str, question)], stdout=subprocess.PIPE, check=True, text=True).stdout
    return [[int(word) for word in line.split()] for line in answered.splitlines()]


def words(answer):
    return f"{answer} ({WORDS[answer]})"


class Refusal(Exception):
    """The last line, and the status."""


def nothing(why):
    raise Refusal(f"Nothing to show: {why}", 2)


def numbers(texts, *names):
    for text, name in zip(texts, names):
        if not text or set(text) - set("0123456789") or int(text) > 4294967295:
            nothing(f"{text} is no {name}: a number from 0 to 4294967295")
    return [int(text) for text in texts]


def day_of(year, month, day):
    [[answer, number]] = ask("date", year, month, day)
    if answer:
        raise Refusal(f"NOT IN THE CALENDAR: year {year}, month {month}, day {day}, by {words(answer)}", 1)
    return number


def line(answer, number, year, month, day, periods, code):
    if answer == NOT_IN_CALENDAR:
        return f"{number:5}  not in the calendar                -     -"
    date = datetime.date(year, month, day)
    return "%5d  %-27s  %7d  %4d" % (number, f"{date:%A} {day} {date:%B} {year}", periods, code)


def lines(first, days):
    return [HEADING] + [line(*day) for day in ask("days", first, days)]


def held_against(first, codes):
    """The lines of days whose codes are given."""
    yield f"Days {first} to {first + len(codes) - 1}, codes as given: {codes}"
    yield HEADING + "  given"
    for given, day in zip(codes, ask("days", first, len(codes))):
        verdict = "  NOT IN THE CALENDAR" if day[0] else "" if day[6] == int(given) else f"  DISAGREES: by the calendar {day[6]}"
        yield f"{line(*day)}      {given}{verdict}"


def opening(answer):
    if answer:
        raise Refusal(f"NOT OPENED: setup refused by {words(answer)}", 1)
    yield "OPENED: a book of these days, checked against the calendar"


# ---- what each question has to print

def year_alone(text):
    [year] = numbers([text], "year")
    first, last = day_of(year, 1, 1), day_of(year, 12, 31)
    yield f"Days of {year} when the clocks change, of days {first} to {last}"
    yield HEADING
    yield from (line(*day) for day in ask("days", first, last - first + 1) if day[5] != 48)


def date(*texts):
    yield from lines(day_of(*numbers(texts, "year", "month", "day")), 1)


def day_number(text):
    [number] = numbers([text], "day")
    [[answer, *_]] = ask("days", number, 1)
    if answer:
        raise Refusal(f"NOT IN THE CALENDAR: day {number}, by {words(answer)}", 1)
    yield from lines(number, 1)


def propose(*texts):
    *when, days = numbers(texts, "year", "month", "day", "number of days")
    first = day_of(*when)
    [[answer, *codes]] = ask("codes", first, days)
    if answer not in (0, *OF_CALENDAR):
        nothing(f"setup refused by {words(answer)}")
    if not answer:
        yield f"Days {first} to {first + days - 1}, codes by the calendar: {''.join(map(str, codes[:days]))}"
    yield from lines(first, days)
    if answer:
        raise Refusal(f"NO CODES: refused by {words(answer)}", 1)
    yield from opening(*ask("open", first, "".join(map(str, codes[:days])))[0])


def typed(*texts):
    first, codes = day_of(*numbers(texts[:3], "year", "month", "day")), texts[3]
    if set(codes) - set("0123456789"):
        nothing(f"{codes} are no codes: a digit a day")
    [[answer]] = ask("open", first, codes)
    if answer not in (0, *OF_CALENDAR):
        nothing(f"setup refused by {words(answer)}")
    yield from held_against(first, codes)
    yield from opening(answer)


def check(path):
    try:
        open(path, "rb").read()
    except OSError as why:
        nothing(f"{path} cannot be read: {why.strerror}")
    [[answer, unchecked, first, days, *codes]] = ask("setup", path)
    if answer not in (0, *OF_CALENDAR):
        nothing(f"setup refused by {words(answer)}")
    if unchecked:
        yield f"Its days cannot be shown: without the calendar it is refused by {words(unchecked)}"
    else:
        yield from held_against(first, str(codes[0]).zfill(days))
    yield from opening(answer)


def years(first, last):
    for year in range(int(first), int(last) + 1):
        yield from year_alone(str(year))


QUESTIONS = {"day": day_number, "propose": propose, "typed": typed, "check": check, "years": years}


def main(asked):
    answer = QUESTIONS.get(asked[0])
    try:
        for printed in answer(*asked[1:]) if answer else year_alone(*asked) if len(asked) == 1 else date(*asked):
            print(printed)
    except Refusal as why:
        print(why.args[0])
        return why.args[1]
    return 0


if __name__ == "__main__":
    if len(sys.argv) < 3:
        sys.exit(__doc__) if sys.argv[1:] != ["--help"] else print(__doc__, end="")
    else:
        sys.exit(main(sys.argv[2:]))
