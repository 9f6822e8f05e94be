"""What the programs of examples/ have to show of a story, from the independent program's sheet (`sheet all`) alone.

    expect_examples.py report STORY SHEET ACCOUNT DAY    prints the report that bars.c and bars.py have to give
    expect_examples.py text STORY SHEET ACCOUNT DAY      prints what text_bars has to show
    expect_examples.py feedback STORY SHEET              prints the table that check_feedback.c has to give
    expect_examples.py against STORY SHEET FEEDBACK      prints what check_feedback.c has to say against a file of feedback
    expect_examples.py hold STORY SHEET FOLDER           holds all that was made of a story against the sheet: FOLDER/feedback, and for each account
                                                         and day ACCOUNT_DAY.report and ACCOUNT_DAY.svg, each with NAME.status, the exit status of
                                                         its program; prints what it met, for the tally

Of the story's bytes only the setup, the kinds of the messages and the days and entries of those refused by 10 or 11 are read, here by themselves; which entry
was at fault is the sheet's word. Only the words for answer numbers are those of examples/. The sheet has to be that of a book of 256 slots, as the examples
have.
"""
import datetime
import itertools
import os
import struct
import sys
import xml.etree.ElementTree

sys.path.insert(0, os.path.join(os.path.dirname(os.path.abspath(__file__)), "..", "examples"))
from ghendufika import WORDS  # noqa: E402

NOTHING = -(2**31)
MOST_VOLUME = 99999999
PERIODS_WRONG, VOLUME_WRONG = 10, 11
CASES = {1: "one side", 2: "agreed", 3: "disagreed"}


class Bits:
    def __init__(self, data):
        self.data, self.at = data, 0

    def take(self, width):
        value = 0
        for _ in range(width):
            value = value * 2 + (self.data[self.at // 8] >> (7 - self.at % 8) & 1)
            self.at += 1
        return value


class Story:
    """The setup and the number of closed gates, from the bytes and the sheet's answers; and the sheet's lines."""

    def __init__(self, story_path, sheet_path):
        with open(story_path, "rb") as file:
            data = file.read()
        with open(sheet_path) as file:
            lines = [line.split() for line in file]
        self.refusal = int(lines[0][1]) if lines[0][0] == "setup" else 0
        if self.refusal:
            return
        bits = Bits(data)
        self.first, self.days, self.accounts, authorisations = (bits.take(width) for width in (16, 4, 7, 7))
        self.lengths = [(46, 48, 50)[bits.take(2)] for _ in range(self.days)]
        rows = [[bits.take(width) for width in (8, 8, 6, 6, 16, 16, 16, 2)] for _ in range(authorisations)]
        self.pairs = [(row[2], row[3]) for row in rows]
        self.answers = [int(line[2]) for line in lines if line[0] == "m"]
        self.places = [int(line[3]) if len(line) > 3 else None for line in lines if line[0] == "m"]
        self.faults = {}  # of messages refused by 10 or 11, numbered from 0: the sort and the words of the entry at fault
        self.closed, self.unread = self.read_messages(data[(bits.at + 7) // 8:])
        self.identifiers = [(int(line[2]), int(line[3])) for line in lines if line[0] == "i"]
        self.rows = {tuple(map(int, line[1:5])): list(map(int, line[5:])) for line in lines if line[0] == "r"}
        self.marks = {tuple(map(int, line[1:6])): (CASES[int(line[6])], number(line[7]), number(line[8])) for line in lines if line[0] == "k"}
        self.figures = {(int(line[1]), int(line[2])): [number(text) for text in line[3:]] for line in lines if line[0] == "f"}

    def read_messages(self, data):
        """Gates closed, and how many bytes are left where a message could not be read."""
        closed = 0
        for k, (answer, place) in enumerate(zip(self.answers, self.places)):
            if 19 <= answer <= 22:
                break
            kind = data[0] >> 6
            closed += kind == 0 and answer == 0
            assert (place is not None) == (answer in (PERIODS_WRONG, VOLUME_WRONG)), f"message {k + 1}: the sheet has a third number with 10 and 11 only"
            if place is not None:
                self.faults[k] = self.fault(answer, place, data)
            data = data[message_length(kind, data):]
        return closed, len(data)

    def fault(self, answer, place, data):
        """The sort and the words of what is wrong with the entry that the sheet names; it has to be wrong."""
        first, last, entries = days_and_entries(data)
        (period, kwh), before = entries[place], entries[place - 1][0] if place else 0
        highest = self.length(first) if first == last else 48
        if answer == VOLUME_WRONG:
            assert abs(kwh) > MOST_VOLUME, f"{kwh} kWh are in range"
            sort, words = "volume-out-of-range", f"{kwh} kWh, and the most is {MOST_VOLUME} either way"
        elif period == 0:
            sort, words = "period-0", "period 0, and the first is 1"
        elif period > highest:
            sort, words = ("too-high-on-a-day", f"period {period} on a day of {highest}") if first == last else (
                "too-high-over-days", f"period {period}, and over several days the last is {highest}")
        else:
            assert period <= before, f"period {period} is after period {before}"
            sort, words = "not-rising", f"period {period} after period {before}"
        return sort, f"entry {place + 1} of {len(entries)}: {words}"

    def length(self, day):
        return self.lengths[day - self.first]

    def closed_on(self, day):
        return min(max(self.closed - sum(self.lengths[: day - self.first]), 0), self.length(day))

    def bars(self, account, day):
        """(period, identifier, other account, standing, own MWh, other MWh) of each place that states something; None where a side does not."""
        found = []
        for originator, reference in self.identifiers:
            pair = self.pairs[originator]
            if account not in pair:
                continue
            own_side = 1 if account == pair[0] else 2
            for period in range(1, self.length(day) + 1):
                case, first, second = self.marks.get((originator, reference, account, day, period), (None, 0, 0))
                own_stands = self.rows[originator, reference, own_side, day][period - 1] != NOTHING
                standing, own, other = {
                    "agreed": ("agreed", first, first), "disagreed": ("disagreed", first, second) if own_side == 1 else ("disagreed", second, first),
                    "one side": ("this account only", first, None) if own_stands else ("the other only", None, first), None: (None, None, None)}[case]
                if standing:
                    found.append((period, f"{originator}/{reference}", pair[2 - own_side], standing, own, other))
        return sorted(found, key=lambda bar: bar[0])  # identifiers stay in the order of their slots


def message_length(kind, data):
    if kind == 1:
        bits = Bits(data)
        bits.take(86)
        return (92 + 34 * bits.take(6) + 7) // 8
    return 1 if kind == 0 else 4


def days_and_entries(data):
    """Of a packed notification: first day, last day, and (period, kWh) of each entry."""
    bits = Bits(data)
    bits.take(54)
    first, last, count = (bits.take(width) for width in (16, 16, 6))
    entries = [(bits.take(6), bits.take(28)) for _ in range(count)]
    return first, last, [(period, kwh - 2**28 if kwh >= 2**27 else kwh) for period, kwh in entries]


def number(bits):
    return struct.unpack(">d", bytes.fromhex(bits))[0]


def cut_short(story):
    """Its last message could not be read."""
    return bool(story.answers) and 19 <= story.answers[-1] <= 22


def is_zero(bar):
    return not bar[4] and not bar[5]


def missing(story):
    """What a story lacks, in one line; empty where every message was done."""
    refused = sum(0 < answer < 19 for answer in story.answers)
    parts = [f"{refused} of {len(story.answers)} messages REFUSED"] if refused else []
    if cut_short(story):
        parts += [f"from message {len(story.answers)} on UNREADABLE, {story.unread} bytes missing"]
    return "; ".join(parts)


def reason(story, k):
    """Why message k, from 0, was refused: the number with its words, or with the entry at fault."""
    answer = story.answers[k]
    return f"{answer}, {story.faults[k][1]}" if k in story.faults else f"{answer}: {WORDS[answer]}"


def refusals(story):
    """A line for each row of messages that have the same reason."""
    lines, k = [], 0
    while k < len(story.answers):
        answer, first, words = story.answers[k], k + 1, reason(story, k)
        while k < len(story.answers) and reason(story, k) == words:
            k += 1
        if answer >= 19:
            lines += [f"message {first} could not be read, by {words}"]
        elif answer:
            lines += [f"message {first} refused by {words}" if first == k else f"messages {first} to {k} refused by {words}"]
    return lines


def tally(story, bars, day):
    """Bars by (standing, where), where is zero, open or closed."""
    counts = {}
    for bar in bars:
        where = "zero" if is_zero(bar) else "closed" if bar[0] <= story.closed_on(day) else "open"
        counts[bar[3], where] = counts.get((bar[3], where), 0) + 1
    return lambda where, *standings: tuple(counts.get((standing, where), 0) for standing in standings)


NOT_AGREED = "disagreed", "this account only", "the other only"
STATUS = {"whole": 0, "incomplete": 1, "nothing": 2}


def status(story):
    """With which a program has to leave that shows what the story has."""
    return STATUS["nothing" if story.refusal else "incomplete" if missing(story) else "whole"]


# ---- the report

def report(story, account, day):
    if story.refusal:
        return [f"Nothing to show: setup refused by {story.refusal} ({WORDS[story.refusal]})"]
    sold, bought, net = story.figures[account, day]
    bars = story.bars(account, day)
    count = tally(story, bars, day)
    signed = lambda mwh: "nothing" if mwh is None else "0.000" if mwh == 0 else "%+.3f" % mwh  # noqa: E731
    unreadable = int(cut_short(story))
    done = story.answers.count(0)
    lines = [f"Account {account} on day {day} ({date_of(day)}): {story.length(day)} periods, {story.closed_on(day)} gates closed"]
    lines += [f"{len(story.answers)} messages: {done} done, {len(story.answers) - done - unreadable} refused, {unreadable} unreadable"]
    lines += [f"  {line}" for line in refusals(story)] + [f"INCOMPLETE: {line}" for line in [missing(story)] if line]
    lines += ["Sold %.3f MWh, bought %.3f MWh, net %.3f MWh; only agreed volumes count" % (sold, bought, net), ""]
    lines += [f"MWh, plus is sold by account {account}, minus is bought"]
    lines += ["period  gate    identifier  with  what stands         this account      the other"]
    lines += ["%6d  %-6s  %10s  %4d  %-17s  %13s  %13s" % (bar[0], "closed" if bar[0] <= story.closed_on(day) else "open", *bar[1:4], signed(bar[4]), signed(bar[5]))
              for bar in bars if not is_zero(bar)]
    lines += ["agreed: %d" % sum(count("open", "agreed") + count("closed", "agreed"))]
    lines += ["not agreed yet, gate open: %d disagreed, %d this account only, %d the other only" % count("open", *NOT_AGREED)]
    lines += ["never agreed, gate closed: %d disagreed, %d this account only, %d the other only" % count("closed", *NOT_AGREED)]
    lines += ["at zero, not listed: %d agreed, %d this account only, %d the other only" % count("zero", "agreed", *NOT_AGREED[1:])]
    return lines + ["INCOMPLETE: messages are missing in these figures, see above"] * bool(missing(story))


def date_of(day):
    date = datetime.date(2000, 1, 1) + datetime.timedelta(days=day)
    return f"{date:%A} {date.day} {date:%B} {date.year}"


# ---- the picture

COLUMNS_START, COLUMN, SMALLEST, TOLERANCE = 92, 16, 2, 0.05
LOOKS = {"agreed": "agreed", "disagreed": "disagreed", "this account only": "own", "the other only": "other"}


def expected_figures(bars):
    """(period, look, half) with MWh: a bar has one figure over both halves, a disagreed one this account's left and the other's right."""
    for period, _, _, standing, own, other in bars:
        if standing == "disagreed":
            yield (period, LOOKS[standing], "left"), own
            yield (period, LOOKS[standing], "right"), other
        else:
            yield (period, LOOKS[standing], "both"), other if own is None else own


def check_heights(key, expected, drawn, pixels):
    """The MWh of a part of a period against its rectangles, (MWh, how many volumes it is, height): each volume has its own and as high as it is, but for
    those that would be less than SMALLEST, which are one rectangle of their sum; nothing is less than SMALLEST."""
    for mwh, _, height in drawn:
        size = max(SMALLEST, abs(mwh) * pixels)
        assert abs(height - (size if mwh > 0 else -size)) < TOLERANCE, f"{key}: {mwh} MWh drawn {height} high"
    for direction in 1, -1:
        left = sorted(mwh for mwh in expected if mwh * direction > 0)
        together = [one for one in drawn if one[1] > 1 and one[0] * direction > 0]
        for mwh, count, _ in drawn:
            if mwh * direction > 0 and count == 1:
                assert mwh in left, f"{key}: {mwh} MWh drawn, which nobody says"
                left.remove(mwh)
        assert all(abs(mwh) * pixels < SMALLEST + TOLERANCE for mwh in left), f"{key}: {left} MWh not drawn apart"
        assert len(together) <= 1 and sum(one[1] for one in together) == len(left), f"{key}: {left} MWh left, and drawn together {together}"
        assert not together or abs(sum(left) - together[0][0]) < 0.0005, f"{key}: {left} MWh drawn together as {together}"


def drawn_figures(tree, axis):
    """((period, look, half), (MWh and number of volumes by the title, height), (top, bottom)) of each rectangle."""
    for rectangle in tree.iter("rect"):
        title = rectangle.find("title")
        if title is None:
            continue
        x, y, width, height = (float(rectangle.get(name)) for name in ("x", "y", "width", "height"))
        period, inside = divmod(x - COLUMNS_START, COLUMN)
        half = {(2, 12): "both", (2, 6): "left", (8, 6): "right"}[inside, width]
        assert y + height <= axis + TOLERANCE or y >= axis - TOLERANCE, "a bar is on one side of the line"
        *_, direction, mwh, _ = title.text.split()
        assert title.text.startswith(f"period {int(period) + 1}, "), f"a title of another period: {title.text}"
        count = int(title.text.split()[2]) if "volumes too small" in title.text else 1
        yield (int(period) + 1, rectangle.get("class"), half), ({"sold": 1, "bought": -1}[direction] * float(mwh), count, height if y < axis else -height), (y, y + height)


def drawn_zeros(tree, bottom):
    """Zeros are rings in three rows under all bars, so that none is taken for a volume."""
    rows = {"agreed": 0, "own": 1, "other": 1, "disagreed": 2}
    for ring in tree.iter("circle"):
        x, y, radius = (float(ring.get(name)) for name in ("cx", "cy", "r"))
        look = ring.get("class").removeprefix("zero-")
        assert y - radius > bottom and abs(y - (bottom + 11 + 11 * rows[look])) < TOLERANCE, f"a zero at {y}, and the bars end at {bottom}"
        period, inside = divmod(x - COLUMNS_START, COLUMN)
        side = "left" if inside < 8 else "right" if inside > 8 else "middle"
        assert (look, side) in (("agreed", "middle"), ("own", "left"), ("other", "right"), ("disagreed", "left"), ("disagreed", "right")), "a zero beside its place"
        yield (int(period) + 1, look, side if look == "disagreed" else "both")


def scale_of(tree, axis):
    """Pixels a MWh, from the ticks; they are even, and as far apart as 1, 2 or 5 with noughts."""
    lines = [float(line.get("y1")) for line in tree.iter("line") if line.get("class") == "tick"]
    labels = [float(text.text.replace(",", "")) for text in tree.iter("text") if text.get("class") == "scale"]
    assert len(lines) == len(labels) >= 3, "each tick has its label"
    top = max(labels)
    pixels = (axis - lines[labels.index(top)]) / top
    assert all(abs(axis - y - mwh * pixels) < TOLERANCE for y, mwh in zip(lines, labels)), "ticks stand where their labels say"
    assert sorted(labels) == sorted(-mwh for mwh in labels), "the scale is the same up and down"
    step = min(mwh for mwh in labels if mwh > 0)
    assert f"{step * 1000:.0f}".rstrip("0") in ("1", "2", "5"), f"a step of {step}"
    return pixels


def check_stacks(drawn, axis, half_height):
    """In each half of a period the bars stand on each other from the line on: agreed ones first, no gap and no overlap."""
    order = ["agreed", "own", "other", "disagreed"]
    stacks = {}
    for (period, look, half), (_, _, signed), span in drawn:
        for one in ("left", "right") if half == "both" else (half,):
            stacks.setdefault((period, one, signed > 0), []).append((abs(axis - (span[1] if signed > 0 else span[0])), abs(signed), order.index(look)))
    for place, bars in stacks.items():
        reached = latest = 0
        for start, height, rank in sorted(bars):
            assert abs(start - reached) < TOLERANCE and rank >= latest, f"the stack of {place}"
            reached, latest = start + height, rank
        assert reached <= half_height + TOLERANCE, f"the stack of {place} leaves the picture"


def check_words(tree, story, account, day, bars):
    texts = [text.text for text in tree.iter("text")]
    count = tally(story, bars, day)
    assert f"Account {account} on day {day} ({date_of(day)})" in texts, "title"
    assert "sold %.3f MWh, bought %.3f MWh, net %.3f MWh" % tuple(story.figures[account, day]) in texts, "day figures"
    for words, where in ("not agreed yet (gate open)", "open"), ("never agreed (gate closed)", "closed"):
        assert words + ": %d disagreed, %d said by this account only, %d said by the other only" % count(where, *NOT_AGREED) in texts, words
    periods = {int(t.text): float(t.get("x")) for t in tree.iter("text") if t.get("class") == "period"}
    assert periods == {p: COLUMNS_START + COLUMN * (p - 0.5) for p in range(1, story.length(day) + 1)}, "period numbers under their columns"
    closed = [int(r.get("width")) for r in tree.iter("rect") if r.get("class") == "closed" and r.get("height") != "14"]
    assert closed == [COLUMN * story.closed_on(day)] * (story.closed_on(day) > 0), "closed gates"
    assert ("Nothing stands for this account on this day." in texts) == (not bars), "nothing stands"


def check_missing(tree, story, top_of_bars):
    """A red box above everything says how many messages are missing, and which; more than four rows of them are listed whole under the bars."""
    boxes = [box for box in tree.iter("rect") if box.get("class") == "missing"]
    heads = [text for text in tree.iter("text") if text.text.startswith("INCOMPLETE")]
    listed = [(text.text, float(text.get("y"))) for text in tree.iter("text") if text.get("class") == "refusal"]
    lines = refusals(story)
    if not lines:
        assert not boxes and not heads and not listed, "nothing is missing, and the picture says so"
        return
    assert [head.text for head in heads] == [f"INCOMPLETE: {missing(story)}"], "how many messages are missing"
    top, height = float(boxes[0].get("y")), float(boxes[0].get("height"))
    above = [line for line, y in listed if top < y < top + height]
    below = [line for line, y in listed if y > top_of_bars]
    assert top < float(heads[0].get("y")) < top + height < top_of_bars, "the box is above the bars"
    assert above == (lines if len(lines) <= 4 else lines[:3]) and below == (lines if len(lines) > 4 else []), "which messages are missing"
    assert all(y < float(tree.get("height")) for _, y in listed), "a line is outside the picture"


def read_picture(path):
    tree = xml.etree.ElementTree.parse(path).getroot()
    for element in tree.iter():
        element.tag = element.tag.replace("{http://www.w3.org/2000/svg}", "")
    return tree


def check_picture(story, account, day, path):
    tree = read_picture(path)
    if story.refusal:
        assert [text.text for text in tree.iter("text")] == ["Nothing to draw", report(story, None, None)[0].removeprefix("Nothing to show: ")], "a refused setup"
        assert not list(tree.iter("line")), "a refused setup has bars"
        print("refused-setup")
        return
    axis = next(float(line.get("y1")) for line in tree.iter("line") if line.get("class") == "axis")
    bottom = next(float(text.get("y")) for text in tree.iter("text") if text.get("class") == "period") - 52
    pixels, bars = scale_of(tree, axis), story.bars(account, day)
    drawn, expected = list(drawn_figures(tree, axis)), list(expected_figures(bars))
    volumes, zeros = [figure for figure in expected if figure[1]], sorted(key for key, mwh in expected if not mwh)
    for key in {key for key, *_ in drawn} | {key for key, _ in volumes}:
        check_heights(key, [mwh for one, mwh in volumes if one == key], [figure for one, figure, _ in drawn if one == key], pixels)
    assert sorted(drawn_zeros(tree, bottom)) == zeros, "zeros"
    check_stacks(drawn, axis, bottom - axis)
    check_words(tree, story, account, day, bars)
    check_missing(tree, story, 2 * axis - bottom)
    print(f"periods-{story.length(day)}", *sorted({bar[3].replace(" ", "-") for bar in bars}), *met_besides(story, day, bars, expected, any(figure[1] > 1 for _, figure, _ in drawn)))


def met_besides(story, day, bars, expected, drawn_together):
    sizes = [abs(mwh) for _, mwh in expected if mwh]
    places = [key[0] for key, mwh in expected if mwh and key[2] == "both"]
    count = tally(story, bars, day)
    met = {"empty": not expected, "stacked": len(places) > len(set(places)), "closed": story.closed_on(day) > 0, "never-agreed": any(count("closed", *NOT_AGREED)),
           "large-and-small": bool(sizes) and max(sizes) > 1000 * min(sizes), "cut-short": cut_short(story), "refused": bool(refusals(story)),
           "many-refused": len(refusals(story)) > 4, "zero": any(not mwh for _, mwh in expected),
           "together": drawn_together,
           "zero-and-not": any(bar[3] == "disagreed" and 0 in bar[4:] for bar in bars),
           "same-fault-again": any(line.startswith("messages") and ", entry " in line for line in refusals(story)),
           "another-fault-of-one-number": any(story.answers[k] == story.answers[k - 1] and reason(story, k) != reason(story, k - 1) for k in story.faults if k > 0)}
    return [word for word, holds in met.items() if holds] + sorted({sort for sort, _ in story.faults.values()})


# ---- the bars as text

def text_line(label, mwh, most, words):
    bar = "#" * int(10 * abs(mwh) / most + 0.5) or "." * (mwh != 0)
    left, right = (bar, "") if mwh < 0 else ("", bar)
    figure = f"{mwh:+.3f}" if mwh else " 0.000"
    return f"{label:17}  {left:>10}|{right:10}  {figure} MWh, {words}"


def text(story, account, day):
    """What text_bars has to show: both figures of a disagreement."""
    bars = [bar for bar in story.bars(account, day) if not is_zero(bar)]
    most = max([abs(mwh) for bar in bars for mwh in bar[4:] if mwh], default=1)
    lines = [f"  {line}" for line in refusals(story)] + [f"INCOMPLETE: {line}" for line in [missing(story)] if line]
    lines += ["%-19s%10s|%s" % (f"account {account}, day {day}", "bought ", " sold")]
    for period, name, _, standing, own, other in bars:
        label = f"period {period:2} {name:>7}"
        when = "never agreed: gate closed" if period <= story.closed_on(day) else "not agreed yet"
        if standing == "disagreed":
            lines += [text_line(label, own, most, f"this account, DISAGREED, {when}"), text_line("", other, most, "the other")]
        else:
            lines += [text_line(label, other if own is None else own, most, standing if standing == "agreed" else f"{standing}, {when}")]
    return lines + ["no volume stands for this account on this day"] * (not bars)


# ---- the feedback table

def feedback_place(story, name, day, period, volumes):
    words = ["nothing" if kwh == NOTHING else str(kwh) for kwh in volumes]
    when = "never agreed: gate closed" if period <= story.closed_on(day) else "not agreed yet"
    standing = "matched" if volumes[0] == volumes[1] else f"ONE SIDE, side {volumes.index(NOTHING) + 1} says nothing, {when}" if NOTHING in volumes else (
        f"DIFFERENT by {volumes[0] - volumes[1]}, {when}")
    return standing, "%10d  %9d  %5d  %6d  %11s  %11s  %s" % (*name, day, period, *words, standing)


def pair_head(pair):
    return f"\nFirst party (side 1): account {pair[0]}; second party (side 2): account {pair[1]}; kWh, plus where account {pair[0]} sells"


def feedback_pair(story, pair):
    """Its lines, and its numbers: matched kWh, identifiers, places matched, of them zero, different, one side, and of these two with a closed gate."""
    names = [name for name in story.identifiers if story.pairs[name[0]] == pair]
    lines = [pair_head(pair), "originator  reference    day  period       side 1       side 2  standing"]
    numbers = [0, len(names), 0, 0, 0, 0, 0]
    for name in names:
        for day in range(story.first, story.first + story.days):
            for period, volumes in enumerate(zip(story.rows[name + (1, day)], story.rows[name + (2, day)]), 1):
                if volumes == (NOTHING, NOTHING):
                    continue
                standing, line = feedback_place(story, name, day, period, volumes)
                matched = standing == "matched"
                numbers[0] += volumes[0] if matched else 0
                for k, holds in enumerate((matched, matched and volumes[0] == 0, standing[0] == "D", standing[0] == "O", "never" in standing), 2):
                    numbers[k] += holds
                lines += [line] * (volumes != (0, 0))
    lines += ["accounts %d and %d: matched %d kWh; identifiers %d, places matched %d (%d of them zero), different %d, one side %d" % (*pair, *numbers[:6])]
    return lines, numbers


def feedback_head(story):
    lines = [f"Days {story.first} to {story.first + story.days - 1}, {story.accounts} accounts, {len(story.answers)} messages"]
    return lines + [f"  {line}" for line in refusals(story)] + [f"INCOMPLETE: {line}" for line in [missing(story)] if line]


def feedback_end(story):
    return ["INCOMPLETE: messages are missing in these figures, see above"] * bool(missing(story))


def feedback(story):
    """The table, and whether every place matches."""
    if story.refusal:
        return report(story, None, None), False
    lines = feedback_head(story)
    totals, pairs = [0] * 7, sorted({story.pairs[name[0]] for name in story.identifiers})
    for pair in pairs:
        pair_lines, numbers = feedback_pair(story, pair)
        lines += pair_lines
        totals = [a + b for a, b in zip(totals, numbers)]
    lines += ["\nin all: pairs %d, identifiers %d, places matched %d (%d of them zero and not listed), different %d, one side %d" % (len(pairs), *totals[1:6])]
    unmatched, never = totals[4] + totals[5], totals[6]
    lines += ["Nothing stands: no identifier is held." if not totals[1] else "Nothing to ask the other side about." if not unmatched else
              f"Only matched places count. Not agreed yet, to be cleared: {unmatched - never}; never agreed, gate closed: {never}"]
    return lines + feedback_end(story), not unmatched


# ---- our book against the feedback

def stated_by_us(story):
    return {name + (side, day, period): kwh for (*name, side, day), row in story.rows.items() for name in [tuple(name)]
            for period, kwh in enumerate(row, 1) if kwh != NOTHING}


def stated_by_them(path):
    places = {}
    with open(path) as file:
        for line in file:
            if line.strip() and not line.startswith("#"):
                name, *numbers, kwh = line.split()
                places[tuple(map(int, name.split("/") + numbers))] = int(kwh)
    return places


def against_ranges(places, ours, theirs):
    """[first place, last period, our volumes, their volumes] of periods in a row with the same difference; a volume is None where nothing stands."""
    ranges = []
    for place in sorted(places):
        pair = ours.get(place), theirs.get(place)
        if pair[0] == pair[1]:
            continue
        difference = pair if None in pair else pair[0] - pair[1]
        if ranges and ranges[-1][0][:4] == place[:4] and ranges[-1][1] == place[4] - 1 and ranges[-1][4] == difference:
            ranges[-1][1] = place[4]
            ranges[-1][2].add(pair[0])
            ranges[-1][3].add(pair[1])
        else:
            ranges.append([place, place[4], {pair[0]}, {pair[1]}, difference])
    return ranges


def against_line(place, last, ours, theirs, difference):
    words = "OUR BOOK ONLY" if theirs == {None} else "FEEDBACK ONLY" if ours == {None} else (
        f"DIFFERENT, our book has {abs(difference)} {'less' if difference < 0 else 'more'}")
    volume = lambda volumes: "various" if len(volumes) > 1 else "nothing" if volumes == {None} else str(*volumes)  # noqa: E731
    periods = str(last) if last == place[4] else f"{place[4]} to {last}"
    return "%10s  %4d  %5d  %8s  %11s  %11s  %s" % (f"{place[0]}/{place[1]}", place[2], place[3], periods, volume(ours), volume(theirs), words)


def against(story, path):
    """The lines, and whether our book has what the feedback has."""
    ours, theirs = stated_by_us(story), stated_by_them(path)
    lines, totals = feedback_head(story), [0] * 4
    pair_of = lambda place: story.pairs[place[0]] if place[0] < len(story.pairs) else (64, 64)  # noqa: E731
    for pair in sorted({pair_of(place) for place in ours | theirs}):
        places = [place for place in ours | theirs if pair_of(place) == pair]
        both = [(ours.get(place), theirs.get(place)) for place in places]
        numbers = [sum(a == b for a, b in both), sum(None not in (a, b) and a != b for a, b in both), sum(b is None for _, b in both), sum(a is None for a, _ in both)]
        lines += ["\nOf no authorisation that our book has" if pair == (64, 64) else pair_head(pair)]
        lines += ["identifier  side    day   periods     our book     feedback  what differs"]
        lines += [against_line(*one) for one in against_ranges(places, ours, theirs)]
        lines += [("no authorisation" if pair == (64, 64) else "accounts %d and %d" % pair) + AGAINST_COUNTS % tuple(numbers)]
        totals = [a + b for a, b in zip(totals, numbers)]
    same = totals[1:] == [0, 0, 0]
    lines += ["\nin all" + AGAINST_COUNTS % tuple(totals), "Our book has what the feedback has." if same else "To be cleared with the central agent."]
    return lines + feedback_end(story), same


AGAINST_COUNTS = ": places alike %d, different %d, our book only %d, feedback only %d"


# ---- the program

def hold_text(path, expected):
    with open(path) as file:
        found = file.read().split("\n")
    for k, (line, other) in enumerate(itertools.zip_longest("\n".join(expected + [""]).split("\n"), found), 1):
        assert line == other, f"line {k}:\n  {line}\n  was expected, and there is\n  {other}"


def hold_status(path, expected):
    with open(path) as file:
        found = int(file.read())
    assert found == expected, f"it left with {found}, and {expected} was expected"


def hold_one(story, folder, name):
    """NAME is feedback, or ACCOUNT_DAY; beside each stands the status with which its program left."""
    if name == "feedback":
        lines, settled = feedback(story)
        hold_text(f"{folder}/feedback", lines)
        hold_status(f"{folder}/feedback.status", max(status(story), 0 if settled or story.refusal else 1))
        return
    account, day = map(int, name.split("_"))
    hold_text(f"{folder}/{name}.report", report(story, account, day))
    hold_status(f"{folder}/{name}.status", status(story))
    check_picture(story, account, day, f"{folder}/{name}.svg")


def hold(story, folder):
    names = [name[:-4] for name in sorted(os.listdir(folder)) if name.endswith(".svg")]
    for name in ["feedback"] + names:
        try:
            hold_one(story, folder, name)
        except AssertionError as why:
            sys.exit(f"{name}: {why}")


def main(job, story_path, sheet_path, *rest):
    story = Story(story_path, sheet_path)
    if job == "hold":
        hold(story, rest[0])
        return
    lines = {"report": lambda: report(story, int(rest[0]), int(rest[1])), "text": lambda: text(story, int(rest[0]), int(rest[1])),
             "feedback": lambda: feedback(story)[0], "against": lambda: against(story, rest[0])[0]}[job]()
    print("\n".join(lines))


if __name__ == "__main__":
    if len(sys.argv) < 4 or sys.argv[1] not in ("hold", "report", "text", "feedback", "against"):
        sys.exit(__doc__) if sys.argv[1:] != ["--help"] else print(__doc__, end="")
    else:
        main(*sys.argv[1:])
