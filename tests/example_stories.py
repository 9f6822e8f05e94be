"""example_stories.py NAME

A packed story of tests/examples on standard output, packed here by itself. Each is named after what happened to whom. All have one day 100 of 48
periods, but for the one about single entries and those that are to be held against the calendar; authorisation 0 has agents 7 and 9 for accounts 11, the
first party, and 22, the second, who is our client. Volumes are kWh, plus where the first party sells.
"""
import sys


def packed(*fields):
    bits = "".join(format(value % 2**width, f"0{width}b") for width, value in fields)
    bits += "0" * (-len(bits) % 8)
    return bytes(int(bits[k:k + 8], 2) for k in range(0, len(bits), 8))


def setup(first, *codes, account=11, last=65535):
    return packed((16, first), (4, len(codes)), (7, 23), (7, 1), *((2, code) for code in codes),
                  (8, 7), (8, 9), (6, account), (6, 22), (16, 500), (16, 0), (16, last), (2, 0))


def with_padding_bit(bytes_of_setup):
    return bytes_of_setup[:-1] + bytes([bytes_of_setup[-1] | 1])


SETUP = setup(100, 1)
GATE = packed((2, 0))


def listed(agent, reference, first, last, entries, key=500):
    fields = [field for period, kwh in entries for field in ((6, period), (28, kwh))]
    return packed((2, 1), (6, 0), (8, agent), (16, key), (6, 0), (16, reference), (16, first), (16, last), (6, len(entries)), *fields)


def said(agent, reference, volumes, key=500):
    return listed(agent, reference, 100, 100, sorted(volumes.items()), key)


def agreed(reference, volumes):
    return said(9, reference, volumes) + said(7, reference, volumes)


def fifty(**wrong):
    """Entries of periods 1 to 50, 1 MWh sold in each, but for those named: entry_3=(0, -1000) is the third."""
    return [wrong.get(f"entry_{period}", (period, -1000)) for period in range(1, 51)]


# Day 302 has 50 periods, those beside it 48. What each message is refused for is in the test of this story.
ENTRIES_AT_FAULT = [
    listed(9, 1, 302, 302, fifty()),
    listed(9, 1, 302, 302, fifty(entry_50=(51, -1000))),
    listed(9, 1, 302, 302, fifty(entry_1=(0, -1000))),
    listed(9, 1, 302, 302, fifty(entry_25=(0, -1000), entry_40=(0, -1000))),
    listed(9, 1, 302, 302, fifty(entry_2=(1, -1000))),
    listed(9, 1, 302, 302, fifty(entry_12=(50, -1000))),
    listed(9, 1, 301, 301, fifty()),
    listed(9, 1, 301, 303, fifty()),
    listed(9, 1, 302, 65535, fifty()),
    listed(9, 1, 302, 302, fifty(entry_7=(7, 100000000))),
    listed(9, 1, 302, 302, fifty(entry_1=(1, -134217728), entry_50=(50, 134217727))),
    listed(9, 1, 302, 302, fifty(entry_1=(1, 100000000), entry_50=(0, 5))),  # the period is refused first, wherever it is
    listed(9, 1, 302, 302, fifty(entry_3=(0, -1000)), key=501),
    listed(9, 1, 302, 302, [(60, 5)]) * 2 + listed(7, 2, 302, 302, [(60, 5)]),
    listed(9, 1, 302, 302, [(60, 5), (61, 5)]),
    listed(7, 1, 302, 302, fifty()),
]

STORIES = {
    # more contracts than the sheet program has slots for, and fewer than a book has
    "twenty_agreed_sales": SETUP + b"".join(agreed(reference, {35: -1000}) for reference in range(1, 21)),
    # the 257th finds every slot held
    "more_sales_than_a_book_holds": SETUP + b"".join(agreed(reference, {35: -1000}) for reference in range(1, 258)),
    "a_sale_confirmed_with_a_wrong_key": SETUP + said(9, 1, {35: -5000}) + said(7, 1, {35: -5000}, key=501),
    # more rows of refusals than the box above the bars has lines
    "a_day_of_refusals": SETUP + b"".join(said(9, k, {35: -1000}, key=501) * 3 + agreed(k, {35: -1000}) + said(9, k, {49: -1}) for k in range(1, 7)),
    # zero beside a volume: agreed, said by the client only, by the other only, and disagreed with it
    "zeros_beside_a_sale": SETUP + agreed(1, {35: -5000}) + agreed(2, {}) + said(9, 3, {}) + said(7, 4, {}) + said(9, 5, {35: -2000}) + said(7, 5, {}),
    # periods 1 and 2 are closed before the two agree, 40 and 41 are open
    "two_periods_closed_before_they_agreed": SETUP + said(9, 1, {1: -1000, 2: -1000, 40: -1000, 41: -1000}) + said(7, 1, {1: -1500, 40: -1500, 41: -1000})
    + said(9, 2, {1: -700, 41: -700}) + said(7, 3, {2: -300}) + GATE * 2,
    "a_day_of_refusals_and_a_cut_end": SETUP + (said(9, 1, {35: -1000}, key=501) + said(9, 1, {49: -1})) * 500 + said(9, 1, {35: -1000})[:-1],
    "nothing_said": SETUP,
    "a_client_refused_for_one_entry_after_the_other": setup(301, 1, 2, 1) + b"".join(ENTRIES_AT_FAULT),
}

# Setups for the calendar: days 85 and 302 are the first short and the first long one, day 36524 is the last. (Setups of 4 and of 8 days have no padding.)
SETUPS = {
    "the_week_of_the_first_short_day": setup(81, 1, 1, 1, 1, 0, 1, 1, 1),
    "october_sunday_typed_as_a_plain_day": setup(301, 1, 1, 1),
    "october_sunday_typed_as_a_short_day": setup(301, 1, 0, 1),
    "saturday_typed_as_the_long_day": setup(301, 2, 1, 1),
    "october_sunday_typed_as_a_plain_day_and_a_padding_bit": with_padding_bit(setup(301, 1, 1, 1)),
    "a_padding_bit_alone": with_padding_bit(setup(301, 1, 2, 1)),
    "the_last_day_of_2099": setup(36524, 1),
    "a_book_that_goes_on_after_2099": setup(36523, 1, 1, 1),
    "a_book_that_goes_on_after_2099_from_a_wrong_code_on": setup(36523, 0, 1, 1),
    "a_book_that_goes_on_after_2099_and_a_padding_bit": with_padding_bit(setup(36523, 1, 1, 1)),
    "a_book_of_2179": setup(65534, 1),
    "an_authorisation_that_ends_after_2099": setup(301, 1, 2, last=50000),
    "a_day_of_code_3": setup(301, 1, 3, 1),
    "a_book_of_nine_days": setup(301, 1, 1, 1, 1, 1, 1, 1, 1, 1),
    "an_account_that_trades_with_itself_in_october": setup(301, 1, 1, account=22),
    "an_october_setup_that_is_cut": setup(301, 1, 1)[:-1],
}
STORIES.update(SETUPS)

if __name__ == "__main__":
    if sys.argv[1:] == ["--help"]:
        print(__doc__ + "NAME is one of: " + ", ".join(STORIES))
    elif len(sys.argv) != 2 or sys.argv[1] not in STORIES:
        sys.exit(__doc__ + "NAME is one of: " + ", ".join(STORIES))
    else:
        sys.stdout.buffer.write(STORIES[sys.argv[1]])
        sys.stdout.flush()
