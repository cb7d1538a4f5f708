"""Codes of the scripts that are played, each by number: ISINs, BICs, safekeeping accounts, references and days."""

import functools

# each month has so many days here, so that each is a day of the calendar; and the year of the first one
DAYS, MONTHS, YEAR = 28, 12, 2024


def check_digit(body):
    """The last digit of an ISIN (ISO 6166, annex A)."""
    digits = "".join(str(int(c, 36)) for c in body)
    total = 0
    for place, digit in enumerate(reversed(digits)):
        product = int(digit) * (2 if place % 2 == 0 else 1)
        total += product // 10 + product % 10
    return (10 - total % 10) % 10


@functools.cache
def isin(number):
    body = f"DE{number:09d}"
    return f"{body}{check_digit(body)}"


@functools.cache
def bic(number):
    return "".join(chr(65 + number // 26**place % 26) for place in (3, 2, 1, 0)) + "DEFF"


def account(number):
    return f"SAFE-{number:06d}"


def reference(number):
    return f"T24-{number:09d}"


def day(number):
    """The first one is the first of January."""
    months, days = divmod(number, DAYS)
    years, months = divmod(months, MONTHS)
    return f"{YEAR + years}{months + 1:02d}{days + 1:02d}"
