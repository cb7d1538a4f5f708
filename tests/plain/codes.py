"""Plain readers of the small formats: codes, numbers, days, references and accounts (docs/RULES.md)."""

import calendar
import re

DECIMALS = {b"CHF": 2, b"EUR": 2, b"GBP": 2, b"JPY": 0, b"KWD": 3, b"USD": 2}


def expected_check_digit(body):
    """The check digit of the first eleven characters of an ISIN."""
    digits = [int(digit) for character in body.decode() for digit in str(int(character, 36))]
    total = 0
    for place, digit in enumerate(digits):
        to_its_right = len(digits) - 1 - place
        product = digit * (2 if to_its_right % 2 == 0 else 1)
        total += sum(int(written) for written in str(product))
    return (10 - total % 10) % 10


def isin_fault(text):
    """The fault of a text that should be an ISIN; None for a valid one."""
    if len(text) != 12:
        return "length"
    if not re.fullmatch(rb"[A-Z]{2}", text[:2]):
        return "prefix"
    if not re.fullmatch(rb"[A-Z0-9]{9}", text[2:11]):
        return "body"
    digit = expected_check_digit(text[:11])
    return None if text[11:] == b"%d" % digit else f"check {digit}"


def read_isin(text):
    """An ISIN; None for any other text."""
    return text if isin_fault(text) is None else None


def read_bic(text):
    """A BIC in its one spelling, a head office without XXX; None for any other text."""
    if not re.fullmatch(rb"[A-Z0-9]{4}[A-Z]{2}[A-Z0-9]{2}([A-Z0-9]{3})?", text):
        return None
    return text[:8] if text[8:] == b"XXX" else text


def read_currency(text):
    """A currency; None for any other text."""
    return text if text in DECIMALS else None


def read_number(text, decimals):
    """The value of a number in minor units; None for a text that is no number or has the value 0."""
    if len(text) > 15 or not re.fullmatch(rb"[0-9]+,[0-9]*", text):
        return None
    whole, fraction = text.split(b",")
    if fraction[decimals:].strip(b"0"):
        return None
    value = int(whole + fraction[:decimals].ljust(decimals, b"0"))
    return value or None


def write_number(value, decimals):
    """The shortest text that spells a value."""
    digits = str(value).rjust(decimals + 1, "0")
    cut = len(digits) - decimals
    return (digits[:cut] + "," + digits[cut:].rstrip("0")).encode()


def read_day(text):
    """The eight digits of a date that exists; None for any other text."""
    if not re.fullmatch(rb"[0-9]{8}", text):
        return None
    year, month, day = int(text[:4]), int(text[4:6]), int(text[6:])
    if not 1 <= month <= 12:
        return None
    # the years 0000 and 2000 have the same months, and a calendar that repeats after 400 years knows no year 0
    last = calendar.monthrange(year % 400 + 2000, month)[1]
    return text if 1 <= day <= last else None


def read_reference(text):
    """A reference; None for any other text."""
    if not re.fullmatch(rb"[\x20-\x7e]{1,16}", text):
        return None
    if text.startswith(b"/") or text.endswith(b"/") or b"//" in text:
        return None
    return text


def read_account(text):
    """An account; None for any other text."""
    return text if re.fullmatch(rb"[\x20-\x7e]{1,35}", text) else None
