#!/usr/bin/env python3
"""What the program calendar_cases must print, worked by Python's own calendar and fractions.

Run from the repository's root; writes crates/calendar_cases/stdout.
"""
import calendar
import datetime
import math
from fractions import Fraction

FIRST = datetime.date(2000, 1, 1)
LAST = datetime.date(2099, 12, 31)
ONE_DAY = datetime.timedelta(1)


def date_of(year, month, day):
    try:
        return datetime.date(year, month, day) if 2000 <= year <= 2099 else None
    except ValueError:
        return None


def one_date(date):
    return f"{(date - FIRST).days} {date} {'none' if date == LAST else date + ONE_DAY}"


def dates():
    for number in range(0, 37 * 990, 37):
        yield one_date(FIRST + number * ONE_DAY) if number <= (LAST - FIRST).days else f"{number} none"


def lawful_days():
    for year in (1999, 2000, 2023, 2024, 2099, 2100):
        for month in range(14):
            for day in (0, 1, 28, 29, 30, 31, 32):
                date = date_of(year, month, day)
                if date is not None:
                    yield one_date(date)


def terms():
    for month, day in ((1, 31), (2, 1), (2, 29), (3, 1), (10, 1), (11, 30), (12, 31)):
        for year in (2023, 2024, 2099):
            for days in (0, 1, 28, 29, 31, 32, 61, 91, 92, 93):
                first = date_of(year, month, day)
                if first is None or not 1 <= days <= 92 or (LAST - first).days < days - 1:
                    yield f"{year} {month} {day} {days} fault 1"
                else:
                    yield from one_term([first + k * ONE_DAY for k in range(days)])


def one_term(term):
    yield f"{term[0]} {len(term)} {term[-1]} {24 * len(term)} {96 * len(term)}"
    for year, month in sorted({(date.year, date.month) for date in term}):
        whole = [datetime.date(year, month, k + 1) for k in range(calendar.monthrange(year, month)[1])]
        if all(date in term for date in whole):
            yield f"{year} {month} {term.index(whole[0])} {len(whole)}"
        else:
            yield f"{year} {month} none"
    hours = [k for k in range(len(term)) for _ in range(24)]
    intervals = [k for k in range(len(term)) for _ in range(96)]
    for place in (0, 23, 24, 95, 96, len(hours) - 1, len(hours), len(intervals) - 1, len(intervals)):
        for row in (hours, intervals):
            yield f"{row[place]} {term[row[place]]}" if place < len(row) else "none"


def quotients():
    top = 2**64 - 1
    pairs = [(a, b) for b in range(1, 13) for a in range(40)]
    pairs += [(a, b) for a in (top, top // 2, top // 2 + 1) for b in (1, 2, 1000, top)]
    for a, b in pairs:
        near = math.floor(Fraction(a, b) + Fraction(1, 2))
        below = math.floor(Fraction(-(a // 2), b) + Fraction(1, 2))
        yield f"{a} {b} {near} {math.ceil(Fraction(a, b))} {below}"


with open("crates/calendar_cases/stdout", "w") as f:
    for part in (dates, lawful_days, terms, quotients):
        f.writelines(line + "\n" for line in part())
