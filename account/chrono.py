"""Document 01, "Date texts": which texts are dates, times and datetimes, and the type that a text observes."""

import re

from . import datatype as t

# "optional sign, digits, -, one or two digits, -, one or two digits"; digits are ASCII
DATE = rb"[+-]?[0-9]+-[0-9]{1,2}-[0-9]{1,2}"
# "one or two digits three times with colons, then optionally a dot and digits"
TIME = rb"[0-9]{1,2}:[0-9]{1,2}:[0-9]{1,2}(\.[0-9]+)?"
# "one of Z z +0000 -0000 +00:00 -00:00"
ZONE = rb"(Z|z|[+-]0000|[+-]00:00)"

# "The whole text is tried as naive datetime (date, T, time), UTC datetime (date, T or blank, time, then [a zone]),
# time, date; the first fit wins. No range is tested."
FORMS = [
    (re.compile(DATE + rb"T" + TIME), t.NAIVE_TIMESTAMP),
    (re.compile(DATE + rb"[T ]" + TIME + ZONE), t.UTC_TIMESTAMP),
    (re.compile(TIME), t.TIME64),
    (re.compile(DATE), t.DATE32),
]


def text_type(options, text):
    """What a text observes: "Timestamp(ms), Timestamp(ms, UTC), Time64(ns), Date32, else the string type"."""
    if options.guess_dates():
        for form, type_ in FORMS:
            if form.fullmatch(text):
                return type_
    return options.string_type()
