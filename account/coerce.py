"""Document 01, "Places": the joint of two primitive types that meet at a place, with the editions of document 02's 4/14; and whether
they differ (1/14)."""

from . import datatype as t


def joint(options, first, second):
    """The type that two types give, None where they have no joint (refusal 10). Of the string types a batch shows only
    the options' own."""
    if second == t.NULL or second == first:     # "equal types stay"; "Null with a type gives that type, nullable"
        return first
    if first == t.NULL:
        return second
    pair = {first, second}
    if options.edition_2() and pair & t.INTEGERS and pair & t.FLOATS:
        return None                             # "integers and floats have no joint even with coerce_numbers"
    if options.coerce_numbers() and pair <= t.NUMBERS:
        return joint_of_numbers(pair)
    if options.allow_to_string() and pair & t.STRINGS and pair & (t.NUMBERS | {t.BOOLEAN}):
        return options.string_type()            # "string with bool or number gives string"
    if pair & t.TIMESTAMPS and pair <= t.TIMESTAMPS | t.STRINGS:
        return options.string_type()            # "timestamp with string, or timestamps of unequal zones, give string"
    return None


def differ(first, second):
    """"The pairing of two types must report whether they differed" (document 02, 1/14). Null differs from nothing: the mark is of "two
    different non-null primitive types"."""
    return first != second and t.NULL not in (first, second)


def joint_of_numbers(pair):
    """With coerce_numbers, "unequal number types give Float64 if either is a float, else Int64 if either is signed,
    else UInt64"."""
    if pair & t.FLOATS:
        return t.FLOAT64
    if pair & t.SIGNED:
        return t.INT64
    return t.UINT64
