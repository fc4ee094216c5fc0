"""Refusal 11 held to counts of places that are not tracing's own. Limits far below 1,024 are tried too: nothing in
tracing depends on the number, and small batches then come near it.

If the answer is 11 at a place, the records show more places than the limit; the commands before that place need no more
than the limit, and those up to it more. Whatever else the answer is, the commands before its place need no more."""

from .. import census, kinds
from ..places import PLACES, trace
from ..refusal import TOO_MANY_PLACES, Refused
from .random_batches import any_readings, full_readings


def refused_at(options, reading, limit):
    """The refusal that reading and tracing give, None if they give none."""
    try:
        trace(options, reading, limit)
    except Refused as refused:
        return refused
    return None


def claims(records):
    """For each place that some command needs, that command's offset, and the steps to the place; in the order of
    commands. A sequence needs its element, a map its key and value, the first tuple at a place all its positions, a
    later one each position at the first command of its value; fields and variants are needed where they are named."""
    made, tuples = [], set()

    def claim(steps, value):
        for step in kinds.FIXED_STEPS.get(value.kind, ()):
            made.append((value.at, steps + (step,)))
        if value.kind == kinds.TUPLE and steps not in tuples:
            tuples.add(steps)
            made.extend((value.at, steps + (kinds.position(i),)) for i in range(value.positions))
        for part in value.parts:
            made.append((part.at, steps + (part.step,)))
            claim(steps + (part.step,), part.value)

    for record in records:
        claim((), record)
    return made


def claimed(made, inside):
    """How many places, the root among them, the commands at such offsets need."""
    return len({()} | {steps for at, steps in made if inside(at)})


def check_eleven(options, reading, limit):
    """Whether the answer is 11; what must hold if it is, and if it is not."""
    refused = refused_at(options, reading, limit)
    made = claims(reading.records)
    if refused is not None and refused.number == TOO_MANY_PLACES:
        assert census.places_of_batch(reading.records) > limit
        assert claimed(made, lambda at: at < refused.place) <= limit, (options, limit, refused)
        assert claimed(made, lambda at: at <= refused.place) > limit, (options, limit, refused)
        return True
    # whatever was read before a refusal had room
    end = refused.place if refused else float("inf")
    assert claimed(made, lambda at: at < end) <= limit, (options, limit, refused)
    return False


def check(count, seed=1):
    said = [check_eleven(options, reading, limit)
            for number, (options, reading) in enumerate(any_readings(seed, count))
            for limit in (number % 40 + 1, PLACES)]
    yield "batches and limits on places where 11 is said as counted apart", len(said)
    yield "of them got 11", sum(said)
    full = [check_eleven(options, reading, PLACES) for options, reading in full_readings()]
    yield "batches around 1,024 places where it is", len(full)
    yield "of them got 11", sum(full)
