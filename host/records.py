#!/usr/bin/env python3
"""Makes records for the lists, the same for the same seed: host/records.py [--valid | --closed] SEED COUNT > records.

Mixed records of all kinds, about 15 in 100 of them to be refused, by every refusal that a whole record can get; with
--valid none. With --closed half of them are of closed schedules, which alone have an outline. Every record is whole, so
a list of them never stops before its end.
"""
import functools
import random
import sys

import oracle
import packing

REFUSED_SHARE = 0.15
CLOSED_SHARE = 0.5
TOP = 2**64 - 1
WIDTH = oracle.forms(oracle.LARGEST, oracle.LARGEST).bit_length()  # of the largest count


def counts(rng):
    """Allowed counts; the ends more often than by chance."""
    end = rng.random()
    if end < 0.01:
        return (0, 0)
    if end < 0.04:
        return (oracle.LARGEST, oracle.LARGEST)
    t = rng.randrange(oracle.LARGEST + 1)
    return (t, 0) if end < 0.06 else (t, rng.randrange(t + 1))


def number(rng, t, s):
    """A number below N(t, s): from the whole range, from the small ones of each length, or of the two at each end."""
    top = oracle.forms(t, s) - 1
    how = rng.random()
    if how < 0.04:
        return rng.choice((0, min(1, top), max(0, top - 1), top))
    return min(top, rng.getrandbits(rng.randrange(1, WIDTH + 1))) if how < 0.2 else rng.randrange(top + 1)


def numbered(rng, t, s, n):
    """A record that holds a number: half of them of kind 1, and half of kind 3."""
    return packing.numbered(t, s, n, rng.choice(packing.HOLDING))


def valid(rng):
    """A record that is accepted: half of them hold a number, and half the beats."""
    return record_of(rng, *counts(rng))


def closed(rng):
    """The same of a closed schedule."""
    t = rng.randrange(oracle.LARGEST + 1)
    return record_of(rng, t, t)


def record_of(rng, t, s):
    """A record of a form of these counts."""
    n = number(rng, t, s)
    return numbered(rng, t, s, n) if rng.random() < 0.5 else packing.packed(t, s, oracle.form_of(t, s, n))


def noise(rng, length):
    return rng.getrandbits(8 * length).to_bytes(length, "little") if length else b""


def number_too_large(rng):
    t, s = counts(rng)
    n = oracle.forms(t, s)
    return numbered(rng, t, s, rng.choice((n, n + 1, rng.randrange(n, TOP + 1), n | 1 << 63, TOP)))


def nothing_in_hand(rng):
    """A form whose beats from a place on are turned, or beats thrown at random."""
    t, s = counts(rng)
    beats = oracle.form_of(t, s, number(rng, t, s))
    if rng.random() < 0.5:
        turned = rng.randrange(t + s + 1)
        return packing.packed(t, s, beats[:turned] + [1 - b for b in beats[turned:]])
    rng.shuffle(beats)
    return packing.packed(t, s, beats)


def ones_not_t(rng):
    """A form of as many beats with other ones, by any surplus that can occur."""
    t, s = counts(rng)
    more = rng.choice(oracle.surpluses(t, s) or [0])
    return packing.packed(t, s, oracle.form_of(t + more, s - more, number(rng, t + more, s - more)))


def unused_bits(rng):
    t, s = counts(rng)
    unused = -(t + s) % 8
    whole = packing.packed(t, s, oracle.form_of(t, s, number(rng, t, s)))
    return whole[:-1] + bytes([whole[-1] | rng.randrange(1, 1 << unused)]) if unused else whole


def wrong_length(rng):
    """A valid record's bytes, cut or drawn out, after the length that they then have."""
    body = valid(rng)[2:]
    length = rng.choice((2, 3, 4, 11, 13, len(body) - 1, len(body) + 1, rng.randrange(2, 41)))
    return packing.framed((body + noise(rng, max(0, length - len(body))))[:length])


def long(rng):
    """A length far too large, with its bytes there; its kind, too, may be unknown."""
    kind = rng.choice((*packing.KINDS, 4)).to_bytes(2, "little")
    length = rng.choice((1019, 1020, rng.randrange(15, 1021)))
    return packing.framed((kind + noise(rng, length))[:length])


def short(rng):
    return packing.framed(noise(rng, rng.randrange(2)))


def unknown_kind(rng):
    body = valid(rng)[2:]
    return packing.framed(rng.choice((0, 4, 5, 256, 257, 259, 65535)).to_bytes(2, "little") + body[2:])


def counts_not_allowed(rng):
    """Counts changed in a valid record: t above the largest, s above t, or any."""
    whole = valid(rng)
    t, s, above = whole[4], whole[5], oracle.LARGEST + 1
    t, s = rng.choice(((above, s), (255, s), (t, t + 1), (t, 255), tuple(noise(rng, 2))))
    return whole[:4] + bytes([t, s]) + whole[6:]


# The long ones are few, so that most bytes of a list belong to ordinary records.
MAKERS = [
    (number_too_large, 20),
    (nothing_in_hand, 20),
    (ones_not_t, 10),
    (unused_bits, 10),
    (wrong_length, 15),
    (long, 2),
    (short, 3),
    (unknown_kind, 8),
    (counts_not_allowed, 12),
]


def to_be_refused(rng):
    """A record made to be refused; where its counts leave no fault to make it is valid after all."""
    return rng.choices([m for m, _ in MAKERS], [w for _, w in MAKERS])[0](rng)


def stream(seed, count, share=REFUSED_SHARE):
    rng = random.Random(seed)
    for _ in range(count):
        yield to_be_refused(rng) if rng.random() < share else valid(rng)


def stream_closed(seed, count):
    """The same, with closed schedules among them."""
    rng = random.Random(seed)
    for record in stream(rng.random(), count):
        yield closed(rng) if rng.random() < CLOSED_SHARE else record


STREAMS = {"--valid": functools.partial(stream, share=0), "--closed": stream_closed}


def main():
    option, seed, count = ["", "", "", *sys.argv[1:]][-3:]
    made = STREAMS.get(option, stream)
    if len(sys.argv) != 3 + (made is not stream):
        return __doc__.split("\n")[0]
    for record in made(int(seed), int(count)):
        sys.stdout.buffer.write(record)
    return 0


if __name__ == "__main__":
    sys.exit(main())
