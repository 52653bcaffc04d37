#!/usr/bin/env python3
"""Feeds well-formed, malformed and damaged files to a program that reads the text form, and compares what it prints with what an
independent reader and counter, below, expects. Not part of the gate.

    compare/text.py [legcount | season] [FILES] [--seed N] [--rows N] [--stored] [--program PATH]

The first word names the program, by default the counting program, legcount; season is the season report. FILES is how many short
files (by default 20,000); to these come files of long strings and files that end at, just before or just after the end of a buffer.
They are fed from a file, through a pipe, at once or in pieces of odd sizes, and through a socket that gives one piece a read. Then
reads and writes that fail. --rows N instead times one file, with the memory that the program took: one of N rows, and for season
one of 1,000 tracks of N rows each against a limit of N. --stored instead writes crates/NAME/stdin, the input that the gate runs the
program on, and what is expected of it, crates/NAME/stdout: for legcount two strings of 1,024 points that cross, touch and graze,
for season a closed limit and eleven tracks.

The program is crates/NAME/out/NAME, which `rt run` builds in the folder crates/NAME, or the one at PATH: a program with a mistake in it is to be noticed.
Ends with 1 on a difference. Standard Python, no packages.
"""
import argparse
import collections
import contextlib
import fcntl
import math
import os
import random
import socket
import struct
import subprocess
import sys
import tempfile
import time

TOP = os.path.dirname(os.path.dirname(os.path.abspath(__file__)))
NAMES = b"string x y z\n"
HEX = b"0123456789ABCDEF"
ROW = 53  # bytes of a row with a first word of one
BUFFER = 4096
MOST_TRACKS = 1000


# ---- the expected answer, from the words of docs/TERMS.md

def row_of(line):
    """the first word and the point of a line without its line feed, or None; which first words there may be is for each program to say"""
    words = line.split(b" ")
    if len(words) != 4 or any(len(w) != 16 or any(c not in HEX for c in w) for w in words[1:]):
        return None
    return words[0], tuple(struct.unpack(">d", bytes.fromhex(w.decode()))[0] for w in words[1:])


def rows_of(data):
    if not data.startswith(NAMES) or not data.endswith(b"\n"):
        return None
    rows = [row_of(line) for line in data[len(NAMES):].split(b"\n")[:-1]]
    return None if None in rows else rows


def a_and_b(rows):
    """legcount's strings, A first, whose rows may be mixed, or None"""
    if any(word not in (b"A", b"B") for word, _ in rows):
        return None
    return [[point for word, point in rows if word == name] for name in (b"A", b"B")]


def season_name(n):
    """the first word of the rows of track n, or, where n is 0, of the limit"""
    return b"%d" % n if n else b"L"


def limit_and_tracks(rows):
    """the season report's strings, the limit first, or None: a row belongs to the string of the row before it, or begins the next track"""
    strings = [[]]
    for word, point in rows:
        last = len(strings) - 1
        if last < MOST_TRACKS and word == season_name(last + 1):
            strings.append([])
        elif word != season_name(last):
            return None
        strings[-1].append(point)
    return strings


def cross(a, b):
    return a[1] * b[2] - a[2] * b[1], a[2] * b[0] - a[0] * b[2], a[0] * b[1] - a[1] * b[0]


def dot(a, b):
    return (a[0] * b[0] + a[1] * b[1]) + a[2] * b[2]


def equal(a, b):
    return (abs(a[0] - b[0]) + abs(a[1] - b[1])) + abs(a[2] - b[2]) < 3e-11


def unit(p):
    length = math.sqrt((p[0] * p[0] + p[1] * p[1]) + p[2] * p[2])
    return p if length < 3e-11 else (p[0] / length, p[1] / length, p[2] / length)


def refusal(points):
    if len(points) < 2:
        return 2
    if len(points) > 1024:
        return 3
    if any(not -1.0 <= c <= 1.0 for p in points for c in p):
        return 4
    return 0


def legs(points):
    v = [unit(p) for p in points]
    closed = equal(v[0], v[-1])
    if closed:
        v = [unit(p) for p in v[:-1]]
    n = len(v)
    return [(v[i], v[(i + 1) % n]) for i in range(n if closed else n - 1)]


def class_of(a, b):
    p, q = cross(*a), cross(*b)
    t = cross(p, q)
    sides = [-dot(cross(a[0], p), t), dot(cross(a[1], p), t), -dot(cross(b[0], q), t), dot(cross(b[1], q), t)]
    if any(s == 0 for s in sides):
        return 2
    if not (all(s > 0 for s in sides) or all(s < 0 for s in sides)):
        return 3
    point = t if sides[0] > 0 else tuple(-c for c in t)
    return 1 if any(equal(point, e) for e in a + b) else 0


def counts(first, second):
    found = [0, 0, 0, 0]
    others = legs(second)
    for a in legs(first):
        for b in others:
            found[class_of(a, b)] += 1
    return found


def counts_printed(strings):
    return b"clean end grazing apart\n%d %d %d %d\n" % tuple(counts(*strings))


def permille(clean, pairs):
    """clean times 1,000 divided by pairs, to the nearest whole number: the floor of the quotient and a half, so that a half goes up"""
    return (2 * 1000 * clean + pairs) // (2 * pairs) if pairs else 0


def report_printed(strings):
    limit, *tracks = strings
    known = {}  # by the bits of a track: the large file has few tracks that differ
    lines = []
    for number, track in enumerate(tracks, 1):
        bits = struct.pack(f"{3 * len(track)}d", *(c for p in track for c in p))
        if bits not in known:
            known[bits] = counts(track, limit)
        lines.append((season_name(number), known[bits]))
    lines.append((b"all", [sum(found[c] for _, found in lines) for c in range(4)]))
    return b"track clean end grazing apart permille\n" + b"".join(
        b"%s %d %d %d %d %d\n" % (name, *found, permille(found[0], sum(found))) for name, found in lines)


def expected(program, data):
    rows = rows_of(data)
    strings = None if rows is None else program.strings(rows)
    if strings is None:
        return b"refusal 8\n"
    for points in strings:
        if refusal(points):
            return b"refusal %d\n" % refusal(points)
    return program.printed(strings)


def kind_of_report(printed):
    lines = [[int(n) for n in line.split()[1:]] for line in printed.split(b"\n")[1:-1]]
    if len(lines) == 1:
        return "report of no tracks"
    halves = any(2000 * found[0] % sum(found[:4]) == 0 and 2000 * found[0] // sum(found[:4]) % 2 for found in lines)
    return "report with an exact half" if halves else "report"


# ---- short files

def digits(x):
    return struct.pack(">d", x).hex().upper().encode()


def written(name, p):
    return name + b" " + b" ".join(digits(x) for x in p) + b"\n"


def somewhere(r):
    kind = r.randrange(4)
    if kind == 0:
        p = [r.choice((0.0, -0.0, 0.5, -0.5, 1.0, -1.0)) for _ in range(3)]
    elif kind == 1:
        p = [0.0, 0.0, 0.0]
        p[r.randrange(3)] = r.choice((1.0, -1.0))
    else:
        p = [r.uniform(-1, 1) for _ in range(3)]
    return p


def corner(r):
    """a point of an axis, or one very near: legs between such points are quarters of the sphere, and may meet at an end"""
    p = [r.choice((0.0, 2.0 ** -40, -2.0 ** -40)) for _ in range(3)]
    p[r.randrange(3)] = r.choice((1.0, -1.0))
    return p


def row(r, name, place=somewhere):
    return written(name, place(r))


def some_rows(r, name, n, place=somewhere):
    """n rows of a string, and now and then one more that closes it"""
    rows = [row(r, name, place) for _ in range(n)]
    if rows and r.randrange(4) == 0:
        rows.append(rows[0])
    return rows


def good_legcount(r):
    rows = []
    for name in (b"A", b"B"):
        rows += some_rows(r, name, r.choice((0, 1, 2, 2, 3, 3, 4, 5, 6, 8)))
    if r.randrange(2):
        r.shuffle(rows)
    return NAMES + b"".join(rows)


# bits of floats that are out of range: the next beyond 1 and -1, two, infinities, NaN of several kinds, the largest
OUT_OF_RANGE = (b"3FF0000000000001", b"BFF0000000000001", b"4000000000000000", b"7FF0000000000000", b"FFF0000000000000",
                b"7FF8000000000000", b"FFF8000000000001", b"7FF0000000000001", b"7FEFFFFFFFFFFFFF")


def out_of_range(r, rows):
    at = r.randrange(len(rows))
    words = rows[at][:-1].split(b" ")
    words[r.randrange(1, 4)] = r.choice(OUT_OF_RANGE)
    return rows[:at] + [b" ".join(words) + b"\n"] + rows[at + 1:]


def refused(r, rows):
    """the rows of a string that is refused by 2, 3 or 4, and often by 4 too where 2 or 3 comes first"""
    number = r.choice((2, 2, 3, 4, 4, 4))
    if number == 4 or r.randrange(2):
        rows = out_of_range(r, rows)
    return rows[:1] if number == 2 else (rows * 1025)[:1025] if number == 3 else rows


def some_season(r, tracks):
    """The rows of a limit and so many tracks, string by string. In a quarter each has 4 or 8 legs, or one more, so that permille is often
    an exact half, and in an eighth their points are corners. In half of them some strings are refused, by 2, 3 or 4."""
    sizes = (5, 5, 9) if r.randrange(4) == 0 else (2, 2, 3, 3, 4, 5, 6, 8)
    place = corner if r.randrange(8) == 0 else somewhere
    strings = [some_rows(r, season_name(n), r.choice(sizes), place) for n in range(tracks + 1)]
    if r.randrange(2):
        strings = [refused(r, rows) if r.randrange(2 if n else 4) == 0 else rows for n, rows in enumerate(strings)]
    return strings


def season_file(strings):
    return NAMES + b"".join(b"".join(rows) for rows in strings)


def good_season(r):
    strings = some_season(r, r.randrange(9))
    if r.randrange(16) == 0:
        strings[0] = []
    return season_file(strings)


def special(r, data, one, other):
    """bad inputs that are named, around a good file; after it there may come rows with the first word one, and with other after those"""
    a = row(r, one)
    no_digit = r.choice((b"/", b":", b"@", b"G", b"a", b"g", b" "))
    nan = one + b" 7FF8000000000000 0000000000000000 0000000000000000\n"
    infinite = other + b" FFF0000000000000 0000000000000000 0000000000000000\n"
    return (
        lambda: b"", lambda: NAMES, lambda: NAMES[:-1], lambda: data[:-1], lambda: data.replace(b"\n", b"\r\n"),
        lambda: data.replace(b" ", b"\t"), lambda: data.lower(), lambda: data + one + a[len(one):].lower(), lambda: data + a[:-2] + b"\n",
        lambda: data + a[:-1] + b"0\n", lambda: data + b"C" + a[len(one):], lambda: data + b"\n", lambda: data + one + b" " + b"0" * 100000 + b"\n",
        lambda: data + b"\xff", lambda: data + b"\x00", lambda: data + nan, lambda: data + infinite, lambda: a + data, lambda: NAMES + data,
        lambda: data + row(r, one) * (1020 + r.randrange(8)), lambda: data + row(r, other) * 1100 + a[:-3] + b"\n", lambda: data + b" ",
        lambda: data.replace(b"x y", b"x  y"), lambda: data.replace(b"z\n", b"z\r\n"), lambda: data + b" " + a, lambda: data + a[:-1] + b" \n",
        lambda: data + a[:-1] + b"\r\n", lambda: data + a.replace(b" ", b"\t"), lambda: data + a.replace(b" ", b"  ", 1),
        lambda: data + a[:-2] + no_digit + b"\n", lambda: data + a * 1100 + a[:-2] + no_digit + b"\n",
    )


def special_legcount(r):
    data = good_legcount(r)
    return r.choice(special(r, data, b"A", b"B"))()


def first_words(n):
    """what may stand in the place of the first word of track n, of the limit where n is 0. Nearly all of it is wrong; some of it would be n if
    other bytes than 0 to 9 were digits, or if numbers were cut to so many bits."""
    return (
        b"", b" ", b"A", b"B", b"L", b"l", b"LL", b"L%d" % n, b"%dL" % n, b"L ", b" L", b"0", b"00", b"-1", b"1000", b"1001", b"0%d" % n, b"00%d" % n,
        b"+%d" % n, b"-%d" % n, b"%d " % n, b" %d" % n, b"%d\t" % n, b"%d\r" % n, b"%d\x00" % n, b"%d." % n, b"%d.0" % n, b"%de0" % n, b"%d_0" % n,
        b"0x%d" % n, b"%x" % n, b"%X" % n, bytes([48 + n]), b"%d%c" % (n // 10 - 1, 58 + n % 10), b"%d%c" % (n // 10 + 1, 38 + n % 10), b"\xb9", b"\xd9\xa1",
        b"%d" % (n + 1), b"%d" % (n + 2), b"%d" % max(n - 1, 0), b"%d0" % n, *(b"%d" % (n + 2 ** k) for k in (8, 10, 16, 31, 32, 63, 64, 128)),
        b"9" * 30, b"1" + b"0" * 29, b"0" * 29 + b"%d" % n, b"%d" % n * 20000,
    )


def renamed(lines, at, word):
    """the file of these lines, with another first word in one of them"""
    return NAMES + b"".join(lines[:at]) + word + lines[at][lines[at].index(b" "):] + b"".join(lines[at + 1:])


def each_first_word(r):
    """each of these words in the place of a first word, of each row of some strings of a season that is well otherwise"""
    lines = [row(r, season_name(n)) for n in range(22) for _ in range(2)]
    for at in range(len(lines)):
        if at // 2 in (0, 1, 2, 8, 9, 10, 11, 19, 20, 21):
            for word in first_words(at // 2):
                yield renamed(lines, at, word)


def special_season(r):
    """one of the named bad inputs, most of them malformed by a first word or by the order of the rows; and few that are not malformed"""
    strings = some_season(r, r.randrange(2, 6))
    limit, *tracks = strings
    data, last = season_file(strings), len(tracks)
    lines = [own for rows in strings for own in rows]
    numbers = [n for n, rows in enumerate(strings) for _ in rows]
    some = r.randrange(last)

    def another_word():
        at = r.randrange(len(lines))
        return renamed(lines, at, r.choice(first_words(numbers[at])))

    def put_in(n):
        at = r.randrange(len(limit) + 1, len(lines) + 1)
        return NAMES + b"".join(lines[:at]) + row(r, season_name(n)) + b"".join(lines[at:])

    return r.choice((
        *[another_word] * 16,
        lambda: put_in(0),  # L after a track
        lambda: put_in(r.randrange(1, last + 3)),  # a row among those of the tracks: it falls back, skips a number, or fits by chance
        lambda: data + row(r, b"L"), lambda: data + row(r, b"1"), lambda: data + row(r, b"%d" % (last - 1)), lambda: data + row(r, b"%d" % (last + 2)),
        lambda: season_file([limit] + tracks[:some] + tracks[some + 1:]),  # a gap, where it is not the last track that is left out
        lambda: season_file([limit] + tracks[::-1]), lambda: season_file(tracks + [limit]), lambda: season_file([limit] + tracks + [limit]),
        lambda: season_file([limit] + tracks + tracks), lambda: NAMES + b"".join(r.sample(lines, len(lines))),
        lambda: season_file([limit[:1]] + tracks), lambda: season_file(tracks), lambda: season_file([limit]), lambda: season_file([limit[:1]]),
        lambda: data.replace(b"string", b"track", 1), lambda: data.replace(b"string", b"limit", 1), lambda: data.replace(b"z", b"z ", 1),
        lambda: good_legcount(r), lambda: data[len(NAMES):],
        *special(r, data, b"%d" % last, b"%d" % (last + 1)),
    ))()


def damaged(r, good, letters):
    data = bytearray(good(r))
    for _ in range(r.choice((1, 1, 1, 2, 3))):
        at = r.randrange(len(data) + 1)
        kind = r.randrange(4)
        if kind == 0 and at < len(data):
            data[at] = r.randrange(256)
        elif kind == 1 and at < len(data):
            del data[at]
        elif kind == 2:
            data.insert(at, r.choice(letters))
        elif at < len(data):
            data[at] = r.choice(HEX)
    return bytes(data)


# ---- long strings

def triangle(u):
    """up from -1 to 1 and down again, as u goes on by 1"""
    return 1 - 4 * abs(u - math.floor(u + 0.5))


def wave(n, teeth, phase, height):
    """n points around the equator that go up and down; by sums, products and quotients alone, which are the same bits everywhere"""
    points = []
    for k in range(n):
        side, s = divmod(4 * k, n)
        s /= n
        x, y = ((1 - s, s), (-s, 1 - s), (s - 1, -s), (s, s - 1))[side]
        points.append((x, y, height * triangle(teeth * k / n + phase)))
    return points


def mixed(r, a, b):
    """the rows of both, in an order that mixes them and keeps each string's own"""
    names = [b"A"] * len(a) + [b"B"] * len(b)
    r.shuffle(names)
    own = {b"A": iter(a), b"B": iter(b)}
    return NAMES + b"".join(written(name, next(own[name])) for name in names)


def stored_legcount():
    """Two strings of 1,024 points each, the first closed: waves around the equator, which cross, with legs of a quarter of the
    sphere at their ends. Such legs meet at an end, within 3e-11 of it, and others of them graze; three legs of A are B's too."""
    near = 2.0 ** -40
    a = wave(1018, 7, 0.25, 0.25)
    a += [(1.0, -near, 0.0), (0.0, 1.0, 0.0), (0.0, 1.0, -near), (0.0, 0.0, 1.0), (-near, 0.0, 1.0), a[0]]
    b = wave(1014, 5, 0.5, 0.2) + a[100:104]
    b += [(1.0, 0.0, -near), (0.0, 0.0, 1.0), (0.0, -near, 1.0), (0.0, 1.0, 0.0), (-near, 1.0, 0.0), (1.0, 0.0, 0.0)]
    return mixed(random.Random(1024), a, b)


def long_legcount(r):
    """strings of 1,024 points and of one point more: with a short one, whose pairs Python counts fast, and once with each other"""
    for most in (1024, 1025):
        for few in (2, 3):
            short = wave(few, 1, r.random(), r.random())
            many = wave(most, r.randrange(2, 40), r.random(), r.uniform(0.01, 1))
            yield mixed(r, many, short)
            yield mixed(r, short, many)
    yield stored_legcount()
    yield mixed(r, wave(1024, 3, r.random(), r.uniform(0.01, 1)), wave(1024, 4, r.random(), r.uniform(0.01, 1)))


def rows_of_season(limit, tracks):
    """a limit and tracks, given as points, as rows"""
    return season_file([[written(season_name(n), p) for p in points] for n, points in enumerate([limit] + tracks)])


def stored_season():
    """A closed limit of four legs, and eleven tracks. Of track 1 and of all of them permille is an exact half, 62.5 and 87.5. All coordinates
    are exact, most of them few eighths, so that the rows can be read."""
    near = 2.0 ** -40
    limit = [(1, -near, 0), (0, 1, 0), (-1, 0.125, -0.5), (-0.25, -1, -0.5), (1, -near, 0)]
    return rows_of_season(limit, [
        [(1, 0.25, 0.375), (1, 0.5, 0.25), (0.75, 1, -0.25), (0.5, 1, -0.5), (0.25, 0.75, -1)],  # crosses once in 16 pairs
        [(1, 0.75, 0.375), (-0.5, 1, 0.75), (-1, -0.25, 0.5)],  # stays north
        [(0.5, 0.25, 0.75), (0.5, 0.5, 0), (0.25, 0.5, 0.75)],  # comes to the limit and turns: two grazing pairs
        [(1, 0, -near), (0, 0, 1), (-0.5, -0.75, 1)],  # legs of a quarter of the sphere that meet at an end
        [(1, 1, 0.375), (1, 0.5, -0.5), (0.25, 1, -0.75), (1, 1, 0.375)],  # closed: in and out
        [(0.25, 0.125, -1), (-0.25, -0.375, -1)],  # stays inside
        [(0.5, 0.75, -1), (0.5, 0.75, -1)],  # lies still: a leg without a length grazes every leg
        [(1, 0.75, 0.25), (1, 0.625, -0.25)],  # crosses with its only leg
        [(1, 0.625, -0.25), (1, 0.75, 0.25)],  # the same, walked backwards
        [(-0.5, 1, 0.25), (-0.25, 0.5, -1), (-1, 0.25, 0.5)],  # in and out, open
        [(1, 0.25, 0), (0.25, 1, 0)],  # goes along a leg of the limit
    ])


def long_season(r):
    """a limit or a track of 1,024 points and of one point more, first, in the middle and last; 1,000 tracks, and one more; refused strings
    and malformed rows late in these"""
    def short(n=3):
        return wave(n, 1, r.random(), r.random())

    def many(n):
        return wave(n, r.randrange(2, 40), r.random(), r.uniform(0.01, 1))

    for most in (1024, 1025):
        yield rows_of_season(many(most), [short(), short(2)])
        yield rows_of_season(many(most), [])
        yield rows_of_season(many(most), [short(1), many(1025)])
        for at in range(3):
            tracks = [short(), short(2), short()]
            tracks[at] = many(most)
            yield rows_of_season(short(), tracks)
            yield rows_of_season(short(), tracks) + row(r, b"2")
            yield rows_of_season(short(), tracks + [short(1)])
            yield rows_of_season(short(), [short(1)] + tracks)
    yield rows_of_season(many(1024), [many(1024)])
    yield stored_season()
    for most in (MOST_TRACKS, MOST_TRACKS + 1):
        tracks = [short(r.choice((2, 3))) for _ in range(most)]
        yield rows_of_season(short(), tracks)
        yield rows_of_season(short(1), tracks)
        yield rows_of_season(short(), tracks)[:-1]
        yield rows_of_season(short(), tracks) + row(r, b"%d" % most)
        yield rows_of_season(short(), tracks) + row(r, b"L")
        yield rows_of_season(short(), tracks) + row(r, b"1")
        yield rows_of_season(short(), tracks[:-1] + [short(1)])
        yield rows_of_season(short(), tracks[:-1] + [[(1.0, 0.0, 1.5), (1.0, 0.0, 0.0)]])
        yield rows_of_season(short(), tracks[:500] + [short(1)] + tracks[501:700] + [many(1025)] + tracks[701:])
        yield rows_of_season(short(), tracks[:500] + [many(1025)] + tracks[501:700] + [short(1)] + tracks[701:])


# ---- ends of buffers

def pipe_size():
    ends = os.pipe()
    try:
        return fcntl.fcntl(ends[0], getattr(fcntl, "F_GETPIPE_SZ", 1032))
    finally:
        for end in ends:
            os.close(end)


def size_of(names):
    """the bytes of a file whose rows have these first words"""
    return len(NAMES) + sum(ROW - 1 + len(name) for name in names)


def names_to_legcount(size):
    """four rows of B among the first of A, up to 1,024 of A, then B"""
    return [b"B" if k in (1, 3, 5, 7) or k >= 1028 else b"A" for k in range((size - len(NAMES)) // ROW)]


def names_to_season(size):
    """four rows a track or some more, and as many rows of the limit as make them end there: rows are longer from tracks 10 and 100 on"""
    most = []
    for limit in range(2, 60):
        names = [b"L"] * limit
        left = size - size_of(names)
        for k in range((4 + size // 50000) * MOST_TRACKS):
            name = b"%d" % (1 + k // (4 + size // 50000))
            left -= ROW - 1 + len(name)
            if left < 0:
                break
            names.append(name)
        most = max(most, names, key=size_of)
    return most


def ends_of_buffers(r, names_to):
    """files that end at a multiple of a buffer's size, one byte before it or after it: well-formed, and cut there; names_to gives the
    first words of the rows of a well-formed file of so many bytes, or of a long one of no more"""
    def rows_to(size):
        return NAMES + b"".join(row(r, name) for name in names_to(size))

    for size in sorted({BUFFER, 65536, pipe_size()}):
        for off in (-1, 0, 1):
            whole = next(n for n in range(1, ROW + 1) if size_of(names_to(n * size + off)) == n * size + off)
            yield rows_to(whole * size + off)
            for n in (1, 2, 3):
                cut = n * size + off
                yield rows_to(cut + ROW)[:cut]


# ---- a large file

def many_legcount(rows):
    r = random.Random(1)
    some = [row(r, b"A" if i % 2 else b"B") for i in range(1000)]
    return [NAMES] + [b"".join(some)] * (rows // 1000) + [b"".join(some[:rows % 1000])]


def many_season(rows):
    """1,000 tracks of so many rows against a limit of as many; of three kinds, so that Python counts them fast. Points all over the sphere
    cross at an eighth of their pairs, which takes the sum of clean pairs, times 1,000, beyond 32 bits."""
    r = random.Random(1)
    anywhere = [[[r.uniform(-1, 1) for _ in range(3)] for _ in range(rows)] for _ in range(2)]
    limit, *kinds = [[written(b"", p) for p in points] for points in (*anywhere, wave(rows, 7, 0.25, 0.25), wave(rows, 40, 0.5, 0.75))]
    named = [(b"L", limit)] + [(b"%d" % n, kinds[n % 3]) for n in range(1, MOST_TRACKS + 1)]
    return [NAMES] + [b"".join(name + rest for rest in points) for name, points in named]


# ---- the programs

Program = collections.namedtuple("Program", (
    "name",
    "strings",  # rows, as words and points, to strings in the order of their checks, or None where these rows are malformed
    "printed",  # strings that are not refused to what is printed
    "kind",  # what is printed to a word for it, where it is no refusal
    "good", "special", "letters",  # short files; and the bytes to put in when they are damaged
    "more",  # further files, with a word for each kind
    "names_to", "many", "stored", "example",  # files of a given size, the large one, the gate's, and the one in examples
))
PROGRAMS = {program.name: program for program in (
    Program("legcount", a_and_b, counts_printed, lambda printed: "counts", good_legcount, special_legcount, b"\n\r\t \x00\xffAB0Fz",
            (("long strings", long_legcount),), names_to_legcount, many_legcount, stored_legcount, "southern_leg.legs"),
    Program("season", limit_and_tracks, report_printed, kind_of_report, good_season, special_season, b"\n\r\t \x00\xffLA0129Fz+",
            (("long strings", long_season), ("first words", each_first_word)), names_to_season, many_season, stored_season, "season.legs"),
)}


def folder(program):
    return os.path.join(TOP, "crates", program.name)


def write_stored(program):
    data = program.stored()
    for name, content in (("stdin", data), ("stdout", expected(program, data))):
        with open(os.path.join(folder(program), name), "wb") as f:
            f.write(content)


# ---- a program, at a path, fed in several ways

def fed_whole(path, data, r):
    return subprocess.run([path], input=data, capture_output=True, check=True).stdout


def fed_from_file(path, data, r):
    with tempfile.TemporaryFile() as f:
        f.write(data)
        f.seek(0)
        return subprocess.run([path], stdin=f, capture_output=True, check=True).stdout


def pieces(data, r, sizes):
    at = 0
    while at < len(data):
        n = r.choice(sizes)
        yield data[at:at + n]
        at += n


def fed_in_pieces(path, data, r):
    """through a pipe, some bytes at a time: what a read gives is for the system to say"""
    program = subprocess.Popen([path], stdin=subprocess.PIPE, stdout=subprocess.PIPE, bufsize=0)
    with contextlib.suppress(BrokenPipeError):
        for piece in pieces(data, r, (1, 7, 52, 53, 54, 1000, 4095, 4096, 4097, 65535, 65537) if len(data) > 10000 else (1, 2, 3, 7, 53, 100)):
            while piece:
                piece = piece[os.write(program.stdin.fileno(), piece):]
    program.stdin.close()
    out = program.stdout.read()
    program.wait()
    return out


def fed_piece_by_piece(path, data, r):
    """through a socket that keeps messages apart, so that each read gives one piece"""
    ours, theirs = socket.socketpair(socket.AF_UNIX, socket.SOCK_SEQPACKET)
    program = subprocess.Popen([path], stdin=theirs, stdout=subprocess.PIPE)
    theirs.close()
    with contextlib.suppress(BrokenPipeError, ConnectionResetError):
        for piece in pieces(data, r, (1, 53, 977, 4095, 4096) if len(data) > 10000 else (1, 2, 3, 7, 53, 100)):
            ours.sendall(piece)
    ours.close()
    out = program.stdout.read()
    program.wait()
    return out


WAYS = (fed_whole, fed_from_file, fed_in_pieces, fed_piece_by_piece)


def from_shell(program, path, words):
    run = subprocess.run(["sh", "-c", f'exec "$0" {words}', path], cwd=folder(program), capture_output=True, check=True)
    return run.stdout, run.stderr


def reset(path, data):
    """all of a file through a socket, and then a read that fails: the other end is closed with bytes in it that it never read"""
    ours, theirs = socket.socketpair()
    theirs.send(b"never read")
    program = subprocess.Popen([path], stdin=theirs, stdout=subprocess.PIPE, stderr=subprocess.PIPE)
    theirs.close()
    ours.sendall(data)
    ours.close()
    return program.communicate()


def failing(program, path):
    """a closed input, a directory, a read that fails after a whole file, a full device: nothing is printed, and a line on standard error says so;
    how many went otherwise"""
    wrong = 0
    for what, (out, err) in (
        ("a closed input", from_shell(program, path, "<&-")), ("a directory", from_shell(program, path, "<.")),
        ("a reset", reset(path, program.stored())), ("a full device", from_shell(program, path, "<stdin >/dev/full")),
    ):
        right = out == b"" and err != b""
        print(f"{what}: printed {out!r}, said {err!r}{'' if right else ' DIFFERENT'}")
        wrong += not right
    return wrong


def compare(program, path, files, seed):
    r = random.Random(seed)
    kinds = collections.Counter()
    different = 0
    makers = {"good": program.good, "special": program.special, "damaged": lambda r: damaged(r, program.good, program.letters)}

    def hold(data, kind, ways):
        nonlocal different
        want = expected(program, data)
        for way in ways:
            got = way(path, data, r)
            kinds[kind + ": " + (want.decode().strip() if want.startswith(b"refusal") else program.kind(want))] += 1
            if got != want:
                different += 1
                if different <= 5:
                    print("DIFFERENT", kind, way.__name__, len(data), "bytes", data[:2000], "printed", got, "expected", want)

    for n in range(files):
        kind = r.choice(("good", "good", "special", "damaged", "damaged"))
        hold(makers[kind](r), kind, (r.choice(WAYS),))
        if n % 1000 == 999:
            print(f"\r{n + 1} files", end="", file=sys.stderr)
    print(file=sys.stderr)
    with open(os.path.join(TOP, "examples", program.example), "rb") as f:
        hold(f.read(), "the example", WAYS)
    for kind, files_of in program.more:
        for data in files_of(r):
            hold(data, kind, WAYS)
    for data in ends_of_buffers(r, program.names_to):
        hold(data, "ends of buffers", WAYS)
    for kind, n in sorted(kinds.items()):
        print(f"{n:>8}  {kind}")
    wrong = failing(program, path)
    print(f"{sum(kinds.values())} runs, {different} different; {wrong} failures otherwise")
    return different == 0 and wrong == 0


def time_large(program, path, rows):
    parts = program.many(rows)
    start = time.time()
    running = subprocess.Popen([path], stdin=subprocess.PIPE, stdout=subprocess.PIPE)
    for part in parts:
        running.stdin.write(part)
    running.stdin.flush()
    with open(f"/proc/{running.pid}/status", encoding="ascii") as f:
        memory = next(line.split(":")[1].strip() for line in f if line.startswith("VmHWM"))
    running.stdin.close()
    out = running.stdout.read()
    running.wait()
    took = time.time() - start
    data = b"".join(parts)
    same = out == expected(program, data)
    lines = out.decode().strip().split("\n")
    print(f"{data.count(NAMES[-1:]) - 1} rows, {len(data)} bytes: {len(lines)} lines, the last {lines[-1]!r}, in {took:.2f} s, "
          f"{memory} resident at most, {'as expected' if same else 'DIFFERENT'}")
    return same


def main():
    words = sys.argv[1:]
    program = PROGRAMS[words.pop(0) if words and words[0] in PROGRAMS else "legcount"]
    a = argparse.ArgumentParser(description=__doc__, formatter_class=argparse.RawDescriptionHelpFormatter)
    a.add_argument("files", nargs="?", type=int, default=20000)
    a.add_argument("--seed", type=int, default=1)
    a.add_argument("--rows", type=int)
    a.add_argument("--stored", action="store_true")
    a.add_argument("--program", metavar="PATH", default=os.path.join(TOP, "crates", program.name, "out", program.name))
    o = a.parse_args(words)
    path = os.path.abspath(o.program)
    if o.stored:
        write_stored(program)
    elif not (time_large(program, path, o.rows) if o.rows else compare(program, path, o.files, o.seed)):
        sys.exit(1)


if __name__ == "__main__":
    main()
