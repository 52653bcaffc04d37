#!/usr/bin/env python3
"""Draws a track, a limit and where they cross.

    examples/draw.py INPUT LISTING > PICTURE.svg

INPUT is the text form that the counting program reads, the track as A and the limit as B; LISTING is what the program
of examples/listing.c printed for it. Legs are drawn as great circles, in the azimuthal equal-area projection around a
point in their middle, which shows any string. Points listed as nowhere are left out. Standard Python, no packages.
"""
import cmath
import math
import struct
import sys

TRACK, LIMIT, DARK, GREY, PALE, SEA = "#1f5fa8", "#d0641a", "#1c2530", "#66717d", "#ccd4dc", "#f7fafc"
SIDE, TOP, WIDE, INSET = 20, 86, 860, 56  # around the frame, above it, how wide it is, from its edge to the strings
STEPS = [m * 10.0 ** e for e in range(-6, 1) for m in (1, 2, 5)] + [10, 20, 30]  # of the graticule, in degrees
LINE = '<path d="M{x:.1f} {y:.1f}m-14 0h28" stroke="%s" stroke-width="3"/>'
START = f'<circle cx="{{x:.1f}}" cy="{{y:.1f}}" r="6.5" fill="#fff" stroke="{TRACK}" stroke-width="3"/>'
CLEAN = f'<circle cx="{{x:.1f}}" cy="{{y:.1f}}" r="6.5" fill="#ffd23f" stroke="{DARK}" stroke-width="2.2"/>'
GRAZING = f'<path d="M{{x:.1f}} {{y:.1f}}m-8 0l8-8l8 8l-8 8z" fill="#fff" stroke="{DARK}" stroke-width="2.2"/>'


def mix(*parts):
    return tuple(sum(factor * p[i] for factor, p in parts) for i in range(3))


def dot(a, b):
    return sum(x * y for x, y in zip(a, b))


def unit(p):
    return mix((1 / math.hypot(*p), p)) if math.hypot(*p) > 3e-11 else None


def point(longitude, latitude):
    lon, lat = math.radians(longitude), math.radians(latitude)
    return math.cos(lat) * math.cos(lon), math.cos(lat) * math.sin(lon), math.sin(lat)


def leg(a, b):
    """points along a leg, at most a degree apart; none where its ends have no one great circle"""
    if a is None or b is None or math.dist(a, b) > 2 - 1e-12:
        return []
    angle = 2 * math.asin(math.dist(a, b) / 2)
    n = math.ceil(math.degrees(angle))
    parts = [(math.sin(angle - angle * k / n), math.sin(angle * k / n)) for k in range(1, n)]
    return [a] + [unit(mix((s, a), (t, b))) for s, t in parts] + [b]


class View:
    """the projection, and the frame around all points; a place in the frame is a complex number"""

    def __init__(self, points):
        centres = [point(137.508 * k, math.degrees(math.asin(k / 150 - 1))) for k in range(1, 300)]
        centres.insert(0, unit(mix(*((1, p) for p in points))) or centres[0])
        few = points[::1 + len(points) // 1000]
        # the mean; but where points come near the place opposite to it, one whose opposite is farther from them all
        self.centre = c = max(centres, key=lambda c: min(0.2, 1 + min(dot(c, p) for p in few)))
        self.lon, self.lat = (math.degrees(math.atan2(y, x)) for y, x in ((c[1], c[0]), (c[2], math.hypot(c[0], c[1]))))
        self.east, self.north = point(self.lon + 90, 0), point(self.lon, self.lat + 90)
        self.scale, self.zero = 1, 0
        xs, ys = zip(*((z.real, z.imag) for z in map(self.place, points)))
        self.scale = (WIDE - 2 * INSET) / max(max(xs) - min(xs), max(ys) - min(ys), 1e-8)
        self.high = max(WIDE / 3, self.scale * (max(ys) - min(ys)) + 2 * INSET)
        self.zero = (complex(WIDE, self.high) - self.scale * complex(min(xs) + max(xs), min(ys) + max(ys))) / 2

    def place(self, p):
        k = self.scale * math.sqrt(2 / max(1e-12, 1 + dot(self.centre, p)))
        return self.zero + complex(k * dot(self.east, p), -k * dot(self.north, p))

    def holds(self, z, x=0, y=0):
        return x <= z.real <= WIDE - x and y <= z.imag <= self.high - y

    def path(self, line):
        """a line within the frame and to the first place beyond, without the jumps that are opposite to the centre"""
        d, pen, z = "", None, line[0]
        for k, w in enumerate(line[1:], 1):
            if abs(w - z) > 10 or k == len(line) - 1:
                if (self.holds(z) or self.holds(w)) and abs(w - z) < self.scale / 2:
                    d += ("" if pen == z else f"M{z.real:.1f} {z.imag:.1f}") + f" {w.real:.1f} {w.imag:.1f}"
                    pen = w
                z = w
        return d

    def graticule(self):
        """the label of each parallel and each meridian, and its line"""
        step = next((s for s in STEPS if math.radians(s) * self.scale > 75), 30)
        wide = next((s for s in STEPS if s * math.cos(math.radians(self.lat)) >= step), 30)
        up = math.copysign(step, self.lat)  # a meridian starts where it is far from the others: its label goes there
        turns = [k / 30 for k in range(-360, 361)]
        for n in range(-12, 13):
            lat, lon = (round(self.lat / step) + n) * step, math.remainder((round(self.lon / wide) + n) * wide, 360)
            if abs(lat) < 89.9:
                line = [self.place(point(self.lon + max(-180, min(180, wide * t)), lat)) for t in turns]
                yield f"{abs(lat):.10g}°" + ("", "N", "S")[(lat > 0) - (lat < 0)], line
            if -180 < n * wide <= 180:
                line = [self.place(point(lon, max(-90, min(90, self.lat + up * t)))) for t in turns]
                yield f"{abs(lon):.10g}°" + ("", "E", "W")[(0 < lon < 180) - (-180 < lon < 0)], line

    def background(self):
        """the graticule, each line with a label just within the frame, or else at its middle, where there is room"""
        d, labels, taken = self.path([self.zero + cmath.rect(2 * self.scale, k / 30) for k in range(190)]), "", []
        for words, line in self.graticule():
            d += self.path(line)
            held = [self.holds(z, 28, 14) for z in line]
            spots = [line[k - held[k - 1]] for k in range(1, len(line)) if held[k - 1] != held[k]]
            for z in spots or line[360:361] * held[360]:
                if all(abs(z.real - t.real) > 50 or abs(z.imag - t.imag) > 18 for t in taken):
                    taken.append(z)
                    half = 6 + 4 * len(words)  # of the label's width
                    labels += f'<text x="{max(half, min(WIDE - half, z.real)):.0f}" y="{z.imag + 5:.0f}">{words}</text>'
                    break
        return f'<path d="{d}" stroke="{PALE}"/>\n<g fill="{GREY}" stroke="{SEA}" stroke-width="5" ' \
               f'paint-order="stroke" text-anchor="middle">{labels}</g>'


def number(n, words):
    return f"{n or 'no'} {words}" + ("" if n == 1 else "s")


def heading(clean, grazing):
    """the title and the legend"""
    title = "Track and ice limit: " + number(clean, "clean crossing")
    legend = [(LINE % TRACK, "track"), (START, "start"), (LINE % LIMIT, "ice limit"), (CLEAN, "clean crossing")]
    if grazing > 0:
        title += ", " + number(grazing, "grazing point")
        legend.append((GRAZING, "grazing point"))
    yield f'<title>{title}</title>\n<rect width="100%" height="100%" fill="#fff"/>\n<g fill="{DARK}" font-size="15">'
    yield f'<text x="{SIDE}" y="34" font-size="21" font-weight="bold">{title}</text>'
    x = SIDE
    for shape, words in legend:
        yield shape.format(x=x + 14, y=61) + f'<text x="{x + 36}" y="66">{words}</text>'
        x += 64 + 8 * len(words)
    yield "</g>"


def drawn(view, vertices, legs, colour, width):
    """a string: its legs, and a dot for each vertex"""
    d = "".join(view.path([view.place(p) for p in points]) for points in legs if points)
    dots = "".join(f"M{z.real:.1f} {z.imag:.1f}h0" for z in (view.place(p) for p in vertices if p))
    yield f'<path d="{d}" stroke="{colour}" stroke-linecap="round" stroke-width="{width}"/>'
    yield f'<path d="{dots}" stroke="{colour}" stroke-linecap="round" stroke-width="{width + 4}"/>'


def read_strings(file):
    strings = {"A": [], "B": []}
    for row in open(file, encoding="ascii").read().splitlines()[1:]:
        strings[row[0]].append(unit([struct.unpack(">d", bytes.fromhex(word))[0] for word in row[2:].split()]))
    return strings


def read_listing(file):
    """the clean points and the grazing ones"""
    listed = [line.split() for line in open(file, encoding="ascii")]
    if any(words[:1] not in (["clean"], ["grazing"]) for words in listed):
        sys.exit(f"{file}: not a listing of crossings")
    places = [words for words in listed if words[1] != "nowhere"]
    return ([point(float(w[1]), float(w[2])) for w in places if w[0] == kind] for kind in ("clean", "grazing"))


def main():
    if len(sys.argv) != 3:
        sys.exit(__doc__)
    strings = read_strings(sys.argv[1])
    clean, grazing = read_listing(sys.argv[2])
    legs = {name: [leg(a, b) for a, b in zip(v, v[1:])] for name, v in strings.items()}
    every = [p for v in strings.values() for p in v if p] + [p for v in legs.values() for points in v for p in points]
    view = View(every or [point(0, 0)])
    wide, high = WIDE + 2 * SIDE, round(view.high + TOP + SIDE)
    print(f'<svg xmlns="http://www.w3.org/2000/svg" width="{wide}" height="{high}" viewBox="0 0 {wide} {high}" '
          'fill="none" font-family="sans-serif" font-size="14" role="img">')
    print(*heading(len(clean), len(grazing)), sep="\n")
    print(f'<svg x="{SIDE}" y="{TOP}" width="{WIDE}" height="{view.high:.0f}">')
    print(f'<rect width="100%" height="100%" fill="{SEA}"/>', view.background(), sep="\n")
    print(*drawn(view, strings["B"], legs["B"], LIMIT, 3), *drawn(view, strings["A"], legs["A"], TRACK, 2.5), sep="\n")
    for shape, points in ((START, filter(None, strings["A"][:1])), (CLEAN, clean), (GRAZING, grazing)):
        for z in map(view.place, points):
            print(shape.format(x=z.real, y=z.imag))
    print("</svg>\n</svg>")


main()
