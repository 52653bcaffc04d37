#!/usr/bin/env python3
"""Makes the text form that legcount and season read from longitudes and latitudes in degrees.

    examples/points.py FILE > OUT

Each line of FILE is a string's name, a longitude and a latitude: `A -70.25 -52.5`. For legcount the names are A and B, in any
sequence; for season, the season report, L for the limit, whose lines come first, and then the number of each track, from 1 up to
1000. Lines that are empty or start with # are left out. OUT has the names line, and for each point its unit vector, each
coordinate as the 16 hexadecimal digits of its bits. Standard Python, no packages.
"""
import math
import re
import struct
import sys

NAME = re.compile("[ABL]|[1-9][0-9]{0,2}|1000")


def digits(x):
    return struct.pack(">d", x).hex().upper()


def point(longitude, latitude):
    lon, lat = math.radians(longitude), math.radians(latitude)
    return math.cos(lat) * math.cos(lon), math.cos(lat) * math.sin(lon), math.sin(lat)


def main():
    if len(sys.argv) != 2:
        sys.exit(__doc__)
    print("string x y z")
    for number, line in enumerate(open(sys.argv[1], encoding="utf-8"), 1):
        words = line.split("#")[0].split()
        if not words:
            continue
        if len(words) != 3 or not NAME.fullmatch(words[0]):
            sys.exit(f"{sys.argv[1]}:{number}: a line is a name, A, B, L or a track's number, a longitude and a latitude")
        x, y, z = point(float(words[1]), float(words[2]))
        print(words[0], digits(x), digits(y), digits(z))


main()
