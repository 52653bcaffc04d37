/* How near the ends of a leg the test of a mark is to be trusted, for compare/run ends: legs of one length after another, anywhere on the
 * sphere, and on each a mark in the middle, one past an end and one before it. A position is worked out in long double, and the library
 * builds the vertices. */
#include "arcstring.h"
#include <math.h>
#include <stdio.h>
#include <stdlib.h>

#define EARTH 6371000.0L /* its radius, in metres */

static const double lengths[] = {0.13, 0.15, 0.2, 0.3, 1, 3, 10, 30, 100, 1000, 100000, 10000000};

static uint64_t state = 0x9E3779B97F4A7C15u;

/* from 0 on, below 1 */
static double random_part(void)
{
    state ^= state << 13, state ^= state >> 7, state ^= state << 17;
    return (double)(state >> 11) / 9007199254740992.0;
}

static long double dot(const long double *a, const long double *b) { return a[0] * b[0] + a[1] * b[1] + a[2] * b[2]; }

/* a random direction at a right angle to another, or any if that is zero */
static void direction(const long double *other, long double *v)
{
    long double along, size;
    int k;
    do {
        for (k = 0; k < 3; k++) v[k] = 2 * random_part() - 1;
        for (k = 0, along = dot(v, other); k < 3; k++) v[k] -= along * other[k];
        size = sqrtl(dot(v, v));
    } while (size > 1 || size < 0.1L);
    for (k = 0; k < 3; k++) v[k] /= size;
}

/* a great circle by its start and the direction there, and the length of a leg on it in metres */
struct way { long double start[3], ahead[3]; double length; };

static void place(const struct way *w, double metres, double *p)
{
    int k;
    for (k = 0; k < 3; k++) p[k] = (double)(cosl(metres / EARTH) * w->start[k] + sinl(metres / EARTH) * w->ahead[k]);
}

/* whether the leg holds a mark so far from its start */
static int held(const struct way *w, double metres)
{
    static const uint32_t buoys[3];
    double points[9], v[9], leg[6];
    uint32_t numbers[3];
    uint8_t closed, yes;
    size_t n;
    int k;
    place(w, 0, points), place(w, metres, points + 3), place(w, w->length, points + 6);
    if (arcstring_build(points, 9, buoys, 3, v, 9, numbers, 3, &n, &closed) != ARCSTRING_NOT_REFUSED || n != 3) abort();
    for (k = 0; k < 3; k++) leg[k] = v[k], leg[3 + k] = v[6 + k];
    if (arcstring_mark_on_leg(leg, v[3], v[4], v[5], &yes) != ARCSTRING_NOT_REFUSED) abort();
    return yes;
}

static void measure(double length, long legs)
{
    static const long double none[3];
    double past = 0, before = 0;
    long k, middles = 0;
    for (k = 0; k < legs; k++) {
        /* how far from an end: each power of ten from a thousandth of a millimetre to half the leg as often */
        double off = 1e-6 * pow(length / 2e-6, random_part());
        int at_end = random_part() < 0.5;
        struct way w;
        w.length = length;
        direction(none, w.start), direction(w.start, w.ahead);
        if (!held(&w, length / 2)) middles++;
        if (off > past && held(&w, at_end ? length + off : -off)) past = off;
        if (off > before && !held(&w, at_end ? length - off : off)) before = off;
    }
    printf("| %g | %ld | %.2g | %.2g |\n", length, middles, 1000 * past, 1000 * before);
}

int main(int argc, char **argv)
{
    long legs = argc > 1 ? atol(argv[1]) : 1000000;
    size_t k;
    printf("| leg, m | of %ld marks in the middle not held | farthest past an end and held, mm | farthest inside and not held, mm |\n", legs);
    printf("|---|---|---|---|\n");
    for (k = 0; k < sizeof lengths / sizeof lengths[0]; k++) measure(lengths[k], legs);
    return 0;
}
