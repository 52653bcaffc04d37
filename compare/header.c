/* Calls every function that include/arcstring.h declares, as C and as C++, and holds what the header says of it to what it does;
 * compare/run header compiles it both ways, runs it, and has compare/header.py hold each prototype to the library's own. Of
 * parameters of one type no two are handed the same, or the order of refusals tells them apart, so that a swap shows. Results
 * are written into memory that was not set, so that valgrind sees a call that reads there. */
#include "arcstring.h"
#include <math.h>
#include <stdio.h>
#include <stdlib.h>
#include <string.h>

#define LENGTH(list) (sizeof(list) / sizeof((list)[0]))
#define SAME(a, b, n) (memcmp(a, b, (n) * sizeof *(a)) == 0)
#define HOLDS(what) held(__LINE__, what, #what)

static int facts, broken;
static void held(int line, int so, const char *what)
{
    facts++;
    if (!so) broken++, printf("line %d does not hold: %s\n", line, what);
}

static const double R = 0.7071067811865475; /* the coordinates of M, divided by its length */
static const double xyz[9] = {1, 0, 0, 0, 1, 0, 0, 0, 1}, xm[6] = {1, 0, 0, 0.5, 0.5, 0}, y[3] = {0, 1, 0};
static const double cross_a[6] = {1, -0.5, 0, 1, 0.5, 0}, cross_b[6] = {1, 0, -0.5, 1, 0, 0.5};
static const double nan_point[3] = {0, NAN, 0};
static const uint32_t buoys[6] = {11, 12, 13, 14, 15, 16}, seven[1] = {7};

/* buffers with room for whatever these calls answer, not set */
static double *out, *points;
static uint32_t *numbers;
static uint8_t *marks, *flags, yes, closed;
static size_t *counts_of, n, len;
static uint64_t counts[4];

static void lend(void)
{
    out = (double *)malloc(3 * ARCSTRING_MOST_POINTS * sizeof *out);
    points = (double *)malloc(3 * ARCSTRING_MOST_POINTS * sizeof *points);
    numbers = (uint32_t *)malloc(ARCSTRING_MOST_POINTS * sizeof *numbers);
    counts_of = (size_t *)malloc(ARCSTRING_MOST_POINTS * sizeof *counts_of);
    marks = (uint8_t *)malloc(ARCSTRING_MOST_POINTS);
    flags = (uint8_t *)malloc(ARCSTRING_MOST_POINTS);
    if (!out || !points || !numbers || !counts_of || !marks || !flags) exit(2);
}

static void words(void)
{
    uint32_t i, k;
    HOLDS(arcstring_version() == ARCSTRING_VERSION && ARCSTRING_VERSION == 3);
    for (i = 0; i <= ARCSTRING_BUOYS_NOT_AS_MANY; i++)
        for (k = 0; k < i; k++) HOLDS(strcmp(arcstring_refusal_words(i), arcstring_refusal_words(k)) != 0);
    HOLDS(strcmp(arcstring_refusal_words(ARCSTRING_BUOYS_NOT_AS_MANY + 1), arcstring_refusal_words(UINT32_MAX)) == 0);
    HOLDS(ARCSTRING_MARGIN_OUT_OF_RANGE == 9 && strstr(arcstring_refusal_words(9), "margin") != NULL);
}

static void single_points(void)
{
    double third[3] = {0.9, 0.8, 0.7}, length = sqrt((0.9 * 0.9 + 0.8 * 0.8) + 0.7 * 0.7), shorter[3] = {0.1, 0.2, 0.3};
    size_t i;
    HOLDS(arcstring_xyz_eq(0.1, 0.2, 0.3, 0.1, 0.2, 0.3, &yes) == 0 && yes == 1);
    HOLDS(arcstring_xyz_eq(0.1, 0.2, 0.3, 0.1, 0.2, 0.3 + 4e-11, &yes) == 0 && yes == 0);
    HOLDS(arcstring_xyz_eq(0.1, 0.2, NAN, 0.1, 0.2, 0.3, &yes) == ARCSTRING_OUT_OF_RANGE && yes == 0);
    HOLDS(arcstring_xyzs_coplanar(1, 0, 0, 0, 1, 0, 0.5, 0.5, 0, &yes) == 0 && yes == 1);
    HOLDS(arcstring_xyzs_coplanar(1, 0, 0, 0.5, 0.5, 0, 0, 1, 0, &yes) == 0 && yes == 0);
    HOLDS(arcstring_xyzs_coplanar(0.6, 0, 0.8, 0, 0.6, 0.8, 0.3, 0.3, 0.8, &yes) == 0 && yes == 1);
    HOLDS(arcstring_xyzs_coplanar(0.6, 0, 0.8, 0, 0.6, 0.8, 0.3, 0.8, 0.3, &yes) == 0 && yes == 0);
    HOLDS(arcstring_point(0.9, 0.8, 0.7, out) == 0);
    for (i = 0; i < 3; i++) HOLDS(out[i] == third[i] / length);
    HOLDS(arcstring_point(0.1, 0.2, 0.3, out) == 0 && SAME(out, shorter, 3));
}

/* the points of a closed string are divided by their length twice, those of an open one once */
static void building(void)
{
    const double tiny[9] = {1e-12, 2e-12, 0, 0, 1, 0, 0, 0, 1};
    double v[12] = {0.9, 0.8, 0.7, 0.3, -0.2, 0.9, -0.5, 0.6, 0.1, 0.9, 0.8, 0.7}, once[9], twice[9], length;
    size_t i, k, differ = 0;
    HOLDS(arcstring_build(v, 9, buoys, 3, out, 9, numbers, 3, &n, &closed) == 0 && n == 3 && closed == 0 && SAME(numbers, buoys, 3));
    for (i = 0; i < 9; i++) {
        k = i / 3 * 3, length = sqrt((v[k] * v[k] + v[k + 1] * v[k + 1]) + v[k + 2] * v[k + 2]);
        once[i] = v[i] / length;
    }
    for (i = 0; i < 9; i++) {
        k = i / 3 * 3, length = sqrt((once[k] * once[k] + once[k + 1] * once[k + 1]) + once[k + 2] * once[k + 2]);
        twice[i] = once[i] / length, differ += twice[i] != once[i];
    }
    HOLDS(SAME(out, once, 9));
    HOLDS(arcstring_build(v, 12, buoys, 4, out, 9, numbers, 3, &n, &closed) == 0 && n == 3 && closed == 1 && SAME(out, twice, 9));
    HOLDS(differ > 0 && SAME(numbers, buoys, 3));
    HOLDS(arcstring_build_flagged(v, 12, buoys, 4, 0, out, 9, numbers, 3, &n) == 0 && n == 3 && SAME(out, twice, 9));
    HOLDS(arcstring_build(tiny, 9, buoys, 3, out, 9, numbers, 3, &n, &closed) == 0 && SAME(out, tiny, 3));
    HOLDS(arcstring_build(v, 3, buoys, 2, out, 9, numbers, 3, &n, &closed) == ARCSTRING_BUOYS_NOT_AS_MANY);
    HOLDS(arcstring_build(v, 9, buoys, 3, out, 8, numbers, 3, &n, &closed) == ARCSTRING_NO_ROOM);
    HOLDS(arcstring_build(v, 9, buoys, 3, out, 9, numbers, 2, &n, &closed) == ARCSTRING_NO_ROOM && n == 3);
    HOLDS(arcstring_build(NULL, 0, NULL, 0, NULL, 0, NULL, 0, &n, &closed) == ARCSTRING_TOO_FEW_POINTS);
}

static void walks(void)
{
    const double back[9] = {0, 0, 1, 0, 1, 0, 1, 0, 0}, from_1[9] = {0, 1, 0, 0, 0, 1, 1, 0, 0};
    const uint32_t numbers_back[3] = {13, 12, 11}, numbers_from_1[3] = {12, 13, 11};
    HOLDS(arcstring_walk_back(xyz, 9, buoys, 3, out, 9, numbers, 3, &n) == 0 && n == 3 && SAME(out, back, 9) && SAME(numbers, numbers_back, 3));
    HOLDS(arcstring_restart(xyz, 9, buoys, 3, 1, 1, out, 9, numbers, 3, &n) == 0 && n == 3 && SAME(out, from_1, 9) && SAME(numbers, numbers_from_1, 3));
    HOLDS(arcstring_restart(xyz, 9, buoys, 3, 1, 3, out, 9, numbers, 3, &n) == 0 && SAME(out, xyz, 9) && SAME(numbers, buoys, 3));
    HOLDS(arcstring_restart(xyz, 9, buoys, 3, 0, 1, out, 9, numbers, 3, &n) == 0 && SAME(out, xyz, 9));
    arcstring_run(xyz, 9, 1, 3, &n, &len);
    HOLDS(n == 3 && len == 6);
    arcstring_run(xyz, 9, 3, 1, &n, &len);
    HOLDS(n == 0 && len == 0);
    arcstring_run(xyz, 8, 1, 2, &n, &len);
    HOLDS(n == 0 && len == 0);
    arcstring_run(NULL, 0, 0, 0, &n, &len);
    HOLDS(n == 0 && len == 0);
}

/* a point is not normalised; that of a grazing pair may be the zero vector, and go when a leg is walked backwards */
static void pairs(void)
{
    const double touching[6] = {1, 0, 0, 1, 0, 0.5}, touching_back[6] = {1, 0, 0.5, 1, 0, 0}, cross_a_back[6] = {1, 0.5, 0, 1, -0.5, 0};
    const double above[6] = {1, 0, 0.25, 1, 0, 0.5}, past_a[6] = {1, -1e-12, 0, 0, 1, 0}, past_b[6] = {1, 0, -1e-12, 0, 0, 1};
    const double no_length[6] = {0.3, 0.2, 0.1, 0.3, 0.2, 0.1};
    const double x[3] = {1, 0, 0}, half_x[3] = {0.5, 0, 0}, zero[3] = {0, 0, 0}, before[3] = {4, 5, 6};
    uint8_t class_, kept;
    HOLDS(arcstring_pair(cross_a, cross_b, &class_, &kept, out) == 0 && class_ == ARCSTRING_CLEAN && kept == 1 && SAME(out, x, 3));
    HOLDS(arcstring_pair(past_a, past_b, &class_, &kept, out) == 0 && class_ == ARCSTRING_END && kept == 0 && SAME(out, x, 3));
    HOLDS(arcstring_pair(cross_a, touching, &class_, &kept, out) == 0 && class_ == ARCSTRING_GRAZING && kept == 1 && SAME(out, half_x, 3));
    memcpy(out, before, sizeof before);
    HOLDS(arcstring_pair(cross_a, touching_back, &class_, &kept, out) == 0 && class_ == ARCSTRING_GRAZING && kept == 0 && SAME(out, before, 3));
    HOLDS(arcstring_pair(cross_a, cross_a, &class_, &kept, out) == 0 && class_ == ARCSTRING_GRAZING && kept == 1 && SAME(out, zero, 3));
    memcpy(out, before, sizeof before);
    HOLDS(arcstring_pair(cross_a, cross_a_back, &class_, &kept, out) == 0 && class_ == ARCSTRING_GRAZING && kept == 0 && SAME(out, before, 3));
    HOLDS(arcstring_pair(no_length, cross_b, &class_, &kept, out) == 0 && class_ == ARCSTRING_GRAZING);
    memcpy(out, before, sizeof before);
    HOLDS(arcstring_pair(cross_a, above, &class_, &kept, out) == 0 && class_ == ARCSTRING_APART && kept == 0 && SAME(out, before, 3));
}

/* what is kept of two strings, first all of it, then with the room that the counts tell, then with a mark too few */
static void listings(void)
{
    const double a[9] = {1, -0.5, 0.1, 1, 0.5, 0.1, 1, 0.5, -0.5}, b[9] = {1, 0.1, -0.5, 1, 0.1, 0.5, 1, -0.1, -0.5}, one[3] = {1, 0, 0};
    size_t i, room;
    HOLDS(arcstring_count(a, 9, 0, b, 9, 0, 0.0, counts) == 0 && counts[0] == 2 && counts[1] == 0 && counts[2] == 0 && counts[3] == 2);
    HOLDS(arcstring_count(a, 9, 0, b, 9, 1, 0.0, counts) == 0 && counts[0] == 2 && counts[2] == 1 && counts[3] == 3);
    HOLDS(arcstring_count(a, 9, 1, b, 9, 0, 0.0, counts) == 0 && counts[0] == 4 && counts[3] == 2);
    HOLDS(arcstring_count(NULL, 0, 0, nan_point, 3, 0, 0.0, counts) == ARCSTRING_NOT_TRIPLES);
    HOLDS(arcstring_count(nan_point, 3, 0, NULL, 0, 0, 0.0, counts) == ARCSTRING_OUT_OF_RANGE && counts[3] == 2);
    HOLDS(arcstring_crossings(a, 9, 0, b, 9, 0, 0.0, points, 6, marks, 2, &n, counts) == 0 && n == 2 && marks[0] == 1 && marks[1] == 1);
    HOLDS(points[1] > 0 && points[4] < points[1]); /* along the first string's one leg: the second string's first leg comes first */
    HOLDS(arcstring_crossings(b, 9, 0, b, 9, 0, 0.0, points, 12, marks, 4, &n, counts) == 0 && counts[2] == 4 && n <= counts[0] + counts[2]);
    room = (size_t)(counts[0] + counts[2]);
    HOLDS(arcstring_crossings(b, 9, 0, b, 9, 0, 0.0, points, 3 * room, marks, room, &i, counts) == 0 && i == n && n > 0);
    HOLDS(arcstring_crossings(b, 9, 0, b, 9, 0, 0.0, points, 3 * n, marks, n - 1, &i, counts) == ARCSTRING_NO_ROOM && i == n);
    HOLDS(arcstring_crossings(b, 9, 0, b, 9, 0, 0.0, points, 3 * n - 1, marks, n, &i, counts) == ARCSTRING_NO_ROOM && i == n);
    HOLDS(arcstring_crossings(one, 3, 0, b, 9, 0, 0.0, NULL, 0, NULL, 0, &n, counts) == 0 && n == 0 && counts[3] == 0);
    HOLDS(arcstring_leg_crossings(cross_a, b, 9, 1, 0.0, points, 9, marks, 3, &n, counts) == 0 && n == 2 && counts[0] == 2 && counts[3] == 1);
    HOLDS(arcstring_leg_crossings(cross_a, b, 9, 0, 0.0, points, 9, marks, 1, &n, counts) == ARCSTRING_NO_ROOM && n == 2);
    HOLDS(arcstring_leg_crossings(cross_a, b, 9, 0, 0.0, points, 5, marks, 2, &n, counts) == ARCSTRING_NO_ROOM && n == 2);
}

/* a string that crosses itself once, and sides of a leg; the points of a string with itself are normalised */
static void with_itself(void)
{
    const double eight[12] = {1, -0.5, 0, 1, 0.5, 0, 1, 0.2, -0.5, 1, 0.2, 0.5}, x2 = 1, y2 = 0.2;
    size_t room;
    HOLDS(arcstring_count(eight, 12, 0, eight, 12, 0, 0.0, counts) == 0);
    room = (size_t)(counts[0] + counts[2]);
    HOLDS(arcstring_crossings_with_self(eight, 12, 0.0, points, 3 * room, marks, room, &n, counts) == 0 && n == 1 && marks[0] == 1 && counts[0] == 1);
    HOLDS(counts[1] + counts[2] + counts[3] == 0 && fabs(points[0] - x2 / sqrt(x2 * x2 + y2 * y2)) < 1e-15 && points[2] == 0);
    HOLDS(arcstring_crossings_with_self(eight, 12, 0.0, points, 2, marks, 1, &n, counts) == ARCSTRING_NO_ROOM);
    HOLDS(arcstring_crossings_with_self(eight, 12, 0.0, points, 3, marks, 0, &n, counts) == ARCSTRING_NO_ROOM);
    HOLDS(arcstring_crosses_self(eight, 12, 0, &yes) == 0 && yes == 1);
    HOLDS(arcstring_crosses_self(xyz, 9, 1, &yes) == 0 && yes == 0);
    HOLDS(arcstring_same_side(1, 0.1, -0.4, 1, 0.1, 0.4, cross_a, 6, 0, &yes) == 0 && yes == 0);
    HOLDS(arcstring_same_side(1, 0.1, 0.2, 1, -0.4, 0.3, cross_a, 6, 0, &yes) == 0 && yes == 1);
}

/* what a call that takes a margin writes of nine pairs of legs; every byte is set before it, and there are none between */
struct found { double points[27]; uint64_t counts[4]; size_t kept; uint8_t marks[16]; };

/* the four of them, with room for so many points: a leg with clean, end and apart pairs, two strings with pairs of every class, one that
 * crosses itself */
static uint32_t at_margin(int call, double margin, size_t room, struct found *f)
{
    const double a[12] = {1, -1e-12, 0, 0, 1, 0, 1, 0.4, 0.5, 1, -0.3, -0.5}, b[12] = {1, 0, -1e-12, 0, 0, 1, 1, 0.1, 0.5, 1, 0.1, -0.5};
    memset(f, 0xA5, sizeof *f);
    switch (call) {
    case 0: return arcstring_leg_crossings(cross_a, b, 12, 0, margin, f->points, 3 * room, f->marks, room, &f->kept, f->counts);
    case 1: return arcstring_crossings(a, 12, 0, b, 12, 0, margin, f->points, 3 * room, f->marks, room, &f->kept, f->counts);
    case 2: return arcstring_crossings_with_self(a, 12, margin, f->points, 3 * room, f->marks, room, &f->kept, f->counts);
    default: return arcstring_count(a, 12, 0, b, 12, 0, margin, f->counts);
    }
}

/* -0 is as 0; a margin wider than every side value leaves the points, and all pairs graze; a refused one leaves every place */
static void at_margins(int call)
{
    const double refused[5] = {-5e-324, -1e300, NAN, INFINITY, -INFINITY};
    const size_t most = 9;
    struct found before, f, wide;
    uint64_t all, i;
    memset(&before, 0xA5, sizeof before);
    HOLDS(at_margin(call, 0.0, most, &f) == 0 && at_margin(call, -0.0, most, &wide) == 0 && SAME(&f, &wide, 1));
    HOLDS(at_margin(call, 1e300, most, &wide) == 0 && wide.kept == f.kept && SAME(f.points, wide.points, LENGTH(f.points)));
    all = f.counts[0] + f.counts[1] + f.counts[2] + f.counts[3];
    HOLDS(all > f.counts[2] && wide.counts[0] == 0 && wide.counts[1] == 0 && wide.counts[2] == all && wide.counts[3] == 0);
    for (i = 0; i < f.kept && i < most; i++) HOLDS(wide.marks[i] == (call == 3 ? before.marks[i] : 0));
    HOLDS(call == 3 || (f.kept > 0 && f.kept < most && wide.marks[f.kept] == before.marks[f.kept]));
    for (i = 0; i < LENGTH(refused); i++) {
        HOLDS(at_margin(call, refused[i], most, &f) == ARCSTRING_MARGIN_OUT_OF_RANGE && SAME(&f, &before, 1));
        HOLDS(at_margin(call, refused[i], 0, &f) == ARCSTRING_MARGIN_OUT_OF_RANGE && SAME(&f, &before, 1)); /* before 7 */
    }
    HOLDS(call == 3 || (at_margin(call, 1e300, 0, &f) == ARCSTRING_NO_ROOM && SAME(&f, &before, 1)));
}

/* a margin that is a side value's size makes the pair graze, the float below it does not; a list's refusals come before the margin's */
static void margins(void)
{
    const double below = nextafter(0.5, 0.0), nan_leg[6] = {0, 1, 0, 0, NAN, 0};
    int call;
    for (call = 0; call < 4; call++) at_margins(call);
    HOLDS(arcstring_count(cross_a, 6, 0, cross_b, 6, 0, below, counts) == 0 && counts[0] == 1); /* its four side values are 0.5 */
    HOLDS(arcstring_count(cross_a, 6, 0, cross_b, 6, 0, 0.5, counts) == 0 && counts[0] == 0 && counts[2] == 1);
    HOLDS(arcstring_leg_crossings(cross_a, cross_b, 6, 0, below, points, 3, marks, 1, &n, counts) == 0 && n == 1 && marks[0] == 1);
    HOLDS(arcstring_leg_crossings(cross_a, cross_b, 6, 0, 0.5, points, 3, marks, 1, &n, counts) == 0 && n == 1 && marks[0] == 0 && points[0] == 1);
    HOLDS(arcstring_leg_crossings(nan_leg, xyz, 8, 0, NAN, NULL, 0, NULL, 0, &n, counts) == ARCSTRING_OUT_OF_RANGE);
    HOLDS(arcstring_leg_crossings(cross_a, xyz, 8, 0, NAN, NULL, 0, NULL, 0, &n, counts) == ARCSTRING_NOT_TRIPLES);
    HOLDS(arcstring_leg_crossings(cross_a, nan_point, 3, 0, -1, NULL, 0, NULL, 0, &n, counts) == ARCSTRING_OUT_OF_RANGE);
    HOLDS(arcstring_crossings(nan_point, 3, 0, xyz, 8, 0, NAN, NULL, 0, NULL, 0, &n, counts) == ARCSTRING_OUT_OF_RANGE);
    HOLDS(arcstring_crossings(xyz, 9, 0, xyz, 8, 0, NAN, NULL, 0, NULL, 0, &n, counts) == ARCSTRING_NOT_TRIPLES);
    HOLDS(arcstring_crossings(xyz, 9, 0, nan_point, 3, 0, -1, NULL, 0, NULL, 0, &n, counts) == ARCSTRING_OUT_OF_RANGE);
    HOLDS(arcstring_count(nan_point, 3, 0, xyz, 8, 0, NAN, counts) == ARCSTRING_OUT_OF_RANGE);
    HOLDS(arcstring_count(xyz, 9, 0, nan_point, 3, 0, -1, counts) == ARCSTRING_OUT_OF_RANGE);
    HOLDS(arcstring_crossings_with_self(xyz, 8, NAN, NULL, 0, NULL, 0, &n, counts) == ARCSTRING_NOT_TRIPLES);
    HOLDS(arcstring_crossings_with_self(nan_point, 3, -1, NULL, 0, NULL, 0, &n, counts) == ARCSTRING_OUT_OF_RANGE && n == 1);
}

typedef uint32_t comparison(const double *, size_t, const double *, size_t, uint8_t, const double *, size_t, const double *, size_t, uint8_t,
                            uint8_t *);

/* each of the four lists of a comparison is refused in its turn, so that no two of them can be swapped */
static void in_turn(comparison *call)
{
    HOLDS(call(xyz, 8, NULL, 0, 0, nan_point, 3, nan_point, 3, 0, &yes) == ARCSTRING_NOT_TRIPLES);
    HOLDS(call(nan_point, 3, NULL, 0, 0, NULL, 0, NULL, 0, 0, &yes) == ARCSTRING_OUT_OF_RANGE);
    HOLDS(call(xyz, 9, NULL, 0, 0, nan_point, 3, nan_point, 3, 0, &yes) == ARCSTRING_NOT_TRIPLES);
    HOLDS(call(xyz, 9, xyz, 9, 0, nan_point, 3, NULL, 0, 0, &yes) == ARCSTRING_OUT_OF_RANGE);
    HOLDS(call(xyz, 9, xyz, 9, 0, xyz, 9, NULL, 0, 0, &yes) == ARCSTRING_NOT_TRIPLES);
}

/* lists that are only read may be the same; an empty near list is refused by 1 */
static void near_lists(void)
{
    const double m[3] = {R, R, 0}, ends[6] = {1, 0, 0, 0, 1, 0}, there_and_back[9] = {1, 0, 0, 0, 1, 0, 1, 0, 0};
    in_turn(arcstring_eq), in_turn(arcstring_crosses), in_turn(arcstring_equals), in_turn(arcstring_overlaps);
    HOLDS(arcstring_along(1, 0, 0, xm, 6, xm, 6, 0, &yes) == 0 && yes == 1);
    HOLDS(arcstring_along(0, 1, 0, xm, 6, xm, 6, 0, &yes) == 0 && yes == 1); /* beyond the end of its leg: as the source has it */
    HOLDS(arcstring_along(R, R, 0, ends, 6, ends, 6, 0, &yes) == 0 && yes == 0); /* between its ends */
    HOLDS(arcstring_along(0, 0, 1, xm, 6, xyz, 9, 0, &yes) == 0 && yes == 1); /* near, by the near list alone */
    HOLDS(arcstring_along(0, 0, 1, xm, 6, xm, 6, 0, &yes) == 0 && yes == 0);
    HOLDS(arcstring_along(0, 0, 1, nan_point, 3, NULL, 0, 0, &yes) == ARCSTRING_OUT_OF_RANGE);
    HOLDS(arcstring_along(0, 0, 2, xm, 6, NULL, 0, 0, &yes) == ARCSTRING_NOT_TRIPLES);
    HOLDS(arcstring_eq(xyz, 9, xyz, 9, 0, xyz, 9, xyz, 9, 0, &yes) == 0 && yes == 1);
    HOLDS(arcstring_eq(xyz, 9, xyz, 9, 1, xyz, 9, xyz, 9, 0, &yes) == 0 && yes == 0);
    HOLDS(arcstring_eq(there_and_back, 9, ends, 6, 0, ends, 6, ends, 6, 0, &yes) == 0 && yes == 1); /* not symmetric */
    HOLDS(arcstring_eq(ends, 6, ends, 6, 0, there_and_back, 9, ends, 6, 0, &yes) == 0 && yes == 0);
    HOLDS(arcstring_equals(xyz, 9, xyz, 9, 0, ends, 6, ends, 6, 0, &yes) == 0 && yes == 1); /* X, Y, Z is simplified to X, Y */
    HOLDS(arcstring_eq(xyz, 9, xyz, 9, 0, ends, 6, ends, 6, 0, &yes) == 0 && yes == 0);
    HOLDS(arcstring_overlaps(xyz, 9, xyz, 9, 0, m, 3, m, 3, 0, &yes) == 0 && yes == 0);
    HOLDS(arcstring_crosses(cross_a, 6, cross_a, 6, 0, cross_b, 6, cross_b, 6, 0, &yes) == 0 && yes == 1);
    HOLDS(arcstring_crosses(cross_a, 6, cross_a, 6, 0, cross_a, 6, cross_a, 6, 0, &yes) == 0 && yes == 0);
    HOLDS(arcstring_within(y, 3, xyz, 9, xyz, 9, 0, &yes) == 0 && yes == 1);
    HOLDS(arcstring_within(xyz, 9, y, 3, y, 3, 0, &yes) == 0 && yes == 0);
    HOLDS(arcstring_within(y, 3, nan_point, 3, NULL, 0, 0, &yes) == ARCSTRING_OUT_OF_RANGE);
    HOLDS(arcstring_contains(xyz, 9, xyz, 9, 0, y, 3, &yes) == 0 && yes == 1);
    HOLDS(arcstring_contains(y, 3, y, 3, 0, xyz, 9, &yes) == 0 && yes == 0);
    HOLDS(arcstring_contains(xyz, 9, NULL, 0, 0, nan_point, 3, &yes) == ARCSTRING_NOT_TRIPLES);
}

static void measures(void)
{
    const double left[9] = {1, -0.5, 0, 1, 0, 0, 1, 0, 0.5}, right[9] = {1, -0.5, 0, 1, 0, 0, 1, 0, -0.5};
    HOLDS(arcstring_turn_orientations(left, 9, 0, out, 3, &n) == 0 && n == 3 && out[1] == -0.25 && isnan(out[0]) && isnan(out[2]));
    HOLDS(arcstring_turn_orientations(right, 9, 0, out, 3, &n) == 0 && n == 3 && out[1] == 0.25);
    HOLDS(arcstring_turn_orientations(left, 9, 1, out, 3, &n) == 0 && !isnan(out[0]));
    HOLDS(arcstring_midpoints(xyz, 9, 0, out, 6, &n) == 0 && n == 2 && fabs(out[0] - R) < 1e-15 && out[2] == 0 && out[3] == 0);
    HOLDS(arcstring_midpoints(xyz, 9, 1, out, 9, &n) == 0 && n == 3);
    HOLDS(arcstring_midpoints(y, 3, 0, out, 9, &n) == ARCSTRING_TOO_FEW_POINTS && n == 3);
}

/* open X, Y, Z loses Z; a vertex between its neighbours stays, one beyond the next goes */
static void simplified(void)
{
    const double between[18] = {1, 0, 0, 0.6, 0.8, 0, 0, 1, 0, 0, 0, 1, -0.6, 0, 0.8, -0.8, 0.6, 0};
    const double beyond[18] = {1, 0, 0, 0, 1, 0, 0.6, 0.8, 0, 0, 0, 1, -0.6, 0, 0.8, -0.8, 0.6, 0};
    const uint32_t without_12[5] = {11, 13, 14, 15, 16};
    HOLDS(arcstring_simplify(xyz, 9, buoys, 3, 0, out, 9, numbers, 3, &n) == 0 && n == 2 && SAME(out, xyz, 6) && SAME(numbers, buoys, 2));
    HOLDS(arcstring_simplify(between, 18, buoys, 6, 0, out, 18, numbers, 6, &n) == 0 && n == 6 && SAME(numbers, buoys, 6));
    HOLDS(arcstring_simplify(beyond, 18, buoys, 6, 0, out, 18, numbers, 6, &n) == 0 && n == 5 && SAME(numbers, without_12, 5));
}

/* a point goes in before the start of its leg, with its own number; a leg of no length takes nearly any point; a cut closed string loses
 * its closing leg */
static void changes(void)
{
    const double inserted[9] = {0, 1, 0, 1, 0, 0, 0.5, 0.5, 0}, halves[12] = {1, 0, 0, 0, 1, 0, 0, 1, 0, 0, 1, 0};
    const uint32_t with_seven[3] = {7, 11, 12}, cut_numbers[4] = {11, 7, 7, 12};
    HOLDS(arcstring_insert_vertices(xm, 6, buoys, 2, 0, y, 3, seven, 1, out, 9, numbers, 3, &n) == 0 && n == 3 && SAME(out, inserted, 9));
    HOLDS(SAME(numbers, with_seven, 3));
    HOLDS(arcstring_insert_vertices(xm, 6, buoys, 2, 0, NULL, 0, NULL, 0, out, 6, numbers, 2, &n) == 0 && n == 2 && SAME(out, xm, 6));
    HOLDS(arcstring_insert_vertices(xm, 6, buoys, 2, 0, y, 2, seven, 3, out, 9, numbers, 3, &n) == ARCSTRING_NOT_TRIPLES);
    HOLDS(arcstring_insert_vertices(xm, 6, buoys, 2, 0, y, 3, seven, 0, out, 9, numbers, 3, &n) == ARCSTRING_BUOYS_NOT_AS_MANY);
    HOLDS(arcstring_split_leg(xm, y, 3, out, 12, &n) == 0 && n == 2 && SAME(out, halves, 12));
    HOLDS(arcstring_split_leg(xm, y, 3, out, 11, &n) == ARCSTRING_NO_ROOM && n == 2);
    HOLDS(arcstring_split_leg(xm, xyz + 6, 3, NULL, 0, &n) == 0 && n == 0);
    HOLDS(arcstring_split_leg(xm, xyz + 3, 6, out, 18, &n) == 0 && n == 3);
    HOLDS(arcstring_split(xyz, 9, buoys, 3, 0, y, 3, seven, 1, out, 24, numbers, 8, counts_of, 3, flags, 3, &n) == 0);
    HOLDS(arcstring_split(xyz, 9, buoys, 3, 1, y, 3, seven, 1, points, 24, numbers, 8, counts_of, 3, flags, 3, &len) == 0 && len == n);
    HOLDS(SAME(out, points, 3 * (counts_of[0] + counts_of[1] + counts_of[2])));
    HOLDS(arcstring_split(xm, 6, buoys, 2, 0, y, 3, seven, 1, out, 12, numbers, 4, counts_of, 2, flags, 2, &n) == 0 && n == 2);
    HOLDS(counts_of[0] == 2 && counts_of[1] == 2 && flags[0] == 0 && flags[1] == 0 && SAME(numbers, cut_numbers, 4));
    HOLDS(SAME(out, halves, 9) && fabs(out[9] - R) < 1e-15 && fabs(out[10] - R) < 1e-15);
    HOLDS(arcstring_split(xm, 6, buoys, 2, 0, y, 3, seven, 1, out, 12, numbers, 4, counts_of, 1, flags, 2, &n) == ARCSTRING_NO_ROOM);
    HOLDS(arcstring_split(xm, 6, buoys, 2, 0, y, 3, seven, 1, out, 12, numbers, 4, counts_of, 2, flags, 1, &n) == ARCSTRING_NO_ROOM);
    HOLDS(arcstring_split(xm, 6, buoys, 2, 0, NULL, 0, NULL, 0, NULL, 0, NULL, 0, NULL, 0, NULL, 0, &n) == 0 && n == 0);
}

static int on_leg(const double leg[6], double x, double y_, double z)
{
    return arcstring_mark_on_leg(leg, x, y_, z, &yes) == 0 && yes == 1;
}

/* the inherited test looks for the leg's end between its start and the mark; this one for the mark between the leg's ends */
static void marks_on_legs(void)
{
    const double tilted[6] = {0.6, 0, 0.8, 0, 0.28, 0.96}, back[6] = {0, 1, 0, 1, 0, 0}, none[6] = {1, 0, 0, 1, 0, 0}, nan_end[6] = {1, 0, 0, 0, NAN, 0};
    const double shorter[6] = {1, 0, 0, 1, 1e-8, 0}, longer[6] = {1, 0, 0, 1, 3e-8, 0}, wide[6] = {1, 0, 0, -0.8, 0.6, 0};
    const double tenth_long[6] = {1, 0, 0, 1, 0.1, 0};
    const double opposite[6] = {1, 0, 0, -0.99999999, 1e-4, 0}, nearly[6] = {1, 0, 0, -0.9999995, 1e-3, 0};
    const double tenth = sqrt(0.1), three = 3 * tenth; /* the middle of the wide leg, of 143 degrees */
    HOLDS(on_leg(tilted, 0.3, 0.14, 0.88) && !on_leg(tilted, 0.14, 0.3, 0.88) && !on_leg(tilted, 0.3, 0.88, 0.14) && !on_leg(tilted, 0.88, 0.14, 0.3));
    HOLDS(on_leg(xyz, R, R, 0) && on_leg(back, R, R, 0) && on_leg(xyz, 0.5, 0.5, 0)); /* between the ends, of any length */
    HOLDS(arcstring_xyzs_coplanar(1, 0, 0, R, R, 0, 0, 1, 0, &yes) == 0 && yes == 0);
    HOLDS(!on_leg(xm, 0, 1, 0) && !on_leg(xm, R, -R, 0)); /* past the end, before the start */
    HOLDS(arcstring_xyzs_coplanar(1, 0, 0, 0, 1, 0, 0.5, 0.5, 0, &yes) == 0 && yes == 1);
    HOLDS(on_leg(xyz, 1, 0, 0) && on_leg(xyz, 0, 1, 0) && on_leg(xyz, 1, -2e-11, 0) && !on_leg(xyz, 1, -4e-11, 0)); /* at an end, or just past it */
    HOLDS(on_leg(xyz, R, R, 1e-8) && !on_leg(xyz, R, R, 3e-8) && !on_leg(xyz, 0, 0, 1)); /* off the plane */
    HOLDS(on_leg(longer, 1, 1.5e-8, 0) && !on_leg(shorter, 1, 5e-9, 0) && on_leg(shorter, 1, 0, 0) && on_leg(shorter, 1, 1e-8, 0));
    HOLDS(on_leg(none, 1, 0, 0) && !on_leg(none, 0, 1, 0) && !on_leg(none, 1, 1e-10, 0)); /* a leg of no length holds its ends alone */
    HOLDS(on_leg(nearly, 0, 1, 0) && !on_leg(opposite, 0, 1, 0) && on_leg(opposite, 1, 0, 0) && on_leg(opposite, -0.99999999, 1e-4, 0));
    HOLDS(on_leg(wide, tenth, three, 0) && !on_leg(wide, -tenth, -three, 0)); /* the far side of a leg over 120 degrees */
    HOLDS(on_leg(wide, 0.96, 0.28, 0) && !on_leg(wide, 0.96, -0.28, 0)); /* over 90 degrees from its end, and on it */
    HOLDS(on_leg(tenth_long, 1, 0.05, 1e-8) && !on_leg(tenth_long, 1, 0.05, 1e-7)); /* off the plane by a distance, whatever the leg's length */
    HOLDS(on_leg(wide, 0, 0, 0) && on_leg(wide, -0.0, -0.0, -0.0) && !on_leg(xm, 0, 0, 0)); /* the zero vector is on legs of 90 degrees or more */
    HOLDS(arcstring_xyzs_coplanar(1, 0, 0, -0.8, 0.6, 0, -tenth, -three, 0, &yes) == 0 && yes == 1);
    HOLDS(arcstring_mark_on_leg(nan_end, R, R, 0, &yes) == ARCSTRING_OUT_OF_RANGE && yes == 1);
    HOLDS(arcstring_mark_on_leg(xyz, R, R, 2, &yes) == ARCSTRING_OUT_OF_RANGE && arcstring_mark_on_leg(xyz, NAN, R, 0, &yes) == ARCSTRING_OUT_OF_RANGE);
    HOLDS(yes == 1);
}

static const double too_many[3 * 1025] = {0};
static const uint32_t as_many[1025] = {0};

static int on_string(double x, double y_, double z, const double *v, size_t v_len, uint8_t closed_)
{
    return arcstring_mark_on_string(x, y_, z, v, v_len, closed_, &yes) == 0 && yes == 1;
}

/* some leg holds it: the closing leg of a closed string, too, and none of an open string of one vertex */
static void marks_on_strings(void)
{
    HOLDS(on_string(0.8, 0.6, 0, xyz, 9, 0) && on_string(0, 0.8, 0.6, xyz, 9, 0) && !on_string(0.8, 0, 0.6, xyz, 9, 0));
    HOLDS(on_string(0.8, 0, 0.6, xyz, 9, 1) && on_string(0.8, 0, 0.6, xyz, 9, 255) && !on_string(0.8, 0, 0.6, xyz, 6, 1));
    HOLDS(!on_string(0.8, -0.6, 0, xyz, 9, 1) && !on_string(-0.8, 0.6, 0, xyz, 9, 1) && on_string(0, 0, 1, xyz, 9, 0));
    HOLDS(on_string(0, 1, 0, y, 3, 1) && !on_string(0, 1, 0, y, 3, 0) && !on_string(1, 0, 0, y, 3, 1));
    HOLDS(arcstring_along(0.8, 0.6, 0, xyz, 9, xyz, 9, 0, &yes) == 0 && yes == 0);
    HOLDS(arcstring_mark_on_string(NAN, 0, 0, NULL, 0, 0, &yes) == ARCSTRING_NOT_TRIPLES);
    HOLDS(arcstring_mark_on_string(NAN, 0, 0, nan_point, 2, 0, &yes) == ARCSTRING_NOT_TRIPLES);
    HOLDS(arcstring_mark_on_string(NAN, 0, 0, too_many, LENGTH(too_many), 0, &yes) == ARCSTRING_TOO_MANY_POINTS);
    HOLDS(arcstring_mark_on_string(1, 0, 0, nan_point, 3, 0, &yes) == ARCSTRING_OUT_OF_RANGE);
    HOLDS(arcstring_mark_on_string(1, 0, -1.5, xyz, 9, 0, &yes) == ARCSTRING_OUT_OF_RANGE && yes == 0);
}

/* what a cut of a string writes; every byte is set before it, and there are none between */
struct cut { double out[30]; size_t counts[6], pieces; uint32_t numbers[10]; };

/* with room for so many doubles, numbers and counts; the points' numbers are 21, 22 and so on */
static uint32_t cut(const double *v, size_t v_len, uint8_t closed_, const double *p, size_t p_len, size_t doubles, size_t most, size_t pieces,
                    struct cut *c)
{
    const uint32_t point_numbers[6] = {21, 22, 23, 24, 25, 26};
    memset(c, 0xA5, sizeof *c);
    return arcstring_cut_at_marks(v, v_len, buoys, v_len / 3, closed_, p, p_len, point_numbers, p_len / 3, c->out, doubles, c->numbers, most, c->counts,
                                  pieces, &c->pieces);
}

/* the point stands in both pieces, as it was given and with its own number; a closed string is opened at vertex 0 */
static void cuts(void)
{
    const double m[3] = {0.5, 0.5, 0}, closing[3] = {0.8, 0, 0.6}, two[6] = {0.6, 0.8, 0, 0.8, 0.6, 0}, m_twice[6] = {0.5, 0.5, 0, 0.5, 0.5, 0};
    const double halves[12] = {1, 0, 0, 0.5, 0.5, 0, 0.5, 0.5, 0, 0, 1, 0}, opened[18] = {1, 0, 0, 0, 1, 0, 0, 0, 1, 0.8, 0, 0.6, 0.8, 0, 0.6, 1, 0, 0};
    const double thirds[18] = {1, 0, 0, 0.8, 0.6, 0, 0.8, 0.6, 0, 0.6, 0.8, 0, 0.6, 0.8, 0, 0, 1, 0}, own[15] = {1, 0, 0, 0, 1, 0, 0, 1, 0, 0, 1, 0, 0, 0, 1};
    const uint32_t of_halves[4] = {11, 21, 21, 12}, of_opened[6] = {11, 12, 13, 21, 21, 11};
    const uint32_t of_thirds[6] = {11, 22, 22, 21, 21, 12}, of_own[5] = {11, 22, 22, 12, 13};
    const double around[15] = {1, 0, 0, 0, 1, 0, 0, 0, 1, 1, 0, 0, 0, 1, 0}, several[9] = {0.5, 0.5, 0, 0, 0.8, 0.6, 0.5, 0.5, 0};
    const double there_and_back[9] = {1, 0, 0, 0, 1, 0, 1, 0, 0}, nearer[6] = {0.5, 0.5, 0, 0.8, 0.6, 0}, quarter[3] = {0.75, 0.25, 0};
    struct cut before, c;
    memset(&before, 0xA5, sizeof before);
    HOLDS(cut(xyz, 6, 0, m, 3, 12, 4, 2, &c) == 0 && c.pieces == 2 && c.counts[0] == 2 && c.counts[1] == 2 && c.counts[2] == before.counts[2]);
    HOLDS(SAME(c.out, halves, 12) && SAME(c.out + 12, before.out + 12, 18) && SAME(c.numbers, of_halves, 4) && SAME(c.numbers + 4, before.numbers + 4, 6));
    HOLDS(cut(xyz, 6, 0, m, 3, 11, 4, 2, &c) == ARCSTRING_NO_ROOM && SAME(&c, &before, 1));
    HOLDS(cut(xyz, 6, 0, m, 3, 12, 3, 2, &c) == ARCSTRING_NO_ROOM && SAME(&c, &before, 1));
    HOLDS(cut(xyz, 6, 0, m, 3, 12, 4, 1, &c) == ARCSTRING_NO_ROOM && SAME(&c, &before, 1));
    HOLDS(cut(xyz, 9, 1, closing, 3, 18, 6, 2, &c) == 0 && c.pieces == 2 && c.counts[0] == 4 && c.counts[1] == 2);
    HOLDS(SAME(c.out, opened, 18) && SAME(c.numbers, of_opened, 6));
    HOLDS(cut(xyz, 9, 7, m, 3, 30, 10, 6, &c) == 0 && c.pieces == 2 && c.counts[0] == 2 && c.counts[1] == 4 && c.out[17] == 0 && c.numbers[5] == 11);
    HOLDS(cut(xyz, 6, 0, two, 6, 18, 6, 3, &c) == 0 && c.pieces == 3 && c.counts[1] == 2 && SAME(c.out, thirds, 18) && SAME(c.numbers, of_thirds, 6));
    HOLDS(cut(xyz, 6, 0, m_twice, 6, 12, 4, 2, &c) == 0 && c.pieces == 2 && SAME(c.out, halves, 12)); /* the second is at an end of a piece */
    HOLDS(cut(xyz, 9, 0, xyz, 9, 15, 5, 2, &c) == 0 && c.pieces == 2 && c.counts[0] == 2 && c.counts[1] == 3); /* one list lent twice */
    HOLDS(SAME(c.out, own, 15) && SAME(c.numbers, of_own, 5)); /* a vertex that is cut at stays beside the point */
    HOLDS(cut(there_and_back, 9, 0, nearer, 6, 30, 10, 6, &c) == 0 && c.pieces == 3); /* the first piece, and its first leg */
    HOLDS(c.counts[0] == 2 && c.counts[1] == 2 && c.counts[2] == 3 && c.numbers[1] == 22 && c.numbers[3] == 21);
    HOLDS(cut(around, 15, 0, several, 9, 30, 10, 6, &c) == 0 && c.pieces == 3); /* the third is at an end of the first piece, and done with */
    HOLDS(c.counts[0] == 2 && c.counts[1] == 3 && c.counts[2] == 4);
    HOLDS(cut(xm, 6, 0, quarter, 3, 12, 4, 2, &c) == 0 && SAME(c.out, xm, 3) && SAME(c.out + 3, quarter, 3) && SAME(c.out + 9, xm + 3, 3)); /* as given */
}

/* uncut writes 0 into its place, and nothing else, whatever the room */
static void not_cut(void)
{
    const double x[3] = {1, 0, 0}, z[3] = {0, 0, 1};
    struct cut before, c;
    memset(&before, 0xA5, sizeof before), before.pieces = 0;
    HOLDS(cut(xyz, 6, 0, z, 3, 30, 10, 6, &c) == 0 && SAME(&c, &before, 1)); /* on no leg */
    HOLDS(cut(xyz, 6, 0, x, 3, 30, 10, 6, &c) == 0 && SAME(&c, &before, 1) && cut(xyz, 6, 0, y, 3, 0, 0, 0, &c) == 0 && SAME(&c, &before, 1));
    HOLDS(cut(xyz, 9, 1, x, 3, 30, 10, 6, &c) == 0 && SAME(&c, &before, 1)); /* at the vertex where a closed string is opened */
    HOLDS(cut(x, 3, 1, xyz, 9, 30, 10, 6, &c) == 0 && SAME(&c, &before, 1) && cut(x, 3, 0, xyz, 9, 30, 10, 6, &c) == 0 && SAME(&c, &before, 1));
    n = 5;
    HOLDS(arcstring_cut_at_marks(xm, 6, buoys, 2, 1, NULL, 0, NULL, 0, NULL, 0, NULL, 0, NULL, 0, &n) == 0 && n == 0);
}

/* 1, 10, 3 and 4 of the string, then of the points, then 3 of a result, and 7 */
static void cuts_refused(void)
{
    const double m[3] = {0.5, 0.5, 0}, *v = points;
    size_t k;
    n = 5;
#define CUT(v, v_len, b_len, closed_, p, p_len, w_len) \
    arcstring_cut_at_marks(v, v_len, as_many, b_len, closed_, p, p_len, as_many, w_len, NULL, 0, NULL, 0, NULL, 0, &n)
    HOLDS(CUT(NULL, 0, 1, 0, nan_point, 2, 0) == ARCSTRING_NOT_TRIPLES && CUT(nan_point, 2, 1, 0, nan_point, 3, 0) == ARCSTRING_NOT_TRIPLES);
    HOLDS(CUT(too_many, 3075, 1024, 0, nan_point, 2, 0) == ARCSTRING_BUOYS_NOT_AS_MANY && CUT(nan_point, 3, 2, 0, m, 2, 0) == ARCSTRING_BUOYS_NOT_AS_MANY);
    HOLDS(CUT(too_many, 3075, 1025, 0, nan_point, 2, 0) == ARCSTRING_TOO_MANY_POINTS && CUT(nan_point, 3, 1, 0, m, 2, 5) == ARCSTRING_OUT_OF_RANGE);
    HOLDS(CUT(xyz, 9, 3, 0, nan_point, 2, 1) == ARCSTRING_NOT_TRIPLES && CUT(xyz, 9, 3, 0, nan_point, 3, 0) == ARCSTRING_BUOYS_NOT_AS_MANY);
    HOLDS(CUT(xyz, 9, 3, 0, too_many, 3075, 1024) == ARCSTRING_BUOYS_NOT_AS_MANY && CUT(xyz, 9, 3, 0, too_many, 3075, 1025) == ARCSTRING_TOO_MANY_POINTS);
    HOLDS(CUT(xyz, 9, 3, 0, nan_point, 3, 1) == ARCSTRING_OUT_OF_RANGE && CUT(xyz, 9, 3, 0, m, 3, 1) == ARCSTRING_NO_ROOM);
    for (k = 0; k < ARCSTRING_MOST_POINTS; k++) memcpy(points + 3 * k, xyz + 3 * (k % 2), 3 * sizeof *points);
    HOLDS(CUT(v, 3072, 1024, 0, m, 3, 1) == ARCSTRING_TOO_MANY_POINTS && CUT(v, 3069, 1023, 0, m, 3, 1) == ARCSTRING_TOO_MANY_POINTS);
    HOLDS(CUT(v, 3066, 1022, 1, m, 3, 1) == ARCSTRING_TOO_MANY_POINTS && CUT(v, 3063, 1021, 1, m, 3, 1) == ARCSTRING_NO_ROOM);
    HOLDS(CUT(v, 3066, 1022, 0, m, 3, 1) == ARCSTRING_NO_ROOM && n == 5);
    HOLDS(CUT(v, 3072, 1024, 1, xyz + 6, 3, 1) == 0 && n == 0); /* 1,025 points when it is opened, and uncut */
#undef CUT
    HOLDS(arcstring_cut_at_marks(v, 3066, as_many, 1022, 0, m, 3, seven, 1, out, 3072, numbers, 1024, counts_of, 2, &n) == 0 && n == 2);
    HOLDS(counts_of[0] == 2 && counts_of[1] == 1022 && numbers[1] == 7 && numbers[2] == 7 && SAME(out + 9, v + 3, 3063));
}

int main(void)
{
    lend();
    words(), single_points(), building(), walks(), pairs(), listings(), with_itself(), margins(), near_lists(), measures(), simplified(), changes();
    marks_on_legs(), marks_on_strings(), cuts(), not_cut(), cuts_refused();
    free(out), free(points), free(numbers), free(counts_of), free(marks), free(flags);
    printf("%d facts of the header, %d broken\n", facts, broken);
    return broken != 0;
}
