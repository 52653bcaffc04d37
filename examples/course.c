/* A race course cut at the marks that were laid on its legs: longitudes and latitudes in, the parts of the course out,
 * each from buoy to buoy.
 *
 *     (cd crates/arcstring_c && rt lib)
 *     cc -std=c99 -Wall -Wextra -Iinclude examples/course.c crates/arcstring_c/out/libarcstring_c.a -lm -o target/course
 *     target/course
 */
#include "arcstring.h"
#include <inttypes.h>
#include <math.h>
#include <stdio.h>
#include <stdlib.h>

#define DEGREE (3.14159265358979323846 / 180.0)
#define LENGTH(list) (sizeof(list) / sizeof((list)[0]))

/* a longitude and a latitude, in degrees, and the number of the buoy there */
struct place { double lon, lat; uint32_t buoy; };

/* the course, round and back to its start, where the last leg ends */
static const struct place course[] = {{-5.0, 48.0, 101}, {-12.0, 46.0, 102}, {-9.0, 43.5, 103}, {-3.0, 44.0, 104}};
#define VERTICES LENGTH(course)

/* the legs in whose middle a mark was laid, and the buoy that it carries; and a gate well off the course */
static const struct { size_t leg; uint32_t buoy; } laid[] = {{0, 201}, {3, 202}};
static const struct place off = {-6.0, 45.5, 203};
#define MARKS (LENGTH(laid) + 1)

static void point(double lon, double lat, double *p)
{
    p[0] = cos(lat * DEGREE) * cos(lon * DEGREE);
    p[1] = cos(lat * DEGREE) * sin(lon * DEGREE);
    p[2] = sin(lat * DEGREE);
}

/* ends the program where a call said no */
static void expect(uint32_t refusal)
{
    if (refusal == ARCSTRING_NOT_REFUSED) return;
    fprintf(stderr, "refusal %" PRIu32 ": %s\n", refusal, arcstring_refusal_words(refusal));
    exit(1);
}

/* whether the course holds a mark, and whether the source's own test, which looks elsewhere, takes it for on the course */
static void judge(const double *v, const double *mark, uint32_t buoy)
{
    uint8_t held, along;
    expect(arcstring_mark_on_string(mark[0], mark[1], mark[2], v, 3 * VERTICES, 1, &held));
    expect(arcstring_along(mark[0], mark[1], mark[2], v, 3 * VERTICES, v, 3 * VERTICES, 1, &along));
    printf("mark %" PRIu32 ": %s the course (arcstring_along: %s)\n", buoy, held ? "on" : "off", along ? "yes" : "no");
}

int main(void)
{
    static double out[3 * ARCSTRING_MOST_POINTS];
    static uint32_t out_buoys[ARCSTRING_MOST_POINTS];
    static size_t counts[ARCSTRING_MOST_POINTS / 2];
    double v[3 * VERTICES], middles[3 * VERTICES], marks[3 * MARKS];
    uint32_t buoys[VERTICES], mark_buoys[MARKS];
    size_t i, at = 0, count, pieces;
    if (arcstring_version() != ARCSTRING_VERSION) {
        fputs("the header is of another version than the library\n", stderr);
        return 2;
    }
    for (i = 0; i < VERTICES; i++) point(course[i].lon, course[i].lat, v + 3 * i), buoys[i] = course[i].buoy;
    expect(arcstring_midpoints(v, 3 * VERTICES, 1, middles, 3 * VERTICES, &count));
    for (i = 0; i < LENGTH(laid); i++) {
        size_t k;
        for (k = 0; k < 3; k++) marks[3 * i + k] = middles[3 * laid[i].leg + k];
        mark_buoys[i] = laid[i].buoy;
    }
    point(off.lon, off.lat, marks + 3 * (MARKS - 1)), mark_buoys[MARKS - 1] = off.buoy;
    for (i = 0; i < MARKS; i++) judge(v, marks + 3 * i, mark_buoys[i]);
    expect(arcstring_cut_at_marks(v, 3 * VERTICES, buoys, VERTICES, 1, marks, 3 * MARKS, mark_buoys, MARKS, out,
                                  LENGTH(out), out_buoys, LENGTH(out_buoys), counts, LENGTH(counts), &pieces));
    for (i = 0; i < pieces; at += counts[i], i++) {
        printf("part %zu: ", i + 1);
        for (count = 0; count < counts[i]; count++) printf("%s%" PRIu32, count ? " - " : "", out_buoys[at + count]);
        putchar('\n');
    }
    return 0;
}
