/* Counts how a boat's track crosses an ice limit between two buoys, and lists where: longitudes and latitudes in,
 * longitudes and latitudes out.
 *
 *     (cd crates/arcstring_c && rt lib)
 *     cc -std=c99 -Wall -Wextra -Iinclude examples/limit.c crates/arcstring_c/out/libarcstring_c.a -lm -o target/limit
 *     target/limit
 */
#include "arcstring.h"
#include <inttypes.h>
#include <math.h>
#include <stdio.h>
#include <stdlib.h>

#define DEGREE (3.14159265358979323846 / 180.0)
#define LENGTH(list) (sizeof(list) / sizeof((list)[0]))

/* what the notice of race gives as the margin of a grazing pair; 0 where it gives none */
#define MARGIN 0.0

/* a longitude and a latitude, in degrees, and the number of a buoy there, or 0 for none */
struct place { double lon, lat; uint32_t buoy; };

static const struct place limit[] = {{20, -47, 101}, {40, -47.5, 102}, {55, -48.5, 103}, {70, -49, 104},
                                     {85, -49.5, 105}, {100, -50, 106}, {115, -51, 107}, {130, -51.5, 108}};
static const struct place track[] = {{46.5, -46.2, 0}, {54.1, -47.1, 0}, {61.8, -49.9, 0}, {69.7, -50.4, 0},
                                     {77.9, -48.2, 0}, {86.3, -47.6, 0}, {94.8, -48.3, 0}};

struct string { double *v; uint32_t *buoys; size_t count; uint8_t closed; };

static void *room(size_t n, size_t size)
{
    void *memory = calloc(n > 0 ? n : 1, size);
    if (memory == NULL) exit(2);
    return memory;
}

/* ends the program where a call said no */
static void expect(uint32_t refusal)
{
    if (refusal == ARCSTRING_NOT_REFUSED) return;
    fprintf(stderr, "refusal %" PRIu32 ": %s\n", refusal, arcstring_refusal_words(refusal));
    exit(1);
}

/* the string that n places make; a built string never has more vertices than it was given points */
static struct string build(const struct place *places, size_t n)
{
    struct string s = {room(n, 3 * sizeof(double)), room(n, sizeof(uint32_t)), 0, 0};
    double *points = room(n, 3 * sizeof(double));
    uint32_t *buoys = room(n, sizeof(uint32_t));
    size_t i;
    for (i = 0; i < n; i++) {
        double lon = places[i].lon * DEGREE, lat = places[i].lat * DEGREE;
        points[3 * i] = cos(lat) * cos(lon);
        points[3 * i + 1] = cos(lat) * sin(lon);
        points[3 * i + 2] = sin(lat);
        buoys[i] = places[i].buoy;
    }
    expect(arcstring_build(points, 3 * n, buoys, n, s.v, 3 * n, s.buoys, n, &s.count, &s.closed));
    free(points), free(buoys);
    return s;
}

/* a kept point, of any length; a grazing one may be the zero vector, and + 0.0 makes the sign of a zero plain */
static void print(const char *mark, const double *p)
{
    double x = p[0] + 0.0, y = p[1] + 0.0, z = p[2] + 0.0;
    if (x == 0 && y == 0 && z == 0)
        printf("%s, at no one place\n", mark);
    else
        printf("%s crossing at %.3f, %.3f\n", mark, atan2(y, x) / DEGREE, atan2(z, hypot(x, y)) / DEGREE);
}

/* counts first, which tells how much to lend for the listing */
static void list(const struct string *a, const struct string *b)
{
    uint64_t counts[4];
    size_t most, kept, i;
    double *points;
    uint8_t *marks;
    expect(arcstring_count(a->v, 3 * a->count, a->closed, b->v, 3 * b->count, b->closed, MARGIN, counts));
    most = (size_t)(counts[ARCSTRING_CLEAN - 1] + counts[ARCSTRING_GRAZING - 1]);
    points = room(most, 3 * sizeof(double)), marks = room(most, 1);
    expect(arcstring_crossings(a->v, 3 * a->count, a->closed, b->v, 3 * b->count, b->closed, MARGIN,
                               points, 3 * most, marks, most, &kept, counts));
    printf("clean %" PRIu64 ", end %" PRIu64 ", grazing %" PRIu64 ", apart %" PRIu64 "\n",
           counts[0], counts[1], counts[2], counts[3]);
    for (i = 0; i < kept; i++)
        print(marks[i] ? "clean" : "grazing", points + 3 * i);
    free(points), free(marks);
}

int main(void)
{
    struct string a, b;
    if (arcstring_version() != ARCSTRING_VERSION) {
        fputs("the header is of another version than the library\n", stderr);
        return 2;
    }
    a = build(track, LENGTH(track)), b = build(limit, LENGTH(limit));
    printf("limit from buoy %" PRIu32 " to buoy %" PRIu32 "\n", b.buoys[0], b.buoys[b.count - 1]);
    list(&a, &b);
    free(a.v), free(a.buoys), free(b.v), free(b.buoys);
    return 0;
}
