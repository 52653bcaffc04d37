/* How much stack each call of arcstring_c takes, for compare/run stack: it runs in a thread whose stack was filled with one byte, and
 * what it has written over is counted, without what a thread that does nothing writes over. Strings of 64 and of 1,024 vertices, with
 * vertices on legs and points to cut at, so that every part of a call is reached. */
#define _XOPEN_SOURCE 700
#include "arcstring.h"
#include <math.h>
#include <pthread.h>
#include <stdio.h>
#include <stdlib.h>
#include <string.h>

#define STACK (4u << 20)
#define FILL 0xA5
#define MOST 1024

static double a[3 * MOST], b[3 * MOST], cuts[3], leg[6], out[3 * MOST], points[3 * MOST * MOST];
static uint32_t buoys[MOST], out_buoys[MOST];
static uint8_t marks[MOST * MOST], flags[MOST], flag, other;
static size_t n, kept, lengths[MOST], length;
static uint64_t counts[4];
static uint32_t refusal;
static const double margins[2] = {0.0, 1e-9}; /* of the calls that take one */

static void none(void) { refusal = 0; }
static void xyz_eq(void) { refusal = arcstring_xyz_eq(a[0], a[1], a[2], b[0], b[1], b[2], &flag); }
static void coplanar(void) { refusal = arcstring_xyzs_coplanar(a[0], a[1], a[2], a[6], a[7], a[8], a[3], a[4], a[5], &flag); }
static void point(void) { refusal = arcstring_point(a[0] / 2, a[1], a[2], out); }
static void pair(void) { refusal = arcstring_pair(a, b, &flag, &other, out); }
static void build(void) { refusal = arcstring_build(a, 3 * n, buoys, n, out, 3 * MOST, out_buoys, MOST, &length, &flag); }
static void build_flagged(void) { refusal = arcstring_build_flagged(a, 3 * n, buoys, n, 1, out, 3 * MOST, out_buoys, MOST, &length); }
static void walk_back(void) { refusal = arcstring_walk_back(a, 3 * n, buoys, n, out, 3 * MOST, out_buoys, MOST, &length); }
static void restart(void) { refusal = arcstring_restart(a, 3 * n, buoys, n, 1, 2, out, 3 * MOST, out_buoys, MOST, &length); }
static void run(void) { arcstring_run(a, 3 * n, 1, n - 1, &kept, &length), refusal = 0; }
static void count(void)
{
    int k;
    for (k = 0, refusal = 0; k < 2; k++) refusal |= arcstring_count(a, 3 * n, 1, b, 3 * n, 1, margins[k], counts);
}
static void listing(void)
{
    int k;
    for (k = 0, refusal = 0; k < 2; k++) {
        refusal |= arcstring_crossings(a, 3 * n, 1, b, 3 * n, 1, margins[k], points, 3 * n * n, marks, n * n, &kept, counts);
        refusal |= arcstring_crossings(a, 3 * n, 1, b, 3 * n, 1, margins[k], points, 3 * kept, marks, kept, &kept, counts);
    }
}
static void leg_listing(void)
{
    int k;
    for (k = 0, refusal = 0; k < 2; k++) {
        refusal |= arcstring_leg_crossings(a, b, 3 * n, 1, margins[k], points, 3 * n, marks, n, &kept, counts);
        refusal |= arcstring_leg_crossings(a, b, 3 * n, 1, margins[k], points, 3 * kept, marks, kept, &kept, counts);
    }
}
static void self_listing(void)
{
    int k;
    for (k = 0, refusal = 0; k < 2; k++) {
        refusal |= arcstring_crossings_with_self(a, 3 * n, margins[k], points, 3 * n * n, marks, n * n, &kept, counts);
        refusal |= arcstring_crossings_with_self(a, 3 * n, margins[k], points, 3 * kept, marks, kept, &kept, counts);
    }
}
static void crosses_self(void) { refusal = arcstring_crosses_self(a, 3 * n, 1, &flag); }
static void same_side(void) { refusal = arcstring_same_side(a[0], a[1], a[2], a[3], a[4], a[5], b, 3 * n, 1, &flag); }
static void along(void) { refusal = arcstring_along(cuts[0], cuts[1], cuts[2], b, 3 * n, b, 3 * n, 1, &flag); }
static void eq(void) { refusal = arcstring_eq(a, 3 * n, a, 3 * n, 1, a, 3 * n, a, 3 * n, 1, &flag); }
static void crosses(void) { refusal = arcstring_crosses(a, 3 * n, a, 3 * n, 1, b, 3 * n, b, 3 * n, 1, &flag); }
static void within(void) { refusal = arcstring_within(a, 3 * n, b, 3 * n, b, 3 * n, 1, &flag); }
static void contains(void) { refusal = arcstring_contains(a, 3 * n, a, 3 * n, 1, b, 3 * n, &flag); }
static void turns(void) { refusal = arcstring_turn_orientations(a, 3 * n, 1, out, 3 * MOST, &length); }
static void midpoints(void) { refusal = arcstring_midpoints(a, 3 * n, 1, out, 3 * MOST, &length); }
static void simplify(void) { refusal = arcstring_simplify(a, 3 * n, buoys, n, 0, out, 3 * MOST, out_buoys, MOST, &length); }
static void insert(void)
{
    refusal = arcstring_insert_vertices(a, 3 * (n / 2), buoys, n / 2, 0, cuts, 3, buoys, 1, out, 3 * MOST, out_buoys, MOST, &length);
}
static void split_leg(void) { refusal = arcstring_split_leg(a, cuts, 3, out, 3 * MOST, &length); }
static void split(void)
{
    refusal = arcstring_split(a, 3 * (n / 4), buoys, n / 4, 0, cuts, 3, buoys, 1, out, 3 * MOST, out_buoys, MOST, lengths, MOST, flags, MOST,
                              &length);
}
static void mark_on_leg(void) { refusal = arcstring_mark_on_leg(leg, a[3], a[4], a[5], &flag); }
static void mark_on_string(void) { refusal = arcstring_mark_on_string(-a[0], -a[1], -a[2], a, 3 * n, 1, &flag); }
static void cut_at_marks(void) /* at every vertex of its first half but the first */
{
    refusal = arcstring_cut_at_marks(a, 3 * (n / 2), buoys, n / 2, 1, a, 3 * (n / 4 - 1), buoys, n / 4 - 1, out, 3 * MOST, out_buoys, MOST, lengths, MOST,
                                     &length);
}
static void equals(void) { refusal = arcstring_equals(a, 3 * n, a, 3 * n, 0, b, 3 * n, b, 3 * n, 0, &flag); }
static void overlaps(void) { refusal = arcstring_overlaps(a, 3 * n, a, 3 * n, 0, b, 3 * n, b, 3 * n, 0, &flag); }

static const struct call { const char *name; void (*run)(void); } calls[] = {
    {"arcstring_xyz_eq", xyz_eq}, {"arcstring_xyzs_coplanar", coplanar}, {"arcstring_point", point}, {"arcstring_pair", pair},
    {"arcstring_build", build}, {"arcstring_build_flagged", build_flagged}, {"arcstring_walk_back", walk_back},
    {"arcstring_restart", restart}, {"arcstring_run", run},
    {"arcstring_count", count}, {"arcstring_crossings", listing}, {"arcstring_leg_crossings", leg_listing},
    {"arcstring_crossings_with_self", self_listing}, {"arcstring_crosses_self", crosses_self}, {"arcstring_same_side", same_side},
    {"arcstring_crosses", crosses}, {"arcstring_along", along}, {"arcstring_eq", eq}, {"arcstring_within", within}, {"arcstring_contains", contains},
    {"arcstring_turn_orientations", turns}, {"arcstring_midpoints", midpoints}, {"arcstring_simplify", simplify},
    {"arcstring_insert_vertices", insert}, {"arcstring_split_leg", split_leg}, {"arcstring_split", split},
    {"arcstring_equals", equals}, {"arcstring_overlaps", overlaps},
    {"arcstring_mark_on_leg", mark_on_leg}, {"arcstring_mark_on_string", mark_on_string}, {"arcstring_cut_at_marks", cut_at_marks},
};

/* a chain of unit points in which every second one lies on the leg between its neighbours, or, one in four of these, beyond the next
 * one, so that simplifying removes it */
static void fill(double *v, double slope)
{
    size_t i, k;
    for (i = 0; i < n; i += 2) {
        double turn = 0.01 * (double)i + slope, height = slope * sin(2.0 * turn) + 0.3 * cos(0.7 * (double)i);
        double r = sqrt(1.0 + height * height);
        v[3 * i] = cos(turn) / r, v[3 * i + 1] = sin(turn) / r, v[3 * i + 2] = height / r;
    }
    for (i = 1; i < n; i += 2) {
        const double *p = v + 3 * (i - 1), *q = i + 1 < n ? v + 3 * (i + 1) : v;
        double m[3], r = 0.0, t = i % 8 == 3 ? 1.5 : 0.5;
        for (k = 0; k < 3; k++) m[k] = (1.0 - t) * p[k] + t * q[k], r += m[k] * m[k];
        for (k = 0; k < 3; k++) v[3 * i + k] = m[k] / sqrt(r);
    }
}

static void *start(void *call) { ((const struct call *)call)->run(); return NULL; }

/* how many bytes of its stack a thread that runs this writes over */
static size_t used(const struct call *call)
{
    unsigned char *stack;
    pthread_attr_t attr;
    pthread_t thread;
    size_t low = 0;
    if (posix_memalign((void **)&stack, 4096, STACK) != 0) exit(1);
    memset(stack, FILL, STACK);
    pthread_attr_init(&attr);
    if (pthread_attr_setstack(&attr, stack, STACK) != 0 || pthread_create(&thread, &attr, start, (void *)call) != 0) exit(1);
    pthread_join(thread, NULL);
    while (low < STACK && stack[low] == FILL) low++;
    free(stack);
    return STACK - low;
}

/* the most that a call takes with strings of either size */
static size_t most(const struct call *call)
{
    static const struct call nothing = {"nothing", none};
    static const size_t sizes[2] = {64, MOST};
    size_t k, bytes = 0;
    for (k = 0; k < 2; k++) {
        size_t least, all;
        n = sizes[k];
        fill(a, 0.4), fill(b, 0.9);
        memcpy(cuts, a + 6, sizeof cuts); /* the end of leg 0 lies between its start and this point: along it, as the source has it */
        memcpy(leg, a, sizeof cuts), memcpy(leg + 3, cuts, sizeof cuts); /* a leg that vertex 1 is on */
        least = used(&nothing);
        all = used(call);
        if (refusal != 0) printf("%s is refused by %u\n", call->name, (unsigned)refusal);
        if (all - least > bytes) bytes = all - least;
    }
    return bytes;
}

int main(void)
{
    size_t i;
    printf("| call | stack, bytes |\n|---|---|\n");
    for (i = 0; i < sizeof calls / sizeof calls[0]; i++) printf("| %s | %zu |\n", calls[i].name, most(&calls[i]));
    return 0;
}
