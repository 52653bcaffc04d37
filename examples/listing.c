/* Lists where two strings cross: reads what the counting program reads, and prints a line for each point that is kept.
 *
 *     cc -std=c99 -Wall -Wextra -Iinclude examples/listing.c crates/arcstring_c/out/libarcstring_c.a -lm -o target/listing
 *     target/listing < examples/southern_leg.legs
 *
 * A line is `clean` or `grazing`, a longitude and a latitude in degrees, or `grazing nowhere` where the point is the
 * zero vector. Bad input prints one line, as `refusal 8`, and its words on standard error. The program ends with 1
 * then, and where a read or a write fails. examples/draw.py draws what is printed.
 */
#include "arcstring.h"
#include <inttypes.h>
#include <math.h>
#include <stdio.h>
#include <stdlib.h>
#include <string.h>

#define DEGREE (3.14159265358979323846 / 180.0)
#define ROOM (ARCSTRING_MOST_POINTS + 1) /* points kept of a string: one more than the library takes */
#define NAMES "string x y z\n"
#define ROW 53 /* bytes: a name, three times a blank and 16 digits, a line feed */

struct string {
    double points[3 * ROOM], v[3 * ROOM];
    size_t points_count, v_count;
    uint8_t closed;
};

static int failed(void) { perror("listing"); return 1; }

/* a row's point put at the end of its string, which keeps the first 1,025; 0 where the row is malformed */
static int take(struct string strings[2], const char *row)
{
    struct string *s = &strings[row[0] == 'B'];
    uint64_t bits[3];
    if ((row[0] != 'A' && row[0] != 'B') || row[ROW - 1] != '\n')
        return 0;
    for (int i = 0; i < 3; i++) {
        const char *word = row + 1 + 17 * i;
        if (word[0] != ' ' || strspn(word + 1, "0123456789ABCDEF") != 16)
            return 0;
        bits[i] = strtoull(word + 1, NULL, 16);
    }
    if (s->points_count < ROOM)
        memcpy(&s->points[3 * s->points_count++], bits, sizeof bits);
    return 1;
}

/* all of standard input; 0 where it is not in the text form */
static int take_all(struct string strings[2])
{
    char row[ROW + 1] = "";
    size_t got = fread(row, 1, strlen(NAMES), stdin);
    int good = strcmp(row, NAMES) == 0;
    while (good && (got = fread(row, 1, ROW, stdin)) == ROW)
        good = take(strings, row);
    return good && got == 0;
}

static void print(const char *mark, const double p[3])
{
    double x = p[0] + 0.0, y = p[1] + 0.0, z = p[2] + 0.0; /* the sign of a zero made plain */
    if (x == 0 && y == 0 && z == 0)
        printf("%s nowhere\n", mark);
    else
        printf("%s %.6f %.6f\n", mark, atan2(y, x) / DEGREE, atan2(z, hypot(x, y)) / DEGREE);
}

/* at margin 0; counted first, for buffers of the right length: only clean and grazing pairs keep a point */
static uint32_t list(const struct string *a, const struct string *b)
{
    uint64_t counts[4];
    uint32_t refusal = arcstring_count(a->v, 3 * a->v_count, a->closed, b->v, 3 * b->v_count, b->closed, 0.0, counts);
    size_t most = refusal ? 0 : (size_t)(counts[ARCSTRING_CLEAN - 1] + counts[ARCSTRING_GRAZING - 1]), kept = 0;
    double *points = malloc((3 * most + 1) * sizeof *points);
    uint8_t *marks = malloc(most + 1);
    if (points == NULL || marks == NULL)
        exit(failed());
    if (refusal == 0)
        refusal = arcstring_crossings(a->v, 3 * a->v_count, a->closed, b->v, 3 * b->v_count, b->closed, 0.0,
                                      points, 3 * most, marks, most, &kept, counts);
    for (size_t i = 0; i < kept; i++)
        print(marks[i] ? "clean" : "grazing", points + 3 * i);
    free(points);
    free(marks);
    return refusal;
}

int main(void)
{
    static struct string strings[2]; /* A, B */
    static uint32_t none[ROOM], buoys[ROOM];
    uint32_t refusal = take_all(strings) ? ARCSTRING_NOT_REFUSED : ARCSTRING_MALFORMED;
    if (ferror(stdin))
        return failed();
    for (struct string *s = strings; refusal == 0 && s < strings + 2; s++)
        refusal = arcstring_build(s->points, 3 * s->points_count, none, s->points_count,
                                  s->v, 3 * ROOM, buoys, ROOM, &s->v_count, &s->closed);
    if (refusal == 0)
        refusal = list(&strings[0], &strings[1]);
    if (refusal != 0) {
        printf("refusal %" PRIu32 "\n", refusal);
        fprintf(stderr, "%s\n", arcstring_refusal_words(refusal));
    }
    return fflush(stdout) != 0 || ferror(stdout) ? failed() : refusal != 0;
}
