/* Great-circle strings: building, walking, crossing, counting, comparing and cutting them.
 *
 * docs/TERMS.md has every word that is used here, with pictures of the four classes; docs/PROMISES.md where each
 * promise is proved; examples/limit.c a first program; CHANGELOG.md what changed from one version to the next.
 *
 * POINTS AND STRINGS
 *
 * A list of points is flat: three doubles a point (x, y, z), each from -1 to 1; its length is in doubles. A longitude
 * and a latitude become x = cos(lat) * cos(lon), y = cos(lat) * sin(lon), z = sin(lat). A string is its list of
 * vertices and a flag: 0 is open, anything else closed. Any list of points is a string, built or not. A leg by itself
 * is six doubles: start, then end. What a call puts into `count` is a number of vertices or points, but for
 * arcstring_turn_orientations.
 *
 * Each vertex carries a number of 32 bits, its buoy's, 0 for none. A call that writes a string takes a number for
 * each vertex, and for each point to insert or to cut at, and writes one for each vertex that it writes: each number
 * goes where its vertex goes, and nothing else depends on it. A caller without buoys lends zeros, as many as there
 * are vertices and points.
 *
 * REFUSALS
 *
 * Every function of the library but arcstring_run and arcstring_version returns 0, or the number of a refusal (enum
 * arcstring_refusal), and then it has changed nothing that it was lent. arcstring_refusal_words gives a refusal in
 * words; docs/TERMS.md says what to do about each.
 *
 * The checks run in the order of the numbers within a list, with 10 right after 1. A string's vertices come before
 * its near list, the first string before the second, then points to insert or to cut at; then 9 of a margin; then
 * the 3 of a result, 5 and 6; 7 comes last, and looks at the numbers' buffer too. Past an answer a buffer keeps what it
 * held.
 *
 * HOW MUCH TO LEND, so that a call never refuses by 7. A point is three doubles; n is how many vertices are handed
 * in, and MOST stands for ARCSTRING_MOST_POINTS.
 *
 *     arcstring_build, arcstring_build_flagged,
 *     arcstring_walk_back, arcstring_restart,
 *     arcstring_simplify                           n points and n numbers
 *     arcstring_midpoints                          n points
 *     arcstring_turn_orientations                  n doubles
 *     arcstring_insert_vertices                    MOST points and numbers
 *     arcstring_split_leg                          MOST points
 *     arcstring_split                              MOST points, numbers, counts and flags
 *     arcstring_cut_at_marks                       MOST points and numbers, MOST / 2 counts
 *     arcstring_leg_crossings                      n points and marks
 *     arcstring_crossings                          counts[0] + counts[2] points and marks, by arcstring_count
 *     arcstring_crossings_with_self                the same, by arcstring_count(v, v_len, 0, v, v_len, 0, 0.0, counts)
 *
 * The last four are theorems: of a cut at marks every piece has two vertices or more; a listing keeps at most one point
 * for each clean and each grazing pair, and the same points at every margin, so that the counts at one margin tell
 * enough for all; those at 0 ask for the least. Where the buffers hold a point of every pair, a listing goes over the
 * pairs once; else it counts them first and then writes.
 *
 * WHAT A CALLER SEES TO. The library cannot check these; with one of them broken it promises nothing.
 *
 * - Lengths of points are in doubles. One that is given in points is not noticed where it is a multiple of three.
 * - A list has as many elements as its length says, set and aligned as C has them. Of a list of length 0 the pointer
 *   is not read, and may be NULL. Whatever is no list (yes, count, closed, kept, pieces, start, len, class_, and the
 *   arrays of fixed size: leg[6], point[3], out[3], counts[4]) is never NULL.
 * - Lists that are only read may be one and the same or overlap: a string with itself, a near list that is the
 *   vertices. What is lent for results, buffers and single places alike, overlaps nothing else that is handed in. It
 *   need not be set beforehand.
 * - The processor rounds to nearest and keeps subnormals, as a thread does from its start. In a program that is
 *   linked with -ffast-math or -Ofast it does not (gcc and clang then set flush to zero), nor after fesetround has
 *   chosen another direction.
 * - There is stack enough: nothing is allocated, a call works on the stack of its thread, and with less than it takes
 *   the program is ended at the guard page below it. What it takes at most, in bytes, rounded up, as measured with
 *   strings of 64 and of 1,024 vertices (compare/run stack). Not in it is what the dynamic linker takes once, to find
 *   memcpy and memset (about 3,100 bytes seen), and what the thread itself takes.
 *
 *     161,000  arcstring_split
 *     116,000  arcstring_overlaps
 *      92,000  arcstring_crossings, arcstring_crossings_with_self, arcstring_leg_crossings, arcstring_count,
 *              arcstring_crosses, arcstring_crosses_self, arcstring_same_side
 *      66,500  arcstring_equals
 *      37,500  arcstring_cut_at_marks
 *      32,500  arcstring_insert_vertices
 *      25,000  arcstring_split_leg
 *      18,000  arcstring_simplify
 *       1,000  every other call
 *
 * Threads: the library has no state and takes no lock. Calls may run at the same time, as long as none writes what
 * another one is handed.
 *
 * The machine: the library is for x86-64 Linux, any such processor. It is position-independent, and asks of the C
 * library memcpy and memset alone.
 */
#ifndef ARCSTRING_H
#define ARCSTRING_H

#include <stddef.h>
#include <stdint.h>

/* Raised where a prototype changes. 2: the calls that write a string take and write the numbers of buoys. 3: the three
 * listings and the count take a margin. */
#define ARCSTRING_VERSION 3

/* The most points that a list may have, and the result of an insertion or a cut, all pieces together. */
#define ARCSTRING_MOST_POINTS 1024

#ifdef __cplusplus
extern "C" {
#endif

/* Why a call says no. */
enum arcstring_refusal {
    ARCSTRING_NOT_REFUSED = 0,
    ARCSTRING_NOT_TRIPLES = 1,         /* a list is not whole triples, or a string or a near list has no point */
    ARCSTRING_TOO_FEW_POINTS = 2,      /* fewer than two points to build from; midpoints of an open string of one */
    ARCSTRING_TOO_MANY_POINTS = 3,     /* a list has over 1,024 points, or a result after an insertion or a cut */
    ARCSTRING_OUT_OF_RANGE = 4,        /* a coordinate is NaN, infinite, or outside -1 to 1 */
    ARCSTRING_REMOVES_PAST_END = 5,    /* simplifying a closed string removes past its end: the Rust panics there */
    ARCSTRING_READS_PAST_END = 6,      /* arcstring_overlaps at a closed first string's last leg: the Rust panics */
    ARCSTRING_NO_ROOM = 7,             /* the answer is longer than a buffer lent for it */
    ARCSTRING_MALFORMED = 8,           /* of the programs alone: their input is malformed */
    ARCSTRING_MARGIN_OUT_OF_RANGE = 9, /* a margin is below 0, NaN or infinite */
    ARCSTRING_BUOYS_NOT_AS_MANY = 10   /* a list of numbers is not as long as its list of vertices or of points */
};

/* The class of a pair of legs. counts[c - 1] is how many pairs have class c. */
enum arcstring_class {
    ARCSTRING_CLEAN = 1,
    ARCSTRING_END = 2,
    ARCSTRING_GRAZING = 3,
    ARCSTRING_APART = 4
};

/* A refusal in words. */
static inline const char *arcstring_refusal_words(uint32_t refusal)
{
    switch (refusal) {
    case ARCSTRING_NOT_REFUSED: return "not refused";
    case ARCSTRING_NOT_TRIPLES: return "a list is not whole triples, or a string or a near list has no point";
    case ARCSTRING_TOO_FEW_POINTS: return "fewer than two points to build from, or no leg to have a midpoint";
    case ARCSTRING_TOO_MANY_POINTS: return "a list or a result has more than 1,024 points";
    case ARCSTRING_OUT_OF_RANGE: return "a coordinate is not a number from -1 to 1";
    case ARCSTRING_REMOVES_PAST_END: return "simplifying a closed string removes past its end";
    case ARCSTRING_READS_PAST_END: return "an overlap comes to the last leg of a closed first string";
    case ARCSTRING_NO_ROOM: return "the answer is longer than a buffer lent for it";
    case ARCSTRING_MALFORMED: return "the input is malformed";
    case ARCSTRING_MARGIN_OUT_OF_RANGE: return "a margin is not a finite number from 0 on";
    case ARCSTRING_BUOYS_NOT_AS_MANY: return "a list of buoys is not as long as its list of points";
    default: return "no refusal of this version";
    }
}

/* The version of the library that is linked: to be ARCSTRING_VERSION, or header and library do not belong together. */
uint32_t arcstring_version(void);

/* ---- Single points. */

/* Whether the sum of absolute differences of two points is below 3e-11. Refuses by 4. */
uint32_t arcstring_xyz_eq(double ax, double ay, double az, double bx, double by, double bz, uint8_t *yes);

/* Whether a and b or b and c are equal; or a . c and b . c are at least a . b, which is above -1 + 2e-8, and c is
 * within 2e-8 of the plane of a and b, whose cross product is at least 2e-8 long: then c lies between a and b, if
 * they are unit vectors less than 120 degrees apart; else it may lie on the far side of their circle, too.
 * docs/TERMS.md has it in full. Refuses by 4. */
uint32_t arcstring_xyzs_coplanar(double ax, double ay, double az, double bx, double by, double bz,
                                 double cx, double cy, double cz, uint8_t *yes);

/* A point by itself: kept if its length minus 1 is below 2e-11, so also where it is shorter than 1; else divided by
 * its length. Refuses by 4. */
uint32_t arcstring_point(double x, double y, double z, double out[3]);

/* ---- Strings built and walked. */

/* The string that a list of points makes. Each point is divided by its length. If the first and the last are then
 * equal, as arcstring_xyz_eq has it, the last is dropped, the string is closed, and each vertex is divided by its
 * length once more. Vertex k is made of point k and is of unit length: its coordinates are from -1 to 1, and the
 * exact sum of their squares is less than 2^-49 away from 1. Only a point whose length, as it is computed, is below
 * 3e-11 stays as it is. Vertex k has the number of point k. What was built passes the checks (1, 3 and 4) of every
 * call that takes a string. Two equal points make a closed string of one vertex. Refuses by 1 (not for an empty
 * list), 10, 2, 3, 4 and 7.
 *
 * Points in reverse make an open string in reverse, and a closed one in reverse from vertex 0 on, if its first and
 * last points are the same; if they are only nearly so, the other one is dropped. A track that comes back to its
 * start becomes closed: to keep it open, hand over its points themselves, with flag 0. */
uint32_t arcstring_build(const double *points, size_t points_len, const uint32_t *buoys, size_t buoys_len,
                         double *out, size_t out_len, uint32_t *out_buoys, size_t out_buoys_len,
                         size_t *count, uint8_t *closed);

/* The same vertices and numbers, for a caller who gives the flag: the last point is dropped all the same where it
 * equals the first. Refuses as arcstring_build does. */
uint32_t arcstring_build_flagged(const double *points, size_t points_len, const uint32_t *buoys, size_t buoys_len,
                                 uint8_t closed, double *out, size_t out_len, uint32_t *out_buoys,
                                 size_t out_buoys_len, size_t *count);

/* The vertices last to first, and their numbers. Refuses by 1, 10, 3, 4 and 7. */
uint32_t arcstring_walk_back(const double *v, size_t v_len, const uint32_t *buoys, size_t buoys_len,
                             double *out, size_t out_len, uint32_t *out_buoys, size_t out_buoys_len, size_t *count);

/* A closed string's vertices from vertex `at` on, then those before it, and their numbers. An open string, or any
 * string if `at` is past its last vertex, is written as it is. Refuses by 1, 10, 3, 4 and 7. */
uint32_t arcstring_restart(const double *v, size_t v_len, const uint32_t *buoys, size_t buoys_len, uint8_t closed,
                           size_t at, double *out, size_t out_len, uint32_t *out_buoys, size_t out_buoys_len,
                           size_t *count);

/* The run of vertices from position `from` up to, not including, `to`: the part of v that starts at v[*start] and is
 * *len doubles long. Empty, and starting at 0, where `from` is not before `to` or `to` is past the end, and of a list
 * that is not whole triples. The coordinates are not looked at. Never refuses. */
void arcstring_run(const double *v, size_t v_len, size_t from, size_t to, size_t *start, size_t *len);

/* ---- Crossings.
 *
 * The three listings and the count take a margin, which the notice of race gives, 0.0 where it gives none: a pair of
 * legs is grazing where at least one of its four side values (docs/TERMS.md) is no larger in size than the margin.
 * With 0.0, and with -0.0, that is where one is zero. The margin changes marks and counts, and never which points are
 * kept: a kept point whose pair grazes has mark 0. A wider margin makes pairs grazing, and does nothing else to them.
 * It is refused by 9 if it is below 0, NaN or infinite, after the strings' checks and before 7.
 *
 * A margin is a distance only for given legs: of unit vectors, as built strings have them, a side value is in size
 * sin(d) * sin(d) * sin(l) * sin(h), where h is how far an end of a leg is from the other leg's great circle, d the
 * length of its own leg and l that of the other. docs/ACCURACY.md says how to choose one. And since it is the great
 * circle that counts, counts[2] has pairs that cross near an end, pairs that miss narrowly, and pairs of legs that are
 * far from each other. Only of the first, and by the signs of zeros, is a point kept, marked 0.
 *
 * No other call takes a margin: all go by 0. The class of a single pair at a margin is told by arcstring_leg_crossings
 * with a string of two vertices. */

/* The class of a pair of legs at margin 0, as enum arcstring_class has it. `kept` is 1 where the listings below keep
 * its point, which they do at every margin, else 0. A clean and an end pair have a point, an apart pair has none, a
 * grazing pair may have one, by the signs of its zeros. It is written here even where it equals an end of a leg; the
 * listings do not keep it then. Where there is none, `point` keeps what it held. Refuses by 4.
 *
 * A point is not normalised: divide it by its length to have it on the sphere. That of a grazing pair may be the zero
 * vector, for instance where both legs are on one great circle, and whether a grazing pair has a point, and which,
 * may change when a leg is walked backwards or the legs trade places. Its class never does, nor does a clean pair's
 * point, but for the sign of a zero.
 *
 * A leg from a point to the same point is grazing with every leg: leave a repeated position out. */
uint32_t arcstring_pair(const double a[6], const double b[6], uint8_t *class_, uint8_t *kept, double point[3]);

/* The kept points of one leg with every leg of a string, a mark for each (1 clean, 0 grazing), and how many pairs are
 * clean, end, grazing and apart. The points are as arcstring_pair has them, not normalised. Refuses by 4 of the leg,
 * by 1, 3 and 4 of the string, by 9 and by 7. */
uint32_t arcstring_leg_crossings(const double leg[6], const double *v, size_t v_len, uint8_t closed, double margin,
                                 double *points, size_t points_len, uint8_t *marks, size_t marks_len,
                                 size_t *kept, uint64_t counts[4]);

/* The same of every leg of one string with every leg of another, leg by leg of the first: so the clean points may
 * stand in another sequence when the strings have traded places or changed. Refuses by 1, 3, 4, 9 and 7. */
uint32_t arcstring_crossings(const double *a, size_t a_len, uint8_t a_closed,
                             const double *b, size_t b_len, uint8_t b_closed, double margin,
                             double *points, size_t points_len, uint8_t *marks, size_t marks_len,
                             size_t *kept, uint64_t counts[4]);

/* The counts alone: clean, end, grazing, apart. At one margin they stay the same when the strings trade places, one is
 * walked backwards or a closed one is restarted. Refuses by 1, 3, 4 and 9. */
uint32_t arcstring_count(const double *a, size_t a_len, uint8_t a_closed,
                         const double *b, size_t b_len, uint8_t b_closed, double margin, uint64_t counts[4]);

/* The kept points of a string with itself: legs that are not neighbours, the closing leg of a closed string left out,
 * so that a restart, after which another leg is the closing one, changes what is visited. The points are divided by
 * their length, unless that is below 3e-11, as it is for two legs shorter than some 35 m: such a point stays as it
 * is, a zero vector too. Refuses by 1, 3, 4, 9 and 7. */
uint32_t arcstring_crossings_with_self(const double *v, size_t v_len, double margin,
                                       double *points, size_t points_len, uint8_t *marks, size_t marks_len,
                                       size_t *kept, uint64_t counts[4]);

/* Whether some pair of legs of a string keeps a point: legs that are not neighbours, the closing leg of a closed
 * string among them. As in the source, the closing leg is held against leg 0 too, though they meet at vertex 0: by
 * rounding, a closed string that does not cross itself may get a yes. Kept grazing points count, here and in the next
 * call, so that the answer may change when the string is walked backwards, and it may when a closed one is restarted.
 * No below four vertices. Refuses by 1, 3 and 4. */
uint32_t arcstring_crosses_self(const double *v, size_t v_len, uint8_t closed, uint8_t *yes);

/* Whether two points are on the same side of a string: the leg between them has an even number of kept points with
 * it, grazing ones counted. Not to be asked of a point and the same point, between which there is no leg. Refuses by
 * 4 of the points, then by 1, 3 and 4 of the string. */
uint32_t arcstring_same_side(double ax, double ay, double az, double bx, double by, double bz,
                             const double *v, size_t v_len, uint8_t closed, uint8_t *yes);

/* ---- Calls that read a near list, too: the points that stand for the string where nearness is asked. A built
 * string's near list is its vertices, and the same list may be lent for both. Its checks come after those of its
 * vertices; an empty one is refused by 1. */

/* Whether a point is along a string: within the square root of 3e-11 of an entry of its near list, or on one of its
 * legs as the source has it, arcstring_xyzs_coplanar(start, point, end), which seeks the leg's end between its start
 * and the point. So a point past the end, up to half a circle from the start less some 1.3 km, is on the leg, and one
 * between start and end is not, unless it equals one of them; but where rounding does not tell, on legs below some
 * 0.2 m, and within millimetres of the end on legs up to some 100 m. Refuses by 1, 3 and 4 of each list, then by 4 of
 * the point. */
uint32_t arcstring_along(double x, double y, double z, const double *v, size_t v_len,
                         const double *near, size_t near_len, uint8_t closed, uint8_t *yes);

/* Whether two strings are equal: both closed, or both open with each end of the first near an end of the second, the
 * ends normalised once more; and every vertex of each along the other. It asks for the ends of the first alone, and
 * so is not symmetric, as the source is not. Refuses by 1, 3 and 4 of each list in turn. */
uint32_t arcstring_eq(const double *a, size_t a_len, const double *a_near, size_t a_near_len, uint8_t a_closed,
                      const double *b, size_t b_len, const double *b_near, size_t b_near_len, uint8_t b_closed,
                      uint8_t *yes);

/* Whether neither string is within the other and some pair of legs keeps a point, a grazing one too: so the answer
 * may change when the strings trade places or one is walked backwards. Refuses as arcstring_eq does. */
uint32_t arcstring_crosses(const double *a, size_t a_len, const double *a_near, size_t a_near_len, uint8_t a_closed,
                           const double *b, size_t b_len, const double *b_near, size_t b_near_len, uint8_t b_closed,
                           uint8_t *yes);

/* Whether every vertex of the first string is along the second. Refuses by 1, 3 and 4 of each list in turn. */
uint32_t arcstring_within(const double *a, size_t a_len, const double *b, size_t b_len,
                          const double *b_near, size_t b_near_len, uint8_t b_closed, uint8_t *yes);

/* Whether every vertex of the second string is along the first. Refuses by 1, 3 and 4 of each list in turn. */
uint32_t arcstring_contains(const double *a, size_t a_len, const double *a_near, size_t a_near_len, uint8_t a_closed,
                            const double *b, size_t b_len, uint8_t *yes);

/* ---- Measures of a string. */

/* A double for each vertex: negative at a left turn, positive at a right one, as seen from above the sphere, NaN at
 * both ends of an open string. (1, -0.5, 0), (1, 0, 0), (1, 0, 0.5), east and then north, has -0.25 in the middle.
 * `out_len` and `count` are in doubles. Refuses by 1, 3, 4 and 7. */
uint32_t arcstring_turn_orientations(const double *v, size_t v_len, uint8_t closed, double *out, size_t out_len,
                                     size_t *count);

/* The midpoint of each leg. Refuses by 1, 2 for an open string of one vertex, 3, 4 and 7. */
uint32_t arcstring_midpoints(const double *v, size_t v_len, uint8_t closed, double *out, size_t out_len, size_t *count);

/* ---- Strings changed. A simplified string, or one with vertices inserted, keeps its flag and its near list: go on
 * lending the near list that it had. */

/* The string without the vertices that the source takes for unnecessary, in rounds, and the numbers of those that are
 * left. A vertex is unnecessary where arcstring_xyzs_coplanar(before, vertex, after) holds: where it equals one of
 * its neighbours, or the one after it is found between it and the one before. One that lies between its neighbours is
 * not, but where rounding does not tell. The last vertex is judged with vertex 2 for the one after it, so that an
 * open string of three vertices always loses its last: X, Y, Z on the three axes becomes X, Y. Of a closed string
 * whose vertex 1 is unnecessary the source removes other vertices than it judged, and 5 comes from there:
 * docs/TERMS.md has how. A single vertex may be left. Refuses by 1, 10, 3, 4, 5 and 7. An open string never gets 5. */
uint32_t arcstring_simplify(const double *v, size_t v_len, const uint32_t *buoys, size_t buoys_len, uint8_t closed,
                            double *out, size_t out_len, uint32_t *out_buoys, size_t out_buoys_len, size_t *count);

/* The string with each point in turn put in before the start of every leg that it is on, as arcstring_along has it of
 * a leg, with the point's own number. What was put in is part of the string: in a closed one of two or more vertices,
 * a point put in before vertex 0 goes in before the last vertex, too. The points are used as given, not normalised;
 * there may be none. Refuses by 1, 10, 3 and 4 of the string, then of the points, by 3 where an insertion makes more
 * than 1,024 vertices, and by 7. */
uint32_t arcstring_insert_vertices(const double *v, size_t v_len, const uint32_t *buoys, size_t buoys_len,
                                   uint8_t closed, const double *points, size_t points_len,
                                   const uint32_t *point_buoys, size_t point_buoys_len, double *out, size_t out_len,
                                   uint32_t *out_buoys, size_t out_buoys_len, size_t *count);

/* A leg cut at points, each in turn: a piece that the point is on, as arcstring_along has it of a leg, and of which
 * it equals neither end, becomes the piece from its start to the point, and a piece of point, point is put after it.
 * That one has no length, and nearly any further point is on it. As many places are gone over as there were pieces
 * before the point: a piece that is pushed past them is not cut. `pieces` is how many there are, six doubles each, or
 * 0 for uncut, which writes nothing. Refuses by 4 of the leg, by 1, 3 and 4 of the points, by 3 where a cut makes
 * more than 512 pieces, and by 7. */
uint32_t arcstring_split_leg(const double leg[6], const double *points, size_t points_len, double *out, size_t out_len,
                             size_t *pieces);

/* A string cut at a point, at every leg that the point is on, as arcstring_along has it of a leg: into the vertices
 * up to the leg's start and the point, and the point and the vertices from the leg's end to the last, or of the
 * closing leg the point and vertex 0. A closed string that is cut loses its closing leg, unless it is cut there, too.
 * A point that equals a vertex is on both its legs. k cuts make k + 1 pieces: the first part of the last cut, and
 * then the second parts, the last cut's first; these overlap if there are several. With several points some pieces
 * are cut by the next one, and some are not (docs/TERMS.md): to say which, cut at one at a time.
 *
 * The pieces stand one after another in `out`, and their numbers in `out_buoys`; counts[k] is how many vertices piece
 * k has, flags[k] is 1 where it is closed and 0 where it is open. Each is built anew, and its near list is its
 * vertices. A point cut at brings its own number into both pieces; a piece that closes drops its last vertex's number
 * with it. `pieces` is how many there are, or 0 for uncut, which writes nothing. Refuses by 1, 10, 3 and 4 of the
 * string, then of the points, by 3 where after a cut all pieces together have more than 1,024 vertices, and by 7
 * where one of the four buffers is too short. */
uint32_t arcstring_split(const double *v, size_t v_len, const uint32_t *buoys, size_t buoys_len, uint8_t closed,
                         const double *points, size_t points_len, const uint32_t *point_buoys, size_t point_buoys_len,
                         double *out, size_t out_len, uint32_t *out_buoys, size_t out_buoys_len,
                         size_t *counts, size_t counts_len, uint8_t *flags, size_t flags_len, size_t *pieces);

/* ---- Marks, of a course: points that are placed in the middle of legs (the marks of listings above are bytes). On a leg
 * as arcstring_along has it is the source's test, which looks for the leg's end between its start and the point; these
 * calls look for the mark between start and end. */

/* Whether a mark lies on a leg. It does where it equals start or end, as arcstring_xyz_eq has it, whatever the leg.
 * Else, with n the cross product of start and end, it does exactly where n is not shorter than 2e-8, start . end is above
 * -1 + 2e-8, the size of mark . n divided by the length of n is below 2e-8, mark . start and mark . end are each at least
 * start . end, and mark . (start + end) is not negative. So, of unit vectors: within 2e-8 rad, 13 cm on the Earth, of
 * the leg's great circle, and between its ends. A leg below those 13 cm, and one that is short of half a circle by some
 * 1.3 km or less, hold no other marks than those that equal an end. Near the ends of legs below some 100 m rounding
 * decides (docs/ACCURACY.md). A leg and its reverse hold the same marks. Refuses by 4 of the leg, then of the mark. */
uint32_t arcstring_mark_on_leg(const double leg[6], double x, double y, double z, uint8_t *yes);

/* Whether some leg of a string holds a mark, as arcstring_mark_on_leg has it: no near list is asked for. A string that
 * is walked backwards or restarted holds the same marks. Refuses by 1, 3 and 4 of the string, then by 4 of the mark. */
uint32_t arcstring_mark_on_string(double x, double y, double z, const double *v, size_t v_len, uint8_t closed,
                                  uint8_t *yes);

/* A string cut at marks. A closed one is opened at vertex 0, which then stands at both ends: it is the one piece that
 * there is at first. Each mark in turn: of the first piece that holds it, at the first leg that does, the mark becomes
 * the last vertex of one piece and the first of the next, as given, not normalised, and with its own number. A mark
 * that equals the first or the last vertex of that piece cuts nothing, and so does a mark that no leg holds; one that
 * equals an inner vertex cuts, and that vertex stays too.
 *
 * So the pieces, walked one after another, show every old vertex in its old sequence, bit for bit and with its number;
 * between two pieces stands a mark, once in each. Every piece is open, has two vertices or more, and its near list is
 * its vertices. They stand one after another in `out`, and their numbers in `out_buoys`; counts[k] is how many vertices
 * piece k has. `pieces` is how many there are, one more than the marks that cut, or 0 for uncut, which writes nothing.
 * Refuses by 1, 10, 3 and 4 of the string, then of the marks (there may be none), by 3 where after a cut all pieces
 * together have more than 1,024 vertices, and by 7 where one of the three buffers is too short. */
uint32_t arcstring_cut_at_marks(const double *v, size_t v_len, const uint32_t *buoys, size_t buoys_len, uint8_t closed,
                                const double *points, size_t points_len, const uint32_t *point_buoys,
                                size_t point_buoys_len, double *out, size_t out_len, uint32_t *out_buoys,
                                size_t out_buoys_len, size_t *counts, size_t counts_len, size_t *pieces);

/* ---- Two strings compared by simplified copies. */

/* Whether two strings are equal by arcstring_eq; or else a simplified copy of the shorter, the second if they are
 * equally long, is equal to the other, or to a simplified copy of the other. The near list of a copy is the vertices
 * that it was copied with, not the one lent. Refuses as arcstring_eq does, and by 5 where it comes to simplify a copy
 * that gets it. */
uint32_t arcstring_equals(const double *a, size_t a_len, const double *a_near, size_t a_near_len, uint8_t a_closed,
                          const double *b, size_t b_len, const double *b_near, size_t b_near_len, uint8_t b_closed,
                          uint8_t *yes);

/* Whether simplified copies of two strings are equal by arcstring_equals, neither string is within the other, and a
 * leg of the first has both ends along the second. Refuses as arcstring_equals does, and by 6 where it comes to the
 * last leg of a closed first string. */
uint32_t arcstring_overlaps(const double *a, size_t a_len, const double *a_near, size_t a_near_len, uint8_t a_closed,
                            const double *b, size_t b_len, const double *b_near, size_t b_near_len, uint8_t b_closed,
                            uint8_t *yes);

#ifdef __cplusplus
}
#endif

#endif
