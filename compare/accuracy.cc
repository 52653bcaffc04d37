// How often the clean count is not the exact number of crossings, by the length of the legs, how near an end then is to
// the other leg, and which margin covers that. Exact is what S2 (Debian: libs2-dev) says of the vertices as they are
// built. Prints the tables of docs/ACCURACY.md.
//
//     compare/run accuracy [SEED [STRING_PAIRS [LENGTH]]]       with a length, the first tables of that length alone
//
// Compiled with -ffp-contract=off: the side values worked out here have to be the library's to the last bit.
#include "arcstring.h"

#include <algorithm>
#include <array>
#include <cmath>
#include <cstdio>
#include <cstdlib>
#include <random>
#include <vector>

#include "s2/s2edge_crosser.h"
#include "s2/s2edge_crossings.h"
#include "s2/s2pointutil.h"

constexpr size_t N = 32;  // vertices of a string
constexpr double TURN = 6.28318530717958647693, EARTH = 6371e3;
constexpr double ERROR = 4e-16;  // times the square of the longest leg: a margin that covers the error of a side value

using String = std::array<S2Point, N>;
static_assert(sizeof(String) == 3 * N * sizeof(double), "S2's points are flat, as the library's are");

// What was seen at one length of legs, in rad; the other string's are longer by the factor.
struct Row {
  double length, factor;
  size_t strings = 0, others = 0, missed = 0, invented = 0, grazing = 0;
  double margin = -1, error = 0;  // the least that covers all judged otherwise; the greatest error of a side value
  double off = 0;  // how far the nearest end is from the other leg's circle, at most, of all judged otherwise
  size_t outside = 0, doubtful = 0, clean_left = 0;  // at the margin below: string pairs, string pairs, clean pairs
  std::vector<double> clean = {}, exact = {}, least = {};  // least side values: clean pairs, crossings, string pairs
};

std::mt19937_64 bits;
double uniform() { return static_cast<double>(bits() >> 11) * 0x1p-53; }

// Ends the run where something that the measurement rests on does not hold.
void need(bool ok, const char *what) {
  if (!ok) std::printf("failed: %s\n", what), std::exit(1);
}

// The point some distance away; any direction, if none is given.
S2Point away(const S2Point &from, double distance, double direction = TURN * uniform()) {
  const S2Point x = S2::Ortho(from), y = from.CrossProd(x);
  return (from * cos(distance) + (x * cos(direction) + y * sin(direction)) * sin(distance)).Normalize();
}

// An open string: a random walk both ways from a leg that goes through the point.
String walk(const S2Point &through, double length) {
  uint32_t none[N] = {}, buoys[N];
  String raw, built;
  size_t count;
  uint8_t closed;
  do {
    const double leg = length * (0.5 + uniform()), part = leg * uniform(), direction = TURN * uniform();
    raw[N / 2 - 1] = away(through, part, direction);
    raw[N / 2] = away(through, leg - part, direction + TURN / 2);
    for (size_t i = 1; i < N / 2; i++) {
      const double back = length * (0.5 + uniform()), on = length * (0.5 + uniform());
      raw[N / 2 - 1 - i] = away(raw[N / 2 - i], back);
      raw[N / 2 + i] = away(raw[N / 2 + i - 1], on);
    }
    need(arcstring_build(raw[0].Data(), 3 * N, none, N, built[0].Data(), 3 * N, buoys, N, &count, &closed) == 0,
         "arcstring_build refuses");
  } while (closed);
  return built;
}

// The side values of two legs by the operations of the published arcs_crossing.
template <class T> std::array<T, 4> sides(const S2Point a[2], const S2Point b[2]) {
  using V = Vector3<T>;
  const V a0 = V::Cast(a[0]), a1 = V::Cast(a[1]), b0 = V::Cast(b[0]), b1 = V::Cast(b[1]);
  const V p = a0.CrossProd(a1), q = b0.CrossProd(b1), t = p.CrossProd(q);
  return {(-a0.CrossProd(p)).DotProd(t), a1.CrossProd(p).DotProd(t),
          (-b0.CrossProd(q)).DotProd(t), b1.CrossProd(q).DotProd(t)};
}

// How far an end is from the great circle of a leg, in rad.
double from_circle(const S2Point &end, const S2Point leg[2]) {
  using V = Vector3<long double>;
  const V n = V::Cast(leg[0]).CrossProd(V::Cast(leg[1]));
  return static_cast<double>(std::fabs(V::Cast(end).DotProd(n)) / n.Norm());
}

// The same of the nearest of four ends and the other leg's circle.
double nearest(const S2Point a[2], const S2Point b[2]) {
  return std::min({from_circle(a[0], b), from_circle(a[1], b), from_circle(b[0], a), from_circle(b[1], a)});
}

// Sets a pair of legs against the exact answer, and adds to the counts of classes. Returns its least side value.
double judge(Row &row, const S2Point a[2], const S2Point b[2], bool crosses, uint64_t counts[4]) {
  uint8_t found, kept;
  double point[3], least = INFINITY;
  need(arcstring_pair(a[0].Data(), b[0].Data(), &found, &kept, point) == 0, "arcstring_pair refuses");
  const auto side = sides<double>(a, b);
  const auto finer = sides<long double>(a, b);  // 11 bits more, to see the error
  int positive = 0;
  for (size_t k = 0; k < 4; k++) {
    least = std::min(least, std::fabs(side[k]));
    row.error = std::max(row.error, static_cast<double>(std::fabs(side[k] - finer[k])));
    positive += side[k] > 0;
  }
  const int signs = positive % 4 != 0 ? ARCSTRING_APART : found == ARCSTRING_END ? ARCSTRING_END : ARCSTRING_CLEAN;
  need(found == (least == 0 ? ARCSTRING_GRAZING : signs), "the side values are not those of arcstring_pair");
  counts[found - 1]++;
  row.missed += crosses && found != ARCSTRING_CLEAN;
  row.grazing += found == ARCSTRING_GRAZING;
  row.invented += !crosses && found == ARCSTRING_CLEAN;
  if (crosses != (found == ARCSTRING_CLEAN)) {
    row.margin = std::max(row.margin, least);
    row.off = std::max(row.off, nearest(a, b));
  }
  if (crosses) row.exact.push_back(least);
  if (found == ARCSTRING_CLEAN) row.clean.push_back(least);
  return least;
}

// The margin for the longest legs that walks of a row can have.
double margin_for(const Row &row) {
  const double longest = 1.5 * row.length * row.factor;
  return ERROR * longest * longest;
}

// Sets the counts at that margin against the exact number of crossings: it lies from clean to clean and grazing.
void bracket(Row &row, const String &a, const String &b, uint64_t exact) {
  uint64_t counts[4];
  need(arcstring_count(a[0].Data(), 3 * N, 0, b[0].Data(), 3 * N, 0, margin_for(row), counts) == 0,
       "arcstring_count refuses");
  row.outside += exact < counts[0] || counts[0] + counts[2] < exact;
  row.doubtful += counts[2] > 0;
  row.clean_left += counts[0];
}

// Sets a pair of strings against the exact answer, all legs with all legs.
void compare(Row &row, const String &a, const String &b) {
  uint64_t counts[4], sum[4] = {0, 0, 0, 0}, exact = 0;
  double least = INFINITY;
  need(arcstring_count(a[0].Data(), 3 * N, 0, b[0].Data(), 3 * N, 0, 0.0, counts) == 0, "arcstring_count refuses");
  for (size_t i = 1; i < N; i++) {
    S2EdgeCrosser crosser(&a[i - 1], &a[i], &b[0]);
    for (size_t j = 1; j < N; j++) {
      const bool crosses = crosser.CrossingSign(&b[j]) > 0;
      exact += crosses;
      least = std::min(least, judge(row, &a[i - 1], &b[j - 1], crosses, sum));
    }
  }
  need(std::equal(counts, counts + 4, sum), "arcstring_count is not the sum of arcstring_pair");
  row.strings++;
  row.others += counts[0] != exact;
  row.least.push_back(least);
  bracket(row, a, b, exact);
}

// Pairs of strings that go through the same patch, anywhere on the sphere.
Row measure(double length, double factor, size_t strings) {
  Row row{length, factor};
  while (row.strings < strings) {
    const double south = std::acos(1 - 2 * uniform()), apart = 2 * length * uniform();
    const S2Point centre = away(S2Point(0, 0, 1), south);
    const String a = walk(centre, length), b = walk(away(centre, apart), length * factor);
    compare(row, a, b);
  }
  need(!row.clean.empty(), "too few string pairs");
  std::nth_element(row.clean.begin(), row.clean.begin() + row.clean.size() / 2, row.clean.end());
  return row;
}

// Pairs of legs of which the second starts on the first, as a vertex does that was put there.
Row touching(double length, size_t pairs) {
  Row row{length, 1};
  uint64_t counts[4] = {0, 0, 0, 0};
  for (; row.strings < pairs; row.strings++) {
    const S2Point start = away(S2Point(0, 0, 1), std::acos(1 - 2 * uniform()));
    const S2Point a[2] = {start, away(start, length * (0.5 + uniform()))};
    const double part = uniform();
    const S2Point on = (a[0] * (1 - part) + a[1] * part).Normalize();
    const S2Point b[2] = {on, away(on, length * (0.5 + uniform()))};
    judge(row, a, b, S2::CrossingSign(a[0], a[1], b[0], b[1]) > 0, counts);
  }
  return row;
}

// How many of the values are at most the margin, in percent.
double share(const std::vector<double> &values, double margin) {
  return 100.0 * std::count_if(values.begin(), values.end(), [=](double v) { return v <= margin; }) / values.size();
}

// Three tables: what was judged otherwise, what a bound on side values would do, and what the margin does.
void tables(const std::vector<Row> &rows) {
  std::puts("\n| leg, rad | on the Earth, m | the limit's legs | string pairs | leg pairs | exact crossings "
            "| string pairs counted otherwise | missed | invented | grazing | nearest end, at most, mm |\n"
            "|--:|--:|--:|--:|--:|--:|--:|--:|--:|--:|--:|");
  for (const Row &r : rows) {
    std::printf("| %g | %.3g | x %g | %zu | %zu | %zu | %zu | %zu | %zu | %zu |", r.length, r.length * EARTH, r.factor,
                r.strings, r.strings * (N - 1) * (N - 1), r.exact.size(), r.others, r.missed, r.invented, r.grazing);
    r.margin < 0 ? std::printf(" |\n") : std::printf(" %.2g |\n", r.off * EARTH * 1000);
  }
  std::puts("\n| leg, rad | the limit's legs | least side value of a clean pair, median | margin that covers "
            "| crossings, % | string pairs, % | greatest error | crossings, % | string pairs, % |\n"
            "|--:|--:|--:|--:|--:|--:|--:|--:|--:|");
  for (const Row &r : rows) {
    std::printf("| %g | x %g | %.2g ", r.length, r.factor, r.clean[r.clean.size() / 2]);
    if (r.margin < 0) std::printf("| none needed | | ");
    else std::printf("| %.2g | %.3g | %.3g ", r.margin, share(r.exact, r.margin), share(r.least, r.margin));
    std::printf("| %.2g | %.3g | %.3g |\n", r.error, share(r.exact, r.error), share(r.least, r.error));
  }
  std::puts("\n| leg, rad | the limit's legs | margin | string pairs whose crossings are not from clean to clean + grazing "
            "| string pairs with grazing, % | clean pairs that graze, % |\n|--:|--:|--:|--:|--:|--:|");
  for (const Row &r : rows)
    std::printf("| %g | x %g | %.2g | %zu | %.3g | %.3g |\n", r.length, r.factor, margin_for(r), r.outside,
                100.0 * r.doubtful / r.strings, 100.0 * (r.clean.size() - r.clean_left) / r.clean.size());
}

// A table of the pairs in which one leg starts on the other.
void touching_table(size_t pairs) {
  std::puts("\nOne leg starts on the other:\n\n"
            "| leg, rad | leg pairs | grazing | missed | invented | judged otherwise, % | margin that covers "
            "| nearest end, at most, mm |\n|--:|--:|--:|--:|--:|--:|--:|--:|");
  for (double length : {1.0, 1e-1, 1e-2, 1e-3, 1e-4, 1e-5, 1e-6, 1e-7}) {
    const Row r = touching(length, pairs);
    std::printf("| %g | %zu | %zu | %zu | %zu | %.3g | %.2g | %.2g |\n", length, r.strings, r.grazing, r.missed,
                r.invented, 100.0 * (r.missed + r.invented) / r.strings, r.margin, r.off * EARTH * 1000);
  }
}

// All tables.
void everything(size_t strings) {
  std::vector<Row> same, longer;
  for (double length : {1.0, 1e-1, 1e-2, 1e-3, 1e-4, 1e-5, 3e-6, 1e-6, 3e-7, 1e-7, 3e-8, 1e-8})
    same.push_back(measure(length, 1, strings));
  tables(same);
  std::puts("\nA track of legs of that length with a limit of longer legs:");
  for (double factor : {10.0, 1000.0})
    for (double length : {1e-2, 1e-4, 1e-5, 1e-6, 1e-7, 1e-8})
      if (1.5 * length * factor < 1) longer.push_back(measure(length, factor, strings / 4));
  tables(longer);
  touching_table(strings);
}

int main(int argc, char **argv) {
  const unsigned long long seed = argc > 1 ? std::strtoull(argv[1], nullptr, 10) : 1;
  const size_t strings = argc > 2 ? std::strtoull(argv[2], nullptr, 10) : 60000;
  std::printf("Seed %llu.\n", seed);
  bits.seed(seed);
  if (argc > 3) tables({measure(std::strtod(argv[3], nullptr), 1, strings)});
  else everything(strings);
}
