// Crossings by Google's S2, for compare/run bench: which legs of two open strings cross, told leg by leg along the second one.
#include <cstddef>
#include <cstdint>

#include "s2/s2edge_crosser.h"

static_assert(sizeof(S2Point) == 3 * sizeof(double), "an S2 point is three doubles");

// How many pairs cross inside both legs. The points are flat, three doubles each, of length 1; there is at least one of each string.
extern "C" uint64_t s2_crossings(const double *a, size_t a_vertices, const double *b, size_t b_vertices) {
  const S2Point *p = reinterpret_cast<const S2Point *>(a);
  const S2Point *q = reinterpret_cast<const S2Point *>(b);
  uint64_t crossings = 0;
  for (size_t i = 1; i < a_vertices; ++i) {
    S2EdgeCrosser crosser(&p[i - 1], &p[i], &q[0]);
    for (size_t j = 1; j < b_vertices; ++j) {
      crossings += crosser.CrossingSign(&q[j]) > 0;
    }
  }
  return crossings;
}
