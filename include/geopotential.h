/* geopotential.h: the C entries of the verified gravity-field library libgeopotential.a (x86-64).
 *
 * Every entry is proved to end, to refuse exactly what is written here and to hand back the bits of the published recurrences; legendre_mirror and
 * legendre_mirror_derivative, which the published Rust has not, turn signs as is written there. Values of grid and basin_average are also proved to
 * lie within a margin of the exact sum, under a premise; both are written there.
 *
 * Lists     A list is a pointer and then its length. N is the highest degree nmax and T = (N+1)(N+2)/2; the pair of degree n and order m
 *           stands at n(n+1)/2 + m. A latitude is its sine t and its cosine u; in a list t stands before its u and a cosine before its
 *           sine. A pointer is never null, also that of a list of length 0, and no list that is written overlaps another list of the call.
 * Lengths   For each entry with lists, NAME_lengths answers the length of every list, in the order of the parameters. Input lists have
 *           exactly that length (Love numbers at least that), and so have lists that are changed in place (set, legendre_mirror,
 *           legendre_mirror_derivative); outputs and working lists have that length or more.
 * Answers   0 where the call is done, else the number of the refusal below. A refused call writes nothing. A call that is done writes
 *           its answer at the front of each output (legendre_grow: behind the rows that stand there) and nothing behind it; of a list that
 *           is changed in place it changes the numbers that are named there and no others; input lists are never written. What a working list
 *           holds in its first numbers afterwards is free, the part behind them keeps its bits.
 * Order     A call checks SIZE, then LENGTH, then LOVE, then SPACE; a number that is no functional is refused before all (255).
 * NaN       Any number is ordinary input, NaN and infinities too. The bits of a NaN in an answer are free, but in a model file all bits
 *           are kept.
 * Threads   No entry has state: calls on other lists may run at the same time. polar_cap takes some 0.65 MB of stack, the others less.
 */
#ifndef GEOPOTENTIAL_H
#define GEOPOTENTIAL_H

#include <stddef.h>
#include <stdint.h>

#ifdef __cplusplus
extern "C" {
#endif

/* The version of these entries, raised wherever an entry's parameters or the meaning of its answer change. A build compares the two:
 * an object compiled against another header would link, and pass wrong parameters. */
#define GEOPOTENTIAL_VERSION 3
uint32_t geopotential_version(void);

/* What a call answers. */
enum geopotential_answer {
    GEOPOTENTIAL_DONE = 0,
    GEOPOTENTIAL_SIZE = 1,   /* a degree above 2700 (Gauss 2701, matrix 512, cap 180, region 21), more than 65,535 rows, longitudes, points or
                              * nodes, or more than 4,096 vertices */
    GEOPOTENTIAL_LENGTH = 2, /* an input list, or one that is changed in place, has not exactly its length */
    GEOPOTENTIAL_SPACE = 3,  /* an output list is shorter than its answer, or a working list too short */
    GEOPOTENTIAL_PLACE = 4,  /* an entry outside the table */
    GEOPOTENTIAL_LOVE = 5,   /* water heights without a Love number for each degree */
    GEOPOTENTIAL_SHORT = 6,  /* a model file ends early */
    GEOPOTENTIAL_KIND = 7,   /* a model file has another record than the one due */
    GEOPOTENTIAL_AFTER = 8,  /* a model file goes on after its end */
    GEOPOTENTIAL_TIDE = 9,   /* a tide system above 3 */
    GEOPOTENTIAL_NO_FUNCTIONAL = 255
};

/* The functionals of a field; only water heights read the Love numbers. */
enum geopotential_functional {
    GEOPOTENTIAL_POTENTIAL = 0,           /* m^2/s^2 */
    GEOPOTENTIAL_GEOID_HEIGHT = 1,        /* m: the potential over gm/r^2, not over an ellipsoid's normal gravity */
    GEOPOTENTIAL_GRAVITY_DISTURBANCE = 2, /* m/s^2 */
    GEOPOTENTIAL_GRAVITY_ANOMALY = 3,     /* m/s^2 */
    GEOPOTENTIAL_RADIAL_GRADIENT = 4,     /* 1/s^2 */
    GEOPOTENTIAL_WATER_HEIGHT = 5         /* m of water on the reference sphere; r and gm are not read */
};

/* The tide systems of a model file. */
enum geopotential_tide { GEOPOTENTIAL_TIDE_FREE = 0, GEOPOTENTIAL_ZERO_TIDE = 1, GEOPOTENTIAL_MEAN_TIDE = 2, GEOPOTENTIAL_TIDE_UNKNOWN = 3 };

/* ---- numbers: no refusals */

/* The square root, rounded once. */
double geopotential_root(double x);
/* The same bits, by way of a guess at the root, which may be any number: a near one saves time. */
double geopotential_root_near(double x, double guess);
double geopotential_hypot(double x, double y);
/* 1 or -1 by the sign bit, NaN for NaN. */
double geopotential_signum(double x);
double geopotential_magnitude(double x);
/* Powers by repeated squaring. */
double geopotential_powi(double base, size_t exponent);
/* The number of a bit pattern; the pattern of a number, 7ff8000000000000 for NaN. */
double geopotential_number_of_bits(uint64_t bits);
uint64_t geopotential_bits_of_number(double x);
/* 1 where x comes strictly before y in the falling order (every NaN equal and first), else 0. */
uint32_t geopotential_ranks_before(double x, double y);

/* ---- functionals */

/* The factor of degree n. love: n+1 numbers or more for water heights. Refused by 255, 1 (n above 2700), 5. *value is left alone on a refusal. */
uint32_t geopotential_factor(uint32_t functional, const double *love, size_t love_len, size_t n, double gm, double radius, double r,
                             double *value);

/* ---- coefficients of a field up to degree nmax: c and s of T numbers. These entries take and hand back no tide system and no date: a field keeps
 * both when it is cut or rescaled, and one that is newly made (zeros, analysis) has the tide system unknown and no date. */

/* Zeros at the front of c and s. Refused by 1, 3. */
uint32_t geopotential_zeros(double gm, double radius, size_t nmax, double *c, size_t c_len, double *s, size_t s_len);
/* One coefficient. Refused by 1, 2, 4; *value is left alone on a refusal. */
uint32_t geopotential_coefficient_c(size_t nmax, const double *c, size_t c_len, size_t n, size_t m, double *value);
uint32_t geopotential_coefficient_s(size_t nmax, const double *s, size_t s_len, size_t n, size_t m, double *value);
/* Sets one pair and no other. Refused by 1, 2 (c and s have exactly T numbers), 4. */
uint32_t geopotential_set(size_t nmax, double *c, size_t c_len, double *s, size_t s_len, size_t n, size_t m, double cnm, double snm);
/* The field up to the smaller of nmax and cut, which goes to *degree; a cut is never refused. Cutting a field at one degree and what was written
 * at another is cutting it at the smaller of the two. Refused by 1, 2, 3; *degree is left alone on a refusal. */
uint32_t geopotential_truncated(size_t nmax, const double *c, size_t c_len, const double *s, size_t s_len, size_t cut, double *outc,
                                size_t outc_len, double *outs, size_t outs_len, size_t *degree);
/* The same potential by another gm and radius. Refused by 1, 2, 3. */
uint32_t geopotential_rescaled(double gm, double radius, size_t nmax, const double *c, size_t c_len, const double *s, size_t s_len,
                               double newgm, double newradius, double *outc, size_t outc_len, double *outs, size_t outs_len);
/* The sum of the squares of each degree, N+1 numbers. Refused by 1, 2, 3. */
uint32_t geopotential_degree_variances(size_t nmax, const double *c, size_t c_len, const double *s, size_t s_len, double *out,
                                       size_t out_len);
/* The functional's amplitude of each degree on the reference sphere, N+1 numbers. love: N+1 or more for water heights. Refused by 255, 1, 2, 5,
 * 3. */
uint32_t geopotential_degree_amplitudes(double gm, double radius, size_t nmax, const double *c, size_t c_len, const double *s, size_t s_len,
                                        uint32_t functional, const double *love, size_t love_len, double *out, size_t out_len);

/* ---- model files: numbers by their bit patterns */

/* Reads a file: T patterns to c and to s, and to head six words: the patterns of gm and radius, the tide system, N, 1 where the file states a
 * date and 0 where it states none, and the 32 bits of the date (0 where none is stated): a signed count of days from 2000-01-01, two's
 * complement, so (int32_t)(uint32_t)head[5] is the count. Refused by 6, 7, 9, 1, 8 in the order of the file, then 3. */
uint32_t geopotential_model_read(const uint8_t *bytes, size_t bytes_len, uint64_t *c, size_t c_len, uint64_t *s, size_t s_len,
                                 uint64_t *head, size_t head_len);
/* Writes a file. dated 0 states no date, and days is not read: 21 + 17 T bytes. Any other dated states days from 2000-01-01: 25 + 17 T bytes.
 * Refused by 9, then 1, 2, 3. */
uint32_t geopotential_model_write(uint64_t gm, uint64_t radius, uint32_t tide, uint32_t dated, int32_t days, size_t nmax, const uint64_t *c,
                                  size_t c_len, const uint64_t *s, size_t s_len, uint8_t *out, size_t out_len);

/* ---- tables of the fully normalized Legendre functions, T numbers each */

/* The recursion coefficients a and b, once for all latitudes. Those of one degree are the front of those of any larger one, bit for bit. Refused
 * by 1, 3. */
uint32_t geopotential_legendre_new(size_t nmax, double *a, size_t a_len, double *b, size_t b_len);
/* The rows of a and b above degree from and up to nmax, each in its place. The rows up to from, which stand before them, keep their bits: where
 * they are what legendre_new of from wrote, a and b then hold what legendre_new of nmax writes. Where from is nmax or more, nothing is written.
 * In longer lists the tables up to nmax are the first T numbers, of which legendre_compute is told the length. Refused by 1 (nmax above 2700; from
 * may be any number), 3. */
uint32_t geopotential_legendre_grow(size_t from, size_t nmax, double *a, size_t a_len, double *b, size_t b_len);
/* P(n, m) at one latitude. Refused by 1, 2, 3. */
uint32_t geopotential_legendre_compute(size_t nmax, double t, double u, const double *a, size_t a_len, const double *b, size_t b_len,
                                       double *p, size_t p_len);
/* P(n, m) and its derivative by latitude. Refused by 1, 2, 3. */
uint32_t geopotential_legendre_compute_with_derivative(size_t nmax, double t, double u, const double *a, size_t a_len, const double *b,
                                                       size_t b_len, double *p, size_t p_len, double *dp, size_t dp_len);
/* Mirrors a table at the equator, in its own list: each entry with n-m odd becomes its negative, the others stay. The table of legendre_compute at
 * t, u becomes that at -t, u with the same a and b: equal entry by entry, where zeros of either sign count as equal and NaN as NaN, for every t and
 * u and all a, b, NaN and infinities among them. table: exactly T, since it is read. Refused by 1, 2 in this order. */
uint32_t geopotential_legendre_mirror(size_t nmax, double *table, size_t table_len);
/* The same for the derivatives dp of legendre_compute_with_derivative: each entry with n-m even becomes its negative. Refused by 1, 2 in this
 * order. */
uint32_t geopotential_legendre_mirror_derivative(size_t nmax, double *table, size_t table_len);
/* One entry of a table of P or of its derivatives. Refused by 1, 2, 4; *value is left alone on a refusal. */
uint32_t geopotential_legendre_entry(size_t nmax, const double *table, size_t table_len, size_t n, size_t m, double *value);
/* The n nodes and weights of a Gauss-Legendre rule, from n/2 guesses, rounded up, the largest root's first. x, w: n. Refused by 1 (n above
 * 2701), 2, 3. */
uint32_t geopotential_gauss_legendre(size_t n, const double *guesses, size_t guesses_len, double *x, size_t x_len, double *w,
                                     size_t w_len);

/* ---- fields on grids and at points */

/* A functional at radius r on rows by longitudes: out[i * longitudes + j]. c, s: T; love: N+1 or more for water heights; latitudes: 2 rows, a
 * pair for each row; trig: longitudes (2N+2), for each longitude the cosine and the sine of m times it, m from 0 to N; work: 3T + 3(N+1); out:
 * rows longitudes. Where c, s and the cosines and sines of a value's sum are at most 1 in size, and the value is finite, it lies within (2N+7)/2^53
 * of the sum of the terms' sizes, plus 2(N+1)(N+3)/2^1074, of the exact sum of its terms: factor P c cos and factor P s sin of all T pairs, each
 * by itself. Here factor and P are the rounded numbers that geopotential_factor and, by the a and b of geopotential_legendre_new,
 * geopotential_legendre_compute answer, not the mathematical functions. Outside that premise nothing is promised of the distance. Refused by 255,
 * 1, 2, 5, 3. */
uint32_t geopotential_grid(double gm, double radius, size_t nmax, const double *c, size_t c_len, const double *s, size_t s_len,
                           uint32_t functional, const double *love, size_t love_len, double r, size_t rows, const double *latitudes,
                           size_t latitudes_len, size_t longitudes, const double *trig, size_t trig_len, double *work, size_t work_len,
                           double *out, size_t out_len);
/* V, its derivatives by r, latitude and longitude, at one point. trig: 2N+2, as for one longitude of a grid; work: 4T; out: 4. Refused by 1, 2,
 * 3. */
uint32_t geopotential_partials(double gm, double radius, size_t nmax, const double *c, size_t c_len, const double *s, size_t s_len, double r,
                               double t, double u, const double *trig, size_t trig_len, double *work, size_t work_len, double *out,
                               size_t out_len);
/* The same at many points, four numbers for each; the tables are worked out once. radii: points; latitudes: 2 points; trig: points (2N+2); work:
 * 4T; out: 4 points. Refused by 1, 2, 3. */
uint32_t geopotential_partials_along(double gm, double radius, size_t nmax, const double *c, size_t c_len, const double *s, size_t s_len,
                                     size_t points, const double *radii, size_t radii_len, const double *latitudes, size_t latitudes_len,
                                     const double *trig, size_t trig_len, double *work, size_t work_len, double *out, size_t out_len);
/* The gravitational acceleration from the four numbers of a point: north, east, up. out: 3. Refused by 3. */
uint32_t geopotential_acceleration_neu(double v, double dr, double dlat, double dlon, double r, double t, double u, double *out,
                                       size_t out_len);
/* Gravity: the same with the centrifugal term of a rotation omega. Refused by 3. */
uint32_t geopotential_gravity_neu(double v, double dr, double dlat, double dlon, double r, double t, double u, double omega, double *out,
                                  size_t out_len);
/* V with its first and second derivatives by r, latitude and longitude at one point, ten numbers in this order: v, dr, dlat, dlon, drr, dlatlat,
 * dlonlon, drlat, drlon, dlatlon. v and dlat are those of partials, bit for bit; dr and dlon follow another order of operations and may differ from
 * those of partials by rounding. trig: 2N+2, as for partials; work: 5T; out: 10. Refused by 1, 2, 3. */
uint32_t geopotential_second_partials(double gm, double radius, size_t nmax, const double *c, size_t c_len, const double *s, size_t s_len,
                                      double r, double t, double u, const double *trig, size_t trig_len, double *work, size_t work_len,
                                      double *out, size_t out_len);
/* The same at many points, ten numbers for each; the tables are worked out once. radii: points; latitudes: 2 points; trig: points (2N+2); work:
 * 5T; out: 10 points. Refused by 1, 2, 3. */
uint32_t geopotential_second_partials_along(double gm, double radius, size_t nmax, const double *c, size_t c_len, const double *s,
                                            size_t s_len, size_t points, const double *radii, size_t radii_len, const double *latitudes,
                                            size_t latitudes_len, const double *trig, size_t trig_len, double *work, size_t work_len,
                                            double *out, size_t out_len);
/* The tensor of gravity gradients from the ten numbers of a point, 1/s^2 (1e9 times that in Eotvos): the second derivatives of V along north,
 * east and up, row by row: nn, ne, nu, en, ee, eu, un, ue, uu. The latitude's tangent is t/u and its secant 1/u; at a pole u is 0, and so is a
 * divisor. The tensor is symmetric bit for bit, but that the bits of an entry that is NaN are free. out: 9. Refused by 3. */
uint32_t geopotential_tensor_neu(double v, double dr, double dlat, double dlon, double drr, double dlatlat, double dlonlon, double drlat,
                                 double drlon, double dlatlon, double r, double t, double u, double *out, size_t out_len);
/* The coefficients of a functional's values on N+1 Gauss rows of 2N+2 longitudes, by quadrature. love: N+1 or more for water heights;
 * values: (N+1)(2N+2), row after row; weights: N+1; latitudes: 2(N+1); trig: 2(N+1)(2N+2), order after order, for each longitude the cosine and
 * the sine of m times it; work: 3T; c, s: T. Refused by 255, 1, 2, 5, 3. */
uint32_t geopotential_analysis(uint32_t functional, const double *love, size_t love_len, double r, size_t nmax, double gm, double radius,
                               const double *values, size_t values_len, const double *weights, size_t weights_len, const double *latitudes,
                               size_t latitudes_len, const double *trig, size_t trig_len, double *work, size_t work_len, double *c,
                               size_t c_len, double *s, size_t s_len);

/* ---- eigenvalues, caps, regions and basins */

/* The eigenvalues of a symmetric n by n matrix, in no order, and its eigenvectors as columns: up to n = 32 by Jacobi rotations, above it by
 * householder_ql. a: n^2; work: n^2 + 4n; values: n; vectors: n^2.
 *
 * *settled is 1 or 0 and *count tells the steps. The rotations settle where the test before one of their hundred sweeps passes; count is the sweeps
 * done, at most 100. The iteration settles where each of the n numbers meets its stopping test within its hundred rounds; count is all rounds that
 * went past the test, those that broke off on a zero among them, at most 100n. The answer is written in either case. Neither is an error bound:
 * settled does not mean right (1, 1e200; 1e200, 1 settles after 0 sweeps with its diagonal: its squares overflow), nor 0 wrong (eigenvalues that
 * cluster at 0 keep the test from passing), and a matrix may settle by one method and not by the other. Seen: at most 7 sweeps for the orders of a
 * cap of 40 degrees to degree 18, 131 rounds to degree 60, 365 to degree 180.
 * Refused by 1 (n above 512), 2, 3; *settled and *count are left alone on a refusal. */
uint32_t geopotential_symmetric_eigen(size_t n, const double *a, size_t a_len, double *work, size_t work_len, double *values,
                                      size_t values_len, double *vectors, size_t vectors_len, uint32_t *settled, size_t *count);
/* The same by Householder reduction and QL iteration at every n. */
uint32_t geopotential_householder_ql(size_t n, const double *a, size_t a_len, double *work, size_t work_len, double *values,
                                     size_t values_len, double *vectors, size_t vectors_len, uint32_t *settled, size_t *count);
/* The Slepian functions to degree L of the polar cap whose angle has this cosine, best concentrated first: orders (as numbers),
 * concentrations, and the vectors end to end, L-m+1 numbers each. weights and latitudes, L+1 and 2(L+1), are those of
 * the L+1 Gauss nodes over the cap. settled: 2(L+1) numbers, two for each order m, by rising m and not by rank: 1 or 0 and then the count, as
 * symmetric_eigen tells them of the order's matrix of L-m+1 rows. With k = L+1 and T = k(k+1)/2: orders and concentrations T; vectors:
 * k(k+1)(2k+1)/6; work: 3T + 4k^2 + 5k and these three lengths. Refused by 1 (L above 180), 2, 3. */
uint32_t geopotential_polar_cap(size_t lmax, double cosine, const double *weights, size_t weights_len, const double *latitudes,
                                size_t latitudes_len, double *work, size_t work_len, double *orders, size_t orders_len,
                                double *concentrations, size_t concentrations_len, double *vectors, size_t vectors_len, double *settled,
                                size_t settled_len);
/* Regions of any shape, to degree L, up to 21. With k = L+1 there are k^2 functions: the basis P(l,m) cos(m lon), P(l,m) sin(m lon) has l outermost,
 * the cosine before the sine and no sine at m = 0, so that (l,m) stands at place l^2 for m = 0, and else at l^2 + 2m - 1 (cosine) and l^2 + 2m
 * (sine).
 *
 * The caller lends `nodes` nodes in colatitude, at most 65,535; 0 are allowed. Of each: weights, one number; latitudes, two, sine and cosine;
 * marks, a byte: 0 skips the node, of which nothing is read, any other counts; s and c, 2L+1 numbers each, the integrals of cos(f lon) and
 * sin(f lon) over the region's longitudes there, f = 0 to 2L. Any numbers do. For a region as the published Rust integrates it, between
 * neighbouring breaks a < b in colatitude (its vertices' and extremes'; for an outline polygon_breaks and polygon_intervals answer breaks and
 * longitudes), with the Gauss nodes x and weights w of the rule, in radians:
 *     t = (x+1) pi/2,  theta = a + (b-a)(1-cos t)/2,  weight = w pi/2 (b-a) sin(t)/2 sin(theta),  latitude = pi/2 - theta,
 * and over the longitudes lo to hi that the region has there, summed: s[0] = hi - lo, c[0] = 0, and for f above 0
 *     s[f] = (sin(f hi) - sin(f lo))/f,  c[f] = (cos(f lo) - cos(f hi))/f;  mark 0 where it has none.
 *
 * The concentration matrix, k^4 numbers, row by row over the basis: 1/(4 pi) of the integral of the product of two functions over the region.
 * It has the same bits at (i,j) and (j,i), whatever the lists hold, but that the bits of a NaN are free. Its trace is meant to be the Shannon
 * number k^2 A/(4 pi), A the region's area: about so many functions are well concentrated. work: 3T with T = k(k+1)/2, left as it was. Refused by
 * 1 (L above 21, or too many nodes), 2, 3. */
uint32_t geopotential_concentration_matrix(size_t lmax, size_t nodes, const double *weights, size_t weights_len, const double *latitudes,
                                           size_t latitudes_len, const uint8_t *marks, size_t marks_len, const double *s, size_t s_len,
                                           const double *c, size_t c_len, double *work, size_t work_len, double *matrix,
                                           size_t matrix_len);
/* The region's Slepian functions, the eigenvectors of that matrix, best concentrated first: concentrations, k^2 eigenvalues, and for each
 * function T numbers in cs (of the cosines) and T in ss (of the sines, +0.0 at m = 0), function after function, each as a table: k^2 T numbers
 * each. Numbers of a function are used as a model's c and s with gm 1 and radius 1, tide unknown, no date. Concentrations cluster at 1 and 0:
 * within a cluster functions are determined only up to rotations among themselves. *settled and *count are those of symmetric_eigen for the
 * matrix; from L = 10 on a 0 is ordinary, and no error. work: 3T + 4k^4 + 5k^2. Refused by 1 (L above 21, or too many nodes), 2, 3; *settled and
 * *count are left alone on a refusal. */
uint32_t geopotential_region(size_t lmax, size_t nodes, const double *weights, size_t weights_len, const double *latitudes,
                             size_t latitudes_len, const uint8_t *marks, size_t marks_len, const double *s, size_t s_len, const double *c,
                             size_t c_len, double *work, size_t work_len, double *concentrations, size_t concentrations_len, double *cs,
                             size_t cs_len, double *ss, size_t ss_len, uint32_t *settled, size_t *count);
/* Basins drawn as polygons. An outline is a list of vertices, at most 4,096, and 0 are allowed: of each its longitude, then its latitude, in
 * radians. Its edges run from each vertex to the next and from the last to the first, straight in longitude and latitude; it may be concave. Any
 * numbers do, but where an outline crosses the dateline or holds a pole its intervals are not the basin's. Longitudes may run beyond a turn: a
 * whole turn more or less for all vertices changes nothing but rounding.
 *
 * The longitudes inside an outline at colatitude theta, in radians: *count intervals, each its west end and then its east end, from west to east
 * at the front of out. With the colatitude pi/2 - latitude of each vertex, the edge from (l0, c0) to (l1, c1) counts where the rounded product
 * (c0 - theta)(c1 - theta) is below 0, so that a vertex at theta adds nothing; it is crossed at l0 + (l1 - l0)(theta - c0)/(c1 - c0), product before
 * quotient. The crossings are ranked rising, every NaN last, and taken two by two; an unpaired last one is dropped, and an empty outline has no
 * intervals. outline: 2 vertices; work: vertices, which are overwritten; out: 2 *count or more, and for every theta what polygon_intervals_lengths
 * tells is enough: twice vertices/2, rounded down. Refused by 1 (more than 4,096 vertices), 2 (outline), 3 (work, then out); *count is left alone on
 * a refusal. */
uint32_t geopotential_polygon_intervals(size_t vertices, const double *outline, size_t outline_len, double theta, double *work,
                                        size_t work_len, double *out, size_t out_len, size_t *count);
/* The breaks of an outline, between which it is integrated: its vertices' colatitudes, ranked rising, every NaN last, *count of them at the front of
 * out. Of neighbours that are equal (==) the first is kept, so every NaN stays. outline: 2 vertices; work: vertices, left as it was; out: *count or
 * more, and `vertices` are enough. Refused by 1, 2, 3 as polygon_intervals; *count is left alone on a refusal. */
uint32_t geopotential_polygon_breaks(size_t vertices, const double *outline, size_t outline_len, double *work, size_t work_len, double *out,
                                     size_t out_len, size_t *count);
/* The kernel of a basin to degree L, up to 2700, over nodes that are lent as for a region (above): 1/(4 pi) of the integrals over the basin of
 * P(l,m) cos(m lon) in kc, and of P(l,m) sin(m lon) in ks, +0.0 at m = 0. Both are tables, used as a model's c and s with gm 1 and radius 1, tide
 * unknown, no date, and lent to basin_average with kmax = L. Up to L = 21 they have the bits of the first row and column of the concentration matrix.
 * The first number, kc[0], is the basin's share of the sphere as the nodes integrate it. The margin of basin_average holds where it is at most 1 in
 * size; it can be above, by too few nodes, by rounding for nearly the whole sphere, or by the numbers that are lent. weights: nodes; latitudes: 2
 * nodes; marks: nodes; s, c: (2L+1) nodes, no more than the first L+1 of each node are read; work: 3T with T = (L+1)(L+2)/2, which are overwritten;
 * kc, ks: T. Refused by 1 (L above 2700, or too many nodes), 2, 3. */
uint32_t geopotential_basin_kernel(size_t lmax, size_t nodes, const double *weights, size_t weights_len, const double *latitudes,
                                   size_t latitudes_len, const uint8_t *marks, size_t marks_len, const double *s, size_t s_len,
                                   const double *c, size_t c_len, double *work, size_t work_len, double *kc, size_t kc_len, double *ks,
                                   size_t ks_len);
/* A functional's average over a basin by its kernel, up to the smaller degree M. c, s: T; kc, ks: the same of kmax; love: M+1 or more for water
 * heights. Where kc[0] is at most 1 in size and the value is finite, the value times kc[0] lies within (T+5)/2^53 of the sum of the terms' sizes,
 * plus (3TF+1)/2^1074, of the exact sum of its terms: factor c kc and factor s ks of all T = (M+1)(M+2)/2 pairs up to M, each by
 * itself; F is the larger of 1 and the largest factor's size. Here factor is the rounded number that geopotential_factor answers, not the
 * mathematical function. Outside that premise nothing is promised of the distance. Refused by 255, 1, 2, 5; *value is left alone on a refusal. */
uint32_t geopotential_basin_average(double gm, double radius, size_t nmax, const double *c, size_t c_len, const double *s, size_t s_len,
                                    size_t kmax, const double *kc, size_t kc_len, const double *ks, size_t ks_len, uint32_t functional,
                                    const double *love, size_t love_len, double r, double *value);

/* ---- lengths
 *
 * Each writes the length of every list of its call to the front of `lengths`, in the order that is named beside it; such lists are not refused
 * for their lengths. Love numbers are told for water heights: other functionals read none. Refused, nothing written, by 1 where the call itself
 * would be, and by 3 where `lengths` has too few numbers.
 */
uint32_t geopotential_factor_lengths(size_t n, size_t *lengths, size_t lengths_len);                   /* love */
uint32_t geopotential_zeros_lengths(size_t nmax, size_t *lengths, size_t lengths_len);                 /* c, s */
uint32_t geopotential_coefficient_c_lengths(size_t nmax, size_t *lengths, size_t lengths_len);         /* c */
uint32_t geopotential_coefficient_s_lengths(size_t nmax, size_t *lengths, size_t lengths_len);         /* s */
uint32_t geopotential_set_lengths(size_t nmax, size_t *lengths, size_t lengths_len);                   /* c, s */
uint32_t geopotential_truncated_lengths(size_t nmax, size_t cut, size_t *lengths, size_t lengths_len); /* c, s, outc, outs */
uint32_t geopotential_rescaled_lengths(size_t nmax, size_t *lengths, size_t lengths_len);              /* c, s, outc, outs */
uint32_t geopotential_degree_variances_lengths(size_t nmax, size_t *lengths, size_t lengths_len);      /* c, s, out */
uint32_t geopotential_degree_amplitudes_lengths(size_t nmax, size_t *lengths, size_t lengths_len);     /* c, s, love, out */
/* bytes, c, s, head, by the first 20 bytes of a file, or 24 where it is dated (its first byte is 4); refused by its head as in model_read. */
uint32_t geopotential_model_read_lengths(const uint8_t *bytes, size_t bytes_len, size_t *lengths, size_t lengths_len);
uint32_t geopotential_model_write_lengths(size_t nmax, uint32_t dated, size_t *lengths, size_t lengths_len);      /* c, s, out */
uint32_t geopotential_legendre_new_lengths(size_t nmax, size_t *lengths, size_t lengths_len);                     /* a, b */
uint32_t geopotential_legendre_grow_lengths(size_t nmax, size_t *lengths, size_t lengths_len);                    /* a, b */
uint32_t geopotential_legendre_compute_lengths(size_t nmax, size_t *lengths, size_t lengths_len);                 /* a, b, p */
uint32_t geopotential_legendre_compute_with_derivative_lengths(size_t nmax, size_t *lengths, size_t lengths_len); /* a, b, p, dp */
uint32_t geopotential_legendre_mirror_lengths(size_t nmax, size_t *lengths, size_t lengths_len);                  /* table */
uint32_t geopotential_legendre_mirror_derivative_lengths(size_t nmax, size_t *lengths, size_t lengths_len);       /* table */
uint32_t geopotential_legendre_entry_lengths(size_t nmax, size_t *lengths, size_t lengths_len);                   /* table */
uint32_t geopotential_gauss_legendre_lengths(size_t n, size_t *lengths, size_t lengths_len);                      /* guesses, x, w */
/* c, s, love, latitudes, trig, work, out */
uint32_t geopotential_grid_lengths(size_t nmax, size_t rows, size_t longitudes, size_t *lengths, size_t lengths_len);
uint32_t geopotential_partials_lengths(size_t nmax, size_t *lengths, size_t lengths_len); /* c, s, trig, work, out */
/* c, s, radii, latitudes, trig, work, out */
uint32_t geopotential_partials_along_lengths(size_t nmax, size_t points, size_t *lengths, size_t lengths_len);
uint32_t geopotential_acceleration_neu_lengths(size_t *lengths, size_t lengths_len);             /* out */
uint32_t geopotential_gravity_neu_lengths(size_t *lengths, size_t lengths_len);                  /* out */
uint32_t geopotential_second_partials_lengths(size_t nmax, size_t *lengths, size_t lengths_len); /* c, s, trig, work, out */
/* c, s, radii, latitudes, trig, work, out */
uint32_t geopotential_second_partials_along_lengths(size_t nmax, size_t points, size_t *lengths, size_t lengths_len);
uint32_t geopotential_tensor_neu_lengths(size_t *lengths, size_t lengths_len);                   /* out */
uint32_t geopotential_analysis_lengths(size_t nmax, size_t *lengths, size_t lengths_len); /* love, values, weights, latitudes, trig, work, c, s */
uint32_t geopotential_symmetric_eigen_lengths(size_t n, size_t *lengths, size_t lengths_len); /* a, work, values, vectors */
uint32_t geopotential_householder_ql_lengths(size_t n, size_t *lengths, size_t lengths_len);  /* a, work, values, vectors */
/* weights, latitudes, work, orders, concentrations, vectors, settled */
uint32_t geopotential_polar_cap_lengths(size_t lmax, size_t *lengths, size_t lengths_len);
/* weights, latitudes, marks, s, c, work, matrix */
uint32_t geopotential_concentration_matrix_lengths(size_t lmax, size_t nodes, size_t *lengths, size_t lengths_len);
/* weights, latitudes, marks, s, c, work, concentrations, cs, ss */
uint32_t geopotential_region_lengths(size_t lmax, size_t nodes, size_t *lengths, size_t lengths_len);
uint32_t geopotential_polygon_intervals_lengths(size_t vertices, size_t *lengths, size_t lengths_len); /* outline, work, out */
uint32_t geopotential_polygon_breaks_lengths(size_t vertices, size_t *lengths, size_t lengths_len);    /* outline, work, out */
/* weights, latitudes, marks, s, c, work, kc, ks */
uint32_t geopotential_basin_kernel_lengths(size_t lmax, size_t nodes, size_t *lengths, size_t lengths_len);
uint32_t geopotential_basin_average_lengths(size_t nmax, size_t kmax, size_t *lengths, size_t lengths_len); /* c, s, kc, ks, love */

#ifdef __cplusplus
}
#endif

#endif
