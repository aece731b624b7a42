/* Calls every entry of the header once, on lists as long as the entries that tell lengths say, and checks what comes back: document 01's
 * marked values, values that follow by hand, and refusals that must leave a list alone. Prints each line that does not hold. */
#include <math.h>
#include <stdio.h>
#include <stdlib.h>
#include <string.h>

#include "geopotential.h"

#define LISTS 9
#define CHECK(holds) check((holds) ? 1 : 0, #holds, __LINE__)

static unsigned checks, failures;

/* A list of no numbers. */
static const double none[1];

static void check(int holds, const char *what, int line)
{
    checks++;
    if (!holds) {
        failures++;
        printf("header: line %d does not hold: %s\n", line, what);
    }
}

/* A list of this many numbers, all 7; one number more, so that no list is empty. */
static double *list(size_t length)
{
    double *numbers = malloc((length + 1) * sizeof *numbers);
    if (numbers == NULL) abort();
    for (size_t i = 0; i <= length; i++) numbers[i] = 7;
    return numbers;
}

/* Cosine and sine of m times an angle, for m up to nmax. */
static void fill_trig(double angle, size_t nmax, double *trig)
{
    for (size_t m = 0; m <= nmax; m++) {
        trig[2 * m] = cos((double)m * angle);
        trig[2 * m + 1] = sin((double)m * angle);
    }
}

static void numbers(void)
{
    CHECK(geopotential_root(4) == 2);
    CHECK(geopotential_root_near(4, 3) == 2);
    CHECK(geopotential_hypot(3, 4) == 5);
    CHECK(geopotential_signum(-0.0) == -1);
    CHECK(geopotential_magnitude(-2.5) == 2.5);
    CHECK(geopotential_powi(2, 10) == 1024);
    CHECK(geopotential_number_of_bits(0x3FF6A09E667F3BCD) == geopotential_root(2));
    CHECK(geopotential_bits_of_number(1) == 0x3FF0000000000000);
    CHECK(geopotential_ranks_before(NAN, INFINITY) == 1);
}

static void functionals(void)
{
    size_t lengths[LISTS];
    double value = 7;
    CHECK(geopotential_factor_lengths(3, lengths, LISTS) == GEOPOTENTIAL_DONE && lengths[0] == 4);
    CHECK(geopotential_factor(GEOPOTENTIAL_POTENTIAL, none, 0, 3, 8, 1, 2, &value) == GEOPOTENTIAL_DONE && value == 0.5);
    CHECK(geopotential_factor(GEOPOTENTIAL_WATER_HEIGHT, none, 0, 3, 8, 1, 2, &value) == GEOPOTENTIAL_LOVE && value == 0.5);
    CHECK(geopotential_factor(6, none, 0, 3, 8, 1, 2, &value) == GEOPOTENTIAL_NO_FUNCTIONAL && value == 0.5);
}

/* A field of degree 2 with c(2, 1) = 3 and s(2, 1) = 4. */
static void coefficients(void)
{
    size_t lengths[LISTS], degree = 7;
    double value = 7, out[3];
    CHECK(geopotential_zeros_lengths(2, lengths, LISTS) == GEOPOTENTIAL_DONE);
    double *c = list(lengths[0]), *s = list(lengths[1]), *outc = list(lengths[0]), *outs = list(lengths[1]);
    size_t size = lengths[0];
    CHECK(size == 6 && geopotential_zeros(8, 1, 2, c, size, s, size) == GEOPOTENTIAL_DONE && c[5] == 0 && c[6] == 7);
    CHECK(geopotential_set_lengths(2, lengths, LISTS) == GEOPOTENTIAL_DONE && lengths[1] == size);
    CHECK(geopotential_set(2, c, size, s, size, 2, 1, 3, 4) == GEOPOTENTIAL_DONE && c[4] == 3 && s[4] == 4);
    CHECK(geopotential_coefficient_c_lengths(2, lengths, 1) == GEOPOTENTIAL_DONE && lengths[0] == size);
    CHECK(geopotential_coefficient_c(2, c, size, 2, 1, &value) == GEOPOTENTIAL_DONE && value == 3);
    CHECK(geopotential_coefficient_s_lengths(2, lengths, 1) == GEOPOTENTIAL_DONE && lengths[0] == size);
    CHECK(geopotential_coefficient_s(2, s, size, 2, 1, &value) == GEOPOTENTIAL_DONE && value == 4);
    CHECK(geopotential_coefficient_s(2, s, size, 1, 2, &value) == GEOPOTENTIAL_PLACE && value == 4);
    CHECK(geopotential_truncated_lengths(2, 1, lengths, LISTS) == GEOPOTENTIAL_DONE && lengths[2] == 3);
    CHECK(geopotential_truncated(2, c, size, s, size, 1, outc, lengths[2], outs, lengths[3], &degree) == GEOPOTENTIAL_DONE);
    CHECK(degree == 1 && outc[2] == 0 && outc[3] == 7);
    /* Cut once more: what was written, at 0, is the field cut at 0. */
    CHECK(geopotential_truncated(1, outc, 3, outs, 3, 0, out, 1, &value, 1, &degree) == GEOPOTENTIAL_DONE);
    CHECK(degree == 0 && out[0] == c[0] && value == s[0]);
    CHECK(geopotential_rescaled_lengths(2, lengths, LISTS) == GEOPOTENTIAL_DONE && lengths[3] == size);
    CHECK(geopotential_rescaled(8, 1, 2, c, size, s, size, 4, 2, outc, size, outs, size) == GEOPOTENTIAL_DONE && outc[4] == 1.5);
    CHECK(geopotential_degree_variances_lengths(2, lengths, LISTS) == GEOPOTENTIAL_DONE && lengths[2] == 3);
    CHECK(geopotential_degree_variances(2, c, size, s, size, out, lengths[2]) == GEOPOTENTIAL_DONE && out[2] == 25);
    CHECK(geopotential_degree_variances(2, c, size, s, size - 1, out, 3) == GEOPOTENTIAL_LENGTH && out[2] == 25);
    CHECK(geopotential_degree_amplitudes_lengths(2, lengths, LISTS) == GEOPOTENTIAL_DONE && lengths[2] == 3 && lengths[3] == 3);
    CHECK(geopotential_degree_amplitudes(8, 2, 2, c, size, s, size, GEOPOTENTIAL_GEOID_HEIGHT, none, 0, out, lengths[3]) ==
              GEOPOTENTIAL_DONE &&
          out[2] == 10);
    free(c), free(s), free(outc), free(outs);
}

/* Document 01's file of 38 bytes: gm 1, radius 1, tide 3, N 0, c 1, s 0. */
static void model_files(void)
{
    const uint64_t one = geopotential_bits_of_number(1);
    uint64_t c[1] = {one}, s[1] = {0}, head[6];
    uint8_t file[38], dated[42];
    size_t lengths[LISTS];
    CHECK(geopotential_model_write_lengths(0, 0, lengths, LISTS) == GEOPOTENTIAL_DONE && lengths[2] == sizeof file);
    CHECK(geopotential_model_write(one, one, GEOPOTENTIAL_TIDE_UNKNOWN, 0, 5, 0, c, 1, s, 1, file, lengths[2]) == GEOPOTENTIAL_DONE);
    CHECK(geopotential_model_write(one, one, 4, 1, 5, 0, c, 1, s, 1, file, sizeof file) == GEOPOTENTIAL_TIDE);
    CHECK(geopotential_model_read_lengths(file, 20, lengths, LISTS) == GEOPOTENTIAL_DONE);
    CHECK(lengths[0] == sizeof file && lengths[1] == 1 && lengths[2] == 1 && lengths[3] == 6);
    c[0] = 7;
    CHECK(geopotential_model_read(file, sizeof file, c, lengths[1], s, lengths[2], head, lengths[3]) == GEOPOTENTIAL_DONE);
    CHECK(c[0] == one && s[0] == 0 && head[0] == one && head[1] == one && head[2] == GEOPOTENTIAL_TIDE_UNKNOWN && head[3] == 0);
    CHECK(head[4] == 0 && head[5] == 0);
    CHECK(geopotential_model_read(file, 37, c, 1, s, 1, head, 6) == GEOPOTENTIAL_SHORT);
    CHECK(geopotential_model_read(file, sizeof file, c, 1, s, 1, head, 5) == GEOPOTENTIAL_SPACE);
    file[0] = 2;
    CHECK(geopotential_model_read_lengths(file, 20, lengths, LISTS) == GEOPOTENTIAL_KIND && lengths[3] == 6);
    /* The same field of 1999-12-31: four bytes more, all ones. */
    CHECK(geopotential_model_write_lengths(0, 7, lengths, LISTS) == GEOPOTENTIAL_DONE && lengths[2] == sizeof dated);
    CHECK(geopotential_model_write(one, one, GEOPOTENTIAL_TIDE_UNKNOWN, 7, -1, 0, c, 1, s, 1, dated, lengths[2]) == GEOPOTENTIAL_DONE);
    CHECK(dated[0] == 4 && dated[19] == 0 && dated[20] == 255 && dated[23] == 255 && dated[24] == 2);
    CHECK(geopotential_model_read_lengths(dated, 24, lengths, LISTS) == GEOPOTENTIAL_DONE && lengths[0] == sizeof dated);
    CHECK(geopotential_model_read_lengths(dated, 23, lengths, LISTS) == GEOPOTENTIAL_SHORT);
    CHECK(geopotential_model_read(dated, sizeof dated, c, 1, s, 1, head, 6) == GEOPOTENTIAL_DONE);
    CHECK(c[0] == one && s[0] == 0 && head[3] == 0 && head[4] == 1 && (int32_t)(uint32_t)head[5] == -1);
}

static void tables(void)
{
    size_t lengths[LISTS];
    const double t = 0.6, u = 0.8;
    double value = 7, guess = 0x1p-54, x[1], w[1];
    CHECK(geopotential_legendre_compute_with_derivative_lengths(2, lengths, LISTS) == GEOPOTENTIAL_DONE);
    const size_t size = lengths[3];
    double *a = list(size), *b = list(size), *p = list(size), *dp = list(size);
    CHECK(geopotential_legendre_new_lengths(2, lengths, LISTS) == GEOPOTENTIAL_DONE && lengths[1] == size);
    CHECK(geopotential_legendre_new(2, a, size, b, size) == GEOPOTENTIAL_DONE);
    CHECK(geopotential_legendre_compute_lengths(2, lengths, LISTS) == GEOPOTENTIAL_DONE && lengths[2] == size);
    CHECK(geopotential_legendre_compute(2, t, u, a, size, b, size, p, size) == GEOPOTENTIAL_DONE);
    CHECK(fabs(p[1] - sqrt(3) * t) < 1e-15 && fabs(p[3] - sqrt(5) / 2 * (3 * t * t - 1)) < 1e-15);
    CHECK(geopotential_legendre_compute_with_derivative(2, t, u, a, size, b, size, p, size, dp, size) == GEOPOTENTIAL_DONE);
    CHECK(geopotential_legendre_entry_lengths(2, lengths, LISTS) == GEOPOTENTIAL_DONE && lengths[0] == size);
    CHECK(geopotential_legendre_entry(2, dp, size, 1, 0, &value) == GEOPOTENTIAL_DONE && fabs(value - sqrt(3) * u) < 1e-15);
    CHECK(geopotential_gauss_legendre_lengths(1, lengths, LISTS) == GEOPOTENTIAL_DONE && lengths[0] == 1 && lengths[2] == 1);
    CHECK(geopotential_gauss_legendre(1, &guess, 1, x, 1, w, 1) == GEOPOTENTIAL_DONE && x[0] == 0 && !signbit(x[0]) && w[0] == 2);
    free(a), free(b), free(p), free(dp);
}

/* Whether two lists have the same bits in this many numbers. */
static int same(const double *x, const double *y, size_t length)
{
    return memcmp(x, y, length * sizeof *x) == 0;
}

/* Tables up to degree 1 that grow to 2 and 3, beside tables up to 3 made at once; the lists have one number more than the tables. */
static void growing_tables(void)
{
    size_t lengths[LISTS];
    CHECK(geopotential_legendre_grow_lengths(3, lengths, LISTS) == GEOPOTENTIAL_DONE && lengths[0] == 10 && lengths[1] == 10);
    const size_t size = lengths[0], more = size + 1;
    double *a = list(size), *b = list(size), *wholea = list(size), *wholeb = list(size), *sevens = list(size);
    CHECK(geopotential_legendre_grow_lengths(2701, lengths, LISTS) == GEOPOTENTIAL_SIZE && lengths[0] == size);
    CHECK(geopotential_legendre_new(3, wholea, size, wholeb, size) == GEOPOTENTIAL_DONE);
    /* Refused: nothing is written. */
    CHECK(geopotential_legendre_grow(1, 2701, a, more, b, more) == GEOPOTENTIAL_SIZE);
    CHECK(geopotential_legendre_grow(1, 3, a, size - 1, b, more) == GEOPOTENTIAL_SPACE);
    CHECK(geopotential_legendre_grow(1, 3, a, more, b, size - 1) == GEOPOTENTIAL_SPACE);
    CHECK(same(a, sevens, more) && same(b, sevens, more));
    /* Done, and nothing to write. */
    CHECK(geopotential_legendre_grow(3, 3, a, more, b, more) == GEOPOTENTIAL_DONE);
    CHECK(geopotential_legendre_grow(SIZE_MAX, 2, a, more, b, more) == GEOPOTENTIAL_DONE);
    CHECK(same(a, sevens, more) && same(b, sevens, more));
    /* Behind three numbers that are no table's: these stay, and nothing behind degree 2 is written. */
    CHECK(geopotential_legendre_grow(1, 2, a, more, b, more) == GEOPOTENTIAL_DONE);
    CHECK(same(a, sevens, 3) && same(a + 3, wholea + 3, 3) && same(a + 6, sevens, more - 6));
    CHECK(same(b, sevens, 3) && same(b + 3, wholeb + 3, 3) && same(b + 6, sevens, more - 6));
    /* Behind the table of degree 1. */
    CHECK(geopotential_legendre_new(1, a, more, b, more) == GEOPOTENTIAL_DONE);
    CHECK(geopotential_legendre_grow(1, 2, a, more, b, more) == GEOPOTENTIAL_DONE);
    CHECK(geopotential_legendre_grow(2, 3, a, more, b, more) == GEOPOTENTIAL_DONE);
    CHECK(same(a, wholea, size) && same(b, wholeb, size) && a[size] == 7 && b[size] == 7);
    free(a), free(b), free(wholea), free(wholeb), free(sevens);
}

/* Whether two lists have equal numbers, zeros of either sign and NaN among them. */
static int equal(const double *x, const double *y, size_t length)
{
    for (size_t i = 0; i < length; i++)
        if (x[i] != y[i] && !(isnan(x[i]) && isnan(y[i]))) return 0;
    return 1;
}

/* Tables up to degree 2 at t = 0.6, mirrored, beside those at t = -0.6. */
static void mirrored_tables(void)
{
    size_t lengths[LISTS];
    CHECK(geopotential_legendre_mirror_lengths(2, lengths, 1) == GEOPOTENTIAL_DONE && lengths[0] == 6);
    const size_t size = lengths[0], more = size + 1;
    CHECK(geopotential_legendre_mirror_derivative_lengths(2, lengths, 1) == GEOPOTENTIAL_DONE && lengths[0] == size);
    CHECK(geopotential_legendre_mirror_lengths(2701, lengths, 1) == GEOPOTENTIAL_SIZE && lengths[0] == size);
    CHECK(geopotential_legendre_mirror_derivative_lengths(2, lengths, 0) == GEOPOTENTIAL_SPACE && lengths[0] == size);
    double *a = list(size), *b = list(size), *p = list(size), *dp = list(size), *south = list(size), *dsouth = list(size);
    CHECK(geopotential_legendre_new(2, a, size, b, size) == GEOPOTENTIAL_DONE);
    CHECK(geopotential_legendre_compute_with_derivative(2, -0.6, 0.8, a, size, b, size, south, size, dsouth, size) == GEOPOTENTIAL_DONE);
    CHECK(geopotential_legendre_compute_with_derivative(2, 0.6, 0.8, a, size, b, size, p, size, dp, size) == GEOPOTENTIAL_DONE);
    CHECK(geopotential_legendre_mirror(2, p, size) == GEOPOTENTIAL_DONE && equal(p, south, size) && p[1] < 0 && p[size] == 7);
    CHECK(geopotential_legendre_mirror_derivative(2, dp, size) == GEOPOTENTIAL_DONE && equal(dp, dsouth, size) && dp[size] == 7);
    /* The derivative of P(0, 0) is +0 on either side, and mirrored it is -0. */
    CHECK(dp[0] == 0 && signbit(dp[0]) && !signbit(dsouth[0]));
    /* Refused, the degree before the length: nothing is written. */
    memcpy(south, p, more * sizeof *p);
    CHECK(geopotential_legendre_mirror(2701, p, size) == GEOPOTENTIAL_SIZE);
    CHECK(geopotential_legendre_mirror_derivative(2701, p, 0) == GEOPOTENTIAL_SIZE);
    CHECK(geopotential_legendre_mirror(2, p, size - 1) == GEOPOTENTIAL_LENGTH);
    CHECK(geopotential_legendre_mirror(2, p, more) == GEOPOTENTIAL_LENGTH);
    CHECK(geopotential_legendre_mirror_derivative(2, p, size - 1) == GEOPOTENTIAL_LENGTH);
    CHECK(geopotential_legendre_mirror_derivative(2, p, more) == GEOPOTENTIAL_LENGTH);
    CHECK(same(p, south, more));
    free(a), free(b), free(p), free(dp), free(south), free(dsouth);
}

/* A point mass (c(0, 0) = 1) at twice its reference radius: V = gm/r, and a grid of two rows and three longitudes. */
static void grid(void)
{
    size_t lengths[LISTS];
    CHECK(geopotential_grid_lengths(2, 2, 3, lengths, LISTS) == GEOPOTENTIAL_DONE && lengths[6] == 6);
    double *c = list(lengths[0]), *s = list(lengths[1]), *latitudes = list(lengths[3]), *trig = list(lengths[4]);
    double *work = list(lengths[5]), *out = list(lengths[6]);
    CHECK(geopotential_zeros(8, 1, 2, c, lengths[0], s, lengths[1]) == GEOPOTENTIAL_DONE);
    c[0] = 1;
    for (size_t i = 0; i < 2; i++) latitudes[2 * i] = sin((double)i), latitudes[2 * i + 1] = cos((double)i);
    for (size_t j = 0; j < 3; j++) fill_trig((double)j, 2, trig + j * 6);
    CHECK(geopotential_grid(8, 1, 2, c, lengths[0], s, lengths[1], GEOPOTENTIAL_POTENTIAL, none, 0, 2, 2, latitudes, lengths[3], 3, trig,
                            lengths[4], work, lengths[5], out, lengths[6]) == GEOPOTENTIAL_DONE);
    CHECK(out[0] == 4 && out[5] == 4 && out[6] == 7 && work[lengths[5]] == 7);
    CHECK(geopotential_grid(8, 1, 2, c, lengths[0], s, lengths[1], GEOPOTENTIAL_POTENTIAL, none, 0, 2, 2, latitudes, lengths[3], 3, trig,
                            lengths[4], work, lengths[5] - 1, out, lengths[6]) == GEOPOTENTIAL_SPACE);
    CHECK(geopotential_grid_lengths(2, 65536, 3, lengths, LISTS) == GEOPOTENTIAL_SIZE);
    free(c), free(s), free(latitudes), free(trig), free(work), free(out);
}

static void points(void)
{
    size_t lengths[LISTS];
    const double radii[2] = {2, 4}, latitudes[4] = {0, 1, 0.6, 0.8};
    double three[3];
    CHECK(geopotential_partials_along_lengths(2, 2, lengths, LISTS) == GEOPOTENTIAL_DONE && lengths[6] == 8);
    double *c = list(lengths[0]), *s = list(lengths[1]), *trig = list(lengths[4]), *work = list(lengths[5]), *out = list(lengths[6]);
    CHECK(geopotential_zeros(8, 1, 2, c, lengths[0], s, lengths[1]) == GEOPOTENTIAL_DONE);
    c[0] = 1;
    fill_trig(0.5, 2, trig), fill_trig(1.5, 2, trig + 6);
    CHECK(geopotential_partials_along(8, 1, 2, c, lengths[0], s, lengths[1], 2, radii, lengths[2], latitudes, lengths[3], trig, lengths[4],
                                      work, lengths[5], out, lengths[6]) == GEOPOTENTIAL_DONE);
    CHECK(out[0] == 4 && out[1] == -2 && out[4] == 2 && out[5] == -0.5 && out[8] == 7);
    CHECK(geopotential_partials_lengths(2, lengths, LISTS) == GEOPOTENTIAL_DONE && lengths[4] == 4);
    CHECK(geopotential_partials(8, 1, 2, c, lengths[0], s, lengths[1], 2, 0, 1, trig, lengths[2], work, lengths[3], out, lengths[4]) ==
              GEOPOTENTIAL_DONE &&
          out[0] == 4 && out[1] == -2);
    CHECK(geopotential_acceleration_neu_lengths(lengths, 1) == GEOPOTENTIAL_DONE && lengths[0] == 3);
    CHECK(geopotential_acceleration_neu(4, -2, 6, 8, 2, 0.6, 0.5, three, 3) == GEOPOTENTIAL_DONE);
    CHECK(three[0] == 3 && three[1] == 8 && three[2] == -2);
    CHECK(geopotential_gravity_neu_lengths(lengths, 0) == GEOPOTENTIAL_SPACE && lengths[0] == 3);
    CHECK(geopotential_gravity_neu_lengths(lengths, 1) == GEOPOTENTIAL_DONE && lengths[0] == 3);
    CHECK(geopotential_gravity_neu(4, -2, 6, 8, 2, 0.5, 0.5, 2, three, 3) == GEOPOTENTIAL_DONE);
    CHECK(three[0] == 1 && three[1] == 8 && three[2] == 0);
    free(c), free(s), free(trig), free(work), free(out);
}

/* The same point mass, and a field with c(2, 1) = 3 and s(2, 1) = 4 beside what partials says of it. */
static void second_derivatives(void)
{
    size_t lengths[LISTS];
    const double radii[2] = {2, 4}, latitudes[4] = {0, 1, 0.6, 0.8};
    double first[4];
    CHECK(geopotential_second_partials_along_lengths(2, 2, lengths, LISTS) == GEOPOTENTIAL_DONE && lengths[5] == 30 && lengths[6] == 20);
    double *c = list(lengths[0]), *s = list(lengths[1]), *trig = list(lengths[4]), *work = list(lengths[5]), *out = list(lengths[6]);
    CHECK(geopotential_zeros(8, 1, 2, c, lengths[0], s, lengths[1]) == GEOPOTENTIAL_DONE);
    c[0] = 1;
    fill_trig(0.5, 2, trig), fill_trig(1.5, 2, trig + 6);
    CHECK(geopotential_second_partials_along(8, 1, 2, c, lengths[0], s, lengths[1], 2, radii, lengths[2], latitudes, lengths[3], trig,
                                             lengths[4], work, lengths[5], out, lengths[6]) == GEOPOTENTIAL_DONE);
    CHECK(out[0] == 4 && out[1] == -2 && out[4] == 2 && out[10] == 2 && out[11] == -0.5 && out[14] == 0.25 && out[20] == 7);
    CHECK(work[lengths[5]] == 7);
    CHECK(geopotential_second_partials_along_lengths(2, 65536, lengths, LISTS) == GEOPOTENTIAL_SIZE && lengths[6] == 20);
    CHECK(geopotential_second_partials_lengths(2, lengths, LISTS) == GEOPOTENTIAL_DONE && lengths[3] == 30 && lengths[4] == 10);
    c[4] = 3, s[4] = 4;
    CHECK(geopotential_partials(8, 1, 2, c, lengths[0], s, lengths[1], 2, 0.6, 0.8, trig, lengths[2], work, lengths[3], first, 4) ==
          GEOPOTENTIAL_DONE);
    CHECK(geopotential_second_partials(8, 1, 2, c, lengths[0], s, lengths[1], 2, 0.6, 0.8, trig, lengths[2], work, lengths[3], out,
                                       lengths[4]) == GEOPOTENTIAL_DONE);
    CHECK(out[0] == first[0] && fabs(out[1] - first[1]) < 1e-14 && out[2] == first[2] && fabs(out[3] - first[3]) < 1e-14);
    CHECK(geopotential_second_partials(8, 1, 2, c, lengths[0], s, lengths[1], 2, 0.6, 0.8, trig, lengths[2], work, lengths[3], out, 9) ==
          GEOPOTENTIAL_SPACE);
    free(c), free(s), free(trig), free(work), free(out);
}

/* The tensor of ten numbers where the latitude's tangent is 2 and its secant 4, then at a pole, where both are infinite. */
static void tensor(void)
{
    size_t lengths[LISTS];
    const double due[9] = {2, 17, 2, 17, 16, 10, 2, 10, 3};
    double nine[9];
    CHECK(geopotential_tensor_neu_lengths(lengths, 1) == GEOPOTENTIAL_DONE && lengths[0] == 9);
    CHECK(geopotential_tensor_neu(4, -2, 6, 8, 3, 12, 5, 7, 9, 1, 2, 0.5, 0.25, nine, 9) == GEOPOTENTIAL_DONE);
    for (size_t i = 0; i < 9; i++) CHECK(nine[i] == due[i]);
    CHECK(geopotential_tensor_neu(4, -2, 6, 8, 3, 12, 5, 7, 9, 1, 2, 1, 0, nine, 8) == GEOPOTENTIAL_SPACE && nine[1] == 17);
    CHECK(geopotential_tensor_neu(4, -2, 6, 8, 3, 12, 5, 7, 9, 1, 2, 1, 0, nine, 9) == GEOPOTENTIAL_DONE);
    CHECK(nine[0] == 2 && nine[2] == 2 && nine[6] == 2 && nine[8] == 3 && isnan(nine[4]) && isinf(nine[1]) && nine[1] == nine[3]);
}

/* A constant on the grid of degree 0, one Gauss row of two longitudes, is the field's first coefficient. */
static void analysis(void)
{
    size_t lengths[LISTS];
    const double values[2] = {4, 4}, weights[1] = {2}, latitudes[2] = {0, 1}, trig[4] = {1, 0, 1, 0};
    double work[3], c[1], s[1];
    CHECK(geopotential_analysis_lengths(0, lengths, LISTS) == GEOPOTENTIAL_DONE && lengths[1] == 2 && lengths[4] == 4 && lengths[5] == 3);
    CHECK(geopotential_analysis(GEOPOTENTIAL_POTENTIAL, none, 0, 2, 0, 8, 1, values, lengths[1], weights, lengths[2], latitudes, lengths[3],
                                trig, lengths[4], work, lengths[5], c, lengths[6], s, lengths[7]) == GEOPOTENTIAL_DONE);
    CHECK(c[0] == 1 && s[0] == 0);
}

static void eigenvalues(void)
{
    size_t lengths[LISTS], count = 9;
    uint32_t settled = 9;
    const double a[4] = {7, 0, 0, 5}, large[4] = {1, 1e200, 1e200, 1}, bad[1] = {NAN};
    double values[2], vectors[4], work[12];
    CHECK(geopotential_symmetric_eigen_lengths(2, lengths, LISTS) == GEOPOTENTIAL_DONE && lengths[1] == 12 && lengths[3] == 4);
    CHECK(geopotential_symmetric_eigen(2, a, lengths[0], work, lengths[1], values, lengths[2], vectors, lengths[3], &settled, &count) ==
          GEOPOTENTIAL_DONE);
    CHECK(values[0] == 7 && values[1] == 5 && vectors[0] == 1 && vectors[1] == 0 && settled == 1 && count == 0);
    /* Settled is not right: the squares overflow, and the diagonal is the answer. The other method finds the values in one round. */
    CHECK(geopotential_symmetric_eigen(2, large, lengths[0], work, lengths[1], values, lengths[2], vectors, lengths[3], &settled, &count) ==
          GEOPOTENTIAL_DONE);
    CHECK(values[0] == 1 && values[1] == 1 && settled == 1 && count == 0);
    CHECK(geopotential_householder_ql(2, large, lengths[0], work, lengths[1], values, lengths[2], vectors, lengths[3], &settled, &count) ==
          GEOPOTENTIAL_DONE);
    CHECK(fabs(values[0] + 1e200) < 1e185 && values[1] == -values[0] && settled == 1 && count == 1);
    CHECK(geopotential_householder_ql_lengths(1, lengths, LISTS) == GEOPOTENTIAL_DONE && lengths[1] == 5);
    CHECK(geopotential_householder_ql(1, a, lengths[0], work, lengths[1], values, lengths[2], vectors, lengths[3], &settled, &count) ==
          GEOPOTENTIAL_DONE);
    CHECK(values[0] == 7 && vectors[0] == 1 && settled == 1 && count == 0);
    CHECK(geopotential_symmetric_eigen(1, bad, lengths[0], work, lengths[1], values, lengths[2], vectors, lengths[3], &settled, &count) ==
          GEOPOTENTIAL_DONE);
    CHECK(settled == 0 && count == 100);
    settled = count = 9;
    CHECK(geopotential_symmetric_eigen(1, bad, 2, work, lengths[1], values, lengths[2], vectors, lengths[3], &settled, &count) ==
          GEOPOTENTIAL_LENGTH);
    CHECK(geopotential_householder_ql(513, bad, 1, work, lengths[1], values, lengths[2], vectors, lengths[3], &settled, &count) ==
          GEOPOTENTIAL_SIZE);
    CHECK(settled == 9 && count == 9);
    CHECK(geopotential_symmetric_eigen_lengths(513, lengths, LISTS) == GEOPOTENTIAL_SIZE && lengths[1] == 5);
}

/* The cap that is the whole sphere: every function lies in it whole. */
static void caps(void)
{
    size_t lengths[LISTS];
    CHECK(geopotential_polar_cap_lengths(1, lengths, LISTS) == GEOPOTENTIAL_DONE && lengths[3] == 3 && lengths[5] == 5 && lengths[6] == 4);
    const double node = sqrt(1.0 / 3), u = sqrt(2.0 / 3), weights[2] = {1, 1}, latitudes[4] = {-node, u, node, u};
    double *work = list(lengths[2]), *orders = list(lengths[3]), *concentrations = list(lengths[4]), *vectors = list(lengths[5]);
    double *settled = list(lengths[6]);
    CHECK(geopotential_polar_cap(1, -1, weights, lengths[0], latitudes, lengths[1], work, lengths[2], orders, lengths[3], concentrations,
                                 lengths[4], vectors, lengths[5], settled, lengths[6]) == GEOPOTENTIAL_DONE);
    for (size_t i = 0; i < 3; i++) CHECK(fabs(concentrations[i] - 1) < 1e-14);
    CHECK(orders[0] + orders[1] + orders[2] == 1 && orders[3] == 7 && vectors[5] == 7);
    CHECK(settled[0] == 1 && settled[1] == 2 && settled[2] == 1 && settled[3] == 0 && settled[4] == 7);
    free(work), free(orders), free(concentrations), free(vectors), free(settled);
}

/* The whole sphere: two Gauss nodes over all longitudes, and a third node that is skipped. */
static void regions(void)
{
    size_t lengths[LISTS];
    CHECK(geopotential_concentration_matrix_lengths(1, 3, lengths, LISTS) == GEOPOTENTIAL_DONE && lengths[3] == 9 && lengths[6] == 16);
    const double node = sqrt(1.0 / 3), u = sqrt(2.0 / 3), turn = 2 * acos(-1.0);
    const double weights[3] = {1, 1, NAN}, latitudes[6] = {-node, u, node, u, NAN, NAN};
    const double s[9] = {turn, 0, 0, turn, 0, 0, NAN, NAN, NAN}, c[9] = {0, 0, 0, 0, 0, 0, NAN, NAN, NAN};
    const uint8_t marks[3] = {1, 255, 0};
    double *work = list(lengths[5]), *matrix = list(lengths[6]);
    CHECK(geopotential_concentration_matrix(1, 3, weights, lengths[0], latitudes, lengths[1], marks, lengths[2], s, lengths[3], c,
                                            lengths[4], work, lengths[5], matrix, lengths[6]) == GEOPOTENTIAL_DONE);
    for (size_t i = 0; i < 16; i++) CHECK(fabs(matrix[i] - (i % 5 == 0)) < 1e-14);
    CHECK(matrix[16] == 7 && work[0] == 7);
    free(work), free(matrix);
    CHECK(geopotential_region_lengths(1, 3, lengths, LISTS) == GEOPOTENTIAL_DONE && lengths[5] == 93 && lengths[7] == 12);
    uint32_t settled = 9;
    size_t count = 9;
    double *room = list(lengths[5]), *concentrations = list(lengths[6]), *cs = list(lengths[7]), *ss = list(lengths[8]);
    CHECK(geopotential_region(1, 3, weights, lengths[0], latitudes, lengths[1], marks, lengths[2], s, lengths[3], c, lengths[4], room,
                              lengths[5], concentrations, lengths[6], cs, lengths[7], ss, lengths[8], &settled, &count) == GEOPOTENTIAL_DONE);
    for (size_t i = 0; i < 4; i++) CHECK(fabs(concentrations[i] - 1) < 1e-14 && ss[3 * i] == 0 && ss[3 * i + 1] == 0);
    CHECK(concentrations[4] == 7 && cs[12] == 7 && ss[12] == 7 && room[93] == 7 && settled == 1 && count <= 1);
    free(room), free(concentrations), free(cs), free(ss);
}

/* A square with a notch from above, whose circle at the equator's colatitude cuts it once and further north twice; and its breaks. */
static void outlines(void)
{
    const double square[14] = {0, -1, 4, -1, 4, 1, 3, 1, 2, 0.5, 1, 1, 0, 1}, equator = acos(-1.0) / 2;
    size_t lengths[LISTS], count = 9;
    CHECK(geopotential_polygon_intervals_lengths(7, lengths, LISTS) == GEOPOTENTIAL_DONE);
    CHECK(lengths[0] == 14 && lengths[1] == 7 && lengths[2] == 6);
    double *work = list(lengths[1]), *out = list(lengths[1]);
    CHECK(geopotential_polygon_intervals(7, square, lengths[0], equator, work, lengths[1], out, lengths[2], &count) == GEOPOTENTIAL_DONE);
    CHECK(count == 1 && out[0] == 0 && out[1] == 4 && out[2] == 7 && work[7] == 7);
    CHECK(geopotential_polygon_intervals(7, square, lengths[0], equator - 0.75, work, lengths[1], out, 4, &count) == GEOPOTENTIAL_DONE);
    CHECK(count == 2 && out[0] == 0 && fabs(out[1] - 1.5) < 1e-14 && fabs(out[2] - 2.5) < 1e-14 && out[3] == 4 && out[4] == 7);
    free(work), free(out);
    work = list(lengths[1]), out = list(lengths[1]), count = 9;
    CHECK(geopotential_polygon_intervals(7, square, lengths[0], equator - 0.75, work, lengths[1], out, 3, &count) == GEOPOTENTIAL_SPACE);
    CHECK(geopotential_polygon_breaks(7, square, lengths[0], work, lengths[1], out, 2, &count) == GEOPOTENTIAL_SPACE);
    CHECK(geopotential_polygon_breaks(7, square, 13, work, 6, out, 3, &count) == GEOPOTENTIAL_LENGTH);
    CHECK(geopotential_polygon_breaks(4097, square, 13, work, 6, out, 3, &count) == GEOPOTENTIAL_SIZE);
    CHECK(count == 9 && out[0] == 7 && work[0] == 7);
    CHECK(geopotential_polygon_breaks_lengths(7, lengths, LISTS) == GEOPOTENTIAL_DONE && lengths[0] == 14 && lengths[2] == 7);
    CHECK(geopotential_polygon_breaks(7, square, lengths[0], work, lengths[1], out, lengths[2], &count) == GEOPOTENTIAL_DONE);
    CHECK(count == 3 && out[0] == equator - 1 && out[1] == equator - 0.5 && out[2] == equator + 1 && out[3] == 7 && work[0] == 7);
    CHECK(geopotential_polygon_breaks(0, none, 0, work, 0, out, 0, &count) == GEOPOTENTIAL_DONE && count == 0);
    CHECK(geopotential_polygon_intervals_lengths(4097, lengths, LISTS) == GEOPOTENTIAL_SIZE && lengths[2] == 7);
    CHECK(geopotential_polygon_breaks_lengths(4097, lengths, LISTS) == GEOPOTENTIAL_SIZE && lengths[2] == 7);
    free(work), free(out);
}

/* The kernel of the whole sphere is the constant 1, of half of its longitudes a half with an odd part. */
static void kernels(void)
{
    size_t lengths[LISTS];
    CHECK(geopotential_basin_kernel_lengths(1, 3, lengths, LISTS) == GEOPOTENTIAL_DONE);
    CHECK(lengths[1] == 6 && lengths[3] == 9 && lengths[5] == 9 && lengths[7] == 3);
    const double node = sqrt(1.0 / 3), u = sqrt(2.0 / 3), turn = 2 * acos(-1.0);
    const double weights[3] = {1, 1, NAN}, latitudes[6] = {-node, u, node, u, NAN, NAN};
    const double s[9] = {turn, 0, 0, turn, 0, 0, NAN, NAN, NAN}, half[9] = {turn / 2, 0, 0, turn / 2, 0, 0, NAN, NAN, NAN};
    const double c[9] = {0, 0, 0, 0, 0, 0, NAN, NAN, NAN}, odd[9] = {0, 2, 0, 0, 2, 0, NAN, NAN, NAN};
    const uint8_t marks[3] = {1, 255, 0};
    double *work = list(lengths[5]), *kc = list(lengths[6]), *ks = list(lengths[7]);
    CHECK(geopotential_basin_kernel(1, 3, weights, lengths[0], latitudes, lengths[1], marks, lengths[2], s, lengths[3], c, lengths[4], work,
                                    lengths[5], kc, lengths[6], ks, lengths[7]) == GEOPOTENTIAL_DONE);
    CHECK(kc[0] == 1 && kc[1] == 0 && kc[2] == 0 && ks[0] == 0 && ks[1] == 0 && ks[2] == 0 && kc[3] == 7 && ks[3] == 7 && work[9] == 7);
    CHECK(geopotential_basin_kernel(1, 3, weights, lengths[0], latitudes, lengths[1], marks, lengths[2], half, lengths[3], odd, lengths[4],
                                    work, lengths[5], kc, lengths[6], ks, lengths[7]) == GEOPOTENTIAL_DONE);
    CHECK(kc[0] == 0.5 && ks[0] == 0 && !signbit(ks[0]) && fabs(ks[2] - 2 * sqrt(2.0) / turn) < 1e-15);
    kc[0] = 7;
    CHECK(geopotential_basin_kernel(1, 3, weights, lengths[0], latitudes, lengths[1], marks, lengths[2], s, lengths[3], c, lengths[4], work,
                                    lengths[5], kc, lengths[6], ks, 2) == GEOPOTENTIAL_SPACE &&
          kc[0] == 7);
    CHECK(geopotential_basin_kernel_lengths(2701, 3, lengths, LISTS) == GEOPOTENTIAL_SIZE && lengths[3] == 9);
    CHECK(geopotential_basin_kernel_lengths(1, 65536, lengths, LISTS) == GEOPOTENTIAL_SIZE && lengths[3] == 9);
    free(work), free(kc), free(ks);
}

static void averages(void)
{
    size_t lengths[LISTS];
    const double c[3] = {1, 2, 3}, s[3] = {0, 0, 4}, kernel[1] = {2}, zero[1] = {0};
    double value = 7;
    CHECK(geopotential_basin_average_lengths(1, 0, lengths, LISTS) == GEOPOTENTIAL_DONE && lengths[0] == 3 && lengths[2] == 1);
    CHECK(geopotential_basin_average(8, 1, 1, c, lengths[0], s, lengths[1], 0, kernel, lengths[2], zero, lengths[3],
                                     GEOPOTENTIAL_POTENTIAL, none, 0, 2, &value) == GEOPOTENTIAL_DONE &&
          value == 4);
}

int main(void)
{
    CHECK(geopotential_version() == GEOPOTENTIAL_VERSION);
    numbers();
    functionals();
    coefficients();
    model_files();
    tables();
    growing_tables();
    mirrored_tables();
    grid();
    points();
    second_derivatives();
    tensor();
    analysis();
    eigenvalues();
    caps();
    regions();
    outlines();
    kernels();
    averages();
    printf("header: %u facts checked, %u do not hold\n", checks, failures);
    return failures != 0;
}
