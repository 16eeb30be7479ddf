/* The calls in C written with care for speed, the algorithm unchanged: byte loads that merge into one, stores of a whole number with its
 * bytes swapped, ranges asked by one unsigned comparison or by a few bits of many numbers and gathered without a branch, a row's factors
 * worked out once for the three axes, the number just set carried along as the next row's left neighbour, rounding without a branch. An
 * axis at a time, each row with its one division; laying out ends early after a pass that changed nothing. Reading adds legs by four in a
 * word and keeps their sum at every sixteenth leg, and a tick's leg is looked for among these sums and then from the last that fits (P7).
 * Strokes are counted before they are drawn only where the list may be too short for them, and a stroke's rise is carried along from tick
 * to tick. No vector types. Compiled with gcc -O3, and with HALF_FIRST, where it rounds in another way, under another name. */
/* sums[b] is the sum of the first 16 * b legs, for each b with so many legs; the others are not set */
#define KEPT uint32_t sums[33];
#include "calls.h"

#include <string.h>

static inline uint32_t be16(const uint8_t *p)
{
    return (uint32_t)p[0] << 8 | p[1];
}

static inline uint32_t be32(const uint8_t *p)
{
    return (uint32_t)p[0] << 24 | (uint32_t)p[1] << 16 | (uint32_t)p[2] << 8 | p[3];
}

static uint64_t leg_length(const struct course *c, uint64_t leg)
{
    return be16(c->legs + 2 * leg);
}

static inline int64_t value_at(const struct course *c, uint64_t i, uint64_t axis)
{
    return (int32_t)be32(c->points + 12 * i + 4 * axis);
}

/* Four legs in a word, sixteen bits each. */
static inline uint64_t four_legs(const uint8_t *p)
{
    uint64_t legs;
    memcpy(&legs, p, sizeof legs);
    return (legs & 0x00ff00ff00ff00ff) << 8 | (legs >> 8 & 0x00ff00ff00ff00ff);
}

/* Test 6 of the legs: whether it applies. If not, their sum is in the course, and so are the kept ones. A leg with one taken off has none of
 * its upper eight bits if it is within its limits; sixteen such legs have a sum of 13 bits, which a product gathers in the highest of four. */
static inline int add_legs(struct course *c)
{
    const uint8_t *p = c->legs, *end = c->points;
    const uint64_t ones = 0x0001000100010001;
    uint64_t many = 0;
    uint32_t ticks = 0, bits = 0, *kept = c->sums;
    for (; end - p >= 32; p += 32) {
        uint64_t four = 0;
        for (int i = 0; i < 32; i += 8) {
            uint64_t legs = four_legs(p + i);
            four += legs;
            many |= legs - ones;
        }
        *kept++ = ticks;
        ticks += (uint32_t)(four * ones >> 48);
    }
    *kept = ticks;
    for (; p < end; p += 2) {
        uint32_t leg = be16(p);
        ticks += leg;
        bits |= leg - 1;
    }
    c->ticks = ticks;
    return (many & 0xff00ff00ff00ff00) != 0 || bits > 255;
}

static uint64_t read_course(const uint8_t *s, size_t length, uint64_t most, struct course *c)
{
    if (length < 8 || be32(s) != length)
        return STATION_TORN;
    if (s[4] != 1)
        return STATION_EDITION;
    uint64_t kind = s[5], n = be16(s + 6);
    if (kind > 2)
        return STATION_ENDS;
    int closed = kind == STATION_CLOSED, held = kind == STATION_HELD;
    if (n < 2u + closed || n > 512)
        return STATION_POINTS;
    if (n > most)
        return STATION_BOARD;
    uint64_t leg_count = n - 1 + closed;
    if (length != 8 + 2 * leg_count + 12 * n + 24 * held)
        return STATION_SIZE;
    c->kind = kind;
    c->n = n;
    c->leg_count = leg_count;
    c->legs = s + 8;
    c->points = c->legs + 2 * leg_count;
    c->slopes = c->points + 12 * n;
    if (add_legs(c))
        return STATION_LEG;
    /* the sign's bit stays set while no number is over its limit */
    uint64_t inside = (uint64_t)1 << 63;
    for (const uint8_t *p = c->points, *end = c->slopes; p < end; p += 12) {
        inside &= (uint64_t)(be32(p) + 1000000) - 2000001;
        inside &= (uint64_t)(be32(p + 4) + 1000000) - 2000001;
        inside &= (uint64_t)(be32(p + 8) + 50000) - 170001;
    }
    if (!inside)
        return STATION_REACH;
    uint32_t bad = 0;
    for (const uint8_t *p = c->slopes; p < s + length; p += 4)
        bad |= be32(p) + 5000 > 10000;
    return bad ? STATION_SLOPE : STATION_DONE;
}

/* L4: n / d for an even d > 0. */
#ifdef HALF_FIRST
/* Half of d is added with n's sign, by the sign's bits, then the division cuts toward zero. */
static inline int64_t rounded(int64_t n, int64_t d)
{
    int64_t sign = n >> 63, half = d >> 1;
    return (n + ((half ^ sign) - sign)) / d;
}
#else
/* The division cuts toward zero, then the remainder, which has n's sign, decides (F5): a sign's bit is set where it is half of d or more, or
 * minus that or less. */
static inline int64_t rounded(int64_t n, int64_t d)
{
    int64_t quotient = n / d, remainder = n % d, below_half = (d >> 1) - 1;
    return quotient - ((below_half - remainder) >> 63) + ((below_half + remainder) >> 63);
}
#endif

/* A row's factors, and 65,536 times its right side. */
struct row {
    int64_t before, after, middle, right;
};

static inline int64_t settled(const struct row *row, int64_t left, int64_t next)
{
    return rounded(row->right - row->after * next - row->before * left, row->middle);
}

/* The factors, which are the same on the three axes. */
static void factors(const struct course *c, struct row *rows)
{
    uint64_t n = c->n;
    int64_t g = leg_length(c, c->leg_count - 1);
    for (uint64_t i = 0; i < c->leg_count; i++) {
        int64_t h = leg_length(c, i);
        rows[i].before = g * g * h;
        rows[i].after = g * h * h;
        rows[i].middle = 2 * g * h * (g + h);
        g = h;
    }
    if (c->kind == STATION_HELD) {
        int64_t h = leg_length(c, 0);
        rows[0] = (struct row){0, h * h, 2 * h * h, 0};
        rows[n - 1] = (struct row){g * g, 0, 2 * g * g, 0};
    }
}

static void rights(const struct course *c, uint64_t axis, struct row *rows)
{
    uint64_t n = c->n;
    int closed = c->kind == STATION_CLOSED;
    int64_t first = value_at(c, 0, axis), last = value_at(c, n - 1, axis);
    int64_t v = first, e = closed ? first - last : 0, g = closed ? leg_length(c, n - 1) : 0;
    for (uint64_t i = 0; i < c->leg_count; i++) {
        int64_t w = i == n - 1 ? first : value_at(c, i + 1, axis);
        int64_t h = leg_length(c, i), d = w - v;
        rows[i].right = 65536 * (g * d - h * e);
        v = w;
        e = d;
        g = h;
    }
    if (c->kind == STATION_HELD) {
        int64_t h = leg_length(c, 0), d = value_at(c, 1, axis) - first;
        int64_t start = (int32_t)be32(c->slopes + 4 * axis), end = (int32_t)be32(c->slopes + 12 + 4 * axis);
        rows[0].right = 65536 * (d - h * start);
        rows[n - 1].right = 65536 * (g * end - e);
    }
}

static void lay_out_axes(const struct course *c, int64_t *list)
{
    struct row rows[512];
    uint64_t n = c->n, first = c->kind == STATION_FREE;
    factors(c, rows);
    for (uint64_t axis = 0; axis < 3; axis++) {
        int64_t *z = list + axis * n;
        rights(c, axis, rows);
        for (uint64_t i = 0; i < n; i++)
            z[i] = 0;
        for (int pass = 0; pass < 40; pass++) {
            /* a held end's missing neighbour has the factor 0, a free course's first inner row has a 0 on its left */
            int64_t left = z[n - 1], changed = 0;
            for (uint64_t i = first; i < n - 1; i++) {
                left = settled(&rows[i], left, z[i + 1]);
                changed |= left ^ z[i];
                z[i] = left;
            }
            if (!first) {
                left = settled(&rows[n - 1], left, z[0]);
                changed |= left ^ z[n - 1];
                z[n - 1] = left;
            }
            if (!changed)
                break;
        }
    }
}

static uint64_t find_tick(const struct course *c, uint64_t tick, uint64_t *leg, uint64_t *offset, uint64_t *laps)
{
    *laps = 0;
    if (c->kind != STATION_CLOSED) {
        if (tick > c->ticks)
            return STATION_PAST;
    } else if (tick >= c->ticks) {
        /* one division for both, and none on the first lap */
        *laps = tick / c->ticks;
        tick %= c->ticks;
    }
    /* the last sixteenth leg that starts at the tick or before it, then from there the last leg that does */
    uint64_t last = c->leg_count - 1, sixteens = last / 16, b = 0;
    while (b < sixteens && tick >= c->sums[b + 1])
        b++;
    uint64_t i = 16 * b, start = c->sums[b];
    for (; i < last; i++) {
        uint64_t end = start + leg_length(c, i);
        if (tick < end)
            break;
        start = end;
    }
    *leg = i;
    *offset = tick - start;
    return STATION_DONE;
}

static uint64_t place(const struct course *c, const int64_t *list, uint64_t leg, uint64_t offset, int64_t *out, size_t out_length)
{
    const uint64_t limit = (uint64_t)1 << 37;
    uint64_t n = c->n, end = leg + 1 == n ? 0 : leg + 1, bad = 0;
    for (uint64_t axis = 0; axis < 3; axis++) {
        bad |= (uint64_t)list[axis * n + leg] + limit > 2 * limit;
        bad |= (uint64_t)list[axis * n + end] + limit > 2 * limit;
    }
    if (bad)
        return STATION_BEND;
    if (out_length < 3)
        return ROOM;
    int64_t h = leg_length(c, leg), u = offset, rest = h - u, slack = u * rest;
    for (uint64_t axis = 0; axis < 3; axis++) {
        int64_t v = value_at(c, leg, axis), w = value_at(c, end, axis);
        int64_t z = list[axis * n + leg], y = list[axis * n + end];
        out[axis] = rounded(65536 * (u * w + rest * v) - slack * ((h + rest) * z + (h + u) * y), 65536 * h);
    }
    return STATION_DONE;
}

#ifndef BOARD
static int some_leg_bad(const uint64_t *legs, size_t count)
{
    uint64_t bits = 0;
    for (size_t i = 0; i < count; i++)
        bits |= legs[i] - 1;
    return bits > 255;
}

/* The sign's bit is set where a number is below -low or over high. */
static inline uint64_t signs(int64_t number, uint64_t low, uint64_t high)
{
    return (low + (uint64_t)number) | (high - (uint64_t)number);
}

static int some_waypoint_bad(const int64_t *waypoints, size_t n)
{
    uint64_t bad = 0;
    for (size_t i = 0; i < n; i++) {
        bad |= signs(waypoints[3 * i], 1000000, 1000000);
        bad |= signs(waypoints[3 * i + 1], 1000000, 1000000);
        bad |= signs(waypoints[3 * i + 2], 50000, 120000);
    }
    return bad >> 63;
}

static int some_slope_bad(const int64_t *slopes, size_t count)
{
    uint64_t bad = 0;
    for (size_t i = 0; i < count; i++)
        bad |= signs(slopes[i], 5000, 5000);
    return bad >> 63;
}

static uint8_t *put_legs(uint8_t *restrict p, const uint64_t *restrict legs, size_t count)
{
    for (size_t i = 0; i < count; i++) {
        uint16_t swapped = __builtin_bswap16((uint16_t)legs[i]);
        memcpy(p + 2 * i, &swapped, 2);
    }
    return p + 2 * count;
}

static uint8_t *put_numbers(uint8_t *restrict p, const int64_t *restrict numbers, size_t count)
{
    for (size_t i = 0; i < count; i++) {
        uint32_t swapped = __builtin_bswap32((uint32_t)numbers[i]);
        memcpy(p + 4 * i, &swapped, 4);
    }
    return p + 4 * count;
}

static int some_bend_bad(const int64_t *list, size_t count)
{
    uint64_t bad = 0;
    for (size_t i = 0; i < count; i++)
        bad |= signs(list[i], (uint64_t)1 << 37, (uint64_t)1 << 37);
    return bad >> 63;
}

/* The strokes of a course while they are found: the leg's places by axis and offset, the tick at which it starts, and the ends so far.
 * Without a list they are counted. */
struct drawing {
    int64_t places[3][257], tolerance;
    uint64_t start, *ends, count;
};

/* Puts the places of a leg into the table: its numbers are read once. */
static void put_leg(struct drawing *d, const struct course *c, const int64_t *list, uint64_t leg)
{
    uint64_t n = c->n, end = leg + 1 == n ? 0 : leg + 1;
    int64_t h = leg_length(c, leg), divisor = 65536 * h;
    for (uint64_t axis = 0; axis < 3; axis++) {
        int64_t v = value_at(c, leg, axis), w = value_at(c, end, axis);
        int64_t z = list[axis * n + leg], y = list[axis * n + end];
        for (int64_t u = 0; u <= h; u++) {
            int64_t rest = h - u;
            d->places[axis][u] = rounded(65536 * (u * w + rest * v) - u * rest * ((h + rest) * z + (h + u) * y), divisor);
        }
    }
}

/* H2. The ends are on the stroke, so that only the ticks between them are looked at; one comparison without sign asks both limits. */
static inline int is_kept(const struct drawing *d, int64_t offset, int64_t m)
{
    uint64_t limit = (uint64_t)(d->tolerance * m);
    for (int axis = 0; axis < 3; axis++) {
        const int64_t *places = d->places[axis] + offset;
        int64_t first = places[0], rise = places[m] - first, line = rise;
        for (int64_t u = 1; u < m; u++, line += rise)
            if ((uint64_t)(m * (places[u] - first) - line) + limit > 2 * limit)
                return 0;
    }
    return 1;
}

/* H3: the ends behind an offset, of m ticks. */
static void cut(struct drawing *d, int64_t offset, int64_t m)
{
    if (is_kept(d, offset, m)) {
        if (d->ends)
            d->ends[d->count] = d->start + offset + m;
        d->count++;
        return;
    }
    int64_t half = m / 2;
    cut(d, offset, half);
    cut(d, offset + half, m - half);
}

/* All legs in turn; how many ends there are. */
static uint64_t draw_legs(const struct course *c, const int64_t *list, int64_t tolerance, uint64_t *ends)
{
    struct drawing d;
    d.tolerance = tolerance;
    d.start = 0;
    d.ends = ends;
    d.count = 1;
    if (ends)
        ends[0] = 0;
    for (uint64_t leg = 0; leg < c->leg_count; leg++) {
        int64_t h = leg_length(c, leg);
        put_leg(&d, c, list, leg);
        cut(&d, 0, h);
        d.start += h;
    }
    return d.count;
}

static uint64_t draw(const struct course *c, const int64_t *list, int64_t tolerance, uint64_t *ends, size_t ends_length, uint64_t *count)
{
    if (ends_length <= c->ticks) {
        *count = draw_legs(c, list, tolerance, 0);
        if (ends_length < *count)
            return STATION_INK;
    }
    *count = draw_legs(c, list, tolerance, ends);
    return STATION_DONE;
}
#endif
