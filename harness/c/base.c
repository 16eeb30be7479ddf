/* The calls in plain C, as one writes them from docs/REQUIREMENTS.md: the baseline of the benchmark (gcc -O2) and the stand-in for the
 * library (then compiled once more with the names station_* and board_*), on which the mutants are tried. Numbers are read from the sheet's
 * bytes where they are needed and written as single bytes; laying out ends early after a pass that changed nothing; strokes are counted,
 * then drawn. */
#include "calls.h"

static uint32_t be16(const uint8_t *p)
{
    return (uint32_t)p[0] << 8 | p[1];
}

static uint32_t be32(const uint8_t *p)
{
    return (uint32_t)p[0] << 24 | (uint32_t)p[1] << 16 | (uint32_t)p[2] << 8 | p[3];
}

static int64_t leg_at(const struct course *c, uint64_t i)
{
    return be16(c->legs + 2 * i);
}

static uint64_t leg_length(const struct course *c, uint64_t leg)
{
    return leg_at(c, leg);
}

static int64_t value_at(const struct course *c, uint64_t i, uint64_t axis)
{
    return (int32_t)be32(c->points + 12 * i + 4 * axis);
}

static int64_t slope_at(const struct course *c, uint64_t end, uint64_t axis)
{
    return (int32_t)be32(c->slopes + 12 * end + 4 * axis);
}

/* Test 7 of one number of a waypoint. */
static int is_beyond_reach(uint64_t axis, int64_t value)
{
    if (axis == 2)
        return value < -50000 || value > 120000;
    return value < -1000000 || value > 1000000;
}

static uint64_t read_course(const uint8_t *s, size_t length, uint64_t most, struct course *c)
{
    if (length < 8 || be32(s) != length)
        return STATION_TORN;
    if (s[4] != 1)
        return STATION_EDITION;
    if (s[5] > 2)
        return STATION_ENDS;
    c->kind = s[5];
    c->n = be16(s + 6);
    if (c->n < (c->kind == STATION_CLOSED ? 3 : 2) || c->n > 512)
        return STATION_POINTS;
    if (c->n > most)
        return STATION_BOARD;
    c->leg_count = c->kind == STATION_CLOSED ? c->n : c->n - 1;
    if (length != 8 + 2 * c->leg_count + 12 * c->n + (c->kind == STATION_HELD ? 24 : 0))
        return STATION_SIZE;
    c->legs = s + 8;
    c->points = c->legs + 2 * c->leg_count;
    c->slopes = c->points + 12 * c->n;
    c->ticks = 0;
    for (uint64_t i = 0; i < c->leg_count; i++) {
        int64_t leg = leg_at(c, i);
        if (leg < 1 || leg > 256)
            return STATION_LEG;
        c->ticks += leg;
    }
    for (uint64_t i = 0; i < c->n; i++)
        for (uint64_t axis = 0; axis < 3; axis++)
            if (is_beyond_reach(axis, value_at(c, i, axis)))
                return STATION_REACH;
    if (c->kind == STATION_HELD)
        for (uint64_t end = 0; end < 2; end++)
            for (uint64_t axis = 0; axis < 3; axis++) {
                int64_t slope = slope_at(c, end, axis);
                if (slope < -5000 || slope > 5000)
                    return STATION_SLOPE;
            }
    return STATION_DONE;
}

/* L4: n / d for d > 0. Division cuts toward zero, and the remainder has n's sign. */
static int64_t rounded(int64_t n, int64_t d)
{
    int64_t quotient = n / d;
    int64_t remainder = n % d;
    if (2 * remainder >= d)
        quotient += 1;
    if (2 * remainder <= -d)
        quotient -= 1;
    return quotient;
}

static void lay_out_axis(const struct course *c, uint64_t axis, int64_t *z)
{
    uint64_t n = c->n;
    int open = c->kind != STATION_CLOSED;
    for (uint64_t i = 0; i < n; i++)
        z[i] = 0;
    for (int pass = 0; pass < 40; pass++) {
        int changed = 0;
        for (uint64_t i = 0; i < n; i++) {
            int64_t numerator, middle;
            if (open && (i == 0 || i == n - 1)) {
                if (c->kind == STATION_FREE)
                    continue;
                if (i == 0) {
                    int64_t h = leg_at(c, 0);
                    int64_t d = value_at(c, 1, axis) - value_at(c, 0, axis);
                    numerator = 65536 * (d - h * slope_at(c, 0, axis)) - h * h * z[1];
                    middle = 2 * h * h;
                } else {
                    int64_t g = leg_at(c, n - 2);
                    int64_t e = value_at(c, n - 1, axis) - value_at(c, n - 2, axis);
                    numerator = 65536 * (g * slope_at(c, 1, axis) - e) - g * g * z[n - 2];
                    middle = 2 * g * g;
                }
            } else {
                uint64_t before = i == 0 ? n - 1 : i - 1;
                uint64_t after = i == n - 1 ? 0 : i + 1;
                int64_t g = leg_at(c, before);
                int64_t h = leg_at(c, i);
                int64_t d = value_at(c, after, axis) - value_at(c, i, axis);
                int64_t e = value_at(c, i, axis) - value_at(c, before, axis);
                numerator = 65536 * (g * d - h * e) - g * g * h * z[before] - g * h * h * z[after];
                middle = 2 * g * h * (g + h);
            }
            int64_t new = rounded(numerator, middle);
            if (new != z[i]) {
                z[i] = new;
                changed = 1;
            }
        }
        if (!changed)
            break;
    }
}

static void lay_out_axes(const struct course *c, int64_t *list)
{
    for (uint64_t axis = 0; axis < 3; axis++)
        lay_out_axis(c, axis, list + axis * c->n);
}

static uint64_t find_tick(const struct course *c, uint64_t tick, uint64_t *leg, uint64_t *offset, uint64_t *laps)
{
    *laps = 0;
    if (c->kind == STATION_CLOSED) {
        *laps = tick / c->ticks;
        tick %= c->ticks;
    } else if (tick > c->ticks) {
        return STATION_PAST;
    }
    uint64_t start = 0;
    for (uint64_t i = 0; i < c->leg_count; i++) {
        uint64_t end = start + leg_at(c, i);
        if (tick < end) {
            *leg = i;
            *offset = tick - start;
            return STATION_DONE;
        }
        start = end;
    }
    *leg = c->leg_count - 1;
    *offset = leg_at(c, c->leg_count - 1);
    return STATION_DONE;
}

/* P1: the place at a leg and an offset that fit, north, east and up. */
static void put_place(const struct course *c, const int64_t *list, uint64_t leg, uint64_t offset, int64_t *out)
{
    uint64_t end = leg + 1 == c->n ? 0 : leg + 1;
    int64_t h = leg_at(c, leg), u = offset;
    for (uint64_t axis = 0; axis < 3; axis++) {
        int64_t v = value_at(c, leg, axis), w = value_at(c, end, axis);
        int64_t z = list[axis * c->n + leg], y = list[axis * c->n + end];
        int64_t numerator = 65536 * (u * w + (h - u) * v) - u * (h - u) * ((2 * h - u) * z + (h + u) * y);
        out[axis] = rounded(numerator, 65536 * h);
    }
}

/* Test 12 of one number. */
static int is_bad_bend(int64_t z)
{
    const int64_t limit = (int64_t)1 << 37;
    return z < -limit || z > limit;
}

static uint64_t place(const struct course *c, const int64_t *list, uint64_t leg, uint64_t offset, int64_t *out, size_t out_length)
{
    uint64_t end = leg + 1 == c->n ? 0 : leg + 1;
    for (uint64_t axis = 0; axis < 3; axis++) {
        int64_t z = list[axis * c->n + leg], y = list[axis * c->n + end];
        if (is_bad_bend(z) || is_bad_bend(y))
            return STATION_BEND;
    }
    if (out_length < 3)
        return ROOM;
    put_place(c, list, leg, offset, out);
    return STATION_DONE;
}

#ifndef BOARD
static int some_leg_bad(const uint64_t *legs, size_t count)
{
    for (size_t i = 0; i < count; i++)
        if (legs[i] < 1 || legs[i] > 256)
            return 1;
    return 0;
}

static int some_waypoint_bad(const int64_t *waypoints, size_t n)
{
    for (size_t i = 0; i < n; i++)
        for (size_t axis = 0; axis < 3; axis++)
            if (is_beyond_reach(axis, waypoints[3 * i + axis]))
                return 1;
    return 0;
}

static int some_slope_bad(const int64_t *slopes, size_t count)
{
    for (size_t i = 0; i < count; i++)
        if (slopes[i] < -5000 || slopes[i] > 5000)
            return 1;
    return 0;
}

static uint8_t *put_legs(uint8_t *p, const uint64_t *legs, size_t count)
{
    for (size_t i = 0; i < count; i++) {
        *p++ = (uint8_t)(legs[i] >> 8);
        *p++ = (uint8_t)legs[i];
    }
    return p;
}

static uint8_t *put_numbers(uint8_t *p, const int64_t *numbers, size_t count)
{
    for (size_t i = 0; i < count; i++) {
        uint32_t number = (uint32_t)numbers[i];
        *p++ = (uint8_t)(number >> 24);
        *p++ = (uint8_t)(number >> 16);
        *p++ = (uint8_t)(number >> 8);
        *p++ = (uint8_t)number;
    }
    return p;
}

static int some_bend_bad(const int64_t *list, size_t count)
{
    for (size_t i = 0; i < count; i++)
        if (is_bad_bend(list[i]))
            return 1;
    return 0;
}

/* The strokes of a course while they are found: the places of the leg by offset, and the ends so far. Without a list they are counted. */
struct drawing {
    int64_t places[257][3], tolerance;
    uint64_t *ends, count;
};

/* H2: whether m ticks from an offset on are within the tolerance of a stroke. Its two ends are on it. */
static int is_kept(const struct drawing *d, int64_t offset, int64_t m)
{
    const int64_t *first = d->places[offset], *last = d->places[offset + m];
    for (int64_t u = 1; u < m; u++)
        for (int axis = 0; axis < 3; axis++) {
            int64_t off = m * (d->places[offset + u][axis] - first[axis]) - u * (last[axis] - first[axis]);
            if (off < -d->tolerance * m || off > d->tolerance * m)
                return 0;
        }
    return 1;
}

static void put_end(struct drawing *d, uint64_t tick)
{
    if (d->ends)
        d->ends[d->count] = tick;
    d->count++;
}

/* H3: the ends behind an offset, of m ticks on the leg that starts at a tick. */
static void cut(struct drawing *d, uint64_t start, int64_t offset, int64_t m)
{
    if (is_kept(d, offset, m)) {
        put_end(d, start + offset + m);
        return;
    }
    cut(d, start, offset, m / 2);
    cut(d, start, offset + m / 2, m - m / 2);
}

/* All legs in turn; how many ends there are. */
static uint64_t draw_legs(const struct course *c, const int64_t *list, int64_t tolerance, uint64_t *ends)
{
    struct drawing d;
    uint64_t start = 0;
    d.tolerance = tolerance;
    d.ends = ends;
    d.count = 0;
    put_end(&d, 0);
    for (uint64_t leg = 0; leg < c->leg_count; leg++) {
        int64_t h = leg_at(c, leg);
        for (int64_t u = 0; u <= h; u++)
            put_place(c, list, leg, u, d.places[u]);
        cut(&d, start, 0, h);
        start += h;
    }
    return d.count;
}

static uint64_t draw(const struct course *c, const int64_t *list, int64_t tolerance, uint64_t *ends, size_t ends_length, uint64_t *count)
{
    *count = draw_legs(c, list, tolerance, 0);
    if (ends_length < *count)
        return STATION_INK;
    draw_legs(c, list, tolerance, ends);
    return STATION_DONE;
}
#endif
