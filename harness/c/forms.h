/* The six calls that station and board both have, by a header's functions over structs: included by header.c once for each header. */

uint64_t FORM(read)(const uint8_t *sheet, size_t n, uint64_t *out, size_t m)
{
    if (m < 3)
        return CALL(read)(sheet, n, out, m);
    struct station_course course = {out[0], out[1], out[2]};
    uint64_t answer = CALL(read_into)(sheet, n, &course);
    out[0] = course.kind;
    out[1] = course.waypoints;
    out[2] = course.ticks;
    return answer;
}

uint64_t FORM(lay_out)(const uint8_t *sheet, size_t n, int64_t *list, size_t k)
{
    return CALL(lay_out)(sheet, n, list, k);
}

uint64_t FORM(place_at_tick)(const uint8_t *sheet, size_t n, const int64_t *list, size_t k, uint64_t tick, int64_t *out, size_t m)
{
    if (m < 3)
        return CALL(place_at_tick)(sheet, n, list, k, tick, out, m);
    struct station_place place = {out[0], out[1], out[2]};
    uint64_t answer = CALL(place_at_tick_into)(sheet, n, list, k, tick, &place);
    put_place(&place, out);
    return answer;
}

uint64_t FORM(place_of_runner)(const uint8_t *sheet, size_t n, const int64_t *list, size_t k, uint64_t leg, uint64_t offset,
                               uint64_t laps, int64_t *out, size_t m)
{
    if (m < 3)
        return CALL(place_of_runner)(sheet, n, list, k, leg, offset, laps, out, m);
    struct station_place place = {out[0], out[1], out[2]};
    struct station_runner runner = {leg, offset, laps};
    uint64_t answer = CALL(place_of_runner_into)(sheet, n, list, k, runner, &place);
    put_place(&place, out);
    return answer;
}

uint64_t FORM(runner_at_tick)(const uint8_t *sheet, size_t n, uint64_t tick, uint64_t *out, size_t m)
{
    if (m < 3)
        return CALL(runner_at_tick)(sheet, n, tick, out, m);
    struct station_runner runner = {out[0], out[1], out[2]};
    uint64_t answer = CALL(runner_at_tick_into)(sheet, n, tick, &runner);
    put_runner(&runner, out);
    return answer;
}

uint64_t FORM(step)(const uint8_t *sheet, size_t n, uint64_t *runner, size_t m)
{
    if (m < 3)
        return CALL(step)(sheet, n, runner, m);
    struct station_runner record = {runner[0], runner[1], runner[2]};
    uint64_t answer = CALL(step_runner)(sheet, n, &record);
    put_runner(&record, runner);
    return answer;
}
