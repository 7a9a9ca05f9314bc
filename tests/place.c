/* The place of a start: starts that rise and that do not, counts and buffers that do not fit each other, and lists that
 * are longer than any caller's. The short lists are constants: a call that wrote to one would be stopped. */
#include "expect.h"

/* A record of which only the start matters; its other numbers are no starts of these lists. */
#define AT(start) 15, start, 25, 35, 45, 55

static void expect_place(const char *what, EitPlace got, size_t place, size_t looked) {
    expect(what, got.place, place);
    expect("the number of records looked at", got.looked, looked);
}

/* Before all, at a start, between two, behind all. */
static void rising(void) {
    static const uint32_t list[] = {AT(10), AT(20), AT(40)};
    enum { NUMBERS = sizeof list / sizeof *list };
    static const struct {
        uint32_t start;
        size_t place, looked;
    } rows[] = {
        {0, 0, 1},  {9, 0, 1},  {10, 1, 2}, {11, 1, 2}, {19, 1, 2},         {20, 2, 3},
        {21, 2, 3}, {39, 2, 3}, {40, 3, 3}, {41, 3, 3}, {UINT32_MAX, 3, 3},
    };
    for (size_t row = 0; row < sizeof rows / sizeof *rows; row++) {
        expect_place("the place in three records", eit_place(list, NUMBERS, 3, rows[row].start), rows[row].place,
                     rows[row].looked);
    }
}

/* The first later start decides, whatever starts stand behind it. */
static void not_rising(void) {
    static const uint32_t falling[] = {AT(30), AT(20), AT(10)};
    static const uint32_t mixed[] = {AT(10), AT(30), AT(20), AT(30)};
    static const uint32_t equal[] = {AT(20), AT(20), AT(20)};
    expect_place("the place of 10 in 30, 20, 10", eit_place(falling, 18, 3, 10), 0, 1);
    expect_place("the place of 29 in 30, 20, 10", eit_place(falling, 18, 3, 29), 0, 1);
    expect_place("the place of 30 in 30, 20, 10", eit_place(falling, 18, 3, 30), 3, 3);
    expect_place("the place of 9 in 10, 30, 20, 30", eit_place(mixed, 24, 4, 9), 0, 1);
    expect_place("the place of 20 in 10, 30, 20, 30", eit_place(mixed, 24, 4, 20), 1, 2);
    expect_place("the place of 30 in 10, 30, 20, 30", eit_place(mixed, 24, 4, 30), 4, 4);
    expect_place("the place of 19 in 20, 20, 20", eit_place(equal, 18, 3, 19), 0, 1);
    expect_place("the place of 20 in 20, 20, 20", eit_place(equal, 18, 3, 20), 3, 3);
}

/* The first and the last number that a start can be, as the record's and as the one that is asked for. */
static void extremes(void) {
    static const uint32_t first[] = {AT(0)};
    static const uint32_t last[] = {AT(UINT32_MAX)};
    expect_place("the place of 0 behind 0", eit_place(first, 6, 1, 0), 1, 1);
    expect_place("the place of the last behind 0", eit_place(first, 6, 1, UINT32_MAX), 1, 1);
    expect_place("the place of 0 before the last", eit_place(last, 6, 1, 0), 0, 1);
    expect_place("the place of the last but one before the last", eit_place(last, 6, 1, UINT32_MAX - 1), 0, 1);
    expect_place("the place of the last behind the last", eit_place(last, 6, 1, UINT32_MAX), 1, 1);
}

/* Every length that is lent of three records and five numbers, with counts below and above what it has, up to those of
 * which six times the count is no size_t. */
static void counts(void) {
    static const uint32_t list[] = {AT(10), AT(20), AT(40), 15, 50, 25, 35, 45};
    static const size_t counts[] = {0, 1, 2, 3, 4, SIZE_MAX / 6, SIZE_MAX / 6 + 1, SIZE_MAX / 2 + 1, SIZE_MAX};
    for (size_t length = 0; length <= sizeof list / sizeof *list; length++) {
        for (size_t row = 0; row < sizeof counts / sizeof *counts; row++) {
            size_t records = length / 6 < counts[row] ? length / 6 : counts[row];
            EitPlace before = eit_place(list, length, counts[row], 0);
            EitPlace third = eit_place(list, length, counts[row], 30);
            EitPlace behind = eit_place(list, length, counts[row], UINT32_MAX);
            expect_place("the place before those that are there", before, 0, records < 1 ? records : 1);
            expect_place("the place of the third", third, records < 2 ? records : 2, records);
            expect_place("the place behind those that are there", behind, records, records);
        }
    }
}

/* As many records as a list of broadcast may have, and then more: no size is a limit. What stands behind the record at
 * which a search ends is 0 by then. */
static void long_lists(void) {
    enum { MORE = EIT_EVENTS_MAX + 1000, NUMBERS = EIT_RECORD * MORE };
    static uint32_t list[NUMBERS], copy[NUMBERS];
    static const size_t counts[] = {EIT_EVENTS_MAX, MORE};
    for (size_t row = 0; row < 2; row++) {
        size_t count = counts[row];
        for (uint32_t place = 0; place < MORE; place++) {
            memcpy(list + EIT_RECORD * place, (uint32_t[EIT_RECORD]){AT(10 + 10 * place)}, 4 * EIT_RECORD);
        }
        memcpy(copy, list, sizeof list);
        expect_place("the place behind all", eit_place(list, NUMBERS, count, UINT32_MAX), count, count);
        expect("the list, compared with what it was,", memcmp(list, copy, sizeof list) != 0, 0);
        for (uint32_t place = (uint32_t)count; place-- > 0;) {
            uint32_t before = 10 * place;
            expect_place("the place at a start", eit_place(list, NUMBERS, count, before), place, place + 1);
            expect_place("the place between", eit_place(list, NUMBERS, count, before + 9), place, place + 1);
            memset(list + EIT_RECORD * place, 0, 4 * EIT_RECORD);
        }
    }
}

int main(void) {
    rising();
    not_rising();
    extremes();
    counts();
    long_lists();
    return wrong;
}
