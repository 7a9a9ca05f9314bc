/* How much text still fits: segments that are empty, full to a byte, or past it, starts that are taken or past the last
 * segment, what is 12, and what plays no part. Wherever an event fits, it is put with as many bytes as are said, and
 * Build writes it; with the next longer chain Build says 10. The short lists and pools are constants: a call that wrote
 * to one would be stopped. */
#include "expect.h"

enum { BASE_DAY = 49273, MORE = EIT_EVENTS_MAX + 1, RUNS = 3, STEP = 5, LAST = EIT_WINDOW_SECONDS - 1 };

/* How many rows a table has. */
#define ROWS(table) (sizeof(table) / sizeof *(table))

typedef uint32_t Record[EIT_RECORD];

/* So many events with so many bytes of descriptors each, one after the other. */
typedef struct Run {
    uint32_t events, length;
} Run;

/* What is said of a start in a segment of such events. */
typedef struct Row {
    Run runs[RUNS];
    uint32_t start;
    uint32_t fits, length;
} Row;

static uint8_t caller;

/* Descriptors without bytes; and one of a byte, before others without. So the first bytes of one of the two are a chain
 * of any length but 1. */
enum { POOL = 4100 };
static uint8_t day[POOL], series[POOL], same_day[POOL], same_series[POOL];
static uint32_t list[EIT_RECORD * MORE], same_list[EIT_RECORD * MORE];

static void fill_pools(void) {
    for (size_t place = 0; place < POOL; place++) {
        day[place] = place % 2 == 0 ? 0x4D : 0x00;
        series[place] = place % 2 == 1 && place > 2 ? 0x4D : 0x00;
    }
    memcpy(series, (uint8_t[3]){0x4D, 0x01, 0xFF}, 3);
    memcpy(same_day, day, sizeof day);
    memcpy(same_series, series, sizeof series);
}

static void set(uint32_t place, uint32_t id, uint32_t start, uint32_t duration, uint32_t length) {
    Record record = {id, start, duration, length % 2 == 0 ? 0 : EIT_SERIES_POOL, 0, length};
    memcpy(list + EIT_RECORD * place, record, sizeof record);
}

/* The events of the runs, of three seconds each, from `first` on, a start every five seconds. Returns how many. */
static uint32_t fill(const Run runs[RUNS], uint32_t first) {
    uint32_t count = 0;
    for (size_t run = 0; run < RUNS; run++) {
        for (uint32_t event = 0; event < runs[run].events; event++, count++) {
            set(count, count, first + STEP * count, 3, runs[run].length);
        }
    }
    return count;
}

static void expect_room(const char *what, EitRoom got, EitRoom wanted) {
    expect(what, got.number, wanted.number);
    expect("whether one fits", got.fits, wanted.fits);
    expect("its length", got.length, wanted.length);
}

/* This is said of the start in the first so many records, and all that is lent stays. */
static void said(const char *what, uint32_t count, uint32_t start, EitRoom wanted) {
    memcpy(same_list, list, sizeof list);
    EitRoom got = eit_chain_room(caller, list, ROWS(list), count, day, POOL, series, POOL, start);
    expect_room(what, got, wanted);
    expect("the list, compared with what it was,", memcmp(list, same_list, sizeof list) != 0, 0);
    expect("the day pool, compared with what it was,", memcmp(day, same_day, sizeof day) != 0, 0);
    expect("the series pool, compared with what it was,", memcmp(series, same_series, sizeof series) != 0, 0);
}

/* What Build says of the list with a PUT of one more event, of a second, with so many bytes of descriptors. */
static EitBuilt built_with(uint32_t count, uint32_t start, uint32_t length) {
    static uint8_t file[1 << 20];
    static uint32_t copy[EIT_RECORD * MORE];
    uint8_t marks = length % 2 == 0 ? 0 : EIT_SERIES_POOL;
    uint8_t put[18] = {EIT_PUT, 0xFF, 0xFF, (uint8_t)(start >> 24), (uint8_t)(start >> 16), (uint8_t)(start >> 8)};
    memcpy(put + 6, (uint8_t[6]){(uint8_t)start, 0, 0, 0, 1, marks}, 6);
    memcpy(put + 16, (uint8_t[2]){(uint8_t)(length >> 8), (uint8_t)length}, 2);
    memcpy(copy, list, sizeof list);
    EitEdited edited = eit_edit(caller, copy, ROWS(copy), count, day, POOL, series, POOL, put, sizeof put);
    expect("the answer to PUT", edited.number, 0);
    return eit_build(caller, copy, ROWS(copy), edited.count, day, POOL, series, POOL, BASE_DAY, 1, 2, 3, no_versions,
                     file, sizeof file);
}

/* With as many bytes as are said Build writes the segment, and with the next longer chain it says 10; where none fits,
 * already without descriptors. */
static void put(const Row *row, uint32_t count, uint32_t start) {
    uint32_t next = !row->fits ? 0 : row->length == 0 ? 2 : row->length + 1;
    if (row->fits) {
        expect("the answer to Build with what fits", built_with(count, start, row->length).number, 0);
    }
    EitBuilt built = built_with(count, start, next);
    expect("the answer to Build with more", built.number, 10);
    expect("its segment", built.value, start / EIT_SEGMENT_SECONDS);
}

/* Each row in the first segment, in one of another table, and in the last one. */
static void rows(const Row *rows, size_t length) {
    static const uint32_t segments[] = {0, 33, EIT_SEGMENTS - 1};
    for (size_t place = 0; place < length; place++) {
        for (size_t segment = 0; segment < ROWS(segments); segment++) {
            uint32_t first = EIT_SEGMENT_SECONDS * segments[segment];
            const Row *row = &rows[place];
            uint32_t count = fill(row->runs, first);
            said("the answer to a row", count, first + row->start, (EitRoom){0, row->fits, row->length});
            put(row, count, first + row->start);
            if (wrong) {
                printf("face: this is row %zu of caller %u, segment %u\n", place, caller, (unsigned)segments[segment]);
                return;
            }
        }
    }
}

/* Starts are 0, 5, 10 and so on; 3 is between the first two, 8 between the second and the third. */
static const Row broadcast[] = {
    {{{0, 0}}, 0, 1, 4066},
    {{{0, 0}}, 10799, 1, 4066},
    {{{1, 0}}, 3, 1, 4066},
    {{{1, 4066}}, 3, 1, 4066},
    /* One byte more than an event without descriptors has: 0, and not 1. */
    {{{7, 4066}, {1, 4053}}, 38, 1, 0},
    {{{7, 4066}, {1, 4053}}, 33, 1, 0},
    {{{7, 4066}, {1, 4053}}, 10799, 1, 0},
    {{{7, 4066}, {1, 4053}}, 3, 0, 0},
    {{{7, 4066}, {1, 4053}}, 28, 0, 0},
    {{{1, 4053}, {7, 4066}}, 3, 1, 0},
    {{{1, 4053}, {7, 4066}}, 38, 0, 0},
    {{{7, 4066}, {1, 4051}}, 38, 1, 3},
    {{{7, 4066}, {1, 4052}}, 38, 1, 2},
    {{{7, 4066}, {1, 4054}}, 38, 1, 0},
    {{{7, 4066}, {1, 4055}}, 38, 0, 0},
    {{{7, 4066}}, 33, 1, 4066},
    {{{7, 4066}}, 3, 1, 4066},
    /* Behind seven sections one of events without descriptors. */
    {{{7, 4066}, {338, 0}}, 38, 1, 10},
    {{{7, 4066}, {338, 0}}, 33, 1, 10},
    {{{7, 4066}, {338, 0}}, 1723, 1, 10},
    {{{7, 4066}, {338, 0}}, 3, 0, 0},
    {{{7, 4066}, {339, 0}}, 38, 0, 0},
    {{{7, 4066}, {339, 0}}, 1728, 0, 0},
    {{{6, 4066}, {338, 0}}, 873, 1, 2038},
    {{{6, 4066}, {338, 0}}, 33, 1, 4054},
    {{{6, 4066}, {338, 0}}, 28, 1, 4066},
    {{{8, 4066}}, 3, 0, 0},
    {{{8, 4066}}, 38, 0, 0},
    {{{8, 4055}}, 18, 0, 0},
    {{{8, 4054}}, 18, 1, 0},
    {{{8, 4053}}, 18, 1, 0},
    {{{8, 4052}}, 18, 1, 2},
    /* Two events in a section: what fits depends on which side of a cut the start is. */
    {{{14, 2000}}, 3, 1, 2054},
    {{{14, 2000}}, 8, 1, 4066},
    {{{15, 2000}}, 3, 1, 2054},
    {{{15, 2000}}, 8, 1, 2054},
    {{{16, 2000}}, 3, 1, 42},
    {{{16, 2000}}, 8, 1, 42},
    {{{16, 2000}}, 78, 1, 42},
    {{{16, 2021}}, 78, 1, 0},
    {{{16, 2022}}, 78, 0, 0},
    /* The segment is unpackable by itself. */
    {{{9, 4066}}, 43, 0, 0},
    {{{1, 4067}}, 3, 0, 0},
    {{{1, 0}, {1, 4067}, {1, 0}}, 13, 0, 0},
};

static const Row cable[] = {
    {{{0, 0}}, 0, 1, 994},
    {{{0, 0}}, 10799, 1, 994},
    {{{1, 994}}, 3, 1, 994},
    {{{7, 994}, {1, 981}}, 38, 1, 0},
    {{{7, 994}, {1, 981}}, 33, 1, 0},
    {{{7, 994}, {1, 981}}, 3, 0, 0},
    {{{1, 981}, {7, 994}}, 3, 1, 0},
    {{{7, 994}, {1, 979}}, 38, 1, 3},
    {{{7, 994}, {1, 980}}, 38, 1, 2},
    {{{7, 994}, {1, 982}}, 38, 1, 0},
    {{{7, 994}, {1, 983}}, 38, 0, 0},
    {{{7, 994}, {82, 0}}, 38, 1, 10},
    {{{7, 994}, {82, 0}}, 443, 1, 10},
    {{{7, 994}, {82, 0}}, 3, 0, 0},
    {{{7, 994}, {83, 0}}, 38, 0, 0},
    {{{6, 994}, {82, 0}}, 233, 1, 502},
    {{{8, 994}}, 3, 0, 0},
    {{{8, 983}}, 18, 0, 0},
    {{{8, 982}}, 18, 1, 0},
    {{{8, 981}}, 18, 1, 0},
    {{{8, 980}}, 18, 1, 2},
    {{{14, 484}}, 3, 1, 498},
    {{{14, 484}}, 8, 1, 994},
    {{{15, 484}}, 8, 1, 498},
    {{{16, 484}}, 8, 1, 2},
    {{{16, 485}}, 8, 1, 0},
    {{{16, 486}}, 8, 0, 0},
    {{{9, 994}}, 43, 0, 0},
    {{{1, 995}}, 3, 0, 0},
};

/* A start that is taken, at either end of a segment with room and of one without, and starts past the last segment. */
static void starts(void) {
    uint32_t most = caller == EIT_BROADCAST ? 4066 : 994;
    static const uint32_t past[] = {5529600, 5529601, 0x80000000, UINT32_MAX};
    for (uint32_t events = 0; events <= 8; events++) {
        Run runs[RUNS] = {{events, most}};
        uint32_t count = fill(runs, 0);
        for (uint32_t place = 0; place < events; place++) {
            said("the answer to a start that is taken", count, STEP * place, (EitRoom){0, 0, 0});
        }
        said("the answer to the last start", count, 5529599, (EitRoom){0, 1, most});
        for (size_t row = 0; row < ROWS(past); row++) {
            said("the answer to a start past the last segment", count, past[row], (EitRoom){0, 0, 0});
        }
        /* The next segment begins at 10,800. */
        EitRoom one = {0, 1, most}, none = {0, 0, 0};
        said("the answer to a segment's last second", count, 10799, events == 8 ? none : one);
        said("the answer to the next segment", count, 10800, one);
    }
    set(0, 1, LAST, 60, 0);
    said("the answer to the last start, taken,", 1, 5529599, (EitRoom){0, 0, 0});
    said("the answer to the last start but one", 1, 5529598, (EitRoom){0, 1, most});
    expect_room("the answer to no list, no pools", eit_chain_room(caller, list, 0, 0, day, 0, series, 0, 0),
                (EitRoom){0, 1, most});
}

/* Segments before and behind that are full or unpackable change nothing; where the start's own is, none fits. */
static void other_segments(void) {
    uint32_t most = caller == EIT_BROADCAST ? 4066 : 994;
    for (uint32_t length = most; length <= most + 1; length++) {
        for (uint32_t place = 0; place < 8; place++) {
            set(place, place, STEP * place, 1, length);
            set(8 + place, 8 + place, 10800 + STEP * place, 1, place < 7 ? most : most - 10);
            set(16 + place, 16 + place, 21600 + STEP * place, 1, length);
        }
        said("the answer between two segments", 24, 10800 + 38, (EitRoom){0, 0, 0});
        list[EIT_RECORD * 15 + 5] = most - 12;
        said("the answer between two segments with room", 24, 10800 + 38, (EitRoom){0, 1, 0});
        list[EIT_RECORD * 15 + 5] = most - 112;
        said("the answer between two segments with more", 24, 10800 + 38, (EitRoom){0, 1, 100});
        said("the answer in the segment before", 24, 38, (EitRoom){0, 0, 0});
        said("the answer in the segment behind", 24, 21600 + 38, (EitRoom){0, 0, 0});
        said("the answer in a segment without events", 24, 32400, (EitRoom){0, 1, most});
    }
}

/* What plays no part: overlap, for which PUT is 30, a full list, for which it is 8, and marks. */
static void no_part(void) {
    uint32_t most = caller == EIT_BROADCAST ? 4066 : 994;
    uint32_t events = caller == EIT_BROADCAST ? EIT_EVENTS_MAX : EIT_CABLE_EVENTS_MAX;
    static const uint8_t within[18] = {EIT_PUT, 0, 9, 0, 0, 0x13, 0x88, 0, 0, 0, 1};
    static const uint8_t behind[18] = {EIT_PUT, 0xFF, 0xFF, 0, 0, 0x2A, 0x30, 0, 0, 0, 1};

    set(0, 1, 0, 10000, most);
    said("the answer within a programme", 1, 5000, (EitRoom){0, 1, most});
    EitEdited edited = eit_edit(caller, list, ROWS(list), 1, day, POOL, series, POOL, within, sizeof within);
    expect("the answer to PUT within a programme", edited.number, 30);
    list[3] = EIT_FREE_CA | EIT_OFF_AIR;
    said("the answer within a programme with marks", 1, 5000, (EitRoom){0, 1, most});

    /* As many events as there may be, and one more; the limit is not the buffer's. */
    Run runs[RUNS] = {{events, 0}, {1, 0}};
    fill(runs, 0);
    said("the answer in a full list, behind the first", events, 3,
         (EitRoom){0, 1, caller == EIT_BROADCAST ? 4054 : 994});
    said("the answer in a full list, behind all", events, 10799, (EitRoom){0, 1, most});
    said("the answer in a full list, in the next segment", events, 10800, (EitRoom){0, 1, most});
    said("the answer in a list with one more", events + 1, 10799, (EitRoom){12, 0, 0});
    edited = eit_edit(caller, list, EIT_RECORD * events, events, day, POOL, series, POOL, behind, sizeof behind);
    expect("the answer to PUT into a full list", edited.number, 8);
    EitRoom got = eit_chain_room(caller, list, EIT_RECORD * events, events, day, POOL, series, POOL, 10799);
    expect_room("the answer in a full buffer", got, (EitRoom){0, 1, most});
}

/* 12, whatever the start is: free, taken, past the last segment. */
static void unsound(void) {
    /* A descriptor without bytes, one with tag 0xFF, and a byte that begins none that is whole. */
    static const uint8_t short_day[] = {0x4D, 0x00, 0xFF, 0x00, 0x54};
    static const struct {
        size_t count;
        Record records[2];
    } lists[] = {
        {1, {{65536, 0, 60}}},
        {1, {{1, 5529600, 60}}},
        {1, {{1, 0, 0}}},
        {1, {{1, 0, 360000}}},
        {1, {{1, 0, 60, 8}}},
        /* Outside its pool, no chain, tag 0xFF, outside the series pool, and a sum that is no uint32_t. */
        {1, {{1, 0, 60, 0, 6, 0}}},
        {1, {{1, 0, 60, 0, 4, 2}}},
        {1, {{1, 0, 60, 0, 4, 1}}},
        {1, {{1, 0, 60, 0, 0, 4}}},
        {1, {{1, 0, 60, 2, 0, 1}}},
        {1, {{1, 0, 60, 0, UINT32_MAX, 2}}},
        /* By a second; an equal start; a start that falls; an id twice; the fault in a later segment. */
        {2, {{1, 100, 60}, {2, 159, 60}}},
        {2, {{1, 100, 1}, {2, 100, 1}}},
        {2, {{1, 172800, 60}, {2, 0, 60}}},
        {2, {{1, 0, 60}, {1, 172800, 60}}},
        {2, {{1, 0, 60}, {2, 172800, 60, 0, 0, 4}}},
        /* Counts that the buffer has no records for, up to those of which six times the count is no size_t. */
        {3, {{1, 0, 60}, {2, 60, 60}}},
        {SIZE_MAX / 6, {{1, 0, 60}, {2, 60, 60}}},
        {SIZE_MAX / 6 + 1, {{1, 0, 60}, {2, 60, 60}}},
        {SIZE_MAX, {{1, 0, 60}, {2, 60, 60}}},
    };
    static const uint32_t starts[] = {0, 30, 100, 159, 172800, 5529599, 5529600, UINT32_MAX};
    for (size_t row = 0; row < ROWS(lists); row++) {
        for (size_t place = 0; place < ROWS(starts); place++) {
            const uint32_t *records = (const uint32_t *)lists[row].records;
            EitRoom got = eit_chain_room(caller, records, 2 * EIT_RECORD, lists[row].count, short_day, sizeof short_day,
                                         short_day, 0, starts[place]);
            expect_room("the answer to an unsound list", got, (EitRoom){12, 0, 0});
        }
    }
    /* The same pools, and a record that is sound; a number of the buffer is missing. */
    static const uint32_t sound[EIT_RECORD] = {1, 0, 60, 0, 0, 2};
    uint32_t most = caller == EIT_BROADCAST ? 4066 : 994;
    EitRoom got = eit_chain_room(caller, sound, EIT_RECORD, 1, short_day, sizeof short_day, short_day, 0, 60);
    expect_room("the answer to a sound list", got, (EitRoom){0, 1, most});
    got = eit_chain_room(caller, sound, EIT_RECORD - 1, 1, short_day, sizeof short_day, short_day, 0, 60);
    expect_room("the answer to a short buffer", got, (EitRoom){12, 0, 0});
}

int main(void) {
    fill_pools();
    for (caller = EIT_BROADCAST; caller <= EIT_CABLE; caller++) {
        rows(caller == EIT_BROADCAST ? broadcast : cable, caller == EIT_BROADCAST ? ROWS(broadcast) : ROWS(cable));
        starts();
        other_segments();
        no_part();
        unsound();
        if (wrong) {
            printf("face: this is for caller %u\n", caller);
            return 1;
        }
    }
    return 0;
}
