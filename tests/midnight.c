/* A roll at midnight: what leaves and what stays, zeros and the numbers behind them, what is returned, several rolls in
 * a row, what is 31 and 12, the event bytes of the files before and after, and the versions of a rebuilt file. The
 * short pools are constants: a call that wrote to one would be stopped. */
#include "expect.h"

enum { BASE_DAY = 49273, DAY = EIT_DAY_SECONDS, ROOM = 4, NUMBERS = EIT_RECORD * ROOM + 2, OVER = 77 };

/* How many rows a table has. */
#define ROWS(table) (sizeof(table) / sizeof *(table))

/* A descriptor without bytes, one with tag 0xFF, and a byte that begins none that is whole. */
static const uint8_t day[] = {0x4D, 0x00, 0xFF, 0x00, 0x54};
/* A descriptor of two bytes. */
static const uint8_t series[] = {0x4D, 0x02, 0xFF, 0xFF};

static uint8_t caller;

typedef uint32_t Record[EIT_RECORD];

/* A list of at most four records, in a buffer of four records and two numbers over. */
typedef struct List {
    size_t count;
    Record records[ROOM];
} List;

/* The numbers of a list, and behind it what is no zero. */
static void fill(uint32_t numbers[NUMBERS], const List *list) {
    for (size_t place = 0; place < NUMBERS; place++) {
        numbers[place] = OVER + (uint32_t)place;
    }
    memcpy(numbers, list->records, sizeof(Record) * list->count);
}

static EitRolled roll(uint32_t *numbers, size_t list_length, size_t count, uint32_t base_day) {
    return eit_roll(caller, numbers, list_length, count, day, sizeof day, series, sizeof series, base_day);
}

static void expect_rolled(const char *what, EitRolled got, EitRolled wanted) {
    expect(what, got.number, wanted.number);
    expect("its value", got.value, wanted.value);
    expect("its count", got.count, wanted.count);
    expect("its base day", got.base_day, wanted.base_day);
}

/* It is refused so, and the whole buffer stays. */
static void refused(const char *what, const List *list, size_t list_length, size_t count, uint32_t base_day,
                    uint32_t number) {
    uint32_t numbers[NUMBERS], untouched[NUMBERS];
    fill(numbers, list);
    fill(untouched, list);
    EitRolled got = roll(numbers, list_length, count, base_day);
    expect_rolled(what, got, (EitRolled){number, 0, count, base_day});
    expect("the buffer, compared with what it was,", memcmp(numbers, untouched, sizeof numbers) != 0, 0);
}

/* It is rolled to another list, from several base days and in buffers of several lengths, up to its last record and
 * longer; from the last base day on it is 31. */
static void rolled(const char *what, const List *list, const List *after) {
    static const uint32_t legal[] = {0, 1, 255, 256, BASE_DAY, 65470, 65471};
    static const uint32_t last[] = {65472, 65473, 65535, 65536, 0x80000000, UINT32_MAX};
    for (size_t length = EIT_RECORD * list->count; length <= NUMBERS; length++) {
        for (size_t row = 0; row < ROWS(legal); row++) {
            uint32_t numbers[NUMBERS], left[NUMBERS];
            fill(numbers, list);
            fill(left, list);
            memset(left, 0, sizeof(Record) * list->count);
            memcpy(left, after->records, sizeof(Record) * after->count);
            EitRolled got = roll(numbers, length, list->count, legal[row]);
            expect_rolled(what, got, (EitRolled){0, after->count, after->count, legal[row] + 1});
            expect("the buffer, compared with what is to be left,", memcmp(numbers, left, sizeof numbers) != 0, 0);
        }
        for (size_t row = 0; row < ROWS(last); row++) {
            refused("the answer to the last base day", list, length, list->count, last[row], 31);
        }
    }
}

static void lists(void) {
    static const struct {
        const char *what;
        List list, after;
    } rows[] = {
        {"the answer to no events", {0, {{0}}}, {0, {{0}}}},
        {"the answer to the first second", {1, {{1, 0, 60}}}, {0, {{0}}}},
        {"the answer to the day's last second", {1, {{1, 86399, 1}}}, {0, {{0}}}},
        {"the answer to an end at midnight", {1, {{1, 82800, 3600}}}, {0, {{0}}}},
        {"the answer to an end past midnight", {1, {{1, 86399, 2}}}, {0, {{0}}}},
        {"the answer to an end past four midnights", {1, {{1, 86399, 359999}}}, {0, {{0}}}},
        {"the answer to the next day's first second", {1, {{1, 86400, 60}}}, {1, {{1, 0, 60}}}},
        {"the answer to the window's last second",
         {1, {{65535, 5529599, 359999, 4, 2, 0}}},
         {1, {{65535, 5443199, 359999, 4, 2, 0}}}},
        {"the answer to both sides of midnight",
         {2, {{9, 86399, 1, 1, 5, 0}, {3, 86400, 60, 5, 0, 2}}},
         {1, {{3, 0, 60, 5, 0, 2}}}},
        {"the answer to one over midnight",
         {3, {{1, 84600, 3600, 0, 0, 2}, {2, 88200, 60, 3, 0, 4}, {4, 900000, 1, 2, 4, 0}}},
         {2, {{2, 1800, 60, 3, 0, 4}, {4, 813600, 1, 2, 4, 0}}}},
        {"the answer to events of one day", {4, {{4, 0, 60}, {3, 60, 60}, {2, 120, 60}, {1, 180, 60}}}, {0, {{0}}}},
        {"the answer to events of later days",
         {4, {{4, 86400, 86400, 7, 0, 4}, {3, 172800, 60}, {2, 345599, 1}, {1, 345600, 60}}},
         {4, {{4, 0, 86400, 7, 0, 4}, {3, 86400, 60}, {2, 259199, 1}, {1, 259200, 60}}}},
    };
    for (size_t row = 0; row < ROWS(rows); row++) {
        rolled(rows[row].what, &rows[row].list, &rows[row].after);
    }
}

/* 12, by a record that leaves, by one that stays and by both; 31 comes before it. */
static void unsound(void) {
    static const List lists[] = {
        {1, {{65536, 0, 60}}},
        {1, {{65536, 86400, 60}}},
        {1, {{1, 5529600, 60}}},
        {1, {{1, 0, 0}}},
        {1, {{1, 86400, 360000}}},
        {1, {{1, 0, 60, 8}}},
        {1, {{1, 86400, 60, 8}}},
        /* Outside its pool, no chain, tag 0xFF, outside the series pool, and a sum that is no uint32_t. */
        {1, {{1, 0, 60, 0, 6, 0}}},
        {1, {{1, 86400, 60, 0, 4, 2}}},
        {1, {{1, 0, 60, 0, 4, 1}}},
        {1, {{1, 86400, 60, 0, 0, 4}}},
        {1, {{1, 0, 60, 2, 0, 5}}},
        {1, {{1, 86400, 60, 0, UINT32_MAX, 2}}},
        /* By a second: on the first day, over midnight, on the second. */
        {2, {{1, 100, 60}, {2, 159, 60}}},
        {2, {{1, 86340, 61}, {2, 86400, 60}}},
        {2, {{1, 86400, 60}, {2, 86459, 60}}},
        /* An equal start, a start that falls, an id twice, of which one leaves. */
        {2, {{1, 86400, 1}, {2, 86400, 1}}},
        {2, {{1, 172800, 60}, {2, 0, 60}}},
        {4, {{1, 0, 60}, {2, 60, 60}, {3, 86400, 60}, {1, 172800, 60}}},
    };
    for (size_t row = 0; row < ROWS(lists); row++) {
        const List *list = &lists[row];
        refused("the answer to an unsound list", list, NUMBERS, list->count, BASE_DAY, 12);
        refused("the answer to an unsound list on the last day but one", list, NUMBERS, list->count, 65471, 12);
        refused("the answer to an unsound list on the last base day", list, NUMBERS, list->count, 65472, 31);
        refused("the answer to an unsound list past it", list, NUMBERS, list->count, UINT32_MAX, 31);
    }
    /* Counts that the buffer has no records for, up to those of which six times the count is no size_t. */
    static const size_t counts[] = {2, 3, SIZE_MAX / 6, SIZE_MAX / 6 + 1, SIZE_MAX / 2 + 1, SIZE_MAX};
    static const List two = {2, {{1, 0, 60}, {2, 86400, 60}}};
    for (size_t length = 0; length < 2 * EIT_RECORD; length++) {
        for (size_t row = 0; row < ROWS(counts); row++) {
            refused("the answer to a short buffer", &two, length, counts[row], BASE_DAY, 12);
            refused("the answer to a short buffer on the last base day", &two, length, counts[row], 65472, 31);
        }
    }
}

/* As many events as the caller may have, of which all but the last leave; then one more. */
static void event_limit(void) {
    enum { MORE = EIT_EVENTS_MAX + 1 };
    static uint32_t list[EIT_RECORD * MORE], copy[EIT_RECORD * MORE];
    uint32_t most = caller == EIT_BROADCAST ? EIT_EVENTS_MAX : EIT_CABLE_EVENTS_MAX;
    for (uint32_t count = most; count <= most + 1; count++) {
        memset(list, 0, sizeof list);
        for (uint32_t place = 0; place < count; place++) {
            memcpy(list + EIT_RECORD * place, (Record){place, place, 1}, sizeof(Record));
        }
        list[EIT_RECORD * (count - 1) + 1] = 2 * DAY;
        memcpy(copy, list, sizeof list);
        EitRolled got = roll(list, ROWS(list), count, BASE_DAY);
        int is_sound = count == most;
        EitRolled done = {0, 1, 1, BASE_DAY + 1}, unsound = {12, 0, count, BASE_DAY};
        expect_rolled("the answer to as many as may be, or one more,", got, is_sound ? done : unsound);
        if (is_sound) {
            memset(copy, 0, sizeof copy);
            memcpy(copy, (Record){count - 1, DAY, 1}, sizeof(Record));
        }
        expect("the list, compared with what is to be left,", memcmp(list, copy, sizeof list) != 0, 0);
    }
}

/* Events on all 64 days, up to the last base day: n rolls keep those that start n days later or after that, and 64 keep
 * none; a further one is 31. */
static void several_days(void) {
    enum { DAYS = 64, EVENTS = 3 * DAYS };
    static const uint32_t times[3] = {0, 43200, 86399};
    static uint32_t list[EIT_RECORD * EVENTS], left[EIT_RECORD * EVENTS];
    for (uint32_t place = 0; place < EVENTS; place++) {
        Record record = {place, DAY * (place / 3) + times[place % 3], 1, 3, 0, 4};
        memcpy(list + EIT_RECORD * place, record, sizeof record);
    }
    size_t count = EVENTS;
    for (uint32_t n = 1; n <= DAYS; n++) {
        memset(left, 0, sizeof left);
        for (uint32_t place = 3 * n; place < EVENTS; place++) {
            Record record = {place, DAY * (place / 3 - n) + times[place % 3], 1, 3, 0, 4};
            memcpy(left + EIT_RECORD * (place - 3 * n), record, sizeof record);
        }
        EitRolled got = roll(list, ROWS(list), count, 65472 - DAYS + n - 1);
        count = EVENTS - 3 * n;
        expect_rolled("the answer to one of several rolls", got, (EitRolled){0, count, count, 65472 - DAYS + n});
        expect("the list, compared with what is to be left,", memcmp(list, left, sizeof list) != 0, 0);
    }
    expect_rolled("the answer to one roll more", roll(list, ROWS(list), 0, 65472), (EitRolled){31, 0, 0, 65472});
}

/* Descriptors of 256 bytes. */
enum { DESCRIPTOR = 256, LARGE = EIT_SECTION_MAX / 2, ALL = 24, FILE_ROOM = 1 << 16 };
static uint8_t large[LARGE];

/* Events that need a section each: up to eight in a segment, at both ends of a day, of a table and of the window. */
static size_t fill_large(uint32_t list[EIT_RECORD * ALL]) {
    static const uint32_t starts[] = {0, 75600, 86400, 172000, 345540, 350000, 700000, 5443200, 5529000};
    static const uint32_t events[] = {2, 1, 8, 1, 1, 4, 2, 1, 3};
    uint32_t chain_length = caller == EIT_BROADCAST ? EIT_SECTION_MAX / 2 : EIT_CABLE_SECTION_MAX / 2;
    uint32_t count = 0;
    for (size_t row = 0; row < ROWS(starts); row++) {
        for (uint32_t place = 0; place < events[row]; place++, count++) {
            Record record = {count, starts[row] + 60 * place, 60, 0, 0, chain_length};
            memcpy(list + EIT_RECORD * count, record, sizeof record);
        }
    }
    return count;
}

/* The event bytes of the k-th section of a segment, and how many; none if the file lacks it. */
static const uint8_t *event_bytes(const uint8_t *file, size_t file_length, size_t index, size_t k, size_t *length) {
    *length = 0;
    for (size_t offset = 0; offset < file_length;) {
        const uint8_t *section = file + offset;
        size_t section_length = 3 + ((size_t)(section[1] & 0x0F) << 8 | section[2]);
        if (section[0] == 0x50 + index / 32 && section[6] == 8 * (index % 32) + k) {
            *length = section_length - 18;
            return section + 14;
        }
        offset = offset + section_length;
    }
    return file;
}

/* Build before and after a roll, each under its base day, and under other versions: the k-th section of each segment
 * has the event bytes of the k-th of the segment eight indexes later before. */
static void event_bytes_stay(void) {
    static uint8_t before[FILE_ROOM], after[FILE_ROOM];
    static const uint8_t versions[EIT_TABLES] = {31, 1, 2};
    uint32_t list[EIT_RECORD * ALL];
    size_t count = fill_large(list);
    EitBuilt first = eit_build(caller, list, ROWS(list), count, large, LARGE, series, 0, BASE_DAY, 1, 2, 3, no_versions,
                               before, sizeof before);
    EitRolled got = eit_roll(caller, list, ROWS(list), count, large, LARGE, series, 0, BASE_DAY);
    EitBuilt second = eit_build(caller, list, ROWS(list), got.count, large, LARGE, series, 0, got.base_day, 1, 2, 3,
                                versions, after, sizeof after);
    expect("the answer to Build before the roll", first.number, 0);
    expect_rolled("the answer to the roll", got, (EitRolled){0, count - 3, count - 3, BASE_DAY + 1});
    expect("the answer to Build after the roll", second.number, 0);
    for (size_t index = 0; index < EIT_SEGMENTS; index++) {
        for (size_t k = 0; k < EIT_SEGMENT_SECTIONS_MAX; k++) {
            size_t got_length, wanted_length;
            const uint8_t *got_bytes = event_bytes(after, second.value, index, k, &got_length);
            const uint8_t *wanted_bytes = event_bytes(before, first.value, index + 8, k, &wanted_length);
            expect("the number of event bytes", got_length, wanted_length);
            expect("the event bytes, compared with those before,",
                   got_length == wanted_length && memcmp(got_bytes, wanted_bytes, got_length) != 0, 0);
        }
    }
    size_t eighth;
    event_bytes(after, second.value, 0, 7, &eighth);
    expect("whether segment 0 has an eighth section", eighth > 0, 1);
}

/* Midnight with a file on air: table 0x50 changes, 0x51, without events, does not, and 0x52 does. At the next midnight
 * the event of 0x52 comes to 0x51, and last_table_id changes. */
static void on_air(void) {
    static uint8_t files[2][2048];
    static const uint8_t versions[EIT_TABLES] = {3, 31, 31};
    static const uint8_t wanted[2][EIT_TABLES] = {{4, 31, 0}, {5, 0}};
    uint32_t list[2 * EIT_RECORD] = {1, 43200, 60, 0, 0, 0, 2, 820800, 60, 0, 0, 0};
    EitBuilt built = eit_build(caller, list, ROWS(list), 2, day, 0, series, 0, BASE_DAY, 1, 2, 3, versions, files[0],
                               sizeof files[0]);
    expect("the answer to Build", built.number, 0);
    EitRolled held = {0, 2, 2, BASE_DAY};
    for (size_t night = 0; night < 2; night++) {
        uint32_t previous_base_day = held.base_day;
        const uint8_t *previous = files[night];
        uint8_t *next = files[1 - night];
        held = eit_roll(caller, list, ROWS(list), held.count, day, 0, series, 0, previous_base_day);
        expect_rolled("the answer to the roll", held, (EitRolled){0, 1, 1, previous_base_day + 1});
        built = eit_rebuild(caller, previous, built.value, previous_base_day, list, ROWS(list), held.count, day, 0,
                            series, 0, held.base_day, next, sizeof files[0]);
        expect("the answer to rebuild", built.number, 0);
        EitReading reading = {0, 1, 1, 1, 2, 3, {0}};
        memcpy(reading.versions, wanted[night], sizeof reading.versions);
        expect_reading("the answer to check", eit_check(caller, next, built.value, held.base_day), reading);
    }
}

int main(void) {
    for (size_t place = 0; place < LARGE; place += DESCRIPTOR) {
        large[place] = 0x4D;
        large[place + 1] = DESCRIPTOR - 2;
    }
    for (caller = EIT_BROADCAST; caller <= EIT_CABLE; caller++) {
        lists();
        unsound();
        event_limit();
        several_days();
        event_bytes_stay();
        on_air();
        if (wrong) {
            printf("face: this is for caller %u\n", caller);
            return 1;
        }
    }
    return 0;
}
