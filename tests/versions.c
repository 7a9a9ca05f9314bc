/* Sixteen versions: what Build writes and Read returns, what is 2 and 22, and which versions a rebuilt file has. */
#include "expect.h"

enum { BASE_DAY = 49273, TABLE_SECONDS = EIT_TABLE_SEGMENTS * EIT_SEGMENT_SECONDS, ROOM = 2048, OVER = 0xA5 };

typedef struct Event {
    uint32_t id, start, duration;
} Event;

/* A list of at most sixteen events without descriptors, and the base day that it counts from. */
typedef struct List {
    uint32_t base_day;
    size_t count;
    Event events[EIT_TABLES];
} List;

/* Bytes of a file, and behind it OVER. */
typedef struct File {
    size_t length;
    uint8_t bytes[ROOM];
} File;

static uint8_t caller;
static const uint8_t pool[1] = {0};

static void fill(uint32_t numbers[EIT_RECORD * EIT_TABLES], const List *list) {
    for (size_t place = 0; place < list->count; place++) {
        Event event = list->events[place];
        uint32_t record[EIT_RECORD] = {event.id, event.start, event.duration, 0, 0, 0};
        memcpy(numbers + EIT_RECORD * place, record, sizeof record);
    }
}

/* Build under ids 1, 2 and 3. */
static EitBuilt build(File *to, const List *list, const uint8_t versions[EIT_TABLES], size_t out_length) {
    uint32_t numbers[EIT_RECORD * EIT_TABLES];
    fill(numbers, list);
    memset(to->bytes, OVER, ROOM);
    EitBuilt got = eit_build(caller, numbers, EIT_RECORD * EIT_TABLES, list->count, pool, 0, pool, 0, list->base_day,
                             1, 2, 3, versions, to->bytes, out_length);
    to->length = got.number == 0 ? got.value : 0;
    return got;
}

static File built(const List *list, const uint8_t versions[EIT_TABLES]) {
    File file;
    expect("the answer to Build", build(&file, list, versions, ROOM).number, 0);
    return file;
}

/* Writes the version and the CRC_32 of the section at an offset. */
static void set_version(File *file, size_t offset, uint8_t version) {
    uint8_t *section = file->bytes + offset;
    size_t length = 3 + ((size_t)(section[1] & 0x0F) << 8 | section[2]);
    section[5] = (uint8_t)(0xC1 | version << 1);
    uint32_t crc = eit_crc32(section, length - 4);
    for (size_t place = length - 4; place < length; place++, crc <<= 8) {
        section[place] = (uint8_t)(crc >> 24);
    }
}

static void expect_file(const char *what, const File *got, const File *wanted) {
    expect(what, memcmp(got->bytes, wanted->bytes, ROOM) != 0, 0);
}

/* Read and check both answer this, and an answer that is a refusal leaves the records. */
static void expect_read(const char *what, const File *file, EitReading wanted) {
    uint32_t records[EIT_RECORD * EIT_TABLES], untouched[EIT_RECORD * EIT_TABLES];
    memset(records, OVER, sizeof records);
    memset(untouched, OVER, sizeof untouched);
    EitReading got = eit_read(caller, file->bytes, file->length, BASE_DAY, records, EIT_RECORD * EIT_TABLES);
    expect_reading(what, got, wanted);
    expect("whether the records stay", memcmp(records, untouched, sizeof records) == 0, wanted.number != 0);
    expect_reading("what check answers", eit_check(caller, file->bytes, file->length, BASE_DAY), wanted);
}

/* An event at the beginning of each of the first so many tables, a section of 30 bytes each. */
static List first_tables(size_t count) {
    List list = {.base_day = BASE_DAY, .count = count};
    for (size_t table = 0; table < count; table++) {
        list.events[table] = (Event){(uint32_t)table, (uint32_t)(TABLE_SECONDS * table), 60};
    }
    return list;
}

/* Each table has its own version, whatever those of the others are; Read returns those of the tables that are there. */
static void own_versions(void) {
    static const uint8_t versions[EIT_TABLES] = {31, 0, 1, 2, 4, 8, 16, 30, 15, 7, 3, 21, 10, 31, 5, 9};
    for (size_t count = 1; count <= EIT_TABLES; count++) {
        List list = first_tables(count);
        File file = built(&list, versions);
        expect("the file's length", file.length, 30 * count);
        EitReading wanted = {0, count, count, 1, 2, 3, {0}};
        memcpy(wanted.versions, versions, count);
        for (size_t table = 0; table < count; table++) {
            const uint8_t *section = file.bytes + 30 * table;
            expect("a table_id", section[0], 0x50 + table);
            expect("a version's byte", section[5], 0xC1 | versions[table] << 1);
            expect("CRC_32 of a section", eit_crc32(section, 30), 0);
        }
        expect_read("the answer to a file with versions by table", &file, wanted);
        /* All else is the same under other versions. */
        File other = built(&list, no_versions);
        for (size_t table = 0; table < count; table++) {
            set_version(&other, 30 * table, versions[table]);
        }
        expect_file("the file, compared with another one that is given its versions,", &file, &other);
    }
}

/* 2 for each of the sixteen, also where the file has one table; 1 comes before it, and 12 and 11 behind it. */
static void above_the_most(void) {
    static const uint8_t above[] = {32, 33, 64, 128, 255};
    List one = first_tables(1), twice = first_tables(2), late = one;
    twice.events[1] = twice.events[0];
    late.base_day = EIT_BASE_DAY_MAX + 1;
    File out, untouched;
    memset(untouched.bytes, OVER, ROOM);
    uint8_t versions[EIT_TABLES];
    memset(versions, EIT_VERSION_MAX, sizeof versions);
    expect("the answer to sixteen times 31", build(&out, &one, versions, ROOM).number, 0);
    expect("the answer to an unsound list", build(&out, &twice, versions, ROOM).number, 12);
    for (size_t table = 0; table < EIT_TABLES; table++) {
        for (size_t row = 0; row < sizeof above; row++) {
            versions[table] = above[row];
            EitBuilt got = build(&out, &twice, versions, 29);
            expect("the answer to a version above the most", got.number, 2);
            expect("its value", got.value, 0);
            expect_file("the output, compared with what it was,", &out, &untouched);
            expect("the answer to a base day above the most, too,", build(&out, &late, versions, ROOM).number, 1);
            versions[table] = EIT_VERSION_MAX;
        }
    }
}

/* Two tables of two sections of 30 bytes each, with versions 1 and 2. */
static File two_tables(void) {
    static const List list = {BASE_DAY, 4, {{1, 0, 60}, {2, 10800, 60}, {3, 345600, 60}, {4, 356400, 60}}};
    static const uint8_t versions[EIT_TABLES] = {1, 2};
    return built(&list, versions);
}

/* The file with the version of one section, or of both of a table, changed. */
static void within_a_table(void) {
    static const size_t refused_at[] = {30, 30, 90, 90};
    File file = two_tables();
    expect_read("the answer to versions 1 and 2", &file, (EitReading){0, 4, 4, 1, 2, 3, {1, 2}});
    for (uint8_t version = 0; version <= EIT_VERSION_MAX; version++) {
        for (size_t section = 0; section < 4; section++) {
            file = two_tables();
            set_version(&file, 30 * section, version);
            EitReading accepted = {0, 4, 4, 1, 2, 3, {1, 2}};
            EitReading refused = {.number = 22, .value = refused_at[section]};
            int is_same = version == accepted.versions[section / 2];
            expect_read("the answer to one section's version", &file, is_same ? accepted : refused);

            set_version(&file, 30 * (section ^ 1), version);
            accepted.versions[section / 2] = version;
            expect_read("the answer to a table's version", &file, accepted);
        }
    }
}

/* A section of the file once more, behind its last one or in the place of another: with the same version it is 23, with
 * another one 22. */
static void comes_back(void) {
    for (size_t section = 0; section < 4; section++) {
        for (size_t at = section + 1; at <= 4; at++) {
            for (uint8_t version = 0; version <= EIT_VERSION_MAX; version++) {
                File file = two_tables();
                int is_same = file.bytes[30 * section + 5] == (0xC1 | version << 1);
                memcpy(file.bytes + 30 * at, file.bytes + 30 * section, 30);
                file.length = at < 4 ? file.length : 30 * 5;
                set_version(&file, 30 * at, version);
                EitReading refused = {.number = is_same ? 23 : 22, .value = 30 * at};
                expect_read("the answer to a section that comes back", &file, refused);
            }
        }
    }
}

/* Rebuild of a previous file, which stays. */
static EitBuilt rebuild(File *to, const File *previous, uint32_t previous_base_day, const List *list,
                        size_t out_length) {
    uint32_t numbers[EIT_RECORD * EIT_TABLES];
    fill(numbers, list);
    File copy = *previous;
    memset(to->bytes, OVER, ROOM);
    EitBuilt got = eit_rebuild(caller, previous->bytes, previous->length, previous_base_day, numbers,
                               EIT_RECORD * EIT_TABLES, list->count, pool, 0, pool, 0, list->base_day, to->bytes,
                               out_length);
    to->length = got.number == 0 ? got.value : 0;
    expect_file("the previous file, compared with what it was,", previous, &copy);
    return got;
}

/* The rebuilt file is the one that Build writes under these versions, and its length is just enough. */
static void rebuilt(const char *what, const File *previous, const List *list, const uint8_t versions[EIT_TABLES]) {
    File wanted = built(list, versions), out;
    static const size_t more[] = {0, 1, 100};
    for (size_t row = 0; row < 3; row++) {
        EitBuilt got = rebuild(&out, previous, BASE_DAY, list, wanted.length + more[row]);
        expect(what, got.number, 0);
        expect("its value", got.value, wanted.length);
        expect_file("the rebuilt file, compared with Build's,", &out, &wanted);
    }
    File untouched;
    memset(untouched.bytes, OVER, ROOM);
    EitBuilt got = rebuild(&out, previous, BASE_DAY, list, wanted.length - 1);
    expect("the answer to a short output", got.number, 11);
    expect("its value", got.value, wanted.length);
    expect_file("the output, compared with what it was,", &out, &untouched);
}

/* Lists that follow one of two tables, the first of two sections, with versions 7 and 31. */
static void changes(void) {
#define EARLIER {1, 0, 60}, {2, 10800, 60}
#define LATER {3, 345600, 60}
    static const uint8_t versions[EIT_TABLES] = {7, 31};
    static const List first = {BASE_DAY, 3, {EARLIER, LATER}};
    static const struct {
        const char *what;
        List list;
        uint8_t versions[EIT_TABLES];
    } rows[] = {
        {"the answer to the same list", {BASE_DAY, 3, {EARLIER, LATER}}, {7, 31}},
        {"the answer to another duration in 0x51", {BASE_DAY, 3, {EARLIER, {3, 345600, 61}}}, {7, 0}},
        {"the answer to another id in 0x50", {BASE_DAY, 3, {{9, 0, 60}, {2, 10800, 60}, LATER}}, {8, 31}},
        {"the answer to another id in section 8", {BASE_DAY, 3, {{1, 0, 60}, {9, 10800, 60}, LATER}}, {8, 31}},
        {"the answer to a change in both", {BASE_DAY, 3, {{1, 1, 59}, {2, 10800, 60}, {3, 345601, 59}}}, {8, 0}},
        {"the answer to one more in 0x50", {BASE_DAY, 4, {EARLIER, {4, 340000, 60}, LATER}}, {8, 31}},
        {"the answer to one more in 0x51", {BASE_DAY, 4, {EARLIER, LATER, {4, 690000, 60}}}, {7, 0}},
        {"the answer to one more in 0x52", {BASE_DAY, 4, {EARLIER, LATER, {4, 700000, 60}}}, {8, 0, 0}},
        {"the answer to one more in 0x5F", {BASE_DAY, 4, {EARLIER, LATER, {4, 5529599, 1}}}, {8, 0, 0}},
        {"the answer to none in 0x51", {BASE_DAY, 2, {EARLIER}}, {8}},
        {"the answer to none in 0x50", {BASE_DAY, 1, {LATER}}, {8, 31}},
        {"the answer to the empty list", {BASE_DAY, 0, {{0}}}, {8}},
        {"the answer to a base day 4 days later", {BASE_DAY + 4, 1, {{3, 0, 60}}}, {8}},
    };
    File previous = built(&first, versions);
    for (size_t row = 0; row < sizeof rows / sizeof *rows; row++) {
        rebuilt(rows[row].what, &previous, &rows[row].list, rows[row].versions);
    }
    /* Every version rises by 1, and 31 to 0. */
    static const List changed = {BASE_DAY, 1, {{9, 0, 60}}};
    List one = first_tables(1);
    for (uint8_t version = 0; version <= EIT_VERSION_MAX; version++) {
        previous = built(&one, (uint8_t[EIT_TABLES]){version});
        rebuilt("the answer to the same event", &previous, &one, (uint8_t[EIT_TABLES]){version});
        uint8_t next = version == EIT_VERSION_MAX ? 0 : version + 1;
        rebuilt("the answer to another event", &previous, &changed, (uint8_t[EIT_TABLES]){next});
    }
    /* The tables that both files have rise with a new last table, and the new ones have 0, however many they are. */
    uint8_t all[EIT_TABLES], raised[EIT_TABLES] = {0};
    memset(all, 5, sizeof all);
    for (size_t before = 1; before <= EIT_TABLES; before++) {
        for (size_t after = 1; after <= EIT_TABLES; after++) {
            List old_list = first_tables(before), new_list = first_tables(after);
            previous = built(&old_list, all);
            for (size_t table = 0; table < after; table++) {
                raised[table] = before == after ? 5 : table < before ? 6 : 0;
            }
            rebuilt("the answer to another last table", &previous, &new_list, raised);
        }
    }
}

/* Previous files that Build does not write: two sections for a segment, a segment without events behind the last, and
 * a later last_table_id. Their version is 3 in every table. */
static void other_packings(void) {
    static const uint8_t versions[EIT_TABLES] = {3, 3};
    static const List events = {BASE_DAY, 2, {{1, 0, 60}, {2, 60, 60}}};
    static const List earlier = {BASE_DAY, 1, {{1, 0, 60}}}, later = {BASE_DAY, 1, {{2, 60, 60}}};
    File one = built(&earlier, versions), two = built(&later, versions), previous = one;

    /* section_number and last_section_number, segment_last_section_number. */
    memcpy(previous.bytes + 30, two.bytes, 30);
    previous.length = 60;
    previous.bytes[7] = previous.bytes[12] = 1;
    previous.bytes[36] = previous.bytes[37] = previous.bytes[42] = 1;
    set_version(&previous, 0, 3);
    set_version(&previous, 30, 3);
    expect_read("the answer to two sections", &previous, (EitReading){0, 2, 2, 1, 2, 3, {3}});
    rebuilt("the answer to other cuts", &previous, &events, (uint8_t[EIT_TABLES]){4});

    static const List none = {BASE_DAY, 0, {{0}}};
    File empty = built(&none, versions);
    previous = one;
    memcpy(previous.bytes + 30, empty.bytes, 18);
    previous.length = 48;
    previous.bytes[7] = 8;
    previous.bytes[36] = previous.bytes[37] = previous.bytes[42] = 8;
    set_version(&previous, 0, 3);
    set_version(&previous, 30, 3);
    expect_read("the answer to a segment behind the last", &previous, (EitReading){0, 1, 1, 1, 2, 3, {3}});
    rebuilt("the answer to a segment less", &previous, &earlier, (uint8_t[EIT_TABLES]){4});

    previous = one;
    memcpy(previous.bytes + 30, empty.bytes, 18);
    previous.length = 48;
    previous.bytes[13] = previous.bytes[30] = previous.bytes[43] = 0x51;
    set_version(&previous, 0, 3);
    set_version(&previous, 30, 3);
    expect_read("the answer to a later last_table_id", &previous, (EitReading){0, 1, 1, 1, 2, 3, {3, 3}});
    rebuilt("the answer to an earlier last table", &previous, &earlier, (uint8_t[EIT_TABLES]){4});
}

/* Service, stream and network are those of the previous file. */
static void previous_ids(void) {
    static const uint32_t list[EIT_RECORD] = {1, 0, 60};
    static const uint8_t versions[EIT_TABLES] = {9};
    uint8_t previous[30], out[30];
    EitBuilt got = eit_build(caller, list, EIT_RECORD, 1, pool, 0, pool, 0, BASE_DAY, 0x1234, 0xFFFE, 0x5678, versions,
                             previous, sizeof previous);
    expect("the answer to Build", got.number, 0);
    got = eit_rebuild(caller, previous, sizeof previous, BASE_DAY, list, EIT_RECORD, 1, pool, 0, pool, 0, BASE_DAY,
                      out, sizeof out);
    expect("the answer to rebuild", got.number, 0);
    expect("the file, compared with the previous one,", memcmp(out, previous, sizeof out) != 0, 0);
}

/* The records that Read returns, with the file as day pool and as the previous file. */
static void read_and_rebuilt(void) {
    static const uint32_t list[2 * EIT_RECORD] = {1, 0, 60, 0, 0, 6, 2, 345600, 60, 0, 2, 4};
    static const uint8_t day[6] = {0x54, 0x00, 0x4D, 0x02, 0x01, 0x02}, versions[EIT_TABLES] = {4, 5};
    uint8_t file[70], out[70];
    uint32_t records[2 * EIT_RECORD];
    EitBuilt got = eit_build(caller, list, 2 * EIT_RECORD, 2, day, sizeof day, pool, 0, BASE_DAY, 1, 2, 3, versions,
                             file, sizeof file);
    expect("the file's length", got.value, sizeof file);
    EitReading reading = eit_read(caller, file, sizeof file, BASE_DAY, records, 2 * EIT_RECORD);
    expect("the answer to Read", reading.number, 0);
    got = eit_rebuild(caller, file, sizeof file, BASE_DAY, records, 2 * EIT_RECORD, 2, file, sizeof file, pool, 0,
                      BASE_DAY, out, sizeof out);
    expect("the answer to rebuild", got.number, 0);
    expect("the file, compared with the previous one,", memcmp(out, file, sizeof out) != 0, 0);
}

/* Each cause, with all that come behind it. */
static void refusals(void) {
    enum { ABOVE = EIT_BASE_DAY_MAX + 1 };
    List sound = first_tables(2), unsound = sound;
    unsound.events[1] = unsound.events[0];
    List above = unsound;
    above.base_day = ABOVE;
    File previous = two_tables(), damaged = previous, early = previous, other = previous, out, untouched;
    memset(untouched.bytes, OVER, ROOM);
    damaged.bytes[119] ^= 1;
    early.length = 60;
    set_version(&other, 30, 3);
    const struct {
        const char *what;
        const File *previous;
        uint32_t previous_base_day;
        const List *list;
        EitBuilt wanted;
    } rows[] = {
        {"the answer to a previous base day above the most", &damaged, ABOVE, &above, {1, 0}},
        {"the answer to a previous file that is damaged", &damaged, BASE_DAY, &above, {21, 90}},
        {"the answer to a previous file with two versions in a table", &other, BASE_DAY, &above, {22, 30}},
        {"the answer to a previous file with another base day", &previous, BASE_DAY + 1, &above, {24, 0}},
        {"the answer to a previous file that ends early", &early, BASE_DAY, &above, {25, 60}},
        {"the answer to no previous file", &(File){0}, BASE_DAY, &above, {25, 0}},
        {"the answer to a base day above the most", &previous, BASE_DAY, &above, {1, 0}},
        {"the answer to an unsound list", &previous, BASE_DAY, &unsound, {12, 0}},
        {"the answer to a short output", &previous, BASE_DAY, &sound, {11, 60}},
    };
    for (size_t row = 0; row < sizeof rows / sizeof *rows; row++) {
        EitBuilt got = rebuild(&out, rows[row].previous, rows[row].previous_base_day, rows[row].list, 59);
        expect(rows[row].what, got.number, rows[row].wanted.number);
        expect("its value", got.value, rows[row].wanted.value);
        expect_file("the output, compared with what it was,", &out, &untouched);
    }
}

int main(void) {
    for (caller = EIT_BROADCAST; caller <= EIT_CABLE; caller++) {
        own_versions();
        above_the_most();
        within_a_table();
        comes_back();
        changes();
        other_packings();
        previous_ids();
        read_and_rebuilt();
        refusals();
        if (wrong) {
            printf("face: this is for caller %u\n", caller);
            return 1;
        }
    }
    return 0;
}
