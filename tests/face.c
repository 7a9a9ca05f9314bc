/* Calls the library from C through its header, for broadcast: that the header's declarations fit the library shows
 * here. */
#include "expect.h"

/* The names stand for the numbers of documents 01 and 02. */
_Static_assert(EIT_SUCCESS == 0 && EIT_REFUSED_BASE_DAY == 1 && EIT_REFUSED_VERSION == 2
                   && EIT_REFUSED_BROKEN_SCRIPT == 3 && EIT_REFUSED_NOTHING_TO_UNDO == 4
                   && EIT_REFUSED_OUT_OF_RANGE == 5 && EIT_REFUSED_WRONG_ID == 6 && EIT_REFUSED_LIST_FULL == 8
                   && EIT_REFUSED_NO_CHAIN == 9 && EIT_REFUSED_UNPACKABLE == 10 && EIT_REFUSED_OUTPUT_SHORT == 11
                   && EIT_REFUSED_UNSOUND == 12 && EIT_REFUSED_OVERLAP == 30 && EIT_REFUSED_LAST_BASE_DAY == 31,
               "refusals of Edit, roll and Build");
_Static_assert(EIT_REFUSED_FRAME == 20 && EIT_REFUSED_CRC == 21 && EIT_REFUSED_HEADER == 22
                   && EIT_REFUSED_NUMBERING == 23 && EIT_REFUSED_EVENT_LOOP == 24 && EIT_REFUSED_EARLY_END == 25
                   && EIT_REFUSED_EVENT_LIMIT == 26 && EIT_REFUSED_RECORDS_SHORT == 27,
               "refusals of Read");
_Static_assert(EIT_RECORD == 6 && EIT_NUMBERS_MAX == 12288 && EIT_ID_MAX == 65535
                   && EIT_WINDOW_SECONDS == 64 * 86400 && EIT_DURATION_MAX == 359999 && EIT_BASE_DAY_MAX == 65472
                   && EIT_DAY_SECONDS == 86400 && EIT_FORBIDDEN_TAG == 0xFF && EIT_VERSION_MAX == 31
                   && EIT_TABLES == 16,
               "limits of a list, a base day and versions");
_Static_assert(EIT_SEGMENT_SECONDS == 10800 && EIT_TABLE_SEGMENTS == 32 && EIT_SEGMENTS == 16 * 32
                   && EIT_SEGMENT_SECTIONS_MAX == 8,
               "limits of a file");
_Static_assert(EIT_BROADCAST == 0 && EIT_EVENTS_MAX == 2048 && EIT_SECTION_MAX == 3 + 4093
                   && EIT_CHAIN_MAX == 4078 - 12 && EIT_FILE_MAX == 16 * 256 * 4096,
               "broadcast's sizes");
_Static_assert(EIT_CABLE == 1 && EIT_CABLE_EVENTS_MAX == 256 && EIT_CABLE_SECTION_MAX == 3 + 1021
                   && EIT_CABLE_CHAIN_MAX == 1006 - 12 && EIT_CABLE_FILE_MAX == 16 * 256 * 1024,
               "cable's sizes");
_Static_assert(EIT_FREE_CA == 1 && EIT_SERIES_POOL == 2 && EIT_OFF_AIR == 4 && EIT_PUT == 1 && EIT_WITHDRAW == 2
                   && EIT_MOVE == 3 && EIT_UNDO == 4 && EIT_PLAN_UNSOUND == 254 && EIT_PLAN_UNPACKABLE == 255,
               "marks, commands, counts of Plan");

/* Edits an empty list with room for two records, behind which a number stays. A PUT has two descriptors, the second
 * with this tag; at most one PUT is carried out. */
static void edit(const char *script_name, uint8_t tag, const uint8_t *script, size_t script_length, EitEdited wanted) {
    static const uint32_t record[6] = {258, 86400, 3600, 5, 1, 4};
    /* The day pool has the two descriptors at 1; the series pool has no chain there. */
    const uint8_t day[6] = {0xFF, 0x4D, 0x00, tag, 0x00, 0xFF};
    static const uint8_t series[2] = {0x4D, 0x00};
    uint32_t list[13] = {0};
    list[12] = 77;
    EitEdited got =
        eit_edit(EIT_BROADCAST, list, 13, 0, day, sizeof day, series, sizeof series, script, script_length);
    expect(script_name, got.number, wanted.number);
    expect("its value", got.value, wanted.value);
    expect("its count", got.count, wanted.count);
    for (size_t place = 0; place < 12; place++) {
        expect("a number of the list", list[place], place < 6 * wanted.count ? record[place] : 0);
    }
    expect("the number behind the list", list[12], 77);
}

/* Builds the empty list into 20 bytes, of which those that the file does not reach stay. The version is that of the
 * last table, which the file does not have. */
static void build(const char *what, uint32_t base_day, uint8_t version, size_t out_length, EitBuilt wanted) {
    /* The 18 bytes of 01's sample: ids 1, 2, 3, version 0. */
    static const uint8_t file[18] = {0x50, 0xF0, 0x0F, 0x00, 0x01, 0xC1, 0x00, 0x00, 0x00,
                                     0x02, 0x00, 0x03, 0x00, 0x50, 0x78, 0xAE, 0x5B, 0xF0};
    static const uint32_t list[1] = {7};
    static const uint8_t pool[1] = {0xFF};
    const uint8_t versions[EIT_TABLES] = {[EIT_TABLES - 1] = version};
    uint8_t out[20];
    memset(out, 0xA5, sizeof out);
    EitBuilt got =
        eit_build(EIT_BROADCAST, list, 1, 0, pool, 1, pool, 0, base_day, 1, 2, 3, versions, out, out_length);
    expect(what, got.number, wanted.number);
    expect("its value", got.value, wanted.value);
    for (size_t place = 0; place < sizeof out; place++) {
        int is_file = wanted.number == 0 && place < sizeof file;
        expect("a byte of the output", out[place], is_file ? file[place] : 0xA5);
    }
}

/* Plans a list of so many events, whose buffer has no number: only the empty list is sound. */
static void plan(const char *what, size_t count, uint8_t first, uint8_t others) {
    static const uint32_t list[1] = {7};
    static const uint8_t pool[1] = {0xFF};
    uint8_t got[514];
    memset(got, 0xA5, sizeof got);
    eit_plan(EIT_BROADCAST, list, 0, count, pool, 1, pool, 0, got + 1);
    for (size_t index = 0; index < 512; index++) {
        expect(what, got[1 + index], index == 0 ? first : others);
    }
    expect("the byte before the plan", got[0], 0xA5);
    expect("the byte behind the plan", got[513], 0xA5);
}

/* Builds one event of four chain bytes, and reads the file of so many bytes back into so many numbers, behind which one
 * stays. */
static void read_built(const char *what, uint32_t base_day, size_t file_length, size_t records_length,
                       EitReading wanted) {
    static const uint32_t list[6] = {258, 9000, 3600, 5, 1, 4};
    static const uint8_t day[6] = {0xFF, 0x4D, 0x00, 0x54, 0x00, 0xFF};
    /* The chain stands behind the section's 14 bytes and the event's 12. */
    static const uint32_t read_back[6] = {258, 9000, 3600, 5, 26, 4};
    /* The second is of a table that the file does not have. */
    static const uint8_t versions[EIT_TABLES] = {31, 30};
    uint8_t file[35] = {0};
    EitBuilt built = eit_build(EIT_BROADCAST, list, 6, 1, day, sizeof day, day, 0, 49273, 1, 0x203, 0xFFFE, versions,
                               file, sizeof file);
    expect("the answer to one event", built.number, 0);
    expect("its file's length", built.value, 34);

    uint32_t records[8];
    memset(records, 0xA5, sizeof records);
    EitReading got = eit_read(EIT_BROADCAST, file, file_length, base_day, records, records_length);
    expect_reading(what, got, wanted);
    for (size_t place = 0; place < 8; place++) {
        int is_read = wanted.number == 0 && place < 6;
        expect("a number of the records", records[place], is_read ? read_back[place] : 0xA5A5A5A5);
    }
    /* Without a record buffer there is no 27. */
    EitReading accepted = {0, 1, 1, 1, 0x203, 0xFFFE, {31}};
    EitReading checked = eit_check(EIT_BROADCAST, file, file_length, base_day);
    expect_reading("what check answers", checked, wanted.number == 27 ? accepted : wanted);
}

/* Prints the version that the header's three numbers are, once the header's string says the same. */
static void print_version(void) {
    char version[64];
    snprintf(version, sizeof version, "%d.%d.%d", CHIRDALUKO_VERSION_MAJOR, CHIRDALUKO_VERSION_MINOR,
             CHIRDALUKO_VERSION_PATCH);
    expect("the version's string, compared with its numbers,", strcmp(version, CHIRDALUKO_VERSION) != 0, 0);
    printf("version %s\n", version);
}

int main(void) {
    print_version();
    static const uint8_t check[] = "123456789";
    expect("CRC_32", eit_crc32(check, 9), 0x0376E6E7);

    /* One PUT, and the same again, whose id is present by then. */
    static const uint8_t put[18] = {0x01, 0x01, 0x02, 0x00, 0x01, 0x51, 0x80, 0x00, 0x00,
                                    0x0E, 0x10, 0x05, 0x00, 0x00, 0x00, 0x01, 0x00, 0x04};
    uint8_t twice[36];
    memcpy(twice, put, 18);
    memcpy(twice + 18, put, 18);
    edit("the answer to PUT", 0xFE, put, 18, (EitEdited){0, 1, 1});
    edit("the answer to PUT twice", 0xFE, twice, 36, (EitEdited){6, 18, 1});
    edit("the answer to PUT with tag 0xFF", 0xFF, put, 18, (EitEdited){9, 0, 0});

    build("the answer to no events", 49273, 0, 18, (EitBuilt){0, 18});
    build("the answer to more room", 49273, 0, 20, (EitBuilt){0, 18});
    build("the answer to a short output", 49273, 0, 17, (EitBuilt){11, 18});
    build("the answer to a base day above the most", 65473, 32, 17, (EitBuilt){1, 0});
    build("the answer to a version above the most", 65472, 32, 17, (EitBuilt){2, 0});
    plan("a count of no events", 0, 1, 0);
    plan("a count of an unsound list", 1, 254, 254);

    EitReading accepted = {0, 1, 1, 1, 0x203, 0xFFFE, {31}};
    read_built("the answer to a built file", 49273, 34, 7, accepted);
    read_built("the answer to just enough records", 49273, 34, 6, accepted);
    read_built("the answer to a short record buffer", 49273, 34, 5, (EitReading){.number = 27, .value = 1});
    read_built("the answer to a file that is cut", 49273, 33, 7, (EitReading){.number = 20, .value = 0});
    read_built("the answer to a byte behind the file", 49273, 35, 7, (EitReading){.number = 20, .value = 34});
    read_built("the answer to another base day", 49274, 34, 7, (EitReading){.number = 24, .value = 0});
    read_built("the answer to no file", 49273, 0, 7, (EitReading){.number = 25, .value = 0});
    read_built("the answer to a base day of Read above the most", 65473, 0, 0, (EitReading){.number = 1, .value = 0});
    return wrong;
}
