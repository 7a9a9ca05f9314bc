/* Each call that serves a caller, on an input that broadcast and cable answer differently: of the caller's values 0 is
 * broadcast, and every other one cable. */
#include "expect.h"

enum { BASE_DAY = 49273, DESCRIPTOR = 199, CHAIN = 5 * DESCRIPTOR, SECTION = 14 + 12 + CHAIN + 4 };
_Static_assert(CHAIN == EIT_CABLE_CHAIN_MAX + 1 && SECTION == EIT_CABLE_SECTION_MAX + 1, "one more than cable takes");

static uint8_t pool[CHAIN];

/* One event with so many bytes of descriptors, in a section of its own. */
static EitBuilt build_large(uint8_t caller, uint8_t out[SECTION]) {
    static const uint32_t list[EIT_RECORD] = {1, 0, 3600, 0, 0, CHAIN};
    return eit_build(caller, list, EIT_RECORD, 1, pool, CHAIN, pool, 0, BASE_DAY, 1, 2, 3, no_versions, out, SECTION);
}

/* Events of segment 0 without descriptors, of a second each, one after the other. */
static void fill(uint32_t *list, uint32_t count) {
    for (uint32_t place = 0; place < count; place++) {
        memcpy(list + EIT_RECORD * place, (uint32_t[EIT_RECORD]){place, place, 1, 0, 0, 0}, 4 * EIT_RECORD);
    }
}

/* PUT of event 257, for which the buffer has room. */
static void edit(uint8_t caller, int is_cable) {
    enum { HELD = 256, NUMBERS = EIT_RECORD * (HELD + 1) };
    static const uint8_t put[18] = {EIT_PUT, 0x01, 0x00, 0x00, 0x00, 0x01, 0x00, 0x00, 0x00, 0x00, 0x01};
    uint32_t list[NUMBERS] = {0}, left[NUMBERS] = {0};
    fill(list, HELD);
    fill(left, is_cable ? HELD : HELD + 1);
    EitEdited got = eit_edit(caller, list, NUMBERS, HELD, pool, 0, pool, 0, put, sizeof put);
    expect("the answer to PUT of event 257", got.number, is_cable ? 8 : 0);
    expect("its value", got.value, is_cable ? 0 : HELD + 1);
    expect("its count", got.count, is_cable ? HELD : HELD + 1);
    expect("the list, compared with what is to be left of it,", memcmp(list, left, sizeof list) != 0, 0);
}

/* A segment without events: the most descriptors that a section holds. */
static void chain_room(uint8_t caller, int is_cable) {
    static const uint32_t no_list[1] = {0};
    EitRoom got = eit_chain_room(caller, no_list, 0, 0, pool, 0, pool, 0, 0);
    expect("the answer to how much fits", got.number, 0);
    expect("whether one fits", got.fits, 1);
    expect("its length", got.length, is_cable ? 994 : 4066);
}

/* 257 events, of which the last one stays. */
static void roll(uint8_t caller, int is_cable) {
    enum { HELD = 257, NUMBERS = EIT_RECORD * HELD };
    uint32_t list[NUMBERS], left[NUMBERS] = {[0] = 256, [2] = 1};
    fill(list, HELD);
    list[EIT_RECORD * (HELD - 1) + 1] = EIT_DAY_SECONDS;
    if (is_cable) {
        memcpy(left, list, sizeof list);
    }
    EitRolled got = eit_roll(caller, list, NUMBERS, HELD, pool, 0, pool, 0, BASE_DAY);
    expect("the answer to a roll of 257 events", got.number, is_cable ? 12 : 0);
    expect("its value", got.value, is_cable ? 0 : 1);
    expect("its count", got.count, is_cable ? HELD : 1);
    expect("its base day", got.base_day, is_cable ? BASE_DAY : BASE_DAY + 1);
    expect("the list, compared with what is to be left of it,", memcmp(list, left, sizeof list) != 0, 0);
}

/* 84 events: cable's sections hold 83. */
static void plan(uint8_t caller, int is_cable) {
    enum { HELD = 84, NUMBERS = EIT_RECORD * HELD };
    uint32_t list[NUMBERS];
    uint8_t got[EIT_SEGMENTS];
    fill(list, HELD);
    memset(got, 0xA5, sizeof got);
    eit_plan(caller, list, NUMBERS, HELD, pool, 0, pool, 0, got);
    expect("the count of 84 events", got[0], is_cable ? 2 : 1);
    for (size_t index = 1; index < EIT_SEGMENTS; index++) {
        expect("a count of no events", got[index], 0);
    }
}

static void build(uint8_t caller, int is_cable) {
    uint8_t out[SECTION];
    memset(out, 0xA5, sizeof out);
    EitBuilt got = build_large(caller, out);
    expect("the answer to a chain of 995 bytes", got.number, is_cable ? 10 : 0);
    expect("its value", got.value, is_cable ? 0 : SECTION);
    for (size_t place = 0; place < SECTION && is_cable; place++) {
        expect("a byte of the output", out[place], 0xA5);
    }
    for (size_t place = 0; place < CHAIN && !is_cable; place++) {
        expect("a byte of its chain", out[26 + place], pool[place]);
    }
}

/* The file that Build makes of it for broadcast. */
static void read_file(uint8_t caller, int is_cable) {
    static const uint32_t read_back[EIT_RECORD] = {1, 0, 3600, 0, 26, CHAIN};
    EitReading wanted = is_cable ? (EitReading){.number = 20} : (EitReading){0, 1, 1, 1, 2, 3, {0}};
    uint8_t file[SECTION];
    expect("the answer to Build for broadcast", build_large(EIT_BROADCAST, file).number, 0);

    uint32_t records[EIT_RECORD];
    memset(records, 0xA5, sizeof records);
    EitReading got = eit_read(caller, file, SECTION, BASE_DAY, records, EIT_RECORD);
    expect_reading("the answer to a section of 1,025 bytes", got, wanted);
    for (size_t place = 0; place < EIT_RECORD; place++) {
        expect("a number of the records", records[place], is_cable ? 0xA5A5A5A5 : read_back[place]);
    }
    expect_reading("what check answers", eit_check(caller, file, SECTION, BASE_DAY), wanted);
}

/* The same file as the previous one, and the empty list, which both callers build. */
static void rebuild(uint8_t caller, int is_cable) {
    static const uint32_t no_list[1] = {0};
    uint8_t file[SECTION], out[18];
    expect("the answer to Build for broadcast", build_large(EIT_BROADCAST, file).number, 0);
    memset(out, 0xA5, sizeof out);
    EitBuilt got =
        eit_rebuild(caller, file, SECTION, BASE_DAY, no_list, 0, 0, pool, 0, pool, 0, BASE_DAY, out, sizeof out);
    expect("the answer to a previous section of 1,025 bytes", got.number, is_cable ? 20 : 0);
    expect("its value", got.value, is_cable ? 0 : sizeof out);
    expect("the version's byte", out[5], is_cable ? 0xA5 : 0xC3);
}

int main(void) {
    static const uint8_t callers[] = {EIT_BROADCAST, EIT_CABLE, 2, 128, 255};
    for (size_t place = 0; place < CHAIN; place += DESCRIPTOR) {
        pool[place] = 0x4D;
        pool[place + 1] = DESCRIPTOR - 2;
    }
    for (size_t place = 0; place < sizeof callers; place++) {
        uint8_t caller = callers[place];
        int is_cable = place > 0;
        edit(caller, is_cable);
        chain_room(caller, is_cable);
        roll(caller, is_cable);
        plan(caller, is_cable);
        build(caller, is_cable);
        read_file(caller, is_cable);
        rebuild(caller, is_cable);
        if (wrong) {
            printf("face: this is for caller %u\n", caller);
            return 1;
        }
    }
    return 0;
}
