/* Each call on the largest inputs of a caller, for tests/stack.c and tests/overflow.c, which say by MOVES how long the
 * script is: as many events as the caller may have, sixteen in a segment, two in a section, so for broadcast a file of
 * 4 MB; and a script that moves each to where it is. */
#include "chirdaluko.h"

#include <stdio.h>
#include <stdlib.h>
#include <string.h>

enum { BASE_DAY = 49273, DESCRIPTOR = 100, POOL = 20 * DESCRIPTOR };

static const uint8_t callers[] = {EIT_BROADCAST, EIT_CABLE};

static uint8_t caller;
static uint32_t list[EIT_NUMBERS_MAX];
static uint32_t count;
static uint32_t rolled[EIT_NUMBERS_MAX];
static uint32_t records[EIT_NUMBERS_MAX];
static uint8_t pool[POOL];
static uint8_t script[7 * MOVES];
static uint8_t file[EIT_FILE_MAX];
static size_t file_length;
static uint8_t rebuilt[EIT_FILE_MAX];
static uint8_t plan[EIT_SEGMENTS];

static void expect(const char *what, uint32_t number) {
    if (number != EIT_SUCCESS) {
        fprintf(stderr, "%s is refused: %s\n", what, eit_cause(number));
        exit(1);
    }
}

/* Makes the list and the script of a caller. */
static void serve(uint8_t served) {
    caller = served;
    count = served == EIT_CABLE ? EIT_CABLE_EVENTS_MAX : EIT_EVENTS_MAX;
    uint32_t chain_length = served == EIT_CABLE ? 4 * DESCRIPTOR : 20 * DESCRIPTOR;
    for (size_t place = 0; place < POOL; place += DESCRIPTOR) {
        pool[place] = 0x4D;
        pool[place + 1] = DESCRIPTOR - 2;
    }
    for (uint32_t place = 0; place < count; place++) {
        uint32_t record[EIT_RECORD] = {place, place * EIT_SEGMENT_SECONDS / 16, 60, 0, 0, chain_length};
        memcpy(list + EIT_RECORD * place, record, sizeof record);
    }
    for (size_t edit = 0; edit < MOVES; edit++) {
        uint32_t id = edit % count;
        uint32_t start = list[EIT_RECORD * id + 1];
        uint8_t move[7] = {EIT_MOVE, id >> 8, id & 255, start >> 24, start >> 16 & 255, start >> 8 & 255, start & 255};
        memcpy(script + sizeof move * edit, move, sizeof move);
    }
}

static void edit(void) {
    EitEdited answer = eit_edit(caller, list, EIT_NUMBERS_MAX, count, pool, POOL, pool, 0, script, sizeof script);
    expect("Edit", answer.number);
}

/* Behind all records, so that every one is looked at. */
static void find_place(void) {
    eit_place(list, EIT_NUMBERS_MAX, count, UINT32_MAX);
}

/* In the list's last segment, at a second that is free. */
static void find_room(void) {
    uint32_t start = list[EIT_RECORD * (count - 1) + 1] + 60;
    expect("chain_room", eit_chain_room(caller, list, EIT_NUMBERS_MAX, count, pool, POOL, pool, 0, start).number);
}

/* A copy, so that the list stays for the other calls. */
static void roll_list(void) {
    memcpy(rolled, list, sizeof list);
    expect("roll", eit_roll(caller, rolled, EIT_NUMBERS_MAX, count, pool, POOL, pool, 0, BASE_DAY).number);
}

static void plan_list(void) {
    eit_plan(caller, list, EIT_NUMBERS_MAX, count, pool, POOL, pool, 0, plan);
}

static void build(void) {
    static const uint8_t versions[EIT_TABLES] = {0};
    EitBuilt answer = eit_build(caller, list, EIT_NUMBERS_MAX, count, pool, POOL, pool, 0, BASE_DAY, 1, 2, 3, versions,
                                file, sizeof file);
    expect("Build", answer.number);
    file_length = answer.value;
}

/* Without the last event, so that the last table of the two files differs. */
static void rebuild(void) {
    EitBuilt answer = eit_rebuild(caller, file, file_length, BASE_DAY, list, EIT_NUMBERS_MAX, count - 1, pool, POOL,
                                  pool, 0, BASE_DAY, rebuilt, sizeof rebuilt);
    expect("rebuild", answer.number);
}

static void check(void) {
    expect("check", eit_check(caller, file, file_length, BASE_DAY).number);
}

static void read_file(void) {
    expect("Read", eit_read(caller, file, file_length, BASE_DAY, records, EIT_NUMBERS_MAX).number);
}

static void crc(void) {
    eit_crc32(file, file_length);
}

/* In an order in which the file is built before it is read. */
static const struct {
    const char *name;
    void (*make)(void);
} calls[] = {
    {"Edit", edit},   {"place", find_place}, {"chain_room", find_room}, {"roll", roll_list}, {"Plan", plan_list},
    {"Build", build}, {"rebuild", rebuild},  {"check", check},          {"Read", read_file}, {"CRC_32", crc},
};

enum { CALLERS = sizeof callers / sizeof *callers, CALLS = sizeof calls / sizeof *calls };
