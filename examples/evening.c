/* An evening of one service, in C: edits an event list, plans it, builds its file, checks the file, reads it back,
 * prints where its sections stand, and writes the file to the path that is its argument. Then a title changes, and it
 * rebuilds the file; at midnight it rolls the list, and rebuilds the file again. It is C11 and C++17. README.md, "How
 * to link", has the commands; evening.cuts is what it prints. */
#include "chirdaluko.h"

#include <stdio.h>
#include <string.h>

/* Whom every call serves. */
enum { CALLER = EIT_BROADCAST };
/* 1993-10-13. Starts count from its midnight UTC: a local time has to be turned into UTC first. */
enum { BASE_DAY = 49273, SERVICE = 1, STREAM = 2, NETWORK = 3 };
/* Those of the first file; later ones follow from the file before. */
static const uint8_t VERSIONS[EIT_TABLES] = {0};

/* A script, or a pool of descriptors. */
typedef struct Bytes {
    uint8_t bytes[1024];
    size_t length;
} Bytes;

/* Appends a number's bytes, the highest first. */
static void append(Bytes *to, uint32_t number, unsigned width) {
    while (width > 0) {
        width = width - 1;
        to->bytes[to->length] = (uint8_t)(number >> (8 * width));
        to->length = to->length + 1;
    }
}

/* Appends a short_event_descriptor (EN 300 468, 6.2): language, the name's length, the name, and no text. */
static void append_short_event(Bytes *pool, const char *name) {
    uint32_t name_length = (uint32_t)strlen(name);
    append(pool, 0x4D, 1);
    append(pool, 5 + name_length, 1);
    memcpy(pool->bytes + pool->length, "eng", 3);
    pool->length = pool->length + 3;
    append(pool, name_length, 1);
    memcpy(pool->bytes + pool->length, name, name_length);
    pool->length = pool->length + name_length;
    append(pool, 0, 1);
}

/* Appends a PUT of a programme whose name goes to the pool that its marks choose. */
static void put(Bytes *script, Bytes *pool, uint32_t id, uint32_t start, uint32_t duration, uint32_t marks,
                const char *name) {
    size_t offset = pool->length;
    append_short_event(pool, name);
    append(script, EIT_PUT, 1);
    append(script, id, 2);
    append(script, start, 4);
    append(script, duration, 4);
    append(script, marks, 1);
    append(script, (uint32_t)offset, 4);
    append(script, (uint32_t)(pool->length - offset), 2);
}

static uint32_t seconds(uint32_t hours, uint32_t minutes) {
    return 3600 * hours + 60 * minutes;
}

static void write_script(Bytes *script, Bytes *day, Bytes *series) {
    put(script, series, 1, seconds(17, 0), seconds(0, 30), EIT_SERIES_POOL, "The Lighthouse");
    put(script, day, 2, seconds(17, 30), seconds(0, 30), 0, "Regional magazine");
    put(script, day, 3, seconds(18, 0), seconds(1, 0), 0, "Quiz of the week");
    put(script, series, 4, seconds(19, 0), seconds(0, 15), EIT_SERIES_POOL, "News");
    put(script, day, 5, seconds(19, 15), seconds(1, 45), EIT_FREE_CA, "The Night Ferry");
    put(script, day, 6, seconds(24, 0), seconds(0, 30), 0, "Late news");
    put(script, day, 7, seconds(21, 30), seconds(1, 30), 0, "Concert from Utrecht");
    put(script, day, 8, seconds(23, 0), seconds(1, 0), 0, "Late film");
    /* The late news are not to wait for midnight: they begin when the film is over. A second earlier is an overlap. */
    append(script, EIT_MOVE, 1);
    append(script, 6, 2);
    append(script, seconds(21, 0), 4);
    /* The late film is withdrawn, and shown after all. */
    append(script, EIT_WITHDRAW, 1);
    append(script, 8, 2);
    append(script, EIT_UNDO, 1);
}

/* The late film has another title: its programme is withdrawn, and put again. Behind it, after midnight, comes one
 * more. */
static void write_change(Bytes *script, Bytes *day) {
    script->length = 0;
    append(script, EIT_WITHDRAW, 1);
    append(script, 8, 2);
    put(script, day, 8, seconds(23, 0), seconds(1, 0), 0, "The Last Tram");
    put(script, day, 9, seconds(24, 0), seconds(0, 45), 0, "Night talk");
}

/* Says what a call answered, and whether it went well. What the value of a refusal means stands at each call. */
static int succeeded(const char *call, uint32_t number, size_t value) {
    if (number == EIT_SUCCESS) {
        printf("%s %zu\n", call, value);
        return 1;
    }
    printf("%s refused: %s (%u, %zu)\n", call, eit_cause(number), (unsigned)number, value);
    return 0;
}

/* How many records have their descriptors in these bytes of the file: they stand with their event, even if there are
 * none. */
static size_t events_between(const uint32_t *records, size_t count, size_t from, size_t to) {
    size_t events = 0;
    for (size_t place = 0; place < count; place++) {
        size_t offset = records[EIT_RECORD * place + 4];
        if (from <= offset && offset < to) {
            events = events + 1;
        }
    }
    return events;
}

/* A line for each section of a file that check accepted. */
static void print_cuts(const uint8_t *file, size_t file_length, const uint32_t *records, size_t count) {
    printf("offset table section events\n");
    size_t offset = 0;
    while (offset < file_length) {
        size_t section_length = (size_t)(file[offset + 1] & 0x0F) << 8 | file[offset + 2];
        size_t next = offset + 3 + section_length;
        printf("%zu %u %u %zu\n", offset, file[offset], file[offset + 6], events_between(records, count, offset, next));
        offset = next;
    }
}

/* How many sections are planned. EIT_PLAN_UNSOUND and EIT_PLAN_UNPACKABLE are no counts: Build says what is wrong. */
static size_t sections(const uint8_t *plan) {
    size_t sum = 0;
    for (size_t index = 0; index < EIT_SEGMENTS; index++) {
        if (plan[index] <= EIT_SEGMENT_SECTIONS_MAX) {
            sum = sum + plan[index];
        }
    }
    return sum;
}

/* Writes the file to a path, and says whether that went well. */
static int written(const char *path, const uint8_t *file, size_t file_length) {
    FILE *to = fopen(path, "wb");
    if (to == NULL) {
        return 0;
    }
    int whole = fwrite(file, 1, file_length, to) == file_length;
    return fclose(to) == 0 && whole;
}

int main(int argument_count, char **arguments) {
    static uint32_t list[EIT_NUMBERS_MAX];
    static uint32_t records[EIT_NUMBERS_MAX];
    static uint8_t plan[EIT_SEGMENTS];
    static uint8_t file[65536], changed[65536];
    static Bytes script, day, series;

    write_script(&script, &day, &series);
    EitEdited edited = eit_edit(CALLER, list, EIT_NUMBERS_MAX, 0, day.bytes, day.length, series.bytes, series.length,
                                script.bytes, script.length);
    if (!succeeded("edit", edited.number, edited.value)) {
        return 1;
    }

    eit_plan(CALLER, list, EIT_NUMBERS_MAX, edited.count, day.bytes, day.length, series.bytes, series.length, plan);
    printf("plan %zu\n", sections(plan));

    EitBuilt built =
        eit_build(CALLER, list, EIT_NUMBERS_MAX, edited.count, day.bytes, day.length, series.bytes, series.length,
                  BASE_DAY, SERVICE, STREAM, NETWORK, VERSIONS, file, sizeof file);
    if (!succeeded("build", built.number, built.value)) {
        return 1;
    }

    EitReading checked = eit_check(CALLER, file, built.value, BASE_DAY);
    if (!succeeded("check", checked.number, checked.value)) {
        return 1;
    }
    EitReading reading = eit_read(CALLER, file, built.value, BASE_DAY, records, EIT_NUMBERS_MAX);
    if (!succeeded("read", reading.number, reading.value)) {
        return 1;
    }
    printf("service %u stream %u network %u version %u\n", reading.service_id, reading.transport_stream_id,
           reading.original_network_id, reading.versions[0]);
    print_cuts(file, built.value, records, reading.count);
    if (argument_count != 2 || !written(arguments[1], file, built.value)) {
        fprintf(stderr, "evening: the argument is the path of a file that can be written\n");
        return 1;
    }

    write_change(&script, &day);
    edited = eit_edit(CALLER, list, EIT_NUMBERS_MAX, edited.count, day.bytes, day.length, series.bytes, series.length,
                      script.bytes, script.length);
    if (!succeeded("edit", edited.number, edited.value)) {
        return 1;
    }
    /* The file on air is the previous one, and cannot be the output. The table has changed, and so has its version. */
    EitBuilt rebuilt =
        eit_rebuild(CALLER, file, built.value, BASE_DAY, list, EIT_NUMBERS_MAX, edited.count, day.bytes, day.length,
                    series.bytes, series.length, BASE_DAY, changed, sizeof changed);
    if (!succeeded("rebuild", rebuilt.number, rebuilt.value)) {
        return 1;
    }
    checked = eit_check(CALLER, changed, rebuilt.value, BASE_DAY);
    if (!succeeded("check", checked.number, checked.value)) {
        return 1;
    }
    printf("version %u\n", checked.versions[0]);

    /* Midnight: the evening's programmes leave. What is left counts from the base day that roll returns. */
    EitRolled rolled = eit_roll(CALLER, list, EIT_NUMBERS_MAX, edited.count, day.bytes, day.length, series.bytes,
                                series.length, BASE_DAY);
    if (!succeeded("roll", rolled.number, rolled.value)) {
        return 1;
    }
    /* The file on air is of the old base day. It is in the second buffer by now, so that the first one is free. */
    rebuilt = eit_rebuild(CALLER, changed, rebuilt.value, BASE_DAY, list, EIT_NUMBERS_MAX, rolled.count, day.bytes,
                          day.length, series.bytes, series.length, rolled.base_day, file, sizeof file);
    if (!succeeded("rebuild", rebuilt.number, rebuilt.value)) {
        return 1;
    }
    checked = eit_check(CALLER, file, rebuilt.value, rolled.base_day);
    if (!succeeded("check", checked.number, checked.value)) {
        return 1;
    }
    printf("base day %u version %u\n", (unsigned)rolled.base_day, checked.versions[0]);
    return 0;
}
