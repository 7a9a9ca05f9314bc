/* Events that touch, which is legal, and events that overlap, by a second or by more: in lists, by PUT and MOVE, and in
 * files. */
#include "expect.h"

enum { BASE_DAY = 49273, ROOM = 6, NUMBERS = EIT_RECORD * ROOM, OVER = 77 };

/* How many rows a table has. */
#define ROWS(table) (sizeof(table) / sizeof *(table))

typedef struct Event {
    uint32_t id, start, duration;
} Event;

static uint8_t caller;
/* Descriptors that fill a section of the caller. */
static uint8_t pool[EIT_CHAIN_MAX];

/* A list of these events, with the first so many bytes of the pool each. Behind it the buffer has what is no zero. */
static void fill(uint32_t list[NUMBERS], const Event *events, size_t count, uint32_t chain_length) {
    for (size_t place = 0; place < NUMBERS; place++) {
        list[place] = OVER;
    }
    for (size_t place = 0; place < count; place++) {
        Event event = events[place];
        uint32_t record[EIT_RECORD] = {event.id, event.start, event.duration, 0, 0, chain_length};
        memcpy(list + EIT_RECORD * place, record, sizeof record);
    }
}

/* Three events are sound, or Edit and Build say 12, and Plan 254. */
static void soundness(const Event events[3], int is_sound) {
    uint32_t list[NUMBERS];
    fill(list, events, 3, 0);
    EitEdited edited = eit_edit(caller, list, NUMBERS, 3, pool, 0, pool, 0, pool, 0);
    expect("the answer to no edit", edited.number, is_sound ? 0 : 12);
    expect("its value", edited.value, is_sound ? 3 : 0);
    expect("its count", edited.count, 3);

    uint8_t out[2048], untouched[2048], plan[EIT_SEGMENTS];
    memset(out, 0xA5, sizeof out);
    memset(untouched, 0xA5, sizeof untouched);
    EitBuilt built =
        eit_build(caller, list, NUMBERS, 3, pool, 0, pool, 0, BASE_DAY, 1, 2, 3, no_versions, out, sizeof out);
    expect("the answer to Build", built.number, is_sound ? 0 : 12);
    expect("whether the output stays", memcmp(out, untouched, sizeof out) == 0, !is_sound);
    eit_plan(caller, list, NUMBERS, 3, pool, 0, pool, 0, plan);
    for (size_t index = 0; index < EIT_SEGMENTS; index++) {
        expect("whether a count is 254", plan[index] == 254, !is_sound);
    }
    /* What stands behind the count does not matter. */
    eit_plan(caller, list, NUMBERS, 1, pool, 0, pool, 0, plan);
    expect("whether a count of the first event is 254", plan[0] == 254, 0);
}

static void lists(void) {
    /* The last one may end past the last segment. */
    static const Event touching[][3] = {
        {{1, 100, 50}, {2, 150, 50}, {3, 200, 50}},
        {{1, 100, 49}, {2, 150, 49}, {3, 200, 50}},
        {{1, 10000, 800}, {2, 10800, 334800}, {3, 345600, 1}},
        {{1, 0, 359999}, {2, 359999, 359999}, {3, 719998, 359999}},
        {{1, 5529597, 1}, {2, 5529598, 1}, {3, 5529599, 359999}},
    };
    /* By a second of the first and of the second event, in a segment, over its end and over a table's; then around the
     * next one, around both others, and with the start of another. */
    static const Event overlapping[][3] = {
        {{1, 100, 51}, {2, 150, 50}, {3, 200, 50}},
        {{1, 100, 50}, {2, 149, 50}, {3, 200, 50}},
        {{1, 100, 50}, {2, 150, 51}, {3, 200, 50}},
        {{1, 100, 50}, {2, 150, 50}, {3, 199, 50}},
        {{1, 10000, 801}, {2, 10800, 334800}, {3, 345600, 1}},
        {{1, 10000, 800}, {2, 10800, 334801}, {3, 345600, 1}},
        {{1, 0, 359999}, {2, 359999, 359999}, {3, 719997, 359999}},
        {{1, 5529597, 1}, {2, 5529598, 2}, {3, 5529599, 1}},
        {{1, 100, 90}, {2, 150, 10}, {3, 200, 50}},
        {{1, 100, 900}, {2, 150, 50}, {3, 200, 50}},
        {{1, 100, 50}, {2, 150, 1}, {3, 150, 1}},
    };
    for (size_t row = 0; row < ROWS(touching); row++) {
        soundness(touching[row], 1);
    }
    for (size_t row = 0; row < ROWS(overlapping); row++) {
        soundness(overlapping[row], 0);
    }
}

typedef struct Script {
    uint8_t bytes[64];
    size_t length;
} Script;

static void append(Script *script, uint32_t number, unsigned width) {
    while (width-- > 0) {
        script->bytes[script->length++] = (uint8_t)(number >> 8 * width);
    }
}

static void append_put(Script *script, Event event, uint32_t chain_length) {
    append(script, EIT_PUT, 1);
    append(script, event.id, 2);
    append(script, event.start, 4);
    append(script, event.duration, 4);
    append(script, 0, 1);
    append(script, 0, 4);
    append(script, chain_length, 2);
}

/* Puts an event among others by its start. */
static void insert(Event *events, size_t *count, Event event) {
    size_t place = (*count)++;
    for (; place > 0 && events[place - 1].start > event.start; place--) {
        events[place] = events[place - 1];
    }
    events[place] = event;
}

/* The events that each edit begins with, and those that a PUT before it and a PUT behind it put. */
static const Event held[] = {{1, 0, 50}, {2, 200, 60}, {3, 400, 40}};
static const Event first = {8, 1000, 10}, last = {9, 2000, 10};

/* Carries out the PUT of the first event, a command that gives the list this event, and the PUT of the last, in a
 * buffer with room for so many. A refused command leaves what the PUT before it made, and its offset is behind that. */
static void edit(const char *what, const Script *command, Event event, size_t room, uint32_t number) {
    Script script = {.length = 0};
    append_put(&script, first, 0);
    memcpy(script.bytes + script.length, command->bytes, command->length);
    script.length += command->length;
    append_put(&script, last, 0);

    Event events[ROOM];
    size_t count = 0;
    for (size_t place = 0; place < ROWS(held); place++) {
        if (number != 0 || held[place].id != event.id) {
            insert(events, &count, held[place]);
        }
    }
    insert(events, &count, first);
    if (number == 0) {
        insert(events, &count, event);
        insert(events, &count, last);
    }
    uint32_t list[NUMBERS], left[NUMBERS];
    fill(list, held, ROWS(held), 0);
    fill(left, events, count, 0);
    EitEdited got = eit_edit(caller, list, EIT_RECORD * room, 3, pool, 0, pool, 0, script.bytes, script.length);
    expect(what, got.number, number);
    expect("its value", got.value, number == 0 ? count : 18);
    expect("its count", got.count, count);
    expect("the list, compared with what is to be left of it,", memcmp(list, left, sizeof list) != 0, 0);
    if (wrong) {
        printf("face: this is event %u at %u\n", event.id, event.start);
    }
}

static void put(Event event, uint32_t chain_length, size_t room, uint32_t number) {
    Script command = {.length = 0};
    append_put(&command, event, chain_length);
    edit("the answer to PUT", &command, event, room, number);
}

static void move(uint32_t id, uint32_t start, uint32_t number) {
    Script command = {.length = 0};
    append(&command, EIT_MOVE, 1);
    append(&command, id, 2);
    append(&command, start, 4);
    Event event = {id, start, id <= ROWS(held) ? held[id - 1].duration : 0};
    edit("the answer to MOVE", &command, event, ROOM, number);
}

static void puts_between(void) {
    /* All that is free between them and behind them; then a second more on either side, the first and the last second
     * of one, within it, around it and around all, and with its start. */
    static const Event touching[] = {{4, 50, 150}, {4, 260, 140}, {4, 440, 560}, {4, 5529599, 359999}};
    static const Event overlapping[] = {
        {4, 49, 151}, {4, 50, 151}, {4, 259, 141}, {4, 260, 141}, {4, 439, 561},  {4, 440, 561},
        {4, 200, 1},  {4, 259, 1},  {4, 220, 20},  {4, 190, 80},  {4, 0, 359999}, {4, 200, 60},
    };
    for (size_t row = 0; row < ROWS(touching); row++) {
        put(touching[row], 0, ROOM, 0);
    }
    for (size_t row = 0; row < ROWS(overlapping); row++) {
        put(overlapping[row], 0, ROOM, 30);
    }
    /* 5, 9 and 6 come before 30, and 30 before 8. */
    put((Event){4, 220, 0}, 0, ROOM, 5);
    put((Event){4, 220, 360000}, 0, ROOM, 5);
    put((Event){4, 220, 20}, 1, ROOM, 9);
    put((Event){1, 220, 20}, 0, ROOM, 6);
    put((Event){4, 220, 20}, 0, 4, 30);
    put((Event){4, 120, 20}, 0, 4, 8);
}

static void moves_between(void) {
    /* Over the event's own old time, and up to it; up to each other event, from both sides; to the last start. Then a
     * second further, and to the start of another. */
    static const uint32_t touching[][2] = {
        {2, 200}, {2, 199}, {2, 201}, {2, 140}, {2, 260}, {2, 50}, {2, 340},     {2, 440},
        {1, 150}, {1, 260}, {1, 350}, {1, 440}, {3, 160}, {3, 50}, {2, 5529599},
    };
    static const uint32_t overlapping[][2] = {
        {2, 49},  {2, 341}, {2, 439}, {1, 151}, {1, 259}, {1, 351}, {1, 439},
        {3, 161}, {3, 49},  {2, 0},   {2, 400}, {1, 200}, {3, 200},
    };
    for (size_t row = 0; row < ROWS(touching); row++) {
        move(touching[row][0], touching[row][1], 0);
    }
    for (size_t row = 0; row < ROWS(overlapping); row++) {
        move(overlapping[row][0], overlapping[row][1], 30);
    }
    /* A start above the most is 5; 6 comes before 30, also within another event. */
    move(2, 5529600, 5);
    move(7, 200, 6);
    move(7, 220, 6);
}

/* The file of two events that touch is read; with a second more of the first it is 24 at the section of the second. The
 * offsets are those of their sections, and so many bytes has the first. */
static void file(const Event events[2], uint32_t chain_length, size_t offset, size_t section_length, size_t second) {
    static uint8_t out[2 * EIT_SECTION_MAX];
    uint32_t list[NUMBERS], records[NUMBERS];
    fill(list, events, 2, chain_length);
    EitBuilt built = eit_build(caller, list, NUMBERS, 2, pool, chain_length, pool, 0, BASE_DAY, 1, 2, 3, no_versions,
                               out, sizeof out);
    expect("the answer to Build of events that touch", built.number, 0);
    EitReading got = eit_read(caller, out, built.value, BASE_DAY, records, NUMBERS);
    expect_reading("the answer to a file of events that touch", got, (EitReading){0, 2, 2, 1, 2, 3, {0}});
    for (size_t place = 0; place < 2; place++) {
        expect("a start that is read", records[EIT_RECORD * place + 1], events[place].start);
        expect("a duration that is read", records[EIT_RECORD * place + 2], events[place].duration);
    }

    /* The last byte of the first event's duration, and the CRC_32. */
    uint8_t *section = out + offset;
    section[23] = 0x01;
    uint32_t crc = eit_crc32(section, section_length - 4);
    for (size_t place = section_length - 4; place < section_length; place++, crc <<= 8) {
        section[place] = (uint8_t)(crc >> 24);
    }
    fill(records, events, 0, 0);
    EitReading wanted = {.number = 24, .value = second};
    got = eit_read(caller, out, built.value, BASE_DAY, records, NUMBERS);
    expect_reading("the answer to a file of events that overlap", got, wanted);
    for (size_t place = 0; place < NUMBERS; place++) {
        expect("a number of the records", records[place], OVER);
    }
    expect_reading("what check answers", eit_check(caller, out, built.value, BASE_DAY), wanted);
}

/* In a section; in two sections of a segment; in two segments; with one between them; at a table's end and the next
 * one's beginning; over all of a table; at the end of the last segment. */
static void files(uint32_t chain_max) {
    size_t whole = 14 + 12 + chain_max + 4;
    file((Event[]){{1, 0, 60}, {2, 60, 60}}, 0, 0, 42, 0);
    file((Event[]){{1, 0, 60}, {2, 60, 60}}, chain_max, 0, whole, whole);
    file((Event[]){{1, 10740, 60}, {2, 10800, 60}}, 0, 0, 30, 30);
    file((Event[]){{1, 0, 21600}, {2, 21600, 60}}, 0, 0, 30, 48);
    file((Event[]){{1, 345540, 60}, {2, 345600, 60}}, 0, 558, 30, 588);
    file((Event[]){{1, 0, 345600}, {2, 345600, 60}}, 0, 0, 30, 30);
    file((Event[]){{1, 5529539, 60}, {2, 5529599, 359999}}, 0, 828, 42, 828);
}

int main(void) {
    static const uint32_t chains_max[] = {EIT_CHAIN_MAX, EIT_CABLE_CHAIN_MAX};
    for (caller = EIT_BROADCAST; caller <= EIT_CABLE; caller++) {
        uint32_t chain_max = chains_max[caller], bytes;
        for (uint32_t place = 0; place < chain_max; place += bytes) {
            bytes = chain_max - place < 257 ? chain_max - place : 257;
            pool[place] = 0x4D;
            pool[place + 1] = (uint8_t)(bytes - 2);
        }
        lists();
        puts_between();
        moves_between();
        files(chain_max);
        if (wrong) {
            printf("face: this is for caller %u\n", caller);
            return 1;
        }
    }
    return 0;
}
