/* Chirdaluko: DVB EIT schedules of one service. Edit makes an event list, Build turns the list into a file of EIT
 * schedule sections (ETSI EN 300 468, 5.2.4, tables 0x50 to 0x5F), Read turns a file back into a list. When the list
 * changes, rebuild writes its file anew and gives a new version to the tables that changed. At midnight, roll moves the
 * list to the next base day; while texts are written, chain_room says how many bytes of them still fit. docs/MANUAL.md
 * shows every call at work.
 *
 * A call serves one of two callers, broadcast or cable, which differ in their sizes alone: how many events a list or
 * file has at most, and how many bytes a section. Serve one caller with all calls that belong together, in the standby
 * generator, too: the same list can be packed otherwise for the other. What is made for cable is taken for broadcast,
 * but a list or file that is made for broadcast can be refused for cable. docs/MANUAL.md, "Which caller", says what to
 * do about it.
 *
 * What each call returns and leaves is proved for every input that keeps the following:
 *
 * - A slice passes as a pointer and a length in elements, and the memory is there for all of them.
 * - A pointer is never null, not even that of an empty slice: a length of 0 with any valid pointer.
 * - A pointer to uint32_t is aligned to four bytes.
 * - What a call writes overlaps nothing else that it is lent. What it only reads may overlap.
 *
 * Nothing else is asked: callers, counts, base days, versions, lists and files may be any at all, and a refusal says
 * what is wrong.
 *
 * No call allocates, keeps a pointer, has a state or prints, so calls that write to different buffers may run at the
 * same time. Each runs on the thread's stack, Edit with some 230 KB of it: docs/MANUAL.md, "Stack", has the figures.
 * The library is for x86-64 Linux, and of the C library it needs memcpy, memmove, memset and memcmp at most. */
#ifndef CHIRDALUKO_H
#define CHIRDALUKO_H

#include <stddef.h>
#include <stdint.h>

/* The version of this face, by semantic versioning of its names, values and calls; the Rust wrapper has the same. Link
 * a library of the same major version, and of this minor version or a later one: 6.1 has no eit_chain_room, and 6.0 no
 * eit_roll. One before 6 has no eit_rebuild, either; its eit_build takes one version where this one takes a pointer to
 * sixteen, and its EitReading is shorter. So compile anew what was compiled for a version before 6: it still links, but
 * what it does then is undefined. docs/MANUAL.md, "From version 5 to 6", says what to write. */
#define CHIRDALUKO_VERSION_MAJOR 6
#define CHIRDALUKO_VERSION_MINOR 2
#define CHIRDALUKO_VERSION_PATCH 0
#define CHIRDALUKO_VERSION "6.2.0"

#ifdef __cplusplus
extern "C" {
#endif

/* The callers: the first argument of every call but eit_place and eit_crc32, which depend on no size. Every value of
 * the byte but 0 is served as cable. */
enum {
    EIT_BROADCAST = 0,
    EIT_CABLE = 1
};

/* Sizes of broadcast, and with CABLE those of cable. A buffer of broadcast's size holds what is cable's, too. */
enum {
    EIT_EVENTS_MAX = 2048,   /* events in a list or file */
    EIT_SECTION_MAX = 4096,  /* bytes in a section; all but 18 are for events */
    EIT_CHAIN_MAX = 4066,    /* descriptor bytes of one event that a section can hold */
    EIT_FILE_MAX = 16777216, /* bytes that hold every file: 16 tables of 256 sections */
    EIT_CABLE_EVENTS_MAX = 256,
    EIT_CABLE_SECTION_MAX = 1024,
    EIT_CABLE_CHAIN_MAX = 994,
    EIT_CABLE_FILE_MAX = 4194304
};

/* The numbers that a call returns. Of several causes a call says the first in its own order, which stands at the call;
 * eit_cause has each in words. */
enum {
    EIT_SUCCESS = 0,
    EIT_REFUSED_BASE_DAY = 1,
    EIT_REFUSED_VERSION = 2,
    EIT_REFUSED_BROKEN_SCRIPT = 3,
    EIT_REFUSED_NOTHING_TO_UNDO = 4,
    EIT_REFUSED_OUT_OF_RANGE = 5,
    EIT_REFUSED_WRONG_ID = 6,
    /* 7 is not used again: an equal start is EIT_REFUSED_OVERLAP */
    EIT_REFUSED_LIST_FULL = 8,
    EIT_REFUSED_NO_CHAIN = 9,
    EIT_REFUSED_UNPACKABLE = 10,
    EIT_REFUSED_OUTPUT_SHORT = 11,
    EIT_REFUSED_UNSOUND = 12,
    EIT_REFUSED_FRAME = 20,
    EIT_REFUSED_CRC = 21,
    EIT_REFUSED_HEADER = 22,
    EIT_REFUSED_NUMBERING = 23,
    EIT_REFUSED_EVENT_LOOP = 24,
    EIT_REFUSED_EARLY_END = 25,
    EIT_REFUSED_EVENT_LIMIT = 26,
    EIT_REFUSED_RECORDS_SHORT = 27,
    EIT_REFUSED_OVERLAP = 30,
    EIT_REFUSED_LAST_BASE_DAY = 31
};

/* The cause in words, to be printed behind "refused: ". docs/MANUAL.md, "Refusals", says what to do about it. */
static inline const char *eit_cause(uint32_t number) {
    switch (number) {
    case EIT_SUCCESS:
        return "success";
    case EIT_REFUSED_BASE_DAY:
        return "the base day is above 65,472";
    case EIT_REFUSED_VERSION:
        return "a version is above 31";
    case EIT_REFUSED_BROKEN_SCRIPT:
        return "the script has an unknown command, or ends within a command's operands";
    case EIT_REFUSED_NOTHING_TO_UNDO:
        return "UNDO with no edit before it that is not yet struck";
    case EIT_REFUSED_OUT_OF_RANGE:
        return "PUT, MOVE: start, duration or marks out of range";
    case EIT_REFUSED_WRONG_ID:
        return "PUT: the list has the id already; WITHDRAW, MOVE: it has not";
    case EIT_REFUSED_LIST_FULL:
        return "PUT: the list is at its limit";
    case EIT_REFUSED_NO_CHAIN:
        return "PUT: the descriptors lie outside their pool, do not end where their part ends, or one has tag 0xFF";
    case EIT_REFUSED_UNPACKABLE:
        return "a segment needs a ninth section, or has an event with over 4,066 bytes of descriptors, for cable 994";
    case EIT_REFUSED_OUTPUT_SHORT:
        return "the output is shorter than the file";
    case EIT_REFUSED_UNSOUND:
        return "the list is not sound";
    case EIT_REFUSED_FRAME:
        return "a section is truncated, or its table_id or section_length is out of range";
    case EIT_REFUSED_CRC:
        return "a section's CRC_32 is wrong";
    case EIT_REFUSED_HEADER:
        return "a fixed bit is wrong, last_table_id is out of range, it or the service, stream or network is not the "
               "one before, or the version differs within its table";
    case EIT_REFUSED_NUMBERING:
        return "a section is missing, doubled or out of order, or its table is past last_table_id";
    case EIT_REFUSED_EVENT_LOOP:
        return "a section's events break a rule";
    case EIT_REFUSED_EARLY_END:
        return "the file ends before the last section of last_table_id, or is empty";
    case EIT_REFUSED_EVENT_LIMIT:
        return "the file has more than 2,048 events, for cable 256";
    case EIT_REFUSED_RECORDS_SHORT:
        return "the record buffer is shorter than six numbers for each event";
    case EIT_REFUSED_OVERLAP:
        return "PUT, MOVE: the event would overlap another one";
    case EIT_REFUSED_LAST_BASE_DAY:
        return "the base day is 65,472 or more: there is none after it";
    default:
        return "an unknown number: no call of this version returns it";
    }
}

/* Limits of both callers: .._MAX is the greatest legal value, EIT_FORBIDDEN_TAG the one tag that is not legal. */
enum {
    EIT_RECORD = 6,               /* numbers in a record */
    EIT_NUMBERS_MAX = 12288,      /* numbers that hold every list: EIT_RECORD * EIT_EVENTS_MAX */
    EIT_ID_MAX = 65535,           /* a record's id */
    EIT_WINDOW_SECONDS = 5529600, /* 64 days in seconds: a record's start is below */
    EIT_DURATION_MAX = 359999,    /* a record's duration, 99:59:59; the least is 1 */
    EIT_FORBIDDEN_TAG = 0xFF,     /* no descriptor's tag: NorDig Rules of Operation, Table 1, forbid it */
    EIT_BASE_DAY_MAX = 65472,     /* a Modified Julian Date: all 64 days then fit its 16 bits */
    EIT_VERSION_MAX = 31,         /* version_number has 5 bits */
    EIT_TABLES = 16,              /* tables, 0x50 to 0x5F, each with a version of its own */
    EIT_DAY_SECONDS = 86400,      /* seconds in a day */
    EIT_SEGMENT_SECONDS = 10800,  /* seconds in a segment: three hours */
    EIT_TABLE_SEGMENTS = 32,      /* segments in a table: four days */
    EIT_SEGMENTS = 512,           /* segments in the sixteen tables */
    EIT_SEGMENT_SECTIONS_MAX = 8  /* sections in a segment */
};

/* Event list: a buffer of numbers and a count. A record is six numbers:
 *
 *   id        event_id, at most EIT_ID_MAX
 *   start     seconds after midnight UTC of the base day, below EIT_WINDOW_SECONDS
 *   duration  seconds, 1 to EIT_DURATION_MAX
 *   marks     a sum of EIT_FREE_CA, EIT_SERIES_POOL and EIT_OFF_AIR, or 0
 *   offset    where its descriptors begin in their pool
 *   length    how many bytes they have; 0 for none
 *
 * Descriptors lie in one of two pools of bytes that are lent with the list: the day pool, or with EIT_SERIES_POOL the
 * series pool. They are a chain: each a tag byte, a length byte and that many bytes, the last one ending where the part
 * ends, and none with tag EIT_FORBIDDEN_TAG. 0xFF as a length or among those bytes is legal. docs/MANUAL.md, "Tag
 * 0xFF", says what to do about a list or file that has the tag.
 *
 * A list is sound if count is at most EIT_EVENTS_MAX, for cable EIT_CABLE_EVENTS_MAX, the buffer has six numbers for
 * each record, every value is in range, every part lies in its pool (offset + length at most the pool's length) and is
 * a chain, starts rise strictly, each event's start + duration is at most the next one's start, and ids differ.
 * Touching is legal, and the last event may end past the last segment. docs/MANUAL.md, "Overlap", says what to do about
 * events that overlap. The empty list is a count of 0 with any buffer. */
enum {
    EIT_FREE_CA = 1,     /* free_CA_mode is 1: a conditional access system may control a stream of the event */
    EIT_SERIES_POOL = 2, /* the descriptors lie in the series pool; a file does not show it */
    EIT_OFF_AIR = 4      /* running_status is 5, service off air; else it is 0 */
};

/* Edit's commands: a byte, then big-endian operands of these widths in bytes. */
enum {
    EIT_PUT = 0x01,      /* id 2, start 4, duration 4, marks 1, offset 4, length 2: inserts a record by its start */
    EIT_WITHDRAW = 0x02, /* id 2: takes a record out; the freed record becomes six zeros */
    EIT_MOVE = 0x03,     /* id 2, start 4: gives a record another start and its place */
    EIT_UNDO = 0x04      /* none: strikes the nearest edit before it that is not yet struck */
};

/* What Edit returns. */
typedef struct EitEdited {
    uint32_t number; /* EIT_SUCCESS, or the refusal */
    size_t value;    /* success: the new count; 12: 0; else the offset of the refused command's byte in the script */
    size_t count;    /* the count that the list has now, refused or not; after 12, 3 and 4 it is the given one */
} EitEdited;

/* Carries an edit script out on an event list, in place.
 *
 *   caller                 whom to serve
 *   list, list_length      the list's buffer; it can come to hold list_length / 6 records, at most EIT_EVENTS_MAX, for
 *                          cable EIT_CABLE_EVENTS_MAX
 *   count                  how many records the list has
 *   day, day_length        the day pool
 *   series, series_length  the series pool
 *   script, script_length  the commands
 *
 * UNDO strikes by the script, before anything is carried out. Struck edits are looked at for their form only; the
 * others are carried out in order. An event that is put or moved may touch another, and not overlap one; a moved event
 * keeps its duration, and its own old time counts as free.
 *
 * Scripts that are accepted one after the other, for one caller and with the same pools, each on the list that the one
 * before it left, are accepted as one script, joined in that order, and leave the same list. A script that is accepted
 * need not be so in parts.
 *
 * Refusals: EIT_REFUSED_UNSOUND; EIT_REFUSED_BROKEN_SCRIPT over the whole script; EIT_REFUSED_NOTHING_TO_UNDO over the
 * whole script; then edit by edit EIT_REFUSED_OUT_OF_RANGE, EIT_REFUSED_NO_CHAIN, EIT_REFUSED_WRONG_ID,
 * EIT_REFUSED_OVERLAP, EIT_REFUSED_LIST_FULL.
 * Left: after the first three all of `list` is as it was; after the others it is as the edits before the refused one
 * made it. Numbers that no edit changes stay, behind the list too. */
EitEdited eit_edit(uint8_t caller, uint32_t *list, size_t list_length, size_t count, const uint8_t *day,
                   size_t day_length, const uint8_t *series, size_t series_length, const uint8_t *script,
                   size_t script_length);

/* What place returns. */
typedef struct EitPlace {
    size_t place;  /* how many records stand before the place */
    size_t looked; /* how many records are looked at: place + 1, or all of them if none has a later start */
} EitPlace;

/* Searches the place of a start in an event list: before the first record with a later start, so behind one with the
 * same start; behind the last record if none has a later start. The search goes from the front and ends at the record
 * that it finds: nothing behind that one matters.
 *
 *   list, list_length  the list's buffer; only read
 *   count              how many records the list has; those that the buffer has no six numbers for are left out
 *   start              seconds after midnight UTC of the base day; any number is taken
 *
 * In a sound list it is the place where eit_edit inserts a PUT of that start, and the records before and at the place
 * show whether the event would overlap another one. Whether the list is sound is not looked at: a record's start is all
 * that counts, and starts may stand in any order.
 *
 * There is no refusal. */
EitPlace eit_place(const uint32_t *list, size_t list_length, size_t count, uint32_t start);

/* What chain_room returns. */
typedef struct EitRoom {
    uint32_t number; /* EIT_SUCCESS, or the refusal */
    uint32_t fits;   /* 1 if one more event fits at the start, 0 if none does */
    uint32_t length; /* where one fits: how many bytes of descriptors it can have at most; else 0 */
} EitRoom;

/* How much text still fits: the most bytes of descriptors that one more event at `start` can have for its segment to
 * stay packable, 0 to EIT_CHAIN_MAX, for cable to EIT_CABLE_CHAIN_MAX. Longer descriptors do not fit, whatever sections
 * the segment's events are packed in, and everything up to the answer does. It is never 1, since no descriptors have
 * one byte. No event fits where the start is one of the list's, where it is EIT_WINDOW_SECONDS or more, or where not
 * even an event without descriptors does.
 *
 *   caller                 whom to serve
 *   list .. series_length  the list and its pools, as for eit_edit; only read
 *   start                  seconds after midnight UTC of the base day; any number is taken
 *
 * The answer is about the bytes of that segment only: not about whether eit_edit would put the event (it may overlap
 * another one, or the list be full), nor about other segments. If the event is put, its segment is
 * EIT_REFUSED_UNPACKABLE to eit_build exactly if its descriptors have more bytes. docs/MANUAL.md, "How much text still
 * fits", goes from the answer to a synopsis.
 *
 * Refusal: EIT_REFUSED_UNSOUND, ahead of all else. That no event fits is no refusal. Nothing is written. */
EitRoom eit_chain_room(uint8_t caller, const uint32_t *list, size_t list_length, size_t count, const uint8_t *day,
                       size_t day_length, const uint8_t *series, size_t series_length, uint32_t start);

/* What roll returns. */
typedef struct EitRolled {
    uint32_t number;   /* EIT_SUCCESS, or the refusal */
    size_t value;      /* success: the new count; else 0 */
    size_t count;      /* the count that the list has now; after a refusal the given one */
    uint32_t base_day; /* the base day that starts count from now; after a refusal the given one */
} EitRolled;

/* Moves an event list to the next base day, in place, as a generator does at midnight. Records that start on the base
 * day, below EIT_DAY_SECONDS, leave, even if their programme runs over midnight. The others stay in their order,
 * each with EIT_DAY_SECONDS taken off its start, so that every event that stays keeps its date and time.
 *
 *   caller                 whom to serve
 *   list .. series_length  the list and its pools, as for eit_edit; the list is written, and the pools only read
 *   base_day               the day whose midnight UTC starts count from
 *
 * A sound list stays sound. A list that eit_build writes before a roll is never EIT_REFUSED_UNPACKABLE after it, and
 * the k-th section of a segment then holds the same event bytes as the k-th of the segment eight indexes later did
 * before. eit_rebuild of the rolled list tells receivers which tables have changed: docs/MANUAL.md, "Midnight".
 *
 * Refusals: EIT_REFUSED_LAST_BASE_DAY, EIT_REFUSED_UNSOUND. EIT_REFUSED_BASE_DAY never comes.
 * Left: after a refusal all of `list` is as it was; after success the records from the new count to the old one are
 * zeros, and the numbers behind them are as they were. */
EitRolled eit_roll(uint8_t caller, uint32_t *list, size_t list_length, size_t count, const uint8_t *day,
                   size_t day_length, const uint8_t *series, size_t series_length, uint32_t base_day);

/* What Build and rebuild return. */
typedef struct EitBuilt {
    uint32_t number; /* EIT_SUCCESS, or the refusal */
    size_t value;    /* success: the file's length; 10: the lowest such segment index; 11: the bytes needed; for the
                      * previous file, 20 to 24, 26: the section's offset, 25: the file's length; else 0 */
} EitBuilt;

/* Writes the file of sections of an event list to the front of `out`. The file depends on the caller, the events, the
 * base day and the identity alone: its packing is fixed, each section takes as many of its segment's next events as
 * fit.
 *
 *   caller                 whom to serve
 *   list .. series_length  the list and its pools, as for eit_edit; only read
 *   base_day               the day whose midnight UTC starts count from, a Modified Julian Date
 *   service_id, transport_stream_id, original_network_id
 *                          the same in every section
 *   versions               sixteen versions, versions[k] in every section of table 0x50 + k; only read. All sixteen are
 *                          looked at, those of tables that the file does not have, too
 *   out, out_length        the output; EIT_FILE_MAX bytes, for cable EIT_CABLE_FILE_MAX, are always enough, and an
 *                          out_length of 0 asks for the need
 *
 * Refusals: EIT_REFUSED_BASE_DAY, EIT_REFUSED_VERSION, EIT_REFUSED_UNSOUND, EIT_REFUSED_UNPACKABLE,
 * EIT_REFUSED_OUTPUT_SHORT.
 * Left: after a refusal all of `out` is as it was; after success the bytes behind the file are. */
EitBuilt eit_build(uint8_t caller, const uint32_t *list, size_t list_length, size_t count, const uint8_t *day,
                   size_t day_length, const uint8_t *series, size_t series_length, uint32_t base_day,
                   uint16_t service_id, uint16_t transport_stream_id, uint16_t original_network_id,
                   const uint8_t versions[EIT_TABLES], uint8_t *out, size_t out_length);

/* Build after a change: writes the file of a new list to the front of `out`, under service_id, transport_stream_id and
 * original_network_id of the previous file, and with versions that follow from that file. A table of which all bytes
 * but version and CRC_32 are those of the previous file, in all its sections, keeps its version; another one has the
 * old version plus 1, after 31 it is 0; a table that the previous file lacks has version 0. last_table_id is among the
 * bytes: where it changes, every table has a new version. All else is as eit_build writes it.
 *
 *   caller                     whom to serve; the previous file is read for the same caller
 *   previous, previous_length  the previous file, whoever made it; only read. It cannot be the output
 *   previous_base_day          the base day that it was made with
 *   list .. series_length      the new list and its pools, as for eit_edit; only read. A pool may be the previous file
 *   base_day                   the base day of the new list, which may be another one
 *   out, out_length            the output, as for eit_build
 *
 * The previous file is read first, as eit_check reads it. So EIT_REFUSED_BASE_DAY is about previous_base_day if that is
 * above EIT_BASE_DAY_MAX, and otherwise about base_day. docs/MANUAL.md, "Versions", says what to do if the previous
 * file is refused. EIT_REFUSED_VERSION and EIT_REFUSED_RECORDS_SHORT never come.
 *
 * Refusals: EIT_REFUSED_BASE_DAY for previous_base_day; section by section of the previous file EIT_REFUSED_FRAME,
 * EIT_REFUSED_CRC, EIT_REFUSED_HEADER, EIT_REFUSED_NUMBERING, EIT_REFUSED_EVENT_LOOP, EIT_REFUSED_EVENT_LIMIT; at its
 * end EIT_REFUSED_EARLY_END; then EIT_REFUSED_BASE_DAY for base_day, EIT_REFUSED_UNSOUND, EIT_REFUSED_UNPACKABLE,
 * EIT_REFUSED_OUTPUT_SHORT.
 * Left: after a refusal all of `out` is as it was; after success the bytes behind the file are. */
EitBuilt eit_rebuild(uint8_t caller, const uint8_t *previous, size_t previous_length, uint32_t previous_base_day,
                     const uint32_t *list, size_t list_length, size_t count, const uint8_t *day, size_t day_length,
                     const uint8_t *series, size_t series_length, uint32_t base_day, uint8_t *out, size_t out_length);

/* Counts of Plan that are no number of sections. */
enum {
    EIT_PLAN_UNSOUND = 254,   /* every count, if the list is unsound */
    EIT_PLAN_UNPACKABLE = 255 /* a segment for which Build says EIT_REFUSED_UNPACKABLE; others have their own counts */
};

/* Writes the number of sections that Build makes of each segment: the 32 segments of table 0x50, then those of 0x51, up
 * to 0x5F. A count is 0 outside its table's range, and 1 to 8 within it, a segment without events having 1.
 *
 *   caller                 whom to serve
 *   list .. series_length  the list and its pools, as for eit_edit; only read
 *   plan                   512 counts; every one is written
 *
 * There is no refusal: the counts themselves say it. */
void eit_plan(uint8_t caller, const uint32_t *list, size_t list_length, size_t count, const uint8_t *day,
              size_t day_length, const uint8_t *series, size_t series_length, uint8_t plan[EIT_SEGMENTS]);

/* What Read and check return. After a refusal count, ids and versions are 0. */
typedef struct EitReading {
    uint32_t number; /* EIT_SUCCESS, or the refusal */
    size_t value;    /* success, 27: the events; 20 to 24, 26: the section's offset; 25: the file's length; 1: 0 */
    size_t count;    /* the number of events */
    uint16_t service_id;
    uint16_t transport_stream_id;
    uint16_t original_network_id;
    uint8_t versions[EIT_TABLES]; /* versions[k] is that of table 0x50 + k, 0 if the file does not have the table */
} EitReading;

/* Reads a file of sections, whoever made it, into records: the whole file is looked at first, and records are written
 * only if all of it is right.
 *
 *   caller                   whom to serve
 *   file, file_length        the sections, joined, without stuffing
 *   base_day                 the day that starts are to count from
 *   records, records_length  the record buffer; EIT_NUMBERS_MAX numbers are always enough
 *
 * The records are a list that is sound for the caller, with the file as day pool: offsets are into the file, no marks
 * have EIT_SERIES_POOL. So an event that begins before the one before it ends, in whatever section that stands, is
 * EIT_REFUSED_EVENT_LOOP at its own section. The sections of a table have one version, and tables may have different
 * ones: EIT_REFUSED_HEADER if a section's version differs from that of an earlier section of its table, wherever that
 * stood.
 *
 * Refusals: EIT_REFUSED_BASE_DAY; section by section EIT_REFUSED_FRAME, EIT_REFUSED_CRC, EIT_REFUSED_HEADER,
 * EIT_REFUSED_NUMBERING, EIT_REFUSED_EVENT_LOOP, EIT_REFUSED_EVENT_LIMIT; at the end EIT_REFUSED_EARLY_END,
 * EIT_REFUSED_RECORDS_SHORT.
 * Left: after a refusal all of `records` is as it was; after success the numbers behind 6 * count are. */
EitReading eit_read(uint8_t caller, const uint8_t *file, size_t file_length, uint32_t base_day, uint32_t *records,
                    size_t records_length);

/* The same without a record buffer: it writes nothing, and never says EIT_REFUSED_RECORDS_SHORT. */
EitReading eit_check(uint8_t caller, const uint8_t *file, size_t file_length, uint32_t base_day);

/* CRC_32 as sections have it: register first 0xFFFFFFFF, polynomial 0x04C11DB7, high bit first, no final inversion.
 * Over a whole section it is 0. There is no refusal. */
uint32_t eit_crc32(const uint8_t *bytes, size_t bytes_length);

#ifdef __cplusplus
}
#endif

#endif
