/* What a call answers, compared with what face.c, callers.c, place.c, overlap.c, chain_room.c, midnight.c and
 * versions.c of this folder want of it. */
#include "chirdaluko.h"

#include <stdio.h>
#include <string.h>

static int wrong = 0;

static void expect(const char *what, unsigned long long got, unsigned long long wanted) {
    if (got != wanted) {
        printf("face: %s is %llu, not %llu\n", what, got, wanted);
        wrong = 1;
    }
}

/* Sixteen times 0. */
static const uint8_t no_versions[EIT_TABLES] = {0};

static inline void expect_reading(const char *what, EitReading got, EitReading wanted) {
    expect(what, got.number, wanted.number);
    expect("its value", got.value, wanted.value);
    expect("its count", got.count, wanted.count);
    expect("its service_id", got.service_id, wanted.service_id);
    expect("its transport_stream_id", got.transport_stream_id, wanted.transport_stream_id);
    expect("its original_network_id", got.original_network_id, wanted.original_network_id);
    for (size_t table = 0; table < EIT_TABLES; table++) {
        expect("a version of it", got.versions[table], wanted.versions[table]);
    }
}
