/* A library of another version: whatever it is asked, it returns the answer that was set. */
#include "chirdaluko.h"

/* Roll's base day is the service_id. Whether an event fits is chain_room's count, and the length its value. */
static EitReading answer;

void set_answer(uint32_t number, size_t value, size_t count, uint16_t service_id, uint8_t last_version);

void set_answer(uint32_t number, size_t value, size_t count, uint16_t service_id, uint8_t last_version) {
    answer = (EitReading){.number = number, .value = value, .count = count, .service_id = service_id};
    answer.versions[EIT_TABLES - 1] = last_version;
}

EitEdited eit_edit(uint8_t caller, uint32_t *list, size_t list_length, size_t count, const uint8_t *day,
                   size_t day_length, const uint8_t *series, size_t series_length, const uint8_t *script,
                   size_t script_length) {
    (void)caller, (void)list, (void)list_length, (void)count, (void)day, (void)day_length, (void)series,
        (void)series_length, (void)script, (void)script_length;
    return (EitEdited){answer.number, answer.value, answer.count};
}

EitRoom eit_chain_room(uint8_t caller, const uint32_t *list, size_t list_length, size_t count, const uint8_t *day,
                       size_t day_length, const uint8_t *series, size_t series_length, uint32_t start) {
    (void)caller, (void)list, (void)list_length, (void)count, (void)day, (void)day_length, (void)series,
        (void)series_length, (void)start;
    return (EitRoom){answer.number, (uint32_t)answer.count, (uint32_t)answer.value};
}

EitRolled eit_roll(uint8_t caller, uint32_t *list, size_t list_length, size_t count, const uint8_t *day,
                   size_t day_length, const uint8_t *series, size_t series_length, uint32_t base_day) {
    (void)caller, (void)list, (void)list_length, (void)count, (void)day, (void)day_length, (void)series,
        (void)series_length, (void)base_day;
    return (EitRolled){answer.number, answer.value, answer.count, answer.service_id};
}

EitBuilt eit_build(uint8_t caller, const uint32_t *list, size_t list_length, size_t count, const uint8_t *day,
                   size_t day_length, const uint8_t *series, size_t series_length, uint32_t base_day,
                   uint16_t service_id, uint16_t transport_stream_id, uint16_t original_network_id,
                   const uint8_t versions[EIT_TABLES], uint8_t *out, size_t out_length) {
    (void)caller, (void)list, (void)list_length, (void)count, (void)day, (void)day_length, (void)series,
        (void)series_length, (void)base_day, (void)service_id, (void)transport_stream_id, (void)original_network_id,
        (void)versions, (void)out, (void)out_length;
    return (EitBuilt){answer.number, answer.value};
}

EitBuilt eit_rebuild(uint8_t caller, const uint8_t *previous, size_t previous_length, uint32_t previous_base_day,
                     const uint32_t *list, size_t list_length, size_t count, const uint8_t *day, size_t day_length,
                     const uint8_t *series, size_t series_length, uint32_t base_day, uint8_t *out, size_t out_length) {
    (void)caller, (void)previous, (void)previous_length, (void)previous_base_day, (void)list, (void)list_length,
        (void)count, (void)day, (void)day_length, (void)series, (void)series_length, (void)base_day, (void)out,
        (void)out_length;
    return (EitBuilt){answer.number, answer.value};
}

EitReading eit_read(uint8_t caller, const uint8_t *file, size_t file_length, uint32_t base_day, uint32_t *records,
                    size_t records_length) {
    (void)caller, (void)file, (void)file_length, (void)base_day, (void)records, (void)records_length;
    return answer;
}

EitReading eit_check(uint8_t caller, const uint8_t *file, size_t file_length, uint32_t base_day) {
    (void)caller, (void)file, (void)file_length, (void)base_day;
    return answer;
}
