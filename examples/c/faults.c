/* Faults for the example to find. Each stands between the example and one entry (the linker's --wrap) and spoils what
 * the entry answers; the example must end with status 1. FAULT is the fault's number. */
#include "station_archive.h"

#include <string.h>

#define LENT const uint8_t *keys, size_t keys_len, const uint8_t *archive, size_t archive_len
#define LENT_ON keys, keys_len, archive, archive_len
#define MARKS uint8_t *marks, size_t marks_len
#define MARKS_ON marks, marks_len
#define NAME const uint8_t *name, size_t name_len
#define NAME_ON name, name_len
#define RESULT uint8_t *out, size_t out_len, size_t *length
#define RESULT_ON out, out_len, length

/* The archive in place of the result. */
static uint32_t hand_back(const uint8_t *archive, size_t archive_len, uint32_t number, uint8_t *out, size_t *length) {
    if (number != ARCHIVE_DONE) return number;
    memcpy(out, archive, archive_len);
    *length = archive_len;
    return ARCHIVE_DONE;
}

/* 1: an add that hands back its archive. 10: one that does so of an empty version, as if none were added. 13: one that does so of a
 * version with a CR. */
uint32_t __real_archive_add(LENT, const uint8_t *version, size_t version_len, RESULT);
uint32_t __wrap_archive_add(LENT, const uint8_t *version, size_t version_len, RESULT) {
    uint32_t number = __real_archive_add(LENT_ON, version, version_len, RESULT_ON);
    int absent = FAULT == 10 && version_len == 0;
    int returned = FAULT == 13 && memchr(version, '\r', version_len) != NULL;
    return FAULT == 1 || absent || returned ? hand_back(archive, archive_len, number, out, length) : number;
}

/* 2: a step back that does so. */
uint32_t __real_archive_back(LENT, MARKS, size_t i, RESULT);
uint32_t __wrap_archive_back(LENT, MARKS, size_t i, RESULT) {
    uint32_t number = __real_archive_back(LENT_ON, MARKS_ON, i, RESULT_ON);
    return FAULT == 2 ? hand_back(archive, archive_len, number, out, length) : number;
}

/* 3: a history that is empty for each address, whatever was written. */
uint32_t __real_archive_history(LENT, const uint8_t *address, size_t address_len, RESULT);
uint32_t __wrap_archive_history(LENT, const uint8_t *address, size_t address_len, RESULT) {
    uint32_t number = __real_archive_history(LENT_ON, address, address_len, RESULT_ON);
    if (FAULT == 3) *length = 0;
    return number;
}

/* 4: a retrieval that writes one byte past its result. 14: one that takes an archive with a CR. */
uint32_t __real_archive_retrieve(LENT, size_t i, RESULT);
uint32_t __wrap_archive_retrieve(LENT, size_t i, RESULT) {
    uint32_t number = __real_archive_retrieve(LENT_ON, i, RESULT_ON);
    if (FAULT == 4 && number == ARCHIVE_DONE) out[*length] = 0;
    if (FAULT == 14 && memchr(archive, '\r', archive_len) != NULL) return ARCHIVE_DONE;
    return number;
}

/* 5: a check that leaves the length as it was where it refuses. */
uint32_t __real_archive_check_keys(const uint8_t *keys, size_t keys_len, size_t *length);
uint32_t __wrap_archive_check_keys(const uint8_t *keys, size_t keys_len, size_t *length) {
    size_t before = *length;
    uint32_t number = __real_archive_check_keys(keys, keys_len, length);
    if (FAULT == 5 && number != ARCHIVE_DONE) *length = before;
    return number;
}

/* 6: a founding that succeeds, though the output is too short. */
uint32_t __real_archive_found(const uint8_t *keys, size_t keys_len, const uint8_t *version, size_t version_len, RESULT);
uint32_t __wrap_archive_found(const uint8_t *keys, size_t keys_len, const uint8_t *version, size_t version_len, RESULT) {
    uint32_t number = __real_archive_found(keys, keys_len, version, version_len, RESULT_ON);
    return FAULT == 6 && number == ARCHIVE_OUTPUT_SHORT ? ARCHIVE_DONE : number;
}

/* 7: a setting that has touched the table where it refuses. */
uint32_t __real_archive_set_mark(LENT, MARKS, NAME, size_t i, size_t *length);
uint32_t __wrap_archive_set_mark(LENT, MARKS, NAME, size_t i, size_t *length) {
    uint32_t number = __real_archive_set_mark(LENT_ON, MARKS_ON, NAME_ON, i, length);
    if (FAULT == 7 && number != ARCHIVE_DONE) marks[17] = (uint8_t)i;
    return number;
}

/* 8: a finding that answers the version of another mark, the first. */
uint32_t __real_archive_find_mark(LENT, const uint8_t *marks, size_t marks_len, NAME, size_t *version, size_t *length);
uint32_t __wrap_archive_find_mark(LENT, const uint8_t *marks, size_t marks_len, NAME, size_t *version, size_t *length) {
    uint32_t number = __real_archive_find_mark(LENT_ON, MARKS_ON, NAME_ON, version, length);
    if (FAULT == 8 && number == ARCHIVE_DONE) *version = marks[17];
    return number;
}

/* 9: a step back by name that keeps the marks of later versions. */
uint32_t __real_archive_back_to_mark(LENT, MARKS, NAME, RESULT);
uint32_t __wrap_archive_back_to_mark(LENT, MARKS, NAME, RESULT) {
    uint8_t before[ARCHIVE_LENGTH_MARKS];
    memcpy(before, marks, sizeof before);
    uint32_t number = __real_archive_back_to_mark(LENT_ON, MARKS_ON, NAME_ON, RESULT_ON);
    if (FAULT == 9) memcpy(marks, before, sizeof before);
    return number;
}

/* 11: a longest history that is one byte short. 12: one of the first number past 999. */
uint32_t __real_archive_longest_history(size_t n, RESULT);
uint32_t __wrap_archive_longest_history(size_t n, RESULT) {
    uint32_t number = __real_archive_longest_history(FAULT == 12 && n == 1000 ? 999 : n, RESULT_ON);
    if (FAULT == 11 && number == ARCHIVE_DONE) *length -= 1;
    return number;
}
