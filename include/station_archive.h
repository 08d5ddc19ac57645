/* The station archive: the six calls of document 01 and, of document 02, the three over marks and the longest history
 * line (Q-14), for the monitor's firmware.
 * Link crates/firmware/out/libfirmware.a (made by `rt lib` in crates/firmware; x86-64 Linux).
 *
 * A text is a pointer and a length in bytes, with no 0 at its end. A call returns 0, or the number of the
 * first row that applies (enum archive_number): of the rows named with the call, tried in the order 1 to 10, 17, 15,
 * 16, 11 to 14. It always writes *length:
 * - returned 0: the result is the first *length bytes of out, the rest of out keeps its values;
 * - returned anything else: *length is 0, out and marks are untouched.
 * This holds for all texts, numbers and lengths: crates/firmware/src/lib.rt states it of each entry, as equations
 * with the definitions in crates/versions/specs/Calls.antt, and it is proved.
 *
 * The caller owes what C cannot check: each pointer is to as many bytes as the length beside it says, and
 * neither out, marks, *version nor *length overlaps anything else that the call is lent. The texts are only read.
 * The calls keep no state and allocate nothing, and of C's library use memcpy and memset alone. Their work cells
 * (64 KiB) and the draft of an add (32 KiB) are on the caller's stack, of which an add takes some 123 KB at most and
 * any other call some 88 KB (measured, not proved: 122,895 and 87,935 bytes in tests/bench, with key levels and
 * elements as deep as they may be, in the library as the older Rattle built it, before the port).
 */
#ifndef STATION_ARCHIVE_H
#define STATION_ARCHIVE_H

#include <stddef.h>
#include <stdint.h>

#ifdef __cplusplus
extern "C" {
#endif

/* What a call returns: 0, or a row of document 01's table "When a text is sent back", or of document 02's (15 to 17). */
enum archive_number {
    ARCHIVE_DONE = 0,         /* success */
    ARCHIVE_WORK = 1,         /* work under 16,384 cells: cannot be here, as no entry asks its caller for cells */
    ARCHIVE_LENGTH = 2,       /* key list over 4,096 bytes, version over 16,384, archive over 32,768, or address over 2,560 */
    ARCHIVE_NOTATION = 3,     /* key list not in the notation */
    ARCHIVE_RULES = 4,        /* key list breaks a rule */
    ARCHIVE_XML = 5,          /* version not in the XML subset */
    ARCHIVE_LARGE = 6,        /* version deeper than 16, over 512 nodes, or its written form over 16,384 bytes */
    ARCHIVE_PATH = 7,         /* a path not in the list above or at a frontier, refused text, or the name T anywhere */
    ARCHIVE_KEY = 8,          /* a key child missing, repeated or illegal */
    ARCHIVE_SIBLINGS = 9,     /* two siblings with one name and key */
    ARCHIVE_ILLEGAL = 10,     /* archive not legal */
    ARCHIVE_VERSION = 11,     /* i not in 1 to n; or adding at n = 999; or n of a longest history not in 1 to 999 */
    ARCHIVE_ADDRESS = 12,     /* address not of this form and list */
    ARCHIVE_RESULT_LARGE = 13, /* result over 1,024 nodes or 32,768 bytes */
    ARCHIVE_OUTPUT_SHORT = 14, /* output shorter than the result */
    ARCHIVE_MARK_NAME = 15,   /* a mark's name illegal, already held when setting, or not held when using */
    ARCHIVE_MARKS_FULL = 16,  /* setting when 32 marks are held */
    ARCHIVE_MARKS_ILLEGAL = 17 /* marks not of 608 bytes, or breaking a rule of the table */
};

/* Lengths that are enough for any result, so that 14 is not returned; and the length of a table of marks. */
enum archive_length {
    ARCHIVE_LENGTH_ARCHIVE = 32768, /* of archive_found, archive_add, archive_back, archive_back_to_mark */
    ARCHIVE_LENGTH_VERSION = 16384, /* of archive_retrieve */
    ARCHIVE_LENGTH_HISTORY = 2591,  /* of archive_history, archive_longest_history; exact: one byte less is not enough
                                     * (theorems history-2591, history-2590: crates/versions/specs/HistoryLength.antt) */
    ARCHIVE_LENGTH_MARKS = 608      /* exactly: 32 entries of 19 bytes */
};

/* A table of marks holds up to 32 names of versions, in order of setting. An entry has 19 bytes: 16 of name, one of
 * its length, two of version, low byte first. A name has 1 to 16 letters, digits, '.', '-', '_', and no two are equal;
 * its version is 1 to n of the archive lent with the table; bytes past a name are zero. Unused entries follow, all zero:
 * 608 zero bytes are a table with no mark. Keep the table beside the archive, and lend both as the last call left them. */

/* A version is one root element or, where a station is struck off, vacant: empty (length 0) or white space alone. A
 * vacant version counts as any other, and holds no address; its written form is empty. An empty version is best lent as
 * "" and 0: NULL and 0 is promised nothing.
 * In a version CR LF, and a CR with no LF after it, are read as one LF, before all but the length test: the 16,384 bytes
 * of ARCHIVE_LENGTH are counted as lent, all else is of the text with LF. No result has a CR; an archive that has one is
 * not legal. In a key list, an address and a mark's name CR is illegal. */

/* Checks a key list. It has no output: *length is 0. Returns 0 or 2 to 4. */
uint32_t archive_check_keys(const uint8_t *keys, size_t keys_len, size_t *length);

/* Founds an archive: the result is the archive of the one version, in written form. Returns 0, 2 to 9 or 14. */
uint32_t archive_found(const uint8_t *keys, size_t keys_len, const uint8_t *version, size_t version_len,
                       uint8_t *out, size_t out_len, size_t *length);

/* Adds a version: the result is the archive of the lent archive's n versions and this one, n + 1. The lent
 * archive is the result of an earlier call, byte for byte. Returns 0, 2 to 11, 13 or 14. */
uint32_t archive_add(const uint8_t *keys, size_t keys_len, const uint8_t *archive, size_t archive_len,
                     const uint8_t *version, size_t version_len, uint8_t *out, size_t out_len, size_t *length);

/* Retrieves version i, from 1 to n: the result is its written form; empty (0, *length 0) if it is vacant.
 * Returns 0, 2 to 4, 10, 11 or 14. */
uint32_t archive_retrieve(const uint8_t *keys, size_t keys_len, const uint8_t *archive, size_t archive_len,
                          size_t i, uint8_t *out, size_t out_len, size_t *length);

/* Gives the history of an address, as /station/lamp[pos="2"]/hours: the result is the text of the set of the
 * versions that hold it, as 1-3,5; empty (0, *length 0) if none does. Returns 0, 2 to 4, 10, 12 or 14. */
uint32_t archive_history(const uint8_t *keys, size_t keys_len, const uint8_t *archive, size_t archive_len,
                         const uint8_t *address, size_t address_len, uint8_t *out, size_t out_len, size_t *length);

/* Sets a mark: from here on the name stands for version i, from 1 to n. The mark is put into the first unused entry.
 * It has no output: *length is 0. Returns 0, 2 to 4, 10, 11 or 15 to 17. */
uint32_t archive_set_mark(const uint8_t *keys, size_t keys_len, const uint8_t *archive, size_t archive_len,
                          uint8_t *marks, size_t marks_len, const uint8_t *name, size_t name_len,
                          size_t i, size_t *length);

/* Finds a mark: *version is its version, 0 when refused. It has no output: *length is 0. The table is only read.
 * Returns 0, 2 to 4, 10, 15 or 17. */
uint32_t archive_find_mark(const uint8_t *keys, size_t keys_len, const uint8_t *archive, size_t archive_len,
                           const uint8_t *marks, size_t marks_len, const uint8_t *name, size_t name_len,
                           size_t *version, size_t *length);

/* Steps back: the result is the archive of the lent archive's first i versions; the table loses the marks of later
 * versions and keeps the others in order. Returns 0, 2 to 4, 10, 11, 14 or 17. */
uint32_t archive_back(const uint8_t *keys, size_t keys_len, const uint8_t *archive, size_t archive_len,
                      uint8_t *marks, size_t marks_len, size_t i, uint8_t *out, size_t out_len, size_t *length);

/* Steps back to the version of a mark, as archive_back does to that number; the mark itself is kept.
 * Returns 0, 2 to 4, 10, 14, 15 or 17. */
uint32_t archive_back_to_mark(const uint8_t *keys, size_t keys_len, const uint8_t *archive, size_t archive_len,
                              uint8_t *marks, size_t marks_len, const uint8_t *name, size_t name_len,
                              uint8_t *out, size_t out_len, size_t *length);

/* Gives the longest history line: a history text over versions 1 to n, from 1 to 999, than which no set of these numbers
 * has a longer one. A strip of *length bytes takes every history of an archive of n versions. Of the texts that tie, the
 * result is that of runs of two from n downwards, with gaps of one: 2-3,5-6 for 6, 1,3-4,6-7 for 7, 1-2,4-5,7-8 for 8.
 * Returns 0, 11 or 14. */
uint32_t archive_longest_history(size_t n, uint8_t *out, size_t out_len, size_t *length);

#ifdef __cplusplus
}
#endif

#endif
