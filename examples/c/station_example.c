/* Document 01's record of one station, through the C entries, document 02's marks, vacant versions and line ends on it, and
 * its longest history line: each step says what it does and what came back. Exit status 1 if a number, a length, a version, a result, the rest of an
 * output or the table of marks is not what the papers say. */
#include "station_archive.h"

#include <stdio.h>
#include <string.h>

static const char keys[] = "(/, (station, {}))\n"
                           "(/station, (light, {}))\n"
                           "(/station, (lamp, {pos}))\n"
                           "(/station/lamp, (type, {}))\n"
                           "(/station/lamp, (hours, {}))\n";

/* The versions as received, with their lamps in any order, and as they are read back. */
static const char v1[] = "<station><light>Fl 5s</light><lamp><pos>2</pos><type>A</type><hours>40</hours></lamp></station>";
static const char v2[] = "<station>\n  <light>Fl 5s</light>\n  <lamp><pos>2</pos><type>A</type><hours>90</hours></lamp>\n"
                         "  <lamp><pos>1</pos><type>B</type></lamp>\n</station>\n";
static const char v3[] = "<station><light>Fl 5s</light><lamp><pos>1</pos><type>B</type></lamp></station>";
static const char written1[] = "<station><lamp><hours>40</hours><pos>2</pos><type>A</type></lamp><light>Fl 5s</light></station>";
static const char written2[] = "<station><lamp><pos>1</pos><type>B</type></lamp>"
                               "<lamp><hours>90</hours><pos>2</pos><type>A</type></lamp><light>Fl 5s</light></station>";
static const char written3[] = "<station><lamp><pos>1</pos><type>B</type></lamp><light>Fl 5s</light></station>";

/* The three archives. */
static const char line1[] = "<T t=\"1\"><station><lamp><hours>40</hours><pos>2</pos><type>A</type></lamp>"
                            "<light>Fl 5s</light></station></T>";
static const char line2[] = "<T t=\"1-2\"><station><T t=\"2\"><lamp><pos>1</pos><type>B</type></lamp></T>"
                            "<lamp><hours><T t=\"1\">40</T><T t=\"2\">90</T></hours><pos>2</pos><type>A</type></lamp>"
                            "<light>Fl 5s</light></station></T>";
static const char line3[] = "<T t=\"1-3\"><station><T t=\"2-3\"><lamp><pos>1</pos><type>B</type></lamp></T>"
                            "<T t=\"1-2\"><lamp><hours><T t=\"1\">40</T><T t=\"2\">90</T></hours><pos>2</pos><type>A</type></lamp></T>"
                            "<light>Fl 5s</light></station></T>";

/* The archive after the station is struck off, and after it is relit as v3: the root is in a T of its own. */
static const char line4[] = "<T t=\"1-4\"><T t=\"1-3\"><station><T t=\"2-3\"><lamp><pos>1</pos><type>B</type></lamp></T>"
                            "<T t=\"1-2\"><lamp><hours><T t=\"1\">40</T><T t=\"2\">90</T></hours><pos>2</pos><type>A</type></lamp></T>"
                            "<light>Fl 5s</light></station></T></T>";
static const char line5[] = "<T t=\"1-5\"><T t=\"1-3,5\"><station><T t=\"2-3,5\"><lamp><pos>1</pos><type>B</type></lamp></T>"
                            "<T t=\"1-2\"><lamp><hours><T t=\"1\">40</T><T t=\"2\">90</T></hours><pos>2</pos><type>A</type></lamp></T>"
                            "<light>Fl 5s</light></station></T></T>";

/* What every call is lent here: the archive so far, an output, a place for the length. */
static uint8_t archive[ARCHIVE_LENGTH_ARCHIVE];
static size_t archive_len;
static uint8_t out[ARCHIVE_LENGTH_ARCHIVE];
static size_t length;
static int steps, wrong;

/* The table of marks, all zero at first: it holds no mark. And what the papers say it is, after each step. */
static uint8_t marks[ARCHIVE_LENGTH_MARKS], its_marks[ARCHIVE_LENGTH_MARKS];
enum { ENTRIES = 32, NAME_BYTES = 16, ENTRY_BYTES = 19 };

enum { UNTOUCHED = 0xA5 };

/* A text and its length, as the entries take them. */
#define TEXT(s) (const uint8_t *)(s), strlen(s)

/* Fills what the next call is to write, so that a byte that it leaves or touches wrongly shows. Gives the output's length. */
static size_t lend(void) {
    memset(out, UNTOUCHED, sizeof out);
    length = SIZE_MAX;
    return sizeof out;
}

/* Whether the output is the text, and untouched after it. */
static int output_is(const char *text) {
    size_t n = strlen(text);
    if (memcmp(out, text, n) != 0) return 0;
    while (n < sizeof out && out[n] == UNTOUCHED) n++;
    return n == sizeof out;
}

/* Says what came back, and holds it to the papers' number, text and marks. */
static void told(const char *step, uint32_t number, uint32_t its_number, const char *its_text) {
    int right = number == its_number && length == strlen(its_text) && output_is(its_text) && memcmp(marks, its_marks, sizeof marks) == 0;
    steps++;
    printf("%-42s %2u, length %3zu", step, (unsigned)number, length);
    if (number == ARCHIVE_DONE && length <= sizeof out) printf(": %.*s", (int)length, (const char *)out);
    putchar('\n');
    if (right) return;
    wrong++;
    printf("  WRONG: the papers say %u, length %zu: %s\n", (unsigned)its_number, strlen(its_text), its_text);
}

/* The result becomes the archive that the next call is lent; after a refusal the archive stays as it is. */
static void keep(uint32_t number) {
    if (number != ARCHIVE_DONE || length > sizeof archive) return;
    memcpy(archive, out, length);
    archive_len = length;
}

static void found(const char *step, const char *version, uint32_t number, const char *text) {
    size_t out_len = lend();
    uint32_t got = archive_found(TEXT(keys), TEXT(version), out, out_len, &length);
    told(step, got, number, text);
    keep(got);
}

static void add(const char *step, const char *version, uint32_t number, const char *text) {
    size_t out_len = lend();
    uint32_t got = archive_add(TEXT(keys), archive, archive_len, TEXT(version), out, out_len, &length);
    told(step, got, number, text);
    keep(got);
}

static void retrieve(const char *step, size_t i, uint32_t number, const char *text) {
    size_t out_len = lend();
    told(step, archive_retrieve(TEXT(keys), archive, archive_len, i, out, out_len, &length), number, text);
}

static void history(const char *step, const char *address, const char *text) {
    size_t out_len = lend();
    told(step, archive_history(TEXT(keys), archive, archive_len, TEXT(address), out, out_len, &length), ARCHIVE_DONE, text);
}

/* The archive is not kept: each step back by number here is from line 3, with a table of unused entries, or from line 5,
 * with one mark, of version 1. */
static void back(const char *step, size_t i, uint32_t number, const char *text) {
    size_t out_len = lend();
    told(step, archive_back(TEXT(keys), archive, archive_len, marks, sizeof marks, i, out, out_len, &length), number, text);
}

/* The table in which the papers say an entry is this mark; no name is an unused entry. */
static void expect_mark(size_t entry, const char *name, size_t version) {
    uint8_t *at = its_marks + entry * ENTRY_BYTES;
    memset(at, 0, ENTRY_BYTES);
    memcpy(at, name, strlen(name));
    at[NAME_BYTES] = (uint8_t)strlen(name);
    at[NAME_BYTES + 1] = (uint8_t)(version & 0xff);
    at[NAME_BYTES + 2] = (uint8_t)(version >> 8);
}

/* Says which marks the table holds, in order of setting. */
static void show_marks(void) {
    for (size_t entry = 0; entry < ENTRIES; entry++) {
        const uint8_t *at = marks + entry * ENTRY_BYTES;
        int name_len = at[NAME_BYTES] <= NAME_BYTES ? at[NAME_BYTES] : NAME_BYTES;
        if (name_len > 0) printf("  mark %.*s: version %d\n", name_len, (const char *)at, at[NAME_BYTES + 1] + 256 * at[NAME_BYTES + 2]);
    }
}

static void set_mark(const char *step, const char *name, size_t i, uint32_t number) {
    lend();
    told(step, archive_set_mark(TEXT(keys), archive, archive_len, marks, sizeof marks, TEXT(name), i, &length), number, "");
}

static void find_mark(const char *step, const char *name, uint32_t number, size_t its_version) {
    size_t version = SIZE_MAX;
    lend();
    told(step, archive_find_mark(TEXT(keys), archive, archive_len, marks, sizeof marks, TEXT(name), &version, &length), number, "");
    printf("  version %zu\n", version);
    if (version == its_version) return;
    wrong++;
    printf("  WRONG: the papers say version %zu\n", its_version);
}

static void back_to_mark(const char *step, const char *name, size_t out_len, uint32_t number, const char *text) {
    lend();
    uint32_t got = archive_back_to_mark(TEXT(keys), archive, archive_len, marks, sizeof marks, TEXT(name), out, out_len, &length);
    told(step, got, number, text);
    keep(got);
}

/* Two marks, what is refused, and back to the first: the archive is line 1 again, and the other mark is gone. */
static void named_versions(void) {
    const char *first = "as-commissioned", *last = "lamp-2-gone";
    expect_mark(0, first, 1);
    set_mark("name version 1", first, 1, ARCHIVE_DONE);
    expect_mark(1, last, 3);
    set_mark("name version 3", last, 3, ARCHIVE_DONE);
    show_marks();
    set_mark("name version 2 by a name held", first, 2, ARCHIVE_MARK_NAME);
    set_mark("name version 4", "too-late", 4, ARCHIVE_VERSION);
    find_mark("find the last mark", last, ARCHIVE_DONE, 3);
    find_mark("find a name with a space in it", "as commissioned", ARCHIVE_MARK_NAME, 0);
    back_to_mark("back by name, the output one byte short", first, strlen(line1) - 1, ARCHIVE_OUTPUT_SHORT, "");
    expect_mark(1, "", 0);
    back_to_mark("back by name", first, sizeof out, ARCHIVE_DONE, line1);
    show_marks();
    lend();
    told("a table one byte short", archive_back(TEXT(keys), archive, archive_len, marks, sizeof marks - 1, 1, out, sizeof out, &length),
         ARCHIVE_MARKS_ILLEGAL, "");
}

/* The record again, from line 3 on: a version that is empty strikes the station off, v3 relights it. */
static void out_of_commission(void) {
    add("add v2 again", v2, ARCHIVE_DONE, line2);
    add("add v3 again", v3, ARCHIVE_DONE, line3);
    add("P8 strike off: add an empty version", "", ARCHIVE_DONE, line4);
    add("relight: add v3", v3, ARCHIVE_DONE, line5);
    retrieve("retrieve 4, vacant", 4, ARCHIVE_DONE, "");
    retrieve("retrieve 5", 5, ARCHIVE_DONE, written3);
    history("history of the station", "/station", "1-3,5");
    back("back to 4, vacant", 4, ARCHIVE_DONE, line4);
    back("back to 3, across it", 3, ARCHIVE_DONE, line3);
    found("found from white space alone", " \t\r\n", ARCHIVE_DONE, "<T t=\"1\"></T>");
    add("strike off again", "\n", ARCHIVE_DONE, "<T t=\"1-2\"></T>");
    history("history of a station never lit", "/station", "");
}

/* One note saved on three tablets, which end lines with CR LF, CR and LF: it has one content, and no result has a CR. */
static void tablets(void) {
    found("found from a note with CR LF", "<station>\r\n<light>Fl 5s\r\nW</light>\r\n</station>\r\n", ARCHIVE_DONE,
          "<T t=\"1\"><station><light>Fl 5s\nW</light></station></T>");
    add("add it with CR", "<station>\r<light>Fl 5s\rW</light>\r</station>\r", ARCHIVE_DONE,
        "<T t=\"1-2\"><station><light>Fl 5s\nW</light></station></T>");
    add("add it with LF", "<station>\n<light>Fl 5s\nW</light>\n</station>\n", ARCHIVE_DONE,
        "<T t=\"1-3\"><station><light>Fl 5s\nW</light></station></T>");
    retrieve("retrieve 1, saved with CR LF", 1, ARCHIVE_DONE, "<station><light>Fl 5s\nW</light></station>");
    *(uint8_t *)memchr(archive, '\n', archive_len) = '\r';
    retrieve("retrieve from an archive that holds CR", 1, ARCHIVE_ILLEGAL, "");
}

/* The text that is given as the longest over versions 1 to n: runs of two from n downwards, with gaps of one. */
static const char *longest_line(size_t n) {
    static char line[ARCHIVE_LENGTH_HISTORY + 1];
    size_t at = 0;
    line[0] = '\0';
    if (n % 3 != 0) at += (size_t)snprintf(line, sizeof line, n % 3 == 1 ? "1" : "1-2");
    for (size_t last = n % 3 + 3; last <= n; last += 3) {
        at += (size_t)snprintf(line + at, sizeof line - at, "%s%zu-%zu", at == 0 ? "" : ",", last - 1, last);
    }
    return line;
}

static void longest(const char *step, size_t n, size_t out_len, uint32_t number, const char *text) {
    lend();
    told(step, archive_longest_history(n, out, out_len, &length), number, text);
}

/* A strip that takes any history, over as many versions as the record has and over 999. */
static void longest_lines(void) {
    longest("longest history of 3 versions", 3, sizeof out, ARCHIVE_DONE, "2-3");
    longest("longest history of 5", 5, sizeof out, ARCHIVE_DONE, "1-2,4-5");
    longest("the same, the output one byte short", 5, strlen("1-2,4-5") - 1, ARCHIVE_OUTPUT_SHORT, "");
    longest("longest history of 999", 999, ARCHIVE_LENGTH_HISTORY, ARCHIVE_DONE, longest_line(999));
    longest("the same, the output one byte short", 999, ARCHIVE_LENGTH_HISTORY - 1, ARCHIVE_OUTPUT_SHORT, "");
    longest("longest history of none", 0, sizeof out, ARCHIVE_VERSION, "");
    longest("longest history of 1,000", 1000, sizeof out, ARCHIVE_VERSION, "");
}

/* The key list, the same with one of its LFs missing, and an output one byte short. */
static void keys_and_short_output(void) {
    lend();
    told("check the key list", archive_check_keys(TEXT(keys), &length), ARCHIVE_DONE, "");
    lend();
    told("check it without its last LF", archive_check_keys((const uint8_t *)keys, strlen(keys) - 1, &length), ARCHIVE_NOTATION, "");
    lend();
    told("found, the output one byte short", archive_found(TEXT(keys), TEXT(v1), out, strlen(line1) - 1, &length), ARCHIVE_OUTPUT_SHORT, "");
}

int main(void) {
    keys_and_short_output();
    found("found from v1", v1, ARCHIVE_DONE, line1);
    add("add v2", v2, ARCHIVE_DONE, line2);
    add("add v3", v3, ARCHIVE_DONE, line3);
    history("P1 history of lamp 1", "/station/lamp[pos=\"1\"]", "2-3");
    history("P2 history of lamp 2's hours", "/station/lamp[pos=\"2\"]/hours", "1-2");
    history("P3 history of lamp 7", "/station/lamp[pos=\"7\"]", "");
    back("P4 back to 2", 2, ARCHIVE_DONE, line2);
    back("P5 back to 1", 1, ARCHIVE_DONE, line1);
    retrieve("retrieve 1", 1, ARCHIVE_DONE, written1);
    retrieve("retrieve 2", 2, ARCHIVE_DONE, written2);
    retrieve("retrieve 3", 3, ARCHIVE_DONE, written3);
    back("P6 back to 0", 0, ARCHIVE_VERSION, "");
    retrieve("P7 retrieve 4", 4, ARCHIVE_VERSION, "");
    add("P9 add two lamps with pos 2", "<station><lamp><pos>2</pos></lamp><lamp><pos>2</pos></lamp></station>", ARCHIVE_SIBLINGS, "");
    add("P10 add a lamp with no pos", "<station><lamp><type>A</type></lamp></station>", ARCHIVE_KEY, "");
    named_versions();
    out_of_commission();
    tablets();
    longest_lines();
    printf("%d steps, %d not as the papers say\n", steps, wrong);
    return wrong != 0;
}
