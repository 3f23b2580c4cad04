/*
 * Calls the seven calls of host/phrase.h on files good and bad, with tables, texts and files of odd sizes and at odd places, and holds answers, texts and all
 * that has to stay to what document 01 and requests 101, 102, 104, 106 and 108 say. phrase_play gets an empty playing here; playings.c has the others. Every
 * expected value is written here by hand; of a phrase that is accepted, late or too large, and of the same in version 2 with a shift and in version 3 with
 * rests that do not matter, it is one. areas.h says how memory is lent.
 *
 * Prints one line for each failure (the first twenty) and a count; exit status 0 when nothing failed.
 */
#define _DEFAULT_SOURCE
#define TEST "buffers"

#include "phrase.h"
#include "areas.h"
#include "files.h"

enum { MOST_WORDS = 17000, MOST_TEXT = 40000 };

static struct area file_area, table_area, text_area, phrase_area, written_area, playing_area, starts_area, ends_area;

/* ---- One trial ---- */

/* What document 01 says of a file in a table of so many words. */
struct outcome {
    size_t words;
    size_t used; /* 2 S W; 0 on a refusal of reading */
    uint64_t number, place;
    const char *text;
};

/* Names the trial; then what else is lent. */
static void describe(const char *call, const struct file *file, struct setting setting)
{
    snprintf(trial, sizeof trial, "%s, %s, version %u, %s, filling %02X", call, file->name, version_of(file), where_names[setting.where],
             (unsigned)setting.filling);
}

static void describe_room(size_t size, const char *what)
{
    size_t length = strlen(trial);
    snprintf(trial + length, sizeof trial - length, ", %lu %s", (unsigned long)size, what);
}

static void lend_file(const struct file *file, struct setting setting)
{
    lend_const(&file_area, file->bytes, file->size, setting, 1);
}

static void lend_table(const struct outcome *outcome, struct setting setting)
{
    lend(&table_area, outcome->words * sizeof(uint32_t), setting, sizeof(uint32_t));
}

static uint32_t *lent_words(void)
{
    return (uint32_t *)(void *)table_area.lent;
}

static void expect_table(const struct outcome *outcome)
{
    expect_untouched_from(&table_area, outcome->used * sizeof(uint32_t), "a word before the table changed", "a word that has to stay changed");
}

static void expect_text(size_t length, const struct outcome *outcome)
{
    size_t due = strlen(outcome->text);
    if (text_area.lent_size < due)
        due = 0;
    expect_number(length, due, "the length");
    if (due != 0)
        expect(memcmp(text_area.lent, outcome->text, due) == 0, "the text is another");
    expect_untouched_from(&text_area, due, "a byte before the text buffer changed", "a byte past the text changed");
}

static void try_check_with(const struct file *file, const struct outcome *outcome, struct setting setting)
{
    uint64_t answer;
    describe("phrase_check_with", file, setting);
    describe_room(outcome->words, "words");
    lend_file(file, setting);
    lend_table(outcome, setting);
    answer = phrase_check_with(file_area.lent, file->size, lent_words(), outcome->words);
    expect_answer(answer, outcome->number, outcome->place);
    expect_table(outcome);
}

static void try_report_with(const struct file *file, const struct outcome *outcome, size_t text_size, struct setting setting)
{
    size_t length;
    describe("phrase_report_with", file, setting);
    describe_room(outcome->words, "words");
    describe_room(text_size, "bytes of text");
    lend_file(file, setting);
    lend_table(outcome, setting);
    lend(&text_area, text_size, setting, 3);
    length = phrase_report_with(file_area.lent, file->size, lent_words(), outcome->words, text_area.lent, text_size);
    expect_text(length, outcome);
    expect_table(outcome);
}

static void try_check(const struct file *file, const struct outcome *outcome, struct setting setting)
{
    describe("phrase_check", file, setting);
    lend_file(file, setting);
    expect_answer(phrase_check(file_area.lent, file->size), outcome->number, outcome->place);
}

static void try_report(const struct file *file, const struct outcome *outcome, size_t text_size, struct setting setting)
{
    describe("phrase_report", file, setting);
    describe_room(text_size, "bytes of text");
    lend_file(file, setting);
    lend(&text_area, text_size, setting, 3);
    expect_text(phrase_report(file_area.lent, file->size, text_area.lent, text_size), outcome);
}

/* Reading takes no table: only refusals 1 to 12 and 19 concern it. */
static int is_unread(const struct outcome *outcome)
{
    return (outcome->number >= 1 && outcome->number <= 12) || outcome->number == 19;
}

static size_t zeros_in(const struct area *area)
{
    size_t i, zeros = 0;
    for (i = 0; i < area->lent_size; i++)
        zeros += area->lent[i] == 0;
    return zeros;
}

/* What was read is left in the phrase's area. */
static void try_read(const struct file *file, const struct outcome *outcome, struct setting setting)
{
    int refused = is_unread(outcome);
    uint64_t answer;
    describe("phrase_read", file, setting);
    lend_file(file, setting);
    lend(&phrase_area, sizeof(struct phrase), setting, sizeof(uint32_t));
    answer = phrase_read(file_area.lent, file->size, (struct phrase *)(void *)phrase_area.lent);
    expect_answer(answer, refused ? outcome->number : 0, refused ? outcome->place : 0);
    if (refused)
        expect_number(zeros_in(&phrase_area), sizeof(struct phrase), "the number of zero bytes in the phrase");
    expect_untouched_from(&phrase_area, sizeof(struct phrase), "a byte before the phrase changed", "a byte past the phrase changed");
}

static void expect_zero_words(const struct area *area)
{
    expect_number(zeros_in(area), PHRASE_MOST_NOTES * sizeof(uint32_t), "the number of zero bytes in an array");
    expect_untouched_from(area, area->lent_size, "a byte before an array changed", "a byte past an array changed");
}

/* An empty playing is none of any phrase, even without strokes. */
static void try_play(const struct file *file, const struct outcome *outcome, struct setting setting)
{
    int refused = is_unread(outcome);
    uint64_t answer;
    describe("phrase_play", file, setting);
    lend_file(file, setting);
    lend_const(&playing_area, "", 0, setting, 1);
    lend(&starts_area, PHRASE_MOST_NOTES * sizeof(uint32_t), setting, sizeof(uint32_t));
    lend(&ends_area, PHRASE_MOST_NOTES * sizeof(uint32_t), setting, sizeof(uint32_t));
    answer = phrase_play(file_area.lent, file->size, playing_area.lent, 0, (uint32_t *)(void *)starts_area.lent, (uint32_t *)(void *)ends_area.lent);
    expect_answer(answer, refused ? outcome->number : 17, refused ? outcome->place : 0);
    expect_zero_words(&starts_area);
    expect_zero_words(&ends_area);
}

/* What was read from a file is written as that file; where it was refused, all is zero, version too. */
static void try_write(const struct file *file, const struct phrase *phrase, size_t size, struct setting setting)
{
    uint64_t answer;
    int fits = size >= file->size;
    size_t due = phrase->version != 0 && fits ? file->size : 0;
    describe("phrase_write", file, setting);
    describe_room(size, "bytes of room");
    lend_const(&phrase_area, phrase, sizeof *phrase, setting, sizeof(uint32_t));
    lend(&written_area, size, setting, 3);
    answer = phrase_write((const struct phrase *)(const void *)phrase_area.lent, written_area.lent, size);
    expect_answer(answer, phrase->version == 0 ? 1 : fits ? 0 : 16, due);
    if (due != 0)
        expect(memcmp(written_area.lent, file->bytes, due) == 0, "the file is another");
    expect_untouched_from(&written_area, due, "a byte before the file changed", "a byte past the file changed");
}

static void try_read_and_write(const struct file *file, const struct outcome *outcome, struct setting setting)
{
    const size_t sizes[] = {0, 1, file->size - 1, file->size, file->size + 1, file->size + 100, PHRASE_FILE_BYTES};
    struct phrase phrase;
    size_t i;
    try_read(file, outcome, setting);
    memcpy(&phrase, phrase_area.lent, sizeof phrase);
    for (i = 0; i < sizeof sizes / sizeof *sizes; i++)
        if (sizes[i] <= PHRASE_FILE_BYTES + 100) /* the empty file has none of one byte less */
            try_write(file, &phrase, sizes[i], setting);
}

/* All calls that can have this outcome; those without a lent table only when it is that of their own. */
static void try_in(const struct file *file, const struct outcome *outcome, struct setting setting)
{
    size_t exact = strlen(outcome->text), i;
    const size_t sizes[] = {0, 1, 10, exact - 1, exact, exact + 1, exact + 100, PHRASE_TEXT_BYTES};
    int own = outcome->words == 16384;

    try_check_with(file, outcome, setting);
    if (own) {
        try_check(file, outcome, setting);
        try_read_and_write(file, outcome, setting);
        try_play(file, outcome, setting);
    }
    for (i = 0; i < sizeof sizes / sizeof *sizes; i++) {
        try_report_with(file, outcome, sizes[i], setting);
        if (own)
            try_report(file, outcome, sizes[i], setting);
    }
}

static void try_outcome(const struct file *file, const struct outcome *outcome)
{
    int i;
    for (i = 0; i < SETTINGS; i++)
        try_in(file, outcome, setting_number(i));
}

/* ---- What document 01 prints ---- */

#define P_TEXT                                               \
    "stroke 0 key C4 bell 0 ends 2..7 response 2..7 due 7\n" \
    "stroke 1 key D5 bell 1 ends 4..6 response 4..6 due 6\n" \
    "bell 0 strokes 1 hold 2\n"                              \
    "bell 1 strokes 1 hold 4\n"                              \
    "accepted strokes 2 states 4 hold 6\n"
#define FULL_AT(level) "refused 13 level " level "\n"

/* The refusals of reading: the table does not matter, and no word of it changes. */
static const struct {
    const char *name, *hex;
    size_t at;
    uint8_t byte;
    uint64_t number, place;
    const char *text;
} refusals[] = {
    {"row 1", "09", 0, 0x09, 1, 0, "refused 1 at 0\n"},
    {"row 2", "01 00 00", UNCHANGED, 2, 0, "refused 2 at 0\n"},
    {"P, count one more", P, 4, 0x2E, 2, 0, "refused 2 at 0\n"},
    {"P, count much more", P, 1, 0xFF, 2, 0, "refused 2 at 0\n"},
    {"four bytes", "01 000000", UNCHANGED, 2, 0, "refused 2 at 0\n"},
    {"no m", "01 00000000", UNCHANGED, 3, 5, "refused 3 at 5\n"},
    {"row 3", "01 00000001 01", UNCHANGED, 3, 6, "refused 3 at 6\n"},
    {"row 4", "01 00000001 00", UNCHANGED, 4, 5, "refused 4 at 5\n"},
    {"row 5", "01 00000002 01 00", UNCHANGED, 5, 6, "refused 5 at 6\n"},
    {"cut bell", "01 00000008 01 01 3C0000020002", UNCHANGED, 3, 7, "refused 3 at 7\n"},
    {"row 6", P, 7, 0x0B, 6, 7, "refused 6 at 7\n"},
    {"row 7", P, 15, 0xFE, 7, 14, "refused 7 at 14\n"},
    {"row 8", P, 21, 0x41, 8, 21, "refused 8 at 21\n"},
    {"row 9", P, 22, 0x0C, 9, 22, "refused 9 at 22\n"},
    {"P, note 1 longer than the file", P, 36, 0x0E, 3, 36, "refused 3 at 36\n"},
    {"P, bytes remain", P, 21, 0x01, 3, 36, "refused 3 at 36\n"},
    {"P, a note is missing", P, 21, 0x03, 3, 50, "refused 3 at 50\n"},
    {"row 10", P, 37, 0x3E, 10, 36, "refused 10 at 36\n"},
    {"row 11", P, 27, 0x06, 11, 22, "refused 11 at 22\n"},
    {"row 12", P_WAITING, UNCHANGED, 12, 36, "refused 12 at 36\n"},

    /* Version 2: the shift at 6, between refusals 4 and 5, and all that follows one byte later. */
    {"version 0", P, 0, 0x00, 1, 0, "refused 1 at 0\n"},
    {"version 4", P, 0, 0x04, 1, 0, "refused 1 at 0\n"},
    {"version 4", P_SHIFTED, 0, 0x04, 1, 0, "refused 1 at 0\n"},
    {"version 130", P_SHIFTED, 0, 0x82, 1, 0, "refused 1 at 0\n"},
    {"version 2, one byte", "02", UNCHANGED_2, 2, 0, "refused 2 at 0\n"},
    {"version 2, four bytes", "02 000000", UNCHANGED_2, 2, 0, "refused 2 at 0\n"},
    {"P shifted, count one less", P_SHIFTED, 4, 0x2D, 2, 0, "refused 2 at 0\n"},
    {"P as version 2", P, 0, 0x02, 6, 8, "refused 6 at 8\n"}, /* a shift of 2, and 60 bells, the first of key 0 */
    {"P shifted as version 1", P_SHIFTED, 0, 0x01, 5, 6, "refused 5 at 6\n"},
    {"version 2, no m", "02 00000000", UNCHANGED_2, 3, 5, "refused 3 at 5\n"},
    {"version 2, row 4", "02 00000001 00", UNCHANGED_2, 4, 5, "refused 4 at 5\n"},
    {"version 2, row 4, shift 25", "02 00000002 09 19", UNCHANGED_2, 4, 5, "refused 4 at 5\n"},
    {"no shift", "02 00000001 01", UNCHANGED_2, 3, 6, "refused 3 at 6\n"},
    {"shift 25, no bell count", "02 00000002 01 19", UNCHANGED_2, 19, 6, "refused 19 at 6\n"},
    {"shift 25, no bells", "02 00000003 01 19 00", UNCHANGED_2, 19, 6, "refused 19 at 6\n"},
    {"P shifted by 25", P_SHIFTED, 6, 0x19, 19, 6, "refused 19 at 6\n"},
    {"P shifted by -25", P_SHIFTED, 6, 0xE7, 19, 6, "refused 19 at 6\n"},
    {"P shifted by 127", P_SHIFTED, 6, 0x7F, 19, 6, "refused 19 at 6\n"},
    {"P shifted by -128", P_SHIFTED, 6, 0x80, 19, 6, "refused 19 at 6\n"},
    {"no bell count", "02 00000002 01 00", UNCHANGED_2, 3, 7, "refused 3 at 7\n"},
    {"version 2, row 5", "02 00000003 01 18 00", UNCHANGED_2, 5, 7, "refused 5 at 7\n"},
    {"version 2, 97 bells", "02 00000003 01 E8 61", UNCHANGED_2, 5, 7, "refused 5 at 7\n"},
    {"version 2, cut bell", "02 00000009 01 FC 01 3C0000020002", UNCHANGED_2, 3, 8, "refused 3 at 8\n"},
    {"version 2, row 6", P_SHIFTED, 8, 0x0B, 6, 8, "refused 6 at 8\n"},
    {"version 2, row 7", P_SHIFTED, 16, 0xFE, 7, 15, "refused 7 at 15\n"},
    {"version 2, row 8", P_SHIFTED, 22, 0x41, 8, 22, "refused 8 at 22\n"},
    {"version 2, row 9", P_SHIFTED, 23, 0x0C, 9, 23, "refused 9 at 23\n"},
    {"P shifted, note 1 longer than the file", P_SHIFTED, 37, 0x0E, 3, 37, "refused 3 at 37\n"},
    {"P shifted, bytes remain", P_SHIFTED, 22, 0x01, 3, 37, "refused 3 at 37\n"},
    {"P shifted, a note is missing", P_SHIFTED, 22, 0x03, 3, 51, "refused 3 at 51\n"},
    {"version 2, row 10: P's key", P_SHIFTED, 38, 0x4A, 10, 37, "refused 10 at 37\n"},
    {"version 2, row 10: a bell's written key", P_SHIFTED, 38, 0x42, 10, 37, "refused 10 at 37\n"},
    {"P shifted by -3", P_SHIFTED, 6, 0xFD, 10, 23, "refused 10 at 23\n"},
    {"P shifted by 0", P_SHIFTED, 6, 0x00, 10, 23, "refused 10 at 23\n"},
    {"version 2, row 11", P_SHIFTED, 28, 0x06, 11, 23, "refused 11 at 23\n"},
    {"version 2, row 12", P_SHIFTED_WAITING, UNCHANGED_2, 12, 37, "refused 12 at 37\n"},
    /* Past the keys of bells; and a sum over 255, which is no small one. */
    {"key 119 shifted by 1", ONE_STROKE("01", "77", "77"), UNCHANGED_2, 10, 16, "refused 10 at 16\n"},
    {"key 12 shifted by -1", ONE_STROKE("FF", "0C", "0C"), UNCHANGED_2, 10, 16, "refused 10 at 16\n"},
    {"key 144 shifted by -24", ONE_STROKE("E8", "77", "90"), UNCHANGED_2, 10, 16, "refused 10 at 16\n"},
    {"key 0 shifted by 11", ONE_STROKE("0B", "0C", "00"), UNCHANGED_2, 10, 16, "refused 10 at 16\n"},
    {"key 0 shifted by -24", ONE_STROKE("E8", "77", "00"), UNCHANGED_2, 10, 16, "refused 10 at 16\n"},
    {"key 250 shifted by 24", ONE_STROKE("18", "12", "FA"), UNCHANGED_2, 10, 16, "refused 10 at 16\n"},
    {"key 255 shifted by -24", ONE_STROKE("E8", "77", "FF"), UNCHANGED_2, 10, 16, "refused 10 at 16\n"},

    /* Version 3: bells of nine bytes, the rest before the rank. */
    {"P rested as version 4", P_RESTED, 0, 0x04, 1, 0, "refused 1 at 0\n"},
    {"version 131", P_RESTED, 0, 0x83, 1, 0, "refused 1 at 0\n"},
    {"version 3, one byte", "03", UNCHANGED_3, 2, 0, "refused 2 at 0\n"},
    {"P rested, count one more", P_RESTED, 4, 0x33, 2, 0, "refused 2 at 0\n"},
    {"P as version 3", P, 0, 0x03, 6, 8, "refused 6 at 8\n"}, /* a shift of 2, and 60 bells, the first of key 0 */
    {"P shifted as version 3", P_SHIFTED, 0, 0x03, 6, 17, "refused 6 at 17\n"}, /* bell 0 rests for 318 and has rank 12; bell 1 has key 0 */
    {"P rested as version 2", P_RESTED, 0, 0x02, 6, 15, "refused 6 at 15\n"}, /* bell 1 has key 7, the rest of bell 0 */
    {"P rested as version 1", P_RESTED, 0, 0x01, 5, 6, "refused 5 at 6\n"}, /* 252 bells */
    {"version 3, no m", "03 00000000", UNCHANGED_3, 3, 5, "refused 3 at 5\n"},
    {"version 3, row 4, shift 25", "03 00000002 09 19", UNCHANGED_3, 4, 5, "refused 4 at 5\n"},
    {"version 3, no shift", "03 00000001 01", UNCHANGED_3, 3, 6, "refused 3 at 6\n"},
    {"version 3, shift 25, no bells", "03 00000003 01 19 00", UNCHANGED_3, 19, 6, "refused 19 at 6\n"},
    {"P rested, shift -25", P_RESTED, 6, 0xE7, 19, 6, "refused 19 at 6\n"},
    {"version 3, no bell count", "03 00000002 01 00", UNCHANGED_3, 3, 7, "refused 3 at 7\n"},
    {"version 3, row 5", "03 00000003 01 18 00", UNCHANGED_3, 5, 7, "refused 5 at 7\n"},
    {"version 3, 97 bells", "03 00000003 01 E8 61", UNCHANGED_3, 5, 7, "refused 5 at 7\n"},
    {"version 3, no bell", "03 00000003 01 FC 01", UNCHANGED_3, 3, 8, "refused 3 at 8\n"},
    {"version 3, cut before the rest", "03 00000009 01 FC 01 3C0000020002", UNCHANGED_3, 3, 8, "refused 3 at 8\n"},
    {"version 3, cut in the rest", "03 0000000A 01 FC 01 3C0000020002 00", UNCHANGED_3, 3, 8, "refused 3 at 8\n"},
    {"version 3, cut in a rest too long", "03 0000000A 01 FC 01 3C0000020002 FF", UNCHANGED_3, 3, 8, "refused 3 at 8\n"},
    {"version 3, cut after the rest", "03 0000000B 01 FC 01 3C0000020002 1389", UNCHANGED_3, 3, 8, "refused 3 at 8\n"},
    {"version 3, cut after the bell", "03 0000000C 01 FC 01 3C0000020002 1388 01", UNCHANGED_3, 3, 17, "refused 3 at 17\n"},
    {"version 3, rest 5001, cut after the bell", "03 0000000C 01 FC 01 3C0000020002 1389 01", UNCHANGED_3, 6, 8, "refused 6 at 8\n"},
    {"version 3, bell 1 cut", "03 00000014 01 FC 02 3C0000020002 0007 01 3E0C00040004 1388", UNCHANGED_3, 3, 17, "refused 3 at 17\n"},
    {"version 3, row 6", P_RESTED, 8, 0x0B, 6, 8, "refused 6 at 8\n"},
    {"P rested, rest 5127", P_RESTED, 14, 0x14, 6, 8, "refused 6 at 8\n"},
    {"P rested, rest 32775", P_RESTED, 14, 0x80, 6, 8, "refused 6 at 8\n"},
    {"P rested, rest 65287", P_RESTED, 14, 0xFF, 6, 8, "refused 6 at 8\n"},
    {"P rested, rest 5001", P_RESTED, 24, 0x89, 6, 17, "refused 6 at 17\n"},
    {"version 3, row 7", P_RESTED, 18, 0xFE, 7, 17, "refused 7 at 17\n"},
    {"version 3, row 8", P_RESTED, 26, 0x41, 8, 26, "refused 8 at 26\n"},
    {"version 3, row 9", P_RESTED, 27, 0x0C, 9, 27, "refused 9 at 27\n"},
    {"P rested, note 1 longer than the file", P_RESTED, 41, 0x0E, 3, 41, "refused 3 at 41\n"},
    {"P rested, bytes remain", P_RESTED, 26, 0x01, 3, 41, "refused 3 at 41\n"},
    {"P rested, a note is missing", P_RESTED, 26, 0x03, 3, 55, "refused 3 at 55\n"},
    {"version 3, row 10", P_RESTED, 42, 0x42, 10, 41, "refused 10 at 41\n"},
    {"version 3, row 11", P_RESTED, 32, 0x06, 11, 27, "refused 11 at 27\n"},
    {"version 3, row 12", P_RESTED_WAITING, UNCHANGED_3, 12, 41, "refused 12 at 41\n"},
};

#define M1_TEXT                                                    \
    "stroke 0 key C4 bell 0 ends 1..2 response 1..2 due 3600000\n" \
    "stroke 1 key D4 bell 1 ends 4..5 response 4..5 due 3600000\n" \
    "bell 0 strokes 1 hold 2\n"                                    \
    "bell 1 strokes 1 hold 3\n"                                    \
    "accepted strokes 2 states 3 hold 5\n"
#define M5_TEXT                                                    \
    "stroke 0 key C4 bell 0 ends 2..2 response 2..2 due 3600000\n" \
    "stroke 1 key D4 bell 1 ends 5..5 response 5..5 due 3600000\n" \
    "stroke 2 key E4 bell 2 ends 3..5 response 3..5 due 3600000\n" \
    "bell 0 strokes 1 hold 2\n"                                    \
    "bell 1 strokes 1 hold 5\n"                                    \
    "bell 2 strokes 1 hold 3\n"                                    \
    "accepted strokes 3 states 4 hold 10\n"
#define M6_TEXT                                                    \
    "stroke 0 key C4 bell 0 ends 2..4 response 2..4 due 3600000\n" \
    "stroke 1 key D4 bell 1 ends 3..5 response 3..5 due 3600000\n" \
    "stroke 2 key E4 bell 2 ends 5..6 response 2..3 due 3600000\n" \
    "bell 0 strokes 1 hold 4\n"                                    \
    "bell 1 strokes 1 hold 1\n"                                    \
    "bell 2 strokes 1 hold 2\n"                                    \
    "accepted strokes 3 states 5 hold 7\n"
#define M7_TEXT                                                    \
    "stroke 0 key C4 bell 0 ends 1..1 response 1..1 due 3600000\n" \
    "stroke 1 key D4 bell 1 ends 2..2 response 2..2 due 3600000\n" \
    "bell 0 strokes 1 hold 1\n"                                    \
    "bell 1 strokes 1 hold 1\n"                                    \
    "accepted strokes 2 states 3 hold 2\n"
#define ONE_TEXT(key) \
    "stroke 0 key " key " bell 0 ends 1..1 response 1..1 due 3600000\nbell 0 strokes 1 hold 1\naccepted strokes 1 states 2 hold 1\n"
#define M8_TEXT "accepted strokes 0 states 1 hold 0\n"
/* Lines of bells rise by number, though strokes fall; 40 thrice is 120. */
#define FALLING_TEXT                                                       \
    "stroke 0 key F4 bell 3 ends 20..40 response 20..40 due 40\n"          \
    "stroke 1 key E4 bell 2 ends 6003..6005 response 3..5 due 6005\n"      \
    "stroke 2 key F4 bell 3 ends 12020..12040 response 20..40 due 12040\n" \
    "stroke 3 key C4 bell 0 ends 18001..18002 response 1..2 due 18002\n"   \
    "stroke 4 key F4 bell 3 ends 24020..24040 response 20..40 due 24040\n" \
    "bell 0 strokes 1 hold 2\n"                                            \
    "bell 2 strokes 1 hold 5\n"                                            \
    "bell 3 strokes 3 hold 120\n"                                          \
    "accepted strokes 5 states 6 hold 127\n"

/* Files that are read. P, M1 and M7: W = 8; M5 and M6: W = 12; M8: W = 4, on 8 drivers 18; FALLING: W = 14. */
static const struct {
    const char *name, *hex;
    size_t at;
    uint8_t byte;
    struct outcome outcome;
} walks[] = {
    {"P", P, UNCHANGED, {0, 0, 13, 0, FULL_AT("0")}},
    {"P", P, UNCHANGED, {1, 0, 13, 0, FULL_AT("0")}},
    {"P", P, UNCHANGED, {15, 0, 13, 0, FULL_AT("0")}},
    {"P", P, UNCHANGED, {16, 16, 13, 1, FULL_AT("1")}},
    {"P", P, UNCHANGED, {17, 16, 13, 1, FULL_AT("1")}},
    {"P", P, UNCHANGED, {31, 16, 13, 1, FULL_AT("1")}},
    {"P", P, UNCHANGED, {32, 32, 0, 0, P_TEXT}},
    {"P", P, UNCHANGED, {33, 32, 0, 0, P_TEXT}},
    {"P", P, UNCHANGED, {47, 32, 0, 0, P_TEXT}},
    {"P", P, UNCHANGED, {16383, 16368, 0, 0, P_TEXT}},
    {"P", P, UNCHANGED, {16384, 16384, 0, 0, P_TEXT}},
    {"P, stroke 0 due 6", P, 35, 0x06, {15, 0, 13, 0, FULL_AT("0")}},
    {"P, stroke 0 due 6", P, 35, 0x06, {31, 16, 13, 1, FULL_AT("1")}},
    {"P, stroke 0 due 6", P, 35, 0x06, {33, 32, 14, 0, "refused 14 stroke 0 ends 6..7\n"}},
    {"P, stroke 0 due 6", P, 35, 0x06, {16384, 16384, 14, 0, "refused 14 stroke 0 ends 6..7\n"}},
    {"P, stroke 1 due 5", P, 49, 0x05, {16384, 16384, 14, 1, "refused 14 stroke 1 ends 6..6\n"}},
    {"M1", M1, UNCHANGED, {15, 0, 13, 0, FULL_AT("0")}},
    {"M1", M1, UNCHANGED, {16, 16, 0, 0, M1_TEXT}},
    {"M1", M1, UNCHANGED, {16384, 16384, 0, 0, M1_TEXT}},
    {"M5", M5, UNCHANGED, {23, 0, 13, 0, FULL_AT("0")}},
    {"M5", M5, UNCHANGED, {25, 24, 0, 0, M5_TEXT}},
    {"M5", M5, UNCHANGED, {16384, 16368, 0, 0, M5_TEXT}},
    {"M6", M6, UNCHANGED, {24, 24, 13, 2, FULL_AT("2")}},
    {"M6", M6, UNCHANGED, {47, 24, 13, 2, FULL_AT("2")}},
    {"M6", M6, UNCHANGED, {48, 48, 0, 0, M6_TEXT}},
    {"M6", M6, UNCHANGED, {16384, 16368, 0, 0, M6_TEXT}},
    {"M7", M7, UNCHANGED, {16, 16, 0, 0, M7_TEXT}},
    {"M7", M7, UNCHANGED, {16384, 16384, 0, 0, M7_TEXT}},
    {"M8", M8, UNCHANGED, {7, 0, 13, 0, FULL_AT("0")}},
    {"M8", M8, UNCHANGED, {8, 8, 0, 0, M8_TEXT}},
    {"M8", M8, UNCHANGED, {9, 8, 0, 0, M8_TEXT}},
    {"M8", M8, UNCHANGED, {16384, 16384, 0, 0, M8_TEXT}},
    {"M8 on 8 drivers", M8_ON_8, UNCHANGED, {35, 0, 13, 0, FULL_AT("0")}},
    {"M8 on 8 drivers", M8_ON_8, UNCHANGED, {37, 36, 0, 0, M8_TEXT}},
    {"bells in falling order", FALLING, UNCHANGED, {28, 28, 0, 0, FALLING_TEXT}},
    {"bells in falling order", FALLING, UNCHANGED, {16384, 16380, 0, 0, FALLING_TEXT}},
};

/* Files of version 2 that are read. One stroke: W = 6. The text has the key that sounds, also where the one that is written is no bell's. */
static const struct {
    const char *name, *hex;
    struct outcome outcome;
} shifts[] = {
    {"P shifted", P_SHIFTED, {15, 0, 13, 0, FULL_AT("0")}},
    {"P shifted", P_SHIFTED, {31, 16, 13, 1, FULL_AT("1")}},
    {"P shifted", P_SHIFTED, {33, 32, 0, 0, P_TEXT}},
    {"P shifted", P_SHIFTED, {16384, 16384, 0, 0, P_TEXT}},
    {"key 60 shifted by 0", ONE_STROKE("00", "3C", "3C"), {16384, 16380, 0, 0, ONE_TEXT("C4")}},
    {"key 60 shifted by -4", ONE_STROKE("FC", "38", "3C"), {16384, 16380, 0, 0, ONE_TEXT("G#3")}},
    {"key 60 shifted by 24", ONE_STROKE("18", "54", "3C"), {16384, 16380, 0, 0, ONE_TEXT("C6")}},
    {"key 143 shifted by -24", ONE_STROKE("E8", "77", "8F"), {16384, 16380, 0, 0, ONE_TEXT("B8")}},
    {"key 120 shifted by -1", ONE_STROKE("FF", "77", "78"), {16384, 16380, 0, 0, ONE_TEXT("B8")}},
    {"key 36 shifted by -24", ONE_STROKE("E8", "0C", "24"), {16384, 16380, 0, 0, ONE_TEXT("C0")}},
    {"key 0 shifted by 24", ONE_STROKE("18", "18", "00"), {16384, 16380, 0, 0, ONE_TEXT("C1")}},
    {"key 0 shifted by 12", ONE_STROKE("0C", "0C", "00"), {16384, 16380, 0, 0, ONE_TEXT("C0")}},
    {"key 11 shifted by 1", ONE_STROKE("01", "0C", "0B"), {16384, 16380, 0, 0, ONE_TEXT("C0")}},
    {"key 95 shifted by 24", ONE_STROKE("18", "77", "5F"), {16384, 16380, 0, 0, ONE_TEXT("B8")}},
};

/* Two strokes of a bell that holds for 2..3 and rests for 5, on one driver; the second is ready at 7..8. W = 8. The rest stands at 14, its due time at 42. */
#define TWICE "03 00000029 01 00 01 3C00 0002 0003 0005 01 02 0D 3C 00000000 00000000 00000003 0D 3C 00000000 00000000 0000000B"
#define TWICE_LISTED "03 0000002A 01 00 01 3C00 0002 0003 0005 01 02 0D 3C 00000000 00000000 00000003 0E 3C 00000000 00000000 0000000B 00"
#define TWICE_TEXT                                              \
    "stroke 0 key C4 bell 0 ends 2..3 response 2..3 due 3\n"    \
    "stroke 1 key C4 bell 0 ends 9..11 response 9..11 due 11\n" \
    "bell 0 strokes 2 hold 6\n"                                 \
    "accepted strokes 2 states 3 hold 6\n"
/* The same without the rest: the second is ready at 2..3. */
#define RESTLESS_TEXT                                         \
    "stroke 0 key C4 bell 0 ends 2..3 response 2..3 due 3\n"  \
    "stroke 1 key C4 bell 0 ends 4..6 response 4..6 due 11\n" \
    "bell 0 strokes 2 hold 6\n"                               \
    "accepted strokes 2 states 3 hold 6\n"

/* Two strokes of bell 0, called at 0, beside another note, on one driver. W = 10. Rests stand at 14 and 23, due times at 37, 51 and 65. */
#define BESIDE(bell_0, bell_1, due_0, due_1, note_2) \
    "01 00 02" bell_0 bell_1 "03 0D 3C 00000000 00000000" due_0 "0D 3C 00000000 00000000" due_1 note_2
/*
 * Two strokes of a bell of rank 1 that holds for 2 and rests for 5, and a lesser stroke that holds for 3..9. It starts at 2, when the first has ended, and ends
 * at 5..11; the second, ready at 7, starts at 7..11. Where it lists the first, both wait for that, but the rest of 5 is for the second alone, so that this wait
 * of the second is not left out.
 */
#define LESSER "03 00000040" BESIDE("3C00 0002 0002 0005 01", "3E00 0003 0009 0000 02", "00000002", "0000000D", "0D 3E 00000000 00000000 0000000B")
#define LESSER_LISTING \
    "03 00000041" BESIDE("3C00 0002 0002 0005 01", "3E00 0003 0009 0000 02", "00000002", "0000000D", "0E 3E 00000000 00000000 0000000B 00")
#define LESSER_TEXT                                             \
    "stroke 0 key C4 bell 0 ends 2..2 response 2..2 due 2\n"    \
    "stroke 1 key C4 bell 0 ends 9..13 response 9..13 due 13\n" \
    "stroke 2 key D4 bell 1 ends 5..11 response 5..11 due 11\n" \
    "bell 0 strokes 2 hold 4\n"                                 \
    "bell 1 strokes 1 hold 9\n"                                 \
    "accepted strokes 3 states 4 hold 13\n"
/*
 * The lesser stroke holds for 3 and is called at 0..20. Level 2 has two states: the second stroke started, at 7, or the lesser one, at 2..6. Then the lesser
 * one starts at 9..20, or the second at 7..9; the drivers are free at 12..23, or at 9..11, so the states are not joined.
 */
#define EITHER "03 00000040" BESIDE("3C00 0002 0002 0005 01", "3E00 0003 0003 0000 02", "00000002", "0000000B", "0D 3E 00000000 00000014 00000017")
#define EITHER_LISTING \
    "03 00000041" BESIDE("3C00 0002 0002 0005 01", "3E00 0003 0003 0000 02", "00000002", "0000000B", "0E 3E 00000000 00000014 00000017 00")
#define EITHER_TEXT                                             \
    "stroke 0 key C4 bell 0 ends 2..2 response 2..2 due 2\n"    \
    "stroke 1 key C4 bell 0 ends 9..11 response 9..11 due 11\n" \
    "stroke 2 key D4 bell 1 ends 5..23 response 5..23 due 23\n" \
    "bell 0 strokes 2 hold 4\n"                                 \
    "bell 1 strokes 1 hold 3\n"                                 \
    "accepted strokes 3 states 6 hold 7\n"
/*
 * The other stroke has rank 1 and lists the first, which holds for 2..4; the second has rank 2, and its bell rests for 1. Both wait for the first, the other
 * one without a rest, so that this wait of it is left out: called at 0, it always goes before the second, at 2..4.
 */
#define GREATER "03 00000041" BESIDE("3C00 0002 0004 0001 02", "3E00 0003 0003 0000 01", "00000004", "0000000B", "0E 3E 00000000 00000000 00000007 00")
#define GREATER_TEXT                                            \
    "stroke 0 key C4 bell 0 ends 2..4 response 2..4 due 4\n"    \
    "stroke 1 key C4 bell 0 ends 7..11 response 7..11 due 11\n" \
    "stroke 2 key D4 bell 1 ends 5..7 response 5..7 due 7\n"    \
    "bell 0 strokes 2 hold 8\n"                                 \
    "bell 1 strokes 1 hold 3\n"                                 \
    "accepted strokes 3 states 4 hold 11\n"

/* Files of version 3 that are read. In all but P rests matter. */
static const struct {
    const char *name, *hex;
    size_t at;
    uint8_t byte;
    struct outcome outcome;
} rests[] = {
    {"P rested", P_RESTED, UNCHANGED_3, {15, 0, 13, 0, FULL_AT("0")}},
    {"P rested", P_RESTED, UNCHANGED_3, {31, 16, 13, 1, FULL_AT("1")}},
    {"P rested", P_RESTED, UNCHANGED_3, {33, 32, 0, 0, P_TEXT}},
    {"P rested", P_RESTED, UNCHANGED_3, {16384, 16384, 0, 0, P_TEXT}},
    {"P rested, stroke 0 due 6", P_RESTED, 40, 0x06, {16384, 16384, 14, 0, "refused 14 stroke 0 ends 6..7\n"}},
    {"a bell twice", TWICE, UNCHANGED_3, {15, 0, 13, 0, FULL_AT("0")}},
    {"a bell twice", TWICE, UNCHANGED_3, {16, 16, 0, 0, TWICE_TEXT}},
    {"a bell twice", TWICE, UNCHANGED_3, {16384, 16384, 0, 0, TWICE_TEXT}},
    {"a bell twice, listed", TWICE_LISTED, UNCHANGED_3, {16384, 16384, 0, 0, TWICE_TEXT}},
    {"a bell twice, rest 0", TWICE, 15, 0x00, {16384, 16384, 0, 0, RESTLESS_TEXT}},
    {"a bell twice, rest 6", TWICE, 15, 0x06, {16384, 16384, 14, 1, "refused 14 stroke 1 ends 10..12\n"}},
    {"a bell twice, rest 4869", TWICE, 14, 0x13, {16384, 16384, 14, 1, "refused 14 stroke 1 ends 4873..4875\n"}},
    {"a bell twice, listed, rest 6", TWICE_LISTED, 15, 0x06, {16384, 16384, 14, 1, "refused 14 stroke 1 ends 10..12\n"}},
    {"a bell twice, stroke 1 due 10", TWICE, 45, 0x0A, {16, 16, 14, 1, "refused 14 stroke 1 ends 9..11\n"}},
    {"a bell twice, on two drivers", TWICE, 5, 0x02, {16384, 16380, 0, 0, TWICE_TEXT}},
    {"a lesser stroke between", LESSER, UNCHANGED_3, {19, 0, 13, 0, FULL_AT("0")}},
    {"a lesser stroke between", LESSER, UNCHANGED_3, {20, 20, 0, 0, LESSER_TEXT}},
    {"a lesser stroke between", LESSER, UNCHANGED_3, {16384, 16380, 0, 0, LESSER_TEXT}},
    {"a lesser stroke between, its bell rests", LESSER, 24, 0xFF, {16384, 16380, 0, 0, LESSER_TEXT}},
    {"a lesser stroke between, stroke 1 due 12", LESSER, 54, 0x0C, {16384, 16380, 14, 1, "refused 14 stroke 1 ends 9..13\n"}},
    {"a lesser stroke between, stroke 2 due 10", LESSER, 68, 0x0A, {16384, 16380, 14, 2, "refused 14 stroke 2 ends 5..11\n"}},
    {"a lesser stroke that lists stroke 0", LESSER_LISTING, UNCHANGED_3, {16384, 16380, 0, 0, LESSER_TEXT}},
    {"either order", EITHER, UNCHANGED_3, {39, 20, 13, 2, FULL_AT("2")}},
    {"either order", EITHER, UNCHANGED_3, {40, 40, 0, 0, EITHER_TEXT}},
    {"either order", EITHER, UNCHANGED_3, {16384, 16380, 0, 0, EITHER_TEXT}},
    {"either order, listing stroke 0", EITHER_LISTING, UNCHANGED_3, {16384, 16380, 0, 0, EITHER_TEXT}},
    {"a greater stroke that lists stroke 0", GREATER, UNCHANGED_3, {20, 20, 0, 0, GREATER_TEXT}},
    {"a greater stroke that lists stroke 0", GREATER, UNCHANGED_3, {16384, 16380, 0, 0, GREATER_TEXT}},
    {"a greater stroke that lists stroke 0, rest 9", GREATER, 15, 0x09, {16384, 16380, 14, 1, "refused 14 stroke 1 ends 13..17\n"}},
};

static void try_refusals(void)
{
    static const size_t tables[] = {0, 1, 31, 32, 33, 16384};
    struct outcome outcome = {0, 0, 2, 0, "refused 2 at 0\n"};
    struct file file = from_hex("the empty file", "");
    size_t i, t;
    for (t = 0; t < sizeof tables / sizeof *tables; t++) {
        outcome.words = tables[t];
        try_outcome(&file, &outcome);
    }
    for (i = 0; i < sizeof refusals / sizeof *refusals; i++) {
        file = from_hex(refusals[i].name, refusals[i].hex);
        file.bytes[refusals[i].at] = refusals[i].byte;
        outcome.number = refusals[i].number;
        outcome.place = refusals[i].place;
        outcome.text = refusals[i].text;
        for (t = 0; t < sizeof tables / sizeof *tables; t++) {
            outcome.words = tables[t];
            try_outcome(&file, &outcome);
        }
    }
}

/* In version 1, in version 2 with a shift, mostly another each time, and so in version 3, with rests that hold no stroke back. */
static void try_walks(void)
{
    size_t i;
    for (i = 0; i < sizeof walks / sizeof *walks; i++) {
        struct file file = from_hex(walks[i].name, walks[i].hex), moved, resting;
        file.bytes[walks[i].at] = walks[i].byte;
        moved = shifted(&file, 24 - (int)i * 5 % 49);
        resting = rested_alike(&moved, 5000 - (uint32_t)i * 137);
        try_outcome(&file, &walks[i].outcome);
        try_outcome(&moved, &walks[i].outcome);
        try_outcome(&resting, &walks[i].outcome);
    }
}

static void try_shifts(void)
{
    size_t i;
    for (i = 0; i < sizeof shifts / sizeof *shifts; i++) {
        struct file file = from_hex(shifts[i].name, shifts[i].hex);
        try_outcome(&file, &shifts[i].outcome);
    }
}

static void try_rests(void)
{
    size_t i;
    for (i = 0; i < sizeof rests / sizeof *rests; i++) {
        struct file file = from_hex(rests[i].name, rests[i].hex);
        file.bytes[rests[i].at] = rests[i].byte;
        try_outcome(&file, &rests[i].outcome);
    }
}

/* P's text has 189 bytes. Where all but its bells' lines of 24 bytes each would fit, in 141, and in 188, no byte is written. */
static void try_bells_short(void)
{
    static const size_t sizes[] = {141, 188, 189};
    static const struct outcome outcome = {16384, 16384, 0, 0, P_TEXT};
    struct file file = from_hex("P", P);
    size_t s;
    int i;
    snprintf(trial, sizeof trial, "P's text as this test has it");
    expect_number(strlen(P_TEXT), 189, "its length");
    for (i = 0; i < SETTINGS; i++)
        for (s = 0; s < sizeof sizes / sizeof *sizes; s++) {
            try_report_with(&file, &outcome, sizes[s], setting_number(i));
            try_report(&file, &outcome, sizes[s], setting_number(i));
        }
}

/* ---- Larger files ---- */

static const char *const names[] = {"C", "C#", "D", "D#", "E", "F", "F#", "G", "G#", "A", "A#", "B"};

/* Strokes on one driver, each on its own bell, any of which may go first: level 1 has a state for each. */
static void try_level_full(unsigned strokes, struct outcome outcome)
{
    struct file file = begin("strokes that may all go first", 1, strokes);
    unsigned i;
    for (i = 0; i < strokes; i++)
        add_bell(&file, 12 + i, 1, 1, 1);
    add_byte(&file, strokes);
    for (i = 0; i < strokes; i++)
        add_note(&file, 12 + i, 0, 100, 3600000);
    finish(&file);
    try_outcome(&file, &outcome);
}

/*
 * 64 strokes, one after the other on 8 drivers, of bell 10 or, each waiting for the one before it, of bells 10 to 73. Stroke 0 is called at 1000000..3000000,
 * the others at 0; each holds its driver for 5000, and then the bell rests.
 */
static struct file one_by_one(const char *name, unsigned struck)
{
    struct file file = begin(name, 8, 10 + struck);
    unsigned i;
    for (i = 0; i < 10 + struck; i++)
        add_bell(&file, 12 + i, 5000, 5000, 1);
    add_byte(&file, 64);
    for (i = 0; i < 64; i++) {
        add_note(&file, 22 + i % struck, i == 0 ? 1000000 : 0, i == 0 ? 3000000 : 0, 3600000);
        if (struck > 1 && i > 0)
            add_waits(&file, i - 1, 1);
    }
    finish(&file);
    return file;
}

/*
 * Its text. With keys like A#0 the strokes' lines have 82 bytes, 9 times 85 and 54 times 86; the last line has 42. Of one bell, with its line of 31, that makes
 * 5,564. Of 64 bells, 37 of which have a shorter key, with 64 lines of 28, it makes 7,288: nearly the longest that there is, for none has over 7,346.
 */
static void write_longest_text(char *text, unsigned struck, unsigned rest)
{
    size_t length = (size_t)sprintf(text, "stroke 0 key A#0 bell 10 ends 1005000..3005000 response 5000..2005000 due 3600000\n");
    unsigned i;
    for (i = 1; i < 64; i++) {
        unsigned earliest = 1005000 + (5000 + rest) * i, latest = 3005000 + (5000 + rest) * i, key = 22 + i % struck;
        length += (size_t)sprintf(text + length, "stroke %u key %s%u bell %u ends %u..%u response %u..%u due 3600000\n", i, names[key % 12], key / 12 - 1,
                                  10 + i % struck, earliest, latest, earliest, latest);
    }
    for (i = 0; i < struck; i++)
        length += (size_t)sprintf(text + length, "bell %u strokes %u hold %u\n", 10 + i, 64 / struck, 64 / struck * 5000);
    length += (size_t)sprintf(text + length, "accepted strokes 64 states 65 hold 320000\n");
    snprintf(trial, sizeof trial, "the longest text as this test writes it, of %u bells", struck);
    expect_number(length, struck == 1 ? 5564 : 7288, "its length");
}

/* W = 146. A rest of 4444 is the longest after which the last stroke, which ends at 3005000 + 63 * 9444 at the latest, is in time. */
static void try_longest_text(void)
{
    static char text[MOST_TEXT];
    struct file file = one_by_one("64 strokes of one bell", 1), apart = one_by_one("64 strokes of 64 bells", 64), late;
    struct outcome full = {291, 0, 13, 0, FULL_AT("0")}, exact = {292, 292, 0, 0, text}, own = {16384, 16352, 0, 0, text};
    struct outcome last = {16384, 16352, 14, 63, "refused 14 stroke 63 ends 1600035..3600035\n"};

    write_longest_text(text, 64, 0);
    try_outcome(&apart, &own);
    write_longest_text(text, 1, 0);
    try_outcome(&file, &full);
    try_outcome(&file, &exact);
    try_outcome(&file, &own);
    file = shifted(&file, -3);
    try_outcome(&file, &exact);
    try_outcome(&file, &own);
    late = rested_alike(&file, 4445);
    try_outcome(&late, &last);
    file = rested_alike(&file, 4444);
    write_longest_text(text, 1, 4444);
    try_outcome(&file, &full);
    try_outcome(&file, &exact);
    try_outcome(&file, &own);
}

/*
 * The longest file in each version: stroke i waits for the one before it, of another bell, and holds for 1..5000, so it ends at i + 1..5000 (i + 1). No bell is
 * struck twice, so no rest matters. They are struck from 95 down to 32, and their lines rise. W = 146.
 */
static void try_longest_file(void)
{
    static char text[MOST_TEXT];
    struct file file = longest();
    struct outcome full = {291, 0, 13, 0, FULL_AT("0")}, own = {16384, 16352, 0, 0, text};
    size_t length = 0;
    unsigned i;
    for (i = 0; i < 64; i++)
        length += (size_t)sprintf(text + length, "stroke %u key %s%u bell %u ends %u..%u response %u..%u due 3600000\n", i, names[(107 - i) % 12],
                                  (107 - i) / 12 - 1, 95 - i, i + 1, 5000 * (i + 1), i + 1, 5000 * (i + 1));
    for (i = 32; i < 96; i++)
        length += (size_t)sprintf(text + length, "bell %u strokes 1 hold 5000\n", i);
    sprintf(text + length, "accepted strokes 64 states 65 hold 320000\n");
    try_outcome(&file, &own);
    file = shifted(&file, -24);
    try_outcome(&file, &own);
    file = rested_alike(&file, 5000);
    try_outcome(&file, &full);
    try_outcome(&file, &own);
}

static void try_larger_files(void)
{
    /* 64 strokes: W = 132, and 16,384 words have room for 62 states a level. 63 strokes: W = 130, and room for 63. */
    static const struct outcome of_64 = {16384, 16368, 13, 1, FULL_AT("1")}, of_64_roomy = {16896, 16896, 13, 2, FULL_AT("2")};
    static const struct outcome of_63 = {16384, 16380, 13, 2, FULL_AT("2")}, of_63_tight = {16379, 16120, 13, 1, FULL_AT("1")};
    try_level_full(64, of_64);
    try_level_full(64, of_64_roomy);
    try_level_full(63, of_63);
    try_level_full(63, of_63_tight);
    try_longest_text();
    try_longest_file();
}

int main(void)
{
    begin_test();
    file_area = map_area(MOST_FILE);
    table_area = map_area(MOST_WORDS * sizeof(uint32_t));
    text_area = map_area(MOST_TEXT);
    phrase_area = map_area(sizeof(struct phrase));
    written_area = map_area(PHRASE_FILE_BYTES + 100);
    playing_area = map_area(1);
    starts_area = map_area(PHRASE_MOST_NOTES * sizeof(uint32_t));
    ends_area = map_area(PHRASE_MOST_NOTES * sizeof(uint32_t));
    try_refusals();
    try_walks();
    try_shifts();
    try_rests();
    try_bells_short();
    try_larger_files();
    return end_test();
}
