/*
 * Provokes every name of host/phrase.h by the calls, and holds it to the number that document 01 or request 101, 102, 104 or 106 gives: each refusal by
 * document 01's example of it, the table's words by a phrase that needs all of them, the text's bytes by a long text, the limits of a phrase and of a playing
 * by one that reaches them, and one that passes them. So a header with another number is seen. Texts have the bells' lines of request 108.
 *
 * Prints one line for each failure and a count; exit status 0 when nothing failed.
 */
#include <string.h>

#include "phrase.h"
#include "files.h"

static unsigned long checks, failures;

static void expect(const char *about, const char *what, uint64_t found, uint64_t due)
{
    checks++;
    if (found == due)
        return;
    failures++;
    printf("names: FAILED: %s: %s is %llu, not %llu\n", about, what, (unsigned long long)found, (unsigned long long)due);
}

/* ---- What checks answer ---- */

#define NAMED(name) #name, name
#define NOT_SHOWN                                                                                                                          \
    "01 0000003B 01 02 3C0000010002 01 3E0000030003 02 03 0D 3C 00000000 00000000 00000002 0D 3C 00000000 00000000 00000004 0D 3E 00000001" \
    "00000001 00000007"
/* Two strokes of a bell that holds for 2 and rests for 5, on one driver: the second ends at 2 + 5 + 2 = 9, its due time. */
#define RESTING "03 00000029 01 00 01 3C00 0002 0002 0005 01 02 0D 3C 00000000 00000000 00000002 0D 3C 00000000 00000000 00000009"
enum { OWN = 0 }; /* words of a table: that of phrase_check */

/* Document 01's examples: a file, P with a byte changed mostly; the words of the table; number and place. Then versions 2 and 3 of those that differ there. */
static const struct {
    const char *name;
    enum phrase_number named;
    const char *hex;
    size_t at;
    uint8_t byte;
    size_t words;
    uint32_t number, place;
} answers[] = {
    {NAMED(PHRASE_ACCEPTED), P, UNCHANGED, OWN, 0, 0},
    {NAMED(PHRASE_VERSION), "09", 0, 0x09, OWN, 1, 0},
    {NAMED(PHRASE_COUNT), "01 00 00", UNCHANGED, OWN, 2, 0},
    {NAMED(PHRASE_END), "01 00000001 01", UNCHANGED, OWN, 3, 6},
    {NAMED(PHRASE_DRIVERS), "01 00000001 00", UNCHANGED, OWN, 4, 5},
    {NAMED(PHRASE_BELLS), "01 00000002 01 00", UNCHANGED, OWN, 5, 6},
    {NAMED(PHRASE_BELL_FIELD), P, 7, 0x0B, OWN, 6, 7},
    {NAMED(PHRASE_SAME_KEY), P, 15, 0xFE, OWN, 7, 14},
    {NAMED(PHRASE_STROKES), P, 21, 0x41, OWN, 8, 21},
    {NAMED(PHRASE_NOTE_LENGTH), P, 22, 0x0C, OWN, 9, 22},
    {NAMED(PHRASE_NO_BELL), P, 37, 0x3E, OWN, 10, 36},
    {NAMED(PHRASE_TIMES), P, 27, 0x06, OWN, 11, 22},
    {NAMED(PHRASE_WAITS), P_WAITING, UNCHANGED, OWN, 12, 36},
    {NAMED(PHRASE_TABLE_FULL), P, UNCHANGED, 31, 13, 1},
    {NAMED(PHRASE_LATE), P, 35, 0x06, OWN, 14, 0},
    /* docs/FORMAT.md's phrase that is on time in all of its runs, with and without the bound of stroke 1, which is 6, in time. */
    {NAMED(PHRASE_LATE), NOT_SHOWN, UNCHANGED, OWN, 14, 1},
    {NAMED(PHRASE_LATE), NOT_SHOWN, 49, 0x05, OWN, 14, 1},
    {NAMED(PHRASE_ACCEPTED), NOT_SHOWN, 49, 0x06, OWN, 0, 0},

    {NAMED(PHRASE_ACCEPTED), P_SHIFTED, UNCHANGED_2, OWN, 0, 0},
    {NAMED(PHRASE_VERSION), P_SHIFTED, 0, 0x04, OWN, 1, 0},
    {NAMED(PHRASE_END), "02 00000001 01", UNCHANGED_2, OWN, 3, 6},
    {NAMED(PHRASE_END), "02 00000002 01 00", UNCHANGED_2, OWN, 3, 7},
    {NAMED(PHRASE_DRIVERS), "02 00000003 00 19 00", UNCHANGED_2, OWN, 4, 5},
    {NAMED(PHRASE_SHIFT), "02 00000003 01 19 00", UNCHANGED_2, OWN, 19, 6},
    {NAMED(PHRASE_SHIFT), P_SHIFTED, 6, 0x19, OWN, 19, 6},
    {NAMED(PHRASE_SHIFT), P_SHIFTED, 6, 0xE7, 31, 19, 6},
    {NAMED(PHRASE_BELLS), "02 00000003 01 18 00", UNCHANGED_2, OWN, 5, 7},
    {NAMED(PHRASE_NO_BELL), P_SHIFTED, 6, 0xFB, OWN, 10, 23},
    {NAMED(PHRASE_LATE), P_SHIFTED, 36, 0x06, OWN, 14, 0},

    {NAMED(PHRASE_ACCEPTED), P_RESTED, UNCHANGED_3, OWN, 0, 0},
    {NAMED(PHRASE_VERSION), P_RESTED, 0, 0x04, OWN, 1, 0},
    {NAMED(PHRASE_END), "03 00000001 01", UNCHANGED_3, OWN, 3, 6},
    {NAMED(PHRASE_END), "03 0000000A 01 00 01 3C0000020002 00", UNCHANGED_3, OWN, 3, 8},
    {NAMED(PHRASE_SHIFT), P_RESTED, 6, 0x19, OWN, 19, 6},
    {NAMED(PHRASE_BELLS), "03 00000003 01 18 00", UNCHANGED_3, OWN, 5, 7},
    {NAMED(PHRASE_BELL_FIELD), P_RESTED, 14, 0x14, OWN, 6, 8},  /* a rest of 5127 */
    {NAMED(PHRASE_BELL_FIELD), P_RESTED, 24, 0x89, OWN, 6, 17}, /* a rest of 5001 */
    {NAMED(PHRASE_SAME_KEY), P_RESTED, 18, 0xFE, OWN, 7, 17},
    {NAMED(PHRASE_STROKES), P_RESTED, 26, 0x41, OWN, 8, 26},
    {NAMED(PHRASE_NOTE_LENGTH), P_RESTED, 27, 0x0C, OWN, 9, 27},
    {NAMED(PHRASE_NO_BELL), P_RESTED, 42, 0x42, OWN, 10, 41},
    {NAMED(PHRASE_TIMES), P_RESTED, 32, 0x06, OWN, 11, 27},
    {NAMED(PHRASE_WAITS), P_RESTED_WAITING, UNCHANGED_3, OWN, 12, 41},
    {NAMED(PHRASE_TABLE_FULL), P_RESTED, UNCHANGED_3, 31, 13, 1},
    {NAMED(PHRASE_LATE), P_RESTED, 40, 0x06, OWN, 14, 0},
    {NAMED(PHRASE_ACCEPTED), RESTING, UNCHANGED_3, OWN, 0, 0},
    {NAMED(PHRASE_LATE), RESTING, 15, 0x06, OWN, 14, 1}, /* a rest of 6 */
    {NAMED(PHRASE_LATE), RESTING, 45, 0x08, OWN, 14, 1},
};

static void try_answers(void)
{
    size_t i;
    for (i = 0; i < sizeof answers / sizeof *answers; i++) {
        struct file file = from_hex(answers[i].name, answers[i].hex);
        uint32_t table[31];
        uint64_t answer;
        file.bytes[answers[i].at] = answers[i].byte;
        answer = answers[i].words == OWN ? phrase_check(file.bytes, file.size) : phrase_check_with(file.bytes, file.size, table, answers[i].words);
        expect(file.name, "the name", answers[i].named, answers[i].number);
        expect(file.name, "the refusal", phrase_refusal(answer), answers[i].named);
        expect(file.name, "its place", phrase_place(answer), answers[i].place);
    }
}

/* ---- An answer taken apart ---- */

/* Places over 255, too: the last of 62 notes has a key for which no bell sounds. 7 + 3 * 7 + 1 bytes and 61 notes of 14 come before it. */
static void try_parts(void)
{
    struct file file = crowded();
    uint64_t answer;
    file.bytes[883 + 1] = 59;
    answer = phrase_check(file.bytes, file.size);
    expect("a place far off", "the refusal", phrase_refusal(answer), PHRASE_NO_BELL);
    expect("a place far off", "its place", phrase_place(answer), 883);
    expect("phrase_refusal", "the upper half", phrase_refusal(UINT64_C(0x0123456789ABCDEF)), 0x01234567);
    expect("phrase_place", "the lower half", phrase_place(UINT64_C(0x0123456789ABCDEF)), 0x89ABCDEF);
}

/* ---- A text that does not fit ---- */

/* The number of a report, as a host that keeps document 01's numbers has it. */
static enum phrase_number report_number(uint64_t answer, size_t length)
{
    return length == 0 ? PHRASE_TEXT_SHORT : (enum phrase_number)phrase_refusal(answer);
}

/* P's text has 53 + 53 bytes for its strokes, 24 + 24 for its bells and 35 for the last line: 189, and 141 without the bells' lines. */
static void try_text_short(void)
{
    struct file p = from_hex("PHRASE_TEXT_SHORT", P);
    uint64_t answer = phrase_check(p.bytes, p.size);
    uint32_t table[32];
    uint8_t text[189];
    expect(p.name, "the number of P in 10 bytes", report_number(answer, phrase_report(p.bytes, p.size, text, 10)), 15);
    expect(p.name, "the same with a lent table", report_number(answer, phrase_report_with(p.bytes, p.size, table, 32, text, 10)), 15);
    expect(p.name, "the number of P in 141 bytes", report_number(answer, phrase_report(p.bytes, p.size, text, 141)), 15);
    expect(p.name, "the number of P in 188 bytes", report_number(answer, phrase_report(p.bytes, p.size, text, 188)), 15);
    expect(p.name, "the number of P in 189 bytes", report_number(answer, phrase_report(p.bytes, p.size, text, 189)), 0);
}

/* ---- A file that does not fit ---- */

static void try_file_short(void)
{
    struct file p = from_hex("PHRASE_FILE_SHORT", P);
    struct phrase phrase;
    uint8_t file[50];
    uint64_t answer;
    expect(p.name, "the name", PHRASE_FILE_SHORT, 16);
    expect(p.name, "the answer to reading P", phrase_read(p.bytes, p.size, &phrase), PHRASE_ACCEPTED);
    answer = phrase_write(&phrase, file, 49);
    expect(p.name, "the number of P in 49 bytes", phrase_refusal(answer), PHRASE_FILE_SHORT);
    expect(p.name, "its place", phrase_place(answer), 0);
    answer = phrase_write(&phrase, file, 50);
    expect(p.name, "the number of P in 50 bytes", phrase_refusal(answer), PHRASE_ACCEPTED);
    expect(p.name, "its length", phrase_place(answer), 50);
}

/* ---- A shift that is refused, in a file and in a phrase ---- */

static void try_shift(void)
{
    static const struct {
        uint32_t version, shift;
        enum phrase_number number;
    } writings[] = {{2, 252, PHRASE_ACCEPTED}, {2, 25, PHRASE_SHIFT}, {2, 231, PHRASE_SHIFT}, {2, 256 + 252, PHRASE_SHIFT}, {1, 252, PHRASE_SHIFT}};
    struct file p = from_hex("PHRASE_SHIFT", P_SHIFTED);
    struct phrase phrase;
    uint8_t file[51];
    uint64_t answer;
    size_t i;
    expect(p.name, "the name", PHRASE_SHIFT, 19);
    expect(p.name, "the answer to reading P shifted", phrase_read(p.bytes, p.size, &phrase), PHRASE_ACCEPTED);
    expect(p.name, "its semitones", (uint64_t)(phrase_semitones(phrase.shift) + 24), 20);
    for (i = 0; i < sizeof writings / sizeof *writings; i++) {
        phrase.version = writings[i].version;
        phrase.shift = writings[i].shift;
        answer = phrase_write(&phrase, file, sizeof file);
        expect(p.name, "the number of writing it", phrase_refusal(answer), writings[i].number);
        expect(p.name, "its place, or the length", phrase_place(answer), writings[i].number == PHRASE_ACCEPTED ? 51 : 6);
    }
    p.bytes[6] = 25;
    answer = phrase_read(p.bytes, p.size, &phrase);
    expect(p.name, "the number of reading P shifted by 25", phrase_refusal(answer), PHRASE_SHIFT);
    expect(p.name, "its place", phrase_place(answer), 6);
}

/* ---- A rest that is refused, in a phrase: of bell 1, which stands at 17, in version 1 at 14 and in version 2 at 15 ---- */

static void try_rest(void)
{
    static const struct {
        uint32_t version, rest;
        enum phrase_number number;
        uint32_t place; /* or the length */
    } writings[] = {{3, 5000, PHRASE_ACCEPTED, 55}, {3, 0, PHRASE_ACCEPTED, 55}, {2, 0, PHRASE_ACCEPTED, 51},     {1, 0, PHRASE_ACCEPTED, 50},
                    {1, 1, PHRASE_BELL_FIELD, 14},  {2, 1, PHRASE_BELL_FIELD, 15}, {3, 5001, PHRASE_BELL_FIELD, 17}, {3, 65536, PHRASE_BELL_FIELD, 17},
                    {4, 1, PHRASE_VERSION, 0}};
    struct file p = from_hex("a rest", P_RESTED);
    struct phrase phrase;
    uint8_t file[55];
    uint64_t answer;
    size_t i;
    expect(p.name, "the answer to reading P rested", phrase_read(p.bytes, p.size, &phrase), PHRASE_ACCEPTED);
    expect(p.name, "that of bell 0", phrase.bells[0].rest, 7);
    expect(p.name, "that of bell 1", phrase.bells[1].rest, 5000);
    phrase.bells[0].rest = phrase.shift = 0;
    phrase.notes[0].key -= 4;
    phrase.notes[1].key -= 4;
    for (i = 0; i < sizeof writings / sizeof *writings; i++) {
        phrase.version = writings[i].version;
        phrase.bells[1].rest = writings[i].rest;
        answer = phrase_write(&phrase, file, sizeof file);
        expect(p.name, "the number of writing it", phrase_refusal(answer), writings[i].number);
        expect(p.name, "its place, or the length", phrase_place(answer), writings[i].place);
    }
}

/* ---- A playing that is refused ---- */

/* Playings of P: its call at 5 is its latest. */
static const struct {
    const char *name;
    enum phrase_number named;
    const char *hex;
    uint32_t number, place;
} playings[] = {
    {NAMED(PHRASE_ACCEPTED), "01 0000000C 00000005 0002 00000000 0004", 0, 0},
    {NAMED(PHRASE_PLAYING), "02 0000000C 00000005 0002 00000000 0004", 17, 0},
    {NAMED(PHRASE_PLAYING), "01 0000000D 00000005 0002 00000000 0004", 17, 0},
    {NAMED(PHRASE_PLAYING), "01 00000006 00000005 0002", 17, 0},
    {NAMED(PHRASE_OUTSIDE), "01 0000000C 00000006 0002 00000000 0004", 18, 0},
    {NAMED(PHRASE_OUTSIDE), "01 0000000C 00000005 0002 00000000 0003", 18, 1},
};

static void try_playings(void)
{
    struct file p = from_hex("P", P);
    uint32_t starts[PHRASE_MOST_NOTES], ends[PHRASE_MOST_NOTES];
    size_t i;
    for (i = 0; i < sizeof playings / sizeof *playings; i++) {
        struct file playing = from_hex(playings[i].name, playings[i].hex);
        uint64_t answer = phrase_play(p.bytes, p.size, playing.bytes, playing.size, starts, ends);
        expect(playing.name, "the name", playings[i].named, playings[i].number);
        expect(playing.name, "the refusal", phrase_refusal(answer), playings[i].named);
        expect(playing.name, "its place", phrase_place(answer), playings[i].place);
    }
}

/* ---- The limits of a phrase and of a playing ---- */

/* The number that phrase_write has for a phrase. */
static uint32_t written_number(const struct phrase *phrase)
{
    static uint8_t file[PHRASE_FILE_BYTES];
    return phrase_refusal(phrase_write(phrase, file, sizeof file));
}

static void try_limits(void)
{
    struct file file = longest(), moved = shifted(&file, -24), longer = rested_alike(&moved, 5000);
    struct phrase most, more;
    expect(file.name, "the answer to reading it", phrase_read(file.bytes, file.size, &most), PHRASE_ACCEPTED);
    expect(file.name, "the number of writing it", written_number(&most), PHRASE_ACCEPTED);
    expect("PHRASE_MOST_BELLS", "the bells", most.bell_count, PHRASE_MOST_BELLS);
    expect("PHRASE_MOST_NOTES", "the notes", most.note_count, PHRASE_MOST_NOTES);
    expect("PHRASE_MOST_WAITS", "the waits of the last note", most.notes[63].wait_count, PHRASE_MOST_WAITS);
    expect("PHRASE_FILE_BYTES", "the name", PHRASE_FILE_BYTES, 2025); /* 8 + 96 * 9 + 1 + 64 * 18; notes cannot all have four waits */
    expect("PHRASE_FILE_BYTES", "the answer to reading a longest file of version 2", phrase_read(moved.bytes, moved.size, &more), PHRASE_ACCEPTED);
    expect("PHRASE_FILE_BYTES", "the number of writing it", written_number(&more), PHRASE_ACCEPTED);
    expect("PHRASE_FILE_BYTES", "the answer to reading a longest file", phrase_read(longer.bytes, longer.size, &more), PHRASE_ACCEPTED);
    expect("PHRASE_FILE_BYTES", "the number of writing it", written_number(&more), PHRASE_ACCEPTED);
    expect("PHRASE_FILE_BYTES", "its length", longer.size, 2015);
    more = most;
    more.bell_count = PHRASE_MOST_BELLS + 1;
    expect("PHRASE_MOST_BELLS", "the refusal of one more", written_number(&more), PHRASE_BELLS);
    more = most;
    more.note_count = PHRASE_MOST_NOTES + 1;
    expect("PHRASE_MOST_NOTES", "the refusal of one more", written_number(&more), PHRASE_STROKES);
    more = most;
    more.notes[63].wait_count = PHRASE_MOST_WAITS + 1;
    expect("PHRASE_MOST_WAITS", "the refusal of one more", written_number(&more), PHRASE_NOTE_LENGTH);
}

/* A playing of a phrase with most notes, all called at 0. One byte less or more is no playing. */
static void try_playing_bytes(void)
{
    const char *about = "PHRASE_PLAYING_BYTES";
    struct file file = longest(), playing = from_hex("a longest playing", "01 00000180");
    uint32_t starts[PHRASE_MOST_NOTES], ends[PHRASE_MOST_NOTES];
    int i;
    for (i = 0; i < PHRASE_MOST_NOTES; i++) {
        add_number(&playing, 0, 4);
        add_number(&playing, 1, 2);
    }
    add_byte(&playing, 0);
    expect(about, "the name", PHRASE_PLAYING_BYTES, 389);
    expect(about, "the answer to so many", phrase_play(file.bytes, file.size, playing.bytes, PHRASE_PLAYING_BYTES, starts, ends), PHRASE_ACCEPTED);
    for (i = -1; i <= 1; i += 2)
        expect(about, "the refusal of one less or more",
               phrase_refusal(phrase_play(file.bytes, file.size, playing.bytes, (size_t)(PHRASE_PLAYING_BYTES + i), starts, ends)), PHRASE_PLAYING);
}

/* ---- The two lengths ---- */

static uint32_t table[PHRASE_TABLE_WORDS];
static uint8_t text[PHRASE_TEXT_BYTES];

static int ends_with(size_t length, const char *end)
{
    size_t size = strlen(end);
    return length >= size && memcmp(text + length - size, end, size) == 0;
}

/* A phrase that needs every word of the table. */
static void try_table_words(void)
{
    static const char accepted[] = "\nbell 0 strokes 44 hold 44\nbell 1 strokes 15 hold 15\nbell 2 strokes 3 hold 3\n"
                                   "accepted strokes 62 states 2880 hold 62\n";
    static const char full[] = "refused 13 level 18\n"; /* files.h has the sums */
    const char *about = "PHRASE_TABLE_WORDS";
    struct file file = crowded();
    uint64_t answer;
    size_t length;

    expect(about, "the name", PHRASE_TABLE_WORDS, 16384);
    expect(about, "the answer in the call's own table", phrase_check(file.bytes, file.size), PHRASE_ACCEPTED);
    expect(about, "the answer in so many words", phrase_check_with(file.bytes, file.size, table, PHRASE_TABLE_WORDS), PHRASE_ACCEPTED);
    answer = phrase_check_with(file.bytes, file.size, table, PHRASE_TABLE_WORDS - 1);
    expect(about, "the refusal in one word less", phrase_refusal(answer), PHRASE_TABLE_FULL);
    expect(about, "its level", phrase_place(answer), 18);

    length = phrase_report(file.bytes, file.size, text, sizeof text);
    expect(about, "the text's end in the call's own table", (uint64_t)ends_with(length, accepted), 1);
    length = phrase_report_with(file.bytes, file.size, table, PHRASE_TABLE_WORDS, text, sizeof text);
    expect(about, "the text's end in so many words", (uint64_t)ends_with(length, accepted), 1);
    length = phrase_report_with(file.bytes, file.size, table, PHRASE_TABLE_WORDS - 1, text, sizeof text);
    expect(about, "the text in one word less", length == sizeof full - 1 && memcmp(text, full, length) == 0, 1);
}

static void try_text_bytes(void)
{
    const char *about = "PHRASE_TEXT_BYTES";
    struct file file = crowded();
    expect(about, "the name", PHRASE_TEXT_BYTES, 32768);
    expect(about, "a text of 66 lines fits", phrase_report(file.bytes, file.size, text, PHRASE_TEXT_BYTES) != 0, 1);
}

int main(void)
{
    try_answers();
    try_parts();
    try_text_short();
    try_file_short();
    try_shift();
    try_rest();
    try_playings();
    try_limits();
    try_playing_bytes();
    try_table_words();
    try_text_bytes();
    if (failures == 0)
        printf("names: %lu checks passed\n", checks);
    else
        printf("names: %lu of %lu checks failed\n", failures, checks);
    return failures != 0;
}
