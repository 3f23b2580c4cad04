/*
 * Calls phrase_read and phrase_write of host/phrase.h on phrases: each word that is read, each byte that is written; each field out of its range or too wide
 * for its bytes, and two such fields, the earlier of which counts; garbage where phrase_write looks at nothing. Every expected value is written here by hand.
 * Last, random edits, which have to be written as the bytes say, or refused as phrase_read refuses these bytes. areas.h says how memory is lent.
 *
 * Prints one line for each failure (the first twenty) and a count; exit status 0 when nothing failed.
 */
#define _DEFAULT_SOURCE
#define TEST "edits"

#include <limits.h>

#include "phrase.h"
#include "areas.h"
#include "files.h"

enum { RANDOM_EDITS = 20000, MOST_ROOM = PHRASE_FILE_BYTES + 100 };

static struct area file_area, phrase_area;

/* ---- Phrases ---- */

static const struct phrase phrase_p = {
    1, 1, 2, 2, 0,
    {{60, 0, 2, 2, 1, 0, 60}, {62, 12, 4, 4, 2, 0, 74}},
    {{60, 0, 5, 7, 0, {0, 0, 0, 0}, 0}, {74, 0, 0, 6, 0, {0, 0, 0, 0}, 1}},
};

/* Every number of waits, transpositions down and up, and times of three bytes. Bells at 7, 14 and 21, their end at 28, notes at 29, 43, 58, 74, 91, 109. */
static const struct phrase phrase_q = {
    1, 3, 3, 6, 0,
    {{60, 0, 2, 258, 0, 0, 60}, {62, 12, 772, 1286, 254, 0, 74}, {50, 253, 1, 5000, 255, 0, 47}},
    {{60, 0, 5, 7, 0, {0, 0, 0, 0}, 0},
     {74, 66051, 263430, 460809, 1, {0, 0, 0, 0}, 1},
     {47, 0, 3600000, 0, 2, {0, 1, 0, 0}, 2},
     {60, 1, 2, 3600000, 3, {0, 1, 2, 0}, 0},
     {74, 3600000, 3600000, 3, 4, {0, 1, 2, 3}, 1},
     {47, 4, 5, 6, 2, {1, 4, 0, 0}, 2}},
};
#define Q                                                                                                                             \
    "01 00000078 03 03 3C00 0002 0102 00 3E0C 0304 0506 FE 32FD 0001 1388 FF 06 0D 3C 00000000 00000005 00000007"                      \
    "0E 4A 00010203 00040506 00070809 00 0F 2F 00000000 0036EE80 00000000 00 01 10 3C 00000001 00000002 0036EE80 00 01 02"             \
    "11 4A 0036EE80 0036EE80 00000003 00 01 02 03 0F 2F 00000004 00000005 00000006 01 04"
enum { Q_SIZE = 125 };

/*
 * Version 2: shifted down by four semitones. Bells at 8, 15 and 22, their end at 29, notes at 30, 44, 58 and 73. Notes 0 and 3, written as bell 1 is, strike
 * bell 0; note 2 is written above every key of a bell.
 */
static const struct phrase phrase_r = {
    2, 2, 3, 4, 252,
    {{64, 0, 2, 3, 7, 0, 64}, {68, 2, 4, 5, 8, 0, 70}, {119, 0, 6, 7, 9, 0, 119}},
    {{68, 0, 1, 20, 0, {0, 0, 0, 0}, 0},
     {74, 2, 3, 30, 0, {0, 0, 0, 0}, 1},
     {123, 4, 5, 40, 1, {1, 0, 0, 0}, 2},
     {68, 6, 7, 50, 2, {0, 2, 0, 0}, 0}},
};
#define R                                                                                                              \
    "02 00000054 02 FC 03 4000 0002 0003 07 4402 0004 0005 08 7700 0006 0007 09 04 0D 44 00000000 00000001 00000014"    \
    "0D 4A 00000002 00000003 0000001E 0E 7B 00000004 00000005 00000028 01 0F 44 00000006 00000007 00000032 00 02"
enum { R_SIZE = 89 };

/* The least and the largest shift, with the keys furthest from those of bells: 0 and 95, and 36 and 143. */
static const struct phrase phrase_up = {
    2, 8, 2, 2, 24,
    {{24, 0, 1, 1, 0, 0, 24}, {119, 0, 1, 1, 0, 0, 119}},
    {{0, 0, 0, 0, 0, {0, 0, 0, 0}, 0}, {95, 0, 0, 0, 0, {0, 0, 0, 0}, 1}},
};
#define UP "02 0000002E 08 18 02 1800 0001 0001 00 7700 0001 0001 00 02 0D 00 00000000 00000000 00000000 0D 5F 00000000 00000000 00000000"
static const struct phrase phrase_down = {
    2, 1, 2, 2, 232,
    {{12, 0, 1, 1, 0, 0, 12}, {119, 0, 1, 1, 0, 0, 119}},
    {{143, 0, 0, 0, 0, {0, 0, 0, 0}, 1}, {36, 0, 0, 0, 0, {0, 0, 0, 0}, 0}},
};
#define DOWN "02 0000002E 01 E8 02 0C00 0001 0001 00 7700 0001 0001 00 02 0D 8F 00000000 00000000 00000000 0D 24 00000000 00000000 00000000"

/*
 * Version 3: rests of 0, 1 and 5000, and shifted up by three semitones. Bells at 8, 17 and 26, their end at 35, notes at 36, 50, 64, 79 and 95. Note 3 lists
 * the stroke of its bell before it, which its bell adds anyway.
 */
static const struct phrase phrase_s = {
    3, 5, 3, 5, 3,
    {{60, 0, 2, 3, 7, 0, 60}, {64, 4, 4, 5, 8, 1, 68}, {90, 4, 6, 7, 9, 5000, 94}},
    {{57, 0, 1, 20, 0, {0, 0, 0, 0}, 0},
     {65, 2, 3, 30, 0, {0, 0, 0, 0}, 1},
     {91, 4, 5, 40, 1, {1, 0, 0, 0}, 2},
     {65, 6, 7, 50, 2, {1, 2, 0, 0}, 1},
     {91, 8, 9, 60, 4, {0, 1, 2, 3}, 2}},
};
#define S                                                                                                                           \
    "03 0000006C 05 03 03 3C00 0002 0003 0000 07 4004 0004 0005 0001 08 5A04 0006 0007 1388 09 05 0D 39 00000000 00000001 00000014" \
    "0D 41 00000002 00000003 0000001E 0E 5B 00000004 00000005 00000028 01 0F 41 00000006 00000007 00000032 01 02"                   \
    "11 5B 00000008 00000009 0000003C 00 01 02 03"
enum { S_SIZE = 113 };

/* The least and the largest values: keys 12 and 119, written and sounding, transpositions -24 and 24, no notes. */
static const struct phrase phrase_bounds = {
    1, 8, 4, 0, 0,
    {{12, 24, 1, 1, 0, 0, 36}, {119, 232, 5000, 5000, 255, 0, 95}, {36, 232, 1, 5000, 127, 0, 12}, {95, 24, 4999, 5000, 128, 0, 119}},
    {{0, 0, 0, 0, 0, {0, 0, 0, 0}, 0}},
};
#define BOUNDS "01 0000001F 08 04 0C18 0001 0001 00 77E8 1388 1388 FF 24E8 0001 1388 7F 5F18 1387 1388 80 00"

/* The same in version 3, with the least and the largest rests, and the least shift. */
static const struct phrase phrase_rests = {
    3, 8, 4, 0, 232,
    {{12, 24, 1, 1, 0, 0, 36}, {119, 232, 5000, 5000, 255, 5000, 95}, {36, 232, 1, 5000, 127, 1, 12}, {95, 24, 4999, 5000, 128, 4999, 119}},
    {{0, 0, 0, 0, 0, {0, 0, 0, 0}, 0}},
};
#define RESTS "03 00000028 08 E8 04 0C18 0001 0001 0000 00 77E8 1388 1388 1388 FF 24E8 0001 1388 0001 7F 5F18 1387 1388 1387 80 00"

/* The phrase of longest(). */
static struct phrase longest_phrase(void)
{
    struct phrase phrase;
    uint32_t i, wait;
    memset(&phrase, 0, sizeof phrase);
    phrase.version = 1;
    phrase.drivers = 8;
    phrase.bell_count = 96;
    phrase.note_count = 64;
    for (i = 0; i < 96; i++) {
        struct phrase_bell bell = {12 + i, 0, 1, 5000, i, 0, 12 + i};
        phrase.bells[i] = bell;
    }
    for (i = 0; i < 64; i++) {
        struct phrase_note note = {107 - i, 0, 0, 3600000, i < 4 ? i : 4, {0, 0, 0, 0}, 95 - i};
        for (wait = 0; wait < note.wait_count; wait++)
            note.waits[wait] = i - note.wait_count + wait;
        phrase.notes[i] = note;
    }
    return phrase;
}

/* The file of a phrase whose fields fit their bytes, whatever the rules say. */
static struct file encoded(const struct phrase *phrase)
{
    struct file file = begin("an encoded phrase", phrase->drivers, phrase->bell_count);
    uint32_t i, wait;
    file.bytes[0] = (uint8_t)phrase->version;
    if (phrase->version == 2 || phrase->version == 3) {
        file.bytes[6] = (uint8_t)phrase->shift;
        add_byte(&file, phrase->bell_count);
    }
    for (i = 0; i < phrase->bell_count && i < PHRASE_MOST_BELLS; i++) {
        const struct phrase_bell *bell = &phrase->bells[i];
        add_bell(&file, bell->key, bell->least_hold, bell->most_hold, bell->rank);
        file.bytes[file.size - 6] = (uint8_t)bell->transposition;
        if (phrase->version == 3)
            add_rest(&file, bell->rest);
    }
    add_byte(&file, phrase->note_count);
    for (i = 0; i < phrase->note_count && i < PHRASE_MOST_NOTES; i++) {
        const struct phrase_note *note = &phrase->notes[i];
        add_note(&file, note->key, note->earliest_call, note->latest_call, note->due);
        file.bytes[file.size - 14] = (uint8_t)(13 + note->wait_count);
        for (wait = 0; wait < note->wait_count && wait < PHRASE_MOST_WAITS; wait++)
            add_byte(&file, note->waits[wait]);
    }
    finish(&file);
    return file;
}

/* The signed number of a byte. */
static int signed_byte(uint32_t byte)
{
    return byte < 128 ? (int)byte : (int)byte - 256;
}

static uint32_t bell_of(const struct phrase *phrase, uint32_t key)
{
    uint32_t bell = 0;
    while (bell < phrase->bell_count && (int)phrase->bells[bell].sounding != (int)key + signed_byte(phrase->shift))
        bell++;
    return bell;
}

/* A phrase that keeps the rules, as it is read once it is written: what is derived is right, and all that does not count is 0. Only version 3 has rests. */
static struct phrase as_read(const struct phrase *phrase)
{
    struct phrase read;
    uint32_t i, wait;
    memset(&read, 0, sizeof read);
    read.version = phrase->version;
    read.drivers = phrase->drivers;
    read.bell_count = phrase->bell_count;
    read.note_count = phrase->note_count;
    read.shift = phrase->shift;
    for (i = 0; i < phrase->bell_count; i++) {
        read.bells[i] = phrase->bells[i];
        read.bells[i].rest = phrase->version == 3 ? phrase->bells[i].rest : 0;
        read.bells[i].sounding = (uint32_t)((int)phrase->bells[i].key + signed_byte(phrase->bells[i].transposition));
    }
    for (i = 0; i < phrase->note_count; i++) {
        read.notes[i] = phrase->notes[i];
        for (wait = phrase->notes[i].wait_count; wait < PHRASE_MOST_WAITS; wait++)
            read.notes[i].waits[wait] = 0;
        read.notes[i].bell = bell_of(&read, phrase->notes[i].key);
    }
    return read;
}

/* ---- Trials ---- */

static void describe(const char *call, const char *name, struct setting setting, size_t room)
{
    snprintf(trial, sizeof trial, "%s, %s, %s, filling %02X, %lu bytes", call, name, where_names[setting.where], (unsigned)setting.filling,
             (unsigned long)room);
}

static uint32_t word_at(const struct phrase *phrase, size_t at)
{
    uint32_t word;
    memcpy(&word, (const uint8_t *)phrase + at, sizeof word);
    return word;
}

/* Names the first word that differs. */
static void expect_phrase(const struct phrase *found, const struct phrase *due)
{
    size_t at = 0;
    char what[32];
    if (memcmp(found, due, sizeof *due) == 0) {
        expect(1, "all words");
        return;
    }
    while (word_at(found, at) == word_at(due, at))
        at += sizeof(uint32_t);
    snprintf(what, sizeof what, "word %lu", (unsigned long)(at / sizeof(uint32_t)));
    expect_number(word_at(found, at), word_at(due, at), what);
}

static void try_read(const struct file *file, struct setting setting, size_t offset, const struct phrase *due)
{
    struct phrase *found;
    describe("phrase_read", file->name, setting, file->size);
    lend_const(&file_area, file->bytes, file->size, setting, offset);
    lend(&phrase_area, sizeof(struct phrase), setting, sizeof(uint32_t));
    found = (struct phrase *)(void *)phrase_area.lent;
    expect_answer(phrase_read(file_area.lent, file->size, found), 0, 0);
    expect_phrase(found, due);
    expect_untouched_from(&phrase_area, sizeof(struct phrase), "a byte before the phrase changed", "a byte past the phrase changed");
}

/* What phrase_write has to answer; when that is a length, the file. */
struct result {
    uint64_t number, place;
    const struct file *file;
};

static void try_write(const char *name, const struct phrase *phrase, struct setting setting, size_t offset, size_t room, struct result due)
{
    size_t length = due.number == 0 ? (size_t)due.place : 0;
    uint64_t answer;
    describe("phrase_write", name, setting, room);
    lend_const(&phrase_area, phrase, sizeof *phrase, setting, sizeof(uint32_t));
    lend(&file_area, room, setting, offset);
    answer = phrase_write((const struct phrase *)(const void *)phrase_area.lent, file_area.lent, room);
    expect_answer(answer, due.number, due.place);
    if (due.number == 0)
        expect(length == due.file->size && memcmp(file_area.lent, due.file->bytes, length) == 0, "the file is another");
    expect_untouched_from(&file_area, length, "a byte before the file changed", "a byte past the file changed");
    expect(memcmp(phrase_area.lent, phrase, sizeof *phrase) == 0, "the phrase changed");
}

/* A phrase and its file, both ways, in rooms that are too small, just enough and more. */
static void try_both(const struct file *file, const struct phrase *phrase)
{
    const size_t enough[] = {file->size, file->size + 1, MOST_ROOM}, small[] = {0, 1, file->size / 2, file->size - 1};
    struct result written = {0, file->size, file}, too_short = {16, 0, NULL};
    size_t i;
    int s;
    for (s = 0; s < SETTINGS; s++) {
        struct setting setting = setting_number(s);
        for (i = 0; i < 8; i++) {
            try_read(file, setting, i, phrase);
            try_write(file->name, phrase, setting, i, file->size, written);
        }
        for (i = 0; i < sizeof enough / sizeof *enough; i++)
            try_write(file->name, phrase, setting, 1, enough[i], written);
        for (i = 0; i < sizeof small / sizeof *small; i++)
            try_write(file->name, phrase, setting, 1, small[i], too_short);
    }
}

static void try_phrases(void)
{
    struct file p = from_hex("P", P), q = from_hex("Q", Q), bounds = from_hex("bounds", BOUNDS), most = longest();
    struct phrase most_phrase = longest_phrase();
    try_both(&p, &phrase_p);
    try_both(&q, &phrase_q);
    try_both(&bounds, &phrase_bounds);
    try_both(&most, &most_phrase);
    snprintf(trial, sizeof trial, "the longest file");
    expect_number(most.size, 1822, "its length");
}

/* P and Q in version 2 without a shift, those above, and the longest file, whose notes are written 24 semitones higher than they strike. */
static void try_shifted_phrases(void)
{
    struct file p = from_hex("P", P), q = from_hex("Q", Q), r = from_hex("R", R), up = from_hex("up", UP), down = from_hex("down", DOWN), most = longest();
    struct phrase version_2 = phrase_p;
    uint32_t i;
    version_2.version = 2;
    p = shifted(&p, 0);
    p.name = "P, version 2";
    try_both(&p, &version_2);
    version_2 = phrase_q;
    version_2.version = 2;
    q = shifted(&q, 0);
    q.name = "Q, version 2";
    try_both(&q, &version_2);
    try_both(&r, &phrase_r);
    try_both(&up, &phrase_up);
    try_both(&down, &phrase_down);
    version_2 = longest_phrase();
    version_2.version = 2;
    version_2.shift = 232;
    for (i = 0; i < 64; i++)
        version_2.notes[i].key += 24;
    most = shifted(&most, -24);
    most.name = "a longest file of version 2";
    try_both(&most, &version_2);
    snprintf(trial, sizeof trial, "the longest file of version 2");
    expect_number(most.size, 1823, "its length");
}

/* A phrase of version 1 or 2, and its file, in version 3, without a rest. */
static void try_as_version_3(const char *name, const struct file *file, const struct phrase *phrase)
{
    struct file longer = phrase->version == 1 ? shifted(file, 0) : *file;
    struct phrase version_3 = *phrase;
    longer = rested_alike(&longer, 0);
    longer.name = name;
    version_3.version = 3;
    try_both(&longer, &version_3);
}

/* The longest file, with a shift and, in all of its bells, a rest: 60, 112 and so on up to 5000. It has 8 + 96 * 9 + 1 + 64 * 14 + 246 = 2015 bytes. */
static void try_longest_rested(void)
{
    struct file most = longest();
    struct phrase phrase = longest_phrase();
    uint32_t rests[PHRASE_MOST_BELLS], i;
    phrase.version = 3;
    phrase.shift = 232;
    for (i = 0; i < 64; i++)
        phrase.notes[i].key += 24;
    for (i = 0; i < 96; i++)
        phrase.bells[i].rest = rests[i] = 60 + 52 * i;
    most = shifted(&most, -24);
    most = rested(&most, rests);
    most.name = "a longest file of version 3";
    try_both(&most, &phrase);
    snprintf(trial, sizeof trial, "the longest file of version 3");
    expect_number(most.size, 2015, "its length");
    expect_number(rests[95], 5000, "its last rest");
}

/* P, Q and R in version 3 without rests, those above, and the longest file. */
static void try_rested_phrases(void)
{
    struct file p = from_hex("P", P), q = from_hex("Q", Q), r = from_hex("R", R), s = from_hex("S", S), rests = from_hex("rests", RESTS);
    try_as_version_3("P, version 3", &p, &phrase_p);
    try_as_version_3("Q, version 3", &q, &phrase_q);
    try_as_version_3("R, version 3", &r, &phrase_r);
    try_both(&s, &phrase_s);
    try_both(&rests, &phrase_rests);
    try_longest_rested();
}

/* P shifted by so many semitones, or too far: its bells are struck by keys that are as much lower. */
static void try_shift(const struct file *p, int semitones)
{
    struct file file = shifted(p, semitones), longer = rested_alike(&file, 0);
    struct phrase phrase = phrase_p;
    struct result due = {0, file.size, &file}, due_longer = {0, longer.size, &longer}, wrong = {19, 6, NULL};
    phrase.shift = phrase_transposition(semitones);
    phrase.notes[0].key = (uint32_t)(60 - semitones);
    phrase.notes[1].key = (uint32_t)(74 - semitones);
    if (semitones < -24 || semitones > 24) {
        for (phrase.version = 2; phrase.version <= 3; phrase.version++)
            try_write("P shifted too far", &phrase, setting_number(0), 1, MOST_ROOM, wrong);
        return;
    }
    phrase.version = 2;
    try_read(&file, setting_number(0), 1, &phrase);
    try_write("P shifted", &phrase, setting_number(1), 1, file.size, due);
    phrase.version = 3;
    try_read(&longer, setting_number(0), 1, &phrase);
    try_write("P shifted, as version 3", &phrase, setting_number(1), 1, longer.size, due_longer);
    phrase.version = 1;
    if (semitones != 0)
        try_write("P shifted, as version 1", &phrase, setting_number(1), 1, MOST_ROOM, wrong);
}

/* P in version 3 with one rest: bells at 8 and 17, 55 bytes. Above 5000 its file is not read and it is not written; nor in another version, unless 0. */
static void try_rest(const struct file *p, uint32_t bell, uint32_t rest)
{
    uint32_t given[2] = {0, 0};
    struct file file;
    struct phrase phrase = phrase_p, read;
    struct result due = {0, 55, &file}, wrong = {6, 8 + 9 * bell, NULL}, wrong_1 = {6, 7 + 7 * bell, NULL}, wrong_2 = {6, 8 + 7 * bell, NULL};
    given[bell] = rest;
    file = rested(p, given);
    file.name = "P with a rest";
    phrase.version = 3;
    phrase.bells[bell].rest = rest;
    if (rest <= 5000) {
        try_read(&file, setting_number(0), 1, &phrase);
        try_write("P with a rest", &phrase, setting_number(1), 1, file.size, due);
    } else {
        try_write("P with a rest too long", &phrase, setting_number(1), 1, MOST_ROOM, wrong);
        snprintf(trial, sizeof trial, "phrase_read, P with a rest of %u", (unsigned)rest);
        expect_answer(phrase_read(file.bytes, file.size, &read), wrong.number, wrong.place);
    }
    phrase.version = 1;
    if (rest != 0)
        try_write("P with a rest, as version 1", &phrase, setting_number(1), 1, MOST_ROOM, wrong_1);
    phrase.version = 2;
    if (rest != 0)
        try_write("P with a rest, as version 2", &phrase, setting_number(1), 1, MOST_ROOM, wrong_2);
}

static void try_shifts_and_rests(void)
{
    static const uint32_t rests[] = {0,    1,    127,  128,  255,  256,  257,  511,  512,   4095,  4096,  4863,
                                     4864, 4999, 5000, 5001, 5119, 5120, 5256, 8192, 32767, 32768, 65280, 65535};
    struct file p = from_hex("P", P), unshifted = shifted(&p, 0);
    size_t i;
    int semitones;
    for (semitones = -25; semitones <= 25; semitones++)
        try_shift(&p, semitones);
    for (i = 0; i < sizeof rests / sizeof *rests; i++) {
        try_rest(&unshifted, 0, rests[i]);
        try_rest(&unshifted, 1, rests[i]);
    }
}

/* ---- Fields changed in Q, in R and in S ---- */

struct word {
    const char *name;
    size_t at;
    uint32_t value;
};
enum { MOST_CHANGED = 4 };
#define TO(field, value) {#field " = " #value, offsetof(struct phrase, field), value}
#define HIGH 0x80000000u
#define ALL 0xFFFFFFFFu

/* Q with these words changed; the answer: number and place, or 0 and the file's length. */
static const struct change {
    struct word words[MOST_CHANGED];
    uint64_t number, place;
} changes[] = {
    {{TO(version, 0)}, 1, 0},
    {{TO(version, 2)}, 0, Q_SIZE + 1},
    {{TO(version, 3)}, 0, Q_SIZE + 1 + 6},
    {{TO(version, 4)}, 1, 0},
    {{TO(version, 257)}, 1, 0},
    {{TO(version, HIGH + 1)}, 1, 0},
    {{TO(drivers, 0)}, 4, 5},
    {{TO(drivers, 9)}, 4, 5},
    {{TO(drivers, 257)}, 4, 5},
    {{TO(drivers, ALL)}, 4, 5},
    {{TO(drivers, 1)}, 0, Q_SIZE},
    {{TO(drivers, 8)}, 0, Q_SIZE},
    {{TO(shift, 1)}, 19, 6}, /* version 1 has none */
    {{TO(shift, 24)}, 19, 6},
    {{TO(shift, 255)}, 19, 6},
    {{TO(shift, 256)}, 19, 6},
    {{TO(shift, HIGH)}, 19, 6},
    {{TO(shift, ALL)}, 19, 6},
    {{TO(bell_count, 0)}, 5, 6},
    {{TO(bell_count, 97)}, 5, 6},
    {{TO(bell_count, 256 + 3)}, 5, 6},
    {{TO(bell_count, HIGH + 3)}, 5, 6},
    {{TO(bell_count, ALL)}, 5, 6},
    {{TO(bell_count, 4)}, 6, 28},            /* the fourth is all zero */
    {{TO(bell_count, 2)}, 10, 7 + 14 + 1 + 14 + 15}, /* note 2 strikes the third */
    {{TO(bell_count, 2), TO(note_count, 2)}, 0, 7 + 14 + 1 + 14 + 15},

    {{TO(bells[0].key, 11)}, 6, 7},
    {{TO(bells[0].key, 120)}, 6, 7},
    {{TO(bells[0].key, 0)}, 6, 7},
    {{TO(bells[0].key, 256 + 60)}, 6, 7},
    {{TO(bells[1].key, 256 + 62)}, 6, 14},
    {{TO(bells[1].key, HIGH + 62)}, 6, 14},
    {{TO(bells[2].key, ALL)}, 6, 21},
    {{TO(bells[0].transposition, 25)}, 6, 7},
    {{TO(bells[0].transposition, 231)}, 6, 7}, /* -25 */
    {{TO(bells[0].transposition, 127)}, 6, 7},
    {{TO(bells[0].transposition, 128)}, 6, 7},
    {{TO(bells[0].transposition, 256)}, 6, 7},
    {{TO(bells[1].transposition, 256 + 12)}, 6, 14},
    {{TO(bells[2].transposition, 256 + 253)}, 6, 21},
    {{TO(bells[2].transposition, ALL - 2)}, 6, 21}, /* -3 as an int has it */
    {{TO(bells[1].key, 108)}, 6, 14},               /* sounds for 120 */
    {{TO(bells[1].key, 107), TO(note_count, 1)}, 0, 43},
    {{TO(bells[2].key, 14)}, 6, 21}, /* sounds for 11 */
    {{TO(bells[2].key, 15), TO(note_count, 2)}, 0, 58},
    {{TO(bells[0].least_hold, 0)}, 6, 7},
    {{TO(bells[0].least_hold, 259)}, 6, 7}, /* over the most, 258 */
    {{TO(bells[0].least_hold, 258)}, 0, Q_SIZE},
    {{TO(bells[0].least_hold, 65536 + 2)}, 6, 7},
    {{TO(bells[0].least_hold, ALL)}, 6, 7},
    {{TO(bells[1].most_hold, 771)}, 6, 14},
    {{TO(bells[1].most_hold, 5001)}, 6, 14},
    {{TO(bells[1].most_hold, 65536 + 1286)}, 6, 14},
    {{TO(bells[1].least_hold, 65536 + 5), TO(bells[1].most_hold, 65536 + 5)}, 6, 14},
    {{TO(bells[1].least_hold, ALL), TO(bells[1].most_hold, ALL)}, 6, 14},
    {{TO(bells[2].most_hold, HIGH + 5000)}, 6, 21},
    {{TO(bells[0].rank, 256)}, 6, 7},
    {{TO(bells[1].rank, 256 + 1)}, 6, 14},
    {{TO(bells[2].rank, ALL)}, 6, 21},
    {{TO(bells[2].rank, 0)}, 0, Q_SIZE},
    {{TO(bells[0].rest, 1)}, 6, 7}, /* version 1 has none */
    {{TO(bells[1].rest, 1)}, 6, 14},
    {{TO(bells[2].rest, 1)}, 6, 21},
    {{TO(bells[0].rest, 5000)}, 6, 7},
    {{TO(bells[1].rest, 5001)}, 6, 14},
    {{TO(bells[2].rest, 256)}, 6, 21},
    {{TO(bells[0].rest, 65536)}, 6, 7},
    {{TO(bells[1].rest, HIGH)}, 6, 14},
    {{TO(bells[2].rest, ALL)}, 6, 21},
    {{TO(bells[3].rest, 1)}, 0, Q_SIZE}, /* there is no fourth */
    {{TO(bell_count, 2), TO(note_count, 2), TO(bells[2].rest, 1)}, 0, 7 + 14 + 1 + 14 + 15},
    {{TO(version, 2), TO(bells[0].rest, 1)}, 6, 8},
    {{TO(version, 2), TO(bells[2].rest, 5000)}, 6, 22},
    {{TO(version, 3), TO(bells[0].rest, 1)}, 0, Q_SIZE + 1 + 6},
    {{TO(version, 3), TO(bells[1].rest, 1), TO(bells[2].rest, 5000)}, 0, Q_SIZE + 1 + 6},
    {{TO(version, 3), TO(bells[2].rest, 5001)}, 6, 26},
    {{TO(bells[1].transposition, 254)}, 7, 14}, /* -2: sounds for 60 */
    {{TO(bells[2].key, 63)}, 7, 21},            /* sounds for 60 */
    {{TO(bells[2].key, 77)}, 7, 21},            /* sounds for 74 */
    {{TO(bells[0].transposition, 14)}, 7, 14},  /* the later of the two is named */

    {{TO(note_count, 65)}, 8, 28},
    {{TO(note_count, 256 + 6)}, 8, 28},
    {{TO(note_count, HIGH)}, 8, 28},
    {{TO(note_count, ALL)}, 8, 28},
    {{TO(note_count, 7)}, 10, 125}, /* the seventh is all zero */
    {{TO(note_count, 64)}, 10, 125},
    {{TO(note_count, 0)}, 0, 29},
    {{TO(note_count, 5)}, 0, 109},
    {{TO(notes[0].wait_count, 5)}, 9, 29},
    {{TO(notes[1].wait_count, 256 + 1)}, 9, 43},
    {{TO(notes[2].wait_count, HIGH + 2)}, 9, 58},
    {{TO(notes[4].wait_count, 5)}, 9, 91},
    {{TO(notes[5].wait_count, ALL)}, 9, 109},
    {{TO(notes[5].wait_count, ALL - 12)}, 9, 109}, /* 13 more are 0 */
    {{TO(notes[5].wait_count, 0)}, 0, 123},
    {{TO(notes[5].wait_count, 1)}, 0, 124},
    {{TO(notes[0].key, 61)}, 10, 29},
    {{TO(notes[1].key, 62)}, 10, 43}, /* as written at bell 1, which sounds for 74 */
    {{TO(notes[0].key, 256 + 60)}, 10, 29},
    {{TO(notes[2].key, 256 + 47)}, 10, 58},
    {{TO(notes[3].key, HIGH + 60)}, 10, 74},
    {{TO(notes[4].key, 0)}, 10, 91},
    {{TO(notes[5].key, ALL)}, 10, 109},
    {{TO(notes[5].key, 74)}, 0, Q_SIZE},
    {{TO(bells[1].transposition, 11)}, 10, 43}, /* sounds for 73 */
    {{TO(notes[0].earliest_call, 6)}, 11, 29},
    {{TO(notes[1].earliest_call, 263431)}, 11, 43},
    {{TO(notes[1].earliest_call, 263430)}, 0, Q_SIZE},
    {{TO(notes[2].earliest_call, ALL)}, 11, 58},
    {{TO(notes[2].latest_call, 3600001)}, 11, 58},
    {{TO(notes[3].latest_call, HIGH + 2)}, 11, 74},
    {{TO(notes[4].earliest_call, 3600001), TO(notes[4].latest_call, 3600001)}, 11, 91},
    {{TO(notes[4].earliest_call, ALL), TO(notes[4].latest_call, ALL)}, 11, 91},
    {{TO(notes[5].due, 3600001)}, 11, 109},
    {{TO(notes[5].due, 3600000)}, 0, Q_SIZE},
    {{TO(notes[5].due, 0x01000000)}, 11, 109},
    {{TO(notes[5].due, ALL)}, 11, 109},
    {{TO(notes[0].wait_count, 1)}, 12, 29}, /* for itself */
    {{TO(notes[1].waits[0], 1)}, 12, 43},
    {{TO(notes[1].waits[0], 256)}, 12, 43},
    {{TO(notes[1].waits[0], HIGH)}, 12, 43},
    {{TO(notes[2].waits[1], 0)}, 12, 58},
    {{TO(notes[2].waits[1], 256 + 1)}, 12, 58},
    {{TO(notes[3].waits[0], 1)}, 12, 74},
    {{TO(notes[3].waits[0], 2)}, 12, 74},
    {{TO(notes[3].wait_count, 4)}, 12, 74}, /* the fourth is 0 */
    {{TO(notes[4].waits[0], 256)}, 12, 91},
    {{TO(notes[4].waits[3], 4)}, 12, 91},
    {{TO(notes[4].waits[3], ALL)}, 12, 91},
    {{TO(notes[5].waits[1], 5)}, 12, 109},
    {{TO(notes[5].waits[1], 3)}, 0, Q_SIZE},

    /* Two that are wrong: the file's order, and within a record 6, 7, and 9, 11, 10, 12. */
    {{TO(version, 4), TO(drivers, 9), TO(bell_count, 0)}, 1, 0},
    {{TO(version, 4), TO(shift, 1)}, 1, 0},
    {{TO(version, 4), TO(bells[0].rest, 1)}, 1, 0},
    {{TO(version, 3), TO(drivers, 9)}, 4, 5},
    {{TO(version, 3), TO(shift, 1)}, 10, 36}, /* 61: bells at 8, 17 and 26 */
    {{TO(drivers, 9), TO(bell_count, 0)}, 4, 5},
    {{TO(drivers, 9), TO(shift, 1)}, 4, 5},
    {{TO(shift, 1), TO(bell_count, 0)}, 19, 6},
    {{TO(shift, ALL), TO(bell_count, ALL)}, 19, 6},
    {{TO(shift, 1), TO(notes[0].key, 0)}, 19, 6},
    {{TO(bell_count, 97), TO(bells[0].key, 0)}, 5, 6},
    {{TO(drivers, 9), TO(bells[0].rest, 1)}, 4, 5},
    {{TO(shift, 1), TO(bells[0].rest, 1)}, 19, 6},
    {{TO(bell_count, 0), TO(bells[0].rest, 1)}, 5, 6},
    {{TO(bell_count, 97), TO(bells[0].rest, 1)}, 5, 6},
    {{TO(bell_count, 4), TO(bells[3].rest, 1)}, 6, 28},
    {{TO(bells[0].rest, 1), TO(bells[1].key, 0)}, 6, 7},
    {{TO(bells[0].key, 0), TO(bells[1].rest, 1)}, 6, 7},
    {{TO(bells[1].transposition, 254), TO(bells[1].rest, 1)}, 6, 14}, /* a doubled key comes after it */
    {{TO(bells[1].transposition, 254), TO(bells[2].rest, 1)}, 7, 14},
    {{TO(bells[2].key, 63), TO(bells[2].rest, ALL)}, 6, 21},
    {{TO(bells[2].key, 63), TO(bells[1].rest, 1)}, 6, 14},
    {{TO(bells[1].rest, 1), TO(bells[2].rest, 1)}, 6, 14},
    {{TO(bells[2].rest, 1), TO(note_count, 65)}, 6, 21},
    {{TO(bells[2].rest, 1), TO(notes[0].wait_count, 5)}, 6, 21},
    {{TO(bells[2].rest, 1), TO(notes[0].key, 61)}, 6, 21},
    {{TO(bells[0].rank, 256), TO(bells[1].key, 0)}, 6, 7},
    {{TO(bells[1].transposition, 254), TO(bells[2].key, 0)}, 7, 14},
    {{TO(bells[1].transposition, 254), TO(bells[1].rank, 256)}, 6, 14},
    {{TO(bells[1].key, 0), TO(bells[2].key, 63)}, 6, 14},
    {{TO(bells[2].key, 63), TO(note_count, 65)}, 7, 21},
    {{TO(bells[2].rank, 256), TO(notes[0].wait_count, 5)}, 6, 21},
    {{TO(note_count, 65), TO(notes[0].wait_count, 5)}, 8, 28},
    {{TO(notes[1].waits[0], 1), TO(notes[2].wait_count, 5)}, 12, 43},
    {{TO(notes[1].due, ALL), TO(notes[2].key, 0)}, 11, 43},
    {{TO(notes[3].wait_count, 5), TO(notes[3].key, 0)}, 9, 74},
    {{TO(notes[3].wait_count, 5), TO(notes[3].due, ALL)}, 9, 74},
    {{TO(notes[3].key, 0), TO(notes[3].due, ALL)}, 11, 74},
    {{TO(notes[3].key, 0), TO(notes[3].waits[0], 2)}, 10, 74},
    {{TO(notes[3].latest_call, ALL), TO(notes[3].waits[0], 2)}, 11, 74},
    {{TO(notes[3].key, 0), TO(notes[3].due, ALL), TO(notes[3].waits[0], 2)}, 11, 74},

    /* The first note and the last: times, then the key, then the waits. */
    {{TO(notes[0].key, 61), TO(notes[0].earliest_call, 6)}, 11, 29},
    {{TO(notes[0].earliest_call, 6), TO(notes[0].wait_count, 1)}, 11, 29},
    {{TO(notes[0].key, 61), TO(notes[0].wait_count, 1)}, 10, 29},
    {{TO(notes[0].key, 61), TO(notes[0].earliest_call, 6), TO(notes[0].wait_count, 1)}, 11, 29},
    {{TO(notes[0].key, 256 + 60), TO(notes[0].latest_call, ALL)}, 11, 29},
    {{TO(notes[5].key, ALL), TO(notes[5].earliest_call, 6)}, 11, 109},
    {{TO(notes[5].key, 61), TO(notes[5].latest_call, 3600001)}, 11, 109},
    {{TO(notes[5].key, 61), TO(notes[5].due, 3600001)}, 11, 109},
    {{TO(notes[5].due, 3600001), TO(notes[5].waits[1], 5)}, 11, 109},
    {{TO(notes[5].key, 61), TO(notes[5].waits[1], 5)}, 10, 109},
    {{TO(notes[5].key, 61), TO(notes[5].due, 3600001), TO(notes[5].waits[1], 5)}, 11, 109},

    /* What an earlier note breaks comes first. */
    {{TO(notes[0].wait_count, 1), TO(notes[5].due, ALL)}, 12, 29},
    {{TO(notes[0].key, 61), TO(notes[1].due, ALL)}, 10, 29},

    /* An earlier note with other waits moves the places of the later ones. */
    {{TO(notes[4].wait_count, 1), TO(notes[5].key, 0)}, 10, 106},
    {{TO(notes[1].wait_count, 0), TO(notes[5].due, ALL)}, 11, 108},
};

/* R with these words changed. */
static const struct change changes_of_r[] = {
    {{TO(version, 0)}, 1, 0},
    {{TO(version, 1)}, 19, 6},
    {{TO(version, 3)}, 0, R_SIZE + 6},
    {{TO(version, 4)}, 1, 0},
    {{TO(version, 256 + 2)}, 1, 0},
    {{TO(version, HIGH + 2)}, 1, 0},
    {{TO(version, 1), TO(shift, 0)}, 10, 29}, /* no bell sounds for 68 */
    {{TO(drivers, 0)}, 4, 5},
    {{TO(drivers, 9)}, 4, 5},
    {{TO(shift, 24)}, 10, 30},
    {{TO(shift, 25)}, 19, 6},
    {{TO(shift, 232)}, 10, 30}, /* -24 */
    {{TO(shift, 231)}, 19, 6},
    {{TO(shift, 127)}, 19, 6},
    {{TO(shift, 128)}, 19, 6},
    {{TO(shift, 256)}, 19, 6},
    {{TO(shift, 256 + 252)}, 19, 6},
    {{TO(shift, ALL)}, 19, 6},
    {{TO(shift, ALL - 3)}, 19, 6}, /* -4 as an int has it */
    {{TO(shift, HIGH)}, 19, 6},
    {{TO(shift, 251)}, 10, 30},
    {{TO(shift, 0)}, 10, 30},
    {{TO(bell_count, 0)}, 5, 7},
    {{TO(bell_count, 97)}, 5, 7},
    {{TO(bell_count, 256 + 3)}, 5, 7},
    {{TO(bell_count, ALL)}, 5, 7},
    {{TO(bell_count, 4)}, 6, 29},
    {{TO(bell_count, 2)}, 10, 8 + 14 + 1 + 14 + 14}, /* note 2 strikes the third */
    {{TO(bell_count, 2), TO(note_count, 2)}, 0, 8 + 14 + 1 + 14 + 14},
    {{TO(bells[0].key, 11)}, 6, 8},
    {{TO(bells[1].rank, 256)}, 6, 15},
    {{TO(bells[2].transposition, 1)}, 6, 22},
    {{TO(bells[0].rest, 1)}, 6, 8}, /* version 2 has none */
    {{TO(bells[1].rest, 1)}, 6, 15},
    {{TO(bells[2].rest, 1)}, 6, 22},
    {{TO(bells[0].rest, 5000)}, 6, 8},
    {{TO(bells[1].rest, 5001)}, 6, 15},
    {{TO(bells[2].rest, 256)}, 6, 22},
    {{TO(bells[0].rest, 65536)}, 6, 8},
    {{TO(bells[1].rest, HIGH)}, 6, 15},
    {{TO(bells[2].rest, ALL)}, 6, 22},
    {{TO(bells[3].rest, 1)}, 0, R_SIZE},
    {{TO(version, 3), TO(bells[1].rest, 5000)}, 0, R_SIZE + 6},
    {{TO(version, 3), TO(bells[1].rest, 5001)}, 6, 17},
    {{TO(version, 1), TO(shift, 0), TO(bells[1].rest, 1)}, 6, 14},
    {{TO(bells[1].transposition, 252)}, 7, 15}, /* sounds for 64 */
    {{TO(bells[2].key, 70)}, 7, 22},
    {{TO(note_count, 65)}, 8, 29},
    {{TO(note_count, ALL)}, 8, 29},
    {{TO(note_count, 5)}, 10, 89}, /* the fifth has key 0 */
    {{TO(note_count, 0)}, 0, 30},
    {{TO(notes[0].wait_count, 5)}, 9, 30},
    {{TO(notes[3].wait_count, ALL)}, 9, 73},
    {{TO(notes[0].key, 64)}, 10, 30}, /* the key that the bell sounds for, which is shifted away */
    {{TO(notes[0].key, 123)}, 0, R_SIZE},
    {{TO(notes[1].key, 70)}, 10, 44},
    {{TO(notes[1].key, 72)}, 10, 44}, /* struck if bells were looked up as they are written */
    {{TO(notes[1].key, 256 + 74)}, 10, 44},
    {{TO(notes[1].key, HIGH + 74)}, 10, 44},
    {{TO(notes[2].key, 124)}, 10, 58},
    {{TO(notes[2].key, ALL)}, 10, 58},
    {{TO(notes[3].latest_call, 5)}, 11, 73},
    {{TO(notes[2].due, ALL)}, 11, 58},
    {{TO(notes[2].waits[0], 2)}, 12, 58},
    {{TO(notes[3].waits[1], 256 + 2)}, 12, 73},

    /* Sums must not wrap, at 256 or further up: these would strike bells that sound for 16, 20, 64, 119, 12 and 70. */
    {{TO(shift, 24), TO(notes[0].key, 248), TO(bells[0].key, 16)}, 10, 30},
    {{TO(shift, 24), TO(notes[0].key, ALL - 3), TO(bells[0].key, 20)}, 10, 30},
    {{TO(shift, 24), TO(notes[0].key, 256 + 40)}, 10, 30},
    {{TO(shift, 232), TO(notes[0].key, 256 + 143)}, 10, 30},
    {{TO(shift, 24), TO(notes[0].key, ALL - 11), TO(bells[0].key, 12)}, 10, 30},
    {{TO(shift, 24), TO(notes[0].key, HIGH + 46)}, 10, 30},
    {{TO(shift, 1), TO(notes[0].key, ALL)}, 10, 30},
    {{TO(shift, 232), TO(notes[0].key, 0)}, 10, 30},
    {{TO(shift, 255), TO(notes[0].key, 0), TO(bells[0].key, 12)}, 10, 30},

    /* Two that are wrong. */
    {{TO(version, 4), TO(shift, 25)}, 1, 0},
    {{TO(version, 3), TO(shift, 25)}, 19, 6},
    {{TO(version, 4), TO(bells[0].rest, 1)}, 1, 0},
    {{TO(version, 1), TO(bells[0].rest, 1)}, 19, 6},
    {{TO(drivers, 9), TO(bells[0].rest, 1)}, 4, 5},
    {{TO(shift, 25), TO(bells[0].rest, 1)}, 19, 6},
    {{TO(bell_count, 0), TO(bells[0].rest, 1)}, 5, 7},
    {{TO(bell_count, 97), TO(bells[0].rest, 1)}, 5, 7},
    {{TO(bells[0].rest, 1), TO(bells[1].key, 0)}, 6, 8},
    {{TO(bells[1].transposition, 252), TO(bells[1].rest, 1)}, 6, 15}, /* a doubled key comes after it */
    {{TO(bells[1].transposition, 252), TO(bells[2].rest, 1)}, 7, 15},
    {{TO(bells[2].key, 70), TO(bells[2].rest, 1)}, 6, 22},
    {{TO(bells[2].rest, 1), TO(note_count, 65)}, 6, 22},
    {{TO(bells[2].rest, 1), TO(notes[0].key, 64)}, 6, 22},
    {{TO(drivers, 9), TO(shift, 25)}, 4, 5},
    {{TO(version, 1), TO(drivers, 0)}, 4, 5},
    {{TO(shift, 25), TO(bell_count, 0)}, 19, 6},
    {{TO(version, 1), TO(bell_count, 97)}, 19, 6},
    {{TO(shift, 25), TO(bells[0].key, 0)}, 19, 6},
    {{TO(shift, 256), TO(note_count, 65), TO(notes[0].key, 0)}, 19, 6},
    {{TO(bell_count, 97), TO(notes[0].key, 0)}, 5, 7},
    {{TO(notes[1].key, 0), TO(notes[1].due, ALL)}, 11, 44},
    {{TO(notes[0].key, 64), TO(notes[0].earliest_call, 2)}, 11, 30}, /* the key is shifted away */
    {{TO(notes[0].key, 64), TO(notes[0].wait_count, 1)}, 10, 30},
    {{TO(notes[0].earliest_call, 2), TO(notes[0].wait_count, 1)}, 11, 30},
    {{TO(notes[0].key, 64), TO(notes[0].earliest_call, 2), TO(notes[0].wait_count, 1)}, 11, 30},
    {{TO(notes[3].key, 64), TO(notes[3].due, ALL)}, 11, 73},
    {{TO(notes[3].key, 64), TO(notes[3].waits[1], 3)}, 10, 73},
    {{TO(notes[3].due, ALL), TO(notes[3].waits[1], 3)}, 11, 73},
    {{TO(notes[3].key, 64), TO(notes[3].due, ALL), TO(notes[3].waits[1], 3)}, 11, 73},
    {{TO(notes[2].wait_count, 0), TO(notes[3].key, 0)}, 10, 72},
};

/* S with these words changed. In version 1 its bells stand at 7, 14 and 21, in version 2 at 8, 15 and 22. */
static const struct change changes_of_s[] = {
    {{TO(version, 0)}, 1, 0},
    {{TO(version, 1)}, 19, 6},
    {{TO(version, 1), TO(shift, 0)}, 6, 14},
    {{TO(version, 1), TO(shift, 0), TO(bells[0].rest, 1)}, 6, 7},
    {{TO(version, 1), TO(shift, 0), TO(bells[1].rest, 0)}, 6, 21},
    {{TO(version, 1), TO(shift, 0), TO(bells[1].rest, 0), TO(bells[2].rest, 0)}, 10, 29}, /* no bell sounds for 57 */
    {{TO(version, 2)}, 6, 15},
    {{TO(version, 2), TO(bells[0].rest, 1)}, 6, 8},
    {{TO(version, 2), TO(bells[0].rest, 5001)}, 6, 8},
    {{TO(version, 2), TO(bells[0].rest, 65536)}, 6, 8},
    {{TO(version, 2), TO(bells[0].rest, HIGH)}, 6, 8},
    {{TO(version, 2), TO(bells[0].rest, ALL)}, 6, 8},
    {{TO(version, 2), TO(bells[2].rest, 0)}, 6, 15},
    {{TO(version, 2), TO(bells[1].rest, 0)}, 6, 22},
    {{TO(version, 2), TO(bells[1].rest, 0), TO(bells[2].rest, 0)}, 0, S_SIZE - 6},
    {{TO(version, 2), TO(bell_count, 2)}, 6, 15},
    {{TO(version, 2), TO(bell_count, 1)}, 10, 8 + 7 + 1 + 14}, /* note 1 strikes the second */
    {{TO(version, 2), TO(bell_count, 1), TO(note_count, 1)}, 0, 8 + 7 + 1 + 14},
    {{TO(version, 4)}, 1, 0},
    {{TO(version, 256 + 3)}, 1, 0},
    {{TO(version, HIGH + 3)}, 1, 0},
    {{TO(version, ALL)}, 1, 0},
    {{TO(drivers, 0)}, 4, 5},
    {{TO(drivers, 9)}, 4, 5},
    {{TO(drivers, 8)}, 0, S_SIZE},
    {{TO(shift, 25)}, 19, 6},
    {{TO(shift, 231)}, 19, 6},
    {{TO(shift, 256 + 3)}, 19, 6},
    {{TO(shift, ALL)}, 19, 6},
    {{TO(shift, 24)}, 10, 36},
    {{TO(shift, 232)}, 10, 36},
    {{TO(shift, 0)}, 10, 36},
    {{TO(bell_count, 0)}, 5, 7},
    {{TO(bell_count, 97)}, 5, 7},
    {{TO(bell_count, 256 + 3)}, 5, 7},
    {{TO(bell_count, ALL)}, 5, 7},
    {{TO(bell_count, 4)}, 6, 35}, /* the fourth is all zero */
    {{TO(bell_count, 2)}, 10, 8 + 18 + 1 + 14 + 14}, /* note 2 strikes the third */
    {{TO(bell_count, 2), TO(note_count, 2)}, 0, 8 + 18 + 1 + 14 + 14},
    {{TO(bell_count, 2), TO(note_count, 2), TO(bells[2].rest, ALL)}, 0, 8 + 18 + 1 + 14 + 14},

    {{TO(bells[0].rest, 1)}, 0, S_SIZE},
    {{TO(bells[0].rest, 5000)}, 0, S_SIZE},
    {{TO(bells[0].rest, 5001)}, 6, 8},
    {{TO(bells[0].rest, 65535)}, 6, 8},
    {{TO(bells[0].rest, 65536)}, 6, 8},
    {{TO(bells[0].rest, 65536 + 1)}, 6, 8},
    {{TO(bells[0].rest, HIGH + 1)}, 6, 8},
    {{TO(bells[0].rest, ALL)}, 6, 8},
    {{TO(bells[1].rest, 0)}, 0, S_SIZE},
    {{TO(bells[1].rest, 4999)}, 0, S_SIZE},
    {{TO(bells[1].rest, 5001)}, 6, 17},
    {{TO(bells[1].rest, 65535)}, 6, 17},
    {{TO(bells[1].rest, 65536)}, 6, 17},
    {{TO(bells[1].rest, 65536 + 1)}, 6, 17},
    {{TO(bells[1].rest, HIGH + 1)}, 6, 17},
    {{TO(bells[1].rest, ALL)}, 6, 17},
    {{TO(bells[2].rest, 0)}, 0, S_SIZE},
    {{TO(bells[2].rest, 256)}, 0, S_SIZE},
    {{TO(bells[2].rest, 5001)}, 6, 26},
    {{TO(bells[2].rest, 65535)}, 6, 26},
    {{TO(bells[2].rest, 65536)}, 6, 26},
    {{TO(bells[2].rest, 65536 + 1)}, 6, 26},
    {{TO(bells[2].rest, 65536 + 5000)}, 6, 26},
    {{TO(bells[2].rest, HIGH + 1)}, 6, 26},
    {{TO(bells[2].rest, ALL)}, 6, 26},
    {{TO(bells[0].rest, 5000), TO(bells[1].rest, 5000)}, 0, S_SIZE},
    {{TO(bells[1].rest, 0), TO(bells[2].rest, 0)}, 0, S_SIZE},
    {{TO(bells[3].rest, ALL)}, 0, S_SIZE}, /* there is no fourth */

    {{TO(bells[0].key, 11)}, 6, 8},
    {{TO(bells[1].key, 256 + 64)}, 6, 17},
    {{TO(bells[2].key, 116)}, 6, 26}, /* sounds for 120 */
    {{TO(bells[0].transposition, 25)}, 6, 8},
    {{TO(bells[2].transposition, 256)}, 6, 26},
    {{TO(bells[0].least_hold, 4)}, 6, 8}, /* over the most, 3 */
    {{TO(bells[1].least_hold, 0)}, 6, 17},
    {{TO(bells[1].most_hold, 5001)}, 6, 17},
    {{TO(bells[2].most_hold, 65536 + 7)}, 6, 26},
    {{TO(bells[0].rank, 256)}, 6, 8},
    {{TO(bells[2].rank, ALL)}, 6, 26},
    {{TO(bells[1].transposition, 252)}, 7, 17}, /* sounds for 60 */
    {{TO(bells[2].key, 64)}, 7, 26},            /* sounds for 68 */
    {{TO(bells[0].transposition, 8)}, 7, 17},   /* the later of the two is named */

    {{TO(note_count, 65)}, 8, 35},
    {{TO(note_count, ALL)}, 8, 35},
    {{TO(note_count, 6)}, 10, 113}, /* the sixth is all zero */
    {{TO(note_count, 0)}, 0, 36},
    {{TO(note_count, 4)}, 0, 95},
    {{TO(notes[0].wait_count, 5)}, 9, 36},
    {{TO(notes[2].wait_count, 256 + 1)}, 9, 64},
    {{TO(notes[4].wait_count, ALL)}, 9, 95},
    {{TO(notes[0].key, 60)}, 10, 36}, /* shifted to 63 */
    {{TO(notes[0].key, 65)}, 0, S_SIZE},
    {{TO(notes[1].key, 68)}, 10, 50},
    {{TO(notes[2].key, 90)}, 10, 64},
    {{TO(notes[3].key, 256 + 65)}, 10, 79},
    {{TO(notes[4].key, ALL)}, 10, 95},
    {{TO(notes[0].earliest_call, 2)}, 11, 36},
    {{TO(notes[1].latest_call, 3600001)}, 11, 50},
    {{TO(notes[2].latest_call, 3)}, 11, 64},
    {{TO(notes[3].due, ALL)}, 11, 79},
    {{TO(notes[4].due, 3600001)}, 11, 95},
    {{TO(notes[4].due, 3600000)}, 0, S_SIZE},
    {{TO(notes[0].wait_count, 1)}, 12, 36},
    {{TO(notes[2].waits[0], 2)}, 12, 64},
    {{TO(notes[3].waits[0], 2)}, 12, 79},
    {{TO(notes[3].waits[1], 256 + 2)}, 12, 79},
    {{TO(notes[4].waits[3], 4)}, 12, 95},

    /* Two that are wrong. */
    {{TO(version, 4), TO(bells[0].rest, 5001)}, 1, 0},
    {{TO(drivers, 9), TO(bells[0].rest, 5001)}, 4, 5},
    {{TO(shift, 25), TO(bells[0].rest, 5001)}, 19, 6},
    {{TO(bell_count, 0), TO(bells[0].rest, 5001)}, 5, 7},
    {{TO(bell_count, 97), TO(bells[0].rest, ALL)}, 5, 7},
    {{TO(bells[0].rest, 5001), TO(bells[1].key, 0)}, 6, 8},
    {{TO(bells[0].key, 0), TO(bells[1].rest, 5001)}, 6, 8},
    {{TO(bells[0].rest, 5001), TO(bells[2].rest, 5001)}, 6, 8},
    {{TO(bells[1].transposition, 252), TO(bells[1].rest, 5001)}, 6, 17}, /* a doubled key comes after it */
    {{TO(bells[1].transposition, 252), TO(bells[2].rest, 5001)}, 7, 17},
    {{TO(bells[1].rest, 5001), TO(bells[2].key, 64)}, 6, 17},
    {{TO(bells[2].rest, 5001), TO(bells[2].key, 64)}, 6, 26},
    {{TO(bells[2].rest, 5001), TO(note_count, 65)}, 6, 26},
    {{TO(bells[2].rest, ALL), TO(notes[0].wait_count, 5)}, 6, 26},
    {{TO(note_count, 65), TO(notes[0].wait_count, 5)}, 8, 35},
    {{TO(notes[1].due, ALL), TO(notes[2].key, 0)}, 11, 50},
    {{TO(notes[3].key, 0), TO(notes[3].due, ALL), TO(notes[3].waits[0], 2)}, 11, 79},
    {{TO(notes[3].key, 0), TO(notes[3].waits[0], 2)}, 10, 79},

    /* Two that are wrong, a rest that its version has no room for among them. */
    {{TO(version, 1), TO(drivers, 0)}, 4, 5},
    {{TO(version, 1), TO(bell_count, 97)}, 19, 6},
    {{TO(version, 1), TO(shift, 0), TO(bell_count, 97)}, 5, 6},
    {{TO(version, 1), TO(shift, 0), TO(bells[1].transposition, 252)}, 6, 14},
    {{TO(version, 1), TO(shift, 0), TO(bells[1].transposition, 252), TO(bells[1].rest, 0)}, 7, 14},
    {{TO(version, 2), TO(drivers, 0)}, 4, 5},
    {{TO(version, 2), TO(shift, 25)}, 19, 6},
    {{TO(version, 2), TO(bell_count, 0)}, 5, 7},
    {{TO(version, 2), TO(bells[0].key, 0)}, 6, 8},
    {{TO(version, 2), TO(bells[1].transposition, 252)}, 6, 15},
    {{TO(version, 2), TO(bells[1].transposition, 252), TO(bells[1].rest, 0)}, 7, 15},
    {{TO(version, 2), TO(bells[1].rest, 0), TO(bells[2].key, 64)}, 6, 22},
    {{TO(version, 2), TO(note_count, 65)}, 6, 15},
    {{TO(version, 2), TO(notes[0].key, 0), TO(notes[0].due, ALL)}, 6, 15},

    /* An earlier note with other waits moves the places of the later ones, and version 2 moves all by 6. */
    {{TO(notes[2].wait_count, 0), TO(notes[3].key, 0)}, 10, 78},
    {{TO(notes[3].wait_count, 0), TO(notes[4].due, ALL)}, 11, 93},
    {{TO(version, 2), TO(bells[1].rest, 0), TO(bells[2].rest, 0), TO(notes[4].key, 0)}, 10, 89},
};

static void set_word(struct phrase *phrase, size_t at, uint32_t value)
{
    memcpy((uint8_t *)phrase + at, &value, sizeof value);
}

static void try_change(const char *origin, const struct phrase *from, const struct change *change)
{
    struct phrase phrase = *from;
    struct result due = {change->number, change->place, NULL}, too_short = {16, 0, NULL};
    struct file file;
    char name[200];
    int i;
    snprintf(name, sizeof name, "%s", origin);
    for (i = 0; i < MOST_CHANGED && change->words[i].name != NULL; i++) {
        size_t length = strlen(name);
        set_word(&phrase, change->words[i].at, change->words[i].value);
        snprintf(name + length, sizeof name - length, ", %s", change->words[i].name);
    }
    if (due.number == 0) {
        file = encoded(&phrase);
        due.file = &file;
    }
    for (i = 0; i < SETTINGS; i++) {
        struct setting setting = setting_number(i);
        try_write(name, &phrase, setting, 3, MOST_ROOM, due);
        try_write(name, &phrase, setting, 3, due.number == 0 ? (size_t)due.place : 0, due); /* a wrong field comes before too little room */
        if (due.number == 0)
            try_write(name, &phrase, setting, 3, (size_t)due.place - 1, too_short);
    }
    if (due.number == 0) {
        struct phrase read = as_read(&phrase);
        file.name = name;
        try_read(&file, setting_number(0), 0, &read);
    }
}

static void try_changes(void)
{
    size_t i;
    for (i = 0; i < sizeof changes / sizeof *changes; i++)
        try_change("Q", &phrase_q, &changes[i]);
    for (i = 0; i < sizeof changes_of_r / sizeof *changes_of_r; i++)
        try_change("R", &phrase_r, &changes_of_r[i]);
    for (i = 0; i < sizeof changes_of_s / sizeof *changes_of_s; i++)
        try_change("S", &phrase_s, &changes_of_s[i]);
}

/* ---- What phrase_write does not look at ---- */

/* Fills what is derived, and all past the counts. */
static struct phrase with_garbage(const struct phrase *phrase, uint32_t garbage)
{
    struct phrase dirty;
    uint32_t i, wait;
    for (i = 0; i < sizeof dirty / sizeof garbage; i++)
        set_word(&dirty, i * sizeof garbage, garbage);
    dirty.version = phrase->version;
    dirty.drivers = phrase->drivers;
    dirty.bell_count = phrase->bell_count;
    dirty.note_count = phrase->note_count;
    dirty.shift = phrase->shift;
    for (i = 0; i < phrase->bell_count; i++) {
        dirty.bells[i] = phrase->bells[i];
        dirty.bells[i].sounding = garbage;
    }
    for (i = 0; i < phrase->note_count; i++) {
        dirty.notes[i] = phrase->notes[i];
        dirty.notes[i].bell = garbage;
        for (wait = phrase->notes[i].wait_count; wait < PHRASE_MOST_WAITS; wait++)
            dirty.notes[i].waits[wait] = garbage;
    }
    return dirty;
}

static void try_garbage(const struct file *file, const struct phrase *phrase)
{
    static const uint32_t garbage[] = {1, 60, 74, 0xA5A5A5A5, ALL};
    struct result due = {0, file->size, file};
    size_t i;
    int s;
    for (i = 0; i < sizeof garbage / sizeof *garbage; i++) {
        struct phrase dirty = with_garbage(phrase, garbage[i]);
        for (s = 0; s < SETTINGS; s++)
            try_write("garbage past what counts", &dirty, setting_number(s), 5, file->size, due);
    }
}

/* P in memory that nothing was written to before: valgrind sees an answer that depends on what does not count. */
static void try_unset(const struct file *p)
{
    struct phrase *phrase = malloc(sizeof *phrase);
    uint8_t file[MOST_FILE];
    uint32_t i;
    if (phrase == NULL)
        stop("memory is short");
    phrase->version = 1;
    phrase->drivers = 1;
    phrase->bell_count = 2;
    phrase->note_count = 2;
    phrase->shift = 0;
    for (i = 0; i < 2; i++) {
        phrase->bells[i].key = phrase_p.bells[i].key;
        phrase->bells[i].transposition = phrase_p.bells[i].transposition;
        phrase->bells[i].least_hold = phrase_p.bells[i].least_hold;
        phrase->bells[i].most_hold = phrase_p.bells[i].most_hold;
        phrase->bells[i].rank = phrase_p.bells[i].rank;
        phrase->bells[i].rest = 0;
        phrase->notes[i].key = phrase_p.notes[i].key;
        phrase->notes[i].earliest_call = phrase_p.notes[i].earliest_call;
        phrase->notes[i].latest_call = phrase_p.notes[i].latest_call;
        phrase->notes[i].due = phrase_p.notes[i].due;
        phrase->notes[i].wait_count = 0;
    }
    snprintf(trial, sizeof trial, "P in a phrase that is not set otherwise");
    expect_answer(phrase_write(phrase, file, sizeof file), 0, p->size);
    expect(memcmp(file, p->bytes, p->size) == 0, "the file is another");
    free(phrase);
}

static void try_ignored(void)
{
    struct file p = from_hex("P", P), q = from_hex("Q", Q), bounds = from_hex("bounds", BOUNDS), r = from_hex("R", R), s = from_hex("S", S);
    try_garbage(&p, &phrase_p);
    try_garbage(&q, &phrase_q);
    try_garbage(&bounds, &phrase_bounds);
    try_garbage(&r, &phrase_r);
    try_garbage(&s, &phrase_s);
    try_unset(&p);
}

/* ---- Transpositions and shifts as numbers ---- */

static void try_transpositions(void)
{
    uint32_t byte;
    int semitones;
    for (semitones = -400; semitones <= 400; semitones++) {
        uint32_t due = semitones < -128 || semitones > 127 ? 256 : (uint32_t)((semitones + 256) % 256);
        snprintf(trial, sizeof trial, "phrase_transposition of %d", semitones);
        expect_number(phrase_transposition(semitones), due, "the byte");
        if (due < 256)
            expect(phrase_semitones(due) == semitones, "it does not come back");
    }
    for (byte = 0; byte <= 300; byte++) {
        int due = byte < 128 ? (int)byte : byte < 256 ? -(int)(256 - byte) : 128;
        snprintf(trial, sizeof trial, "phrase_semitones of %u", (unsigned)byte);
        expect(phrase_semitones(byte) == due, "they are others");
        if (byte < 256)
            expect_number(phrase_transposition(due), byte, "the byte that comes back");
    }
    snprintf(trial, sizeof trial, "far off");
    expect_number(phrase_transposition(INT_MIN), 256, "phrase_transposition of the least int");
    expect_number(phrase_transposition(INT_MAX), 256, "phrase_transposition of the largest int");
    expect(phrase_semitones(HIGH) == 128 && phrase_semitones(ALL) == 128 && phrase_semitones(ALL - 2) == 128, "phrase_semitones of wide numbers");
}

/* ---- Random edits ---- */

static uint32_t draw(uint32_t bound)
{
    static uint64_t state = 101;
    state = state * UINT64_C(6364136223846793005) + UINT64_C(1442695040888963407);
    return (uint32_t)(state >> 33) % bound;
}

/* Sets one field of Q, R or S to what fits its bytes, or lets a bell sound for what it or another one did at first. */
static void edit(struct phrase *phrase)
{
    static const uint32_t bytes[] = {0, 1, 2, 3, 4, 5, 11, 12, 24, 25, 47, 60, 64, 68, 74, 119, 120, 123, 128, 231, 232, 252, 254, 255};
    static const uint32_t numbers[] = {0, 1, 2, 3, 5, 7, 258, 772, 5000, 5001, 65535, 66051, 3600000, 3600001, ALL};
    uint32_t byte = bytes[draw(sizeof bytes / sizeof *bytes)], number = numbers[draw(sizeof numbers / sizeof *numbers)];
    struct phrase_bell *bell = &phrase->bells[draw(3)];
    struct phrase_note *note = &phrase->notes[draw(6)];
    switch (draw(19)) {
    case 0: phrase->version = draw(8) == 0 ? byte : 1 + draw(4); break;
    case 1: phrase->drivers = byte; break;
    case 2: phrase->bell_count = byte; break;
    case 3: phrase->note_count = byte; break;
    case 4: bell->key = byte; break;
    case 5: bell->transposition = byte; break;
    case 6: bell->least_hold = number & 0xFFFF; break;
    case 7: bell->most_hold = number & 0xFFFF; break;
    case 8: bell->rank = byte; break;
    case 9: note->key = byte; break;
    case 10: note->earliest_call = number; break;
    case 11: note->latest_call = number; break;
    case 12: note->due = number; break;
    case 13: note->wait_count = byte < 243 ? byte : 0; break; /* 13 more fit the byte */
    case 14: phrase->shift = byte; break;
    case 15: bell->rest = number & 0xFFFF; break;
    case 16: bell->key = phrase->bells[draw(3)].sounding; bell->transposition = 0; break;
    default: note->waits[draw(4)] = byte; break;
    }
}

/* Where that is read, the phrase comes back. Gives the answer. */
static uint64_t try_encoded(const struct file *file, const struct phrase *phrase)
{
    struct phrase read = *phrase, due;
    uint64_t reading = phrase_read(file->bytes, file->size, &read);
    memset(&due, 0, sizeof due);
    if (phrase_refusal(reading) == 0)
        due = as_read(phrase);
    expect_phrase(&read, &due);
    return reading;
}

/* How often what its version has no room for was an edited phrase's refusal. */
static unsigned long hidden_shifts, hidden_rests;

/* What a file of the phrase's version shows: version 1 has no shift, and only version 3 has rests. */
static struct phrase shown_of(const struct phrase *phrase)
{
    struct phrase shown = *phrase;
    uint32_t i;
    if (phrase->version == 1)
        shown.shift = 0;
    for (i = 0; phrase->version != 3 && i < PHRASE_MOST_BELLS; i++)
        shown.bells[i].rest = 0;
    return shown;
}

/* A refusal with this number and place instead of the answer, unless that names an earlier place. At one place 19 comes before 5, and 6 before 7. */
static uint64_t unless_earlier(uint64_t answer, uint64_t number, uint64_t place, unsigned long *count)
{
    if (phrase_refusal(answer) != 0 && phrase_place(answer) < place)
        return answer;
    *count += 1;
    return number * UINT64_C(4294967296) + place;
}

/* The answer to a phrase of which a file of its version shows less: the first of its bells that has a rest without room for it, then a shift without. */
static uint64_t with_hidden(uint64_t reading, const struct phrase *phrase)
{
    uint32_t bell = 0, first = phrase->version == 1 ? 7 : 8;
    if (phrase->version != 1 && phrase->version != 2)
        return reading;
    while (bell < phrase->bell_count && bell < PHRASE_MOST_BELLS && phrase->bells[bell].rest == 0)
        bell++;
    if (bell < phrase->bell_count && bell < PHRASE_MOST_BELLS)
        reading = unless_earlier(reading, 6, first + 7 * bell, &hidden_rests);
    if (phrase->version == 1 && phrase->shift != 0)
        reading = unless_earlier(reading, 19, 6, &hidden_shifts);
    return reading;
}

/*
 * The answer to an edited phrase is that of reading its file; but for a shift or a rest that its version has no room for, which the file cannot show. Where
 * the phrase is not refused, the file is what is written. Gives the number.
 */
static uint32_t try_edited(const struct phrase *phrase)
{
    struct file file = encoded(phrase);
    struct phrase shown = shown_of(phrase);
    uint8_t written[MOST_FILE];
    uint64_t reading = with_hidden(try_encoded(&file, &shown), phrase);
    uint32_t number = phrase_refusal(reading);
    expect_answer(phrase_write(phrase, written, sizeof written), number, number == 0 ? file.size : phrase_place(reading));
    if (number == 0)
        expect(memcmp(written, file.bytes, file.size) == 0, "the file is another");
    return number;
}

/* One edit to three, one after the other, of Q, R and S in turn. Each number has to come of each. */
static void try_random_edits(void)
{
    static const uint32_t numbers[] = {0, 1, 4, 5, 6, 7, 8, 9, 10, 11, 12, 19};
    static unsigned long found[3][20];
    unsigned long i;
    for (i = 0; i < RANDOM_EDITS; i++) {
        struct phrase phrase = i % 3 == 0 ? phrase_q : i % 3 == 1 ? phrase_r : phrase_s;
        uint32_t count = 1 + draw(3), number;
        while (count-- > 0)
            edit(&phrase);
        snprintf(trial, sizeof trial, "random edit %lu", i);
        number = try_edited(&phrase);
        if (number < 20)
            found[i % 3][number]++;
    }
    for (i = 0; i < 3 * sizeof numbers / sizeof *numbers; i++) {
        snprintf(trial, sizeof trial, "random edits of %c with number %u", "QRS"[i % 3], (unsigned)numbers[i / 3]);
        expect(found[i % 3][numbers[i / 3]] >= RANDOM_EDITS / 1000, "they are too few");
    }
    snprintf(trial, sizeof trial, "random edits with what their version has no room for");
    expect(hidden_shifts >= RANDOM_EDITS / 100 && hidden_rests >= RANDOM_EDITS / 100, "they are too few");
}

int main(void)
{
    begin_test();
    file_area = map_area(MOST_FILE);
    phrase_area = map_area(sizeof(struct phrase));
    try_phrases();
    try_shifted_phrases();
    try_rested_phrases();
    try_shifts_and_rests();
    try_changes();
    try_ignored();
    try_transpositions();
    try_random_edits();
    return end_test();
}
