/*
 * Calls phrase_play of host/phrase.h on playings of small phrases, whose starts and ends are written here by hand; on playings that are refused, and on the
 * etude's own, cut short everywhere, with its head changed, and with each call and hold outside its range. Then on random playings, of the etude and of random
 * phrases, a third of these in version 2 with a shift and a third in version 3 with rests, whose runs are worked out here too, millisecond by millisecond, as
 * document 01 has the dispatch rule, and request 106 the rests. areas.h says how memory is lent.
 *
 * Reads the etude, the etude down a third, the etude on heavy bells and their playing from examples/, so it runs in the repository's root. Prints one line for
 * each failure (the first twenty) and a count; exit status 0 when nothing failed.
 */
#define _DEFAULT_SOURCE
#define TEST "playings"

#include "phrase.h"
#include "areas.h"
#include "files.h"

enum { MOST_STROKES = 64, ARRAY = MOST_STROKES * sizeof(uint32_t) };
enum { RANDOM_ETUDES = 2000, RANDOM_ETUDES_DOWN = 500, RANDOM_ETUDES_HEAVY = 500, RANDOM_PHRASES = 4000 };

static struct area file_area, playing_area, starts_area, ends_area;

/* ---- Playings and runs ---- */

struct playing {
    uint32_t strokes;
    uint32_t calls[MOST_STROKES], holds[MOST_STROKES];
};

struct run {
    uint32_t starts[MOST_STROKES], ends[MOST_STROKES];
};

/* What every refusal leaves. */
static const struct run no_run;

static struct file encoded(const char *name, const struct playing *playing)
{
    struct file file;
    uint32_t i;
    file.name = name;
    file.size = 0;
    add_byte(&file, 1);
    add_number(&file, 6 * playing->strokes, 4);
    for (i = 0; i < playing->strokes; i++) {
        add_number(&file, playing->calls[i], 4);
        add_number(&file, playing->holds[i], 2);
    }
    return file;
}

static struct file from_disk(const char *name)
{
    struct file file;
    FILE *stream = fopen(name, "rb");
    if (stream == NULL)
        stop(name);
    file.name = name;
    file.size = fread(file.bytes, 1, MOST_FILE, stream);
    fclose(stream);
    return file;
}

/* The bytes of a file as a number. */
static uint32_t number_at(const struct file *file, size_t at, size_t bytes)
{
    uint32_t number = 0;
    for (; bytes > 0; bytes--)
        number = number * 256 + file->bytes[at++];
    return number;
}

static struct playing decoded(const struct file *file)
{
    struct playing playing;
    uint32_t i;
    memset(&playing, 0, sizeof playing);
    playing.strokes = (uint32_t)((file->size - 5) / 6);
    for (i = 0; i < playing.strokes; i++) {
        playing.calls[i] = number_at(file, 5 + 6 * i, 4);
        playing.holds[i] = number_at(file, 9 + 6 * i, 2);
    }
    return playing;
}

static struct phrase phrase_of(const struct file *file)
{
    struct phrase phrase;
    if (phrase_read(file->bytes, file->size, &phrase) != 0)
        stop("a phrase of this test is not read");
    return phrase;
}

/* ---- One trial ---- */

struct answer {
    uint64_t number, place;
};
static const struct answer worked_out = {0, 0}, wrong_playing = {17, 0};

/* Every word is there, and nothing around. */
static void expect_array(const struct area *area, const uint32_t *due, const char *name)
{
    char what[64];
    uint32_t i = 0, found;
    expect_untouched_from(area, ARRAY, "a byte before an array changed", "a byte past an array changed");
    while (i < MOST_STROKES && memcmp(area->lent + i * sizeof found, &due[i], sizeof found) == 0)
        i++;
    if (i == MOST_STROKES) {
        expect(1, name);
        return;
    }
    memcpy(&found, area->lent + i * sizeof found, sizeof found);
    snprintf(what, sizeof what, "the %s of stroke %u", name, (unsigned)i);
    expect_number(found, due[i], what);
}

/* File and playing are lent on pages that cannot be written, between guards so many bytes after a place that is aligned. */
static void try_at(const struct file *file, const struct file *playing, struct answer due, const struct run *run, struct setting setting, size_t offset)
{
    uint64_t answer;
    snprintf(trial, sizeof trial, "phrase_play, %s, version %u, %s, %s, filling %02X, offset %lu", file->name, version_of(file), playing->name,
             where_names[setting.where], (unsigned)setting.filling, (unsigned long)offset);
    lend_const(&file_area, file->bytes, file->size, setting, offset);
    lend_const(&playing_area, playing->bytes, playing->size, setting, offset);
    lend(&starts_area, ARRAY, setting, sizeof(uint32_t));
    lend(&ends_area, ARRAY, setting, 3 * sizeof(uint32_t));
    answer = phrase_play(file_area.lent, file->size, playing_area.lent, playing->size, (uint32_t *)(void *)starts_area.lent,
                         (uint32_t *)(void *)ends_area.lent);
    expect_answer(answer, due.number, due.place);
    expect_array(&starts_area, run->starts, "start");
    expect_array(&ends_area, run->ends, "end");
}

static void try_play(const struct file *file, const struct file *playing, struct answer due, const struct run *run)
{
    int i;
    for (i = 0; i < SETTINGS; i++)
        try_at(file, playing, due, run, setting_number(i), 1);
}

/* In one setting, each time in the next, for what is tried often. */
static void try_once(const struct file *file, const struct file *playing, struct answer due, const struct run *run)
{
    static int turn;
    turn = (turn + 1) % SETTINGS;
    try_at(file, playing, due, run, setting_number(turn), (size_t)turn);
}

/* ---- Runs by hand ---- */

/* Two strokes of one bell on two drivers. */
#define ONE_BELL "01 00000026 02 01 3C00 0003 0005 01 02 0D 3C 00000000 00000009" HOUR "0D 3C 00000000 00000009" HOUR
/* Three strokes on one driver, called at 0 to 9, with ranks 2, 1 and 1. */
#define RANKS                                                                                                                                          \
    "01 00000042 01 03 3C00 0001 0009 02 3E00 0001 0009 01 4000 0001 0009 01 03 0D 3C 00000000 00000009" HOUR "0D 3E 00000000 00000009" HOUR \
    "0D 40 00000000 00000009" HOUR

/* Two strokes on one driver, both written as bell 0 is; shifted by two semitones they strike bell 1, which holds for 4 to 6 in place of 1 to 2. */
#define OTHER_BELL "02 0000002E 01 02 02 3C00 0001 0002 01 3E00 0004 0006 01 02 0D 3C 00000000 00000009" HOUR "0D 3C 00000000 00000009" HOUR

/* Two strokes of one bell, which rests for 4, on two drivers; the second may list the first, which changes nothing. The rest stands at 14. */
#define RESTING "03 00000029 02 00 01 3C00 0003 0005 0004 01 02 0D 3C 00000000 00000009" HOUR "0D 3C 00000000 00000009" HOUR
#define RESTING_LISTED "03 0000002A 02 00 01 3C00 0003 0005 0004 01 02 0D 3C 00000000 00000009" HOUR "0E 3C 00000000 00000009" HOUR "00"
/* Two strokes of a bell of rank 1, which rests for 5, and one of a bell of rank 2, on one driver. */
#define LESSER                                                                                                                          \
    "03 00000040 01 00 02 3C00 0001 0009 0005 01 3E00 0001 0009 0000 02 03 0D 3C 00000000 00000009" HOUR "0D 3C 00000000 00000009" HOUR \
    "0D 3E 00000000 00000009" HOUR
/* A bell that rests for 9 and one that rests for 7, on three drivers: stroke 1 lists 0, of the other bell; 2 is of bell 1, and 3, of bell 0, lists 0 and 1. */
#define OTHERS                                                                                                                               \
    "03 00000051 03 00 02 3C00 0001 0009 0009 01 3E00 0001 0009 0007 01 04 0D 3C 00000000 00000009" HOUR "0E 3E 00000000 00000009" HOUR "00" \
    "0D 3E 00000000 00000009" HOUR "0F 3C 00000000 00000009" HOUR "00 01"
/* Three strokes of one bell, which rests for 3; the last lists the first, whose rest is over long before. */
#define THREE \
    "03 00000038 01 00 01 3C00 0001 0009 0003 01 03 0D 3C 00000000 00000009" HOUR "0D 3C 00000000 00000009" HOUR "0E 3C 00000000 00000009" HOUR "00"

static const struct {
    const char *name, *hex;
    size_t at;
    uint8_t byte;
    struct playing playing;
    struct run run;
} runs[] = {
    {"P", P, UNCHANGED, {2, {0, 0}, {2, 4}}, {{0, 2}, {2, 6}}},
    {"P", P, UNCHANGED, {2, {1, 0}, {2, 4}}, {{4, 0}, {6, 4}}},
    {"P", P, UNCHANGED, {2, {4, 0}, {2, 4}}, {{4, 0}, {6, 4}}},
    {"P", P, UNCHANGED, {2, {5, 0}, {2, 4}}, {{5, 0}, {7, 4}}},
    {"P, stroke 0 due 6", P, 35, 0x06, {2, {5, 0}, {2, 4}}, {{5, 0}, {7, 4}}}, /* refused with 14; here it is late */
    {"P, due before it is called", P, 35, 0x00, {2, {0, 0}, {2, 4}}, {{0, 2}, {2, 6}}},
    {"P on two drivers", P, 5, 0x02, {2, {1, 0}, {2, 4}}, {{1, 0}, {3, 4}}},
    {"M1", M1, UNCHANGED, {2, {0, 0}, {1, 3}}, {{0, 1}, {1, 4}}},
    {"M1", M1, UNCHANGED, {2, {0, 0}, {2, 3}}, {{0, 2}, {2, 5}}},
    {"M5", M5, UNCHANGED, {3, {0, 0, 0}, {2, 5, 1}}, {{0, 0, 2}, {2, 5, 3}}},
    {"M5", M5, UNCHANGED, {3, {0, 0, 0}, {2, 5, 3}}, {{0, 0, 2}, {2, 5, 5}}},
    {"M6", M6, UNCHANGED, {3, {0, 0, 3}, {2, 1, 2}}, {{0, 2, 3}, {2, 3, 5}}},
    {"M6", M6, UNCHANGED, {3, {0, 0, 3}, {3, 1, 2}}, {{0, 3, 3}, {3, 4, 5}}}, /* two start in one millisecond */
    {"M6", M6, UNCHANGED, {3, {0, 0, 3}, {4, 1, 2}}, {{0, 4, 3}, {4, 5, 5}}}, /* stroke 1, which still waits, holds none back */
    {"M7", M7, UNCHANGED, {2, {0, 0}, {1, 1}}, {{0, 1}, {1, 2}}},
    {"M8", M8, UNCHANGED, {0, {0}, {0}}, {{0}, {0}}},
    {"M8 on 8 drivers", M8_ON_8, UNCHANGED, {0, {0}, {0}}, {{0}, {0}}},
    {"one bell", ONE_BELL, UNCHANGED, {2, {0, 0}, {3, 5}}, {{0, 3}, {3, 8}}},
    {"one bell", ONE_BELL, UNCHANGED, {2, {9, 0}, {4, 3}}, {{9, 13}, {13, 16}}}, /* stroke 1 waits for stroke 0, which is called later */
    {"one bell", ONE_BELL, UNCHANGED, {2, {0, 5}, {5, 3}}, {{0, 5}, {5, 8}}},
    {"ranks", RANKS, UNCHANGED, {3, {0, 0, 0}, {4, 5, 6}}, {{11, 0, 5}, {15, 5, 11}}},
    {"ranks", RANKS, UNCHANGED, {3, {0, 1, 1}, {4, 5, 6}}, {{0, 4, 9}, {4, 9, 15}}},
    {"ranks", RANKS, UNCHANGED, {3, {1, 4, 0}, {9, 1, 4}}, {{5, 4, 0}, {14, 5, 4}}},
    {"ranks", RANKS, UNCHANGED, {3, {9, 8, 7}, {9, 1, 1}}, {{9, 8, 7}, {18, 9, 8}}},
    {"P shifted", P_SHIFTED, UNCHANGED_2, {2, {1, 0}, {2, 4}}, {{4, 0}, {6, 4}}},
    {"P shifted", P_SHIFTED, UNCHANGED_2, {2, {5, 0}, {2, 4}}, {{5, 0}, {7, 4}}},
    {"P shifted, stroke 0 due 6", P_SHIFTED, 36, 0x06, {2, {5, 0}, {2, 4}}, {{5, 0}, {7, 4}}},
    {"another bell", OTHER_BELL, UNCHANGED_2, {2, {0, 0}, {4, 6}}, {{0, 4}, {4, 10}}},
    {"another bell", OTHER_BELL, UNCHANGED_2, {2, {9, 0}, {6, 5}}, {{9, 15}, {15, 20}}},
    {"another bell, shift 0", OTHER_BELL, 6, 0x00, {2, {0, 0}, {1, 2}}, {{0, 1}, {1, 3}}},
    {"key 143 shifted by -24", ONE_STROKE("E8", "77", "8F"), UNCHANGED_2, {1, {0}, {1}}, {{0}, {1}}},
    {"key 0 shifted by 24", ONE_STROKE("18", "18", "00"), UNCHANGED_2, {1, {0}, {1}}, {{0}, {1}}},
    {"P rested", P_RESTED, UNCHANGED_3, {2, {1, 0}, {2, 4}}, {{4, 0}, {6, 4}}}, /* a bell's first stroke waits for no rest */
    {"P rested", P_RESTED, UNCHANGED_3, {2, {5, 0}, {2, 4}}, {{5, 0}, {7, 4}}},
    {"P rested, stroke 0 due 6", P_RESTED, 40, 0x06, {2, {5, 0}, {2, 4}}, {{5, 0}, {7, 4}}},
    {"a bell that rests", RESTING, UNCHANGED_3, {2, {0, 0}, {3, 5}}, {{0, 7}, {3, 12}}},
    {"a bell that rests", RESTING, UNCHANGED_3, {2, {0, 0}, {5, 5}}, {{0, 9}, {5, 14}}},
    {"a bell that rests", RESTING, UNCHANGED_3, {2, {9, 0}, {4, 3}}, {{9, 17}, {13, 20}}},
    {"a bell that rests", RESTING, UNCHANGED_3, {2, {0, 6}, {3, 3}}, {{0, 7}, {3, 10}}},
    {"a bell that rests", RESTING, UNCHANGED_3, {2, {0, 7}, {3, 3}}, {{0, 7}, {3, 10}}}, /* called when the rest is over */
    {"a bell that rests", RESTING, UNCHANGED_3, {2, {0, 8}, {3, 3}}, {{0, 8}, {3, 11}}},
    {"a bell that rests for 0", RESTING, 15, 0x00, {2, {0, 0}, {3, 5}}, {{0, 3}, {3, 8}}},
    {"a bell that rests for 1", RESTING, 15, 0x01, {2, {0, 0}, {3, 5}}, {{0, 4}, {3, 9}}},
    {"a bell that rests for 4868", RESTING, 14, 0x13, {2, {0, 9}, {3, 5}}, {{0, 4871}, {3, 4876}}},
    {"a bell that rests, on one driver", RESTING, 5, 0x01, {2, {0, 0}, {3, 5}}, {{0, 7}, {3, 12}}},
    {"a bell that rests, listed too", RESTING_LISTED, UNCHANGED_3, {2, {0, 0}, {3, 5}}, {{0, 7}, {3, 12}}},
    {"a bell that rests, listed too", RESTING_LISTED, UNCHANGED_3, {2, {0, 8}, {3, 3}}, {{0, 8}, {3, 11}}},
    {"a lesser stroke", LESSER, UNCHANGED_3, {3, {0, 0, 0}, {3, 2, 4}}, {{0, 8, 3}, {3, 10, 7}}}, /* it goes first; then the driver is idle */
    {"a lesser stroke", LESSER, UNCHANGED_3, {3, {0, 0, 0}, {3, 2, 5}}, {{0, 8, 3}, {3, 10, 8}}},
    {"a lesser stroke", LESSER, UNCHANGED_3, {3, {0, 0, 0}, {3, 2, 9}}, {{0, 12, 3}, {3, 14, 12}}},
    {"a lesser stroke", LESSER, UNCHANGED_3, {3, {0, 0, 7}, {3, 2, 9}}, {{0, 16, 7}, {3, 18, 16}}},
    {"a lesser stroke", LESSER, UNCHANGED_3, {3, {0, 0, 8}, {3, 2, 9}}, {{0, 8, 10}, {3, 10, 19}}}, /* both are ready at 8 */
    {"a lesser stroke, no rest", LESSER, 15, 0x00, {3, {0, 0, 0}, {3, 2, 4}}, {{0, 3, 5}, {3, 5, 9}}},
    {"rests of others", OTHERS, UNCHANGED_3, {4, {0, 0, 0, 0}, {4, 5, 1, 2}}, {{0, 4, 16, 13}, {4, 9, 17, 15}}},
    {"rests of others", OTHERS, UNCHANGED_3, {4, {0, 0, 0, 0}, {4, 9, 1, 2}}, {{0, 4, 20, 13}, {4, 13, 21, 15}}},
    {"rests of others", OTHERS, UNCHANGED_3, {4, {0, 9, 0, 0}, {1, 9, 1, 2}}, {{0, 9, 25, 18}, {1, 18, 26, 20}}}, /* 3 waits for 1, not for its rest */
    {"three strokes", THREE, UNCHANGED_3, {3, {0, 0, 0}, {9, 1, 2}}, {{0, 12, 16}, {9, 13, 18}}},
    {"three strokes", THREE, UNCHANGED_3, {3, {9, 0, 0}, {1, 9, 9}}, {{9, 13, 25}, {10, 22, 34}}},
};

static void try_runs(void)
{
    size_t i, offset;
    for (i = 0; i < sizeof runs / sizeof *runs; i++) {
        struct file file = from_hex(runs[i].name, runs[i].hex), playing = encoded("by hand", &runs[i].playing);
        file.bytes[runs[i].at] = runs[i].byte;
        try_play(&file, &playing, worked_out, &runs[i].run);
        for (offset = 0; offset < 8; offset++)
            try_at(&file, &playing, worked_out, &runs[i].run, setting_number(SETTINGS - 1), offset);
    }
}

/* 64 strokes of one bell on one driver, called at the last moment, held and rested as long as can be: no end is later than 3600000 + 127 * 5000. */
static void try_latest_rested(struct file file, const struct file *bytes)
{
    struct run run;
    uint32_t i;
    file = shifted(&file, 0);
    file = rested_alike(&file, 5000);
    for (i = 0; i < 64; i++) {
        run.starts[i] = 3600000 + 10000 * i;
        run.ends[i] = run.starts[i] + 5000;
    }
    try_play(&file, bytes, worked_out, &run);
}

/* 64 strokes on one driver, all called at the last moment and held as long as can be: without rests, no end is later than 3600000 + 64 * 5000. */
static void try_latest(void)
{
    struct file file = begin("64 strokes after an hour", 1, 1), bytes;
    struct playing playing;
    struct run run;
    uint32_t i;
    add_bell(&file, 60, 5000, 5000, 255);
    add_byte(&file, 64);
    playing.strokes = 64;
    for (i = 0; i < 64; i++) {
        add_note(&file, 60, 3600000, 3600000, 0);
        playing.calls[i] = 3600000;
        playing.holds[i] = 5000;
        run.starts[i] = 3600000 + 5000 * i;
        run.ends[i] = run.starts[i] + 5000;
    }
    finish(&file);
    bytes = encoded("by hand", &playing);
    try_play(&file, &bytes, worked_out, &run);
    try_latest_rested(file, &bytes);
}

/* Each stroke of the longest file waits for the one before it, which is of another bell, so no rest matters. */
static void try_longest(void)
{
    struct file file = longest(), bytes;
    struct playing playing;
    struct run run;
    uint32_t i, end = 0;
    playing.strokes = 64;
    for (i = 0; i < 64; i++) {
        playing.calls[i] = 0;
        playing.holds[i] = 5000 - 70 * i;
        run.starts[i] = end;
        run.ends[i] = end += playing.holds[i];
    }
    bytes = encoded("by hand", &playing);
    snprintf(trial, sizeof trial, "a longest playing");
    expect_number(bytes.size, 389, "its length");
    try_play(&file, &bytes, worked_out, &run);
    file = shifted(&file, -24);
    try_play(&file, &bytes, worked_out, &run);
    file = rested_alike(&file, 5000);
    expect_number(file.size, 2015, "the length of the longest file");
    try_play(&file, &bytes, worked_out, &run);
    bytes.size--;
    try_play(&file, &bytes, wrong_playing, &no_run);
}

/* ---- Refusals by hand ---- */

#define PLAYING_P "01 0000000C 00000005 0002 00000000 0004"

static const struct {
    const char *name, *hex;
    size_t at;
    uint8_t byte;
    const char *playing;
    struct answer answer;
} refusals[] = {
    /* Those of the file come first, whatever the playing. */
    {"row 1", "09", 0, 0x09, PLAYING_P, {1, 0}},
    {"row 1", "09", 0, 0x09, "09", {1, 0}},
    {"row 2", "01 00 00", UNCHANGED, "", {2, 0}},
    {"row 3", "01 00000001 01", UNCHANGED, "01 00000000", {3, 6}},
    {"row 4", "01 00000001 00", UNCHANGED, PLAYING_P, {4, 5}},
    {"row 5", "01 00000002 01 00", UNCHANGED, PLAYING_P, {5, 6}},
    {"row 6", P, 7, 0x0B, PLAYING_P, {6, 7}},
    {"row 7", P, 15, 0xFE, PLAYING_P, {7, 14}},
    {"row 8", P, 21, 0x41, PLAYING_P, {8, 21}},
    {"row 9", P, 22, 0x0C, PLAYING_P, {9, 22}},
    {"row 10", P, 37, 0x3E, PLAYING_P, {10, 36}},
    {"row 10", P, 37, 0x3E, "02 0000000C 00000006 0002 00000000 0004", {10, 36}},
    {"row 11", P, 27, 0x06, PLAYING_P, {11, 22}},
    {"row 12", P_WAITING, UNCHANGED, PLAYING_P, {12, 36}},
    {"row 12", P_WAITING, UNCHANGED, "01 0000000C FFFFFFFF FFFF 00000000 0004", {12, 36}},
    {"version 4", P_SHIFTED, 0, 0x04, PLAYING_P, {1, 0}},
    {"version 2, row 4, shift 25", "02 00000002 00 19", UNCHANGED_2, PLAYING_P, {4, 5}},
    {"no shift", "02 00000001 01", UNCHANGED_2, "01 00000000", {3, 6}},
    {"P shifted by 25", P_SHIFTED, 6, 0x19, PLAYING_P, {19, 6}},
    {"P shifted by -25", P_SHIFTED, 6, 0xE7, "", {19, 6}},
    {"P shifted by -128", P_SHIFTED, 6, 0x80, "02 0000000C 00000006 0002 00000000 0004", {19, 6}},
    {"P shifted by 25", P_SHIFTED, 6, 0x19, "01 0000000C FFFFFFFF FFFF 00000000 0004", {19, 6}},
    {"shift 25, no bells", "02 00000003 01 19 00", UNCHANGED_2, PLAYING_P, {19, 6}},
    {"no bell count", "02 00000002 01 00", UNCHANGED_2, PLAYING_P, {3, 7}},
    {"version 2, row 5", "02 00000003 01 00 00", UNCHANGED_2, PLAYING_P, {5, 7}},
    {"P shifted by -3", P_SHIFTED, 6, 0xFD, PLAYING_P, {10, 23}},
    {"version 2, row 12", P_SHIFTED_WAITING, UNCHANGED_2, PLAYING_P, {12, 37}},
    {"P rested as version 4", P_RESTED, 0, 0x04, PLAYING_P, {1, 0}},
    {"P rested as version 4", P_RESTED, 0, 0x04, "", {1, 0}},
    {"P rested as version 2", P_RESTED, 0, 0x02, PLAYING_P, {6, 15}}, /* a bell of key 7 */
    {"P shifted as version 3", P_SHIFTED, 0, 0x03, PLAYING_P, {6, 17}}, /* a bell of key 0 */
    {"version 3, no shift", "03 00000001 01", UNCHANGED_3, "01 00000000", {3, 6}},
    {"version 3, shift 25", P_RESTED, 6, 0x19, PLAYING_P, {19, 6}},
    {"version 3, row 5", "03 00000003 01 00 00", UNCHANGED_3, PLAYING_P, {5, 7}},
    {"version 3, cut in the rest", "03 0000000A 01 FC 01 3C0000020002 00", UNCHANGED_3, PLAYING_P, {3, 8}},
    {"P rested, rest 5127", P_RESTED, 14, 0x14, PLAYING_P, {6, 8}},
    {"P rested, rest 5001", P_RESTED, 24, 0x89, "02 0000000C 00000006 0002 00000000 0004", {6, 17}},
    {"version 3, row 10", P_RESTED, 42, 0x42, PLAYING_P, {10, 41}},
    {"version 3, row 12", P_RESTED_WAITING, UNCHANGED_3, PLAYING_P, {12, 41}},
    /* Then 17. */
    {"P", P, UNCHANGED, "", {17, 0}},
    {"P", P, UNCHANGED, "01", {17, 0}},
    {"P", P, UNCHANGED, "01 000000", {17, 0}},
    {"P", P, UNCHANGED, "01 00000000", {17, 0}},
    {"P", P, UNCHANGED, "00 0000000C 00000005 0002 00000000 0004", {17, 0}},
    {"P", P, UNCHANGED, "02 0000000C 00000005 0002 00000000 0004", {17, 0}},
    {"P", P, UNCHANGED, "81 0000000C 00000005 0002 00000000 0004", {17, 0}},
    {"P", P, UNCHANGED, "01 0000000B 00000005 0002 00000000 0004", {17, 0}},
    {"P", P, UNCHANGED, "01 0000000D 00000005 0002 00000000 0004", {17, 0}},
    {"P", P, UNCHANGED, "01 0000010C 00000005 0002 00000000 0004", {17, 0}},
    {"P", P, UNCHANGED, "01 8000000C 00000005 0002 00000000 0004", {17, 0}},
    {"P", P, UNCHANGED, "01 FFFFFFFF 00000005 0002 00000000 0004", {17, 0}},
    {"P", P, UNCHANGED, "01 0C000000 00000005 0002 00000000 0004", {17, 0}},
    {"P", P, UNCHANGED, "01 00000006 00000005 0002", {17, 0}},
    {"P", P, UNCHANGED, "01 00000006 00000005 0002 00000000 0004", {17, 0}},
    {"P", P, UNCHANGED, "01 00000012 00000005 0002 00000000 0004 00000000 0004", {17, 0}},
    {"P", P, UNCHANGED, "01 0000000C 00000005 0002 00000000 0004 00000000 0004", {17, 0}},
    {"P", P, UNCHANGED, "01 0000000C 00000005 0002 00000000", {17, 0}},
    {"P", P, UNCHANGED, "01 0000000A 00000005 0002 00000000", {17, 0}},
    {"P", P, UNCHANGED, "01 0000000C 00000005 0002 00000000 0004 00", {17, 0}},
    {"P", P, UNCHANGED, "01 0000000D 00000005 0002 00000000 0004 00", {17, 0}},
    {"P", P, UNCHANGED, "02 0000000C 00000006 0002 00000000 0004", {17, 0}}, /* also outside */
    {"P", P, UNCHANGED, "01 0000000D 00000006 0002 00000000 0004", {17, 0}},
    {"M8", M8, UNCHANGED, "", {17, 0}},
    {"M8", M8, UNCHANGED, "01 00000000 00", {17, 0}},
    {"M8", M8, UNCHANGED, "01 00000001 00", {17, 0}},
    {"M8", M8, UNCHANGED, "01 00000006 00000000 0001", {17, 0}},
    {"P shifted", P_SHIFTED, UNCHANGED_2, "", {17, 0}},
    {"P shifted", P_SHIFTED, UNCHANGED_2, "02 0000000C 00000005 0002 00000000 0004", {17, 0}}, /* a playing has one version */
    {"P shifted", P_SHIFTED, UNCHANGED_2, "01 0000000D 00000005 0002 00000000 0004", {17, 0}},
    {"P rested", P_RESTED, UNCHANGED_3, "", {17, 0}},
    {"P rested", P_RESTED, UNCHANGED_3, "03 0000000C 00000005 0002 00000000 0004", {17, 0}},
    /* Then 18. */
    {"P", P, UNCHANGED, "01 0000000C 00000006 0002 00000000 0004", {18, 0}},
    {"P", P, UNCHANGED, "01 0000000C 00000105 0002 00000000 0004", {18, 0}},
    {"P", P, UNCHANGED, "01 0000000C 80000000 0002 00000000 0004", {18, 0}},
    {"P", P, UNCHANGED, "01 0000000C FFFFFFFF 0002 00000000 0004", {18, 0}},
    {"P", P, UNCHANGED, "01 0000000C 00000005 0001 00000000 0004", {18, 0}},
    {"P", P, UNCHANGED, "01 0000000C 00000005 0003 00000000 0004", {18, 0}},
    {"P", P, UNCHANGED, "01 0000000C 00000005 0102 00000000 0004", {18, 0}},
    {"P", P, UNCHANGED, "01 0000000C 00000005 0002 00000001 0004", {18, 1}},
    {"P", P, UNCHANGED, "01 0000000C 00000005 0002 00000000 0000", {18, 1}},
    {"P", P, UNCHANGED, "01 0000000C 00000005 0002 00000000 FFFF", {18, 1}},
    {"P", P, UNCHANGED, "01 0000000C 00000005 0003 00000001 0004", {18, 0}},
    {"P", P, UNCHANGED, "01 0000000C 00000006 0002 00000000 0005", {18, 0}},
    {"P, stroke 0 due 6", P, 35, 0x06, "01 0000000C 00000005 0002 00000000 0005", {18, 1}},
    {"P shifted", P_SHIFTED, UNCHANGED_2, "01 0000000C 00000006 0002 00000000 0004", {18, 0}},
    {"P shifted", P_SHIFTED, UNCHANGED_2, "01 0000000C 00000005 0002 00000000 0005", {18, 1}},
    {"another bell", OTHER_BELL, UNCHANGED_2, "01 0000000C 00000000 0002 00000000 0006", {18, 0}}, /* a hold of bell 0, which is not struck */
    {"another bell", OTHER_BELL, UNCHANGED_2, "01 0000000C 00000000 0004 00000000 0001", {18, 1}},
    {"P rested", P_RESTED, UNCHANGED_3, "01 0000000C 00000006 0002 00000000 0004", {18, 0}},
    {"P rested", P_RESTED, UNCHANGED_3, "01 0000000C 00000005 0002 00000000 0005", {18, 1}},
    {"a bell that rests", RESTING, UNCHANGED_3, "01 0000000C 00000000 0003 00000000 0006", {18, 1}}, /* a rest makes no hold longer */
    {"a bell that rests", RESTING, UNCHANGED_3, "01 0000000C 00000000 0007 0000000A 0003", {18, 0}},
};

static void try_refusals(void)
{
    size_t i;
    struct file file, playing;
    for (i = 0; i < sizeof refusals / sizeof *refusals; i++) {
        file = from_hex(refusals[i].name, refusals[i].hex);
        file.bytes[refusals[i].at] = refusals[i].byte;
        playing = from_hex(refusals[i].playing, refusals[i].playing);
        try_play(&file, &playing, refusals[i].answer, &no_run);
    }
    file = from_hex("the empty file", "");
    try_play(&file, &playing, (struct answer){2, 0}, &no_run);
    playing = from_hex("an empty playing", "");
    try_play(&file, &playing, (struct answer){2, 0}, &no_run);
}

/* ---- The run of document 01's dispatch rule, with the rests of request 106, millisecond by millisecond ---- */

enum status { WAITING, HOLDING, DONE };

struct simulation {
    const struct phrase *phrase;
    const struct playing *playing;
    enum status status[MOST_STROKES];
    uint32_t free_drivers, left;
    struct run run;
};

/* The nearest earlier stroke of a stroke's bell is done, and has been for the bell's rest. */
static int is_rested(const struct simulation *now, uint32_t i, uint32_t t)
{
    const struct phrase_note *notes = now->phrase->notes;
    uint32_t earlier = i;
    while (earlier-- > 0)
        if (notes[earlier].bell == notes[i].bell)
            return now->status[earlier] == DONE && now->run.ends[earlier] + now->phrase->bells[notes[i].bell].rest <= t;
    return 1;
}

static int is_ready(const struct simulation *now, uint32_t i, uint32_t t)
{
    const struct phrase_note *notes = now->phrase->notes;
    uint32_t wait;
    if (now->status[i] != WAITING || now->playing->calls[i] > t)
        return 0;
    for (wait = 0; wait < notes[i].wait_count; wait++)
        if (now->status[notes[i].waits[wait]] != DONE)
            return 0;
    return is_rested(now, i, t);
}

static uint32_t rank_of(const struct phrase *phrase, uint32_t i)
{
    return phrase->bells[phrase->notes[i].bell].rank;
}

/* The first by rank of those that are ready, or K. */
static uint32_t first_ready(const struct simulation *now, uint32_t t)
{
    uint32_t strokes = now->phrase->note_count, first = strokes, i;
    for (i = 0; i < strokes; i++)
        if (is_ready(now, i, t) && (first == strokes || rank_of(now->phrase, i) < rank_of(now->phrase, first)))
            first = i;
    return first;
}

static void step(struct simulation *now, uint32_t t)
{
    uint32_t strokes = now->phrase->note_count, i;
    for (i = 0; i < strokes; i++)
        if (now->status[i] == HOLDING && now->run.ends[i] == t) {
            now->status[i] = DONE;
            now->free_drivers++;
            now->left--;
        }
    while (now->free_drivers > 0 && (i = first_ready(now, t)) < strokes) {
        now->status[i] = HOLDING;
        now->free_drivers--;
        now->run.starts[i] = t;
        now->run.ends[i] = t + now->playing->holds[i];
    }
}

static struct run simulated(const struct phrase *phrase, const struct playing *playing)
{
    struct simulation now;
    uint32_t t;
    memset(&now, 0, sizeof now);
    now.phrase = phrase;
    now.playing = playing;
    now.free_drivers = phrase->drivers;
    now.left = phrase->note_count;
    for (t = 0; now.left > 0; t++)
        step(&now, t);
    return now.run;
}

/* ---- What is reported of an accepted phrase ---- */

struct reported {
    uint32_t number;
    uint32_t earliest[MOST_STROKES], latest[MOST_STROKES];
};

static struct reported reported_of(const struct file *file)
{
    static uint8_t text[PHRASE_TEXT_BYTES + 1];
    struct reported reported;
    const char *line = (const char *)text;
    uint32_t stroke;
    memset(&reported, 0, sizeof reported);
    reported.number = phrase_refusal(phrase_check(file->bytes, file->size));
    text[phrase_report(file->bytes, file->size, text, PHRASE_TEXT_BYTES)] = '\0';
    for (; reported.number == 0 && strncmp(line, "stroke ", 7) == 0; line = strchr(line, '\n') + 1) {
        unsigned earliest, latest;
        if (sscanf(line, "stroke %u key %*s bell %*u ends %u..%u", &stroke, &earliest, &latest) != 3 || stroke >= MOST_STROKES)
            stop("a report is not as document 01 has it");
        reported.earliest[stroke] = earliest;
        reported.latest[stroke] = latest;
    }
    return reported;
}

/* Ends are in the reported ranges, and in time. */
static void expect_inside(const struct phrase *phrase, const struct run *run, const struct reported *reported)
{
    uint32_t i;
    for (i = 0; reported->number == 0 && i < phrase->note_count; i++) {
        expect(reported->earliest[i] <= run->ends[i] && run->ends[i] <= reported->latest[i], "an end is outside the reported range");
        expect(run->ends[i] <= phrase->notes[i].due, "an end is late");
    }
}

/* ---- The etude ---- */

/* A playing with a right count, whatever its length. */
static struct file counted(const struct file *playing, size_t size)
{
    struct file file = *playing;
    file.name = "the playing cut, its count right";
    file.size = 1;
    add_number(&file, size - 5, 4);
    file.size = size;
    return file;
}

static void try_lengths(const struct file *etude, const struct file *playing)
{
    struct file cut = *playing;
    size_t size;
    for (size = 0; size <= playing->size + 12; size++) {
        if (size == playing->size)
            continue;
        cut = *playing;
        cut.name = "the playing cut or lengthened";
        if (size > playing->size)
            memset(cut.bytes + playing->size, 0, size - playing->size);
        cut.size = size;
        try_play(etude, &cut, wrong_playing, &no_run);
        if (size >= 5) {
            cut = counted(&cut, size);
            try_play(etude, &cut, wrong_playing, &no_run);
        }
    }
}

static void try_head(const struct file *etude, const struct file *playing)
{
    size_t at;
    unsigned byte;
    for (at = 0; at < 5; at++)
        for (byte = 0; byte < 256; byte++) {
            struct file changed = *playing;
            changed.name = "the playing with another head";
            if (changed.bytes[at] == byte)
                continue;
            changed.bytes[at] = (uint8_t)byte;
            try_once(etude, &changed, wrong_playing, &no_run);
        }
}

/* A call or hold outside its range, by itself and with each later stroke outside too. */
static void try_outside(const struct file *etude, const struct playing *playing, uint32_t stroke, uint32_t call, uint32_t hold)
{
    struct playing changed = *playing;
    struct answer due = {18, stroke};
    struct file bytes;
    uint32_t i;
    changed.calls[stroke] = call;
    changed.holds[stroke] = hold;
    bytes = encoded("a stroke outside its range", &changed);
    try_play(etude, &bytes, due, &no_run);
    for (i = stroke + 1; i < changed.strokes; i++)
        changed.holds[i] = 0;
    bytes = encoded("strokes outside their ranges", &changed);
    try_play(etude, &bytes, due, &no_run);
}

static void try_ranges(const struct file *etude, const struct phrase *phrase, const struct playing *playing, uint32_t i)
{
    const struct phrase_note *note = &phrase->notes[i];
    const struct phrase_bell *bell = &phrase->bells[note->bell];
    const uint32_t calls[] = {note->earliest_call - 1, note->latest_call + 1, note->latest_call + 65536, 0x80000000u, 0xFFFFFFFFu};
    const uint32_t holds[] = {0, bell->least_hold - 1, bell->most_hold + 1, bell->most_hold + 256, 5001, 65535};
    const uint32_t ends[] = {note->earliest_call, note->latest_call, bell->least_hold, bell->most_hold};
    size_t j;
    for (j = 0; j < sizeof calls / sizeof *calls; j++)
        try_outside(etude, playing, i, calls[j], playing->holds[i]);
    for (j = 0; j < sizeof holds / sizeof *holds; j++)
        try_outside(etude, playing, i, playing->calls[i], holds[j]);
    for (j = 0; j < 4; j++) {
        struct playing changed = *playing;
        struct file bytes;
        struct run run;
        changed.calls[i] = ends[j % 2];
        changed.holds[i] = ends[2 + j / 2];
        bytes = encoded("a stroke at the ends of its ranges", &changed);
        run = simulated(phrase, &changed);
        try_play(etude, &bytes, worked_out, &run);
    }
}

/* ---- Random playings ---- */

static uint32_t draw(uint32_t bound)
{
    static uint64_t state = 102;
    state = state * UINT64_C(6364136223846793005) + UINT64_C(1442695040888963407);
    return (uint32_t)(state >> 33) % bound;
}

/* In a range, often at one of its ends. */
static uint32_t draw_from(uint32_t least, uint32_t most)
{
    switch (draw(4)) {
    case 0: return least;
    case 1: return most;
    default: return least + draw(most - least + 1);
    }
}

static struct playing random_playing(const struct phrase *phrase)
{
    struct playing playing;
    uint32_t i;
    memset(&playing, 0, sizeof playing);
    playing.strokes = phrase->note_count;
    for (i = 0; i < playing.strokes; i++) {
        const struct phrase_bell *bell = &phrase->bells[phrase->notes[i].bell];
        playing.calls[i] = draw_from(phrase->notes[i].earliest_call, phrase->notes[i].latest_call);
        playing.holds[i] = draw_from(bell->least_hold, bell->most_hold);
    }
    return playing;
}

/* Every stroke of a bell starts at least the bell's rest after each earlier one of that bell ended. */
static void expect_rested(const struct phrase *phrase, const struct run *run)
{
    uint32_t i, earlier;
    int rested = 1;
    for (i = 0; i < phrase->note_count; i++)
        for (earlier = 0; earlier < i; earlier++)
            if (phrase->notes[earlier].bell == phrase->notes[i].bell)
                rested &= run->ends[earlier] + phrase->bells[phrase->notes[i].bell].rest <= run->starts[i];
    expect(rested, "a bell did not rest");
}

/* Whether a playing's run would be another if no bell rested. */
static int rests_matter(const struct phrase *phrase, const struct playing *playing, const struct run *run)
{
    struct phrase restless = *phrase;
    struct run other;
    uint32_t i;
    for (i = 0; i < restless.bell_count; i++)
        restless.bells[i].rest = 0;
    other = simulated(&restless, playing);
    return memcmp(&other, run, sizeof other) != 0;
}

/* Some random playings of a phrase; gives in how many of them rests matter. */
static unsigned try_random(const struct file *file, const struct phrase *phrase, const struct reported *reported, unsigned count)
{
    unsigned rested_otherwise = 0;
    while (count-- > 0) {
        struct playing playing = random_playing(phrase);
        struct run run = simulated(phrase, &playing);
        struct file bytes = encoded("a random playing", &playing);
        try_once(file, &bytes, worked_out, &run);
        expect_inside(phrase, &run, reported);
        expect_rested(phrase, &run);
        if (phrase->version == 3)
            rested_otherwise += (unsigned)rests_matter(phrase, &playing, &run);
    }
    return rested_otherwise;
}

/* Strokes that have to wait: short calls, ranks and waits at random, few drivers. Every 16th is as long as a phrase can be. */
static struct file random_phrase(unsigned number)
{
    uint32_t bells = 1 + draw(8), strokes = number % 16 == 0 ? 64 : draw(9), spread = 1 + draw(30), i;
    struct file file = begin("a random phrase", 1 + draw(draw(2) == 0 ? 8 : 3), bells);
    for (i = 0; i < bells; i++) {
        uint32_t least = 1 + draw(6);
        add_bell(&file, 60 + i, least, least + draw(5), draw(4));
    }
    add_byte(&file, strokes);
    for (i = 0; i < strokes; i++) {
        uint32_t earliest = draw(spread), waits = draw(3) == 0 ? draw(i < 4 ? i + 1 : 5) : 0;
        add_note(&file, 60 + draw(bells), earliest, earliest + draw(6), draw(3) == 0 ? earliest + draw(60) : 3600000);
        add_waits(&file, draw(i - waits + 1), waits);
    }
    finish(&file);
    return file;
}

/* A third of them plain, a third in version 2, shifted, and a third in version 3, with rests too: some 0, most about as long as a hold, few far longer. */
static struct file random_file(unsigned number)
{
    struct file file = random_phrase(number);
    uint32_t rests[PHRASE_MOST_BELLS], i;
    if (number % 3 == 0)
        return file;
    file = shifted(&file, (int)(number % 49) - 24);
    if (number % 3 == 1)
        return file;
    for (i = 0; i < PHRASE_MOST_BELLS; i++)
        rests[i] = draw(4) == 0 ? 0 : draw(16) == 0 ? 10 + draw(90) : 1 + draw(10);
    return rested(&file, rests);
}

/* Phrases that the check accepts, and others; each kind has to come in each version, and rests have to matter in one of three playings of version 3. */
static void try_random_phrases(void)
{
    static const uint32_t numbers[] = {PHRASE_ACCEPTED, PHRASE_TABLE_FULL, PHRASE_LATE};
    unsigned i, found[3][PHRASE_LATE + 1] = {{0}}, rested_otherwise = 0;
    for (i = 0; i < RANDOM_PHRASES; i++) {
        struct file file = random_file(i);
        struct phrase phrase = phrase_of(&file);
        struct reported reported = reported_of(&file);
        found[i % 3][reported.number]++;
        rested_otherwise += try_random(&file, &phrase, &reported, 3);
    }
    for (i = 0; i < 3 * sizeof numbers / sizeof *numbers; i++) {
        snprintf(trial, sizeof trial, "random phrases of version %u with number %u", i % 3 + 1, (unsigned)numbers[i / 3]);
        expect(found[i % 3][numbers[i / 3]] > 0, "there are none");
    }
    snprintf(trial, sizeof trial, "random playings in which rests matter");
    expect(rested_otherwise >= RANDOM_PHRASES / 3, "they are too few");
}

static void try_etude(void)
{
    struct file etude = from_disk("examples/etude.phrase"), bytes = from_disk("examples/etude.playing");
    struct phrase phrase = phrase_of(&etude);
    struct playing playing = decoded(&bytes);
    struct run run = simulated(&phrase, &playing);
    struct reported reported = reported_of(&etude);
    uint32_t i;
    try_play(&etude, &bytes, worked_out, &run);
    expect_number(reported.number, 0, "the number of the etude");
    expect_inside(&phrase, &run, &reported);
    try_lengths(&etude, &bytes);
    try_head(&etude, &bytes);
    for (i = 0; i < phrase.note_count; i++)
        try_ranges(&etude, &phrase, &playing, i);
    try_random(&etude, &phrase, &reported, RANDOM_ETUDES);
}

/* The etude down a third, on lower bells: what the etude does, in its playing and in random ones. */
static void try_etude_down(void)
{
    struct file etude = from_disk("examples/etude.phrase"), down = from_disk("examples/etude-down.phrase"), bytes = from_disk("examples/etude.playing");
    struct phrase phrase = phrase_of(&etude), lower = phrase_of(&down);
    struct playing playing = decoded(&bytes);
    struct run run = simulated(&phrase, &playing);
    struct reported reported = reported_of(&etude), found = reported_of(&down);
    uint32_t i;
    try_play(&down, &bytes, worked_out, &run);
    expect(memcmp(&found, &reported, sizeof found) == 0, "what is reported is not what is reported of the etude");
    for (i = 0; i < phrase.note_count; i++)
        expect(lower.notes[i].key == phrase.notes[i].key && lower.notes[i].bell == phrase.notes[i].bell, "a note is not that of the etude");
    try_random(&down, &lower, &reported, RANDOM_ETUDES_DOWN);
}

/* The etude on heavy bells, in its playing and in random ones: stroke 19 has to wait until its bell, that of stroke 18, has rested; all others do as there. */
static void try_etude_heavy(void)
{
    struct file etude = from_disk("examples/etude.phrase"), heavy = from_disk("examples/etude-heavy.phrase"), bytes = from_disk("examples/etude.playing");
    struct phrase phrase = phrase_of(&etude), heavier = phrase_of(&heavy);
    struct playing playing = decoded(&bytes);
    struct run run = simulated(&heavier, &playing), light = simulated(&phrase, &playing);
    struct reported reported = reported_of(&heavy);
    uint32_t rest = heavier.bells[heavier.notes[19].bell].rest, i;
    try_play(&heavy, &bytes, worked_out, &run);
    expect_number(reported.number, 0, "the number of the etude on heavy bells");
    expect_inside(&heavier, &run, &reported);
    expect(rest > 0 && heavier.notes[18].bell == heavier.notes[19].bell, "there is no rest to wait for");
    for (i = 0; i < heavier.note_count; i++)
        expect_number(run.starts[i], i == 19 ? run.ends[18] + rest : light.starts[i], "a start");
    expect_number(try_random(&heavy, &heavier, &reported, RANDOM_ETUDES_HEAVY), RANDOM_ETUDES_HEAVY, "the number of playings in which rests matter");
}

int main(void)
{
    begin_test();
    file_area = map_area(MOST_FILE);
    playing_area = map_area(PHRASE_PLAYING_BYTES);
    starts_area = map_area(ARRAY);
    ends_area = map_area(ARRAY);
    try_runs();
    try_latest();
    try_longest();
    try_refusals();
    try_etude();
    try_etude_down();
    try_etude_heavy();
    try_random_phrases();
    return end_test();
}
