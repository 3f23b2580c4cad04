/*
 * How the C tests make phrase files: from hexadecimal digits, or field by field.
 */
#ifndef FILES_H
#define FILES_H

#include <stdint.h>
#include <stdio.h>
#include <stdlib.h>

enum { MOST_FILE = 2048 };

struct file {
    const char *name;
    uint8_t bytes[MOST_FILE];
    size_t size;
};

/* Document 01's phrase P, and P with a note that waits for itself. */
#define P "01 0000002D 01 02 3C0000020002 01 3E0C00040004 02 02 0D 3C 00000000 00000005 00000007 0D 4A 00000000 00000000 00000006"
#define P_WAITING "01 0000002E 01 02 3C0000020002 01 3E0C00040004 02 02 0D 3C 00000000 00000005 00000007 0E 4A 00000000 00000000 00000006 01"

/* P in version 2: shifted down by four semitones, and its notes are written four higher, so it has P's text. Bells at 8 and 15, notes at 23 and 37. */
#define P_SHIFTED "02 0000002E 01 FC 02 3C0000020002 01 3E0C00040004 02 02 0D 40 00000000 00000005 00000007 0D 4E 00000000 00000000 00000006"
#define P_SHIFTED_WAITING \
    "02 0000002F 01 FC 02 3C0000020002 01 3E0C00040004 02 02 0D 40 00000000 00000005 00000007 0E 4E 00000000 00000000 00000006 01"

/* The same in version 3: its bells have rests of 7 and 5000, and one stroke each, so it has P's text. 55 bytes; bells at 8 and 17, notes at 27 and 41. */
#define P_RESTED \
    "03 00000032 01 FC 02 3C0000020002 0007 01 3E0C00040004 1388 02 02 0D 40 00000000 00000005 00000007 0D 4E 00000000 00000000 00000006"
#define P_RESTED_WAITING \
    "03 00000033 01 FC 02 3C0000020002 0007 01 3E0C00040004 1388 02 02 0D 40 00000000 00000005 00000007 0E 4E 00000000 00000000 00000006 01"

/* One stroke of one bell, shift, key of the bell and key of the note given as digits. The note stands at 16. */
#define ONE_STROKE(shift, bell, note) "02 00000019 01" shift "01" bell "00 0001 0001 00 01 0D" note "00000000 00000000" HOUR

/* Its marked phrases M1 and M5 to M8; the last also on eight drivers. */
#define HOUR "0036EE80" /* 3600000 */
#define M1 "01 0000002D 01 02 3C00 0001 0002 01 3E00 0003 0003 02 02 0D 3C 00000000 00000000" HOUR "0D 3E 00000000 00000000" HOUR
#define M5                                                                                                         \
    "01 00000042 02 03 3C00 0002 0002 01 3E00 0005 0005 02 4000 0001 0003 03 03 0D 3C 00000000 00000000" HOUR       \
    "0D 3E 00000000 00000000" HOUR "0D 40 00000000 00000000" HOUR
#define M6                                                                                                         \
    "01 00000043 02 03 3C00 0002 0004 02 3E00 0001 0001 01 4000 0002 0002 03 03 0D 3C 00000000 00000000" HOUR       \
    "0E 3E 00000000 00000000" HOUR "00 0D 40 00000003 00000003" HOUR
#define M7 "01 0000002D 01 02 3C00 0001 0001 01 3E00 0001 0001 01 02 0D 3C 00000000 00000000" HOUR "0D 3E 00000000 00000000" HOUR
#define M8 "01 0000000A 01 01 3C00 0001 0001 00 00"
#define M8_ON_8 "01 0000000A 08 01 3C00 0001 0001 00 00"

/*
 * Bell 3, which holds for 20..40, is struck before bell 2 (3..5), again between that and bell 0 (1..2), and last; bell 1 is not struck. Strokes are called 6000
 * apart, so that each ends its bell's hold after its call, and no rest of a bell matters.
 */
#define FALLING                                                                                          \
    "01 00000065 01 04 3C00 0001 0002 01 3E00 0007 0008 01 4000 0003 0005 01 4100 0014 0028 01 05"       \
    "0D 41 00000000 00000000 00000028 0D 40 00001770 00001770 00001775 0D 41 00002EE0 00002EE0 00002F08" \
    "0D 3C 00004650 00004650 00004652 0D 41 00005DC0 00005DC0 00005DE8"

#define UNCHANGED 0, 0x01   /* place and byte, where one is changed: byte 0 is 01 already */
#define UNCHANGED_2 0, 0x02 /* and 02 in version 2 */
#define UNCHANGED_3 0, 0x03 /* and 03 in version 3 */

static inline void add_byte(struct file *file, unsigned byte)
{
    if (file->size == MOST_FILE) {
        fprintf(stderr, "%s: too long for this test\n", file->name);
        exit(2);
    }
    file->bytes[file->size++] = (uint8_t)byte;
}

/* Reads pairs of hexadecimal digits; blanks are free. */
static inline struct file from_hex(const char *name, const char *hex)
{
    struct file file;
    unsigned byte;
    int read;
    file.name = name;
    file.size = 0;
    while (sscanf(hex, " %2x%n", &byte, &read) == 1) {
        add_byte(&file, byte);
        hex += read;
    }
    return file;
}

static inline void add_number(struct file *file, unsigned long number, int bytes)
{
    while (bytes-- > 0)
        add_byte(file, (unsigned)(number >> (8 * bytes)) & 0xFF);
}

static inline void add_bell(struct file *file, unsigned key, unsigned shortest, unsigned longest, unsigned rank)
{
    add_byte(file, key);
    add_byte(file, 0);
    add_number(file, shortest, 2);
    add_number(file, longest, 2);
    add_byte(file, rank);
}

/* The bell just added has this rest, which stands before its rank; only a version 3 file has rests, and all of its bells have one. */
static inline void add_rest(struct file *file, unsigned rest)
{
    unsigned rank = file->bytes[--file->size];
    add_number(file, rest, 2);
    add_byte(file, rank);
}

/* A note that waits for none but its bell's last. */
static inline void add_note(struct file *file, unsigned key, unsigned long earliest, unsigned long latest, unsigned long due)
{
    add_byte(file, 13);
    add_byte(file, key);
    add_number(file, earliest, 4);
    add_number(file, latest, 4);
    add_number(file, due, 4);
}

/* The note just added waits for so many strokes from `first` on. */
static inline void add_waits(struct file *file, unsigned first, unsigned count)
{
    file->bytes[file->size - 14] = (uint8_t)(13 + count);
    while (count-- > 0)
        add_byte(file, first++);
}

static inline struct file begin(const char *name, unsigned drivers, unsigned bells)
{
    struct file file;
    file.name = name;
    file.size = 0;
    add_byte(&file, 1);
    add_number(&file, 0, 4);
    add_byte(&file, drivers);
    add_byte(&file, bells);
    return file;
}

/* Writes the count of what follows it. */
static inline void finish(struct file *file)
{
    size_t size = file->size;
    file->size = 1;
    add_number(file, size - 5, 4);
    file->size = size;
}

/* What a file says is its version, for lines that name a trial; 0 when it is empty. */
static inline unsigned version_of(const struct file *file)
{
    return file->size == 0 ? 0 : file->bytes[0];
}

/* A byte that is moved by so many semitones, and stays one. */
static inline void move_key(struct file *file, size_t at, int semitones)
{
    int key = file->bytes[at] + semitones;
    if (key < 0 || key > 255) {
        fprintf(stderr, "%s: no byte for a key of this test\n", file->name);
        exit(2);
    }
    file->bytes[at] = (uint8_t)key;
}

/*
 * A version 1 file that is read, as version 2 with this shift. Notes are written as much lower as they are shifted up, so they strike the bells that they
 * struck, and no answer or text changes.
 */
static inline struct file shifted(const struct file *file, int semitones)
{
    struct file moved;
    size_t i, note = 8 + 7 * (size_t)file->bytes[6] + 1;
    unsigned strokes = file->bytes[note - 2];
    moved.name = file->name;
    moved.size = 0;
    for (i = 0; i < file->size; i++) {
        if (i == 6)
            add_byte(&moved, (unsigned)semitones & 0xFF);
        add_byte(&moved, file->bytes[i]);
    }
    moved.bytes[0] = 2;
    finish(&moved);
    for (; strokes > 0; strokes--) {
        move_key(&moved, note + 1, -semitones);
        note += 1 + (size_t)moved.bytes[note];
    }
    return moved;
}

/* A version 2 file that is read, as version 3 with these rests, one for each bell. Where each bell has but one stroke, no answer or text changes. */
static inline struct file rested(const struct file *file, const uint32_t *rests)
{
    struct file longer;
    size_t i, bell, bells = file->bytes[7], at = 8;
    longer.name = file->name;
    longer.size = 0;
    for (i = 0; i < at; i++)
        add_byte(&longer, file->bytes[i]);
    for (bell = 0; bell < bells; bell++) {
        for (i = 0; i < 7; i++)
            add_byte(&longer, file->bytes[at++]);
        add_rest(&longer, (unsigned)rests[bell]);
    }
    while (at < file->size)
        add_byte(&longer, file->bytes[at++]);
    longer.bytes[0] = 3;
    finish(&longer);
    return longer;
}

/* The same with one rest for all bells. */
static inline struct file rested_alike(const struct file *file, uint32_t rest)
{
    uint32_t rests[256], i;
    for (i = 0; i < 256; i++)
        rests[i] = rest;
    return rested(file, rests);
}

/*
 * 62 strokes on one driver and three bells, 44, 15 and 3 of them, that may go in any order but for those of one bell. So there is one state for each choice
 * of how many strokes of each bell have started: 45 * 16 * 4 = 2880 in all, and at most 16 * 4 = 64 in a level, first in level 18. W = 128, so 16,384 words
 * have room for just these 64.
 */
static inline struct file crowded(void)
{
    static const unsigned notes[] = {44, 15, 3};
    struct file file = begin("three crowded bells", 1, 3);
    unsigned bell, note;
    for (bell = 0; bell < 3; bell++)
        add_bell(&file, 60 + bell, 1, 1, 1);
    add_byte(&file, 62);
    for (bell = 0; bell < 3; bell++)
        for (note = 0; note < notes[bell]; note++)
            add_note(&file, 60 + bell, 0, 1000, 3600000);
    finish(&file);
    return file;
}

/*
 * A longest file of version 1, 7 + 96 * 7 + 1 + 64 * 14 + 246 = 1822 bytes: 96 bells and 64 notes, each with four waits, but for the first four notes, with 0
 * to 3, for want of earlier ones. In version 2 it has 1823 bytes, and in version 3 2 * 96 more, 2015.
 */
static inline struct file longest(void)
{
    struct file file = begin("a longest file", 8, 96);
    unsigned i;
    for (i = 0; i < 96; i++)
        add_bell(&file, 12 + i, 1, 5000, i);
    add_byte(&file, 64);
    for (i = 0; i < 64; i++) {
        add_note(&file, 107 - i, 0, 0, 3600000);
        add_waits(&file, i < 4 ? 0 : i - 4, i < 4 ? i : 4);
    }
    finish(&file);
    return file;
}

#endif
