/*
 * The phrase check, a phrase read and written, and a playing worked out, for hosts in C and C++.
 *
 * A phrase file comes in; a verdict, and a text with bounds for each stroke and totals for each bell, go out. For editors, a file is read into a struct
 * phrase, a struct phrase is written as a file, and one playing of a phrase is worked out. docs/FORMAT.md describes the file and its refusals.
 *
 *     tools/build library                                       proves the library and writes target/staticlib/libphrase.a, for x86-64 Linux only
 *     gcc -I host your.c target/staticlib/libphrase.a -o your   links it
 *
 * What holds of every call:
 *
 * - Any file bytes, any table, any phrase, any playing and any length of text or file are fine; no call fails, allocates or keeps anything.
 * - file, table, text, phrase, playing, starts and ends must not be NULL, even with length 0, and must not overlap. A table, a phrase, starts and ends start
 *   where a uint32_t may start; file, text and playing may start anywhere. Nothing else may write them while the call runs. An empty C++ vector's data() may
 *   be NULL: pass the address of any byte (of any uint32_t for a table) and length 0 instead.
 * - What is const is only read. Nothing before a buffer's start or past its length is read or written.
 * - There is no state between calls and none is shared, so calls may run at the same time, on different tables, texts, phrases, starts, ends and files to
 *   be written.
 * - A stack of 128 KiB suffices. Measured by tests/host/stack.c, as the part of a painted stack that the call changed, and no more for any phrase that was
 *   tried: phrase_check takes 89 KiB, phrase_report 90, with a lent table 25 and 26, phrase_play 10, phrase_read and phrase_write less than 1. A program that
 *   binds memcpy and memset only when they are first called (-Wl,-z,lazy) needs up to 4 KiB more in that call.
 */
#ifndef PHRASE_H
#define PHRASE_H

#if !defined(__x86_64__) && !defined(_M_X64)
#error "libphrase.a is for x86-64 only"
#endif

#include <stddef.h>
#include <stdint.h>

#ifdef __cplusplus
extern "C" {
#endif

/* Words in the table of phrase_check and phrase_report, and in the one that the program phrasecheck lends. */
#define PHRASE_TABLE_WORDS 16384

/* A text buffer of so many bytes always suffices: no text, whatever the table, is longer than 7,346 bytes. */
#define PHRASE_TEXT_BYTES 32768

/*
 * Why a phrase, or a playing of it, is refused. docs/FORMAT.md says in which order the conditions are tried; the first that is met is the answer.
 *
 * PHRASE_ACCEPTED is proved: every stroke ends by its due time in every run. PHRASE_LATE says that this was not shown, not that some run is late: the bounds
 * are safe, and a run need not reach them. The ends in its line of the text are those of the first late start that was met, not the worst.
 * PHRASE_TABLE_FULL says nothing about the phrase: with a larger table it may be accepted, or be refused with PHRASE_LATE. README.md has a loop that lends more.
 */
enum phrase_number {
    PHRASE_ACCEPTED = 0,
    PHRASE_VERSION = 1,      /* not empty, and of a version other than 1, 2 and 3;   place: 0 */
    PHRASE_COUNT = 2,        /* under 5 bytes, or the count of bytes is wrong;       place: 0 */
    PHRASE_END = 3,          /* a field or record passes the end, or bytes remain;   place: its first byte, or the first that remains */
    PHRASE_DRIVERS = 4,      /* not 1 to 8 drivers;                                  place: 5 */
    PHRASE_BELLS = 5,        /* not 1 to 96 bells;                                   place: 6, from version 2 on: 7 */
    PHRASE_BELL_FIELD = 6,   /* a field of a bell is out of range, its rest too;     place: the bell's first byte */
    PHRASE_SAME_KEY = 7,     /* an earlier bell sounds for the same key;             place: the bell's first byte */
    PHRASE_STROKES = 8,      /* over 64 strokes;                                     place: the byte that says so */
    PHRASE_NOTE_LENGTH = 9,  /* a note's length is not 13 to 17;                     place: the note's first byte */
    PHRASE_NO_BELL = 10,     /* no bell sounds for the key plus the shift;           place: the note's first byte. Tried after 11 */
    PHRASE_TIMES = 11,       /* ra is over rb, or rb or d is over 3600000;           place: the note's first byte */
    PHRASE_WAITS = 12,       /* waits do not rise, or are not below the note's own;  place: the note's first byte */
    PHRASE_TABLE_FULL = 13,  /* a level has more states than the table has room for; place: the level */
    PHRASE_LATE = 14,        /* a stroke was not shown to end by its due time;       place: the stroke */
    PHRASE_TEXT_SHORT = 15,  /* the text is longer than its buffer: a report's length is 0. No call answers with it */
    PHRASE_FILE_SHORT = 16,  /* a written file is longer than its buffer;            place: 0. Only phrase_write answers with it */
    PHRASE_PLAYING = 17,     /* a playing's version, count or length is wrong;       place: 0. Only phrase_play answers with it */
    PHRASE_OUTSIDE = 18,     /* a playing's call or hold lies outside its range;     place: the smallest such stroke. Only phrase_play */
    PHRASE_SHIFT = 19        /* not a shift of -24 to 24, or in version 1 not 0;     place: 6. Tried after 4 and before 5 */
};

/*
 * Checks a file, with a table of PHRASE_TABLE_WORDS words of its own on the stack (64 KiB).
 * Gives 0 when the phrase is accepted, else the refusal's number times 4294967296 plus its place.
 */
uint64_t phrase_check(const uint8_t *file, size_t file_len);

/*
 * Checks a file and writes the text of its report, with such a table of its own.
 * Gives the text's length, with no zero byte after it: a line for each stroke, one for each bell with any stroke, and a last one. A refused phrase has a text
 * too, of one line.
 * 0 only when the text is longer than text_len; then text is untouched. Otherwise the bytes past the text are untouched.
 */
size_t phrase_report(const uint8_t *file, size_t file_len, uint8_t *text, size_t text_len);

/*
 * phrase_check with a lent table of table_len words, which may hold anything.
 * The phrase has m drivers and K strokes: W = 2 + 2 m + 2 K, and S = table_len / (2 W), rounded down, is how many states a level may have. Afterwards the
 * first 2 S W words may hold anything; the others are unchanged. For refusals 1 to 12 and 19 no word changes.
 * Where nothing of the strokes is uncertain (each is called at one moment, and its bell holds for one time), 2 W words are enough, whatever the phrase: it is
 * never refused with 13, and accepted exactly when its one run meets every due time. The table of phrase_check is never too short for that.
 * Time grows with the states that are stored, not with the table: a long one that a phrase does not need costs nothing. A phrase that fills its table takes
 * the longer the longer it is. Twenty strokes that may go in any order were refused with 13 in 0.01 ms with 16,384 words, 4 ms with 1,048,576 and 0.7 s
 * with 16,777,216; a table twice as long took 1.7 to 4.4 times as long. More strokes have more levels, and take longer in the same table
 * (docs/PERFORMANCE.md).
 */
uint64_t phrase_check_with(const uint8_t *file, size_t file_len, uint32_t *table, size_t table_len);

/* phrase_report with a lent table, which is left as phrase_check_with leaves it, also when the text does not fit. */
size_t phrase_report_with(const uint8_t *file, size_t file_len, uint32_t *table, size_t table_len, uint8_t *text, size_t text_len);

/* So many bells and notes a phrase has at most, and so many waits a note lists; no file is longer than PHRASE_FILE_BYTES bytes. */
#define PHRASE_MOST_BELLS 96
#define PHRASE_MOST_NOTES 64
#define PHRASE_MOST_WAITS 4
#define PHRASE_FILE_BYTES 2025

/* A bell. phrase_write reads what is not derived. */
struct phrase_bell {
    uint32_t key;           /* N, as written */
    uint32_t transposition; /* T, as the file's byte: 253 is -3. phrase_semitones and phrase_transposition turn it to and from an int */
    uint32_t least_hold;    /* ca */
    uint32_t most_hold;     /* cb */
    uint32_t rank;          /* p */
    uint32_t rest;          /* so long has a stroke of the bell to be done before its next one starts. Version 3 has it; in others it is 0 */
    uint32_t sounding;      /* derived: the key that the bell sounds for, N + T */
};

/* A note. */
struct phrase_note {
    uint32_t key;                      /* as written, without the shift */
    uint32_t earliest_call;            /* ra */
    uint32_t latest_call;              /* rb */
    uint32_t due;                      /* d */
    uint32_t wait_count;               /* how many strokes the note lists to wait for, without the one that its bell adds */
    uint32_t waits[PHRASE_MOST_WAITS]; /* these, rising; then 0 */
    uint32_t bell;                     /* derived: the number of the bell that it strikes, which sounds for its key plus the shift */
};

/* A phrase: 1,317 words. Bells from bell_count on, notes from note_count on and waits from wait_count on are 0 when read, and phrase_write ignores them. */
struct phrase {
    uint32_t version;
    uint32_t drivers; /* m */
    uint32_t bell_count;
    uint32_t note_count; /* K */
    uint32_t shift;      /* semitones that are added to each note's key, as the file's byte: 252 is -4. A version 1 file has none, and it is 0 */
    struct phrase_bell bells[PHRASE_MOST_BELLS];
    struct phrase_note notes[PHRASE_MOST_NOTES];
};

/* The library takes a struct phrase as the array of its words. An array of negative length stops the compilation where it is not. */
typedef char phrase_is_its_words[
    sizeof(struct phrase_bell) == 28 && sizeof(struct phrase_note) == 40 && sizeof(struct phrase) == 5268
    && offsetof(struct phrase_bell, key) == 0 && offsetof(struct phrase_bell, transposition) == 4
    && offsetof(struct phrase_bell, least_hold) == 8 && offsetof(struct phrase_bell, most_hold) == 12
    && offsetof(struct phrase_bell, rank) == 16 && offsetof(struct phrase_bell, rest) == 20
    && offsetof(struct phrase_bell, sounding) == 24
    && offsetof(struct phrase_note, key) == 0 && offsetof(struct phrase_note, earliest_call) == 4
    && offsetof(struct phrase_note, latest_call) == 8 && offsetof(struct phrase_note, due) == 12
    && offsetof(struct phrase_note, wait_count) == 16 && offsetof(struct phrase_note, waits) == 20
    && offsetof(struct phrase_note, bell) == 36
    && offsetof(struct phrase, version) == 0 && offsetof(struct phrase, drivers) == 4
    && offsetof(struct phrase, bell_count) == 8 && offsetof(struct phrase, note_count) == 12
    && offsetof(struct phrase, shift) == 16 && offsetof(struct phrase, bells) == 20
    && offsetof(struct phrase, notes) == 2708 ? 1 : -1];

/*
 * Reads a file into phrase, every word of which is set: what the file holds, what is derived from it, and 0 in all others.
 * Gives 0, or the number of one of the refusals 1 to 12 and 19 times 4294967296 plus its place, as phrase_check does; then every word of phrase is 0.
 */
uint64_t phrase_read(const uint8_t *file, size_t file_len, struct phrase *phrase);

/*
 * Writes a phrase as a file of its version, 1 to 3.
 * Gives the file's length, which is below 4294967296, so that phrase_refusal of it is 0; the bytes of file past that length are untouched. Otherwise gives a
 * refusal's number times 4294967296 plus its place, and all of file is untouched: the first of 1, 4, 19, 5, of the bells' 6 and 7, of 8 and of the notes' 9,
 * 11, 10 and 12, in the order of the file, at the place where reading would find the field; then 16 at 0 where file_len is less than the file's length.
 * A version 1 file has no place for a shift, so one other than 0 is refused there, with 19 at 6; and one of version 1 or 2 has none for rests, so a bell with
 * one other than 0 is refused there, with 6 at the bell's first byte.
 * A field that is too wide for its bytes is refused like one out of range, and never cut: 19 for a shift that is too wide, 6 for a rank or a transposition
 * above 255 or a rest above 5000, 9 for more than four waits, 10 for a key above 255, whatever the shift. What was read from a file is written as that very
 * file; what was written is read as the same phrase.
 */
uint64_t phrase_write(const struct phrase *phrase, uint8_t *file, size_t file_len);

/* No playing of a phrase is longer: it has 5 + 6 K bytes. */
#define PHRASE_PLAYING_BYTES 389

/*
 * Works out a playing of a file's phrase: what the drivers make of one call moment and one hold for each stroke. No check has to accept the phrase.
 * The playing, big-endian: a version byte, 1; a four-byte count of the bytes after it; then for each stroke, in the file's order, a call moment of four bytes
 * and a hold of two. starts and ends have PHRASE_MOST_NOTES words each, every one of which is set: the start and the end of each stroke in the run of the
 * dispatch rule, and 0 from K on.
 * Gives 0, or a refusal's number times 4294967296 plus its place; then all words of starts and ends are 0. First come the refusals 1 to 12 and 19 of the
 * file, as phrase_read has them; then 17 at 0, for a playing of under 5 bytes, of another version, with a wrong count or with other than 6 K bytes after it;
 * then 18 at the smallest stroke whose call or hold lies outside the phrase's range.
 * Where a check accepts the phrase, with whatever table, these ends lie in the ranges that it reports, and are in time.
 */
uint64_t phrase_play(const uint8_t *file, size_t file_len, const uint8_t *playing, size_t playing_len, uint32_t *starts, uint32_t *ends);

/* A transposition or a shift in semitones, from the file's byte: -128 to 127. 128 for a wider number, which phrase_write refuses. */
static inline int phrase_semitones(uint32_t transposition)
{
    return transposition < 128 ? (int)transposition : transposition < 256 ? (int)transposition - 256 : 128;
}

/* A transposition or a shift as the file's byte. 256, which phrase_write refuses, with 6 or 19, where it is no signed byte. */
static inline uint32_t phrase_transposition(int semitones)
{
    return semitones < -128 || semitones > 127 ? 256u : (uint32_t)semitones & 0xFFu;
}

/* The number in an answer of a check, of phrase_read, phrase_write or phrase_play, an enum phrase_number; 0 when accepted, read, written or worked out. */
static inline uint32_t phrase_refusal(uint64_t answer)
{
    return (uint32_t)(answer >> 32);
}

/*
 * The place in such an answer: for 13 the level, for 14 and 18 the stroke, for 17 always 0, else a position in the file. In one of phrase_write without a
 * number, the file's length.
 */
static inline uint32_t phrase_place(uint64_t answer)
{
    return (uint32_t)(answer & 0xFFFFFFFFu);
}

#ifdef __cplusplus
}
#endif

#endif
