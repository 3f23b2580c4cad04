/*
 * editor IN OUT [--bell N [--transpose SEMITONES [--follow]] [--rest MILLISECONDS]] [--shift SEMITONES] [--due MILLISECONDS]: edits a phrase, as an editor's
 * host program does.
 *
 * Reads the phrase file IN, sets the shift, which is added to the keys of all notes, sets the transposition of bell N (with --follow, also the key of each
 * note that strikes it, which finds no bell otherwise) and its rest, moves all due times, and writes the phrase as the file OUT. That has IN's version; but
 * version 1 has no shift, so a shift other than 0 makes it version 2, and only version 3 has rests, so a rest other than 0 makes it version 3. Standard output
 * gets what changed, and what the check says before and after.
 *
 * OUT is opened only when the whole new file is there. It may be IN; but a write that fails, as on a full disk, may leave it cut short.
 *
 * Exit status: 0 OUT is written, whatever the check says of it, for a phrase may be late while it is worked on; 1 what IN holds is refused, or what it would
 * become, and OUT is untouched; 2 wrong usage, no bell N, a file cannot be read or written, memory is short, or the output cannot be written.
 *
 * Compile, from the repository's root, after `tools/build library`:
 *
 *     gcc -std=c99 -Wall -Wextra -Wpedantic -I host host/editor.c target/staticlib/libphrase.a -o editor
 */
#include <errno.h>
#include <limits.h>
#include <stdio.h>
#include <stdlib.h>
#include <string.h>

#include "common.h"
#include "phrase.h"

enum { STATUS_WRITTEN = 0, STATUS_REFUSED = 1, STATUS_TROUBLE = 2 };

#define USAGE "usage: editor IN OUT [--bell N [--transpose SEMITONES [--follow]] [--rest MILLISECONDS]] [--shift SEMITONES] [--due MILLISECONDS]\n"
static const char help[] = USAGE
    "Edits the phrase of the file IN, writes it as the file OUT, and says what changed.\n"
    "  --bell N --transpose SEMITONES  sets the transposition of bell N, from 0 on, to so many semitones, as -3\n"
    "  --follow                        gives each note that strikes this bell its new key\n"
    "  --bell N --rest MILLISECONDS    sets how long a stroke of bell N has to be done before the next; other than 0, it makes the file version 3\n"
    "  --shift SEMITONES               sets the shift of all notes to so many semitones, as -4; other than 0, it makes a version 1 file version 2\n"
    "  --due MILLISECONDS              moves all due times by so many milliseconds, as -150\n"
    "Exit status: 0 OUT is written, whatever the check says of it; 1 the phrase is refused, and OUT untouched; 2 trouble.\n";

struct number {
    int given;
    long long value;
};

struct edit {
    struct number bell, transpose, rest, shift, due;
    int follow;
};

static int complain(const char *about, const char *why)
{
    fprintf(stderr, "editor: %s: %s\n", about, why);
    return STATUS_TROUBLE;
}

/* A decimal number in a range, digits only but for a minus sign; 0 when the text is none. */
static int parse_number(const char *text, long long least, long long most, struct number *number)
{
    const char *digits = *text == '-' ? text + 1 : text;
    char *end;
    if (*digits < '0' || *digits > '9')
        return 0;
    errno = 0;
    number->value = strtoll(text, &end, 10);
    number->given = errno == 0 && *end == '\0' && number->value >= least && number->value <= most;
    return number->given;
}

static int parse_option(const char *option, const char *value, struct edit *edit)
{
    if (strcmp(option, "--bell") == 0)
        return parse_number(value, 0, UINT32_MAX, &edit->bell);
    if (strcmp(option, "--transpose") == 0)
        return parse_number(value, INT_MIN, INT_MAX, &edit->transpose);
    if (strcmp(option, "--rest") == 0)
        return parse_number(value, 0, UINT32_MAX, &edit->rest);
    if (strcmp(option, "--shift") == 0)
        return parse_number(value, INT_MIN, INT_MAX, &edit->shift);
    if (strcmp(option, "--due") == 0)
        return parse_number(value, -(long long)UINT32_MAX, UINT32_MAX, &edit->due);
    return 0;
}

/* What follows IN and OUT, up to NULL; 0 when it is no edit. */
static int parse_edit(char **argument, struct edit *edit)
{
    memset(edit, 0, sizeof *edit);
    while (*argument != NULL) {
        const char *option = *argument++;
        if (strcmp(option, "--follow") == 0)
            edit->follow = 1;
        else if (*argument == NULL || !parse_option(option, *argument++, edit))
            return 0;
    }
    if (edit->bell.given != (edit->transpose.given || edit->rest.given) || (edit->follow && !edit->transpose.given))
        return 0;
    return edit->bell.given || edit->shift.given || edit->due.given;
}

static void set_shift(struct phrase *phrase, int semitones)
{
    phrase->shift = phrase_transposition(semitones);
    if (phrase->version == 1 && phrase->shift != 0)
        phrase->version = 2;
}

static void set_rest(struct phrase *phrase, uint32_t number, uint32_t rest)
{
    phrase->bells[number].rest = rest;
    if (rest != 0)
        phrase->version = 3;
}

static void transpose(struct phrase *phrase, uint32_t number, int semitones, int follow)
{
    struct phrase_bell *bell = &phrase->bells[number];
    uint32_t i;
    /* Where the bell can sound for no such key, phrase_write refuses the bell first; a key below 0 is too wide then, and finds no bell. */
    uint32_t key = bell->key + (uint32_t)semitones - (uint32_t)phrase_semitones(phrase->shift);
    bell->transposition = phrase_transposition(semitones);
    for (i = 0; follow && i < phrase->note_count; i++)
        if (phrase->notes[i].bell == number)
            phrase->notes[i].key = key;
}

static void move_due_times(struct phrase *phrase, int64_t milliseconds)
{
    uint32_t i;
    for (i = 0; i < phrase->note_count; i++) {
        int64_t due = phrase->notes[i].due + milliseconds;
        /* A time that is no uint32_t must not wrap into one that is allowed; phrase_write refuses the largest. */
        phrase->notes[i].due = due < 0 || due > UINT32_MAX ? UINT32_MAX : (uint32_t)due;
    }
}

/* The number of the bell or note whose record would start at this place of the file. */
static unsigned record_at(const struct phrase *phrase, uint32_t place)
{
    uint32_t bells = phrase->version == 1 ? 7 : 8, size = phrase->version == 3 ? 9 : 7, at = bells + size * phrase->bell_count + 1, note = 0;
    if (place < at)
        return (place - bells) / size;
    while (at < place && note < phrase->note_count)
        at += 14 + phrase->notes[note++].wait_count;
    return note;
}

/* What was read keeps all rules, so these five are all that an edit can break. */
static const char *reason(uint32_t number)
{
    switch (number) {
    case PHRASE_BELL_FIELD:
        return "the transposition, the key that it sounds for, or the rest is out of range";
    case PHRASE_SAME_KEY:
        return "an earlier bell sounds for the same key";
    case PHRASE_NO_BELL:
        return "no bell sounds for its key any more";
    case PHRASE_SHIFT:
        return "the shift is out of range";
    default:
        return "the due time is out of range";
    }
}

/* Says that a file is refused; with a phrase, which was to be written, also which of its records, for all but a shift, and why. */
static int refuse(const char *name, uint64_t answer, const struct phrase *phrase)
{
    uint32_t number = phrase_refusal(answer);
    fprintf(stderr, "editor: %s: ", name);
    print_answer(stderr, answer);
    if (phrase != NULL && number != PHRASE_SHIFT)
        fprintf(stderr, ": %s %u", number <= PHRASE_SAME_KEY ? "bell" : "note", record_at(phrase, phrase_place(answer)));
    if (phrase != NULL)
        fprintf(stderr, ": %s", reason(number));
    fprintf(stderr, "\n");
    return STATUS_REFUSED;
}

static void print_fields(const struct phrase *old, const struct phrase *edited)
{
    unsigned i;
    if (edited->version != old->version)
        printf("version: %u -> %u\n", (unsigned)old->version, (unsigned)edited->version);
    if (edited->shift != old->shift)
        printf("shift: %d -> %d\n", phrase_semitones(old->shift), phrase_semitones(edited->shift));
    for (i = 0; i < edited->bell_count; i++)
        if (edited->bells[i].transposition != old->bells[i].transposition)
            printf("bell %u: transposition %d -> %d, sounding key %u -> %u\n", i, phrase_semitones(old->bells[i].transposition),
                   phrase_semitones(edited->bells[i].transposition), (unsigned)old->bells[i].sounding, (unsigned)edited->bells[i].sounding);
    for (i = 0; i < edited->bell_count; i++)
        if (edited->bells[i].rest != old->bells[i].rest)
            printf("bell %u: rest %u -> %u\n", i, (unsigned)old->bells[i].rest, (unsigned)edited->bells[i].rest);
    for (i = 0; i < edited->note_count; i++)
        if (edited->notes[i].key != old->notes[i].key)
            printf("note %u: key %u -> %u\n", i, (unsigned)old->notes[i].key, (unsigned)edited->notes[i].key);
}

/* How many bytes changed; where another version has moved them, the length before and after. */
static void print_bytes(struct bytes old, struct bytes edited)
{
    size_t i, changed = 0;
    if (edited.length != old.length) {
        printf("bytes: %lu -> %lu\n", (unsigned long)old.length, (unsigned long)edited.length);
        return;
    }
    for (i = 0; i < edited.length; i++)
        changed += edited.first[i] != old.first[i];
    printf("bytes: %lu, %lu changed\n", (unsigned long)edited.length, (unsigned long)changed);
}

/* What the check says. */
static void print_verdicts(struct bytes old, struct bytes edited)
{
    printf("before: ");
    print_answer(stdout, phrase_check(old.first, old.length));
    printf("\nafter: ");
    print_answer(stdout, phrase_check(edited.first, edited.length));
    printf("\n");
}

/* 0 and errno when that fails. */
static int write_file(const char *name, struct bytes file)
{
    FILE *stream = fopen(name, "wb");
    size_t written;
    if (stream == NULL)
        return 0;
    written = fwrite(file.first, 1, file.length, stream);
    return fclose(stream) == 0 && written == file.length;
}

/* Edits what was read from IN, writes OUT, says what changed, gives the exit status. */
static int edit_file(const char *in, const char *out, struct bytes old, const struct edit *edit)
{
    static struct phrase phrase, edited;
    static uint8_t buffer[PHRASE_FILE_BYTES];
    struct bytes file = {buffer, 0};
    uint64_t answer = phrase_read(old.first, old.length, &phrase);

    if (phrase_refusal(answer) != PHRASE_ACCEPTED)
        return refuse(in, answer, NULL);
    if (edit->bell.given && edit->bell.value >= phrase.bell_count)
        return complain(in, "there is no such bell");
    edited = phrase;
    if (edit->shift.given)
        set_shift(&edited, (int)edit->shift.value);
    if (edit->rest.given)
        set_rest(&edited, (uint32_t)edit->bell.value, (uint32_t)edit->rest.value);
    if (edit->transpose.given)
        transpose(&edited, (uint32_t)edit->bell.value, (int)edit->transpose.value, edit->follow);
    if (edit->due.given)
        move_due_times(&edited, edit->due.value);
    answer = phrase_write(&edited, buffer, sizeof buffer);
    if (phrase_refusal(answer) != PHRASE_ACCEPTED)
        return refuse(out, answer, &edited);
    file.length = phrase_place(answer);
    if (!write_file(out, file))
        return complain(out, strerror(errno));

    phrase_read(file.first, file.length, &edited); /* once more, for the sounding keys, which are derived */
    print_fields(&phrase, &edited);
    if (edit->due.given)
        printf("due times: %u moved by %lld\n", (unsigned)edited.note_count, edit->due.value);
    print_bytes(old, file);
    print_verdicts(old, file);
    return fflush(stdout) == 0 && !ferror(stdout) ? STATUS_WRITTEN : complain("standard output", strerror(errno));
}

int main(int argc, char **argv)
{
    struct bytes file;
    struct edit edit;
    int status;

    if (argc == 2 && (strcmp(argv[1], "-h") == 0 || strcmp(argv[1], "--help") == 0))
        return fputs(help, stdout) >= 0 && fflush(stdout) == 0 ? 0 : complain("standard output", strerror(errno));
    if (argc < 4 || !parse_edit(argv + 3, &edit)) {
        fputs(USAGE, stderr);
        return STATUS_TROUBLE;
    }
    if (!read_file(argv[1], &file))
        return complain(argv[1], strerror(errno));
    status = edit_file(argv[1], argv[2], file, &edit);
    free(file.first);
    return status;
}
