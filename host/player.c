/*
 * player FILE [WORDS] [--play PLAYING]: checks a phrase before it is loaded, as a player's host program does, and works out a playing of it.
 *
 * Reads the phrase file FILE and lends the check a table of WORDS words (PHRASE_TABLE_WORDS if not given). Standard output gets the report's text,
 * standard error one line with the verdict.
 *
 * With --play, the playing of the file PLAYING is worked out too, also where the check refuses the phrase. Standard output then gets a line for each stroke,
 * after the report's text: its start and its end and, where the phrase is accepted, the ends that the report has for it. A playing that is refused has a line
 * on standard error instead. Where FILE cannot be read as a phrase, its verdict says all. Options may stand anywhere.
 *
 * Exit status: 0 the phrase is accepted, and the playing is worked out if there is one; 1 either is refused; 2 wrong usage, a file cannot be read, memory is
 * short, or the output cannot be written.
 *
 * Compile, from the repository's root, after `tools/build library`:
 *
 *     gcc -std=c99 -Wall -Wextra -Wpedantic -I host host/player.c target/staticlib/libphrase.a -o player
 */
#include <errno.h>
#include <stdio.h>
#include <stdlib.h>
#include <string.h>

#include "common.h"
#include "phrase.h"

enum { STATUS_ACCEPTED = 0, STATUS_REFUSED = 1, STATUS_TROUBLE = 2 };

/* What precedes a playing's strokes, and what each takes. */
enum { PLAYING_HEAD = 5, PLAYING_STROKE = 6 };

struct words {
    uint32_t *first;
    size_t length;
};

struct input {
    const char *name; /* NULL when not given */
    struct bytes bytes;
};

static int complain(const char *about, const char *why)
{
    fprintf(stderr, "player: %s: %s\n", about, why);
    return STATUS_TROUBLE;
}

/* A decimal number, digits only, that so many words can have; 0 when it is none. */
static int parse_words(const char *text, size_t *words)
{
    size_t number = 0;
    if (*text == '\0')
        return 0;
    for (; *text != '\0'; text++) {
        size_t digit = (size_t)(*text - '0');
        if (*text < '0' || *text > '9' || number > (SIZE_MAX / sizeof(uint32_t) - digit) / 10)
            return 0;
        number = number * 10 + digit;
    }
    *words = number;
    return 1;
}

/* The arguments up to NULL; 0 when they are not as the usage says. */
static int parse(char **argument, struct input *file, struct input *playing, size_t *words)
{
    int words_given = 0;
    for (; *argument != NULL; argument++) {
        if (strcmp(*argument, "--play") == 0) {
            if (playing->name != NULL || *++argument == NULL)
                return 0;
            playing->name = *argument;
        } else if (file->name == NULL) {
            file->name = *argument;
        } else if (words_given || !parse_words(*argument, words)) {
            return 0;
        } else {
            words_given = 1;
        }
    }
    return file->name != NULL;
}

/* Reads an input that was given; 0 after a complaint. Its bytes may be freed either way. */
static int load(struct input *input)
{
    if (input->name == NULL || read_file(input->name, &input->bytes))
        return 1;
    input->bytes.first = NULL;
    complain(input->name, strerror(errno));
    return 0;
}

/* The table that is lent. The check does not mind what its words hold. */
static int make_table(size_t length, struct words *table)
{
    table->length = length;
    /* A lent pointer may not be NULL, and malloc(0) may give it. */
    table->first = malloc(length == 0 ? sizeof(uint32_t) : length * sizeof(uint32_t));
    return table->first != NULL;
}

static void print_verdict(const char *name, uint64_t answer)
{
    fprintf(stderr, "player: %s: ", name);
    print_answer(stderr, answer);
    fprintf(stderr, "\n");
}

/* Prints the reported ends from a stroke's line of the text; gives the line after it. */
static const char *print_reported(const char *line)
{
    const char *ends = strstr(line, " ends ") + strlen(" ends ");
    printf(" reported %.*s", (int)strcspn(ends, " "), ends);
    return strchr(ends, '\n') + 1;
}

/* Works the playing out, prints it, gives the exit status. `report` is the text of an accepted phrase, else NULL. */
static int play(const struct input *file, const struct input *playing, const char *report)
{
    uint32_t starts[PHRASE_MOST_NOTES], ends[PHRASE_MOST_NOTES];
    uint64_t answer = phrase_play(file->bytes.first, file->bytes.length, playing->bytes.first, playing->bytes.length, starts, ends);
    uint32_t number = phrase_refusal(answer);
    size_t strokes, i;

    if (number == PHRASE_PLAYING || number == PHRASE_OUTSIDE)
        print_verdict(playing->name, answer);
    if (number != PHRASE_ACCEPTED)
        return STATUS_REFUSED;
    strokes = (playing->bytes.length - PLAYING_HEAD) / PLAYING_STROKE; /* a playing that is not refused has as many as the phrase */
    for (i = 0; i < strokes; i++) {
        printf("stroke %u start %u end %u", (unsigned)i, (unsigned)starts[i], (unsigned)ends[i]);
        if (report != NULL)
            report = print_reported(report);
        printf("\n");
    }
    if (fflush(stdout) != 0 || ferror(stdout))
        return complain("standard output", strerror(errno));
    return report != NULL ? STATUS_ACCEPTED : STATUS_REFUSED;
}

/* Checks the phrase, prints text and verdict, plays the playing if there is one, gives the exit status. */
static int check(const struct input *file, const struct input *playing, struct words table)
{
    static uint8_t text[PHRASE_TEXT_BYTES + 1]; /* and a zero byte */
    uint64_t answer = phrase_check_with(file->bytes.first, file->bytes.length, table.first, table.length);
    size_t length = phrase_report_with(file->bytes.first, file->bytes.length, table.first, table.length, text, PHRASE_TEXT_BYTES);
    int accepted = phrase_refusal(answer) == PHRASE_ACCEPTED;

    if (length == 0)
        return complain(file->name, "the report does not fit");
    if (fwrite(text, 1, length, stdout) != length || fflush(stdout) != 0)
        return complain("standard output", strerror(errno));
    print_verdict(file->name, answer);
    if (playing->name != NULL)
        return play(file, playing, accepted ? (const char *)text : NULL);
    return accepted ? STATUS_ACCEPTED : STATUS_REFUSED;
}

static int check_in_table(const struct input *file, const struct input *playing, size_t words)
{
    struct words table;
    int status;
    if (!make_table(words, &table))
        return complain("the table", strerror(ENOMEM));
    status = check(file, playing, table);
    free(table.first);
    return status;
}

int main(int argc, char **argv)
{
    struct input file = {NULL, {NULL, 0}}, playing = {NULL, {NULL, 0}};
    size_t words = PHRASE_TABLE_WORDS;
    int status = STATUS_TROUBLE;

    if (argc < 2 || !parse(argv + 1, &file, &playing, &words)) {
        fprintf(stderr, "usage: player FILE [WORDS] [--play PLAYING]\n");
        return STATUS_TROUBLE;
    }
    if (load(&file) && load(&playing))
        status = check_in_table(&file, &playing, words);
    free(file.bytes.first);
    free(playing.bytes.first);
    return status;
}
