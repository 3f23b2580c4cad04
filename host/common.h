/*
 * What the hosts player.c and editor.c share: a file that is read whole, and an answer in words.
 */
#ifndef COMMON_H
#define COMMON_H

#include <errno.h>
#include <stdio.h>
#include <stdlib.h>

#include "phrase.h"

struct bytes {
    uint8_t *first; /* never NULL once read, even when empty */
    size_t length;
};

/* Doubles the room; 0 when memory is short. The bytes are kept either way. */
static int grow(struct bytes *bytes, size_t *room)
{
    uint8_t *larger;
    if (*room > SIZE_MAX / 2)
        return 0;
    larger = realloc(bytes->first, *room * 2);
    if (larger == NULL)
        return 0;
    bytes->first = larger;
    *room *= 2;
    return 1;
}

/* Reads a stream to its end; 0 and errno when that fails. */
static int read_stream(FILE *stream, struct bytes *bytes)
{
    size_t room = 4096;
    bytes->length = 0;
    bytes->first = malloc(room);
    if (bytes->first == NULL) {
        errno = ENOMEM;
        return 0;
    }
    for (;;) {
        bytes->length += fread(bytes->first + bytes->length, 1, room - bytes->length, stream);
        if (ferror(stream))
            return 0;
        if (bytes->length < room)
            return 1;
        if (!grow(bytes, &room)) {
            errno = ENOMEM;
            return 0;
        }
    }
}

/* Reads a whole file; 0 and errno when that fails. Nothing is left open or allocated then. */
static int read_file(const char *name, struct bytes *bytes)
{
    int complete, error;
    FILE *stream = fopen(name, "rb");
    if (stream == NULL)
        return 0;
    complete = read_stream(stream, bytes);
    error = errno;
    fclose(stream);
    if (!complete) {
        free(bytes->first);
        errno = error;
    }
    return complete;
}

static const char *place_name(uint32_t number)
{
    switch (number) {
    case PHRASE_TABLE_FULL:
        return "level";
    case PHRASE_LATE:
    case PHRASE_OUTSIDE:
        return "stroke";
    default:
        return "byte";
    }
}

/* The answer in words, without a line end. */
static void print_answer(FILE *stream, uint64_t answer)
{
    unsigned number = phrase_refusal(answer), place = phrase_place(answer);
    if (number == PHRASE_ACCEPTED)
        fprintf(stream, "accepted");
    else
        fprintf(stream, "refused, number %u, %s %u", number, place_name(number), place);
}

#endif
