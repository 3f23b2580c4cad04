/*
 * Tries the loop of README.md that lends larger and larger tables; tests/host.sh copies it from there to check_within.h.
 *
 * The phrase has 12 strokes on bells of their own, any of which may go next, so a level has up to 924 states (12 over 6) and needs 924 * 2 * 30 = 55,440 words.
 *
 * Prints one line for each failure; exit status 0 when nothing failed.
 */
#include <stdlib.h>

#include "phrase.h"
#include "files.h"

#include "check_within.h"

static int failed;

static void expect(const struct file *file, size_t limit, uint32_t number, uint32_t place)
{
    uint64_t answer = check_within(file->bytes, file->size, limit);
    if (phrase_refusal(answer) == number && phrase_place(answer) == place)
        return;
    failed = 1;
    printf("within: FAILED: %s, up to %lu words: %u at %u, not %u at %u\n", file->name, (unsigned long)limit, (unsigned)phrase_refusal(answer),
           (unsigned)phrase_place(answer), (unsigned)number, (unsigned)place);
}

int main(void)
{
    struct file late = from_hex("P, stroke 0 due 6", P), many = begin("12 strokes", 2, 12);
    unsigned i;
    late.bytes[35] = 0x06;
    for (i = 0; i < 12; i++)
        add_bell(&many, 60 + i, 10, 20, 1);
    add_byte(&many, 12);
    for (i = 0; i < 12; i++)
        add_note(&many, 60 + i, 0, 400, 3600000);
    finish(&many);

    /* 16,384 words have room for 273 states a level: 12 over 4 are 495. 32,768 have room for 546: 12 over 5 are 792. */
    expect(&many, 0, PHRASE_TABLE_FULL, 4);
    expect(&many, 32767, PHRASE_TABLE_FULL, 4);
    expect(&many, 32768, PHRASE_TABLE_FULL, 5);
    expect(&many, 65535, PHRASE_TABLE_FULL, 5);
    expect(&many, 65536, PHRASE_ACCEPTED, 0);
    expect(&many, SIZE_MAX, PHRASE_ACCEPTED, 0);
    expect(&late, 65536, PHRASE_LATE, 0);
    return failed;
}
