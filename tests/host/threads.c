/*
 * Makes the seven calls of host/phrase.h from several threads at the same time, on phrases with different answers, and holds each answer, text, file and run
 * to what document 01 and requests 101, 102, 104, 106 and 108 say. Buffers are the threads' own; only the files and the playing are shared, which the calls
 * only read. The threads have as much stack as phrase.h says that every call can do with.
 *
 * Prints one line for each thread that saw a difference, else a count; exit status 0 when there was none.
 */
#define _DEFAULT_SOURCE /* threads */

#include <pthread.h>
#include <stdio.h>
#include <string.h>

#include "phrase.h"

enum { THREADS = 18, ROUNDS = 4000, CALLS = 7, WORDS = 64, ROOM = 200, STACK = 128 * 1024 };

/* A file, what is said of it, and what the playing below makes of it. */
struct example {
    const char *name;
    uint8_t file[55];
    size_t size;
    uint64_t answer;
    const char *text;
    uint32_t starts[PHRASE_MOST_NOTES], ends[PHRASE_MOST_NOTES];
};

/*
 * P, P with stroke 0 due 6, P with byte 37 = 3E, a file without m, P shifted down by four semitones, with keys as much higher, and P shifted by 25; the same in
 * version 3, with rests of 7 and 5000, and with one of 5001; two strokes of one bell that holds for 2..4 and rests for 3, called at 0..5.
 */
#define P_TO_DUE                                                                                                                                   \
    0x01, 0x00, 0x00, 0x00, 0x2D, 0x01, 0x02, 0x3C, 0x00, 0x00, 0x02, 0x00, 0x02, 0x01, 0x3E, 0x0C, 0x00, 0x04, 0x00, 0x04, 0x02, 0x02, 0x0D, 0x3C, \
        0x00, 0x00, 0x00, 0x00, 0x00, 0x00, 0x00, 0x05, 0x00, 0x00, 0x00
#define P_FROM_KEY(key) 0x0D, key, 0x00, 0x00, 0x00, 0x00, 0x00, 0x00, 0x00, 0x00, 0x00, 0x00, 0x00, 0x06
#define P_SHIFTED(shift)                                                                                                                                  \
    0x02, 0x00, 0x00, 0x00, 0x2E, 0x01, shift, 0x02, 0x3C, 0x00, 0x00, 0x02, 0x00, 0x02, 0x01, 0x3E, 0x0C, 0x00, 0x04, 0x00, 0x04, 0x02, 0x02, 0x0D, 0x40, \
        0x00, 0x00, 0x00, 0x00, 0x00, 0x00, 0x00, 0x05, 0x00, 0x00, 0x00, 0x07, P_FROM_KEY(0x4E)
#define P_RESTED(low)                                                                                                                                    \
    0x03, 0x00, 0x00, 0x00, 0x32, 0x01, 0xFC, 0x02, 0x3C, 0x00, 0x00, 0x02, 0x00, 0x02, 0x00, 0x07, 0x01, 0x3E, 0x0C, 0x00, 0x04, 0x00, 0x04, 0x13, low, \
        0x02, 0x02, 0x0D, 0x40, 0x00, 0x00, 0x00, 0x00, 0x00, 0x00, 0x00, 0x05, 0x00, 0x00, 0x00, 0x07, P_FROM_KEY(0x4E)
#define TWICE                                                                                                                                       \
    0x03, 0x00, 0x00, 0x00, 0x29, 0x01, 0x00, 0x01, 0x3C, 0x00, 0x00, 0x02, 0x00, 0x04, 0x00, 0x03, 0x01, 0x02, 0x0D, 0x3C, 0x00, 0x00, 0x00, 0x00, \
        0x00, 0x00, 0x00, 0x05, 0x00, 0x00, 0x00, 0x09, 0x0D, 0x3C, 0x00, 0x00, 0x00, 0x00, 0x00, 0x00, 0x00, 0x05, 0x00, 0x00, 0x00, 0x10
#define P_TEXT                                               \
    "stroke 0 key C4 bell 0 ends 2..7 response 2..7 due 7\n" \
    "stroke 1 key D5 bell 1 ends 4..6 response 4..6 due 6\n" \
    "bell 0 strokes 1 hold 2\n"                              \
    "bell 1 strokes 1 hold 4\n"                              \
    "accepted strokes 2 states 4 hold 6\n"
#define TWICE_TEXT                                              \
    "stroke 0 key C4 bell 0 ends 2..9 response 2..9 due 9\n"    \
    "stroke 1 key C4 bell 0 ends 7..16 response 7..16 due 16\n" \
    "bell 0 strokes 2 hold 8\n"                                 \
    "accepted strokes 2 states 3 hold 8\n"
#define P_RUN {4, 0}, {6, 4}
#define NO_RUN {0, 0}, {0, 0}

static const struct example examples[] = {
    {"P", {P_TO_DUE, 0x07, P_FROM_KEY(0x4A)}, 50, 0, P_TEXT, P_RUN},
    {"P, stroke 0 due 6", {P_TO_DUE, 0x06, P_FROM_KEY(0x4A)}, 50, UINT64_C(14) << 32, "refused 14 stroke 0 ends 6..7\n", P_RUN},
    {"row 10", {P_TO_DUE, 0x07, P_FROM_KEY(0x3E)}, 50, (UINT64_C(10) << 32) + 36, "refused 10 at 36\n", NO_RUN},
    {"no m", {0x01, 0x00, 0x00, 0x00, 0x00}, 5, (UINT64_C(3) << 32) + 5, "refused 3 at 5\n", NO_RUN},
    {"P shifted", {P_SHIFTED(0xFC)}, 51, 0, P_TEXT, P_RUN},
    {"P shifted by 25", {P_SHIFTED(0x19)}, 51, (UINT64_C(19) << 32) + 6, "refused 19 at 6\n", NO_RUN},
    {"P rested", {P_RESTED(0x88)}, 55, 0, P_TEXT, P_RUN},
    {"P rested, rest 5001", {P_RESTED(0x89)}, 55, (UINT64_C(6) << 32) + 17, "refused 6 at 17\n", NO_RUN},
    {"a bell twice", {TWICE}, 46, 0, TWICE_TEXT, {1, 6}, {3, 10}},
};
enum { EXAMPLES = sizeof examples / sizeof *examples };

/* A playing of P, in which stroke 0 is called while stroke 1 holds the driver; and one of two strokes of one bell, which keep their order. */
static const uint8_t playing[] = {0x01, 0x00, 0x00, 0x00, 0x0C, 0x00, 0x00, 0x00, 0x01, 0x00, 0x02, 0x00, 0x00, 0x00, 0x00, 0x00, 0x04};

/* What a thread works on, and how many of its calls differed. */
struct player {
    pthread_t thread;
    const struct example *example;
    struct phrase phrase;
    unsigned differences;
};

static int is_text(const struct example *example, const uint8_t *text, size_t length)
{
    return length == strlen(example->text) && memcmp(text, example->text, length) == 0;
}

/* What document 01 says of reading: refusals 1 to 12, and 19. */
static uint64_t reading(const struct example *example)
{
    uint32_t number = phrase_refusal(example->answer);
    return number <= PHRASE_WAITS || number == PHRASE_SHIFT ? example->answer : 0;
}

/* The phrase is written as the file that it was read from. Where that was refused, all is zero, which is refused with 1 at 0. */
static int is_written(const struct player *player)
{
    const struct example *example = player->example;
    uint8_t file[ROOM];
    uint64_t answer = phrase_write(&player->phrase, file, ROOM);
    if (reading(example) != 0)
        return answer == UINT64_C(1) << 32;
    return answer == example->size && memcmp(file, example->file, example->size) == 0;
}

/* The playing is worked out, also of the late phrase. Where the file is refused, all is zero. */
static int is_played(const struct example *example)
{
    uint32_t starts[PHRASE_MOST_NOTES], ends[PHRASE_MOST_NOTES];
    memset(starts, 0xA5, sizeof starts);
    memset(ends, 0xA5, sizeof ends);
    return phrase_play(example->file, example->size, playing, sizeof playing, starts, ends) == reading(example)
           && memcmp(starts, example->starts, sizeof starts) == 0 && memcmp(ends, example->ends, sizeof ends) == 0;
}

static void *play(void *argument)
{
    struct player *player = argument;
    const struct example *example = player->example;
    uint32_t table[WORDS];
    uint8_t text[ROOM];
    int round;

    memset(table, 0xA5, sizeof table);
    for (round = 0; round < ROUNDS; round++) {
        player->differences += phrase_check(example->file, example->size) != example->answer;
        player->differences += phrase_check_with(example->file, example->size, table, WORDS) != example->answer;
        memset(text, 0, sizeof text);
        player->differences += !is_text(example, text, phrase_report(example->file, example->size, text, ROOM));
        memset(text, 0, sizeof text);
        player->differences += !is_text(example, text, phrase_report_with(example->file, example->size, table, WORDS, text, ROOM));
        memset(&player->phrase, 0xA5, sizeof player->phrase);
        player->differences += phrase_read(example->file, example->size, &player->phrase) != reading(example);
        player->differences += !is_written(player);
        player->differences += !is_played(example);
    }
    return NULL;
}

int main(void)
{
    static struct player players[THREADS];
    pthread_attr_t small;
    int i, failed = 0;
    if (pthread_attr_init(&small) != 0 || pthread_attr_setstacksize(&small, STACK) != 0) {
        fprintf(stderr, "threads: a stack of %d bytes cannot be had\n", STACK);
        return 2;
    }
    for (i = 0; i < THREADS; i++) {
        players[i].example = &examples[i % EXAMPLES];
        if (pthread_create(&players[i].thread, &small, play, &players[i]) != 0) {
            fprintf(stderr, "threads: a thread could not be started\n");
            return 2;
        }
    }
    for (i = 0; i < THREADS; i++) {
        pthread_join(players[i].thread, NULL);
        if (players[i].differences != 0) {
            printf("threads: FAILED: %s: %u of %d calls differed\n", players[i].example->name, players[i].differences, CALLS * ROUNDS);
            failed = 1;
        }
    }
    if (!failed)
        printf("threads: %d checks passed\n", THREADS * ROUNDS * CALLS);
    return failed;
}
