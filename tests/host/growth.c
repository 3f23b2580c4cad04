/*
 * growth K: how the check's time grows with the number of states in a level, and with the table. docs/PERFORMANCE.md has what `growth 20` printed.
 *
 * The phrases: strokes on bells of their own, all called at 0..400, on two drivers. Any set of them may be the one that has started, with one state for each.
 * So K strokes have 2 to the K states; the widest level, K/2, has as many as there are ways to choose K/2 of K, and a state takes W = 6 + 2 K words. A state
 * has an edge for each stroke that has not started, which makes K times 2 to the K - 1 (up to K = 14 the second checker was seen to count as many).
 *
 * First 10 strokes, 12 and so on up to K, each phrase in a table just long enough. It has to be accepted, with these states, and in one word less be refused
 * with 13 at level K/2. Then 20 strokes in tables that are too short, until one is longer than the last of those before, or would be long enough. Times are the
 * best of some calls.
 *
 * Exit status: 0 when the answers are as said, 1 when one is not, 2 on wrong usage or when memory is short.
 */
#define _DEFAULT_SOURCE /* clock_gettime */

#include <string.h>
#include <time.h>

#include "phrase.h"
#include "files.h"

enum { FEWEST = 10, MOST = 20 };

static struct file strokes(unsigned count)
{
    struct file file = begin("strokes that may go in any order", 2, count);
    unsigned i;
    for (i = 0; i < count; i++)
        add_bell(&file, 60 + i, 10, 20, 1);
    add_byte(&file, count);
    for (i = 0; i < count; i++)
        add_note(&file, 60 + i, 0, 400, 3600000);
    finish(&file);
    return file;
}

/* How many ways there are to choose half of them. */
static size_t widest(unsigned count)
{
    size_t ways = 1, i;
    for (i = 1; i <= count / 2; i++)
        ways = ways * (count / 2 + i) / i;
    return ways;
}

/* The fewest words for so many strokes. */
static size_t words_for(unsigned count)
{
    return widest(count) * 2 * (6 + 2 * (size_t)count);
}

static double milliseconds(void)
{
    struct timespec now;
    clock_gettime(CLOCK_MONOTONIC, &now);
    return (double)now.tv_sec * 1e3 + (double)now.tv_nsec / 1e6;
}

/* Checks again and again for a second, thrice at least; gives the shortest time and the answer. */
static double best_time(const struct file *file, uint32_t *table, size_t words, uint64_t *answer)
{
    double best = 1e99, begun = milliseconds();
    int calls;
    for (calls = 0; calls < 3 || milliseconds() < begun + 1000; calls++) {
        double before = milliseconds(), time;
        *answer = phrase_check_with(file->bytes, file->size, table, words);
        time = milliseconds() - before;
        best = time < best ? time : best;
    }
    return best;
}

static uint32_t *lent(size_t words)
{
    uint32_t *table = malloc(words * sizeof *table);
    if (table == NULL) {
        fprintf(stderr, "growth: memory is short\n");
        exit(2);
    }
    memset(table, 0xA5, words * sizeof *table); /* so that its pages are there */
    return table;
}

static int failed;

static void expect(const char *what, uint64_t found, uint64_t due)
{
    if (found == due)
        return;
    printf("growth: FAILED: %s is %llu, not %llu\n", what, (unsigned long long)found, (unsigned long long)due);
    failed = 1;
}

/* A row for strokes in a table just long enough; gives its words. */
static size_t print_exact(unsigned count)
{
    static uint8_t text[PHRASE_TEXT_BYTES + 1];
    struct file file = strokes(count);
    size_t words = words_for(count), edges = (size_t)count << (count - 1);
    uint32_t *table = lent(words);
    uint64_t answer;
    char line[64];
    double time = best_time(&file, table, words, &answer);

    expect("the answer", answer, PHRASE_ACCEPTED);
    answer = phrase_check_with(file.bytes, file.size, table, words - 1);
    expect("the refusal in one word less", phrase_refusal(answer), PHRASE_TABLE_FULL);
    expect("its level", phrase_place(answer), count / 2);
    text[phrase_report_with(file.bytes, file.size, table, words, text, PHRASE_TEXT_BYTES)] = '\0';
    snprintf(line, sizeof line, "accepted strokes %u states %lu ", count, 1ul << count);
    expect("the count of states in the text", strstr((char *)text, line) != NULL, 1);
    free(table);
    printf("| %u | %lu | %lu | %lu | %lu | %.3f | %.0f |\n", count, (unsigned long)widest(count), (unsigned long)words, 1ul << count, (unsigned long)edges, time,
           time * 1e6 / (double)edges);
    return words;
}

/* A row for 20 strokes in a table that is too short. */
static void print_short(size_t words)
{
    struct file file = strokes(MOST);
    uint32_t *table = lent(words);
    uint64_t answer;
    double time = best_time(&file, table, words, &answer);
    expect("the refusal in a table that is too short", phrase_refusal(answer), PHRASE_TABLE_FULL);
    free(table);
    printf("| %lu | %lu | %u | %.3f |\n", (unsigned long)words, (unsigned long)(words / (2 * (6 + 2 * MOST))), (unsigned)phrase_place(answer), time);
}

int main(int argc, char **argv)
{
    unsigned most = argc == 2 ? (unsigned)atoi(argv[1]) : 0, count;
    size_t longest = 0, words;
    if (most < FEWEST || most > MOST) {
        fprintf(stderr, "usage: growth K, with K from %d to %d\n", FEWEST, MOST);
        return 2;
    }
    setvbuf(stdout, NULL, _IOLBF, 0);
    printf("| K | states in the widest level | words | states | edges | ms | ns an edge |\n|--:|--:|--:|--:|--:|--:|--:|\n");
    for (count = FEWEST; count <= most; count += 2)
        longest = print_exact(count);
    printf("\n| words | states in a level | 13 at level | ms |\n|--:|--:|--:|--:|\n");
    for (words = PHRASE_TABLE_WORDS; words < 2 * longest && words < words_for(MOST); words *= 2)
        print_short(words);
    return failed;
}
