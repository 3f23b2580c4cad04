/*
 * How buffers.c, edits.c and playings.c lend memory to the calls and see what became of it, and how they count.
 *
 * Each buffer is lent three times: right after a page that faults when touched, right before one, and between bytes that are compared afterwards. What a call
 * only reads is lent on pages that fault when written. Everything is done with two fillings, each the other's complement, so that no write can hide.
 *
 * A test defines TEST, its name, and _DEFAULT_SOURCE, for MAP_ANONYMOUS, before it includes anything.
 */
#ifndef AREAS_H
#define AREAS_H

#include <signal.h>
#include <stdint.h>
#include <stdio.h>
#include <stdlib.h>
#include <string.h>
#include <sys/mman.h>
#include <unistd.h>

enum { GUARD = 256, SHOWN_FAILURES = 20 };

/* ---- Checks ---- */

/* What is being tried, for the lines that name a failure. */
static char trial[256];
static unsigned long checks, failures;

static void expect(int holds, const char *what)
{
    checks++;
    if (holds)
        return;
    failures++;
    if (failures <= SHOWN_FAILURES)
        printf(TEST ": FAILED: %s: %s\n", trial, what);
}

static void expect_number(uint64_t found, uint64_t expected, const char *what)
{
    char line[128];
    snprintf(line, sizeof line, "%s is %llu, not %llu", what, (unsigned long long)found, (unsigned long long)expected);
    expect(found == expected, line);
}

/* An answer of a call: a number and a place, or the length of what was written. */
static void expect_answer(uint64_t answer, uint64_t number, uint64_t place)
{
    expect_number(answer, number * UINT64_C(4294967296) + place, "the answer");
    expect_number(phrase_refusal(answer), number, "its number");
    expect_number(phrase_place(answer), place, "its place");
}

static void stop(const char *why)
{
    fprintf(stderr, TEST ": %s\n", why);
    exit(2);
}

/* A call that touches a page that it was not lent ends the test. */
static void on_fault(int number)
{
    static const char head[] = TEST ": FAILED: ", tail[] = ": it touched memory that was not lent, or wrote what is only read\n";
    ssize_t ignored = write(STDOUT_FILENO, head, sizeof head - 1);
    ignored += write(STDOUT_FILENO, trial, strlen(trial));
    ignored += write(STDOUT_FILENO, tail, sizeof tail - 1);
    (void)ignored;
    (void)number;
    _exit(1);
}

static void begin_test(void)
{
    struct sigaction action;
    memset(&action, 0, sizeof action);
    action.sa_handler = on_fault;
    if (sigaction(SIGSEGV, &action, NULL) != 0 || sigaction(SIGBUS, &action, NULL) != 0)
        stop("sigaction failed");
    setvbuf(stdout, NULL, _IOLBF, 0);
}

/* Prints the count; the exit status. */
static int end_test(void)
{
    if (failures == 0)
        printf(TEST ": %lu checks passed\n", checks);
    else
        printf(TEST ": %lu of %lu checks failed\n", failures, checks);
    return failures != 0;
}

/* ---- Lent memory ---- */

enum where { AFTER_FAULT, BEFORE_FAULT, BETWEEN, WHERES };
static const char *const where_names[WHERES] = {"after a page that faults", "before a page that faults", "between guards"};

struct setting {
    enum where where;
    uint8_t filling;
};
enum { SETTINGS = 2 * WHERES };

static struct setting setting_number(int number)
{
    struct setting setting;
    setting.where = (enum where)(number / 2);
    setting.filling = number % 2 == 0 ? 0x00 : 0xFF;
    return setting;
}

/* Pages between two that fault, and the part of them that is lent. */
struct area {
    uint8_t *first;
    size_t size;
    uint8_t *lent;
    size_t lent_size;
    uint8_t filling;
};

static struct area map_area(size_t wanted)
{
    struct area area;
    size_t page = (size_t)sysconf(_SC_PAGESIZE);
    uint8_t *all;
    memset(&area, 0, sizeof area);
    area.size = (wanted + 2 * GUARD + page) / page * page;
    all = mmap(NULL, area.size + 2 * page, PROT_NONE, MAP_PRIVATE | MAP_ANONYMOUS, -1, 0);
    if (all == MAP_FAILED)
        stop("mmap failed");
    area.first = all + page;
    if (mprotect(area.first, area.size, PROT_READ | PROT_WRITE) != 0)
        stop("mprotect failed");
    return area;
}

/* Neighbours differ, and a place far off holds something else. */
static uint8_t filler(const struct area *area, const uint8_t *at)
{
    size_t offset = (size_t)(at - area->first);
    return (uint8_t)((offset * 37 + offset / 256 + 11) ^ area->filling);
}

/* What is filled before a call and compared after it: the lent part and a guard on both sides, as far as the pages reach. */
static uint8_t *guarded_from(const struct area *area)
{
    return area->lent - area->first < GUARD ? area->first : area->lent - GUARD;
}

static uint8_t *guarded_to(const struct area *area)
{
    uint8_t *end = area->lent + area->lent_size;
    return area->first + area->size - end < GUARD ? area->first + area->size : end + GUARD;
}

/* Lends `size` bytes; between guards they start `offset` bytes after a page's start. */
static void lend(struct area *area, size_t size, struct setting setting, size_t offset)
{
    uint8_t *at, *to;
    if (size + offset + 2 * GUARD > area->size)
        stop("an area is too small for this test");
    if (mprotect(area->first, area->size, PROT_READ | PROT_WRITE) != 0)
        stop("mprotect failed");
    area->lent_size = size;
    area->filling = setting.filling;
    area->lent = setting.where == AFTER_FAULT    ? area->first
                 : setting.where == BEFORE_FAULT ? area->first + area->size - size
                                                 : area->first + GUARD + offset;
    for (at = guarded_from(area), to = guarded_to(area); at < to; at++)
        *at = filler(area, at);
}

/* Lends a copy of these bytes, only to be read. */
static void lend_const(struct area *area, const void *bytes, size_t size, struct setting setting, size_t offset)
{
    lend(area, size, setting, offset);
    memcpy(area->lent, bytes, size);
    if (mprotect(area->first, area->size, PROT_READ) != 0)
        stop("mprotect failed");
}

/* Whether everything from `from` to `to` is as it was lent. */
static int untouched(const struct area *area, const uint8_t *from, const uint8_t *to)
{
    const uint8_t *at;
    for (at = from; at < to; at++)
        if (*at != filler(area, at))
            return 0;
    return 1;
}

/* Nothing before the lent part is changed, and nothing from its byte `changed` on, lent or not. */
static void expect_untouched_from(const struct area *area, size_t changed, const char *before, const char *after)
{
    expect(untouched(area, guarded_from(area), area->lent), before);
    expect(untouched(area, area->lent + changed, guarded_to(area)), after);
}

#endif
