/*
 * stack now|lazy FILE..: measures the stack that each of the seven calls of host/phrase.h takes, on each FILE, and prints the most of each in KiB.
 * phrase_write gets what phrase_read makes of the FILE; phrase_play a playing of it, with the latest calls and the longest holds.
 *
 * A call is made in a process and a thread of its own, on a stack that was painted before; what lies between the caller's frame and the lowest byte that is
 * no longer paint is what the call took. The library needs memcpy and memset from the C library. A program linked with -Wl,-z,now has bound them when it
 * starts; one linked with -Wl,-z,lazy binds them when they are first called, so inside the call and on its stack.
 *
 * Exit status: 0 when no call takes more than is stated, 1 when one does, 2 when it cannot be measured.
 */
#define _DEFAULT_SOURCE /* MAP_ANONYMOUS, threads, fork */

#include <fcntl.h>
#include <pthread.h>
#include <stdio.h>
#include <stdlib.h>
#include <string.h>
#include <sys/mman.h>
#include <sys/wait.h>
#include <unistd.h>

#include "phrase.h"

enum { KIB = 1024, AREA = 256 * KIB, PAINT = 0xA5, MOST_FILE = 4096 };

static uint8_t file[MOST_FILE], text[PHRASE_TEXT_BYTES], written[PHRASE_FILE_BYTES];
static size_t file_length;
static uint32_t table[PHRASE_TABLE_WORDS], starts[PHRASE_MOST_NOTES], ends[PHRASE_MOST_NOTES];

/*
 * In memory that the processes share: the FILE's phrase, its playing, and what a process measured: bytes of its first call, and of the same call once more.
 */
static struct shared {
    struct phrase phrase;
    uint8_t playing[PHRASE_PLAYING_BYTES];
    size_t playing_length;
    struct taken {
        size_t first, again;
    } taken;
} *shared;

static void check(void)
{
    phrase_check(file, file_length);
}

static void report(void)
{
    phrase_report(file, file_length, text, sizeof text);
}

static void check_with(void)
{
    phrase_check_with(file, file_length, table, PHRASE_TABLE_WORDS);
}

static void report_with(void)
{
    phrase_report_with(file, file_length, table, PHRASE_TABLE_WORDS, text, sizeof text);
}

static void read_phrase(void)
{
    phrase_read(file, file_length, &shared->phrase);
}

static void write_phrase(void)
{
    phrase_write(&shared->phrase, written, sizeof written);
}

static void play_playing(void)
{
    phrase_play(file, file_length, shared->playing, shared->playing_length, starts, ends);
}

/*
 * The KiB that host/phrase.h and README.md state: of each call, how many more where it binds, and of all together. phrase_write calls neither memcpy nor
 * memset, so it has nothing to bind.
 */
static const struct call {
    const char *name;
    void (*make)(void);
    unsigned stated;
    int binds;
} calls[] = {
    {"phrase_check", check, 89, 1},
    {"phrase_report", report, 90, 1},
    {"phrase_check_with", check_with, 25, 1},
    {"phrase_report_with", report_with, 26, 1},
    {"phrase_read", read_phrase, 1, 1},
    {"phrase_write", write_phrase, 1, 0},
    {"phrase_play", play_playing, 10, 1},
};
enum { CALLS = sizeof calls / sizeof *calls, STATED_BINDING = 4, STATED_ALL = 128 };

static void stop(const char *why)
{
    perror(why);
    _exit(2);
}

/* ---- In the process that is measured. It calls neither memcpy nor memset before the library does ---- */

static volatile uint8_t *area;

static void *make_call(void *argument)
{
    const struct call *call = argument;
    const uint8_t *frame = __builtin_frame_address(0);
    size_t lowest = 0;
    call->make();
    while (area[lowest] == PAINT)
        lowest++;
    shared->taken.again = (size_t)(frame - (const uint8_t *)area) - lowest;
    return NULL;
}

/* One call on a stack that is painted anew; the bytes that it took are in shared->taken.again then. */
static void measure_once(const struct call *call)
{
    pthread_attr_t attributes;
    pthread_t thread;
    size_t i;
    for (i = 0; i < AREA; i++)
        area[i] = PAINT;
    if (pthread_attr_init(&attributes) != 0 || pthread_attr_setstack(&attributes, (void *)(uintptr_t)area, AREA) != 0)
        stop("stack: a stack of its own");
    if (pthread_create(&thread, &attributes, make_call, (void *)(uintptr_t)call) != 0 || pthread_join(thread, NULL) != 0)
        stop("stack: a thread");
}

static void load(const char *name)
{
    ssize_t length;
    int descriptor = open(name, O_RDONLY);
    if (descriptor < 0 || (length = read(descriptor, file, sizeof file)) < 0)
        stop(name);
    file_length = (size_t)length;
}

static void measure(const struct call *call, const char *name)
{
    load(name);
    area = mmap(NULL, AREA, PROT_READ | PROT_WRITE, MAP_PRIVATE | MAP_ANONYMOUS, -1, 0);
    if (area == MAP_FAILED)
        stop("stack: memory");
    measure_once(call);
    shared->taken.first = shared->taken.again;
    measure_once(call);
}

static void add_number(uint32_t number, int bytes)
{
    while (bytes-- > 0)
        shared->playing[shared->playing_length++] = (uint8_t)(number >> (8 * bytes));
}

/* A phrase that was refused is all zero, and its playing without strokes. */
static void make_playing(const struct phrase *phrase)
{
    uint32_t i;
    shared->playing_length = 0;
    add_number(1, 1);
    add_number(6 * phrase->note_count, 4);
    for (i = 0; i < phrase->note_count; i++) {
        add_number(phrase->notes[i].latest_call, 4);
        add_number(phrase->bells[phrase->notes[i].bell].most_hold, 2);
    }
}

/* In another process than the one that is measured, so that nothing is bound there. */
static void prepare(const struct call *call, const char *name)
{
    (void)call;
    load(name);
    read_phrase();
    make_playing(&shared->phrase);
}

/* ---- In the process that started ---- */

static size_t larger(size_t a, size_t b)
{
    return a < b ? b : a;
}

static void in_process(void (*act)(const struct call *, const char *), const struct call *call, const char *name)
{
    int status;
    pid_t child = fork();
    if (child < 0)
        stop("stack: a process");
    if (child == 0) {
        act(call, name);
        _exit(0);
    }
    if (waitpid(child, &status, 0) != child || status != 0) {
        fprintf(stderr, "stack: %s: %s: not measured\n", call->name, name);
        exit(2);
    }
}

static struct taken most_of(const struct call *call, char **names)
{
    struct taken most = {0, 0};
    for (; *names != NULL; names++) {
        in_process(prepare, call, *names);
        in_process(measure, call, *names);
        most.first = larger(most.first, shared->taken.first);
        most.again = larger(most.again, shared->taken.again);
    }
    return most;
}

int main(int argc, char **argv)
{
    int lazy = argc > 1 && strcmp(argv[1], "lazy") == 0, failed = 0, i;
    if (argc < 3 || (!lazy && strcmp(argv[1], "now") != 0)) {
        fprintf(stderr, "usage: stack now|lazy FILE..\n");
        return 2;
    }
    shared = mmap(NULL, sizeof *shared, PROT_READ | PROT_WRITE, MAP_SHARED | MAP_ANONYMOUS, -1, 0);
    if (shared == MAP_FAILED)
        stop("stack: memory");
    for (i = 0; i < CALLS; i++) {
        struct taken most = most_of(&calls[i], argv + 2);
        unsigned stated = calls[i].stated + (lazy ? STATED_BINDING : 0);
        printf("stack: %s, %s: %.1f KiB\n", argv[1], calls[i].name, (double)most.first / KIB);
        if (most.first > (size_t)stated * KIB || stated > STATED_ALL) {
            printf("stack: FAILED: stated are %u KiB, and %u for every call\n", stated, (unsigned)STATED_ALL);
            failed = 1;
        }
        if (lazy && calls[i].binds && most.first == most.again) {
            printf("stack: FAILED: the call bound nothing, so it was not measured with lazy binding\n");
            failed = 1;
        }
    }
    return failed;
}
