/*
 * Hostile buffers for the functions of include/svahost.h. Built and run by scripts/embedded, which also plants
 * mistakes: with -DPLANT=K the K-th is made, and this program has to find it. It prints a line for each thing that is
 * wrong, and last how much was tried; the status is 0 where nothing was wrong.
 *
 * Each text ends where a page ends behind which nothing may be read, and may itself not be written. Each buffer ends
 * where such a page begins, and once more begins where one ends. So a byte too far ends the program. Linked with --wrap
 * for malloc, realloc and free.
 */
#define _DEFAULT_SOURCE
#include <pthread.h>
#include <stdarg.h>
#include <stdio.h>
#include <stdlib.h>
#include <string.h>
#include <sys/mman.h>
#include <svahost.h>

#ifndef PLANT
#define PLANT 0
#endif

typedef enum svahost_status function(const void *, size_t, void *, size_t, size_t *);

/* so many moments are looked at, at most */
static enum svahost_status judge(const void *text, size_t length, void *report, size_t room, size_t *needed)
{
    return svahost_judge(text, length, 1000, report, room, needed);
}

static enum svahost_status judge_one(const void *text, size_t length, void *report, size_t room, size_t *needed)
{
    return svahost_judge(text, length, 1, report, room, needed);
}

static enum svahost_status explore(const void *text, size_t length, void *report, size_t room, size_t *needed)
{
    return svahost_explore(text, length, 1000, report, room, needed);
}

static const struct command {
    const char *name;
    function *call;
} commands[] = {
    {"replay", svahost_replay}, {"check", svahost_check}, {"test", svahost_test},
    {"plain", svahost_plain},   {"show", svahost_show},   {"judge", judge},
    {"judge, a moment", judge_one},   {"run", svahost_run}, {"explore", explore},
};
enum { COMMANDS = sizeof commands / sizeof *commands, PAGE = 4096 };

static long tried, wrong;

static void is_wrong(const char *form, ...)
{
    va_list rest;
    va_start(rest, form);
    vprintf(form, rest);
    va_end(rest);
    putchar('\n');
    wrong++;
}

static void *there(void *block)
{
    if (block == NULL || block == MAP_FAILED) {
        perror("embedded");
        exit(3);
    }
    return block;
}

/* ---- Memory: what is asked for is counted while a call runs, and the request of the number `refused` gets none. */

void *__real_malloc(size_t);
void *__real_realloc(void *, size_t);
void __real_free(void *);

static __thread int counts;
static __thread long asked, live, refused = -1;

void *__wrap_malloc(size_t size)
{
    void *block;
    if (counts && asked++ == refused)
        return NULL;
    block = __real_malloc(size);
    if (counts && block != NULL)
        live++;
    return block;
}

void *__wrap_realloc(void *old, size_t size)
{
    void *block;
    if (counts && asked++ == refused)
        return NULL;
    block = __real_realloc(old, size);
    if (counts && old == NULL && block != NULL)
        live++;
    return block;
}

void __wrap_free(void *block)
{
    if (counts && block != NULL)
        live--;
    __real_free(block);
}

/* ---- A call, with what may be planted in it. */

static enum svahost_status plant(enum svahost_status status, const unsigned char *text, size_t length,
                                 unsigned char *report, size_t room, size_t *needed)
{
#if PLANT == 1 /* a byte behind the buffer */
    if (report != NULL && room > 0)
        report[room] = 0;
#elif PLANT == 2 /* a length that is one too few */
    if (needed != NULL && *needed > 0)
        --*needed;
#elif PLANT == 3 /* a report that was cut off is told as a whole one */
    if (status == SVAHOST_TOO_SMALL)
        status = SVAHOST_DONE;
#elif PLANT == 4 /* memory lacked, and the buffer isn't as it was */
    if (status == SVAHOST_NO_MEMORY && room > 0)
        report[0] ^= 1;
#elif PLANT == 5 /* a block that stays */
    there(malloc(8));
#elif PLANT == 6 /* the text is written */
    if (text != NULL && length > 0)
        *(volatile unsigned char *)text = 0;
#elif PLANT == 7 /* a byte behind the report, within the buffer */
    if (needed != NULL && *needed < room)
        report[*needed] = 0;
#elif PLANT == 8 /* each second call gives another report */
    static long calls;
    if (calls++ % 2 == 0 && room > 0 && status != SVAHOST_BAD_ARGUMENT && status != SVAHOST_NO_MEMORY)
        report[0] ^= 1;
#elif PLANT == 9 /* bad arguments are called good */
    if (status == SVAHOST_BAD_ARGUMENT)
        status = SVAHOST_DONE;
#elif PLANT == 10 /* want of memory is told as a fault of the text */
    if (status == SVAHOST_NO_MEMORY)
        status = SVAHOST_FAULTED;
#endif
    (void)text, (void)length, (void)report, (void)room, (void)needed;
    return status;
}

static enum svahost_status call(const struct command *it, const void *text, size_t length, void *report, size_t room,
                                size_t *needed)
{
    enum svahost_status status;
    asked = live = 0;
    counts = 1;
    status = plant(it->call(text, length, report, room, needed), text, length, report, room, needed);
    counts = 0;
    tried++;
    if (live != 0)
        is_wrong("%s: %ld blocks outlive the call", it->name, live);
    return status;
}

/* ---- Places in memory between pages that can't be reached. */

struct place {
    unsigned char *bytes, *whole;
    size_t length;
};

/* `size` bytes that end, or else begin, at such a page */
static struct place fenced(size_t size, int at_end)
{
    struct place it;
    size_t pages = (size + PAGE - 1) / PAGE + 1;
    it.length = (pages + 1) * PAGE;
    it.whole = there(mmap(NULL, it.length, PROT_READ | PROT_WRITE, MAP_PRIVATE | MAP_ANONYMOUS, -1, 0));
    if (mprotect(it.whole, PAGE, PROT_NONE) != 0 || mprotect(it.whole + pages * PAGE, PAGE, PROT_NONE) != 0)
        there(NULL);
    it.bytes = at_end ? it.whole + pages * PAGE - size : it.whole + PAGE;
    return it;
}

/* a copy of a text that can only be read, and behind which nothing can be */
static struct place read_only(const void *text, size_t size)
{
    struct place it = fenced(size, 1);
    memcpy(it.bytes, text, size);
    if (it.length > 2 * PAGE)
        mprotect(it.whole + PAGE, it.length - 2 * PAGE, PROT_READ);
    return it;
}

/* What a buffer has before a call: each byte by its place. */
static unsigned char pattern(size_t at)
{
    return (unsigned char)(0xa5 ^ at * 7);
}

static void fill(unsigned char *bytes, size_t room)
{
    for (size_t at = 0; at < room; at++)
        bytes[at] = pattern(at);
}

/* The first byte from `at` on that a call has written, or `room`. */
static size_t written(const unsigned char *bytes, size_t at, size_t room)
{
    while (at < room && bytes[at] == pattern(at))
        at++;
    return at;
}

/* ---- What has to hold. */

/* A text, what a command says of it, and how that ends. */
struct case_of {
    const char *name;
    const struct command *command;
    const unsigned char *text;
    size_t length;
    const unsigned char *whole;
    size_t size;
    enum svahost_status ended;
};

static void with_room(const struct case_of *it, size_t room, int at_end)
{
    struct place report = fenced(room, at_end);
    size_t needed = 77, count = room < it->size ? room : it->size, at;
    enum svahost_status status;
    fill(report.bytes, room);
    status = call(it->command, it->text, it->length, report.bytes, room, &needed);
    if (status != (room < it->size ? SVAHOST_TOO_SMALL : it->ended) || needed != it->size)
        is_wrong("%s: %s: %zu bytes for %zu: status %d, length %zu", it->name, it->command->name, room, it->size,
                 (int)status, needed);
    if (memcmp(report.bytes, it->whole, count) != 0)
        is_wrong("%s: %s: with %zu bytes the report isn't its own front", it->name, it->command->name, room);
    if ((at = written(report.bytes, count, room)) < room)
        is_wrong("%s: %s: byte %zu behind a report of %zu was written", it->name, it->command->name, at, it->size);
    munmap(report.whole, report.length);
}

/* Each request for memory of a call is refused in turn: the buffer has to be as it was. */
static void without_memory(const struct case_of *it)
{
    size_t room = it->size + 8, needed, at;
    unsigned char *report = there(malloc(room));
    enum svahost_status status;
    for (refused = 0; refused < 300; refused++) {
        fill(report, room);
        needed = 77;
        status = call(it->command, it->text, it->length, report, room, &needed);
        if (asked <= refused) {
            if (status != it->ended)
                is_wrong("%s: %s: status %d where no memory was refused", it->name, it->command->name, (int)status);
            break;
        }
        if (status != SVAHOST_NO_MEMORY || needed != 0 || (at = written(report, 0, room)) < room)
            is_wrong("%s: %s: request %ld refused: status %d, length %zu", it->name, it->command->name, refused,
                     (int)status, needed);
    }
    if (refused == 0)
        is_wrong("%s: %s: no memory was asked for, so none was refused", it->name, it->command->name);
    refused = -1;
    free(report);
}

static void with_command(const struct command *command, const char *name, const unsigned char *text, size_t length)
{
    size_t size = 0, again = 0;
    enum svahost_status status = call(command, text, length, NULL, 0, &size), ended;
    unsigned char *whole = there(malloc(size + 1));
    ended = call(command, text, length, whole, size, &again);
    if (status != SVAHOST_TOO_SMALL || size == 0 || again != size || ended == SVAHOST_NO_MEMORY
        || ended == SVAHOST_BAD_ARGUMENT)
        is_wrong("%s: %s: status %d, length %zu with no room, and then %d, %zu", name, command->name, (int)status, size,
                 (int)ended, again);
    else {
        const struct case_of it = {name, command, text, length, whole, size, ended};
        const size_t rooms[] = {0, 1, size / 2, size - 1, size, size + 1, size + PAGE};
        if (whole[size - 1] != '\n')
            is_wrong("%s: %s: the report doesn't end with LF", name, command->name);
        for (size_t r = 0; r < sizeof rooms / sizeof *rooms; r++) {
            with_room(&it, rooms[r], 1);
            with_room(&it, rooms[r], 0);
        }
        if (call(command, text, length, whole, size, NULL) != ended)
            is_wrong("%s: %s: another status where nobody asks for the length", name, command->name);
        if (length < PAGE)
            without_memory(&it);
    }
    free(whole);
}

static void with_text(const char *name, const void *bytes, size_t length)
{
    struct place text = read_only(bytes, length);
    for (int i = 0; i < COMMANDS; i++)
        with_command(&commands[i], name, text.bytes, length);
    munmap(text.whole, text.length);
}

/* What is no buffer at all. Nothing may be written but the length. */
static void with_bad_arguments(const struct command *it)
{
    static const char text[] = "config 1 4 1\n";
    unsigned char report[64];
    const struct {
        const char *what;
        const void *text;
        size_t length;
        void *report;
        size_t room;
    } bad[] = {
        {"a text that is null", NULL, 1, report, sizeof report},
        {"a report that is null", text, sizeof text - 1, NULL, 1},
        {"a text without end", text, (size_t)-1, report, sizeof report},
        {"a room without end", text, sizeof text - 1, report, (size_t)-1},
        {"a report within the text", report, sizeof report, report + 8, 8},
        {"a text within the report", report + 8, 8, report, sizeof report},
        {"one buffer for both", report, sizeof report, report, sizeof report},
    };
    fill(report, sizeof report);
    for (size_t b = 0; b < sizeof bad / sizeof *bad; b++) {
        size_t needed = 77;
        enum svahost_status status = call(it, bad[b].text, bad[b].length, bad[b].report, bad[b].room, &needed);
        if (status != SVAHOST_BAD_ARGUMENT || needed != 0 || written(report, 0, sizeof report) < sizeof report)
            is_wrong("%s: %s: status %d, length %zu", it->name, bad[b].what, (int)status, needed);
    }
    /* null is fine where there is nothing to be read or written */
    if (call(it, NULL, 0, NULL, 0, NULL) != SVAHOST_TOO_SMALL)
        is_wrong("%s: two buffers of no bytes aren't taken", it->name);
}

/* ---- Several threads at once, each with as much stack as the header asks for. */

static const char scenario[] = "config 1 4 1\nspace\nmap 0 16 w\nbind 0 0\ndeliver 0\nunmap 0 16\n";
static const char answers[] =
    "space 0\nframe 0\nbinding 0 pasid 1\nstarted\nwithheld 0\nfree 3 mapped 0 withheld 1\n";

/* unsafe: the frame has another owner while the endpoint may still ask for it */
#define DRIVER \
    "config 1 4 1\ndevice 0 1 asks\npte 0 16 0 w\nentry 0 1 0\nstart 0 1\ndeliver start 0\nrace\nfree 0\n"

static void *in_a_thread(void *unused)
{
    char report[512];
    size_t needed;
    long bad = 0;
    for (int i = 0; i < 8; i++)
        bad += svahost_judge(DRIVER, sizeof DRIVER - 1, 1000, report, sizeof report, &needed) != SVAHOST_FAILS
               || memcmp(report, "unsafe in ", 10) != 0;
    for (int i = 0; i < 200; i++)
        bad += svahost_replay(scenario, sizeof scenario - 1, report, sizeof report, &needed) != SVAHOST_DONE
               || needed != sizeof answers - 1 || memcmp(report, answers, needed) != 0;
    (void)unused;
    return (void *)bad;
}

static void with_threads(void)
{
    pthread_t threads[8];
    pthread_attr_t attributes;
    pthread_attr_init(&attributes);
    pthread_attr_setstacksize(&attributes, 1024 * 1024);
    for (int i = 0; i < 8; i++)
        if (pthread_create(&threads[i], &attributes, in_a_thread, NULL) != 0)
            there(NULL);
    for (int i = 0; i < 8; i++) {
        void *bad;
        pthread_join(threads[i], &bad);
        tried += 208;
        if (bad != NULL)
            is_wrong("thread %d: %ld of 208 reports are wrong", i, (long)bad);
    }
}

/* a text, and behind it another so many times */
static void with_long_text(const char *name, const char *begin, const char *text, size_t count)
{
    size_t head = strlen(begin), one = strlen(text), length = head + count * one;
    char *made = there(malloc(length));
    memcpy(made, begin, head);
    for (size_t i = 0; i < count; i++)
        memcpy(made + head + i * one, text, one);
    with_text(name, made, length);
    free(made);
}

#define TEXT(name, text) with_text(name, text, sizeof text - 1)

int main(void)
{
    setvbuf(stdout, NULL, _IOLBF, 0);
    TEXT("empty", "");
    TEXT("scenario", "config 1 4 1\nspace\nmap 0 16 w\nunmap 0 16\n");
    TEXT("no LF", "config 1 4 1\nspace");
    TEXT("script", "config 1 4 1\ns: space\nm: map s 0x10 w  # a comment\nlook m => mapped\n");
    TEXT("not as expected", "config 1 4 1\ns: space\nm: map s 0x10 w\nlook m => free\n");
    TEXT("not UTF-8", "config 1 4 1\nspace\n\xff\xfe\xc0\x80\xed\xa0\x80\n");
    TEXT("not UTF-8 at all", "\x80");
    TEXT("NUL", "config 1 4 1\nspace\0\nspace\n");
    TEXT("NUL at the end", "config 1 4 1\nspace\n\0");
    TEXT("CR", "config 1 4 1\r\nspace\r\n");
    TEXT("tab", "config\t1\t4\t1\n");
    TEXT("bad config", "config 9 4 1\nspace\n");
    TEXT("driver", DRIVER);
    TEXT("driver, no LF", "config 1 4 1\npte 0 16 0 w\nrace\nfree 0");
    TEXT("race", "config 1 4 1\ns: space\nm: map s 0x10 w\nrace\nunmap s 0x10\nends always look m => free\n");
    TEXT("claim that fails", "config 1 4 1\ns: space\nm: map s 0x10 w\nrace\nunmap s 0x10\nnever look m => free\n");
    TEXT("large numbers", "config 1 4 1\nlook 18446744073709551615\nlook 18446744073709551616\n");
    with_long_text("3000 lines", "config 1 4 1\n", "space\n", 3000);
    with_long_text("a byte too many", "", "#", 1048577);
    with_long_text("a line too many", "", "\n", 65537);
    for (int i = 0; i < COMMANDS; i++)
        with_bad_arguments(&commands[i]);
    with_threads();
    printf("%ld calls, %ld wrong\n", tried, wrong);
    return wrong == 0 && tried > 1000 ? 0 : 1;
}
