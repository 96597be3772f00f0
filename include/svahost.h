/*
 * svahost.h: svahost as a library, for C, C++ and whatever calls C.
 *
 * svahost judges in which order a driver may give frames and PASIDs to new owners, and runs scenarios of a host for
 * shared virtual addressing: PCI Express ATS, PRI and PASIDs, with the invalidations and page requests of Intel VT-d.
 * docs/FORMAT.md describes scenarios, scripts, races, drivers and reports, and docs/EMBEDDING.md this library, with what
 * is proved of it.
 *
 *     static const char scenario[] = "config 1 4 1\nspace\nmap 0 16 w\n";
 *     char report[4096];
 *     size_t length;
 *     if (svahost_replay(scenario, sizeof scenario - 1, report, sizeof report, &length) == SVAHOST_DONE)
 *         fwrite(report, 1, length, stdout);
 *
 * prints
 *
 *     space 0
 *     frame 0
 *     free 3 mapped 1 withheld 0
 *
 * Build with `pkg-config --cflags --libs svahost`.
 *
 *
 * What each function does
 *
 * Eight functions take a text and give a report, each as a command of the program does: svahost_replay, svahost_check,
 * svahost_test, svahost_plain, svahost_show, svahost_judge, svahost_run (`judge --run`) and svahost_explore. All have the
 * same parameters and statuses; those of svahost_judge and svahost_explore, which search, have one more.
 *
 *     text, length   The text, of `length` bytes. It is read, and never written. Any bytes may stand in it: it is no C
 *                    string, needs no NUL at its end, and need not be UTF-8. A byte that is out of place is a fault of
 *                    its line, of which the report tells, and the status is SVAHOST_FAULTED. A text of more than
 *                    1,048,576 bytes or 65,536 lines is told as such, and nothing of it is run.
 *     most           Of svahost_judge and svahost_explore alone: how many moments are looked at, at most, but for the first,
 *                    which is looked at in any case. The program takes 1,000,000 if nothing else is said.
 *     report, room   The buffer for the report, of `room` bytes. `room` may be 0.
 *     needed         Takes the length of the whole report, in bytes. It may be null.
 *
 * `text` may be null where `length` is 0, and `report` where `room` is 0. None of the three may overlap another.
 *
 * The report is bytes: lines, each ended by LF. NO NUL IS PUT BEHIND IT.
 *
 *     Status                  `*needed`                   The buffer
 *     SVAHOST_DONE            length of the report,       the report; bytes behind it are as they were
 *     SVAHOST_FAULTED           at most `room`
 *     SVAHOST_FAILS
 *     SVAHOST_CUT_OFF
 *     SVAHOST_TOO_SMALL       length of the report,       the first `room` bytes of the report
 *                               more than `room`
 *     SVAHOST_NO_MEMORY       0                           as it was
 *     SVAHOST_BAD_ARGUMENT    0                           as it was
 *
 * After SVAHOST_TOO_SMALL call again, with the same text and a buffer of `*needed` bytes: the same text always gives
 * the same report. Whether the run ended well is told by that second call alone. As a first try take 64 bytes for each
 * line of the text, and 4096 for each search, which the second call would repeat; no bound is promised.
 *
 * A step that is refused is no fault: its line of the report says `refused N Name`, the run goes on, and the status is
 * SVAHOST_DONE.
 *
 *
 * Memory, threads, time
 *
 * - A call keeps nothing. It has no global state, and gives back all that it allocates before it returns. It opens
 *   no file, reads no clock, and writes to no stream.
 * - So calls on several threads at once are allowed, each with a report of its own. They may share a text, as long as
 *   nobody writes to it.
 * - Memory comes from the C library's malloc, realloc and free. Where one of them refuses, the status is
 *   SVAHOST_NO_MEMORY. A program that puts its own malloc in their place has to replace all three together, and to
 *   align a block to each power of two up to 16 that divides its size.
 * - No call from a signal handler, nor in the child of fork() where the parent had several threads: malloc isn't safe
 *   there.
 * - A call takes up to three quarters of a MiB of stack: give a thread that calls one MiB or more.
 * - A call starts no thread, takes no lock and doesn't wait. How long it takes grows with the text, and no bound of it
 *   is promised. A search takes time and memory for each moment, up to `most`: of a driver 2 to 3 KB, of a
 *   race 12 to 44.
 * - The library is for x86-64 Linux with glibc. It needs a processor of the level x86-64-v2 (SSE4.2 and POPCNT, say),
 *   and doesn't look whether it has one.
 *
 *
 * Units and ranges
 *
 * Lengths and rooms are bytes, up to PTRDIFF_MAX. Within a text: a page is 4096 bytes and is named by its number, that
 * is its address divided by 4096, below 2^36. A PASID is 1 to 32. Endpoints, frames, workers, spaces, bindings and
 * messages are numbered from 0. A scenario has 1 to 8 endpoints, 1 to 4096 frames and 1 to 4 workers. No number in a
 * text is an address of your process: svahost never looks at memory that isn't in the two buffers.
 */
#ifndef SVAHOST_H
#define SVAHOST_H

#include <stddef.h>
#include <stdint.h>

#ifdef __cplusplus
extern "C" {
#endif

/* How a call ended. The numbers stay. A later version may add further ones: take what you don't know for a failure. */
enum svahost_status {
    /* The report is whole. The steps were run, refused ones too; of svahost_test, each answer was as expected; of
       svahost_judge, each moment is safe, and no line waits for ever; of svahost_run, nothing is wrong behind any line,
       which says nothing of other orders; of svahost_explore, all claims hold. */
    SVAHOST_DONE = 0,
    /* The report is whole, and tells what is wrong: a line that can't be read, a config out of its limits, or, of
       svahost_test, an answer that isn't as expected. */
    SVAHOST_FAULTED = 1,
    /* The report has more bytes than the buffer: the front of it is there, and `*needed` says how many it has. */
    SVAHOST_TOO_SMALL = 2,
    /* Memory ran out. Nothing is told of the text. */
    SVAHOST_NO_MEMORY = 3,
    /* A null pointer with a length that isn't 0, a length above PTRDIFF_MAX, or a text and a report that overlap.
       Nothing was read or written but `*needed`. The inline functions below give it, and the library itself doesn't. */
    SVAHOST_BAD_ARGUMENT = 4,
    /* The report is whole. Of svahost_judge: the order is unsafe, or a line waits for ever. Of svahost_run: a moment is
       unsafe. Of svahost_explore: a claim fails. */
    SVAHOST_FAILS = 5,
    /* The report is whole, but the search was not: `most` moments were looked at, and nothing unsafe was found, or no
       claim fails and one is unknown. */
    SVAHOST_CUT_OFF = 6
};

/*
 * The functions of the library itself, which are proved. They can't test what they are handed; the inline ones below
 * do. From a language that doesn't read this header call these, and see to it that
 *
 * - no pointer is null, not even with a length of 0: pass the address of any byte;
 * - `text` leads to `length` readable bytes, `report` to `room` writable ones, `needed` to a size_t that is aligned;
 * - these three don't overlap, and nobody else writes to them, or reads `report` or `needed`, before the call returns.
 *
 * They give all statuses but SVAHOST_BAD_ARGUMENT.
 */
uint32_t sva_c_replay(const uint8_t *text, size_t length, uint8_t *report, size_t room, size_t *needed);
uint32_t sva_c_check(const uint8_t *text, size_t length, uint8_t *report, size_t room, size_t *needed);
uint32_t sva_c_test(const uint8_t *text, size_t length, uint8_t *report, size_t room, size_t *needed);
uint32_t sva_c_plain(const uint8_t *text, size_t length, uint8_t *report, size_t room, size_t *needed);
uint32_t sva_c_show(const uint8_t *text, size_t length, uint8_t *report, size_t room, size_t *needed);
uint32_t sva_c_run(const uint8_t *text, size_t length, uint8_t *report, size_t room, size_t *needed);
uint32_t sva_c_judge(const uint8_t *text, size_t length, uint64_t most, uint8_t *report, size_t room, size_t *needed);
uint32_t sva_c_explore(const uint8_t *text, size_t length, uint64_t most, uint8_t *report, size_t room,
                       size_t *needed);

typedef uint32_t svahost_function(const uint8_t *text, size_t length, uint8_t *report, size_t room, size_t *needed);
typedef uint32_t svahost_search(const uint8_t *text, size_t length, uint64_t most, uint8_t *report, size_t room,
                                size_t *needed);

/*
 * Tests the arguments, and calls the one of `call` and `search` that isn't null. Where a length is 0 the library gets
 * the address of a byte of this function itself.
 */
static inline enum svahost_status svahost_call(svahost_function *call, svahost_search *search, const void *text,
                                               size_t length, uint64_t most, void *report, size_t room, size_t *needed)
{
    uint8_t none[1] = {0}, nowhere[1] = {0};
    const uint8_t *from = length == 0 ? none : (const uint8_t *)text;
    uint8_t *to = room == 0 ? nowhere : (uint8_t *)report;
    size_t whole = 0;
    uint32_t status = SVAHOST_BAD_ARGUMENT;
    if (from != NULL && to != NULL && length <= PTRDIFF_MAX && room <= PTRDIFF_MAX) {
        uintptr_t begin = (uintptr_t)from, place = (uintptr_t)to;
        if (place >= begin ? place - begin >= length : begin - place >= room)
            status = call != NULL ? call(from, length, to, room, &whole) : search(from, length, most, to, room, &whole);
    }
    if (needed != NULL)
        *needed = whole;
    return (enum svahost_status)status;
}

/*
 * Runs a scenario. The report has a line for each step, its answer or `refused N Name`, and last the counts
 * `free X mapped Y withheld Z`. SVAHOST_FAULTED: it is `line L Cause` or `refused 1 BadConfig` alone, and no step was
 * run.
 */
static inline enum svahost_status svahost_replay(const void *text, size_t length, void *report, size_t room,
                                                 size_t *needed)
{
    return svahost_call(sva_c_replay, NULL, text, length, 0, report, room, needed);
}

/*
 * Counts the steps of a scenario, and runs none. The report is `steps K`. The limits of the config aren't asked.
 * SVAHOST_FAULTED: it is `line L Cause`.
 */
static inline enum svahost_status svahost_check(const void *text, size_t length, void *report, size_t room,
                                                size_t *needed)
{
    return svahost_call(sva_c_check, NULL, text, length, 0, report, room, needed);
}

/*
 * Runs a script, and compares each answer with what it expects. SVAHOST_DONE: the report is `N answers as expected`.
 * SVAHOST_FAULTED: it is the first answer that isn't, as `line 6: unmap 0 16: expected 'free 0', answered 'withheld
 * 0'`, and in lines below, which begin with four spaces, what holds its step back; or what is wrong with the script. For
 * a test this is the function to take.
 */
static inline enum svahost_status svahost_test(const void *text, size_t length, void *report, size_t room,
                                               size_t *needed)
{
    return svahost_call(sva_c_test, NULL, text, length, 0, report, room, needed);
}

/*
 * Writes the scenario that a script stands for, with all numbers: what svahost_replay takes. Each scenario is a script.
 * SVAHOST_FAULTED: the report tells what is wrong with the script.
 */
static inline enum svahost_status svahost_plain(const void *text, size_t length, void *report, size_t room,
                                                size_t *needed)
{
    return svahost_call(sva_c_plain, NULL, text, length, 0, report, room, needed);
}

/*
 * Runs a script, and writes what the host keeps behind its last line: a line for each space, withheld frame, binding,
 * held translation, running use, queued descriptor, ITag, page request, job and message in flight, and last the counts.
 * No answer is compared. SVAHOST_FAULTED: the report tells what is wrong with the script.
 */
static inline enum svahost_status svahost_show(const void *text, size_t length, void *report, size_t room,
                                               size_t *needed)
{
    return svahost_call(sva_c_show, NULL, text, length, 0, report, room, needed);
}

/*
 * Judges a driver: is its order of acts safe in every order of what link, units, workers and endpoints do beside it?
 * SVAHOST_DONE: the report begins with `safe in all N moments`. SVAHOST_FAILS: it begins with `unsafe in N events: ..`
 * or `stuck in N events: ..`, and has a shortest list of events to that place, which svahost_run takes once the first
 * line is gone; or it is `unsafe at line L: ..` alone, of the first line before `race` behind which something is wrong.
 * SVAHOST_CUT_OFF: it begins with `cut off at N moments`. SVAHOST_FAULTED: the report tells what is wrong
 * with the driver's lines.
 */
static inline enum svahost_status svahost_judge(const void *text, size_t length, uint64_t most, void *report,
                                                size_t room, size_t *needed)
{
    return svahost_call(NULL, sva_c_judge, text, length, most, report, room, needed);
}

/*
 * Takes the lines of a driver one by one, in the order in which they stand, without a search: for a list of events that
 * a model under test has logged. SVAHOST_DONE: the report is `nothing wrong in any of N events`, and where the text has
 * a `race` behind that `; the orders behind race were not searched`: only svahost_judge says that a driver is safe.
 * SVAHOST_FAILS: it is `unsafe at line L: ..`, of the first moment that isn't safe. SVAHOST_FAULTED: the report tells
 * what is wrong with the lines, or which isn't permitted where it stands.
 */
static inline enum svahost_status svahost_run(const void *text, size_t length, void *report, size_t room,
                                              size_t *needed)
{
    return svahost_call(sva_c_run, NULL, text, length, 0, report, room, needed);
}

/*
 * Follows every permitted order of a race. The report says what its ends come to, of each claim whether it holds, and has
 * shortest witnesses, as scenarios that svahost_replay takes. SVAHOST_FAILS: a claim fails. SVAHOST_CUT_OFF: none was
 * found to fail, and one is unknown. SVAHOST_FAULTED: the report tells what is wrong with the race.
 */
static inline enum svahost_status svahost_explore(const void *text, size_t length, uint64_t most, void *report,
                                                  size_t room, size_t *needed)
{
    return svahost_call(NULL, sva_c_explore, text, length, most, report, room, needed);
}

#ifdef __cplusplus
}
#endif

#endif /* SVAHOST_H */
