/*
 * svahost_record.h: a test of a driver writes down what the driver does, as a text for `svahost judge`.
 *
 * A unit test of a driver (KUnit, QEMU's, one in user space) calls these functions where its stubs stand for hardware
 * and memory. Each act of the driver becomes a line of a driver text (docs/DRIVERS.md, section 15), with a comment
 * `# at FILE:LINE`. `svahost judge` then tries what device, link and unit may do beside these lines, in each order:
 *
 *     static struct svahost_record_item items[512];
 *     static struct svahost_record rec;
 *
 *     svahost_record_begin(&rec, items, 512);
 *     svahost_record_setting(&rec, "platform vt-d");
 *     .. what is there before: svahost_record_pte, _entry, _start, _started ..
 *     svahost_record_race(&rec);
 *     .. the driver runs, and its stubs record ..
 *     svahost_record_write(&rec, put, to);         (`put` gets the text piece by piece)
 *
 * and in the stubs
 *
 *     svahost_record_pte_none(svahost_record_here(&rec), mm, address >> 12);
 *     svahost_record_queue_vtd(&rec, descriptor->qw0, descriptor->qw1);      (for each descriptor of a batch)
 *     svahost_record_submit(svahost_record_here(&rec), device);              (once behind them)
 *     svahost_record_await_wait(svahost_record_here(&rec), device);          (where the wait's status was seen)
 *     svahost_record_free(svahost_record_here(&rec), pfn);                   (where the frame may get another owner)
 *
 * examples/embed/recorder has a whole one.
 *
 *
 * What a recording is
 *
 * - It is one path: what the driver did in this run. A branch that wasn't taken is for another test.
 * - Acts are in order within a thread (svahost_record_thread). In which order those of two threads came isn't kept
 *   behind svahost_record_race: `svahost judge` tries all. What keeps one thread behind another has to be recorded:
 *   svahost_record_lock, svahost_record_mark.
 * - Only what is recorded is judged. A page that is cleared, or a frame that is given back, without a call isn't there.
 * - `svahost judge` takes the comments `# at FILE:LINE` for comments. A witness names lines of the text, by number; the
 *   line of the driver stands there.
 *
 * The driver's own values (pointers, PASIDs, page frame numbers) become the small numbers of the language, in the order
 * in which they are first named: endpoints, spaces and frames from 0 on, PASIDs from 1 on. PASID 0 stays 0: it stands
 * for requests without a PASID. Comments at the head say which number is which. Pages stay what they are, in
 * hexadecimal.
 *
 *
 * Memory, errors
 *
 * The items are the caller's, and there is no other memory: nothing is allocated. An act takes one item, and so does
 * each descriptor, setting, name, thread, and each endpoint, space, PASID, frame and lock where it is first named.
 * Strings aren't copied: they have to be there until the text is written. A call looks through the items: time grows
 * with the square of their number.
 *
 * No call fails. What can't be recorded makes the recording NOT WHOLE, from then on and for good: svahost_record_fault
 * says why, and what is written has a line `not whole: WHY (FILE:LINE)` that `svahost judge` refuses, and all else in
 * comments. So a part of a recording is never judged as if it were all of it. Such is
 *
 * - one item more than there is room for;
 * - more than 8 endpoints, 64 spaces, 32 PASIDs beside 0, 4096 frames or locks, 255 threads beside host;
 * - a PASID above 2^20 - 1, a page above 2^36 - 1, a group above 511;
 * - a range of more than 2^9 pages, unless it is of all pages below 2^36;
 * - a submit of more than 64 descriptors, or of none; descriptors that are never submitted;
 * - a descriptor that can't be decoded: below.
 *
 * There is no lock: calls from several threads need one of the test's. All functions are static inline, in C99, gnu11
 * and C++11, and need no library. Compilers put calls of memset where they like, as of all code.
 *
 * In svahost_record/acts.h and svahost_record/queue.h, which have the acts, `r` is the recording; `device`, `space` and
 * `lock` are pointers by which the test tells these apart, and what they point to is never looked at; `pasid` is the
 * driver's PASID, 0 to 2^20 - 1; `page` the number of a page of 4096 bytes, that is its address divided by 4096, 0 to
 * 2^36 - 1; `frame` any number that tells frames apart, as a page frame number. What an act means is said in
 * docs/DRIVERS.md, section 15.
 */
#ifndef SVAHOST_RECORD_H
#define SVAHOST_RECORD_H

#include "svahost_record/items.h"
#include "svahost_record/acts.h"
#include "svahost_record/queue.h"
#include "svahost_record/text.h"

#ifdef __cplusplus
extern "C" {
#endif

/* ---- the recording ---- */

/* Begins a recording in these items, `room` of them. What was in either is gone. */
static inline void svahost_record_begin(struct svahost_record *r, struct svahost_record_item *items, size_t room)
{
    unsigned k;
    r->items = items;
    r->room = room;
    r->used = 0;
    r->file = r->fault = r->fault_file = 0;
    r->line = r->fault_line = 0;
    for (k = 0; k < 5; k++)
        r->counts[k] = 0;
    r->threads = r->thread = r->marks = r->races = 0;
}

/*
 * What is recorded from here on stands at this line of this file, up to the next such call. `file` may be null: then no
 * line is told. It gives `r`. A stub may be called by a macro that tells the line of its caller:
 *
 *     #define flush_page(..) (svahost_record_at(&rec, __FILE__, __LINE__), flush_page(..))
 */
static inline struct svahost_record *svahost_record_at(struct svahost_record *r, const char *file, unsigned line)
{
    r->file = file;
    r->line = line;
    return r;
}

/* The same of the line where it stands. */
#define svahost_record_here(r) svahost_record_at((r), __FILE__, (unsigned)__LINE__)

/*
 * A setting, or a line `workers CODE ..`, in the words of the language, as "platform vt-d" or "stopped status".
 * Settings stand in the text in the order of these calls, ahead of all acts. Without one the settings are the
 * language's. What is no setting `svahost judge` refuses.
 */
static inline void svahost_record_setting(struct svahost_record *r, const char *words)
{
    svahost_record_x_item(r, SVAHOST_RECORD_X_SETTING, words);
}

/*
 * What the device may do by itself: the words behind `device E`, as "3 asks 1 uses 1 faults awaits". The last call for
 * a device holds. Without one it is "3 asks 1 uses".
 */
static inline void svahost_record_device(struct svahost_record *r, const void *device, const char *parts)
{
    const uint64_t number = svahost_record_x_number(r, SVAHOST_RECORD_X_ENDPOINT, svahost_record_x_of(device));
    struct svahost_record_item *it = svahost_record_x_item(r, SVAHOST_RECORD_X_PARTS, parts);
    if (it)
        it->value[0] = number;
}

/* What the head calls a device, a space or a lock. Without it the head has its address, another in each run. */
static inline void svahost_record_called(struct svahost_record *r, const void *thing, const char *name)
{
    struct svahost_record_item *it = svahost_record_x_item(r, SVAHOST_RECORD_X_CALLED, name);
    if (it)
        it->value[0] = svahost_record_x_of(thing);
}

/*
 * The device's requester ID (bus, device and function, 16 bits). With it each descriptor of Intel VT-d for a device-TLB
 * that is submitted at the device has to be of this ID; else the recording isn't whole. Without it none is compared.
 */
static inline void svahost_record_requester(struct svahost_record *r, const void *device, unsigned id)
{
    const uint64_t number = svahost_record_x_number(r, SVAHOST_RECORD_X_ENDPOINT, svahost_record_x_of(device));
    struct svahost_record_item *it = svahost_record_x_item(r, SVAHOST_RECORD_X_REQUESTER, 0);
    if (it) {
        it->value[0] = number;
        it->value[1] = id;
    }
}

/*
 * The space's domain ID (16 bits). With it each PASID-cache and PASID-based IOTLB descriptor of Intel VT-d has to be of
 * the domain of a space that its PASID led to, now or earlier in the recording; else the recording isn't whole. Where
 * the PASID led to a space whose domain ID wasn't told, none is compared.
 */
static inline void svahost_record_domain(struct svahost_record *r, const void *space, unsigned id)
{
    const uint64_t number = svahost_record_x_number(r, SVAHOST_RECORD_X_SPACE, svahost_record_x_of(space));
    struct svahost_record_item *it = svahost_record_x_item(r, SVAHOST_RECORD_X_DOMAIN, 0);
    if (it) {
        it->value[0] = number;
        it->value[1] = id;
    }
}

/*
 * From here on the order is open: what was recorded before is done once, in order. To be called once; the language
 * refuses a second `race`. A text without it is for `svahost judge --run` alone.
 */
static inline void svahost_record_race(struct svahost_record *r)
{
    svahost_record_x_item(r, SVAHOST_RECORD_X_RACE, 0);
    r->races = 1;
}

/*
 * What is recorded from here on is of the thread of this name: a CPU, a work item. It is a small letter, then letters,
 * digits, - and _; the language refuses others, and its own words. At first it is "host". Before svahost_record_race
 * all is one thread, whatever it is called, but descriptors still are of the thread that queues them.
 */
static inline void svahost_record_thread(struct svahost_record *r, const char *name)
{
    static const char host[] = "host";
    struct svahost_record_item *it;
    const char *other = host;
    unsigned thread = 0;
    size_t n, k;
    for (n = 0;; n++) {
        for (k = 0; name[k] && name[k] == other[k]; k++)
            ;
        if (name[k] == other[k]) {
            r->thread = thread;
            return;
        }
        while (n < r->used && r->items[n].sort != SVAHOST_RECORD_X_THREAD)
            n++;
        if (n == r->used)
            break;
        other = r->items[n].text;
        thread = (unsigned)r->items[n].value[0];
    }
    if (r->threads == 255) {
        svahost_record_x_fail(r, "more than 255 threads beside host");
        return;
    }
    it = svahost_record_x_item(r, SVAHOST_RECORD_X_THREAD, name);
    if (!it)
        return;
    it->value[0] = ++r->threads;
    r->thread = r->threads;
}


/* ---- the text ---- */

/* Null where the recording is whole; else why it isn't, in words: the first reason that there was. */
static inline const char *svahost_record_fault(const struct svahost_record *r)
{
    size_t n, later;
    if (r->fault)
        return r->fault;
    for (n = 0; n < r->used; n++) {
        if (r->items[n].sort != SVAHOST_RECORD_X_DESCRIPTOR)
            continue;
        for (later = n + 1; later < r->used; later++)
            if (r->items[later].sort == SVAHOST_RECORD_X_SUBMIT && r->items[later].thread == r->items[n].thread)
                break;
        if (later == r->used)
            return "descriptors that are never submitted";
    }
    return 0;
}

/*
 * Writes the text, piece by piece, in order. It gives 0; or -1 where the recording isn't whole: then the text has one
 * line that isn't a comment, and `svahost judge` refuses it. The recording stays as it is, and may go on.
 */
static inline int svahost_record_write(const struct svahost_record *r, svahost_record_put *put, void *to)
{
    const char *const fault = svahost_record_fault(r);
    struct svahost_record_x_out out;
    out.put = put;
    out.to = to;
    out.is_comment = 0;
    svahost_record_x_say(&out, "# recorded by svahost_record.h");
    put(to, "\n", 1);
    if (fault) {
        svahost_record_x_say(&out, "not whole: ");
        svahost_record_x_say(&out, fault);
        svahost_record_x_place(&out, " (", r->fault_file, r->fault_line);
        if (r->fault_file)
            put(to, ")", 1);
        put(to, "\n", 1);
        out.is_comment = 1;
    }
    svahost_record_x_head(&out, r);
    svahost_record_x_world(&out, r);
    svahost_record_x_acts(&out, r);
    return fault ? -1 : 0;
}

/*
 * Writes the text into a buffer of `room` bytes, as many as fit, and gives the length of the whole text. No NUL is put
 * behind it. `text` may be null where `room` is 0. Where the length is above `room`, or svahost_record_fault isn't
 * null, what stands there is not to be judged.
 */
static inline size_t svahost_record_text(const struct svahost_record *r, char *text, size_t room)
{
    struct svahost_record_x_room into;
    into.text = text;
    into.room = room;
    into.used = 0;
    svahost_record_write(r, svahost_record_x_into, &into);
    return into.used;
}

#ifdef __cplusplus
}
#endif

#endif
