/*
 * Tries include/svahost_record.h. Built and run by scripts/recorder, which also has wrong versions of the header found. It
 * prints a line for each thing that is wrong, and last how much was tried; the status is 0 where nothing was wrong.
 *     recorder           all that is below; each text that is wanted was worked out from the header's words
 *     recorder every     the text of a recording that has each act
 *     recorder full      the text of one that isn't whole
 *     recorder decode    of each line of standard input, QW0 QW1 in hexadecimal, what is submitted, or why it isn't whole
 */
#include <inttypes.h>
#include <stdio.h>
#include <string.h>
#include <svahost_record.h>

static struct svahost_record_item items[9000];
static struct svahost_record rec, *const r = &rec;
static char text[300000];
static int tried, wrong;
static const char device[9], space[65], lock[2];
static const uint64_t pages = 0x7f3a1c2d4;

static void put(void *to, const char *bytes, size_t length) { fwrite(bytes, 1, length, (FILE *)to); }

static void begin(void) { svahost_record_begin(r, items, sizeof items / sizeof *items); }

static void check(const char *what, int is_right, const char *told)
{
    tried++;
    if (is_right)
        return;
    wrong++;
    printf("recorder: %s: %s\n", what, told);
}

/* The text, with a NUL behind it. */
static const char *written(void)
{
    const size_t length = svahost_record_text(r, text, sizeof text - 1);
    text[length < sizeof text ? length : sizeof text - 1] = 0;
    return text;
}

/* The recording is whole, and its text has this behind the first line. */
static void wants(const char *what, const char *wanted)
{
    const char *const found = strchr(written(), '\n') + 1;
    check(what, !svahost_record_fault(r) && !strcmp(found, wanted), text);
}

/* The recording is whole, and this is a part of its text. */
static void has(const char *what, const char *part)
{
    check(what, !svahost_record_fault(r) && strstr(written(), part), text);
}

static void nothing(void *to, const char *bytes, size_t length) { (void)to, (void)bytes, (void)length; }

/* The recording isn't whole, for this reason, and its text has one line that isn't a comment: the second. */
static void fails(const char *what, const char *why)
{
    const char *at = written();
    int lines = 0, others = 0;
    for (; *at; at = strchr(at, '\n') + 1, lines++)
        if (*at != '#')
            others += lines == 1 && !strncmp(at, "not whole: ", 11) && !strncmp(at + 11, why, strlen(why)) ? 1 : 100;
    check(what, svahost_record_fault(r) && !strcmp(svahost_record_fault(r), why) && others == 1, text);
    check(what, svahost_record_write(r, nothing, 0) == -1, "it is written as if it were whole");
}

/* What is submitted of a descriptor of PASID 0x12345, or what the recording fails for. */
static void decodes(uint64_t qw0, uint64_t qw1, const char *wanted)
{
    char what[100], line[200];
    begin();
    svahost_record_queue_vtd(r, qw0, qw1);
    svahost_record_submit(r, device);
    sprintf(what, "the descriptor %" PRIx64 " %" PRIx64, qw0, qw1);
    sprintf(line, "\nsubmit 0 %s\n", wanted);
    if (strchr("abcdefghijklmnopqrstuvwxyz", *wanted) && strncmp(wanted, "a ", 2))
        has(what, line);
    else
        fails(what, wanted);
}

#define OTHER "a descriptor that Intel VT-d doesn't have: its kind, or a reserved bit"
#define LARGE "a range of more than 2^9 pages that isn't all pages"

static void try_units(void)
{
    const uint64_t of = (uint64_t)0x12345 << 32 | (uint64_t)0xabcd << 16, at = pages << 12;
    decodes(of | 0x17, 0, "entry 1");
    has("its PASID", "\n# PASID 1 is 0x12345\n");
    decodes(of | 0x07, 0, "a PASID-cache invalidation of more than one PASID");
    decodes(of | 0x37, 0, "a PASID-cache invalidation of more than one PASID");
    decodes(of | 0x27, 0, OTHER);
    decodes(of | 0x17, 1, OTHER);
    decodes(of | 0x57, 0, OTHER);
    decodes(of | 0x26, at, "iotlb 1");
    decodes(of | 0x36, at, "iotlb 1 0x7f3a1c2d4 0");
    decodes(of | 0x36, at | 0x40 | 3, "iotlb 1 0x7f3a1c2d0 3");
    decodes(of | 0x36, at | 9, "iotlb 1 0x7f3a1c200 9");
    decodes(of | 0x36, at | 10, LARGE);
    decodes(of | 0x36, at | 35, LARGE);
    decodes(of | 0x36, at | 36, "iotlb 1");
    decodes(of | 0x36, at | 63, "iotlb 1");
    decodes(of | 0x36, (uint64_t)1 << 48 | 36, LARGE);
    decodes(of | 0x36, (uint64_t)1 << 48, "a page above 2^36 - 1");
    decodes(of | 0x36, ((uint64_t)1 << 48) - 0x1000, "iotlb 1 0xfffffffff 0");
    decodes(of | 0x16, at, OTHER);
    decodes(of | 0x06, at, OTHER);
    decodes(of | 0x36, at | 0x80, OTHER);
    decodes(of | (uint64_t)1 << 52 | 0x36, at, OTHER);
    decodes(0x25 | (uint64_t)0xfeed << 32, 0x1000, "wait");
    decodes(0xa5, 0x1000, "wait drain");
    decodes(0x65, 0x1000, "wait fence");
    decodes(0xf5, 0x1000, "wait drain fence");
    decodes(0x125, 0x1000, OTHER);
    decodes(0x25, 0x1001, OTHER);
    decodes(0x225, 0x1000, OTHER);
    decodes(of | 0x20, 0, OTHER);
    decodes(0x01, 0, OTHER);
    decodes(0x02, 0, OTHER);
    decodes(of | 0x2a, 0, OTHER);
    decodes(of | 0x09, 0, "a page group response is queued: svahost_record_respond is for it");
}

static void try_devices(void)
{
    const uint64_t of = (uint64_t)0x12345 << 32 | 0xabcd0000 | 8, at = pages << 12;
    decodes(of, at, "range 1 0x7f3a1c2d4 0");
    decodes(of | (uint64_t)0xfff << 52 | 0xf1f0, at, "range 1 0x7f3a1c2d4 0");
    decodes(of, at | 0x800, "range 1 0x7f3a1c2d4 1");
    decodes(of, at + 0x1000, "range 1 0x7f3a1c2d5 0");
    decodes(of, (at + 0x1000) | 0x800, "range 1 0x7f3a1c2d4 2");
    decodes(of, (uint64_t)0x7f3a1c2ff << 12 | 0x800, "range 1 0x7f3a1c200 9");
    decodes(of, (uint64_t)0x7f3a1c1ff << 12 | 0x800, LARGE);
    decodes(of, 0x7ffffffffffff800, "pasid 1");
    decodes(of, ((uint64_t)1 << 47) - 0x800, "pasid 1");
    decodes(of, ((uint64_t)1 << 46) - 0x800, LARGE);
    decodes(of, (uint64_t)1 << 48 | (((uint64_t)1 << 47) - 0x800), LARGE);
    decodes(of, 0xfffffffffffff800, "a device-TLB invalidation whose address has no zero to say its size");
    decodes(of, at | 1, "a device-TLB invalidation of all PASIDs");
    decodes(of, at | 0x400, OTHER);
    decodes(of | 0x200, at, OTHER);
    decodes((uint64_t)0xabcd << 32 | 3, at, "range 0 0x7f3a1c2d4 0");
    decodes((uint64_t)0xabcd << 32 | 3, at | 1, "range 0 0x7f3a1c2d4 1");
    decodes((uint64_t)0xabcd << 32 | 3, 0x7ffffffffffff001, "pasid 0");
    decodes((uint64_t)0xabcd << 32 | 3, at | 0x800, OTHER);
    begin();
    svahost_record_queue_vtd4(r, of, at, 0, 0);
    svahost_record_submit(r, device);
    has("four words", "\nsubmit 0 range 1 0x7f3a1c2d4 0\n");
    svahost_record_queue_vtd4(r, of, at, 1, 0);
    fails("the third word", OTHER);
    begin();
    svahost_record_queue_vtd4(r, of, at, 0, 1);
    fails("the fourth word", OTHER);
}

/* Each act, in an order that the language permits for reading. */
static void every(void)
{
    begin();
    svahost_record_setting(r, "platform vt-d");
    svahost_record_setting(r, "workers success");
    svahost_record_called(r, device, "first");
    svahost_record_called(r, space, "mm");
    svahost_record_called(r, lock, "mutex");
    svahost_record_called(r, space + 1, "mm\n2");
    svahost_record_device(r, device, "1 asks");
    svahost_record_device(r, device, "2 asks 1 uses 1 faults awaits");
    svahost_record_pte(r, space, pages, 0x10feed, 1);
    svahost_record_pte(r, space, 0xfffffffff, 0x10feee, 0);
    svahost_record_entry(r, device, 0x2001, space);
    svahost_record_entry(r, device, 0, space);
    svahost_record_start(r, device, 0x2001);
    svahost_record_started(r, device);
    svahost_record_race(r);
    svahost_record_lock(r, lock);
    svahost_record_replace(r, device, 0x2001, space + 1);
    svahost_record_entry_none(r, device, 0x2001);
    svahost_record_pte_none(r, space, pages);
    svahost_record_queue_entry(r, 0x2001);
    svahost_record_queue_iotlb(r, 0x2001);
    svahost_record_queue_iotlb_range(r, 0x2001, pages + 1, 1);
    svahost_record_queue_pasid(r, 0xfffff);
    svahost_record_queue_range(r, 0x2001, pages + 3, 9);
    svahost_record_queue_range(r, 0x2001, pages, 36);
    svahost_record_queue_wait(r, 1, 1);
    svahost_record_submit(r, device);
    svahost_record_await_wait(r, device);
    svahost_record_freeze(r, 0x10feed);
    svahost_record_free(r, 0x10feee);
    svahost_record_free_pasid(r, device, 0x2001);
    svahost_record_free_space(r, space);
    svahost_record_free_domain(r, space + 1);
    svahost_record_unlock(r, lock);
    svahost_record_mark(r, space + 2);
    svahost_record_mark(r, space + 2);
    svahost_record_thread(r, "worker");
    svahost_record_await_mark(r, space + 2);
    svahost_record_stop(r, device, 0x2001);
    svahost_record_await_stopped(r, device, 0x2001);
    svahost_record_reset(r, device);
    svahost_record_await_reset(r, device);
    svahost_record_ats(r, device, 1);
    svahost_record_ats(r, device, 0);
    svahost_record_pri(r, device, 1);
    svahost_record_pri(r, device, 0);
    svahost_record_mastering(r, device, 1);
    svahost_record_mastering(r, device, 0);
    svahost_record_await_idle(r, device);
    svahost_record_gone(r, device);
    svahost_record_await_gone(r, device);
    svahost_record_close(r, device);
    svahost_record_open(r, device);
    svahost_record_skip(r, device);
    svahost_record_resume(r, device);
    svahost_record_serve(r, device);
    svahost_record_respond(r, device, 0x2001, 511, SVAHOST_RECORD_SUCCESS);
    svahost_record_respond(r, device, 0, 0, SVAHOST_RECORD_INVALID);
    svahost_record_respond_all(r, device, SVAHOST_RECORD_FAILURE);
    svahost_record_respond_all_of(r, device, 0x2001, SVAHOST_RECORD_INVALID);
    svahost_record_discard(r, device);
    svahost_record_discard_of(r, device, 0x2001);
    svahost_record_await_queue(r, device);
    svahost_record_await_queue_of(r, device, 0x2001);
    svahost_record_await_groups(r, device);
    svahost_record_await_groups_of(r, device, 0x2001);
}

static void try_every(void)
{
    every();
    wants("each act",
          "# endpoint 0 is first\n# space 0 is mm\n# space 1 is mm?2\n# PASID 1 is 0x2001\n# PASID 2 is 0xfffff\n"
          "# frame 0 is 0x10feed\n# frame 1 is 0x10feee\n# lock-0 is mutex\n"
          "config 1 2 1\nplatform vt-d\nworkers success\ndevice 0 2 asks 1 uses 1 faults awaits\n"
          "pte 0 0x7f3a1c2d4 0 w\npte 0 0xfffffffff 1 r\nentry 0 1 0\nentry 0 0 0\nstart 0 1\ndeliver start 0\nrace\n"
          "lock lock-0\nreplace 0 1 1\nentry 0 1 none\npte 0 0x7f3a1c2d4 none\n"
          "submit 0 entry 1 + iotlb 1 + iotlb 1 0x7f3a1c2d4 1 + pasid 2 + range 1 0x7f3a1c200 9 + pasid 1 + wait drain fence\n"
          "await wait 0\nfreeze 0\nfree 1\nfree pasid 1 0\nfree space 0\nfree domain 1\nunlock lock-0\n"
          "mark-0: mark\nmark-1: mark\nthread worker\nawait mark-1\nstop 0 1\nawait stopped 0 1\nreset 0\nawait reset 0\n"
          "ats 0 on\nats 0 off\npri 0 on\npri 0 off\nmastering 0 on\nmastering 0 off\nawait idle 0\ngone 0\nawait gone 0\n"
          "close 0\nopen 0\nskip 0\nresume 0\nserve 0\nrespond 0 1 511 success\nrespond 0 0 0 invalid\nrespond all 0 failure\n"
          "respond all 0 1 invalid\ndiscard 0\ndiscard 0 1\nawait queue 0\nawait queue 0 1\nawait groups 0\n"
          "await groups 0 1\n");
}

static void try_threads(void)
{
    begin();
    svahost_record_thread(r, "other");
    svahost_record_reset(svahost_record_at(r, "a b\nc.c", 4294967295u), device);
    svahost_record_await_reset(r, device);
    svahost_record_race(r);
    svahost_record_queue_pasid(r, 7);
    svahost_record_thread(r, "host");
    svahost_record_queue_pasid(r, 8);
    svahost_record_submit(svahost_record_at(r, "x.c", 1), device + 1);
    svahost_record_queue_vtd(r, 0x11, 0);
    svahost_record_queue_vtd(r, 0x12, 0);
    svahost_record_submit(r, device);
    svahost_record_thread(r, "other");
    svahost_record_queue_vtd(r, 4, 0);
    svahost_record_submit(svahost_record_at(r, NULL, 0), device);
    svahost_record_thread(r, "othe");
    svahost_record_reset(r, device);
    svahost_record_thread(r, "host");
    svahost_record_queue_wait(r, 0, 0);
    svahost_record_submit(r, device);
    written();
    has("the head has addresses where no name was told", "\n# endpoint 1 is 0x");
    check("threads", !strcmp(strstr(text, "config "),
          "config 2 1 1\ndevice 0 3 asks 1 uses\ndevice 1 3 asks 1 uses\n"
          "reset 0 # at a b?c.c:4294967295\nawait reset 0 # at a b?c.c:4294967295\nrace\n"
          "submit 1 pasid 2 # at x.c:1\n# left out: a context-cache invalidation at x.c:1\n"
          "# left out: an IOTLB invalidation without a PASID at x.c:1\nthread other\n"
          "# left out: an invalidation of the interrupt entry cache\nsubmit 0 pasid 1\nthread othe\nreset 0\nthread host\n"
          "submit 0 wait\n"), text);
}

/* So many of a kind are right, and one more isn't. */
static void try_most(const char *why, int kind, int most)
{
    int k;
    for (begin(), k = 0; k <= most; k++) {
        if (k == most)
            check(why, !svahost_record_fault(r), "too early");
        if (kind == 0)
            svahost_record_reset(r, device + k);
        else if (kind == 1)
            svahost_record_free_space(r, space + k);
        else if (kind == 2)
            svahost_record_queue_pasid(r, (uint32_t)k), svahost_record_submit(r, device);
        else if (kind == 3)
            svahost_record_free(r, (uint64_t)k << 40);
    }
    fails(why, why);
}

static void try_limits(void)
{
    int k;
    try_most("more than 8 endpoints", 0, 8);
    try_most("more than 64 spaces", 1, 64);
    try_most("more than 32 PASIDs beside 0", 2, 33);
    try_most("more than 4096 frames", 3, 4096);
    begin();
    svahost_record_start(r, device, 0x100000);
    fails("a PASID", "a PASID above 2^20 - 1");
    begin();
    svahost_record_pte_none(svahost_record_at(r, "here.c", 7), space, (uint64_t)1 << 36);
    svahost_record_start(svahost_record_at(r, "there.c", 8), device, 0x100000);
    fails("the first fault is told", "a page above 2^36 - 1");
    check("its place", strstr(written(), "\nnot whole: a page above 2^36 - 1 (here.c:7)\n") != NULL, text);
    begin();
    svahost_record_respond(r, device, 1, 512, SVAHOST_RECORD_SUCCESS);
    fails("a group", "a group above 511");
    begin();
    svahost_record_queue_range(r, 1, 0, 10);
    svahost_record_submit(r, device);
    fails("a range", LARGE);
    for (begin(), k = 0; k < 64; k++)
        svahost_record_queue_pasid(r, 1);
    svahost_record_submit(r, device);
    has("64 descriptors", "pasid 1 + pasid 1\n");
    for (k = 0; k < 65; k++)
        svahost_record_queue_pasid(r, 1);
    svahost_record_submit(r, device);
    fails("65 descriptors", "a submit of more than 64 descriptors");
    begin();
    svahost_record_submit(r, device);
    fails("no descriptor", "a submit without descriptors");
    begin();
    svahost_record_queue_pasid(r, 1);
    svahost_record_thread(r, "other");
    svahost_record_queue_pasid(r, 1);
    svahost_record_submit(r, device);
    fails("never submitted", "descriptors that are never submitted");
    begin();
    svahost_record_await_mark(r, space);
    fails("no mark", "what wasn't marked is awaited");
    begin();
    svahost_record_race(r);
    svahost_record_started(r, device);
    fails("started", "a start is delivered behind race, where the link does it by itself");
}

static void try_ids(void)
{
    const uint64_t of = (uint64_t)5 << 32, other = (uint64_t)6 << 32;
    begin();
    svahost_record_requester(r, device, 0x6a01);
    svahost_record_domain(r, space, 7);
    svahost_record_domain(r, space + 1, 8);
    svahost_record_entry(r, device, 5, space);
    svahost_record_replace(r, device, 5, space + 1);
    svahost_record_entry_none(r, device, 5);
    svahost_record_queue_vtd(r, of | 7 << 16 | 0x17, 0);
    svahost_record_queue_vtd(r, of | 8 << 16 | 0x26, 0);
    svahost_record_queue_vtd(r, other | 9 << 16 | 0x26, 0);
    svahost_record_queue_vtd(r, of | 0x6a010008, 0);
    svahost_record_submit(r, device);
    svahost_record_queue_vtd(r, of | 0x6a020008, 0);
    svahost_record_submit(r, device + 1);
    has("IDs", "\nsubmit 0 entry 1 + iotlb 1 + iotlb 2 + range 1 0x0 0\nsubmit 1 range 1 0x0 0\n");
    svahost_record_queue_vtd(r, (uint64_t)0x6a02 << 32 | 3, 0);
    svahost_record_submit(r, device);
    fails("a requester ID", "a descriptor of another device than that at which it is submitted");
    begin();
    svahost_record_domain(r, space, 7);
    svahost_record_entry(r, device, 5, space);
    svahost_record_entry(r, device, 6, space + 1);
    svahost_record_queue_vtd(r, other | 9 << 16 | 0x17, 0);
    svahost_record_submit(r, device);
    has("a domain that wasn't told", "\nsubmit 0 entry 2\n");
    svahost_record_queue_vtd(r, of | 9 << 16 | 0x17, 0);
    svahost_record_submit(r, device);
    fails("a domain ID", "a descriptor of a domain that no entry of its PASID had");
}

static void try_room(void)
{
    static const char wanted[] = "# recorded by svahost_record.h\n# endpoint 0 is dev\nconfig 1 1 1\ndevice 0 3 asks 1 uses\nreset 0\n";
    char small[40];
    size_t room;
    svahost_record_begin(r, items, 3);
    svahost_record_called(r, device, "dev");
    svahost_record_reset(r, device);
    check("no item too many", !svahost_record_fault(r) && svahost_record_write(r, nothing, 0) == 0, "it isn't whole");
    check("the length", svahost_record_text(r, NULL, 0) == sizeof wanted - 1, "another one");
    for (room = 0; room < sizeof small; room++) {
        memset(small, '!', sizeof small);
        check("a small buffer", svahost_record_text(r, small, room) == sizeof wanted - 1 && !memcmp(small, wanted, room)
              && small[room] == '!', "it has something else");
    }
    svahost_record_reset(r, device);
    fails("the room", "there is no room for one item more");
    svahost_record_begin(r, items, 0);
    svahost_record_setting(r, "caches on");
    svahost_record_thread(r, "x");
    svahost_record_requester(r, device, 1);
    svahost_record_mark(r, device);
    svahost_record_queue_pasid(r, 1);
    fails("no room at all", "there is no room for one item more");
    begin();
    wants("an empty one", "config 1 1 1\n");
}

static int decode(void)
{
    uint64_t qw0, qw1;
    while (scanf("%" SCNx64 " %" SCNx64, &qw0, &qw1) == 2) {
        begin();
        svahost_record_queue_vtd(r, qw0, qw1);
        svahost_record_submit(r, device);
        if (svahost_record_fault(r))
            printf("not whole: %s\n", svahost_record_fault(r));
        else
            printf("%s", strstr(written(), "1 uses\n") + 7);
    }
    return 0;
}

int main(int count, char **words)
{
    if (count == 2 && !strcmp(words[1], "decode"))
        return decode();
    if (count == 2) {
        every();
        if (!strcmp(words[1], "full"))
            svahost_record_pte_none(r, space, (uint64_t)1 << 36);
        svahost_record_write(r, put, stdout);
        return 0;
    }
    try_units();
    try_devices();
    try_every();
    try_threads();
    try_limits();
    try_ids();
    try_room();
    printf("recorder: %d tried, %d wrong\n", tried, wrong);
    return wrong || !tried;
}
