/* A part of svahost_record.h, which includes it: what a recording is made of. Names with `_x_` are not to be called. */
#ifndef SVAHOST_RECORD_ITEMS_H
#define SVAHOST_RECORD_ITEMS_H

#ifdef __KERNEL__
#include <linux/types.h>
#else
#include <stddef.h>
#include <stdint.h>
#endif

#ifdef __cplusplus
extern "C" {
#endif

/* One thing that is recorded. Its members are the recorder's. */
struct svahost_record_item {
    uint64_t value[4];
    const char *text;
    const char *file;
    unsigned line;
    unsigned short sort, thread;
};

/* A recording. Its members are the recorder's. */
struct svahost_record {
    struct svahost_record_item *items;
    size_t room, used;
    const char *file, *fault, *fault_file;
    unsigned line, fault_line;
    unsigned counts[5];
    unsigned threads, thread, marks, races;
};

/* The code of a response to a group of page requests. */
enum svahost_record_code { SVAHOST_RECORD_SUCCESS, SVAHOST_RECORD_INVALID, SVAHOST_RECORD_FAILURE };

/* Takes a piece of a text: `length` bytes, 1 or more, without a NUL behind them. `to` is what the caller gave. */
typedef void svahost_record_put(void *to, const char *bytes, size_t length);

/* Those in the front have numbers, and stand in `counts`. */
enum svahost_record_x_sort {
    SVAHOST_RECORD_X_ENDPOINT,
    SVAHOST_RECORD_X_SPACE,
    SVAHOST_RECORD_X_PASID,
    SVAHOST_RECORD_X_FRAME,
    SVAHOST_RECORD_X_LOCK,
    SVAHOST_RECORD_X_SETTING,
    SVAHOST_RECORD_X_PARTS,
    SVAHOST_RECORD_X_CALLED,
    SVAHOST_RECORD_X_REQUESTER,
    SVAHOST_RECORD_X_DOMAIN,
    SVAHOST_RECORD_X_THREAD,
    SVAHOST_RECORD_X_RACE,
    SVAHOST_RECORD_X_ACT,
    SVAHOST_RECORD_X_ENTRY,
    SVAHOST_RECORD_X_MARK,
    SVAHOST_RECORD_X_DESCRIPTOR,
    SVAHOST_RECORD_X_LEFT_OUT,
    SVAHOST_RECORD_X_SUBMIT
};

/* What stands in the fourth value of a descriptor: whose it says that it is. */
#define SVAHOST_RECORD_X_OF_DEVICE 0x10000u
#define SVAHOST_RECORD_X_OF_DOMAIN 0x20000u

static inline void svahost_record_x_fail(struct svahost_record *r, const char *why)
{
    if (r->fault)
        return;
    r->fault = why;
    r->fault_file = r->file;
    r->fault_line = r->line;
}

/* A new item, or null where there is no room. */
static inline struct svahost_record_item *svahost_record_x_item(struct svahost_record *r, unsigned sort,
                                                                const char *text)
{
    struct svahost_record_item *it;
    if (r->used == r->room) {
        svahost_record_x_fail(r, "there is no room for one item more");
        return 0;
    }
    it = &r->items[r->used++];
    it->value[0] = it->value[1] = it->value[2] = it->value[3] = 0;
    it->text = text;
    it->file = r->file;
    it->line = r->line;
    it->sort = (unsigned short)sort;
    it->thread = (unsigned short)r->thread;
    return it;
}

/* The last item of a sort with this first value, or null. */
static inline const struct svahost_record_item *svahost_record_x_find(const struct svahost_record *r, unsigned sort,
                                                                      uint64_t value)
{
    size_t n = r->used;
    while (n-- > 0)
        if (r->items[n].sort == sort && r->items[n].value[0] == value)
            return &r->items[n];
    return 0;
}

/* The number of a driver's value: the same for the same value. */
static inline uint64_t svahost_record_x_number(struct svahost_record *r, unsigned sort, uint64_t value)
{
    static const unsigned most[] = {8, 64, 32, 4096, 4096};
    static const char *const why[] = {"more than 8 endpoints", "more than 64 spaces", "more than 32 PASIDs beside 0",
                                      "more than 4096 frames", "more than 4096 locks"};
    const struct svahost_record_item *known = svahost_record_x_find(r, sort, value);
    struct svahost_record_item *it;
    if (known)
        return known->value[1];
    if (sort == SVAHOST_RECORD_X_PASID && value == 0)
        return 0;
    if (sort == SVAHOST_RECORD_X_PASID && value > 0xfffff) {
        svahost_record_x_fail(r, "a PASID above 2^20 - 1");
        return 0;
    }
    if (r->counts[sort] == most[sort]) {
        svahost_record_x_fail(r, why[sort]);
        return 0;
    }
    it = svahost_record_x_item(r, sort, 0);
    if (!it)
        return 0;
    it->value[0] = value;
    it->value[1] = r->counts[sort]++ + (sort == SVAHOST_RECORD_X_PASID ? 1u : 0u);
    return it->value[1];
}

/* What stands for a capital letter of a form: E, S, P, F, L are numbered, G is a page, M and N stay as they are. */
static inline uint64_t svahost_record_x_operand(struct svahost_record *r, char letter, uint64_t value)
{
    switch (letter) {
    case 'E':
        return svahost_record_x_number(r, SVAHOST_RECORD_X_ENDPOINT, value);
    case 'S':
        return svahost_record_x_number(r, SVAHOST_RECORD_X_SPACE, value);
    case 'P':
        return svahost_record_x_number(r, SVAHOST_RECORD_X_PASID, value);
    case 'F':
        return svahost_record_x_number(r, SVAHOST_RECORD_X_FRAME, value);
    case 'L':
        return svahost_record_x_number(r, SVAHOST_RECORD_X_LOCK, value);
    case 'G':
        if (value >> 36)
            svahost_record_x_fail(r, "a page above 2^36 - 1");
        return value;
    default:
        return value;
    }
}

/* Records a line by its form: capital letters stand for the values, in this order. */
static inline struct svahost_record_item *svahost_record_x_line(struct svahost_record *r, unsigned sort,
                                                                const char *form, uint64_t a, uint64_t b, uint64_t c)
{
    uint64_t value[3];
    struct svahost_record_item *it;
    const char *at;
    unsigned k = 0;
    value[0] = a;
    value[1] = b;
    value[2] = c;
    for (at = form; *at; at++)
        if (*at >= 'A' && *at <= 'Z') {
            value[k] = svahost_record_x_operand(r, *at, value[k]);
            k++;
        }
    it = svahost_record_x_item(r, sort, form);
    if (it) {
        it->value[0] = value[0];
        it->value[1] = value[1];
        it->value[2] = value[2];
    }
    return it;
}

static inline void svahost_record_x_act(struct svahost_record *r, const char *form, uint64_t a, uint64_t b, uint64_t c)
{
    svahost_record_x_line(r, SVAHOST_RECORD_X_ACT, form, a, b, c);
}

static inline uint64_t svahost_record_x_of(const void *pointer) { return (uint64_t)(uintptr_t)pointer; }

#ifdef __cplusplus
}
#endif

#endif
