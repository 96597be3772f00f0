/* A part of svahost_record.h, which includes it: the invalidation queue, and the descriptors of Intel VT-d. */
#ifndef SVAHOST_RECORD_QUEUE_H
#define SVAHOST_RECORD_QUEUE_H

#ifdef __cplusplus
extern "C" {
#endif

/* A descriptor; `whose` is one of SVAHOST_RECORD_X_OF_.. with a number of 16 bits, or 0. */
static inline void svahost_record_x_queue(struct svahost_record *r, const char *form, uint64_t pasid, uint64_t page,
                                          unsigned order, uint64_t whose)
{
    struct svahost_record_item *it = svahost_record_x_line(r, SVAHOST_RECORD_X_DESCRIPTOR, form, pasid, page, order);
    if (it)
        it->value[3] = whose;
}

/* One of the aligned 2^order pages of which `page` is one; of the form `whole` where these are all below 2^36. */
static inline void svahost_record_x_queue_range(struct svahost_record *r, const char *form, const char *whole,
                                                uint64_t pasid, uint64_t page, unsigned order, uint64_t whose)
{
    const uint64_t first = order > 63 ? 0 : page >> order << order;
    if (order >= 36 && first == 0)
        svahost_record_x_queue(r, whole, pasid, 0, 0, whose);
    else if (order > 9)
        svahost_record_x_fail(r, "a range of more than 2^9 pages that isn't all pages");
    else
        svahost_record_x_queue(r, form, pasid, first, order, whose);
}

/* The order of a device-TLB's range: with the size bit the lowest zero of the page's number says it. */
static inline unsigned svahost_record_x_order(uint64_t page, int is_sized)
{
    unsigned ones = 0;
    if (!is_sized)
        return 0;
    while (page >> ones & 1)
        ones++;
    return ones + 1;
}

/* A device-TLB's range: of bits 63 to 12 all of which are ones Intel VT-d says nothing. */
static inline void svahost_record_x_queue_sized(struct svahost_record *r, uint64_t pasid, uint64_t page, int is_sized,
                                                uint64_t requester)
{
    if (is_sized && page == 0xfffffffffffff) {
        svahost_record_x_fail(r, "a device-TLB invalidation whose address has no zero to say its size");
        return;
    }
    svahost_record_x_queue_range(r, "range P G N", "pasid P", pasid, page, svahost_record_x_order(page, is_sized),
                                 SVAHOST_RECORD_X_OF_DEVICE | requester);
}

/* Whether the descriptor says that it is of this endpoint, and of a domain of its PASID, as far as these are told. */
static inline void svahost_record_x_compare(struct svahost_record *r, const struct svahost_record_item *it,
                                            uint64_t endpoint)
{
    const uint64_t id = it->value[3] & 0xffff;
    const struct svahost_record_item *told;
    int is_other = 0;
    size_t n;
    if (it->value[3] & SVAHOST_RECORD_X_OF_DEVICE) {
        told = svahost_record_x_find(r, SVAHOST_RECORD_X_REQUESTER, endpoint);
        if (told && told->value[1] != id)
            svahost_record_x_fail(r, "a descriptor of another device than that at which it is submitted");
    }
    if (!(it->value[3] & SVAHOST_RECORD_X_OF_DOMAIN))
        return;
    for (n = 0; n < r->used; n++)
        if (r->items[n].sort == SVAHOST_RECORD_X_ENTRY && r->items[n].value[0] == endpoint
            && r->items[n].value[1] == it->value[0]) {
            told = svahost_record_x_find(r, SVAHOST_RECORD_X_DOMAIN, r->items[n].value[2]);
            if (!told || told->value[1] == id)
                return;
            is_other = 1;
        }
    if (is_other)
        svahost_record_x_fail(r, "a descriptor of a domain that no entry of its PASID had");
}


/*
 * ---- the invalidation queue ----
 *
 * Descriptors are queued one by one, and submitted by one call at the device's unit: that is one event. Those of two
 * threads are kept apart. In the text a descriptor has the line of its submit.
 */

/* In the device: the aligned 2^order pages of the PASID of which `page` is one. `order` is 0 to 9, or 36 for all. */
static inline void svahost_record_queue_range(struct svahost_record *r, uint32_t pasid, uint64_t page, unsigned order)
{
    svahost_record_x_queue_range(r, "range P G N", "pasid P", pasid, page, order, 0);
}

/* In the device: all pages of the PASID. */
static inline void svahost_record_queue_pasid(struct svahost_record *r, uint32_t pasid)
{
    svahost_record_x_queue(r, "pasid P", pasid, 0, 0, 0);
}

/* The unit's kept translations of the PASID, of a range as above. */
static inline void svahost_record_queue_iotlb_range(struct svahost_record *r, uint32_t pasid, uint64_t page,
                                                    unsigned order)
{
    svahost_record_x_queue_range(r, "iotlb P G N", "iotlb P", pasid, page, order, 0);
}

/* All of the unit's kept translations of the PASID. */
static inline void svahost_record_queue_iotlb(struct svahost_record *r, uint32_t pasid)
{
    svahost_record_x_queue(r, "iotlb P", pasid, 0, 0, 0);
}

/* The unit's kept PASID table entry. */
static inline void svahost_record_queue_entry(struct svahost_record *r, uint32_t pasid)
{
    svahost_record_x_queue(r, "entry P", pasid, 0, 0, 0);
}

/* A wait; one that drains page requests, or is a fence, where these aren't 0. */
static inline void svahost_record_queue_wait(struct svahost_record *r, int drains, int fences)
{
    static const char *const forms[] = {"wait", "wait fence", "wait drain", "wait drain fence"};
    svahost_record_x_queue(r, forms[(drains ? 2 : 0) + (fences ? 1 : 0)], 0, 0, 0, 0);
}

/* Submits what this thread has queued since its last submit, 1 to 64 descriptors, at the device's unit. */
static inline void svahost_record_submit(struct svahost_record *r, const void *device)
{
    const uint64_t endpoint = svahost_record_x_number(r, SVAHOST_RECORD_X_ENDPOINT, svahost_record_x_of(device));
    struct svahost_record_item *it;
    unsigned count = 0, left_out = 0;
    size_t n = r->used;
    while (n-- > 0) {
        if (r->items[n].thread != r->thread)
            continue;
        if (r->items[n].sort == SVAHOST_RECORD_X_SUBMIT)
            break;
        left_out += r->items[n].sort == SVAHOST_RECORD_X_LEFT_OUT;
        if (r->items[n].sort == SVAHOST_RECORD_X_DESCRIPTOR) {
            svahost_record_x_compare(r, &r->items[n], endpoint);
            count++;
        }
    }
    if (count + left_out == 0)
        svahost_record_x_fail(r, "a submit without descriptors");
    if (count > 64)
        svahost_record_x_fail(r, "a submit of more than 64 descriptors");
    it = svahost_record_x_line(r, SVAHOST_RECORD_X_SUBMIT, "submit E", svahost_record_x_of(device), 0, 0);
    if (it)
        it->value[1] = count;
}

/* The driver has seen that the waits of this thread's last submit with a wait at the device's unit are done. */
static inline void svahost_record_await_wait(struct svahost_record *r, const void *device)
{
    svahost_record_x_act(r, "await wait E", svahost_record_x_of(device), 0, 0);
}

/* The unit takes no descriptor and answers no request, as svahost_record_open says that it does again. */
static inline void svahost_record_close(struct svahost_record *r, const void *device)
{
    svahost_record_x_act(r, "close E", svahost_record_x_of(device), 0, 0);
}

/* The unit is open: its invalidation queue is empty, and all waits are done. */
static inline void svahost_record_open(struct svahost_record *r, const void *device)
{
    svahost_record_x_act(r, "open E", svahost_record_x_of(device), 0, 0);
}

/* The driver takes the head out of the invalidation queue: what it asked for is never done. */
static inline void svahost_record_skip(struct svahost_record *r, const void *device)
{
    svahost_record_x_act(r, "skip E", svahost_record_x_of(device), 0, 0);
}

/* The driver has cleared a time-out, so that the unit goes on which has stopped there. */
static inline void svahost_record_resume(struct svahost_record *r, const void *device)
{
    svahost_record_x_act(r, "resume E", svahost_record_x_of(device), 0, 0);
}


/* ---- Intel VT-d ---- */

/*
 * A descriptor of Intel VT-d (Intel Virtualization Technology for Directed I/O, section 6.5.2, "Queued Invalidation
 * Interface") by its two low words, in the processor's order of bytes. The wait that a function such as Linux's
 * qi_submit_sync puts behind a batch by itself is svahost_record_queue_wait.
 *
 *     Descriptor                                  Is recorded as
 *     PASID-cache, of one PASID                   entry P
 *     PASID-based IOTLB, of one PASID             iotlb P; of pages iotlb P PAGE K
 *     PASID-based device-TLB                      range P PAGE K; where it is of all pages below 2^36, pasid P
 *     device-TLB, which has no PASID              the same of PASID 0
 *     invalidation wait                           wait, with drain (PD) and fence (FN)
 *     context-cache, IOTLB without a PASID,       nothing: a driver text has no word for what it invalidates. A comment
 *       interrupt entry cache                       says that it was left out
 *
 * The recording isn't whole behind any other: a PASID-cache descriptor of a domain or of all; a device-TLB's of all
 * PASIDs; a page group response, which is svahost_record_respond; one with a reserved bit, at which the unit stops.
 * Not looked at: the invalidation hint, the physical function's ID and the pending limit of a device-TLB's, how a wait
 * tells that it is done; and requester and domain ID where the test hasn't told them.
 */
static inline void svahost_record_queue_vtd(struct svahost_record *r, uint64_t qw0, uint64_t qw1)
{
    const unsigned kind = (unsigned)(qw0 & 15) | (unsigned)(qw0 >> 9 & 7) << 4, scope = (unsigned)(qw0 >> 4 & 3);
    const uint64_t id = qw0 >> 16 & 0xffff, pasid = qw0 >> 32 & 0xfffff, page = qw1 >> 12;
    const uint64_t of_domain = SVAHOST_RECORD_X_OF_DOMAIN | id;
    int is_known = 1;
    switch (kind) {
    case 1:
        svahost_record_x_item(r, SVAHOST_RECORD_X_LEFT_OUT, "a context-cache invalidation");
        is_known = scope != 0;
        break;
    case 2:
        svahost_record_x_item(r, SVAHOST_RECORD_X_LEFT_OUT, "an IOTLB invalidation without a PASID");
        is_known = scope != 0;
        break;
    case 3:
        svahost_record_x_queue_sized(r, 0, page, (int)(qw1 & 1), qw0 >> 32 & 0xffff);
        is_known = !(qw1 & 0xffe);
        break;
    case 4:
        svahost_record_x_item(r, SVAHOST_RECORD_X_LEFT_OUT, "an invalidation of the interrupt entry cache");
        break;
    case 5:
        svahost_record_queue_wait(r, (int)(qw0 >> 7 & 1), (int)(qw0 >> 6 & 1));
        is_known = !(qw0 & 0xfffff100) && !(qw1 & 3);
        break;
    case 6:
        if (scope == 3)
            svahost_record_x_queue_range(r, "iotlb P G N", "iotlb P", pasid, page, (unsigned)(qw1 & 63), of_domain);
        else
            svahost_record_x_queue(r, "iotlb P", pasid, 0, 0, of_domain);
        is_known = scope >= 2 && !(qw0 & 0xfff000000000f1c0) && (scope == 2 || !(qw1 & 0xf80));
        break;
    case 7:
        svahost_record_x_queue(r, "entry P", pasid, 0, 0, of_domain);
        if (scope == 0 || scope == 3)
            svahost_record_x_fail(r, "a PASID-cache invalidation of more than one PASID");
        is_known = scope != 2 && !(qw0 & 0xfff000000000f1c0) && !qw1;
        break;
    case 8:
        svahost_record_x_queue_sized(r, pasid, page, (int)(qw1 >> 11 & 1), id);
        if (qw1 & 1)
            svahost_record_x_fail(r, "a device-TLB invalidation of all PASIDs");
        is_known = !(qw1 & 0x7fe);
        break;
    case 9:
        svahost_record_x_fail(r, "a page group response is queued: svahost_record_respond is for it");
        break;
    default:
        is_known = 0;
    }
    if (!is_known)
        svahost_record_x_fail(r, "a descriptor that Intel VT-d doesn't have: its kind, or a reserved bit");
}

/* The same of a descriptor of four words, as in scalable mode: the two high ones have to be 0. */
static inline void svahost_record_queue_vtd4(struct svahost_record *r, uint64_t qw0, uint64_t qw1, uint64_t qw2,
                                             uint64_t qw3)
{
    svahost_record_queue_vtd(r, qw0, qw1);
    if (qw2 | qw3)
        svahost_record_x_fail(r, "a descriptor that Intel VT-d doesn't have: its kind, or a reserved bit");
}

#ifdef __cplusplus
}
#endif

#endif
