/* A part of svahost_record.h, which includes it, and says what `r`, `device`, `page` .. are: the acts of a driver. */
#ifndef SVAHOST_RECORD_ACTS_H
#define SVAHOST_RECORD_ACTS_H

#ifdef __cplusplus
extern "C" {
#endif

/* ---- tables, PASIDs, owners ---- */

/* The page of the space leads to the frame, to read, or where `writable` isn't 0 also to write. */
static inline void svahost_record_pte(struct svahost_record *r, const void *space, uint64_t page, uint64_t frame,
                                      int writable)
{
    svahost_record_x_act(r, writable ? "pte S G F w" : "pte S G F r", svahost_record_x_of(space), page, frame);
}

/* The page of the space leads nowhere. */
static inline void svahost_record_pte_none(struct svahost_record *r, const void *space, uint64_t page)
{
    svahost_record_x_act(r, "pte S G none", svahost_record_x_of(space), page, 0);
}

/* The PASID table entry of the device leads to the space. Where it led to another one, the PASID has another owner. */
static inline void svahost_record_entry(struct svahost_record *r, const void *device, uint32_t pasid, const void *space)
{
    svahost_record_x_line(r, SVAHOST_RECORD_X_ENTRY, "entry E P S", svahost_record_x_of(device), pasid,
                          svahost_record_x_of(space));
}

/* The same, for the owner that the PASID has: a new table of it. */
static inline void svahost_record_replace(struct svahost_record *r, const void *device, uint32_t pasid,
                                          const void *space)
{
    svahost_record_x_line(r, SVAHOST_RECORD_X_ENTRY, "replace E P S", svahost_record_x_of(device), pasid,
                          svahost_record_x_of(space));
}

/* The PASID table entry of the device leads nowhere. */
static inline void svahost_record_entry_none(struct svahost_record *r, const void *device, uint32_t pasid)
{
    svahost_record_x_act(r, "entry E P none", svahost_record_x_of(device), pasid, 0);
}

/* The frame has another owner from now on. */
static inline void svahost_record_free(struct svahost_record *r, uint64_t frame)
{
    svahost_record_x_act(r, "free F", frame, 0, 0);
}

/* Nobody may write the frame any more by what led to it before: it is shared, or copied on write. */
static inline void svahost_record_freeze(struct svahost_record *r, uint64_t frame)
{
    svahost_record_x_act(r, "freeze F", frame, 0, 0);
}

/* The PASID has another owner at the device from now on. */
static inline void svahost_record_free_pasid(struct svahost_record *r, const void *device, uint32_t pasid)
{
    svahost_record_x_act(r, "free pasid P E", pasid, svahost_record_x_of(device), 0);
}

/* The memory of the space's table has another owner from now on. A new space has to be another pointer. */
static inline void svahost_record_free_space(struct svahost_record *r, const void *space)
{
    svahost_record_x_act(r, "free space S", svahost_record_x_of(space), 0, 0);
}

/* That by which workers serve page requests of the space is gone. */
static inline void svahost_record_free_domain(struct svahost_record *r, const void *space)
{
    svahost_record_x_act(r, "free domain S", svahost_record_x_of(space), 0, 0);
}


/* ---- the device ---- */

/* The device is told that it may use the PASID. */
static inline void svahost_record_start(struct svahost_record *r, const void *device, uint32_t pasid)
{
    svahost_record_x_act(r, "start E P", svahost_record_x_of(device), pasid, 0);
}

/* It knows of the oldest start that was under way. Before svahost_record_race alone: behind it the link delivers. */
static inline void svahost_record_started(struct svahost_record *r, const void *device)
{
    if (r->races)
        svahost_record_x_fail(r, "a start is delivered behind race, where the link does it by itself");
    svahost_record_x_act(r, "deliver start E", svahost_record_x_of(device), 0, 0);
}

/* The device is told to stop using the PASID. */
static inline void svahost_record_stop(struct svahost_record *r, const void *device, uint32_t pasid)
{
    svahost_record_x_act(r, "stop E P", svahost_record_x_of(device), pasid, 0);
}

/* The driver has seen that the device has stopped using the PASID. */
static inline void svahost_record_await_stopped(struct svahost_record *r, const void *device, uint32_t pasid)
{
    svahost_record_x_act(r, "await stopped E P", svahost_record_x_of(device), pasid, 0);
}

/* The device is reset. */
static inline void svahost_record_reset(struct svahost_record *r, const void *device)
{
    svahost_record_x_act(r, "reset E", svahost_record_x_of(device), 0, 0);
}

/* The driver has seen that each reset of the device is done. */
static inline void svahost_record_await_reset(struct svahost_record *r, const void *device)
{
    svahost_record_x_act(r, "await reset E", svahost_record_x_of(device), 0, 0);
}

/* The device's ATS is turned on, or off. */
static inline void svahost_record_ats(struct svahost_record *r, const void *device, int on)
{
    svahost_record_x_act(r, on ? "ats E on" : "ats E off", svahost_record_x_of(device), 0, 0);
}

/* Its page request interface is. */
static inline void svahost_record_pri(struct svahost_record *r, const void *device, int on)
{
    svahost_record_x_act(r, on ? "pri E on" : "pri E off", svahost_record_x_of(device), 0, 0);
}

/* Bus mastering is. */
static inline void svahost_record_mastering(struct svahost_record *r, const void *device, int on)
{
    svahost_record_x_act(r, on ? "mastering E on" : "mastering E off", svahost_record_x_of(device), 0, 0);
}

/* The driver has seen that no transaction of the device is pending. */
static inline void svahost_record_await_idle(struct svahost_record *r, const void *device)
{
    svahost_record_x_act(r, "await idle E", svahost_record_x_of(device), 0, 0);
}

/* The device was removed. To be recorded before whatever the driver does for that. */
static inline void svahost_record_gone(struct svahost_record *r, const void *device)
{
    svahost_record_x_act(r, "gone E", svahost_record_x_of(device), 0, 0);
}

/* The driver has seen that the device was removed, and nothing of it comes any more. */
static inline void svahost_record_await_gone(struct svahost_record *r, const void *device)
{
    svahost_record_x_act(r, "await gone E", svahost_record_x_of(device), 0, 0);
}


/* ---- page requests ---- */

/* The oldest page request of the device is taken out of the page request queue, and filed in its group. */
static inline void svahost_record_serve(struct svahost_record *r, const void *device)
{
    svahost_record_x_act(r, "serve E", svahost_record_x_of(device), 0, 0);
}

/* Group `group` of the PASID, 0 to 511, is answered. */
static inline void svahost_record_respond(struct svahost_record *r, const void *device, uint32_t pasid, unsigned group,
                                          enum svahost_record_code code)
{
    static const char *const forms[] = {"respond E P N success", "respond E P N invalid", "respond E P N failure"};
    if (group > 511)
        svahost_record_x_fail(r, "a group above 511");
    svahost_record_x_act(r, forms[code], svahost_record_x_of(device), pasid, group);
}

/* Each whole group of the device is answered, the oldest first. */
static inline void svahost_record_respond_all(struct svahost_record *r, const void *device,
                                              enum svahost_record_code code)
{
    static const char *const forms[] = {"respond all E success", "respond all E invalid", "respond all E failure"};
    svahost_record_x_act(r, forms[code], svahost_record_x_of(device), 0, 0);
}

/* The same of the groups of one PASID. */
static inline void svahost_record_respond_all_of(struct svahost_record *r, const void *device, uint32_t pasid,
                                                 enum svahost_record_code code)
{
    static const char *const forms[] = {"respond all E P success", "respond all E P invalid",
                                        "respond all E P failure"};
    svahost_record_x_act(r, forms[code], svahost_record_x_of(device), pasid, 0);
}

/* Each group of the device that isn't whole is thrown away, and never answered. */
static inline void svahost_record_discard(struct svahost_record *r, const void *device)
{
    svahost_record_x_act(r, "discard E", svahost_record_x_of(device), 0, 0);
}

/* The same of the groups of one PASID. */
static inline void svahost_record_discard_of(struct svahost_record *r, const void *device, uint32_t pasid)
{
    svahost_record_x_act(r, "discard E P", svahost_record_x_of(device), pasid, 0);
}

/* The driver has seen that no page request of the device stands in the page request queue. */
static inline void svahost_record_await_queue(struct svahost_record *r, const void *device)
{
    svahost_record_x_act(r, "await queue E", svahost_record_x_of(device), 0, 0);
}

/* The same of one PASID. */
static inline void svahost_record_await_queue_of(struct svahost_record *r, const void *device, uint32_t pasid)
{
    svahost_record_x_act(r, "await queue E P", svahost_record_x_of(device), pasid, 0);
}

/* The driver has seen that each whole group of the device is answered. */
static inline void svahost_record_await_groups(struct svahost_record *r, const void *device)
{
    svahost_record_x_act(r, "await groups E", svahost_record_x_of(device), 0, 0);
}

/* The same of one PASID. */
static inline void svahost_record_await_groups_of(struct svahost_record *r, const void *device, uint32_t pasid)
{
    svahost_record_x_act(r, "await groups E P", svahost_record_x_of(device), pasid, 0);
}


/* ---- what keeps one thread behind another ---- */

/* The lock is taken. To be recorded where it is held. */
static inline void svahost_record_lock(struct svahost_record *r, const void *lock)
{
    svahost_record_x_act(r, "lock L", svahost_record_x_of(lock), 0, 0);
}

/* The lock is given back. */
static inline void svahost_record_unlock(struct svahost_record *r, const void *lock)
{
    svahost_record_x_act(r, "unlock L", svahost_record_x_of(lock), 0, 0);
}

/* Something has happened that others wait for, as a completion or a barrier: `what` tells such things apart. */
static inline void svahost_record_mark(struct svahost_record *r, const void *what)
{
    struct svahost_record_item *it = svahost_record_x_line(r, SVAHOST_RECORD_X_MARK, "M: mark", 0, 0, 0);
    if (it) {
        it->value[0] = r->marks++;
        it->value[1] = svahost_record_x_of(what);
    }
}

/* The driver has waited until that had happened: the last svahost_record_mark of it, which has to stand before. */
static inline void svahost_record_await_mark(struct svahost_record *r, const void *what)
{
    size_t n = r->used;
    while (n-- > 0)
        if (r->items[n].sort == SVAHOST_RECORD_X_MARK && r->items[n].value[1] == svahost_record_x_of(what)) {
            svahost_record_x_act(r, "await M", r->items[n].value[0], 0, 0);
            return;
        }
    svahost_record_x_fail(r, "what wasn't marked is awaited");
}

#ifdef __cplusplus
}
#endif

#endif
