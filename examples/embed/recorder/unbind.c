/*
 * A test of a driver that records it by svahost_record.h, for `svahost judge`.
 *
 * The driver unbinds a process' address space from a device behind Intel VT-d. It has a fault: the process' frame is given
 * back before the wait behind the invalidations was awaited. With MENDED it is given back behind that.
 *
 *     $ cc -I../../../include unbind.c -o unbind        (installed: -I PREFIX/include)
 *     $ ./unbind > faulty.svd
 *     $ svahost judge < faulty.svd | head -n 1
 *     unsafe in 12 events: endpoint 0 may still use frame 0, which has another owner: held translation of page 34152235732 (PASID 1)
 *     $ cc -I../../../include -DMENDED unbind.c -o mended
 *     $ ./mended > mended.svd
 *     $ svahost judge < mended.svd | head -n 1
 *     safe in all 2967 moments
 *
 * The driver's own code (below) knows nothing of the recorder: macros tell the line of each call, and what is called is a
 * stub that records. In the report of `svahost judge < faulty.svd` a witness names lines of faulty.svd; which line of this
 * file each was, its comment there says.
 */
#include <stdio.h>
#include <svahost_record.h>

static struct svahost_record_item items[64];
static struct svahost_record rec;

struct process { uint16_t domain; uint64_t page, frame; };
struct device { uint16_t requester; };
struct descriptor { uint64_t qw0, qw1; };


/* ---- stubs of hardware and memory, which record ---- */

static void set_entry(struct device *device, uint32_t pasid, struct process *process)
{
    if (process)
        svahost_record_entry(&rec, device, pasid, process);
    else
        svahost_record_entry_none(&rec, device, pasid);
}

static void set_page(struct process *process, uint64_t page, uint64_t frame, int is_present)
{
    if (is_present)
        svahost_record_pte(&rec, process, page, frame, 1);
    else
        svahost_record_pte_none(&rec, process, page);
}

static void start_device(struct device *device, uint32_t pasid) { svahost_record_start(&rec, device, pasid); }

static void stop_device(struct device *device, uint32_t pasid)
{
    svahost_record_stop(&rec, device, pasid);
    svahost_record_await_stopped(&rec, device, pasid);
}

static void submit(struct device *device, const struct descriptor *descriptors, int count)
{
    int k;
    for (k = 0; k < count; k++)
        svahost_record_queue_vtd(&rec, descriptors[k].qw0, descriptors[k].qw1);
    svahost_record_submit(&rec, device);
}

static void await_status(struct device *device) { svahost_record_await_wait(&rec, device); }
static void put_frame(uint64_t frame) { svahost_record_free(&rec, frame); }
static void put_pasid(struct device *device, uint32_t pasid) { svahost_record_free_pasid(&rec, device, pasid); }

#define AT(call) (svahost_record_at(&rec, __FILE__, __LINE__), call)
#define set_entry(device, pasid, process) AT(set_entry(device, pasid, process))
#define set_page(process, page, frame, is_present) AT(set_page(process, page, frame, is_present))
#define start_device(device, pasid) AT(start_device(device, pasid))
#define stop_device(device, pasid) AT(stop_device(device, pasid))
#define submit(device, descriptors, count) AT(submit(device, descriptors, count))
#define await_status(device) AT(await_status(device))
#define put_frame(frame) AT(put_frame(frame))
#define put_pasid(device, pasid) AT(put_pasid(device, pasid))


/* ---- the driver ---- */

static void bind(struct device *device, uint32_t pasid, struct process *process)
{
    set_page(process, process->page, process->frame, 1);
    set_entry(device, pasid, process);
    start_device(device, pasid);
}

static void unbind(struct device *device, uint32_t pasid, struct process *process)
{
    const uint64_t of_pasid = (uint64_t)pasid << 32, of_domain = of_pasid | (uint64_t)process->domain << 16;
    const struct descriptor batch[] = {
        {of_domain | 1 << 4 | 7, 0},                                            /* its entry in the PASID cache */
        {of_domain | 2 << 4 | 6, 0},                                            /* all of it in the IOTLB */
        {of_pasid | (uint64_t)device->requester << 16 | 8, 0x7ffffffffffff800}, /* all of it in the device-TLB */
        {1ull << 32 | 1 << 5 | 5, 0x1000},                                      /* a wait that writes its status, 1 */
    };
    stop_device(device, pasid);
    set_entry(device, pasid, NULL);
    submit(device, batch, 4);
    set_page(process, process->page, 0, 0);
#ifdef MENDED
    await_status(device);
    put_frame(process->frame);
#else
    put_frame(process->frame);
    await_status(device);
#endif
    put_pasid(device, pasid);
}


/* ---- the test ---- */

static void put(void *to, const char *bytes, size_t length) { fwrite(bytes, 1, length, (FILE *)to); }

int main(void)
{
    struct process process = {7, 0x7f3a1c2d4, 0x10feed};
    struct device device = {0x6a01};
    int status;

    svahost_record_begin(&rec, items, sizeof items / sizeof *items);
    svahost_record_setting(&rec, "platform vt-d");
    svahost_record_setting(&rec, "stopped status");
    svahost_record_called(&rec, &device, "the device at 6a:00.1");
    svahost_record_called(&rec, &process, "the process");
    svahost_record_requester(&rec, &device, device.requester);
    svahost_record_domain(&rec, &process, process.domain);

    bind(&device, 0x2001, &process);
    svahost_record_started(svahost_record_here(&rec), &device);
    svahost_record_race(&rec);
    unbind(&device, 0x2001, &process);

    status = svahost_record_write(&rec, put, stdout);
    if (status)
        fprintf(stderr, "not whole: %s\n", svahost_record_fault(&rec));
    return status ? 1 : 0;
}
