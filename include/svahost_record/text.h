/* A part of svahost_record.h, which includes it: how a text is written. Names with `_x_` are not to be called. */
#ifndef SVAHOST_RECORD_TEXT_H
#define SVAHOST_RECORD_TEXT_H

#ifdef __cplusplus
extern "C" {
#endif

struct svahost_record_x_out {
    svahost_record_put *put;
    void *to;
    int is_comment; /* each line is one */
};

/* Begins a line. */
static inline void svahost_record_x_begin(const struct svahost_record_x_out *out)
{
    if (out->is_comment)
        out->put(out->to, "# ", 2);
}

/* Puts a string; what isn't printed in a line, LF among it, becomes `?`. */
static inline void svahost_record_x_say(const struct svahost_record_x_out *out, const char *text)
{
    size_t from, n;
    for (from = n = 0;; n++) {
        const unsigned char byte = (unsigned char)text[n];
        if (byte >= 32 && byte != 127)
            continue;
        if (n > from)
            out->put(out->to, text + from, n - from);
        if (!byte)
            return;
        out->put(out->to, "?", 1);
        from = n + 1;
    }
}

/* Puts a number, decimal or with `0x` hexadecimal. Decimal ones are below 2^32: so no division of 64 bits is needed. */
static inline void svahost_record_x_number_text(const struct svahost_record_x_out *out, uint64_t number, int is_hex)
{
    char digits[20];
    size_t at = sizeof digits;
    uint32_t small = (uint32_t)number;
    if (is_hex) {
        do {
            digits[--at] = "0123456789abcdef"[number & 15];
            number >>= 4;
        } while (number);
        digits[--at] = 'x';
        digits[--at] = '0';
    } else {
        do {
            digits[--at] = (char)('0' + small % 10);
            small /= 10;
        } while (small);
    }
    out->put(out->to, digits + at, sizeof digits - at);
}

/* Puts ` # at FILE:LINE`, or nothing where no line was told. */
static inline void svahost_record_x_place(const struct svahost_record_x_out *out, const char *before, const char *file,
                                          unsigned line)
{
    if (!file)
        return;
    svahost_record_x_say(out, before);
    svahost_record_x_say(out, file);
    svahost_record_x_say(out, ":");
    svahost_record_x_number_text(out, line, 0);
}

/* Puts a form, with the values of its item. */
static inline void svahost_record_x_form(const struct svahost_record_x_out *out, const struct svahost_record_item *it)
{
    const char *at;
    char small[2] = {0, 0};
    unsigned k = 0;
    for (at = it->text; *at; at++) {
        small[0] = *at;
        if (*at < 'A' || *at > 'Z') {
            svahost_record_x_say(out, small);
            continue;
        }
        if (*at == 'L' || *at == 'M')
            svahost_record_x_say(out, *at == 'L' ? "lock-" : "mark-");
        svahost_record_x_number_text(out, it->value[k++], *at == 'G');
    }
}

/* Puts a line of one act, and above a submit what was left out of it. `from` is where the item stands. */
static inline void svahost_record_x_act_text(const struct svahost_record_x_out *out, const struct svahost_record *r,
                                             size_t from)
{
    const struct svahost_record_item *it = &r->items[from], *one;
    size_t n = from;
    const char *between = " ";
    if (it->sort == SVAHOST_RECORD_X_SUBMIT) {
        while (n > 0 && !(r->items[n - 1].sort == SVAHOST_RECORD_X_SUBMIT && r->items[n - 1].thread == it->thread))
            n--;
        for (one = &r->items[n]; one < it; one++)
            if (one->sort == SVAHOST_RECORD_X_LEFT_OUT && one->thread == it->thread) {
                svahost_record_x_say(out, "# left out: ");
                svahost_record_x_say(out, one->text);
                svahost_record_x_place(out, " at ", it->file, it->line);
                out->put(out->to, "\n", 1);
            }
        if (it->value[1] == 0)
            return;
    }
    svahost_record_x_begin(out);
    svahost_record_x_form(out, it);
    for (one = &r->items[n]; one < it; one++)
        if (one->sort == SVAHOST_RECORD_X_DESCRIPTOR && one->thread == it->thread) {
            svahost_record_x_say(out, between);
            svahost_record_x_form(out, one);
            between = " + ";
        }
    svahost_record_x_place(out, " # at ", it->file, it->line);
    out->put(out->to, "\n", 1);
}

/* Puts a line of two words. */
static inline void svahost_record_x_two(const struct svahost_record_x_out *out, const char *first, const char *second)
{
    svahost_record_x_begin(out);
    svahost_record_x_say(out, first);
    svahost_record_x_say(out, second);
    out->put(out->to, "\n", 1);
}

/* Puts the comments that say which number is which. */
static inline void svahost_record_x_head(const struct svahost_record_x_out *out, const struct svahost_record *r)
{
    static const char *const word[] = {"# endpoint ", "# space ", "# PASID ", "# frame ", "# lock-"};
    const struct svahost_record_item *it, *called;
    unsigned sort;
    for (sort = 0; sort < 5; sort++)
        for (it = r->items; it < r->items + r->used; it++) {
            if (it->sort != sort)
                continue;
            called = 0;
            if (sort != SVAHOST_RECORD_X_PASID && sort != SVAHOST_RECORD_X_FRAME)
                called = svahost_record_x_find(r, SVAHOST_RECORD_X_CALLED, it->value[0]);
            svahost_record_x_say(out, word[sort]);
            svahost_record_x_number_text(out, it->value[1], 0);
            svahost_record_x_say(out, " is ");
            if (called)
                svahost_record_x_say(out, called->text);
            else
                svahost_record_x_number_text(out, it->value[0], 1);
            out->put(out->to, "\n", 1);
        }
}

/* Puts the config, the settings and the devices. */
static inline void svahost_record_x_world(const struct svahost_record_x_out *out, const struct svahost_record *r)
{
    const unsigned endpoints = r->counts[SVAHOST_RECORD_X_ENDPOINT], frames = r->counts[SVAHOST_RECORD_X_FRAME];
    const struct svahost_record_item *parts;
    size_t n;
    unsigned endpoint;
    svahost_record_x_begin(out);
    svahost_record_x_say(out, "config ");
    svahost_record_x_number_text(out, endpoints ? endpoints : 1, 0);
    svahost_record_x_say(out, " ");
    svahost_record_x_number_text(out, frames ? frames : 1, 0);
    svahost_record_x_say(out, " 1");
    out->put(out->to, "\n", 1);
    for (n = 0; n < r->used; n++)
        if (r->items[n].sort == SVAHOST_RECORD_X_SETTING)
            svahost_record_x_two(out, "", r->items[n].text);
    for (endpoint = 0; endpoint < endpoints; endpoint++) {
        parts = svahost_record_x_find(r, SVAHOST_RECORD_X_PARTS, endpoint);
        svahost_record_x_begin(out);
        svahost_record_x_say(out, "device ");
        svahost_record_x_number_text(out, endpoint, 0);
        svahost_record_x_say(out, " ");
        svahost_record_x_say(out, parts ? parts->text : "3 asks 1 uses");
        out->put(out->to, "\n", 1);
    }
}

/* Puts all acts in the order in which they were recorded, with a heading where another thread goes on. */
static inline void svahost_record_x_acts(const struct svahost_record_x_out *out, const struct svahost_record *r)
{
    const struct svahost_record_item *it, *name;
    unsigned thread = 0;
    int is_race = 0;
    for (it = r->items; it < r->items + r->used; it++) {
        if (it->sort == SVAHOST_RECORD_X_RACE) {
            svahost_record_x_two(out, "race", "");
            is_race = 1;
        }
        if (it->sort != SVAHOST_RECORD_X_ACT && it->sort != SVAHOST_RECORD_X_ENTRY && it->sort != SVAHOST_RECORD_X_MARK
            && it->sort != SVAHOST_RECORD_X_SUBMIT)
            continue;
        if (is_race && it->thread != thread) {
            thread = it->thread;
            name = thread ? svahost_record_x_find(r, SVAHOST_RECORD_X_THREAD, thread) : 0;
            svahost_record_x_two(out, "thread ", name ? name->text : "host");
        }
        svahost_record_x_act_text(out, r, (size_t)(it - r->items));
    }
}

struct svahost_record_x_room {
    char *text;
    size_t room, used;
};

static inline void svahost_record_x_into(void *to, const char *bytes, size_t length)
{
    struct svahost_record_x_room *room = (struct svahost_record_x_room *)to;
    size_t n;
    for (n = 0; n < length; n++, room->used++)
        if (room->used < room->room)
            room->text[room->used] = bytes[n];
}

#ifdef __cplusplus
}
#endif

#endif
