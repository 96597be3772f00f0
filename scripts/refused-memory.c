// Put before the C library (LD_PRELOAD), refuses one request for memory of a program: that of the number in REFUSED_REQUEST,
// counted from 1. On the descriptor in REFUSED_TELL it then writes, in a word, how far the program had come: `begun` where
// it had read nothing, `reading` up to the end of its input, `working` behind that, `writing` once it had written. Threads may ask at once:
// each request has one number. It needs no header, so that the kit's own compiler can build it. scripts/refused-memory runs the programs with it.
typedef unsigned long size;

extern void *__libc_malloc(size bytes);
extern void *__libc_realloc(void *old, size bytes);
extern long __read(int from, void *to, size bytes);
extern long __write(int to, const void *from, size bytes);
extern char *getenv(const char *name);

static size asked, asked_for;
static int tell = -1;
static const char *part = "begun";

static size number_of(const char *digits) {
    size number = 0;
    for (; digits && *digits >= '0' && *digits <= '9'; digits++)
        number = 10 * number + (size)(*digits - '0');
    return number;
}

__attribute__((constructor)) static void begin(void) {
    asked_for = number_of(getenv("REFUSED_REQUEST"));
    tell = (int)number_of(getenv("REFUSED_TELL"));
}

static int is_refused(void) {
    size length = 0;
    if (asked_for == 0 || __atomic_add_fetch(&asked, 1, __ATOMIC_RELAXED) != asked_for)
        return 0;
    while (part[length])
        length++;
    __write(tell, part, length);
    return 1;
}

void *malloc(size bytes) { return is_refused() ? 0 : __libc_malloc(bytes); }

void *realloc(void *old, size bytes) { return is_refused() ? 0 : __libc_realloc(old, bytes); }

long read(int from, void *to, size bytes) {
    long count = __read(from, to, bytes);
    part = count > 0 ? "reading" : "working";
    return count;
}

long write(int to, const void *from, size bytes) {
    part = "writing";
    return __write(to, from, bytes);
}
