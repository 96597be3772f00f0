// Put before the C library (LD_PRELOAD), has the standard streams of a program give or take a byte a call, and fail behind so many:
// standard input behind FAILS_0, standard output behind FAILS_1, standard error behind FAILS_2. A stream whose variable isn't set is
// left as it is. It needs no header, so that the kit's own compiler can build it. scripts/failing-streams runs the program with it.
typedef unsigned long size;

extern long __read(int from, void *to, size bytes);
extern long __write(int to, const void *from, size bytes);
extern char *getenv(const char *name);
extern int *__errno_location(void);

enum { STREAMS = 3, INPUT_OUTPUT_ERROR = 5 };

static int is_watched[STREAMS];
static size left[STREAMS];

__attribute__((constructor)) static void begin(void) {
    static const char *const names[STREAMS] = {"FAILS_0", "FAILS_1", "FAILS_2"};
    for (int stream = 0; stream < STREAMS; stream++) {
        const char *digits = getenv(names[stream]);
        is_watched[stream] = digits != 0;
        for (; digits && *digits >= '0' && *digits <= '9'; digits++)
            left[stream] = 10 * left[stream] + (size)(*digits - '0');
    }
}

// Whether this call fails, as one more than the stream has left.
static int fails(int stream) {
    if (left[stream] > 0)
        return 0;
    *__errno_location() = INPUT_OUTPUT_ERROR;
    return 1;
}

static int is_seen(int stream, size bytes) { return stream >= 0 && stream < STREAMS && is_watched[stream] && bytes > 0; }

long read(int from, void *to, size bytes) {
    if (!is_seen(from, bytes))
        return __read(from, to, bytes);
    if (fails(from))
        return -1;
    long count = __read(from, to, 1);
    left[from] -= count > 0;
    return count;
}

long write(int to, const void *from, size bytes) {
    if (!is_seen(to, bytes))
        return __write(to, from, bytes);
    if (fails(to))
        return -1;
    long count = __write(to, from, 1);
    left[to] -= count > 0;
    return count;
}
