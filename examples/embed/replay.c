/*
 * svahost in a C program: the library's functions, on a text from standard input.
 *
 *     cc replay.c $(pkg-config --cflags --libs svahost) -o replay
 *     ./replay < ../first.sva               the report of a scenario, as by `svahost replay`
 *     ./replay test < ../held-back.svs      or check, plain, show
 *     ./replay judge < ../judge/free-before-wait.svd      or run, for its lines one by one; or explore, of a race
 *
 * The status is 0 where the library says SVAHOST_DONE, 1 for SVAHOST_FAULTED, 4 for SVAHOST_FAILS, 5 for SVAHOST_CUT_OFF,
 * 2 for a wrong command line, 3 for all else. Take `ask` for a test of your own: it gives a report in memory of the right
 * size.
 */
#include <stdio.h>
#include <stdlib.h>
#include <string.h>
#include <svahost.h>

typedef enum svahost_status function(const void *, size_t, void *, size_t, size_t *);

/* The report of a text, in memory that the caller frees. Null where memory lacks, and `*status` says so. */
static char *ask(function *call, const void *text, size_t length, size_t *needed, enum svahost_status *status)
{
    size_t room = 4096;
    char *report = NULL;
    for (;;) {
        char *larger = realloc(report, room);
        if (larger == NULL) {
            *status = SVAHOST_NO_MEMORY;
            break;
        }
        report = larger;
        *status = call(text, length, report, room, needed);
        if (*status == SVAHOST_NO_MEMORY || *status == SVAHOST_BAD_ARGUMENT)
            break;
        if (*status != SVAHOST_TOO_SMALL)
            return report;
        /* the same text has the same report: the next call is the last one */
        room = *needed;
    }
    free(report);
    return NULL;
}

/* How many moments a search looks at, at most. */
enum { MOST = 1000000 };

static enum svahost_status judge(const void *text, size_t length, void *report, size_t room, size_t *needed)
{
    return svahost_judge(text, length, MOST, report, room, needed);
}

static enum svahost_status explore(const void *text, size_t length, void *report, size_t room, size_t *needed)
{
    return svahost_explore(text, length, MOST, report, room, needed);
}

static int exit_status(enum svahost_status status)
{
    switch (status) {
    case SVAHOST_DONE:
        return 0;
    case SVAHOST_FAULTED:
        return 1;
    case SVAHOST_FAILS:
        return 4;
    case SVAHOST_CUT_OFF:
        return 5;
    default:
        return 3;
    }
}

/* All of standard input, in memory that the caller frees, or null. */
static char *read_input(size_t *length)
{
    size_t room = 65536;
    char *text = malloc(room);
    *length = 0;
    while (text != NULL) {
        size_t count = fread(text + *length, 1, room - *length, stdin);
        char *larger;
        *length += count;
        if (*length < room) {
            if (!ferror(stdin))
                return text;
            break;
        }
        larger = room <= (size_t)-1 / 2 ? realloc(text, room *= 2) : NULL;
        if (larger == NULL)
            break;
        text = larger;
    }
    free(text);
    return NULL;
}

int main(int argc, char **argv)
{
    static const struct {
        const char *name;
        function *call;
    } commands[] = {
        {"replay", svahost_replay}, {"check", svahost_check}, {"test", svahost_test},
        {"plain", svahost_plain},   {"show", svahost_show},   {"judge", judge},
        {"run", svahost_run},       {"explore", explore},
    };
    const char *name = argc > 1 ? argv[1] : "replay";
    size_t length, needed, i;
    enum svahost_status status;
    char *text, *report;

    for (i = 0; i < sizeof commands / sizeof *commands; i++)
        if (argc <= 2 && strcmp(commands[i].name, name) == 0)
            break;
    if (i == sizeof commands / sizeof *commands) {
        fprintf(stderr, "replay: wanted replay, check, test, plain, show, judge, run or explore\n");
        return 2;
    }
    text = read_input(&length);
    if (text == NULL) {
        fprintf(stderr, "replay: standard input can't be read\n");
        return 3;
    }
    report = ask(commands[i].call, text, length, &needed, &status);
    free(text);
    if (report == NULL) {
        fprintf(stderr, "replay: the library answers %d\n", (int)status);
        return 3;
    }
    if (fwrite(report, 1, needed, stdout) != needed || fflush(stdout) != 0)
        status = SVAHOST_NO_MEMORY;
    free(report);
    return exit_status(status);
}
