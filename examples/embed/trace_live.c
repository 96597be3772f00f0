/*
 * A dialogue with svahost over a pipe, in which the partner is killed and the dialogue goes on.
 *
 *     cc trace_live.c -o trace_live
 *     ./trace_live [PROGRAM]              the dialogue below; PROGRAM is svahost where none is named
 *     ./trace_live --speed N [PROGRAM]    how many lines a second are asked and answered, one after the other
 *
 * The partner is `svahost trace --live`. Each line that is a step, or is wrong, has one row, which comes at once. A
 * config that is right, a comment, an empty line and `end => ..` have none, so who waits for one waits for ever. For a
 * test of your own take partner_begin, partner_ask and partner_end.
 */
#define _POSIX_C_SOURCE 200809L
#include <errno.h>
#include <signal.h>
#include <stdio.h>
#include <stdlib.h>
#include <string.h>
#include <sys/types.h>
#include <sys/wait.h>
#include <time.h>
#include <unistd.h>

enum { MOST_LINES = 4096, MOST_BYTES = 4096, AT_ONCE = 200 };

/* A run of the program, and all that was said, so that a new run can be brought to the same place. */
struct partner {
    const char *program;
    pid_t pid;
    FILE *to, *from;
    char *lines[MOST_LINES], *rows[MOST_LINES]; /* line 0 is the config, and has no row */
    size_t count;
    int starts;
};

static void fail(const char *what)
{
    fprintf(stderr, "trace_live: %s\n", what);
    exit(3);
}

/* A copy of a text that stays. */
static char *keep(const char *text)
{
    char *copy = strdup(text);
    if (copy == NULL)
        fail("out of memory");
    return copy;
}

/* Sends a line. 0 where the program has gone. */
static int send_line(struct partner *it, const char *line)
{
    return fprintf(it->to, "%s\n", line) > 0 && fflush(it->to) == 0;
}

/* Reads a row, without its end. 0 where the program has gone, or in the middle of the row. */
static int read_row(struct partner *it, char row[MOST_BYTES])
{
    size_t length;
    if (fgets(row, MOST_BYTES, it->from) == NULL)
        return 0;
    length = strlen(row);
    if (length == 0 || row[length - 1] != '\n')
        return 0;
    row[length - 1] = '\0';
    return 1;
}

/* Lets go of a run, and returns its status. */
static int let_go(struct partner *it)
{
    int status = 0;
    if (it->to != NULL)
        fclose(it->to);
    fclose(it->from);
    while (waitpid(it->pid, &status, 0) < 0 && errno == EINTR)
        ;
    return WIFEXITED(status) ? WEXITSTATUS(status) : 128;
}

/* Runs the program with its standard input and output on pipes. */
static void run(struct partner *it)
{
    int down[2], up[2];
    if (pipe(down) != 0 || pipe(up) != 0 || (it->pid = fork()) < 0)
        fail("no process");
    if (it->pid == 0) {
        dup2(down[0], 0);
        dup2(up[1], 1);
        close(down[0]);
        close(down[1]);
        close(up[0]);
        close(up[1]);
        execlp(it->program, it->program, "trace", "--live", (char *)NULL);
        _exit(127);
    }
    close(down[0]);
    close(up[1]);
    it->to = fdopen(down[1], "w");
    it->from = fdopen(up[0], "r");
    if (it->to == NULL || it->from == NULL)
        fail("no stream");
}

/* Starts the program, and tells it all that was said. 0 where it goes meanwhile. */
static int start(struct partner *it)
{
    char row[MOST_BYTES];
    size_t first, at, end;
    if (it->starts++ > 0) {
        kill(it->pid, SIGKILL);
        let_go(it);
    }
    run(it);
    if (!send_line(it, it->lines[0]))
        return 0;
    /* Some hundred lines in one go: so both pipes have room, and the program reads seldom. */
    for (first = 1; first < it->count; first = end) {
        end = it->count - first > AT_ONCE ? first + AT_ONCE : it->count;
        for (at = first; at < end; at++)
            if (fprintf(it->to, "%s\n", it->lines[at]) < 0)
                return 0;
        if (fflush(it->to) != 0)
            return 0;
        for (at = first; at < end; at++) {
            if (!read_row(it, row))
                return 0;
            if (strcmp(row, it->rows[at]) != 0)
                fail("a row isn't what it was before: not the same program?");
        }
    }
    return 1;
}

/* Says a line, and takes its row. Where the program has gone it is started again, three times at most. */
static void say(struct partner *it, const char *line, char row[MOST_BYTES])
{
    int tries = 0, is_there = 1;
    while (!is_there || !send_line(it, line) || !read_row(it, row)) {
        if (tries++ == 3)
            fail("the program ends again and again");
        is_there = start(it);
    }
}

static void partner_begin(struct partner *it, const char *program, const char *config)
{
    memset(it, 0, sizeof *it);
    it->program = program;
    it->lines[it->count++] = keep(config);
    if (!start(it))
        fail("the program can't be run");
}

/* Whether a line has `end =>` at this word. Such a line has no row, and none may follow it. */
static int is_end(const char *word)
{
    return strncmp(word, "end ", 4) == 0 && strncmp(word + 3 + strspn(word + 3, " "), "=>", 2) == 0;
}

/* The row of a line that is a step. It stays. */
static const char *partner_ask(struct partner *it, const char *line)
{
    char row[MOST_BYTES];
    const char *first = line + strspn(line, " ");
    if (*first == '\0' || *first == '#' || is_end(first) || strchr(line, '\n') != NULL || it->count == MOST_LINES)
        fail("that is no step, or there are too many");
    say(it, line, row);
    /* the config has a row only where something is wrong with it */
    if (it->count == 1 && (strncmp(row, "line 1:", 7) == 0 || strncmp(row, "refused 1 ", 10) == 0))
        fail(row);
    it->lines[it->count] = keep(line);
    it->rows[it->count] = keep(row);
    return it->rows[it->count++];
}

/* Ends the dialogue: prints the row of the counts, and returns the program's status. */
static int partner_end(struct partner *it)
{
    char row[MOST_BYTES];
    fclose(it->to);
    it->to = NULL;
    if (read_row(it, row))
        puts(row);
    while (it->count > 0) {
        free(it->lines[--it->count]);
        free(it->rows[it->count]);
    }
    return let_go(it);
}

static void dialogue(const char *program)
{
    static const char *const before[] = {
        "s: space", "m: map s 16 w", "b: bind 0 s", "deliver b", "ask 0 b 16", "deliver request 0",
        "deliver completion 0", "u: use 0 b 16 w", "unmap s 16", "p: pump 0", "deliver p", NULL,
    };
    static const char *const behind[] = {
        "finish 0 p 1", "end 0 u", "f: finish 0 p 1", "deliver f", "pump 0", "look m", "mapp s 16 w", "map s 16 w",
        NULL,
    };
    static struct partner it;
    int status, i;
    partner_begin(&it, program, "config 1 4 1");
    for (i = 0; before[i] != NULL; i++)
        puts(partner_ask(&it, before[i]));
    kill(it.pid, SIGKILL);
    printf("-- the partner was killed behind %d rows\n", (int)it.count - 1);
    for (i = 0; behind[i] != NULL; i++)
        puts(partner_ask(&it, behind[i]));
    status = partner_end(&it);
    printf("-- started %d times; status %d\n", it.starts, status);
}

static void speed(long count, const char *program)
{
    static struct partner it;
    struct timespec begun, ended;
    char row[MOST_BYTES];
    long i;
    partner_begin(&it, program, "config 1 4 1");
    partner_ask(&it, "space");
    clock_gettime(CLOCK_MONOTONIC, &begun);
    for (i = 0; i < count; i++)
        say(&it, i % 2 == 0 ? "map 0 16 w" : "unmap 0 16", row);
    clock_gettime(CLOCK_MONOTONIC, &ended);
    printf("%.0f lines a second\n",
           (double)count / ((double)(ended.tv_sec - begun.tv_sec) + 1e-9 * (double)(ended.tv_nsec - begun.tv_nsec)));
    partner_end(&it);
}

int main(int argc, char **argv)
{
    /* else the first line to a partner that has gone would end this program */
    signal(SIGPIPE, SIG_IGN);
    if (argc >= 3 && strcmp(argv[1], "--speed") == 0)
        speed(atol(argv[2]), argc > 3 ? argv[3] : "svahost");
    else
        dialogue(argc > 1 ? argv[1] : "svahost");
    return 0;
}
