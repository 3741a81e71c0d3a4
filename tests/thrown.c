/* Gives the route program random jobs, damaged jobs and random bytes, and compares what it prints with the second router's lines.

       thrown SCALE SEED COMMAND...

   COMMAND starts the program; the job comes through a pipe, in pieces. The document says nothing of the exit status, so only a
   program that cannot be started or is killed differs by it. The first difference ends the run with 1 and tells the job in hex. */
#define _POSIX_C_SOURCE 200809L
#include "boards.h"
#include "second/second.h"

#include <signal.h>
#include <stdio.h>
#include <stdlib.h>
#include <string.h>
#include <sys/wait.h>
#include <unistd.h>

enum {
    LONGEST_JOB = 8192,
    LAST_NUMBER = 20,
    LONGEST_INPUT = 60000, /* fits into a pipe, so that it can be written before anything is read */
    PATIENCE = 60          /* seconds after which a program that has not ended is killed */
};

static struct dice dice;
static char **command;

static size_t below(size_t count) { return dice_below(&dice, count); }

static void must(int good, const char *what)
{
    if (!good) {
        perror(what);
        exit(2);
    }
}

/* ---------- the program ---------- */

/* Starts it; in[1] is its standard input, out[0] its standard output. */
static pid_t start(int in[2], int out[2])
{
    must(pipe(in) == 0 && pipe(out) == 0, "pipe");
    pid_t child = fork();
    must(child >= 0, "fork");
    if (child == 0) {
        dup2(in[0], 0), dup2(out[1], 1);
        close(in[0]), close(in[1]), close(out[0]), close(out[1]);
        signal(SIGPIPE, SIG_DFL);
        alarm(PATIENCE);
        execvp(command[0], command);
        _exit(127);
    }
    close(in[0]), close(out[1]);
    return child;
}

/* A program that has read enough may have gone; the rest is for nobody. */
static void give(int to, const struct job *job)
{
    for (size_t at = 0; at < job->length;) {
        size_t left = job->length - at, piece = 1 + below(2000);
        ssize_t sent = write(to, job->bytes + at, piece < left ? piece : left);
        if (sent < 0)
            break;
        at += (size_t)sent;
    }
    close(to);
}

static void take(int from, struct second_text *text)
{
    for (ssize_t got = 1; got > 0; text->length += (size_t)got) {
        if (text->room - text->length < 4096) {
            text->room = text->room * 2 + 8192;
            text->bytes = realloc(text->bytes, text->room);
            must(text->bytes != NULL, "realloc");
        }
        got = read(from, text->bytes + text->length, text->room - text->length);
        must(got >= 0, "read");
    }
    close(from);
}

/* What the program prints for a job; returns its status as wait gives it. */
static int run(const struct job *job, struct second_text *text)
{
    int in[2], out[2], status;
    pid_t child = start(in, out);
    give(in[1], job);
    take(out[0], text);
    must(waitpid(child, &status, 0) == child, "waitpid");
    return status;
}

/* ---------- comparing ---------- */

static void tell(const struct job *job, const struct second_text *theirs, const struct second_text *ours, int status)
{
    fprintf(stderr, "DIFFERENCE in group 'jobs thrown at the program'\n");
    fprintf(stderr, "a job of %zu bytes, status %d; the program prints\n", job->length, status);
    fwrite(theirs->bytes, 1, theirs->length, stderr);
    fprintf(stderr, "the second router prints\n");
    fwrite(ours->bytes, 1, ours->length, stderr);
    fprintf(stderr, "the job\n");
    for (size_t i = 0; i < job->length; i++)
        fprintf(stderr, "%02x%s", job->bytes[i], i % 8 == 7 || i + 1 == job->length ? "\n" : "");
}

/* Returns the number that the job is refused by, or 0. */
static unsigned compare(const struct job *job)
{
    struct second_text theirs = {0}, ours = {0};
    int status = run(job, &theirs);
    second_lines(job->bytes, job->length, &ours);
    int started = WIFEXITED(status) && WEXITSTATUS(status) < 126;
    int same = theirs.length == ours.length && (ours.length == 0 || memcmp(theirs.bytes, ours.bytes, ours.length) == 0);
    if (!started || !same) {
        tell(job, &theirs, &ours, status);
        exit(1);
    }
    unsigned number = 0;
    if (ours.length > 0 && sscanf(ours.bytes, "refused %u", &number) != 1)
        number = 0;
    free(theirs.bytes);
    free(ours.bytes);
    return number;
}

/* ---------- jobs ---------- */

static void throw_bytes(struct job *job)
{
    job->length = below(4) ? below(120) : below(LONGEST_JOB + 20);
    dice_fill(&dice, job->bytes, job->length);
    if (below(2))
        job->length = job->length / 8 * 8;
    for (size_t i = 0; i < job->length && below(20); i++) /* mostly small bytes, and a board first, so that more is read */
        job->bytes[i] = (uint8_t)(job->bytes[i] % (i % 8 < 6 ? 4 : 1));
    if (job->length >= 8 && below(4))
        memcpy(job->bytes, "\1\0\4\3\0\0\0\0", 8);
}

/* At the bounds of the length: records of a board alone, or one byte too many or too few. */
static void throw_long(struct job *job)
{
    job_full(&dice, job, 2 + below(5), 2 + below(5));
    size_t length = below(3) ? LONGEST_JOB - 9 + below(19) : LONGEST_JOB + below(LONGEST_INPUT - LONGEST_JOB);
    if (length > job->length)
        memset(job->bytes + job->length, 0, length - job->length);
    job->length = length;
}

static void throw_job(struct job *job, size_t k)
{
    if (k % 10 == 0)
        throw_bytes(job);
    else if (k % 40 == 1)
        throw_long(job);
    else if (k % 40 == 2)
        job_full(&dice, job, 1 + below(8), 1 + below(8));
    else if (k % 40 == 3)
        job_random(&dice, job, 60, 3, 63);
    else
        job_random(&dice, job, 12, 8, 12);
    if (k % 2)
        job_damage(&dice, job);
}

int main(int argc, char **argv)
{
    static struct job job;
    if (argc < 4) {
        fprintf(stderr, "usage: thrown SCALE SEED COMMAND...\n");
        return 2;
    }
    size_t jobs = 600 * (size_t)strtoull(argv[1], NULL, 0), times[LAST_NUMBER + 1] = {0};
    dice = dice_of(strtoull(argv[2], NULL, 0));
    command = argv + 3;
    signal(SIGPIPE, SIG_IGN);
    for (size_t k = 0; k < jobs; k++) {
        throw_job(&job, k);
        times[compare(&job)]++;
    }
    printf("jobs thrown at the program, seed %s: %zu compared, %zu of them accepted; refused by", argv[2], jobs, times[0]);
    for (size_t number = 1; number <= LAST_NUMBER; number++)
        if (times[number])
            printf(" %zu: %zu", number, times[number]);
    printf("\n");
    return 0;
}
