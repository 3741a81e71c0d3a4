/* What is read and written: every failure of a read or a write is told, and none is passed over. */
#define _POSIX_C_SOURCE 200809L
#include "command.h"

#include <errno.h>
#include <fcntl.h>
#include <poll.h>
#include <signal.h>
#include <stdarg.h>
#include <stdio.h>
#include <string.h>
#include <unistd.h>

enum { IN = 0, OUT = 1 };

static uint8_t waiting[PIECE]; /* what is to be written */
static size_t waits;
static int write_failed; /* errno of the first write that failed; nothing is written after it */

/* A closed standard stream is replaced by one that fails in the same manner, so that no opened file takes its place. */
void open_streams(void)
{
    for (int file = IN; file <= OUT + 1; file++)
        if (fcntl(file, F_GETFD) < 0)
            (void)!open("/dev/null", file == IN ? O_WRONLY : O_RDONLY);
    signal(SIGPIPE, SIG_IGN);
}

int complain(const char *format, ...)
{
    va_list values;
    va_start(values, format);
    fputs("wexxolin: ", stderr);
    vfprintf(stderr, format, values);
    fputc('\n', stderr);
    va_end(values);
    return WRONG;
}

int complain_at(const struct place *place, const char *format, ...)
{
    va_list values;
    va_start(values, format);
    fprintf(stderr, "wexxolin: %s, line %zu, column %zu: ", place->name, place->line, place->column);
    vfprintf(stderr, format, values);
    fputc('\n', stderr);
    va_end(values);
    return WRONG;
}

/* No name, or -, is standard input. */
int open_source(struct source *from, const char *name)
{
    from->at = from->end = 0;
    from->bytes = from->piece;
    from->byte = 0;
    from->failed = false;
    from->here = (struct place){ name, 1, 0 };
    if (!name || !strcmp(name, "-")) {
        from->here.name = "standard input";
        from->file = IN;
        return DONE;
    }
    from->file = open(name, O_RDONLY | O_CLOEXEC);
    return from->file < 0 ? complain("%s cannot be opened: %s", name, strerror(errno)) : DONE;
}

/* What is read already, as a source. */
void open_bytes(struct source *from, const char *name, const uint8_t *bytes, size_t length)
{
    from->byte = 0;
    from->here = (struct place){ name, 1, 0 };
    from->file = -1;
    from->bytes = bytes;
    from->at = 0;
    from->end = length;
    from->failed = false;
}

/* Whether what failed is worth trying again; waits until it is. */
static bool again(int file, short events)
{
    if (errno == EINTR)
        return true;
    if (errno != EAGAIN && errno != EWOULDBLOCK)
        return false;
    struct pollfd one = { .fd = file, .events = events };
    return poll(&one, 1, -1) >= 0 || errno == EINTR;
}

static bool fill(struct source *from)
{
    ssize_t got;
    if (from->file < 0)
        return false;
    do
        got = read(from->file, from->piece, PIECE);
    while (got < 0 && again(from->file, POLLIN));
    if (got < 0) {
        complain("%s cannot be read: %s", from->here.name, strerror(errno));
        from->failed = true;
    }
    from->at = 0;
    from->end = got < 0 ? 0 : (size_t)got;
    return got > 0;
}

/* Goes on to the next byte and hands it back. */
int next_byte(struct source *from)
{
    if (from->failed || (from->at == from->end && !fill(from)))
        return from->byte = -1;
    if (from->byte == '\n') {
        from->here.line++;
        from->here.column = 0;
    }
    from->byte = from->bytes[from->at++];
    if ((from->byte & 0xc0) != 0x80) /* a letter of several bytes is one column */
        from->here.column++;
    return from->byte;
}

void skip_blanks(struct source *from)
{
    while (from->byte == ' ' || from->byte == '\t' || from->byte == '\r')
        next_byte(from);
}

bool at_line_end(const struct source *from)
{
    return from->byte == '\n' || from->byte < 0;
}

/* A complaint about the byte that was read last. */
int wrong_here(const struct source *from, const char *wanted)
{
    if (from->failed)
        return WRONG;
    if (at_line_end(from))
        return complain_at(&from->here, "the line ends where there should be %s", wanted);
    if (from->byte < 32 || from->byte > 126)
        return complain_at(&from->here, "the byte %d stands where there should be %s", from->byte, wanted);
    return complain_at(&from->here, "'%c' stands where there should be %s", from->byte, wanted);
}

/* What was found in the file, unless a read failed. */
int close_source(struct source *from, int status)
{
    if (from->file > IN)
        close(from->file);
    return from->failed ? WRONG : status;
}

static void write_waiting(void)
{
    size_t done = 0;
    while (done < waits && !write_failed) {
        ssize_t sent = write(OUT, waiting + done, waits - done);
        if (sent >= 0)
            done += (size_t)sent;
        else if (!again(OUT, POLLOUT))
            write_failed = errno;
    }
    waits = 0;
}

void put_bytes(const void *bytes, size_t count)
{
    const uint8_t *from = bytes;
    while (count > 0) {
        size_t part = count < PIECE - waits ? count : PIECE - waits;
        memcpy(waiting + waits, from, part);
        waits += part;
        from += part;
        count -= part;
        if (waits == PIECE)
            write_waiting();
    }
}

/* At most 1,023 bytes. */
void put(const char *format, ...)
{
    char text[1024];
    va_list values;
    va_start(values, format);
    int length = vsnprintf(text, sizeof text, format, values);
    va_end(values);
    if (length > 0)
        put_bytes(text, (size_t)length < sizeof text ? (size_t)length : sizeof text - 1);
}

/* Writes what waits, and hands back the status, or WRONG if any write failed. */
int finish(int status)
{
    write_waiting();
    if (write_failed)
        return complain("standard output cannot be written: %s", strerror(write_failed));
    return status;
}

/* A text has no byte below 32 but tab, newline and carriage return. */
bool of_text(int byte)
{
    return byte >= 32 || byte == '\t' || byte == '\n' || byte == '\r';
}
