/* A job from a file: bytes, or hex text with # comments. It is read once, with no memory that grows, so it is taken both as
   bytes and as text until a byte comes that no text has. */
#include "command.h"

#include <stdio.h>
#include <stdlib.h>
#include <string.h>

struct text {
    uint8_t bytes[WEXXOLIN_MOST_JOB_BYTES + 1];
    size_t digits;
    size_t line_digits;  /* how many digits came before this line */
    bool comment;
    size_t name_length;  /* of the comment that is being read */
    int bad;             /* the first byte that is neither hex nor space, and its place; 0 if there is none */
    struct place bad_place;
};

static int hex_value(int byte)
{
    if (byte >= '0' && byte <= '9')
        return byte - '0';
    if (byte >= 'a' && byte <= 'f')
        return byte - 'a' + 10;
    return byte >= 'A' && byte <= 'F' ? byte - 'A' + 10 : -1;
}

/* A comment behind the digits of exactly one record is that record's name. */
static void take_name(struct text *text, struct job *job, int byte)
{
    enum { DIGITS = 2 * WEXXOLIN_RECORD_BYTES };
    size_t record = text->line_digits / DIGITS;
    if (text->line_digits % DIGITS != 0 || text->digits != text->line_digits + DIGITS || record >= MOST_RECORDS)
        return;
    bool space = byte == ' ' || byte == '\t' || byte == '\r';
    if ((space && text->name_length == 0) || text->name_length + 1 >= NAME_ROOM)
        return;
    job->names[record][text->name_length++] = space ? ' ' : (char)byte;
}

/* The blanks at a name's end go, and what a cut has left of a letter of several bytes. */
void trim_name(char *name)
{
    size_t length = strlen(name);
    if (length + 1 == NAME_ROOM) {
        while (length > 0 && (name[length - 1] & 0xc0) == 0x80)
            length--;
        if (length > 0 && (name[length - 1] & 0x80))
            length--;
    }
    while (length > 0 && name[length - 1] == ' ')
        length--;
    name[length] = 0;
}

static void take_byte(struct text *text, struct job *job, const struct source *from, int byte)
{
    if (byte == '\n') {
        text->comment = false;
        text->line_digits = text->digits;
    } else if (text->comment) {
        take_name(text, job, byte);
    } else if (byte == '#') {
        text->comment = true;
        text->name_length = 0;
    } else if (hex_value(byte) >= 0) {
        if (text->digits / 2 < sizeof text->bytes) {
            uint8_t *to = &text->bytes[text->digits / 2];
            *to = (uint8_t)(*to << 4 | hex_value(byte));
        }
        text->digits++;
    } else if (byte != ' ' && byte != '\t' && byte != '\r' && !text->bad) {
        text->bad = byte;
        text->bad_place = from->here;
    }
}

/* What is wrong with a text as hex, if anything. */
static int judge(const struct text *text, const struct source *from)
{
    const struct place *bad = &text->bad_place;
    if (text->bad) {
        if (text->bad == '.' || text->bad == 'n')
            return complain_at(bad, "'%c' is no hex digit; a drawn board goes through 'wexxolin job' first", text->bad);
        if (text->bad > 126)
            return complain_at(bad, "a letter that is no hex digit");
        return complain_at(bad, "'%c' is no hex digit", text->bad);
    }
    if (text->digits % 2 != 0)
        return complain_at(&from->here, "the last byte has one hex digit, not two");
    return DONE;
}

int read_job(struct job *job, const char *name)
{
    static struct source from;
    static struct text text;
    memset(&text, 0, sizeof text);
    memset(job, 0, sizeof *job);
    int status = open_source(&from, name);
    if (status != DONE)
        return status;
    size_t count = 0;
    bool bytes = false;
    for (int byte; (byte = next_byte(&from)) >= 0; count++) {
        if (count < sizeof job->bytes)
            job->bytes[count] = (uint8_t)byte;
        bytes = bytes || !of_text(byte);
        take_byte(&text, job, &from, byte);
    }
    if (from.failed || bytes || count == 0) {
        memset(job->names, 0, sizeof job->names);
    } else {
        status = judge(&text, &from);
        memcpy(job->bytes, text.bytes, sizeof job->bytes);
        count = text.digits / 2;
        for (size_t record = 0; record < MOST_RECORDS; record++)
            trim_name(job->names[record]);
    }
    job->length = count < sizeof job->bytes ? count : sizeof job->bytes;
    return close_source(&from, status);
}

int read_bytes(uint8_t *to, size_t room, size_t *length, const char *name)
{
    static struct source from;
    int status = open_source(&from, name);
    if (status != DONE)
        return status;
    for (*length = 0; next_byte(&from) >= 0;)
        if (*length < room)
            to[(*length)++] = (uint8_t)from.byte;
    return close_source(&from, status);
}

/* A whole file of any length; whether it is text is seen on the way. */
int read_file(struct file *file, const char *name)
{
    static struct source from;
    int status = open_source(&from, name);
    if (status != DONE)
        return status;
    file->name = from.here.name;
    file->text = true;
    while (next_byte(&from) >= 0) {
        if (file->length == file->room) {
            file->room = file->room ? 2 * file->room : PIECE;
            uint8_t *bytes = realloc(file->bytes, file->room);
            if (!bytes)
                return close_source(&from, complain("no memory for %s", file->name));
            file->bytes = bytes;
        }
        file->text = file->text && of_text(from.byte);
        file->bytes[file->length++] = (uint8_t)from.byte;
    }
    file->text = file->text && file->length > 0;
    return close_source(&from, status);
}

/* The bytes of hex text in the place of the text. */
int hex_bytes(struct file *file)
{
    static struct source from;
    size_t digits = 0;
    bool comment = false;
    open_bytes(&from, file->name, file->bytes, file->length);
    while (next_byte(&from) >= 0) {
        int value = hex_value(from.byte);
        comment = from.byte == '#' || (comment && from.byte != '\n');
        if (comment || from.byte == ' ' || from.byte == '\t' || from.byte == '\r' || from.byte == '\n')
            continue;
        if (value < 0)
            return wrong_here(&from, "a hex digit");
        file->bytes[digits / 2] = (uint8_t)(digits % 2 ? file->bytes[digits / 2] << 4 | value : value);
        digits++;
    }
    file->length = digits / 2;
    return digits % 2 ? complain_at(&from.here, "the last byte has one hex digit, not two") : DONE;
}

/* The job's board by the library; a refusal is printed. */
int read_board(struct board *board, const struct job *job)
{
    board->is = wexxolin_board(job->bytes, job->length, board->cells, sizeof board->cells);
    return board->is.number == WEXXOLIN_DONE ? DONE : refuse(board->is.number, board->is.place, board->is.second);
}

/* The name of an accepted job's net by its index: the nets are its last records. */
const char *net_name(const struct job *job, const struct board *board, size_t index)
{
    return job->names[job->length / WEXXOLIN_RECORD_BYTES - board->is.nets + index];
}
