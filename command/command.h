/* What the parts of the command share. The command decides nothing: it reads files, calls the library, prints. */
#ifndef COMMAND_H
#define COMMAND_H

#include "wexxolin.h"

#include <stdbool.h>
#include <stddef.h>
#include <stdint.h>

/* The exit status: done; refused; used wrongly, or what cannot be read or written. */
enum status { DONE = 0, REFUSED = 1, WRONG = 2 };

enum {
    MOST_RECORDS = WEXXOLIN_MOST_JOB_BYTES / WEXXOLIN_RECORD_BYTES,
    MOST_NETS = 255,
    NAME_ROOM = 64, /* a record's name, from the comment behind it; cut if it is longer */
    PIECE = 65536   /* what is read or written at a time */
};

/* A job: its bytes, one more than the longest so that a longer one is known, and the names of its records. */
struct job {
    uint8_t bytes[WEXXOLIN_MOST_JOB_BYTES + 1];
    size_t length;
    char names[MOST_RECORDS][NAME_ROOM];
};

/* An accepted job's board. */
struct board {
    wexxolin_board_answer is;
    uint8_t cells[WEXXOLIN_MOST_CELLS];
};

/* A net of an accepted job, what the route call handed back for it, and the path and the marks that it left. */
struct search {
    wexxolin_net_answer net;
    wexxolin_route_answer is;
    wexxolin_vertex path[WEXXOLIN_MOST_VERTICES];
    uint8_t marks[WEXXOLIN_MOST_VERTICES];
};

/* A place in a file: line and column from 1. */
struct place {
    const char *name;
    size_t line, column;
};

/* A file that is read byte by byte: the byte that was read last, -1 at the end or after a read that failed, and its place. What is
   read already, all of it or a piece, are the bytes up to end. */
struct source {
    int byte;
    struct place here;
    int file; /* -1 if all is read already */
    const uint8_t *bytes;
    size_t at, end;
    bool failed;
    uint8_t piece[PIECE];
};

/* A whole file, in memory that grows. */
struct file {
    const char *name;
    uint8_t *bytes;
    size_t length, room;
    bool text;
};

/* The routes of a route file: for each net its number and how many points it has, 0 for no path; the points net after net. */
struct routes {
    uint8_t nets[MOST_NETS];
    size_t counts[MOST_NETS];
    uint8_t *xs, *ys;
    wexxolin_read_routes_answer is;
};

/* files.c: what is read and written */
void open_streams(void);
int complain(const char *format, ...) __attribute__((format(printf, 1, 2)));
int complain_at(const struct place *place, const char *format, ...) __attribute__((format(printf, 2, 3)));
int open_source(struct source *from, const char *name);
void open_bytes(struct source *from, const char *name, const uint8_t *bytes, size_t length);
int next_byte(struct source *from);
void skip_blanks(struct source *from);
bool at_line_end(const struct source *from);
int wrong_here(const struct source *from, const char *wanted);
int close_source(struct source *from, int status);
void put(const char *format, ...) __attribute__((format(printf, 1, 2)));
void put_bytes(const void *bytes, size_t count);
int finish(int status);
bool of_text(int byte);

/* read.c: a job from a file, bytes or hex text; or any bytes, of which as many are kept as there is room for */
int read_job(struct job *job, const char *name);
int read_bytes(uint8_t *to, size_t room, size_t *length, const char *name);
int read_file(struct file *file, const char *name);
int hex_bytes(struct file *file);
int read_board(struct board *board, const struct job *job);
void trim_name(char *name);
const char *net_name(const struct job *job, const struct board *board, size_t index);

/* route.c: the route of a net by its index */
void route_net(struct search *search, const struct job *job, const struct board *board, size_t index);

/* records.c: route files */
int take_routes(struct routes *routes, const struct file *file);

/* line.c: the line of a net, and of a refusal */
void put_route(const struct search *search, size_t width);
int refuse(uint64_t number, uint64_t place, uint64_t second);

/* arguments.c: the words behind a subcommand */
bool whole_number(const char *word, uint64_t *number);
bool vertex_of(const char *word, uint64_t *x, uint64_t *y);

/* The subcommands: what stands behind the subcommand's name, and how many words there are. */
int run_route(int count, char **words);
int run_job(int count, char **words);
int run_text(int count, char **words);
int run_draw(int count, char **words);
int run_explain(int count, char **words);
int run_sight(int count, char **words);
int run_unpack(int count, char **words);
int run_pack(int count, char **words);
int run_count(int count, char **words);
int run_records(int count, char **words);
int run_read(int count, char **words);
int run_check(int count, char **words);

#endif
