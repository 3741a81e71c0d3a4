/* wexxolin: the proved router for people. One table of subcommands; a line here adds one. */
#include "command.h"

#include <stdio.h>
#include <string.h>

static const struct subcommand {
    const char *name, *words, *says;
    int least, most; /* how many words it takes */
    int (*run)(int count, char **words);
} table[] = {
    { "route", "[JOB]", "prints the route of each net, a line each", 0, 1, run_route },
    { "job", "[--hex] [TEXT]", "makes a job of a drawn board: rows of . and #, then lines such as 'net 7 0,0 12,5'", 0, 2,
      run_job },
    { "text", "[JOB]", "prints a job as a drawn board with its nets", 0, 1, run_text },
    { "draw", "[--expanded] [--net N] [JOB [ROUTES]]", "draws a job with its routes, or with the lines or records of ROUTES", 0,
      5, run_draw },
    { "records", "[JOB]", "writes the routes of a job's nets as records of 8 bytes", 0, 1, run_records },
    { "read", "[ROUTES]", "prints what a file of route records says, a line for each net", 0, 1, run_read },
    { "check", "JOB ROUTES", "checks a file of route records against a job, and prints each net's length in units and its legs", 2, 2,
      run_check },
    { "explain", "[N]", "says what the number N of a refusal means and what to do; all of them without N", 0, 1, run_explain },
    { "sight", "JOB AX,AY BX,BY | W H CELLS AX AY BX BY",
      "says what stops a leg first: clear, cell X Y, edge X Y X Y, or vertex X Y (a pinched one)", 3, 7, run_sight },
    { "unpack", "W H [PACKED]", "writes the cells of a packed board of W by H cells: a byte each, 0 free and 1 blocked", 2, 3,
      run_unpack },
    { "pack", "W H [CELLS]", "writes W by H cells, a byte each, as a packed board: a bit each, rows filled to whole bytes", 2, 3,
      run_pack },
    { "count", "W H [PACKED]", "prints how many cells of a packed board of W by H cells are blocked", 2, 3, run_count },
};

enum { SUBCOMMANDS = sizeof table / sizeof table[0] };

static int help(void)
{
    put("usage: wexxolin SUBCOMMAND [WORD...]\n\n");
    for (size_t i = 0; i < SUBCOMMANDS; i++)
        put("  wexxolin %s %s\n        %s\n", table[i].name, table[i].words, table[i].says);
    put("\nA job or a route file has 8-byte records, or the same in hex with # comments; - or nothing is standard input.\n"
        "Packed boards and cells are always bytes.\n"
        "Status: 0 done, 1 refused, 2 used wrongly or a file that cannot be read or written.\n"
        "--help and --version stand anywhere.\n");
    return DONE;
}

static int help_on(const struct subcommand *one)
{
    put("usage: wexxolin %s %s\n%s\n", one->name, one->words, one->says);
    return DONE;
}

static int version(void)
{
    int number = (int)wexxolin_version();
    put("wexxolin %d.%d.%d\n", number / 10000, number / 100 % 100, number % 100);
    return DONE;
}

static bool asked(int count, char **words, const char *option)
{
    for (int i = 0; i < count; i++)
        if (!strcmp(words[i], option))
            return true;
    return false;
}

/* Whether an option stands in a subcommand's words of the table. */
static bool has_option(const struct subcommand *one, const char *option)
{
    const char *found = strstr(one->words, option);
    return found && found > one->words && found[-1] == '[' && strchr(" ]", found[strlen(option)]);
}

/* A word that begins with - is an option; - alone is standard input. */
static const char *unknown_option(const struct subcommand *one, int count, char **words)
{
    for (int i = 0; i < count; i++)
        if (words[i][0] == '-' && words[i][1] && !has_option(one, words[i]))
            return words[i];
    return NULL;
}

static int run(const struct subcommand *one, int count, char **words)
{
    if (asked(count, words, "--help"))
        return help_on(one);
    if (asked(count, words, "--version"))
        return version();
    const char *unknown = unknown_option(one, count, words);
    if (unknown)
        return complain("wexxolin %s has no option %s; usage: wexxolin %s %s", one->name, unknown, one->name, one->words);
    if (count >= one->least && count <= one->most)
        return one->run(count, words);
    return complain("usage: wexxolin %s %s", one->name, one->words);
}

int main(int count, char **words)
{
    open_streams();
    if (count < 2)
        return complain("no subcommand; 'wexxolin --help' lists them");
    for (size_t i = 0; i < SUBCOMMANDS; i++)
        if (!strcmp(words[1], table[i].name))
            return finish(run(&table[i], count - 2, words + 2));
    if (asked(count - 1, words + 1, "--help"))
        return finish(help());
    if (asked(count - 1, words + 1, "--version"))
        return finish(version());
    return complain("there is no subcommand '%s'; 'wexxolin --help' lists them", words[1]);
}
