/* Numbers and vertices among the words of a command line. */
#include "command.h"

/* The number at *word, which moves behind it: decimal digits, below 2^64. */
static bool digits(const char **word, uint64_t *number)
{
    const char *from = *word;
    for (*number = 0; **word >= '0' && **word <= '9'; ++*word) {
        uint64_t digit = (uint64_t)(**word - '0');
        if (*number > (UINT64_MAX - digit) / 10)
            return false;
        *number = *number * 10 + digit;
    }
    return *word != from;
}

bool whole_number(const char *word, uint64_t *number)
{
    return digits(&word, number) && *word == 0;
}

/* A vertex as x,y. */
bool vertex_of(const char *word, uint64_t *x, uint64_t *y)
{
    return digits(&word, x) && *word++ == ',' && whole_number(word, y);
}
