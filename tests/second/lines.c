/* Reads a job from standard input and prints the route program's lines, by the second router. */
#include "second.h"

#include <stdio.h>
#include <stdlib.h>

int main(void)
{
    static uint8_t job[8193]; /* one byte more than the longest job is enough to refuse a longer one */
    size_t length = fread(job, 1, sizeof job, stdin);
    struct second_text text = {0};
    second_lines(job, length, &text);
    if (text.length)
        fwrite(text.bytes, 1, text.length, stdout);
    free(text.bytes);
    return 0;
}
