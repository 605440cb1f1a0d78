/*
 * Takes the first line of each input on standard input by unftp_next, each input with its length
 * before it, as four bytes with the least first. Prints a line for each: how many times the call
 * asked for memory, what it returned, and where the value is: `line`, `area` or `none`. It is
 * linked with --wrap=malloc and --wrap=realloc.
 */
#include <unftp_control.h>

#include <stdio.h>
#include <stdlib.h>

enum { ROOM = 1024 * 1024 };

void *__real_malloc(size_t size);
void *__real_realloc(void *block, size_t size);
void *__wrap_malloc(size_t size);
void *__wrap_realloc(void *block, size_t size);

static unsigned long allocations;
static char input[ROOM], area[3 * ROOM];

void *__wrap_malloc(size_t size)
{
    allocations++;
    return __real_malloc(size);
}

void *__wrap_realloc(void *block, size_t size)
{
    allocations++;
    return __real_realloc(block, size);
}

static const char *place_of(const struct unftp_line *line)
{
    if (line->value_len == 0)
        return "none";
    return line->value_at != 0 ? "line" : "area";
}

int main(void)
{
    unsigned char size[4];

    while (fread(size, 1, sizeof size, stdin) == sizeof size) {
        size_t len = (size_t)size[0] | (size_t)size[1] << 8 | (size_t)size[2] << 16
            | (size_t)size[3] << 24;
        struct unftp_connection connection = {0, 0, 0};
        struct unftp_line line;
        enum unftp_result result;

        if (len > sizeof input || fread(input, 1, len, stdin) != len)
            return EXIT_FAILURE;
        allocations = 0;
        result = unftp_next(&connection, input, len, area, sizeof area, &line);
        if (result == UNFTP_NO_ROOM)
            return EXIT_FAILURE;
        printf("%lu %s %s\n", allocations, unftp_result_text(result), place_of(&line));
    }
    return EXIT_SUCCESS;
}
