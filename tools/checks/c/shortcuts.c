/*
 * Makes a call once over a value of so many bytes, that callgrind counts its instructions: the
 * first argument is `parameter` or `next`, the second what the value repeats, and the third how
 * often. Prints how many bytes the value has.
 */
#include <unftp_control.h>

#include <stdio.h>
#include <stdlib.h>
#include <string.h>

enum { ROOM = 1000000 };

static char line[ROOM + 10], out[ROOM + 10];

int main(int count, char **arguments)
{
    size_t size = 5, part, times, len;

    if (count != 4)
        return EXIT_FAILURE;
    part = strlen(arguments[2]);
    times = strtoul(arguments[3], NULL, 10);
    if (part * times > ROOM)
        return EXIT_FAILURE;
    memcpy(line, "RETR ", size);
    for (; times > 0; times--, size += part)
        memcpy(line + size, arguments[2], part);
    memcpy(line + size, "\r\n", 2);
    if (strcmp(arguments[1], "parameter") == 0) {
        if (unftp_parameter(line, size + 2, out, sizeof out, &len) != UNFTP_DONE)
            return EXIT_FAILURE;
    } else {
        struct unftp_connection connection = {.limit = 0};
        struct unftp_line taken;
        if (unftp_next(&connection, line, size + 2, out, sizeof out, &taken) != UNFTP_RETR)
            return EXIT_FAILURE;
    }
    printf("%zu\n", size - 5);
    return EXIT_SUCCESS;
}
