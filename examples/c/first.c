/* The first example: takes one line, and prints its path. */
#include <stdio.h>
#include <unftp_control.h>

int main(void)
{
    const char received[] = "retr a.txt\r\nNO";
    struct unftp_connection connection = {4096, 0, 0};
    struct unftp_line line;
    char area[3 * sizeof received];

    if (unftp_next(&connection, received, sizeof received - 1, area, sizeof area, &line)
        == UNFTP_RETR)
        printf("%.*s is asked for\n", (int)line.value_len, unftp_value(&line, received, area));
    return 0;
}
