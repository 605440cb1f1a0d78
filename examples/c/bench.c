/*
 * Measures the calls of unftp_control.h: prints the nanoseconds that each takes, for a line or
 * a reply, the median of 50 rounds with the least and the greatest.
 */
#define _POSIX_C_SOURCE 200809L

#include <unftp_control.h>

#include <stdbool.h>
#include <stdio.h>
#include <stdlib.h>
#include <string.h>
#include <time.h>

enum { ROUNDS = 50, CALLS = 1000, SESSIONS = 50, ROOM = 4096 };

static const char session[] =
    "USER anonymous\r\nPASS guest@example.org\r\nSYST\r\nFEAT\r\nOPTS UTF8 ON\r\nPWD\r\nTYPE I\r\n"
    "CWD /pub/linux/kernel/v6.x\r\nEPSV\r\nLIST -la\r\nPORT 192,168,150,90,195,149\r\n"
    "NLST *.tar.xz\r\nSIZE linux-6.1.55.tar.xz\r\nMDTM linux-6.1.55.tar.xz\r\nREST 1048576\r\n"
    "RETR linux-6.1.55.tar.xz\r\nSITE CHMOD 644 upload.txt\r\nXCRC linux-6.1.55.tar.xz\r\nNOOP\r\n"
    "QUIT\r\n";
static const char features[] =
    "Extensions supported:\n AUTH TLS\n EPSV\n MDTM\n MLSD\n MLST\n PBSZ\n PROT\n REST STREAM\n"
    " SITE MD5\n SIZE\n UTF8\nEND";

static void wants(bool holds)
{
    if (!holds)
        abort();
}

/* Takes the lines, and begins again after the last. */
static void take_lines(const char *bytes, size_t len)
{
    struct unftp_connection connection = {ROOM, 0, 0};
    struct unftp_line line;
    char area[3 * ROOM];
    size_t start = 0;

    for (int call = 0; call < CALLS; call++) {
        enum unftp_result result =
            unftp_next(&connection, bytes + start, len - start, area, sizeof area, &line);
        wants(result >= UNFTP_USER && result < UNFTP_MORE);
        start = (start + line.used) % len;
    }
}

static void make_replies(const char *text, size_t len)
{
    char out[ROOM];
    size_t written;

    for (int call = 0; call < CALLS; call++)
        wants(unftp_reply(200, text, len, out, sizeof out, &written) == UNFTP_DONE);
}

static void find_replies(const char *bytes, size_t len)
{
    struct unftp_found_reply reply;

    for (int call = 0; call < CALLS; call++)
        wants(unftp_front_reply(bytes, len, &reply) == UNFTP_DONE && reply.used == len);
}

static void write_lines(const char *line, size_t len)
{
    char out[ROOM];
    size_t written;

    for (int call = 0; call < CALLS; call++)
        wants(unftp_canonical(line, len, out, sizeof out, &written) == UNFTP_DONE);
}

static void forward_lines(const char *line, size_t len)
{
    uint32_t clear;
    char out[ROOM];
    size_t written;

    for (int call = 0; call < CALLS; call++)
        wants(unftp_forward(line, len, out, sizeof out, &written, &clear) == UNFTP_DONE);
}

static int compare(const void *left, const void *right)
{
    double a = *(const double *)left, b = *(const double *)right;
    return (a > b) - (a < b);
}

static double nanoseconds(void)
{
    struct timespec time;

    clock_gettime(CLOCK_MONOTONIC, &time);
    return (double)time.tv_sec * 1e9 + (double)time.tv_nsec;
}

static void measure(const char *what, void (*run)(const char *, size_t), const char *input)
{
    double figures[ROUNDS];
    size_t len = strlen(input);

    for (int round = 0; round < ROUNDS; round++) {
        double start = nanoseconds();
        run(input, len);
        figures[round] = (nanoseconds() - start) / CALLS;
    }
    qsort(figures, ROUNDS, sizeof figures[0], compare);
    printf("%s: %.0f ns (%.0f to %.0f)\n", what, figures[ROUNDS / 2], figures[0],
           figures[ROUNDS - 1]);
}

int main(void)
{
    static char lines[SESSIONS * sizeof session], reply[ROOM] = "213-Status of files\r\n";

    for (int count = 0; count < SESSIONS; count++)
        memcpy(lines + strlen(lines), session, sizeof session);
    for (int line = 2; line < 100; line++)
        strcat(reply, " 1234 bytes of a file named so\r\n");
    strcat(reply, "213 End\r\n");
    measure("unftp_next, a line of 1,000 in one buffer", take_lines, lines);
    measure("unftp_next, NOOP", take_lines, "NOOP\r\n");
    measure("unftp_reply, a reply of one line", make_replies, "OK");
    measure("unftp_reply, a reply of 13 lines", make_replies, features);
    measure("unftp_front_reply, a reply of one line", find_replies, "200 OK\r\n");
    measure("unftp_front_reply, a reply of 100 lines", find_replies, reply);
    measure("unftp_canonical, RETR a.txt", write_lines, "RETR a.txt\r\n");
    measure("unftp_forward, LIST -la x", forward_lines, "LIST -la x\r\n");
    return 0;
}
