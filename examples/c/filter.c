/*
 * A proxy of control connections that lets no DELE through, nor what it doesn't know:
 *
 *     filter PORT SERVER_PORT
 *
 * It listens on PORT of 127.0.0.1, and prints that as one line; where it is 0, the system picks
 * one. Each client has a process of its own, and a connection to SERVER_PORT of 127.0.0.1. Standard
 * error shows each line of a client, without its password. The client opens each data connection to
 * the server itself. relay.c lets no file be changed, limits clients, and logs replies.
 */
#define _POSIX_C_SOURCE 200809L

#include "control_connection.h"

#include <signal.h>
#include <stdio.h>
#include <stdlib.h>
#include <time.h>

enum {
    /* how long a client that is owed no reply may send nothing, in milliseconds */
    IDLE = 300 * 1000,

    /* how long no client is accepted after a failure, in nanoseconds */
    PAUSE = 100 * 1000 * 1000
};

/* What only reads may be sent on, and what makes a file or a directory. */
static bool is_allowed(enum unftp_result command)
{
    return control_only_reads(command) || command == UNFTP_STOR || command == UNFTP_MKD;
}

/* Serves a client from the server's greeting to the end of the session. */
static void serve(int client, int server)
{
    static struct control_proxy proxy; /* all zeros: the process has no other */
    struct control_line line;
    enum control_event event;

    if (!control_proxy_start(&proxy, client, server))
        control_proxy_end(&proxy, "no connection to the server");
    while (!proxy.is_over) {
        while ((event = control_proxy_next(&proxy, &line)) != CONTROL_NOTHING) {
            if (event == CONTROL_LINE) {
                fprintf(stderr, "%ld: %s\n", (long)getpid(), control_shown(&line));
                control_proxy_decide(&proxy, &line, is_allowed(line.event));
            }
        }
        control_proxy_wait(&proxy, IDLE);
    }
    control_proxy_finish(&proxy);
}

/* Serves the next client in a process of its own. */
static void serve_next(int listener, uint16_t server_port)
{
    int client = accept(listener, NULL, NULL);
    pid_t process = client < 0 ? -1 : fork();

    if (process == 0) {
        close(listener);
        serve(client, control_connect(server_port));
        _exit(EXIT_SUCCESS);
    }
    if (client >= 0)
        close(client);
    if (process < 0) { /* no descriptor or process is left, or the like */
        struct timespec pause = {.tv_nsec = PAUSE};

        nanosleep(&pause, NULL);
    }
}

int main(int count, char **arguments)
{
    uint16_t port = count == 3 ? (uint16_t)atoi(arguments[1]) : 0;
    int listener;

    if (count != 3) {
        fputs("usage: filter PORT SERVER_PORT\n", stderr);
        return 2;
    }
    listener = control_listen(&port);
    if (listener < 0) {
        perror("filter");
        return EXIT_FAILURE;
    }
    signal(SIGCHLD, SIG_IGN); /* no process is waited for */
    signal(SIGPIPE, SIG_IGN); /* also where nobody reads the log */
    printf("%u\n", (unsigned)port);
    fflush(stdout);
    for (;;)
        serve_next(listener, (uint16_t)atoi(arguments[2]));
}
