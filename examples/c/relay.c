/*
 * An FTP proxy over unftp_control.h, which sends a server only commands that read.
 *
 *     relay [-i SECONDS] PORT HOST PORT
 *
 * -i  how many seconds a client that is owed no reply may send nothing: 300 (RFC 1123, section
 *     4.1.3.2)
 *
 * It listens on 127.0.0.1, and prints its port as one line; where PORT is 0, the system picks one.
 * Each client has a process of its own, and a connection to the second PORT of HOST. Standard error
 * shows each line of a client, without its password, and the code of each reply. A signal ends only
 * the process that listens.
 *
 * Only control connections pass through it. The client opens each data connection to the server
 * itself: at the address that the reply to PASV names, or after EPSV at the address of its control
 * connection, which is the server's where that is on this host too. PORT and EPRT, which would name
 * an address that only this host can reach, are answered 502. So is AUTH, since nothing can be read
 * under TLS. ABOR is sent without the Telnet bytes before it, and without urgent data.
 */
#define _POSIX_C_SOURCE 200809L

/* servers take such a line: one that is too long for them makes a reply too many, or none */
#define CONTROL_LINE_LIMIT 2048

/* the longest reply that is passed on */
#define CONTROL_ROOM 65536

#include "control_connection.h"

#include <netdb.h>
#include <signal.h>
#include <stdio.h>
#include <stdlib.h>
#include <sys/wait.h>

enum {
    /* a line of the log has more than the line: the program's name and process */
    LOG_ROOM = CONTROL_LOG_ROOM + 128,

    /* how many clients are served at a time; those after them wait */
    SESSIONS_MOST = 100,

    /* the greatest number of seconds: as milliseconds it is an int */
    SECONDS_MOST = 1000 * 1000
};

static void fail(const char *what)
{
    perror(what);
    exit(EXIT_FAILURE);
}

/* Logs what has passed, and decides on a line. */
static void handle(struct control_proxy *proxy, enum control_event event,
                   struct control_line *line)
{
    long process = (long)getpid();

    switch (event) {
    case CONTROL_LINE:
        fprintf(stderr, "relay %ld: line %s\n", process, control_shown(line));
        control_proxy_decide(proxy, line, control_only_reads(line->event));
        break;
    case CONTROL_REPLY:
        fprintf(stderr, "relay %ld: reply %03u\n", process, (unsigned)proxy->code);
        break;
    case CONTROL_ANSWER:
        fprintf(stderr, "relay %ld: answer %u %s\n", process, (unsigned)proxy->code, proxy->text);
        break;
    case CONTROL_NOTHING:
        break;
    }
}

/* Connects to the first of the addresses that answers; -1 where none does. */
static int connect_to(const struct addrinfo *addresses)
{
    for (const struct addrinfo *each = addresses; each != NULL; each = each->ai_next) {
        int opened = socket(each->ai_family, SOCK_STREAM, 0);

        if (opened >= 0 && connect(opened, each->ai_addr, each->ai_addrlen) == 0)
            return opened;
        perror("relay: no connection to the server");
        if (opened >= 0)
            close(opened);
    }
    return -1;
}

/* Serves a client from the server's greeting to the end of the session. */
static void serve(int client, const struct addrinfo *addresses, long idle)
{
    static struct control_proxy proxy; /* all zeros: the process has no other */
    struct control_line line;
    enum control_event event;

    if (!control_proxy_start(&proxy, client, connect_to(addresses)))
        control_proxy_end(&proxy, "no connection to the server");
    while (!proxy.is_over) {
        while ((event = control_proxy_next(&proxy, &line)) != CONTROL_NOTHING)
            handle(&proxy, event, &line);
        control_proxy_wait(&proxy, (int)(idle * 1000));
    }
    control_proxy_finish(&proxy);
}

/* Serves each client in a process of its own. Those that have ended are counted out when another
   client comes. */
static void serve_clients(int listener, const struct addrinfo *addresses, long idle)
{
    for (long sessions = 0;;) {
        int client = accept(listener, NULL, NULL);
        pid_t process = client < 0 ? -1 : fork();

        if (process == 0) {
            close(listener);
            serve(client, addresses, idle);
            _exit(EXIT_SUCCESS);
        }
        if (process > 0)
            sessions++;
        else if (errno != EINTR && errno != ECONNABORTED) {
            perror("relay: no session");
            sleep(1);
        }
        if (client >= 0)
            close(client);
        while (sessions > 0 && waitpid(-1, NULL, sessions < SESSIONS_MOST ? WNOHANG : 0) > 0)
            sessions--;
    }
}

/* Listens on the port, and prints which it is. */
static int start_listening(long number)
{
    uint16_t port = (uint16_t)number;
    int listener = control_listen(&port);

    if (listener < 0)
        fail("relay: no port");
    if (printf("%u\n", (unsigned)port) < 0 || fflush(stdout) != 0)
        fail("relay: standard output");
    return listener;
}

/* Whether the text is a number within these bounds, which it then gives. */
static bool parse_number(const char *text, long least, long most, long *number)
{
    char *end;

    errno = 0;
    *number = strtol(text, &end, 10);
    return errno == 0 && end != text && *end == '\0' && *number >= least && *number <= most;
}

int main(int count, char **arguments)
{
    static char log[LOG_ROOM];
    const struct addrinfo hints = {.ai_socktype = SOCK_STREAM};
    struct addrinfo *addresses;
    long port, idle = 300;
    int option, error;
    bool is_right = true;

    while ((option = getopt(count, arguments, "i:")) != -1)
        is_right = is_right && option == 'i' && parse_number(optarg, 1, SECONDS_MOST, &idle);
    if (!is_right || optind != count - 3
        || !parse_number(arguments[optind], 0, UINT16_MAX, &port)) {
        fputs("usage: relay [-i SECONDS] PORT HOST PORT\n", stderr);
        return 2;
    }
    error = getaddrinfo(arguments[optind + 1], arguments[optind + 2], &hints, &addresses);
    if (error != 0) {
        fprintf(stderr, "relay: %s\n", gai_strerror(error));
        return EXIT_FAILURE;
    }
    setvbuf(stderr, log, _IOLBF, sizeof log); /* the processes write whole lines */
    signal(SIGPIPE, SIG_IGN); /* also where nobody reads the log */
    serve_clients(start_listening(port), addresses, idle);
}
