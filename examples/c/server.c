/*
 * An FTP control server over unftp_control.h, with a process for each connection.
 *
 *     server [-a ADDRESS] [-c CONNECTIONS] [-d SECONDS] [-i SECONDS] PORT
 *
 * -a  the IPv4 or IPv6 address that it listens on: 127.0.0.1
 * -c  how many connections it serves at a time: 100; it answers 421 to all others
 * -d  how long a client may go on sending once its session has ended: 2
 * -i  how long a client may take until its next command: 300 (RFC 1123, section 4.1.3.2)
 *
 * It prints its port as one line; where PORT is 0, the system picks one. SIGTERM, SIGINT and SIGHUP
 * end it once its sessions have ended; each that waits for a command answers 421. A second one ends
 * it at once. Who logs in as anna with the password secret may give every command. TLS and data
 * connections are left out: files.c has the latter.
 */
#define _POSIX_C_SOURCE 200809L

/* what is to be sent has room for two of the longest replies */
#define CONTROL_ROOM 32768

#include "control_connection.h"

#include <arpa/inet.h>
#include <signal.h>
#include <stdio.h>
#include <stdlib.h>
#include <sys/select.h>
#include <sys/wait.h>
#include <time.h>

enum {
    /* the longest text has a name and a value of one line, which have at most three bytes for each
       of the line; its reply has a code, a space and CR LF beside it */
    TEXT_ROOM = sizeof "SITE MD5 : not implemented" + 3 * CONTROL_LINE_LIMIT,

    /* the greatest number that an option may have: as milliseconds it is an int */
    NUMBER_MOST = 1000 * 1000,

    /* how long no client is accepted after a failure, in milliseconds */
    FAILURE_PAUSE = 100
};

/* An address of either family. */
union address {
    struct sockaddr any;
    struct sockaddr_in ipv4;
    struct sockaddr_in6 ipv6;
};

struct options {
    union address address;
    long port;
    long connections;
    long dropping;
    long idle;
};

struct client {
    struct control control;
    struct control_login login;
    int stopping; /* a pipe that is at its end once the server stops; -1 at the session's end */
    int64_t deadline;
    bool is_late; /* wait_for has looked once since the deadline has come */
    const struct options *options;
};

struct text {
    size_t len;
    char bytes[TEXT_ROOM];
};

/* How waiting for a client ends. */
enum event { EXCHANGED, LATE, STOPPED };

static void fail(const char *what)
{
    perror(what);
    exit(EXIT_FAILURE);
}

static void allow(struct client *client, long seconds)
{
    client->deadline = control_now() + seconds * 1000;
    client->is_late = false;
}

/* Waits until the client's socket is ready, and then receives and sends; or until the server stops
   or the deadline has come. Once it has come this looks once more, for what came in time while the
   process did not run. */
static enum event exchange(struct client *client)
{
    struct pollfd polled[] = {control_polled(&client->control),
                              {.fd = client->stopping, .events = POLLIN}};

    for (;;) {
        int64_t left = client->deadline - control_now();
        int count;

        if (left <= 0 && client->is_late)
            return LATE;
        client->is_late = left <= 0;
        count = poll(polled, 2, left > 0 ? (int)left : 0);
        if (count < 0 && errno != EINTR)
            fail("server: poll");
        if (count > 0 && polled[1].revents != 0)
            return STOPPED;
        if (count > 0) {
            control_exchange(&client->control, polled[0].revents);
            return EXCHANGED;
        }
    }
}

static void append(struct text *text, const char *bytes, size_t len)
{
    memcpy(text->bytes + text->len, bytes, len);
    text->len += len;
}

static void append_string(struct text *text, const char *string)
{
    append(text, string, strlen(string));
}

/* Answers 502 with what the command says: only SITE and another verb have a name. */
static bool answer_not_implemented(struct control *control, const struct control_line *line)
{
    struct text text;

    text.len = 0;
    if (line->event != UNFTP_OTHER)
        append_string(&text, unftp_result_text(line->event));
    if (line->event == UNFTP_SITE)
        append_string(&text, " ");
    append(&text, line->name, line->name_len);
    if (line->value_len > 0) {
        append_string(&text, " ");
        append(&text, line->value, line->value_len);
    }
    append_string(&text, ": not implemented");
    return control_reply(control, UNFTP_CODE_COMMAND_NOT_IMPLEMENTED, text.bytes, text.len);
}

static bool answer_site(struct control *control, const struct control_line *line)
{
    static const char echo[] = "ECHO";

    if (line->name_len == sizeof echo - 1 && memcmp(line->name, echo, line->name_len) == 0)
        return control_reply(control, UNFTP_CODE_COMMAND_OKAY, line->value, line->value_len);
    return answer_not_implemented(control, line);
}

/* Answers a line as if there were no login; false where it has no reply. A password is in no
   reply. */
static bool answer_command(struct control *control, const struct control_line *line)
{
    static const char features[] = "Features:\n UTF8\nEnd";
    static const char help[] =
        "Commands:\n ACCT FEAT HELP NOOP PASS PWD\n QUIT SITE SYST TYPE USER\nEnd";
    static const char directory[] = "\"/\" is the current directory";

    switch (line->event) {
    case UNFTP_TYPE: return control_say(control, UNFTP_CODE_COMMAND_OKAY, "OK");
    case UNFTP_FEAT: return control_say(control, UNFTP_CODE_SYSTEM_STATUS, features);
    case UNFTP_HELP: return control_say(control, UNFTP_CODE_HELP_MESSAGE, help);
    case UNFTP_PWD: return control_say(control, UNFTP_CODE_DIR_CREATED, directory);
    case UNFTP_SITE: return answer_site(control, line);
    case UNFTP_ACCT: case UNFTP_SYST: case UNFTP_NOOP: case UNFTP_QUIT:
        return control_usual_reply(control, line);
    default:
        /* the results that are no commands come after all that are */
        return line->event < UNFTP_MORE ? answer_not_implemented(control, line)
                                        : control_usual_reply(control, line);
    }
}

/* Whether this is the password of the name. A server of yours asks its accounts. */
static bool is_account(const struct control_login *login, const struct control_line *line)
{
    static const char name[] = "anna", secret[] = "secret";

    return login->name_len == sizeof name - 1 && memcmp(login->name, name, sizeof name - 1) == 0
        && line->value_len == sizeof secret - 1
        && memcmp(line->value, secret, sizeof secret - 1) == 0;
}

/* Answers a line; false where it has no reply. What needs a login is answered 530 before one. */
static bool answer_line(struct client *client, const struct control_line *line)
{
    struct control *control = &client->control;
    struct control_login *login = &client->login;

    switch (control_log_in(control, login, line)) {
    case UNFTP_LOGIN_PASS_ON: return answer_command(control, line);
    case UNFTP_LOGIN_ASK_ACCOUNTS:
        return control_answer_login(control, login, is_account(login, line));
    case UNFTP_LOGIN_NEED_PASSWORD: case UNFTP_LOGIN_NEED_NAME: case UNFTP_LOGIN_NEED_LOGIN: break;
    }
    return true;
}

/* Answers the complete lines, while the client takes the replies. */
static void answer_lines(struct client *client)
{
    struct control_line line;

    while (control_next_line(&client->control, &line)) {
        allow(client, client->options->idle);
        if (!answer_line(client, &line)) {
            /* the codes are those of this program, and there is room for a line and its reply */
            fprintf(stderr, "server: %s: no reply\n", unftp_result_text(line.event));
            abort();
        }
    }
}

static void end_session(struct client *client, const char *text)
{
    control_say(&client->control, UNFTP_CODE_SERVICE_NOT_AVAILABLE, text);
    client->control.is_ending = true;
}

/* Goes on once the client is ready, or ends the session. */
static void go_on(struct client *client)
{
    switch (exchange(client)) {
    case EXCHANGED: answer_lines(client); break;
    case LATE: end_session(client, "Timeout"); break;
    case STOPPED: end_session(client, "Service is stopping"); break;
    }
}

/* Closes the connection, once the client has closed it or has had its time. */
static void finish(struct client *client)
{
    client->control.is_ending = true;
    client->stopping = -1;
    allow(client, client->options->dropping);
    while (!control_is_over(&client->control) && exchange(client) == EXCHANGED)
        continue;
    close(client->control.socket);
}

/* Serves a client from the greeting to the end of the session. No call waits but exchange. */
static void serve(int socket, int stopping, const struct options *options)
{
    struct client client = {.stopping = stopping, .options = options};

    if (!control_start(&client.control, socket) || !control_set_nonblocking(socket))
        fail("server: setsockopt");
    allow(&client, options->idle);
    control_say(&client.control, UNFTP_CODE_SERVICE_READY, "Ready");
    answer_lines(&client);
    while (!client.control.is_ending && !control_is_over(&client.control))
        go_on(&client);
    finish(&client);
}

/* The process that listens. */
struct server {
    struct options options;
    int listener;
    int stopping[2]; /* a pipe whose end for writing only this process has */
    pid_t *sessions; /* as many as there are connections */
    long connections;
    bool is_failing;
    sigset_t mask; /* while it waits no signal is blocked, else those that it handles are */
};

static volatile sig_atomic_t is_stopping;

static void stop(int number)
{
    (void)number;
    is_stopping = 1;
}

/* That a session has ended interrupts a wait. */
static void wake(int number)
{
    (void)number;
}

static void handle(int number, void (*handler)(int))
{
    struct sigaction action = {.sa_handler = handler};

    sigemptyset(&action.sa_mask);
    if (sigaction(number, &action, NULL) < 0)
        fail("server: sigaction");
}

/* Handles the signals that end the server. SIGHUP stays ignored where it is, as under nohup. */
static void handle_ends(void (*handler)(int))
{
    struct sigaction action;

    handle(SIGTERM, handler);
    handle(SIGINT, handler);
    if (sigaction(SIGHUP, NULL, &action) < 0)
        fail("server: sigaction");
    if (action.sa_handler != SIG_IGN)
        handle(SIGHUP, handler);
}

static void handle_signals(struct server *server)
{
    sigset_t handled;

    handle(SIGPIPE, SIG_IGN);
    handle(SIGCHLD, wake);
    handle_ends(stop);
    sigemptyset(&handled);
    sigaddset(&handled, SIGTERM);
    sigaddset(&handled, SIGINT);
    sigaddset(&handled, SIGHUP);
    sigaddset(&handled, SIGCHLD);
    sigemptyset(&server->mask);
    if (sigprocmask(SIG_BLOCK, &handled, NULL) < 0)
        fail("server: sigprocmask");
}

/* Waits for a client or a signal; true for a client. */
static bool wait_for_client(const struct server *server)
{
    fd_set listeners;
    int count;

    FD_ZERO(&listeners);
    FD_SET(server->listener, &listeners);
    count = pselect(server->listener + 1, &listeners, NULL, NULL, NULL, &server->mask);
    if (count < 0 && errno != EINTR)
        fail("server: pselect");
    return count > 0;
}

/* Takes a session off the list; false where the process is none, but a child that the program had
   before it was this server. */
static bool remove_session(struct server *server, pid_t process)
{
    for (long at = 0; at < server->connections; at++) {
        if (server->sessions[at] == process) {
            server->sessions[at] = server->sessions[--server->connections];
            return true;
        }
    }
    return false;
}

/* Takes the sessions that have ended off the list; without WNOHANG it waits for all of them. */
static void reap_sessions(struct server *server, int options)
{
    pid_t process;
    int status;

    while (server->connections > 0 && (process = waitpid(-1, &status, options)) > 0) {
        if (remove_session(server, process) && status != 0)
            fprintf(stderr, "server: a session has ended with status %#x\n", (unsigned)status);
    }
}

/* Names what has failed: only the first failure, until a client is served again. */
static void report(struct server *server, const char *what)
{
    if (!server->is_failing)
        perror(what);
    server->is_failing = true;
}

/* Answers a client that is not served. It has sent nothing yet, where it waits for the greeting.
   Where a call fails, the client is gone, and there is nobody to tell. */
static void refuse(int socket, const char *reply)
{
    char dropped[CONTROL_ROOM];
    bool is_told = control_set_nonblocking(socket) && write(socket, reply, strlen(reply)) >= 0
        && shutdown(socket, SHUT_WR) == 0 && read(socket, dropped, sizeof dropped) >= 0;

    (void)is_told;
    close(socket);
}

/* Serves a client in a process of its own. It takes no signals either: it learns from the pipe that
   the server stops. */
static void start_session(struct server *server, int socket)
{
    pid_t process = fork();

    if (process == 0) {
        close(server->listener);
        close(server->stopping[1]);
        serve(socket, server->stopping[0], &server->options);
        _exit(EXIT_SUCCESS);
    }
    if (process < 0) {
        report(server, "server: fork");
        refuse(socket, "421 No process for this connection\r\n");
        return;
    }
    server->is_failing = false;
    server->sessions[server->connections++] = process;
    close(socket);
}

/* Whether accept fails for good, and not only for this client or for a while, as with EMFILE. */
static bool is_lasting(int error)
{
    return error == EBADF || error == EINVAL || error == ENOTSOCK;
}

/* Goes on after a while, since the client that can't be accepted stays in the queue. */
static void pause_accepting(struct server *server)
{
    struct timespec time = {.tv_nsec = FAILURE_PAUSE * 1000000L};

    if (is_lasting(errno))
        fail("server: accept");
    report(server, "server: accept");
    pselect(0, NULL, NULL, NULL, &time, &server->mask);
}

/* Takes the next client, where one has come. */
static void accept_client(struct server *server)
{
    int socket = accept(server->listener, NULL, NULL);

    if (socket < 0 && (control_may_retry(errno) || errno == ECONNABORTED))
        return;
    if (socket < 0) {
        pause_accepting(server);
        return;
    }
    if (server->connections < server->options.connections)
        start_session(server, socket);
    else
        refuse(socket, "421 Too many connections\r\n");
}

static in_port_t *port_of(union address *address)
{
    return address->any.sa_family == AF_INET6 ? &address->ipv6.sin6_port : &address->ipv4.sin_port;
}

/* Listens on the port of the address. */
static void start_listening(struct server *server)
{
    union address *address = &server->options.address;
    socklen_t len =
        address->any.sa_family == AF_INET6 ? sizeof address->ipv6 : sizeof address->ipv4;

    *port_of(address) = htons((uint16_t)server->options.port);
    server->listener = socket(address->any.sa_family, SOCK_STREAM | SOCK_CLOEXEC, 0);
    if (server->listener >= FD_SETSIZE) /* pselect takes no greater one */
        errno = EMFILE;
    if (server->listener < 0 || server->listener >= FD_SETSIZE)
        fail("server: socket");
    if (!control_set_option(server->listener, SOL_SOCKET, SO_REUSEADDR))
        fail("server: setsockopt");
    if (!control_set_nonblocking(server->listener))
        fail("server: fcntl");
    if (bind(server->listener, &address->any, len) < 0)
        fail("server: bind");
    if (listen(server->listener, SOMAXCONN) < 0)
        fail("server: listen");
}

static void print_port(int listener)
{
    union address address;
    socklen_t len = sizeof address;

    if (getsockname(listener, &address.any, &len) < 0)
        fail("server: getsockname");
    if (printf("%u\n", (unsigned)ntohs(*port_of(&address))) < 0 || fflush(stdout) != 0)
        fail("server: standard output");
}

/* Ends every session, which sees the end of the pipe, and waits for them. A second signal that ends
   the server does so at once; the sessions then end by themselves. */
static void end_sessions(struct server *server)
{
    close(server->listener);
    close(server->stopping[1]);
    handle(SIGCHLD, SIG_DFL); /* which does not interrupt a wait */
    handle_ends(SIG_DFL);
    if (sigprocmask(SIG_SETMASK, &server->mask, NULL) < 0)
        fail("server: sigprocmask");
    reap_sessions(server, 0);
}

/* Whether the text is a number within these bounds, which it then gives. */
static bool parse_number(const char *text, long least, long most, long *number)
{
    char *end;

    errno = 0;
    *number = strtol(text, &end, 10);
    return errno == 0 && end != text && *end == '\0' && *number >= least && *number <= most;
}

/* Whether the text is an address of either family, which it then gives. */
static bool parse_address(const char *text, union address *address)
{
    memset(address, 0, sizeof *address);
    if (inet_pton(AF_INET, text, &address->ipv4.sin_addr) == 1) {
        address->any.sa_family = AF_INET;
        return true;
    }
    address->any.sa_family = AF_INET6;
    return inet_pton(AF_INET6, text, &address->ipv6.sin6_addr) == 1;
}

static bool parse_option(int option, struct options *options)
{
    switch (option) {
    case 'a': return parse_address(optarg, &options->address);
    case 'c': return parse_number(optarg, 1, NUMBER_MOST, &options->connections);
    case 'd': return parse_number(optarg, 1, NUMBER_MOST, &options->dropping);
    case 'i': return parse_number(optarg, 1, NUMBER_MOST, &options->idle);
    default: return false;
    }
}

static bool parse_options(int count, char **arguments, struct options *options)
{
    int option;

    while ((option = getopt(count, arguments, "a:c:d:i:")) != -1) {
        if (!parse_option(option, options))
            return false;
    }
    return optind == count - 1 && parse_number(arguments[optind], 0, UINT16_MAX, &options->port);
}

int main(int count, char **arguments)
{
    struct server server = {.options = {.connections = 100, .dropping = 2, .idle = 300}};

    server.options.address.ipv4.sin_family = AF_INET;
    server.options.address.ipv4.sin_addr.s_addr = htonl(INADDR_LOOPBACK);
    if (!parse_options(count, arguments, &server.options)) {
        fputs("usage: server [-a ADDRESS] [-c CONNECTIONS] [-d SECONDS] [-i SECONDS] PORT\n",
              stderr);
        return 2;
    }
    server.sessions = calloc((size_t)server.options.connections, sizeof *server.sessions);
    if (server.sessions == NULL)
        fail("server: calloc");
    handle_signals(&server);
    if (pipe(server.stopping) < 0)
        fail("server: pipe");
    start_listening(&server);
    print_port(server.listener);
    while (!is_stopping) {
        bool has_client = wait_for_client(&server);
        reap_sessions(&server, WNOHANG);
        if (has_client && !is_stopping)
            accept_client(&server);
    }
    end_sessions(&server);
    free(server.sessions);
    return EXIT_SUCCESS;
}
