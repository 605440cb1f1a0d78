/*
 * An FTP client over unftp_control.h, which downloads one file.
 *
 *     get HOST PORT USER PASSWORD PATH OUTPUT
 *
 * It takes the file in binary, over a data connection that it opens (RFC 2428). A line on standard
 * error shows how many bytes have come, and how many percent these are where the server says the
 * file's size (RFC 3659). The status is 0 where the file is complete, with no fewer bytes than the
 * server has said, and the session has ended, and else 1; what has come before a failure stays in
 * the output. TLS is left out.
 */
#define _POSIX_C_SOURCE 200809L

/* the longest reply that is taken */
#define CONTROL_ROOM 16384

#include "control_connection.h"

#include <inttypes.h>
#include <netdb.h>
#include <signal.h>
#include <stdio.h>
#include <stdlib.h>
#include <sys/time.h>
#include <time.h>

enum {
    DATA_ROOM = 65536,

    /* an address with its scope, and a number */
    ADDRESS_ROOM = 128,
    PORT_ROOM = 16,

    /* how long the server may take, in seconds */
    PATIENCE = 60
};

/* A control connection, with the last reply at the front of what has come. */
struct session {
    struct control control;
    struct unftp_client client;
    uint64_t place; /* of the last line */
    struct unftp_found_reply reply;
};

struct progress {
    uint64_t received;
    uint64_t size;
    bool has_size;
    time_t shown; /* when its line was written last */
};

static void fail(const char *what)
{
    fprintf(stderr, "get: %s\n", what);
    exit(EXIT_FAILURE);
}

static void fail_call(const char *what)
{
    fprintf(stderr, "get: %s: %s\n", what, strerror(errno));
    exit(EXIT_FAILURE);
}

/* Shows the first line of the server's reply, but nothing that a terminal might obey. */
static void fail_reply(const struct session *session, const char *what)
{
    const char *bytes = control_front(&session->control.from);

    fprintf(stderr, "get: %s: ", what);
    for (size_t at = 0; at < session->reply.used && bytes[at] != '\r'; at++) {
        char byte = bytes[at];
        fputc(byte >= ' ' && byte <= '~' ? byte : '?', stderr);
    }
    fputc('\n', stderr);
    exit(EXIT_FAILURE);
}

/* Connects to the first address of the host that answers. */
static int connect_to(const char *host, const char *port)
{
    const struct timeval patience = {.tv_sec = PATIENCE};
    const struct addrinfo hints = {.ai_socktype = SOCK_STREAM};
    struct addrinfo *found;
    int error = getaddrinfo(host, port, &hints, &found), opened = -1;

    if (error != 0)
        fail(gai_strerror(error));
    for (struct addrinfo *each = found; each != NULL && opened < 0; each = each->ai_next) {
        opened = socket(each->ai_family, SOCK_STREAM, 0);
        if (opened >= 0
            && (setsockopt(opened, SOL_SOCKET, SO_RCVTIMEO, &patience, sizeof patience) < 0
                || setsockopt(opened, SOL_SOCKET, SO_SNDTIMEO, &patience, sizeof patience) < 0
                || connect(opened, each->ai_addr, each->ai_addrlen) < 0)) {
            close(opened);
            opened = -1;
        }
    }
    if (opened < 0)
        fail_call("no connection");
    freeaddrinfo(found);
    return opened;
}

/* Waits for what the server sends. */
static void receive(struct control *control)
{
    errno = 0;
    if (control_receive(control))
        return;
    if (errno == 0)
        fail("the server has closed the control connection");
    fail_call("control connection");
}

/* Takes the next reply, once it is complete, and returns what it is to. */
static enum unftp_to take_reply(struct session *session, uint64_t *place)
{
    enum unftp_result result;

    session->reply.used = 0;
    while ((result = control_next_reply(&session->control, &session->reply)) == UNFTP_MORE)
        receive(&session->control);
    if (result != UNFTP_DONE)
        fail(unftp_result_text(result));
    return unftp_client_reply(&session->client, session->reply.code, place);
}

/* The code of the next reply, which has to be to the last line, or to the connection. */
static uint32_t next_code(struct session *session, enum unftp_to wanted)
{
    uint64_t place;
    enum unftp_to to = take_reply(session, &place);

    if (to != wanted || place != session->place)
        fail_reply(session, "a reply to another line");
    return session->reply.code;
}

/* The code of the final reply. */
static uint32_t final_code(struct session *session, enum unftp_to wanted)
{
    uint32_t code;

    do {
        code = next_code(session, wanted);
    } while (code / 100 == 1);
    return code;
}

/* Whether the server says 421 unasked: it closes the connection. Any other reply to nothing is
   refused, since it would be taken for the one to the next line. */
static bool is_closing(struct session *session)
{
    struct control *control = &session->control;
    struct pollfd polled = {.fd = control->socket, .events = POLLIN};
    uint64_t place;

    control_drop_used(control);
    if (control_pending(&control->from) == 0 && poll(&polled, 1, 0) <= 0)
        return false;
    if (take_reply(session, &place) != UNFTP_TO_NOTHING
        || session->reply.code != UNFTP_CODE_SERVICE_NOT_AVAILABLE)
        fail_reply(session, "a reply to nothing");
    return true;
}

static void send_line(struct session *session, const char *verb, const char *parameter)
{
    char line[CONTROL_LINE_LIMIT];
    int written = snprintf(line, sizeof line, "%s%s%s\r\n", verb, *parameter == '\0' ? "" : " ",
                           parameter);
    size_t len = (size_t)written;

    if (is_closing(session))
        fail_reply(session, "the server ends the session");
    if (written < 0 || len >= sizeof line)
        fail("a line is too long");
    if (unftp_client_line(&session->client, line, len, &session->place) != UNFTP_DONE)
        fail("what is sent is not one line");
    if (!control_put(&session->control, line, len) || !control_send(&session->control))
        fail_call("control connection");
}

/* Sends a command, and returns the code of its final reply. */
static uint32_t ask(struct session *session, const char *verb, const char *parameter)
{
    send_line(session, verb, parameter);
    return final_code(session, UNFTP_TO_COMMAND);
}

static void log_in(struct session *session, const char *user, const char *password)
{
    uint32_t code = ask(session, "USER", user);

    if (code == UNFTP_CODE_NEED_PASSWORD)
        code = ask(session, "PASS", password);
    if (code / 100 != 2)
        fail_reply(session, "login failed");
}

/* Reads the decimal number at the start of a text: how many digits it has, or 0 where it is greater
   than 64 bits hold. */
static size_t read_number(const char *text, size_t len, uint64_t *number)
{
    size_t at = 0;

    *number = 0;
    for (; at < len && text[at] >= '0' && text[at] <= '9'; at++) {
        unsigned digit = (unsigned)(text[at] - '0');
        if (*number > (UINT64_MAX - digit) / 10)
            return 0;
        *number = *number * 10 + digit;
    }
    return at;
}

/* Asks for the file's size: 213, a space and the number are all of the reply. */
static void ask_size(struct session *session, const char *path, struct progress *progress)
{
    const size_t before = strlen("213 "), after = strlen("\r\n");
    const char *bytes;
    size_t used, digits;

    if (ask(session, "SIZE", path) != UNFTP_CODE_FILE_STATUS)
        return;
    bytes = control_front(&session->control.from);
    used = session->reply.used;
    if (used <= before + after || bytes[before - 1] != ' ')
        return;
    digits = read_number(bytes + before, used - before - after, &progress->size);
    progress->has_size = digits == used - before - after;
}

/* The port that the reply to EPSV names; it names no host. */
static unsigned port_in(const struct session *session)
{
    char host[1];
    struct unftp_address address;
    const char *reply = control_front(&session->control.from);
    enum unftp_result result = unftp_read_address(UNFTP_ADDRESS_229, reply, session->reply.used,
                                                  host, 0, &address);

    if (result != UNFTP_DONE || address.port == 0)
        fail_reply(session, "no port");
    return (unsigned)address.port;
}

/* Opens a data connection to the port that the server names, at its address. */
static int open_data(struct session *session)
{
    struct sockaddr_storage address;
    socklen_t len = sizeof address;
    char host[ADDRESS_ROOM], port[PORT_ROOM];

    if (ask(session, "EPSV", "") != UNFTP_CODE_ENTERING_EXTENDED_PASSIVE_MODE)
        fail_reply(session, "no passive mode");
    snprintf(port, sizeof port, "%u", port_in(session));
    if (getpeername(session->control.socket, (struct sockaddr *)&address, &len) < 0)
        fail_call("control connection");
    if (getnameinfo((struct sockaddr *)&address, len, host, sizeof host, NULL, 0, NI_NUMERICHOST)
        != 0)
        fail("the server has no address");
    return connect_to(host, port);
}

/* Writes the line that shows the progress, over the one before it. */
static void show(const struct progress *progress, const char *end)
{
    double part = progress->size == 0 ? 1 : (double)progress->received / (double)progress->size;

    fprintf(stderr, "%" PRIu64 " bytes", progress->received);
    if (progress->has_size)
        fprintf(stderr, ", %.0f%%", part * 100);
    fputs(end, stderr);
}

static size_t receive_data(int data, char *bytes, size_t room)
{
    ssize_t got;

    do {
        got = recv(data, bytes, room, 0);
    } while (got < 0 && errno == EINTR);
    if (got < 0)
        fail_call("data connection");
    return (size_t)got;
}

/* Writes what comes over the data connection, and shows the progress once a second. */
static void copy(int data, FILE *output, struct progress *progress)
{
    char bytes[DATA_ROOM];
    size_t got;

    while ((got = receive_data(data, bytes, sizeof bytes)) > 0) {
        if (fwrite(bytes, 1, got, output) != got)
            fail_call("output");
        progress->received += got;
        if (time(NULL) != progress->shown)
            show(progress, "\r");
        progress->shown = time(NULL);
    }
}

/* Downloads the file. The output is opened once the server sends it. */
static void download(struct session *session, const char *path, const char *name)
{
    struct progress progress = {0, 0, false, 0};
    FILE *output;
    int data;

    ask_size(session, path, &progress);
    data = open_data(session);
    send_line(session, "RETR", path);
    if (next_code(session, UNFTP_TO_COMMAND) / 100 != 1)
        fail_reply(session, path);
    output = fopen(name, "wb");
    if (output == NULL)
        fail_call(name);
    copy(data, output, &progress);
    close(data);
    if (fclose(output) != 0)
        fail_call(name);
    if (final_code(session, UNFTP_TO_COMMAND) / 100 != 2)
        fail_reply(session, path);
    show(&progress, "\n");
    if (progress.has_size && progress.received < progress.size) {
        fprintf(stderr, "get: %s: only %" PRIu64 " of %" PRIu64 " bytes came\n", path,
                progress.received, progress.size);
        exit(EXIT_FAILURE);
    }
}

int main(int count, char **arguments)
{
    static struct session session;

    if (count != 7) {
        fputs("usage: get HOST PORT USER PASSWORD PATH OUTPUT\n", stderr);
        return 2;
    }
    for (int at = 3; at <= 5; at++) {
        if (strpbrk(arguments[at], "\r\n") != NULL)
            fail("a name, a password and a path are of one line");
    }
    signal(SIGPIPE, SIG_IGN);
    if (!control_start(&session.control, connect_to(arguments[1], arguments[2])))
        fail_call("control connection");
    if (final_code(&session, UNFTP_TO_GREETING) / 100 != 2)
        fail_reply(&session, "no session");
    log_in(&session, arguments[3], arguments[4]);
    if (ask(&session, "TYPE", "I") / 100 != 2)
        fail_reply(&session, "no binary mode");
    download(&session, arguments[5], arguments[6]);
    if (!is_closing(&session))
        ask(&session, "QUIT", "");
    close(session.control.socket);
    return EXIT_SUCCESS;
}
