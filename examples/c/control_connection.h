/*
 * A control connection, to copy: its lines and replies, over a socket that waits or not (RFC 959).
 * epoll.c and files.c are servers over it, get.c a client, and filter.c a proxy.
 *
 * A struct control has an area for what comes and one for what is to be sent, so that each has a
 * bound. control_start sets it up. control_receive and control_send move what the socket takes at
 * once: all of it, where its calls wait.
 *
 * A server answers each line that control_next_line takes, by control_reply and the like. It waits
 * for what control_polled returns, calls control_exchange, and takes the lines again, until
 * control_is_over returns true. A client that doesn't read its replies has to wait: its lines are
 * not taken, and then its bytes not read.
 *
 * A proxy has a struct control_proxy, and decides on the lines that control_proxy_next takes.
 *
 * Before this file is included, CONTROL_LINE_LIMIT and CONTROL_ROOM may be defined, as numbers. For
 * a compiler of strict C, _POSIX_C_SOURCE is defined as 200809L.
 */
#ifndef CONTROL_CONNECTION_H
#define CONTROL_CONNECTION_H

#include <unftp_control.h>

#include <errno.h>
#include <fcntl.h>
#include <netinet/in.h>
#include <netinet/tcp.h>
#include <poll.h>
#include <stdbool.h>
#include <stdint.h>
#include <string.h>
#include <sys/socket.h>
#include <sys/types.h>
#include <time.h>
#include <unistd.h>

/* How many bytes a line may have. */
#ifndef CONTROL_LINE_LIMIT
#define CONTROL_LINE_LIMIT 4096
#endif

/* How many bytes an area has, and so how many a reply of a server may have. */
#ifndef CONTROL_ROOM
#define CONTROL_ROOM 16384
#endif

#if CONTROL_LINE_LIMIT < 256 || CONTROL_ROOM < 2 * CONTROL_LINE_LIMIT
#error "a line and a read have to fit into CONTROL_ROOM, and an answer into half of it"
#endif

enum {
    /* a line is taken where there is room for replies of so many bytes */
    CONTROL_REPLY_ROOM = CONTROL_ROOM / 2,

    /* a log has at most four bytes for one of a line, and 42, and ends with a NUL */
    CONTROL_LOG_ROOM = 4 * CONTROL_LINE_LIMIT + 43,

    /* what is sent for a line may end by CR LF and not by LF, and BYE is QUIT */
    CONTROL_FORWARDED_MOST = CONTROL_LINE_LIMIT + 2,

    /* a proxy's own answer, with its code and its line end */
    CONTROL_ANSWER_ROOM = 256,

    /* how much an end may still send once its session has ended, and how long after the last byte
       that it took, in milliseconds */
    CONTROL_DROPPED_MOST = 1024 * 1024,
    CONTROL_LAST_WAIT = 2000
};

/* Bytes on their way: those from start to end are pending. */
struct control_bytes {
    size_t start;
    size_t end;
    char bytes[CONTROL_ROOM];
};

struct control {
    int socket;
    bool is_at_end; /* the other end sends no more */
    bool is_gone;   /* it takes no more */
    bool is_ending; /* no line is taken any more, and the session is over once all is sent */
    bool is_shut;   /* all is sent, and the other end knows */
    size_t dropped; /* how much came after that */
    size_t used;    /* by the last line or reply, which are the first bytes that have come */
    struct unftp_connection lines;
    struct unftp_reply_search replies;
    struct control_bytes from; /* what has come */
    struct control_bytes to;   /* what is to be sent */
};

/* A line of a client. It lasts until the next one is taken, or the socket is polled or received
   from. */
struct control_line {
    enum unftp_result event; /* what unftp_next has returned */
    const char *bytes;       /* with the line's end */
    size_t len;
    const char *name; /* of SITE and of another verb */
    size_t name_len;
    const char *value;
    size_t value_len;
    char area[3 * CONTROL_LINE_LIMIT];
    char shown[CONTROL_LOG_ROOM];
};

static inline size_t control_pending(const struct control_bytes *bytes)
{
    return bytes->end - bytes->start;
}

static inline const char *control_front(const struct control_bytes *bytes)
{
    return bytes->bytes + bytes->start;
}

/* Drops the last line or reply. */
static inline void control_drop_used(struct control *control)
{
    control->from.start += control->used;
    control->used = 0;
}

/* Drops all that has come: how many bytes. */
static inline size_t control_drop_all(struct control *control)
{
    size_t dropped = control_pending(&control->from);

    control->from.start += dropped;
    control->used = 0;
    return dropped;
}

/* Moves the pending bytes to the start: how much room there is after them. */
static inline size_t control_room(struct control_bytes *bytes)
{
    if (bytes->start > 0) {
        bytes->end -= bytes->start;
        memmove(bytes->bytes, bytes->bytes + bytes->start, bytes->end);
        bytes->start = 0;
    }
    return sizeof bytes->bytes - bytes->end;
}

/* Appends bytes to those that are to be sent; false where there is no room. */
static inline bool control_put(struct control *control, const char *bytes, size_t len)
{
    if (control_room(&control->to) < len)
        return false;
    memcpy(control->to.bytes + control->to.end, bytes, len);
    control->to.end += len;
    return true;
}

/* Has no call of the socket wait; false where that fails. */
static inline bool control_set_nonblocking(int socket)
{
    int flags = fcntl(socket, F_GETFL);

    return flags >= 0 && fcntl(socket, F_SETFL, flags | O_NONBLOCK) >= 0;
}

static inline bool control_set_option(int socket, int level, int option)
{
    int on = 1;

    return setsockopt(socket, level, option, &on, sizeof on) == 0;
}

/* Milliseconds of a clock that nobody sets. */
static inline int64_t control_now(void)
{
    struct timespec time;

    clock_gettime(CLOCK_MONOTONIC, &time);
    return (int64_t)time.tv_sec * 1000 + time.tv_nsec / 1000000;
}

/* Sets a connection up; false where a call on the socket fails. Urgent bytes are to be read where
   they were sent: the line feed of an ABOR may be one, and would be missing (RFC 959, section
   4.1.3). What is sent is sent at once, and an end that is gone without a word is found out. No
   program that this one starts has the socket. */
static inline bool control_start(struct control *control, int socket)
{
    memset(control, 0, sizeof *control);
    control->socket = socket;
    control->lines.limit = CONTROL_LINE_LIMIT;
    control->replies.limit = CONTROL_ROOM;
    return fcntl(socket, F_SETFD, FD_CLOEXEC) >= 0
        && control_set_option(socket, SOL_SOCKET, SO_OOBINLINE)
        && control_set_option(socket, SOL_SOCKET, SO_KEEPALIVE)
        && control_set_option(socket, IPPROTO_TCP, TCP_NODELAY);
}

/* A port of 127.0.0.1, as the system has it. */
static inline struct sockaddr_in control_loopback(uint16_t port)
{
    struct sockaddr_in address;

    memset(&address, 0, sizeof address);
    address.sin_family = AF_INET;
    address.sin_addr.s_addr = htonl(INADDR_LOOPBACK);
    address.sin_port = htons(port);
    return address;
}

/* Listens on a port of 127.0.0.1; where that is 0, on one that the system picks: the socket, or -1
   with errno. */
static inline int control_listen(uint16_t *port)
{
    struct sockaddr_in address = control_loopback(*port);
    socklen_t len = sizeof address;
    int listener = socket(AF_INET, SOCK_STREAM | SOCK_CLOEXEC, 0);

    if (listener >= 0
        && (!control_set_option(listener, SOL_SOCKET, SO_REUSEADDR)
            || bind(listener, (struct sockaddr *)&address, len) < 0
            || listen(listener, SOMAXCONN) < 0
            || getsockname(listener, (struct sockaddr *)&address, &len) < 0)) {
        close(listener);
        return -1;
    }
    *port = ntohs(address.sin_port);
    return listener;
}

/* Connects to a port of 127.0.0.1: the socket, or -1 with errno. */
static inline int control_connect(uint16_t port)
{
    struct sockaddr_in address = control_loopback(port);
    int connected = socket(AF_INET, SOCK_STREAM | SOCK_CLOEXEC, 0);

    if (connected >= 0 && connect(connected, (struct sockaddr *)&address, sizeof address) < 0) {
        close(connected);
        return -1;
    }
    return connected;
}

/* Whether a call on a socket that failed by this error may be made again. */
static inline bool control_may_retry(int error)
{
    return error == EINTR || error == EAGAIN || error == EWOULDBLOCK;
}

/* Takes what has come, for which there is room; false where nothing has come. An end that has reset
   the connection also takes no more. */
static inline bool control_receive(struct control *control)
{
    struct control_bytes *from = &control->from;
    size_t room = control_room(from);
    ssize_t got;

    if (room == 0 || control->is_at_end)
        return false;
    do {
        got = recv(control->socket, from->bytes + from->end, room, 0);
    } while (got < 0 && errno == EINTR);
    if (got > 0)
        from->end += (size_t)got;
    else if (got < 0 && !control_may_retry(errno))
        control->is_at_end = control->is_gone = true;
    else
        control->is_at_end = got == 0;
    return got > 0;
}

/* Sends what the socket takes; false where something is left. */
static inline bool control_send(struct control *control)
{
    struct control_bytes *to = &control->to;

    while (control_pending(to) > 0 && !control->is_gone) {
        ssize_t sent = send(control->socket, control_front(to), control_pending(to), MSG_NOSIGNAL);

        if (sent >= 0)
            to->start += (size_t)sent;
        else if (!control_may_retry(errno))
            control->is_gone = true;
        else if (errno != EINTR)
            return false;
    }
    return control_pending(to) == 0;
}

/* What the socket is polled for. Where that is nothing, its number is -1: else poll may return at
   once for an end that has closed. */
static inline struct pollfd control_polled(struct control *control)
{
    struct pollfd polled = {.fd = control->socket};

    if (!control->is_at_end && control_room(&control->from) > 0)
        polled.events |= POLLIN;
    if (control_pending(&control->to) > 0)
        polled.events |= POLLOUT;
    if (polled.events == 0)
        polled.fd = -1;
    return polled;
}

/* Receives and sends by the events that poll has found, or epoll, whose numbers are the same. */
static inline void control_exchange(struct control *control, int events)
{
    if ((events & ~POLLOUT) != 0)
        control_receive(control);
    if ((events & ~POLLIN) != 0)
        control_send(control);
}

/* Whether the session is over, and the socket is to be closed. At the end of a session the other
   end is told, and what comes until it has closed is dropped: a socket that is closed with bytes
   unread resets the connection, and then the last reply may be lost. */
static inline bool control_is_over(struct control *control)
{
    if (control->is_gone || (control->is_at_end && control_pending(&control->to) == 0))
        return true;
    if (!control->is_ending || control_pending(&control->to) > 0)
        return false;
    if (!control->is_shut)
        control->is_gone = shutdown(control->socket, SHUT_WR) < 0;
    control->is_shut = true;
    control->dropped += control_drop_all(control);
    return control->is_gone || control->dropped > CONTROL_DROPPED_MOST;
}

/* Ends a session as control_is_over says, and closes the socket. The other end has a limited time
   to close once it takes no more, also where calls on the socket waited before. */
static inline void control_finish(struct control *control)
{
    int64_t deadline = control_now() + CONTROL_LAST_WAIT, left;

    control->is_ending = true;
    control->is_gone = control->is_gone || !control_set_nonblocking(control->socket);
    while (!control_is_over(control) && (left = deadline - control_now()) > 0) {
        struct pollfd polled = control_polled(control);
        size_t pending = control_pending(&control->to);

        if (poll(&polled, 1, (int)left) > 0)
            control_exchange(control, polled.revents);
        if (control_pending(&control->to) < pending)
            deadline = control_now() + CONTROL_LAST_WAIT;
    }
    close(control->socket);
}

/* Takes the first line of what has come; false where none is complete. */
static inline bool control_take(struct control *control, struct control_line *line)
{
    struct unftp_line found;

    control_drop_used(control);
    line->bytes = control_front(&control->from);
    line->event = unftp_next(&control->lines, line->bytes, control_pending(&control->from),
                             line->area, sizeof line->area, &found);
    line->len = found.used;
    line->name = line->area;
    line->name_len = found.name_len;
    line->value = unftp_value(&found, line->bytes, line->area);
    line->value_len = found.value_len;
    control->used = found.used;
    if (line->event == UNFTP_MORE)
        control_drop_used(control);
    return line->event != UNFTP_MORE;
}

/* Takes the next line, which is to be answered, and drops the one before it. It is false where the
   line has to wait: for its bytes, or for the client to read. Then the replies are sent, as far as
   the socket takes them. */
static inline bool control_next_line(struct control *control, struct control_line *line)
{
    control_drop_used(control);
    if (control_room(&control->to) < CONTROL_REPLY_ROOM && !control_send(control))
        return false;
    if (!control->is_ending && control_take(control, line))
        return true;
    control_send(control);
    return false;
}

/* Finds the next reply of a server, and drops the one before it: what unftp_next_reply returns. The
   reply is at the front of what has come, until more is received. */
static inline enum unftp_result control_next_reply(struct control *control,
                                                   struct unftp_found_reply *reply)
{
    enum unftp_result result;

    control_drop_used(control);
    result = unftp_next_reply(&control->replies, control_front(&control->from),
                              control_pending(&control->from), reply);
    if (result == UNFTP_DONE)
        control->used = reply->used;
    return result;
}

/* Notes what a call has written after the bytes that are to be sent. Where it has written nothing,
   the session ends: there is no room for a reply, or no such reply. */
static inline bool control_wrote(struct control *control, enum unftp_result result, size_t len)
{
    if (result == UNFTP_DONE)
        control->to.end += len;
    else
        control->is_ending = true;
    return result == UNFTP_DONE;
}

/* Replies with a text; false where the session ends by it. */
static inline bool control_reply(struct control *control, uint32_t code, const char *text,
                                 size_t text_len)
{
    size_t room = control_room(&control->to), len;
    enum unftp_result result =
        unftp_reply(code, text, text_len, control->to.bytes + control->to.end, room, &len);

    return control_wrote(control, result, len);
}

/* Replies with a text that ends with a NUL; false where the session ends by it. */
static inline bool control_say(struct control *control, uint32_t code, const char *text)
{
    return control_reply(control, code, text, strlen(text));
}

/* Sends the usual reply to a line. The session ends after QUIT, and out of memory. */
static inline bool control_usual_reply(struct control *control, const struct control_line *line)
{
    size_t room = control_room(&control->to), len;
    enum unftp_result result =
        unftp_usual_reply(line->event, line->value, line->value_len,
                          control->to.bytes + control->to.end, room, &len);

    if (line->event == UNFTP_QUIT || line->event == UNFTP_OUT_OF_MEMORY)
        control->is_ending = true;
    return control_wrote(control, result, len);
}

/* A login, and the last name that was given. At the start all is 0. */
struct control_login {
    struct unftp_login gate;
    char name[CONTROL_LINE_LIMIT];
    size_t name_len;
};

static inline bool control_login_reply(struct control *control, enum unftp_login_step step,
                                       bool is_right)
{
    size_t room = control_room(&control->to), len;
    enum unftp_result result =
        unftp_login_reply(step, is_right, control->to.bytes + control->to.end, room, &len);

    return control_wrote(control, result, len);
}

/* What is to be done with a line. At UNFTP_LOGIN_PASS_ON the server answers it. At
   UNFTP_LOGIN_ASK_ACCOUNTS it asks its accounts whether the value is the password of the name, and
   passes that to control_answer_login before the next line. At other steps the line is answered. */
static inline enum unftp_login_step control_log_in(struct control *control,
                                                   struct control_login *login,
                                                   const struct control_line *line)
{
    enum unftp_login_step step = unftp_login_event(&login->gate, line->event);

    if (step == UNFTP_LOGIN_NEED_PASSWORD) {
        login->name_len = line->value_len;
        memcpy(login->name, line->value, line->value_len);
    }
    if (step != UNFTP_LOGIN_PASS_ON && step != UNFTP_LOGIN_ASK_ACCOUNTS)
        control_login_reply(control, step, false);
    return step;
}

/* Logs the client in, where its password is right, and answers PASS. */
static inline bool control_answer_login(struct control *control, struct control_login *login,
                                        bool is_right)
{
    bool was_asked = unftp_login_answer(&login->gate, is_right) == UNFTP_DONE;

    return control_login_reply(control, UNFTP_LOGIN_ASK_ACCOUNTS, is_right && was_asked);
}

/* What a log may show of a line, which has no password in it. It lasts as long as the line. */
static inline const char *control_shown(struct control_line *line)
{
    size_t len;
    uint32_t hides; /* not read: no text of replies is logged */

    if (unftp_log_line(line->event, line->bytes, line->len, line->shown, sizeof line->shown - 1,
                       &len, &hides)
        != UNFTP_DONE)
        return "(out of memory)";
    line->shown[len] = '\0';
    return line->shown;
}

/*
 * A proxy of a control connection. Each line of the client is sent to the server, or answered by
 * the proxy in its turn. Each reply of the server is passed on as it came. Only poll waits.
 */
struct control_proxy {
    struct control client;
    struct control server;
    struct unftp_client dialogue;
    uint32_t code;             /* of the last reply or answer */
    const char *text;          /* that of an answer */
    enum unftp_code held_code; /* an answer that waits for the server's replies before it */
    const char *held_text;     /* NULL where there is none */
    const char *end_text;      /* that of a 421 which ends the session; or NULL */
    bool drops_lines;          /* the server is sent no more */
    bool is_closing;           /* the server has said 221 or 421 */
    bool is_over;
};

/* What has passed through a proxy. */
enum control_event {
    CONTROL_NOTHING, /* more has to come first, or one end has to read */
    CONTROL_LINE,    /* the client's next line is taken: control_proxy_decide has to be called */
    CONTROL_REPLY,   /* the server has sent a reply, with this code */
    CONTROL_ANSWER   /* the client is given an answer of the proxy, with this code and text */
};

/* Whether a command only logs in, asks or reads, so that a proxy may send its line on. Any other is
   refused, also one that the library comes to know later. PORT is not sent on, whose address would
   be the proxy's, nor AUTH, which would end in what nobody can read. Nor is MDTM: some servers take
   a time before its path, and give it to the file. */
static inline bool control_only_reads(enum unftp_result command)
{
    switch (command) {
    case UNFTP_USER: case UNFTP_PASS: case UNFTP_ACCT: case UNFTP_QUIT: case UNFTP_NOOP:
    case UNFTP_SYST: case UNFTP_FEAT: case UNFTP_HELP: case UNFTP_STAT: case UNFTP_OPTS:
    case UNFTP_TYPE: case UNFTP_STRU: case UNFTP_MODE: case UNFTP_ALLO: case UNFTP_REST:
    case UNFTP_PASV: case UNFTP_EPSV: case UNFTP_ABOR: case UNFTP_PWD: case UNFTP_CWD:
    case UNFTP_CDUP: case UNFTP_RETR: case UNFTP_LIST: case UNFTP_NLST: case UNFTP_MLST:
    case UNFTP_MLSD: case UNFTP_SIZE:
        return true;
    default:
        return false;
    }
}

/* Sets a proxy up, of all zeros, between two sockets; false where a call on one of them fails. */
static inline bool control_proxy_start(struct control_proxy *proxy, int client, int server)
{
    bool has_client = control_start(&proxy->client, client) && control_set_nonblocking(client);
    bool has_server = control_start(&proxy->server, server) && control_set_nonblocking(server);

    return has_client && has_server;
}

/* Answers the line that was taken in the server's place, once its turn has come. The code is from
   200 on: no other reply follows. The text has to last, and has at most 250 bytes. */
static inline void control_proxy_answer(struct control_proxy *proxy, enum unftp_code code,
                                        const char *text)
{
    proxy->held_code = code;
    proxy->held_text = text;
}

/* Ends the session by a 421 that waits for nothing. The text has to last. */
static inline void control_proxy_end(struct control_proxy *proxy, const char *text)
{
    proxy->end_text = text;
}

/* Sends the server a line. What comes after QUIT is dropped: a server that has closed resets the
   connection when more comes, and its last reply may be lost. */
static inline void control_proxy_forward(struct control_proxy *proxy,
                                         const struct control_line *line)
{
    struct control_bytes *to = &proxy->server.to;
    size_t room = control_room(to), len;
    char *forwarded = to->bytes + to->end;
    uint32_t clear;
    uint64_t place;
    enum unftp_result result =
        unftp_forward(line->bytes, line->len, forwarded, room, &len, &clear);

    if (result == UNFTP_DONE && clear == 0) {
        control_proxy_answer(proxy, UNFTP_CODE_PARAMETER_SYNTAX_ERROR,
                             "CR, NUL or 255 in a parameter");
        return;
    }
    if (result == UNFTP_DONE)
        result = unftp_client_line(&proxy->dialogue, forwarded, len, &place);
    if (result != UNFTP_DONE) {
        control_proxy_end(proxy, unftp_result_text(result));
        return;
    }
    to->end += len;
    proxy->drops_lines = line->event == UNFTP_QUIT;
}

/* Sends the server the line that was taken, where it is a command that is allowed, and else answers
   it. */
static inline void control_proxy_decide(struct control_proxy *proxy,
                                        const struct control_line *line, bool is_allowed)
{
    switch (line->event) {
    case UNFTP_INVALID_COMMAND: case UNFTP_INVALID_UTF8: case UNFTP_INVALID_EOL:
    case UNFTP_LINE_TOO_LONG:
        control_proxy_answer(proxy, UNFTP_CODE_COMMAND_SYNTAX_ERROR,
                             unftp_result_text(line->event));
        break;
    case UNFTP_OUT_OF_MEMORY: case UNFTP_NO_ROOM: case UNFTP_INVALID_ARGUMENT:
        control_proxy_end(proxy, unftp_result_text(line->event));
        break;
    default:
        if (is_allowed)
            control_proxy_forward(proxy, line);
        else
            control_proxy_answer(proxy, UNFTP_CODE_COMMAND_NOT_IMPLEMENTED, "not allowed here");
    }
}

/* Gives the client an answer; the session is over where it has no room for that. */
static inline enum control_event control_proxy_give(struct control_proxy *proxy, uint32_t code,
                                                    const char *text)
{
    if (!control_say(&proxy->client, code, text))
        proxy->is_over = true;
    proxy->code = code;
    proxy->text = text;
    return CONTROL_ANSWER;
}

/* Gives the answer that is held, once all lines before it have their replies. There has to be room
   first: an answer that is noted is given. */
static inline enum control_event control_proxy_give_held(struct control_proxy *proxy)
{
    const char *text = proxy->held_text;

    if (text == NULL || control_room(&proxy->client.to) < CONTROL_ANSWER_ROOM
        || unftp_client_answer(&proxy->dialogue, proxy->held_code) == 0)
        return CONTROL_NOTHING;
    proxy->held_text = NULL;
    return control_proxy_give(proxy, proxy->held_code, text);
}

/* Passes a reply on as it came; but one to nothing would be taken for that to a later line. */
static inline enum control_event control_proxy_pass(struct control_proxy *proxy,
                                                    const struct unftp_found_reply *reply)
{
    bool is_unavailable = reply->code == UNFTP_CODE_SERVICE_NOT_AVAILABLE;
    uint64_t place;
    enum unftp_to to = unftp_client_reply(&proxy->dialogue, reply->code, &place);

    if (to == UNFTP_TO_NOTHING && !is_unavailable) {
        control_proxy_end(proxy, "the server replies to nothing");
    } else {
        control_put(&proxy->client, control_front(&proxy->server.from), reply->used);
        proxy->is_over = to == UNFTP_TO_NOTHING;
    }
    if (is_unavailable || reply->code == UNFTP_CODE_CLOSING_CONTROL_CONNECTION)
        proxy->is_closing = true;
    proxy->code = reply->code;
    proxy->text = NULL;
    return CONTROL_REPLY;
}

/* Passes the server's next reply on, where it is complete and the client has room for it. */
static inline enum control_event control_proxy_reply(struct control_proxy *proxy)
{
    struct control *server = &proxy->server;
    struct unftp_found_reply reply;
    enum unftp_result result = control_next_reply(server, &reply);

    if (result == UNFTP_DONE && reply.used <= control_room(&proxy->client.to))
        return control_proxy_pass(proxy, &reply);
    server->used = 0; /* it stays */
    if (result == UNFTP_REPLY_TOO_LONG)
        control_proxy_end(proxy, "the server's reply is too long");
    else if (result != UNFTP_DONE && result != UNFTP_MORE)
        control_proxy_end(proxy, "the server's reply is malformed");
    else if (result == UNFTP_MORE && server->is_at_end && proxy->is_closing)
        proxy->is_over = true;
    else if (result == UNFTP_MORE && server->is_at_end)
        control_proxy_end(proxy, "the server has closed the connection");
    return CONTROL_NOTHING;
}

/* Drops Interrupt Process and Data Mark of Telnet at the start of a line, which clients send before
   ABOR (RFC 959, section 4.1.3); false where the next byte is needed to tell. */
static inline bool control_drop_telnet(struct control *control)
{
    struct control_bytes *from = &control->from;

    control_drop_used(control);
    if (control->lines.offset > 0 || control->lines.skipping != 0)
        return true;
    while (control_pending(from) > 0 && control_front(from)[0] == '\xff') {
        if (control_pending(from) == 1)
            return false;
        if (control_front(from)[1] != '\xf4' && control_front(from)[1] != '\xf2')
            break;
        from->start += 2;
    }
    return true;
}

/* Whether the client's next line may be taken. A call on a copy notes nothing. */
static inline bool control_may_take(struct unftp_client copy)
{
    return unftp_client_take(&copy) != 0;
}

/* Whether each line that was sent has its replies, after the greeting. */
static inline bool control_proxy_is_answered(const struct control_proxy *proxy)
{
    return proxy->dialogue.greeted != 0 && unftp_client_owed(&proxy->dialogue) == 0;
}

/* Takes the client's next line, where the server has room for it. After the client's last line and
   its replies the session is over. */
static inline enum control_event control_proxy_take(struct control_proxy *proxy,
                                                    struct control_line *line)
{
    struct control *client = &proxy->client;

    if (proxy->held_text != NULL || control_room(&proxy->server.to) < CONTROL_FORWARDED_MOST)
        return CONTROL_NOTHING;
    if (proxy->drops_lines) {
        control_drop_all(client);
    } else if (control_drop_telnet(client) && control_may_take(proxy->dialogue)
               && control_take(client, line)) {
        unftp_client_take(&proxy->dialogue);
        return CONTROL_LINE;
    }
    proxy->is_over =
        (client->is_at_end || proxy->drops_lines) && control_proxy_is_answered(proxy);
    return CONTROL_NOTHING;
}

/* What passes next through the proxy. It is called until that is nothing. */
static inline enum control_event control_proxy_next(struct control_proxy *proxy,
                                                    struct control_line *line)
{
    enum control_event event = CONTROL_NOTHING;

    if (!proxy->is_over && proxy->end_text == NULL)
        event = control_proxy_reply(proxy);
    if (proxy->is_over || event != CONTROL_NOTHING)
        return event;
    if (proxy->end_text != NULL) {
        proxy->is_over = true;
        return control_proxy_give(proxy, UNFTP_CODE_SERVICE_NOT_AVAILABLE, proxy->end_text);
    }
    event = control_proxy_give_held(proxy);
    return event == CONTROL_NOTHING ? control_proxy_take(proxy, line) : event;
}

/* Whether only the server is waited for. It may take its time, as for a transfer: it has a limit of
   its own, which also ends the session of a client that sends bytes but no line. */
static inline bool control_proxy_is_servers_turn(const struct control_proxy *proxy)
{
    return proxy->dialogue.greeted != 0 && !control_proxy_is_answered(proxy)
        && control_pending(&proxy->client.to) == 0 && control_pending(&proxy->server.to) == 0;
}

/* Waits for either end, and exchanges what it is ready for. A client that is owed no reply may send
   nothing for so many milliseconds. Where the session is over, nothing is waited for. */
static inline void control_proxy_wait(struct control_proxy *proxy, int idle)
{
    struct pollfd polled[] = {control_polled(&proxy->client), control_polled(&proxy->server)};
    int count;

    if (proxy->is_over)
        return;
    count = poll(polled, 2, control_proxy_is_servers_turn(proxy) ? -1 : idle);
    if (count == 0 || (count < 0 && errno != EINTR))
        control_proxy_end(proxy, count == 0 ? "timeout" : "poll failed");
    if (count <= 0)
        return;
    if (polled[0].revents != 0)
        control_exchange(&proxy->client, polled[0].revents);
    if (polled[1].revents != 0)
        control_exchange(&proxy->server, polled[1].revents);
    if (proxy->client.is_gone)
        proxy->is_over = true;
    if (proxy->server.is_gone) { /* its last replies may still be read */
        proxy->server.to.start = proxy->server.to.end;
        proxy->drops_lines = true;
    }
}

/* Sends the client what it is still to get, and closes both connections. */
static inline void control_proxy_finish(struct control_proxy *proxy)
{
    close(proxy->server.socket);
    control_finish(&proxy->client);
}

#endif
