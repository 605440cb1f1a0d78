/*
 * A server with a login, on epoll, with one thread for all clients:
 *
 *     epoll [PORT]
 *
 * It listens on a port of 127.0.0.1, which is 2161 unless one is named, and prints it as one line.
 * Standard error shows each line of a client, without its password. Idle clients may stay.
 */
#define _GNU_SOURCE

#include "control_connection.h"

#include <signal.h>
#include <stdio.h>
#include <stdlib.h>
#include <sys/epoll.h>

/* how many events are taken at once, and how long no client is accepted after a failure */
enum { EVENTS_MOST = 64, PAUSE = 100 };

struct client {
    struct control control;
    struct control_login login;
};

static bool is_account(const struct control_login *login, const struct control_line *line)
{
    return login->name_len == 4 && memcmp(login->name, "anna", 4) == 0 && line->value_len == 6
        && memcmp(line->value, "secret", 6) == 0;
}

/* Answers a line of somebody who has logged in, or that needs no login. */
static bool answer(struct control *control, const struct control_line *line)
{
    switch (line->event) {
    case UNFTP_TYPE: return control_say(control, UNFTP_CODE_COMMAND_OKAY, "OK");
    case UNFTP_PWD: return control_say(control, UNFTP_CODE_DIR_CREATED, "\"/\"");
    case UNFTP_FEAT: return control_say(control, UNFTP_CODE_SYSTEM_STATUS, "Features\n UTF8\nEnd");
    default: return control_usual_reply(control, line);
    }
}

/* Goes on with a client that is ready for these events. The operation is EPOLL_CTL_ADD at first. */
static void go_on(int poller, struct client *client, int operation, uint32_t ready)
{
    struct control *control = &client->control;
    struct epoll_event next = {.data = {.ptr = client}};
    struct control_line line;

    control_exchange(control, (int)ready);
    while (control_next_line(control, &line)) {
        enum unftp_login_step step = control_log_in(control, &client->login, &line);

        fprintf(stderr, "%d: %s\n", control->socket, control_shown(&line));
        if (step == UNFTP_LOGIN_ASK_ACCOUNTS)
            control_answer_login(control, &client->login, is_account(&client->login, &line));
        else if (step == UNFTP_LOGIN_PASS_ON)
            answer(control, &line);
    }
    if (!control_is_over(control)) {
        next.events = (uint32_t)control_polled(control).events;
        if (epoll_ctl(poller, operation, control->socket, &next) == 0)
            return;
    }
    close(control->socket);
    free(client);
}

/* Greets the next client; false where no descriptor or memory is left, or the like. */
static bool accept_client(int poller, int listener)
{
    int accepted = accept4(listener, NULL, NULL, SOCK_NONBLOCK | SOCK_CLOEXEC);
    struct client *client = accepted < 0 ? NULL : calloc(1, sizeof *client);

    if (accepted < 0)
        return control_may_retry(errno) || errno == ECONNABORTED;
    if (client == NULL) {
        close(accepted);
        return false;
    }
    client->control.is_gone = !control_start(&client->control, accepted);
    control_say(&client->control, UNFTP_CODE_SERVICE_READY, "Ready");
    go_on(poller, client, EPOLL_CTL_ADD, 0);
    return true;
}

int main(int count, char **arguments)
{
    uint16_t port = count > 1 ? (uint16_t)atoi(arguments[1]) : 2161;
    int listener = control_listen(&port), poller = epoll_create1(EPOLL_CLOEXEC);
    struct epoll_event events[EVENTS_MOST], listening = {.events = EPOLLIN};

    if (listener < 0 || !control_set_nonblocking(listener)
        || epoll_ctl(poller, EPOLL_CTL_ADD, listener, &listening) < 0) {
        perror("epoll");
        return EXIT_FAILURE;
    }
    signal(SIGPIPE, SIG_IGN); /* also where nobody reads the log */
    printf("%u\n", (unsigned)port);
    fflush(stdout);
    for (;; epoll_ctl(poller, EPOLL_CTL_MOD, listener, &listening)) {
        int found = epoll_wait(poller, events, EVENTS_MOST, listening.events != 0 ? -1 : PAUSE);

        listening.events = EPOLLIN;
        for (int at = 0; at < found; at++) {
            if (events[at].data.ptr != NULL)
                go_on(poller, events[at].data.ptr, EPOLL_CTL_MOD, events[at].events);
            else if (!accept_client(poller, listener))
                listening.events = 0;
        }
    }
}
