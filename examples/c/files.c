/*
 * A server that transfers files, with a process for each client:
 *
 *     files [FOLDER [ADDRESS:PORT]]
 *
 * Who logs in as anna with the password secret may list, read and write the files of the folder, of
 * which none is in a folder below it. Names are the bytes that a client sends. It follows links. It
 * answers a transfer before it reads the next line, so that ABOR comes too late. It prints its port
 * as one line, and logs each line of a client. An address of IPv6 is in brackets. server.c shows
 * limits on clients and a clean end.
 */
#define _POSIX_C_SOURCE 200809L

#include "control_connection.h"
#include "data_connection.h"

#include <dirent.h>
#include <limits.h>
#include <netdb.h>
#include <signal.h>
#include <stdlib.h>
#include <sys/stat.h>
#include <sys/time.h>

enum {
    /* what a line of LIST has besides the name, at most */
    LIST_ROOM = 112,
    PIECE = 64 * 1024,

    /* an address, and the name of an interface for a link-local one */
    HOST_ROOM = 64,
    PORT_ROOM = 8,

    /* how long a client may take to open a data connection, in milliseconds */
    OPENING = 30 * 1000,
    /* how long a client may send or take nothing, in seconds */
    IDLE = 300
};

struct session {
    struct control control;
    struct control_login login;
    struct data_port data;
    const char *peer;
};

/* The path of the file that a line names; NULL where that is none of the folder. */
static const char *path_of(const struct control_line *line, char *path)
{
    size_t len;
    const char *name = path;

    if (unftp_parameter(line->bytes, line->len, path, NAME_MAX + 1, &len) != UNFTP_DONE)
        return NULL;
    path[len] = '\0';
    if (*name == '/')
        name++;
    if (*name == '\0' || strlen(path) != len || strchr(name, '/') != NULL
        || strcmp(name, ".") == 0 || strcmp(name, "..") == 0)
        return NULL;
    return name;
}

/* Ends waiting for a client that sends or takes nothing. */
static void limit_waiting(int socket)
{
    struct timeval idle = {.tv_sec = IDLE};

    setsockopt(socket, SOL_SOCKET, SO_RCVTIMEO, &idle, sizeof idle);
    setsockopt(socket, SOL_SOCKET, SO_SNDTIMEO, &idle, sizeof idle);
}

static void answer(struct session *session, uint32_t code, const char *text)
{
    control_say(&session->control, code, text);
}

/* The data connection, once it is open; or -1, where the client is answered 425. */
static int open_data(struct session *session)
{
    const char *text = "PASV or EPSV comes first";
    int data = -1;

    if (data_port_is_prepared(&session->data)) {
        answer(session, UNFTP_CODE_FILE_STATUS_OKAY, "Opening the data connection");
        control_send(&session->control);
        data = data_port_open(&session->data, OPENING);
        text = strerror(errno);
    }
    if (data >= 0)
        limit_waiting(data);
    else
        answer(session, UNFTP_CODE_CANT_OPEN_DATA_CONNECTION, text);
    return data;
}

static bool write_bytes(int to, const char *bytes, size_t len)
{
    while (len > 0) {
        ssize_t written = write(to, bytes, len);

        if (written < 0 && errno != EINTR)
            return false;
        if (written > 0) {
            bytes += written;
            len -= (size_t)written;
        }
    }
    return true;
}

/* Copies up to the end. A stop of the process interrupts a socket with a limit on waiting. */
static bool copy(int from, int to)
{
    char piece[PIECE];
    ssize_t got;

    while ((got = read(from, piece, sizeof piece)) > 0 || (got < 0 && errno == EINTR)) {
        if (got > 0 && !write_bytes(to, piece, (size_t)got))
            return false;
    }
    return got == 0;
}

/* Closes the data connection, and answers the transfer. */
static void end_transfer(struct session *session, int data, bool is_done)
{
    close(data);
    if (is_done)
        answer(session, UNFTP_CODE_CLOSING_DATA_CONNECTION, "Done");
    else
        answer(session, UNFTP_CODE_CONNECTION_CLOSED, "Cut");
}

/* Sends what a file has. */
static void send_file(struct session *session, int file)
{
    int data = open_data(session);

    if (data >= 0)
        end_transfer(session, data, copy(file, data) && shutdown(data, SHUT_WR) == 0);
}

static void answer_no_file(struct session *session)
{
    answer(session, UNFTP_CODE_FILE_ERROR, strerror(errno));
}

/* No pipe is waited for. */
static void retrieve(struct session *session, const char *path)
{
    int file = open(path, O_RDONLY | O_NONBLOCK | O_CLOEXEC);

    if (file < 0) {
        answer_no_file(session);
        return;
    }
    send_file(session, file);
    close(file);
}

/* Puts what comes into a file, and closes the data connection. */
static void receive_file(struct session *session, int data, const char *path)
{
    int file = open(path, O_WRONLY | O_CREAT | O_TRUNC | O_NONBLOCK | O_CLOEXEC, 0666);
    bool is_done;

    if (file < 0) {
        answer_no_file(session);
        close(data);
        return;
    }
    is_done = copy(data, file);
    is_done = close(file) == 0 && is_done;
    end_transfer(session, data, is_done);
}

static void store(struct session *session, const char *path)
{
    int data = open_data(session);

    if (data >= 0)
        receive_file(session, data, path);
}

/* RETR and STOR. */
static void transfer_file(struct session *session, const struct control_line *line)
{
    char area[NAME_MAX + 2];
    const char *path = path_of(line, area);

    if (path == NULL)
        answer(session, UNFTP_CODE_FILE_ERROR, "No file");
    else if (line->event == UNFTP_STOR)
        store(session, path);
    else
        retrieve(session, path);
}

/* Writes the line of a file in LIST, with no user and no group, or in NLST. One whose name can't be
   in a line is left out. It returns false where memory has run out. */
static bool write_line(FILE *lines, const char *name, const struct stat *facts, bool is_long)
{
    struct unftp_file file = {.size = (uint64_t)facts->st_size, .modified = facts->st_mtime,
                              .has_modified = 1, .kind = UNFTP_KIND_FILE,
                              .mode = facts->st_mode, .links = (uint32_t)facts->st_nlink};
    char line[NAME_MAX + LIST_ROOM];
    size_t len;
    enum unftp_result result = unftp_list_line(&file, time(NULL), name, strlen(name), line,
                                               sizeof line, &len);

    if (result == UNFTP_DONE && is_long)
        fwrite(line, 1, len, lines);
    else if (result == UNFTP_DONE)
        fprintf(lines, "%s\r\n", name);
    return result == UNFTP_DONE || result == UNFTP_INVALID_ARGUMENT;
}

/* Writes a line for each file; false where memory has run out. */
static bool write_names(FILE *lines, DIR *folder, bool is_long)
{
    const struct dirent *entry;
    struct stat facts;

    while ((entry = readdir(folder)) != NULL) {
        if (stat(entry->d_name, &facts) == 0 && S_ISREG(facts.st_mode)
            && !write_line(lines, entry->d_name, &facts, is_long))
            return false;
    }
    return true;
}

/* LIST and NLST. */
static void transfer_names(struct session *session, bool is_long)
{
    FILE *lines = tmpfile();
    DIR *folder = opendir(".");

    if (lines != NULL && folder != NULL && write_names(lines, folder, is_long)
        && fflush(lines) == 0 && lseek(fileno(lines), 0, SEEK_SET) == 0)
        send_file(session, fileno(lines));
    else
        answer(session, UNFTP_CODE_LOCAL_ERROR, "The folder can't be read");
    if (folder != NULL)
        closedir(folder);
    if (lines != NULL)
        fclose(lines);
}

/* Answers a line of somebody who has logged in, or that needs no login. */
static void answer_event(struct session *session, const struct control_line *line)
{
    char text[DATA_TEXT_ROOM];
    uint32_t code = data_port_answer(&session->data, line->event, line->bytes, line->len, text);

    if (code != 0) {
        answer(session, code, text);
        return;
    }
    switch (line->event) {
    case UNFTP_TYPE: answer(session, UNFTP_CODE_COMMAND_OKAY, "OK"); break;
    case UNFTP_PWD: answer(session, UNFTP_CODE_DIR_CREATED, "\"/\" is the directory"); break;
    case UNFTP_RETR: case UNFTP_STOR: transfer_file(session, line); break;
    case UNFTP_LIST: transfer_names(session, true); break;
    case UNFTP_NLST: transfer_names(session, false); break;
    case UNFTP_ABOR:
        data_port_close(&session->data);
        answer(session, UNFTP_CODE_CLOSING_DATA_CONNECTION, "No transfer is under way");
        break;
    default: control_usual_reply(&session->control, line);
    }
}

/* Whether the accounts have this name with this password. */
static bool is_account(const struct control_login *login, const struct control_line *line)
{
    return login->name_len == 4 && memcmp(login->name, "anna", 4) == 0 && line->value_len == 6
        && memcmp(line->value, "secret", 6) == 0;
}

/* Answers the complete lines; false where the client doesn't take the replies. */
static bool answer_lines(struct session *session)
{
    struct control *control = &session->control;
    struct control_login *login = &session->login;
    struct control_line line;

    while (control_next_line(control, &line)) {
        enum unftp_login_step step = control_log_in(control, login, &line);

        fprintf(stderr, "%s: %s\n", session->peer, control_shown(&line));
        if (step == UNFTP_LOGIN_ASK_ACCOUNTS)
            control_answer_login(control, login, is_account(login, &line));
        else if (step == UNFTP_LOGIN_PASS_ON)
            answer_event(session, &line);
    }
    return control_pending(&control->to) == 0;
}

/* Serves a client up to QUIT, or its end. */
static void serve(int control, const char *peer)
{
    struct session session = {.peer = peer};

    limit_waiting(control);
    if (!control_start(&session.control, control) || !data_port_start(&session.data, control))
        return;
    answer(&session, UNFTP_CODE_SERVICE_READY, "Ready");
    while (answer_lines(&session) && !session.control.is_ending
           && control_receive(&session.control))
        continue;
    control_finish(&session.control);
}

/* Listens at an address with a port, where the last colon is between both; or -1. */
static int listen_at(char *place)
{
    struct addrinfo hints = {.ai_flags = AI_NUMERICHOST | AI_PASSIVE, .ai_socktype = SOCK_STREAM};
    struct addrinfo *found;
    char *colon = strrchr(place, ':');
    int listener;

    if (colon == NULL)
        return -1;
    *colon = '\0';
    if (*place == '[' && colon > place + 1 && colon[-1] == ']') {
        colon[-1] = '\0';
        place++;
    }
    if (getaddrinfo(place, colon + 1, &hints, &found) != 0)
        return -1;
    listener = socket(found->ai_family, SOCK_STREAM | SOCK_CLOEXEC, 0);
    if (listener >= 0
        && (!control_set_option(listener, SOL_SOCKET, SO_REUSEADDR)
            || bind(listener, found->ai_addr, found->ai_addrlen) < 0
            || listen(listener, SOMAXCONN) < 0)) {
        close(listener);
        listener = -1;
    }
    freeaddrinfo(found);
    return listener;
}

/* The host of an address, and its port. */
static void show(const struct sockaddr_storage *address, socklen_t len, char *host, char *port)
{
    if (getnameinfo((const struct sockaddr *)address, len, host, HOST_ROOM, port, PORT_ROOM,
                    NI_NUMERICHOST | NI_NUMERICSERV) != 0)
        *host = *port = '\0';
}

/* Serves the next client in a process of its own. */
static void serve_next(int listener)
{
    struct sockaddr_storage peer;
    socklen_t len = sizeof peer;
    char host[HOST_ROOM], port[PORT_ROOM];
    int control = accept(listener, (struct sockaddr *)&peer, &len);
    pid_t process = control < 0 ? -1 : fork();

    if (process == 0) {
        close(listener);
        show(&peer, len, host, port);
        serve(control, host);
        _exit(EXIT_SUCCESS);
    }
    if (control >= 0)
        close(control);
    if (process < 0) { /* no descriptor or process is left, or the like */
        struct timespec pause = {.tv_nsec = 100 * 1000 * 1000};

        nanosleep(&pause, NULL);
    }
}

int main(int count, char **arguments)
{
    struct sockaddr_storage own;
    socklen_t len = sizeof own;
    char host[HOST_ROOM], port[PORT_ROOM];
    char usual_place[] = "127.0.0.1:2121", *place = count > 2 ? arguments[2] : usual_place;
    const char *folder = count > 1 ? arguments[1] : ".";
    int listener;

    if (chdir(folder) < 0) {
        fprintf(stderr, "files: %s: %s\n", folder, strerror(errno));
        return EXIT_FAILURE;
    }
    listener = listen_at(place);
    if (listener < 0 || getsockname(listener, (struct sockaddr *)&own, &len) < 0) {
        fputs("files: it can't listen there, or that is no address with a port\n", stderr);
        return EXIT_FAILURE;
    }
    signal(SIGPIPE, SIG_IGN);
    signal(SIGCHLD, SIG_IGN); /* no process is waited for */
    show(&own, len, host, port);
    printf("%s\n", port);
    fflush(stdout);
    for (;;)
        serve_next(listener);
}
