/*
 * A server's data port, to copy beside control_connection.h: the replies to PASV, EPSV, PORT and
 * EPRT (RFC 959, section 4.1.2; RFC 2428), and the data connection that they prepare. files.c shows
 * it.
 *
 * A data connection is between the addresses of the control connection. One from another address is
 * closed, and a PORT or EPRT with another address or a port below 1024 is refused, so that nothing
 * is sent to others or taken from them (RFC 2577). An IPv4-mapped address of IPv6 is that of IPv4,
 * and a link-local address keeps its interface.
 *
 * Ask unftp_login_event first. At the start set a struct data_port up by data_port_start.
 */
#ifndef DATA_CONNECTION_H
#define DATA_CONNECTION_H

#include "control_connection.h"

#include <stdio.h>
#include <strings.h>

enum {
    /* the first port that is no system's own */
    DATA_FIRST_PORT = 1024,
    /* the longest value of EPRT has 49 bytes */
    DATA_PARAMETER_ROOM = 64,
    DATA_TEXT_ROOM = 128
};

/* A host: 4 bytes of IPv4 or 16 of IPv6, in network order. */
struct data_host {
    char ip[16];
    size_t len;
};

struct data_port {
    struct data_host client;
    struct data_host server;
    uint32_t scope; /* the interface of link-local addresses */
    int listener;   /* after PASV and EPSV; or else -1 */
    uint32_t port;  /* the client's, after PORT and EPRT; or else 0 */
    bool only_epsv; /* after EPSV ALL */
};

/* The host of a socket's address, unmapped. */
static struct data_host data_host_of(const struct sockaddr_storage *address)
{
    struct data_host host = {{0}, 4};
    const struct in6_addr *ipv6 = &((const struct sockaddr_in6 *)address)->sin6_addr;

    if (address->ss_family == AF_INET) {
        memcpy(host.ip, &((const struct sockaddr_in *)address)->sin_addr, 4);
    } else if (IN6_IS_ADDR_V4MAPPED(ipv6)) {
        memcpy(host.ip, ipv6->s6_addr + 12, 4);
    } else {
        memcpy(host.ip, ipv6, 16);
        host.len = 16;
    }
    return host;
}

static bool data_is_same_host(const struct data_host *one, const struct data_host *other)
{
    return one->len == other->len && memcmp(one->ip, other->ip, one->len) == 0;
}

/* A port of a host, as the system has it: how long that is. */
static socklen_t data_address(const struct data_port *data, const struct data_host *host,
                              uint32_t port, struct sockaddr_storage *address)
{
    struct sockaddr_in *ipv4 = (struct sockaddr_in *)address;
    struct sockaddr_in6 *ipv6 = (struct sockaddr_in6 *)address;

    memset(address, 0, sizeof *address);
    if (host->len == 4) {
        ipv4->sin_family = AF_INET;
        ipv4->sin_port = htons((uint16_t)port);
        memcpy(&ipv4->sin_addr, host->ip, 4);
        return sizeof *ipv4;
    }
    ipv6->sin6_family = AF_INET6;
    ipv6->sin6_port = htons((uint16_t)port);
    ipv6->sin6_scope_id = data->scope;
    memcpy(&ipv6->sin6_addr, host->ip, 16);
    return sizeof *ipv6;
}

/* Sets the data port of a control connection up; false where that is not connected. */
static bool data_port_start(struct data_port *data, int control)
{
    struct sockaddr_storage client, server;
    socklen_t client_len = sizeof client, server_len = sizeof server;

    if (getpeername(control, (struct sockaddr *)&client, &client_len) < 0
        || getsockname(control, (struct sockaddr *)&server, &server_len) < 0)
        return false;
    memset(data, 0, sizeof *data);
    data->client = data_host_of(&client);
    data->server = data_host_of(&server);
    data->listener = -1;
    if (server.ss_family == AF_INET6)
        data->scope = ((struct sockaddr_in6 *)&server)->sin6_scope_id;
    return true;
}

/* Closes what listens, and forgets what PORT and EPRT named: after ABOR and a login, and last. */
static void data_port_close(struct data_port *data)
{
    if (data->listener >= 0)
        close(data->listener);
    data->listener = -1;
    data->port = 0;
}

/* Whether a command has prepared a data connection. Without one a transfer is answered 425. */
static bool data_port_is_prepared(const struct data_port *data)
{
    return data->listener >= 0 || data->port != 0;
}

/* A socket at the server's own address, none of whose calls waits; or -1. */
static int data_socket(const struct data_port *data)
{
    struct sockaddr_storage own;
    socklen_t len = data_address(data, &data->server, 0, &own);
    int made = socket(own.ss_family, SOCK_STREAM | SOCK_CLOEXEC | SOCK_NONBLOCK, 0);

    if (made >= 0 && bind(made, (struct sockaddr *)&own, len) < 0) {
        close(made);
        return -1;
    }
    return made;
}

/* Listens for the client: the port, or 0 where that fails. */
static uint32_t data_listen(struct data_port *data)
{
    struct sockaddr_storage own;
    socklen_t len = sizeof own;

    data_port_close(data);
    data->listener = data_socket(data);
    if (data->listener < 0)
        return 0;
    if (listen(data->listener, 4) < 0
        || getsockname(data->listener, (struct sockaddr *)&own, &len) < 0) {
        data_port_close(data);
        return 0;
    }
    return ntohs(data->server.len == 4 ? ((struct sockaddr_in *)&own)->sin_port
                                       : ((struct sockaddr_in6 *)&own)->sin6_port);
}

/* Writes a text with what unftp_write_address writes for the server in it: the code. */
static enum unftp_code data_listening(struct data_port *data, enum unftp_code code,
                                      enum unftp_address_form form, const char *format, char *text)
{
    char address[DATA_PARAMETER_ROOM];
    size_t len;
    uint32_t port = data_listen(data);

    if (port == 0) {
        strcpy(text, "No port is free");
        return UNFTP_CODE_CANT_OPEN_DATA_CONNECTION;
    }
    if (unftp_write_address(form, data->server.ip, data->server.len, port, address, sizeof address,
                            &len) != UNFTP_DONE) {
        data_port_close(data);
        strcpy(text, "Out of memory");
        return UNFTP_CODE_LOCAL_ERROR;
    }
    snprintf(text, DATA_TEXT_ROOM, format, (int)len, address);
    return code;
}

/* The reply that names the network protocol of the control connection (RFC 2428, section 2). */
static enum unftp_code data_other_protocol(const struct data_port *data, char *text)
{
    strcpy(text, data->server.len == 4 ? "Use (1)" : "Use (2)");
    return UNFTP_CODE_NETWORK_PROTOCOL_NOT_SUPPORTED;
}

static enum unftp_code data_epsv(struct data_port *data, const char *parameter, char *text)
{
    if (strcasecmp(parameter, "ALL") == 0) {
        data->only_epsv = true;
        strcpy(text, "Only EPSV from now on");
        return UNFTP_CODE_COMMAND_OKAY;
    }
    if (*parameter != '\0' && strcmp(parameter, data->server.len == 4 ? "1" : "2") != 0) {
        if (parameter[strspn(parameter, "0123456789")] == '\0')
            return data_other_protocol(data, text);
        strcpy(text, "No network protocol");
        return UNFTP_CODE_PARAMETER_SYNTAX_ERROR;
    }
    return data_listening(data, UNFTP_CODE_ENTERING_EXTENDED_PASSIVE_MODE, UNFTP_ADDRESS_229,
                          "Entering Extended Passive Mode %.*s", text);
}

static enum unftp_code data_pasv(struct data_port *data, char *text)
{
    if (data->server.len != 4) {
        strcpy(text, "Use EPSV over IPv6");
        return UNFTP_CODE_CANT_OPEN_DATA_CONNECTION;
    }
    return data_listening(data, UNFTP_CODE_ENTERING_PASSIVE_MODE, UNFTP_ADDRESS_227,
                          "Entering Passive Mode (%.*s).", text);
}

/* Takes the address of PORT or EPRT: only the client's own, and no port of a service. */
static enum unftp_code data_active(struct data_port *data, enum unftp_address_form form,
                                   const char *parameter, char *text)
{
    struct data_host host;
    struct unftp_address address;
    enum unftp_result result = unftp_read_address(form, parameter, strlen(parameter), host.ip,
                                                  sizeof host.ip, &address);

    host.len = address.ip_len;
    if (result == UNFTP_UNKNOWN_PROTOCOL)
        return data_other_protocol(data, text);
    if (result != UNFTP_DONE || address.port == 0) {
        strcpy(text, "No address");
        return UNFTP_CODE_PARAMETER_SYNTAX_ERROR;
    }
    if (form == UNFTP_ADDRESS_EPRT && host.len != data->server.len)
        return data_other_protocol(data, text);
    if (!data_is_same_host(&host, &data->client) || address.port < DATA_FIRST_PORT) {
        strcpy(text, "Only to your own address, and to ports from 1024 on");
        return UNFTP_CODE_COMMAND_NOT_IMPLEMENTED_FOR_PARAMETER;
    }
    data_port_close(data);
    data->port = address.port;
    strcpy(text, "OK");
    return UNFTP_CODE_COMMAND_OKAY;
}

/*
 * The reply to PASV, EPSV, PORT or EPRT: its code, and its text, for which there has to be room of
 * DATA_TEXT_ROOM bytes. It is 0 for any other line. The line is what unftp_next used up, and the
 * command what that returned.
 */
static uint32_t data_port_answer(struct data_port *data, enum unftp_result command,
                                 const char *line, size_t line_len, char *text)
{
    char parameter[DATA_PARAMETER_ROOM];
    size_t len;
    bool is_eprt = command == UNFTP_OTHER && line_len > 4 && strncasecmp(line, "EPRT", 4) == 0
        && (line[4] == ' ' || line[4] == '\r' || line[4] == '\n');

    if (command != UNFTP_PASV && command != UNFTP_EPSV && command != UNFTP_PORT && !is_eprt)
        return 0;
    if (unftp_parameter(line, line_len, parameter, sizeof parameter - 1, &len) != UNFTP_DONE
        || memchr(parameter, '\0', len) != NULL) {
        strcpy(text, "Malformed parameter");
        return UNFTP_CODE_PARAMETER_SYNTAX_ERROR;
    }
    parameter[len] = '\0';
    if (command == UNFTP_EPSV)
        return data_epsv(data, parameter, text);
    if (data->only_epsv) { /* RFC 2428, section 4 */
        strcpy(text, "Only EPSV, after EPSV ALL");
        return UNFTP_CODE_BAD_COMMAND_SEQUENCE;
    }
    if (command == UNFTP_PASV)
        return data_pasv(data, text);
    return data_active(data, is_eprt ? UNFTP_ADDRESS_EPRT : UNFTP_ADDRESS_PORT, parameter, text);
}

/* Waits until the socket is ready, or the time has come; false then, with ETIMEDOUT. */
static bool data_wait(int socket, short events, int64_t deadline)
{
    struct pollfd polled = {.fd = socket, .events = events};

    for (;;) {
        int64_t left = deadline - control_now();
        int count = poll(&polled, 1, left > 0 ? (int)left : 0);

        if (count > 0 || (count < 0 && errno != EINTR))
            return count > 0;
        if (left <= 0) {
            errno = ETIMEDOUT;
            return false;
        }
    }
}

/* The first connection from the client's address. Others are closed. */
static int data_accept(const struct data_port *data, int listener, int64_t deadline)
{
    while (data_wait(listener, POLLIN, deadline)) {
        struct sockaddr_storage peer;
        socklen_t len = sizeof peer;
        int accepted = accept(listener, (struct sockaddr *)&peer, &len);

        if (accepted >= 0) {
            struct data_host host = data_host_of(&peer);

            if (data_is_same_host(&host, &data->client))
                return accepted;
            close(accepted);
        } else if (!control_may_retry(errno) && errno != ECONNABORTED) {
            return -1;
        }
    }
    return -1;
}

/* A connection to the client's port, from the server's own address. */
static int data_connect(const struct data_port *data, uint32_t port, int64_t deadline)
{
    struct sockaddr_storage client;
    socklen_t len = data_address(data, &data->client, port, &client), error_len = sizeof(int);
    int error = 0, connected = data_socket(data);

    if (connected < 0)
        return -1;
    if (connect(connected, (struct sockaddr *)&client, len) < 0)
        error = errno;
    if (error == EINPROGRESS && !data_wait(connected, POLLOUT, deadline))
        error = errno;
    else if (error == EINPROGRESS
             && getsockopt(connected, SOL_SOCKET, SO_ERROR, &error, &error_len) < 0)
        error = errno;
    if (error == 0)
        return connected;
    close(connected);
    errno = error;
    return -1;
}

/*
 * Opens the data connection that the last command has prepared, within so many milliseconds: its
 * socket, whose calls wait; or -1 with errno, ENOTCONN where nothing is prepared, and ETIMEDOUT
 * after that time. A server answers each failure by 425. Nothing is prepared from then on.
 */
static int data_port_open(struct data_port *data, int milliseconds)
{
    int64_t deadline = control_now() + milliseconds;
    int opened = -1, error = ENOTCONN;

    if (data_port_is_prepared(data)) {
        opened = data->listener >= 0 ? data_accept(data, data->listener, deadline)
                                     : data_connect(data, data->port, deadline);
        error = errno;
    }
    data_port_close(data);
    if (opened >= 0 && (fcntl(opened, F_SETFL, 0) < 0 || fcntl(opened, F_SETFD, FD_CLOEXEC) < 0)) {
        error = errno;
        close(opened);
        opened = -1;
    }
    errno = error;
    return opened;
}

#endif
