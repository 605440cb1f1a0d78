/*
 * Makes the calls of unftp_control.h over the inputs on standard input, each with its length before
 * it, as four bytes with the least first, in a thread whose stack is filled with a byte before each
 * call: how far from its start another byte is found after the call is how much stack it took.
 * Prints that of each call at most, in bytes.
 */
#define _POSIX_C_SOURCE 200809L

#include <unftp_control.h>

#include <pthread.h>
#include <stdbool.h>
#include <stdint.h>
#include <stdio.h>
#include <stdlib.h>
#include <string.h>

enum {
    STACK = 1024 * 1024,

    /* how much a call may take */
    LOOKED_AT = 64 * 1024,

    /* what this program takes to fill the stack, at most: a call that takes less is not measured */
    OWN = 1024,

    FILLING = 0x5a,

    /* the names of the calls */
    NEXT = 0,
    PARAMETER,
    LIST_PATH,
    REPLY,
    QUOTED_PATH,
    USUAL_REPLY,
    FRONT_REPLY,
    NEXT_REPLY,
    NEXT_REPLY_LINE,
    REPLY_LINES,
    CANONICAL,
    FORWARD,
    IS_CLEAR,
    LOG_LINE,
    LOG_EXCHANGE,
    CLIENT_LINE,
    CLIENT_REPLY,
    CLIENT_TAKE,
    CLIENT_ANSWER,
    CLIENT_OWED,
    CLIENT_MAY_BEGIN_TLS,
    LOGIN_EVENT,
    LOGIN_ANSWER,
    LOGIN_REPLY,
    READ_ADDRESS,
    WRITE_ADDRESS,
    FACTS_LINE,
    LIST_LINE,
    VERSION,
    CALLS
};

struct bytes {
    char *at;
    size_t len;
};

static const char *const names[CALLS] = {
    "unftp_next",
    "unftp_parameter",
    "unftp_list_path",
    "unftp_reply",
    "unftp_quoted_path",
    "unftp_usual_reply",
    "unftp_front_reply",
    "unftp_next_reply",
    "unftp_next_reply_line",
    "unftp_reply_lines",
    "unftp_canonical",
    "unftp_forward",
    "unftp_is_clear",
    "unftp_log_line",
    "unftp_log_exchange",
    "unftp_client_line",
    "unftp_client_reply",
    "unftp_client_take",
    "unftp_client_answer",
    "unftp_client_owed",
    "unftp_client_may_begin_tls",
    "unftp_login_event",
    "unftp_login_answer",
    "unftp_login_reply",
    "unftp_read_address",
    "unftp_write_address",
    "unftp_facts_line",
    "unftp_list_line",
    "unftp_version",
};
static size_t most[CALLS];
static unsigned long inputs;
static unsigned char *stack;

/* what the calls of a client and of a login change */
static struct unftp_client client;
static struct unftp_login login;

/* what a call writes or returns */
static enum unftp_result result;
static struct unftp_line line;
static struct unftp_found_reply reply;
static struct unftp_address address;
static struct bytes area;
static size_t len;
static uint64_t place;
static uint32_t flag;

static void fail(const char *what)
{
    fprintf(stderr, "stack: %s\n", what);
    exit(EXIT_FAILURE);
}

/* Makes a call of a client or of a login, with the next code, event or answer at each input. */
static void call_with_state(int name, struct bytes input, size_t room)
{
    uint32_t turn = (uint32_t)inputs;

    switch (name) {
    case CLIENT_LINE: unftp_client_line(&client, input.at, input.len, &place); break;
    case CLIENT_REPLY: unftp_client_reply(&client, turn % 600, &place); break;
    case CLIENT_TAKE: unftp_client_take(&client); break;
    case CLIENT_ANSWER: unftp_client_answer(&client, turn % 600); break;
    case CLIENT_OWED: unftp_client_owed(&client); break;
    case CLIENT_MAY_BEGIN_TLS: unftp_client_may_begin_tls(&client, room); break;
    case LOGIN_EVENT: unftp_login_event(&login, turn % 128); break;
    case LOGIN_ANSWER: unftp_login_answer(&login, turn % 2); break;
    default: unftp_login_reply(turn % 8, turn % 2, area.at, room, &len); break;
    }
}

/* Reads or writes an address, of the next form at each input: for EPRT one of IPv4 or of IPv6. */
static void call_with_address(int name, struct bytes input, size_t room)
{
    static const char host[16] = "\x20\x01\x0d\xb8\xff\xfe\xfd\xfc\xfb\xfa\xf9\xf8\xf7\xf6\xf5";
    uint32_t form = (uint32_t)(inputs % 4);
    size_t host_len = form == UNFTP_ADDRESS_EPRT && inputs % 8 < 4 ? 16 : 4;

    if (name == READ_ADDRESS)
        unftp_read_address(form, input.at, input.len, area.at, room, &address);
    else
        unftp_write_address(form, host, host_len, (uint32_t)(inputs % 65536), area.at, room, &len);
}

/* Writes a line of a file with this name, with all of its facts, of the next kind at each input. */
static void call_with_file(int name, struct bytes input, size_t room)
{
    struct unftp_file file = {UINT64_MAX, 253402207200, 1, (uint32_t)(inputs % 7), 0777, UINT32_MAX,
                              UINT32_MAX, UINT32_MAX};

    if (name == FACTS_LINE)
        unftp_facts_line(&file, input.at, input.len, area.at, room, &len);
    else
        unftp_list_line(&file, (int64_t)inputs, input.at, input.len, area.at, room, &len);
}

static void call(int name, struct bytes input, size_t room)
{
    static const char shown[] = "RETR a";
    struct unftp_connection connection = {0, 0, 0};
    struct unftp_reply_search search = {0, 0, 0};
    struct unftp_reply_line reply_line = {0, 0, 0};

    switch (name) {
    case NEXT:
        result = unftp_next(&connection, input.at, input.len, area.at, room, &line);
        break;
    case PARAMETER: unftp_parameter(input.at, input.len, area.at, room, &len); break;
    case LIST_PATH: unftp_list_path(input.at, input.len, area.at, room, &len); break;
    case REPLY: unftp_reply(299, input.at, input.len, area.at, room, &len); break;
    case QUOTED_PATH: unftp_quoted_path(input.at, input.len, area.at, room, &len); break;
    case USUAL_REPLY:
        unftp_usual_reply((uint32_t)inputs % 128, input.at, input.len, area.at, room, &len);
        break;
    case FRONT_REPLY: unftp_front_reply(input.at, input.len, &reply); break;
    case NEXT_REPLY: unftp_next_reply(&search, input.at, input.len, &reply); break;
    case NEXT_REPLY_LINE: unftp_next_reply_line(input.at, input.len, &reply_line); break;
    case REPLY_LINES: unftp_reply_lines(input.at, input.len, area.at, room, &len); break;
    case CANONICAL: unftp_canonical(input.at, input.len, area.at, room, &len); break;
    case FORWARD: unftp_forward(input.at, input.len, area.at, room, &len, &flag); break;
    case IS_CLEAR: unftp_is_clear(input.at, input.len); break;
    case LOG_LINE: unftp_log_line(result, input.at, input.len, area.at, room, &len, &flag); break;
    case LOG_EXCHANGE:
        unftp_log_exchange(shown, sizeof shown - 1, input.at, input.len, area.at, room, &len);
        break;
    case READ_ADDRESS: case WRITE_ADDRESS: call_with_address(name, input, room); break;
    case FACTS_LINE: case LIST_LINE: call_with_file(name, input, room); break;
    case VERSION: unftp_version(); break;
    default: call_with_state(name, input, room); break;
    }
}

/* Makes the call, and looks how far the stack below this function was written. */
static void measure(int name, struct bytes input, size_t room)
{
    volatile char here = 0;
    size_t start = (size_t)((uintptr_t)&here - (uintptr_t)stack), low = start - LOOKED_AT;

    if (start < LOOKED_AT || start >= STACK)
        fail("this is not its stack");
    memset(stack + low, FILLING, LOOKED_AT - OWN);
    call(name, input, room);
    if (stack[low] != FILLING)
        fail("a call takes more stack than is looked at");
    while (low < start - OWN && stack[low] == FILLING)
        low++;
    if (start - low > most[name])
        most[name] = start - low;
}

/* So many bytes, and an address where there are none. */
static struct bytes area_of(size_t size)
{
    struct bytes made = {malloc(size + 1), size};

    if (made.at == NULL)
        fail("out of memory");
    return made;
}

static bool read_input(struct bytes *input)
{
    unsigned char size[4];

    if (fread(size, 1, sizeof size, stdin) != sizeof size)
        return false;
    *input = area_of((size_t)size[0] | (size_t)size[1] << 8 | (size_t)size[2] << 16
                     | (size_t)size[3] << 24);
    return fread(input->at, 1, input->len, stdin) == input->len;
}

/* Makes each call on each input, with no room and with enough. */
static void *make_calls(void *unused)
{
    struct bytes input;

    while (read_input(&input)) {
        inputs++;
        area = area_of(4 * input.len + 128);
        for (int name = 0; name < CALLS; name++) {
            measure(name, input, 0);
            measure(name, input, area.len);
        }
        free(area.at);
        free(input.at);
    }
    return unused;
}

int main(void)
{
    pthread_attr_t attributes;
    pthread_t thread;
    void *block;

    if (posix_memalign(&block, 65536, STACK) != 0)
        fail("out of memory");
    stack = block;
    if (pthread_attr_init(&attributes) != 0 || pthread_attr_setstack(&attributes, block, STACK) != 0
        || pthread_create(&thread, &attributes, make_calls, NULL) != 0
        || pthread_join(thread, NULL) != 0)
        fail("no thread");
    printf("%lu inputs\n", inputs);
    for (int name = 0; name < CALLS; name++)
        printf("%s\t%lu\n", names[name], (unsigned long)most[name]);
    return EXIT_SUCCESS;
}
