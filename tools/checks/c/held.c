/*
 * Measures how much memory the calls hold at once. It has to be none; for a line of a log and an
 * address at most three times its text and 32 bytes; for a line of a file at most three times the
 * line and 300 bytes; and for received replies at most forty times their bytes and 100, whatever a
 * server sends. Searches all memory that unftp_log_line asks for,
 * also behind the end of what a buffer holds, for what a line hides. Prints how many calls it made,
 * or which held more or held a secret. It is linked with --wrap=malloc, --wrap=realloc and
 * --wrap=free.
 */
#define _GNU_SOURCE
#include <unftp_control.h>

#include <malloc.h>
#include <stdio.h>
#include <stdlib.h>
#include <string.h>

enum { LONGEST = 100000, ROOM = 4 * LONGEST + 100 };

void *__real_malloc(size_t size);
void *__real_realloc(void *block, size_t size);
void __real_free(void *block);
void *__wrap_malloc(size_t size);
void *__wrap_realloc(void *block, size_t size);
void __wrap_free(void *block);

/* at the end of what a line hides, which is longer than most texts of a log: it isn't written over */
static const char SECRET[] = "s3cr3t-W0rd";

static size_t held, most, calls, secrets;
static char text[LONGEST], line[LONGEST + 10], out[ROOM];

/* malloc may give up to 24 bytes more than are asked for; these are counted too. */
static void *taken(void *block)
{
    held += malloc_usable_size(block);
    if (held > most)
        most = held;
    return block;
}

/* It is zeroed, so that nothing of a freed block is found in another. */
void *__wrap_malloc(size_t size)
{
    void *block = taken(__real_malloc(size));
    memset(block, 0, malloc_usable_size(block));
    return block;
}

void __wrap_free(void *block)
{
    if (block == NULL)
        return;
    secrets += memmem(block, malloc_usable_size(block), SECRET, strlen(SECRET)) != NULL;
    held -= malloc_usable_size(block);
    __real_free(block);
}

/* Until its bytes are copied, the old block is there beside the new one. */
void *__wrap_realloc(void *block, size_t size)
{
    size_t old = malloc_usable_size(block);
    void *moved = __wrap_malloc(size);
    if (block != NULL)
        memcpy(moved, block, old < size ? old : size);
    __wrap_free(block);
    return moved;
}

/* A call held at most so many bytes, and holds none any more. */
static void expect(const char *call, size_t len, size_t bound)
{
    calls++;
    if (most > bound || held != 0) {
        printf("%s of %zu bytes held %zu bytes, and holds %zu\n", call, len, most, held);
        exit(EXIT_FAILURE);
    }
    most = 0;
}

/* Makes the calls with so many such bytes. */
static void make_calls(char byte, size_t count)
{
    struct unftp_reply_search search = {0, 0, 0};
    struct unftp_reply_line reply_line = {0, 0, 0};
    struct unftp_found_reply found;
    size_t len, size = count + 7;
    uint32_t hides;

    memset(text, byte, count);
    memcpy(line, "RETR ", 5);
    memcpy(line + 5, text, count);
    memcpy(line + 5 + count, "\r\n", 2);
    unftp_log_line(0, line, size, out, sizeof out, &len, &hides);
    expect("unftp_log_line", size, 3 * len + 32);
    unftp_log_line(0, line, size, out, 0, &len, &hides);
    expect("unftp_log_line without room", size, 3 * len + 32);
    unftp_parameter(line, size, out, sizeof out, &len);
    expect("unftp_parameter", size, 0);
    unftp_list_path(line, size, out, sizeof out, &len);
    expect("unftp_list_path", size, 0);
    unftp_is_clear(line, size);
    expect("unftp_is_clear", size, 0);
    unftp_quoted_path(text, count, out, sizeof out, &len);
    expect("unftp_quoted_path", count, 0);
    unftp_usual_reply(UNFTP_OPTS, text, count, out, sizeof out, &len);
    expect("unftp_usual_reply", count, 0);
    unftp_login_reply(UNFTP_LOGIN_NEED_NAME, 0, out, sizeof out, &len);
    expect("unftp_login_reply", count, 0);
    unftp_reply(211, text, count, out, 0, &len);
    expect("unftp_reply without room", count, 0);
    unftp_reply(211, text, count, out, sizeof out, &len);
    expect("unftp_reply", count, 0);
    unftp_front_reply(out, len, &found);
    expect("unftp_front_reply", len, 0);
    unftp_next_reply(&search, out, len, &found);
    expect("unftp_next_reply", len, 0);
    unftp_next_reply_line(out, len, &reply_line);
    expect("unftp_next_reply_line", len, 0);
}

/* Logs a line with this before and after what it hides; says in how many blocks that was. */
static size_t logged_secrets(const char *before, const char *after)
{
    int size = snprintf(line, sizeof line, "%s%080d%s%s\r\n", before, 0, SECRET, after);
    size_t len;
    uint32_t hides;

    secrets = 0;
    unftp_log_line(0, line, (size_t)size, out, sizeof out, &len, &hides);
    expect("unftp_log_line", (size_t)size, 3 * len + 32);
    return secrets;
}

/* No memory has what a line hides; that of a path has to be found, or the search finds nothing. */
static void search_for_secrets(void)
{
    static const char *const LINES[][2] = {
        {"PASS ", ""}, {"pass ", ""}, {"ACCT ", ""}, {"PASS\t", ""}, {"PASS:", ""}, {"PASS", ""},
        {"PSAS ", ""}, {"", ""}, {"", " a"}, {" ", ""}, {"ADAT ", ""}, {"SITE PSWD ", " new"},
        {"SITE ", ""}, {"SITE ", " a"}, {"PASS ", "\rx"}, {"", "\xff"}, {"NOOP ", ""}, {"AUTH ", ""},
        {"REST ", ""},
    };

    for (size_t index = 0; index < sizeof LINES / sizeof *LINES; index++) {
        if (logged_secrets(LINES[index][0], LINES[index][1]) != 0) {
            printf("the memory of a log has what follows '%s'\n", LINES[index][0]);
            exit(EXIT_FAILURE);
        }
    }
    if (logged_secrets("RETR ", "") == 0) {
        puts("what a log shows is not found");
        exit(EXIT_FAILURE);
    }
}

/* Reads replies that are these bytes, then some others so many times, and then these. */
static void read_replies(const char *first, const char *middle, size_t count, const char *last)
{
    /* a command as a log shows it */
    char shown[100];
    size_t size = strlen(first), len;

    memset(shown, 'a', sizeof shown);
    memcpy(text, first, size);
    for (; count > 0 && size + strlen(middle) + strlen(last) <= sizeof text; count--) {
        memcpy(text + size, middle, strlen(middle));
        size += strlen(middle);
    }
    memcpy(text + size, last, strlen(last));
    size += strlen(last);
    unftp_reply_lines(text, size, out, sizeof out, &len);
    expect("unftp_reply_lines", size, 40 * size + 100);
    for (size_t shown_len = 0; shown_len <= sizeof shown; shown_len += sizeof shown) {
        unftp_log_exchange(shown, shown_len, text, size, out, sizeof out, &len);
        expect("unftp_log_exchange", shown_len + size, 40 * (shown_len + size) + 100);
    }
}

/* Each line and each reply is held by itself, so those of few bytes cost most. */
static void read_hostile_replies(void)
{
    for (size_t count = 0; count <= LONGEST; count = count < 300 ? count + 1 : 2 * count) {
        read_replies("220-\r\n", "\r\n", count, "220 \r\n");
        read_replies("220-\r\n", "a\r\n", count, "220 \r\n");
        read_replies("220-\r\n", "\xff\r\n", count, "220 \r\n");
        read_replies("", "220\r\n", count, "");
        read_replies("", "220 \xff\r\n", count, "");
    }
}

static void write_addresses(void)
{
    static const char IP[16] = {'\x11', '\x22', '\x33', '\x44', '\x55', '\x66', '\x77', '\x11',
                                '\x22', '\x33', '\x44', '\x55', '\x66', '\x77', '\x11', '\x22'};
    static const struct {
        uint32_t form;
        size_t ip_len;
    } FORMS[] = {
        {UNFTP_ADDRESS_PORT, 4},  {UNFTP_ADDRESS_227, 4}, {UNFTP_ADDRESS_EPRT, 4},
        {UNFTP_ADDRESS_EPRT, 16}, {UNFTP_ADDRESS_229, 0},
    };
    size_t len;

    for (size_t index = 0; index < sizeof FORMS / sizeof *FORMS; index++) {
        unftp_write_address(FORMS[index].form, IP, FORMS[index].ip_len, 65535, out, sizeof out, &len);
        expect("unftp_write_address", FORMS[index].ip_len, 3 * len + 32);
    }
}

static void write_file_lines(void)
{
    static const struct unftp_file FULL = {UINT64_MAX, 253402207200, 1, UNFTP_KIND_LINK, 0777,
                                           UINT32_MAX, UINT32_MAX, UINT32_MAX},
                                   LEAST = {0, 0, 0, 0, 0, 0, 0, 0};
    static char name[LONGEST];
    size_t len;

    memset(name, 'a', sizeof name);
    for (size_t count = 0; count <= LONGEST; count += count < 1000 ? 1 : LONGEST - 1000) {
        const struct unftp_file *file = count % 2 == 0 ? &FULL : &LEAST;
        unftp_facts_line(file, name, count, out, sizeof out, &len);
        expect("unftp_facts_line", count, 3 * len + 300);
        unftp_list_line(file, 0, name, count, out, sizeof out, &len);
        expect("unftp_list_line", count, 3 * len + 300);
    }
}

int main(void)
{
    static const char BYTES[] = {'a', '1', '-', '"', ' ', '\n', '\r', '\0', '\x01', '\xe9'};

    for (size_t index = 0; index < sizeof BYTES; index++) {
        for (size_t count = 0; count <= 200; count++)
            make_calls(BYTES[index], count);
        make_calls(BYTES[index], 1000);
        make_calls(BYTES[index], LONGEST);
    }
    search_for_secrets();
    read_hostile_replies();
    write_addresses();
    write_file_lines();
    printf("%zu calls\n", calls);
    return EXIT_SUCCESS;
}
