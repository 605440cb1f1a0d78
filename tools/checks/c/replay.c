/*
 * Answers rows of vectors/ (vectors/README.md) by the calls of unftp_control.h: reads one a line from
 * standard input, and writes its answer. A row that its call doesn't take, and one of a call that C
 * doesn't have, is answered by `skipped`; of `canonical` the line alone is written.
 */
#define _POSIX_C_SOURCE 200809L
#include <unftp_control.h>

#include <arpa/inet.h>
#include <stdbool.h>
#include <stdio.h>
#include <stdlib.h>
#include <string.h>

enum { MOST_WORDS = 4096 };

struct bytes {
    char *at;
    size_t len;
};

/* The words of a row after its call, each ended by a NUL, or unquoted. */
struct words {
    char *at[MOST_WORDS];
    struct bytes bytes[MOST_WORDS];
    size_t count;
};

typedef enum unftp_result (*line_call)(const char *, size_t, char *, size_t, size_t *);

/* The variant of each command with its fields: %n is its name in the area, %v its value, %o the
   same or None, %p without quotes, and %w what the value says. */
static const char *const commands[] = {
    /* commands: made by tools/gate/verbs of FtpCommand.antt */
    [UNFTP_USER] = "User username=%v",
    [UNFTP_PASS] = "Pass password=%v",
    [UNFTP_ACCT] = "Acct account=%v",
    [UNFTP_SYST] = "Syst",
    [UNFTP_STAT] = "Stat path=%o",
    [UNFTP_TYPE] = "TypeCode",
    [UNFTP_STRU] = "Stru structure=%w",
    [UNFTP_MODE] = "Mode mode=%w",
    [UNFTP_HELP] = "Help",
    [UNFTP_NOOP] = "Noop",
    [UNFTP_PASV] = "Pasv",
    [UNFTP_EPSV] = "Epsv",
    [UNFTP_PORT] = "Port addr=%v",
    [UNFTP_RETR] = "Retr path=%v",
    [UNFTP_STOR] = "Stor path=%v",
    [UNFTP_APPE] = "Appe path=%v",
    [UNFTP_LIST] = "List options=None path=%o",
    [UNFTP_NLST] = "Nlst path=%o",
    [UNFTP_MLST] = "Mlst path=%o",
    [UNFTP_MLSD] = "Mlsd path=%o",
    [UNFTP_FEAT] = "Feat",
    [UNFTP_PWD] = "Pwd",
    [UNFTP_CWD] = "Cwd path=%v",
    [UNFTP_CDUP] = "Cdup",
    [UNFTP_OPTS] = "Opts option=Utf8 on=%w",
    [UNFTP_DELE] = "Dele path=%v",
    [UNFTP_RMD] = "Rmd path=%v",
    [UNFTP_QUIT] = "Quit",
    [UNFTP_MKD] = "Mkd path=%v",
    [UNFTP_ALLO] = "Allo",
    [UNFTP_ABOR] = "Abor",
    [UNFTP_STOU] = "Stou",
    [UNFTP_RNFR] = "Rnfr file=%v",
    [UNFTP_RNTO] = "Rnto file=%v",
    [UNFTP_AUTH] = "Auth protocol=%w",
    [UNFTP_CCC] = "Ccc",
    [UNFTP_PBSZ] = "Pbsz",
    [UNFTP_PROT] = "Prot param=%w",
    [UNFTP_SIZE] = "Size file=%v",
    [UNFTP_REST] = "Rest offset=%p",
    [UNFTP_MDTM] = "Mdtm file=%v",
    [UNFTP_MD5] = "Md5 file=%v",
    [UNFTP_SITE] = "Site command=%n arguments=%v",
    [UNFTP_OTHER] = "Other command_name=%n arguments=%v",
    /* end of commands */
};

/* What a value says. */
static const struct {
    enum unftp_result command;
    const char *value, *says;
} values[] = {
    {UNFTP_STRU, "F", "File"}, {UNFTP_STRU, "R", "Record"}, {UNFTP_STRU, "P", "Page"},
    {UNFTP_MODE, "S", "Stream"}, {UNFTP_MODE, "B", "Block"}, {UNFTP_MODE, "C", "Compressed"},
    {UNFTP_OPTS, "UTF8 ON", "true"}, {UNFTP_OPTS, "UTF8 OFF", "false"},
    {UNFTP_AUTH, "TLS", "Tls"}, {UNFTP_AUTH, "SSL", "Ssl"},
    {UNFTP_PROT, "C", "Clear"}, {UNFTP_PROT, "S", "Safe"}, {UNFTP_PROT, "E", "Confidential"},
    {UNFTP_PROT, "P", "Private"},
};

/* The kind of a refusal: that of the control channel's error, and that of the parser's. */
static const struct {
    enum unftp_result result;
    const char *channel, *parser;
} refusals[] = {
    {UNFTP_INVALID_COMMAND, "InvalidCommand ", "InvalidCommand"},
    {UNFTP_INVALID_UTF8, "Utf8Error ", "InvalidUtf8"},
    {UNFTP_INVALID_EOL, "InvalidCommand ", "InvalidEol"},
    {UNFTP_LINE_TOO_LONG, "", "LineTooLong"},
};

/* The forms of addresses. */
static const struct {
    const char *name;
    enum unftp_address_form form;
} forms[] = {
    {"PORT", UNFTP_ADDRESS_PORT}, {"EPRT", UNFTP_ADDRESS_EPRT},
    {"227", UNFTP_ADDRESS_227}, {"229", UNFTP_ADDRESS_229},
};

static void fail(const char *why)
{
    fflush(stdout);
    fprintf(stderr, "replay: %s\n", why);
    exit(EXIT_FAILURE);
}

static char *room_of(size_t len)
{
    char *room = malloc(len + 1);

    if (room == NULL)
        fail("out of memory");
    return room;
}

static void show_byte(unsigned char byte)
{
    switch (byte) {
    case '\r': fputs("\\r", stdout); break;
    case '\n': fputs("\\n", stdout); break;
    case '\0': fputs("\\0", stdout); break;
    case '\\': fputs("\\\\", stdout); break;
    default: printf(byte >= 32 && byte <= 126 ? "%c" : "\\x%02x", byte);
    }
}

static void show_quoted(struct bytes bytes)
{
    putchar('"');
    for (size_t at = 0; at < bytes.len; at++)
        show_byte((unsigned char)bytes.at[at]);
    putchar('"');
}

/* The value of a digit, in lower case. */
static int digit(char letter)
{
    return letter <= '9' ? letter - '0' : letter - 'a' + 10;
}

/* The bytes that a word has between quotes, in its own place, and whether it has them. */
static bool unquote(char *word, struct bytes *bytes)
{
    size_t len = strlen(word);
    char *to = word;

    if (len < 2 || word[0] != '"' || word[len - 1] != '"')
        return false;
    for (const char *at = word + 1; at < word + len - 1; at++) {
        if (*at != '\\') {
            *to++ = *at;
            continue;
        }
        at++;
        if (*at == 'x') {
            *to++ = (char)(digit(at[1]) * 16 + digit(at[2]));
            at += 2;
        } else {
            *to++ = *at == 'r' ? '\r' : *at == 'n' ? '\n' : *at == '0' ? '\0' : *at;
        }
    }
    bytes->at = word;
    bytes->len = (size_t)(to - word);
    return true;
}

/* Unquotes the words from this one on, and says whether all were quoted. */
static bool unquote_from(struct words *words, size_t first)
{
    for (size_t at = first; at < words->count; at++) {
        if (!unquote(words->at[at], &words->bytes[at]))
            return false;
    }
    return words->count > first;
}

static size_t limit_of(const char *word)
{
    return strcmp(word, "none") == 0 ? 0 : (size_t)strtoull(word, NULL, 10);
}

static bool is_one_line(struct bytes line)
{
    const char *end = memchr(line.at, '\n', line.len);

    return end != NULL && end == line.at + line.len - 1;
}

static const char *said(enum unftp_result command, struct bytes value)
{
    for (size_t at = 0; at < sizeof values / sizeof *values; at++) {
        if (values[at].command == command && strlen(values[at].value) == value.len
            && memcmp(values[at].value, value.at, value.len) == 0)
            return values[at].says;
    }
    return "unknown";
}

static void show_command(enum unftp_result result, struct bytes name, struct bytes value)
{
    fputs("ok ", stdout);
    for (const char *at = commands[result]; *at != '\0'; at++) {
        if (*at != '%') {
            putchar(*at);
            continue;
        }
        at++;
        if (*at == 'w')
            fputs(said(result, value), stdout);
        else if (*at == 'p')
            fwrite(value.at, 1, value.len, stdout);
        else if (*at == 'o' && value.len == 0)
            fputs("None", stdout);
        else
            show_quoted(*at == 'n' ? name : value);
    }
}

static void show_refusal(enum unftp_result result, bool of_channel)
{
    for (size_t at = 0; at < sizeof refusals / sizeof *refusals; at++) {
        if (refusals[at].result == result) {
            printf("err %s%s", of_channel ? refusals[at].channel : "", refusals[at].parser);
            return;
        }
    }
    fail(unftp_result_text(result));
}

/* Takes the next line and shows it; whether there was one. */
static bool show_next(struct unftp_connection *connection, struct bytes *pending, bool of_channel)
{
    size_t room = 3 * pending->len;
    char *area = room_of(room);
    struct unftp_line line;
    enum unftp_result result
        = unftp_next(connection, pending->at, pending->len, area, room, &line);
    struct bytes name = {area, line.name_len},
                 value = {(char *)unftp_value(&line, pending->at, area), line.value_len};

    if (result >= UNFTP_USER && result <= UNFTP_OTHER)
        show_command(result, name, value);
    else if (result != UNFTP_MORE)
        show_refusal(result, of_channel);
    pending->at += line.used;
    pending->len -= line.used;
    free(area);
    return result != UNFTP_MORE;
}

static bool answer_parse(struct words *words)
{
    struct unftp_connection connection = {0, 0, 0};

    if (!unquote_from(words, 0) || !is_one_line(words->bytes[0]))
        return false;
    return show_next(&connection, &words->bytes[0], false);
}

/* Puts a piece after the pending bytes, which are moved to a block of their own. */
static void push(char **block, struct bytes *pending, struct bytes piece)
{
    char *room = room_of(pending->len + piece.len);

    memcpy(room, pending->at, pending->len);
    memcpy(room + pending->len, piece.at, piece.len);
    free(*block);
    *block = pending->at = room;
    pending->len += piece.len;
}

static bool answer_decode(struct words *words)
{
    struct unftp_connection connection = {limit_of(words->at[0]), 0, 0};
    char *block = room_of(0);
    struct bytes pending = {block, 0};

    if (!unquote_from(words, 1))
        return false;
    for (size_t at = 1; at < words->count; at++) {
        fputs(at == 1 ? "" : " | ", stdout);
        push(&block, &pending, words->bytes[at]);
        while (show_next(&connection, &pending, true))
            fputs(" | ", stdout);
        printf("left=%zu%s", pending.len, connection.skipping ? " skipping" : "");
    }
    free(block);
    return true;
}

/* The text of a reply, whose lines have a line feed between them; whether C takes them so. */
static bool join(struct words *words, size_t first, char *text, size_t *len)
{
    *len = 0;
    for (size_t at = first; at < words->count; at++) {
        struct bytes line = words->bytes[at];
        bool is_last = at + 1 == words->count;
        if (memchr(line.at, '\n', line.len) != NULL
            || (!is_last && line.len > 0 && line.at[line.len - 1] == '\r'))
            return false;
        memcpy(text + *len, line.at, line.len);
        *len += line.len;
        if (!is_last)
            text[(*len)++] = '\n';
    }
    return true;
}

/* Shows the reply with the code in this word and the lines in those after it. */
static bool show_reply(struct words *words, size_t code)
{
    size_t most = 0, text_len;
    struct bytes out = {NULL, 0};
    bool is_taken;
    char *text;

    for (size_t at = code + 1; at < words->count; at++)
        most += words->bytes[at].len + 1;
    text = room_of(most);
    out.at = room_of(3 * most + 10);
    is_taken = join(words, code + 1, text, &text_len)
        && unftp_reply((uint32_t)limit_of(words->at[code]), text, text_len, out.at, 3 * most + 10,
                       &out.len)
            == UNFTP_DONE;
    if (is_taken)
        show_quoted(out);
    free(text);
    free(out.at);
    return is_taken;
}

static bool answer_encode(struct words *words)
{
    bool has_lines = strcmp(words->at[0], "multi") == 0;

    if (words->count < (has_lines ? 4 : 3) || !unquote_from(words, 2))
        return false;
    return show_reply(words, 1);
}

/* The reply of a line without text has no space here. */
static bool answer_lines(struct words *words)
{
    if (words->count < 2 || !unquote_from(words, 1)
        || (words->count == 2 && words->bytes[1].len == 0))
        return false;
    return show_reply(words, 0);
}

static bool answer_quoted_path(struct words *words)
{
    struct bytes out;

    if (!unquote_from(words, 0))
        return false;
    out.len = 2 * words->bytes[0].len + 2;
    out.at = room_of(out.len);
    if (unftp_quoted_path(words->bytes[0].at, words->bytes[0].len, out.at, out.len, &out.len)
        != UNFTP_DONE)
        fail("a path has no quotes");
    show_quoted(out);
    free(out.at);
    return true;
}

/* Shows the lines of a reply, each of which ends with CR LF. */
static void show_lines(struct bytes reply)
{
    char *room = room_of(reply.len);
    struct bytes line = {room, 0};
    size_t len;

    if (unftp_reply_lines(reply.at, reply.len, room, reply.len, &len) != UNFTP_DONE)
        fail("a reply has no lines");
    for (size_t at = 0; at < len; at++) {
        line.len = (size_t)(room + at - line.at);
        if (room[at] == '\r' && room[at + 1] == '\n') {
            show_quoted(line);
            at++;
            fputs(at + 1 < len ? "," : "", stdout);
            line.at = room + at + 1;
        }
    }
    free(room);
}

static bool answer_read(struct words *words)
{
    struct unftp_found_reply found;
    enum unftp_result result;
    struct bytes rest;
    const char *between = "";

    if (!unquote_from(words, 0))
        return false;
    rest = words->bytes[0];
    while ((result = unftp_front_reply(rest.at, rest.len, &found)) == UNFTP_DONE) {
        printf("%s%03u:", between, (unsigned)found.code);
        show_lines((struct bytes){rest.at, found.used});
        rest.at += found.used;
        rest.len -= found.used;
        between = ";";
    }
    printf(" rest=%zu%s", rest.len, result == UNFTP_MALFORMED ? " malformed" : "");
    return true;
}

/* The line that is written for a line. */
static bool answer_written(struct words *words, line_call call, const char *none)
{
    struct bytes out = {NULL, 0};
    enum unftp_result result;
    size_t room;

    if (!unquote_from(words, 0))
        return false;
    room = 3 * words->bytes[0].len + 10;
    out.at = room_of(room);
    result = call(words->bytes[0].at, words->bytes[0].len, out.at, room, &out.len);
    if (result == UNFTP_DONE)
        show_quoted(out);
    else if (result == UNFTP_NO_LINE)
        fputs(none, stdout);
    else
        show_refusal(result, false);
    free(out.at);
    return true;
}

static bool answer_canonical(struct words *words)
{
    return answer_written(words, unftp_canonical, "NoLine");
}

static enum unftp_result forwarded(const char *line, size_t line_len, char *out, size_t out_room,
                                   size_t *len)
{
    uint32_t clear;

    return unftp_forward(line, line_len, out, out_room, len, &clear);
}

static bool answer_forward(struct words *words)
{
    return answer_written(words, forwarded, "NotALine");
}

/* A value of a line, in an area that is as long as the line, or that there is none. */
static bool show_value(line_call call, struct words *words)
{
    struct bytes line, out;
    enum unftp_result result;

    if (words->count != 1 || !unquote_from(words, 0))
        return false;
    line = words->bytes[0];
    out.at = room_of(line.len);
    result = call(line.at, line.len, out.at, line.len, &out.len);
    if (result == UNFTP_DONE)
        show_quoted(out);
    else if (result == UNFTP_INVALID_EOL)
        fputs("none", stdout);
    else
        fail("no value of a line");
    free(out.at);
    return true;
}

static bool answer_parameter(struct words *words)
{
    return show_value(unftp_parameter, words);
}

static bool answer_list_path(struct words *words)
{
    return show_value(unftp_list_path, words);
}

static bool answer_log(struct words *words)
{
    struct unftp_connection connection = {limit_of(words->at[0]), 0, 0};
    struct bytes line, out;
    struct unftp_line taken;
    enum unftp_result result;
    uint32_t hides;
    size_t room;

    if (!unquote_from(words, 1))
        return false;
    line = words->bytes[1];
    room = 4 * line.len + 42;
    out.at = room_of(room);
    result = unftp_next(&connection, line.at, line.len, out.at, room, &taken);
    if (result == UNFTP_MORE)
        return false;
    if (unftp_log_line(result, line.at, taken.used, out.at, room, &out.len, &hides) != UNFTP_DONE)
        fail("no log line");
    show_quoted(out);
    free(out.at);
    return true;
}

/* The line of an exchange, in an area of this room, or of what the header says. */
static bool answer_exchange(struct words *words)
{
    struct bytes shown, replies, out;
    size_t room;

    if (words->count != 3 || !unquote_from(words, 1))
        return false;
    shown = words->bytes[1];
    replies = words->bytes[2];
    room = strcmp(words->at[0], "any") == 0 ? shown.len + 4 * replies.len + 3
                                            : (size_t)strtoul(words->at[0], NULL, 10);
    out.at = room_of(room);
    switch (unftp_log_exchange(shown.at, shown.len, replies.at, replies.len, out.at, room,
                               &out.len)) {
    case UNFTP_DONE: show_quoted(out); break;
    case UNFTP_NO_ROOM: printf("no-room=%lu", (unsigned long)out.len); break;
    case UNFTP_INVALID_ARGUMENT: fputs("invalid-argument", stdout); break;
    case UNFTP_MORE: fputs("incomplete", stdout); break;
    case UNFTP_MALFORMED: fputs("malformed", stdout); break;
    default: fail("no line of an exchange");
    }
    free(out.at);
    return true;
}

/* Notes the replies at the start of what a client has received, and shows to what each is. */
static void show_received(struct unftp_client *client, struct unftp_reply_search *search,
                          struct bytes *pending)
{
    struct unftp_found_reply found;
    enum unftp_result result;
    uint64_t place;

    while ((result = unftp_next_reply(search, pending->at, pending->len, &found)) == UNFTP_DONE) {
        enum unftp_to to = unftp_client_reply(client, found.code, &place);
        if (to == UNFTP_TO_COMMAND)
            printf("%llu", (unsigned long long)place);
        else
            fputs(to == UNFTP_TO_GREETING ? "greeting" : "nothing", stdout);
        printf(" %03u | ", (unsigned)found.code);
        pending->at += found.used;
        pending->len -= found.used;
    }
    fputs(result == UNFTP_MALFORMED ? "malformed | " : "", stdout);
}

static bool answer_client(struct words *words)
{
    struct unftp_client client = {0, 0, 0, 0, 0, 0, 0};
    struct unftp_reply_search search = {0, 0, 0};
    char *block = room_of(0);
    struct bytes pending = {block, 0};
    uint64_t place;

    for (size_t at = 1; at < words->count; at++) {
        if (!unquote(words->at[at], &words->bytes[at]) && strcmp(words->at[at], "send") != 0)
            return false;
    }
    if (strcmp(words->at[0], "none") != 0)
        return false;
    for (size_t at = 1; at < words->count; at++) {
        struct bytes said = words->bytes[at];
        if (said.at == NULL)
            continue;
        if (words->bytes[at - 1].at != NULL || at == 1) {
            push(&block, &pending, said);
            show_received(&client, &search, &pending);
        } else if (unftp_client_line(&client, said.at, said.len, &place) != UNFTP_DONE) {
            fputs("not sent | ", stdout);
        }
    }
    printf("owed=%llu left=%zu%s", (unsigned long long)unftp_client_owed(&client), pending.len,
           unftp_client_may_begin_tls(&client, pending.len) ? " tls" : "");
    free(block);
    return true;
}

/* The form of this name, and whether there is one. */
static bool find_form(const char *name, uint32_t *form)
{
    for (size_t at = 0; at < sizeof forms / sizeof *forms; at++) {
        if (strcmp(forms[at].name, name) == 0) {
            *form = (uint32_t)forms[at].form;
            return true;
        }
    }
    return false;
}

/* Shows a host with all of its numbers. */
static void show_host(const unsigned char *ip, size_t len)
{
    if (len == 4)
        printf("ip=%u.%u.%u.%u ", ip[0], ip[1], ip[2], ip[3]);
    for (size_t at = 0; len == 16 && at < len; at += 2)
        printf("%s%x%s", at == 0 ? "ip=" : ":", ip[at] * 256u + ip[at + 1], at == 14 ? " " : "");
}

static bool answer_read_address(struct words *words)
{
    unsigned char ip[16];
    struct unftp_address address;
    enum unftp_result result;
    uint32_t form;

    if (words->count != 2 || !find_form(words->at[0], &form) || !unquote_from(words, 1))
        return false;
    result = unftp_read_address(form, words->bytes[1].at, words->bytes[1].len, (char *)ip,
                                sizeof ip, &address);
    if (result == UNFTP_DONE) {
        show_host(ip, address.ip_len);
        printf("port=%u", (unsigned)address.port);
    } else if (result == UNFTP_NO_ADDRESS) {
        fputs("none", stdout);
    } else if (result == UNFTP_UNKNOWN_PROTOCOL) {
        fputs("unknown-protocol", stdout);
    } else {
        fail(unftp_result_text(result));
    }
    return true;
}

/* The bytes of a host: how many they are, or 0 for a word that is none. */
static size_t read_host(const char *word, char *ip)
{
    if (inet_pton(AF_INET, word, ip) == 1)
        return 4;
    return inet_pton(AF_INET6, word, ip) == 1 ? 16 : 0;
}

static bool answer_write_address(struct words *words)
{
    char ip[16], out[64];
    struct bytes text = {out, 0};
    uint32_t form;

    if (words->count != 3 || !find_form(words->at[0], &form)
        || unftp_write_address(form, ip, read_host(words->at[1], ip),
                               (uint32_t)strtoul(words->at[2], NULL, 10), out, sizeof out,
                               &text.len)
            != UNFTP_DONE)
        return false;
    show_quoted(text);
    return true;
}

static const struct {
    const char *name;
    bool (*answer)(struct words *);
} calls[] = {
    {"parse", answer_parse}, {"decode", answer_decode}, {"encode", answer_encode},
    {"lines", answer_lines}, {"quoted_path", answer_quoted_path},
    {"read", answer_read}, {"canonical", answer_canonical}, {"forward", answer_forward},
    {"parameter", answer_parameter}, {"list_path", answer_list_path},
    {"log", answer_log}, {"exchange", answer_exchange}, {"client", answer_client},
    {"read_address", answer_read_address}, {"write_address", answer_write_address},
};

/* The word at the start of a row, and what follows its tab. */
static char *next_word(char **row)
{
    char *word = *row, *tab = strchr(word, '\t');

    if (tab != NULL)
        *tab = '\0';
    *row = tab != NULL ? tab + 1 : NULL;
    return word;
}

static bool answer(char *row)
{
    static struct words words;
    char *call = next_word(&row);

    words.count = 0;
    while (row != NULL && words.count < MOST_WORDS) {
        words.bytes[words.count] = (struct bytes){NULL, 0};
        words.at[words.count++] = next_word(&row);
    }
    if (row != NULL)
        fail("too many words");
    for (size_t at = 0; at < sizeof calls / sizeof *calls; at++) {
        if (strcmp(calls[at].name, call) == 0 && words.count > 0)
            return calls[at].answer(&words);
    }
    return false;
}

int main(void)
{
    char *row = NULL;
    size_t room = 0;
    ssize_t len;

    while ((len = getline(&row, &room, stdin)) > 0) {
        row[len - 1] = '\0';
        puts(answer(row) ? "" : "skipped");
    }
    free(row);
    return 0;
}
