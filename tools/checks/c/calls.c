/*
 * Makes the calls of unftp_control.h over the inputs on standard input, each with its length before
 * it, as four bytes with the least first. Checks what the header says of rooms and lengths: each
 * call with no room at all, with one byte less than it asks for, and with enough; the bounds on
 * what it asks for; what it leaves as it was; where a value is; and that what is written is read
 * back. Checks by tables what it says of names and values, replies, also the usual ones, log lines,
 * clients, logins, addresses and files. Each area has no byte more than its call is told, so that
 * valgrind finds what is written past it. Prints how many inputs there were, and of what kind.
 */
#include <unftp_control.h>

#include <stdbool.h>
#include <stdio.h>
#include <stdlib.h>
#include <string.h>

enum {
    FILLING = '.',

    /* how many bytes the longest address has, and the longest lines of files without a name */
    LONGEST_ADDRESS = 49,
    LONGEST_FACTS = 112,
    LONGEST_LIST = 80
};

struct bytes {
    char *at;
    size_t len;
};

/* What was taken of an input: the name is in the area, and the value there or in the input. */
struct taken {
    enum unftp_result result;
    struct unftp_line line;
    const char *value;
    struct bytes area;
};

/* A line, what it is taken as, and where its value is: 0 where that is in the area, or empty. */
struct place {
    const char *line;
    size_t len;
    enum unftp_result result;
    const char *name, *value;
    size_t value_at;
};

/* What was read of a text: the host is in the area. */
struct read {
    enum unftp_result result;
    struct unftp_address address;
    struct bytes host;
};

typedef enum unftp_result (*line_call)(const char *, size_t, char *, size_t, size_t *);

/* A line that a client sends, or a reply that it receives; and what is so then. */
struct turn {
    const char *line; /* NULL where it is a reply */
    uint32_t code;
    enum unftp_to to;
    uint64_t place;
    uint64_t owed;
    uint32_t begins; /* whether TLS may begin */
};

/* A call of a proxy, what it returns, and whether a line is taken then. */
struct step {
    /* PEEK is what PASS is, on a copy of the struct */
    enum { TAKE, SEND, PEEK, PASS, ANSWER } call;
    const char *line; /* of SEND */
    uint32_t code;    /* of PEEK, PASS and ANSWER */
    uint32_t returns;
    uint32_t taken;
};

/* An event of a login, what is done with it, and what the accounts say then. */
struct event {
    uint32_t number;
    enum unftp_login_step step;
    enum { SILENT, REFUSE, ACCEPT } says;
    uint32_t stage;
};

static const struct bytes *current;
static unsigned long inputs, commands, refused, replies, addresses;

static void wants(bool holds, const char *what)
{
    if (holds)
        return;
    printf("input %lu of %zu bytes: not so: %s\n", inputs, current->len, what);
    exit(EXIT_FAILURE);
}

/* So many bytes, at the end of a block; of none, there is still an address, past the block. */
static struct bytes area_of(size_t len)
{
    size_t before = len == 0;
    char *block = malloc(before + len);
    struct bytes area;

    if (block == NULL)
        abort();
    area.at = block + before;
    area.len = len;
    memset(area.at, FILLING, len);
    return area;
}

static void free_area(struct bytes area)
{
    free(area.at - (area.len == 0));
}

static bool is_filling(struct bytes area)
{
    for (size_t at = 0; at < area.len; at++) {
        if (area.at[at] != FILLING)
            return false;
    }
    return true;
}

static size_t line_feeds(const char *bytes, size_t len)
{
    size_t count = 0;

    for (size_t at = 0; at < len; at++)
        count += bytes[at] == '\n';
    return count;
}

static bool is_command(enum unftp_result result)
{
    return result >= UNFTP_USER && result <= UNFTP_OTHER;
}

static bool has_lengths(struct unftp_line line, size_t name_len, size_t value_len, size_t value_at)
{
    return line.name_len == name_len && line.value_len == value_len && line.value_at == value_at;
}

/* How much room a line needs: none for a value that stays in the line. */
static size_t needed_room(struct unftp_line line)
{
    return line.name_len + (line.value_at != 0 ? 0 : line.value_len);
}

static bool are_same(struct unftp_connection left, struct unftp_connection right)
{
    return left.limit == right.limit && left.offset == right.offset
        && left.skipping == right.skipping;
}

/* Calls where there is no room: nothing changes, and the lengths are those that are needed. */
static struct unftp_line lack_room(struct unftp_connection *connection, const char *bytes,
                                   size_t len, size_t room)
{
    struct unftp_connection before = *connection;
    struct bytes area = area_of(room);
    struct unftp_line line;

    wants(unftp_next(connection, bytes, len, area.at, room, &line) == UNFTP_NO_ROOM,
          "unftp_next has no room");
    wants(line.used == 0 && are_same(*connection, before) && is_filling(area),
          "unftp_next without room changes nothing");
    free_area(area);
    return line;
}

/* Where a line's text ends with these bytes, after another byte; else 0. */
static size_t place_in(const char *line, size_t used, const char *value, size_t len)
{
    size_t end = used > 1 && line[used - 2] == '\r' ? used - 2 : used - 1;

    return len > 0 && len < end && memcmp(line + end - len, value, len) == 0 ? end - len : 0;
}

/* Whether the line has these bytes here, in letters of any case, and the name in upper case. */
static bool is_upper_of(const char *name, size_t len, const char *line)
{
    for (size_t at = 0; at < len; at++) {
        bool is_lower = line[at] >= 'a' && line[at] <= 'z';
        if (name[at] != (is_lower ? (char)(line[at] - 'a' + 'A') : line[at]))
            return false;
    }
    return true;
}

/* Only a name that the number doesn't say is in the area, and only a value that the line doesn't
   have right before its end. */
static void check_taken(const char *bytes, struct taken taken)
{
    struct unftp_line line = taken.line;
    size_t name_at = taken.result == UNFTP_SITE ? 5 : 0;

    if (!is_command(taken.result)) {
        wants(has_lengths(line, 0, 0, 0), "what is no command has no name and no value");
        return;
    }
    wants(line.name_len == 0 || taken.result == UNFTP_SITE || taken.result == UNFTP_OTHER,
          "only SITE and another verb have a name");
    wants(is_upper_of(taken.area.at, line.name_len, bytes + name_at),
          "a name is that of its line, in upper case");
    wants(line.value_at == place_in(bytes, line.used, taken.value, line.value_len),
          "a value is in its line exactly where that ends with it");
    wants(taken.value == (line.value_at != 0 ? bytes + line.value_at
                                             : taken.area.at + line.name_len),
          "a value is in the line, or after the name");
    wants(needed_room(line) <= 3 * line.used, "a line of n bytes needs at most 3 n");
}

/* Takes the next line with just enough room. */
static struct taken take(struct unftp_connection *connection, const char *bytes, size_t len)
{
    struct unftp_connection before = *connection;
    struct unftp_line needed;
    struct taken taken;
    size_t room;

    taken.area = area_of(0);
    taken.result = unftp_next(connection, bytes, len, taken.area.at, 0, &taken.line);
    if (taken.result == UNFTP_NO_ROOM) {
        needed = taken.line;
        room = needed_room(needed);
        wants(needed.used == 0 && room > 0 && are_same(*connection, before),
              "unftp_next with no room at all changes nothing");
        taken.line = lack_room(connection, bytes, len, room - 1);
        wants(has_lengths(taken.line, needed.name_len, needed.value_len, needed.value_at),
              "it asks for the same room again");
        free_area(taken.area);
        taken.area = area_of(room);
        taken.result = unftp_next(connection, bytes, len, taken.area.at, room, &taken.line);
        wants(is_command(taken.result)
                  && has_lengths(taken.line, needed.name_len, needed.value_len, needed.value_at),
              "unftp_next has just enough room");
    }
    wants(taken.area.len == needed_room(taken.line), "a line that needs no room is taken without");
    taken.value = unftp_value(&taken.line, bytes, taken.area.at);
    check_taken(bytes, taken);
    return taken;
}

/* Whether two lines are the same command; their values may be at different places. */
static bool are_equal(struct taken left, struct taken right)
{
    return left.result == right.result && left.line.name_len == right.line.name_len
        && left.line.value_len == right.line.value_len
        && memcmp(left.area.at, right.area.at, left.line.name_len) == 0
        && memcmp(left.value, right.value, left.line.value_len) == 0;
}

/* Writes a line with just enough room, at most this: it is read as the line that it is of. */
static void check_written(line_call call, size_t most, const char *line, struct taken wanted)
{
    size_t used = wanted.line.used, room, again;
    struct bytes none = area_of(0), less, out;
    enum unftp_result result = call(line, used, none.at, 0, &room);
    struct unftp_connection connection = {0, 0, 0};
    struct taken taken;

    free_area(none);
    if (!is_command(wanted.result)) {
        wants(result == wanted.result && room == 0, "a refused line is refused by each call");
        return;
    }
    wants(result == UNFTP_NO_ROOM && room > 0, "a command has a line");
    wants(room <= most, "its line needs no more than the header says");
    less = area_of(room - 1);
    wants(call(line, used, less.at, room - 1, &again) == UNFTP_NO_ROOM && again == room
              && is_filling(less),
          "its line needs this room");
    out = area_of(room);
    wants(call(line, used, out.at, room, &again) == UNFTP_DONE && again == room,
          "its line has just enough room");
    taken = take(&connection, out.at, room);
    wants(taken.line.used == room && are_equal(taken, wanted), "its line is read as the command");
    free_area(taken.area);
    free_area(less);
    free_area(out);
}

/* Writes the value of a line's parameter, or the path in it, with just enough room, at most that of
   the line. The caller frees it; there is none where the parameter has no value. */
static struct bytes value_of(line_call call, const char *line, size_t used, bool *has_value)
{
    struct bytes value = area_of(0), less;
    size_t room, again;
    enum unftp_result result = call(line, used, value.at, 0, &room);

    *has_value = result != UNFTP_INVALID_EOL;
    if (result != UNFTP_NO_ROOM) {
        wants((!*has_value || result == UNFTP_DONE) && room == 0, "a value is empty, or none");
        return value;
    }
    free_area(value);
    wants(room > 0 && room <= used, "a value needs no more room than its line");
    less = area_of(room - 1);
    wants(call(line, used, less.at, room - 1, &again) == UNFTP_NO_ROOM && again == room
              && is_filling(less),
          "a value needs this room");
    free_area(less);
    value = area_of(room);
    wants(call(line, used, value.at, room, &again) == UNFTP_DONE && again == room,
          "a value has just enough room");
    return value;
}

/* The parameter of a line: that of a command whose value is bytes is this value, and a path is its
   end. */
static void check_parameter(const char *line, struct taken taken)
{
    enum unftp_result number = taken.result;
    bool has_value, has_path;
    struct bytes value = value_of(unftp_parameter, line, taken.line.used, &has_value);
    struct bytes path = value_of(unftp_list_path, line, taken.line.used, &has_path);

    wants(has_path == has_value && path.len <= value.len
              && memcmp(path.at, value.at + value.len - path.len, path.len) == 0,
          "a path is the end of a value");
    if (number == UNFTP_USER || number == UNFTP_PASS || number == UNFTP_ACCT
        || number == UNFTP_STAT)
        wants(has_value && value.len == taken.line.value_len
                  && memcmp(value.at, taken.value, value.len) == 0,
              "a command's value is that of its line");
    free_area(value);
    free_area(path);
}

static bool is_text(struct bytes area, const char *text)
{
    return area.len == strlen(text) && memcmp(area.at, text, area.len) == 0;
}

static bool begins_with(struct bytes area, const char *text)
{
    return area.len >= strlen(text) && memcmp(area.at, text, strlen(text)) == 0;
}

static bool is_printable(struct bytes area)
{
    for (size_t at = 0; at < area.len; at++) {
        if (area.at[at] < 32 || area.at[at] > 126)
            return false;
    }
    return true;
}

/* What a log shows of a line, with just enough room, and whether a part of it is hidden. */
static struct bytes logged(uint32_t number, const char *line, size_t len, uint32_t *hides)
{
    struct bytes none = area_of(0), less, out;
    size_t room, again;
    uint32_t same = 7;

    *hides = 7;
    wants(unftp_log_line(number, line, len, none.at, 0, &room, hides) == UNFTP_NO_ROOM
              && room > 0 && *hides <= 1,
          "a log shows something of each line");
    free_area(none);
    less = area_of(room - 1);
    wants(unftp_log_line(number, line, len, less.at, room - 1, &again, &same) == UNFTP_NO_ROOM
              && again == room && is_filling(less) && same == *hides,
          "a log line needs this room");
    free_area(less);
    out = area_of(room);
    same = 7;
    wants(unftp_log_line(number, line, len, out.at, room, &again, &same) == UNFTP_DONE
              && again == room && same == *hides,
          "a log line has just enough room");
    wants(is_printable(out), "each byte of a log line is printable ASCII");
    return out;
}

/* A log shows a line, and nothing of one that is too long. */
static void check_logged(const char *line, struct taken taken)
{
    size_t used = taken.line.used;
    uint32_t hides, hides_all;
    struct bytes shown = logged((uint32_t)taken.result, line, used, &hides),
                 too_long = logged(UNFTP_LINE_TOO_LONG, line, used, &hides_all);

    wants(is_command(taken.result) || (begins_with(shown, "refused") && hides == 1),
          "a log says that a line is refused");
    wants(is_text(too_long, "refused: Line too long") && hides_all == 1,
          "a log says that a line is too long");
    wants(shown.len <= 4 * used + 42 && too_long.len <= 4 * used + 42,
          "a log line needs no more than the header says");
    free_area(shown);
    free_area(too_long);
}

/* The limit is exact, and a line that comes in two parts is the same line. */
static void check_cuts(const char *bytes, struct taken wanted)
{
    size_t used = wanted.line.used;
    struct unftp_connection exact = {used, 0, 0}, small = {used - 1, 0, 0}, parts = {0, 0, 0};
    struct taken taken = take(&exact, bytes, used);

    wants(are_equal(taken, wanted) && taken.line.value_at == wanted.line.value_at,
          "a line of as many bytes as the limit");
    free_area(taken.area);
    if (used > 1) {
        taken = take(&small, bytes, used);
        wants(taken.result == UNFTP_LINE_TOO_LONG && taken.line.used == used,
              "a line of more bytes than the limit");
        free_area(taken.area);
    }
    taken = take(&parts, bytes, used - 1);
    wants(taken.result == UNFTP_MORE && taken.line.used == 0 && parts.offset == used - 1,
          "a line without its end");
    free_area(taken.area);
    taken = take(&parts, bytes, used);
    wants(are_equal(taken, wanted) && taken.line.value_at == wanted.line.value_at
              && parts.offset == 0,
          "a line that has come in two parts");
    free_area(taken.area);
}

/* The line that is forwarded; whether it is clear is said with it. */
static enum unftp_result forwarded(const char *line, size_t line_len, char *out, size_t out_room,
                                   size_t *len)
{
    uint32_t clear = 7;
    enum unftp_result result = unftp_forward(line, line_len, out, out_room, len, &clear);

    wants(clear == (result == UNFTP_DONE ? unftp_is_clear(out, *len) : 0),
          "whether what is forwarded is clear");
    return result;
}

/* Takes all lines of an input. */
static void check_lines(struct bytes input)
{
    struct unftp_connection connection = {0, 0, 0};
    size_t start = 0;

    for (;;) {
        const char *bytes = input.at + start;
        struct taken taken = take(&connection, bytes, input.len - start);
        if (taken.result == UNFTP_MORE) {
            free_area(taken.area);
            break;
        }
        wants(taken.line.used > 0 && line_feeds(bytes, taken.line.used) == 1
                  && bytes[taken.line.used - 1] == '\n',
              "a line is used up");
        commands += is_command(taken.result);
        refused += !is_command(taken.result);
        check_cuts(bytes, taken);
        check_written(unftp_canonical, 3 * taken.line.used, bytes, taken);
        check_written(forwarded, taken.line.used + 2, bytes, taken);
        check_parameter(bytes, taken);
        check_logged(bytes, taken);
        start += taken.line.used;
        free_area(taken.area);
    }
    wants(line_feeds(input.at + start, input.len - start) == 0, "no line is left");
}

/* The lines of a reply need no more room than the reply, and are there only where it is whole. */
static void check_reply_lines(struct bytes reply)
{
    struct bytes none = area_of(0), less, out;
    size_t room, again;
    enum unftp_result result = unftp_reply_lines(reply.at, reply.len, none.at, 0, &room);

    wants(result == UNFTP_NO_ROOM && room >= 2 && room <= reply.len, "a reply has lines");
    result = unftp_reply_lines(reply.at, reply.len - 1, none.at, 0, &again);
    wants(result == UNFTP_MORE && again == 0, "a part of a reply has none");
    free_area(none);
    less = area_of(room - 1);
    result = unftp_reply_lines(reply.at, reply.len, less.at, room - 1, &again);
    wants(result == UNFTP_NO_ROOM && again == room && is_filling(less), "they need this room");
    free_area(less);
    out = area_of(room);
    result = unftp_reply_lines(reply.at, reply.len, out.at, room, &again);
    wants(result == UNFTP_DONE && again == room, "they have just enough room");
    wants(out.at[room - 2] == '\r' && out.at[room - 1] == '\n', "each line has its end");
    free_area(out);
}

/* Copies the text of each line of a reply, with a CR LF after it, to the start of an area. */
static size_t copy_lines(struct bytes reply, char *out)
{
    struct unftp_reply_line line = {0, 0, 0};
    size_t len = 0;

    while (unftp_next_reply_line(reply.at, reply.len, &line) == UNFTP_DONE) {
        memcpy(out + len, reply.at + line.text_at, line.text_len);
        memcpy(out + len + line.text_len, "\r\n", 2);
        len += line.text_len + 2;
    }
    wants(line.next == reply.len, "the last line ends where the reply does");
    return len;
}

/* The lines of a reply, found where they are, are those that are written. */
static void check_line_places(struct bytes reply)
{
    struct bytes written = area_of(reply.len), copied = area_of(reply.len);
    struct unftp_reply_line past = {0, 0, reply.len + 1};
    size_t len;

    wants(unftp_reply_lines(reply.at, reply.len, written.at, written.len, &len) == UNFTP_DONE
              && copy_lines(reply, copied.at) == len && memcmp(copied.at, written.at, len) == 0,
          "the lines that are found are those that are written");
    wants(unftp_next_reply_line(reply.at, reply.len, &past) == UNFTP_INVALID_ARGUMENT
              && past.next == reply.len + 1,
          "no line begins past the reply");
    free_area(copied);
    free_area(written);
}

/* A client to which the reply comes byte after byte finds it at its last byte, and scans no byte
   again: each call has scanned all that came so far. */
static void check_pieces(struct bytes reply)
{
    struct unftp_reply_search search = {reply.len, 0, 0};
    struct unftp_found_reply found;

    for (size_t len = 0; len < reply.len; len++) {
        wants(unftp_next_reply(&search, reply.at, len, &found) == UNFTP_MORE && found.used == 0
                  && search.offset == len && search.line <= len,
              "a part of a reply is searched");
    }
    wants(unftp_next_reply(&search, reply.at, reply.len, &found) == UNFTP_DONE
              && found.used == reply.len && found.code == 299 && search.line == 0
              && search.offset == 0,
          "and it is found at its last byte");
    search.limit = reply.len - 1;
    wants(unftp_next_reply(&search, reply.at, reply.len, &found) == UNFTP_REPLY_TOO_LONG
              && found.used == 0 && search.offset == reply.len - 1,
          "one byte less is its limit");
}

/* Searches that no call leaves are refused, and change nothing. */
static void check_searches(void)
{
    static const struct unftp_reply_search invalid[] = {{0, 0, 4}, {2, 0, 3}, {0, 2, 1}, {0, 4, 4}};
    struct unftp_found_reply found;

    for (size_t at = 0; at < sizeof invalid / sizeof invalid[0]; at++) {
        struct unftp_reply_search search = invalid[at];
        wants(unftp_next_reply(&search, "220", 3, &found) == UNFTP_INVALID_ARGUMENT
                  && memcmp(&search, &invalid[at], sizeof search) == 0 && found.used == 0,
              "no call leaves such a search");
    }
    struct unftp_reply_search search = {9, 0, 0};
    wants(unftp_next_reply(&search, "OK\r\n", 4, &found) == UNFTP_MALFORMED && search.offset == 0
              && unftp_next_reply(&search, "OK\r\n220 a\r\n", 11, &found) == UNFTP_MALFORMED,
          "what opens no reply stays malformed");
}

/* A client finds the reply that these bytes are, and not before its end. */
static void check_found(struct bytes reply)
{
    struct unftp_found_reply found;

    wants(unftp_front_reply(reply.at, reply.len, &found) == UNFTP_DONE && found.used == reply.len
              && found.code == 299,
          "a client finds the reply");
    wants(unftp_front_reply(reply.at, reply.len - 1, &found) == UNFTP_MORE && found.used == 0
              && found.code == 0,
          "but not before its end");
    check_reply_lines(reply);
    check_line_places(reply);
    check_pieces(reply);
}

/* The reply of this text, as bytes. */
static struct bytes reply_of(struct bytes text, size_t room)
{
    struct bytes out = area_of(room);
    size_t len;

    wants(unftp_reply(299, text.at, text.len, out.at, room, &len) == UNFTP_DONE && len == room,
          "a reply has just enough room");
    return out;
}

/* Whether a line feed is here that no CR comes before. */
static bool is_bare(struct bytes text, size_t at)
{
    return text.at[at] == '\n' && (at == 0 || text.at[at - 1] != '\r');
}

/* The text with a CR before each bare line feed. */
static struct bytes with_crs(struct bytes text)
{
    size_t len = text.len, end = 0;
    struct bytes made;

    for (size_t at = 0; at < text.len; at++)
        len += is_bare(text, at);
    made = area_of(len);
    for (size_t at = 0; at < text.len; at++) {
        if (is_bare(text, at))
            made.at[end++] = '\r';
        made.at[end++] = text.at[at];
    }
    return made;
}

/* Where CR LFs divide the lines, the reply is the same. */
static void check_line_ends(struct bytes text, struct bytes wanted)
{
    struct bytes other = with_crs(text), out = reply_of(other, wanted.len);

    wants(memcmp(out.at, wanted.at, wanted.len) == 0, "a line may end with CR LF");
    free_area(out);
    free_area(other);
}

/* Makes a reply of this text with just enough room. */
static void check_reply(struct bytes text)
{
    struct bytes none = area_of(0), less, out;
    size_t room, again, lines = line_feeds(text.at, text.len);
    enum unftp_result result = unftp_reply(299, text.at, text.len, none.at, 0, &room);

    free_area(none);
    wants(result == UNFTP_NO_ROOM && room <= text.len + (lines > 0 ? 2 * lines + 10 : 6),
          "the room of a reply");
    less = area_of(room - 1);
    wants(unftp_reply(299, text.at, text.len, less.at, room - 1, &again) == UNFTP_NO_ROOM
              && again == room && is_filling(less),
          "a reply needs this room");
    out = reply_of(text, room);
    check_found(out);
    check_line_ends(text, out);
    replies++;
    free_area(less);
    free_area(out);
}

/* Writes a path between quotes with just enough room. */
static void check_quoted(struct bytes path)
{
    struct bytes none = area_of(0), less, out;
    size_t room, again, end = 1;
    enum unftp_result result = unftp_quoted_path(path.at, path.len, none.at, 0, &room);

    free_area(none);
    wants(result == UNFTP_NO_ROOM && room >= path.len + 2 && room <= 2 * path.len + 2,
          "the room of a path between quotes");
    less = area_of(room - 1);
    wants(unftp_quoted_path(path.at, path.len, less.at, room - 1, &again) == UNFTP_NO_ROOM
              && again == room && is_filling(less),
          "a path between quotes needs this room");
    out = area_of(room);
    wants(unftp_quoted_path(path.at, path.len, out.at, room, &again) == UNFTP_DONE
              && again == room && out.at[0] == '"' && out.at[room - 1] == '"',
          "a path between quotes has just enough room");
    for (size_t at = 0; at < path.len; at++) {
        wants(out.at[end++] == path.at[at], "a path between quotes has the path's bytes");
        if (path.at[at] == '"')
            wants(out.at[end++] == '"', "and each quote twice");
    }
    wants(end == room - 1, "and nothing more");
    free_area(less);
    free_area(out);
}

/* A call that writes the reply to a number, and to a value or to what the accounts say. */
typedef enum unftp_result writes_reply(uint32_t number, const char *value, char *out, size_t room,
                                       size_t *len);

static enum unftp_result write_usual(uint32_t number, const char *value, char *out, size_t room,
                                     size_t *len)
{
    return unftp_usual_reply(number, value, strlen(value), out, room, len);
}

static enum unftp_result write_login(uint32_t number, const char *value, char *out, size_t room,
                                     size_t *len)
{
    return unftp_login_reply(number, (uint32_t)strlen(value), out, room, len);
}

/* Writes a reply with just enough room, and with less. It has this code and ends as a line; where no
   reply is wanted, the number is an invalid argument. */
static void check_reply_to(writes_reply *write, uint32_t number, const char *value,
                           const char *wanted)
{
    struct bytes none = area_of(0), less, out;
    size_t room, again;
    enum unftp_result result = write(number, value, none.at, 0, &room);

    free_area(none);
    if (wanted == NULL) {
        wants(result == UNFTP_INVALID_ARGUMENT && room == 0, "a number that has no reply");
        return;
    }
    wants(result == UNFTP_NO_ROOM && room <= 64, "the room of a reply to a number");
    less = area_of(room - 1);
    wants(write(number, value, less.at, room - 1, &again) == UNFTP_NO_ROOM && again == room
              && is_filling(less),
          "a reply to a number needs this room");
    out = area_of(room);
    wants(write(number, value, out.at, room, &again) == UNFTP_DONE && again == room
              && begins_with(out, wanted) && memcmp(out.at + room - 2, "\r\n", 2) == 0
              && memchr(out.at, '\n', room) == out.at + room - 1,
          "a reply to a number is one line with this code");
    free_area(less);
    free_area(out);
}

/* The replies that RFC 959 has for an event that a server doesn't serve (sections 4.2.2 and 5.4), and
   for the steps of a login. No number but those of events has a reply. */
static void check_usual_replies(void)
{
    static const struct {
        uint32_t event;
        const char *value, *reply;
    } events[] = {
        {UNFTP_DONE, "", NULL}, {UNFTP_ACCT, "a", "202 "}, {UNFTP_SYST, "", "215 UNIX Type: L8\r\n"},
        {UNFTP_TYPE, "", "504 "}, {UNFTP_STRU, "F", "200 "}, {UNFTP_STRU, "R", "504 "},
        {UNFTP_STRU, "P", "504 "}, {UNFTP_STRU, "FF", "504 "}, {UNFTP_MODE, "S", "200 "},
        {UNFTP_MODE, "B", "504 "}, {UNFTP_MODE, "C", "504 "}, {UNFTP_MODE, "", "504 "},
        {UNFTP_HELP, "", "214 "}, {UNFTP_NOOP, "", "200 "}, {UNFTP_OPTS, "UTF8 ON", "200 "},
        {UNFTP_OPTS, "UTF8 OFF", "504 "}, {UNFTP_QUIT, "", "221 "}, {UNFTP_ALLO, "", "202 "},
        {UNFTP_INVALID_COMMAND, "", "501 "}, {UNFTP_INVALID_UTF8, "", "500 "},
        {UNFTP_INVALID_EOL, "", "500 "}, {UNFTP_LINE_TOO_LONG, "", "500 "},
        {UNFTP_OUT_OF_MEMORY, "", "421 "},
    };
    static const struct {
        uint32_t step;
        const char *says, *reply;
    } steps[] = {
        {UNFTP_LOGIN_PASS_ON, "", NULL}, {UNFTP_LOGIN_NEED_PASSWORD, "", "331 "},
        {UNFTP_LOGIN_ASK_ACCOUNTS, "", "530 "}, {UNFTP_LOGIN_ASK_ACCOUNTS, "y", "230 "},
        {UNFTP_LOGIN_ASK_ACCOUNTS, "yes", "230 "}, {UNFTP_LOGIN_NEED_NAME, "y", "503 "},
        {UNFTP_LOGIN_NEED_LOGIN, "", "530 "}, {5, "", NULL}, {UINT32_MAX, "y", NULL},
    };
    bool is_special[130] = {false};

    for (size_t at = 0; at < sizeof events / sizeof events[0]; at++) {
        check_reply_to(write_usual, events[at].event, events[at].value, events[at].reply);
        is_special[events[at].event] = true;
    }
    for (uint32_t number = 0; number < 130; number++) {
        if (!is_special[number])
            check_reply_to(write_usual, number, "F", number <= UNFTP_OTHER ? "502 " : NULL);
    }
    check_reply_to(write_usual, UINT32_MAX, "", NULL);
    for (size_t at = 0; at < sizeof steps / sizeof steps[0]; at++)
        check_reply_to(write_login, steps[at].step, steps[at].says, steps[at].reply);
}

/* A CR directly before a line feed belongs to the line's end, and any other is written. What is
   written has these lines. */
static void check_texts(void)
{
    static const char *const texts[][3] = {
        {"", "299\r\n", "\r\n"},
        {"a\r\nb", "299-a\r\n299 b\r\n", "a\r\nb\r\n"},
        {"a\r\n", "299-a\r\n299 \r\n", "a\r\n\r\n"},
        {"\r\n\n", "299-\r\n\r\n299 \r\n", "\r\n\r\n\r\n"},
        {"1\r\n2\r\n3", "299- 1\r\n 2\r\n299 3\r\n", " 1\r\n 2\r\n3\r\n"},
        {"a\r\r\n\rb\r", "299-a\r\r\n299 \rb\r\r\n", "a\r\r\n\rb\r\r\n"},
        {"a\r", "299 a\r\r\n", "a\r\r\n"},
        {"a\rb", "299 a\rb\r\n", "a\rb\r\n"},
        {"\n\r", "299-\r\n299 \r\r\n", "\r\n\r\r\n"},
        {"\xe9\n1\n\xff", "299-\xe9\r\n 1\r\n299 \xff\r\n", "\xe9\r\n 1\r\n\xff\r\n"},
        {"\xe9\xff", "299 \xe9\xff\r\n", "\xe9\xff\r\n"},
    };
    char out[64], lines[64];
    size_t len;

    for (size_t at = 0; at < sizeof texts / sizeof texts[0]; at++) {
        const char *text = texts[at][0], *wanted = texts[at][1];
        wants(unftp_reply(299, text, strlen(text), out, sizeof out, &len) == UNFTP_DONE
                  && len == strlen(wanted) && memcmp(out, wanted, len) == 0,
              text);
        wants(unftp_reply_lines(out, len, lines, sizeof lines, &len) == UNFTP_DONE
                  && len == strlen(texts[at][2]) && memcmp(lines, texts[at][2], len) == 0,
              wanted);
    }
    wants(unftp_reply_lines("a\r\n", 3, lines, sizeof lines, &len) == UNFTP_MALFORMED && len == 0,
          "what opens no reply has no lines");
}

/* Takes a line with more room than it needs: no byte after what is written changes. */
static void take_into_more(const char *bytes, struct taken wanted)
{
    struct unftp_connection connection = {0, 0, 0};
    struct bytes area = area_of(wanted.area.len + 3), rest = {area.at + wanted.area.len, 3};
    struct unftp_line line;

    wants(unftp_next(&connection, bytes, wanted.line.used, area.at, area.len, &line)
                  == wanted.result
              && memcmp(area.at, wanted.area.at, wanted.area.len) == 0 && is_filling(rest),
          "only what the line doesn't have as it is is written");
    free_area(area);
}

/* Takes a line of a table, after a byte that is no part of it. */
static void check_place(const struct place *place)
{
    struct unftp_connection connection = {0, 0, 0};
    struct bytes block = area_of(place->len + 1);
    size_t name_len = strlen(place->name), value_len = strlen(place->value);
    size_t room = name_len + (place->value_at != 0 ? 0 : value_len);
    struct taken taken;

    memcpy(block.at + 1, place->line, place->len);
    taken = take(&connection, block.at + 1, place->len);
    wants(taken.result == place->result && taken.line.used == place->len, place->line);
    wants(has_lengths(taken.line, name_len, value_len, place->value_at), place->line);
    wants(taken.area.len == room && memcmp(taken.area.at, place->name, name_len) == 0
              && memcmp(taken.value, place->value, value_len) == 0,
          place->line);
    wants(place->value_at == 0 || taken.value == block.at + 1 + place->value_at, place->line);
    take_into_more(block.at + 1, taken);
    free_area(taken.area);
    free_area(block);
}

/* Where the values of lines are, and which lines have a name. */
static const struct place places[] = {
    {"RETR a.txt\r\n", 12, UNFTP_RETR, "", "a.txt", 5},
    {"retr a.txt\n", 11, UNFTP_RETR, "", "a.txt", 5},
    {"XCWD a\r\n", 8, UNFTP_CWD, "", "a", 5},
    {"RETR  a\r\n", 9, UNFTP_RETR, "", " a", 5},
    {"RETR\ra\r\n", 8, UNFTP_RETR, "", "a", 5},
    {"LIST -la x\r\n", 12, UNFTP_LIST, "", "x", 9},
    {"USER \xff\r\n", 8, UNFTP_USER, "", "\xff", 5},
    {"PASS a b\r\n", 10, UNFTP_PASS, "", "a b", 5},
    {"STAT \xc3\xa9\n", 8, UNFTP_STAT, "", "\xc3\xa9", 5},
    {"PASS \r\r\n", 8, UNFTP_PASS, "", "\r", 5},
    {"REST 5\r\n", 8, UNFTP_REST, "", "5", 5},
    {"REST +5\r\n", 9, UNFTP_REST, "", "5", 6},
    {"rest 0070\r\n", 11, UNFTP_REST, "", "70", 7},
    {"MODE S\r\n", 8, UNFTP_MODE, "", "S", 5},
    {"PBSZ 0\r\n", 8, UNFTP_PBSZ, "", "0", 5},
    {"OPTS UTF8 ON\r\n", 14, UNFTP_OPTS, "", "UTF8 ON", 5},
    {"auth TLS\r\n", 10, UNFTP_AUTH, "", "TLS", 5},
    {"site md5 a\r\n", 12, UNFTP_MD5, "", "a", 9},
    /* in the area */
    {"auth tls\r\n", 10, UNFTP_AUTH, "", "TLS", 0},
    {"AUTH Ssl\n", 9, UNFTP_AUTH, "", "SSL", 0},
    {"opts utf8 on\r\n", 14, UNFTP_OPTS, "", "UTF8 ON", 0},
    {"OPTS utf8 off\r\n", 15, UNFTP_OPTS, "", "UTF8 OFF", 0},
    {"RETR a\r\0b\r\n", 11, UNFTP_RETR, "", "a\rb", 0},
    {"USER a\r\0b\r\n", 11, UNFTP_USER, "", "a\rb", 0},
    {"PASS \r\0\r\n", 9, UNFTP_PASS, "", "\r", 0},
    {"RETR \xe9\r\n", 8, UNFTP_RETR, "", "\xef\xbf\xbd", 0},
    {"CWD \xff\r\0a\r\n", 10, UNFTP_CWD, "", "\xef\xbf\xbd\ra", 0},
    /* a name, and a value in the line, in the area or none */
    {"SITE CHMOD 644 a\r\n", 18, UNFTP_SITE, "CHMOD", "644 a", 11},
    {"site chmod 644 a\n", 17, UNFTP_SITE, "CHMOD", "644 a", 11},
    {"site chmod \xe9\r\n", 14, UNFTP_SITE, "CHMOD", "\xef\xbf\xbd", 0},
    {"SITE ChMod a\r\0\r\n", 16, UNFTP_SITE, "CHMOD", "a\r", 0},
    {"SITE HELP\r\n", 11, UNFTP_SITE, "HELP", "", 0},
    {"site help\r\n", 11, UNFTP_SITE, "HELP", "", 0},
    {"SITE help \r\n", 12, UNFTP_SITE, "HELP", "", 0},
    {"SITE\r\n", 6, UNFTP_SITE, "", "", 0},
    {"SITE  a\r\n", 9, UNFTP_SITE, "", "a", 6},
    {"EPRT |1|a|\r\n", 12, UNFTP_OTHER, "EPRT", "|1|a|", 5},
    {"eprt |1|a|\n", 11, UNFTP_OTHER, "EPRT", "|1|a|", 5},
    {"Lang \xe9\r\n", 8, UNFTP_OTHER, "LANG", "\xef\xbf\xbd", 0},
    {"lang a\r\0b\r\n", 11, UNFTP_OTHER, "LANG", "a\rb", 0},
    {"REIN\r\n", 6, UNFTP_OTHER, "REIN", "", 0},
    {"rein\r\n", 6, UNFTP_OTHER, "REIN", "", 0},
    {"pa\xc3\x9f\n", 5, UNFTP_OTHER, "PA\xc3\x9f", "", 0},
    {"\r\n", 2, UNFTP_OTHER, "", "", 0},
    {" a\r\n", 4, UNFTP_OTHER, "", "a", 1},
    /* no name, and no value: none is there, or it is ignored */
    {"NOOP\r\n", 6, UNFTP_NOOP, "", "", 0},
    {"bye\n", 4, UNFTP_QUIT, "", "", 0},
    {"type a\r\n", 8, UNFTP_TYPE, "", "", 0},
    {"EPSV ALL\r\n", 10, UNFTP_EPSV, "", "", 0},
    {"PASS \r\n", 7, UNFTP_PASS, "", "", 0},
    {"LIST -la\r\n", 10, UNFTP_LIST, "", "", 0},
    {"NOOP x\r\n", 8, UNFTP_INVALID_COMMAND, "", "", 0},
};

static void check_places(void)
{
    for (size_t at = 0; at < sizeof places / sizeof places[0]; at++)
        check_place(&places[at]);
}

/* What a log shows of lines, and whether that is not all: nothing of a password or an account, also
   where it is a verb. */
static void check_log_lines(void)
{
    static const struct {
        const char *line;
        const char *shown;
        uint32_t hides;
    } lines[] = {
        {"noop\r\n", "NOOP", 0},
        {"user anna\n", "USER anna", 0},
        {"USER\r\n", "USER", 0},
        {"PASS secret\r\n", "PASS ***", 1},
        {"PASS\r\n", "PASS ***", 1},
        {"acct secret\r\n", "ACCT ***", 1},
        {"ACCT\r\n", "ACCT ***", 1},
        {"secret\r\n", "***", 1},
        {"PAS secret\r\n", "***", 1},
        {"rein secret\r\n", "REIN ***", 1},
        {"LANG\r\n", "LANG ***", 1},
        {"SITE secret\r\n", "SITE ***", 1},
        {"SITE\r\n", "SITE ***", 1},
        {"SITE PSWD old new\r\n", "SITE PSWD ***", 1},
        {"SITE umask 022\r\n", "SITE UMASK 022", 0},
        {"SITE MD5 a\r\n", "SITE MD5 a", 0},
        {"RETR a\tb'c\"d\\e\x7f\r\n", "RETR a\\tb\\'c\\\"d\\\\e\\x7f", 0},
        {"RETR a***b\r\n", "RETR a***b", 0},
        {"RETR refused\r\n", "RETR refused", 0},
        {"STAT \xe9\r\n", "STAT \\xe9", 0},
        {"retr \xe9\r\n", "RETR \\xe9", 0},
        {"type i\r\n", "TYPE i", 0},
        {"TYPE A\rb\r\n", "TYPE", 1},
        {"EPSV\r\n", "EPSV", 0},
        {"SYST\r\n", "SYST", 0},
        {"SYST x\r\n", "SYST", 1},
        {"HELP\n", "HELP", 0},
        {"help me\r\n", "HELP", 1},
        {"LIST -la x\r\n", "LIST -la x", 0},
        {"rest +5\r\n", "REST 5", 0},
        {"AUTH tls\r\n", "AUTH TLS", 0},
        {"NOOP x\r\n", "refused NOOP: Invalid command", 1},
        {"RETR\r\n", "refused RETR: Invalid command", 1},
        {"SITE \xff a\r\n", "refused SITE: Non-UTF8 character while parsing", 1},
    };

    for (size_t at = 0; at < sizeof lines / sizeof lines[0]; at++) {
        const char *line = lines[at].line;
        struct unftp_connection connection = {0, 0, 0};
        struct taken taken = take(&connection, line, strlen(line));
        uint32_t hides;
        struct bytes shown = logged((uint32_t)taken.result, line, taken.line.used, &hides);
        wants(is_text(shown, lines[at].shown) && hides == lines[at].hides, lines[at].shown);
        free_area(shown);
        free_area(taken.area);
    }
}

/* The line of an exchange, with just enough room, which is no more than the header says. */
static struct bytes logged_exchange(const char *shown, struct bytes given)
{
    struct bytes none = area_of(0), less, out;
    size_t len = strlen(shown), room, again;

    wants(unftp_log_exchange(shown, len, given.at, given.len, none.at, 0, &room)
              == UNFTP_NO_ROOM,
          "an exchange has a line");
    free_area(none);
    wants(room <= len + 4 * given.len + 3, "its line needs no more than the header says");
    less = area_of(room - 1);
    wants(unftp_log_exchange(shown, len, given.at, given.len, less.at, room - 1, &again)
                  == UNFTP_NO_ROOM
              && again == room && is_filling(less),
          "its line needs this room");
    free_area(less);
    out = area_of(room);
    wants(unftp_log_exchange(shown, len, given.at, given.len, out.at, room, &again)
                  == UNFTP_DONE
              && again == room,
          "its line has just enough room");
    wants(is_printable(out), "each byte of the line of an exchange is printable ASCII");
    return out;
}

/* How many bytes at the start of these are replies, and why there is not another. */
static size_t replies_of(struct bytes input, enum unftp_result *why)
{
    struct unftp_found_reply reply;
    size_t len = 0;

    while ((*why = unftp_front_reply(input.at + len, input.len - len, &reply)) == UNFTP_DONE)
        len += reply.used;
    return len;
}

/* The bytes are logged as replies as far as they are some. */
static void check_exchange(struct bytes input)
{
    enum unftp_result why;
    size_t used = replies_of(input, &why), len;
    struct bytes first = area_of(used), out, again, none = area_of(0);

    memcpy(first.at, input.at, used);
    out = logged_exchange("RETR a", first);
    wants(begins_with(out, "RETR a ->"), "an exchange begins with its line");
    wants((used == 0) == is_text(out, "RETR a ->"), "its replies are shown");
    again = logged_exchange("", first);
    wants(again.len == out.len - 7 && memcmp(again.at, out.at + 7, again.len) == 0,
          "without a line it is the same");
    if (used < input.len)
        wants(unftp_log_exchange("", 0, input.at, input.len, none.at, 0, &len) == why && len == 0,
              "what is no reply is not logged");
    wants(unftp_log_exchange("\x7f", 1, input.at, input.len, none.at, 0, &len)
                  == UNFTP_INVALID_ARGUMENT
              && len == 0,
          "no line is logged that is not printable");
    free_area(none);
    free_area(again);
    free_area(out);
    free_area(first);
}

static bool are_same_clients(struct unftp_client left, struct unftp_client right)
{
    return left.sent == right.sent && left.answered == right.answered && left.asked == right.asked
        && left.greeted == right.greeted && left.asks == right.asks && left.agreed == right.agreed
        && left.taken == right.taken;
}

/* Takes the turns of one client. */
static void take_turns(const struct turn *turns, size_t count)
{
    struct unftp_client client = {0, 0, 0, 0, 0, 0, 0};

    for (size_t at = 0; at < count; at++) {
        const struct turn *turn = &turns[at];
        uint64_t place;
        if (turn->line != NULL)
            wants(unftp_client_line(&client, turn->line, strlen(turn->line), &place) == UNFTP_DONE,
                  "a line is noted");
        else
            wants(unftp_client_reply(&client, turn->code, &place) == turn->to,
                  "what a reply is to");
        wants(place == turn->place, "the place of a line");
        wants(unftp_client_owed(&client) == turn->owed, "how many replies are owed");
        wants(unftp_client_may_begin_tls(&client, 0) == turn->begins, "whether TLS may begin");
        wants(unftp_client_may_begin_tls(&client, 1) == 0, "TLS does not begin before a byte");
    }
}

/* The greeting comes first, which may be preliminary; then the replies to each line, in order. */
static void check_replies(void)
{
    static const struct turn turns[] = {
        {"USER a\r\n", 0, UNFTP_TO_GREETING, 0, 1, 0},
        {NULL, 120, UNFTP_TO_GREETING, 0, 1, 0},
        {NULL, 220, UNFTP_TO_GREETING, 0, 1, 0},
        {"RETR b\n", 0, UNFTP_TO_GREETING, 1, 2, 0},
        {NULL, 331, UNFTP_TO_COMMAND, 0, 1, 0},
        {NULL, 110, UNFTP_TO_COMMAND, 1, 1, 0},
        {NULL, 199, UNFTP_TO_COMMAND, 1, 1, 0},
        {NULL, 226, UNFTP_TO_COMMAND, 1, 0, 0},
        {NULL, 421, UNFTP_TO_NOTHING, 0, 0, 0},
        {NULL, 150, UNFTP_TO_NOTHING, 0, 0, 0},
        {"QUIT\r\n", 0, UNFTP_TO_GREETING, 2, 1, 0},
        {NULL, 99, UNFTP_TO_COMMAND, 2, 0, 0},
    };

    take_turns(turns, sizeof turns / sizeof turns[0]);
}

/* TLS may begin after 234 to the last line, where this asks for it. */
static void check_tls(void)
{
    static const struct turn turns[] = {
        {NULL, 234, UNFTP_TO_GREETING, 0, 0, 0},
        {"NOOP\r\n", 0, UNFTP_TO_GREETING, 0, 1, 0},
        {NULL, 234, UNFTP_TO_COMMAND, 0, 0, 0},
        {"AUTH TLS\r\n", 0, UNFTP_TO_GREETING, 1, 1, 0},
        {NULL, 534, UNFTP_TO_COMMAND, 1, 0, 0},
        {NULL, 234, UNFTP_TO_NOTHING, 0, 0, 0},
        {"AUTH GSSAPI\r\n", 0, UNFTP_TO_GREETING, 2, 1, 0},
        {NULL, 234, UNFTP_TO_COMMAND, 2, 0, 0},
        {"AUTH TLS\r\n", 0, UNFTP_TO_GREETING, 3, 1, 0},
        {"AUTH TLS\r\n", 0, UNFTP_TO_GREETING, 4, 2, 0},
        {NULL, 234, UNFTP_TO_COMMAND, 3, 1, 0},
        {NULL, 234, UNFTP_TO_COMMAND, 4, 0, 1},
        {"NOOP\r\n", 0, UNFTP_TO_GREETING, 5, 1, 0},
        {NULL, 200, UNFTP_TO_COMMAND, 5, 0, 0},
        {"AUTH TLS\r\n", 0, UNFTP_TO_GREETING, 6, 1, 0},
        {"NOOP\r\n", 0, UNFTP_TO_GREETING, 7, 2, 0},
        {NULL, 234, UNFTP_TO_COMMAND, 6, 1, 0},
        {NULL, 200, UNFTP_TO_COMMAND, 7, 0, 0},
        {"auth ssl\n", 0, UNFTP_TO_GREETING, 8, 1, 0},
        {NULL, 234, UNFTP_TO_COMMAND, 8, 0, 1},
        {NULL, 421, UNFTP_TO_NOTHING, 0, 0, 0},
    };

    take_turns(turns, sizeof turns / sizeof turns[0]);
}

/* Makes a call of a proxy. */
static uint32_t make_step(struct unftp_client *client, const struct step *step)
{
    uint64_t place;

    switch (step->call) {
    case TAKE: return unftp_client_take(client);
    case SEND: return unftp_client_line(client, step->line, strlen(step->line), &place);
    case ANSWER: return unftp_client_answer(client, step->code);
    default: return unftp_client_reply(client, step->code, &place);
    }
}

/* A line is taken once the last one is sent or answered, and answered once no reply is owed. */
static void check_order(void)
{
    static const struct step steps[] = {
        /* no line is taken */
        {ANSWER, NULL, 500, 0, 0},
        {TAKE, NULL, 0, 1, 1},
        /* one is taken, and the greeting is owed */
        {TAKE, NULL, 0, 0, 1},
        {ANSWER, NULL, 500, 0, 1},
        {PASS, NULL, 120, UNFTP_TO_GREETING, 1},
        {ANSWER, NULL, 500, 0, 1},
        {PASS, NULL, 220, UNFTP_TO_GREETING, 1},
        /* another reply would have to follow */
        {ANSWER, NULL, 100, 0, 1},
        {ANSWER, NULL, 199, 0, 1},
        {ANSWER, NULL, 500, 1, 0},
        {ANSWER, NULL, 500, 0, 0},
        {TAKE, NULL, 0, 1, 1},
        {SEND, "NOOP", 0, UNFTP_NO_LINE, 1},
        {SEND, "RETR a\r\n", 0, UNFTP_DONE, 0},
        {TAKE, NULL, 0, 1, 1},
        {ANSWER, NULL, 200, 0, 1},
        {PASS, NULL, 150, UNFTP_TO_COMMAND, 1},
        {ANSWER, NULL, 200, 0, 1},
        /* a reply that is held back is owed */
        {PEEK, NULL, 226, UNFTP_TO_COMMAND, 1},
        {ANSWER, NULL, 200, 0, 1},
        {PASS, NULL, 226, UNFTP_TO_COMMAND, 1},
        {ANSWER, NULL, 200, 1, 0},
        /* a line that is sent where none is taken is taken by that */
        {SEND, "NOOP\r\n", 0, UNFTP_DONE, 0},
        {ANSWER, NULL, 200, 0, 0},
        {TAKE, NULL, 0, 1, 1},
        {SEND, "AUTH TLS\r\n", 0, UNFTP_DONE, 0},
        /* what comes after AUTH may be no line */
        {TAKE, NULL, 0, 0, 0},
        {PASS, NULL, 200, UNFTP_TO_COMMAND, 0},
        {TAKE, NULL, 0, 0, 0},
        {PASS, NULL, 534, UNFTP_TO_COMMAND, 0},
        {TAKE, NULL, 0, 1, 1},
        {PASS, NULL, 421, UNFTP_TO_NOTHING, 1},
        {ANSWER, NULL, 500, 1, 0},
    };
    struct unftp_client client = {0, 0, 0, 0, 0, 0, 0}, copy;

    wants(sizeof client == 40, "how large the struct of a client is");
    for (size_t at = 0; at < sizeof steps / sizeof steps[0]; at++) {
        const struct step *step = &steps[at];
        copy = client;
        wants(make_step(&copy, step) == step->returns, "what a call on a copy returns");
        if (step->call == PEEK)
            continue;
        wants((step->call != TAKE && step->call != ANSWER) || step->returns != 0
                  || are_same_clients(copy, client),
              "a call that is refused changes nothing");
        wants(make_step(&client, step) == step->returns, "what a proxy's call returns");
        wants(client.taken == step->taken, "whether a line is taken");
    }
}

/* The lines that are clear. */
static void check_clear(void)
{
    static const struct {
        const char *line;
        size_t len;
        uint32_t is_clear;
    } lines[] = {
        {"SITE CHMOD 777 a\r\n", 18, 1}, {"retr a\tb\r\n", 10, 1}, {"A\r\n", 3, 1},
        {"RETR \xc3\xa9\r\n", 9, 1},     {"TYPE A\rSITE x\r\n", 15, 0}, {"NOOP\rSITE x\r\n", 13, 0},
        {"RETR a\r\0b\r\n", 11, 0},     {"RETR a\0b\r\n", 10, 0},     {"CWD \xff\xf4\r\n", 8, 0},
        {"DELE\tb\r\n", 8, 0},          {" DELE b\r\n", 9, 0},         {"FOO_BAR x\r\n", 11, 0},
        {"NOOP\n", 5, 0},               {"NOOP", 4, 0},                 {"NOOP\r", 5, 0},
        {"\r\n", 2, 0},                 {"", 0, 0},                     {"NOOP\r\nQUIT\r\n", 12, 0},
    };

    for (size_t at = 0; at < sizeof lines / sizeof lines[0]; at++)
        wants(unftp_is_clear(lines[at].line, lines[at].len) == lines[at].is_clear,
              "whether a line is clear");
}

/* What is not noted changes nothing: no line, more than one, and one more than 64 bits count. */
static void check_not_noted(void)
{
    static const char *const lines[] = {"", "NOOP", "NOOP\r", "NOOP\r\nQUIT\r\n", "\nNOOP\r\n"};
    const struct unftp_client kept = {7, 5, 3, 1, 1, 1, 1}, full = {UINT64_MAX, 5, 3, 1, 1, 1, 1};
    struct unftp_client client = kept;
    uint64_t place = 1;

    for (size_t at = 0; at < sizeof lines / sizeof lines[0]; at++) {
        place = 1;
        wants(unftp_client_line(&client, lines[at], strlen(lines[at]), &place) == UNFTP_NO_LINE
                  && place == 0 && are_same_clients(client, kept),
              "what is not one line is not noted");
    }
    client = full;
    place = 1;
    wants(unftp_client_line(&client, "NOOP\r\n", 6, &place) == UNFTP_INVALID_ARGUMENT && place == 0
              && are_same_clients(client, full),
          "a line is not noted after 2^64 - 1");
    wants(unftp_client_owed(&client) == UINT64_MAX - 5, "how many replies are owed then");
    client.sent--;
    wants(unftp_client_line(&client, "NOOP\r\n", 6, &place) == UNFTP_DONE
              && place == UINT64_MAX - 1 && client.sent == UINT64_MAX,
          "a line is noted after 2^64 - 2");
}

/* The accounts answer only where they are asked, and once. */
static void check_answer(struct unftp_login *login, const struct event *event)
{
    bool asked = event->step == UNFTP_LOGIN_ASK_ACCOUNTS;
    uint32_t stage = login->stage;

    wants(unftp_login_answer(login, event->says == ACCEPT ? 2 : 0)
              == (asked ? UNFTP_DONE : UNFTP_INVALID_ARGUMENT),
          "whether the accounts were asked");
    wants(asked || login->stage == stage, "what they are not asked changes nothing");
    stage = login->stage;
    wants(unftp_login_answer(login, 1) == UNFTP_INVALID_ARGUMENT && login->stage == stage,
          "the accounts answer once");
}

/* Each step; what a late answer is; and that USER and AUTH flush the login. */
static void check_login(void)
{
    static const struct event events[] = {
        {UNFTP_RETR, UNFTP_LOGIN_NEED_LOGIN, ACCEPT, 0},
        {UNFTP_PASS, UNFTP_LOGIN_NEED_NAME, ACCEPT, 0},
        {UNFTP_NOOP, UNFTP_LOGIN_PASS_ON, ACCEPT, 0},
        {UNFTP_USER, UNFTP_LOGIN_NEED_PASSWORD, ACCEPT, 1},
        {UNFTP_RETR, UNFTP_LOGIN_NEED_LOGIN, ACCEPT, 1},
        {UNFTP_PASS, UNFTP_LOGIN_ASK_ACCOUNTS, REFUSE, 0},
        {UNFTP_PASS, UNFTP_LOGIN_NEED_NAME, REFUSE, 0},
        {UNFTP_USER, UNFTP_LOGIN_NEED_PASSWORD, REFUSE, 1},
        {UNFTP_PASS, UNFTP_LOGIN_ASK_ACCOUNTS, SILENT, 3},
        {UNFTP_FEAT, UNFTP_LOGIN_PASS_ON, ACCEPT, 0},
        {UNFTP_USER, UNFTP_LOGIN_NEED_PASSWORD, REFUSE, 1},
        {UNFTP_PASS, UNFTP_LOGIN_ASK_ACCOUNTS, SILENT, 3},
        {UNFTP_PASS, UNFTP_LOGIN_NEED_NAME, ACCEPT, 0},
        {UNFTP_USER, UNFTP_LOGIN_NEED_PASSWORD, REFUSE, 1},
        {UNFTP_PASS, UNFTP_LOGIN_ASK_ACCOUNTS, ACCEPT, 2},
        {UNFTP_RETR, UNFTP_LOGIN_PASS_ON, REFUSE, 2},
        {UNFTP_PASS, UNFTP_LOGIN_NEED_NAME, REFUSE, 2},
        {UNFTP_AUTH, UNFTP_LOGIN_PASS_ON, ACCEPT, 0},
        {UNFTP_RETR, UNFTP_LOGIN_NEED_LOGIN, ACCEPT, 0},
        {UNFTP_USER, UNFTP_LOGIN_NEED_PASSWORD, SILENT, 1},
        {UNFTP_AUTH, UNFTP_LOGIN_PASS_ON, ACCEPT, 0},
        {UNFTP_PASS, UNFTP_LOGIN_NEED_NAME, ACCEPT, 0},
        {UNFTP_USER, UNFTP_LOGIN_NEED_PASSWORD, SILENT, 1},
        {UNFTP_PASS, UNFTP_LOGIN_ASK_ACCOUNTS, ACCEPT, 2},
        {UNFTP_USER, UNFTP_LOGIN_NEED_PASSWORD, ACCEPT, 1},
        {UNFTP_RETR, UNFTP_LOGIN_NEED_LOGIN, ACCEPT, 1},
    };
    struct unftp_login login = {0};

    for (size_t at = 0; at < sizeof events / sizeof events[0]; at++) {
        wants(unftp_login_event(&login, events[at].number) == events[at].step, "a login's step");
        if (events[at].says != SILENT)
            check_answer(&login, &events[at]);
        wants(login.stage == events[at].stage, "a login's stage");
    }
}

/* Whether a command needs no login; what is no command needs none either. */
static bool is_open(uint32_t number)
{
    switch (number) {
    case UNFTP_QUIT: case UNFTP_AUTH: case UNFTP_PBSZ: case UNFTP_PROT: case UNFTP_FEAT:
    case UNFTP_HELP: case UNFTP_NOOP: case UNFTP_SYST:
        return true;
    default:
        return number > UNFTP_OTHER;
    }
}

/* One event at each stage, of which 4 is as no name. No other than USER, PASS and AUTH changes a
   name or a login. */
static void check_event(uint32_t number)
{
    for (uint32_t stage = 0; stage <= 4; stage++) {
        struct unftp_login login = {stage};
        bool passes = stage == 2 || is_open(number);
        if (number == UNFTP_USER || number == UNFTP_PASS)
            continue;
        wants(unftp_login_event(&login, number)
                  == (passes ? UNFTP_LOGIN_PASS_ON : UNFTP_LOGIN_NEED_LOGIN),
              "which events need a login");
        wants(number == UNFTP_AUTH || (stage != 1 && stage != 2) || login.stage == stage,
              "what keeps a name or a login");
    }
}

static void check_events(void)
{
    for (uint32_t number = UNFTP_USER; number <= UNFTP_OTHER; number++)
        check_event(number);
    for (uint32_t number = UNFTP_INVALID_COMMAND; number <= UNFTP_LINE_TOO_LONG; number++)
        check_event(number);
}

/* How many bytes the host of a form has at most: that of EPRT may have four, too. */
static size_t host_len(uint32_t form)
{
    switch (form) {
    case UNFTP_ADDRESS_EPRT: return 16;
    case UNFTP_ADDRESS_229: return 0;
    default: return 4;
    }
}

static bool has_host(uint32_t form, size_t len)
{
    return len == host_len(form) || (form == UNFTP_ADDRESS_EPRT && len == 4);
}

/* Reads an address where so many bytes of room are too few, or the text has none. */
static void read_nothing(uint32_t form, struct bytes text, size_t room, struct read wanted)
{
    struct bytes host = area_of(room);
    struct unftp_address address;

    wants(unftp_read_address(form, text.at, text.len, host.at, room, &address) == wanted.result
              && address.ip_len == wanted.address.ip_len && address.port == wanted.address.port
              && is_filling(host),
          "a text without an address, or a host without room, changes no byte");
    free_area(host);
}

/* Reads an address with more room than its host needs. */
static void read_into_more(uint32_t form, struct bytes text, struct read wanted)
{
    struct bytes host = area_of(wanted.address.ip_len + 3), rest = {host.at + host.len - 3, 3};
    struct unftp_address address;

    wants(unftp_read_address(form, text.at, text.len, host.at, host.len, &address) == UNFTP_DONE
              && address.ip_len == wanted.address.ip_len && address.port == wanted.address.port
              && memcmp(host.at, wanted.host.at, address.ip_len) == 0 && is_filling(rest),
          "a host is at the start of its area, and no byte after it changes");
    free_area(host);
}

/* Reads an address with just enough room. */
static struct read read_address(uint32_t form, struct bytes text)
{
    struct read read;

    read.host = area_of(0);
    read.result = unftp_read_address(form, text.at, text.len, read.host.at, 0, &read.address);
    if (read.result == UNFTP_NO_ROOM) {
        wants(read.address.ip_len > 0, "a host that needs no room has it");
        read_nothing(form, text, read.address.ip_len - 1, read);
        free_area(read.host);
        read.host = area_of(read.address.ip_len);
        read.result = unftp_read_address(form, text.at, text.len, read.host.at, read.host.len,
                                         &read.address);
        wants(read.result == UNFTP_DONE && read.host.len == read.address.ip_len,
              "a host has just enough room");
    }
    if (read.result == UNFTP_DONE) {
        wants(has_host(form, read.address.ip_len) && read.address.port <= UINT16_MAX,
              "an address has the host of its form, and a port");
        read_into_more(form, text, read);
    } else {
        wants(read.result == UNFTP_NO_ADDRESS
                  || (read.result == UNFTP_UNKNOWN_PROTOCOL && form == UNFTP_ADDRESS_EPRT),
              "why a text has no address");
        wants(read.address.ip_len == 0 && read.address.port == 0, "no address, and no port");
        read_nothing(form, text, 16, read);
    }
    return read;
}

/* Writes an address with just enough room. */
static struct bytes written_address(uint32_t form, struct bytes host, uint32_t port)
{
    struct bytes none = area_of(0), less, out;
    size_t room, again;

    wants(unftp_write_address(form, host.at, host.len, port, none.at, 0, &room) == UNFTP_NO_ROOM
              && room > 0 && room <= LONGEST_ADDRESS,
          "an address needs no more room than the header says");
    free_area(none);
    less = area_of(room - 1);
    wants(unftp_write_address(form, host.at, host.len, port, less.at, room - 1, &again)
                  == UNFTP_NO_ROOM
              && again == room && is_filling(less),
          "an address needs this room");
    free_area(less);
    out = area_of(room);
    wants(unftp_write_address(form, host.at, host.len, port, out.at, room, &again) == UNFTP_DONE
              && again == room,
          "an address has just enough room");
    return out;
}

/* An address is written for each form that has such a host, and read back; a 229 has any. */
static void check_read_back(struct bytes host, uint32_t port)
{
    for (uint32_t form = 0; form <= UNFTP_ADDRESS_229; form++) {
        struct bytes text;
        struct read read;
        if (form != UNFTP_ADDRESS_229 && !has_host(form, host.len))
            continue;
        text = written_address(form, host, port);
        read = read_address(form, text);
        wants(read.result == UNFTP_DONE && read.address.port == port
                  && read.address.ip_len == (form == UNFTP_ADDRESS_229 ? 0 : host.len)
                  && memcmp(read.host.at, host.at, read.address.ip_len) == 0,
              "what is written is read back");
        free_area(read.host);
        free_area(text);
    }
}

/* Reads an input in each form. */
static void check_addresses(struct bytes input)
{
    for (uint32_t form = 0; form <= UNFTP_ADDRESS_229; form++) {
        struct read read = read_address(form, input);
        if (read.result == UNFTP_DONE) {
            check_read_back(read.host, read.address.port);
            addresses++;
        }
        free_area(read.host);
    }
}

/* What is written at the bounds, of which one is the longest: each byte of a host is the same. */
static void check_bounds(void)
{
    static const struct {
        uint32_t form;
        int byte;
        size_t len;
        uint32_t port;
        const char *text;
    } bounds[] = {
        {UNFTP_ADDRESS_PORT, 0, 4, 0, "0,0,0,0,0,0"},
        {UNFTP_ADDRESS_PORT, 255, 4, 65535, "255,255,255,255,255,255"},
        {UNFTP_ADDRESS_227, 0, 4, 255, "0,0,0,0,0,255"},
        {UNFTP_ADDRESS_227, 255, 4, 256, "255,255,255,255,1,0"},
        {UNFTP_ADDRESS_EPRT, 0, 4, 0, "|1|0.0.0.0|0|"},
        {UNFTP_ADDRESS_EPRT, 255, 4, 65535, "|1|255.255.255.255|65535|"},
        {UNFTP_ADDRESS_EPRT, 0, 16, 0, "|2|::|0|"},
        {UNFTP_ADDRESS_EPRT, 255, 16, 65535, "|2|ffff:ffff:ffff:ffff:ffff:ffff:ffff:ffff|65535|"},
        {UNFTP_ADDRESS_229, 0, 0, 0, "(|||0|)"},
        {UNFTP_ADDRESS_229, 255, 17, 65535, "(|||65535|)"},
    };
    size_t longest = 0;

    for (size_t at = 0; at < sizeof bounds / sizeof bounds[0]; at++) {
        struct bytes host = area_of(bounds[at].len), text;
        memset(host.at, bounds[at].byte, host.len);
        text = written_address(bounds[at].form, host, bounds[at].port);
        wants(is_text(text, bounds[at].text), bounds[at].text);
        check_read_back(host, bounds[at].port);
        longest = text.len > longest ? text.len : longest;
        free_area(text);
        free_area(host);
    }
    wants(longest == LONGEST_ADDRESS, "the longest address needs the room that the header says");
}

/* Nothing is written for an address that its form can't have. */
static void check_not_written(uint32_t form, size_t len, uint32_t port)
{
    struct bytes host = area_of(len), out = area_of(LONGEST_ADDRESS);
    size_t written = 1;

    wants(unftp_write_address(form, host.at, len, port, out.at, out.len, &written)
                  == UNFTP_INVALID_ARGUMENT
              && written == 0 && is_filling(out),
          "no such form, length or port");
    free_area(out);
    free_area(host);
}

/* Forms, lengths and ports that no address has. */
static void check_address_arguments(void)
{
    static const uint32_t forms[] = {4, 5, 227, 229, 256, UINT32_MAX},
                          ports[] = {65536, 131071, UINT32_MAX};
    const struct read invalid = {UNFTP_INVALID_ARGUMENT, {0, 0}, {NULL, 0}};
    struct bytes text = area_of(3);

    for (size_t at = 0; at < sizeof forms / sizeof forms[0]; at++) {
        read_nothing(forms[at], text, 0, invalid);
        read_nothing(forms[at], text, 16, invalid);
        check_not_written(forms[at], 4, 1);
    }
    for (uint32_t form = 0; form < UNFTP_ADDRESS_229; form++) {
        for (size_t len = 0; len <= 32; len++) {
            if (!has_host(form, len))
                check_not_written(form, len, 1);
        }
    }
    for (size_t at = 0; at < sizeof ports / sizeof ports[0]; at++) {
        for (uint32_t form = 0; form <= UNFTP_ADDRESS_229; form++)
            check_not_written(form, host_len(form), ports[at]);
    }
    free_area(text);
}

/* What lines of a file show at a time: that of LIST has the date as ls of coreutils has it. */
struct listed {
    struct unftp_file file;
    int64_t now;
    const char *name, *list, *facts;
};

/* The line of a file with this name, in LIST or else in MLSD. */
static enum unftp_result file_line(bool is_list, const struct unftp_file *file, int64_t now,
                                   struct bytes name, struct bytes out, size_t *len)
{
    return is_list ? unftp_list_line(file, now, name.at, name.len, out.at, out.len, len)
                   : unftp_facts_line(file, name.at, name.len, out.at, out.len, len);
}

/* Writes the line of a file with just enough room. */
static struct bytes written_line(bool is_list, const struct unftp_file *file, int64_t now,
                                 struct bytes name)
{
    struct bytes none = area_of(0), less, out;
    size_t room, again;

    wants(file_line(is_list, file, now, name, none, &room) == UNFTP_NO_ROOM
              && room <= name.len + (is_list ? LONGEST_LIST : LONGEST_FACTS),
          "the line of a file needs no more room than the header says");
    free_area(none);
    less = area_of(room - 1);
    wants(file_line(is_list, file, now, name, less, &again) == UNFTP_NO_ROOM && again == room
              && is_filling(less),
          "the line of a file needs this room");
    free_area(less);
    out = area_of(room);
    wants(file_line(is_list, file, now, name, out, &again) == UNFTP_DONE && again == room,
          "the line of a file has just enough room");
    return out;
}

/* Nothing is written of what can't be told. */
static void check_no_line(bool is_list, struct unftp_file file, int64_t now, struct bytes name)
{
    struct bytes out = area_of(name.len + LONGEST_FACTS);
    size_t len = 1;

    wants(file_line(is_list, &file, now, name, out, &len) == UNFTP_INVALID_ARGUMENT && len == 0
              && is_filling(out),
          "no such kind, time or name");
    free_area(out);
}

static struct bytes copied(const char *text)
{
    struct bytes copy = area_of(strlen(text));
    memcpy(copy.at, text, copy.len);
    return copy;
}

/* Lines of files, with each kind, each column at its bound and each form of the date. */
static void check_file_lines(void)
{
    const int64_t noon = 1701432000, half_a_year = 182 * 86400, last = 253402207200;
    const struct listed rows[] = {
        {{1234, noon, 1, UNFTP_KIND_FILE, 0100644, 1, 0, 0}, noon, "a.txt",
         "-rw-r--r--   1 ftp      ftp              1234 Dec  1 12:00 a.txt\r\n",
         "type=file;size=1234;modify=20231201120000; a.txt\r\n"},
        {{4096, noon, 1, UNFTP_KIND_DIRECTORY, 0755, 12, 1000, 100}, noon + half_a_year - 1, " d",
         "drwxr-xr-x  12 1000     100              4096 Dec  1 12:00  d\r\n",
         "type=dir;size=4096;modify=20231201120000;unix.uid=1000;unix.gid=100;  d\r\n"},
        {{0, noon, 1, UNFTP_KIND_LINK, 0120777, 1, 0, 1}, noon + half_a_year, "l -> a",
         "lrwxrwxrwx   1 ftp      1                   0 Dec  1  2023 l -> a\r\n",
         "type=OS.unix=symlink;size=0;modify=20231201120000;unix.gid=1; l -> a\r\n"},
        {{0, noon, 1, UNFTP_KIND_PIPE, 04751, 1, 1, 0}, noon - 1, "p",
         "prwxr-x--x   1 1        ftp                 0 Dec  1  2023 p\r\n",
         "type=OS.unix=pipe;size=0;modify=20231201120000;unix.uid=1; p\r\n"},
        /* the leap day, and the time of RFC 3659, section 3.4, that is a value of MDTM */
        {{999999999999, 1709164800, 1, UNFTP_KIND_SOCKET, 0, 999, 0, 0}, noon + half_a_year, "s",
         "s--------- 999 ftp      ftp      999999999999 Feb 29 00:00 s\r\n",
         "type=OS.unix=socket;size=999999999999;modify=20240229000000; s\r\n"},
        {{1000000000000, 938565235, 1, UNFTP_KIND_CHARACTER_DEVICE, 0222, 1000, 99999999, 100000000},
         noon, "c",
         "c-w--w--w- 1000 99999999 100000000 1000000000000 Sep 29  1999 c\r\n",
         "type=OS.unix=chr;size=1000000000000;modify=19990929003355;unix.uid=99999999;"
         "unix.gid=100000000; c\r\n"},
        {{0, 0, 0, UNFTP_KIND_BLOCK_DEVICE, 0111, 0, 0, 0}, noon, "",
         "b--x--x--x   0 ftp      ftp                 0 Jan  1  1970 \r\n",
         "type=OS.unix=blk;size=0; \r\n"},
        {{0, -377705023201, 1, UNFTP_KIND_FILE, 0444, 1, 0, 0}, -377705023201, "\t\xff",
         "-r--r--r--   1 ftp      ftp                 0 Jan  2 01:59 \t\xff\r\n",
         "type=file;size=0; \t\xff\r\n"},
        {{0, -377705023201, 1, UNFTP_KIND_FILE, 0444, 1, 0, 0}, last, "a",
         "-r--r--r--   1 ftp      ftp                 0 Jan  2  0000 a\r\n",
         "type=file;size=0; a\r\n"},
        {{UINT64_MAX, 253402207200, 1, UNFTP_KIND_LINK, UINT32_MAX, UINT32_MAX, UINT32_MAX,
          UINT32_MAX},
         0, "a",
         "lrwxrwxrwx 4294967295 4294967295 4294967295 18446744073709551615 Dec 30  9999 a\r\n",
         "type=OS.unix=symlink;size=18446744073709551615;modify=99991230220000;"
         "unix.uid=4294967295;unix.gid=4294967295; a\r\n"},
    };

    for (size_t at = 0; at < sizeof rows / sizeof rows[0]; at++) {
        struct bytes name = copied(rows[at].name);
        struct bytes list = written_line(true, &rows[at].file, rows[at].now, name);
        struct bytes facts = written_line(false, &rows[at].file, rows[at].now, name);
        wants(is_text(list, rows[at].list), rows[at].list);
        wants(is_text(facts, rows[at].facts), rows[at].facts);
        free_area(facts);
        free_area(list);
        free_area(name);
    }
}

/* Kinds, times and names that no line has; a time that is not known is not read. */
static void check_file_arguments(void)
{
    const struct unftp_file file = {0, 0, 1, UNFTP_KIND_FILE, 0, 1, 0, 0};
    const int64_t times[] = {INT64_MIN, -377705023202, 253402207201, INT64_MAX};
    const uint32_t kinds[] = {7, 256, UINT32_MAX};
    struct bytes name = copied("a");
    struct unftp_file wrong;

    for (size_t at = 0; at < sizeof times / sizeof times[0]; at++) {
        wrong = file;
        wrong.modified = times[at];
        check_no_line(true, wrong, 0, name);
        check_no_line(false, wrong, 0, name);
        check_no_line(true, file, times[at], name);
        wrong.has_modified = 0;
        free_area(written_line(true, &wrong, 0, name));
        free_area(written_line(false, &wrong, 0, name));
    }
    for (size_t at = 0; at < sizeof kinds / sizeof kinds[0]; at++) {
        wrong = file;
        wrong.kind = kinds[at];
        check_no_line(true, wrong, 0, name);
        check_no_line(false, wrong, 0, name);
    }
    free_area(name);
}

/* An input is the name of a file, unless it has a CR or a line feed. */
static void check_file_name(struct bytes name)
{
    const struct unftp_file file = {0, 0, 1, UNFTP_KIND_FILE, 0, 1, 0, 0};

    for (int is_list = 0; is_list < 2; is_list++) {
        struct bytes line;
        if (memchr(name.at, '\r', name.len) != NULL || memchr(name.at, '\n', name.len) != NULL) {
            check_no_line(is_list, file, 0, name);
            continue;
        }
        line = written_line(is_list, &file, 0, name);
        wants(line.len > name.len + 2 && memcmp(line.at + line.len - 2, "\r\n", 2) == 0
                  && memcmp(line.at + line.len - 2 - name.len, name.at, name.len) == 0,
              "a line ends in the name");
        free_area(line);
    }
}

/* What no call leaves, and no code. */
static void check_arguments(void)
{
    const struct unftp_connection wrong[] = {{0, 7, 0}, {0, 1, 1}, {0, 0, 2}, {0, 0, 256}};
    const char bytes[] = "NOOP\r\n";
    struct bytes area = area_of(sizeof bytes);
    struct unftp_line line;
    size_t len;

    for (size_t at = 0; at < sizeof wrong / sizeof wrong[0]; at++) {
        struct unftp_connection connection = wrong[at];
        enum unftp_result result =
            unftp_next(&connection, bytes, sizeof bytes - 1, area.at, area.len, &line);
        wants(result == UNFTP_INVALID_ARGUMENT, "an invalid argument");
        wants(are_same(connection, wrong[at]) && is_filling(area), "what it leaves as it was");
        wants(line.used == 0 && has_lengths(line, 0, 0, 0), "what it reports");
    }
    wants(unftp_reply(99, "", 0, area.at, area.len, &len) == UNFTP_UNKNOWN_CODE && len == 0
              && unftp_reply(600, "", 0, area.at, area.len, &len) == UNFTP_UNKNOWN_CODE && len == 0
              && is_filling(area),
          "99 and 600");
    wants(unftp_reply(100, "", 0, area.at, area.len, &len) == UNFTP_DONE && len == 5
              && memcmp(area.at, "100\r\n", 5) == 0,
          "100");
    free_area(area);
}

/* The next input; false at the end. */
static bool read_input(struct bytes *input)
{
    unsigned char len[4];

    if (fread(len, 1, sizeof len, stdin) != sizeof len)
        return false;
    *input = area_of((size_t)len[0] | (size_t)len[1] << 8 | (size_t)len[2] << 16
                     | (size_t)len[3] << 24);
    return fread(input->at, 1, input->len, stdin) == input->len;
}

int main(void)
{
    struct bytes input = {"", 0};

    current = &input;
    check_arguments();
    check_texts();
    check_usual_replies();
    check_places();
    check_log_lines();
    check_replies();
    check_searches();
    check_tls();
    check_order();
    check_clear();
    check_not_noted();
    check_login();
    check_events();
    check_bounds();
    check_address_arguments();
    check_file_lines();
    check_file_arguments();
    while (read_input(&input)) {
        inputs++;
        check_lines(input);
        check_reply(input);
        check_quoted(input);
        check_addresses(input);
        check_file_name(input);
        check_exchange(input);
        free_area(input);
    }
    printf("%lu inputs: %lu commands, %lu refused lines, %lu replies, %lu addresses\n", inputs,
           commands, refused, replies, addresses);
    return EXIT_SUCCESS;
}
