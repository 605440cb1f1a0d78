/*
 * The control protocol layer of an FTP server, for C and C++: lines of a control connection become
 * commands or refusals, and replies become bytes (RFC 959).
 *
 * Each call is one step over memory of the caller's. Nothing is kept between two calls but what the
 * caller passes in again, so calls on different memory may be made by different threads at a time.
 *
 * Of every call:
 * - No pointer may be null, also where the length beside it is 0. What a call writes may overlap
 *   nothing else that it is given; an area of no bytes overlaps nothing.
 * - A pointer with a length is to so many bytes. Texts are not ended by a NUL, and may hold any
 *   byte.
 * - Areas, lengths and structs that are only written need not be set before. Each length is 0 where
 *   its comment doesn't say what it is.
 * - Memory is allocated by malloc, and freed before the call returns. So no call may be made from a
 *   signal handler, nor in the forked child of a process with threads. Passwords are not wiped.
 * - Where a call has no room or no memory, the caller may call again with the same bytes.
 * - A call takes at most 8,192 bytes of stack, with what malloc of the GNU C library takes, and the
 *   dynamic linker where it is the first.
 *
 * What each call reads and writes of its arguments, and what memory it asks for. `none`: it never
 * returns UNFTP_OUT_OF_MEMORY. `some`: it may. A number is how many bytes it holds at most, where
 * it reads n bytes and writes *len: this is measured, and not proved.
 *
 *     call                         reads               writes                   memory
 *     unftp_next                   connection, bytes   connection, area, line   some, for few lines
 *     unftp_parameter              line                out, len                 none
 *     unftp_list_path              line                out, len                 none
 *     unftp_reply                  code, text          out, len                 none
 *     unftp_quoted_path            path                out, len                 none
 *     unftp_usual_reply            event, value        out, len                 none
 *     unftp_front_reply            bytes               reply                    none
 *     unftp_next_reply             search, bytes       search, reply            none
 *     unftp_next_reply_line        bytes, line         line                     none
 *     unftp_reply_lines            bytes               out, len                 40 n + 100
 *     unftp_canonical              line                out, len                 some
 *     unftp_forward                line                out, len, clear          none
 *     unftp_is_clear               line                nothing                  none
 *     unftp_log_line               number, line        out, len, hides          3 *len + 32
 *     unftp_log_exchange           shown, replies      out, len                 40 n + 100
 *     unftp_client_line            client, line        client, place            none
 *     unftp_client_reply           client, code        client, place            none
 *     unftp_client_take            client              client                   none
 *     unftp_client_answer          client, code        client                   none
 *     unftp_client_owed            client              nothing                  none
 *     unftp_client_may_begin_tls   client, pending     nothing                  none
 *     unftp_login_event            login, event        login                    none
 *     unftp_login_answer           login, accepted     login                    none
 *     unftp_login_reply            step, accepted      out, len                 none
 *     unftp_read_address           form, text          ip, address              none
 *     unftp_write_address          form, ip, port      out, len                 some
 *     unftp_facts_line             file, name          out, len                 3 *len + 300
 *     unftp_list_line              file, now, name     out, len                 3 *len + 300
 *     unftp_version                nothing             nothing                  none
 *
 * What the library's functions return and write is proved, and so are the bounds on lengths, but
 * where a comment says that one is measured; how much stack a call takes, and that this header
 * matches the library, are tested.
 */
#ifndef UNFTP_CONTROL_H
#define UNFTP_CONTROL_H

#include <stddef.h>
#include <stdint.h>

#ifdef __cplusplus
extern "C" {
#endif

/* The version that this header is of: major * 1,000,000 + minor * 1,000 + patch. */
#define UNFTP_VERSION_MAJOR 0
#define UNFTP_VERSION_MINOR 4
#define UNFTP_VERSION_PATCH 0
#define UNFTP_VERSION \
    (UNFTP_VERSION_MAJOR * 1000000 + UNFTP_VERSION_MINOR * 1000 + UNFTP_VERSION_PATCH)

#if defined(__GNUC__)
#define UNFTP_NONNULL __attribute__((nonnull))
#else
#define UNFTP_NONNULL
#endif

/* What a call returns. */
enum unftp_result {
    /* It has done what was asked. */
    UNFTP_DONE = 0,

    /* A command, of unftp_next only. XCWD, XMKD, XPWD and BYE are CWD, MKD, PWD and QUIT. The
       comment beside each names its value. A value in brackets may be absent: its length is then 0.
       A command without a comment takes no parameter: a line that has one is refused, and so is
       ABOR with Telnet's bytes before it. */
    /* numbers: made by tools/gate/verbs of FtpCommand.antt */
    UNFTP_USER = 1,    /* [name], any bytes */
    UNFTP_PASS = 2,    /* [password], any bytes */
    UNFTP_ACCT = 3,    /* [account], any bytes */
    UNFTP_SYST = 4,    /* no value: its parameter is ignored */
    UNFTP_STAT = 5,    /* [path], any bytes */
    UNFTP_TYPE = 6,    /* no value: its parameter is ignored */
    UNFTP_STRU = 7,    /* F, R or P, in upper case only */
    UNFTP_MODE = 8,    /* S, B or C, in upper case only */
    UNFTP_HELP = 9,    /* no value: its parameter is ignored */
    UNFTP_NOOP = 10,
    UNFTP_PASV = 11,
    UNFTP_EPSV = 12,   /* no value: its parameter is ignored */
    UNFTP_PORT = 13,   /* address */
    UNFTP_RETR = 14,   /* path */
    UNFTP_STOR = 15,   /* path */
    UNFTP_APPE = 16,   /* path */
    UNFTP_LIST = 17,   /* [path], without options */
    UNFTP_NLST = 18,   /* [path] */
    UNFTP_MLST = 19,   /* [path] */
    UNFTP_MLSD = 20,   /* [path] */
    UNFTP_FEAT = 21,
    UNFTP_PWD = 22,
    UNFTP_CWD = 23,    /* path */
    UNFTP_CDUP = 24,
    UNFTP_OPTS = 25,   /* UTF8 ON or UTF8 OFF; the line may have it all in lower case */
    UNFTP_DELE = 26,   /* path */
    UNFTP_RMD = 27,    /* path */
    UNFTP_QUIT = 28,
    UNFTP_MKD = 29,    /* path */
    UNFTP_ALLO = 30,   /* no value: its parameter is ignored */
    UNFTP_ABOR = 31,
    UNFTP_STOU = 32,
    UNFTP_RNFR = 33,   /* path */
    UNFTP_RNTO = 34,   /* path */
    UNFTP_AUTH = 35,   /* TLS or SSL; the line may have it in letters of any case */
    UNFTP_CCC = 36,
    UNFTP_PBSZ = 37,   /* 0 */
    UNFTP_PROT = 38,   /* C, S, E or P, in upper case only */
    UNFTP_SIZE = 39,   /* path */
    UNFTP_REST = 40,   /* decimal digits of a number below 2^64; the line may have + before them */
    UNFTP_MDTM = 41,   /* path */
    UNFTP_MD5 = 42,    /* path; SITE MD5 */
    UNFTP_SITE = 43,   /* [arguments]; its name is the subcommand */
    UNFTP_OTHER = 44,  /* [arguments]; its name is the line's verb, which is none of the above */
    /* end of numbers */

    /* More bytes are needed. */
    UNFTP_MORE = 101,
    /* The line is no command: its verb doesn't take this parameter. */
    UNFTP_INVALID_COMMAND = 102,
    /* The verb, the subcommand of SITE or AUTH's parameter is not UTF-8. */
    UNFTP_INVALID_UTF8 = 103,
    /* The line's end is not CR LF or LF; or a CR in its parameter, other than its first byte, is
       followed by neither LF nor NUL; or CR NUL is followed directly by LF. */
    UNFTP_INVALID_EOL = 104,
    /* The line is longer than the limit. */
    UNFTP_LINE_TOO_LONG = 105,
    /* An allocation failed. */
    UNFTP_OUT_OF_MEMORY = 106,
    /* The area is too small; the lengths say how large it has to be. */
    UNFTP_NO_ROOM = 107,
    /* No line whose one line feed is its last byte is read as this command; or, of unftp_forward,
       the bytes are no such line. */
    UNFTP_NO_LINE = 108,
    /* The first line, or the first after some replies, opens no reply. */
    UNFTP_MALFORMED = 109,
    /* No reply has this code: it is not from 100 to 599. */
    UNFTP_UNKNOWN_CODE = 110,
    /* No call leaves such a connection: its offset is past the bytes, or is not 0 while bytes are
       skipped, or skipping is greater than 1. Or no call leaves such a search: its line is past its
       offset, or that is past the bytes that a reply may have. Or a line of a reply would begin past
       the bytes; or 2^64 - 1 lines were noted; or the accounts were not asked; or an address has no
       such form, length or port; or a file no such kind, time or name; or what is shown of a line is
       not printable; or an event or a step has no reply. */
    UNFTP_INVALID_ARGUMENT = 111,
    /* The text has no such address. */
    UNFTP_NO_ADDRESS = 112,
    /* The address's protocol is neither IPv4 nor IPv6. */
    UNFTP_UNKNOWN_PROTOCOL = 113,
    /* As many bytes as a reply may have are only a part of one. */
    UNFTP_REPLY_TOO_LONG = 114
};

/* Codes of replies by name, those of RFC 959 (section 4.2.2) where no other RFC is named.
   unftp_reply takes any other number from 100 to 599 too. */
enum unftp_code {
    UNFTP_CODE_RESTART_MARKER = 110,
    UNFTP_CODE_IN_N_MINUTES = 120,
    UNFTP_CODE_CONNECTION_ALREADY_OPEN = 125,
    UNFTP_CODE_FILE_STATUS_OKAY = 150,
    UNFTP_CODE_COMMAND_OKAY = 200,
    UNFTP_CODE_COMMAND_OKAY_NOT_IMPLEMENTED = 202,
    UNFTP_CODE_SYSTEM_STATUS = 211,
    UNFTP_CODE_DIRECTORY_STATUS = 212,
    UNFTP_CODE_FILE_STATUS = 213,
    UNFTP_CODE_HELP_MESSAGE = 214,
    UNFTP_CODE_SYSTEM_TYPE = 215,
    UNFTP_CODE_SERVICE_READY = 220,
    UNFTP_CODE_CLOSING_CONTROL_CONNECTION = 221,
    UNFTP_CODE_DATA_CONNECTION_OPEN = 225,
    UNFTP_CODE_CLOSING_DATA_CONNECTION = 226,
    UNFTP_CODE_ENTERING_PASSIVE_MODE = 227,
    UNFTP_CODE_ENTERING_LONG_PASSIVE_MODE = 228, /* RFC 1639 */
    UNFTP_CODE_ENTERING_EXTENDED_PASSIVE_MODE = 229, /* RFC 2428 */
    UNFTP_CODE_USER_LOGGED_IN = 230,
    UNFTP_CODE_USER_LOGGED_IN_VIA_CERT = 232, /* RFC 2228 */
    UNFTP_CODE_AUTH_OKAY_NO_DATA_NEEDED = 234, /* RFC 2228 */
    UNFTP_CODE_SECURITY_DATA_EXCHANGE_COMPLETE = 235, /* RFC 2228 */
    UNFTP_CODE_FILE_ACTION_OKAY = 250,
    UNFTP_CODE_DIR_CREATED = 257,
    UNFTP_CODE_NEED_PASSWORD = 331,
    UNFTP_CODE_NEED_ACCOUNT = 332,
    UNFTP_CODE_AUTH_OKAY_DATA_NEEDED = 334, /* RFC 2228 */
    UNFTP_CODE_MORE_SECURITY_DATA_NEEDED = 335, /* RFC 2228 */
    UNFTP_CODE_NEED_PASSWORD_FOR_CHALLENGE = 336, /* RFC 2228 */
    UNFTP_CODE_FILE_ACTION_PENDING = 350,
    UNFTP_CODE_SERVICE_NOT_AVAILABLE = 421,
    UNFTP_CODE_CANT_OPEN_DATA_CONNECTION = 425,
    UNFTP_CODE_CONNECTION_CLOSED = 426,
    UNFTP_CODE_SECURITY_RESOURCE_UNAVAILABLE = 431, /* RFC 2228 */
    UNFTP_CODE_TRANSIENT_FILE_ERROR = 450,
    UNFTP_CODE_LOCAL_ERROR = 451,
    UNFTP_CODE_OUT_OF_SPACE = 452,
    UNFTP_CODE_COMMAND_SYNTAX_ERROR = 500,
    UNFTP_CODE_PARAMETER_SYNTAX_ERROR = 501,
    UNFTP_CODE_COMMAND_NOT_IMPLEMENTED = 502,
    UNFTP_CODE_BAD_COMMAND_SEQUENCE = 503,
    UNFTP_CODE_COMMAND_NOT_IMPLEMENTED_FOR_PARAMETER = 504,
    UNFTP_CODE_ADDRESS_FAMILY_NOT_SUPPORTED = 521, /* RFC 1639 */
    UNFTP_CODE_NETWORK_PROTOCOL_NOT_SUPPORTED = 522, /* RFC 2428 */
    UNFTP_CODE_NOT_LOGGED_IN = 530,
    UNFTP_CODE_NEED_ACCOUNT_TO_STORE = 532,
    UNFTP_CODE_RESP533 = 533, /* RFC 2228 */
    UNFTP_CODE_FTPS_REQUIRED = 534, /* RFC 2228 */
    UNFTP_CODE_FAILED_SECURITY_CHECK = 535, /* RFC 2228 */
    UNFTP_CODE_PROT_LEVEL_NOT_SUPPORTED = 536, /* RFC 2228 */
    UNFTP_CODE_COMMAND_PROTECTION_NOT_SUPPORTED = 537, /* RFC 2228 */
    UNFTP_CODE_FILE_ERROR = 550,
    UNFTP_CODE_PAGE_TYPE_UNKNOWN = 551,
    UNFTP_CODE_EXCEEDED_STORAGE_ALLOCATION = 552,
    UNFTP_CODE_BAD_FILE_NAME = 553
};

/* What a caller keeps of a connection, beside its pending bytes: those that were received and not
   used up. At the start of a connection all but the limit is 0, as in {4096, 0, 0}. A server that
   has sent 234 to AUTH drops its pending bytes and begins with a new struct, or ends the connection
   where bytes are pending: what came in clear text is never read under TLS (RFC 4217). */
struct unftp_connection {
    /* How many bytes a line may have, its line feed counted; 0 for any number. It may be changed
       between two calls; what is proved of a sequence of calls is for one limit. */
    size_t limit;
    /* Of unftp_next: how many of the pending bytes were scanned for a line feed. */
    size_t offset;
    /* Of unftp_next: 1 where the first line is too long and bytes of it were dropped, else 0. */
    uint32_t skipping;
};

/* What unftp_next has taken. */
struct unftp_line {
    /* How many bytes the caller drops from the front of the pending bytes before the next call,
       whatever the result: at UNFTP_MORE it is not 0 where the line is too long. The value may be
       among these bytes: use it before you drop them. */
    size_t used;
    /* How many bytes the name has, at the start of the area. Only UNFTP_SITE and UNFTP_OTHER have a
       name: the subcommand, or the line's verb. It may be empty: an empty line is UNFTP_OTHER.
       unftp_result_text returns the verb of each other command. */
    size_t name_len;
    /* How many bytes the value has. unftp_value returns where they are. */
    size_t value_len;
    /* Where the value begins in the pending bytes: it ends right before the line's end. 0 where the
       line has the value in another form: it follows the name in the area. 0 where it is empty. */
    size_t value_at;
};

/* What a client keeps of its search for replies, beside its pending bytes: those that were received
   and not dropped. At the start of a connection all but the limit is 0, as in {65536, 0, 0}. A
   client that drops bytes which unftp_next_reply has not found to be a reply, as it does before TLS
   begins, sets line and offset to 0. */
struct unftp_reply_search {
    /* How many bytes a reply may have, its line ends counted; 0 for any number. */
    size_t limit;
    /* Of unftp_next_reply: where the first line begins that is not passed. Those before it are lines
       of a reply that goes on after them. */
    size_t line;
    /* Of unftp_next_reply: how many of the pending bytes were scanned for a line feed. */
    size_t offset;
};

/* What unftp_next_reply or unftp_front_reply has found. */
struct unftp_found_reply {
    /* How many bytes the reply takes. */
    size_t used;
    /* Its code: any three digits, so 0 to 999. */
    uint32_t code;
};

/* Where a line of a reply is. Before the first line all is 0. */
struct unftp_reply_line {
    /* Where its text begins in the reply. */
    size_t text_at;
    /* How many bytes its text has. */
    size_t text_len;
    /* Where the next line begins; after the last one, where the reply ends. */
    size_t next;
};

/* What a client keeps of its dialogue with a server, beside the bytes. At the start all is 0. Under
   TLS the same struct goes on: the server sends no second greeting, for which a new one would
   wait. A call on a copy of the struct notes nothing, and returns what the call would return:
   whether unftp_client_take or unftp_client_answer is refused, and what the next reply is to. */
struct unftp_client {
    /* How many lines were noted. */
    uint64_t sent;
    /* How many of them have their final reply, where greeted is not 0. */
    uint64_t answered;
    /* The place of the last line that asks for TLS, where asks is not 0. */
    uint64_t asked;
    /* 0 until the greeting is complete: at its final reply, whatever its code, so at a 421 too. */
    uint32_t greeted;
    /* 0 until a line asks for TLS. */
    uint32_t asks;
    /* Not 0 where the last reply was a 234 to that line. */
    uint32_t agreed;
    /* Not 0 where a line of a proxy's own client is taken, and neither sent nor answered yet. */
    uint32_t taken;
};

/* What a reply is to. */
enum unftp_to {
    /* The connection: the server greets the client. */
    UNFTP_TO_GREETING = 0,
    /* A line that was noted. */
    UNFTP_TO_COMMAND = 1,
    /* Nothing: no reply was owed. A server may say 421 so before it closes the connection. */
    UNFTP_TO_NOTHING = 2
};

/* What a server keeps of a login, beside the last name that was given. At the start it is 0. */
struct unftp_login {
    /* 1 after a name, 2 after a login, 3 while the accounts are asked; else there is no name. */
    uint32_t stage;
};

/* What a server does with an event. */
enum unftp_login_step {
    /* It answers the event as it would without a login. */
    UNFTP_LOGIN_PASS_ON = 0,
    /* It keeps the name, and answers 331. */
    UNFTP_LOGIN_NEED_PASSWORD = 1,
    /* It asks its accounts whether this is the password of the name that it keeps, tells
       unftp_login_answer, and answers 230 or 530. */
    UNFTP_LOGIN_ASK_ACCOUNTS = 2,
    /* It answers 503: a name has to come before the password. */
    UNFTP_LOGIN_NEED_NAME = 3,
    /* It answers 530: the command needs a login. */
    UNFTP_LOGIN_NEED_LOGIN = 4
};

/* Where the address of a data connection is read from, or what it is written for (RFC 959, section
   4.1.2; RFC 2428). */
enum unftp_address_form {
    /* The value of PORT: 127,0,0,1,195,80 */
    UNFTP_ADDRESS_PORT = 0,
    /* The value of EPRT: |1|132.235.1.2|6275| or |2|::1|6275| */
    UNFTP_ADDRESS_EPRT = 1,
    /* The text of a reply 227, with or without brackets and other text around the six numbers. */
    UNFTP_ADDRESS_227 = 2,
    /* The text of a reply 229, a port only: (|||6446|) */
    UNFTP_ADDRESS_229 = 3
};

/* What unftp_read_address has read. */
struct unftp_address {
    /* How many bytes the host has: 4 of IPv4, 16 of IPv6, and 0 of a 229. */
    size_t ip_len;
    /* The port, below 65536. */
    uint32_t port;
};

/* What a file is, and how its lines say so: the letter in LIST, and the fact in MLSD. */
enum unftp_file_kind {
    UNFTP_KIND_FILE = 0,             /* -, type=file */
    UNFTP_KIND_DIRECTORY = 1,        /* d, type=dir */
    UNFTP_KIND_LINK = 2,             /* l, type=OS.unix=symlink */
    UNFTP_KIND_PIPE = 3,             /* p, type=OS.unix=pipe */
    UNFTP_KIND_SOCKET = 4,           /* s, type=OS.unix=socket */
    UNFTP_KIND_CHARACTER_DEVICE = 5, /* c, type=OS.unix=chr */
    UNFTP_KIND_BLOCK_DEVICE = 6      /* b, type=OS.unix=blk */
};

/* What a server tells of a file, besides its name. Set each of them: most are those of stat. */
struct unftp_file {
    /* How many bytes it has. */
    uint64_t size;
    /* When it was last modified, in seconds of the Unix epoch: not read where has_modified is 0. */
    int64_t modified;
    /* 0 where that is not known. */
    uint32_t has_modified;
    /* One of enum unftp_file_kind. */
    uint32_t kind;
    /* Its permissions: the nine low bits. The others are not shown, so st_mode can be passed. */
    uint32_t mode;
    /* How many names it has. */
    uint32_t links;
    /* The user and the group that it belongs to, or 0 where that is not told. */
    uint32_t uid;
    uint32_t gid;
};

/*
 * Takes the next line of the pending bytes (RFC 959, section 5.3). It returns
 * - the number of a command;
 * - UNFTP_INVALID_COMMAND, UNFTP_INVALID_UTF8, UNFTP_INVALID_EOL or UNFTP_LINE_TOO_LONG, where the
 *   line is refused;
 * - UNFTP_MORE, where no line is complete; or
 * - UNFTP_OUT_OF_MEMORY, UNFTP_NO_ROOM or UNFTP_INVALID_ARGUMENT. Then nothing is used up, and the
 *   connection and the area are as they were.
 *
 * At a command and at a refused line the used bytes are the whole line, including the parts that
 * its command ignores: the `A` of `TYPE A`, the `ALL` of `EPSV ALL`. At UNFTP_LINE_TOO_LONG they
 * are the line's end, or all of it.
 *
 * A verb ends at the first space, CR or LF of the line. The parameter is what comes after that one
 * byte, up to the line's end: a second space belongs to it. In a value a CR that was sent as CR
 * NUL, or as the parameter's first byte, is one CR.
 *
 * Where the line has the value as it is, the value stays in the pending bytes. Only what the line
 * doesn't have so is written to the area: the name, with the letters a to z in upper case, and
 * after it a value in another form. Most lines have no name, and have their value as it is: nothing
 * is written for them.
 *
 *     the line               result        name, in the area   value, of unftp_value
 *     RETR a.txt             UNFTP_RETR    none                a.txt, at 5 of the pending bytes
 *     LIST -la x             UNFTP_LIST    none                x, at 9
 *     REST +5                UNFTP_REST    none                5, at 6
 *     site chmod 644 a       UNFTP_SITE    CHMOD               644 a, at 11
 *     xcrc a.txt             UNFTP_OTHER   XCRC                a.txt, at 5
 *     noop                   UNFTP_NOOP    none                none
 *     type a                 UNFTP_TYPE    none                none
 *     auth tls               UNFTP_AUTH    none                TLS, in the area
 *     RETR \xe9              UNFTP_RETR    none                \xef\xbf\xbd, in the area
 *     site chmod \xe9        UNFTP_SITE    CHMOD               \xef\xbf\xbd, in the area at 5
 *
 * So a value lasts as long as the pending bytes and the area. Use it, or copy it, before you drop,
 * move or overwrite the pending bytes, or pass the area to another call.
 *
 * Names are UTF-8. Values are UTF-8, with U+FFFD for each ill-formed part, but those of USER, PASS,
 * ACCT and STAT, which are the bytes that were sent. unftp_parameter writes the bytes that were
 * sent of any line.
 *
 * A line of n bytes needs an area of at most 3 n bytes, so one of three times the limit always has
 * room. At UNFTP_NO_ROOM the area needs name_len bytes, and where value_at is 0, value_len more.
 *
 * Memory is taken only for a parameter with CR NUL, and for ill-formed UTF-8 in a value that is
 * given as UTF-8; this is tested, and not proved.
 *
 * A line of more bytes than the limit is UNFTP_LINE_TOO_LONG once it has ended, whatever it holds.
 * Where a longer line comes in pieces, its bytes are used up at UNFTP_MORE, so fewer than limit
 * bytes stay pending then.
 *
 * After UNFTP_MORE no byte before the connection's offset is scanned again, and these bytes may not
 * change.
 *
 * tnftp and lftp send Telnet's bytes before ABOR, "\xff\xf4\xff\xf2" (RFC 854; RFC 959, section
 * 4.1.3). Such a line is UNFTP_INVALID_UTF8: the caller takes these bytes away before.
 */
enum unftp_result unftp_next(struct unftp_connection *connection,
                             const char *bytes, size_t bytes_len,
                             char *area, size_t area_room, struct unftp_line *line) UNFTP_NONNULL;

/* Where the value of a command begins, of line->value_len bytes: in the pending bytes or in the
   area, which are those that unftp_next was passed. Call it only where unftp_next returned a
   command: at UNFTP_NO_ROOM the area may be too small for the name. */
static inline const char *unftp_value(const struct unftp_line *line, const char *bytes,
                                      const char *area)
{
    return line->value_at != 0 ? bytes + line->value_at : area + line->name_len;
}

/*
 * Writes the value of a line's parameter to the start of out, and *len is how many bytes it has:
 * those that were sent, also bytes that are not UTF-8 or that a command ignores, without the line's
 * end. A CR that was sent as CR NUL (RFC 854), or as the first byte before others than the line's
 * end, is one CR. Pass what unftp_next used up, except at UNFTP_LINE_TOO_LONG. The verb is not
 * looked at: the value of PASS is the password.
 *
 *     the line               unftp_parameter        unftp_list_path
 *     TYPE A                 A                      A
 *     RETR caf\xe9           caf\xe9                caf\xe9
 *     LIST -la x             -la x                  x
 *     LIST                   no bytes               no bytes
 *     SITE CHMOD 644 a       CHMOD 644 a            CHMOD 644 a
 *
 * SITE's parameter is a subcommand and a parameter of that, cut as a line is. For the value of the
 * latter pass the line without its first five bytes, SITE and the byte after it: that of the last
 * line above is 644 a. What was written has no line end, and can't be cut so again.
 *
 * It returns UNFTP_DONE; UNFTP_INVALID_EOL exactly where the parameter has no value, also where its
 * command ignores it, as in "TYPE A\rb\r\n"; or UNFTP_NO_ROOM, where *len is the room that is
 * needed, at most line_len. out is as it was but at UNFTP_DONE. It takes no memory.
 */
enum unftp_result unftp_parameter(const char *line, size_t line_len,
                                  char *out, size_t out_room, size_t *len) UNFTP_NONNULL;

/*
 * Writes the path of LIST or NLST, the end of what unftp_parameter writes: what comes after words
 * that begin with a dash, each with one space after it. They are options, as those of `ls`; no RFC
 * has them. After the word `--` there is no other, so of `LIST -l -- -x` it is -x. It returns what
 * unftp_parameter does, with the length of the path.
 */
enum unftp_result unftp_list_path(const char *line, size_t line_len,
                                  char *out, size_t out_room, size_t *len) UNFTP_NONNULL;

/*
 * Writes the bytes of a reply to the start of out, and *len is how many they are (RFC 959, section
 * 4.2). The code is any number from 100 to 599. The text has any bytes, also such that are not
 * UTF-8, as a file name in Latin-1 has. It is of one line, or of several that are divided by line
 * feeds; a CR directly before a line feed belongs to the line's end, so "a\r\nb" and "a\nb" are the
 * lines a and b. It returns UNFTP_DONE; UNFTP_UNKNOWN_CODE for another number; or UNFTP_NO_ROOM,
 * where *len is the room that is needed, or SIZE_MAX where that is more. out is as it was but at
 * UNFTP_DONE. A text of n bytes needs at most n + 6 where it is of one line, and at most
 * n + 2 k + 10 where it has k line feeds. It takes no memory.
 *
 * A client that reads by RFC 959 finds in these bytes exactly this reply, whatever the text holds:
 * any other CR of it is written as it is, and a line before the last that begins with a digit
 * follows a space.
 */
enum unftp_result unftp_reply(uint32_t code, const char *text, size_t text_len,
                              char *out, size_t out_room, size_t *len) UNFTP_NONNULL;

/*
 * Writes a path between double quotes, with each double quote in it doubled, to the start of out,
 * and *len is how many bytes that is: the text of the replies 257 to PWD and MKD (RFC 959, section
 * 5.4 and appendix II). The path has any bytes. For the path a"b
 *
 *     unftp_quoted_path("a\"b", 3, text, sizeof text, &text_len);
 *     unftp_reply(UNFTP_CODE_DIR_CREATED, text, text_len, reply, sizeof reply, &reply_len);
 *
 * writes 257 "a""b". It returns UNFTP_DONE; or UNFTP_NO_ROOM, where *len is the room that is
 * needed, or SIZE_MAX where that is more, and out is as it was. A path of n bytes needs at most
 * 2 n + 2. It takes no memory.
 */
enum unftp_result unftp_quoted_path(const char *path, size_t path_len,
                                    char *out, size_t out_room, size_t *len) UNFTP_NONNULL;

/*
 * Writes the usual reply to an event to the start of out, and *len is how many bytes it has: what a
 * server answers that does nothing for the event. The event is the number that unftp_next returned,
 * and the value the command's, of which only those of STRU, MODE and OPTS are read.
 *
 *     the event                          the reply
 *     UNFTP_INVALID_COMMAND              501 Invalid parameter
 *     UNFTP_INVALID_UTF8                 500 The command is not UTF-8
 *     UNFTP_INVALID_EOL                  500 Invalid line ending
 *     UNFTP_LINE_TOO_LONG                500 Line too long
 *     UNFTP_OUT_OF_MEMORY                421 Out of memory; close the connection after it
 *     UNFTP_NOOP                         200 OK
 *     UNFTP_QUIT                         221 Bye; close the connection after it
 *     UNFTP_HELP                         214 This is an FTP server
 *     UNFTP_SYST                         215 UNIX Type: L8
 *     UNFTP_ACCT                         202 No account is needed
 *     UNFTP_ALLO                         202 No storage has to be allocated
 *     UNFTP_STRU with F, another         200 In File structure mode, 504
 *     UNFTP_MODE with S, another         200 Using Stream transfer mode, 504
 *     UNFTP_OPTS with UTF8 ON, another   200 Always in UTF-8 mode., 504
 *     UNFTP_TYPE                         504 The representation type stays as it is
 *     UNFTP_AUTH, _PROT, _PBSZ, _CCC     502 TLS/SSL not configured
 *     any other command                  502 Not implemented
 *
 * These are of RFC 959, sections 4.2.2 and 5.4. A server answers TYPE itself where it has a type:
 * by 200 where unftp_parameter writes A or I. It answers PWD by unftp_quoted_path, FEAT by its own
 * features, and USER and PASS by unftp_login_reply.
 *
 * It returns UNFTP_DONE; UNFTP_NO_ROOM, where *len is the room that is needed, at most 64; or
 * UNFTP_INVALID_ARGUMENT exactly where the number is that of no event: neither from 1 to 44 nor
 * from 102 to 106. out is as it was but at UNFTP_DONE. It takes no memory.
 */
enum unftp_result unftp_usual_reply(uint32_t event, const char *value, size_t value_len,
                                    char *out, size_t out_room, size_t *len) UNFTP_NONNULL;

/*
 * Finds the reply at the start of what a client has received (RFC 959, section 4.2). It returns
 * UNFTP_DONE with its code and how many bytes it takes, UNFTP_MORE where it is not complete, or
 * UNFTP_MALFORMED; both fields are then 0. A line ends at CR LF, and a bare LF belongs to it. It
 * takes no memory, and scans from the start at each call. There is no bound on a reply's length:
 * the caller sets one. For bytes that come in pieces there is unftp_next_reply.
 */
enum unftp_result unftp_front_reply(const char *bytes, size_t bytes_len,
                                    struct unftp_found_reply *reply) UNFTP_NONNULL;

/*
 * Finds the first reply of the pending bytes of a client (RFC 959, section 4.2), and goes on where
 * the last call stopped: no byte is scanned again for a line feed, however the bytes come. It
 * returns UNFTP_DONE with the code of the reply and how many bytes it takes; the caller drops them,
 * and calls again. Or it returns UNFTP_MORE where the bytes are only a part of a reply, shorter than
 * one may be: the caller keeps them, and appends those that come. UNFTP_REPLY_TOO_LONG says that as
 * many bytes as a reply may have are only a part of one, and UNFTP_MALFORMED that their first line
 * opens none; they are returned again at each later call. Which of them it is doesn't depend on the
 * pieces. UNFTP_INVALID_ARGUMENT says that no call leaves such a search. But at UNFTP_DONE both
 * fields of the reply are 0, and the search is as it was at UNFTP_MALFORMED and
 * UNFTP_INVALID_ARGUMENT. It takes no memory.
 *
 *     struct unftp_reply_search search = {65536, 0, 0};
 *     struct unftp_found_reply reply;
 *     while (unftp_next_reply(&search, bytes, len, &reply) == UNFTP_DONE) {
 *         take(reply.code, bytes, reply.used);
 *         bytes += reply.used;
 *         len -= reply.used;
 *     }
 */
enum unftp_result unftp_next_reply(struct unftp_reply_search *search,
                                   const char *bytes, size_t bytes_len,
                                   struct unftp_found_reply *reply) UNFTP_NONNULL;

/*
 * Finds the next line of a reply, where it is: the one that begins at line->next. The bytes are all
 * those of one reply, as unftp_next_reply found it. It returns UNFTP_DONE; UNFTP_MORE at the end of
 * the reply, or where no line is complete; or UNFTP_INVALID_ARGUMENT where line->next is past the
 * bytes. The line is as it was but at UNFTP_DONE. Of the first line and the last the text is what
 * comes after the code and the one byte that follows it, and of a line between them all of it,
 * without the CR LF; a reply of only a code has one empty line. It takes no memory.
 *
 *     struct unftp_reply_line line = {0, 0, 0};
 *     while (unftp_next_reply_line(bytes, reply.used, &line) == UNFTP_DONE)
 *         fwrite(bytes + line.text_at, 1, line.text_len, stdout);
 */
enum unftp_result unftp_next_reply_line(const char *bytes, size_t bytes_len,
                                        struct unftp_reply_line *line) UNFTP_NONNULL;

/*
 * Writes the lines of the reply at the start of what a client has received to the start of out,
 * each with a CR LF after it, and *len is how many bytes they are (RFC 959, section 4.2). No line
 * has a CR LF in it. Of the first line and the last it is the text after the code and the one byte
 * that follows it, and of a line between them all of it; a reply of only a code has one empty line.
 * It returns UNFTP_DONE; UNFTP_MORE or UNFTP_MALFORMED, as unftp_front_reply; UNFTP_NO_ROOM, where
 * *len is the room that is needed, at most as many bytes as the reply has; or UNFTP_OUT_OF_MEMORY.
 * out is as it was but at UNFTP_DONE. It holds up to 40 bytes for each byte of the reply, and 100,
 * which is measured, and not proved: bound what a server may send.
 */
enum unftp_result unftp_reply_lines(const char *bytes, size_t bytes_len,
                                    char *out, size_t out_room, size_t *len) UNFTP_NONNULL;

/*
 * Writes the canonical line of a line's command, with its CR LF, to the start of out, and *len is
 * how many bytes it has: a line that means the same, in the one form that the library writes. A
 * parameter that its command ignores is lost: of `TYPE A` it is TYPE I, of `ALLO 5` ALLO 0, and of
 * `EPSV ALL` EPSV. It reads its bytes as one line, also where they are not one: pass what
 * unftp_next used up. It returns UNFTP_DONE; UNFTP_INVALID_COMMAND, UNFTP_INVALID_UTF8 or
 * UNFTP_INVALID_EOL for a line that is no command; UNFTP_NO_LINE, but never for a line whose one
 * line feed is its last byte; UNFTP_NO_ROOM, where *len is the room that is needed; or
 * UNFTP_OUT_OF_MEMORY. out is as it was but at UNFTP_DONE. No line of n bytes was found that needs
 * more than 3 n; this is measured, and not proved.
 */
enum unftp_result unftp_canonical(const char *line, size_t line_len,
                                  char *out, size_t out_room, size_t *len) UNFTP_NONNULL;

/*
 * Writes the line that a proxy sends to a server for a client's line, with its CR LF, to the start
 * of out, and *len is how many bytes it has. It means the same, and its one line feed is its last
 * byte. A command doesn't hold all that a line says, and this line has the verb in upper case and
 * the bytes of the parameter as they came, up to the line's end: any bytes, also those that are not
 * UTF-8, and a CR that no LF follows. It is the canonical line for a command that takes no
 * parameter, and for STRU, MODE, OPTS, AUTH, PBSZ, PROT and REST.
 *
 *     the client's line      unftp_canonical        unftp_forward
 *     type a                 TYPE I                 TYPE a
 *     list -la x             LIST x                 LIST -la x
 *     retr \xe9              RETR \xef\xbf\xbd      RETR \xe9
 *     xcwd a                 CWD a                  XCWD a
 *     site help a            SITE HELP a            SITE help a
 *     bye                    QUIT                   QUIT
 *     rest +07               REST 7                 REST 7
 *
 * It keeps what servers read in different ways: a bare CR, a NUL or a byte 255 in a parameter, and
 * a verb with other bytes than letters and digits. *clear is 1 where what is written has none of
 * them, as by unftp_is_clear, and else 0; it is 0 but at UNFTP_DONE. A proxy that allows only some
 * commands sends no line that is not clear.
 *
 * It returns UNFTP_DONE; UNFTP_NO_LINE exactly where the bytes have no line feed at their end, or
 * one before it; UNFTP_INVALID_COMMAND, UNFTP_INVALID_UTF8 or UNFTP_INVALID_EOL for a line that is
 * no command; or UNFTP_NO_ROOM, where *len is the room that is needed. out is as it was but at
 * UNFTP_DONE. It takes no memory. No line of n bytes was found that needs more than n + 2; this is
 * measured, and not proved.
 */
enum unftp_result unftp_forward(const char *line, size_t line_len,
                                char *out, size_t out_room, size_t *len,
                                uint32_t *clear) UNFTP_NONNULL;

/*
 * 1 where a line is clear, and else 0: its verb has only letters and digits of ASCII, and at least
 * one, and before the CR LF at its end there is no CR, LF, NUL or byte 255. So it has none of the
 * bytes that servers are known to read in different ways. A proxy that refuses commands sends no
 * other line: in one as "TYPE A\rSITE x\r\n" a server may read a command that unftp_next does not,
 * or send no reply to it. unftp_forward says it of what it writes.
 *
 * It is a form of line, and no promise that all servers read it alike. Known exceptions are
 * "TYPE  I" with two spaces, NOOP with spaces or 5,000 bytes after it, "SIZE ~/a", and
 * "MDTM 20010203040506 a", by which vsftpd sets the time of a file.
 */
uint32_t unftp_is_clear(const char *line, size_t line_len) UNFTP_NONNULL;

/*
 * Writes what a log shows of a client's line to the start of out, without a line end, and *len is
 * how many bytes it has. Each byte is printable ASCII. The number is what unftp_next returned, and
 * the line is what it used up: its bytes are read as one line. At UNFTP_LINE_TOO_LONG nothing of
 * the line is looked at.
 *
 *     the line                                    what is written
 *     xcwd a, BYE                                 CWD a, QUIT
 *     type a, EPSV ALL, LIST -la x                TYPE a, EPSV ALL, LIST -la x
 *     RETR a\xe9                                  RETR a\xe9
 *     REST +5, auth tls                           REST 5, AUTH TLS
 *     site chmod 644 a, SITE PSWD a b, SITE a     SITE CHMOD 644 a, SITE PSWD ***, SITE ***
 *     PASS secret, PASS, lang                     PASS ***, PASS ***, LANG ***
 *     PSAS secret, hunter2                        ***, ***
 *     NOOP x                                      refused NOOP: Invalid command
 *
 * A command is its canonical verb, and after a space the value of the line's parameter as the bytes
 * that were sent, with what is not printable escaped as in Rust: \t, \r, \n, \', \", \\, or \x and
 * two digits; CR NUL is one CR. STRU, MODE, PROT, AUTH, OPTS, PBSZ and REST have the value that
 * unftp_next gives. SYST and HELP have none; nor have TYPE, EPSV and ALLO where their line has an
 * invalid end, at which they are commands too. The value of PASS and ACCT is ***, also an empty
 * one. A verb with no rule of its own may be a mistyped PASS, or a password: it is ***, unless it
 * is a word of the registry of FTP's commands (RFC 5797, section 3), ALGS (RFC 6384) or HOST (RFC
 * 7151), with *** for its arguments, also where there are none. Of SITE the subcommands CHMOD,
 * IDLE, MD5, UMASK and UTIME are shown with their arguments, EXEC, GPASS, GROUP, HELP and PSWD with
 * ***, and any other is ***.
 * The name of USER, paths and what follows TYPE, EPSV and ALLO are shown, whatever they are, and so
 * is a password that a client sends in their place, or one that is itself a verb.
 *
 * A refused line is `refused`, a space and its verb where that has a rule here or is such a word,
 * `: `, and why; nothing is shown of its parameter but that. Why is one of `Invalid command`,
 * `Non-UTF8 character while parsing`, `Invalid end-of-line` and `Line too long`. So a log shows of
 * a password that it has an invalid line ending, as that of "PASS se\rcret\r\n" has. The last one
 * comes by the number UNFTP_LINE_TOO_LONG, and without a verb. Any other number says nothing: what
 * the line is, its own bytes say.
 *
 * *hides is 1 where a part of the line is not shown, and else 0; it is 0 at UNFTP_OUT_OF_MEMORY. A
 * part is hidden of a refused line; of PASS, ACCT and a verb that is ***; where *** stands for
 * arguments; and where SYST and HELP have a text, and TYPE, EPSV and ALLO an invalid end. A server
 * may repeat it in its reply.
 *
 * It returns UNFTP_DONE; UNFTP_NO_ROOM, where *len is the room that is needed; or
 * UNFTP_OUT_OF_MEMORY. out is as it was but at UNFTP_DONE. A line of n bytes needs at most 4 n +
 * 42. Memory is taken only for the text that is written: at most three times its bytes and 32 are
 * held at once, which is measured, and not proved. A server that has no such room must not drop the
 * line, or a client could keep itself out of the log: it takes the room that *len asks for, or logs
 * that there was a line.
 */
enum unftp_result unftp_log_line(uint32_t number, const char *line, size_t line_len,
                                 char *out, size_t out_room, size_t *len,
                                 uint32_t *hides) UNFTP_NONNULL;

/*
 * Writes what a log shows of an exchange, a line of a client and its replies, to the start of out,
 * without a line end, and *len is how many bytes it has: the line, `->`, and the replies with ` | `
 * between two of them. A reply is its code, as a number without zeros before it, and after a space
 * its text, if any, escaped as by unftp_log_line, with an escaped CR LF between two lines.
 *
 *     shown        replies                                     the line of the log
 *     USER bob     331 Need password\r\n                       USER bob -> 331 Need password
 *     RETR a       150 Opening\r\n226 Done\r\n                 RETR a -> 150 Opening | 226 Done
 *                  220-Hello\r\n220 \xe9\r\n                   -> 220 Hello\r\n\xe9
 *     ***          530\r\n                                     *** -> 530
 *     RETR a                                                   RETR a ->
 *
 * shown is what unftp_log_line wrote for the line: keep that until the replies come, and not the
 * line, which may have a password. Where it has no bytes, the replies are to no line, as the
 * greeting. The replies are their bytes, one after the other, with what unftp_front_reply says that
 * each takes; there may be none. A server may repeat in a reply what was hidden of a line. To hide
 * the text of a reply, pass its three digits and a CR LF.
 *
 * It returns UNFTP_DONE; UNFTP_INVALID_ARGUMENT exactly where a byte of shown is no printable ASCII
 * (0x20 to 0x7e), so that each byte that is written is; or else UNFTP_MORE where the last reply is
 * incomplete, or UNFTP_MALFORMED where a reply is malformed; or else UNFTP_NO_ROOM, where *len is
 * the room that is needed. UNFTP_OUT_OF_MEMORY comes only in place of UNFTP_DONE and UNFTP_NO_ROOM.
 * out is as it was but at UNFTP_DONE. No exchange was found that needs more than shown_len + 4
 * replies_len + 3. It holds up to 40 bytes for each byte of shown and of the replies, and 100. Both
 * are measured, and not proved: bound what a server may send.
 */
enum unftp_result unftp_log_exchange(const char *shown, size_t shown_len,
                                     const char *replies, size_t replies_len,
                                     char *out, size_t out_room, size_t *len) UNFTP_NONNULL;

/*
 * Notes the line of a command that a client sends: call it once for each line, in the order in
 * which they are sent. *place is how many were noted before. It returns UNFTP_DONE; UNFTP_NO_LINE
 * where no line feed is the last byte, or one comes before it; or else UNFTP_INVALID_ARGUMENT where
 * 2^64 - 1 lines were noted. But at UNFTP_DONE nothing changes, and *place is 0.
 *
 * Any such line is noted, also one that is no command. It asks for TLS where it is AUTH, one space
 * and TLS or SSL, in letters of any case, and CR LF or LF. Any other line doesn't, though
 * unftp_next may read AUTH in it, as in "AUTH\rTLS\r\n": after a 234 to that no TLS may begin.
 *
 * In a proxy it is sent for the line that unftp_client_take has taken. Where none is taken, the
 * call takes the next one itself: a client that is no proxy needs no other call.
 */
enum unftp_result unftp_client_line(struct unftp_client *client, const char *line, size_t line_len,
                                    uint64_t *place) UNFTP_NONNULL;

/*
 * Notes a reply that a client has received, by its code, and returns what it is to; *place is the
 * place of the line, and 0 where it is to none. Call it once for each reply that unftp_front_reply
 * finds. A server replies in order (RFC 959, sections 4.2 and 5.4): the greeting comes first, then
 * the replies to each line. After one whose code is from 100 to 199 another follows to the same.
 * A proxy ends the session at a reply to nothing, as a 421: its own client would take it for the
 * reply to the next line. It may hold a reply back, as that to a download until its client has the
 * data: a call on a copy of the struct says what it is to, and it is noted when the client gets it.
 * Until then it is owed, and no answer gets before it.
 *
 * Nothing in a reply says what it is to, so a server that doesn't keep the order is not noticed:
 * pyftpdlib answers NOOP within a transfer before the 226, and both replies are then given to the
 * wrong line. While a transfer is under way, send only ABOR and QUIT, unless the server keeps the
 * order.
 */
enum unftp_to unftp_client_reply(struct unftp_client *client, uint32_t code,
                                 uint64_t *place) UNFTP_NONNULL;

/*
 * Takes the next line of a proxy's own client, and returns 1. The proxy then sends a line for it,
 * which unftp_client_line notes, or answers it by unftp_client_answer. The call returns 0, and
 * nothing changes, where the line has to wait: the one before it is neither sent nor answered yet;
 * or a line that asks for TLS awaits its reply, and what comes after it may be no line (RFC 4217,
 * section 4).
 *
 * A proxy gives its client each reply of the server, unless it is to nothing, and each answer for
 * which unftp_client_answer returns 1. Whatever calls it makes, its client then gets the greeting
 * and one exchange for each line that was taken, in order.
 */
uint32_t unftp_client_take(struct unftp_client *client) UNFTP_NONNULL;

/*
 * Notes that a proxy answers the line that it has taken, by a reply with this code, and returns 1:
 * its client then has to get that reply. It returns 0, and nothing changes, where no line is taken;
 * where the server owes a reply, also the greeting; or where the code is from 100 to 199, since
 * another reply would have to follow. While the server owes a reply, the proxy holds its answer.
 */
uint32_t unftp_client_answer(struct unftp_client *client, uint32_t code) UNFTP_NONNULL;

/*
 * How many lines are owed their final reply.
 */
uint64_t unftp_client_owed(const struct unftp_client *client) UNFTP_NONNULL;

/*
 * 1 where TLS may begin, and else 0, where so many bytes are pending after the last reply: that was
 * a 234 to the last line, which asks for TLS (AUTH TLS or AUTH SSL; RFC 4217, section 4), and no
 * byte is pending, since what came in clear text is not to be read as if it had come under TLS.
 * Where bytes are pending after that 234, end the connection.
 */
uint32_t unftp_client_may_begin_tls(const struct unftp_client *client,
                                    size_t pending) UNFTP_NONNULL;

/*
 * Says what a server that wants a login does with an event, by the number that unftp_next returned
 * for it (RFC 959, section 4.1.1). QUIT, AUTH, PBSZ, PROT, FEAT, HELP, NOOP and SYST need no login,
 * and neither does a refused line: the numbers 102 to 105, and 106 for UNFTP_OUT_OF_MEMORY. Each
 * other command does, and any other number is taken as one of these. A name is good for the next
 * PASS, also where other commands come between. USER and AUTH flush the login, AUTH also where the
 * server refuses it. A server that takes REIN, which is UNFTP_OTHER, sets the struct to 0. After a
 * password that the accounts refuse the client begins again with USER. ACCT needs a login, and is
 * answered 530 before one: a server that asks for an account after PASS, by 332, can't use this.
 *
 * An event between UNFTP_LOGIN_ASK_ACCOUNTS and unftp_login_answer ends the question: nobody is
 * logged in, the name is used up, and the answer returns UNFTP_INVALID_ARGUMENT. Another PASS is
 * then UNFTP_LOGIN_NEED_NAME; a USER begins a new login.
 */
enum unftp_login_step unftp_login_event(struct unftp_login *login, uint32_t event) UNFTP_NONNULL;

/*
 * Tells what the accounts say of a password, before the next event: accepted is not 0 where it is
 * that of the name. It returns UNFTP_DONE, or UNFTP_INVALID_ARGUMENT where the last event didn't
 * ask for it, and the login is then as it was.
 */
enum unftp_result unftp_login_answer(struct unftp_login *login, uint32_t accepted) UNFTP_NONNULL;

/*
 * Writes the reply at a step that unftp_login_event returned to the start of out, and *len is how
 * many bytes it has (RFC 959, section 5.4). At UNFTP_LOGIN_ASK_ACCOUNTS accepted is what
 * unftp_login_answer was told, and at other steps it is not read.
 *
 *     UNFTP_LOGIN_NEED_PASSWORD          331 User name okay, need password
 *     UNFTP_LOGIN_ASK_ACCOUNTS           230 User logged in, proceed; with accepted 0
 *                                        530 Login incorrect
 *     UNFTP_LOGIN_NEED_NAME              503 Send USER first
 *     UNFTP_LOGIN_NEED_LOGIN             530 Log in with USER and PASS
 *
 * It returns UNFTP_DONE; UNFTP_NO_ROOM, where *len is the room that is needed, at most 64; or
 * UNFTP_INVALID_ARGUMENT for any other step, also for UNFTP_LOGIN_PASS_ON: the event is then
 * answered as without a login. out is as it was but at UNFTP_DONE. It takes no memory.
 */
enum unftp_result unftp_login_reply(uint32_t step, uint32_t accepted,
                                    char *out, size_t out_room, size_t *len) UNFTP_NONNULL;

/*
 * Reads the address of a data connection from a text of this form, one of enum unftp_address_form.
 * The host is address->ip_len bytes at the start of ip, in network order, as in sin_addr and
 * sin6_addr. It returns UNFTP_DONE; UNFTP_NO_ADDRESS, which a server answers by 501;
 * UNFTP_UNKNOWN_PROTOCOL, for EPRT only, which it answers by 522 and the protocols that it has;
 * UNFTP_NO_ROOM where ip has fewer bytes than ip_len: 16 are always enough; or
 * UNFTP_INVALID_ARGUMENT for another form. ip is as it was but at UNFTP_DONE; ip_len and port are 0
 * but at UNFTP_DONE and UNFTP_NO_ROOM. It takes no memory.
 *
 * - PORT: six numbers with commas between them, each of one to three digits and below 256, and
 *   nothing else. Leading zeros are decimal.
 * - EPRT: a delimiter, the protocol, the delimiter, the host, the delimiter, the port of one to
 *   five digits, the delimiter, and nothing else. The protocol is 1 for IPv4, whose host is four
 *   numbers without leading zeros, and 2 for IPv6 (RFC 4291, section 2.2); any other number below
 *   65536 is UNFTP_UNKNOWN_PROTOCOL, whatever the host and the port are. The delimiter is one of
 *   "!" to "~" that is no hex digit, colon, dot or closing bracket.
 * - 227: of the text's words of digits and commas the first that is a value of PORT (RFC 1123,
 *   section 4.1.2.6).
 * - 229: after the text's first opening bracket the delimiter three times, a port as for EPRT, the
 *   delimiter and a closing bracket.
 *
 * It doesn't look at whose address it is: that is the caller's to decide. A server that connects to
 * what PORT or EPRT names, and a client that connects to what a 227 names, can be made to reach a
 * third host (RFC 2577). So compare the host with the other end of the control connection, which on
 * a socket of IPv6 may be an IPv4-mapped address. Port 0 is read too; nothing listens there.
 */
enum unftp_result unftp_read_address(uint32_t form, const char *text, size_t text_len,
                                     char *ip, size_t ip_room,
                                     struct unftp_address *address) UNFTP_NONNULL;

/*
 * Writes an address to the start of out, as a text of this form has it, and *len is how many bytes
 * it has: the six numbers, without brackets, for PORT and a 227; the value of EPRT; or the port in
 * brackets, as (|||6446|), for a 229, for which ip is not looked at. A server puts its own words
 * around it, as "Entering Passive Mode (" and ").", and unftp_reply makes the reply.
 *
 * It returns UNFTP_DONE; UNFTP_NO_ROOM, where *len is the room that is needed, at most 49 bytes;
 * UNFTP_OUT_OF_MEMORY; or UNFTP_INVALID_ARGUMENT for another form, a port above 65535, or an ip_len
 * that is not 4 for PORT and a 227, and neither 4 nor 16 for EPRT. out is as it was but at
 * UNFTP_DONE. What is written is read back by unftp_read_address as the same address.
 */
enum unftp_result unftp_write_address(uint32_t form, const char *ip, size_t ip_len, uint32_t port,
                                      char *out, size_t out_room, size_t *len) UNFTP_NONNULL;

/*
 * Writes the line of a file in a listing to the start of out, with its CR LF, and *len is how many
 * bytes it has. unftp_facts_line writes that of MLSD: the facts, a space and the name (RFC 3659,
 * section 7.2). The facts are, in this order, the type; size; modify, where the time is known and
 * its year is not before 0; and unix.uid and unix.gid, where they are not 0:
 *
 *     type=file;size=1234;modify=20231201120000; a.txt
 *
 * unftp_list_line writes that of LIST, in the form of ls -l, which clients read:
 *
 *     -rw-r--r--   1 ftp      ftp              1234 Dec  1 12:00 a.txt
 *
 * The columns are the kind with the permissions; links, at the right of 3 bytes; uid and gid, at
 * the left of 8 bytes, with "ftp" for 0; size, at the right of 12; the date; and the name. What is
 * longer than its column is written whole. A file that was modified less than 182 days before now,
 * which is in seconds of the Unix epoch, and not after it, has the time of day; any other has the
 * year, as "Dec  1  2023". A year before 0 is written as 0000, and an unknown time as that of the
 * Unix epoch. Times are of UTC. The name of a link may have " -> " and what it leads to after it.
 *
 * Both return UNFTP_DONE; UNFTP_NO_ROOM, where *len is the room that is needed, at most 112 bytes
 * and the name's, which is measured; UNFTP_OUT_OF_MEMORY; or UNFTP_INVALID_ARGUMENT exactly where
 * the kind is above UNFTP_KIND_BLOCK_DEVICE, where the name has a CR or a line feed, or where a time
 * that is known, or now, is before -377705023201, in the year -9999, or after 253402207200, on the
 * day before the last of 9999. out is as it was but at UNFTP_DONE.
 */
enum unftp_result unftp_facts_line(const struct unftp_file *file, const char *name, size_t name_len,
                                   char *out, size_t out_room, size_t *len) UNFTP_NONNULL;
enum unftp_result unftp_list_line(const struct unftp_file *file, int64_t now, const char *name,
                                  size_t name_len, char *out, size_t out_room,
                                  size_t *len) UNFTP_NONNULL;

/* The version of the library, as UNFTP_VERSION is that of the header. */
uint32_t unftp_version(void);

/* A text for a result, as for a log: the verb of a command, and a phrase for each other. */
static inline const char *unftp_result_text(uint32_t result)
{
    switch (result) {
    case UNFTP_DONE: return "done";
    /* verbs: made by tools/gate/verbs of FtpCommand.antt */
    case UNFTP_USER: return "USER";
    case UNFTP_PASS: return "PASS";
    case UNFTP_ACCT: return "ACCT";
    case UNFTP_SYST: return "SYST";
    case UNFTP_STAT: return "STAT";
    case UNFTP_TYPE: return "TYPE";
    case UNFTP_STRU: return "STRU";
    case UNFTP_MODE: return "MODE";
    case UNFTP_HELP: return "HELP";
    case UNFTP_NOOP: return "NOOP";
    case UNFTP_PASV: return "PASV";
    case UNFTP_EPSV: return "EPSV";
    case UNFTP_PORT: return "PORT";
    case UNFTP_RETR: return "RETR";
    case UNFTP_STOR: return "STOR";
    case UNFTP_APPE: return "APPE";
    case UNFTP_LIST: return "LIST";
    case UNFTP_NLST: return "NLST";
    case UNFTP_MLST: return "MLST";
    case UNFTP_MLSD: return "MLSD";
    case UNFTP_FEAT: return "FEAT";
    case UNFTP_PWD: return "PWD";
    case UNFTP_CWD: return "CWD";
    case UNFTP_CDUP: return "CDUP";
    case UNFTP_OPTS: return "OPTS";
    case UNFTP_DELE: return "DELE";
    case UNFTP_RMD: return "RMD";
    case UNFTP_QUIT: return "QUIT";
    case UNFTP_MKD: return "MKD";
    case UNFTP_ALLO: return "ALLO";
    case UNFTP_ABOR: return "ABOR";
    case UNFTP_STOU: return "STOU";
    case UNFTP_RNFR: return "RNFR";
    case UNFTP_RNTO: return "RNTO";
    case UNFTP_AUTH: return "AUTH";
    case UNFTP_CCC: return "CCC";
    case UNFTP_PBSZ: return "PBSZ";
    case UNFTP_PROT: return "PROT";
    case UNFTP_SIZE: return "SIZE";
    case UNFTP_REST: return "REST";
    case UNFTP_MDTM: return "MDTM";
    case UNFTP_MD5: return "SITE MD5";
    case UNFTP_SITE: return "SITE";
    case UNFTP_OTHER: return "another verb";
    /* end of verbs */
    case UNFTP_MORE: return "more bytes are needed";
    case UNFTP_INVALID_COMMAND: return "invalid command";
    case UNFTP_INVALID_UTF8: return "not UTF-8";
    case UNFTP_INVALID_EOL: return "invalid end of line";
    case UNFTP_LINE_TOO_LONG: return "line too long";
    case UNFTP_OUT_OF_MEMORY: return "out of memory";
    case UNFTP_NO_ROOM: return "no room in the area";
    case UNFTP_NO_LINE: return "no line of this command";
    case UNFTP_MALFORMED: return "malformed reply";
    case UNFTP_UNKNOWN_CODE: return "unknown reply code";
    case UNFTP_INVALID_ARGUMENT: return "invalid argument";
    case UNFTP_NO_ADDRESS: return "no address";
    case UNFTP_UNKNOWN_PROTOCOL: return "unknown network protocol";
    case UNFTP_REPLY_TOO_LONG: return "reply too long";
    default: return "unknown result";
    }
}

#undef UNFTP_NONNULL

#ifdef __cplusplus
}
#endif

#endif
