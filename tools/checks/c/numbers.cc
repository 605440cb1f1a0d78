// What each call returns as a number goes to the calls that take one, without a cast.
#include <cstdio>
#include <unftp_control.h>

static int failed;

static void wants(bool holds, const char *what)
{
    if (!holds) {
        std::printf("not so: %s\n", what);
        failed = 1;
    }
}

// A line's number goes to a log, to a login and to a text.
static void check_line()
{
    const char received[] = "RETR a.txt\r\n";
    unftp_connection connection = {4096, 0, 0};
    unftp_line line;
    unftp_login login = {};
    char area[3 * sizeof received], shown[4 * sizeof received + 42];
    std::size_t len;
    uint32_t hides;
    const unftp_result number =
        unftp_next(&connection, received, sizeof received - 1, area, sizeof area, &line);

    wants(number == UNFTP_RETR, "the line is RETR");
    std::puts(unftp_result_text(number));
    wants(unftp_log_line(number, received, line.used, shown, sizeof shown, &len, &hides)
              == UNFTP_DONE,
          "the line is logged");
    wants(unftp_login_event(&login, number) == UNFTP_LOGIN_NEED_LOGIN, "RETR needs a login");
    wants(unftp_login_answer(&login, 1) == UNFTP_INVALID_ARGUMENT, "nobody was asked");
}

// A reply's code goes to a client, by its name and as it was read.
static void check_reply()
{
    const unftp_code code = UNFTP_CODE_SERVICE_READY;
    unftp_client client = {};
    unftp_found_reply found;
    uint64_t place;
    char reply[32];
    std::size_t len;

    wants(unftp_reply(code, "Ready", 5, reply, sizeof reply, &len) == UNFTP_DONE, "a reply");
    wants(unftp_front_reply(reply, len, &found) == UNFTP_DONE, "the reply is found");
    wants(unftp_client_reply(&client, found.code, &place) == UNFTP_TO_GREETING, "the greeting");
    wants(unftp_client_reply(&client, code, &place) == UNFTP_TO_NOTHING, "no reply is owed");
    wants(unftp_client_take(&client) != 0, "a line is taken");
    wants(unftp_client_answer(&client, UNFTP_CODE_COMMAND_OKAY) != 0, "it is answered");
}

// A form of addresses, by its name and as a variable.
static void check_address()
{
    const unftp_address_form form = UNFTP_ADDRESS_PORT;
    unftp_address address;
    char ip[16], text[49];
    std::size_t len;

    wants(unftp_read_address(form, "127,0,0,1,4,1", 13, ip, sizeof ip, &address) == UNFTP_DONE,
          "an address of PORT");
    wants(unftp_write_address(UNFTP_ADDRESS_EPRT, ip, address.ip_len, address.port, text,
                              sizeof text, &len)
              == UNFTP_DONE,
          "the same of EPRT");
}

int main()
{
    check_line();
    check_reply();
    check_address();
    return failed;
}
