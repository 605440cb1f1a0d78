/*
 * Prints the version of the library, and a line for each number from 0 to 255: the number, a tab,
 * and the text that the header has for it. It doesn't compile where the header's types are laid out
 * in another way than those of the library.
 */
#include <unftp_control.h>

#include <stdio.h>

/* the library's functions return a u32, and no field of its structs has a gap before it */
typedef char result_is_a_u32[sizeof(enum unftp_result) == sizeof(uint32_t) ? 1 : -1];
typedef char to_is_a_u32[sizeof(enum unftp_to) == sizeof(uint32_t) ? 1 : -1];
typedef char step_is_a_u32[sizeof(enum unftp_login_step) == sizeof(uint32_t) ? 1 : -1];
typedef char connection[offsetof(struct unftp_connection, skipping) == 2 * sizeof(size_t) ? 1 : -1];
typedef char line[offsetof(struct unftp_line, value_at) == 3 * sizeof(size_t) ? 1 : -1];
typedef char found_reply[offsetof(struct unftp_found_reply, code) == sizeof(size_t) ? 1 : -1];
typedef char client[
    offsetof(struct unftp_client, agreed) == 3 * sizeof(uint64_t) + 2 * sizeof(uint32_t) ? 1 : -1];
typedef char login[sizeof(struct unftp_login) == sizeof(uint32_t) ? 1 : -1];
typedef char address[offsetof(struct unftp_address, port) == sizeof(size_t) ? 1 : -1];
typedef char file[
    sizeof(struct unftp_file) == 2 * sizeof(uint64_t) + 6 * sizeof(uint32_t) ? 1 : -1];

int main(void)
{
    printf("%lu\n", (unsigned long)unftp_version());
    for (uint32_t number = 0; number < 256; number++)
        printf("%u\t%s\n", (unsigned)number, unftp_result_text(number));
    return 0;
}
