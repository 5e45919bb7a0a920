/* Hands a state to a firmware loader as Intel HEX and takes it back, and is refused what came back damaged. Each line printed is what was
 * asked and the answer; examples/rust/firmware.rs prints the same. */
#include <inttypes.h>
#include <stdio.h>
#include <string.h>

#include "thepharok.h"

/* The lengths of the lines that are written, line feeds included: of the address record, of each data record, of the end record. */
enum { ADDRESS_LINE = 16, DATA_LINE = 44, END_LINE = 12 };

static uint8_t state[THEPHAROK_STATE_LENGTH];
static uint8_t second[THEPHAROK_STATE_LENGTH];
static uint8_t before[THEPHAROK_STATE_LENGTH];
static uint8_t text[THEPHAROK_TEXT_LENGTH];
static uint8_t damaged[THEPHAROK_TEXT_LENGTH];

static void say(const char *what, int32_t answer)
{
    printf("%s: %" PRId32 "\n", what, answer);
}

static void same(const char *what, const uint8_t *a, const uint8_t *b, size_t length)
{
    printf("  %s: %s\n", what, memcmp(a, b, length) == 0 ? "yes" : "no");
}

static const char *meaning(int32_t answer)
{
    switch (answer) {
    case THEPHAROK_HEX_LINE: return "no record stands here";
    case THEPHAROK_HEX_SUM: return "the record's sum is wrong, so the line was altered";
    case THEPHAROK_HEX_ADDRESS: return "bytes outside the state or given twice, or at the end record bytes that no line gave";
    case THEPHAROK_HEX_END: return "the text ends without its end record, or goes on behind it";
    default: return "what the lines give is no state";
    }
}

/* Reads a text that is to be refused into `second`, which must stay. */
static void refused(const char *what, const uint8_t *from, size_t length)
{
    memcpy(before, second, sizeof second);
    int32_t answer = kernel_read_hex(from, length, second, sizeof second);
    say(what, answer);
    printf("  line %zu: %s\n", kernel_hex_lines(from, length) + 1, meaning(answer));
    same("the buffer stayed", before, second, sizeof second);
}

int main(void)
{
    const size_t line_17 = ADDRESS_LINE + 15 * DATA_LINE;
    const size_t end_record = sizeof text - END_LINE;

    /* Create an endpoint (call 16): memory right 4, place 6, address. Send to it (call 18). */
    say("boot", kernel_boot(state, sizeof state));
    say("endpoint at 0x20000500",
        kernel_call(state, sizeof state, THEPHAROK_BOOT_PROCESS, 0x00100000, 4, 6, 0x20000500));
    say("send to it", kernel_call(state, sizeof state, THEPHAROK_BOOT_PROCESS, 0x00120000, 6, 0, 0));

    say("write the text", kernel_write_hex(state, sizeof state, text, sizeof text));
    printf("  %.*s", ADDRESS_LINE, (const char *)text);
    printf("  %.*s", DATA_LINE, (const char *)text + ADDRESS_LINE);
    printf("  %.*s", END_LINE, (const char *)text + end_record);
    printf("  %zu bytes in %zu lines\n", sizeof text, kernel_hex_lines(text, sizeof text));

    say("read it into a second buffer", kernel_read_hex(text, sizeof text, second, sizeof second));
    same("the same state", state, second, sizeof state);

    /* From here on the second buffer holds the boot state, so that a text that was taken would show. */
    kernel_boot(second, sizeof second);
    memcpy(damaged, text, sizeof text);
    damaged[line_17 + 9] = 'E';
    refused("a digit of line 17 altered", damaged, sizeof damaged);
    damaged[line_17 + 9] = 'G';
    refused("a letter there that is no digit", damaged, sizeof damaged);
    memcpy(damaged, text, line_17);
    memcpy(damaged + line_17, text + line_17 + DATA_LINE, sizeof text - line_17 - DATA_LINE);
    refused("line 17 left out", damaged, sizeof text - DATA_LINE);
    refused("the end record cut off", text, end_record);

    memset(damaged, '-', sizeof damaged);
    say("room for a byte less than the text", kernel_write_hex(state, sizeof state, damaged, sizeof damaged - 1));
    memset(text, '-', sizeof text);
    same("the buffer stayed", text, damaged, sizeof text);
    return 0;
}
