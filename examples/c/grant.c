/* Boots a kernel, grants a part of its memory, builds inside the grant and is refused outside of it. Each line printed is what was
 * asked and the answer; examples/rust/grant.rs prints the same. */
#include <inttypes.h>
#include <stdio.h>

#include "thepharok.h"

static uint8_t state[THEPHAROK_STATE_LENGTH];

static void say(const char *what, int32_t answer)
{
    printf("%s: %" PRId32 "\n", what, answer);
}

static int32_t call(uint32_t w0, uint32_t w1, uint32_t w2, uint32_t w3)
{
    return kernel_call(state, sizeof state, THEPHAROK_BOOT_PROCESS, w0, w1, w2, w3);
}

int main(void)
{
    uint32_t grant[2];
    uint32_t back[3];
    int32_t answers[9];
    uint32_t ticks[9 * 5] = {0};
    size_t i;

    say("tick before the boot", kernel_tick(state, sizeof state));
    say("boot of a short buffer", kernel_boot(state, sizeof state - 1));
    say("boot", kernel_boot(state, sizeof state));

    /* Flag SIG, 0x10, on 0x20000400 to below 0x20000800: the memory right at place 4 lends it to place 6. */
    say("pack an address off 64", kernel_pack(0x20000401, 0x20000800, 0x10, grant, 2));
    say("pack", kernel_pack(0x20000400, 0x20000800, 0x10, grant, 2));
    say("unpack", kernel_unpack(grant[0], grant[1], back, 3));
    printf("  %08" PRIx32 "..%08" PRIx32 ", flags %02" PRIx32 "\n", back[0], back[1], back[2]);
    say("delegate it to place 6", call(grant[0], 6, 4, grant[1]));

    /* Create an endpoint (call 16): memory right 6, place 7, address. */
    say("endpoint at 0x20000800, outside", call(0x00100000, 6, 7, 0x20000800));
    say("endpoint at 0x200007C0, inside", call(0x00100000, 6, 7, 0x200007C0));
    say("send to it", call(0x00120000, 7, 0, 0));
    say("send to it", call(0x00120000, 7, 0, 0));
    say("receive all (NM)", call(0x00130000, 7, 3, 0));

    /* Freeze its right (call 4), then eight ticks and the deletion (call 17) in one script. */
    say("freeze", call(0x00040000, 7, 0, 0));
    for (i = 0; i < 8; i++)
        ticks[5 * i] = THEPHAROK_CLOCK;
    ticks[40] = THEPHAROK_BOOT_PROCESS;
    ticks[41] = 0x00110000;
    ticks[42] = 7;
    say("run eight ticks and a deletion", kernel_run(state, sizeof state, ticks, 45, answers, 9));
    say("  the deletion", answers[8]);
    say("  a cut script", kernel_run(state, sizeof state, ticks, 44, answers, 9));

    printf("check: %s\n", kernel_check(state, sizeof state) ? "yes" : "no");
    state[17471] = 1;
    printf("check with a spare byte set: %s\n", kernel_check(state, sizeof state) ? "yes" : "no");
    say("call on it", call(0x00140003, 0, 0, 0));
    return 0;
}
