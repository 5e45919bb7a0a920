/* Measures how much stack the functions need: each runs on a stack of its own that was filled with a pattern, and needs as much as it
 * wrote over, counted from its caller's stack pointer. Standard input is a session for the console: each call and tick of it is made, and
 * every function measured at each; the most is printed. include/thepharok.h names the figures. */
#define _XOPEN_SOURCE 700
#include <stdio.h>
#include <stdlib.h>
#include <ucontext.h>

#include "thepharok.h"

#define PATTERN 0xA5A5A5A5A5A5A5A5u
enum { STACK_LENGTH = 32768, WORD = sizeof(uint64_t) };

static uint64_t stack[STACK_LENGTH];
static uint8_t state[THEPHAROK_STATE_LENGTH];
static uint8_t second[THEPHAROK_STATE_LENGTH];
static uint8_t text[THEPHAROK_TEXT_LENGTH];
static uint32_t event[5];
static int32_t answers[1];
static uint64_t *caller; /* its stack pointer */
static volatile int64_t answer; /* stored after the call, so that it is a call and no jump */
static ucontext_t here, there;

#define MEASURED(name, call)                               \
    static void name(void)                                 \
    {                                                      \
        __asm__ volatile("mov %%rsp, %0" : "=r"(caller)); \
        answer = (int64_t)call;                            \
    }

MEASURED(boot, kernel_boot(second, sizeof second))
MEASURED(tick, kernel_tick(second, sizeof second))
MEASURED(call, kernel_call(second, sizeof second, event[0], event[1], event[2], event[3], event[4]))
MEASURED(run, kernel_run(state, sizeof state, event, 5, answers, 1))
MEASURED(check, kernel_check(state, sizeof state))
MEASURED(write_hex, kernel_write_hex(state, sizeof state, text, sizeof text))
MEASURED(read_hex, kernel_read_hex(text, sizeof text, second, sizeof second))
MEASURED(hex_lines, kernel_hex_lines(text, sizeof text))

/* In the order in which they are measured: `second` is the state before the event, so that the call meets what the run meets. */
static const struct {
    const char *name;
    void (*function)(void);
} measured[] = {
    {"kernel_boot", boot},
    {"kernel_write_hex", write_hex},
    {"kernel_hex_lines", hex_lines},
    {"kernel_read_hex", read_hex},
    {"kernel_check", check},
    {"kernel_call", call},
    {"kernel_tick", tick},
    {"kernel_run", run},
};
enum { COUNT = sizeof measured / sizeof measured[0] };

static size_t bytes_used(void (*function)(void))
{
    size_t at;

    for (at = 0; at < STACK_LENGTH; at++)
        stack[at] = PATTERN;
    getcontext(&there);
    there.uc_stack.ss_sp = stack;
    there.uc_stack.ss_size = sizeof stack;
    there.uc_link = &here;
    makecontext(&there, function, 0);
    swapcontext(&here, &there);
    for (at = 0; stack[at] == PATTERN;)
        at++;
    return (size_t)(caller - (stack + at)) * WORD;
}

static void measure(size_t most[COUNT])
{
    size_t i;

    for (i = 0; i < COUNT; i++) {
        size_t used = bytes_used(measured[i].function);

        if (most[i] < used)
            most[i] = used;
    }
}

int main(void)
{
    size_t most[COUNT] = {0};
    char line[256];
    size_t i;

    kernel_boot(state, sizeof state);
    while (fgets(line, sizeof line, stdin)) {
        unsigned times = 0;
        char *at = line;

        if (sscanf(line, "tick %u", &times) == 1) {
            event[0] = THEPHAROK_CLOCK;
        } else if (line[0] >= '0' && line[0] <= '9') {
            for (i = 0; i < 5; i++)
                event[i] = (uint32_t)strtoul(at, &at, 0);
            times = 1;
        }
        for (; times > 0; times--)
            measure(most);
    }
    for (i = 0; i < COUNT; i++)
        printf("%s: %zu\n", measured[i].name, most[i]);
    return 0;
}
