/* Thepharok: a small capability kernel whose calls are proved.
 *
 * Link with libkernel.a, which ./libkernel writes to target/staticlib/ (x86-64 Linux; of the C library
 * it needs memset and nothing else). The functions keep nothing between calls, allocate nothing and never wait. All state is the buffer
 * that you lend; two buffers are two kernels. No function asks you to check anything beforehand: every buffer, caller and word is
 * judged, and a refusal changes no byte. Calls on one buffer must not overlap in time, nor the buffers of one call in memory.
 *
 * A length counts elements, not bytes: of uint8_t for a state and a text, of uint32_t for words.
 *
 * Stack, in bytes from the caller on, measured (examples/c/stack.c): kernel_read_hex 53,880, kernel_hex_lines 35,032,
 * kernel_write_hex 2,472, kernel_run 1,672, kernel_call 1,600, kernel_tick 1,416, kernel_check 1,400, kernel_boot 56; the others a few words.
 */
#ifndef THEPHAROK_H
#define THEPHAROK_H

#include <stdbool.h>
#include <stddef.h>
#include <stdint.h>

#ifdef __cplusplus
extern "C" {
#endif

/* A state: 16,384 bytes of kernel memory, 1,024 of slot bookkeeping, 64 for the clock and spare. docs/LAYOUT.md has every byte. */
#define THEPHAROK_STATE_LENGTH 17472

/* A state's text: Intel HEX as kernel_write_hex writes it. */
#define THEPHAROK_TEXT_LENGTH 48076

/* The process that a boot makes, by its slot: the first caller. */
#define THEPHAROK_BOOT_PROCESS 18

/* The caller that stands for the clock in a script of kernel_run. */
#define THEPHAROK_CLOCK 0xFFFFFFFFu

/* Refusals. 0 and above is success: 0, or the count that a receive or a function gives. docs/USING.md says what to do about each. */
enum {
    THEPHAROK_CAP_RANGE = -1,     /* a capability number or place is beyond the table, or the entries are not 1 to 64 */
    THEPHAROK_CAP_FROZEN = -2,    /* a capability or place used is frozen, or one to delete or remove is not */
    THEPHAROK_CAP_TYPE = -3,      /* a right of another kind is there, or none where a kind is needed */
    THEPHAROK_CAP_NULL = -4,      /* the place is blank, or the function's number is not 0 */
    THEPHAROK_CAP_FLAG = -5,      /* a flag or range is lacking, the address is not a multiple of 64, or the grant is empty or inverted */
    THEPHAROK_CAP_EXIST = -6,     /* the place is filled, or the table to delete is not empty */
    THEPHAROK_CAP_KOTBL = -7,     /* a slot that is needed is occupied */
    THEPHAROK_CAP_QUIE = -8,      /* frozen for fewer than 8 ticks */
    THEPHAROK_CAP_REFCNT = -9,    /* it has children or users, or it is a root to remove or a child to delete */
    THEPHAROK_PGT_HW = -10,       /* no such directory can be, it must be top, it has a child or is one, or the source holds no page */
    THEPHAROK_PGT_ADDR = -11,     /* a position is past the end, or the size orders or the index do not fit */
    THEPHAROK_PGT_MAP = -12,      /* the position is filled, or holds nothing of the sort, or the child is a top directory */
    THEPHAROK_PGT_PERM = -13,     /* page flags that the source page lacks */
    THEPHAROK_SIV_FULL = -14,     /* the endpoint's count is 4294967295 */
    THEPHAROK_SIV_ACT = -15,      /* the option is not 2 (NS) or 3 (NM) */
    THEPHAROK_SIV_CONFLICT = -16, /* the boot endpoint cannot be deleted */
    THEPHAROK_NO_CALL = -17,      /* the call number is not 1 to 20 */
    THEPHAROK_NO_CALLER = -18,    /* the caller is not the slot of a live process */
    THEPHAROK_NO_STATE = -19,     /* the buffer is not 17472 bytes or not well formed, or what a text gives is not */
    THEPHAROK_HEX_LINE = -30,     /* no record stands in the line: a character, the line's end, the length or the type is wrong */
    THEPHAROK_HEX_SUM = -31,      /* the record's sum is wrong: the line was altered */
    THEPHAROK_HEX_ADDRESS = -32,  /* bytes outside 20000000..20004440 or given twice, or at the end record bytes that no line gave */
    THEPHAROK_HEX_END = -33,      /* the text ends without its end record, or goes on behind it */
    THEPHAROK_HEX_ROOM = -34,     /* kernel_write_hex: fewer than 48076 bytes are lent for the text */
    THEPHAROK_CUT_SCRIPT = -60,   /* kernel_run: the script ends inside an event */
    THEPHAROK_FEW_LENT = -61      /* kernel_run, kernel_pack, kernel_unpack: too few answers or words are lent */
};

/* Makes the boot state, whatever the buffer held: 0, or -19 for another length than THEPHAROK_STATE_LENGTH. */
int32_t kernel_boot(uint8_t *state, size_t length);

/* One tick of the clock: 0, or -19. */
int32_t kernel_tick(uint8_t *state, size_t length);

/* Whether the buffer holds a well-formed state: true exactly where a tick or a call would not answer -19. */
bool kernel_check(const uint8_t *state, size_t length);

/* The call with the words N:C, P1, P2, P3 by the process at slot `caller`: 0, a count, or a refusal of -1 to -19. */
int32_t kernel_call(uint8_t *state, size_t length, uint32_t caller, uint32_t w0, uint32_t w1, uint32_t w2, uint32_t w3);

/* Calls and ticks one after the other. The script has five words an event: the caller and the four words, or THEPHAROK_CLOCK and
 * four words that are not read. Each event's answer goes into `answers` in order; what lies behind them stays. 0, or -60 or -61, and
 * then nothing has happened. */
int32_t kernel_run(uint8_t *state, size_t length, const uint32_t *script, size_t script_length, int32_t *answers, size_t answers_length);

/* The two words N:C and P3 by which a delegation (call 3) grants the kernel memory from `lower` to below `upper` with `flags`, into
 * words[0] and words[1]: 0; -61 where fewer than two words are lent; -5 for an address off 64 or flags above 63. */
int32_t kernel_pack(uint32_t lower, uint32_t upper, uint32_t flags, uint32_t *words, size_t words_length);

/* What such words grant, into words[0] (lower), words[1] (upper, excluded) and words[2] (flags): 0, or -61 where fewer than three words
 * are lent. Unpacking takes every pair of words. */
int32_t kernel_unpack(uint32_t nc, uint32_t p3, uint32_t *words, size_t words_length);

/* Writes the state as the firmware loader takes it, the same text whenever the state is the same: an address record for 0x2000, 1,092
 * data records of 16 bytes from 0x20000000 on, the end record; upper-case digits, a line feed behind each. It fills the first 48,076
 * bytes of `text`; those behind them stay. 0, or -19 where the state is of another length or not well formed, then -34. */
int32_t kernel_write_hex(const uint8_t *state, size_t length, uint8_t *text, size_t text_length);

/* Reads a state from such a text, and from every other that gives each of the 17,472 bytes once: letters of either case, line ends LF or
 * CR LF, data records of 1 to 255 bytes in any order, address records anywhere before the end record. 0, and then the buffer is that
 * state, whatever it held; or
 *   -19         first, where the buffer is of another length;
 *   -30 to -33  the fault of the first faulty line: in a line -30 before -31 before -32; a gap is -32 at the end record; -33 where the
 *               lines are used up without an end record, or anything at all stands behind it;
 *   -19         last, where the bytes that the lines give are no well-formed state.
 * Record types other than 00, 01 and 04 are refused, a start record (03, 05) too, and so is a last line without its line feed.
 * It keeps three bytes on the stack for each byte of a state, 52,416: the buffer is not written before the whole text is found right. */
int32_t kernel_read_hex(const uint8_t *text, size_t text_length, uint8_t *state, size_t length);

/* How many lines of the text are taken before the first faulty one: where kernel_read_hex answers -30 to -33, the line at fault is this
 * number + 1, counted from 1 (one more than there are, where the end record is lacking). A text without fault: all its lines.
 * It keeps two bytes on the stack for each byte of a state, 34,944. */
size_t kernel_hex_lines(const uint8_t *text, size_t text_length);

#ifdef __cplusplus
}
#endif

#endif
