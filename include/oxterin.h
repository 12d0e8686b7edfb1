/* Oxterin: a simulated AT25XE011 serial flash, over a library whose every function is proved to answer as the data sheet's rules say.
 *
 * Link target/library/liboxterin.a, which host/library builds. A first frame:
 *
 *     static uint8_t array[131072], security[128];
 *     uint8_t enable[1] = {0x06}, output[1];
 *     oxterin_record record = oxterin_fresh_record(false, false, false);
 *     oxterin_settings settings = oxterin_typical_settings();
 *     oxterin_answer answer;
 *     oxterin_refusal refusal = oxterin_send_frame(
 *         &record, &settings, oxterin_whole_bytes(1, 0), array, sizeof array, security, sizeof security,
 *         enable, sizeof enable, output, sizeof output, &answer);
 *
 * Nothing is kept between calls but what you hand in again: the record, the array, the security register and, if there is one, the ledger.
 * Calls on different parts may run at the same time, if each has a ledger of its own or none. Memories that are written (record, array,
 * register, output, text, answer, ledger, month, line, characters, place) must not overlap anything else that the same call is handed. A
 * null array, register, input, output or text counts as one of length 0; record, settings, answer, ledger, month, line, characters and
 * place are never null.
 *
 * Time passes only in ticks that a call brings: those elapsed before its frame, and those that each byte position of the frame takes. Who
 * fills oxterin_signals field by field sets ticks_per_byte too: 0 is a frame that takes no time.
 *
 * Where several accounts share a part, oxterin_send_frame_for and a ledger bill an operation's busy ticks to the account that began it, no
 * matter who polls. At a month's end oxterin_close_month hands the ledger out, and it goes on with empty tables.
 *
 * C11 or C++17; needs nothing but this file and the library.
 */
#ifndef OXTERIN_H
#define OXTERIN_H

#include <stdbool.h>
#include <stddef.h>
#include <stdint.h>

#ifdef __cplusplus
extern "C" {
#endif

/* The version of this header; oxterin_version() is the library's. A million for the first number, a thousand for the second. */
#define OXTERIN_VERSION 1005000

/* Lengths in bytes. */
#define OXTERIN_ARRAY 131072u      /* the AT25XE011's own array */
#define OXTERIN_SMALL_ARRAY 65536u /* also accepted */
#define OXTERIN_REGISTER 128u      /* the security register */
#define OXTERIN_MOST_BYTES 8192u   /* a frame has no more */

/* A byte position takes no more ticks. */
#define OXTERIN_MOST_TICKS_PER_BYTE 1000u

/* A ledger. */
#define OXTERIN_ACCOUNTS 256u                            /* its accounts, counted from 0 */
#define OXTERIN_NOBODY 256u                              /* stands for no account, as every number above does */
#define OXTERIN_BILL_LIMIT UINT64_C(9000000000000000000) /* no total and no number of operations is accepted above */

/* Lengths in characters of an array's content as Intel HEX text, as it is written. A text that is read may have any length. */
#define OXTERIN_HEX_TEXT 360492u       /* of OXTERIN_ARRAY */
#define OXTERIN_SMALL_HEX_TEXT 180252u /* of OXTERIN_SMALL_ARRAY */

/* Awake, or in one of the sleep modes. */
typedef enum { OXTERIN_AWAKE = 0, OXTERIN_DEEP = 1, OXTERIN_ULTRA_DEEP = 2 } oxterin_mode;

/* The device record: all that the part remembers beside its memories. */
typedef struct {
    bool bpl;          /* the lock of the protection bit */
    bool bp0;          /* the protection of the whole array */
    bool wel;          /* the write enable latch */
    bool rste;         /* whether the reset command is heard */
    bool otp_used;     /* whether the one-time-programmable bytes have been programmed */
    oxterin_mode mode; /* awake or asleep */
    uint64_t busy;     /* ticks left until the running operation ends */
} oxterin_record;

/* How long each kind of operation takes, in ticks; a tick is a microsecond by convention. */
typedef struct {
    uint64_t byte_program;   /* a program of one byte */
    uint64_t longer_program; /* a program of more than one byte */
    uint64_t page_erase;     /* 256 bytes */
    uint64_t erase_4k;       /* 4 KiB */
    uint64_t erase_32k;      /* 32 KiB */
    uint64_t chip_erase;     /* the whole array */
    uint64_t otp_program;    /* the one-time-programmable bytes */
    uint64_t status_write;   /* status byte 1 */
} oxterin_settings;

/* What goes with the bytes of a frame. */
typedef struct {
    uint64_t bits;           /* bits clocked while chip select was low */
    bool wp_high;            /* the level of WP during the whole frame */
    uint64_t elapsed;        /* ticks elapsed since the call before, up to the frame's first bit */
    uint64_t ticks_per_byte; /* ticks that each byte position takes, a partial last one too; at most 1,000 */
} oxterin_signals;

/* The running operation: whose it is, and what it was billed so far. */
typedef struct {
    uint64_t account; /* the one whose frame began it; any number over 255 is nobody */
    uint64_t billed;  /* ticks billed for it so far, since the last close */
} oxterin_running;

/* A ledger: what each account was billed, and the running operation.
 *
 * Every frame of a part goes through its ledger: one sent past it (oxterin_send_frame, oxterin_frame), or a changed record, leaves `running`
 * stale, and the wrong account may pay. A ledger is one part's; who has several parts keeps one ledger each and adds the lines (of `most`,
 * the largest), or shares the tables and keeps a running part each (oxterin_ledger_frame takes them apart), with one call at a time. */
typedef struct {
    uint64_t totals[OXTERIN_ACCOUNTS];  /* ticks billed */
    uint64_t most[OXTERIN_ACCOUNTS];    /* the most ticks billed for one operation */
    uint64_t numbers[OXTERIN_ACCOUNTS]; /* how many operations it began */
    oxterin_running running;            /* the running operation */
} oxterin_ledger;

/* What a ledger says of an account. */
typedef struct {
    uint64_t total;  /* ticks billed */
    uint64_t most;   /* the most ticks billed for one operation */
    uint64_t number; /* how many operations it began */
} oxterin_line;

/* Why a call was refused. Record, ledger, memories, output and text are then as they were, and neither elapsed nor frame ticks count. A
 * frame has the refusals 1 to 8, and through a ledger 9; an account's line has 9; writing HEX has 17 and 18, reading it 12 to 16 and 18. */
typedef enum {
    OXTERIN_ACCEPTED = 0,
    OXTERIN_ARRAY_LENGTH = 1,      /* the array has neither 131,072 nor 65,536 bytes */
    OXTERIN_REGISTER_LENGTH = 2,   /* the security register has not 128 bytes */
    OXTERIN_INPUT_LENGTH = 3,      /* more than 8,192 input bytes */
    OXTERIN_BIT_COUNT = 4,         /* the bit count does not need exactly as many bytes */
    OXTERIN_OUTPUT_LENGTH = 5,     /* the output buffer is shorter than the input */
    OXTERIN_RECORD = 6,            /* more than 60,000,000 busy ticks left, or any in a part that is asleep */
    OXTERIN_DURATION = 7,          /* a duration is 0 or over 60,000,000 */
    OXTERIN_TICKS_PER_BYTE = 8,    /* more than 1,000 ticks per byte position */
    OXTERIN_ACCOUNT = 9,           /* the account is over 255, or a total or number of the ledger is above OXTERIN_BILL_LIMIT */
    OXTERIN_HEX_MALFORMED = 12,    /* a line is no record; or data in 01, other than two bytes in 04 */
    OXTERIN_HEX_CHECKSUM = 13,     /* the checksum is wrong */
    OXTERIN_HEX_KIND = 14,         /* another type than 00, 01 and 04 */
    OXTERIN_HEX_OUTSIDE = 15,      /* data that do not lie in the array, or cross a border of 64 KiB */
    OXTERIN_HEX_END = 16,          /* the end record is missing, or something follows it */
    OXTERIN_HEX_ROOM = 17,         /* the text buffer is too short */
    OXTERIN_HEX_ARRAY_LENGTH = 18, /* the array of HEX has neither 131,072 nor 65,536 bytes */
    OXTERIN_UNREAD = 255           /* a mode that does not exist */
} oxterin_refusal;

/* What became of an accepted frame. */
typedef enum {
    OXTERIN_NOTHING = 0, /* it had no effect */
    OXTERIN_READ = 1,    /* a read */
    OXTERIN_CONTROL = 2, /* a control command was carried out */
    OXTERIN_ABORTED = 3, /* WEL was dropped, and no operation began */
    OXTERIN_BEGUN = 4    /* an operation took effect */
} oxterin_outcome;

/* Why nothing came of an accepted frame, or why it was aborted: where several hold, the first of this list. Read, control and begun have
 * none, and neither has a refused call. Later versions may know more. */
typedef enum {
    OXTERIN_NO_CAUSE = 0,
    OXTERIN_TOO_FEW_BITS = 1,        /* fewer than 8 bits: no opcode */
    OXTERIN_ASLEEP = 2,              /* in deep power-down, and the frame is not ABh on a byte boundary */
    OXTERIN_BUSY = 3,                /* an operation was running at the first bit, and the opcode is neither 05h nor F0h */
    OXTERIN_UNKNOWN_OPCODE = 4,      /* the part has no such opcode */
    OXTERIN_LATCH_CLEAR = 5,         /* the command needs WEL, and WEL is 0: send 06h before it */
    OXTERIN_RESET_UNCONFIRMED = 6,   /* F0h with RSTE 0, with another second byte than D0h, or with fewer than 16 bits */
    OXTERIN_OFF_BOUNDARY = 7,        /* the command needs a bit count divisible by 8 */
    OXTERIN_INCOMPLETE = 8,          /* the command needs more bytes */
    OXTERIN_PROTECTED = 9,           /* a program or an erase of the array while BP0 is 1 */
    OXTERIN_LOCKED = 10,             /* 01h while BPL is 1 and WP is low */
    OXTERIN_ALREADY_PROGRAMMED = 11, /* 9Bh, and the one-time-programmable bytes were programmed before */
    OXTERIN_ALREADY_AWAKE = 12       /* ABh, and the part is awake */
} oxterin_cause;

typedef struct {
    oxterin_outcome outcome;
    size_t first;        /* the first driven position; 0 if none is driven */
    size_t driven;       /* how many positions are driven */
    oxterin_cause cause; /* why nothing came of the frame, or why it was aborted */
} oxterin_answer;

/* The two memories, for a look. */
typedef enum { OXTERIN_MAIN_ARRAY = 0, OXTERIN_SECURITY_REGISTER = 1 } oxterin_memory;

/* A part of a memory. */
typedef struct {
    const uint8_t *bytes;
    size_t length;
} oxterin_part;

/* The library's own functions, on words. The functions further below are easier to use.
 *
 * A record is 7 words (BPL, BP0, WEL, RSTE, OTP used, mode, busy ticks), the settings are 8, the signals 4 (bits, WP, ticks elapsed, ticks
 * per byte position), an answer 4 (outcome, first, driven, cause), a status 2 bytes, the place of a look 2 (start, length), the running
 * part of a ledger 2 (account, ticks billed), an account's line 3 (total, most, number), the characters and the place of HEX 1. Signals of
 * 3 words, without the last, are accepted too, from callers built for version 1.1.0, and mean 0 ticks per byte position; so is an answer of
 * 3, from callers built for versions up to 1.4.0, who are told no cause. Another length, a flag that is neither 0 nor 1, or a mode or
 * memory that does not exist is answered with 255, and then nothing has changed. The totals, most and numbers of a ledger always have
 * OXTERIN_ACCOUNTS words each. No pointer may be null. */
uint64_t oxterin_version(void);
uint64_t oxterin_fresh(uint64_t bpl, uint64_t bp0, uint64_t otp_used, uint64_t *record, size_t record_length);
uint64_t oxterin_typical(uint64_t *settings, size_t settings_length);
uint64_t oxterin_status(const uint64_t *record, size_t record_length, uint64_t wp, uint64_t *status, size_t status_length);
uint64_t oxterin_look(const uint8_t *array, size_t array_length, const uint8_t *security, size_t security_length, uint64_t memory,
                      uint64_t address, uint64_t count, uint64_t *place, size_t place_length);
uint64_t oxterin_frame(uint64_t *record, size_t record_length, const uint64_t *settings, size_t settings_length,
                       const uint64_t *signals, size_t signals_length, uint8_t *array, size_t array_length, uint8_t *security,
                       size_t security_length, const uint8_t *input, size_t input_length, uint8_t *output, size_t output_length,
                       uint64_t *answer, size_t answer_length);
uint64_t oxterin_ledger_frame(uint64_t *record, size_t record_length, const uint64_t *settings, size_t settings_length,
                              const uint64_t *signals, size_t signals_length, uint8_t *array, size_t array_length, uint8_t *security,
                              size_t security_length, const uint8_t *input, size_t input_length, uint8_t *output, size_t output_length,
                              uint64_t *answer, size_t answer_length, uint64_t account, uint64_t *running, size_t running_length,
                              uint64_t *totals, uint64_t *most, uint64_t *numbers);
uint64_t oxterin_close(uint64_t *running, size_t running_length, uint64_t *totals, uint64_t *most, uint64_t *numbers,
                       uint64_t *old_totals, uint64_t *old_most, uint64_t *old_numbers);
uint64_t oxterin_report(const uint64_t *totals, const uint64_t *most, const uint64_t *numbers, uint64_t account, uint64_t *line,
                        size_t line_length);
uint64_t oxterin_hex_write(const uint8_t *array, size_t array_length, uint8_t *text, size_t text_length, uint64_t *characters,
                           size_t characters_length);
uint64_t oxterin_hex_read(const uint8_t *text, size_t text_length, uint8_t *array, size_t array_length, uint64_t *place,
                          size_t place_length);

/* A record's words, and back. */
static inline void oxterin_pack_record(const oxterin_record *record, uint64_t words[7]) {
    words[0] = record->bpl;
    words[1] = record->bp0;
    words[2] = record->wel;
    words[3] = record->rste;
    words[4] = record->otp_used;
    words[5] = (uint64_t)record->mode;
    words[6] = record->busy;
}

static inline oxterin_record oxterin_unpack_record(const uint64_t words[7]) {
    oxterin_record record;
    record.bpl = words[0] == 1;
    record.bp0 = words[1] == 1;
    record.wel = words[2] == 1;
    record.rste = words[3] == 1;
    record.otp_used = words[4] == 1;
    record.mode = words[5] == 0 ? OXTERIN_AWAKE : words[5] == 1 ? OXTERIN_DEEP : OXTERIN_ULTRA_DEEP;
    record.busy = words[6];
    return record;
}

/* The words of settings and of signals. */
static inline void oxterin_pack_settings(const oxterin_settings *settings, uint64_t words[8]) {
    words[0] = settings->byte_program;
    words[1] = settings->longer_program;
    words[2] = settings->page_erase;
    words[3] = settings->erase_4k;
    words[4] = settings->erase_32k;
    words[5] = settings->chip_erase;
    words[6] = settings->otp_program;
    words[7] = settings->status_write;
}

static inline void oxterin_pack_signals(oxterin_signals signals, uint64_t words[4]) {
    words[0] = signals.bits;
    words[1] = signals.wp_high;
    words[2] = signals.elapsed;
    words[3] = signals.ticks_per_byte;
}

/* A fresh record: awake and idle, WEL and RSTE clear. */
static inline oxterin_record oxterin_fresh_record(bool bpl, bool bp0, bool otp_used) {
    uint64_t words[7] = {0, 0, 0, 0, 0, 0, 0};
    (void)oxterin_fresh(bpl, bp0, otp_used, words, 7);
    return oxterin_unpack_record(words);
}

/* The data sheet's typical durations. */
static inline oxterin_settings oxterin_typical_settings(void) {
    uint64_t words[8] = {0, 0, 0, 0, 0, 0, 0, 0};
    oxterin_settings settings;
    (void)oxterin_typical(words, 8);
    settings.byte_program = words[0];
    settings.longer_program = words[1];
    settings.page_erase = words[2];
    settings.erase_4k = words[3];
    settings.erase_32k = words[4];
    settings.chip_erase = words[5];
    settings.otp_program = words[6];
    settings.status_write = words[7];
    return settings;
}

/* The signals of a frame of whole bytes with WP high that takes no time. */
static inline oxterin_signals oxterin_whole_bytes(size_t bytes, uint64_t elapsed) {
    oxterin_signals signals;
    signals.bits = 8 * (uint64_t)bytes;
    signals.wp_high = true;
    signals.elapsed = elapsed;
    signals.ticks_per_byte = 0;
    return signals;
}

/* Status byte 1 in the low eight bits, byte 2 in the next eight, with the level of WP; 0 for a record whose mode does not exist. */
static inline uint16_t oxterin_status_bytes(const oxterin_record *record, bool wp_high) {
    uint64_t words[7];
    uint64_t status[2] = {0, 0};
    oxterin_pack_record(record, words);
    (void)oxterin_status(words, 7, wp_high, status, 2);
    return (uint16_t)(status[0] | status[1] << 8);
}

/* What stands in for a null pointer: a memory of length 0. */
static inline uint8_t *oxterin_nowhere(void) {
    static uint8_t nowhere;
    return &nowhere;
}

static inline size_t oxterin_length_of(const uint8_t *bytes, size_t length) { return bytes ? length : 0; }

/* The part of the chosen memory that begins at the address, reduced to the memory's size, and has `count` bytes unless the memory ends
 * before. Empty if that memory's length is wrong or the memory does not exist. */
static inline oxterin_part oxterin_look_at(const uint8_t *array, size_t array_length, const uint8_t *security, size_t security_length,
                                           oxterin_memory memory, uint64_t address, uint64_t count) {
    uint64_t place[2] = {0, 0};
    const uint8_t *chosen = memory == OXTERIN_MAIN_ARRAY ? array : security;
    oxterin_part part;
    (void)oxterin_look(array ? array : oxterin_nowhere(), oxterin_length_of(array, array_length),
                       security ? security : oxterin_nowhere(), oxterin_length_of(security, security_length), (uint64_t)memory, address,
                       count, place, 2);
    part.bytes = (chosen ? chosen : oxterin_nowhere()) + place[0];
    part.length = (size_t)place[1];
    return part;
}

/* What a frame's number and words stand for. The record is taken over if the frame was accepted. */
static inline oxterin_refusal oxterin_take_answer(uint64_t number, const uint64_t device[7], const uint64_t told[4],
                                                  oxterin_record *record, oxterin_answer *answer) {
    answer->outcome = (oxterin_outcome)told[0];
    answer->first = (size_t)told[1];
    answer->driven = (size_t)told[2];
    answer->cause = (oxterin_cause)told[3];
    if (number == 0) {
        *record = oxterin_unpack_record(device);
    }
    return (oxterin_refusal)number;
}

/* One chip-select frame. The record becomes what the part then remembers, and of the output the first input_length bytes are written.
 * The answer says what became of the frame, and if nothing did, or it was aborted, why. After a refused call it says nothing, no cause, 0
 * and 0, and all else is as it was.
 *
 * Position k, counted from 0, begins k * ticks_per_byte ticks after the frame's first bit, and a status byte of 05h says what busy is at that
 * moment. Whether the part is too busy to hear the frame is settled at the frame's first bit, and an operation that the frame begins starts
 * at the rise of chip select. */
static inline oxterin_refusal oxterin_send_frame(oxterin_record *record, const oxterin_settings *settings, oxterin_signals signals,
                                                 uint8_t *array, size_t array_length, uint8_t *security, size_t security_length,
                                                 const uint8_t *input, size_t input_length, uint8_t *output, size_t output_length,
                                                 oxterin_answer *answer) {
    uint64_t device[7];
    uint64_t durations[8];
    uint64_t levels[4];
    uint64_t told[4] = {0, 0, 0, 0};
    uint64_t number;
    oxterin_pack_record(record, device);
    oxterin_pack_settings(settings, durations);
    oxterin_pack_signals(signals, levels);
    number = oxterin_frame(device, 7, durations, 8, levels, 4, array ? array : oxterin_nowhere(),
                           oxterin_length_of(array, array_length), security ? security : oxterin_nowhere(),
                           oxterin_length_of(security, security_length), input ? input : oxterin_nowhere(),
                           oxterin_length_of(input, input_length), output ? output : oxterin_nowhere(),
                           oxterin_length_of(output, output_length), told, 4);
    return oxterin_take_answer(number, device, told, record, answer);
}

/* Makes a ledger empty: nothing billed, nothing begun, and what is running is nobody's. */
static inline void oxterin_empty_ledger(oxterin_ledger *ledger) {
    size_t account;
    for (account = 0; account < OXTERIN_ACCOUNTS; account++) {
        ledger->totals[account] = 0;
        ledger->most[account] = 0;
        ledger->numbers[account] = 0;
    }
    ledger->running.account = OXTERIN_NOBODY;
    ledger->running.billed = 0;
}

/* One chip-select frame as oxterin_send_frame sends it, for an account. The ticks that come off a running operation are billed to the
 * account whose frame began it; an operation that this frame begins is the account's own, and none of this frame's ticks are billed for it.
 * With an empty ledger at first, what the first record has left is nobody's. A refused call changes no word of the ledger. */
static inline oxterin_refusal oxterin_send_frame_for(uint64_t account, oxterin_ledger *ledger, oxterin_record *record,
                                                     const oxterin_settings *settings, oxterin_signals signals, uint8_t *array,
                                                     size_t array_length, uint8_t *security, size_t security_length,
                                                     const uint8_t *input, size_t input_length, uint8_t *output, size_t output_length,
                                                     oxterin_answer *answer) {
    uint64_t device[7];
    uint64_t durations[8];
    uint64_t levels[4];
    uint64_t told[4] = {0, 0, 0, 0};
    uint64_t running[2];
    uint64_t number;
    oxterin_pack_record(record, device);
    oxterin_pack_settings(settings, durations);
    oxterin_pack_signals(signals, levels);
    running[0] = ledger->running.account;
    running[1] = ledger->running.billed;
    number = oxterin_ledger_frame(device, 7, durations, 8, levels, 4, array ? array : oxterin_nowhere(),
                                  oxterin_length_of(array, array_length), security ? security : oxterin_nowhere(),
                                  oxterin_length_of(security, security_length), input ? input : oxterin_nowhere(),
                                  oxterin_length_of(input, input_length), output ? output : oxterin_nowhere(),
                                  oxterin_length_of(output, output_length), told, 4, account, running, 2, ledger->totals,
                                  ledger->most, ledger->numbers);
    ledger->running.account = running[0];
    ledger->running.billed = running[1];
    return oxterin_take_answer(number, device, told, record, answer);
}

/* Closes a month: `month` becomes the ledger as it was, and then the ledger's tables are empty. The operation that runs stays its account's:
 * its ticks so far and its number are the old month's, its further ticks the new one's, whose `most` counts these alone. Every ledger is
 * accepted, also one that is full. */
static inline oxterin_refusal oxterin_close_month(oxterin_ledger *ledger, oxterin_ledger *month) {
    uint64_t running[2];
    uint64_t number;
    month->running = ledger->running;
    running[0] = ledger->running.account;
    running[1] = ledger->running.billed;
    number = oxterin_close(running, 2, ledger->totals, ledger->most, ledger->numbers, month->totals, month->most, month->numbers);
    ledger->running.account = running[0];
    ledger->running.billed = running[1];
    return (oxterin_refusal)number;
}

/* An account's line of a ledger; all 0 if the account is over 255, which is refused. */
static inline oxterin_refusal oxterin_account_line(const oxterin_ledger *ledger, uint64_t account, oxterin_line *line) {
    uint64_t words[3] = {0, 0, 0};
    uint64_t number = oxterin_report(ledger->totals, ledger->most, ledger->numbers, account, words, 3);
    line->total = words[0];
    line->most = words[1];
    line->number = words[2];
    return (oxterin_refusal)number;
}

/* The array's content as Intel HEX text, OXTERIN_HEX_TEXT or OXTERIN_SMALL_HEX_TEXT characters, with no NUL behind it: for each 64 KiB a
 * record of type 04 and data records of 16 bytes, then the end record; upper case, an LF after each. The bytes of the buffer behind the
 * text stay. `characters` becomes the number of characters written, 0 if refused. */
static inline oxterin_refusal oxterin_write_hex(const uint8_t *array, size_t array_length, uint8_t *text, size_t text_length,
                                                size_t *characters) {
    uint64_t told[1] = {0};
    uint64_t number = oxterin_hex_write(array ? array : oxterin_nowhere(), oxterin_length_of(array, array_length),
                                        text ? text : oxterin_nowhere(), oxterin_length_of(text, text_length), told, 1);
    *characters = (size_t)told[0];
    return (oxterin_refusal)number;
}

/* Reads Intel HEX text into the array: records of types 00, 01 and 04 in either case, ended by LF or CR LF. Later records win, and bytes
 * that none names stay. `place` becomes the place, counted from 0, of the character at which the faulty record begins; for refusal 16 that
 * of the first character behind the end record's line, or, if there is no end record, the end of the text, which is its length; 0 if the
 * text is accepted or the array's length is refused. */
static inline oxterin_refusal oxterin_read_hex(const uint8_t *text, size_t text_length, uint8_t *array, size_t array_length,
                                               size_t *place) {
    uint64_t told[1] = {0};
    uint64_t number = oxterin_hex_read(text ? text : oxterin_nowhere(), oxterin_length_of(text, text_length),
                                       array ? array : oxterin_nowhere(), oxterin_length_of(array, array_length), told, 1);
    *place = (size_t)told[0];
    return (oxterin_refusal)number;
}

/* An outcome's word. */
static inline const char *oxterin_outcome_word(oxterin_outcome outcome) {
    switch (outcome) {
    case OXTERIN_NOTHING:
        return "nothing";
    case OXTERIN_READ:
        return "read";
    case OXTERIN_CONTROL:
        return "control";
    case OXTERIN_ABORTED:
        return "aborted";
    case OXTERIN_BEGUN:
        return "begun";
    }
    return "unknown";
}

/* The words for a cause. */
static inline const char *oxterin_cause_words(oxterin_cause cause) {
    switch (cause) {
    case OXTERIN_NO_CAUSE:
        return "none";
    case OXTERIN_TOO_FEW_BITS:
        return "too few bits";
    case OXTERIN_ASLEEP:
        return "asleep";
    case OXTERIN_BUSY:
        return "busy";
    case OXTERIN_UNKNOWN_OPCODE:
        return "unknown opcode";
    case OXTERIN_LATCH_CLEAR:
        return "latch clear";
    case OXTERIN_RESET_UNCONFIRMED:
        return "reset not enabled or not confirmed";
    case OXTERIN_OFF_BOUNDARY:
        return "off boundary";
    case OXTERIN_INCOMPLETE:
        return "incomplete";
    case OXTERIN_PROTECTED:
        return "protected";
    case OXTERIN_LOCKED:
        return "locked";
    case OXTERIN_ALREADY_PROGRAMMED:
        return "already programmed";
    case OXTERIN_ALREADY_AWAKE:
        return "already awake";
    }
    return "unknown";
}

/* What a refusal says. */
static inline const char *oxterin_refusal_text(oxterin_refusal refusal) {
    switch (refusal) {
    case OXTERIN_ACCEPTED:
        return "accepted";
    case OXTERIN_ARRAY_LENGTH:
        return "the array has neither 131,072 nor 65,536 bytes";
    case OXTERIN_REGISTER_LENGTH:
        return "the security register has not 128 bytes";
    case OXTERIN_INPUT_LENGTH:
        return "a frame has at most 8,192 bytes";
    case OXTERIN_BIT_COUNT:
        return "the bit count does not need exactly that many bytes";
    case OXTERIN_OUTPUT_LENGTH:
        return "the output buffer is shorter than the input";
    case OXTERIN_RECORD:
        return "the record has more than 60,000,000 busy ticks left, or any while asleep";
    case OXTERIN_DURATION:
        return "a duration is 0 or over 60,000,000 ticks";
    case OXTERIN_TICKS_PER_BYTE:
        return "more than 1,000 ticks per byte position";
    case OXTERIN_ACCOUNT:
        return "the account is over 255, or an account's total or number of operations is above 9,000,000,000,000,000,000";
    case OXTERIN_HEX_MALFORMED:
        return "a line is no record, by its colon, its digits or its length, or has data in 01 or other than two bytes in 04";
    case OXTERIN_HEX_CHECKSUM:
        return "a record has a wrong checksum";
    case OXTERIN_HEX_KIND:
        return "a record has another type than 00, 01 and 04";
    case OXTERIN_HEX_OUTSIDE:
        return "a record has data that do not lie in the array, or cross a border of 64 KiB";
    case OXTERIN_HEX_END:
        return "the end record is missing, or something follows it";
    case OXTERIN_HEX_ROOM:
        return "the text buffer is shorter than the text";
    case OXTERIN_HEX_ARRAY_LENGTH:
        return "the array has neither 131,072 nor 65,536 bytes";
    case OXTERIN_UNREAD:
        return "a mode that does not exist";
    }
    return "unknown";
}

#ifdef __cplusplus
}
#endif

#endif
