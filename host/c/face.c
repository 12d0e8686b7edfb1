/* The header's functions, each tried with values worked out by hand. Compiled as C11 and as C++17. */
#include "oxterin.h"
#include <stdio.h>
#include <string.h>

static int faults;

static void check(int line, bool holds, const char *what) {
    if (!holds) {
        printf("line %d: %s does not hold\n", line, what);
        faults++;
    }
}

#define CHECK(test) check(__LINE__, (test), #test)

static uint8_t array[OXTERIN_ARRAY];
static uint8_t security[OXTERIN_REGISTER];
static uint8_t output[16];
static oxterin_record record;
static oxterin_settings settings;
static oxterin_answer answer;
static oxterin_ledger ledger;
static oxterin_line line;
static uint8_t text[OXTERIN_HEX_TEXT + 1];
static size_t characters;
static size_t place;

/* A frame on the memories above. */
static oxterin_refusal send_with(const uint8_t *input, size_t length, oxterin_signals signals) {
    return oxterin_send_frame(&record, &settings, signals, array, sizeof array, security, sizeof security, input, length, output,
                              sizeof output, &answer);
}

/* A frame of whole bytes that takes no time. */
static oxterin_refusal send_bytes(const uint8_t *input, size_t length, uint64_t elapsed) {
    return send_with(input, length, oxterin_whole_bytes(length, elapsed));
}

/* A frame of so many bits whose byte positions take ticks, WP high. */
static oxterin_refusal send_slowly(const uint8_t *input, size_t length, uint64_t bits, uint64_t elapsed, uint64_t ticks_per_byte) {
    const oxterin_signals signals = {bits, true, elapsed, ticks_per_byte};
    return send_with(input, length, signals);
}

/* A frame for an account, of whole bytes that take ticks. */
static oxterin_refusal send_for(uint64_t account, const uint8_t *input, size_t length, uint64_t elapsed, uint64_t ticks_per_byte) {
    oxterin_signals signals = oxterin_whole_bytes(length, elapsed);
    signals.ticks_per_byte = ticks_per_byte;
    return oxterin_send_frame_for(account, &ledger, &record, &settings, signals, array, sizeof array, security, sizeof security, input,
                                  length, output, sizeof output, &answer);
}

static void start(void) {
    memset(array, 0xFF, sizeof array);
    memset(security, 0xFF, sizeof security);
    memset(output, 0xEE, sizeof output);
    record = oxterin_fresh_record(false, false, false);
    settings = oxterin_typical_settings();
    oxterin_empty_ledger(&ledger);
}

static void records_and_settings(void) {
    start();
    CHECK(oxterin_version() == OXTERIN_VERSION);
    CHECK(settings.byte_program == 12 && settings.longer_program == 2000 && settings.page_erase == 7000 && settings.erase_4k == 50000);
    CHECK(settings.erase_32k == 400000 && settings.chip_erase == 1600000 && settings.otp_program == 400 && settings.status_write == 20000);
    CHECK(!record.wel && !record.rste && record.mode == OXTERIN_AWAKE && record.busy == 0);
    CHECK(oxterin_whole_bytes(3, 7).bits == 24 && oxterin_whole_bytes(3, 7).elapsed == 7 && oxterin_whole_bytes(3, 7).ticks_per_byte == 0);
    record = oxterin_fresh_record(true, true, false);
    CHECK(record.bpl && record.bp0 && !record.otp_used);
    CHECK(oxterin_status_bytes(&record, true) == 0x0094 && oxterin_status_bytes(&record, false) == 0x0084);
    record.rste = true;
    record.busy = 1;
    CHECK(oxterin_status_bytes(&record, false) == 0x1185);
}

static void program_and_poll(void) {
    const uint8_t enable[] = {0x06};
    const uint8_t program[] = {0x02, 0x00, 0x00, 0xFE, 0x11, 0x22, 0x33};
    const uint8_t poll[] = {0x05, 0x00, 0x00};
    start();
    CHECK(send_bytes(enable, sizeof enable, 0) == OXTERIN_ACCEPTED && answer.outcome == OXTERIN_CONTROL && record.wel);
    CHECK(send_bytes(program, sizeof program, 1) == OXTERIN_ACCEPTED && answer.outcome == OXTERIN_BEGUN && answer.driven == 0);
    CHECK(array[0xFE] == 0x11 && array[0xFF] == 0x22 && array[0] == 0x33 && array[1] == 0xFF && array[0x100] == 0xFF);
    CHECK(!record.wel && record.busy == 2000);
    CHECK(send_bytes(poll, sizeof poll, 1) == OXTERIN_ACCEPTED && answer.outcome == OXTERIN_READ);
    CHECK(answer.first == 1 && answer.driven == 2 && output[0] == 0xFF && output[1] == 0x11 && output[2] == 0x01 && output[3] == 0xFF);
    CHECK(record.busy == 1999);
}

/* Whether the output is these five bytes and nothing behind them. */
static bool five_read(uint8_t a, uint8_t b, uint8_t c, uint8_t d, uint8_t e) {
    const uint8_t wanted[] = {a, b, c, d, e, 0xEE};
    return memcmp(output, wanted, sizeof wanted) == 0;
}

static void busy_falls_inside_a_frame(void) {
    const uint8_t poll[] = {0x05, 0x00, 0x00, 0x00, 0x00};
    const uint8_t read[] = {0x03, 0x00, 0x00, 0x00, 0x00};
    start();
    record.busy = 20; /* at 8 and 16 ticks still busy, at 24 and 32 idle */
    CHECK(send_slowly(poll, 5, 40, 0, 8) == OXTERIN_ACCEPTED && answer.outcome == OXTERIN_READ);
    CHECK(answer.first == 1 && answer.driven == 4 && five_read(0xFF, 0x11, 0x01, 0x10, 0x00) && record.busy == 0);
    record.busy = 20; /* 4 elapse first, so that the 16 left have passed as position 2 begins */
    CHECK(send_slowly(poll, 5, 40, 4, 8) == OXTERIN_ACCEPTED && five_read(0xFF, 0x11, 0x00, 0x10, 0x00) && record.busy == 0);
    record.busy = 41; /* five positions take 40 */
    CHECK(send_slowly(poll, 5, 40, 0, 8) == OXTERIN_ACCEPTED && five_read(0xFF, 0x11, 0x01, 0x11, 0x01) && record.busy == 1);
    record.busy = 41; /* so do 33 bits; of the last byte only the highest bit is clocked */
    CHECK(send_slowly(poll, 5, 33, 0, 8) == OXTERIN_ACCEPTED && five_read(0xFF, 0x11, 0x01, 0x11, 0x7F) && record.busy == 1);
    record.busy = 1; /* at the first bit, which settles that the read is not heard */
    CHECK(send_slowly(read, 5, 40, 0, 8) == OXTERIN_ACCEPTED && answer.outcome == OXTERIN_NOTHING && record.busy == 0);
}

static void an_operation_starts_at_the_rise(void) {
    const uint8_t enable[] = {0x06};
    const uint8_t program[] = {0x02, 0x00, 0x00, 0x00, 0x5A};
    start();
    CHECK(send_bytes(enable, 1, 0) == OXTERIN_ACCEPTED);
    CHECK(send_slowly(program, 5, 40, 0, 1000) == OXTERIN_ACCEPTED && answer.outcome == OXTERIN_BEGUN && record.busy == 12);
}

static void most_ticks_per_byte(void) {
    const uint8_t poll[] = {0x05, 0x00};
    start();
    record.busy = 3000;
    CHECK(send_slowly(poll, 2, 16, 9, 1001) == OXTERIN_TICKS_PER_BYTE && record.busy == 3000 && output[0] == 0xEE);
    CHECK(send_slowly(poll, 2, 16, 9, UINT64_MAX) == OXTERIN_TICKS_PER_BYTE && record.busy == 3000 && output[0] == 0xEE);
    settings.status_write = 0;
    CHECK(send_slowly(poll, 2, 16, 9, 1001) == OXTERIN_DURATION);
    settings.status_write = 20000;
    CHECK(send_slowly(poll, 2, 16, 9, OXTERIN_MOST_TICKS_PER_BYTE) == OXTERIN_ACCEPTED && record.busy == 991);
    CHECK(send_slowly(poll, 2, 16, UINT64_MAX, 1000) == OXTERIN_ACCEPTED && record.busy == 0);
    CHECK(strcmp(oxterin_refusal_text(OXTERIN_TICKS_PER_BYTE), "more than 1,000 ticks per byte position") == 0);
}

/* A poll by the function on words, handed so many words of its signals, of which 4 ticks elapse and 8 go with each byte position. */
static uint64_t poll_by_words(uint64_t device[7], size_t words, uint64_t told[3]) {
    const uint8_t poll[] = {0x05, 0x00, 0x00};
    const uint64_t durations[8] = {1, 1, 1, 1, 1, 1, 1, 1};
    const uint64_t signals[5] = {24, 1, 4, 8, 0};
    return oxterin_frame(device, 7, durations, 8, signals, words, array, sizeof array, security, sizeof security, poll, sizeof poll,
                         output, sizeof output, told, 3);
}

/* Signals of four words, or of the three of version 1.1.0; with another count nothing is read, and nothing written. */
static void signals_by_words(void) {
    const uint64_t untouched[7] = {0, 0, 1, 0, 0, 0, 20};
    uint64_t device[7] = {0, 0, 1, 0, 0, 0, 20};
    uint64_t told[3] = {77, 78, 79};
    start();
    CHECK(poll_by_words(device, 2, told) == OXTERIN_UNREAD && poll_by_words(device, 5, told) == OXTERIN_UNREAD);
    CHECK(memcmp(device, untouched, sizeof device) == 0 && told[0] == 77 && told[1] == 78 && told[2] == 79);
    CHECK(output[0] == 0xEE && output[1] == 0xEE && output[2] == 0xEE);
    CHECK(poll_by_words(device, 3, told) == 0 && device[6] == 16 && told[0] == OXTERIN_READ && told[1] == 1 && told[2] == 2);
    CHECK(output[0] == 0xFF && output[1] == 0x13 && output[2] == 0x01);
    device[6] = 20;
    CHECK(poll_by_words(device, 4, told) == 0 && device[6] == 0 && told[0] == OXTERIN_READ && told[1] == 1 && told[2] == 2);
    CHECK(output[0] == 0xFF && output[1] == 0x13 && output[2] == 0x00);
}

/* An erase of a protected part with WEL set by the function on words, handed so many words of an answer, bare or through the ledger. */
static uint64_t erase_by_words(uint64_t device[7], uint64_t *told, size_t words, bool billed) {
    const uint8_t erase[] = {0x20, 0x00, 0x00, 0x00};
    const uint64_t durations[8] = {1, 1, 1, 1, 1, 1, 1, 1};
    const uint64_t signals[4] = {32, 1, 0, 0};
    uint64_t running[2] = {OXTERIN_NOBODY, 0};
    return billed ? oxterin_ledger_frame(device, 7, durations, 8, signals, 4, array, sizeof array, security, sizeof security, erase,
                                         sizeof erase, output, sizeof output, told, words, 7, running, 2, ledger.totals, ledger.most,
                                         ledger.numbers)
                  : oxterin_frame(device, 7, durations, 8, signals, 4, array, sizeof array, security, sizeof security, erase,
                                  sizeof erase, output, sizeof output, told, words);
}

/* Whether an erase handed so many words of an answer gives this number, leaves WEL so, and writes the first `written` words alone. */
static bool erase_answers(size_t words, bool billed, uint64_t number, uint64_t wel, size_t written) {
    const uint64_t aborted[4] = {OXTERIN_ABORTED, 0, 0, OXTERIN_PROTECTED};
    uint64_t device[7] = {0, 1, 1, 0, 0, 0, 0};
    uint64_t told[6] = {77, 77, 77, 77, 77, 77};
    size_t k;
    start();
    if (erase_by_words(device, told, words, billed) != number || device[2] != wel || output[0] != (written ? 0xFF : 0xEE)) {
        return false;
    }
    for (k = 0; k < 6 && told[k] == (k < written ? aborted[k] : 77); k++) {
    }
    return k == 6;
}

/* Answers of four words, or of the three of versions up to 1.4.0; with another count nothing is read, and nothing written. */
static void answers_by_words(void) {
    CHECK(erase_answers(4, false, 0, 0, 4) && erase_answers(4, true, 0, 0, 4));
    CHECK(erase_answers(3, false, 0, 0, 3) && erase_answers(3, true, 0, 0, 3));
    CHECK(erase_answers(2, false, OXTERIN_UNREAD, 1, 0) && erase_answers(2, true, OXTERIN_UNREAD, 1, 0));
    CHECK(erase_answers(5, false, OXTERIN_UNREAD, 1, 0) && erase_answers(5, true, OXTERIN_UNREAD, 1, 0));
}

/* Whether a frame of whole bytes comes to this outcome and cause, bare and, from the same record, for account 7. */
static bool tells(const uint8_t *input, size_t length, oxterin_outcome outcome, oxterin_cause cause) {
    const oxterin_record before = record;
    bool bare = send_bytes(input, length, 0) == OXTERIN_ACCEPTED && answer.outcome == outcome && answer.cause == cause;
    record = before;
    return send_for(7, input, length, 0, 0) == OXTERIN_ACCEPTED && answer.outcome == outcome && answer.cause == cause && bare;
}

/* Why nothing came of a frame, or why it was aborted; any other has no cause, and neither has a refused call. */
static void causes(void) {
    const uint8_t enable[] = {0x06};
    const uint8_t erase[] = {0x20, 0x00, 0x00, 0x00};
    const uint8_t poll[] = {0x05, 0x00};
    const uint8_t wake[] = {0xAB};
    start();
    CHECK(tells(erase, 4, OXTERIN_NOTHING, OXTERIN_LATCH_CLEAR) && tells(erase, 3, OXTERIN_NOTHING, OXTERIN_LATCH_CLEAR));
    CHECK(tells(NULL, 0, OXTERIN_NOTHING, OXTERIN_TOO_FEW_BITS) && tells(wake, 1, OXTERIN_NOTHING, OXTERIN_ALREADY_AWAKE));
    CHECK(tells(poll, 2, OXTERIN_READ, OXTERIN_NO_CAUSE));
    CHECK(tells(enable, 1, OXTERIN_CONTROL, OXTERIN_NO_CAUSE) && tells(erase, 3, OXTERIN_ABORTED, OXTERIN_INCOMPLETE));
    CHECK(tells(enable, 1, OXTERIN_CONTROL, OXTERIN_NO_CAUSE) && tells(erase, 4, OXTERIN_BEGUN, OXTERIN_NO_CAUSE));
    CHECK(tells(enable, 1, OXTERIN_NOTHING, OXTERIN_BUSY)); /* which the refused calls after it do not leave in the answer */
    CHECK(send_for(256, enable, 1, 0, 0) == OXTERIN_ACCOUNT && answer.outcome == OXTERIN_NOTHING && answer.cause == OXTERIN_NO_CAUSE);
    CHECK(tells(enable, 1, OXTERIN_NOTHING, OXTERIN_BUSY));
    settings.otp_program = 0;
    CHECK(send_bytes(enable, 1, 0) == OXTERIN_DURATION && answer.outcome == OXTERIN_NOTHING && answer.cause == OXTERIN_NO_CAUSE);
}

static void refusals(void) {
    const uint8_t poll[] = {0x05, 0x00};
    oxterin_signals odd = {17, true, 0, 0};
    start();
    record.wel = true;
    answer.driven = 77;
    CHECK(oxterin_send_frame(&record, &settings, oxterin_whole_bytes(2, 9), array, 131071, security, 128, poll, 2, output, 2, &answer) ==
          OXTERIN_ARRAY_LENGTH);
    CHECK(oxterin_send_frame(&record, &settings, oxterin_whole_bytes(2, 9), array, 131072, NULL, 128, poll, 2, output, 2, &answer) ==
          OXTERIN_REGISTER_LENGTH);
    CHECK(oxterin_send_frame(&record, &settings, oxterin_whole_bytes(2, 9), array, 131072, security, 128, NULL, 2, output, 2, &answer) ==
          OXTERIN_BIT_COUNT);
    CHECK(oxterin_send_frame(&record, &settings, odd, array, 131072, security, 128, poll, 2, output, 2, &answer) == OXTERIN_BIT_COUNT);
    CHECK(oxterin_send_frame(&record, &settings, oxterin_whole_bytes(2, 9), array, 131072, security, 128, poll, 2, output, 1, &answer) ==
          OXTERIN_OUTPUT_LENGTH);
    settings.otp_program = 0;
    CHECK(send_bytes(poll, 2, 0) == OXTERIN_DURATION);
    settings.otp_program = 400;
    CHECK(record.wel && !record.bpl && !record.bp0 && !record.rste && !record.otp_used && record.busy == 0 && output[0] == 0xEE);
    CHECK(answer.outcome == OXTERIN_NOTHING && answer.first == 0 && answer.driven == 0);
    record.busy = 60000001;
    CHECK(send_bytes(poll, 2, 0) == OXTERIN_RECORD && record.busy == 60000001);
    record.busy = 0;
    record.mode = (oxterin_mode)3;
    CHECK(send_bytes(poll, 2, 0) == OXTERIN_UNREAD && output[0] == 0xEE && record.mode == (oxterin_mode)3);
    CHECK(strcmp(oxterin_outcome_word(OXTERIN_ABORTED), "aborted") == 0);
    CHECK(strcmp(oxterin_cause_words(OXTERIN_LATCH_CLEAR), "latch clear") == 0);
    CHECK(strcmp(oxterin_cause_words(OXTERIN_ALREADY_AWAKE), "already awake") == 0);
    CHECK(strcmp(oxterin_cause_words(OXTERIN_NO_CAUSE), "none") == 0);
    CHECK(strcmp(oxterin_refusal_text(OXTERIN_DURATION), "a duration is 0 or over 60,000,000 ticks") == 0);
}

static void looks(void) {
    oxterin_part part;
    start();
    part = oxterin_look_at(array, sizeof array, security, sizeof security, OXTERIN_MAIN_ARRAY, 0x03FFFE, 9);
    CHECK(part.bytes == array + 0x1FFFE && part.length == 2);
    part = oxterin_look_at(array, sizeof array, security, sizeof security, OXTERIN_SECURITY_REGISTER, 130, 5);
    CHECK(part.bytes == security + 2 && part.length == 5);
    part = oxterin_look_at(array, 65535, security, sizeof security, OXTERIN_MAIN_ARRAY, 7, 5);
    CHECK(part.length == 0);
    part = oxterin_look_at(NULL, 131072, security, sizeof security, OXTERIN_MAIN_ARRAY, 7, 5);
    CHECK(part.length == 0);
    part = oxterin_look_at(array, sizeof array, security, sizeof security, OXTERIN_SECURITY_REGISTER, 0, UINT64_MAX);
    CHECK(part.bytes == security && part.length == 128);
}

/* Whether an account's line has these numbers. */
static bool line_of(uint64_t account, uint64_t total, uint64_t most, uint64_t number) {
    return oxterin_account_line(&ledger, account, &line) == OXTERIN_ACCEPTED && line.total == total && line.most == most &&
           line.number == number;
}

/* Whether the running operation is this account's, with so many ticks billed. */
static bool runs_for(uint64_t account, uint64_t billed) {
    return ledger.running.account == account && ledger.running.billed == billed;
}

static void busy_time_is_billed_to_who_began_it(void) {
    const uint8_t enable[] = {0x06};
    const uint8_t allow_reset[] = {0x31, 0x10};
    const uint8_t program[] = {0x02, 0x00, 0x00, 0x00, 0x5A};
    const uint8_t erase[] = {0x20, 0x00, 0x10, 0x00};
    const uint8_t poll[] = {0x05, 0x00, 0x00};
    const uint8_t reset[] = {0xF0, 0xD0};
    start();
    CHECK(runs_for(OXTERIN_NOBODY, 0) && line_of(0, 0, 0, 0) && line_of(255, 0, 0, 0));
    record.busy = 30; /* nobody's: 10 elapse, and three positions take 15 */
    CHECK(send_for(4, poll, 3, 10, 5) == OXTERIN_ACCEPTED && record.busy == 5 && runs_for(OXTERIN_NOBODY, 0) && line_of(4, 0, 0, 0));
    CHECK(send_for(4, enable, 1, 5, 0) == OXTERIN_ACCEPTED && record.wel && send_for(4, allow_reset, 2, 0, 0) == OXTERIN_ACCEPTED);
    CHECK(answer.outcome == OXTERIN_CONTROL && record.rste && line_of(4, 0, 0, 0));

    CHECK(send_for(0, enable, 1, 0, 0) == OXTERIN_ACCEPTED && send_for(255, program, 5, 9, 7) == OXTERIN_ACCEPTED);
    CHECK(answer.outcome == OXTERIN_BEGUN && record.busy == 12 && array[0] == 0x5A);
    CHECK(runs_for(255, 0) && line_of(255, 0, 0, 1) && line_of(0, 0, 0, 0));
    CHECK(send_for(0, poll, 3, 2, 1) == OXTERIN_ACCEPTED && answer.outcome == OXTERIN_READ && answer.first == 1 && answer.driven == 2);
    CHECK(record.busy == 7 && runs_for(255, 5) && line_of(255, 5, 5, 1) && line_of(0, 0, 0, 0));
    CHECK(send_for(0, poll, 3, UINT64_MAX, 1) == OXTERIN_ACCEPTED && record.busy == 0);
    CHECK(runs_for(OXTERIN_NOBODY, 0) && line_of(255, 12, 12, 1) && line_of(0, 0, 0, 0));

    CHECK(send_for(255, enable, 1, 0, 0) == OXTERIN_ACCEPTED && send_for(255, erase, 4, 0, 0) == OXTERIN_ACCEPTED);
    CHECK(record.busy == 50000 && runs_for(255, 0) && line_of(255, 12, 12, 2));
    CHECK(send_for(7, reset, 2, 100, 3) == OXTERIN_ACCEPTED && answer.outcome == OXTERIN_CONTROL && record.busy == 0);
    CHECK(runs_for(OXTERIN_NOBODY, 0) && line_of(255, 118, 106, 2) && line_of(7, 0, 0, 0));
}

/* Whether a poll for an account is refused so, and nothing changes. The record has 100 busy ticks. */
static bool poll_refused(uint64_t account, uint64_t ticks_per_byte, oxterin_refusal refusal) {
    const uint8_t poll[] = {0x05, 0x00};
    const oxterin_ledger before = ledger;
    answer.driven = 77;
    return send_for(account, poll, 2, 9, ticks_per_byte) == refusal && memcmp(&ledger, &before, sizeof ledger) == 0 &&
           record.busy == 100 && output[0] == 0xEE && answer.outcome == OXTERIN_NOTHING && answer.first == 0 && answer.driven == 0;
}

static void ledger_refusals(void) {
    const uint8_t poll[] = {0x05, 0x00};
    size_t account;
    start();
    record.busy = 100;
    ledger.running.account = 3;
    ledger.running.billed = UINT64_MAX - 5;
    CHECK(poll_refused(OXTERIN_ACCOUNTS, 1, OXTERIN_ACCOUNT) && poll_refused(UINT64_MAX, 1, OXTERIN_ACCOUNT));
    CHECK(poll_refused(3, 1001, OXTERIN_TICKS_PER_BYTE) && poll_refused(256, 1001, OXTERIN_TICKS_PER_BYTE));
    for (account = 0; account < OXTERIN_ACCOUNTS; account++) {
        ledger.totals[account] = OXTERIN_BILL_LIMIT + 1;
        CHECK(poll_refused(3, 1, OXTERIN_ACCOUNT));
        ledger.totals[account] = OXTERIN_BILL_LIMIT;
        ledger.numbers[account] = UINT64_MAX;
        CHECK(poll_refused(3, 1, OXTERIN_ACCOUNT));
        ledger.numbers[account] = OXTERIN_BILL_LIMIT;
    }
    ledger.most[9] = UINT64_MAX;
    CHECK(send_for(9, poll, 2, 9, 1) == OXTERIN_ACCEPTED && record.busy == 89 && runs_for(3, UINT64_MAX));
    CHECK(line_of(3, OXTERIN_BILL_LIMIT + 11, UINT64_MAX, OXTERIN_BILL_LIMIT));
    CHECK(line_of(9, OXTERIN_BILL_LIMIT, UINT64_MAX, OXTERIN_BILL_LIMIT));
    CHECK(send_for(9, poll, 2, 9, 1) == OXTERIN_ACCOUNT && record.busy == 89);
    CHECK(oxterin_account_line(&ledger, 256, &line) == OXTERIN_ACCOUNT && line.total == 0 && line.most == 0 && line.number == 0);
    CHECK(strcmp(oxterin_refusal_text(OXTERIN_ACCOUNT),
                 "the account is over 255, or an account's total or number of operations is above 9,000,000,000,000,000,000") == 0);
}

/* A poll through a ledger by the function on words, handed so many words of the running part. */
static uint64_t ledger_poll_by_words(uint64_t device[7], uint64_t *running, size_t words) {
    const uint8_t poll[] = {0x05, 0x00, 0x00};
    const uint64_t durations[8] = {1, 1, 1, 1, 1, 1, 1, 1};
    const uint64_t signals[4] = {24, 1, 4, 0};
    uint64_t told[3];
    return oxterin_ledger_frame(device, 7, durations, 8, signals, 4, array, sizeof array, security, sizeof security, poll, sizeof poll,
                                output, sizeof output, told, 3, 0, running, words, ledger.totals, ledger.most, ledger.numbers);
}

/* A running part of another count of words than two is not read, and a line of another than three not written. */
static void ledger_words(void) {
    uint64_t device[7] = {0, 0, 0, 0, 0, 0, 20};
    uint64_t running[3] = {255, 1, 78};
    uint64_t words[4] = {74, 75, 76, 77};
    start();
    CHECK(ledger_poll_by_words(device, running, 0) == OXTERIN_UNREAD && ledger_poll_by_words(device, running, 1) == OXTERIN_UNREAD);
    CHECK(ledger_poll_by_words(device, running, 3) == OXTERIN_UNREAD && device[6] == 20 && output[0] == 0xEE);
    CHECK(running[0] == 255 && running[1] == 1 && running[2] == 78 && line_of(255, 0, 0, 0));
    CHECK(ledger_poll_by_words(device, running, 2) == 0 && device[6] == 16 && output[0] == 0xFF);
    CHECK(running[0] == 255 && running[1] == 5 && running[2] == 78 && line_of(255, 4, 5, 0) && line_of(0, 0, 0, 0));
    CHECK(oxterin_report(ledger.totals, ledger.most, ledger.numbers, 255, words, 2) == OXTERIN_UNREAD);
    CHECK(oxterin_report(ledger.totals, ledger.most, ledger.numbers, 256, words, 4) == OXTERIN_UNREAD);
    CHECK(oxterin_report(ledger.totals, ledger.most, ledger.numbers, 256, words, 3) == OXTERIN_ACCOUNT);
    CHECK(words[0] == 74 && words[1] == 75 && words[2] == 76);
    CHECK(oxterin_report(ledger.totals, ledger.most, ledger.numbers, 255, words, 3) == 0);
    CHECK(words[0] == 4 && words[1] == 5 && words[2] == 0 && words[3] == 77);
}

/* A month's close: what runs is billed in both months, and a full ledger can be closed. */
static void months(void) {
    const uint8_t enable[] = {0x06};
    const uint8_t erase[] = {0x20, 0x00, 0x00, 0x00};
    const uint8_t poll[] = {0x05, 0x00};
    static oxterin_ledger month, before;
    size_t account;
    start();
    CHECK(send_for(255, enable, 1, 0, 0) == OXTERIN_ACCEPTED && send_for(255, erase, 4, 0, 0) == OXTERIN_ACCEPTED);
    CHECK(send_for(0, poll, 2, 20000, 0) == OXTERIN_ACCEPTED && runs_for(255, 20000) && line_of(255, 20000, 20000, 1));
    before = ledger;
    CHECK(oxterin_close_month(&ledger, &month) == OXTERIN_ACCEPTED && memcmp(&month, &before, sizeof month) == 0);
    CHECK(runs_for(255, 0) && line_of(255, 0, 0, 0) && record.busy == 30000);
    CHECK(send_for(0, poll, 2, 60000, 0) == OXTERIN_ACCEPTED && runs_for(OXTERIN_NOBODY, 0) && line_of(255, 30000, 30000, 0));
    for (account = 0; account < OXTERIN_ACCOUNTS; account++) {
        ledger.totals[account] = UINT64_MAX - account;
        ledger.most[account] = account + 1;
        ledger.numbers[account] = OXTERIN_BILL_LIMIT + 1 + account;
    }
    ledger.running.account = UINT64_MAX;
    ledger.running.billed = 7;
    before = ledger;
    CHECK(oxterin_close_month(&ledger, &month) == OXTERIN_ACCEPTED && memcmp(&month, &before, sizeof month) == 0);
    CHECK(runs_for(UINT64_MAX, 0));
    for (account = 0; account < OXTERIN_ACCOUNTS; account++) {
        CHECK(line_of(account, 0, 0, 0));
    }
}

/* Whether closing by the function on words, handed so many words of the running part, is refused and changes nothing. */
static bool close_unread(uint64_t *running, size_t words) {
    static oxterin_ledger month, old, before;
    size_t account;
    for (account = 0; account < OXTERIN_ACCOUNTS; account++) {
        month.totals[account] = month.most[account] = month.numbers[account] = 5;
    }
    old = month;
    before = ledger;
    return oxterin_close(running, words, ledger.totals, ledger.most, ledger.numbers, month.totals, month.most, month.numbers) ==
               OXTERIN_UNREAD &&
           memcmp(&ledger, &before, sizeof ledger) == 0 && memcmp(&month, &old, sizeof month) == 0 && running[0] == 255 &&
           running[1] == 9 && running[2] == 78;
}

/* A month is closed only with the two words of a running part. */
static void month_words(void) {
    uint64_t running[3] = {255, 9, 78};
    static oxterin_ledger month;
    start();
    ledger.totals[255] = 9;
    CHECK(close_unread(running, 0) && close_unread(running, 1) && close_unread(running, 3));
    CHECK(oxterin_close(running, 2, ledger.totals, ledger.most, ledger.numbers, month.totals, month.most, month.numbers) == 0);
    CHECK(running[0] == 255 && running[1] == 0 && running[2] == 78 && month.totals[255] == 9 && line_of(255, 0, 0, 0));
}

/* Whether all of so many bytes are this one. */
static bool all(const uint8_t *bytes, size_t length, uint8_t byte) {
    size_t k = 0;
    while (k < length && bytes[k] == byte) {
        k++;
    }
    return k == length;
}

/* Whether the text has these characters at a place. */
static bool stands_at(size_t from, const char *wanted) { return memcmp(text + from, wanted, strlen(wanted)) == 0; }

/* Reads these characters into the whole array. */
static oxterin_refusal read_text(const char *given) {
    return oxterin_read_hex((const uint8_t *)given, strlen(given), array, sizeof array, &place);
}

/* Whether reading these characters is refused so, at that place, with the array as it was. */
static bool refused(const char *given, oxterin_refusal refusal, size_t at) {
    memset(array, 0xAA, sizeof array);
    place = 77;
    return read_text(given) == refusal && place == at && all(array, sizeof array, 0xAA);
}

static void hex_written(void) {
    size_t k;
    for (k = 0; k < sizeof array; k++) {
        array[k] = (uint8_t)(k ^ k >> 8 ^ k >> 16);
    }
    memset(text, 0xEE, sizeof text);
    CHECK(oxterin_write_hex(array, sizeof array, text, sizeof text, &characters) == OXTERIN_ACCEPTED && characters == OXTERIN_HEX_TEXT);
    CHECK(stands_at(0, ":020000040000FA\n:10000000000102030405060708090A0B0C0D0E0F78\n:10001000"));
    CHECK(stands_at(180240, ":020000040001F9\n:10000000010003020504070609080B0A0D0C0F0E78\n:10001000"));
    CHECK(stands_at(360492 - 12 - 44, ":10FFF0000E0F0C0D0A0B08090607040502030001") && stands_at(360492 - 12, ":00000001FF\n"));
    CHECK(text[OXTERIN_HEX_TEXT] == 0xEE);
    memset(array, 0x55, sizeof array);
    CHECK(oxterin_read_hex(text, characters, array, sizeof array, &place) == OXTERIN_ACCEPTED && place == 0);
    for (k = 0; k < sizeof array && array[k] == (uint8_t)(k ^ k >> 8 ^ k >> 16); k++) {
    }
    CHECK(k == sizeof array);

    memset(text, 0xEE, sizeof text);
    CHECK(oxterin_write_hex(array, 65536, text, 180252, &characters) == OXTERIN_ACCEPTED && characters == OXTERIN_SMALL_HEX_TEXT);
    CHECK(stands_at(180252 - 12, ":00000001FF\n") && all(text + 180252, sizeof text - 180252, 0xEE));
    memset(array, 0x55, sizeof array);
    CHECK(oxterin_read_hex(text, characters, array, 65536, &place) == OXTERIN_ACCEPTED && place == 0);
    CHECK(array[0] == 0x00 && array[0xFFFF] == 0x00 && array[0xFFFE] == 0x01 && all(array + 65536, 65536, 0x55));
}

static void hex_read(void) {
    memset(array, 0xAA, sizeof array);
    CHECK(read_text(":02000800cafe2e\r\n:02000004000fEB\n:00FFFF0002\n:020000040001F9\n:0100090042b4\n:00000001ff") == OXTERIN_ACCEPTED);
    CHECK(array[7] == 0xAA && array[8] == 0xCA && array[9] == 0xFE && array[10] == 0xAA);
    CHECK(array[0x10008] == 0xAA && array[0x10009] == 0x42 && array[0x1000A] == 0xAA && place == 0);
    CHECK(read_text(":020008001122C3\n:0100090033C3\n:00000001FF\n") == OXTERIN_ACCEPTED && array[8] == 0x11 && array[9] == 0x33);
}

static void hex_refusals(void) {
    const uint8_t upper[] = ":020000040001F9\n:0100000011EE\n:00000001FF\n";
    CHECK(refused("\n:00000001FF\n", OXTERIN_HEX_MALFORMED, 0));
    CHECK(refused(":0100000011EE\n:01000000G1EE\n:00000001FF\n", OXTERIN_HEX_MALFORMED, 14));
    CHECK(refused(":0100000011EE\r\n:0100000111ED\n", OXTERIN_HEX_MALFORMED, 15));
    CHECK(refused(":03000004000000F9\n:00000001FF\n", OXTERIN_HEX_MALFORMED, 0));
    CHECK(refused(":03000004000000F8\n:00000001FF\n", OXTERIN_HEX_MALFORMED, 0));
    CHECK(refused(":00000001FF\r", OXTERIN_HEX_MALFORMED, 0));
    CHECK(refused(":0100000011EE\n:0100000011EF\n:00000001FF\n", OXTERIN_HEX_CHECKSUM, 14));
    CHECK(refused(":0100000011EE\n:020000021000EC\n:00000001FF\n", OXTERIN_HEX_KIND, 14));
    CHECK(refused(":0400000500000100F6\n:00000001FF\n", OXTERIN_HEX_KIND, 0));
    CHECK(refused(":0400000500000100F7\n:00000001FF\n", OXTERIN_HEX_CHECKSUM, 0));
    CHECK(refused(":0100000011EE\n:02FFFF001122CD\n:00000001FF\n", OXTERIN_HEX_OUTSIDE, 14));
    CHECK(refused(":020000040002F8\n:0100000011EE\n:00000001FF\n", OXTERIN_HEX_OUTSIDE, 16));
    CHECK(oxterin_read_hex(upper, sizeof upper - 1, array, 65536, &place) == OXTERIN_HEX_OUTSIDE && place == 16);
    CHECK(all(array, sizeof array, 0xAA));
    CHECK(refused("", OXTERIN_HEX_END, 0));
    CHECK(refused(":0100000011EE\n", OXTERIN_HEX_END, 14));
    CHECK(refused(":00000001FF\n\n", OXTERIN_HEX_END, 12));
    CHECK(oxterin_read_hex(NULL, 14, array, sizeof array, &place) == OXTERIN_HEX_END && place == 0);
    place = 77;
    CHECK(oxterin_read_hex((const uint8_t *)"?", 1, array, 65537, &place) == OXTERIN_HEX_ARRAY_LENGTH && place == 0);
    CHECK(oxterin_read_hex((const uint8_t *)":00000001FF", 11, NULL, 65536, &place) == OXTERIN_HEX_ARRAY_LENGTH && place == 0);
    CHECK(all(array, sizeof array, 0xAA));

    memset(text, 0xEE, sizeof text);
    characters = 77;
    CHECK(oxterin_write_hex(array, 131072, text, OXTERIN_HEX_TEXT - 1, &characters) == OXTERIN_HEX_ROOM && characters == 0);
    characters = 77;
    CHECK(oxterin_write_hex(array, 65536, text, OXTERIN_SMALL_HEX_TEXT - 1, &characters) == OXTERIN_HEX_ROOM && characters == 0);
    CHECK(oxterin_write_hex(array, 65536, NULL, OXTERIN_SMALL_HEX_TEXT, &characters) == OXTERIN_HEX_ROOM && characters == 0);
    characters = 77;
    CHECK(oxterin_write_hex(array, 131071, text, 0, &characters) == OXTERIN_HEX_ARRAY_LENGTH && characters == 0);
    CHECK(oxterin_write_hex(NULL, 131072, text, sizeof text, &characters) == OXTERIN_HEX_ARRAY_LENGTH && characters == 0);
    CHECK(all(text, sizeof text, 0xEE) && all(array, sizeof array, 0xAA));
    CHECK(strcmp(oxterin_refusal_text(OXTERIN_HEX_CHECKSUM), "a record has a wrong checksum") == 0);
}

/* The two functions on words: another count of words than one is not read, and no word beside it is written. */
static void hex_words(void) {
    const uint8_t end[] = ":00000001FF\n";
    uint64_t words[2] = {77, 78};
    memset(array, 0xAA, sizeof array);
    memset(text, 0xEE, sizeof text);
    CHECK(oxterin_hex_write(array, sizeof array, text, sizeof text, words, 0) == OXTERIN_UNREAD);
    CHECK(oxterin_hex_write(array, sizeof array, text, sizeof text, words, 2) == OXTERIN_UNREAD);
    CHECK(oxterin_hex_write(array, 0, text, 0, words, 2) == OXTERIN_UNREAD);
    CHECK(oxterin_hex_read(end, sizeof end - 1, array, sizeof array, words, 0) == OXTERIN_UNREAD);
    CHECK(oxterin_hex_read(end, sizeof end - 1, array, 0, words, 2) == OXTERIN_UNREAD);
    CHECK(words[0] == 77 && words[1] == 78 && all(text, sizeof text, 0xEE) && all(array, sizeof array, 0xAA));
    CHECK(oxterin_hex_read(end, sizeof end - 1, array, sizeof array, words, 1) == 0 && words[0] == 0 && words[1] == 78);
    CHECK(oxterin_hex_read(end, sizeof end, array, sizeof array, words, 1) == 16 && words[0] == 12 && words[1] == 78);
    CHECK(all(text, sizeof text, 0xEE) && all(array, sizeof array, 0xAA));
    CHECK(oxterin_hex_write(array, sizeof array, text, sizeof text, words, 1) == 0 && words[0] == 360492 && words[1] == 78);
}

int main(void) {
    records_and_settings();
    program_and_poll();
    busy_falls_inside_a_frame();
    an_operation_starts_at_the_rise();
    most_ticks_per_byte();
    signals_by_words();
    answers_by_words();
    causes();
    refusals();
    looks();
    busy_time_is_billed_to_who_began_it();
    ledger_refusals();
    ledger_words();
    months();
    month_words();
    hex_written();
    hex_read();
    hex_refusals();
    hex_words();
    printf("%d faults\n", faults);
    return faults != 0;
}
