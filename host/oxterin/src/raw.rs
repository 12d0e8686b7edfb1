//! The face itself: words and bytes, and a number back. The one module with `unsafe` in it.
//!
//! Each function takes slices of any length. A slice of words that has another length than the one stated, a flag that is neither 0 nor
//! 1, or an unknown mode or memory is answered with [`UNREAD`], and then nothing has changed. Signals and answer alone may have one word
//! less: [`SIGNALS`], [`ANSWER`]. The three tables of a ledger always have [`ACCOUNTS`] words.
#![allow(unsafe_code)]

/// The number that says that words stand for nothing.
pub const UNREAD: u64 = 255;
/// The words of a record: BPL, BP0, WEL, RSTE, the OTP-used mark, the mode, the busy ticks left.
pub const RECORD: usize = 7;
/// The words of the settings: the eight durations in ticks.
pub const SETTINGS: usize = 8;
/// The words of a frame's signals: bits clocked, WP's level, ticks elapsed, ticks per byte position. Without the last, as version 1.1.0 had
/// them, they mean 0 ticks per byte position.
pub const SIGNALS: usize = 4;
/// The words of an answer: outcome, first driven position, how many are driven, cause (0 if there is none). Versions up to 1.4.0 had it
/// without the last.
pub const ANSWER: usize = 4;
/// The words of a status: byte 1, byte 2.
pub const STATUS: usize = 2;
/// The words of a look: where it begins, how many bytes it has.
pub const PLACE: usize = 2;
/// The words that a call on HEX text tells: the characters written, or the place of the faulty record.
pub const TOLD: usize = 1;
/// The accounts of a ledger, and so the words of each of its three tables.
pub const ACCOUNTS: usize = 256;
/// The words of a ledger's running part: the account, any over 255 being nobody, and the ticks billed so far.
pub const RUNNING: usize = 2;
/// The words of an account's line: total, most, number.
pub const LINE: usize = 3;

extern "C" {
    fn oxterin_version() -> u64;
    fn oxterin_fresh(bpl: u64, bp0: u64, used: u64, record: *mut u64, record_len: usize) -> u64;
    fn oxterin_typical(settings: *mut u64, settings_len: usize) -> u64;
    fn oxterin_status(record: *const u64, record_len: usize, wp: u64, status: *mut u64, status_len: usize) -> u64;
    fn oxterin_look(
        array: *const u8,
        array_len: usize,
        register: *const u8,
        register_len: usize,
        memory: u64,
        address: u64,
        count: u64,
        place: *mut u64,
        place_len: usize,
    ) -> u64;
    fn oxterin_frame(
        record: *mut u64,
        record_len: usize,
        settings: *const u64,
        settings_len: usize,
        signals: *const u64,
        signals_len: usize,
        array: *mut u8,
        array_len: usize,
        register: *mut u8,
        register_len: usize,
        input: *const u8,
        input_len: usize,
        output: *mut u8,
        output_len: usize,
        answer: *mut u64,
        answer_len: usize,
    ) -> u64;
    fn oxterin_ledger_frame(
        record: *mut u64,
        record_len: usize,
        settings: *const u64,
        settings_len: usize,
        signals: *const u64,
        signals_len: usize,
        array: *mut u8,
        array_len: usize,
        register: *mut u8,
        register_len: usize,
        input: *const u8,
        input_len: usize,
        output: *mut u8,
        output_len: usize,
        answer: *mut u64,
        answer_len: usize,
        account: u64,
        running: *mut u64,
        running_len: usize,
        totals: *mut u64,
        most: *mut u64,
        numbers: *mut u64,
    ) -> u64;
    fn oxterin_close(
        running: *mut u64,
        running_len: usize,
        totals: *mut u64,
        most: *mut u64,
        numbers: *mut u64,
        old_totals: *mut u64,
        old_most: *mut u64,
        old_numbers: *mut u64,
    ) -> u64;
    fn oxterin_report(totals: *const u64, most: *const u64, numbers: *const u64, account: u64, line: *mut u64, line_len: usize) -> u64;
    fn oxterin_hex_write(
        array: *const u8,
        array_len: usize,
        text: *mut u8,
        text_len: usize,
        characters: *mut u64,
        characters_len: usize,
    ) -> u64;
    fn oxterin_hex_read(text: *const u8, text_len: usize, array: *mut u8, array_len: usize, place: *mut u64, place_len: usize) -> u64;
}

// Safety, for every call below: the proved functions read and write inside the slices that they are handed, whatever their lengths and
// contents, keep no pointer, and end. A slice's own pointer and length are handed over, and a `&mut` one overlaps no other. A table has the
// 256 words that the functions take it to have.

/// The version of the proved face, a million for the first number and a thousand for the second.
#[must_use]
pub fn version() -> u64 {
    unsafe { oxterin_version() }
}

/// Writes a fresh record: BPL, BP0 and the OTP-used mark as given, all else clear.
pub fn fresh(bpl: u64, bp0: u64, used: u64, record: &mut [u64]) -> u64 {
    unsafe { oxterin_fresh(bpl, bp0, used, record.as_mut_ptr(), record.len()) }
}

/// Writes the data sheet's typical durations.
pub fn typical(settings: &mut [u64]) -> u64 {
    unsafe { oxterin_typical(settings.as_mut_ptr(), settings.len()) }
}

/// Writes the two status bytes of a record, with the level of WP.
pub fn status(record: &[u64], wp: u64, status: &mut [u64]) -> u64 {
    unsafe { oxterin_status(record.as_ptr(), record.len(), wp, status.as_mut_ptr(), status.len()) }
}

/// Writes where in the array (memory 0) or the register (memory 1) a look begins, and how many bytes it has.
pub fn look(array: &[u8], register: &[u8], memory: u64, address: u64, count: u64, place: &mut [u64]) -> u64 {
    unsafe {
        oxterin_look(
            array.as_ptr(),
            array.len(),
            register.as_ptr(),
            register.len(),
            memory,
            address,
            count,
            place.as_mut_ptr(),
            place.len(),
        )
    }
}

/// One chip-select frame. The number is the refusal's, 0 for an accepted call.
#[allow(clippy::too_many_arguments)]
pub fn frame(
    record: &mut [u64],
    settings: &[u64],
    signals: &[u64],
    array: &mut [u8],
    register: &mut [u8],
    input: &[u8],
    output: &mut [u8],
    answer: &mut [u64],
) -> u64 {
    unsafe {
        oxterin_frame(
            record.as_mut_ptr(),
            record.len(),
            settings.as_ptr(),
            settings.len(),
            signals.as_ptr(),
            signals.len(),
            array.as_mut_ptr(),
            array.len(),
            register.as_mut_ptr(),
            register.len(),
            input.as_ptr(),
            input.len(),
            output.as_mut_ptr(),
            output.len(),
            answer.as_mut_ptr(),
            answer.len(),
        )
    }
}

/// One chip-select frame for an account, billed in a ledger. The number is the refusal's, 0 for an accepted call.
#[allow(clippy::too_many_arguments)]
pub fn ledger_frame(
    record: &mut [u64],
    settings: &[u64],
    signals: &[u64],
    array: &mut [u8],
    register: &mut [u8],
    input: &[u8],
    output: &mut [u8],
    answer: &mut [u64],
    account: u64,
    running: &mut [u64],
    totals: &mut [u64; ACCOUNTS],
    most: &mut [u64; ACCOUNTS],
    numbers: &mut [u64; ACCOUNTS],
) -> u64 {
    unsafe {
        oxterin_ledger_frame(
            record.as_mut_ptr(),
            record.len(),
            settings.as_ptr(),
            settings.len(),
            signals.as_ptr(),
            signals.len(),
            array.as_mut_ptr(),
            array.len(),
            register.as_mut_ptr(),
            register.len(),
            input.as_ptr(),
            input.len(),
            output.as_mut_ptr(),
            output.len(),
            answer.as_mut_ptr(),
            answer.len(),
            account,
            running.as_mut_ptr(),
            running.len(),
            totals.as_mut_ptr(),
            most.as_mut_ptr(),
            numbers.as_mut_ptr(),
        )
    }
}

/// Closes a month: the tables are handed out and then empty, and what is running is billed nothing so far. The number is 0, or 255 if the
/// running operation has not two words.
pub fn close(
    running: &mut [u64],
    totals: &mut [u64; ACCOUNTS],
    most: &mut [u64; ACCOUNTS],
    numbers: &mut [u64; ACCOUNTS],
    old_totals: &mut [u64; ACCOUNTS],
    old_most: &mut [u64; ACCOUNTS],
    old_numbers: &mut [u64; ACCOUNTS],
) -> u64 {
    unsafe {
        oxterin_close(
            running.as_mut_ptr(),
            running.len(),
            totals.as_mut_ptr(),
            most.as_mut_ptr(),
            numbers.as_mut_ptr(),
            old_totals.as_mut_ptr(),
            old_most.as_mut_ptr(),
            old_numbers.as_mut_ptr(),
        )
    }
}

/// Writes an account's line of a ledger. The number is the refusal's, 0 for an accepted call.
pub fn report(totals: &[u64; ACCOUNTS], most: &[u64; ACCOUNTS], numbers: &[u64; ACCOUNTS], account: u64, line: &mut [u64]) -> u64 {
    unsafe {
        oxterin_report(
            totals.as_ptr(),
            most.as_ptr(),
            numbers.as_ptr(),
            account,
            line.as_mut_ptr(),
            line.len(),
        )
    }
}

/// Writes the array's content as Intel HEX text, and how many characters that has, 0 if refused. The number is the refusal's, 0 for an
/// accepted call.
pub fn hex_write(array: &[u8], text: &mut [u8], characters: &mut [u64]) -> u64 {
    unsafe {
        oxterin_hex_write(
            array.as_ptr(),
            array.len(),
            text.as_mut_ptr(),
            text.len(),
            characters.as_mut_ptr(),
            characters.len(),
        )
    }
}

/// Reads Intel HEX text into the array, and writes the place of the character at which the faulty record begins, 0 if there is none. The
/// number is the refusal's, 0 for an accepted call.
pub fn hex_read(text: &[u8], array: &mut [u8], place: &mut [u64]) -> u64 {
    unsafe {
        oxterin_hex_read(
            text.as_ptr(),
            text.len(),
            array.as_mut_ptr(),
            array.len(),
            place.as_mut_ptr(),
            place.len(),
        )
    }
}
