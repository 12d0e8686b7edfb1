//! Random calls that a part in use could see, and some that it should not.
use crate::call::{usual_durations, Call};
use crate::opcodes::{CHANGES, CONTROLS, READS};
use crate::random::Random;
use oxterin::{Mode, Record};

/// The most ticks that a duration or a busy part may have.
const TICK_LIMIT: u64 = 60_000_000;

/// The most ticks that a byte position may take.
const PACE_LIMIT: u64 = 1_000;

/// So few ticks that a running operation can end inside a frame of some bytes.
const FEW_TICKS: u64 = 5 * PACE_LIMIT;

/// Numbers at which sums, differences and comparisons go wrong.
const HOSTILE: [u64; 4] = [0, TICK_LIMIT + 1, 1 << 63, u64::MAX];

/// Places where addresses begin often, so that programs, erases and reads meet: edges of the memory and of blocks.
const BUSY_PLACES: [u32; 8] = [
    0x00_0000, 0x00_0F00, 0x00_1000, 0x00_7F80, 0x00_FF00, 0x01_0000, 0x01_FF00, 0xFF_FF00,
];

/// Operations by how often they are wanted: most are programs, and few clear so much that little is left to see.
const OPERATIONS: [u8; 32] = [
    0x02, 0x02, 0x02, 0x02, 0x02, 0x02, 0x02, 0x02, 0x02, 0x02, 0x02, 0x02, 0x81, 0x81, 0x81, 0x81, 0x81, 0x20, 0x20, 0x20, 0x52, 0xD8,
    0x9B, 0x9B, 0x01, 0x01, 0x01, 0x01, 0x31, 0x60, 0x62, 0xC7,
];

/// Makes the calls of one series, each suited to the record that it will be given.
#[derive(Clone, Debug)]
pub struct Generator {
    /// Where its choices come from.
    random: Random,
    /// The length of the array.
    array: usize,
    /// The durations that most of its calls have.
    durations: [u64; 8],
    /// Whether it has made a call.
    has_begun: bool,
}

impl Generator {
    /// A generator of calls to a part with an array of this length.
    #[must_use]
    pub fn new(random: Random, array: usize) -> Generator {
        let mut random = random;
        let durations = match random.below(3) {
            0 => usual_durations(),
            1 => [0; 8].map(|_| 1 + random.below(TICK_LIMIT)),
            _ => [0; 8].map(|_| 1 + random.below(9)),
        };
        Generator {
            random,
            array,
            durations,
            has_begun: false,
        }
    }

    /// The next call, to be given this record.
    pub fn call(&mut self, record: &Record) -> Call {
        let handed = self.handed_record(record);
        let record = handed.unwrap_or(*record);
        let elapsed = self.elapsed(&record);
        let opcode = self.opcode(&record, elapsed);
        let input = self.input(opcode);
        let mut call = Call {
            array: self.array,
            durations: self.durations,
            wp_high: !self.random.chance(250),
            elapsed,
            record: handed,
            ..Call::of(&input)
        };
        call.ticks_per_byte = self.ticks_per_byte(call.busy_at_first_bit(&record), call.positions());
        self.unusual(&mut call);
        self.refusable(&mut call);
        call
    }

    /// A record to hand over in place of the last one: at the beginning, now and then, and often if the last one is refused.
    fn handed_record(&mut self, record: &Record) -> Option<Record> {
        let is_refused = record.busy > TICK_LIMIT || (record.busy > 0 && record.mode != Mode::Awake);
        let wanted = match (self.has_begun, is_refused) {
            (false, _) => 500,
            (true, true) => 700,
            (true, false) => 15,
        };
        self.has_begun = true;
        self.random.chance(wanted).then(|| self.record())
    }

    /// Any record, mostly one that a part can be in.
    fn record(&mut self) -> Record {
        let flags = self.random.byte();
        let mode = self
            .random
            .pick(&[Mode::Awake, Mode::Awake, Mode::Awake, Mode::Deep, Mode::UltraDeep]);
        let busy = match self.random.below(8) {
            0 => self.random.pick(&HOSTILE),
            1 => self.random.pick(&[1, TICK_LIMIT]),
            2 => self.random.below(TICK_LIMIT),
            _ => 0,
        };
        Record {
            bpl: flags & 0x06 == 0,
            bp0: flags & 0x18 == 0,
            wel: flags & 0x20 != 0,
            rste: flags & 0x40 != 0,
            otp_used: flags & 0x80 != 0,
            mode,
            busy,
        }
    }

    /// Mostly long enough for the running operation to end, and often just so; else often so long that few ticks are left.
    fn elapsed(&mut self, record: &Record) -> u64 {
        if self.random.chance(20) {
            return self.random.pick(&HOSTILE);
        }
        match (record.busy, self.random.below(10)) {
            (0, _) => self.random.pick(&[0, 1, 77, 5_000]),
            (busy, 0) => busy - 1,
            (busy, 1) => busy.saturating_add(1),
            (busy, 2) => self.random.below(busy),
            (_, 3) => 0,
            (busy, 4) => busy - self.random.below(busy.min(FEW_TICKS)),
            (busy, _) => busy,
        }
    }

    /// Mostly none or a few; else any, and often so many that an operation with these ticks left ends inside a frame of these positions.
    fn ticks_per_byte(&mut self, left: u64, positions: u64) -> u64 {
        match (left, self.random.below(10)) {
            (_, 0..5) => 0,
            (_, 5) => self.random.below(10),
            (_, 6) => self.random.pick(&[1, PACE_LIMIT - 1, PACE_LIMIT]),
            (0, _) => self.random.below(PACE_LIMIT),
            _ => self.ticks_to_the_end(left, positions),
        }
    }

    /// So many for each position that these ticks have passed near the beginning of one, or near the rise, if so many are accepted.
    fn ticks_to_the_end(&mut self, left: u64, positions: u64) -> u64 {
        let position = 1 + self.random.below(positions.max(1));
        let (below, above) = (left / position, left.div_ceil(position));
        self.random.pick(&[below, above]).min(PACE_LIMIT)
    }

    /// An opcode that a part in this state often hears, or any.
    fn opcode(&mut self, record: &Record, elapsed: u64) -> u8 {
        let is_busy = record.busy > elapsed;
        let sort = self.random.below(100);
        match (record.mode, is_busy, record.wel, sort) {
            (Mode::Deep, _, _, 0..50) => 0xAB,
            (Mode::Deep, _, _, 50..60) | (Mode::Awake, true, _, 60..65) => self.barred(record),
            (Mode::Awake, true, _, 0..30) => 0x05,
            (Mode::Awake, true, _, 30..60) => 0xF0,
            (Mode::Awake, false, true, 0..65) => self.operation(record),
            (Mode::Awake, false, false, 0..60) => 0x06,
            (_, _, _, 60..85) => self.random.pick(&READS),
            (_, _, _, 85..90) => self.random.pick(&CONTROLS),
            (_, _, _, 90..94) => self.random.pick(&CHANGES),
            _ => self.random.byte(),
        }
    }

    /// An operation; often the one that lifts a protection, if there is one.
    fn operation(&mut self, record: &Record) -> u8 {
        if record.bp0 && self.random.chance(500) {
            0x01
        } else {
            self.random.pick(&OPERATIONS)
        }
    }

    /// An operation that a flag of the record can bar, if there is such a flag; else any.
    fn barred(&mut self, record: &Record) -> u8 {
        let bars = [(record.bpl, 0x01), (record.bp0, 0x02), (record.otp_used, 0x9B)];
        let barred: Vec<u8> = bars.into_iter().filter_map(|(bars, opcode)| bars.then_some(opcode)).collect();
        self.random.pick(if barred.is_empty() { &CHANGES } else { &barred })
    }

    /// An input for this opcode: mostly as long as it needs, now and then shorter or longer.
    fn input(&mut self, opcode: u8) -> Vec<u8> {
        let needed = self.length(opcode);
        let length = match self.random.below(20) {
            0 => self.random.below(needed + 1),
            1 => needed + self.random.below(7),
            _ => needed,
        };
        let mut input: Vec<u8> = (0..length.min(8_192)).map(|_| self.random.byte()).collect();
        if let Some(first) = input.first_mut() {
            *first = opcode;
        }
        match opcode {
            0x01 | 0x31 | 0xF0 => self.set_operand(opcode, &mut input),
            _ => self.set_address(&mut input),
        }
        input
    }

    /// How many bytes a frame with this opcode has if it is to be carried out.
    fn length(&mut self, opcode: u8) -> u64 {
        match opcode {
            0x02 | 0x9B => 4 + self.data(),
            0x03 | 0x0B | 0x77 => 4 + self.positions(),
            0x05 => 1 + self.positions(),
            0x9F | 0x15 => 1 + self.random.below(8),
            0x81 | 0x20 | 0x52 | 0xD8 => 4,
            0x01 | 0x31 | 0xF0 => 2,
            _ => 1,
        }
    }

    /// How many bytes to program: one, a few, or up to more than a page.
    fn data(&mut self) -> u64 {
        let most = self.random.pick(&[1, 1, 8, 8, 70, 300]);
        1 + self.random.below(most)
    }

    /// How many positions to read: a few, rarely as many as a frame can have.
    fn positions(&mut self) -> u64 {
        match self.random.below(200) {
            0 => 8_188,
            1 => self.random.below(8_188),
            2..20 => self.random.below(300),
            _ => self.random.below(24),
        }
    }

    /// Mostly an operand with a meaning.
    fn set_operand(&mut self, opcode: u8, input: &mut [u8]) {
        let usual: &[u8] = match opcode {
            0xF0 => &[0xD0],
            0x31 => &[0x10, 0x10, 0xEF],
            _ => &[0x00, 0x00, 0x00, 0x04, 0x80, 0x84],
        };
        if let Some(operand) = input.get_mut(1) {
            if !self.random.chance(100) {
                *operand = self.random.pick(usual);
            }
        }
    }

    /// Mostly an address near one of the busy places.
    fn set_address(&mut self, input: &mut [u8]) {
        if let Some(address) = input.get_mut(1..4) {
            if self.random.chance(750) {
                let near = self.random.pick(&BUSY_PLACES) + u32::from(self.random.byte());
                address.copy_from_slice(&near.to_be_bytes()[1..]);
            }
        }
    }

    /// Makes a call unusual in ways that are accepted: a partial last byte, an output with no byte to spare, other durations.
    fn unusual(&mut self, call: &mut Call) {
        if self.random.chance(100) {
            call.bits = call.bits.saturating_sub(self.random.below(8));
        }
        if self.random.chance(100) {
            call.output = call.input.len();
        }
        if self.random.chance(50) {
            call.durations[self.random.below(8) as usize] = self.random.pick(&[1, TICK_LIMIT]);
        }
    }

    /// Makes a few calls such that they are refused.
    fn refusable(&mut self, call: &mut Call) {
        if self.random.chance(6) {
            call.array = self.random.pick(&[0, 65_535, 65_537, 131_071, 131_073]);
        }
        if self.random.chance(6) {
            call.register = self.random.pick(&[0, 127, 129]);
        }
        if self.random.chance(2) {
            call.input.resize(8_193, 0);
            call.bits = 8 * 8_193;
        }
        if self.random.chance(10) {
            call.bits = self.random.pick(&[0, call.bits + 8, 1 << 63, u64::MAX - 7, u64::MAX]);
        }
        if self.random.chance(6) {
            call.output = self.random.pick(&[0, call.input.len().saturating_sub(1).min(call.output)]);
        }
        if self.random.chance(6) {
            call.durations[self.random.below(8) as usize] = self.random.pick(&HOSTILE);
        }
        if self.random.chance(6) {
            call.ticks_per_byte = self.random.pick(&[PACE_LIMIT + 1, (1 << 32) + 1, 1 << 63, u64::MAX]);
        }
    }
}
