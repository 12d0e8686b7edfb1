//! Which causes hold in a call: twelve predicates written from request R-5 and from what was settled about it, beside library and model.
//! They look at the record, whether it is busy at the first bit, the frame and the level of WP.
//!
//! A boundary, a number of bytes or the latch is asked of a command that needs it, and of nothing else: neither of fewer than 8 bits nor of
//! an unknown opcode. A command whose bytes are not all there is incomplete off a boundary too. F0h needs its second byte: without it F0h
//! is incomplete as well as not confirmed.
use crate::call::Call;
use crate::opcodes::{CHANGES, CONTROLS, READS};
use crate::reply::CAUSES;
use oxterin::{Mode, Record};

/// How many causes there are.
const COUNT: usize = CAUSES.len() - 1;

/// Each two causes of which both can hold in one accepted call while none before the first does, by their numbers.
///
/// - With 1 there is no opcode, and so nothing that is asked of a command: 2 and 3 are left, which ask nothing of one.
/// - With 2 there is all that can be said of an opcode, but not 3, as busy ticks are refused in a part that is asleep, and not 12, as
///   the part is not awake.
/// - With 3 there is all that can be said of an opcode, but not 6, as F0h is never busy.
/// - With 4 there is no command, and so nothing that is asked of one.
/// - With 5 the command needs the latch, and so is neither F0h nor ABh: not 6, not 12.
/// - With 6 it is F0h, which can be off a boundary and without its second byte, and nothing else.
/// - With 7 it is not ABh, which is asleep before it is off a boundary, and awake is never off one: not 12. The commands that need the
///   latch can be 8 to 11.
/// - With 8 it needs the latch, as F0h without its second byte is 6: not 12. Each of 9, 10 and 11 has a command that needs further bytes.
/// - 9 to 12 are of different opcodes.
pub(crate) const PAIRS: [(usize, usize); 32] = [
    (1, 2),
    (1, 3),
    (2, 4),
    (2, 5),
    (2, 6),
    (2, 7),
    (2, 8),
    (2, 9),
    (2, 10),
    (2, 11),
    (3, 4),
    (3, 5),
    (3, 7),
    (3, 8),
    (3, 9),
    (3, 10),
    (3, 11),
    (3, 12),
    (5, 7),
    (5, 8),
    (5, 9),
    (5, 10),
    (5, 11),
    (6, 7),
    (6, 8),
    (7, 8),
    (7, 9),
    (7, 10),
    (7, 11),
    (8, 9),
    (8, 10),
    (8, 11),
];

/// Whether each cause holds, in the order of the request's list, in a call with this record that is accepted. In ultra-deep none does, as
/// every frame wakes the part.
pub(crate) fn holding(record: &Record, call: &Call) -> [bool; COUNT] {
    if record.mode == Mode::UltraDeep {
        return [false; COUNT];
    }
    let frame = Frame {
        record,
        call,
        opcode: call.clocked_opcode(),
    };
    [
        frame.has_too_few_bits(),
        frame.is_asleep(),
        frame.is_busy(),
        frame.has_an_unknown_opcode(),
        frame.lacks_the_latch(),
        frame.is_no_enabled_and_confirmed_reset(),
        frame.is_off_boundary(),
        frame.is_incomplete(),
        frame.is_protected(),
        frame.is_locked(),
        frame.is_already_programmed(),
        frame.is_already_awake(),
    ]
}

/// The words of the first cause that holds, or `none`.
pub(crate) fn first(record: &Record, call: &Call) -> &'static str {
    let place = holding(record, call).iter().position(|&holds| holds);
    CAUSES[place.map_or(0, |place| place + 1)]
}

/// A call with its record, and the opcode if all its bits are clocked. Each predicate stands for the cause of its name.
struct Frame<'a> {
    record: &'a Record,
    call: &'a Call,
    opcode: Option<u8>,
}

impl Frame<'_> {
    /// 1.
    fn has_too_few_bits(&self) -> bool {
        self.call.bits < 8
    }

    /// 2: deep power-down is left by ABh on a boundary alone.
    fn is_asleep(&self) -> bool {
        let wakes = self.opcode == Some(0xAB) && self.is_whole();
        self.record.mode == Mode::Deep && !wakes
    }

    /// 3: while an operation runs at the first bit, 05h and F0h alone are heard.
    fn is_busy(&self) -> bool {
        self.call.busy_at_first_bit(self.record) > 0 && !matches!(self.opcode, Some(0x05 | 0xF0))
    }

    /// 4.
    fn has_an_unknown_opcode(&self) -> bool {
        let is_listed = |opcode| READS.contains(&opcode) || CONTROLS.contains(&opcode) || CHANGES.contains(&opcode);
        self.opcode.is_some_and(|opcode| !is_listed(opcode))
    }

    /// 5.
    fn lacks_the_latch(&self) -> bool {
        self.needs_the_latch() && !self.record.wel
    }

    /// 6: F0h without RSTE, or without all bits of D0h after it.
    fn is_no_enabled_and_confirmed_reset(&self) -> bool {
        let is_confirmed = self.call.bits >= 16 && self.call.input.get(1) == Some(&0xD0);
        self.opcode == Some(0xF0) && !(self.record.rste && is_confirmed)
    }

    /// 7: ABh needs a boundary to wake a part, and none awake; reads never do.
    fn is_off_boundary(&self) -> bool {
        let is_control = matches!(self.opcode, Some(0x06 | 0x04 | 0xB9 | 0x79 | 0xF0));
        let wakes = self.opcode == Some(0xAB) && self.record.mode == Mode::Deep;
        (is_control || wakes || self.needs_the_latch()) && !self.is_whole()
    }

    /// 8: a short read is a read.
    fn is_incomplete(&self) -> bool {
        let needed = match self.opcode {
            Some(0x02 | 0x9B) => 5,
            Some(0x81 | 0x20 | 0x52 | 0xD8) => 4,
            Some(0x01 | 0x31 | 0xF0) => 2,
            _ => 0,
        };
        self.call.bits < 8 * needed
    }

    /// 9: programs and erases of the array.
    fn is_protected(&self) -> bool {
        self.record.bp0 && matches!(self.opcode, Some(0x02 | 0x81 | 0x20 | 0x52 | 0xD8 | 0x60 | 0x62 | 0xC7))
    }

    /// 10.
    fn is_locked(&self) -> bool {
        self.record.bpl && !self.call.wp_high && self.opcode == Some(0x01)
    }

    /// 11.
    fn is_already_programmed(&self) -> bool {
        self.record.otp_used && self.opcode == Some(0x9B)
    }

    /// 12.
    fn is_already_awake(&self) -> bool {
        self.record.mode == Mode::Awake && self.opcode == Some(0xAB)
    }

    /// 31h and what begins an operation need it.
    fn needs_the_latch(&self) -> bool {
        self.opcode.is_some_and(|opcode| opcode == 0x31 || CHANGES.contains(&opcode))
    }

    /// The bits make whole bytes.
    fn is_whole(&self) -> bool {
        self.call.bits.is_multiple_of(8)
    }
}

#[cfg(test)]
mod tests {
    use super::*;
    use crate::text;
    use std::collections::BTreeSet;

    /// The numbers of the causes that hold.
    fn numbers(record: &Record, call: &Call) -> Vec<usize> {
        let holding = holding(record, call);
        (1..=COUNT).filter(|number| holding[number - 1]).collect()
    }

    /// Frames to records of BPL, BP0, WEL, RSTE, OTP used, mode and busy ticks, and all that holds in them.
    const FRAMES: [(&str, &[usize]); 38] = [
        // Without an opcode there is no command, whatever the bits stand for.
        ("- record=0,0,0,0,0,0,0", &[1]),
        ("60 bits=7 record=0,1,0,0,0,0,0", &[1]),
        ("AB bits=7 record=0,0,0,0,0,1,0", &[1, 2]),
        ("F0 bits=7 record=0,0,0,0,0,0,5", &[1, 3]),
        ("05 bits=7 record=0,0,0,0,0,0,5", &[1, 3]),
        // Deep power-down.
        ("AB record=0,0,0,0,0,1,0", &[]),
        ("AB 00*3 record=0,0,0,0,0,1,0", &[]),
        ("AB 00 bits=9 record=0,0,0,0,0,1,0", &[2, 7]),
        ("05 00 record=0,0,0,0,0,1,0", &[2]),
        ("FF record=0,0,0,0,0,1,0", &[2, 4]),
        ("F0 D0 record=0,0,0,1,0,1,0", &[2]),
        ("9B 00*2 bits=23 record=0,0,0,0,1,1,0", &[2, 5, 7, 8, 11]),
        // Busy at the first bit; what the frame's own ticks leave does not count.
        ("06 elapsed=4 ticks-per-byte=5 record=0,0,0,0,0,0,5", &[3]),
        ("06 elapsed=5 record=0,0,0,0,0,0,5", &[]),
        ("05 00 bits=9 record=0,0,0,0,0,0,5", &[]),
        ("03 record=0,0,0,0,0,0,5", &[3]),
        ("FF 00 bits=9 record=0,0,0,0,0,0,5", &[3, 4]),
        ("AB 00 bits=9 record=0,0,0,0,0,0,5", &[3, 12]),
        ("F0 D0 record=0,0,0,1,0,0,5", &[]),
        ("F0 D0 record=0,0,0,0,0,0,5", &[6]),
        // The reset.
        ("F0 D0 bits=15 record=0,0,0,1,0,0,0", &[6, 7, 8]),
        ("F0 record=0,0,0,1,0,0,0", &[6, 8]),
        ("F0 D1 D0 record=0,0,0,1,0,0,0", &[6]),
        ("F0 D0 00 bits=17 record=0,0,0,1,0,0,0", &[7]),
        // What an idle part asks of the others.
        ("FF 00 bits=9 record=0,0,0,0,0,0,0", &[4]),
        ("AB 00 bits=9 record=0,0,0,0,0,0,0", &[12]),
        ("03 00 bits=9 record=0,1,0,0,0,0,0", &[]),
        ("04 00 bits=9 record=0,0,0,0,0,0,0", &[7]),
        ("02 00*3 record=1,1,0,0,1,0,0 wp=0", &[5, 8, 9]),
        ("60 00 bits=9 record=1,1,1,0,1,0,0 wp=0", &[7, 9]),
        ("9B 00*4 record=1,1,1,0,0,0,0 wp=0", &[]),
        ("9B 00*4 record=0,0,1,0,1,0,0", &[11]),
        ("01 00 record=1,1,1,0,1,0,0", &[]),
        ("01 00 record=1,0,1,0,0,0,0 wp=0", &[10]),
        ("01 record=1,1,1,0,1,0,0 wp=0", &[8, 10]),
        ("31 10 record=1,1,1,0,1,0,0 wp=0", &[]),
        ("31 record=1,1,0,0,1,0,0 wp=0", &[5, 8]),
        // Every frame wakes from ultra-deep.
        ("60 bits=7 record=0,1,0,0,0,2,0", &[]),
    ];

    #[test]
    fn causes_hold_as_worked_out_by_hand() {
        for (line, expected) in FRAMES {
            let [call] = &text::read(line).expect("the line can be read")[..] else {
                panic!("{line}");
            };
            let record = call.record.expect("these calls hand a record over");
            assert_eq!(numbers(&record, call), expected, "{line}");
            assert_eq!(first(&record, call), CAUSES[expected.first().copied().unwrap_or(0)], "{line}");
        }
    }

    /// Every opcode at every bit count up to six bytes, confirmed as a reset and not, in every state that is accepted and not ultra-deep.
    #[test]
    fn the_pairs_are_those_that_meet() {
        let mut met = BTreeSet::new();
        for (mode, busy) in [(Mode::Awake, 0), (Mode::Awake, 5), (Mode::Deep, 0)] {
            for (opcode, second) in (0..=255).flat_map(|opcode| [(opcode, 0x00), (opcode, 0xD0)]) {
                let mut call = Call::of(&[opcode, second, 0, 0, 0, 0]);
                for (bits, levels) in (0..=48).flat_map(|bits| (0..64).map(move |levels| (bits, levels))) {
                    let level = |place: u32| levels >> place & 1 != 0;
                    let record = Record {
                        bpl: level(0),
                        bp0: level(1),
                        wel: level(2),
                        rste: level(3),
                        otp_used: level(4),
                        mode,
                        busy,
                    };
                    (call.bits, call.wp_high) = (bits, level(5));
                    if let Some((&first, others)) = numbers(&record, &call).split_first() {
                        met.extend(others.iter().map(|&other| (first, other)));
                    }
                }
            }
        }
        assert_eq!(met.into_iter().collect::<Vec<_>>(), PAIRS);
    }
}
