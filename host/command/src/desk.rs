//! A part with its books: a ledger through which all frames go, and the time that has passed.
use crate::frames::Frame;
use oxterin::{Exchange, Ledger, Line, Part, Signals};

/// A part, its ledger, and the time.
#[derive(Clone, Debug, PartialEq, Eq)]
pub struct Desk {
    /// The part.
    pub part: Part,
    /// Who began what, and what it cost.
    pub ledger: Ledger,
    /// The ticks that have passed, before the frames and with their bytes.
    pub tick: u128,
    /// How many frames were accepted.
    pub sent: u64,
    /// Ticks that have passed since the last frame and go to the next one.
    pub waiting: u64,
    /// What `tick` was when the ledger's tables were last emptied.
    pub opened: u128,
    /// How many frames were accepted since.
    pub frames: u64,
}

/// What came of a frame.
pub struct Sent {
    /// Output and answer.
    pub exchange: Exchange,
    /// What it billed, if anything.
    pub billed: Option<Billed>,
}

/// Ticks that came off an operation, and the account that began it.
#[derive(Clone, Copy, Debug, PartialEq, Eq)]
pub struct Billed {
    /// To whom they are billed.
    pub account: u8,
    /// How many, at least one.
    pub ticks: u64,
}

/// What all accounts were billed.
#[derive(Clone, Copy, Debug, Default, PartialEq, Eq)]
pub struct All {
    /// The sum of their totals.
    pub total: u128,
    /// The most for one operation.
    pub most: u64,
    /// How many operations they began.
    pub number: u128,
}

impl Desk {
    /// This part with an empty ledger, at tick 0.
    pub fn new(part: Part) -> Desk {
        Desk {
            part,
            ledger: Ledger::empty(),
            tick: 0,
            sent: 0,
            waiting: 0,
            opened: 0,
            frames: 0,
        }
    }

    /// The signals with which a frame reaches the part: the ticks that waited for it have elapsed, too.
    pub fn signals(&self, frame: &Frame) -> Signals {
        Signals {
            elapsed: frame.signals.elapsed.saturating_add(self.waiting),
            ..frame.signals
        }
    }

    /// Sends a frame for its account. If it is refused nothing changes, and the words say why.
    pub fn send(&mut self, frame: &Frame) -> Result<Sent, String> {
        self.exchange(frame.account(), &frame.input, self.signals(frame))
            .map_err(|refusal| format!("{refusal} ({} bytes, {} bits)", frame.input.len(), frame.signals.bits))
    }

    /// Sends bytes with these signals, for an account. If they are refused nothing changes.
    pub fn exchange(&mut self, account: u8, input: &[u8], signals: Signals) -> Result<Sent, oxterin::Refusal> {
        let owner = self.ledger.running.owner();
        let total = |ledger: &Ledger| owner.map_or(0, |account| ledger.totals[usize::from(account)]);
        let before = total(&self.ledger);
        let exchange = self.part.frame_for(account.into(), &mut self.ledger, input, signals)?;
        let ticks = total(&self.ledger) - before;
        self.tick += u128::from(signals.elapsed) + u128::from(signals.frame_ticks());
        self.waiting = 0;
        self.sent += 1;
        self.frames += 1;
        let billed = owner.filter(|_| ticks > 0).map(|account| Billed { account, ticks });
        Ok(Sent { exchange, billed })
    }

    /// Whether ticks that wait for the next frame would come off an operation.
    pub fn owes(&self) -> bool {
        self.waiting > 0 && self.part.record.busy > 0
    }

    /// The frame with which ticks that wait pass at once: one of no bits, to which a busy part does nothing, for whoever pays for them.
    pub fn settling(&self) -> Frame {
        Frame {
            input: Vec::new(),
            signals: Signals::whole(&[]),
            named: Some(self.ledger.running.owner().unwrap_or(0)),
        }
    }

    /// Lets ticks that wait pass at once, if they come off an operation. If the ledger is full, they go on waiting.
    pub fn settle(&mut self) {
        if self.owes() {
            let _ = self.send(&self.settling());
        }
    }

    /// The ticks that have passed since the tables were last emptied.
    pub fn passed(&self) -> u128 {
        self.tick - self.opened
    }

    /// The accounts that began an operation or were billed anything, with their lines of the ledger.
    pub fn accounts(&self) -> Vec<(u8, Line)> {
        let lines = self.ledger.lines();
        lines.filter(|(_, line)| line.number > 0 || line.total > 0).collect()
    }

    /// What all accounts were billed, which is every tick for which the part was busy with an operation of theirs.
    pub fn all(&self) -> All {
        self.accounts().into_iter().fold(All::default(), |all, (_, line)| All {
            total: all.total + u128::from(line.total),
            most: all.most.max(line.most),
            number: all.number + u128::from(line.number),
        })
    }

    /// Closes a month: empties the tables. What is running stays its account's, billed nothing so far.
    pub fn close(&mut self) {
        self.ledger.close();
        self.opened = self.tick;
        self.frames = 0;
    }
}
