//! The serial flasher protocol, version 1, in front of a bench: requests are read from any stream of bytes, and each has one reply.
//!
//! Of the protocol's commands those for an SPI programmer are served; a parallel bus there is not. A refused request is answered with
//! NAK only after all its bytes have been read, so the client and the part stay in step. A byte that is no command of the protocol ends the
//! conversation: whoever sends it speaks something else.
use super::bench::Bench;
use oxterin::Refusal;
use std::io::{self, BufRead, Read};
use std::time::{Duration, Instant};

/// The request was carried out.
const ACK: u8 = 0x06;
/// The request was not carried out.
const NAK: u8 = 0x15;

/// Does nothing.
const NOP: u8 = 0x00;
/// Asks for the protocol's version.
const Q_IFACE: u8 = 0x01;
/// Asks which commands are served.
const Q_CMDMAP: u8 = 0x02;
/// Asks for the programmer's name.
const Q_PGMNAME: u8 = 0x03;
/// Asks how many bytes may be under way before they are read.
const Q_SERBUF: u8 = 0x04;
/// Asks for the buses.
const Q_BUSTYPE: u8 = 0x05;
/// Asks for the size of the operation buffer.
const Q_OPBUF: u8 = 0x07;
/// Asks for the longest write.
const Q_WRNMAXLEN: u8 = 0x08;
/// Reads a byte from a parallel bus: not served.
const R_BYTE: u8 = 0x09;
/// Reads bytes from a parallel bus: not served.
const R_NBYTES: u8 = 0x0A;
/// Empties the operation buffer.
const O_INIT: u8 = 0x0B;
/// Buffers a write of a byte to a parallel bus: not served.
const O_WRITEB: u8 = 0x0C;
/// Buffers a write of bytes to a parallel bus: not served.
const O_WRITEN: u8 = 0x0D;
/// Buffers a delay.
const O_DELAY: u8 = 0x0E;
/// Carries out what is buffered.
const O_EXEC: u8 = 0x0F;
/// Does nothing, with a reply of its own by which a client finds the beginning of a request.
const SYNCNOP: u8 = 0x10;
/// Asks for the longest read.
const Q_RDNMAXLEN: u8 = 0x11;
/// Chooses a bus.
const S_BUSTYPE: u8 = 0x12;
/// Sends and reads bytes in one chip-select frame.
const O_SPIOP: u8 = 0x13;
/// Sets the clock of the bus.
const S_SPI_FREQ: u8 = 0x14;
/// Connects the part to the bus, or disconnects it.
const S_PIN_STATE: u8 = 0x15;

/// The last command of the protocol.
const LAST: u8 = S_PIN_STATE;

/// The commands that are served.
const SERVED: [u8; 17] = [
    NOP,
    Q_IFACE,
    Q_CMDMAP,
    Q_PGMNAME,
    Q_SERBUF,
    Q_BUSTYPE,
    Q_OPBUF,
    Q_WRNMAXLEN,
    O_INIT,
    O_DELAY,
    O_EXEC,
    SYNCNOP,
    Q_RDNMAXLEN,
    S_BUSTYPE,
    O_SPIOP,
    S_SPI_FREQ,
    S_PIN_STATE,
];

/// The protocol's version.
const VERSION: [u8; 2] = [1, 0];
/// The programmer's name, filled up with NUL.
const NAME: [u8; 16] = *b"oxterin\0\0\0\0\0\0\0\0\0";
/// The largest size there is: the stream has a flow control of its own, and buffered delays are only summed up.
const ROOMY: [u8; 2] = [0xFF, 0xFF];
/// The bus for serial flashes, among the bits of the buses.
const SPI: u8 = 0x08;
/// The bytes of the longest frame.
const LONGEST_FRAME: usize = 8_192;
/// The data bytes of the longest frame, 8,188: an opcode and an address go before them.
const LONGEST_DATA: [u8; 3] = [0xFC, 0x1F, 0x00];

/// Whether a conversation may begin with this byte: a client begins with a command that is served. HTTP begins with a letter, TLS with 16h.
pub fn begins(byte: u8) -> bool {
    SERVED.contains(&byte)
}

/// A client of the bench.
///
/// As the protocol has it, `O_DELAY` only puts a delay in the client's own operation buffer, `O_EXEC` makes the buffered delays pass and
/// empties the buffer, and `O_SPIOP` goes past the buffer.
pub struct Client<'a> {
    bench: &'a Bench,
    account: u8,
    buffered: u64,
    /// How long it may send no frame; for ever if there is no time.
    idle: Option<Duration>,
    /// When it is let go unless it has sent a frame by then; never if there is none.
    pub until: Option<Instant>,
    /// What the client's port does for it.
    host: &'a dyn Host,
}

/// What a client needs of its port.
pub trait Host {
    /// Waits until the part is the client's: before its first frame, and before time passes by its delays.
    fn seat(&self);

    /// Whether the part is the client's.
    fn is_seated(&self) -> bool;

    /// Waits a while, at the most so long, and answers whether the client is still there.
    fn linger(&self, time: Duration) -> bool;
}

/// What a request is answered with.
#[derive(Debug, PartialEq, Eq)]
pub struct Reply {
    /// The bytes for the client.
    pub bytes: Vec<u8>,
    /// What the request was.
    pub request: Request,
}

/// What a request was.
#[derive(Clone, Copy, Debug, PartialEq, Eq)]
pub enum Request {
    /// A command of the protocol.
    Known,
    /// No command of the protocol, this byte: the conversation is over.
    Unknown(u8),
}

impl<'a> Client<'a> {
    /// A client that sends frames for an account, and is let go if it sends none for so long.
    pub fn new(bench: &'a Bench, account: u8, idle: Option<Duration>, host: &'a dyn Host) -> Client<'a> {
        Client {
            bench,
            account,
            buffered: 0,
            idle,
            until: after(idle),
            host,
        }
    }

    /// Waits until the part is the client's, whose time begins anew.
    fn seat(&mut self) {
        self.host.seat();
        self.until = after(self.idle);
    }

    /// Reads one request and carries it out. There is none if the stream ends before it; if it ends within the request, that is an error,
    /// and the request was not carried out.
    pub fn reply(&mut self, requests: &mut impl BufRead) -> io::Result<Option<Reply>> {
        let Some(command) = requests.by_ref().bytes().next().transpose()? else {
            return Ok(None);
        };
        let (bytes, request) = match command {
            O_SPIOP => (self.frame(requests)?, Request::Known),
            command if command > LAST => (vec![NAK], Request::Unknown(command)),
            command => (self.plain(command, requests)?, Request::Known),
        };
        Ok(Some(Reply { bytes, request }))
    }

    /// Carries out a request that is no frame.
    fn plain(&mut self, command: u8, requests: &mut impl Read) -> io::Result<Vec<u8>> {
        Ok(match command {
            NOP => ack(&[]),
            SYNCNOP => vec![NAK, ACK],
            Q_IFACE => ack(&VERSION),
            Q_CMDMAP => ack(&command_map()),
            Q_PGMNAME => ack(&NAME),
            Q_SERBUF | Q_OPBUF => ack(&ROOMY),
            Q_BUSTYPE => ack(&[SPI]),
            Q_WRNMAXLEN | Q_RDNMAXLEN => ack(&LONGEST_DATA),
            O_INIT => self.forget_delays(),
            O_DELAY => self.buffer_delay(parameters(requests)?),
            O_EXEC => self.pass_delays()?,
            S_BUSTYPE => choose_bus(parameters(requests)?),
            S_SPI_FREQ => set_clock(parameters(requests)?),
            S_PIN_STATE => connect(parameters(requests)?),
            other => refuse(other, requests)?,
        })
    }

    /// `O_INIT`.
    fn forget_delays(&mut self) -> Vec<u8> {
        self.buffered = 0;
        ack(&[])
    }

    /// `O_DELAY`: microseconds, which are ticks.
    fn buffer_delay(&mut self, ticks: [u8; 4]) -> Vec<u8> {
        self.buffered = self.buffered.saturating_add(u32::from_le_bytes(ticks).into());
        ack(&[])
    }

    /// `O_EXEC`.
    fn pass_delays(&mut self) -> io::Result<Vec<u8>> {
        if !self.host.is_seated() {
            self.seat();
        }
        if let Some(time) = self.bench.pass(self.buffered) {
            self.wait(time)?;
        }
        Ok(self.forget_delays())
    }

    /// Waits for a delay to pass by the machine's clock, as long as the client is there and is not let go.
    fn wait(&self, time: Duration) -> io::Result<()> {
        let begun = Instant::now();
        while begun.elapsed() < time {
            if !self.host.linger(time - begun.elapsed().min(time)) {
                return Err(io::ErrorKind::UnexpectedEof.into());
            }
            if self.until.is_some_and(|until| until <= Instant::now()) {
                return Err(io::ErrorKind::TimedOut.into());
            }
        }
        Ok(())
    }

    /// `O_SPIOP`: how many bytes are sent, how many are to be read, and those sent. The client gets the output after the bytes it sent.
    fn frame(&mut self, requests: &mut impl Read) -> io::Result<Vec<u8>> {
        let sent = length(parameters(requests)?);
        let read = length(parameters(requests)?);
        if sent + read > LONGEST_FRAME {
            skip(requests, sent)?;
            self.until = after(self.idle);
            self.bench.refuse(self.account, sent, read, Refusal::InputLength);
            return Ok(vec![NAK]);
        }
        let mut input = vec![0; sent + read];
        requests.read_exact(&mut input[..sent])?;
        self.seat();
        Ok(match self.bench.frame(self.account, &input, sent) {
            Ok(output) => ack(&output[sent..]),
            Err(_) => vec![NAK],
        })
    }
}

/// The moment after this time, if there is one.
fn after(time: Option<Duration>) -> Option<Instant> {
    time.map(|time| Instant::now() + time)
}

/// `S_BUSTYPE`: of several buses the programmer may choose, so the one it has must be among them.
fn choose_bus([buses]: [u8; 1]) -> Vec<u8> {
    ack_if(buses & SPI != 0, &[])
}

/// `S_SPI_FREQ`: how long a byte takes is not the clients' to say, so the clock may be any but 0 and is set as requested.
fn set_clock(hertz: [u8; 4]) -> Vec<u8> {
    ack_if(hertz != [0; 4], &hertz)
}

/// `S_PIN_STATE`: nobody else is on the part's pins, so it stays connected.
fn connect([_drivers]: [u8; 1]) -> Vec<u8> {
    ack(&[])
}

/// A command that is not served, or none of the protocol's at all. Its parameters are read where the protocol has any.
fn refuse(command: u8, requests: &mut impl Read) -> io::Result<Vec<u8>> {
    match command {
        R_BYTE => skip(requests, 3)?,
        R_NBYTES => skip(requests, 6)?,
        O_WRITEB => skip(requests, 4)?,
        O_WRITEN => {
            let data = length(parameters(requests)?);
            skip(requests, 3 + data)?;
        }
        _ => {}
    }
    Ok(vec![NAK])
}

/// ACK and what follows it.
fn ack(bytes: &[u8]) -> Vec<u8> {
    [&[ACK], bytes].concat()
}

/// ACK and what follows it, or NAK.
fn ack_if(right: bool, bytes: &[u8]) -> Vec<u8> {
    if right {
        ack(bytes)
    } else {
        vec![NAK]
    }
}

/// A bit for each command, the lowest of the first byte for 00h: 1 if it is served.
fn command_map() -> [u8; 32] {
    let mut map = [0; 32];
    for command in SERVED {
        map[usize::from(command / 8)] |= 1 << (command % 8);
    }
    map
}

/// The parameter bytes of a request.
fn parameters<const COUNT: usize>(requests: &mut impl Read) -> io::Result<[u8; COUNT]> {
    let mut bytes = [0; COUNT];
    requests.read_exact(&mut bytes)?;
    Ok(bytes)
}

/// A length of 24 bits, low byte first.
fn length([low, middle, high]: [u8; 3]) -> usize {
    u32::from_le_bytes([low, middle, high, 0]) as usize
}

/// Reads past so many bytes, keeping none of them.
fn skip(requests: &mut impl Read, count: usize) -> io::Result<()> {
    let passed = io::copy(&mut requests.by_ref().take(count as u64), &mut io::sink())?;
    if passed == count as u64 {
        Ok(())
    } else {
        Err(io::ErrorKind::UnexpectedEof.into())
    }
}

#[cfg(test)]
mod tests {
    use super::*;
    use crate::desk::Desk;
    use oxterin::{Part, Size};

    /// A bench with a blank part, WP high, whose bytes take so many ticks.
    fn bench(ticks_per_byte: u64) -> Bench {
        Bench::new(Desk::new(Part::blank(Size::Whole)), true, ticks_per_byte, None)
    }

    /// A host with one client, which is always there.
    struct Alone;

    impl Host for Alone {
        fn seat(&self) {}

        fn is_seated(&self) -> bool {
            true
        }

        fn linger(&self, _time: Duration) -> bool {
            true
        }
    }

    /// A client for an account that is always there.
    fn client_of(bench: &Bench, account: u8) -> Client<'_> {
        Client::new(bench, account, None, &Alone)
    }

    /// The replies to a client's requests, which end with the stream.
    fn replies(client: &mut Client<'_>, mut requests: &[u8]) -> Vec<Vec<u8>> {
        let mut all = Vec::new();
        while let Some(reply) = client.reply(&mut requests).expect("the stream ends between requests") {
            all.push(reply.bytes);
        }
        all
    }

    /// The busy ticks left, those that wait for a frame, and those that have passed.
    fn ticks(bench: &Bench) -> (u64, u64, u128) {
        let desk = &bench.lock().desk;
        (desk.part.record.busy, desk.waiting, desk.tick)
    }

    /// A status read of so many bytes.
    fn poll(bytes: u8) -> [u8; 8] {
        [0x13, 0x01, 0x00, 0x00, bytes, 0x00, 0x00, 0x05]
    }

    #[test]
    fn the_map_has_exactly_the_served_commands() {
        let map = command_map();
        for command in 0..=255u8 {
            let bit = map[usize::from(command / 8)] >> (command % 8) & 1 == 1;
            assert_eq!((bit, begins(command)), (SERVED.contains(&command), bit), "command {command:02X}h");
        }
        assert_eq!(map[..3], [0xBF, 0xC9, 0x3F]);
        assert_eq!(map[3..], [0; 29]);
    }

    #[test]
    fn commands_of_a_parallel_bus_are_read_whole_and_refused() {
        let bench = bench(0);
        let requests = [
            &[0x06][..],
            &[0x09, 0x10, 0x10, 0x10],
            &[0x0A, 0x10, 0x10, 0x10, 0x10, 0x10, 0x10],
            &[0x0C, 0x10, 0x10, 0x10, 0x10],
            &[0x0D, 0x02, 0x00, 0x00, 0x10, 0x10, 0x10, 0x10, 0x10],
        ];
        for request in requests {
            let joined = [request, &[0x00]].concat();
            assert_eq!(
                replies(&mut client_of(&bench, 0), &joined),
                [vec![0x15], vec![0x06]],
                "{request:02X?}"
            );
        }
    }

    #[test]
    fn a_byte_that_is_no_command_ends_the_conversation() {
        let bench = bench(0);
        for byte in 0x16..=0xFF {
            let reply = client_of(&bench, 0).reply(&mut &[byte][..]).expect("whole").expect("a reply");
            assert_eq!((reply.bytes, reply.request), (vec![0x15], Request::Unknown(byte)));
        }
    }

    #[test]
    fn a_request_cut_short_is_an_error_and_not_carried_out() {
        let whole = [0x13, 0x01, 0x00, 0x00, 0x00, 0x00, 0x00, 0x06];
        let bench = bench(0);
        for end in 1..whole.len() {
            let error = client_of(&bench, 0)
                .reply(&mut &whole[..end])
                .expect_err("the request is not whole");
            assert_eq!(error.kind(), io::ErrorKind::UnexpectedEof);
            assert!(!bench.lock().desk.part.record.wel);
        }
        let mut long = &[0x13, 0xFF, 0xFF, 0xFF, 0x00, 0x00, 0x00, 0x06, 0x06][..];
        let error = client_of(&bench, 0).reply(&mut long).expect_err("the request is not whole");
        assert_eq!(error.kind(), io::ErrorKind::UnexpectedEof);
    }

    #[test]
    fn delays_pass_when_they_are_executed() {
        let bench = bench(0);
        bench.lock().desk.part.record.busy = 20_000;
        let mut client = client_of(&bench, 0);
        let delay = [0x0E, 0x10, 0x27, 0x00, 0x00]; // 10,000
        let busy = vec![0x06, 0x11];
        assert_eq!(replies(&mut client, &[&delay[..], &poll(1)].concat())[1], busy);
        assert_eq!(ticks(&bench), (20_000, 0, 0));
        assert_eq!(replies(&mut client, &[&[0x0F][..], &poll(1)].concat())[1], busy);
        assert_eq!(ticks(&bench), (10_000, 0, 10_000));
        assert_eq!(replies(&mut client, &[&[0x0F][..], &poll(1)].concat())[1], busy);
        assert_eq!(ticks(&bench), (10_000, 0, 10_000));
        assert_eq!(replies(&mut client, &[&delay[..], &[0x0B, 0x0F], &poll(1)].concat())[3], busy);
        assert_eq!(ticks(&bench), (10_000, 0, 10_000));
        assert_eq!(replies(&mut client, &[&delay[..], &[0x0F], &poll(1)].concat())[2], [0x06, 0x10]);
    }

    #[test]
    fn elapsed_ticks_stay_with_the_part_and_buffered_ones_with_the_client() {
        let bench = bench(0);
        let mut client = client_of(&bench, 0);
        replies(&mut client, &[0x0E, 0x05, 0x00, 0x00, 0x00, 0x0F, 0x0E, 0x07, 0x00, 0x00, 0x00]);
        assert_eq!((client.buffered, ticks(&bench).1), (7, 5));
        let mut client = client_of(&bench, 0);
        let refused = client.reply(&mut &[0x13, 0x00, 0x00, 0x00, 0x01, 0x20, 0x00][..]).expect("whole");
        let wanted = Reply {
            bytes: vec![0x15],
            request: Request::Known,
        };
        assert_eq!(refused, Some(wanted));
        assert_eq!((client.buffered, ticks(&bench).1), (0, 5));
        replies(&mut client, &poll(1));
        assert_eq!(ticks(&bench), (0, 0, 5));
    }

    #[test]
    fn every_byte_of_a_frame_takes_its_ticks() {
        let bench = bench(8);
        bench.lock().desk.part.record.busy = 20;
        let polled = replies(&mut client_of(&bench, 0), &poll(4));
        assert_eq!(polled, [[0x06, 0x11, 0x01, 0x10, 0x00]]);
        assert_eq!(ticks(&bench), (0, 0, 40));
    }

    #[test]
    fn sums_of_delays_stop_at_the_largest_number() {
        let bench = bench(0);
        bench.lock().desk.waiting = u64::MAX - 1;
        let mut client = client_of(&bench, 0);
        client.buffered = u64::MAX - 1;
        replies(&mut client, &[0x0E, 0x05, 0x00, 0x00, 0x00]);
        assert_eq!(client.buffered, u64::MAX);
        replies(&mut client, &[0x0F]);
        assert_eq!((client.buffered, ticks(&bench).1), (0, u64::MAX));
    }

    /// Account 3 begins an erase of 50,000 ticks and account 8 waits for its end.
    #[test]
    fn a_frame_is_billed_to_the_account_of_its_client() {
        let bench = bench(0);
        let frame = |bytes: &[u8]| [&[0x13, bytes.len() as u8, 0, 0, 0, 0, 0], bytes].concat();
        replies(&mut client_of(&bench, 3), &[frame(&[0x06]), frame(&[0x20, 0, 0, 0])].concat());
        let wait = [0x0E, 0x50, 0xC3, 0x00, 0x00, 0x0F]; // 50,000
        replies(&mut client_of(&bench, 8), &[&wait[..], &poll(1)].concat());
        let desk = &bench.lock().desk;
        assert_eq!((desk.ledger.totals[3], desk.ledger.totals[8]), (50_000, 0));
    }
}
