//! A port of a server: who is let in, who is served, and who is hung up on.
use super::bench::Bench;
use super::counts::Counts;
use super::serprog::{begins, Client, Host, Reply, Request};
use crate::complaint::complain;
use std::cell::OnceCell;
use std::collections::VecDeque;
use std::io::{self, BufRead, BufReader, ErrorKind, Read, Write};
use std::net::{Ipv4Addr, Shutdown, SocketAddr, TcpListener, TcpStream};
use std::sync::atomic::{AtomicUsize, Ordering};
use std::sync::{Arc, Mutex, MutexGuard, PoisonError};
use std::thread;
use std::time::{Duration, Instant};

/// What all ports of a server share.
pub struct Service {
    /// The part.
    pub bench: Bench,
    /// A client that sends no frame for so long is let go; never if there is no time.
    pub idle: Option<Duration>,
    /// What is done when a client that was served has left.
    pub left: Box<dyn Fn() + Send + Sync>,
}

/// A port at the loopback address, and whose frames come from it.
pub struct Port {
    listener: TcpListener,
    /// The account that its clients' frames are sent for.
    account: u8,
    /// The part is one client's at a time: it takes the seat with its first frame, or its first delay.
    seat: Mutex<()>,
    /// How many connections there are, of whatever kind.
    present: AtomicUsize,
    /// Those of them that have not said anything yet, in the order in which they came.
    mute: Mutex<VecDeque<Arc<TcpStream>>>,
}

/// So many connections a port has at a time. If another comes, the first of those that have not said anything goes; if all have, it waits.
const MOST_PRESENT: usize = 100;
/// A connection that says nothing at all is closed after this time.
const FIRST_WORD: Duration = Duration::from_secs(10);
/// How often a silent connection is looked after, at least.
const LOOK: Duration = Duration::from_millis(500);
/// How many bytes of requests and of replies are kept.
const ROOM: usize = 1 << 16;

impl Port {
    /// Takes a port, for an account.
    pub fn open(number: u16, account: u8) -> io::Result<Port> {
        Ok(Port {
            listener: TcpListener::bind((Ipv4Addr::LOCALHOST, number))?,
            account,
            seat: Mutex::default(),
            present: AtomicUsize::new(0),
            mute: Mutex::default(),
        })
    }

    /// Its address.
    pub fn address(&self) -> io::Result<SocketAddr> {
        self.listener.local_addr()
    }

    /// Lets clients in as long as the server runs.
    pub fn serve(self: Arc<Port>, service: &Arc<Service>) {
        loop {
            match self.listener.accept() {
                Ok((stream, peer)) => {
                    self.make_room(&service.bench);
                    self.let_in(service, stream, peer);
                }
                Err(error) if error.kind() == ErrorKind::ConnectionAborted => {}
                Err(error) => {
                    complain(format!("waiting for a client: {error}; the server waits on"));
                    thread::sleep(Duration::from_secs(1));
                }
            }
        }
    }

    /// Waits until there is room for one more.
    fn make_room(&self, bench: &Bench) {
        while self.present.load(Ordering::Relaxed) >= MOST_PRESENT {
            if let Some(first) = self.mute().pop_front() {
                bench.count(Counts::let_go);
                let peer = first.peer_addr().map_or_else(|_| "somebody".to_string(), |peer| peer.to_string());
                complain(format!("{peer}: not a word, and others are waiting; hung up on it"));
                let _ = first.shutdown(Shutdown::Both); // its thread hears of it and ends
            }
            thread::sleep(Duration::from_millis(1));
        }
    }

    /// Those that have not said anything yet.
    fn mute(&self) -> MutexGuard<'_, VecDeque<Arc<TcpStream>>> {
        self.mute.lock().unwrap_or_else(PoisonError::into_inner)
    }

    /// Gives a connection a thread of its own.
    fn let_in(self: &Arc<Port>, service: &Arc<Service>, stream: TcpStream, peer: SocketAddr) {
        let (guest, service) = (Guest::of(self), Arc::clone(service));
        let talk = move || {
            let served = guest.0.attend(&service, &Arc::new(stream), peer);
            drop(guest);
            if served {
                (service.left)();
            }
        };
        if let Err(error) = thread::Builder::new().spawn(talk) {
            complain(format!("{peer}: {error}; hung up on it"));
        }
    }

    /// Talks with a connection until it ends, and says what was out of order. Answers whether a client was served.
    fn attend(&self, service: &Service, stream: &Arc<TcpStream>, peer: SocketAddr) -> bool {
        let bench = &service.bench;
        let seat = Seat {
            port: self,
            bench,
            stream,
            taken: OnceCell::new(),
        };
        let end = Wire::new(stream, service.idle).map_or_else(
            |error| End::Lost(error.to_string()),
            |wire| {
                let mut requests = BufReader::with_capacity(ROOM, wire);
                match self.first_word(&mut requests, stream, service.idle) {
                    Ok(()) => converse(Client::new(bench, self.account, service.idle, &seat), &mut requests, service.idle),
                    Err(end) => end,
                }
            },
        );
        let served = seat.leave() && !matches!(end, End::Stranger(_));
        match end {
            End::Left => {}
            End::Stranger(how) => {
                bench.count(Counts::stranger);
                complain(format!("{peer}: no serprog client, {how}; hung up on it"));
            }
            End::Silent(how) => {
                bench.count(Counts::let_go);
                complain(format!("{peer}: {how}; hung up on it"));
            }
            End::Lost(how) => complain(format!("{peer}: {how}; the part waits for the next client")),
        }
        served
    }

    /// Waits for the first byte that a connection says, which stays to be read: it has to be a command that is served.
    fn first_word(&self, requests: &mut BufReader<Wire<'_>>, stream: &Arc<TcpStream>, idle: Option<Duration>) -> Result<(), End> {
        let patience = idle.map_or(FIRST_WORD, |idle| idle.min(FIRST_WORD));
        requests.get_mut().until = Some(Instant::now() + patience);
        self.mute().push_back(Arc::clone(stream));
        let first = requests.fill_buf().map(|bytes| bytes.first().copied());
        self.mute().retain(|mute| !Arc::ptr_eq(mute, stream));
        match first {
            Ok(Some(byte)) if begins(byte) => Ok(()),
            Ok(Some(byte)) => Err(End::Stranger(format!("its first byte is {byte:02X}h"))),
            Ok(None) => Err(End::Left),
            Err(error) if error.kind() == ErrorKind::ConnectionReset => Err(End::Left),
            Err(error) => Err(End::of(&error, &format!("not a word for {} seconds", patience.as_secs_f64()))),
        }
    }
}

/// The seat of a port, for a client that may take it.
struct Seat<'a> {
    port: &'a Port,
    bench: &'a Bench,
    stream: &'a TcpStream,
    /// The seat, once the client has it.
    taken: OnceCell<MutexGuard<'a, ()>>,
}

impl Seat<'_> {
    /// Gives the seat up, and answers whether it was taken. What has changed is saved.
    fn leave(self) -> bool {
        let taken = self.taken.into_inner();
        if taken.is_some() {
            self.bench.left();
        }
        taken.is_some()
    }
}

impl Host for Seat<'_> {
    fn seat(&self) {
        self.taken.get_or_init(|| {
            let seat = self.port.seat.lock().unwrap_or_else(PoisonError::into_inner);
            self.bench.count(Counts::come);
            seat
        });
    }

    fn is_seated(&self) -> bool {
        self.taken.get().is_some()
    }

    /// A short time is waited for to its end.
    fn linger(&self, time: Duration) -> bool {
        if time <= LOOK {
            thread::sleep(time);
            return true;
        }
        match self.stream.peek(&mut [0]) {
            Ok(0) => false,
            Ok(_) => {
                thread::sleep(LOOK);
                true
            }
            Err(error) => is_patience(&error),
        }
    }
}

/// A connection that is counted as long as it is there.
struct Guest(Arc<Port>);

impl Guest {
    /// One more at a port.
    fn of(port: &Arc<Port>) -> Guest {
        port.present.fetch_add(1, Ordering::Relaxed);
        Guest(Arc::clone(port))
    }
}

impl Drop for Guest {
    fn drop(&mut self) {
        self.0.present.fetch_sub(1, Ordering::Relaxed);
    }
}

/// How a conversation ended. The words say why.
enum End {
    /// The client left between two requests, or before the first.
    Left,
    /// It was no client.
    Stranger(String),
    /// It was silent for too long.
    Silent(String),
    /// It was lost.
    Lost(String),
}

impl End {
    /// How a conversation ends with an error of its connection; if that is silence, these words say so.
    fn of(error: &io::Error, silence: &str) -> End {
        match error.kind() {
            ErrorKind::InvalidData => End::Stranger(error.to_string()),
            ErrorKind::TimedOut => End::Silent(silence.to_string()),
            ErrorKind::UnexpectedEof => End::Lost("it left in the middle of a request".to_string()),
            _ => End::Lost(error.to_string()),
        }
    }
}

/// Answers requests until there are none. Whoever sends no frame for too long is let go.
fn converse(mut client: Client<'_>, requests: &mut BufReader<Wire<'_>>, idle: Option<Duration>) -> End {
    let end = loop {
        requests.get_mut().until = client.until;
        match answer(&mut client, requests) {
            Ok(Some(Request::Known)) => {}
            Ok(Some(Request::Unknown(byte))) => break Ok(End::Stranger(format!("it said {byte:02X}h in place of a command"))),
            Ok(None) => break Ok(End::Left),
            Err(error) => break Err(error),
        }
    };
    let seconds = idle.unwrap_or_default().as_secs_f64();
    end.unwrap_or_else(|error| End::of(&error, &format!("no frame for {seconds} seconds (--idle)")))
}

/// Answers one request, and says what it was. If it is the last one, the answer is sent at once.
fn answer(client: &mut Client<'_>, requests: &mut BufReader<Wire<'_>>) -> io::Result<Option<Request>> {
    let reply = client.reply(requests)?;
    let wire = requests.get_mut();
    match reply {
        Some(Reply { bytes, request }) => {
            wire.put(&bytes)?;
            if let Request::Unknown(_) = request {
                wire.flush()?;
            }
            Ok(Some(request))
        }
        None => wire.flush().map(|()| None),
    }
}

/// Whether an error says no more than that nothing has come yet.
fn is_patience(error: &io::Error) -> bool {
    matches!(error.kind(), ErrorKind::WouldBlock | ErrorKind::TimedOut | ErrorKind::Interrupted)
}

/// A connection. Replies are kept until the next request has to be waited for.
struct Wire<'a> {
    stream: &'a TcpStream,
    replies: Vec<u8>,
    /// The first bytes that came.
    first: Vec<u8>,
    /// When the other side's time is over; never if there is none.
    until: Option<Instant>,
}

/// What is in the head of every message of STUN and TURN, which browsers send for WebRTC and which can begin with a command.
const COOKIE: [u8; 4] = [0x21, 0x12, 0xA4, 0x42];
/// How many bytes come before it: four, or six if two bytes for the message's length come first.
const BEFORE: [usize; 2] = [4, 6];
/// So many bytes of a connection tell whether it begins with such a message.
const TELLING: usize = 10;

impl<'a> Wire<'a> {
    /// A connection that is looked after, if nothing comes or goes.
    fn new(stream: &'a TcpStream, idle: Option<Duration>) -> io::Result<Wire<'a>> {
        let look = idle.map_or(LOOK, |idle| idle.min(LOOK));
        stream.set_nodelay(true)?;
        stream.set_read_timeout(Some(look))?;
        stream.set_write_timeout(Some(look))?;
        Ok(Wire {
            stream,
            replies: Vec::new(),
            first: Vec::new(),
            until: None,
        })
    }

    /// Keeps a reply, or sends what is kept if that is much.
    fn put(&mut self, reply: &[u8]) -> io::Result<()> {
        self.replies.extend(reply);
        match self.replies.len() >= ROOM {
            true => self.flush(),
            false => Ok(()),
        }
    }

    /// Sends the replies that are kept.
    fn flush(&mut self) -> io::Result<()> {
        let mut sent = 0;
        while sent < self.replies.len() {
            match self.stream.write(&self.replies[sent..]) {
                Ok(0) => return Err(ErrorKind::WriteZero.into()),
                Ok(count) => sent += count,
                Err(error) if is_patience(&error) => {}
                Err(error) => return Err(error),
            }
            self.in_time(sent == self.replies.len())?;
        }
        self.replies.clear();
        Ok(())
    }

    /// It is an error if the other side's time is over before something is done.
    fn in_time(&self, done: bool) -> io::Result<()> {
        match !done && self.until.is_some_and(|until| until <= Instant::now()) {
            true => Err(ErrorKind::TimedOut.into()),
            false => Ok(()),
        }
    }

    /// It is an error if the connection begins with a message of STUN.
    fn look_at(&mut self, bytes: &[u8]) -> io::Result<()> {
        if self.first.len() < TELLING {
            let missing = (TELLING - self.first.len()).min(bytes.len());
            self.first.extend(&bytes[..missing]);
            let tells = |before: usize| self.first.get(before..before + COOKIE.len()) == Some(&COOKIE);
            if BEFORE.into_iter().any(tells) {
                return Err(io::Error::new(ErrorKind::InvalidData, "it speaks STUN"));
            }
        }
        Ok(())
    }
}

impl Read for Wire<'_> {
    fn read(&mut self, bytes: &mut [u8]) -> io::Result<usize> {
        self.flush()?;
        loop {
            match self.stream.read(bytes) {
                Err(error) if is_patience(&error) => self.in_time(false)?,
                Err(error) => return Err(error),
                Ok(count) => {
                    self.in_time(false)?;
                    self.look_at(&bytes[..count])?;
                    return Ok(count);
                }
            }
        }
    }
}
