//! The steps of `engine_speed` in plain Rust, each once and with no more than it needs: the bytes of a
//! connection are kept and cut into frames, sums are checked, fields are read, the orders' bodies kept and
//! handed to a library through a queue, the library's reports are checked, kept and numbered, and their
//! frames written. It prints how many nanoseconds it took: `plain_engine orders N` to answer N orders in one
//! thread, `plain_engine apart N` to answer N orders with the library in a thread of its own, and
//! `plain_engine sessions N` a thousand turns with N sessions that are logged on and 16 libraries, all of
//! which rest.
use std::sync::atomic::{AtomicBool, AtomicU64, Ordering};
use std::sync::mpsc::{Receiver, SyncSender, TrySendError, sync_channel};
use std::time::Instant;

const SOH: u8 = 1;
const REPORT: &[u8] = b"35=8\x0137=O1\x0117=E1\x01150=F\x0139=2\x0111=order-1\x0155=ACME\x0154=1\x0138=100\x0132=100\x0131=12.50\x01151=0\x0114=100\x016=12.50\x01";
const ORDER: &[u8] = b"11=order-1\x0155=ACME\x0154=1\x0138=100\x0140=2\x0144=12.50\x0159=0\x011=account-77\x0158=as told at the desk\x01";
const TIME: &[u8] = b"20260105-09:30:00.000";
const MOST_READ: usize = 4_096;
const MOST_WRITTEN: usize = 1_048_576;
const NOTICES: usize = 256;
const LANE: usize = 16;
const LIBRARIES: usize = 16;
const COMMANDS: usize = 256;
const RESTING_TURNS: u64 = 1_000;
const MORNING: u64 = 1_767_605_400_000;
const HEART: u64 = 30_000;
const TIMEOUT: u64 = 5_000;

fn sum(bytes: &[u8]) -> u8 {
    bytes.iter().fold(0, |sum, byte| sum.wrapping_add(*byte))
}

fn put_frame(out: &mut Vec<u8>, kind: &[u8], us: &str, them: &str, number: u64, rest: &[u8]) {
    let mut body = Vec::with_capacity(rest.len() + 80);
    body.extend_from_slice(kind);
    body.extend_from_slice(format!("49={us}\x0156={them}\x0134={number}\x0152=").as_bytes());
    body.extend_from_slice(TIME);
    body.push(SOH);
    body.extend_from_slice(rest);
    let start = out.len();
    out.extend_from_slice(format!("8=FIX.4.4\x019={}\x01", body.len()).as_bytes());
    out.extend_from_slice(&body);
    let sum = sum(&out[start..]);
    out.extend_from_slice(format!("10={sum:03}\x01").as_bytes());
}

fn logon(them: &str) -> Vec<u8> {
    let mut input = Vec::new();
    put_frame(&mut input, b"35=A\x01", them, "GATE", 1, b"98=0\x01108=30\x01");
    input
}

fn morning(orders: u64) -> Vec<u8> {
    let mut input = logon("BUYER0");
    for k in 0..orders {
        put_frame(&mut input, b"35=D\x01", "BUYER0", "GATE", k + 2, ORDER);
    }
    input
}

// The body of the frame at the head of the bytes, and the frame's length.
fn cut(bytes: &[u8]) -> Option<(&[u8], usize)> {
    let rest = bytes.strip_prefix(b"8=FIX.4.4\x019=")?;
    let digits = rest.iter().position(|byte| *byte == SOH)?;
    let mut length = 0;
    for byte in &rest[..digits] {
        length = length * 10 + usize::from(byte - b'0');
    }
    let start = 12 + digits + 1;
    let end = start + length;
    if bytes.len() < end + 7 {
        return None;
    }
    let tail = &bytes[end..end + 7];
    let told = (tail[3] - b'0') as u32 * 100 + (tail[4] - b'0') as u32 * 10 + (tail[5] - b'0') as u32;
    assert!(tail.starts_with(b"10=") && told == u32::from(sum(&bytes[..end])));
    Some((&bytes[start..end], end + 7))
}

fn read_fields(body: &[u8]) -> Vec<(u32, &[u8])> {
    let mut fields = Vec::with_capacity(24);
    let mut at = 0;
    while at < body.len() {
        let mut tag = 0;
        while body[at] != b'=' {
            tag = tag * 10 + u32::from(body[at] - b'0');
            at += 1;
        }
        at += 1;
        let end = at + body[at..].iter().position(|byte| *byte == SOH).expect("an end");
        fields.push((tag, &body[at..end]));
        at = end + 1;
    }
    fields
}

fn first<'a>(fields: &[(u32, &'a [u8])], tag: u32) -> &'a [u8] {
    fields.iter().find(|field| field.0 == tag).expect("a field").1
}

fn number(text: &[u8]) -> u64 {
    text.iter().fold(0, |n, byte| n * 10 + u64::from(byte - b'0'))
}

#[allow(dead_code)]
enum Entry {
    Arrive { pos: u64 },
    Admin { number: u64 },
    Send { ordinal: u64, number: u64 },
}

#[derive(Default)]
struct Engine {
    them: String,
    input: Vec<u8>,
    at: usize,
    taken: Vec<u8>,
    rest: Vec<u8>,
    expected: u64,
    journal: Vec<Entry>,
    inbound: Vec<Vec<u8>>,
    pumped: usize,
    outbound: Vec<(u64, Vec<u8>)>,
    sent: usize,
    text: Vec<u8>,
    written: Vec<u8>,
    wire: Vec<u8>,
    heard_at: u64,
    sent_at: u64,
}

impl Engine {
    fn new(them: String, input: Vec<u8>, room: usize) -> Engine {
        Engine {
            them,
            input,
            wire: Vec::with_capacity(room),
            heard_at: MORNING,
            sent_at: MORNING,
            ..Engine::default()
        }
    }

    fn read(&mut self) {
        let end = self.input.len().min(self.at + MOST_READ);
        if self.at == end {
            return;
        }
        let piece = &self.input[self.at..end];
        self.at = end;
        self.taken.extend_from_slice(piece);
        self.rest.extend_from_slice(piece);
        let mut rest = std::mem::take(&mut self.rest);
        let mut from = 0;
        while let Some((body, length)) = cut(&rest[from..]) {
            self.handle(body);
            from += length;
        }
        rest.drain(..from);
        self.rest = rest;
    }

    fn handle(&mut self, body: &[u8]) {
        let fields = read_fields(body);
        assert!(first(&fields, 49) == self.them.as_bytes() && first(&fields, 56) == b"GATE");
        assert!(number(first(&fields, 34)) == self.expected + 1);
        self.expected += 1;
        if first(&fields, 35) == b"A" {
            let rest = [b"35=A\x0198=0\x01108=".as_slice(), first(&fields, 108), &[SOH]].concat();
            self.outbound.push((0, rest));
            self.journal.push(Entry::Admin { number: self.outbound.len() as u64 });
        } else {
            self.journal.push(Entry::Arrive { pos: self.inbound.len() as u64 });
            self.inbound.push(body.to_vec());
        }
    }

    fn gather(&mut self, lane: &Receiver<Vec<u8>>) {
        for _ in 0..LANE {
            let Ok(report) = lane.try_recv() else { return };
            self.outbound.push((0, report));
            let number = self.outbound.len() as u64;
            self.journal.push(Entry::Send { ordinal: number - 1, number });
        }
    }

    fn pump(&mut self, notices: &SyncSender<Vec<u8>>) {
        while self.pumped < self.inbound.len() {
            match notices.try_send(self.inbound[self.pumped].clone()) {
                Ok(()) => self.pumped += 1,
                Err(TrySendError::Full(_)) => return,
                Err(TrySendError::Disconnected(_)) => return,
            }
        }
    }

    // Whether a Heartbeat or a TestRequest is due.
    fn is_due(&self, now: u64) -> bool {
        now >= self.sent_at + HEART || now >= self.heard_at + 2 * HEART
    }

    fn write(&mut self) {
        if self.sent == self.outbound.len() {
            return;
        }
        self.text.clear();
        while self.sent < self.outbound.len() && self.text.len() < MOST_WRITTEN {
            let body = &self.outbound[self.sent].1;
            self.sent += 1;
            put_frame(&mut self.text, &body[..5], "GATE", &self.them, self.sent as u64, &body[5..]);
        }
        self.wire.extend_from_slice(&self.text);
        self.written.extend_from_slice(&self.text);
    }

    // Makes a turn, and says whether something was read or written.
    fn turn(&mut self, notices: &SyncSender<Vec<u8>>, lane: &Receiver<Vec<u8>>) -> bool {
        let before = (self.at, self.sent);
        self.gather(lane);
        self.read();
        self.pump(notices);
        self.write();
        before != (self.at, self.sent)
    }
}

// The library's next answer, if an order waits.
fn answer(notices: &Receiver<Vec<u8>>) -> Option<Vec<u8>> {
    let _order = notices.try_recv().ok()?;
    let report = REPORT.to_vec();
    assert!(read_fields(&report)[0].0 == 35);
    Some(report)
}

fn answer_all(engine: &mut Engine, count: usize) {
    let (notices, orders) = sync_channel(NOTICES);
    let (reports, lane) = sync_channel(LANE);
    while engine.sent <= count {
        for _ in 0..LANE {
            let Some(report) = answer(&orders) else { break };
            reports.send(report).expect("room");
        }
        engine.turn(&notices, &lane);
    }
}

// The library's side: it answers so many orders.
fn answer_in_turn(orders: &Receiver<Vec<u8>>, reports: &SyncSender<Vec<u8>>, count: usize) {
    let mut answered = 0;
    while answered < count {
        let Some(mut report) = answer(orders) else {
            std::thread::yield_now();
            continue;
        };
        while let Err(TrySendError::Full(back)) = reports.try_send(report) {
            report = back;
            std::thread::yield_now();
        }
        answered += 1;
    }
}

fn answer_apart(engine: &mut Engine, count: usize) {
    let (notices, orders) = sync_channel(NOTICES);
    let (reports, lane) = sync_channel(LANE);
    let over = &AtomicBool::new(false);
    std::thread::scope(|scope| {
        scope.spawn(move || {
            answer_in_turn(&orders, &reports, count);
            over.store(true, Ordering::SeqCst);
        });
        loop {
            let last = over.load(Ordering::SeqCst);
            if engine.turn(&notices, &lane) {
                continue;
            }
            if last {
                break;
            }
            std::thread::yield_now();
        }
    });
}

// How many nanoseconds it takes to answer so many orders.
fn orders(count: usize, answer_all: fn(&mut Engine, usize)) -> u128 {
    let room = count * 256 + 256;
    let mut engine = Engine::new("BUYER0".to_string(), morning(count as u64), room);
    let start = Instant::now();
    answer_all(&mut engine, count);
    let time = start.elapsed();
    assert!(engine.outbound.len() == count + 1 && engine.inbound.len() == count);
    assert!(engine.wire == engine.written && engine.taken == engine.input);
    time.as_nanos()
}

// A session with its lane.
struct Session {
    engine: Engine,
    lane: Receiver<Vec<u8>>,
    _reports: SyncSender<Vec<u8>>,
}

// A library: its beat, when that last rose, and its commands.
struct Library {
    beat: AtomicU64,
    seen: u64,
    since: u64,
    commands: Receiver<u64>,
    _asks: SyncSender<u64>,
}

impl Library {
    fn is_silent(&mut self, now: u64) -> bool {
        let beat = self.beat.load(Ordering::SeqCst);
        if beat != self.seen {
            self.seen = beat;
            self.since = now;
        }
        now >= self.since + TIMEOUT
    }
}

fn turn_all(sessions: &mut [Session], libraries: &mut [Library], now: u64) {
    for session in sessions.iter_mut() {
        session.engine.read();
    }
    for session in sessions.iter_mut() {
        session.engine.gather(&session.lane);
        assert!(!session.engine.is_due(now));
    }
    for library in libraries {
        assert!(!library.is_silent(now) && library.commands.try_recv().is_err());
    }
    for session in sessions {
        session.engine.write();
    }
}

// How many nanoseconds a thousand turns take with so many sessions that rest.
fn rest(count: usize) -> u128 {
    let session = |s: usize| {
        let them = format!("B{s:02}");
        let input = logon(&them);
        let (reports, lane) = sync_channel(LANE);
        let engine = Engine::new(them, input, 4_096);
        Session { engine, lane, _reports: reports }
    };
    let library = |_| {
        let (asks, commands) = sync_channel(COMMANDS);
        Library { beat: AtomicU64::new(0), seen: 0, since: MORNING, commands, _asks: asks }
    };
    let mut sessions: Vec<Session> = (0..count).map(session).collect();
    let mut libraries: Vec<Library> = (0..LIBRARIES).map(library).collect();
    turn_all(&mut sessions, &mut libraries, MORNING);
    assert!(sessions.iter().all(|session| session.engine.sent == 1));
    let start = Instant::now();
    for _ in 0..RESTING_TURNS {
        turn_all(&mut sessions, &mut libraries, std::hint::black_box(MORNING));
    }
    let time = start.elapsed();
    assert!(sessions.iter().all(|session| session.engine.sent == 1));
    time.as_nanos()
}

fn main() {
    let mut words = std::env::args().skip(1);
    let kind = words.next().expect("a kind");
    let count: usize = words.next().expect("a count").parse().expect("a number");
    let time = match kind.as_str() {
        "orders" => orders(count, answer_all),
        "apart" => orders(count, answer_apart),
        "sessions" => rest(count),
        _ => panic!("say orders, apart or sessions"),
    };
    println!("{time}");
}
