//! The same as `library_speed` in plain Rust: a log whose messages are pumped into a ring, a library
//! that polls them and sends them back by a lane, and an engine that takes them. Each step, place and
//! ordering is that of the proved crates. Prints how many nanoseconds it took.
use std::cell::UnsafeCell;
use std::sync::atomic::{AtomicU64, Ordering::SeqCst};
use std::thread;
use std::time::Instant;

const BODY: &[u8] = b"35=D\x0111=order-1\x0155=ACME\x0154=1\x0138=100\x0140=2\x0144=12.50\x01";
const ROOM: usize = 256;
const LANE: usize = 16;
const DEPTH: u64 = 16;
const RECORDS: usize = 64;
const MOST_BYTES: usize = 8192;
const COUNTS: u64 = 1 << 32;
const RELEASED: u64 = 1 << 32;
const REVOKED: u64 = 1 << 33;
// The places of the table's words.
const LEASE: usize = 32;
const PUBLISHED: usize = 40;
const TAKEN: usize = 41;
const BEAT: usize = 64;
const WORDS: usize = 96;

enum Notice {
    Granted { lease: u32, from: u64 },
    Message { s: u16, lease: u32, pos: u64, bytes: Vec<u8> },
}

struct Item {
    #[allow(dead_code)]
    lease: u32,
    #[allow(dead_code)]
    body: Vec<u8>,
}

#[derive(Clone, Copy, PartialEq)]
enum Standing {
    Active,
    Released,
    Revoked,
}

#[derive(Clone, Copy)]
struct Word {
    lease: u32,
    owner: u8,
    standing: Standing,
    count: u32,
}

fn read_word(n: u64) -> Word {
    let standing = if n / RELEASED % 2 == 1 {
        Standing::Released
    } else if n / REVOKED % 2 == 1 {
        Standing::Revoked
    } else {
        Standing::Active
    };
    Word {
        lease: (n >> 40) as u32,
        owner: ((n >> 34) % 64) as u8,
        standing,
        count: (n % COUNTS) as u32,
    }
}

// A queue between two threads.
struct Ring<T> {
    pushed: AtomicU64,
    taken: AtomicU64,
    slots: Box<[UnsafeCell<Option<T>>]>,
}

// One thread alone pushes, and one pops.
unsafe impl<T: Send> Sync for Ring<T> {}

#[derive(Default)]
struct End {
    count: u64,
    place: usize,
}

impl End {
    fn advance(&mut self, capacity: usize) {
        self.count += 1;
        self.place += 1;
        if self.place == capacity {
            self.place = 0;
        }
    }
}

impl<T> Ring<T> {
    fn new(capacity: usize) -> Ring<T> {
        Ring {
            pushed: AtomicU64::new(0),
            taken: AtomicU64::new(0),
            slots: (0..capacity).map(|_| UnsafeCell::new(None)).collect(),
        }
    }

    fn has_room(&self, tail: &End) -> bool {
        let taken = self.taken.load(SeqCst);
        tail.count - taken != self.slots.len() as u64 && tail.count != u64::MAX
    }

    fn push(&self, tail: &mut End, item: T) -> Result<(), T> {
        if !self.has_room(tail) {
            return Err(item);
        }
        unsafe { *self.slots[tail.place].get() = Some(item) };
        self.pushed.store(tail.count + 1, SeqCst);
        tail.advance(self.slots.len());
        Ok(())
    }

    fn pop(&self, head: &mut End) -> Option<T> {
        if self.pushed.load(SeqCst) == head.count {
            return None;
        }
        let item = unsafe { (*self.slots[head.place].get()).take() };
        self.taken.store(head.count + 1, SeqCst);
        head.advance(self.slots.len());
        item
    }
}

// The lease table, of one session and one library.
struct Leases {
    words: Box<[AtomicU64]>,
    slots: Box<[UnsafeCell<Option<Item>>]>,
    sends: u32,
}

// A slot is written by the library alone while it is empty, and by the engine alone while it is full.
unsafe impl Sync for Leases {}

impl Leases {
    fn exchange(&self, slot: usize, value: Option<Item>) -> Option<Item> {
        std::mem::replace(unsafe { &mut *self.slots[slot].get() }, value)
    }
}

struct Shared {
    leases: Leases,
    notices: Ring<Notice>,
}

struct Engine<'a> {
    shared: &'a Shared,
    tail: End,
    log: Vec<Vec<u8>>,
    at: u64,
    count: u32,
    pending: u64,
}

impl Engine<'_> {
    fn grant(&mut self) {
        self.shared.leases.words[LEASE].swap((1 << 40) + (1 << 34), SeqCst);
        let granted = Notice::Granted { lease: 1, from: 0 };
        assert!(self.shared.notices.push(&mut self.tail, granted).is_ok());
    }

    fn arrive(&mut self, body: &[u8]) {
        self.log.push(body.to_vec());
        self.shared.leases.words[PUBLISHED].store(self.log.len() as u64, SeqCst);
    }

    // Pumps what there is room for, and says how many messages that were, and whether all are pumped.
    fn pump(&mut self) -> (u64, bool) {
        let first = self.at;
        while self.at < self.log.len() as u64 {
            if !self.shared.notices.has_room(&self.tail) {
                return (self.at - first, false);
            }
            let bytes = self.log[self.at as usize].clone();
            let message = Notice::Message { s: 0, lease: 1, pos: self.at, bytes };
            assert!(self.shared.notices.push(&mut self.tail, message).is_ok());
            self.at += 1;
        }
        (self.at - first, true)
    }

    fn pump_all(&mut self) {
        loop {
            match self.pump() {
                (_, true) => return,
                (0, false) => thread::yield_now(),
                _ => {}
            }
        }
    }

    fn take(&mut self) -> Option<Item> {
        let leases = &self.shared.leases;
        let word = read_word(leases.words[LEASE].load(SeqCst));
        self.pending += u64::from(word.count - self.count);
        self.count = word.count;
        if self.pending == 0 {
            return None;
        }
        let taken = leases.words[TAKEN].load(SeqCst);
        let item = leases.exchange((taken % LANE as u64) as usize, None);
        leases.words[TAKEN].store(taken + 1, SeqCst);
        self.pending -= 1;
        item
    }
}

#[derive(Clone, Copy)]
struct Reading {
    lease: u32,
    #[allow(dead_code)]
    next: u64,
}

const NO_READING: Reading = Reading { lease: 0, next: 0 };

enum Event {
    Nothing,
    NotYet,
    Granted,
    Message { pos: u64, bytes: Vec<u8> },
    Stale,
    LeaseLost,
}

#[derive(Debug)]
enum Refusal {
    NotHeld,
    TooLong,
    BadBody,
    LaneFull,
    SendsSpent,
    Lost,
}

struct Kept {
    s: u16,
    lease: u32,
    pos: u64,
    bytes: Vec<u8>,
}

struct Library<'a> {
    shared: &'a Shared,
    head: End,
    number: u8,
    beats: u64,
    // the lease word that the seat holds, and how many items it sent
    word: u64,
    committed: u64,
    readings: [Reading; RECORDS],
    kept: Option<Kept>,
}

impl Library<'_> {
    fn held(&self, s: u16) -> u32 {
        let granted = if (s as usize) < RECORDS { self.readings[s as usize].lease } else { 0 };
        let seated = if s == 0 { read_word(self.word).lease } else { 0 };
        if granted == seated { granted } else { 0 }
    }

    // Whether the session's word shows this lease as active and the library's.
    fn see(&mut self, lease: u32) -> bool {
        let n = self.shared.leases.words[LEASE].load(SeqCst);
        let word = read_word(n);
        let mine = word.lease > 0 && word.standing == Standing::Active && word.owner == self.number;
        self.word = if mine { n } else { 0 };
        mine && word.lease == lease
    }

    fn set_reading(&mut self, s: u16, reading: Reading) {
        if (s as usize) < RECORDS {
            self.readings[s as usize] = reading;
        }
    }

    fn poll(&mut self) -> Event {
        self.beats += 1;
        self.shared.leases.words[BEAT].store(self.beats, SeqCst);
        let notice = match self.kept.take() {
            Some(Kept { s, lease, pos, bytes }) => Some(Notice::Message { s, lease, pos, bytes }),
            None => self.shared.notices.pop(&mut self.head),
        };
        match notice {
            None => Event::Nothing,
            Some(Notice::Granted { lease, from }) => {
                if self.see(lease) {
                    self.set_reading(0, Reading { lease, next: from });
                    Event::Granted
                } else {
                    self.set_reading(0, NO_READING);
                    Event::LeaseLost
                }
            }
            Some(Notice::Message { s, lease, pos, bytes }) => {
                self.on_message(Kept { s, lease, pos, bytes })
            }
        }
    }

    fn on_message(&mut self, message: Kept) -> Event {
        let Kept { s, lease, pos, .. } = message;
        if lease == 0 || self.held(s) != lease {
            return Event::Stale;
        }
        if self.shared.leases.words[PUBLISHED].load(SeqCst) <= pos {
            self.kept = Some(message);
            return Event::NotYet;
        }
        if !self.see(lease) {
            self.set_reading(s, NO_READING);
            return Event::LeaseLost;
        }
        self.set_reading(s, Reading { lease, next: pos + 1 });
        Event::Message { pos, bytes: message.bytes }
    }

    fn send(&mut self, s: u16, body: Vec<u8>) -> Result<(), (Refusal, Vec<u8>)> {
        let lease = self.held(s);
        if lease == 0 {
            return Err((Refusal::NotHeld, body));
        }
        if body.len() > MOST_BYTES {
            return Err((Refusal::TooLong, body));
        }
        if check_body(&body).is_err() {
            return Err((Refusal::BadBody, body));
        }
        let leases = &self.shared.leases;
        let taken = leases.words[TAKEN].load(SeqCst);
        if self.committed - taken == DEPTH {
            return Err((Refusal::LaneFull, body));
        }
        if (self.word % COUNTS) as u32 == leases.sends {
            return Err((Refusal::SendsSpent, body));
        }
        let slot = (self.committed % LANE as u64) as usize;
        leases.exchange(slot, Some(Item { lease, body }));
        let (word, next) = (self.word, self.word + 1);
        match leases.words[LEASE].compare_exchange(word, next, SeqCst, SeqCst) {
            Ok(_) => {
                self.word = next;
                self.committed += 1;
                Ok(())
            }
            Err(_) => {
                let item = leases.exchange(slot, None).expect("what was put there");
                self.word = 0;
                self.set_reading(s, NO_READING);
                Err((Refusal::Lost, item.body))
            }
        }
    }
}

// The data field of a length field.
fn data_tag(tag: u32) -> Option<u32> {
    match tag {
        95 | 90 | 212 | 348 | 350 | 352 | 354 | 356 | 358 | 360 | 362 | 364 | 445 | 618 | 621 => {
            Some(tag + 1)
        }
        93 => Some(89),
        _ => None,
    }
}

fn is_gateway_tag(tag: u32) -> bool {
    matches!(tag, 8 | 9 | 10 | 34 | 35 | 43 | 49 | 52 | 56 | 122)
}

fn read_tag(text: &[u8]) -> Option<u32> {
    if text.is_empty() || text.len() > 9 || text[0] == b'0' {
        return None;
    }
    let mut tag = 0;
    for &byte in text {
        if !byte.is_ascii_digit() {
            return None;
        }
        tag = tag * 10 + u32::from(byte - b'0');
    }
    Some(tag)
}

fn read_number(text: &[u8]) -> Option<usize> {
    std::str::from_utf8(text).ok()?.parse().ok()
}

// Whether an application may send the body, or the place of what is wrong with it.
fn check_body(body: &[u8]) -> Result<(), usize> {
    if body.is_empty() {
        return Err(0);
    }
    let mut at = 0;
    let mut data: Option<(u32, usize)> = None;
    while at < body.len() {
        let rest = &body[at..];
        let equals = rest.iter().position(|b| *b == b'=' || *b == 1).ok_or(at)?;
        if rest[equals] != b'=' {
            return Err(at);
        }
        let tag = read_tag(&rest[..equals]).ok_or(at)?;
        let start = equals + 1;
        let end = match data {
            Some((wanted, length)) if wanted == tag => {
                if rest.get(start + length) != Some(&1) {
                    return Err(at);
                }
                start + length
            }
            _ => start + rest[start..].iter().position(|b| *b == 1).ok_or(at)?,
        };
        let value = &rest[start..end];
        if value.is_empty() {
            return Err(at);
        }
        let is_session_type = value.len() == 1 && matches!(value[0], b'0'..=b'5' | b'A');
        if at == 0 && (tag != 35 || is_session_type) || at > 0 && is_gateway_tag(tag) {
            return Err(at);
        }
        data = data_tag(tag).and_then(|tag| Some((tag, read_number(value)?)));
        at += end + 1;
    }
    Ok(())
}

fn read_all(library: &mut Library, count: u64) -> u64 {
    let mut next = 0;
    let mut length = 0;
    while next != count {
        match library.poll() {
            Event::Nothing => thread::yield_now(),
            Event::Message { pos, bytes } if pos == next => {
                next = pos + 1;
                length += bytes.len() as u64;
            }
            _ => panic!("another event"),
        }
    }
    length
}

fn round(engine: &mut Engine, library: &mut Library) {
    engine.arrive(BODY);
    assert!(engine.pump() == (1, true));
    let Event::Message { bytes, .. } = library.poll() else { panic!("no message") };
    library.send(0, bytes).map_err(|(why, _)| why).expect("room");
    assert!(engine.take().is_some());
}

fn main() {
    let mut words = std::env::args().skip(1);
    let kind = words.next().expect("messages or rounds");
    let count: u64 = words.next().expect("a count").parse().expect("a number");
    let shared = Shared {
        leases: Leases {
            words: (0..WORDS).map(|_| AtomicU64::new(0)).collect(),
            slots: (0..LANE).map(|_| UnsafeCell::new(None)).collect(),
            sends: u32::MAX,
        },
        notices: Ring::new(ROOM),
    };
    let tail = End::default();
    let mut engine = Engine { shared: &shared, tail, log: Vec::new(), at: 0, count: 0, pending: 0 };
    let mut library = Library {
        shared: &shared,
        head: End::default(),
        number: 1,
        beats: 0,
        word: 0,
        committed: 0,
        readings: [NO_READING; RECORDS],
        kept: None,
    };
    engine.grant();
    assert!(matches!(library.poll(), Event::Granted));
    let time = if kind == "messages" {
        for _ in 0..count {
            engine.arrive(BODY);
        }
        let start = Instant::now();
        let length = thread::scope(|scope| {
            scope.spawn(|| engine.pump_all());
            read_all(&mut library, count)
        });
        let time = start.elapsed();
        assert_eq!(length, count * BODY.len() as u64);
        time
    } else {
        let start = Instant::now();
        for _ in 0..count {
            round(&mut engine, &mut library);
        }
        start.elapsed()
    };
    println!("{}", time.as_nanos());
}
