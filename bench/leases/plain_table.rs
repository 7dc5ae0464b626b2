//! The same as `lease_speed` in plain Rust: a table with a lease word for each session, a lane of
//! slots for each library in each session, and counts of what was taken. Each step, place and
//! ordering is that of the proved table. Prints how many nanoseconds the items took from the
//! libraries to the engine.
use std::cell::UnsafeCell;
use std::sync::atomic::{AtomicU64, Ordering::SeqCst};
use std::thread;
use std::time::Instant;

const STRETCH: usize = 32;
const ENGINE: usize = 8;
const LANE: usize = 16;
const COUNTS: u64 = 1 << 32;
const RELEASED: u64 = 1 << 32;
const REVOKED: u64 = 1 << 33;
const SESSIONS: usize = 4;
const LIBRARIES: usize = 4;
const NUMBERS: u64 = 100_000_000;

struct Item {
    lease: u32,
    body: Vec<u8>,
}

#[derive(Clone, Copy)]
enum Standing {
    Active,
    Released,
    Revoked,
}

#[derive(Clone, Copy)]
struct Word {
    lease: u32,
    owner: u8,
    standing: Standing,
    count: u32,
}

fn read_word(n: u64) -> Word {
    let standing = if n / RELEASED % 2 == 1 {
        Standing::Released
    } else if n / REVOKED % 2 == 1 {
        Standing::Revoked
    } else {
        Standing::Active
    };
    Word {
        lease: (n >> 40) as u32,
        owner: ((n >> 34) % 64) as u8,
        standing,
        count: (n % COUNTS) as u32,
    }
}

// That of an active lease which has made no sends.
fn new_word(lease: u32, owner: u8) -> u64 {
    (u64::from(lease) << 40) + (u64::from(owner) << 34)
}

fn lease_word(s: u16) -> usize {
    STRETCH * s as usize + STRETCH
}

fn taken_word(s: u16, library: u8) -> usize {
    lease_word(s) + ENGINE + library as usize
}

fn slot_of(libraries: usize, s: u16, library: u8, count: u64) -> usize {
    let lane = s as usize * libraries + (library as usize - 1);
    lane * LANE + (count % LANE as u64) as usize
}

struct Leases {
    words: Box<[AtomicU64]>,
    slots: Box<[UnsafeCell<Option<Item>>]>,
    libraries: usize,
    depth: u64,
    sends: u32,
}

// A slot is written by one library alone while it is empty, and by the engine alone while it is
// full.
unsafe impl Sync for Leases {}

#[derive(Clone, Copy)]
struct EngineRow {
    lease: u32,
    library: u8,
    count: u32,
    pending: u64,
}

struct EngineSeat {
    rows: Vec<EngineRow>,
}

#[derive(Clone, Copy)]
struct LibraryRow {
    word: u64,
    committed: u64,
}

struct LibrarySeat {
    number: u8,
    rows: Vec<LibraryRow>,
}

struct Sent {
    #[allow(dead_code)]
    lease: u32,
    #[allow(dead_code)]
    ordinal: u32,
}

enum SendError {
    LaneFull {
        #[allow(dead_code)]
        committed: u64,
        #[allow(dead_code)]
        taken: u64,
    },
    SendsSpent {
        #[allow(dead_code)]
        count: u32,
    },
    Lost {
        #[allow(dead_code)]
        seen: Word,
    },
}

impl Leases {
    fn new(depth: u64, sends: u32) -> (Leases, EngineSeat, Vec<LibrarySeat>) {
        let words = STRETCH * (SESSIONS + LIBRARIES + 1);
        let slots = SESSIONS * LIBRARIES * LANE;
        let leases = Leases {
            words: (0..words).map(|_| AtomicU64::new(0)).collect(),
            slots: (0..slots).map(|_| UnsafeCell::new(None)).collect(),
            libraries: LIBRARIES,
            depth,
            sends,
        };
        let row = EngineRow { lease: 0, library: 0, count: 0, pending: 0 };
        let engine = EngineSeat { rows: vec![row; SESSIONS] };
        let rows = vec![LibraryRow { word: 0, committed: 0 }; SESSIONS];
        let seats = (1..=LIBRARIES as u8)
            .map(|number| LibrarySeat { number, rows: rows.clone() })
            .collect();
        (leases, engine, seats)
    }

    // Writes a slot that no other thread reads or writes now, and answers what it was.
    fn exchange(&self, slot: usize, value: Option<Item>) -> Option<Item> {
        std::mem::replace(unsafe { &mut *self.slots[slot].get() }, value)
    }

    fn look(&self, seat: &mut EngineSeat, s: u16) -> Word {
        let word = read_word(self.words[lease_word(s)].load(SeqCst));
        let row = &mut seat.rows[s as usize];
        row.pending += u64::from(word.count - row.count);
        row.count = word.count;
        word
    }

    fn grant(&self, seat: &mut EngineSeat, s: u16, library: u8) -> u32 {
        let lease = seat.rows[s as usize].lease + 1;
        self.words[lease_word(s)].swap(new_word(lease, library), SeqCst);
        seat.rows[s as usize] = EngineRow { lease, library, count: 0, pending: 0 };
        lease
    }

    fn take(&self, seat: &mut EngineSeat, s: u16) -> Option<Item> {
        let row = seat.rows[s as usize];
        if row.pending == 0 {
            return None;
        }
        let word = taken_word(s, row.library);
        let taken = self.words[word].load(SeqCst);
        let item = self.exchange(slot_of(self.libraries, s, row.library, taken), None);
        self.words[word].store(taken + 1, SeqCst);
        seat.rows[s as usize].pending -= 1;
        item
    }

    fn see(&self, seat: &mut LibrarySeat, s: u16) -> Word {
        let n = self.words[lease_word(s)].load(SeqCst);
        let word = read_word(n);
        let held = word.lease > 0
            && matches!(word.standing, Standing::Active)
            && word.owner == seat.number;
        seat.rows[s as usize].word = if held { n } else { 0 };
        word
    }

    fn send(
        &self,
        seat: &mut LibrarySeat,
        s: u16,
        item: Item,
    ) -> Result<Sent, (SendError, Item)> {
        let LibraryRow { word, committed } = seat.rows[s as usize];
        let lane = taken_word(s, seat.number);
        let taken = self.words[lane].load(SeqCst);
        let count = (word % COUNTS) as u32;
        if committed - taken == self.depth {
            return Err((SendError::LaneFull { committed, taken }, item));
        }
        if count == self.sends {
            return Err((SendError::SendsSpent { count }, item));
        }
        let slot = slot_of(self.libraries, s, seat.number, committed);
        let lease = item.lease;
        self.exchange(slot, Some(item));
        let found = self.words[lease_word(s)].compare_exchange(word, word + 1, SeqCst, SeqCst);
        match found {
            Ok(_) => {
                seat.rows[s as usize] = LibraryRow { word: word + 1, committed: committed + 1 };
                Ok(Sent { lease, ordinal: count + 1 })
            }
            Err(found) => {
                let item = self.exchange(slot, None).expect("what was put there");
                self.words[lane].load(SeqCst);
                seat.rows[s as usize].word = 0;
                Err((SendError::Lost { seen: read_word(found) }, item))
            }
        }
    }
}

fn new_item(lease: u32, library: u8, number: u32) -> Item {
    let tag = u64::from(library) * NUMBERS + u64::from(number);
    Item { lease, body: format!("35=8\x0137={tag}\x01").into_bytes() }
}

fn tag_of(item: &Item) -> Option<u64> {
    let text = std::str::from_utf8(&item.body).ok()?;
    let tag = text.strip_prefix("35=8\x0137=")?.strip_suffix("\x01")?;
    tag.parse().ok()
}

fn are_in_order(items: &[Item], library: u8, count: u32) -> bool {
    let tags = items.iter().map(|item| tag_of(item).expect("a tag"));
    let mine = tags.filter(|tag| tag / NUMBERS == u64::from(library));
    mine.map(|tag| tag % NUMBERS).eq(0..u64::from(count))
}

fn send_all(leases: &Leases, seat: &mut LibrarySeat, s: u16, items: Vec<Item>) -> bool {
    let word = leases.see(seat, s);
    let active = word.lease > 0 && matches!(word.standing, Standing::Active);
    if !active || word.owner != seat.number {
        return false;
    }
    for mut item in items {
        if item.lease != word.lease {
            return false;
        }
        loop {
            match leases.send(seat, s, item) {
                Ok(_) => break,
                Err((SendError::LaneFull { .. }, back)) => {
                    item = back;
                    thread::yield_now();
                }
                Err(_) => return false,
            }
        }
    }
    true
}

fn take_all(
    leases: &Leases,
    engine: &mut EngineSeat,
    sessions: u16,
    total: usize,
    mut taken: Vec<Item>,
) -> Vec<Item> {
    while taken.len() < total {
        let before = taken.len();
        for s in 0..sessions {
            leases.look(engine, s);
            for _ in 0..17 {
                let Some(item) = leases.take(engine, s) else { break };
                taken.push(item);
            }
        }
        if taken.len() == before {
            thread::yield_now();
        }
    }
    taken
}

fn main() {
    let mut words = std::env::args().skip(1);
    let count: u32 = words.next().expect("a count").parse().expect("a number");
    let libraries: u8 = words.next().expect("libraries").parse().expect("a number");
    let (leases, mut engine, mut seats) = Leases::new(16, u32::MAX);
    let mut items = Vec::new();
    for number in 1..=libraries {
        leases.look(&mut engine, u16::from(number) - 1);
        let lease = leases.grant(&mut engine, u16::from(number) - 1, number);
        items.push((0..count).map(|n| new_item(lease, number, n)).collect::<Vec<_>>());
    }
    let total = count as usize * libraries as usize;
    let room = Vec::with_capacity(total);
    let start = Instant::now();
    let taken = thread::scope(|scope| {
        for (seat, items) in seats.iter_mut().zip(items) {
            let s = u16::from(seat.number) - 1;
            let leases = &leases;
            scope.spawn(move || assert!(send_all(leases, seat, s, items)));
        }
        take_all(&leases, &mut engine, u16::from(libraries), total, room)
    });
    let time = start.elapsed();
    for library in 1..=libraries {
        assert!(are_in_order(&taken, library, count));
    }
    println!("{}", time.as_nanos());
}
