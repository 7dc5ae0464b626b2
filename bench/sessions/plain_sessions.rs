//! The steps of `session_speed` in plain Rust, each once and with no more than it needs: the bytes of a
//! connection are kept and cut into frames, sums are checked, fields are read into a list, the orders'
//! bodies kept, a report kept and numbered for each, and the reports' frames written, all in one thread.
//! `plain_sessions N M` answers N orders behind M others and prints how many nanoseconds the N took.
use std::time::Instant;

const SOH: u8 = 1;
const REPORT: &[u8] = b"35=8\x0137=O1\x0117=E1\x01150=F\x0139=2\x0111=order-1\x0155=ACME\x0154=1\x0138=100\x0132=100\x0131=12.50\x01151=0\x0114=100\x016=12.50\x01";
const ORDER: &[u8] = b"11=order-1\x0155=ACME\x0154=1\x0138=100\x0140=2\x0144=12.50\x0159=0\x011=account-77\x0158=as told at the desk\x01";
const TIME: &[u8] = b"20260105-09:30:00.000";
const READ: usize = 4_096;

fn sum(bytes: &[u8]) -> u8 {
    bytes.iter().fold(0, |sum, byte| sum.wrapping_add(*byte))
}

fn put_frame(out: &mut Vec<u8>, kind: &[u8], us: &str, them: &str, number: u64, rest: &[u8]) {
    let mut body = Vec::with_capacity(rest.len() + 80);
    body.extend_from_slice(kind);
    body.extend_from_slice(format!("49={us}\x0156={them}\x0134={number}\x0152=").as_bytes());
    body.extend_from_slice(TIME);
    body.push(SOH);
    body.extend_from_slice(rest);
    let start = out.len();
    out.extend_from_slice(format!("8=FIX.4.4\x019={}\x01", body.len()).as_bytes());
    out.extend_from_slice(&body);
    let sum = sum(&out[start..]);
    out.extend_from_slice(format!("10={sum:03}\x01").as_bytes());
}

fn orders(first: u64, count: u64) -> Vec<u8> {
    let mut input = Vec::new();
    for number in first..first + count {
        put_frame(&mut input, b"35=D\x01", "BUYER", "GATE", number, ORDER);
    }
    input
}

// The body of the frame at the head of the bytes, and the frame's length.
fn cut(bytes: &[u8]) -> Option<(&[u8], usize)> {
    let rest = bytes.strip_prefix(b"8=FIX.4.4\x019=")?;
    let digits = rest.iter().position(|byte| *byte == SOH)?;
    let mut length = 0;
    for byte in &rest[..digits] {
        length = length * 10 + usize::from(byte - b'0');
    }
    let start = 12 + digits + 1;
    let end = start + length;
    if bytes.len() < end + 7 {
        return None;
    }
    let tail = &bytes[end..end + 7];
    let told = (tail[3] - b'0') as u32 * 100 + (tail[4] - b'0') as u32 * 10 + (tail[5] - b'0') as u32;
    assert!(tail.starts_with(b"10=") && told == u32::from(sum(&bytes[..end])));
    Some((&bytes[start..end], end + 7))
}

fn read_fields(body: &[u8]) -> Vec<(u32, &[u8])> {
    let mut fields = Vec::with_capacity(24);
    let mut at = 0;
    while at < body.len() {
        let mut tag = 0;
        while body[at] != b'=' {
            tag = tag * 10 + u32::from(body[at] - b'0');
            at += 1;
        }
        at += 1;
        let end = at + body[at..].iter().position(|byte| *byte == SOH).expect("an end");
        fields.push((tag, &body[at..end]));
        at = end + 1;
    }
    fields
}

fn first<'a>(fields: &[(u32, &'a [u8])], tag: u32) -> &'a [u8] {
    fields.iter().find(|field| field.0 == tag).expect("a field").1
}

fn number(text: &[u8]) -> u64 {
    text.iter().fold(0, |n, byte| n * 10 + u64::from(byte - b'0'))
}

#[allow(dead_code)]
enum Entry {
    Arrive { pos: u64 },
    Admin { number: u64 },
    Send { ordinal: u64, number: u64 },
}

#[derive(Default)]
struct Market {
    taken: Vec<u8>,
    rest: Vec<u8>,
    expected: u64,
    journal: Vec<Entry>,
    inbound: Vec<Vec<u8>>,
    outbound: Vec<(u64, Vec<u8>)>,
    made: usize,
    text: Vec<u8>,
    written: usize,
}

impl Market {
    fn bring(&mut self, input: &[u8]) {
        for piece in input.chunks(READ) {
            self.taken.extend_from_slice(piece);
            self.rest.extend_from_slice(piece);
            let mut rest = std::mem::take(&mut self.rest);
            let mut from = 0;
            while let Some((body, length)) = cut(&rest[from..]) {
                self.handle(body);
                from += length;
            }
            rest.drain(..from);
            self.rest = rest;
            self.write();
        }
    }

    fn handle(&mut self, body: &[u8]) {
        let fields = read_fields(body);
        assert!(first(&fields, 49) == b"BUYER" && first(&fields, 56) == b"GATE");
        assert!(number(first(&fields, 34)) == self.expected + 1);
        self.expected += 1;
        if first(&fields, 35) == b"A" {
            let rest = [b"35=A\x0198=0\x01108=".as_slice(), first(&fields, 108), &[SOH]].concat();
            self.outbound.push((0, rest));
            self.journal.push(Entry::Admin { number: self.outbound.len() as u64 });
            return;
        }
        self.journal.push(Entry::Arrive { pos: self.inbound.len() as u64 });
        self.inbound.push(body.to_vec());
        self.outbound.push((0, REPORT.to_vec()));
        let number = self.outbound.len() as u64;
        self.journal.push(Entry::Send { ordinal: number - 1, number });
    }

    fn write(&mut self) {
        while self.made < self.outbound.len() {
            let body = &self.outbound[self.made].1;
            self.made += 1;
            put_frame(&mut self.text, &body[..5], "GATE", "BUYER", self.made as u64, &body[5..]);
        }
        self.written = self.text.len();
    }
}

fn main() {
    let mut words = std::env::args().skip(1).map(|word| word.parse().expect("a number"));
    let count: u64 = words.next().expect("how many orders");
    let before: u64 = words.next().expect("behind how many");
    let mut market = Market::default();
    let mut logon = Vec::new();
    put_frame(&mut logon, b"35=A\x01", "BUYER", "GATE", 1, b"98=0\x01108=30\x01");
    market.bring(&logon);
    market.bring(&orders(2, before));
    let input = orders(before + 2, count);
    let start = Instant::now();
    market.bring(&input);
    let time = start.elapsed();
    assert!(market.inbound.len() as u64 == before + count && market.outbound.len() as u64 == before + count + 1);
    assert!(market.journal.len() as u64 == 2 * (before + count) + 1 && market.written > 0 && market.taken.ends_with(&input));
    println!("{}", time.as_nanos());
}
