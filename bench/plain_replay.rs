//! The yardstick of bench/replay.py, in plain Rust: the same work as a replay of its scripts. It splits the script into lines
//! and words, makes the frames, takes them 4,096 bytes a turn, cuts them and checks their sums, reads their fields, keeps bodies
//! and journal, answers the Logon, grants sessions to libraries, hands them the messages, sends what they send, and writes a
//! report of as many bytes. It has no rule of the session protocol beyond what these scripts ask for, and trusts them.
use std::collections::VecDeque;
use std::io::{Write, stdout};
use std::process::{ExitCode, exit};

const SOH: u8 = 1;
const HEAD: &[u8] = b"8=FIX.4.4\x019=";
const LEAST_FRAME: usize = 20;
const MOST_FIELDS: usize = 64;
const SENDER: u32 = 49;
const STAMP: &[u8] = b"20260105-09:30:00.000";
const LOGON: &[u8] = b"35=A\x0198=0\x01108=30\x01";
const READ: usize = 4_096;
const RING: usize = 256;
const LIBRARIES: usize = 16;

/// Bodies, one behind the other.
#[derive(Default)]
struct Bodies {
    bytes: Vec<u8>,
    spans: Vec<Span>,
}

#[derive(Clone, Copy, Default)]
struct Span {
    at: usize,
    len: usize,
}

impl Span {
    fn of(self, bytes: &[u8]) -> &[u8] {
        &bytes[self.at..self.at + self.len]
    }
}

/// Puts a body behind the others.
fn keep(bytes: &mut Vec<u8>, body: &[u8]) -> Span {
    let span = Span { at: bytes.len(), len: body.len() };
    bytes.extend_from_slice(body);
    span
}

impl Bodies {
    fn keep(&mut self, body: &[u8]) {
        self.spans.push(keep(&mut self.bytes, body));
    }

    fn len(&self) -> usize {
        self.spans.len()
    }

    fn body(&self, k: usize) -> &[u8] {
        self.spans[k].of(&self.bytes)
    }

    fn iter(&self) -> impl Iterator<Item = &[u8]> {
        self.spans.iter().map(|span| span.of(&self.bytes))
    }

    fn clear(&mut self) {
        self.bytes.clear();
        self.spans.clear();
    }
}

fn put_number(out: &mut Vec<u8>, mut number: usize) {
    let mut digits = [0; 24];
    let mut at = digits.len();
    loop {
        at -= 1;
        digits[at] = b'0' + (number % 10) as u8;
        number /= 10;
        if number == 0 {
            break;
        }
    }
    out.extend_from_slice(&digits[at..]);
}

fn sum(bytes: &[u8]) -> u32 {
    bytes.iter().map(|byte| u32::from(*byte)).sum::<u32>() % 256
}

/// The frame of a body.
fn put_frame(out: &mut Vec<u8>, body: &[u8]) {
    let start = out.len();
    out.extend_from_slice(HEAD);
    put_number(out, body.len());
    out.push(SOH);
    out.extend_from_slice(body);
    let sum = sum(&out[start..]);
    write!(out, "10={sum:03}\x01").expect("a text takes what is written");
}

/// Bytes as they are printed in reports.
fn put_printed(out: &mut Vec<u8>, bytes: &[u8]) {
    for &byte in bytes {
        match byte {
            SOH => out.push(b'|'),
            b'|' | b'\\' | ..0x20 | 0x7f.. => write!(out, "\\{byte:02x}").expect("a text takes what is written"),
            _ => out.push(byte),
        }
    }
}

struct Field {
    tag: u32,
    value: Span,
}

/// Reads the fields of a body, or none of them where one has no end.
fn read_fields(body: &[u8], fields: &mut Vec<Field>) {
    fields.clear();
    let mut rest = body.iter();
    while rest.len() > 0 && fields.len() < MOST_FIELDS {
        let tag = rest.by_ref().take_while(|byte| **byte != b'=').fold(0, |tag, byte| 10 * tag + u32::from(byte - b'0'));
        let at = body.len() - rest.len();
        let Some(len) = rest.position(|byte| *byte == SOH) else {
            fields.clear();
            return;
        };
        fields.push(Field { tag, value: Span { at, len } });
    }
}

/// The body of the frame at the head of the bytes, and the frame's length. A wrong sum ends the program.
fn cut(bytes: &[u8]) -> Option<(&[u8], usize)> {
    if bytes.len() < LEAST_FRAME || !bytes.starts_with(HEAD) {
        return None;
    }
    let mut rest = bytes[HEAD.len()..].iter();
    let size = rest.by_ref().take_while(|byte| **byte != SOH).fold(0, |size, byte| 10 * size + usize::from(byte - b'0'));
    let start = bytes.len() - rest.len();
    let end = start + size;
    let tail = bytes.get(end..end + 7)?;
    let told = tail[3..6].iter().fold(0, |told, byte| 10 * told + u32::from(byte - b'0'));
    if sum(&bytes[..end]) != told {
        exit(1);
    }
    Some((&bytes[start..end], end + 7))
}

enum Entry {
    Bind { connection: usize },
    Admin { number: usize },
    Arrive { pos: usize },
    Leave { connection: usize },
    Granted { library: usize, lease: usize },
    Send { lease: usize, ordinal: usize },
    Release { lease: usize, sends: usize },
}

#[derive(Default)]
struct Session {
    us: Vec<u8>,
    them: Vec<u8>,
    inbound: Bodies,
    outbound: Bodies,
    journal: Vec<Entry>,
    // The library, if not the engine.
    owner: Option<usize>,
    lease: usize,
    sends: usize,
    cursor: usize,
    connection: usize,
}

/// What a connection comes to.
#[derive(Default)]
struct Talk {
    session: Option<usize>,
    written: Vec<u8>,
    ended: bool,
}

#[derive(Default)]
struct Connection {
    wire: Vec<u8>,
    read: usize,
    taken: Vec<u8>,
    cut: usize,
    finished: bool,
    talk: Talk,
}

/// The sessions, with room for one text and its fields.
#[derive(Default)]
struct Desk {
    sessions: Vec<Session>,
    text: Vec<u8>,
    fields: Vec<Field>,
}

impl Desk {
    /// Writes a body as the next message of a session, and keeps it.
    fn write(&mut self, s: usize, written: &mut Vec<u8>, body: &[u8]) {
        let session = &mut self.sessions[s];
        let text = &mut self.text;
        let kind = body.iter().position(|byte| *byte == SOH).expect("a type") + 1;
        text.clear();
        text.extend_from_slice(&body[..kind]);
        text.extend_from_slice(b"49=");
        text.extend_from_slice(&session.us);
        text.extend_from_slice(b"\x0156=");
        text.extend_from_slice(&session.them);
        text.extend_from_slice(b"\x0134=");
        put_number(text, session.outbound.len() + 1);
        text.extend_from_slice(b"\x0152=");
        text.extend_from_slice(STAMP);
        text.push(SOH);
        text.extend_from_slice(&body[kind..]);
        put_frame(written, text);
        session.outbound.keep(body);
    }

    /// Handles a message of connection c: a Logon where it has no session yet.
    fn handle(&mut self, c: usize, talk: &mut Talk, body: &[u8]) {
        read_fields(body, &mut self.fields);
        let sender = self.fields.iter().find(|field| field.tag == SENDER);
        let Some(s) = talk.session else {
            let them = sender.map_or(&[][..], |field| field.value.of(body));
            talk.session = self.sessions.iter().rposition(|session| session.them == them);
            match talk.session {
                Some(s) => self.bind(s, c, talk),
                None => talk.ended = true,
            }
            return;
        };
        let session = &mut self.sessions[s];
        session.journal.push(Entry::Arrive { pos: session.inbound.len() });
        session.inbound.keep(body);
    }

    fn bind(&mut self, s: usize, c: usize, talk: &mut Talk) {
        let session = &mut self.sessions[s];
        session.connection = c;
        session.journal.push(Entry::Bind { connection: c });
        session.journal.push(Entry::Admin { number: session.outbound.len() + 1 });
        self.write(s, &mut talk.written, LOGON);
    }

    /// Takes in what connection c brings in a turn.
    fn take(&mut self, c: usize, connection: &mut Connection) {
        let Connection { wire, read, taken, cut: from, finished, talk } = connection;
        if talk.ended {
            return;
        }
        let left = wire.len() - *read;
        if left == 0 {
            if *finished {
                talk.ended = true;
                if let Some(s) = talk.session {
                    self.sessions[s].journal.push(Entry::Leave { connection: c });
                }
            }
            return;
        }
        let end = *read + left.min(READ);
        taken.extend_from_slice(&wire[*read..end]);
        *read = end;
        while let Some((body, length)) = cut(&taken[*from..]) {
            self.handle(c, talk, body);
            *from += length;
        }
    }
}

enum Notice {
    Granted { s: usize, lease: usize },
    Message { s: usize, pos: usize },
}

enum Kind {
    Request,
    Nothing,
    Granted,
    Message,
    Send,
    Release,
}

/// A call of a library as it is reported.
struct Call {
    kind: Kind,
    s: usize,
    number: usize,
    body: Span,
}

#[derive(Default)]
struct Library {
    calls: Vec<Call>,
    bodies: Vec<u8>,
    // The session, and from where.
    asked: Option<(usize, usize)>,
    ring: VecDeque<Notice>,
    sends: Bodies,
    // The session of the sends and of the release.
    s: usize,
    releases: bool,
}

impl Library {
    fn note(&mut self, kind: Kind, s: usize, number: usize, body: &[u8]) {
        let body = keep(&mut self.bodies, body);
        self.calls.push(Call { kind, s, number, body });
    }

    fn poll(&mut self, sessions: &[Session]) {
        match self.ring.pop_front() {
            None => self.note(Kind::Nothing, 0, 0, &[]),
            Some(Notice::Granted { s, lease }) => self.note(Kind::Granted, s, lease, &[]),
            Some(Notice::Message { s, pos }) => self.note(Kind::Message, s, pos, sessions[s].inbound.body(pos)),
        }
    }
}

#[derive(Default)]
struct Replay {
    desk: Desk,
    connections: Vec<Connection>,
    accepted: usize,
    libraries: [Library; LIBRARIES],
    served: usize,
    text: Vec<u8>,
    fields: Vec<Field>,
}

/// The number at the head of the text, and what stands behind it and a space.
fn number(text: &[u8]) -> (usize, &[u8]) {
    let digits = text.iter().take_while(|byte| byte.is_ascii_digit()).count();
    let number = text[..digits].iter().fold(0, |number, byte| 10 * number + usize::from(byte - b'0'));
    (number, text.get(digits + 1..).unwrap_or_default())
}

/// The bytes of a printed text.
fn read_text(text: &mut Vec<u8>, printed: &[u8]) {
    text.clear();
    text.extend_from_slice(printed);
    for byte in text {
        if *byte == b'|' {
            *byte = SOH;
        }
    }
}

impl Replay {
    /// Carries out a line, unless it has a body that can't be read.
    fn carry_out(&mut self, line: &[u8]) -> Option<()> {
        if let Some(rest) = line.strip_prefix(b"frame ") {
            let (c, printed) = number(rest);
            read_text(&mut self.text, printed);
            put_frame(&mut self.connections[c].wire, &self.text);
        } else if line.starts_with(b"turn") {
            self.turn();
        } else if let Some(rest) = line.strip_prefix(b"lib ") {
            let (library, call) = number(rest);
            self.call(library, call)?;
        } else if line.starts_with(b"connect") {
            self.connections.push(Connection::default());
        } else if let Some(rest) = line.strip_prefix(b"finish ") {
            self.connections[number(rest).0].finished = true;
        } else if let Some(rest) = line.strip_prefix(b"session ") {
            let mut names = rest.split(|byte| *byte == b' ').map(<[u8]>::to_vec);
            let (us, them) = (names.next().unwrap_or_default(), names.next().unwrap_or_default());
            self.desk.sessions.push(Session { us, them, ..Session::default() });
        } else if let Some(rest) = line.strip_prefix(b"libraries ") {
            self.served = number(rest).0;
        }
        Some(())
    }

    fn call(&mut self, library: usize, call: &[u8]) -> Option<()> {
        let library = &mut self.libraries[library - 1];
        if let Some(rest) = call.strip_prefix(b"request ") {
            let (s, rest) = number(rest);
            let from = number(rest).0;
            library.asked = Some((s, from));
            library.note(Kind::Request, s, from, &[]);
        } else if call.starts_with(b"poll") {
            library.poll(&self.desk.sessions);
        } else if let Some(rest) = call.strip_prefix(b"send ") {
            let (s, printed) = number(rest);
            read_text(&mut self.text, printed);
            read_fields(&self.text, &mut self.fields);
            self.fields.first()?;
            library.note(Kind::Send, s, 0, &self.text);
            library.sends.keep(&self.text);
            library.s = s;
        } else if let Some(rest) = call.strip_prefix(b"release ") {
            library.s = number(rest).0;
            library.releases = true;
            library.note(Kind::Release, library.s, 0, &[]);
        }
        Some(())
    }

    fn turn(&mut self) {
        self.accepted = self.connections.len().min(self.accepted + 1);
        for (c, connection) in self.connections[..self.accepted].iter_mut().enumerate() {
            self.desk.take(c, connection);
        }
        for p in 1..=self.served {
            self.show(p);
            self.grant(p);
            self.pump(p);
        }
    }

    /// Takes what a library sent, and that it gave its session back.
    fn show(&mut self, p: usize) {
        let library = &mut self.libraries[p - 1];
        for body in library.sends.iter() {
            let session = &mut self.desk.sessions[library.s];
            session.sends += 1;
            session.journal.push(Entry::Send { lease: session.lease, ordinal: session.sends });
            let written = &mut self.connections[session.connection].talk.written;
            self.desk.write(library.s, written, body);
        }
        library.sends.clear();
        if library.releases {
            let session = &mut self.desk.sessions[library.s];
            session.journal.push(Entry::Release { lease: session.lease, sends: session.sends });
            session.owner = None;
            library.releases = false;
        }
    }

    fn grant(&mut self, p: usize) {
        let library = &mut self.libraries[p - 1];
        if let Some((s, from)) = library.asked.take() {
            let session = &mut self.desk.sessions[s];
            session.owner = Some(p);
            session.lease += 1;
            session.sends = 0;
            session.cursor = from;
            session.journal.push(Entry::Granted { library: p, lease: session.lease });
            library.ring.push_back(Notice::Granted { s, lease: session.lease });
        }
    }

    /// Hands a library the messages of its sessions, as many as its ring has room for.
    fn pump(&mut self, p: usize) {
        let ring = &mut self.libraries[p - 1].ring;
        for (s, session) in self.desk.sessions.iter_mut().enumerate() {
            if session.owner != Some(p) {
                continue;
            }
            while session.cursor < session.inbound.len() && ring.len() < RING {
                ring.push_back(Notice::Message { s, pos: session.cursor });
                session.cursor += 1;
            }
        }
    }

    fn report(&self) -> Vec<u8> {
        let mut out = b"report\n".to_vec();
        for session in &self.desk.sessions {
            put_session(&mut out, session);
        }
        for connection in &self.connections {
            out.extend_from_slice(b" wrote ");
            put_printed(&mut out, &connection.talk.written);
            out.push(b'\n');
        }
        for library in &self.libraries[..self.served] {
            put_calls(&mut out, library);
        }
        out
    }
}

fn put_entry(out: &mut Vec<u8>, entry: &Entry) {
    let (name, first, second) = match *entry {
        Entry::Arrive { pos } => (" arrive ", pos, 0),
        Entry::Send { lease, ordinal } => (" send ", lease, ordinal),
        Entry::Granted { library, lease } => (" granted ", library, lease),
        Entry::Bind { connection } | Entry::Leave { connection } => (" entry ", connection, 0),
        Entry::Admin { number } => (" entry ", number, 0),
        Entry::Release { lease, sends } => (" entry ", lease, sends),
    };
    out.extend_from_slice(name.as_bytes());
    put_number(out, first);
    if second > 0 {
        out.push(b' ');
        put_number(out, second);
    }
    out.push(b'\n');
}

fn put_session(out: &mut Vec<u8>, session: &Session) {
    for entry in &session.journal {
        put_entry(out, entry);
    }
    for (pos, body) in session.inbound.iter().enumerate() {
        out.extend_from_slice(b" in ");
        put_number(out, pos);
        out.push(b' ');
        put_printed(out, body);
        out.push(b'\n');
    }
    for (before, body) in session.outbound.iter().enumerate() {
        out.extend_from_slice(b" out ");
        put_number(out, before + 1);
        out.push(b' ');
        out.extend_from_slice(STAMP);
        out.push(b' ');
        put_printed(out, body);
        out.push(b'\n');
    }
}

fn put_calls(out: &mut Vec<u8>, library: &Library) {
    for call in &library.calls {
        let name = match call.kind {
            Kind::Message => " poll: message ",
            Kind::Send => " send ",
            Kind::Request | Kind::Nothing | Kind::Granted | Kind::Release => " call ",
        };
        out.extend_from_slice(name.as_bytes());
        put_number(out, call.s);
        out.push(b' ');
        put_number(out, call.number);
        out.push(b' ');
        put_printed(out, call.body.of(&library.bodies));
        out.push(b'\n');
    }
}

fn main() -> ExitCode {
    let Some(Ok(script)) = std::env::args_os().nth(1).map(std::fs::read) else { return ExitCode::from(4) };
    let mut replay = Replay::default();
    for line in script.split(|byte| *byte == b'\n') {
        let printable = line.iter().all(|byte| matches!(byte, b' '..=b'~'));
        if !printable || replay.carry_out(line).is_none() {
            return ExitCode::from(3);
        }
    }
    stdout().write_all(&replay.report()).expect("the report can be written");
    ExitCode::SUCCESS
}
