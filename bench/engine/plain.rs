// The same batches over plain tables in Rust, for bench/engine/run: the yardstick, and no part of the product. Each step
// reads its packet, looks up the session of its line, gathers its changes, makes them in the tables and once more in a
// second copy of the stored ones (as the store in memory does), and writes the packets that go out.
// Usage: plain BATCHES SESSIONS FILTERS COPIES READERS
use std::collections::{BTreeMap, HashMap, HashSet};
use std::hint::black_box;
use std::os::raw::{c_int, c_long};
use std::rc::Rc;

const BATCH: u16 = 16;
const IDLE_TURNS: u64 = 64;

#[repr(C)]
struct Timespec {
    seconds: c_long,
    nanos: c_long,
}

extern "C" {
    /// The time of a clock (POSIX); that of this process on its processors is number 2 on Linux.
    fn clock_gettime(clock: c_int, time: *mut Timespec) -> c_int;
}

/// The nanoseconds of the processor that this process has used.
fn now() -> i64 {
    let mut time = Timespec { seconds: 0, nanos: 0 };
    unsafe { clock_gettime(2, &mut time) };
    time.seconds * 1_000_000_000 + time.nanos
}

#[derive(Clone, Copy, PartialEq)]
enum Phase {
    Waiting,
    Sent(u16),
    Released(u16),
}

#[derive(Clone)]
struct Row {
    publication: u64,
    qos: u8,
    phase: Phase,
    topic: Rc<str>,
    payload: Rc<[u8]>,
}

/// What came about.
#[allow(dead_code)]
enum Report {
    Accepted(u64),
    Entered(u64, u64),
    Released(u64, u16),
    Ended(u64, u64),
}

#[derive(Clone)]
enum Change {
    Number(u64),
    Open(u64, u16),
    Close(u64, u16),
    Put(u64, u64, Row),
    Set(u64, u64, Phase),
    Remove(u64, u64),
}

/// What is stored of a session.
#[derive(Default)]
struct Session {
    inbound: HashSet<u16>,
    queue: BTreeMap<u64, Row>,
}

/// What is stored.
#[derive(Default)]
struct Tables {
    publications: u64,
    sessions: HashMap<u64, Session>,
}

impl Tables {
    fn session(&mut self, birth: &u64) -> &mut Session {
        self.sessions.get_mut(birth).unwrap()
    }

    fn make(&mut self, change: Change) {
        match change {
            Change::Number(number) => self.publications = number,
            Change::Open(birth, identifier) => {
                self.session(&birth).inbound.insert(identifier);
            }
            Change::Close(birth, identifier) => {
                self.session(&birth).inbound.remove(&identifier);
            }
            Change::Put(birth, place, row) => {
                self.session(&birth).queue.insert(place, row);
            }
            Change::Set(birth, place, phase) => {
                self.session(&birth).queue.get_mut(&place).unwrap().phase = phase;
            }
            Change::Remove(birth, place) => {
                self.session(&birth).queue.remove(&place);
            }
        }
    }
}

/// A tree of hash maps over the levels of filters, with the session and QoS of each subscription.
#[derive(Default)]
struct Node {
    children: HashMap<String, Node>,
    here: Vec<(u64, u8)>,
    below: Vec<(u64, u8)>,
}

impl Node {
    fn put(&mut self, levels: &[&str], birth: u64, qos: u8) {
        match levels {
            [] => self.here.push((birth, qos)),
            ["#"] => self.below.push((birth, qos)),
            [first, rest @ ..] => self.children.entry(first.to_string()).or_default().put(rest, birth, qos),
        }
    }

    fn find(&self, levels: &[&str], found: &mut Vec<(u64, u8)>) {
        found.extend_from_slice(&self.below);
        match levels {
            [] => found.extend_from_slice(&self.here),
            [first, rest @ ..] => {
                for level in [*first, "+"] {
                    if let Some(child) = self.children.get(level) {
                        child.find(rest, found);
                    }
                }
            }
        }
    }
}

/// What a connected session has beside its rows: where its waiting copies are, which identifiers are in use.
#[derive(Default)]
struct Online {
    birth: u64,
    waiting: BTreeMap<u64, ()>,
    sent: HashMap<u16, u64>,
}

#[derive(Default)]
struct Broker {
    tables: Tables,
    store: Tables,
    filters: Node,
    lines: HashMap<u64, Online>,
    line_of: HashMap<u64, u64>,
    outputs: Vec<(u64, Rc<[u8]>)>,
    reports: Vec<Report>,
    births: u64,
    steps: u64,
    sent: u64,
}

fn publish_bytes(row: &Row, identifier: u16) -> Rc<[u8]> {
    let size = 2 + row.topic.len() + if row.qos > 0 { 2 } else { 0 } + 1 + row.payload.len();
    let mut bytes = Vec::with_capacity(size + 2);
    bytes.push(0x30 | row.qos << 1);
    bytes.push(size as u8);
    bytes.extend_from_slice(&(row.topic.len() as u16).to_be_bytes());
    bytes.extend_from_slice(row.topic.as_bytes());
    if row.qos > 0 {
        bytes.extend_from_slice(&identifier.to_be_bytes());
    }
    bytes.push(0);
    bytes.extend_from_slice(&row.payload);
    bytes.into()
}

fn answer_bytes(first: u8, identifier: u16) -> Rc<[u8]> {
    let [high, low] = identifier.to_be_bytes();
    [first, 2, high, low].into()
}

fn number_at(bytes: &[u8], at: usize) -> u16 {
    u16::from_be_bytes([bytes[at], bytes[at + 1]])
}

impl Broker {
    /// Makes a step's changes in both tables, and lets go of what went out.
    fn finish(&mut self, changes: Vec<Change>) {
        for change in changes.clone() {
            self.store.make(change);
        }
        for change in changes {
            self.tables.make(change);
        }
        self.steps += 1;
        self.sent += self.outputs.len() as u64;
        black_box((std::mem::take(&mut self.outputs), std::mem::take(&mut self.reports)));
    }

    fn session_of(&self, line: u64) -> (u64, &Session) {
        let birth = self.lines[&line].birth;
        (birth, &self.tables.sessions[&birth])
    }

    fn join(&mut self, line: u64) -> u64 {
        self.births += 1;
        let birth = self.births;
        self.tables.sessions.insert(birth, Session::default());
        self.store.sessions.insert(birth, Session::default());
        self.lines.insert(line, Online { birth, ..Online::default() });
        self.line_of.insert(birth, line);
        birth
    }

    fn lose(&mut self, line: u64) {
        let online = self.lines.remove(&line).unwrap();
        self.line_of.remove(&online.birth);
    }

    fn subscribe(&mut self, birth: u64, filter: &str, qos: u8) {
        let levels: Vec<&str> = filter.split('/').collect();
        self.filters.put(&levels, birth, qos);
    }

    fn give(&mut self, line: u64, bytes: &[u8]) {
        match bytes[0] >> 4 {
            3 => self.publish(line, bytes),
            _ => self.answer(line, bytes),
        }
    }

    fn publish(&mut self, line: u64, bytes: &[u8]) {
        let qos = bytes[0] >> 1 & 3;
        let end = 4 + number_at(bytes, 2) as usize;
        let topic = std::str::from_utf8(&bytes[4..end]).unwrap();
        let identifier = if qos > 0 { number_at(bytes, end) } else { 0 };
        let payload = &bytes[if qos > 0 { end + 3 } else { end + 1 }..];
        let code = if qos == 2 { 0x50 } else { 0x40 };
        let (sender, session) = self.session_of(line);
        if qos > 0 && session.inbound.contains(&identifier) {
            self.outputs.push((line, answer_bytes(code, identifier)));
            return self.finish(Vec::new());
        }
        let publication = self.tables.publications + 1;
        let mut changes = vec![Change::Number(publication)];
        self.reports.push(Report::Accepted(publication));
        if qos == 2 {
            changes.push(Change::Open(sender, identifier));
        }
        let levels: Vec<&str> = topic.split('/').collect();
        let mut found = Vec::new();
        self.filters.find(&levels, &mut found);
        let row = Row { publication, qos, phase: Phase::Waiting, topic: topic.into(), payload: payload.into() };
        let at_once = publish_bytes(&Row { qos: 0, ..row.clone() }, 0);
        for (birth, granted) in found {
            let qos = qos.min(granted);
            let reader = self.line_of.get(&birth).copied();
            if qos > 0 {
                let queue = &self.tables.sessions[&birth].queue;
                let place = queue.last_key_value().map_or(1, |(place, _)| place + 1);
                changes.push(Change::Put(birth, place, Row { qos, ..row.clone() }));
                self.reports.push(Report::Entered(publication, birth));
                if let Some(online) = reader.and_then(|reader| self.lines.get_mut(&reader)) {
                    online.waiting.insert(place, ());
                }
            } else if let Some(reader) = reader {
                self.outputs.push((reader, at_once.clone()));
            }
        }
        if qos > 0 {
            self.outputs.push((line, answer_bytes(code, identifier)));
        }
        self.finish(changes);
    }

    fn pump(&mut self, line: u64) {
        let mut changes = Vec::new();
        let online = self.lines.get_mut(&line).unwrap();
        let queue = &self.tables.sessions[&online.birth].queue;
        for _ in 0..BATCH {
            let Some((place, ())) = online.waiting.pop_first() else { break };
            let identifier = (1..).find(|it| !online.sent.contains_key(it)).unwrap();
            online.sent.insert(identifier, place);
            changes.push(Change::Set(online.birth, place, Phase::Sent(identifier)));
            self.outputs.push((line, publish_bytes(&queue[&place], identifier)));
        }
        self.finish(changes);
    }

    fn answer(&mut self, line: u64, bytes: &[u8]) {
        let identifier = number_at(bytes, 2);
        let mut changes = Vec::new();
        let online = self.lines.get_mut(&line).unwrap();
        let birth = online.birth;
        match bytes[0] {
            0x62 => {
                changes.push(Change::Close(birth, identifier));
                self.reports.push(Report::Released(birth, identifier));
                self.outputs.push((line, answer_bytes(0x70, identifier)));
            }
            0x50 => {
                changes.push(Change::Set(birth, online.sent[&identifier], Phase::Released(identifier)));
                self.outputs.push((line, answer_bytes(0x62, identifier)));
            }
            _ => {
                let place = online.sent.remove(&identifier).unwrap();
                let publication = self.tables.sessions[&birth].queue[&place].publication;
                changes.push(Change::Remove(birth, place));
                self.reports.push(Report::Ended(publication, birth));
            }
        }
        self.finish(changes);
    }

    /// Nothing here is ever due.
    fn tick(&mut self) {
        black_box(&self.tables);
        self.steps += 1;
    }
}

const QOS_0: &[u8] = b"\x30\x0b\x00\x03a/b\x0012345";
const QUEUED: &[u8] = b"\x32\x0b\x00\x01q\x00\x01\x0012345";

fn packet(first: u8, identifier: u16) -> Vec<u8> {
    let [high, low] = identifier.to_be_bytes();
    match first {
        0x30 => QOS_0.to_vec(),
        0x32 | 0x34 => [&[first, 13, 0, 3, b'a', b'/', b'b', high, low, 0][..], b"12345"].concat(),
        _ => vec![first, 2, high, low],
    }
}

/// Of which publications, which step, by the first byte of its packets: 1 for the publisher's line, 2 for each reader's.
const PARTS: [(&str, &str, u8, u8); 11] = [
    ("qos0", "PUBLISH", 0x30, 1),
    ("qos1", "PUBLISH", 0x32, 1),
    ("qos1", "pump", 0, 2),
    ("qos1", "PUBACK", 0x40, 2),
    ("qos2", "PUBLISH", 0x34, 1),
    ("qos2", "pump", 0, 2),
    ("qos2", "PUBREC", 0x50, 2),
    ("qos2", "PUBCOMP", 0x70, 2),
    ("qos2", "PUBREL", 0x62, 1),
    ("idle", "pump", 0, 0),
    ("idle", "tick", 1, 0),
];

fn make(broker: &mut Broker, packets: &[Vec<u8>], first: u8, side: u8, readers: u64) {
    let lines = if side == 1 { 1..2 } else { 2..2 + readers };
    match (side, first) {
        (0, 0) => (0..IDLE_TURNS).for_each(|_| broker.pump(2)),
        (0, _) => (0..IDLE_TURNS).for_each(|_| broker.tick()),
        (_, 0) => lines.for_each(|line| broker.pump(line)),
        _ => {
            for line in lines {
                for packet in packets {
                    broker.give(line, packet);
                }
            }
        }
    }
}

fn gather(sessions: u64, filters: u64, copies: u64, readers: u64) -> Broker {
    let mut broker = Broker::default();
    broker.join(1);
    for session in 0..sessions {
        let birth = broker.join(100 + session);
        for turn in 0..filters {
            broker.subscribe(birth, &format!("x/{:04}", 100 + session + turn), 2);
        }
        if copies > 0 {
            broker.subscribe(birth, "q", 1);
        }
        broker.lose(100 + session);
    }
    for _ in 0..copies {
        broker.give(1, QUEUED);
    }
    for line in 2..2 + readers {
        let birth = broker.join(line);
        broker.subscribe(birth, "a/b", 2);
    }
    broker
}

fn run(course: &str, batches: u64, sessions: u64, filters: u64, copies: u64, readers: u64) {
    let mut broker = gather(sessions, filters, copies, readers);
    let mut tallies = [(0, 0, 0); PARTS.len()];
    for _ in 0..batches {
        for ((_, _, first, side), tally) in PARTS.iter().zip(&mut tallies) {
            let packets: Vec<Vec<u8>> = (1..=BATCH).map(|it| packet(*first, it)).collect();
            (broker.steps, broker.sent) = (0, 0);
            let start = now();
            make(&mut broker, &packets, *first, *side, readers);
            tally.2 += now() - start;
            tally.0 += broker.steps;
            tally.1 += broker.sent;
        }
    }
    for ((of, name, ..), (steps, sent, nanos)) in PARTS.iter().zip(tallies) {
        println!("{course} {of} {name} steps={steps} sent={sent}");
        eprintln!("{course} {of} {name} {steps} {:.9}", nanos as f64 / 1e9);
    }
}

fn main() {
    let words: Vec<u64> = std::env::args().skip(1).map(|word| word.parse().unwrap()).collect();
    let [batches, sessions, filters, copies, readers] = words[..] else { panic!("five numbers") };
    run("alone", batches, 0, 0, 0, 1);
    run("many", batches / 32 + 1, 0, 0, 0, readers);
    run("filters", batches, sessions, filters, 0, 1);
    run("few-copies", batches, sessions, 0, copies.min(10), 1);
    run("copies", batches, sessions, 0, copies, 1);
}
