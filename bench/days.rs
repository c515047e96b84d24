//! Makes a day for the bench: a fresh book and any number of events.
//!
//!     days KIND EVENTS SEED FOLDER [ENTRIES [METERING [THRESHOLD]]]
//!
//! writes FOLDER/rights.rbk and FOLDER/events.bin, and as FOLDER/short.bin the same events in records of 13 bytes, for programs that
//! know no others (before order 4 of document 02). The same arguments give the same bytes. No player has a boot number. The kinds of
//! days:
//!
//!   small    five assets and six entries, random operations
//!   full     64 assets and 64 entries over four parents, all kinds and flags, most begins granted
//!   worst    64 entries (or ENTRIES), all suitable for every begin, and only begins
//!   expire   the book of small, with times that jump so that most uses lapse
//!
//! METERING says how the book is metered:
//!
//!   none     nothing is tracked and the switch is off; without a THRESHOLD the image is of version 1, for programs that know no other
//!   off      every entry is tracked, every other one has the mark, and the switch is off: some begins get 43, nothing is recorded
//!   on       every entry is tracked, a time from 30 seconds on, and the switch is on: every use is recorded
//!
//! THRESHOLD, 0 for none, is how many players may have each entry open together; with few, a begin passes over entries that are full.

use std::fs::File;
use std::io::{BufWriter, Result, Write};
use std::path::Path;

const MORNING: u32 = 1_700_000_000;
const DISTANT: u32 = 3_000_000_000;
const LATEST: u32 = 4_000_000_000;

const COUNT: u8 = 1;
const TIMED: u8 = 2;
const START: u8 = 4;
const END: u8 = 8;
const INTERVAL: u8 = 16;
const ACCUMULATED: u8 = 32;

struct Rng(u64);

impl Rng {
    fn next(&mut self) -> u64 {
        self.0 = self.0.wrapping_add(0x9e37_79b9_7f4a_7c15);
        let mut z = self.0;
        z = (z ^ (z >> 30)).wrapping_mul(0xbf58_476d_1ce4_e5b9);
        z = (z ^ (z >> 27)).wrapping_mul(0x94d0_49bb_1331_11eb);
        z ^ (z >> 31)
    }

    fn below(&mut self, bound: u32) -> u32 {
        ((self.next() >> 32) * bound as u64 >> 32) as u32
    }
}

// ---- Books

#[derive(Default)]
struct Entry {
    asset: u16,
    kind: u8,
    flags: u8,
    count: u32,
    timed: u32,
    timer: u32,
    start: u32,
    end: u32,
    interval: u32,
    accumulated: u32,
}

#[derive(Clone, Copy, PartialEq)]
enum Metering {
    None,
    Off,
    On,
}

struct Book {
    assets: Vec<(u16, u16, u8)>, // number, inherit, key
    entries: Vec<Entry>,
}

fn small_book() -> Book {
    let dated = START | END;
    Book {
        assets: vec![(1, 9, 1), (2, 9, 1), (3, 0, 1), (9, 0, 0), (7, 9, 0)],
        entries: vec![
            Entry { asset: 9, kind: 1, flags: COUNT, count: 100_000, ..Entry::default() },
            Entry { asset: 9, kind: 1, flags: ACCUMULATED, accumulated: 50_000_000, ..Entry::default() },
            Entry { asset: 1, kind: 2, flags: TIMED, timed: 50_000, timer: 30, ..Entry::default() },
            Entry { asset: 2, kind: 2, flags: dated, start: MORNING, end: DISTANT, ..Entry::default() },
            Entry { asset: 3, kind: 1, ..Entry::default() },
            Entry { asset: 9, kind: 4, flags: COUNT | INTERVAL, count: 80_000, interval: 100_000_000, ..Entry::default() },
        ],
    }
}

fn full_book(rng: &mut Rng) -> Book {
    let mut assets: Vec<(u16, u16, u8)> = (1..=4).map(|parent| (parent, 0, 0)).collect();
    assets.extend((0..60).map(|i| (1001 + 977 * i, 1 + i % 4, 1)));
    let sets = [COUNT | TIMED | END, START | END | INTERVAL | ACCUMULATED, 63, COUNT | INTERVAL];
    let entries = (0..64u16).map(|i| {
        let (asset, kind) = (1 + i % 4, 1 + (i / 4 % 5) as u8);
        let mut flags = sets[(i / 20) as usize];
        if kind >= 4 {
            flags &= !ACCUMULATED;
        }
        let or = |flag: u8, limit: u32| if flags & flag != 0 { limit } else { 0 };
        Entry {
            asset,
            kind,
            flags,
            count: or(COUNT, if i < 20 { 20_000 } else { 1_000_000 }),
            timed: or(TIMED, 1_000_000),
            timer: if kind <= 3 { or(TIMED, 20 + rng.below(60)) } else { 0 },
            start: or(START, MORNING - rng.below(1_000_000)),
            end: or(END, DISTANT + rng.below(1_000_000)),
            interval: or(INTERVAL, if i < 40 { 1_000_000 } else { 100_000_000 }),
            accumulated: or(ACCUMULATED, if i < 40 { 1_000_000 } else { 100_000_000 }),
        }
    });
    Book { entries: entries.collect(), assets }
}

/// Half of the entries come first by their end and are soon spent by their interval; each of the others comes before
/// the one below it, so that a search from position 0 finds a better one at every step.
fn worst_book(entries: u32) -> Book {
    let entry = |i: u32| {
        let soon_spent = i < entries / 2;
        Entry {
            asset: if i % 2 == 0 { 1 } else { 9 },
            kind: 4,
            flags: COUNT | TIMED | START | END | INTERVAL,
            count: 1_000_000,
            timed: 1_000_000,
            timer: 0,
            start: MORNING,
            end: if soon_spent { DISTANT - 1_000 - i } else { DISTANT + 1_000 - i },
            interval: if soon_spent { 1 } else { 100_000_000 },
            accumulated: 0,
        }
    };
    Book { assets: vec![(9, 0, 0), (1, 9, 1)], entries: (0..entries).map(entry).collect() }
}

fn image_of(book: &Book, metering: Metering, threshold: u32) -> Vec<u8> {
    let metered = metering != Metering::None;
    let newest = metered || threshold != 0;
    let mut data = b"RBK\0".to_vec();
    data.extend([if newest { 4 } else { 1 }, book.assets.len() as u8, book.entries.len() as u8, 0, 0, 0, 0]);
    if newest {
        data.extend(((metering == Metering::On) as u32).to_be_bytes());
    }
    for &(number, inherit, key) in &book.assets {
        data.extend(number.to_be_bytes());
        data.extend(inherit.to_be_bytes());
        data.push(key);
    }
    for (position, entry) in book.entries.iter().enumerate() {
        data.extend([0, 1]);
        data.extend(entry.asset.to_be_bytes());
        data.extend([entry.kind, entry.flags]);
        let limits = [entry.count, entry.timed, entry.timer, entry.start, entry.end, entry.interval, entry.accumulated];
        data.extend(limits.iter().flat_map(|limit| limit.to_be_bytes()));
        data.extend([0; 17]); // nothing used
        if newest {
            let mark = metering == Metering::Off && position % 2 == 1;
            let [tracked, timed_value] = if metered { [1, 30] } else { [0, 0] };
            data.extend([tracked, timed_value, mark as u32, threshold, 0].iter().flat_map(|field: &u32| field.to_be_bytes()));
        }
    }
    data.extend(vec![0; 16 * if newest { 32 } else { 24 }]);
    data
}

// ---- Events

#[derive(Clone, Copy, Default)]
struct Player {
    number: u32,
    request: [u8; 4],
    open_until: u32, // as far as can be known without the answers
}

struct Day {
    rng: Rng,
    t: u32,
    players: [Player; 16],
}

fn begin(asset: u16, kind: u8) -> [u8; 4] {
    let [high, low] = asset.to_be_bytes();
    [1, high, low, kind]
}

const CONTINUE: [u8; 4] = [2, 0, 0, 0];
const STOP: [u8; 4] = [3, 0, 0, 0];

const RECORD: usize = 17;

fn record(player: usize, number: u32, request: [u8; 4], t: u32) -> [u8; RECORD] {
    let mut data = [0; RECORD];
    data[0] = player as u8;
    data[5..9].copy_from_slice(&number.to_be_bytes()); // the counter
    data[9..13].copy_from_slice(&request);
    data[13..17].copy_from_slice(&t.to_be_bytes());
    data
}

/// The record without its boot number, which is 0.
fn short(record: &[u8; RECORD]) -> [u8; 13] {
    let mut data = [0; 13];
    data[0] = record[0];
    data[1..].copy_from_slice(&record[5..]);
    data
}

impl Day {
    fn new(seed: u64) -> Day {
        Day { rng: Rng(seed), t: MORNING, players: [Player::default(); 16] }
    }

    /// The player's next request, in line and in time.
    fn taken(&mut self, p: usize, request: [u8; 4]) -> [u8; RECORD] {
        let player = &mut self.players[p];
        player.number += 1;
        player.request = request;
        record(p, player.number, request, self.t)
    }

    fn resend(&self, p: usize) -> [u8; RECORD] {
        record(p, self.players[p].number, self.players[p].request, self.t)
    }

    fn small(&mut self) -> [u8; RECORD] {
        self.t += self.rng.below(4);
        self.by_chance()
    }

    fn expire(&mut self) -> [u8; RECORD] {
        self.t += 5 + self.rng.below(100);
        self.by_chance()
    }

    fn by_chance(&mut self) -> [u8; RECORD] {
        let p = self.rng.below(16) as usize;
        let asset = [1, 2, 3, 1, 2, 3, 7, 8][self.rng.below(8) as usize];
        let kind = [1, 1, 1, 2, 2, 4][self.rng.below(6) as usize];
        match self.rng.below(100) {
            0..=44 => self.taken(p, begin(asset, kind)),
            45..=69 => self.taken(p, CONTINUE),
            70..=84 => self.taken(p, STOP),
            85..=94 => self.resend(p),
            95 => record(p, self.players[p].number + 2, STOP, self.t),
            96 => record(p, self.players[p].number, begin(asset, 3), self.t),
            97 => record(p, self.players[p].number + 1, STOP, [self.t - 1, LATEST + 1][self.rng.below(2) as usize]),
            98 => record(p + 16, 1, STOP, self.t),
            _ => record(p, self.players[p].number + 1, begin(asset, 6), self.t),
        }
    }

    fn full(&mut self, book: &Book) -> [u8; RECORD] {
        self.t += self.rng.below(3);
        let p = self.rng.below(16) as usize;
        let chance = self.rng.below(100);
        if chance < 5 {
            return self.resend(p);
        }
        if self.players[p].open_until > self.t {
            if chance < 50 {
                self.players[p].open_until = self.t + 60;
                return self.taken(p, CONTINUE);
            }
            self.players[p].open_until = 0;
            return self.taken(p, STOP);
        }
        let asset = book.assets[4 + self.rng.below(60) as usize].0;
        let kind = 1 + self.rng.below(5) as u8;
        if kind <= 3 {
            self.players[p].open_until = self.t + 60;
        }
        self.taken(p, begin(asset, kind))
    }

    fn worst(&mut self) -> [u8; RECORD] {
        self.t += self.rng.below(2);
        let p = self.rng.below(16) as usize;
        self.taken(p, begin(1, 4))
    }
}

fn main() -> Result<()> {
    let words: Vec<String> = std::env::args().collect();
    if words.len() < 5 {
        eprintln!("days KIND EVENTS SEED FOLDER [ENTRIES [METERING [THRESHOLD]]]");
        eprintln!("KIND is one of small, full, worst, expire; METERING of none, off, on");
        std::process::exit(2);
    }
    let number = |word: &String| word.parse::<u64>().expect("a number");
    let (kind, events, seed, folder) = (words[1].as_str(), number(&words[2]), number(&words[3]), Path::new(&words[4]));
    let mut day = Day::new(seed);
    let book = match kind {
        "small" | "expire" => small_book(),
        "full" => full_book(&mut day.rng),
        "worst" => worst_book(words.get(5).map_or(64, |word| number(word) as u32)),
        _ => panic!("no such kind of day: {kind}"),
    };
    let metering = match words.get(6).map(String::as_str) {
        None | Some("none") => Metering::None,
        Some("off") => Metering::Off,
        Some("on") => Metering::On,
        Some(other) => panic!("no such metering: {other}"),
    };
    let threshold = words.get(7).map_or(0, |word| number(word) as u32);
    std::fs::create_dir_all(folder)?;
    std::fs::write(folder.join("rights.rbk"), image_of(&book, metering, threshold))?;
    let mut out = BufWriter::new(File::create(folder.join("events.bin"))?);
    let mut older = BufWriter::new(File::create(folder.join("short.bin"))?);
    for _ in 0..events {
        let record = match kind {
            "small" => day.small(),
            "expire" => day.expire(),
            "full" => day.full(&book),
            _ => day.worst(),
        };
        out.write_all(&record)?;
        older.write_all(&short(&record))?;
    }
    out.flush()?;
    older.flush()
}
