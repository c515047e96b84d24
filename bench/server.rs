//! The rights server of document 01 in ordinary Rust, as sharp as we can write it and not proved: the proved program is measured
//! against it. It reads `rights.rbk` in the working folder, then event records from standard input, and prints
//! `code entry until` for each.
//!
//!     rustc --edition 2021 -C opt-level=3 -C codegen-units=1 -o server server.rs
//!
//! What makes it fast:
//! - one book, changed in place; a limit that is not flagged is a number that never binds, so no flag is tested;
//! - an entry's end and its started interval are one number, its last moment;
//! - for each asset and kind the suitable entries, sorted in the order of the choice; an entry that is over leaves its lists;
//! - of a group pack one number is kept, how many more players may open it: who has it open stands with the players. An entry
//!   without a threshold has one that never runs out;
//! - the rank of an entry in one word; the lists are sorted again only when the start of an interval, or a cancel of that, changes a last
//!   moment;
//! - uses are settled only when the earliest until has come;
//! - the usage report is kept by the positions of the assets, from zeros; it is not printed, as by the run program;
//! - one read and one write for some eight thousand events, lines put together from prepared text.
//!
//! An order of document 02 changes `Formats` (bytes of records and images), `Legal` (what an image must meet) or `Rules` (what an
//! event does); the rest should stay.

use std::fs::File;
use std::io::{self, Read, Write};
use std::os::fd::AsFd;

const LATEST: u32 = 4_000_000_000;
const PLAYERS: usize = 16;
const MOST: usize = 64; // assets, entries
const KINDS: usize = 5;
const NEVER: u32 = u32::MAX;

const COUNT: u8 = 1;
const TIMED: u8 = 2;
const START: u8 = 4;
const END: u8 = 8;
const INTERVAL: u8 = 16;
const ACCUMULATED: u8 = 32;

// ---- Formats: event records, images, lines of answers

const RECORD: usize = 17;
const HEADER: usize = 11; // mark, version, numbers and time, in every version
const ASSET: usize = 5;

/// The bytes of a header, an entry, a player and its number in an image.
struct Widths {
    header: usize,
    entry: usize,
    player: usize,
    number: usize,
}

const VERSIONS: [Widths; 5] = [
    Widths { header: HEADER, entry: 51, player: 24, number: 4 },
    Widths { header: HEADER + 4, entry: 51 + 12, player: 24 + 4, number: 4 },
    Widths { header: HEADER + 4, entry: 51 + 12, player: 24 + 4 + 4, number: 8 },
    Widths { header: HEADER + 4, entry: 51 + 12 + 8, player: 24 + 4 + 4, number: 8 },
    Widths { header: HEADER + 4 + 8, entry: 51 + 12 + 8, player: 24 + 4 + 4, number: 8 },
];
const MARKED: usize = 4; // the version from which on entries have marks

/// An event record's numbers. Operation, asset and kind stay together as they are: the *request*.
struct Event {
    player: usize,
    number: u64, // the boot number in its upper half, the counter in its lower
    request: u32,
    t: u32,
}

#[inline(always)]
fn event_of(record: &[u8; RECORD]) -> Event {
    let word = |at: usize| u32::from_be_bytes([record[at], record[at + 1], record[at + 2], record[at + 3]]);
    let number = (word(1) as u64) << 32 | word(5) as u64;
    Event { player: record[0] as usize, number, request: word(9), t: word(13) }
}

#[inline(always)]
fn operation(request: u32) -> u32 {
    request >> 24
}

#[inline(always)]
fn asset_and_kind(request: u32) -> (u16, u8) {
    ((request >> 8) as u16, request as u8)
}

/// Takes big-endian numbers one after the other.
struct Fields<'a>(&'a [u8]);

impl Fields<'_> {
    fn number(&mut self, size: usize) -> u64 {
        let (field, rest) = self.0.split_at(size);
        self.0 = rest;
        field.iter().fold(0, |value, &byte| value << 8 | byte as u64)
    }
    fn u8(&mut self) -> u8 {
        self.number(1) as u8
    }
    fn u16(&mut self) -> u16 {
        self.number(2) as u16
    }
    fn u32(&mut self) -> u32 {
        self.number(4) as u32
    }
    /// A field that a later version added: 0 in an image that lacks it.
    fn added(&mut self) -> u32 {
        if self.0.is_empty() { 0 } else { self.u32() }
    }
}

struct Asset {
    number: u16,
    inherit: u16,
    key: u8,
}

/// An entry as the image has it.
struct Stored {
    object: u16,
    asset: u16,
    kind: u8,
    flags: u8,
    count: u32,
    timed: u32,
    timer: u32,
    start: u32,
    end: u32,
    interval: u32,
    accumulated: u32,
    used_count: u32,
    used_timed: u32,
    first: u32,
    used_seconds: u32,
    started: u8,
    tracked: u32,
    timed_value: u32,
    mark: u32,
    threshold: u32,
    marks: u32, // bit p for player p
}

struct StoredPlayer {
    blank: bool,
    number: u64,
    request: u32,
    answer: Answer,
    open: u8,
    open_entry: u8,
    begin: u32,
    until: u32,
    content: u32,
}

struct Image {
    time: u32,
    switch: u32,
    latest_player: u32, // the player of the last event taken, plus 1; 0 for none
    latest_started: u32,
    assets: Vec<Asset>,
    entries: Vec<Stored>,
    players: Vec<StoredPlayer>,
}

// A literal's fields are taken in the order in which they are written here, which is the image's.
fn asset_of(data: &[u8]) -> Asset {
    let mut f = Fields(data);
    Asset { number: f.u16(), inherit: f.u16(), key: f.u8() }
}

fn entry_of(data: &[u8]) -> Stored {
    let mut f = Fields(data);
    Stored {
        object: f.u16(),
        asset: f.u16(),
        kind: f.u8(),
        flags: f.u8(),
        count: f.u32(),
        timed: f.u32(),
        timer: f.u32(),
        start: f.u32(),
        end: f.u32(),
        interval: f.u32(),
        accumulated: f.u32(),
        used_count: f.u32(),
        used_timed: f.u32(),
        first: f.u32(),
        used_seconds: f.u32(),
        started: f.u8(),
        tracked: f.added(),
        timed_value: f.added(),
        mark: f.added(),
        threshold: f.added(),
        marks: f.added(),
    }
}

fn player_of(data: &[u8], number: usize) -> StoredPlayer {
    let mut f = Fields(data);
    StoredPlayer {
        blank: data.iter().all(|&byte| byte == 0),
        number: f.number(number),
        request: f.u32(),
        answer: Answer { code: f.u8(), entry: f.u8(), until: f.u32() },
        open: f.u8(),
        open_entry: f.u8(),
        begin: f.u32(),
        until: f.u32(),
        content: f.added(),
    }
}

/// The image's fields if document 01's rules accept it, otherwise the number 20 to 27 that refuses it.
fn read_image(data: &[u8]) -> Result<Image, u8> {
    if data.len() < HEADER {
        return Err(20);
    }
    if &data[..3] != b"RBK" {
        return Err(21);
    }
    let mut f = Fields(&data[3..]);
    let version = f.u16() as usize;
    let Some(widths) = VERSIONS.get(version.wrapping_sub(1)) else {
        return Err(22);
    };
    let (assets, entries, time) = (f.u8() as usize, f.u8() as usize, f.u32());
    if assets > MOST || entries > MOST || time > LATEST {
        return Err(23);
    }
    let entries_at = widths.header + ASSET * assets;
    let players_at = entries_at + widths.entry * entries;
    if data.len() != players_at + widths.player * PLAYERS {
        return Err(20);
    }
    let mut added = Fields(&data[HEADER..widths.header]);
    let mut image = Image {
        time,
        switch: added.added(),
        latest_player: added.added(),
        latest_started: added.added(),
        assets: data[widths.header..entries_at].chunks(ASSET).map(asset_of).collect(),
        entries: data[entries_at..players_at].chunks(widths.entry).map(entry_of).collect(),
        players: data[players_at..].chunks(widths.player).map(|data| player_of(data, widths.number)).collect(),
    };
    if version < MARKED {
        (0..entries).for_each(|position| image.entries[position].marks = image.users(position));
    }
    match image.refusal() {
        Some(number) => Err(number),
        None => Ok(image),
    }
}

const LINE: usize = 16; // the longest line, `0 63 4294967295` and its end

/// Writes lines into a buffer. The digits before the last four seldom change from one until to the next and are kept.
struct Lines {
    refusals: [[u8; LINE]; 64],
    grants: [([u8; LINE], usize); 256],
    upper: u32,
    upper_digits: [u8; 8],
    upper_len: usize,
}

fn padded<const N: usize>(text: &str) -> [u8; N] {
    let mut line = [0; N];
    line[..text.len()].copy_from_slice(text.as_bytes());
    line
}

impl Lines {
    fn new() -> Lines {
        Lines {
            refusals: std::array::from_fn(|code| padded(&format!("{code} 255 0\n"))),
            grants: std::array::from_fn(|entry| (padded(&format!("0 {entry} ")), format!("0 {entry} ").len())),
            upper: 0,
            upper_digits: [0; 8],
            upper_len: 0,
        }
    }

    /// Writes one line at the beginning of `out`, which has room for the longest line twice; returns its length.
    #[inline(always)]
    fn put(&mut self, out: &mut [u8; 2 * LINE], answer: Answer) -> usize {
        if answer.code != 0 {
            let code = answer.code as usize % 64;
            out[..LINE].copy_from_slice(&self.refusals[code]);
            return 8 + (code >= 10) as usize;
        }
        let (text, len) = &self.grants[answer.entry as usize];
        out[..LINE].copy_from_slice(text);
        let at = *len % 8;
        let upper = answer.until / 10_000;
        if upper != self.upper {
            self.keep_upper(upper);
        }
        if upper == 0 {
            return at + put_small(&mut out[at..], answer.until);
        }
        out[at..at + 8].copy_from_slice(&self.upper_digits);
        let at = at + self.upper_len % 8;
        let lower = answer.until % 10_000;
        let (high, low) = (lower / 100, lower % 100);
        let tail = [digit(high / 10), digit(high % 10), digit(low / 10), digit(low % 10), b'\n'];
        out[at..at + 5].copy_from_slice(&tail);
        at + 5
    }

    #[cold]
    fn keep_upper(&mut self, upper: u32) {
        let digits = upper.to_string();
        self.upper = upper;
        self.upper_len = digits.len();
        self.upper_digits = padded(&digits);
    }
}

fn digit(value: u32) -> u8 {
    b'0' + value as u8
}

/// A number below 10,000 and the line's end.
fn put_small(out: &mut [u8], number: u32) -> usize {
    let len = 1 + (number >= 10) as usize + (number >= 100) as usize + (number >= 1000) as usize;
    let mut rest = number;
    for place in out[..len].iter_mut().rev() {
        *place = digit(rest % 10);
        rest /= 10;
    }
    out[len] = b'\n';
    len + 1
}

// ---- Legal: what an image must meet

impl Image {
    /// 24 to 27, or nothing.
    fn refusal(&self) -> Option<u8> {
        if !(0..self.assets.len()).all(|i| self.asset_is_good(i)) {
            Some(24)
        } else if !self.entries.iter().all(|entry| self.entry_is_good(entry)) {
            Some(25)
        } else if !self.header_is_good() || !self.players.iter().all(|player| self.player_is_good(player)) {
            Some(26)
        } else if !(0..self.entries.len()).all(|position| self.meters_are_good(position)) {
            Some(27)
        } else {
            None
        }
    }

    fn asset_is_good(&self, i: usize) -> bool {
        let asset = &self.assets[i];
        asset.number != 0 && asset.key <= 1 && self.assets[..i].iter().all(|other| other.number != asset.number)
    }

    fn entry_is_good(&self, entry: &Stored) -> bool {
        let limits = [
            (COUNT, entry.count, 0, 1_000_000),
            (TIMED, entry.timed, 0, 1_000_000),
            (TIMED, entry.timer, 0, 1_000_000),
            (START, entry.start, 0, LATEST),
            (END, entry.end, 0, LATEST),
            (INTERVAL, entry.interval, 0, 100_000_000),
            (ACCUMULATED, entry.accumulated, 0, 100_000_000),
        ];
        entry.object != 0
            && self.assets.iter().any(|asset| asset.number == entry.asset)
            && (1..=KINDS as u8).contains(&entry.kind)
            && entry.flags <= 63
            && limits.iter().all(|&(flag, limit, least, greatest)| within(entry.has(flag), limit, least, greatest))
            && !(entry.has(START) && entry.has(END) && entry.start > entry.end)
            && !(is_momentary(entry.kind) && (entry.has(ACCUMULATED) || entry.timer != 0))
            && entry.tracked <= 1
            && entry.mark <= entry.tracked
            && (entry.tracked == 1 || entry.timed_value == 0)
            && entry.threshold <= PLAYERS as u32
    }

    fn header_is_good(&self) -> bool {
        let last = match self.latest_player {
            0 => self.latest_started == 0,
            p => self.players.get(p as usize - 1).is_some_and(|player| {
                player.number != 0 && (self.latest_started == 0 || self.latest_started == 1 && self.started_an_interval(player))
            }),
        };
        self.switch <= 1 && last
    }

    /// Whether the player's open use can have started its entry's interval.
    fn started_an_interval(&self, player: &StoredPlayer) -> bool {
        let position = player.open_entry as usize;
        player.open == 1
            && self.entries.get(position).is_some_and(|entry| entry.has(INTERVAL) && entry.first == player.begin)
            && self.users(position).count_ones() == 1
    }

    fn player_is_good(&self, player: &StoredPlayer) -> bool {
        if player.number == 0 {
            return player.blank;
        }
        let answer = player.answer;
        let answered = match answer.code {
            0 => (answer.entry as usize) < self.entries.len(),
            10..=15 | 43 | 44 => answer.entry == 255 && answer.until == 0,
            _ => false,
        };
        let use_is_good = match player.open {
            0 => player.open_entry == 0 && player.begin == 0 && player.until == 0 && player.content == 0,
            1 => self.open_use_is_good(player),
            _ => false,
        };
        request_is_good(player.request) && answered && use_is_good
    }

    fn open_use_is_good(&self, player: &StoredPlayer) -> bool {
        let (begin, until) = (player.begin, player.until);
        let Some(entry) = self.entries.get(player.open_entry as usize) else {
            return false;
        };
        begin <= self.time
            && self.time < until
            && until <= self.time + grant_length(entry.kind)
            && !is_momentary(entry.kind)
            && !(entry.has(START) && begin < entry.start)
            && !(entry.has(END) && until > entry.end + 1)
            && (!entry.has(INTERVAL)
                || (entry.started == 1 && entry.first <= begin && until as u64 <= entry.first as u64 + entry.interval as u64))
            && (self.position_of(player.content).is_some() || (player.content == 0 && entry.tracked == 0))
    }

    /// Where this asset stands in the book.
    fn position_of(&self, number: u32) -> Option<usize> {
        self.assets.iter().position(|asset| asset.number as u32 == number)
    }

    /// The players that have this entry open, one bit for each.
    fn users(&self, position: usize) -> u32 {
        let has_open = |player: &StoredPlayer| player.open == 1 && player.open_entry as usize == position;
        self.players.iter().enumerate().fold(0, |users, (p, player)| users | (has_open(player) as u32) << p)
    }

    fn meters_are_good(&self, position: usize) -> bool {
        let entry = &self.entries[position];
        let users = self.users(position);
        let opened = self.players.iter().enumerate().filter(|(p, _)| users >> p & 1 == 1);
        let seconds: u64 = opened.map(|(_, player)| (player.until - player.begin) as u64).sum();
        let uses = users.count_ones();
        within(entry.has(COUNT), entry.used_count, uses, entry.count)
            && within(entry.has(TIMED), entry.used_timed, uses, entry.timed)
            && within(entry.has(ACCUMULATED), entry.used_seconds, 0, entry.accumulated)
            && (!entry.has(ACCUMULATED) || seconds <= entry.used_seconds as u64)
            && entry.started <= entry.has(INTERVAL) as u8
            && (entry.started == 1 || entry.first == 0)
            && entry.first <= self.time
            && entry.marks == users
            && (entry.threshold == 0 || uses <= entry.threshold)
    }

    /// The number of the asset's parent, if it has one.
    fn parent_of(&self, asset: &Asset) -> Option<u16> {
        self.assets.iter().find(|a| a.number == asset.inherit && a.key == 0 && a.inherit == 0).map(|a| a.number)
    }
}

impl Stored {
    fn has(&self, flag: u8) -> bool {
        self.flags & flag != 0
    }

    /// Whether a flagged count, timed count, interval or accumulated is 0: such an entry suits, and is never granted.
    fn is_never_grantable(&self) -> bool {
        let limits =
            [(COUNT, self.count), (TIMED, self.timed), (INTERVAL, self.interval), (ACCUMULATED, self.accumulated)];
        limits.iter().any(|&(flag, limit)| self.has(flag) && limit == 0)
    }

    /// Whether the switch alone keeps it from being granted, all day long: no event changes the switch.
    fn is_switched_off(&self, switch: u32) -> bool {
        switch == 0 && self.tracked == 1 && self.mark == 0
    }
}

fn within(flagged: bool, value: u32, least: u32, greatest: u32) -> bool {
    if flagged { least <= value && value <= greatest } else { value == 0 }
}

// ---- Rules: what an event does to an entry, a player, the book

/// A begin of kind 1 to 5, or a bare continue, stop or cancel.
#[inline(always)]
fn request_is_good(request: u32) -> bool {
    if operation(request) == 1 {
        (request & 0xff).wrapping_sub(1) < KINDS as u32
    } else {
        matches!(request, 0x0200_0000 | 0x0300_0000 | 0x0400_0000)
    }
}

/// The next number, or counter 1 under a greater boot number.
#[inline(always)]
fn is_in_line(last: u64, number: u64) -> bool {
    last != u64::MAX && number == last + 1 || number as u32 == 1 && number >> 32 > last >> 32
}

#[inline(always)]
fn is_momentary(kind: u8) -> bool {
    kind >= 4
}

#[inline(always)]
fn grant_length(_kind: u8) -> u32 {
    60
}

#[derive(Clone, Copy)]
struct Answer {
    code: u8,
    entry: u8,
    until: u32,
}

const fn refused(code: u8) -> Answer {
    Answer { code, entry: 255, until: 0 }
}

/// An entry whose missing flags have limits that never bind.
#[derive(Clone, Copy)]
struct Entry {
    used_count: u32,
    count: u32,
    used_timed: u32,
    timed: u32,
    start: u32,
    last: u32, // the last moment: the first second after its end and its started interval
    used_seconds: u32,
    accumulated: u32,
    room: u32, // how many more players may open it
    timer: u32,
    interval: u32,
    ends: u32, // the last moment while the interval has not started
    timed_value: u32,
    asset: u16,
    flags: u8,
    kind: u8,
    unstarted: bool, // an interval is flagged and has not started
    recorded: bool,  // tracked, and the switch is on
}

impl Entry {
    const BLANK: Entry = Entry {
        used_count: 0,
        count: 0,
        used_timed: 0,
        timed: 0,
        start: 0,
        last: 0,
        used_seconds: 0,
        accumulated: 0,
        room: 0,
        timer: 0,
        interval: 0,
        ends: 0,
        timed_value: 0,
        asset: 0,
        flags: 0,
        kind: 1,
        unstarted: false,
        recorded: false,
    };

    fn new(from: &Stored, switch: u32) -> Entry {
        let or = |flag: u8, limit: u32, without: u32| if from.has(flag) { limit } else { without };
        let most = if from.threshold == 0 { NEVER } else { from.threshold };
        let ends = or(END, from.end + 1, NEVER);
        Entry {
            used_count: from.used_count,
            count: or(COUNT, from.count, NEVER),
            used_timed: from.used_timed,
            timed: or(TIMED, from.timed, NEVER),
            start: from.start,
            last: ends.min(if from.started == 1 { from.first + from.interval } else { NEVER }),
            used_seconds: from.used_seconds,
            accumulated: or(ACCUMULATED, from.accumulated, NEVER),
            room: most - from.marks.count_ones(),
            timer: from.timer,
            interval: from.interval,
            ends,
            timed_value: from.timed_value,
            asset: from.asset,
            flags: from.flags,
            kind: from.kind,
            unstarted: from.has(INTERVAL) && from.started == 0,
            recorded: switch == 1 && from.tracked == 1,
        }
    }

    #[inline(always)]
    fn is_grantable(&self, t: u32) -> bool {
        (self.used_count < self.count)
            & (self.used_timed < self.timed)
            & (self.start <= t)
            & (t < self.last)
            & (self.used_seconds < self.accumulated)
            & (self.room != 0)
    }

    /// Whether nothing can be granted from t on: dates, interval or count are over. A full threshold is not over: it has room again
    /// when a use ends. A cancel gives back a count or unstarts an interval, but only if no event was taken since the begin, and so no
    /// list has lost the entry for it.
    #[inline(always)]
    fn is_over(&self, t: u32) -> bool {
        (self.last <= t) | (self.used_count >= self.count)
    }

    /// The order of the choice in one number, the smaller first: no flags, earlier last moment, own, position.
    fn rank(&self, asked: u16, position: u8) -> u64 {
        let bit = |test: bool| test as u64;
        bit(self.flags != 0) << 41 | (self.last as u64) << 9 | bit(self.asset != asked) << 8 | position as u64
    }

    /// The least of the bounds; the seconds already used reach up to `paid_to`.
    #[inline(always)]
    fn least_until(&self, t: u32, paid_to: u32) -> u32 {
        let paid = paid_to.saturating_add(self.accumulated - self.used_seconds);
        (t + grant_length(self.kind)).min(self.last).min(paid)
    }

    #[inline(always)]
    fn add_seconds(&mut self, seconds: u32) {
        self.used_seconds += if self.flags & ACCUMULATED != 0 { seconds } else { 0 };
    }

    /// Meters a begin at t; whether its last moment is another one from now on.
    #[inline(always)]
    fn begin(&mut self, t: u32) -> bool {
        self.used_count += (self.flags & COUNT) as u32;
        self.used_timed += (self.flags & TIMED) as u32 / TIMED as u32;
        let before = self.last;
        if self.unstarted {
            self.unstarted = false;
            self.last = before.min(t + self.interval);
        }
        self.last != before
    }

    /// Takes off what a begin that was granted so many seconds has metered.
    fn take_off(&mut self, seconds: u32) {
        self.used_count -= (self.flags & COUNT) as u32;
        self.used_timed -= (self.flags & TIMED) as u32 / TIMED as u32;
        self.used_seconds -= if self.flags & ACCUMULATED != 0 { seconds } else { 0 };
    }

    /// Unstarts the interval; whether its last moment is another one from now on.
    fn unstart(&mut self) -> bool {
        self.unstarted = true;
        std::mem::replace(&mut self.last, self.ends) != self.ends
    }

    /// Meters the end of a use that ran so many seconds; a timer of 0 takes nothing off.
    #[inline(always)]
    fn end(&mut self, ran: u32) {
        self.used_timed -= (ran < self.timer) as u32;
    }
}

#[derive(Clone, Copy)]
struct Player {
    number: u64,
    request: u32,
    answer: Answer,
    open_entry: u8,
    content: u8, // the position of the asset that it shows; 255 for none, where nothing is recorded
    begin: u32,
    until: u32,
}

/// The suitable entries of one asset and kind that can still be granted, in the order of the choice; behind them, from the end of the
/// table on, those that are switched off.
#[derive(Clone, Copy)]
struct Candidates {
    suits: bool, // whether there ever was one: 13 or 43 if so, otherwise 12
    len: u8,
    off: u8,
    positions: [u8; MOST],
}

impl Candidates {
    fn list(&self) -> &[u8] {
        &self.positions[..self.len as usize]
    }

    fn switched_off(&self) -> &[u8] {
        &self.positions[MOST - self.off as usize..]
    }
}

/// A line of the usage report; its content is the asset at its position.
#[derive(Clone, Copy)]
struct Line {
    times: u64,
    seconds: u64,
}

/// The last event taken: its player plus 1, 0 for none; whether it opened a use that started an interval.
#[derive(Clone, Copy)]
struct Last {
    player: u8,
    started: bool,
}

struct Server {
    time: u32,
    last: Last,
    next_end: u32, // no open use ends before this
    open: u16,     // one bit for each player with a use open
    players: [Player; PLAYERS],
    entries: [Entry; MOST],
    report: [Line; MOST],
    candidates: Vec<Candidates>, // of asset i and kind k at KINDS * i + k - 1
    usable: Vec<u8>,             // the asset's position by its number, 255 for none or no key
    numbers: Vec<u16>,           // of the assets
}

impl Server {
    fn new(image: &Image) -> Server {
        let mut server = Server {
            time: image.time,
            last: Last { player: image.latest_player as u8, started: image.latest_started == 1 },
            next_end: NEVER,
            open: 0,
            players: std::array::from_fn(|p| {
                let StoredPlayer { number, request, answer, open_entry, begin, until, content, .. } = image.players[p];
                let content = image.position_of(content).map_or(255, |position| position as u8);
                Player { number, request, answer, open_entry, content, begin, until }
            }),
            entries: std::array::from_fn(|i| image.entries.get(i).map_or(Entry::BLANK, |entry| Entry::new(entry, image.switch))),
            report: [Line { times: 0, seconds: 0 }; MOST],
            candidates: vec![Candidates { suits: false, len: 0, off: 0, positions: [0; MOST] }; KINDS * image.assets.len()],
            usable: vec![255; 1 << 16],
            numbers: image.assets.iter().map(|asset| asset.number).collect(),
        };
        for (p, player) in image.players.iter().enumerate().filter(|(_, player)| player.open == 1) {
            server.open |= 1 << p;
            server.next_end = server.next_end.min(player.until);
        }
        for (i, asset) in image.assets.iter().enumerate().filter(|(_, asset)| asset.key == 1) {
            server.usable[asset.number as usize] = i as u8;
            let parent = image.parent_of(asset).unwrap_or(asset.number);
            for (position, entry) in image.entries.iter().enumerate() {
                if entry.asset == asset.number || entry.asset == parent {
                    let to = &mut server.candidates[KINDS * i + entry.kind as usize - 1];
                    to.suits = true;
                    if entry.is_never_grantable() {
                        continue;
                    }
                    if entry.is_switched_off(image.switch) {
                        to.off += 1;
                        to.positions[MOST - to.off as usize] = position as u8;
                    } else {
                        to.positions[to.len as usize] = position as u8;
                        to.len += 1;
                    }
                }
            }
        }
        (0..server.candidates.len()).for_each(|which| server.sort(which));
        server
    }

    fn sort(&mut self, which: usize) {
        let asked = self.numbers[which / KINDS];
        let Candidates { len, positions, .. } = &mut self.candidates[which];
        positions[..*len as usize].sort_unstable_by_key(|&position| self.entries[position as usize].rank(asked, position));
    }

    /// The entry at this position has another last moment.
    #[cold]
    fn sort_again(&mut self, position: u8) {
        for which in 0..self.candidates.len() {
            if self.candidates[which].list().contains(&position) {
                self.sort(which);
            }
        }
    }

    /// Takes those out of the list that are over.
    #[inline(never)]
    fn passed_over(&mut self, which: usize, t: u32) {
        let Candidates { len, positions, .. } = &mut self.candidates[which];
        let mut kept = 0;
        for at in 0..*len as usize {
            let position = positions[at];
            positions[kept] = position;
            kept += !self.entries[position as usize % MOST].is_over(t) as usize;
        }
        *len = kept as u8;
    }

    #[inline(always)]
    fn answer(&mut self, record: &[u8; RECORD]) -> Answer {
        let Event { player: p, number, request, t } = event_of(record);
        if p >= PLAYERS {
            return refused(2);
        }
        if !request_is_good(request) {
            return refused(1);
        }
        let player = &self.players[p];
        if number == player.number && number != 0 {
            return if request == player.request { player.answer } else { refused(4) };
        }
        if !is_in_line(player.number, number) {
            return refused(3);
        }
        if t < self.time || t > LATEST {
            return refused(5);
        }
        self.time = t;
        if self.next_end <= t {
            self.settle(t);
        }
        let is_open = self.open >> p & 1 != 0;
        let last = std::mem::replace(&mut self.last, Last { player: p as u8 + 1, started: false });
        let answer = match operation(request) {
            1 if is_open => refused(11),
            1 => self.begin(p, request, t),
            _ if !is_open => refused(14),
            2 => self.go_on(p, t),
            3 => self.stop(p, t),
            _ => self.cancel(p, last),
        };
        let player = &mut self.players[p];
        player.number = number;
        player.request = request;
        player.answer = answer;
        answer
    }

    fn settle(&mut self, t: u32) {
        let mut next = NEVER;
        let mut rest = self.open;
        while rest != 0 {
            let p = rest.trailing_zeros() as usize % PLAYERS;
            rest &= rest - 1;
            let until = self.players[p].until;
            if until <= t {
                self.close(p, until);
            } else {
                next = next.min(until);
            }
        }
        self.next_end = next;
    }

    #[inline(always)]
    fn close(&mut self, p: usize, end: u32) {
        let player = &self.players[p];
        let entry = &mut self.entries[player.open_entry as usize % MOST];
        let ran = end - player.begin;
        entry.end(ran);
        entry.room += 1;
        if entry.recorded {
            let line = &mut self.report[player.content as usize % MOST];
            line.seconds += ran as u64;
            line.times += (ran >= entry.timed_value) as u64;
        }
        self.open &= !(1 << p);
    }

    /// 12, 13 or 43: nothing could be granted at t.
    #[inline(never)]
    fn none_grantable(&mut self, which: usize, t: u32) -> Answer {
        let candidates = &self.candidates[which];
        let suits = candidates.suits;
        let for_switch = candidates.switched_off().iter().any(|&position| self.entries[position as usize % MOST].is_grantable(t));
        self.passed_over(which, t);
        refused(if for_switch { 43 } else if suits { 13 } else { 12 })
    }

    #[inline(always)]
    fn begin(&mut self, p: usize, request: u32, t: u32) -> Answer {
        let (asset, kind) = asset_and_kind(request);
        let i = self.usable[asset as usize];
        if i == 255 {
            return refused(10);
        }
        let which = KINDS * i as usize + kind as usize - 1;
        let candidates = &self.candidates[which];
        let at = candidates.list().iter().position(|&position| self.entries[position as usize % MOST].is_grantable(t));
        let Some(at) = at else {
            return self.none_grantable(which, t);
        };
        let position = candidates.positions[at % MOST];
        if at != 0 {
            self.passed_over(which, t);
        }
        let entry = &mut self.entries[position as usize % MOST];
        let starts = entry.unstarted;
        let moved = entry.begin(t);
        let mut until = t;
        if !is_momentary(kind) {
            self.last.started = starts;
            until = entry.least_until(t, t);
            entry.add_seconds(until - t);
            entry.room -= 1;
            let player = &mut self.players[p];
            player.open_entry = position;
            player.content = i;
            player.begin = t;
            player.until = until;
            self.open |= 1 << p;
            self.next_end = self.next_end.min(until);
        } else if entry.recorded {
            self.report[i as usize % MOST].times += (entry.timed_value == 0) as u64;
        }
        if moved {
            self.sort_again(position);
        }
        Answer { code: 0, entry: position, until }
    }

    #[inline(always)]
    fn go_on(&mut self, p: usize, t: u32) -> Answer {
        let player = &mut self.players[p];
        let entry = &mut self.entries[player.open_entry as usize % MOST];
        let until = entry.least_until(t, player.until);
        if until == player.until {
            return refused(15);
        }
        entry.add_seconds(until - player.until);
        player.until = until;
        Answer { code: 0, entry: player.open_entry, until }
    }

    #[inline(always)]
    fn stop(&mut self, p: usize, t: u32) -> Answer {
        let player = &self.players[p];
        let position = player.open_entry;
        let entry = &mut self.entries[position as usize % MOST];
        if entry.flags & ACCUMULATED != 0 {
            entry.used_seconds -= player.until - t;
        }
        self.close(p, t);
        Answer { code: 0, entry: position, until: t }
    }

    /// Takes back the begin of the open use, if that was the last event taken.
    #[inline(never)]
    fn cancel(&mut self, p: usize, last: Last) -> Answer {
        let Player { request, answer, open_entry: position, begin, until, .. } = self.players[p];
        let begun = operation(request) == 1 && answer.code == 0 && answer.entry == position && answer.until == until;
        if last.player as usize != p + 1 || !begun {
            return refused(44);
        }
        let entry = &mut self.entries[position as usize % MOST];
        entry.take_off(until - begin);
        entry.room += 1;
        self.open &= !(1 << p);
        if last.started && entry.unstart() {
            self.sort_again(position);
        }
        Answer { code: 0, entry: position, until: begin }
    }
}

// ---- The program

const BLOCK: usize = 8192; // records

fn main() -> io::Result<()> {
    let data = std::fs::read("rights.rbk").unwrap_or_default();
    let mut input = File::from(io::stdin().as_fd().try_clone_to_owned()?);
    let mut output = File::from(io::stdout().as_fd().try_clone_to_owned()?);
    let mut server = match read_image(&data) {
        Ok(image) => Server::new(&image),
        Err(number) => return writeln!(output, "{number}"),
    };
    let mut lines = Lines::new();
    let mut block = vec![0; RECORD * BLOCK];
    let mut text = vec![0; LINE * (BLOCK + 2)];
    let mut held = 0;
    loop {
        let got = input.read(&mut block[held..])?;
        let end = held + got;
        let mut len = 0;
        let mut put = |answer: Answer| len += lines.put((&mut text[len..len + 2 * LINE]).try_into().unwrap(), answer);
        let mut records = block[..end].chunks_exact(RECORD);
        for record in &mut records {
            put(server.answer(record.try_into().unwrap()));
        }
        let rest = records.remainder().len();
        if got == 0 && rest != 0 {
            put(refused(6));
        }
        output.write_all(&text[..len])?;
        if got == 0 {
            std::hint::black_box(&server.report); // kept, though nobody asks for it here
            return Ok(());
        }
        block.copy_within(end - rest..end, 0);
        held = rest;
    }
}
