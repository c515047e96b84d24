//! The rights server's core for Rust: safe functions on top of the static library `libembed.a`.
//!
//! The library keeps no state between calls. The book is passed as its image, the bytes of `rights.rbk`, and the usage report as its
//! lines: the caller keeps both and saves them when it likes. What a call returns and leaves in the buffers is proved for every input.
//! The declarations below are not checked against that proof, so they change only with `crates/embed_c/src/lib.rt`.
//!
//! A call needs at most `STACK` bytes of stack, `from_xml` and `fresh_book` at most `XML_STACK`. `docs/FORMAT.md` has the bytes of
//! records, images and saved files, and the form of XML rights objects.
//!
//! `save` and `load` keep image and lines together in one file. They are no part of the library, and nothing is proved of them.
//!
//! Needs Rust 1.82 or later (`unsafe extern`), in edition 2021 or 2024.
#![allow(dead_code)] // a server need not use all of this

use std::ffi::OsString;
use std::fs::{self, File};
use std::io::{self, ErrorKind, Write};
use std::path::Path;

/// Bytes of an event record.
pub const RECORD: usize = 17;
/// The longest line of an answer, including its line feed.
pub const LINE: usize = 19;
/// Room for any next image.
pub const LONGEST_IMAGE: usize = 5399;
/// The most lines of a list.
pub const LINES: usize = 64;
/// Bytes of stack that are enough for any call that reads no XML (`docs/EMBEDDING.md`).
pub const STACK: usize = 524_288;
/// Bytes of stack that are enough for reading an XML text.
pub const XML_STACK: usize = 3_145_728;
/// In place of a remaining number: there is no such limit.
pub const NO_LIMIT: u32 = u32::MAX;

/// Why a call was refused. If it was, no byte of any buffer and no line has changed.
#[derive(Clone, Copy, Debug, PartialEq, Eq)]
pub enum Refused {
    /// The image breaks a rule: 20 to 27 of document 01's table. 20 too if its length is more than its buffer has.
    Image(u8),
    /// `out` is shorter than `room(records.len())`, or the image's buffer has no room for the next image.
    ShortOut,
    /// The book has no asset, entry or player at that position.
    NotThere,
    /// The XML text is refused: 40 not well formed, 41 something in it is not accepted, 42 too many elements, assets or entries.
    Text(u8),
}

/// An event in numbers, as they are in a record: operation 1 begin, 2 continue, 3 stop, 4 cancel; kind 1 play, 2 display,
/// 3 execute, 4 print, 5 export. Asset and kind are 0 for a continue, a stop and a cancel, which takes back the begin of what the player
/// has open if nothing was taken since. `numbered` makes the number from boot number and counter.
#[derive(Clone, Copy, Debug, PartialEq, Eq)]
pub struct Event {
    pub player: u8,
    pub number: u64,
    pub operation: u8,
    pub asset: u16,
    pub kind: u8,
    pub time: u32,
}

/// The answer to an event. Code 0 is a grant; every other code comes with entry 255 and until 0. Of a granted cancel until is the begin
/// of the use that it took back.
#[derive(Clone, Copy, Debug, PartialEq, Eq)]
pub struct Answer {
    pub code: u8,
    pub entry: u8,
    pub until: u32,
}

/// A line of the usage report: how often and for how many seconds a content, the number of an asset, was used.
///
/// A list of lines is good if it has at least as many as the book has assets and at most `LINES`, the first of them name the book's
/// assets in their order, and every number in it is below 2 to the 62. An event with another list is answered with code 30 and changes
/// nothing. `zeros` makes the list to begin with.
#[repr(C)]
#[derive(Clone, Copy, Debug, PartialEq, Eq)]
pub struct Line {
    pub content: u64,
    pub times: u64,
    pub seconds: u64,
}

/// How many assets and entries a book has, the time of the latest event taken, and whether usage is recorded (1 or 0).
#[derive(Clone, Copy, Debug, PartialEq, Eq)]
pub struct Book {
    pub assets: u32,
    pub entries: u32,
    pub time: u32,
    pub switch: u32,
    /// The player of the latest event taken, plus 1; 0: none, or the image was written by an older server.
    pub latest_player: u32,
    /// 1: that event opened a use that started an interval.
    pub latest_started: u32,
}

#[derive(Clone, Copy, Debug, PartialEq, Eq)]
pub struct Asset {
    pub number: u32,
    pub inherit: u32,
    pub key: u32,
}

/// An entry's limits and meters, and how its uses are recorded. A limit whose flag is missing is 0, and so is its meter. A count, timed
/// count, interval or accumulated that is flagged and 0 is never granted.
#[derive(Clone, Copy, Debug, PartialEq, Eq)]
pub struct Entry {
    pub object: u32,
    pub asset: u32,
    pub kind: u32,
    pub flags: u32,
    pub count: u32,
    pub timed: u32,
    pub timer: u32,
    pub start: u32,
    pub end: u32,
    pub interval: u32,
    pub accumulated: u32,
    pub used_count: u32,
    pub used_timed: u32,
    pub first: u32,
    pub used_seconds: u32,
    pub started: u32,
    /// 1: its uses are recorded.
    pub tracked: u32,
    /// A recorded use of at least so many seconds counts as a time.
    pub timed_value: u32,
    /// 1: tracked, and granted with the switch off too.
    pub mark: u32,
    /// So many players may have it open together, 1 to 16; 0: any number.
    pub threshold: u32,
    /// Which players have it open, in the image as it is: bit p (`1 << p`) for player p.
    pub marks: u32,
}

/// What is left of an entry at a time; `NO_LIMIT` if there is no such limit.
#[derive(Clone, Copy, Debug, PartialEq, Eq)]
pub struct Left {
    /// 1 if the entry's own limits, its threshold and the book's switch allow a grant at that time.
    pub grantable: u32,
    pub count: u32,
    pub timed: u32,
    pub seconds: u32,
}

/// What stands against granting an entry: 1 for each ground that stands, otherwise 0. A count, a timed count or an accumulated of 0
/// is spent from the start.
#[derive(Clone, Copy, Debug, PartialEq, Eq)]
pub struct Grounds {
    pub count_spent: u32,
    pub timed_spent: u32,
    pub before_start: u32,
    pub after_end: u32,
    pub interval_over: u32,
    pub seconds_spent: u32,
    /// The interval is 0: the entry is never granted. One that has started is over too.
    pub interval_zero: u32,
    /// The entry is tracked and has no mark, and the book's switch is off.
    pub switch_off: u32,
    /// As many players have it open as may; the end of one of these uses makes room.
    pub threshold_full: u32,
}

/// The last event taken from a player with its answer (number 0: none yet), and its open use.
#[derive(Clone, Copy, Debug, PartialEq, Eq)]
pub struct Player {
    /// Boot number and counter: see `numbered`.
    pub number: u64,
    pub operation: u32,
    pub asset: u32,
    pub kind: u32,
    pub code: u32,
    pub entry: u32,
    pub until: u32,
    pub open: u32,
    pub open_entry: u32,
    pub open_begin: u32,
    pub open_until: u32,
    /// The asset that the open use shows.
    pub content: u32,
}

/// What an XML text gave: the length of the image of its book, and how many elements it has.
#[derive(Clone, Copy, Debug, PartialEq, Eq)]
pub struct Imported {
    pub length: usize,
    pub elements: u64,
}

mod library {
    use super::Line;

    // A slice is passed as its pointer and its length.
    #[link(name = "embed", kind = "static")]
    unsafe extern "C" {
        pub fn rights_check(image: *const u8, image_length: usize) -> u8;
        pub fn rights_answer(
            image: *mut u8,
            image_room: usize,
            image_length: *mut u64,
            records: *const u8,
            records_length: usize,
            out: *mut u8,
            out_length: usize,
            written: *mut u64,
            report: *mut Line,
            report_length: usize,
        ) -> u8;
        pub fn rights_answer_one(
            image: *mut u8,
            image_room: usize,
            image_length: *mut u64,
            player: u8,
            number: u64,
            operation: u8,
            asset: u16,
            kind: u8,
            time: u32,
            code: *mut u8,
            entry: *mut u8,
            until: *mut u32,
            report: *mut Line,
            report_length: usize,
        ) -> u8;
        pub fn rights_record(
            player: u8,
            number: u64,
            operation: u8,
            asset: u16,
            kind: u8,
            time: u32,
            out: *mut u8,
            out_length: usize,
        ) -> u8;
        pub fn rights_book(image: *const u8, image_length: usize, out: *mut u32, out_length: usize) -> u8;
        pub fn rights_asset(image: *const u8, image_length: usize, position: u32, out: *mut u32, out_length: usize) -> u8;
        pub fn rights_entry(image: *const u8, image_length: usize, position: u32, out: *mut u32, out_length: usize) -> u8;
        pub fn rights_left(
            image: *const u8,
            image_length: usize,
            position: u32,
            time: u32,
            out: *mut u32,
            out_length: usize,
        ) -> u8;
        pub fn rights_grounds(
            image: *const u8,
            image_length: usize,
            position: u32,
            player: u8,
            time: u32,
            out: *mut u32,
            out_length: usize,
        ) -> u8;
        pub fn rights_player(image: *const u8, image_length: usize, player: u32, out: *mut u32, out_length: usize) -> u8;
        pub fn rights_from_xml(
            text: *const u8,
            text_length: usize,
            image: *mut u8,
            image_room: usize,
            image_length: *mut u64,
            elements: *mut u64,
        ) -> u8;
    }
}

fn judged(code: u8) -> Result<(), Refused> {
    match code {
        0 => Ok(()),
        30 => Err(Refused::ShortOut),
        31 => Err(Refused::NotThere),
        40..=42 => Err(Refused::Text(code)),
        code => Err(Refused::Image(code)),
    }
}

/// The number of an event: the boot number in its upper 32 bits, 0 for a player that has none, and the counter in its lower ones.
pub fn numbered(boot: u32, counter: u32) -> u64 {
    (boot as u64) << 32 | counter as u64
}

/// The bytes that `out` needs for that many bytes of records. A last record that is cut short counts as one.
pub fn room(records_length: usize) -> usize {
    records_length.div_ceil(RECORD).saturating_mul(LINE)
}

/// Whether the bytes are the image of a legal book.
pub fn check(image: &[u8]) -> Result<(), Refused> {
    // The slice is valid for the call, and the function only reads it and keeps no pointer.
    judged(unsafe { library::rights_check(image.as_ptr(), image.len()) })
}

/// Answers event records from the book in the image, in turn, and leaves the book after the last record in its place. The image
/// is the first `length` bytes of the buffer `image`, before and after; what is behind it stays. The answers are lines
/// `code entry until` at the start of `out`; their length is returned. The first record is lent the lines of `report`, each next one
/// what the one before it left.
pub fn answer(
    image: &mut [u8],
    length: &mut usize,
    records: &[u8],
    out: &mut [u8],
    report: &mut [Line],
) -> Result<usize, Refused> {
    let mut written = 0u64;
    let mut image_length = *length as u64;
    // The borrows guarantee that the slices are valid and do not overlap. The function keeps no pointer.
    let code = unsafe {
        library::rights_answer(
            image.as_mut_ptr(),
            image.len(),
            &mut image_length,
            records.as_ptr(),
            records.len(),
            out.as_mut_ptr(),
            out.len(),
            &mut written,
            report.as_mut_ptr(),
            report.len(),
        )
    };
    *length = image_length as usize;
    judged(code).map(|()| written as usize)
}

/// A call on an image with room for any next one, after which it has the length that the call leaves.
fn with_room<T>(image: &mut Vec<u8>, call: impl FnOnce(&mut [u8], &mut usize) -> T) -> T {
    let mut length = image.len();
    image.resize(length.max(LONGEST_IMAGE), 0);
    let result = call(image, &mut length);
    image.truncate(length);
    result
}

/// Like `answer`, with the text in its own buffer, and the image as long as it is, before and after. Only the image can be refused.
pub fn answers(image: &mut Vec<u8>, records: &[u8], report: &mut [Line]) -> Result<Vec<u8>, Refused> {
    let mut out = vec![0; room(records.len())];
    let written = with_room(image, |buffer, length| answer(buffer, length, records, &mut out, report))?;
    out.truncate(written);
    Ok(out)
}

/// Answers one event from the book in the image, and leaves the book after it in its place: the same step as `answer` does
/// for the event's record, with the same lines. The image is the first `length` bytes of the buffer `image`, before and after.
pub fn answer_one(image: &mut [u8], length: &mut usize, event: Event, report: &mut [Line]) -> Result<Answer, Refused> {
    let mut answer = Answer { code: 0, entry: 0, until: 0 };
    let mut image_length = *length as u64;
    // The borrows guarantee that what is pointed to is valid and does not overlap. The function keeps no pointer.
    let code = unsafe {
        library::rights_answer_one(
            image.as_mut_ptr(),
            image.len(),
            &mut image_length,
            event.player,
            event.number,
            event.operation,
            event.asset,
            event.kind,
            event.time,
            &mut answer.code,
            &mut answer.entry,
            &mut answer.until,
            report.as_mut_ptr(),
            report.len(),
        )
    };
    *length = image_length as usize;
    judged(code).map(|()| answer)
}

/// Like `answer_one`, with the image as long as it is, before and after. Only the image can be refused.
pub fn answer_event(image: &mut Vec<u8>, event: Event, report: &mut [Line]) -> Result<Answer, Refused> {
    with_room(image, |buffer, length| answer_one(buffer, length, event, report))
}

/// The record that holds an event's numbers, whether or not they make a legal event.
pub fn record(event: Event) -> [u8; RECORD] {
    let mut out = [0; RECORD];
    // There is room for the record, so the code is 0.
    unsafe {
        library::rights_record(
            event.player,
            event.number,
            event.operation,
            event.asset,
            event.kind,
            event.time,
            out.as_mut_ptr(),
            out.len(),
        )
    };
    out
}

/// Turns an XML rights object into the image of a fresh book, at the start of the buffer `image`; what is behind it stays.
pub fn from_xml(text: &[u8], image: &mut [u8]) -> Result<Imported, Refused> {
    let (mut length, mut elements) = (0u64, 0u64);
    // The borrows guarantee that what is pointed to is valid and does not overlap. The function keeps no pointer.
    let code = unsafe {
        library::rights_from_xml(
            text.as_ptr(),
            text.len(),
            image.as_mut_ptr(),
            image.len(),
            &mut length,
            &mut elements,
        )
    };
    judged(code).map(|()| Imported { length: length as usize, elements })
}

/// Like `from_xml`, with the image in its own buffer, and the number of elements. Only the text can be refused.
pub fn fresh_book(text: &[u8]) -> Result<(Vec<u8>, u64), Refused> {
    let mut image = vec![0; LONGEST_IMAGE];
    let made = from_xml(text, &mut image)?;
    image.truncate(made.length);
    Ok((image, made.elements))
}

/// What the book in an image holds.
pub fn book(image: &[u8]) -> Result<Book, Refused> {
    let mut out = [0; 6];
    // Here and below the slices are valid for the call, and the function only reads the image and keeps no pointer.
    let code = unsafe { library::rights_book(image.as_ptr(), image.len(), out.as_mut_ptr(), out.len()) };
    let [assets, entries, time, switch, latest_player, latest_started] = out;
    judged(code).map(|()| Book { assets, entries, time, switch, latest_player, latest_started })
}

/// The list to begin with: a line for each asset of the book in the image, in its order, with no times and no seconds.
pub fn zeros(image: &[u8]) -> Result<Vec<Line>, Refused> {
    let line = |position| asset(image, position).map(|a| Line { content: a.number.into(), times: 0, seconds: 0 });
    (0..book(image)?.assets).map(line).collect()
}

/// The asset at a position, from 0.
pub fn asset(image: &[u8], position: u32) -> Result<Asset, Refused> {
    let mut out = [0; 3];
    let code = unsafe { library::rights_asset(image.as_ptr(), image.len(), position, out.as_mut_ptr(), out.len()) };
    let [number, inherit, key] = out;
    judged(code).map(|()| Asset { number, inherit, key })
}

/// The entry at a position, from 0.
pub fn entry(image: &[u8], position: u32) -> Result<Entry, Refused> {
    let mut out = [0; 21];
    let code = unsafe { library::rights_entry(image.as_ptr(), image.len(), position, out.as_mut_ptr(), out.len()) };
    let [object, asset, kind, flags, count, timed, timer, start, end, interval, accumulated, ..] = out;
    let [.., used_count, used_timed, first, used_seconds, started, tracked, timed_value, mark, threshold, marks] = out;
    judged(code).map(|()| Entry {
        object,
        asset,
        kind,
        flags,
        count,
        timed,
        timer,
        start,
        end,
        interval,
        accumulated,
        used_count,
        used_timed,
        first,
        used_seconds,
        started,
        tracked,
        timed_value,
        mark,
        threshold,
        marks,
    })
}

/// What is left of the entry at a position, as an event at that time would find it. A time before the book's counts as
/// the book's, so 0 asks for what is left in the image as it is. A time after 4,000,000,000 is judged like any other, though an event
/// then gets 5.
pub fn left(image: &[u8], position: u32, time: u32) -> Result<Left, Refused> {
    let mut out = [0; 4];
    let code = unsafe { library::rights_left(image.as_ptr(), image.len(), position, time, out.as_mut_ptr(), out.len()) };
    let [grantable, count, timed, seconds] = out;
    judged(code).map(|()| Left { grantable, count, timed, seconds })
}

/// What stands against granting the entry at a position to a player, as a begin at that time would find it; for the time see
/// `left`. Whether the entry is suitable, and whether the player may begin at all, is not judged: any player number is taken, and a time
/// after 4,000,000,000 too, though an event of player 16 or more gets 2, and one at such a time 5. No ground reads the player today, so
/// all players get the same; pass the one that asks, as a later ground may read it.
pub fn grounds(image: &[u8], position: u32, player: u8, time: u32) -> Result<Grounds, Refused> {
    let mut out = [0; 9];
    let code = unsafe {
        library::rights_grounds(image.as_ptr(), image.len(), position, player, time, out.as_mut_ptr(), out.len())
    };
    let [count_spent, timed_spent, before_start, after_end, interval_over, seconds_spent, ..] = out;
    let [.., interval_zero, switch_off, threshold_full] = out;
    judged(code).map(|()| Grounds {
        count_spent,
        timed_spent,
        before_start,
        after_end,
        interval_over,
        seconds_spent,
        interval_zero,
        switch_off,
        threshold_full,
    })
}

/// A player, 0 to 15.
pub fn player(image: &[u8], player: u32) -> Result<Player, Refused> {
    let mut out = [0; 13];
    let code = unsafe { library::rights_player(image.as_ptr(), image.len(), player, out.as_mut_ptr(), out.len()) };
    let [counter, operation, asset, kind, code_of_last, entry, until, open, open_entry, open_begin, open_until, content, boot] = out;
    judged(code).map(|()| Player {
        number: numbered(boot, counter),
        operation,
        asset,
        kind,
        code: code_of_last,
        entry,
        until,
        open,
        open_entry,
        open_begin,
        open_until,
        content,
    })
}

// ---- A saved file: image and lines together, with a check sum (docs/FORMAT.md)

/// The first bytes of a saved file.
const MARK: &[u8] = b"RBS";
/// The version that is written and read.
const VERSION: u16 = 1;
/// Bytes before the image, of a line, and of the sum.
const HEAD: usize = 13;
const SAVED_LINE: usize = 24;
const SUM: usize = 4;

/// What is wrong with bytes that should be a saved file. They are judged in this order.
#[derive(Clone, Copy, Debug, PartialEq, Eq)]
pub enum Damaged {
    /// They do not begin with `RBS`: it is no saved file, or its first bytes are damaged.
    Mark,
    /// The version is not 1.
    Version,
    /// They are cut short, more than the head tells, or the head tells of more than `LONGEST_IMAGE` bytes or `LINES` lines.
    Length,
    /// The check sum is not that of the bytes before it.
    Sum,
}

impl std::fmt::Display for Damaged {
    fn fmt(&self, f: &mut std::fmt::Formatter) -> std::fmt::Result {
        f.write_str(match self {
            Damaged::Mark => "this is no saved file",
            Damaged::Version => "the saved file is damaged, or of a later version than 1",
            Damaged::Length => "the saved file is damaged: its length is not the one that it tells",
            Damaged::Sum => "the saved file is damaged: its check sum is wrong",
        })
    }
}

impl std::error::Error for Damaged {}

/// CRC-32, the one of Ethernet and zlib.
fn sum_of(bytes: &[u8]) -> u32 {
    let shifted = |sum: u32| sum >> 1 ^ if sum & 1 == 1 { 0xedb8_8320 } else { 0 };
    !bytes.iter().fold(u32::MAX, |sum, &byte| (0..8).fold(sum ^ byte as u32, |sum, _| shifted(sum)))
}

/// The number in these bytes, at most eight.
fn number_in(bytes: &[u8]) -> u64 {
    bytes.iter().fold(0, |number, &byte| number << 8 | byte as u64)
}

/// The bytes of a saved file. `restored` refuses them if the image has more than `LONGEST_IMAGE` bytes or there are more than `LINES`
/// lines, which no call of the library leaves.
pub fn saved(image: &[u8], lines: &[Line]) -> Vec<u8> {
    let mut bytes = MARK.to_vec();
    bytes.extend(VERSION.to_be_bytes());
    bytes.extend((image.len() as u32).to_be_bytes());
    bytes.extend((lines.len() as u32).to_be_bytes());
    bytes.extend(image);
    for line in lines {
        for number in [line.content, line.times, line.seconds] {
            bytes.extend(number.to_be_bytes());
        }
    }
    bytes.extend(sum_of(&bytes).to_be_bytes());
    bytes
}

/// The image and the lines in the bytes of a saved file. Whether the book is legal, and the lines fit it, is for the library to judge:
/// `load` asks it.
pub fn restored(bytes: &[u8]) -> Result<(Vec<u8>, Vec<Line>), Damaged> {
    if !bytes.starts_with(MARK) {
        return Err(Damaged::Mark);
    }
    if bytes.len() < HEAD + SUM {
        return Err(Damaged::Length);
    }
    if number_in(&bytes[3..5]) != VERSION as u64 {
        return Err(Damaged::Version);
    }
    let (image, count) = (number_in(&bytes[5..9]) as usize, number_in(&bytes[9..HEAD]) as usize);
    // each is judged before they are added, so no sum of them wraps
    if image > LONGEST_IMAGE || count > LINES || bytes.len() != HEAD + image + SAVED_LINE * count + SUM {
        return Err(Damaged::Length);
    }
    let (bytes, sum) = bytes.split_at(bytes.len() - SUM);
    if number_in(sum) != sum_of(bytes) as u64 {
        return Err(Damaged::Sum);
    }
    let (image, lines) = bytes[HEAD..].split_at(image);
    let line = |from: &[u8]| Line {
        content: number_in(&from[..8]),
        times: number_in(&from[8..16]),
        seconds: number_in(&from[16..]),
    };
    Ok((image.to_vec(), lines.chunks(SAVED_LINE).map(line).collect()))
}

/// Writes image and lines to a saved file, so that a kill or a power cut at any moment leaves the old file or the new one, whole: the
/// bytes go to a file beside, are synced, the file is renamed, and the folder is synced. Call it before the answers leave the server, and
/// send none if it fails.
///
/// Nothing but a saved file or an empty file is replaced: if something else is there, the error is `AlreadyExists`, and it stays. The file
/// beside is `.NAME.saving`, a name that nobody gives a file of theirs; one that is there is what a killed server left, and is removed.
/// Two servers must not save under one name.
pub fn save(path: impl AsRef<Path>, image: &[u8], lines: &[Line]) -> io::Result<()> {
    let path = path.as_ref();
    let bytes = saved(image, lines);
    restored(&bytes).map_err(|why| io::Error::new(ErrorKind::InvalidInput, why))?;
    let name = path.file_name().ok_or_else(|| io::Error::new(ErrorKind::InvalidInput, "this is no name of a file"))?;
    let mut hidden = OsString::from(".");
    hidden.push(name);
    hidden.push(".saving");
    let beside = path.with_file_name(hidden);
    let there = replaceable(path)?;
    match fs::remove_file(&beside) {
        Err(why) if why.kind() != ErrorKind::NotFound => return Err(why),
        _ => (),
    }
    let write = || {
        let mut file = File::create_new(&beside)?;
        if let Some(about) = there {
            file.set_permissions(about.permissions())?; // who could not read the old file cannot read the new one
        }
        file.write_all(&bytes)?;
        file.sync_all()?;
        fs::rename(&beside, path)
    };
    write().inspect_err(|_| drop(fs::remove_file(&beside)))?;
    let folder = path.parent().filter(|folder| !folder.as_os_str().is_empty());
    File::open(folder.unwrap_or(Path::new(".")))?.sync_all()
}

/// What is there under a name, if a saved file may replace it.
fn replaceable(path: &Path) -> io::Result<Option<fs::Metadata>> {
    let about = match fs::symlink_metadata(path) {
        Err(why) if why.kind() == ErrorKind::NotFound => return Ok(None),
        about => about?,
    };
    let longest = HEAD + LONGEST_IMAGE + SAVED_LINE * LINES + SUM;
    let ours = about.is_file() && about.len() <= longest as u64 && (about.len() == 0 || restored(&fs::read(path)?).is_ok());
    if !ours {
        return Err(io::Error::new(ErrorKind::AlreadyExists, "what is there is no saved file, and is not replaced"));
    }
    Ok(Some(about))
}

/// Reads the image and the lines of a saved file. The error is `InvalidData` if the file is damaged (a `Damaged` is inside), if the
/// library refuses the image, or if the lines do not fit its book, so that every event would get 30; `NotFound` if there is none yet.
pub fn load(path: impl AsRef<Path>) -> io::Result<(Vec<u8>, Vec<Line>)> {
    let (image, lines) = restored(&fs::read(path)?).map_err(|why| io::Error::new(ErrorKind::InvalidData, why))?;
    let invalid = |why: String| Err(io::Error::new(ErrorKind::InvalidData, why));
    // player 255 is turned away with 2, but with 30 if the lines do not fit
    let nobody = Event { player: 255, number: 0, operation: 0, asset: 0, kind: 0, time: 0 };
    match answer_event(&mut image.clone(), nobody, &mut lines.clone()) {
        Ok(Answer { code: 30, .. }) => invalid("the lines of the saved file do not fit its book".into()),
        Ok(_) => Ok((image, lines)),
        Err(refused) => invalid(format!("the book of the saved file is refused: {refused:?}")),
    }
}
