//! Calls the library through the safe functions of `embed/rust/rights.rs` and prints what the programs of `crates/test_days`,
//! `crates/test_images` and `crates/test_texts` print for the stored files:
//!
//!     calls days N days.bin     the answers of each day, N records per call (0: all of them), and the lines of the report after it that
//!                               are not zeros
//!     calls ones days.bin       the same with `answer_one`, one event per call (a last record cut short goes through `answers`)
//!     calls lists lists.bin     the answer to each stored record, and the lines that it changes in the list that it is lent
//!     calls images cases.bin    the number of a refusal, or 0 and the image that a call without records leaves
//!     calls texts cases.bin     the number of a refusal, or 0, the number of elements and the image of the text's book
//!     calls seen days.bin       what the functions that read an image say, as calls.c prints it
//!     calls after BOOK EVENTS SAVED    what embed/example.c does, with `load` and `save`
//!     calls restored CASES FILE        what `load` says of each stored case, in words; FILE is written for it. A case that is no saved
//!                                      file must not be replaced by `save`
//!
//! A refused call has to leave every byte of every buffer unchanged, every line, and the lengths.

#[path = "../rust/rights.rs"]
mod rights;

use rights::{Damaged, Event, Line, Refused};
use std::fs;
use std::io::{Error, ErrorKind, Write};

/// The next part of the file: its length in `width` bytes, big-endian, and then its bytes.
fn part<'a>(file: &mut &'a [u8], width: usize) -> Option<&'a [u8]> {
    if file.is_empty() {
        return None;
    }
    let (head, rest) = file.split_at(width);
    let length = head.iter().fold(0usize, |n, &b| n << 8 | b as usize);
    let (bytes, rest) = rest.split_at(length);
    *file = rest;
    Some(bytes)
}

/// One call with just enough room, after some with a byte too little, which must change nothing.
fn answered(image: &mut Vec<u8>, records: &[u8], report: &mut [Line]) -> Result<Vec<u8>, Refused> {
    let before = image.clone();
    let lines = report.to_vec();
    let mut length = image.len();
    let mut out = vec![0xa5; rights::room(records.len())];
    if let Some(less) = out.len().checked_sub(1) {
        let refused = rights::answer(image, &mut length, records, &mut out[..less], report).unwrap_err();
        assert_eq!(refused, rights::check(image).err().unwrap_or(Refused::ShortOut));
        assert!(*image == before && *report == lines && length == before.len() && out.iter().all(|&b| b == 0xa5));
    }
    if let Some(less) = image.len().checked_sub(1) {
        let refused = rights::answer(&mut image[..less], &mut length, records, &mut out, report).unwrap_err();
        assert_eq!(refused, Refused::Image(20));
        assert!(*image == before && *report == lines && length == before.len() && out.iter().all(|&b| b == 0xa5));
    }
    let text = rights::answers(image, records, report);
    match text {
        Ok(_) => {
            assert_eq!(rights::check(image), Ok(()));
            assert!(image.len() <= rights::LONGEST_IMAGE);
        }
        Err(refused) => {
            assert_eq!(rights::check(image), Err(refused));
            assert!(*image == before && *report == lines);
        }
    }
    text
}

/// The list of zeros of the book in an image; none at all if that is refused.
fn start_list(image: &[u8]) -> Vec<Line> {
    rights::zeros(image).unwrap_or_default()
}

/// The lines that are not as they were.
fn print_changes(was: &[Line], lines: &[Line], print: &mut impl Write) {
    for (_, line) in was.iter().zip(lines).filter(|(a, b)| a != b) {
        writeln!(print, "used {} {} {}", line.content, line.times, line.seconds).unwrap();
    }
}

fn days(file: &[u8], each: usize, print: &mut impl Write) {
    let mut rest = file;
    let mut day = 1;
    while let Some(image) = part(&mut rest, 4) {
        let records = part(&mut rest, 4).expect("a day has events");
        let mut image = image.to_vec();
        let step = if each == 0 { records.len().max(1) } else { each * rights::RECORD };
        let blocks: Vec<&[u8]> = if records.is_empty() { vec![records] } else { records.chunks(step).collect() };
        writeln!(print, "day {day}").unwrap();
        let zeros = start_list(&image);
        let mut report = zeros.clone();
        for block in blocks {
            match answered(&mut image, block, &mut report) {
                Ok(text) => print.write_all(&text).unwrap(),
                Err(Refused::Image(code)) => {
                    writeln!(print, "{code}").unwrap();
                    break;
                }
                Err(refused) => panic!("{refused:?}"),
            }
        }
        print_changes(&zeros, &report, print);
        day += 1;
    }
}

fn images(file: &[u8], print: &mut impl Write) {
    let mut rest = file;
    while let Some(image) = part(&mut rest, 2) {
        let mut image = image.to_vec();
        match answered(&mut image, &[], &mut []) {
            Ok(text) => {
                assert!(text.is_empty());
                let hex: String = image.iter().map(|b| format!("{b:02x}")).collect();
                writeln!(print, "0 {hex}").unwrap();
            }
            Err(Refused::Image(code)) => writeln!(print, "{code}").unwrap(),
            Err(refused) => panic!("{refused:?}"),
        }
    }
}

fn texts(file: &[u8], print: &mut impl Write) {
    let mut rest = file;
    while let Some(text) = part(&mut rest, 4) {
        let mut room = vec![0xa5; rights::LONGEST_IMAGE + 7];
        let made = rights::from_xml(text, &mut room);
        match rights::fresh_book(text) {
            Ok((image, elements)) => {
                assert_eq!(made, Ok(rights::Imported { length: image.len(), elements }));
                assert!(room.starts_with(&image) && room[image.len()..].iter().all(|&b| b == 0xa5));
                let mut short = vec![0xa5; image.len() - 1];
                assert_eq!(rights::from_xml(text, &mut short), Err(Refused::ShortOut));
                assert!(short.iter().all(|&b| b == 0xa5));
                assert_eq!(rights::check(&image), Ok(()));
                let hex: String = image.iter().map(|b| format!("{b:02x}")).collect();
                writeln!(print, "0 {elements} {hex}").unwrap();
            }
            Err(Refused::Text(code)) => {
                assert_eq!(made, Err(Refused::Text(code)));
                assert!(room.iter().all(|&b| b == 0xa5));
                writeln!(print, "{code}").unwrap();
            }
            Err(refused) => panic!("{refused:?}"),
        }
    }
}

fn event_in(record: &[u8]) -> Event {
    Event {
        player: record[0],
        number: rights::numbered(
            u32::from_be_bytes(record[1..5].try_into().unwrap()),
            u32::from_be_bytes(record[5..9].try_into().unwrap()),
        ),
        operation: record[9],
        asset: u16::from_be_bytes(record[10..12].try_into().unwrap()),
        kind: record[12],
        time: u32::from_be_bytes(record[13..17].try_into().unwrap()),
    }
}

/// One record as numbers, or through the text call if it is cut short.
fn one(image: &mut Vec<u8>, record: &[u8], report: &mut [Line]) -> Result<String, Refused> {
    if record.len() < rights::RECORD {
        return rights::answers(image, record, report).map(|text| String::from_utf8(text).unwrap());
    }
    let event = event_in(record);
    assert_eq!(rights::record(event), record);
    let before = image.clone();
    let lines = report.to_vec();
    let mut length = image.len();
    if let Some(less) = image.len().checked_sub(1) {
        assert_eq!(rights::answer_one(&mut image[..less], &mut length, event, report), Err(Refused::Image(20)));
        assert!(*image == before && *report == lines && length == before.len());
    }
    let answer = rights::answer_event(image, event, report);
    assert!(answer.is_ok() || *image == before && *report == lines);
    answer.map(|a| format!("{} {} {}\n", a.code, a.entry, a.until))
}

fn ones(file: &[u8], print: &mut impl Write) {
    let mut rest = file;
    let mut day = 1;
    while let Some(image) = part(&mut rest, 4) {
        let records = part(&mut rest, 4).expect("a day has events");
        let mut image = image.to_vec();
        writeln!(print, "day {day}").unwrap();
        let zeros = start_list(&image);
        let mut report = zeros.clone();
        let each: Vec<&[u8]> = if records.is_empty() { vec![records] } else { records.chunks(rights::RECORD).collect() };
        for record in each {
            match one(&mut image, record, &mut report) {
                Ok(line) => print.write_all(line.as_bytes()).unwrap(),
                Err(Refused::Image(code)) => {
                    writeln!(print, "{code}").unwrap();
                    break;
                }
                Err(refused) => panic!("{refused:?}"),
            }
        }
        print_changes(&zeros, &report, print);
        day += 1;
    }
}

/// The next number of the file, in `width` bytes.
fn number(file: &mut &[u8], width: usize) -> u64 {
    let (head, rest) = file.split_at(width);
    *file = rest;
    head.iter().fold(0, |n, &b| n << 8 | b as u64)
}

/// A list of that many lines, of which the first 64 are stored; the others are blank.
fn stored_lines(file: &mut &[u8], count: usize) -> Vec<Line> {
    let mut lines = vec![Line { content: 0, times: 0, seconds: 0 }; count];
    for line in lines.iter_mut().take(rights::LINES) {
        *line = Line { content: number(file, 8), times: number(file, 8), seconds: number(file, 8) };
    }
    lines
}

/// The stored lists, as calls.c reads them.
fn lists(file: &[u8], print: &mut impl Write) {
    let mut rest = file;
    let (mut book, mut list): (&[u8], Vec<Line>) = (&[], Vec::new());
    while let Some(image) = part(&mut rest, 4) {
        book = if image.is_empty() { book } else { image };
        let record = part(&mut rest, 4).expect("a case has a record");
        if number(&mut rest, 4) != 0 {
            let count = number(&mut rest, 4) as usize;
            list = stored_lines(&mut rest, count);
        }
        let after = if number(&mut rest, 4) != 0 { stored_lines(&mut rest, list.len()) } else { list.clone() };
        if record.is_empty() || record.len() > rights::RECORD {
            continue;
        }
        let mut report = list.clone();
        let line = one(&mut book.to_vec(), record, &mut report).expect("a stored book is accepted");
        print.write_all(line.as_bytes()).unwrap();
        assert_eq!(report, after);
        print_changes(&list, &report, print);
    }
}

/// A line of numbers, or with the code of the refusal.
fn seen_line(print: &mut impl Write, name: &str, at: u32, time: Option<u32>, numbers: Result<Vec<u32>, Refused>) {
    write!(print, "{name} {at}").unwrap();
    if let Some(time) = time {
        write!(print, " {time}").unwrap();
    }
    match numbers {
        Ok(numbers) => numbers.iter().for_each(|n| write!(print, " {n}").unwrap()),
        Err(Refused::Image(code)) => write!(print, " refused {code}").unwrap(),
        Err(Refused::NotThere) => write!(print, " refused 31").unwrap(),
        Err(refused) => panic!("{refused:?}"),
    }
    writeln!(print).unwrap();
}

fn entry_numbers(image: &[u8], position: u32) -> Result<Vec<u32>, Refused> {
    rights::entry(image, position).map(|e| {
        vec![
            e.object,
            e.asset,
            e.kind,
            e.flags,
            e.count,
            e.timed,
            e.timer,
            e.start,
            e.end,
            e.interval,
            e.accumulated,
            e.used_count,
            e.used_timed,
            e.first,
            e.used_seconds,
            e.started,
            e.tracked,
            e.timed_value,
            e.mark,
            e.threshold,
            e.marks,
        ]
    })
}

fn ground_numbers(image: &[u8], position: u32, time: u32) -> Result<Vec<u32>, Refused> {
    let grounds = rights::grounds(image, position, (position % 16) as u8, time);
    assert!([0, 15, 16, 255].iter().all(|&player| rights::grounds(image, position, player, time) == grounds));
    grounds.map(|g| {
        vec![
            g.count_spent,
            g.timed_spent,
            g.before_start,
            g.after_end,
            g.interval_over,
            g.seconds_spent,
            g.interval_zero,
            g.switch_off,
            g.threshold_full,
        ]
    })
}

fn player_numbers(image: &[u8], player: u32) -> Result<Vec<u32>, Refused> {
    rights::player(image, player).map(|p| {
        vec![
            p.number as u32,
            p.operation,
            p.asset,
            p.kind,
            p.code,
            p.entry,
            p.until,
            p.open,
            p.open_entry,
            p.open_begin,
            p.open_until,
            p.content,
            (p.number >> 32) as u32,
        ]
    })
}

fn see(image: &[u8], print: &mut impl Write) {
    let book = rights::book(image);
    let numbers = book.map(|b| vec![b.assets, b.entries, b.time, b.switch, b.latest_player, b.latest_started]);
    seen_line(print, "book", 0, None, numbers);
    let (assets, entries, now) = book.map_or((0, 0, 0), |b| (b.assets, b.entries, b.time));
    for i in 0..=assets {
        seen_line(print, "asset", i, None, rights::asset(image, i).map(|a| vec![a.number, a.inherit, a.key]));
    }
    let times = [0, now, now + 1, now + 30, now + 59, now + 60, now + 86400, 4_000_000_000, 4_000_000_001, u32::MAX];
    for i in 0..=entries {
        seen_line(print, "entry", i, None, entry_numbers(image, i));
        for time in times {
            let left = rights::left(image, i, time).map(|l| vec![l.grantable, l.count, l.timed, l.seconds]);
            seen_line(print, "left", i, Some(time), left);
        }
        for time in times {
            seen_line(print, "grounds", i, Some(time), ground_numbers(image, i, time));
        }
    }
    for i in 0..=16 {
        seen_line(print, "player", i, None, player_numbers(image, i));
    }
    seen_line(print, "entry", 256, None, entry_numbers(image, 256));
    seen_line(print, "player", u32::MAX, None, player_numbers(image, u32::MAX));
}

fn seen(file: &[u8], print: &mut impl Write) {
    let mut rest = file;
    let mut day = 1;
    while let Some(image) = part(&mut rest, 4) {
        let records = part(&mut rest, 4).expect("a day has events");
        let mut image = image.to_vec();
        writeln!(print, "day {day}").unwrap();
        see(&image, print);
        let mut report = start_list(&image);
        for block in records.chunks(97 * rights::RECORD) {
            if rights::answers(&mut image, block, &mut report).is_err() {
                break;
            }
            see(&image, print);
        }
        day += 1;
    }
}

/// Answers the events from a saved file, or from a book with lines of zeros, and saves before it prints.
fn after(book: &str, events: &str, saved: &str, print: &mut impl Write) -> Result<(), Error> {
    let bytes = fs::read(book)?;
    let (mut image, mut lines) = match rights::restored(&bytes) {
        Err(Damaged::Mark) => (bytes.clone(), rights::zeros(&bytes).expect("a legal book")),
        _ => rights::load(book)?,
    };
    let text = rights::answers(&mut image, &fs::read(events)?, &mut lines).expect("a legal book");
    rights::save(saved, &image, &lines)?;
    print.write_all(&text)
}

/// What `load` says of a file: what `restored` found, or the library.
fn said_of(loaded: Result<(Vec<u8>, Vec<Line>), Error>) -> String {
    match loaded {
        Ok(_) => "whole".into(),
        Err(why) => {
            assert_eq!(why.kind(), ErrorKind::InvalidData);
            match why.get_ref().and_then(|inner| inner.downcast_ref::<Damaged>()) {
                Some(damaged) => format!("{damaged:?}").to_lowercase(),
                None => why.to_string(),
            }
        }
    }
}

fn restored(cases: &[u8], name: &str, print: &mut impl Write) {
    let mut rest = cases;
    while let Some(case) = part(&mut rest, 4) {
        fs::write(name, case).unwrap();
        writeln!(print, "{}", said_of(rights::load(name))).unwrap();
        match rights::restored(case) {
            Ok((image, lines)) => assert_eq!(rights::saved(&image, &lines), case),
            Err(_) if case.is_empty() => (),
            Err(_) => assert_eq!(rights::save(name, b"", &[]).unwrap_err().kind(), ErrorKind::AlreadyExists),
        }
        assert_eq!(fs::read(name).unwrap(), case);
    }
    fs::remove_file(name).unwrap();
}

fn main() {
    let words: Vec<String> = std::env::args().collect();
    let mut print = std::io::BufWriter::new(std::io::stdout().lock());
    let file = |at: usize| fs::read(&words[at]).expect("a stored file");
    match words[1].as_str() {
        "days" => days(&file(3), words[2].parse().unwrap(), &mut print),
        "ones" => ones(&file(2), &mut print),
        "lists" => lists(&file(2), &mut print),
        "images" => images(&file(2), &mut print),
        "texts" => texts(&file(2), &mut print),
        "seen" => seen(&file(2), &mut print),
        "restored" => restored(&file(2), &words[3], &mut print),
        "after" => {
            if let Err(why) = after(&words[2], &words[3], &words[4], &mut print) {
                eprintln!("calls: {}: {why}", words[4]);
                std::process::exit(1);
            }
        }
        _ => panic!("usage: calls days N FILE, ones|lists|images|texts|seen FILE, restored CASES FILE, after BOOK EVENTS SAVED"),
    }
    print.flush().unwrap();
}
