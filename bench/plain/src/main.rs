//! The works of `pps_bench`, written by hand in plain Rust. The first word names the work, the second how often. The work
//! `image` takes two files in its place: it loads the image in the first, and saves it to the second. The work `service` runs a script.
mod images;
mod objects;
mod service;
mod trees;

use std::env::args;

#[derive(Clone, Copy)]
pub enum Mark {
    Keep,
    On,
    Off,
}

pub enum WriteLine {
    Set {
        name: Vec<u8>,
        enc: Vec<u8>,
        value: Vec<u8>,
        mark: Mark,
    },
    Del {
        name: Vec<u8>,
    },
}

pub struct WriteText {
    pub header: Option<Vec<u8>>,
    pub lines: Vec<WriteLine>,
}

pub struct Line {
    name: Vec<u8>,
    enc: Vec<u8>,
    value: Vec<u8>,
    n: bool,
}

fn split(byte: u8, bytes: &[u8]) -> Option<(&[u8], &[u8])> {
    let at = bytes.iter().position(|b| *b == byte)?;
    Some((&bytes[..at], &bytes[at + 1..]))
}

fn is_name(bytes: &[u8]) -> bool {
    let starts = |b: u8| b.is_ascii_alphabetic() || b == b'_';
    match bytes {
        [] => false,
        [first, rest @ ..] => {
            starts(*first)
                && rest.len() <= 254
                && rest
                    .iter()
                    .all(|b| starts(*b) || b.is_ascii_digit() || *b == b'.' || *b == b'-')
        }
    }
}

fn is_encoding(bytes: &[u8]) -> bool {
    bytes.len() <= 32 && bytes.iter().all(|b| (33..=126).contains(b))
}

fn read_set(mark: Mark, line: &[u8]) -> Option<WriteLine> {
    let (name, rest) = split(b':', line)?;
    let (enc, value) = split(b':', rest)?;
    (is_name(name) && is_encoding(enc)).then(|| WriteLine::Set {
        name: name.to_vec(),
        enc: enc.to_vec(),
        value: value.to_vec(),
        mark,
    })
}

fn read_line(line: &[u8]) -> Option<WriteLine> {
    match line {
        [b'-', name @ ..] => is_name(name).then(|| WriteLine::Del { name: name.to_vec() }),
        [b'[', b'n', b']', rest @ ..] => read_set(Mark::On, rest),
        [b'[', b'-', b'n', b']', rest @ ..] => read_set(Mark::Off, rest),
        _ => read_set(Mark::Keep, line),
    }
}

pub fn read_write(bytes: &[u8]) -> Result<WriteText, u32> {
    if bytes.len() > 65_536 {
        return Err(0);
    }
    let mut header = None;
    let mut lines = Vec::new();
    let mut number = 1u32;
    let mut rest = bytes;
    while !rest.is_empty() {
        let (line, behind) = split(b'\n', rest).unwrap_or((rest, &rest[rest.len()..]));
        match line {
            [b'@', name @ ..] if number == 1 => header = Some(name.to_vec()),
            [] => {}
            _ => lines.push(read_line(line).ok_or(number)?),
        }
        number += 1;
        rest = behind;
    }
    Ok(WriteText { header, lines })
}

fn line_len(line: &Line) -> usize {
    let marks = if line.n { 6 } else { 3 };
    marks + line.name.len() + line.enc.len() + line.value.len()
}

fn push_line(out: &mut Vec<u8>, line: &Line) {
    if line.n {
        out.extend_from_slice(b"[n]");
    }
    out.extend_from_slice(&line.name);
    out.push(b':');
    out.extend_from_slice(&line.enc);
    out.push(b':');
    out.extend_from_slice(&line.value);
    out.push(b'\n');
}

fn print_line(line: &Line) -> Vec<u8> {
    let mut out = Vec::with_capacity(line_len(line));
    push_line(&mut out, line);
    out
}

fn read_often(line: &[u8], count: usize, rounds: u32) -> Option<u64> {
    let text = line.repeat(count);
    let mut done = 0;
    for _ in 0..rounds {
        let read = read_write(&text).ok()?;
        done += read.lines.len() as u64 + u64::from(read.header.is_some());
    }
    Some(done)
}

fn print_often(rounds: u32) -> Option<u64> {
    let line = Line {
        name: b"temperature".to_vec(),
        enc: b"n".to_vec(),
        value: b"21.5 degrees".to_vec(),
        n: true,
    };
    let mut done = 0;
    for _ in 0..rounds {
        done += std::hint::black_box(print_line(&line)).len() as u64;
    }
    Some(done)
}

pub enum Condition {
    Always,
    IsOtherValue(Vec<u8>),
    IsAbove(i64),
}

pub struct Part {
    name: Vec<u8>,
    condition: Condition,
}

fn whole_number(bytes: &[u8]) -> Option<i64> {
    let (negative, digits) = match bytes {
        [b'-', digits @ ..] => (true, digits),
        _ => (false, bytes),
    };
    if digits.is_empty() {
        return None;
    }
    let mut number = 0i64;
    for digit in digits {
        if !digit.is_ascii_digit() {
            return None;
        }
        let value = i64::from(digit - b'0');
        number = number.checked_mul(10)?;
        number = if negative { number.checked_sub(value)? } else { number.checked_add(value)? };
    }
    Some(number)
}

fn matches(filter: &[Part], line: &Line) -> bool {
    filter.iter().any(|part| {
        part.name == line.name
            && match &part.condition {
                Condition::Always => true,
                Condition::IsOtherValue(value) => *value != line.value,
                Condition::IsAbove(bound) => whole_number(&line.value).is_some_and(|n| n > *bound),
            }
    })
}

fn match_often(rounds: u32) -> Option<u64> {
    let part = |name: &[u8], condition| Part { name: name.to_vec(), condition };
    let filter = std::hint::black_box(vec![
        part(b"altitude", Condition::Always),
        part(b"speed", Condition::IsAbove(60)),
        part(b"city", Condition::IsOtherValue(b"Rome".to_vec())),
    ]);
    let line = |name: &[u8], value: &[u8]| Line { name: name.to_vec(), enc: b"n".to_vec(), value: value.to_vec(), n: false };
    let lines = std::hint::black_box(vec![line(b"speed", b"61"), line(b"city", b"Rome"), line(b"altitude", b"12"), line(b"heading", b"270")]);
    let mut done = 0;
    for _ in 0..rounds {
        for line in &lines {
            done += u64::from(matches(std::hint::black_box(&filter), line));
        }
    }
    Some(done)
}

fn main() {
    let words: Vec<String> = args().collect();
    if words[1..] == ["service"] {
        service::run().expect("a script, and an output that takes the answers");
        return;
    }
    if let [_, work, from, to] = words.as_slice() {
        assert_eq!(work, "image");
        images::load_and_save(from, to).expect("an image, and a place for another");
        return;
    }
    let [_, work, rounds] = words.as_slice() else {
        return;
    };
    let Ok(rounds) = rounds.parse::<u32>() else {
        return;
    };
    let done = match work.as_str() {
        "read_short" => read_often(b"a::\n", 16_384, rounds),
        "read_usual" => read_often(b"[n]speed:n:123\nstate::on the road\n-gone\n", 1, rounds),
        "read_long" => read_often(
            b"name:enc:a value of some length, as a text of several words has it, and then some more of it, until it is long\n",
            500,
            rounds,
        ),
        "print" => print_often(rounds),
        "match" => match_often(rounds),
        "find" => trees::find_often(rounds),
        "write_1_of_10" => objects::write_often(10, 1, rounds),
        "write_8_of_10" => objects::write_often(10, 8, rounds),
        "write_64_of_10" => objects::write_often(10, 64, rounds),
        "write_1_of_1000" => objects::write_often(1_000, 1, rounds),
        "write_8_of_1000" => objects::write_often(1_000, 8, rounds),
        "write_64_of_1000" => objects::write_often(1_000, 64, rounds),
        "print_10" => objects::print_object_often(10, rounds),
        "print_1000" => objects::print_object_often(1_000, rounds),
        "print_3_of_1000" => objects::print_some_often(1_000, rounds),
        "change_few" => trees::change_often(16, rounds),
        "change_many" => trees::change_often(256, rounds),
        _ => Some(0),
    };
    if let Some(done) = done {
        println!("{done}");
    }
}
