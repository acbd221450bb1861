//! Attributes of an object: a vector of attributes, and a map of their places.
use crate::{line_len, Line};
use std::collections::HashMap;

const WRITES: u32 = 16;
const ATTRIBUTES_MAX: usize = 1_024;
const TEXT_MAX: usize = 65_536;

struct Attribute {
    name: Vec<u8>,
    enc: Vec<u8>,
    value: Vec<u8>,
    n: bool,
}

impl Attribute {
    fn of(line: &Line) -> Attribute {
        Attribute {
            name: line.name.clone(),
            enc: line.enc.clone(),
            value: line.value.clone(),
            n: line.n,
        }
    }

    fn line_len(&self) -> usize {
        let bracket = if self.n { 3 } else { 0 };
        bracket + self.name.len() + self.enc.len() + self.value.len() + 3
    }

    fn print(&self, out: &mut Vec<u8>) {
        if self.n {
            out.extend_from_slice(b"[n]");
        }
        out.extend_from_slice(&self.name);
        out.push(b':');
        out.extend_from_slice(&self.enc);
        out.push(b':');
        out.extend_from_slice(&self.value);
        out.push(b'\n');
    }
}

#[derive(Default)]
struct Object {
    attributes: Vec<Attribute>,
    places: HashMap<Vec<u8>, usize>,
    text_len: usize,
}

impl Object {
    // Where lines and attributes are few and short, nothing is simulated.
    fn is_too_large(&self, lines: &[Line]) -> bool {
        let len: usize = lines.iter().map(line_len).sum();
        if self.attributes.len() + lines.len() <= ATTRIBUTES_MAX && self.text_len + len <= TEXT_MAX {
            return false;
        }
        let mut lengths: HashMap<&[u8], usize> = HashMap::new();
        let (mut count, mut text_len) = (self.attributes.len(), self.text_len);
        for line in lines {
            let before = match lengths.get(line.name.as_slice()) {
                Some(len) => Some(*len),
                None => self.places.get(&line.name).map(|at| self.attributes[*at].line_len()),
            };
            count += usize::from(before.is_none());
            text_len = text_len + line_len(line) - before.unwrap_or(0);
            lengths.insert(&line.name, line_len(line));
        }
        count > ATTRIBUTES_MAX || text_len > TEXT_MAX
    }

    fn set(&mut self, attribute: Attribute) {
        let len = attribute.line_len();
        match self.places.get(&attribute.name) {
            Some(at) => {
                self.text_len += len;
                self.text_len -= self.attributes[*at].line_len();
                self.attributes[*at] = attribute;
            }
            None => {
                self.text_len += len;
                self.places
                    .insert(attribute.name.clone(), self.attributes.len());
                self.attributes.push(attribute);
            }
        }
    }

    fn apply(&mut self, lines: &[Line]) -> Option<()> {
        if self.is_too_large(lines) {
            return None;
        }
        for line in lines {
            self.set(Attribute::of(line));
        }
        Some(())
    }

    fn print_those(&self, matches: impl Fn(&Attribute) -> bool) -> Vec<u8> {
        let len = self.attributes.iter().filter(|a| matches(a)).map(Attribute::line_len).sum();
        let mut out = Vec::with_capacity(len);
        for attribute in self.attributes.iter().filter(|a| matches(a)) {
            attribute.print(&mut out);
        }
        out
    }
}

fn name(number: u32) -> Vec<u8> {
    let [.., high, low] = number.to_be_bytes();
    vec![b'n', b'a' + high, b'a' + low / 16, b'a' + low % 16]
}

pub fn set_line(number: u32, time: u32) -> Line {
    Line {
        name: name(number),
        enc: b"n".to_vec(),
        value: vec![b'0' + (time % 10) as u8, b'1', b'.', b'5'],
        n: false,
    }
}

fn write_lines(attributes: u32, count: u32, time: u32) -> Vec<Line> {
    let number = |line: u32| time.wrapping_mul(7_919).wrapping_add(line.wrapping_mul(31)) % attributes;
    (0..count).map(|line| set_line(number(line), time)).collect()
}

fn object(attributes: u32) -> Option<Object> {
    let mut object = Object::default();
    for number in 0..attributes {
        object.apply(&[set_line(number, 0)])?;
    }
    Some(object)
}

pub fn write_often(attributes: u32, count: u32, rounds: u32) -> Option<u64> {
    let mut object = object(attributes)?;
    let writes: Vec<Vec<Line>> = (0..WRITES).map(|time| write_lines(attributes, count, time)).collect();
    let mut done = 0;
    for round in 0..rounds {
        object.apply(&writes[(round % WRITES) as usize])?;
        done += object.text_len as u64;
    }
    Some(done)
}

pub fn print_object_often(attributes: u32, rounds: u32) -> Option<u64> {
    let object = object(attributes)?;
    Some((0..rounds).map(|_| object.print_those(|_| true).len() as u64).sum())
}

pub fn print_some_often(attributes: u32, rounds: u32) -> Option<u64> {
    let object = object(attributes)?;
    let names: [&[u8]; 3] = [b"nbaa", b"nabc", b"naaa"];
    let matches = |a: &Attribute| names.iter().any(|name| *name == a.name.as_slice());
    Some((0..rounds).map(|_| object.print_those(matches).len() as u64).sum())
}
