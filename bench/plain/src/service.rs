//! A service of objects with full and delta subscribers, written by hand: what the works of `bench/growth` need, and
//! no more. It reads a script and prints the answers, as `pps run` does, without filters, directories' handles,
//! servers, pulses, parked reads, deletions, and without refusals but for an object that is absent.
use crate::{Line, Mark, WriteLine, print_line, read_write, split};
use std::collections::{HashMap, HashSet, VecDeque};
use std::io::{self, BufRead, BufWriter, Write};
use std::rc::Rc;

/// A change, printed, and how many handles have still to read it.
struct Record {
    block: Rc<[u8]>,
    owed_by: u32,
}

struct Object {
    name: Vec<u8>,
    lines: Vec<Line>,
    places: HashMap<Vec<u8>, usize>,
    records: VecDeque<Record>,
    /// The number of the first record.
    first: u64,
    readers: Vec<u32>,
}

enum Seen {
    /// It reads everything next, marked if it was past its limit.
    Nothing { marked: bool },
    /// It has all before this record.
    Until(u64),
}

struct Handle {
    object: usize,
    is_delta: bool,
    limit: u64,
    seen: Seen,
}

#[derive(Default)]
struct Service {
    paths: HashMap<Vec<u8>, usize>,
    directories: HashSet<Vec<u8>>,
    objects: Vec<Object>,
    /// Handle 1 and those after it: none is closed.
    handles: Vec<Handle>,
}

impl Object {
    fn set(&mut self, line: Line) {
        match self.places.get(&line.name) {
            Some(place) => self.lines[*place] = line,
            None => {
                self.places.insert(line.name.clone(), self.lines.len());
                self.lines.push(line);
            }
        }
    }

    fn remove(&mut self, name: &[u8]) {
        if let Some(place) = self.places.remove(name) {
            self.lines.remove(place);
            for at in self.places.values_mut().filter(|at| **at > place) {
                *at -= 1;
            }
        }
    }

    fn end(&self) -> u64 {
        self.first + self.records.len() as u64
    }

    /// A handle is owed no more what lies between.
    fn give_up(&mut self, from: u64, to: u64) {
        for number in from..to {
            self.records[(number - self.first) as usize].owed_by -= 1;
        }
        while self.records.front().is_some_and(|record| record.owed_by == 0) {
            self.records.pop_front();
            self.first += 1;
        }
    }
}

fn place_of(handle: u32) -> usize {
    (handle as usize).wrapping_sub(1)
}

fn is_word(options: &[u8], word: &[u8]) -> bool {
    options.split(|b| *b == b',').any(|option| option == word)
}

fn limit_of(options: &[u8]) -> u64 {
    let named = options.split(|b| *b == b',').find_map(|option| option.strip_prefix(b"limit="));
    named.and_then(|digits| std::str::from_utf8(digits).ok()?.parse().ok()).unwrap_or(256)
}

impl Service {
    fn open(&mut self, mode: &[u8], text: &[u8]) -> Option<u32> {
        let (path, options) = split(b'?', text).unwrap_or((text, b""));
        let at = path.iter().rposition(|b| *b == b'/')?;
        let (directory, name) = (&path[..at], &path[at + 1..]);
        if !directory.is_empty() && !self.directories.contains(directory) {
            return None;
        }
        let object = match self.paths.get(path) {
            Some(object) => *object,
            None if mode.contains(&b'c') => {
                let object = Object {
                    name: name.to_vec(),
                    lines: Vec::new(),
                    places: HashMap::new(),
                    records: VecDeque::new(),
                    first: 0,
                    readers: Vec::new(),
                };
                self.objects.push(object);
                self.paths.insert(path.to_vec(), self.objects.len() - 1);
                self.objects.len() - 1
            }
            None => return None,
        };
        let number = self.handles.len() as u32 + 1;
        let handle = Handle {
            object,
            is_delta: is_word(options, b"delta"),
            limit: limit_of(options),
            seen: Seen::Nothing { marked: false },
        };
        if mode.contains(&b'r') {
            self.objects[object].readers.push(number);
        }
        self.handles.push(handle);
        Some(number)
    }

    fn write(&mut self, number: u32, bytes: &[u8]) -> Option<()> {
        let text = read_write(bytes).ok()?;
        let object = &mut self.objects[self.handles.get(place_of(number))?.object];
        let mut block = Vec::with_capacity(bytes.len() + object.name.len() + 2);
        block.push(b'@');
        block.extend_from_slice(&object.name);
        block.push(b'\n');
        let is_change = !text.lines.is_empty();
        for line in text.lines {
            match line {
                WriteLine::Set { name, enc, value, mark } => {
                    let n = match mark {
                        Mark::On => true,
                        Mark::Off => false,
                        Mark::Keep => object.places.get(&name).is_some_and(|place| object.lines[*place].n),
                    };
                    let line = Line { name, enc, value, n };
                    block.extend_from_slice(&print_line(&line));
                    object.set(line);
                }
                WriteLine::Del { name } => {
                    block.push(b'-');
                    block.extend_from_slice(&name);
                    block.push(b'\n');
                    object.remove(&name);
                }
            }
        }
        if !is_change {
            return Some(());
        }
        let end = object.end();
        let mut owed_by = 0;
        let mut past = Vec::new();
        for reader in &object.readers {
            if *reader == number {
                continue;
            }
            let handle = self.handles.get_mut(place_of(*reader))?;
            match handle.seen {
                Seen::Until(from) if handle.is_delta && end + 1 - from > handle.limit => {
                    past.push(from);
                    handle.seen = Seen::Nothing { marked: true };
                }
                Seen::Until(_) if handle.is_delta => owed_by += 1,
                Seen::Until(_) => handle.seen = Seen::Nothing { marked: false },
                Seen::Nothing { .. } => {}
            }
        }
        if owed_by > 0 || !object.records.is_empty() {
            object.records.push_back(Record { block: block.into(), owed_by });
        }
        for from in past {
            object.give_up(from, end);
        }
        Some(())
    }

    fn read(&mut self, number: u32, size: usize) -> Option<Vec<u8>> {
        let handle = self.handles.get_mut(place_of(number))?;
        let object = &mut self.objects[handle.object];
        let end = object.end();
        let mut given = Vec::new();
        match handle.seen {
            Seen::Nothing { marked } => {
                given.extend_from_slice(if marked { b"!@" } else { b"@" });
                given.extend_from_slice(&object.name);
                given.push(b'\n');
                for line in &object.lines {
                    given.extend_from_slice(&print_line(line));
                }
                handle.seen = Seen::Until(end);
            }
            Seen::Until(from) if handle.is_delta => {
                let mut to = from;
                while to < end {
                    let block = &object.records[(to - object.first) as usize].block;
                    if given.len() + block.len() > size {
                        break;
                    }
                    given.extend_from_slice(block);
                    to += 1;
                }
                handle.seen = Seen::Until(to);
                object.give_up(from, to);
            }
            Seen::Until(_) => {}
        }
        Some(given)
    }
}

fn unescaped(text: &[u8]) -> Option<Vec<u8>> {
    let mut bytes = Vec::with_capacity(text.len());
    let mut rest = text;
    while let [byte, behind @ ..] = rest {
        rest = behind;
        if *byte != b'\\' {
            bytes.push(*byte);
            continue;
        }
        match rest {
            [b'n', behind @ ..] => (bytes.push(b'\n'), rest = behind).1,
            [b'\\', behind @ ..] => (bytes.push(b'\\'), rest = behind).1,
            [b'x', high, low, behind @ ..] => {
                let digits = [*high, *low];
                bytes.push(u8::from_str_radix(std::str::from_utf8(&digits).ok()?, 16).ok()?);
                rest = behind;
            }
            _ => return None,
        }
    }
    Some(bytes)
}

fn push_escaped(out: &mut Vec<u8>, bytes: &[u8]) {
    for byte in bytes {
        match byte {
            b'\n' => out.extend_from_slice(b"\\n"),
            b'\\' => out.extend_from_slice(b"\\\\"),
            32..=126 => out.push(*byte),
            _ => out.extend_from_slice(format!("\\x{byte:02x}").as_bytes()),
        }
    }
}

fn number(word: &[u8]) -> Option<u32> {
    std::str::from_utf8(word).ok()?.parse().ok()
}

/// The answer to a command, without its connection.
fn answer(service: &mut Service, command: &[u8], rest: &[u8], out: &mut Vec<u8>) -> Option<()> {
    match command {
        b"attach" => out.extend_from_slice(b"ok"),
        b"mkdir" => {
            service.directories.insert(rest.to_vec());
            out.extend_from_slice(b"ok");
        }
        b"open" => {
            let (mode, text) = split(b' ', rest)?;
            match service.open(mode, text) {
                Some(handle) => out.extend_from_slice(format!("handle {handle}").as_bytes()),
                None => out.extend_from_slice(b"refused 7 NotFound"),
            }
        }
        b"write" => {
            let (handle, text) = split(b' ', rest)?;
            let bytes = unescaped(text)?;
            service.write(number(handle)?, &bytes)?;
            out.extend_from_slice(format!("wrote {}", bytes.len()).as_bytes());
        }
        b"read" => {
            let (handle, size) = split(b' ', rest)?;
            let bytes = service.read(number(handle)?, number(size)? as usize)?;
            out.extend_from_slice(format!("data {}", bytes.len()).as_bytes());
            if !bytes.is_empty() {
                out.push(b' ');
                push_escaped(out, &bytes);
            }
        }
        _ => return None,
    }
    Some(())
}

/// Runs the script on standard input.
pub fn run() -> io::Result<()> {
    let mut service = Service::default();
    let mut input = io::stdin().lock();
    let mut output = BufWriter::with_capacity(65_536, io::stdout().lock());
    let (mut line, mut out) = (Vec::new(), Vec::new());
    while input.read_until(b'\n', &mut line)? > 0 {
        let text = line.strip_suffix(b"\n").unwrap_or(&line);
        if !text.is_empty() && text[0] != b'#' {
            let (conn, words) = split(b' ', text).unwrap_or((text, b""));
            let (command, rest) = split(b' ', words).unwrap_or((words, b""));
            out.extend_from_slice(conn);
            out.push(b' ');
            answer(&mut service, command, rest, &mut out).expect("a command");
            out.push(b'\n');
            output.write_all(&out)?;
            out.clear();
        }
        line.clear();
    }
    output.flush()
}
