//! Images: loaded and saved again, in pieces, as the service does it.
use std::collections::btree_map::Entry;
use std::collections::{BTreeMap, HashSet};
use std::fs::{rename, File};
use std::io::{BufRead, BufReader, BufWriter, Error, ErrorKind, Result, Write};

struct Attribute {
    name: Vec<u8>,
    enc: Vec<u8>,
    value: Vec<u8>,
}

enum Node {
    Object(Vec<Attribute>),
    Directory(Directory),
}

#[derive(Default)]
struct Directory {
    names: BTreeMap<Vec<u8>, Node>,
    objects: u32,
    directories: u32,
}

fn bad() -> Error {
    Error::from(ErrorKind::InvalidData)
}

fn is_name(bytes: &[u8]) -> bool {
    matches!(bytes.len(), 1..=255) && !bytes.contains(&b'/') && !bytes.contains(&b'?') && bytes[0] != b'.' && !bytes.contains(&b' ')
}

/// The names of a path, and no others where it is none.
fn names(path: &[u8]) -> Result<Vec<&[u8]>> {
    let rest = path.strip_prefix(b"/").ok_or_else(bad)?;
    let names: Vec<&[u8]> = rest.split(|byte| *byte == b'/').collect();
    let well = path.len() <= 1024 && names.len() <= 32 && names.iter().all(|name| is_name(name));
    well.then_some(names).ok_or_else(bad)
}

impl Directory {
    fn inner(&mut self, path: &[&[u8]]) -> Result<&mut Directory> {
        let mut directory = self;
        for name in path {
            match directory.names.get_mut(*name) {
                Some(Node::Directory(inner)) => directory = inner,
                _ => return Err(bad()),
            }
        }
        Ok(directory)
    }

    fn add(&mut self, path: &[&[u8]], node: Node) -> Result<()> {
        let (last, above) = path.split_last().ok_or_else(bad)?;
        let directory = self.inner(above)?;
        let count = match node {
            Node::Object(_) => &mut directory.objects,
            Node::Directory(_) => &mut directory.directories,
        };
        *count += 1;
        match directory.names.entry(last.to_vec()) {
            Entry::Vacant(place) if *count <= 256 => {
                place.insert(node);
                Ok(())
            }
            _ => Err(bad()),
        }
    }

    fn save(&self, out: &mut impl Write, path: &mut Vec<u8>, count: &mut u64) -> Result<()> {
        for (name, node) in &self.names {
            let len = path.len();
            path.push(b'/');
            path.extend_from_slice(name);
            *count += 1;
            match node {
                Node::Directory(inner) => {
                    out.write_all(b"D ")?;
                    out.write_all(path)?;
                    out.write_all(b"\n")?;
                    inner.save(out, path, count)?;
                }
                Node::Object(attributes) => save_object(out, path, attributes)?,
            }
            path.truncate(len);
        }
        Ok(())
    }
}

fn save_object(out: &mut impl Write, path: &[u8], attributes: &[Attribute]) -> Result<()> {
    out.write_all(b"O ")?;
    out.write_all(path)?;
    writeln!(out, " {}", attributes.len())?;
    for attribute in attributes {
        for (part, end) in [(&attribute.name, b":"), (&attribute.enc, b":"), (&attribute.value, b"\n")] {
            out.write_all(part)?;
            out.write_all(end)?;
        }
    }
    Ok(())
}

fn attribute(line: &[u8]) -> Result<Attribute> {
    let (name, rest) = crate::split(b':', line).ok_or_else(bad)?;
    let (enc, value) = crate::split(b':', rest).ok_or_else(bad)?;
    let well = crate::is_name(name) && crate::is_encoding(enc);
    well.then(|| Attribute { name: name.to_vec(), enc: enc.to_vec(), value: value.to_vec() }).ok_or_else(bad)
}

fn next_line(input: &mut impl BufRead, line: &mut Vec<u8>) -> Result<()> {
    line.clear();
    input.read_until(b'\n', line)?;
    line.pop().filter(|byte| *byte == b'\n').map(|_| ()).ok_or_else(bad)
}

fn attributes(input: &mut impl BufRead, line: &mut Vec<u8>, count: usize) -> Result<Vec<Attribute>> {
    let mut found = Vec::with_capacity(count.min(1024));
    let mut seen = HashSet::new();
    let mut text = 0;
    for _ in 0..count {
        next_line(input, line)?;
        let next = attribute(line)?;
        text += line.len() + 1;
        if text > 65_536 || (count <= 8 && found.iter().any(|it: &Attribute| it.name == next.name)) || (count > 8 && !seen.insert(next.name.clone())) {
            return Err(bad());
        }
        found.push(next);
    }
    Ok(found)
}

fn number(text: &[u8]) -> Result<usize> {
    std::str::from_utf8(text).ok().and_then(|text| text.parse().ok()).ok_or_else(bad)
}

/// The first line of an image, and the names that it holds.
fn load(input: &mut impl BufRead) -> Result<(Vec<u8>, Directory)> {
    let (mut first, mut line, mut last) = (Vec::new(), Vec::new(), Vec::new());
    next_line(input, &mut first)?;
    let mut root = Directory::default();
    let mut count = 0;
    loop {
        next_line(input, &mut line)?;
        let (path, attributes_to_come) = match line.as_slice() {
            [b'D', b' ', path @ ..] => (path.to_vec(), None),
            [b'O', b' ', text @ ..] => {
                let (path, count) = crate::split(b' ', text).ok_or_else(bad)?;
                (path.to_vec(), Some(number(count)?))
            }
            [b'E', b' ', text @ ..] if number(text)? == count => return Ok((first, root)),
            _ => return Err(bad()),
        };
        let names = names(&path)?;
        let node = match attributes_to_come {
            None => Node::Directory(Directory::default()),
            Some(count) => Node::Object(attributes(input, &mut line, count)?),
        };
        let order: Vec<Vec<u8>> = names.iter().map(|name| name.to_vec()).collect();
        if order <= last {
            return Err(bad());
        }
        root.add(&names, node)?;
        last = order;
        count += 1;
    }
}

/// Loads the image in a file, and saves it to another.
pub fn load_and_save(from: &str, to: &str) -> Result<()> {
    let (first, root) = load(&mut BufReader::with_capacity(65_536, File::open(from)?))?;
    let beside = format!("{to}.saving");
    let mut out = BufWriter::with_capacity(65_536, File::create(&beside)?);
    out.write_all(&first)?;
    out.write_all(b"\n")?;
    let mut count = 0;
    root.save(&mut out, &mut Vec::new(), &mut count)?;
    writeln!(out, "E {count}")?;
    out.into_inner()?.sync_all()?;
    rename(beside, to)
}
