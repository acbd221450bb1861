//! Names in a tree: a `BTreeMap` for each directory.
use std::collections::BTreeMap;
use std::collections::btree_map::Entry;

const OBJECTS: u32 = 65_535;

enum Node {
    Object(u64),
    Directory(Directory),
}

#[derive(PartialEq, Eq)]
pub enum Found {
    Object(u64),
    Directory(u64),
}

#[derive(Default)]
pub struct Directory {
    id: u64,
    names: BTreeMap<Vec<u8>, Node>,
    objects: u32,
    directories: u32,
}

#[derive(PartialEq, Eq)]
pub enum Refusal {
    NotFound,
    NotDirectory,
    IsDirectory,
    Exists,
    TableFull,
}

impl Directory {
    fn inner(&self, path: &[Vec<u8>]) -> Result<&Directory, Refusal> {
        let mut directory = self;
        for name in path {
            match directory.names.get(name) {
                None => return Err(Refusal::NotFound),
                Some(Node::Object(_)) => return Err(Refusal::NotDirectory),
                Some(Node::Directory(inner)) => directory = inner,
            }
        }
        Ok(directory)
    }

    fn inner_mut(&mut self, path: &[Vec<u8>]) -> Result<&mut Directory, Refusal> {
        let mut directory = self;
        for name in path {
            match directory.names.get_mut(name) {
                None => return Err(Refusal::NotFound),
                Some(Node::Object(_)) => return Err(Refusal::NotDirectory),
                Some(Node::Directory(inner)) => directory = inner,
            }
        }
        Ok(directory)
    }

    pub fn find(&self, path: &[Vec<u8>]) -> Result<Found, Refusal> {
        let Some((last, parents)) = path.split_last() else {
            return Ok(Found::Directory(self.id));
        };
        match self.inner(parents)?.names.get(last) {
            None => Err(Refusal::NotFound),
            Some(Node::Object(id)) => Ok(Found::Object(*id)),
            Some(Node::Directory(inner)) => Ok(Found::Directory(inner.id)),
        }
    }

    fn new_name(&mut self, path: &[Vec<u8>], node: Node) -> Result<(), Refusal> {
        let Some((last, parents)) = path.split_last() else {
            return Err(Refusal::Exists);
        };
        let directory = self.inner_mut(parents)?;
        let count = match node {
            Node::Object(_) => &mut directory.objects,
            Node::Directory(_) => &mut directory.directories,
        };
        match directory.names.entry(last.clone()) {
            Entry::Occupied(_) => Err(Refusal::Exists),
            Entry::Vacant(_) if *count >= 256 => Err(Refusal::TableFull),
            Entry::Vacant(vacant) => {
                *count += 1;
                vacant.insert(node);
                Ok(())
            }
        }
    }

    pub fn add(&mut self, path: &[Vec<u8>], id: u64) -> Result<(), Refusal> {
        self.new_name(path, Node::Object(id))
    }

    pub fn mkdir(&mut self, path: &[Vec<u8>], id: u64) -> Result<(), Refusal> {
        self.new_name(path, Node::Directory(Directory { id, ..Directory::default() }))
    }

    pub fn remove(&mut self, path: &[Vec<u8>]) -> Result<(), Refusal> {
        let Some((last, parents)) = path.split_last() else {
            return Err(Refusal::IsDirectory);
        };
        let directory = self.inner_mut(parents)?;
        match directory.names.get(last) {
            None => Err(Refusal::NotFound),
            Some(Node::Directory(_)) => Err(Refusal::IsDirectory),
            Some(Node::Object(_)) => {
                directory.names.remove(last);
                directory.objects -= 1;
                Ok(())
            }
        }
    }
}

fn name(front: u8, number: u8) -> Vec<u8> {
    vec![front, b'a' + number / 16, b'a' + number % 16]
}

fn directory(number: u8) -> Vec<Vec<u8>> {
    let mut path = Vec::new();
    if number > 0 {
        path.push(name(b'd', number));
        path.extend((0..number % 7).map(|_| b"s".to_vec()));
    }
    path
}

fn object(number: u32) -> Vec<Vec<u8>> {
    let [.., high, low] = number.to_be_bytes();
    let mut path = directory(high);
    path.push(name(b'o', low));
    path
}

fn make_directory(tree: &mut Directory, path: &[Vec<u8>]) -> Option<()> {
    for depth in 1..=path.len() {
        tree.mkdir(&path[..depth], 1).ok()?;
    }
    Some(())
}

pub fn find_often(rounds: u32) -> Option<u64> {
    let mut tree = Directory::default();
    for number in 1..=255 {
        make_directory(&mut tree, &directory(number))?;
    }
    let paths: Vec<Vec<Vec<u8>>> = (0..OBJECTS).map(object).collect();
    for path in &paths {
        tree.add(path, 1).ok()?;
    }
    let mut done = 0;
    for round in 0..rounds {
        let at = u64::from(round) * 7_919 % u64::from(OBJECTS);
        if let Some(path) = paths.get(at as usize) {
            if tree.find(path) == Ok(Found::Object(1)) {
                done += 1;
            }
        }
    }
    Some(done)
}

pub fn change_often(objects: u32, rounds: u32) -> Option<u64> {
    let mut tree = Directory::default();
    make_directory(&mut tree, &directory(1))?;
    let paths: Vec<Vec<Vec<u8>>> = (256..256 + objects).map(object).collect();
    for path in &paths {
        tree.add(path, 1).ok()?;
    }
    let mut done = 0;
    for _ in 0..rounds {
        for path in &paths {
            tree.remove(path).ok()?;
            tree.add(path, 2).ok()?;
            done += 1;
        }
    }
    Some(done)
}
