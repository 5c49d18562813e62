//! Expressions: both stored forms, and the set denoted.

use std::collections::BTreeSet;

use super::bits::{Reader, Writer};
use super::lists::{delivered, Each};
use super::Refused;

#[derive(Debug, Clone, PartialEq, Eq)]
pub enum Tree {
    List(usize),
    Difference(Box<Tree>, Box<Tree>),
    Union(Vec<Tree>),
    Intersection(Vec<Tree>),
}

/// A node without its members.
#[derive(Clone, Copy)]
enum Kind {
    List(usize),
    Difference,
    Union(usize),
    Intersection(usize),
}

/// What nodes are taken from: packed bits, or the bytes of a row.
trait Nodes {
    fn take(&mut self) -> Result<Kind, Refused>;
}

impl Nodes for Reader {
    fn take(&mut self) -> Result<Kind, Refused> {
        Ok(match Reader::take(self, 2)? {
            0 => Kind::List(Reader::take(self, 5)? as usize),
            1 => Kind::Difference,
            2 => Kind::Union(Reader::take(self, 3)? as usize + 1),
            _ => Kind::Intersection(Reader::take(self, 3)? as usize + 1),
        })
    }
}

impl Nodes for std::slice::Iter<'_, u8> {
    fn take(&mut self) -> Result<Kind, Refused> {
        match usize::from(*self.next().ok_or(1u32)?) {
            list @ 0..=31 => Ok(Kind::List(list)),
            64 => Ok(Kind::Difference),
            byte @ 129..=136 => Ok(Kind::Union(byte - 128)),
            byte @ 193..=200 => Ok(Kind::Intersection(byte - 192)),
            _ => Err(14),
        }
    }
}

struct Reading<'a, N> {
    nodes: &'a mut N,
    lists: usize,
    word: u32,
    read: usize,
}

impl<N: Nodes> Reading<'_, N> {
    fn tree(&mut self, depth: usize) -> Result<Tree, Refused> {
        if self.read == 48 {
            return Err(2);
        }
        if depth == 13 {
            return Err(3);
        }
        self.read += 1;
        Ok(match self.nodes.take()? {
            Kind::List(list) if list >= self.lists => return Err(4),
            Kind::List(list) if !delivered(self.word, list) => return Err(18),
            Kind::List(list) => Tree::List(list),
            Kind::Difference => {
                let first = self.tree(depth + 1)?;
                Tree::Difference(Box::new(first), Box::new(self.tree(depth + 1)?))
            }
            Kind::Union(count) => Tree::Union(self.members(count, depth + 1)?),
            Kind::Intersection(count) => Tree::Intersection(self.members(count, depth + 1)?),
        })
    }

    fn members(&mut self, count: usize, depth: usize) -> Result<Vec<Tree>, Refused> {
        (0..count).map(|_| self.tree(depth)).collect()
    }
}

fn read<N: Nodes>(nodes: &mut N, lists: usize, word: u32) -> Result<Tree, Refused> {
    if lists == 0 || lists > 32 {
        return Err(7);
    }
    let mut reading = Reading {
        nodes,
        lists,
        word,
        read: 0,
    };
    reading.tree(1)
}

pub fn read_packed(packed: &[u8], lists: usize, word: u32) -> Result<Tree, Refused> {
    let mut bits = Reader::new(packed);
    let tree = read(&mut bits, lists, word)?;
    bits.end()?;
    Ok(tree)
}

pub fn read_row(row: &[u8], lists: usize, word: u32) -> Result<Tree, Refused> {
    let mut bytes = row.iter();
    let tree = read(&mut bytes, lists, word)?;
    if bytes.next().is_some() {
        return Err(5);
    }
    Ok(tree)
}

/// A packed expression to its row form, into a row of so many places.
pub fn unpack(packed: &[u8], lists: usize, word: u32, room: usize) -> Result<Vec<u8>, Refused> {
    let row = read_packed(packed, lists, word)?.row();
    if row.len() > room {
        return Err(6);
    }
    Ok(row)
}

/// A row form to the packed one, into so many bytes.
pub fn pack(row: &[u8], lists: usize, word: u32, room: usize) -> Result<Vec<u8>, Refused> {
    let packed = read_row(row, lists, word)?.packed();
    if packed.len() > room {
        return Err(6);
    }
    Ok(packed)
}

impl Tree {
    pub fn denoted(&self, lists: &Each) -> BTreeSet<u32> {
        match self {
            Tree::List(list) => lists[*list].iter().flatten().copied().collect(),
            Tree::Difference(first, second) => &first.denoted(lists) - &second.denoted(lists),
            Tree::Union(members) => members.iter().flat_map(|member| member.denoted(lists)).collect(),
            Tree::Intersection(members) => members
                .iter()
                .map(|member| member.denoted(lists))
                .reduce(|both, member| &both & &member)
                .expect("an operator has members"),
        }
    }

    pub fn depth(&self) -> usize {
        match self {
            Tree::List(_) => 1,
            Tree::Difference(first, second) => 1 + first.depth().max(second.depth()),
            Tree::Union(members) | Tree::Intersection(members) => {
                1 + members.iter().map(Tree::depth).max().expect("an operator has members")
            }
        }
    }

    /// The list of each leaf, in expression order.
    pub fn leaves(&self) -> Vec<usize> {
        let list = |kind| match kind {
            Kind::List(list) => Some(list),
            _ => None,
        };
        self.nodes().into_iter().filter_map(list).collect()
    }

    /// The node and all below it, each node before its members.
    fn nodes(&self) -> Vec<Kind> {
        let (kind, members): (Kind, Vec<&Tree>) = match self {
            Tree::List(list) => (Kind::List(*list), vec![]),
            Tree::Difference(first, second) => (Kind::Difference, vec![first, second]),
            Tree::Union(members) => (Kind::Union(members.len()), members.iter().collect()),
            Tree::Intersection(members) => (Kind::Intersection(members.len()), members.iter().collect()),
        };
        let below = members.into_iter().flat_map(Tree::nodes);
        std::iter::once(kind).chain(below).collect()
    }

    pub fn row(&self) -> Vec<u8> {
        let byte = |kind| match kind {
            Kind::List(list) => list,
            Kind::Difference => 64,
            Kind::Union(count) => 128 + count,
            Kind::Intersection(count) => 192 + count,
        };
        self.nodes().into_iter().map(|kind| byte(kind) as u8).collect()
    }

    pub fn packed(&self) -> Vec<u8> {
        let mut bits = Writer::default();
        for kind in self.nodes() {
            match kind {
                Kind::List(list) => bits.put(list as u64, 7),
                Kind::Difference => bits.put(1, 2),
                Kind::Union(count) => bits.put(2 << 3 | (count as u64 - 1), 5),
                Kind::Intersection(count) => bits.put(3 << 3 | (count as u64 - 1), 5),
            }
        }
        bits.bytes()
    }
}
