//! The generator's steps: a tree of readers that hop and move singly. They give the places and the moves; replies are the machine's.

use super::expression::Tree;
use super::lists::Each;
use super::{Begin, TOP};

/// How many numbers a hop goes over.
pub const HOP: usize = 64;

/// A leaf's own reader, and what it was asked for so far.
struct Reader<'a> {
    list: &'a [u32],
    place: usize,
    seeks: Vec<Sought>,
}

/// One seek of one reader: from which place, to which E, and by how many hops and single moves.
#[derive(Debug, Clone, Copy, PartialEq, Eq)]
pub struct Sought {
    pub from: usize,
    pub e: u64,
    pub hops: u32,
    pub singles: u32,
}

impl Reader<'_> {
    fn seek(&mut self, e: u64) -> Option<u64> {
        let from = self.place;
        let [hops, singles] = [HOP, 1].map(|numbers| self.pass(numbers, e));
        self.seeks.push(Sought { from, e, hops, singles });
        self.list.get(self.place).map(|number| u64::from(*number))
    }

    /// Goes over so many numbers at once, while so many remain and the last of them is below E; how often it did.
    fn pass(&mut self, numbers: usize, e: u64) -> u32 {
        let mut times = 0;
        while self.list[self.place..]
            .get(numbers - 1)
            .is_some_and(|last| u64::from(*last) < e)
        {
            self.place += numbers;
            times += 1;
        }
        times
    }
}

enum Generator<'a> {
    Leaf(Reader<'a>),
    Difference(Box<Generator<'a>>, Box<Generator<'a>>),
    Union(Vec<Generator<'a>>),
    Intersection(Vec<Generator<'a>>),
}

impl<'a> Generator<'a> {
    fn new(tree: &Tree, lists: &'a Each) -> Self {
        let all = |members: &[Tree]| members.iter().map(|member| Self::new(member, lists)).collect();
        match tree {
            Tree::List(list) => Generator::Leaf(Reader {
                list: lists[*list].as_deref().expect("an accepted expression names delivered lists"),
                place: 0,
                seeks: vec![],
            }),
            Tree::Difference(first, second) => {
                Generator::Difference(Box::new(Self::new(first, lists)), Box::new(Self::new(second, lists)))
            }
            Tree::Union(members) => Generator::Union(all(members)),
            Tree::Intersection(members) => Generator::Intersection(all(members)),
        }
    }

    /// The answer of a seek to E; `None` is finished.
    fn seek(&mut self, e: u64) -> Option<u64> {
        match self {
            Generator::Leaf(reader) => reader.seek(e),
            Generator::Difference(first, second) => {
                let mut e = e;
                loop {
                    let answer = first.seek(e)?;
                    if second.seek(answer) != Some(answer) {
                        return Some(answer);
                    }
                    e = answer + 1;
                }
            }
            // Every member is sought, also behind one that has answered E.
            Generator::Union(members) => members.iter_mut().filter_map(|member| member.seek(e)).min(),
            Generator::Intersection(members) => seek_intersection(members, e),
        }
    }

    fn check(&mut self, d: u64) -> bool {
        match self {
            Generator::Leaf(reader) => reader.seek(d) == Some(d),
            Generator::Difference(first, second) => first.check(d) && !second.check(d),
            Generator::Union(members) => members.iter_mut().any(|member| member.check(d)),
            Generator::Intersection(members) => members.iter_mut().all(|member| member.check(d)),
        }
    }

    /// This node and all below it, in expression order: of a list its reader, of an operator none.
    fn readers(self, row: &mut Vec<Option<Reader<'a>>>) {
        match self {
            Generator::Leaf(reader) => row.push(Some(reader)),
            Generator::Difference(first, second) => {
                row.push(None);
                first.readers(row);
                second.readers(row);
            }
            Generator::Union(members) | Generator::Intersection(members) => {
                row.push(None);
                members.into_iter().for_each(|member| member.readers(row));
            }
        }
    }
}

fn seek_intersection(members: &mut [Generator], e: u64) -> Option<u64> {
    let mut candidate = e;
    let mut at = 0;
    while at < members.len() {
        let answer = members[at].seek(candidate)?;
        let begin_again = answer > candidate && at > 0;
        candidate = answer;
        at = if begin_again { 0 } else { at + 1 };
    }
    Some(candidate)
}

/// What the steps of a run come to: where its readers stand, the seeks of each in expression order, and where the calls leave the run.
pub struct Walk {
    pub places: [u16; 48],
    pub seeks: Vec<Vec<Sought>>,
    pub last: Begin,
}

impl Walk {
    /// Each hop is one move, and each single move is one.
    pub fn moves(&self) -> u32 {
        self.seeks.iter().flatten().map(|sought| sought.hops + sought.singles).sum()
    }
}

/// The steps of these calls.
pub fn walk(tree: &Tree, lists: &Each, begin: Begin, calls: &[(u8, u32)]) -> Walk {
    let mut generator = Generator::new(tree, lists);
    let mut at = begin;
    for (code, number) in calls {
        let d = u64::from(*number);
        match code {
            0..=2 => {
                let raised = [0, d, d + 1][usize::from(*code)].max(at.bookmark);
                at.bookmark = generator.seek(raised).map_or(TOP, |answer| answer + 1);
            }
            3 if d >= at.bookmark => {
                generator.check(d);
                at.bookmark = d;
            }
            _ => {}
        }
    }
    let mut row = Vec::new();
    generator.readers(&mut row);
    let mut places = [0; 48];
    for (place, reader) in places.iter_mut().zip(&row) {
        *place = reader.as_ref().map_or(0, |reader| reader.place as u16);
    }
    Walk {
        places,
        seeks: row.into_iter().flatten().map(|reader| reader.seeks).collect(),
        last: at,
    }
}
