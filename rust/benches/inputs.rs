//! The inputs: lists from a generator with a fixed seed, and the expressions over them.

use std::collections::BTreeSet;

pub const SEED: u64 = 0x5eed_0001;

/// SplitMix64: small, and the same on every machine.
pub struct Dice(u64);

impl Dice {
    pub fn new(seed: u64) -> Self {
        Dice(seed)
    }

    pub fn next(&mut self) -> u64 {
        self.0 = self.0.wrapping_add(0x9e37_79b9_7f4a_7c15);
        let mut z = self.0;
        z = (z ^ (z >> 30)).wrapping_mul(0xbf58_476d_1ce4_e5b9);
        z = (z ^ (z >> 27)).wrapping_mul(0x94d0_49bb_1331_11eb);
        z ^ (z >> 31)
    }

    pub fn below(&mut self, bound: u64) -> u64 {
        ((u128::from(self.next()) * u128::from(bound)) >> 64) as u64
    }

    /// A random subset of 0..universe with `size` members, ascending.
    pub fn subset(&mut self, size: usize, universe: usize) -> Vec<u32> {
        let mut list = Vec::with_capacity(size);
        for x in 0..universe {
            let wanted = size - list.len();
            if self.below((universe - x) as u64) < wanted as u64 {
                list.push(x as u32);
            }
        }
        list
    }

    /// `size` different random 32-bit numbers, ascending.
    pub fn wide(&mut self, size: usize) -> Vec<u32> {
        let mut set = BTreeSet::new();
        while set.len() < size {
            set.insert(self.next() as u32);
        }
        set.into_iter().collect()
    }
}

/// An expression over the lists of a case.
#[derive(Clone)]
pub enum Tree {
    List(u8),
    Difference(Box<[Tree; 2]>),
    Union(Vec<Tree>),
    Intersection(Vec<Tree>),
}

impl Tree {
    pub fn union_of(lists: u8) -> Tree {
        Tree::Union((0..lists).map(Tree::List).collect())
    }

    pub fn intersection_of(lists: u8) -> Tree {
        Tree::Intersection((0..lists).map(Tree::List).collect())
    }

    pub fn difference(first: Tree, second: Tree) -> Tree {
        Tree::Difference(Box::new([first, second]))
    }

    /// ((team ∪ partners) ∩ held) − withdrawn, lists 0 to 3.
    pub fn console() -> Tree {
        let held = Tree::Intersection(vec![Tree::union_of(2), Tree::List(2)]);
        Tree::difference(held, Tree::List(3))
    }

    /// The packed form.
    pub fn packed(&self) -> Vec<u8> {
        let mut bits = Vec::new();
        self.push_bits(&mut bits);
        bits.chunks(8)
            .map(|c| (0..8).fold(0, |byte, i| byte << 1 | u8::from(c.get(i) == Some(&true))))
            .collect()
    }

    fn push_bits(&self, bits: &mut Vec<bool>) {
        let mut field = |value: usize, width: usize| {
            bits.extend((0..width).rev().map(|i| value >> i & 1 == 1));
        };
        let members: &[Tree] = match self {
            Tree::List(number) => {
                field(0, 2);
                field(usize::from(*number), 5);
                &[]
            }
            Tree::Difference(pair) => {
                field(1, 2);
                &pair[..]
            }
            Tree::Union(members) => {
                field(2, 2);
                field(members.len() - 1, 3);
                members
            }
            Tree::Intersection(members) => {
                field(3, 2);
                field(members.len() - 1, 3);
                members
            }
        };
        for member in members {
            member.push_bits(bits);
        }
    }
}

/// Lists and an expression over them.
pub struct Case {
    pub name: String,
    pub lists: Vec<Vec<u32>>,
    pub tree: Tree,
}

impl Case {
    fn new(name: &str, lists: Vec<Vec<u32>>, tree: Tree) -> Case {
        Case {
            name: name.to_string(),
            lists,
            tree,
        }
    }
}

/// Lists as one lent row of numbers and one of ends.
pub fn rows(lists: &[Vec<u32>]) -> (Vec<u32>, Vec<u32>) {
    let numbers = lists.concat();
    let ends = lists.iter().scan(0, |end, list| {
        *end += list.len() as u32;
        Some(*end)
    });
    (numbers, ends.collect())
}

const SIZE: usize = 60_000;
const UNIVERSE: usize = 200_000;

fn subsets(dice: &mut Dice, lists: usize, universe: usize) -> Vec<Vec<u32>> {
    (0..lists).map(|_| dice.subset(SIZE, universe)).collect()
}

/// The drawing cases.
pub fn drawing_cases() -> Vec<Case> {
    let mut dice = Dice::new(SEED);
    let d = &mut dice;
    let small = d.subset(100, UNIVERSE);
    let large = d.subset(SIZE, UNIVERSE);
    let pair = Tree::intersection_of(2);
    vec![
        Case::new("union of 8", subsets(d, 8, UNIVERSE), Tree::union_of(8)),
        Case::new(
            "union of 8, wide gaps",
            (0..8).map(|_| d.wide(SIZE)).collect(),
            Tree::union_of(8),
        ),
        Case::new("intersection of 4", subsets(d, 4, 80_000), Tree::intersection_of(4)),
        Case::new(
            "difference",
            subsets(d, 2, UNIVERSE),
            Tree::difference(Tree::List(0), Tree::List(1)),
        ),
        Case::new("console", subsets(d, 4, UNIVERSE), Tree::console()),
        Case::new("100 ∩ 60,000", vec![small.clone(), large.clone()], pair.clone()),
        Case::new("60,000 ∩ 100", vec![large, small], pair),
    ]
}

/// The console's case, and 100,000 ascending numbers to ask about.
pub fn checking_case() -> (Case, Vec<u32>) {
    let mut dice = Dice::new(SEED + 1);
    let lists = subsets(&mut dice, 4, UNIVERSE);
    let asked = dice.subset(100_000, UNIVERSE);
    (Case::new("console", lists, Tree::console()), asked)
}

/// The console's expression over lists half as long, as dense as the others: about 11,000 members to be shown page by page.
pub fn paging_case() -> Case {
    let mut dice = Dice::new(SEED + 5);
    let lists = (0..4).map(|_| dice.subset(SIZE / 2, UNIVERSE / 2)).collect();
    Case::new("console", lists, Tree::console())
}

/// 32 lists with narrow gaps, and 32 with wide ones.
pub fn delivery_lists() -> (Vec<Vec<u32>>, Vec<Vec<u32>>) {
    let mut dice = Dice::new(SEED + 2);
    let narrow = subsets(&mut dice, 32, UNIVERSE);
    (narrow, (0..32).map(|_| dice.wide(SIZE)).collect())
}

/// How many numbers of a daily list are not in the full one; as many of that one are not in it.
const ADDED: usize = 4_000;

/// Lists for a full delivery, and as many and as long ones for a daily one.
pub struct Pair {
    pub gaps: &'static str,
    pub full: Vec<Vec<u32>>,
    pub daily: Vec<Vec<u32>>,
}

/// 32 lists and 32 with narrow gaps, and as many with wide ones.
pub fn joined_lists() -> [Pair; 2] {
    let mut dice = Dice::new(SEED + 6);
    let (narrow, wide) = delivery_lists();
    [("narrow gaps", narrow, UNIVERSE as u64), ("wide gaps", wide, 1 << 32)].map(|(gaps, full, below)| {
        let daily = full.iter().map(|list| daily_list(&mut dice, list, below)).collect();
        Pair { gaps, full, daily }
    })
}

/// Most numbers of a full list, and others below a bound.
fn daily_list(dice: &mut Dice, full: &[u32], below: u64) -> Vec<u32> {
    let kept = dice.subset(full.len() - ADDED, full.len());
    let mut numbers: BTreeSet<u32> = kept.iter().map(|place| full[*place as usize]).collect();
    while numbers.len() < full.len() {
        let number = dice.below(below) as u32;
        if full.binary_search(&number).is_err() {
            numbers.insert(number);
        }
    }
    numbers.into_iter().collect()
}

/// Lists of `size` numbers, as dense as those of the other cases, for how drawing grows.
pub fn growth_case(lists: usize, size: usize, tree: &Tree) -> Case {
    let mut dice = Dice::new(SEED + size as u64);
    let universe = size * 10 / 3;
    let lists = (0..lists).map(|_| dice.subset(size, universe)).collect();
    Case::new("growth", lists, tree.clone())
}

/// A number that comes into a list or goes out of it.
#[derive(Clone, Copy)]
pub struct Change {
    pub list: usize,
    pub number: u32,
    pub adds: bool,
}

/// The console's case, and 256 changes of it: a random number of a random list, out where it is in and in where it is not.
pub fn changing_case() -> (Case, Vec<Change>) {
    let mut dice = Dice::new(SEED + 4);
    let lists = subsets(&mut dice, 4, UNIVERSE);
    let mut places = BTreeSet::new();
    let mut changes = Vec::new();
    while changes.len() < 256 {
        let (list, number) = (dice.below(4) as usize, dice.below(UNIVERSE as u64) as u32);
        if places.insert((list, number)) {
            let adds = lists[list].binary_search(&number).is_err();
            changes.push(Change { list, number, adds });
        }
    }
    (Case::new("console", lists, Tree::console()), changes)
}
