//! The same generator steps in idiomatic Rust: an enum tree of mutable readers, with the tests and refusals of a run.

/// What a run hands back.
#[derive(Debug, Clone, Copy, PartialEq, Eq)]
pub struct RunResult {
    pub moves: u32,
    pub places: [u16; 48],
    pub bookmark: u64,
}

impl RunResult {
    /// The sum of the places: what the moves would be if all were single.
    pub fn passed(&self) -> u32 {
        self.places.iter().map(|&place| u32::from(place)).sum()
    }
}

const TOP: u64 = 1 << 32;
/// How many numbers a hop goes over.
const HOP: usize = 64;

/// One list, how far it has been read, and how many hops were made on the way.
pub struct Reader<'a> {
    list: &'a [u32],
    place: usize,
    hops: usize,
}

impl Reader<'_> {
    /// Where the number here is not below `to`, that is all that is looked at: the list ascends, so nothing is hopped over.
    fn seek(&mut self, to: u64) -> Option<u32> {
        let here = *self.list.get(self.place)?;
        if u64::from(here) >= to {
            return Some(here);
        }
        if self.may_hop(to) {
            self.hop(to);
        }
        while let Some(&x) = self.list.get(self.place) {
            if u64::from(x) >= to {
                return Some(x);
            }
            self.place += 1;
        }
        None
    }

    fn may_hop(&self, to: u64) -> bool {
        self.list.get(self.place + HOP - 1).is_some_and(|&x| u64::from(x) < to)
    }

    /// Apart from the single moves: where readers seldom hop, measured, up to a tenth of the time.
    #[inline(never)]
    fn hop(&mut self, to: u64) {
        while self.may_hop(to) {
            self.place += HOP;
            self.hops += 1;
        }
    }

    /// Every hop is one move, and so is every place that was not hopped over.
    fn moves(&self) -> usize {
        self.hops + (self.place - HOP * self.hops)
    }
}

pub enum Node<'a> {
    List(Reader<'a>),
    Difference(Box<[Node<'a>; 2]>),
    Union(Vec<Node<'a>>),
    Intersection(Vec<Node<'a>>),
}

impl Node<'_> {
    /// The least number not below `to` that the node answers, if it is not finished. Inlined into the operators' loops, and
    /// these are not, so that a list among their members costs no call: measured, a fifth to a third of the time.
    #[inline(always)]
    pub fn seek(&mut self, to: u64) -> Option<u32> {
        match self {
            Node::List(reader) => reader.seek(to),
            Node::Difference(pair) => seek_difference(pair, to),
            Node::Union(members) => seek_union(members, to),
            Node::Intersection(members) => seek_intersection(members, to),
        }
    }

    pub fn check(&mut self, d: u32) -> bool {
        match self {
            Node::List(reader) => reader.seek(d.into()) == Some(d),
            Node::Difference(pair) => pair[0].check(d) && !pair[1].check(d),
            Node::Union(members) => members.iter_mut().any(|m| m.check(d)),
            Node::Intersection(members) => members.iter_mut().all(|m| m.check(d)),
        }
    }

    /// The readers' places in expression order, 0 at operators, and their moves added up; answers the node behind this one.
    fn hand_back(&self, at: usize, places: &mut [u16; 48], moves: &mut u32) -> usize {
        let members: &[Node] = match self {
            Node::List(reader) => {
                places[at] = reader.place as u16;
                *moves += reader.moves() as u32;
                &[]
            }
            Node::Difference(pair) => &pair[..],
            Node::Union(members) | Node::Intersection(members) => members,
        };
        members.iter().fold(at + 1, |at, m| m.hand_back(at, places, moves))
    }
}

#[inline(never)]
fn seek_difference(pair: &mut [Node; 2], mut to: u64) -> Option<u32> {
    let [first, second] = pair;
    loop {
        let answer = first.seek(to)?;
        if second.seek(answer.into()) != Some(answer) {
            return Some(answer);
        }
        to = u64::from(answer) + 1;
    }
}

#[inline(never)]
fn seek_union(members: &mut [Node], to: u64) -> Option<u32> {
    members.iter_mut().filter_map(|m| m.seek(to)).min()
}

#[inline(never)]
fn seek_intersection(members: &mut [Node], to: u64) -> Option<u32> {
    let mut candidate = to;
    'again: loop {
        for (i, member) in members.iter_mut().enumerate() {
            let answer = u64::from(member.seek(candidate)?);
            if candidate < answer {
                candidate = answer;
                if i > 0 {
                    continue 'again;
                }
            }
        }
        return Some(candidate as u32);
    }
}

enum Reply {
    Member(u32),
    Finished,
    Yes,
    No,
    Unknown,
}

impl Reply {
    fn encode(self) -> u64 {
        match self {
            Reply::Member(x) => x.into(),
            Reply::No => 4294967296,
            Reply::Yes => 4294967297,
            Reply::Finished => 4294967298,
            Reply::Unknown => 4294967299,
        }
    }
}

/// The tree and the floor, which each call leaves to the next.
struct Machine<'a> {
    root: Node<'a>,
    floor: u64,
}

impl Machine<'_> {
    fn call(&mut self, code: u8, d: u32) -> Reply {
        match code {
            0 => self.draw(self.floor),
            1 => self.draw(self.floor.max(d.into())),
            2 => self.draw(self.floor.max(u64::from(d) + 1)),
            3 => self.check(d),
            _ => Reply::Unknown,
        }
    }

    fn draw(&mut self, to: u64) -> Reply {
        match self.root.seek(to) {
            Some(member) => {
                self.floor = u64::from(member) + 1;
                Reply::Member(member)
            }
            None => {
                self.floor = TOP;
                Reply::Finished
            }
        }
    }

    fn check(&mut self, d: u32) -> Reply {
        if u64::from(d) < self.floor {
            return Reply::No;
        }
        self.floor = d.into();
        if self.root.check(d) {
            Reply::Yes
        } else {
            Reply::No
        }
    }
}

/// Whether a list was delivered: list 0 has the most significant bit.
pub fn delivered(word: u32, list: usize) -> bool {
    word << list >> 31 == 1
}

/// The lists as parts of the lent row, or the first of 7, 10 and 11 that refuses them.
pub fn test_lists<'a>(numbers: &'a [u32], ends: &[u32], word: u32) -> Result<Vec<&'a [u32]>, u32> {
    if ends.is_empty() || ends.len() > 32 {
        return Err(7);
    }
    let mut lists = Vec::with_capacity(ends.len());
    let mut start = 0;
    for (k, &end) in ends.iter().enumerate() {
        let list = numbers.get(start..end as usize).ok_or(10u32)?;
        if list.len() > 65_535 || !list.is_empty() && !delivered(word, k) {
            return Err(10);
        }
        lists.push(list);
        start = end as usize;
    }
    if lists.iter().all(|list| list.is_sorted_by(|a, b| a < b)) {
        Ok(lists)
    } else {
        Err(11)
    }
}

/// Reads a packed expression from its bits.
struct Parser<'p, 'a> {
    packed: &'p [u8],
    bit: usize,
    nodes: usize,
    lists: &'p [&'a [u32]],
    word: u32,
}

impl<'a> Parser<'_, 'a> {
    fn field(&mut self, width: usize) -> Result<usize, u32> {
        if self.bit + width > self.packed.len() * 8 {
            return Err(1);
        }
        let mut value = 0;
        for bit in self.bit..self.bit + width {
            value = value << 1 | usize::from(self.packed[bit / 8] >> (7 - bit % 8) & 1);
        }
        self.bit += width;
        Ok(value)
    }

    fn node(&mut self, depth: usize) -> Result<Node<'a>, u32> {
        if self.nodes == 48 {
            return Err(2);
        }
        if depth == 13 {
            return Err(3);
        }
        self.nodes += 1;
        match self.field(2)? {
            0 => {
                let number = self.field(5)?;
                let list = self.lists.get(number).copied().ok_or(4u32)?;
                if !delivered(self.word, number) {
                    return Err(18);
                }
                Ok(Node::List(Reader { list, place: 0, hops: 0 }))
            }
            1 => Ok(Node::Difference(Box::new([self.node(depth + 1)?, self.node(depth + 1)?]))),
            2 => Ok(Node::Union(self.members(depth)?)),
            _ => Ok(Node::Intersection(self.members(depth)?)),
        }
    }

    fn members(&mut self, depth: usize) -> Result<Vec<Node<'a>>, u32> {
        let count = self.field(3)? + 1;
        (0..count).map(|_| self.node(depth + 1)).collect()
    }

    /// The whole expression; nothing may be left over behind it but zero bits of the last byte.
    fn expression(&mut self) -> Result<Node<'a>, u32> {
        let root = self.node(1)?;
        let left = self.packed.len() * 8 - self.bit;
        if left >= 8 || self.field(left)? != 0 {
            return Err(5);
        }
        Ok(root)
    }
}

/// The tree of an expression over lists.
pub fn tree<'a>(packed: &[u8], lists: &[&'a [u32]], word: u32) -> Result<Node<'a>, u32> {
    let mut parser = Parser {
        packed,
        bit: 0,
        nodes: 0,
        lists,
        word,
    };
    parser.expression()
}

/// A run: the tests, then the calls, each with the floor and readers that the call before it left.
// As many arguments as the engine's call.
#[allow(clippy::too_many_arguments)]
pub fn run(
    numbers: &[u32],
    ends: &[u32],
    word: u32,
    packed: &[u8],
    bookmark: u64,
    codes: &[u8],
    arguments: &[u32],
    replies: &mut [u64],
) -> Result<RunResult, u32> {
    let lists = test_lists(numbers, ends, word)?;
    let root = tree(packed, &lists, word)?;
    if bookmark > TOP {
        return Err(12);
    }
    if codes.len() != arguments.len() || replies.len() < codes.len() {
        return Err(13);
    }
    let mut machine = Machine { root, floor: bookmark };
    for ((reply, &code), &d) in replies.iter_mut().zip(codes).zip(arguments) {
        *reply = machine.call(code, d).encode();
    }
    let (mut places, mut moves) = ([0; 48], 0);
    machine.root.hand_back(0, &mut places, &mut moves);
    Ok(RunResult {
        moves,
        places,
        bookmark: machine.floor,
    })
}
