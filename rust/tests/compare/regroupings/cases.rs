//! Cases: lists that overlap, an accepted tree over them and one that it is regrouped into, and a run.

use super::rules::{difference, step, RULES};
use crate::evaluator::expression::Tree;
use crate::evaluator::lists::{self, Each};
use crate::evaluator::Begin;
use crate::inputs::{far_lists, lend, longest};
use crate::random::Random;
use crate::runs::{begin, calls, far_run, lengths, Run};

/// An accepted tree, and behind it each tree that a rule made of the one before, up to one that is accepted.
#[derive(Debug)]
pub struct Walk {
    pub trees: Vec<Tree>,
    // The rules taken from each tree to the one behind it.
    pub rules: Vec<&'static str>,
}

/// The trees, and all of a run but the expression.
#[derive(Debug)]
pub struct Case {
    pub walk: Walk,
    pub run: Run,
}

pub fn case(random: &mut Random, number: u64) -> Case {
    let run = run(random, number);
    let mut tree = tree_of_run(random, &run);
    if random.one_in(2) {
        tree = walk(random, tree).trees.pop().expect("a walk has a last tree");
    }
    let walk = walk(random, tree);
    Case { walk, run }
}

/// What there is a limit of: the most members of a union or an intersection, the nodes, and the depth.
pub struct Size {
    pub members: usize,
    pub nodes: usize,
    pub depth: usize,
}

impl Size {
    pub fn of(tree: &Tree) -> Size {
        let (members, below): (usize, Vec<Size>) = match tree {
            Tree::List(_) => (0, vec![]),
            Tree::Difference(first, second) => (0, vec![Size::of(first), Size::of(second)]),
            Tree::Union(all) | Tree::Intersection(all) => (all.len(), all.iter().map(Size::of).collect()),
        };
        Size {
            members: below.iter().map(|size| size.members).fold(members, usize::max),
            nodes: 1 + below.iter().map(|size| size.nodes).sum::<usize>(),
            depth: 1 + below.iter().map(|size| size.depth).max().unwrap_or(0),
        }
    }

    pub fn accepted(&self) -> bool {
        self.members <= 8 && self.nodes <= 48 && self.depth <= 12
    }
}

fn accepted(tree: &Tree) -> bool {
    Size::of(tree).accepted()
}

/// Up to 8 steps, and some more to come back within the limits; where that fails, those up to the last accepted tree.
fn walk(random: &mut Random, first: Tree) -> Walk {
    let steps = random.between(1, 8);
    let mut tree = first.clone();
    let mut walk = Walk {
        trees: vec![first],
        rules: vec![],
    };
    while walk.rules.len() < 16 && (walk.rules.len() < steps || !accepted(&tree)) {
        let Some((rule, regrouped)) = regrouped(random, &tree) else {
            break;
        };
        walk.rules.push(rule);
        walk.trees.push(regrouped.clone());
        tree = regrouped;
    }
    let last = walk.trees.iter().rposition(accepted).expect("the first tree is accepted");
    walk.trees.truncate(last + 1);
    walk.rules.truncate(last);
    walk
}

/// So many nodes a tree may have on the way.
const MOST_NODES: usize = 300;

/// Another tree by one rule, any of those that can be taken; from one above the limits sooner those that may lead back.
fn regrouped(random: &mut Random, tree: &Tree) -> Option<(&'static str, Tree)> {
    let mut rules = RULES;
    random.shuffle(&mut rules);
    let back: &[&str] = match Size::of(tree) {
        size if size.accepted() => &[],
        Size { members: 9.., .. } => &["closed in", "factored out"],
        _ => &["opened out", "subtracted at once", "factored out"],
    };
    rules.sort_by_key(|(name, _)| !back.contains(name));
    rules.into_iter().find_map(|(name, rule)| {
        let mut regrouped = tree.clone();
        let taken = step(random, rule, &mut regrouped);
        (taken && regrouped != *tree && Size::of(&regrouped).nodes <= MOST_NODES).then_some((name, regrouped))
    })
}

/// An accepted tree over those lists of a run that were delivered, mostly one with a member.
pub fn tree_of_run(random: &mut Random, run: &Run) -> Tree {
    let lists = lists::accepted(&run.lists).expect("good lists");
    let came: Vec<usize> = (0..lists.len()).filter(|k| lists[*k].is_some()).collect();
    loop {
        let tree = match random.below(16) {
            0 => tree(random, 48, &came),
            1 | 2 => deep(random, &came),
            3..=6 => {
                let nodes = random.between(10, 47);
                tree(random, nodes, &came)
            }
            _ => {
                let nodes = random.between(1, 12);
                tree(random, nodes, &came)
            }
        };
        if accepted(&tree) && (random.one_in(6) || !tree.denoted(&lists).is_empty()) {
            return tree;
        }
    }
}

/// A tree of exactly so many nodes.
fn tree(random: &mut Random, nodes: usize, lists: &[usize]) -> Tree {
    if nodes == 1 {
        return Tree::List(random.pick(lists));
    }
    let usual = if nodes > 12 { [2, 3, 4, 5, 6, 8] } else { [1, 2, 2, 2, 3, 8] };
    let count = random.pick(&usual).min(nodes - 1);
    let mut left = nodes - 1;
    let mut members = Vec::new();
    for others in (0..count).rev() {
        let own = if others == 0 { left } else { 1 + random.below(left - others) };
        members.push(tree(random, own, lists));
        left -= own;
    }
    operated(random, members)
}

/// A node of these members.
fn operated(random: &mut Random, members: Vec<Tree>) -> Tree {
    match (random.below(4), &members[..]) {
        (0 | 1, [first, second]) => difference(first.clone(), second.clone()),
        (0 | 2, _) => Tree::Union(members),
        _ => Tree::Intersection(members),
    }
}

/// A list within 9 to 11 operators, of one member or of two.
fn deep(random: &mut Random, lists: &[usize]) -> Tree {
    let mut tree = Tree::List(random.pick(lists));
    for _ in 0..random.between(9, 11) {
        let mut members = vec![tree];
        if !random.one_in(3) {
            let at = random.pick(&[0, 1, 1]);
            members.insert(at, Tree::List(random.pick(lists)));
        }
        tree = operated(random, members);
    }
    tree
}

/// A run over lists of close numbers, or of so many that readers hop; its expression is still to come.
pub fn run(random: &mut Random, number: u64) -> Run {
    let each = if random.one_in(8) {
        far_lists(random)
    } else {
        close_lists(random)
    };
    let lists = lend(random, &each);
    let (begin, mut codes, mut arguments) = if longest(&lists) > 60 {
        far_run(random, &each)
    } else {
        close_run(random, &lists.numbers)
    };
    let room = lengths(random, &mut codes, &mut arguments);
    Run {
        number,
        lists,
        packed: vec![],
        begin,
        codes,
        arguments,
        room,
    }
}

/// 1 to 6 lists, seldom up to 32, each a share of the same 10 to 56 numbers at either end; at times some were not delivered.
fn close_lists(random: &mut Random) -> Each {
    let count = if random.one_in(12) {
        random.between(7, 32)
    } else {
        random.between(1, 6)
    };
    let numbers = random.between(10, 56) as u32;
    let least = random.pick(&[0, 0, u32::MAX - numbers + 1]);
    let some_failed = random.one_in(3);
    let mut lists = Each::new();
    for k in 0..count {
        let came = k == 0 || !(some_failed && random.one_in(4));
        let share = random.pick(&[4, 8, 10, 12, 14]);
        lists.push(came.then(|| (least..=least + (numbers - 1)).filter(|_| random.below(16) < share).collect()));
    }
    random.shuffle(&mut lists);
    lists
}

/// Calls among these numbers, at times going up, and where they begin.
fn close_run(random: &mut Random, numbers: &[u32]) -> (Begin, Vec<u8>, Vec<u32>) {
    let (codes, mut arguments) = calls(random, numbers);
    if random.one_in(2) {
        arguments.retain(|argument| numbers.contains(argument));
        arguments.resize_with(codes.len(), || random.pick_any(numbers).unwrap_or(0));
        arguments.sort();
    }
    let inside = random.pick_any(numbers).map(u64::from);
    let begin = match (random.below(6), inside) {
        (0..=2, _) => Begin::default(),
        (3 | 4, Some(bookmark)) => Begin { bookmark },
        _ => begin(random),
    };
    (begin, codes, arguments)
}
