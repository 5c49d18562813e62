//! Rules that look like a regrouping and are none. What is compared must tell each of them from a regrouping.

use super::cases::{run, tree_of_run, Size};
use super::rules::{difference, operator, place, replaced, step, Rule, RULES};
use super::{kept, with};
use crate::evaluator::expression::Tree;
use crate::evaluator::lists::accepted;
use crate::random::{seed, Random};

const WRONG: [(&str, Rule); 11] = [
    ("one of another operator opened out", open_other),
    ("some closed in by the other operator", close_other),
    ("another order, one left out", leave_out),
    ("distributed over all but one", distribute_less),
    ("distributed, one without the others", distribute_alone),
    ("a − (b ∪ c) as a − b", subtract_less),
    ("a − (b ∪ c) as (a − b) ∪ (a − c)", subtract_from_each),
    ("a − (b ∩ c) as (a − b) − c", subtract_intersection),
    ("(a ∪ b) − c as (a − c) ∪ b", open_first),
    ("a ∪ (b ∩ c) as (a ∪ b) ∩ c", shift),
    ("a − b as b − a", exchange),
];

fn make_other(tree: &Tree, members: Vec<Tree>) -> Tree {
    match tree {
        Tree::Union(_) => Tree::Intersection(members),
        _ => Tree::Union(members),
    }
}

fn members_of(tree: &Tree) -> Vec<Tree> {
    operator(tree).map_or(vec![], |(_, members)| members.to_vec())
}

/// A union within an intersection opened out, or an intersection within a union.
fn open_other(random: &mut Random, tree: &Tree) -> Option<Tree> {
    let (make, members) = operator(tree)?;
    let of_other = |member: &Tree| *member == make_other(tree, members_of(member));
    let at = place(random, members, |member| of_other(member) && members_of(member).len() > 1)?;
    Some(make(replaced(members, at..at + 1, &members_of(&members[at]))))
}

/// Two members of a union made an intersection within it, or two of an intersection a union.
fn close_other(random: &mut Random, tree: &Tree) -> Option<Tree> {
    let (make, members) = operator(tree).filter(|(_, members)| members.len() > 1)?;
    let start = random.below(members.len() - 1);
    let run = start..start + 2;
    let inner = make_other(tree, members[run.clone()].to_vec());
    Some(make(replaced(members, run, &[inner])))
}

fn leave_out(random: &mut Random, tree: &Tree) -> Option<Tree> {
    let (make, members) = operator(tree).filter(|(_, members)| members.len() > 1)?;
    let mut members = members.to_vec();
    random.shuffle(&mut members);
    members.pop();
    Some(make(members))
}

/// An intersection's members, the place of a union among them, and that one's members, two or more.
fn distributable<'a>(random: &mut Random, tree: &'a Tree) -> Option<(&'a [Tree], usize, &'a [Tree])> {
    let Tree::Intersection(members) = tree else { return None };
    let at = place(
        random,
        members,
        |member| matches!(member, Tree::Union(each) if each.len() > 1),
    )?;
    operator(&members[at]).map(|(_, each)| (&members[..], at, each))
}

fn distribute_less(random: &mut Random, tree: &Tree) -> Option<Tree> {
    let (members, at, each) = distributable(random, tree)?;
    let forgotten = random.below(each.len());
    let each = replaced(each, forgotten..forgotten + 1, &[]);
    let with = |member: Tree| Tree::Intersection(replaced(members, at..at + 1, &[member]));
    Some(Tree::Union(each.into_iter().map(with).collect()))
}

fn distribute_alone(random: &mut Random, tree: &Tree) -> Option<Tree> {
    let (members, at, each) = distributable(random, tree)?;
    let alone = random.below(each.len());
    let with = |(i, member): (usize, &Tree)| match i {
        _ if i == alone => member.clone(),
        _ => Tree::Intersection(replaced(members, at..at + 1, std::slice::from_ref(member))),
    };
    Some(Tree::Union(each.iter().enumerate().map(with).collect()))
}

/// A difference's parts.
fn parts(tree: &Tree) -> Option<(Tree, Tree)> {
    match tree {
        Tree::Difference(first, second) => Some(((**first).clone(), (**second).clone())),
        _ => None,
    }
}

fn subtract_less(random: &mut Random, tree: &Tree) -> Option<Tree> {
    let (first, Tree::Union(mut members)) = parts(tree)? else {
        return None;
    };
    random.shuffle(&mut members);
    members.pop();
    (!members.is_empty()).then(|| members.into_iter().fold(first, difference))
}

fn subtract_from_each(_: &mut Random, tree: &Tree) -> Option<Tree> {
    let (first, Tree::Union(members)) = parts(tree)? else {
        return None;
    };
    let less = |member| difference(first.clone(), member);
    Some(Tree::Union(members.into_iter().map(less).collect()))
}

fn subtract_intersection(_: &mut Random, tree: &Tree) -> Option<Tree> {
    let (first, Tree::Intersection(members)) = parts(tree)? else {
        return None;
    };
    Some(members.into_iter().fold(first, difference))
}

fn open_first(_: &mut Random, tree: &Tree) -> Option<Tree> {
    let (Tree::Union(mut members), second) = parts(tree)? else {
        return None;
    };
    members[0] = difference(members[0].clone(), second);
    Some(Tree::Union(members))
}

fn shift(random: &mut Random, tree: &Tree) -> Option<Tree> {
    let Tree::Union(members) = tree else { return None };
    let at = place(random, members, |member| matches!(member, Tree::Intersection(_)))?;
    let mut inner = members_of(&members[at]);
    inner[0] = Tree::Union(replaced(members, at..at + 1, &inner[..1]));
    Some(Tree::Intersection(inner))
}

fn exchange(_: &mut Random, tree: &Tree) -> Option<Tree> {
    parts(tree).map(|(first, second)| difference(second, first))
}

/// How often a step by a rule, from one accepted tree to another, was taken; came to another set; and was seen in what is compared.
#[derive(Debug, Default)]
struct Seen {
    taken: u32,
    other_set: u32,
    differs: u32,
}

fn seen(rule: Rule) -> Seen {
    let mut seen = Seen::default();
    for number in 0..3_000 {
        let mut random = Random::of_case(seed() ^ 16, number);
        let run = run(&mut random, number);
        let tree = tree_of_run(&mut random, &run);
        let mut other = tree.clone();
        if !step(&mut random, rule, &mut other) || !Size::of(&other).accepted() {
            continue;
        }
        let lists = accepted(&run.lists).expect("good lists");
        let other_set = tree.denoted(&lists) != other.denoted(&lists);
        let differs = kept(&with(&run, &tree)) != kept(&with(&run, &other));
        assert!(
            other_set || !differs,
            "the same set, and other replies: {tree:#?}, {other:#?}, {run:#?}"
        );
        seen.taken += 1;
        seen.other_set += u32::from(other_set);
        seen.differs += u32::from(differs);
    }
    seen
}

#[test]
fn wrong() {
    for (name, rule) in WRONG {
        let seen = seen(rule);
        assert!(
            seen.taken >= 100 && 20 * seen.other_set >= seen.taken && 40 * seen.differs >= seen.taken,
            "{name}: {seen:?}"
        );
    }
}

/// Of a regrouping there is nothing to be seen.
#[test]
fn right() {
    for (name, rule) in RULES {
        let seen = seen(rule);
        assert!(
            seen.taken >= 100 && seen.other_set == 0 && seen.differs == 0,
            "{name}: {seen:?}"
        );
    }
}
