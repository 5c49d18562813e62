//! The regroupings, each as what it makes of one node, and a step that takes one anywhere inside a tree. Nothing here knows the
//! engine, the lists or the limits: unions of more than 8 members, and larger and deeper trees than are accepted, may come.

use std::mem::discriminant;
use std::ops::Range;

use crate::evaluator::expression::Tree;
use crate::random::Random;

/// What a regrouping makes of a node, if the node has its form; where it can be done in several ways, any of them.
pub type Rule = fn(&mut Random, &Tree) -> Option<Tree>;

/// The request's four kinds, and each of them back; another order has no back of its own.
pub const RULES: [(&str, Rule); 7] = [
    ("another order", reorder),
    ("opened out", open_out),
    ("closed in", close_in),
    ("subtracted one by one", subtract_each),
    ("subtracted at once", subtract_union),
    ("distributed", distribute),
    ("factored out", factor_out),
];

/// Takes the rule at one node: the root, or any inside. Says whether there was one that has the form.
pub fn step(random: &mut Random, rule: Rule, tree: &mut Tree) -> bool {
    let root_first = random.one_in(3);
    (root_first && at_root(random, rule, tree)) || inside(random, rule, tree) || (!root_first && at_root(random, rule, tree))
}

fn at_root(random: &mut Random, rule: Rule, tree: &mut Tree) -> bool {
    let Some(regrouped) = rule(random, tree) else { return false };
    *tree = regrouped;
    true
}

fn inside(random: &mut Random, rule: Rule, tree: &mut Tree) -> bool {
    let mut members: Vec<&mut Tree> = match tree {
        Tree::List(_) => vec![],
        Tree::Difference(first, second) => vec![first, second],
        Tree::Union(members) | Tree::Intersection(members) => members.iter_mut().collect(),
    };
    random.shuffle(&mut members);
    members.into_iter().any(|member| step(random, rule, member))
}

/// What makes a node of members.
type Make = fn(Vec<Tree>) -> Tree;

/// Of a union or an intersection: what makes another such node, and its members.
pub fn operator(tree: &Tree) -> Option<(Make, &[Tree])> {
    match tree {
        Tree::Union(members) => Some((Tree::Union, members)),
        Tree::Intersection(members) => Some((Tree::Intersection, members)),
        _ => None,
    }
}

pub fn difference(first: Tree, second: Tree) -> Tree {
    Tree::Difference(Box::new(first), Box::new(second))
}

/// Members with these in place of a run of them.
pub fn replaced(members: &[Tree], run: Range<usize>, by: &[Tree]) -> Vec<Tree> {
    [&members[..run.start], by, &members[run.end..]].concat()
}

/// Any place at which a member has a form.
pub fn place(random: &mut Random, members: &[Tree], form: impl Fn(&Tree) -> bool) -> Option<usize> {
    let places: Vec<usize> = (0..members.len()).filter(|at| form(&members[*at])).collect();
    random.pick_any(&places)
}

/// The members of a union or an intersection in another order.
fn reorder(random: &mut Random, tree: &Tree) -> Option<Tree> {
    let (make, members) = operator(tree).filter(|(_, members)| members.len() > 1)?;
    let mut members = members.to_vec();
    random.shuffle(&mut members);
    Some(make(members))
}

/// A union within a union opened out, and the same for intersections.
fn open_out(random: &mut Random, tree: &Tree) -> Option<Tree> {
    let (make, members) = operator(tree)?;
    let at = place(random, members, |member| discriminant(member) == discriminant(tree))?;
    let (_, inner) = operator(&members[at])?;
    Some(make(replaced(members, at..at + 1, inner)))
}

/// Back: a run of one member or more made a union within the union, or an intersection within the intersection.
fn close_in(random: &mut Random, tree: &Tree) -> Option<Tree> {
    let (make, members) = operator(tree)?;
    let start = random.below(members.len());
    let run = start..random.between(start + 1, members.len());
    let inner = make(members[run.clone()].to_vec());
    Some(make(replaced(members, run, &[inner])))
}

/// a − (b ∪ c ∪ ..) as ((a − b) − c) − ..
fn subtract_each(_: &mut Random, tree: &Tree) -> Option<Tree> {
    let Tree::Difference(first, second) = tree else { return None };
    let Tree::Union(members) = &**second else { return None };
    Some(members.iter().cloned().fold((**first).clone(), difference))
}

/// Back, of one difference or more.
fn subtract_union(random: &mut Random, tree: &Tree) -> Option<Tree> {
    let mut first = tree;
    let mut members = Vec::new();
    while let Tree::Difference(inner, second) = first {
        members.insert(0, (**second).clone());
        first = inner;
        if random.one_in(2) {
            break;
        }
    }
    (!members.is_empty()).then(|| difference(first.clone(), Tree::Union(members)))
}

/// a ∩ (b ∪ c ∪ ..) as (a ∩ b) ∪ (a ∩ c) ∪ .., the intersection with any further members ahead and behind.
fn distribute(random: &mut Random, tree: &Tree) -> Option<Tree> {
    let Tree::Intersection(members) = tree else { return None };
    let at = place(random, members, |member| matches!(member, Tree::Union(_)))?;
    let (_, each) = operator(&members[at])?;
    let with = |member: &Tree| Tree::Intersection(replaced(members, at..at + 1, std::slice::from_ref(member)));
    Some(Tree::Union(each.iter().map(with).collect()))
}

/// Back: intersections of equally many members that are the same at every place but one.
fn factor_out(random: &mut Random, tree: &Tree) -> Option<Tree> {
    let Tree::Union(terms) = tree else { return None };
    if !terms.iter().all(|term| matches!(term, Tree::Intersection(_))) {
        return None;
    }
    let terms: Vec<&[Tree]> = terms.iter().filter_map(operator).map(|(_, members)| members).collect();
    let first = terms[0];
    let same_but = |at: &usize| {
        let others = |term: &[Tree]| replaced(term, *at..at + 1, &[]);
        terms
            .iter()
            .all(|term| term.len() == first.len() && others(term) == others(first))
    };
    let at = random.pick_any(&(0..first.len()).filter(same_but).collect::<Vec<_>>())?;
    let each = terms.iter().map(|term| term[at].clone()).collect();
    Some(Tree::Intersection(replaced(first, at..at + 1, &[Tree::Union(each)])))
}
