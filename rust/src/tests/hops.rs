//! Long lists, over which readers hop: over 64 numbers at once, which counts one move, while so many remain and the last of them is
//! below what is sought. Then they move singly.

use super::{ask, places, TOP};
use crate::Call::{AtOrPast, Check, Next, Past};
use crate::Reply::{Finished, Member, No, Yes};
use crate::{bounds, Call, Reply};

/// The list 10 20 30 and so on. The 64th number, at place 63, is 640; the 65th is 650, the 128th 1280, the 129th 1290.
fn tens(length: u32) -> Vec<u32> {
    (1..=length).map(|i| 10 * i).collect()
}

/// What comes of these calls over one list: the last reply, the moves, the place.
fn over(list: &[u32], calls: &[Call]) -> (Reply, u32, u16) {
    let (replies, result) = ask(&[list], &[0], 0, calls).unwrap();
    assert_eq!(result.places, places(&[result.places[0]]));
    (replies[replies.len() - 1], result.moves, result.places[0])
}

/// What comes of one call over a list of so many tens.
fn sought(length: u32, call: Call) -> (Reply, u32, u16) {
    over(&tens(length), &[call])
}

#[test]
fn of_63() {
    // There is no 64th, so no hop: 62 numbers are below 630 and below 629, and all 63 below what comes behind them.
    assert_eq!(sought(63, AtOrPast(629)), (Member(630), 62, 62));
    assert_eq!(sought(63, AtOrPast(630)), (Member(630), 62, 62));
    assert_eq!(sought(63, AtOrPast(631)), (Finished, 63, 63));
    assert_eq!(sought(63, AtOrPast(640)), (Finished, 63, 63));
    assert_eq!(sought(63, AtOrPast(641)), (Finished, 63, 63));
    assert_eq!(sought(63, Past(u32::MAX)), (Finished, 63, 63));
}

#[test]
fn of_64() {
    // 640 is not below 639 nor below 640: 63 single moves.
    assert_eq!(sought(64, AtOrPast(639)), (Member(640), 63, 63));
    assert_eq!(sought(64, AtOrPast(640)), (Member(640), 63, 63));
    assert_eq!(sought(64, Past(639)), (Member(640), 63, 63));
    // It is below 641: one hop, which ends at the list's end.
    assert_eq!(sought(64, AtOrPast(641)), (Finished, 1, 64));
    assert_eq!(sought(64, Past(640)), (Finished, 1, 64));
    assert_eq!(sought(64, Past(u32::MAX)), (Finished, 1, 64));
}

#[test]
fn of_65() {
    assert_eq!(sought(65, AtOrPast(639)), (Member(640), 63, 63));
    assert_eq!(sought(65, AtOrPast(640)), (Member(640), 63, 63));
    // One hop to 650; one number remains, so behind it comes a single move.
    assert_eq!(sought(65, AtOrPast(641)), (Member(650), 1, 64));
    assert_eq!(sought(65, AtOrPast(650)), (Member(650), 1, 64));
    assert_eq!(sought(65, AtOrPast(651)), (Finished, 2, 65));
    assert_eq!(sought(65, Past(u32::MAX)), (Finished, 2, 65));
}

#[test]
fn of_128() {
    assert_eq!(sought(128, AtOrPast(639)), (Member(640), 63, 63));
    assert_eq!(sought(128, AtOrPast(640)), (Member(640), 63, 63));
    assert_eq!(sought(128, AtOrPast(641)), (Member(650), 1, 64));
    // One hop to 650, then two single moves over 650 and 660.
    assert_eq!(sought(128, AtOrPast(670)), (Member(670), 3, 66));
    // From 650 on just 64 remain, of which the last is 1280: 63 single moves, or a second hop.
    assert_eq!(sought(128, AtOrPast(1279)), (Member(1280), 64, 127));
    assert_eq!(sought(128, AtOrPast(1280)), (Member(1280), 64, 127));
    assert_eq!(sought(128, AtOrPast(1281)), (Finished, 2, 128));
    assert_eq!(sought(128, Past(u32::MAX)), (Finished, 2, 128));
}

#[test]
fn of_129() {
    assert_eq!(sought(129, AtOrPast(639)), (Member(640), 63, 63));
    assert_eq!(sought(129, AtOrPast(640)), (Member(640), 63, 63));
    assert_eq!(sought(129, AtOrPast(641)), (Member(650), 1, 64));
    assert_eq!(sought(129, AtOrPast(1280)), (Member(1280), 64, 127));
    // Two hops to 1290, and a single move over it.
    assert_eq!(sought(129, AtOrPast(1281)), (Member(1290), 2, 128));
    assert_eq!(sought(129, AtOrPast(1290)), (Member(1290), 2, 128));
    assert_eq!(sought(129, AtOrPast(1291)), (Finished, 3, 129));
    assert_eq!(sought(129, Past(u32::MAX)), (Finished, 3, 129));
}

#[test]
fn in_checks() {
    assert_eq!(sought(63, Check(640)), (No, 63, 63));
    assert_eq!(sought(64, Check(639)), (No, 63, 63));
    assert_eq!(sought(64, Check(640)), (Yes, 63, 63));
    assert_eq!(sought(64, Check(641)), (No, 1, 64));
    assert_eq!(sought(65, Check(640)), (Yes, 63, 63));
    assert_eq!(sought(65, Check(650)), (Yes, 1, 64));
    assert_eq!(sought(128, Check(1280)), (Yes, 64, 127));
    assert_eq!(sought(128, Check(1281)), (No, 2, 128));
    assert_eq!(sought(129, Check(1290)), (Yes, 2, 128));
    assert_eq!(sought(129, Check(u32::MAX)), (No, 3, 129));
    // A check leaves the reader at its number; the next call goes on from there.
    let calls = [Check(640), Check(640), Check(1270), Check(1290), Next];
    assert_eq!(over(&tens(129), &calls[..2]), (Yes, 63, 63));
    assert_eq!(over(&tens(129), &calls[..3]), (Yes, 126, 126));
    assert_eq!(over(&tens(129), &calls[..4]), (Yes, 128, 128));
    assert_eq!(over(&tens(129), &calls), (Member(1290), 128, 128));
}

#[test]
fn from_inside_the_list() {
    // At 20 the place is 1, by one single move. The 64th number from there on is 650.
    let from_20 = |length, call| over(&tens(length), &[AtOrPast(20), call]);
    assert_eq!(from_20(64, Past(u32::MAX)), (Finished, 64, 64));
    assert_eq!(from_20(65, AtOrPast(650)), (Member(650), 64, 64));
    assert_eq!(from_20(65, AtOrPast(651)), (Finished, 2, 65));
    assert_eq!(from_20(128, AtOrPast(651)), (Member(660), 2, 65));
    // Of 128 numbers 63 remain behind that hop, of 129 there are 64.
    assert_eq!(from_20(128, Past(u32::MAX)), (Finished, 65, 128));
    assert_eq!(from_20(129, Past(u32::MAX)), (Finished, 3, 129));
    // At 640 the place is 63, by 63 single moves, and the 64th from there on is 1270.
    let from_640 = |call| over(&tens(129), &[AtOrPast(640), call]);
    assert_eq!(from_640(AtOrPast(1270)), (Member(1270), 126, 126));
    assert_eq!(from_640(AtOrPast(1271)), (Member(1280), 64, 127));
}

#[test]
fn draws_move_singly() {
    let mut calls = vec![Next; 129];
    assert_eq!(over(&tens(129), &calls), (Member(1290), 128, 128));
    calls.push(Next);
    assert_eq!(over(&tens(129), &calls), (Finished, 129, 129));
}

/// The numbers up to 4,294,967,295: what is sought behind it is 4,294,967,296.
#[test]
fn at_the_greatest_numbers() {
    let last = |count: u32| (u32::MAX - count + 1..=u32::MAX).collect::<Vec<u32>>();
    assert_eq!(over(&last(64), &[AtOrPast(u32::MAX)]), (Member(u32::MAX), 63, 63));
    assert_eq!(over(&last(64), &[Past(u32::MAX)]), (Finished, 1, 64));
    assert_eq!(over(&last(65), &[AtOrPast(u32::MAX)]), (Member(u32::MAX), 1, 64));
    assert_eq!(over(&last(65), &[Past(u32::MAX)]), (Finished, 2, 65));
    assert_eq!(over(&last(65), &[Check(u32::MAX), Past(u32::MAX)]), (Finished, 2, 65));
}

/// 1,023 hops go over 65,472 numbers; 63 single moves over the others.
#[test]
fn the_longest_list() {
    assert_eq!(sought(65_535, Past(u32::MAX)), (Finished, 1_086, 65_535));
    assert_eq!(sought(65_535, Past(655_340)), (Member(655_350), 1_085, 65_534));
}

/// A run begins at place 0 of every list: to its bookmark its readers hop.
#[test]
fn to_a_bookmark() {
    let (replies, result) = ask(&[&tens(129)], &[0], 1281, &[Next; 2]).unwrap();
    assert_eq!((replies, result.bookmark), (vec![Member(1290), Finished], TOP));
    assert_eq!((result.moves, result.places), (3, places(&[129])));
}

/// Each leaf has a reader of its own, that of a list which stands at another leaf too.
#[test]
fn of_each_leaf() {
    let (long, short) = (tens(129), tens(63));
    // Less: the first hops to 650, and the second moves 63 times to its end.
    let (replies, result) = ask(&[&long, &short], &[64, 0, 1], 0, &[AtOrPast(641)]).unwrap();
    assert_eq!((replies, result.moves), (vec![Member(650)], 64));
    assert_eq!(result.places, places(&[0, 64, 63]));
    // A union of one list with itself: a hop and a single move of each.
    let (replies, result) = ask(&[&long], &[130, 0, 0], 0, &[AtOrPast(651)]).unwrap();
    assert_eq!((replies, result.moves), (vec![Member(660)], 4));
    assert_eq!(result.places, places(&[0, 65, 65]));
    // An intersection: to 645 the first hops, and answers 650; the second moves to 1290; the first hops there.
    let (replies, result) = ask(&[&long, &[645, 1290]], &[194, 0, 1], 0, &[Next]).unwrap();
    assert_eq!((replies, result.moves), (vec![Member(1290)], 3));
    assert_eq!(result.places, places(&[0, 128, 1]));
    // The same in a check of 1290: each is read to it, and the short one moves over 645.
    let (replies, result) = ask(&[&long, &[645, 1290]], &[194, 0, 1], 0, &[Check(1290)]).unwrap();
    assert_eq!((replies, result.moves), (vec![Yes], 3));
    assert_eq!(result.places, places(&[0, 128, 1]));
}

/// What bounds say of moves is what single moves would come to, so that hops stay far below it.
#[test]
fn within_the_bounds() {
    let (first, second) = (tens(129), tens(128));
    let most = bounds(&[129, 257], &[0x88, 0x00, 0x20]).unwrap();
    assert_eq!(most.moves, 257);
    let (_, result) = ask(&[&first, &second], &[130, 0, 1], 0, &[Past(u32::MAX)]).unwrap();
    assert_eq!((result.moves, result.places), (5, places(&[0, 129, 128])));
    let (_, result) = ask(&[&first, &second], &[130, 0, 1], 0, &[Next; 130]).unwrap();
    assert_eq!((result.moves, result.places), (257, places(&[0, 129, 128])));
}
