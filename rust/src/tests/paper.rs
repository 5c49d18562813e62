//! P1 to P9, and the edges beside them.

use super::{ask, lent, packed, places, Lists, FIRST, FOURTH, SECOND, THIRD, TOP};
use crate::refusal::every;
use crate::Call::{AtOrPast, Check, Next, Past};
use crate::Reply::{Finished, Member, No, Unknown, Yes};
use crate::{
    decode_delivery, downgrade_delivery, encode_delivery, list_part, pack_expression, run, unpack_expression, upgrade_delivery,
    Call, DecodeResult, Reply, RunResult, ALL_DELIVERED,
};

#[test]
fn p1_difference() {
    let (replies, result) = ask(&[FIRST, FOURTH], &[64, 0, 1], 0, &[Next; 4]).unwrap();
    assert_eq!(replies, [Member(5), Member(6), Member(8), Finished]);
    // Whole, so that a field which comes to it is not left out.
    let expected = RunResult {
        moves: 12,
        places: places(&[0, 7, 5]),
        bookmark: TOP,
    };
    assert_eq!(result, expected);
}

#[test]
fn p2_difference_broken_off() {
    let (replies, result) = ask(&[FIRST, FOURTH], &[64, 0, 1], 0, &[Next]).unwrap();
    assert_eq!((replies, result.bookmark, result.moves), (vec![Member(5)], 6, 7));
    let (replies, result) = ask(&[FIRST, FOURTH], &[64, 0, 1], 6, &[Next; 3]).unwrap();
    assert_eq!((replies, result.bookmark), (vec![Member(6), Member(8), Finished], TOP));
}

#[test]
fn p3_union() {
    let (replies, _) = ask(&[FIRST, SECOND, THIRD, FOURTH], &[132, 0, 1, 2, 3], 0, &[Next; 11]).unwrap();
    let expected: Vec<Reply> = (0..10).map(Member).chain([Finished]).collect();
    assert_eq!(replies, expected);
}

#[test]
fn p4_intersection() {
    let all = [FIRST, SECOND, THIRD, FOURTH];
    let (replies, result) = ask(&all, &[196, 0, 1, 2, 3], 0, &[Next]).unwrap();
    assert_eq!((replies, result.moves), (vec![Member(2)], 5));
    let (replies, result) = ask(&all, &[196, 0, 1, 2, 3], 0, &[Next; 2]).unwrap();
    assert_eq!((replies, result.moves), (vec![Member(2), Finished], 13));
}

#[test]
fn p5_check_takes_nothing_from_next() {
    let (replies, _) = ask(&[&[5], &[5]], &[194, 0, 1], 0, &[Check(3), Next]).unwrap();
    assert_eq!(replies, [No, Member(5)]);
}

#[test]
fn p6_checks() {
    let (replies, _) = ask(&[&[5]], &[0], 0, &[Check(5), Check(5), Next, Check(5)]).unwrap();
    assert_eq!(replies, [Yes, Yes, Member(5), No]);
}

#[test]
fn p7_the_greatest_number() {
    let (replies, result) = ask(&[&[u32::MAX]], &[0], 0, &[Next; 2]).unwrap();
    assert_eq!((replies, result.bookmark), (vec![Member(u32::MAX), Finished], TOP));
}

#[test]
fn p8_packed_expressions() {
    for (bytes, row) in [(vec![0x40, 0x01], vec![64, 0, 1]), (vec![0x88, 0x00, 0x20], vec![130, 0, 1])] {
        let mut nodes = [77; 4];
        assert_eq!(unpack_expression(&bytes, 2, ALL_DELIVERED, &mut nodes), Ok(3));
        assert_eq!((&nodes[..3], nodes[3]), (&row[..], 77));
        let mut back = [77; 4];
        assert_eq!(pack_expression(&row, 2, ALL_DELIVERED, &mut back), Ok(bytes.len()));
        assert_eq!(&back[..bytes.len()], bytes);
        assert!(back[bytes.len()..].iter().all(|byte| *byte == 77));
    }
}

#[test]
fn p9_deliveries() {
    // The paper's bytes are the old form's: they are moved to the other one, read there, written there, and moved back.
    let deliveries: [(&[u8], &[u8], &[u32]); 2] = [
        (
            &[0x04, 0x00, 0x0C, 0x00, 0x00, 0x00, 0x08, 0x08],
            &[0x06, 0x00, 0x06, 0x00, 0x00, 0x00, 0x04, 0x04],
            &[2, 3, 5],
        ),
        (&[0x04, 0x00, 0x00], &[0x06, 0x00, 0x00], &[]),
    ];
    for (old, delivery, list) in deliveries {
        let mut new = [77; 9];
        assert_eq!(upgrade_delivery(old, &mut new), Ok(delivery.len()));
        assert_eq!((&new[..delivery.len()], new[delivery.len()]), (delivery, 77));

        let (mut numbers, mut ends) = ([77; 4], [77; 2]);
        let result = decode_delivery(delivery, &mut numbers, &mut ends);
        let expected = DecodeResult {
            word: 1 << 31,
            lists: 1,
            numbers: list.len(),
        };
        assert_eq!(result, Ok(expected));
        assert_eq!((&numbers[..list.len()], numbers[list.len()]), (list, 77));
        assert_eq!(ends, [list.len() as u32, 77]);

        let mut written = [77; 9];
        assert_eq!(
            encode_delivery(list, &[list.len() as u32], ALL_DELIVERED, &mut written),
            Ok(delivery.len())
        );
        assert_eq!((&written[..delivery.len()], written[delivery.len()]), (delivery, 77));

        let mut back = [77; 9];
        assert_eq!(downgrade_delivery(delivery, &mut back), Ok(old.len()));
        assert_eq!((&back[..old.len()], back[old.len()]), (old, 77));
    }
}

#[test]
fn at_or_past_and_past() {
    let calls = [AtOrPast(2), AtOrPast(2), Past(6), Past(1), AtOrPast(10)];
    let (replies, result) = ask(&[FIRST], &[0], 0, &calls).unwrap();
    assert_eq!(replies, [Member(2), Member(5), Member(8), Member(9), Finished]);
    assert_eq!((result.moves, result.bookmark), (7, TOP));
}

#[test]
fn an_unknown_code_changes_nothing() {
    let Lists { numbers, ends } = lent(&[FIRST]);
    let mut replies = [77; 4];
    let result = run(
        &numbers,
        &ends,
        ALL_DELIVERED,
        &packed(&[0]),
        1,
        &[4, 0, 255],
        &[9, 9, 9],
        &mut replies,
    )
    .unwrap();
    assert_eq!(replies[3], 77);
    assert_eq!(
        replies[..3].iter().map(|reply| Reply::from_row(*reply)).collect::<Vec<_>>(),
        [Some(Unknown), Some(Member(1)), Some(Unknown)]
    );
    assert_eq!((result.moves, result.bookmark), (1, 2));
}

#[test]
fn a_run_of_no_calls() {
    let (replies, result) = ask(&[FIRST], &[0], TOP, &[]).unwrap();
    assert_eq!((replies, result.moves, result.bookmark), (vec![], 0, TOP));
}

#[test]
fn parts_of_the_lent_numbers_themselves() {
    let Lists { numbers, ends } = lent(&[FIRST, &[], SECOND]);
    let part = list_part(&numbers, &ends, ALL_DELIVERED, 2);
    assert_eq!(part, SECOND);
    assert_eq!(part.as_ptr(), numbers[FIRST.len()..].as_ptr());
    assert_eq!(list_part(&numbers, &ends, ALL_DELIVERED, 0), FIRST);
    for (part, ends) in [
        (list_part(&numbers, &ends, ALL_DELIVERED, 1), "an empty list"),
        (list_part(&numbers, &ends, ALL_DELIVERED, 3), "no such list"),
        (list_part(&numbers, &[], ALL_DELIVERED, 0), "no lists"),
        (list_part(&numbers, &[2, 1], ALL_DELIVERED, 0), "an end falls"),
        (list_part(&[5, 5], &[2], ALL_DELIVERED, 0), "not ascending"),
    ] {
        assert!(part.is_empty(), "{ends}");
    }
    assert_eq!(list_part(&numbers, &ends, ALL_DELIVERED, 3).as_ptr(), numbers.as_ptr());
}

#[test]
fn replies_of_a_row() {
    let from_the_last_member: Vec<Reply> = (TOP - 1..TOP + 99).map_while(Reply::from_row).collect();
    assert_eq!(
        from_the_last_member,
        every![Reply: Member(u32::MAX), No, Yes, Finished, Unknown]
    );
    assert_eq!(Reply::from_row(0), Some(Member(0)));
    assert_eq!(Reply::from_row(u64::MAX), None);
}

#[test]
fn codes_of_calls() {
    let calls = every![Call: Next, AtOrPast(7), Past(8), Check(9)];
    assert_eq!(
        calls.map(|call| (call.code(), call.argument())),
        [(0, 0), (1, 7), (2, 8), (3, 9)]
    );
}
