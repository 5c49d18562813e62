//! Lists that were not delivered, and the bits of lists that are not there.

use crate::Change::{Add, Remove};
use crate::{
    decode_delivery, downgrade_delivery, encode_delivery, list_part, members, pack_expression, run, unpack_expression, update,
    DecodeResult, Refusal, ALL_DELIVERED,
};

/// Lists 2 3 5, not delivered, delivered and empty, 4.
static NUMBERS: [u32; 4] = [2, 3, 5, 4];
static ENDS: [u32; 4] = [3, 3, 3, 4];
const WORD: u32 = 0xB << 28;
const NOT_DELIVERED: usize = 1;

/// The same word with other bits for lists that are not there.
const WORDS: [u32; 4] = [WORD, WORD | 1, WORD | 0x0555_5555, WORD | 0x0FFF_FFFF];

#[test]
fn one_list() {
    // Not delivered; delivered and empty.
    for (bytes, word) in [(&[0x04][..], 0), (&[0x06, 0x00, 0x00], 1 << 31)] {
        let mut ends = [77; 2];
        let result = decode_delivery(bytes, &mut [], &mut ends);
        let expected = DecodeResult {
            word,
            lists: 1,
            numbers: 0,
        };
        assert_eq!((result, ends), (Ok(expected), [0, 77]));
        let mut written = [77; 4];
        assert_eq!(encode_delivery(&[], &[0], word, &mut written), Ok(bytes.len()));
        assert_eq!(&written[..bytes.len()], bytes);
        assert!(written[bytes.len()..].iter().all(|byte| *byte == 77));
    }
}

#[test]
fn written_and_read_back() {
    for word in WORDS {
        let mut bytes = [77; 32];
        let length = encode_delivery(&NUMBERS, &ENDS, word, &mut bytes).unwrap();
        let (mut numbers, mut ends) = ([77; 5], [77; 5]);
        let result = decode_delivery(&bytes[..length], &mut numbers, &mut ends);
        let expected = DecodeResult {
            word: WORD,
            lists: 4,
            numbers: 4,
        };
        assert_eq!(result, Ok(expected), "{word:x}");
        assert_eq!((&numbers[..4], &ends[..4]), (&NUMBERS[..], &ENDS[..]));
        assert_eq!((numbers[4], ends[4]), (77, 77));
        let back = downgrade_delivery(&bytes[..length], &mut [0; 32]);
        assert_eq!(back, Err(Refusal::DeliveryIncomplete));
    }
}

#[test]
fn a_contradicting_word() {
    // Bit 0 at list 0, at list 3 or at both, which have numbers.
    for word in [0, 0x4 << 28, 0x7 << 28, 0xA << 28, 0xE << 28, 0x6FFF_FFFF] {
        let written = encode_delivery(&NUMBERS, &ENDS, word, &mut [0; 32]);
        assert_eq!(written, Err(Refusal::BadEnds), "{word:x}");
        // Ahead of the expression, which names list 1.
        let ran = run(&NUMBERS, &ENDS, word, &[0x02], 0, &[], &[], &mut []);
        assert_eq!(ran, Err(Refusal::BadEnds), "{word:x}");
        assert_eq!(list_part(&NUMBERS, &ENDS, word, 3).as_ptr(), NUMBERS.as_ptr(), "{word:x}");
    }
    assert_eq!(encode_delivery(&[5, 5], &[2], 0, &mut [0; 32]), Err(Refusal::BadEnds));
    assert_eq!(
        encode_delivery(&[5, 5], &[2, 2], 1 << 31, &mut [0; 32]),
        Err(Refusal::NotAscending)
    );
    assert_eq!(encode_delivery(&[5, 5], &[], 0, &mut [0; 32]), Err(Refusal::NumberOfLists));
}

#[test]
fn parts() {
    for word in WORDS {
        for (list, start, end) in [(0, 0, 3), (NOT_DELIVERED, 3, 3), (2, 3, 3), (3, 3, 4), (4, 0, 0), (31, 0, 0)] {
            let part = list_part(&NUMBERS, &ENDS, word, list);
            assert_eq!(
                part.as_ptr_range(),
                NUMBERS[start..end].as_ptr_range(),
                "{word:x}, list {list}"
            );
        }
    }
}

#[test]
fn expressions() {
    let unpack = |bytes: &[u8], lists, word| unpack_expression(bytes, lists, word, &mut [0; 48]);
    let pack = |row: &[u8], lists, word| pack_expression(row, lists, word, &mut [0; 48]);
    for word in WORDS {
        // List 1 is there, list 4 is not.
        assert_eq!(unpack(&[0x02], 4, word), Err(Refusal::ListNotDelivered));
        assert_eq!(pack(&[1], 4, word), Err(Refusal::ListNotDelivered));
        assert_eq!(unpack(&[0x08], 4, word), Err(Refusal::NoSuchList));
        assert_eq!(pack(&[4], 4, word), Err(Refusal::NoSuchList));
        assert_eq!(pack(&[132, 0, 2, 3, 0], 4, word), Ok(5));
        // The first leaf decides; what is left over comes last.
        assert_eq!(pack(&[130, 1, 4], 4, word), Err(Refusal::ListNotDelivered));
        assert_eq!(pack(&[130, 4, 1], 4, word), Err(Refusal::NoSuchList));
        assert_eq!(pack(&[130, 1, 32], 4, word), Err(Refusal::ListNotDelivered));
        assert_eq!(pack(&[130, 32, 1], 4, word), Err(Refusal::UnknownByte));
        assert_eq!(pack(&[130, 1], 4, word), Err(Refusal::ListNotDelivered));
        assert_eq!(pack(&[1, 0], 4, word), Err(Refusal::ListNotDelivered));
        assert_eq!(pack_expression(&[1], 4, word, &mut []), Err(Refusal::ListNotDelivered));
        assert_eq!(pack(&[1], 0, word), Err(Refusal::NumberOfLists));
    }
    for list in 0..32 {
        let (only, others) = (1 << (31 - list), !(1 << (31 - list)));
        assert_eq!(pack(&[list], 32, only), Ok(1));
        assert_eq!(pack(&[list], 32, others), Err(Refusal::ListNotDelivered));
        assert_eq!(unpack(&[list << 1], 32, only), Ok(1));
        assert_eq!(unpack(&[list << 1], 32, others), Err(Refusal::ListNotDelivered));
    }
}

#[test]
fn a_withdrawn_list_that_did_not_come() {
    // List 0 less list 1; less list 2, which came and is empty; list 0 and list 3.
    for word in WORDS {
        let drawn = |packed: &[u8]| members(&NUMBERS, &ENDS, word, packed, 0, 9).map(|drawn| drawn.collect::<Vec<u32>>());
        assert_eq!(drawn(&[0x40, 0x01]), Err(Refusal::ListNotDelivered));
        assert_eq!(drawn(&[0x40, 0x02]), Ok(vec![2, 3, 5]));
        assert_eq!(drawn(&[0x88, 0x00, 0x60]), Ok(vec![2, 3, 4, 5]));
        // Behind the lists, ahead of the bookmark and the rows' lengths.
        let ran = run(&NUMBERS, &ENDS, word, &[0x40, 0x01], u64::MAX, &[0], &[], &mut []);
        assert_eq!(ran.err(), Some(Refusal::ListNotDelivered));
    }
}

#[test]
fn a_change_of_a_list_that_did_not_come() {
    for word in WORDS {
        let change = |packed: &[u8], list, change, kept: &[u32]| {
            let (mut numbers, mut ends) = ([2, 3, 5, 4, 77], ENDS);
            let (mut row, mut count) = ([kept, &[77]].concat(), kept.len());
            let result = update(&mut numbers, &mut ends, word, packed, list, change, &mut row, &mut count);
            (result, numbers, ends, row, count)
        };
        let unchanged = ([2, 3, 5, 4, 77], ENDS);
        // For the list itself: behind 4, ahead of 17 and 15.
        for (packed, list, kept) in [
            (&[0x00][..], NOT_DELIVERED, &[9][..]),
            (&[0x00], NOT_DELIVERED, &[2, 3, 5]),
            (&[0x02], 0, &[]),
        ] {
            for to_do in [Add(7), Remove(7)] {
                let (result, numbers, ends, row, count) = change(packed, list, to_do, kept);
                assert_eq!(result, Err(Refusal::ListNotDelivered));
                assert_eq!(((numbers, ends), row, count), (unchanged, [kept, &[77]].concat(), kept.len()));
            }
        }
        assert_eq!(change(&[0x00], 4, Add(7), &[9]).0, Err(Refusal::NoSuchList));
        assert_eq!(change(&[0x02], 4, Add(7), &[9]).0, Err(Refusal::ListNotDelivered));
        // Other lists can be changed: list 1 stays where it is, between its neighbours.
        let (result, numbers, ends, row, count) = change(&[0x00], 0, Add(7), &[2, 3, 5]);
        assert_eq!((result, numbers, ends), (Ok(()), [2, 3, 5, 7, 4], [4, 4, 4, 5]));
        assert_eq!((&row[..], count), (&[2, 3, 5, 7][..], 4));
        let (result, numbers, ends, ..) = change(&[0x00], 2, Add(7), &[2, 3, 5]);
        assert_eq!((result, numbers, ends), (Ok(()), [2, 3, 5, 7, 4], [3, 3, 4, 5]));
    }
}

#[test]
fn the_word_in_which_all_were_delivered() {
    assert_eq!(ALL_DELIVERED, 0xFFFF_FFFF);
    let ends: Vec<u32> = (0..32).map(|list| list / 2).collect();
    let numbers: Vec<u32> = (0..16).collect();
    // Every list of 32 but one that has no numbers.
    for list in (0..32).filter(|list| list % 2 == 1 || *list == 0) {
        let word = !(1 << (31 - list));
        let mut bytes = [0; 400];
        let length = encode_delivery(&numbers, &ends, word, &mut bytes).unwrap();
        let read = decode_delivery(&bytes[..length], &mut [0; 16], &mut [0; 32]).unwrap();
        assert_eq!((read.word, read.lists, read.numbers), (word, 32, 15));
    }
}
