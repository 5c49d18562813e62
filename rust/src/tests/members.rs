//! The iterator over pages.

use super::{lent, packed, Lists, FIRST, FOURTH, SECOND, THIRD, TOP};
use crate::{members, Members, Refusal, ALL_DELIVERED};

const PAGES: [usize; 6] = [0, 1, 2, 3, 1000, usize::MAX];

/// The iterator over lists, from a bookmark on.
fn drawing<'a>(lists: &'a Lists, packed: &'a [u8], bookmark: u64, page: usize) -> Result<Members<'a>, Refusal> {
    members(&lists.numbers, &lists.ends, ALL_DELIVERED, packed, bookmark, page)
}

/// All that is left, or the first hundred of an iterator that does not end.
fn rest(members: Members) -> Vec<u32> {
    members.take(100).collect()
}

#[test]
fn every_page_size_draws_all() {
    let lists = lent(&[FIRST, SECOND, THIRD, FOURTH]);
    let union = packed(&[132, 0, 1, 2, 3]);
    for page in PAGES {
        let drawn = rest(drawing(&lists, &union, 0, page).unwrap());
        assert_eq!(drawn, (0..10).collect::<Vec<u32>>(), "page {page}");
    }
}

#[test]
fn the_bookmark_follows_what_is_handed_out() {
    let lists = lent(&[FIRST, FOURTH]);
    let difference = packed(&[64, 0, 1]);
    for page in PAGES {
        let mut drawn = drawing(&lists, &difference, 3, page).unwrap();
        assert_eq!(drawn.bookmark(), 3);
        for member in [5, 6, 8] {
            assert_eq!(drawn.next(), Some(member));
            assert_eq!(drawn.bookmark(), u64::from(member) + 1, "page {page}");
        }
        for _ in 0..3 {
            assert_eq!(drawn.next(), None);
            assert_eq!(drawn.bookmark(), TOP, "page {page}");
        }
    }
}

#[test]
fn a_bookmark_gives_the_rest() {
    let lists = lent(&[FIRST, SECOND, THIRD, FOURTH]);
    let union = packed(&[132, 0, 1, 2, 3]);
    for (page, taken) in PAGES.iter().flat_map(|page| (0..=10).map(move |taken| (*page, taken))) {
        let mut first = drawing(&lists, &union, 0, page).unwrap();
        let mut all: Vec<u32> = first.by_ref().take(taken).collect();
        all.extend(rest(drawing(&lists, &union, first.bookmark(), page).unwrap()));
        assert_eq!(all, (0..10).collect::<Vec<u32>>(), "page {page}, taken {taken}");
    }
}

#[test]
fn the_greatest_number_ends_it() {
    let lists = lent(&[&[7, u32::MAX]]);
    let list = packed(&[0]);
    for page in PAGES {
        let mut drawn = drawing(&lists, &list, 8, page).unwrap();
        assert_eq!(drawn.next(), Some(u32::MAX));
        assert_eq!(drawn.bookmark(), TOP);
        assert_eq!(drawn.next(), None);
    }
}

#[test]
fn an_empty_set() {
    let lists = lent(&[&[]]);
    let list = packed(&[0]);
    let mut drawn = drawing(&lists, &list, 0, 2).unwrap();
    assert_eq!((drawn.next(), drawn.bookmark()), (None, TOP));
}

#[test]
fn the_room_of_a_page() {
    // Of 7, 5, 5 and 6 numbers.
    let lists = lent(&[FIRST, SECOND, THIRD, FOURTH]);
    for (row, most) in [
        (&[0][..], 7),
        (&[1], 5),
        (&[130, 0, 1], 12),
        (&[132, 0, 1, 2, 3], 23),
        (&[194, 0, 1], 5),
        (&[194, 1, 0], 5),
        (&[64, 0, 1], 7),
        (&[64, 1, 0], 5),
        (&[64, 194, 130, 0, 1, 2, 3], 5),
        // Counted at four leaves it would be 28, but there are 23 numbers.
        (&[132, 0, 0, 0, 0], 23),
    ] {
        let packed = packed(row);
        let room = |page| drawing(&lists, &packed, 0, page).unwrap().page();
        // One more than the members, for finished.
        for (page, expected) in [
            (0, 1),
            (1, 1),
            (2, 2),
            (most, most),
            (most + 1, most + 1),
            (most + 2, most + 1),
            (usize::MAX, most + 1),
        ] {
            assert_eq!(room(page), expected, "page {page} of {row:?}");
        }
    }
    assert_eq!(drawing(&lent(&[&[]]), &[0x00], 0, 9).unwrap().page(), 1);
}

/// The run's number in the run's order, also where the bounds are refused for another.
#[test]
fn refused_by_the_run() {
    let refused = |numbers: &[u32], ends: &[u32], word, packed: &[u8], bookmark| {
        members(numbers, ends, word, packed, bookmark, usize::MAX).err()
    };
    assert_eq!(refused(&[5, 5], &[2], ALL_DELIVERED, &[], 0), Some(Refusal::NotAscending));
    assert_eq!(refused(&[5], &[1], 0, &[], 0), Some(Refusal::BadEnds));
    assert_eq!(refused(&[5], &[1, 0], ALL_DELIVERED, &[], 0), Some(Refusal::BadEnds));
    assert_eq!(refused(&[], &[0], 0, &[0x00, 0x00], 0), Some(Refusal::ListNotDelivered));
    assert_eq!(refused(&[5], &[1], ALL_DELIVERED, &[0x01], TOP + 1), Some(Refusal::LeftOver));
    // The bounds are not: an end passes the row, which they do not have.
    assert_eq!(refused(&[], &[65_535], ALL_DELIVERED, &[0x00], 0), Some(Refusal::BadEnds));
    assert_eq!(refused(&[], &[0], 0, &[0x00], 0), Some(Refusal::ListNotDelivered));
    assert_eq!(
        refused(&[5], &[1], ALL_DELIVERED, &[0x00], TOP + 1),
        Some(Refusal::BadBookmark)
    );
}

#[test]
fn bad_input_is_refused_at_once() {
    let Lists { numbers, ends } = lent(&[FIRST]);
    let list = packed(&[0]);
    assert_eq!(
        members(&numbers, &[], ALL_DELIVERED, &list, 0, 2).err(),
        Some(Refusal::NumberOfLists)
    );
    assert_eq!(
        members(&numbers, &[99], ALL_DELIVERED, &list, 0, 2).err(),
        Some(Refusal::BadEnds)
    );
    assert_eq!(
        members(&[5, 5], &[2], ALL_DELIVERED, &list, 0, 2).err(),
        Some(Refusal::NotAscending)
    );
    assert_eq!(members(&numbers, &ends, 0, &list, 0, 2).err(), Some(Refusal::BadEnds));
    assert_eq!(members(&[], &[0], 0, &list, 0, 2).err(), Some(Refusal::ListNotDelivered));
    assert_eq!(
        members(&numbers, &ends, ALL_DELIVERED, &[], 0, 2).err(),
        Some(Refusal::EndsEarly)
    );
    assert_eq!(
        members(&numbers, &ends, ALL_DELIVERED, &list, TOP + 1, 2).err(),
        Some(Refusal::BadBookmark)
    );
    assert!(members(&numbers, &ends, ALL_DELIVERED, &list, TOP, 2).is_ok_and(|none| rest(none).is_empty()));
}
