//! Rows to lend, in the middle of a longer one that is filled with a pattern, so that every write outside is seen.

use std::fmt::Debug;

const MARGIN: usize = 5;

/// An element that patterns are made of.
pub trait Element: Copy + PartialEq + Debug {
    fn pattern(i: usize) -> Self;
}

impl Element for u8 {
    fn pattern(i: usize) -> Self {
        (i * 37 + 165) as u8
    }
}

impl Element for u32 {
    fn pattern(i: usize) -> Self {
        (i as u32).wrapping_mul(0x0101_6B55) ^ 0xA5C3_96F0
    }
}

impl Element for u64 {
    fn pattern(i: usize) -> Self {
        (i as u64).wrapping_mul(0x9E37_79B9_7F4A_7C15) ^ 0xC3A5_5A3C_F00F_0FF0
    }
}

impl Element for usize {
    fn pattern(i: usize) -> Self {
        u64::pattern(i) as usize
    }
}

/// A row of so many places between two margins, and all of it as it was.
#[derive(Debug, PartialEq, Eq)]
pub struct Lent<T> {
    all: Vec<T>,
    before: Vec<T>,
    places: usize,
}

impl<T: Element> Lent<T> {
    /// A row that holds the pattern too.
    pub fn new(places: usize) -> Self {
        let all: Vec<T> = (0..places + 2 * MARGIN).map(T::pattern).collect();
        let before = all.clone();
        Lent { all, before, places }
    }

    /// A row that holds these elements.
    pub fn holding(elements: &[T]) -> Self {
        let mut lent = Lent::new(elements.len());
        lent.row().copy_from_slice(elements);
        lent.before.clone_from(&lent.all);
        lent
    }

    pub fn row(&mut self) -> &mut [T] {
        &mut self.all[MARGIN..][..self.places]
    }

    /// Whether these stand at the row's start, and all the rest holds what it held.
    pub fn holds(&self, written: &[T]) -> bool {
        let expected = |i: usize| match i.checked_sub(MARGIN).and_then(|place| written.get(place)) {
            Some(element) => *element,
            None => self.before[i],
        };
        written.len() <= self.places && self.all.iter().enumerate().all(|(i, element)| *element == expected(i))
    }

    /// The same, said where it is not so.
    pub fn assert_holds(&self, written: &[T], which: &str, case: &dyn Debug) {
        assert!(
            self.holds(written),
            "{which} hold {:?}\nwritten should be {written:?}\nin {} places between margins of {MARGIN}, else as before\n{case:#?}",
            self.all,
            self.places
        );
    }
}
