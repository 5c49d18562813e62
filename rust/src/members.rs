//! The members of an expression as an iterator.

use std::iter::FusedIterator;

use crate::{bounds, run, Call, Refusal, Reply};

/// The members of an expression from a bookmark on, ascending, each exactly once; made by [`members`].
///
/// They are drawn page by page. Each page is a run of its own from the bookmark of the page before.
#[derive(Debug, Clone)]
pub struct Members<'a> {
    numbers: &'a [u32],
    ends: &'a [u32],
    word: u32,
    packed: &'a [u8],
    codes: Vec<u8>,
    arguments: Vec<u32>,
    replies: Vec<u64>,
    // The reply of the page that is handed out next.
    at: usize,
    // Where the page ended, and where to go on behind what was handed out.
    drawn: u64,
    bookmark: u64,
}

/// The members of a packed expression over the lists, from a bookmark on (0: from the first), `page` of them in a run.
///
/// The first page is drawn at once. A page of 0 is taken as 1, and one longer than it takes to draw everything as that: the most
/// members that [`bounds`] says, or all numbers if they are fewer (a union of one list with itself counts it twice); and 1 for
/// finished.
///
/// # Errors
/// 7, 10, 11; of the expression 1 to 5 and 18; 12. The iterator itself refuses nothing, since what it has borrowed cannot change.
pub fn members<'a>(
    numbers: &'a [u32],
    ends: &'a [u32],
    word: u32,
    packed: &'a [u8],
    bookmark: u64,
    page: usize,
) -> Result<Members<'a>, Refusal> {
    // Where the bounds are refused, a page of 1 is enough for the run to refuse in its own order.
    let most = bounds(ends, packed).map_or(0, |bounds| bounds.members as usize);
    let page = page.clamp(1, most.min(numbers.len()) + 1);
    let mut members = Members {
        numbers,
        ends,
        word,
        packed,
        codes: vec![Call::Next.code(); page],
        arguments: vec![Call::Next.argument(); page],
        replies: vec![0; page],
        at: 0,
        drawn: bookmark,
        bookmark,
    };
    members.draw()?;
    Ok(members)
}

impl Members<'_> {
    /// Where to go on behind what the iterator has handed out: behind its last member, or, once it has ended, at the top. Before
    /// the first member it is the bookmark that was given.
    pub fn bookmark(&self) -> u64 {
        self.bookmark
    }

    /// How many replies a page has room for.
    #[cfg(test)]
    pub(crate) fn page(&self) -> usize {
        self.replies.len()
    }

    fn draw(&mut self) -> Result<(), Refusal> {
        let result = run(
            self.numbers,
            self.ends,
            self.word,
            self.packed,
            self.drawn,
            &self.codes,
            &self.arguments,
            &mut self.replies,
        )?;
        self.drawn = result.bookmark;
        self.at = 0;
        Ok(())
    }
}

impl Iterator for Members<'_> {
    type Item = u32;

    fn next(&mut self) -> Option<u32> {
        if self.at == self.replies.len() {
            self.draw().expect("what the first page was drawn from has not changed");
        }
        match Reply::from_row(self.replies[self.at]) {
            Some(Reply::Member(member)) => {
                self.at += 1;
                self.bookmark = u64::from(member) + 1;
                Some(member)
            }
            // The place stays at this reply, so that the iterator has ended for good.
            _ => {
                self.bookmark = self.drawn;
                None
            }
        }
    }
}

impl FusedIterator for Members<'_> {}
