//! The engine's calls over slices.

use crate::ffi;
use crate::Refusal;

/// The word of lists that were all delivered.
///
/// A word goes beside the ends of lists and says which lists were delivered, list 0 in its most significant bit: 1 delivered, 0 not.
/// Bits of lists that are not there are ignored, and 0 in a word that is handed back.
pub const ALL_DELIVERED: u32 = u32::MAX;

/// What a delivery held: which lists were delivered; so many lists, and as many ends; so many numbers in all.
///
/// More fields may come, so outside this package it is taken apart with `..`.
#[derive(Debug, Clone, Copy, PartialEq, Eq)]
#[non_exhaustive]
pub struct DecodeResult {
    /// Which lists were delivered, list 0 in the most significant bit.
    pub word: u32,
    /// How many lists, and so how many ends were written.
    pub lists: usize,
    /// How many numbers were written.
    pub numbers: usize,
}

/// What a run hands back beside the replies.
///
/// More fields may come, so outside this package it is taken apart with `..`.
#[derive(Debug, Clone, Copy, PartialEq, Eq)]
#[non_exhaustive]
pub struct RunResult {
    /// How many moves the readers made in all. A reader that seeks a number first hops: while 64 numbers or more remain from its
    /// place and the 64th of them is below that number, its place grows by 64, which is one move. Then it moves singly. So the moves
    /// are at most the sum of the places, and that is at most what [`bounds`] says.
    pub moves: u32,
    /// Where each node's reader stands, in expression order: how many numbers of its list it has passed; 0 at operators and unused
    /// nodes.
    pub places: [u16; 48],
    /// Where to go on: a run from here over the same lists and expression continues this one, with moves and places of its own.
    pub bookmark: u64,
}

/// How large it can get; from [`bounds`].
///
/// More fields may come, so outside this package it is taken apart with `..`.
#[derive(Debug, Clone, Copy, PartialEq, Eq)]
#[non_exhaustive]
pub struct Bounds {
    /// The most members that the expression can have.
    pub members: u32,
    /// The most moves that a run can make.
    pub moves: u32,
    /// The most bytes that a delivery of the lists can fill.
    pub bytes: usize,
}

/// What [`update`] does to a list. There is nothing else to do to it, so a match needs no wildcard arm.
#[derive(Debug, Clone, Copy, PartialEq, Eq, Hash)]
pub enum Change {
    /// Add this number.
    Add(u32),
    /// Remove this number.
    Remove(u32),
}

// A result of the C calls is taken apart without `..`, so that no part which comes to it is left behind.

fn count(result: ffi::WriteResult) -> Result<usize, Refusal> {
    let ffi::WriteResult { number, count } = result;
    Refusal::test(number).map(|()| count)
}

/// Writes a packed expression over so many lists, of which the word says which were delivered, in its row form, one byte a node,
/// and hands back how many nodes.
///
/// A row of 48 bytes is always long enough.
///
/// # Errors
/// 7; at each node 2, 3, 1, 4, 18; after the last node 5, then 6. The row is then as it was.
pub fn unpack_expression(packed: &[u8], lists: usize, word: u32, row: &mut [u8]) -> Result<usize, Refusal> {
    count(ffi::unpack_expression(packed, lists, word, row))
}

/// Writes an expression's row form over such lists packed, and hands back how many bytes.
///
/// In a row 0 to 31 is a list, 64 a difference of the two nodes that follow, 129 to 136 a union and 193 to 200 an intersection of
/// the 1 to 8 nodes that follow. 41 bytes are always enough for the packed form.
///
/// # Errors
/// 7; at each node 2, 3, 1, 14, 4, 18; after the last node 5, then 6. The packed bytes are then as they were.
pub fn pack_expression(row: &[u8], lists: usize, word: u32, packed: &mut [u8]) -> Result<usize, Refusal> {
    count(ffi::pack_expression(row, lists, word, packed))
}

/// Reads a delivery: the numbers of all its lists one after the other, and for each list where it ends, and whether it was
/// delivered. A list that was not has no numbers, but an end.
///
/// ```
/// use zwailmoor::{decode_delivery, unpack_expression, Refusal};
///
/// // Two lists: 2 3 5, and one that was not delivered.
/// let (mut numbers, mut ends) = ([0; 3], [0; 2]);
/// let read = decode_delivery(&[0x0A, 0x00, 0x06, 0x00, 0x00, 0x00, 0x04, 0x04], &mut numbers, &mut ends)?;
/// assert_eq!((numbers, ends, read.word), ([2, 3, 5], [3, 3], 1 << 31));
///
/// // List 0 can be asked for. List 0 less list 1 cannot: without list 1 nobody knows what to take away.
/// assert_eq!(unpack_expression(&[0x00], read.lists, read.word, &mut [0; 3]), Ok(1));
/// let difference = unpack_expression(&[0x40, 0x01], read.lists, read.word, &mut [0; 3]);
/// assert_eq!(difference, Err(Refusal::ListNotDelivered));
/// # Ok::<(), Refusal>(())
/// ```
///
/// # Errors
/// 1 wherever the bits run out; 7; 6 for the ends; then for each list 6 for the numbers, 8, 9; at the end 5. Both rows are then as
/// they were.
pub fn decode_delivery(delivery: &[u8], numbers: &mut [u32], ends: &mut [u32]) -> Result<DecodeResult, Refusal> {
    let ffi::DecodeResult {
        number,
        word,
        lists,
        numbers,
    } = ffi::decode_delivery(delivery, numbers, ends);
    Refusal::test(number).map(|()| DecodeResult { word, lists, numbers })
}

/// Writes lists as a delivery, and hands back how many bytes.
///
/// There are as many lists as ends; numbers behind the last end are ignored. Of a list that was not delivered one bit is written
/// that says so.
///
/// # Errors
/// 7, 10, 11, each over all lists before the next; then 6. The delivery's bytes are then as they were.
pub fn encode_delivery(numbers: &[u32], ends: &[u32], word: u32, delivery: &mut [u8]) -> Result<usize, Refusal> {
    count(ffi::encode_delivery(numbers, ends, word, delivery))
}

/// Moves a stored delivery from the old form, which has no bit ahead of a list's count, to the one that all other calls read and
/// write, all its lists delivered; hands back how many bytes.
///
/// 4 bytes more than the old form has are always enough.
///
/// ```
/// // One list, 2 3 5.
/// let old = [0x04, 0x00, 0x0C, 0x00, 0x00, 0x00, 0x08, 0x08];
/// let (mut delivery, mut back) = ([0; 12], [0; 8]);
/// let length = zwailmoor::upgrade_delivery(&old, &mut delivery)?;
/// assert_eq!(delivery[..length], [0x06, 0x00, 0x06, 0x00, 0x00, 0x00, 0x04, 0x04]);
/// assert_eq!(zwailmoor::downgrade_delivery(&delivery[..length], &mut back)?, 8);
/// assert_eq!(back, old);
/// # Ok::<(), zwailmoor::Refusal>(())
/// ```
///
/// # Errors
/// 1 wherever the bits run out; 7; for each list 8, 9; then 5; 6. The delivery's bytes are then as they were.
pub fn upgrade_delivery(old: &[u8], delivery: &mut [u8]) -> Result<usize, Refusal> {
    count(ffi::upgrade_delivery(old, delivery))
}

/// Moves a delivery back to the old form, and hands back how many bytes.
///
/// As many bytes as the delivery has are always enough. There and back, in either direction, gives the same bytes.
///
/// # Errors
/// 1 wherever the bits run out; 7; for each list 8, 9; then 5; 19 if any list was not delivered; 6. The old form's bytes are then as
/// they were.
pub fn downgrade_delivery(delivery: &[u8], old: &mut [u8]) -> Result<usize, Refusal> {
    count(ffi::downgrade_delivery(delivery, old))
}

/// Joins a full delivery and a daily one, of equally many lists, into one delivery, and hands back how many bytes.
///
/// List k of the outcome is the union of both lists k, a number that is in both standing there once. A list that was delivered in one
/// only is taken from that one; one that was delivered in neither is not delivered. Delivered and empty is delivered. The other way
/// round gives the same bytes, and a delivery joined with itself gives its own.
///
/// 8,388,569 bytes are always enough, which is what [`bounds`] says of 32 lists of 65,535. The outcome can be longer than both
/// deliveries together: one number far away widens every gap of its list. Its work is proportional to the deliveries and what is
/// written.
///
/// ```
/// use zwailmoor::{decode_delivery, encode_delivery, join_deliveries};
///
/// // Weekly 2 3 5 and a list that was not delivered; daily 3 4, and 9.
/// let (mut full, mut daily, mut joined) = ([0; 99], [0; 99], [0; 99]);
/// let full_length = encode_delivery(&[2, 3, 5], &[3, 3], 1 << 31, &mut full)?;
/// let daily_length = encode_delivery(&[3, 4, 9], &[2, 3], 3 << 30, &mut daily)?;
///
/// let length = join_deliveries(&full[..full_length], &daily[..daily_length], &mut joined)?;
/// let (mut numbers, mut ends) = ([0; 5], [0; 2]);
/// let read = decode_delivery(&joined[..length], &mut numbers, &mut ends)?;
/// assert_eq!((numbers, ends, read.word), ([2, 3, 4, 5, 9], [4, 5], 3 << 30));
/// # Ok::<(), zwailmoor::Refusal>(())
/// ```
///
/// # Errors
/// Of the full one 1 wherever the bits run out, 7, for each list 8, 9, then 5; the same of the daily one; 20; 21, over all lists; 6.
/// The joined bytes are then as they were.
pub fn join_deliveries(full: &[u8], daily: &[u8], joined: &mut [u8]) -> Result<usize, Refusal> {
    count(ffi::join_deliveries(full, daily, joined))
}

/// The numbers of one list: the part of the lent numbers itself.
///
/// It is the empty part at the start if refusal 7, 10 or 11 would apply to the lists, or if there is no such list. A list that was
/// not delivered has the empty part at its own place.
pub fn list_part<'a>(numbers: &'a [u32], ends: &[u32], word: u32, list: usize) -> &'a [u32] {
    let span = ffi::list_span(numbers, ends, word, list);
    &numbers[span.start..][..span.size]
}

/// How large it can get, from the ends of the lists and the packed expression alone: no number is read, so none need be there yet,
/// and every list counts as delivered.
///
/// - `members`: a list has as many as it is long, a union at most the sum of its nodes', an intersection the least of them, a
///   difference its first node's. For a single list it is exact.
/// - `moves`: the lengths of the leaves' lists added up, a list once for each leaf it stands at. No run makes more; each
///   hop of a reader spares 63.
/// - `bytes`: the most that a delivery of lists with these ends can fill, whether the expression names them or not. They are all
///   filled where every list was delivered, and each of two numbers or more needs the width of 32.
///
/// To reserve by it: `members + 1` replies, and as many codes and arguments, are enough for a [`run`] of next calls to draw
/// everything from any bookmark and end with finished. `bytes` bytes are never too few for [`encode_delivery`]: 6 cannot come. To read
/// such a delivery back takes as many ends as there are lists, and as many numbers as the last end says. None of the three overflows:
/// `members` and `moves` are at most 3,145,680, and `bytes` at most 8,388,569. Its work is proportional to the lists and the nodes.
///
/// ```
/// use zwailmoor::{bounds, encode_delivery, run, Call, Reply, ALL_DELIVERED};
///
/// // team, partners, held, withdrawn; "(team or partners) and held, but not withdrawn"
/// let numbers = [101, 104, 107, 110, 102, 104, 108, 101, 102, 104, 107, 108, 104, 107];
/// let ends = [4, 7, 12, 14];
/// let packed = [0x73, 0x10, 0x00, 0x41, 0x03];
///
/// let most = bounds(&ends, &packed)?;
/// assert_eq!((most.members, most.moves, most.bytes), (5, 14, 68));
///
/// let calls = most.members as usize + 1;
/// let (codes, arguments, mut replies) = (vec![Call::Next.code(); calls], vec![0; calls], vec![0; calls]);
/// let result = run(&numbers, &ends, ALL_DELIVERED, &packed, 0, &codes, &arguments, &mut replies)?;
/// assert_eq!(Reply::from_row(replies[calls - 1]), Some(Reply::Finished));
/// assert!(result.moves <= most.moves);
///
/// let mut delivery = vec![0; most.bytes];
/// assert_eq!(encode_delivery(&numbers, &ends, ALL_DELIVERED, &mut delivery)?, 31);
/// # Ok::<(), zwailmoor::Refusal>(())
/// ```
///
/// # Errors
/// 7; 10 if an end falls or a list has more than 65,535 numbers (there is no row that an end could pass); of the expression 1 to 5
/// as in [`unpack_expression`], and never 18.
pub fn bounds(ends: &[u32], packed: &[u8]) -> Result<Bounds, Refusal> {
    let ffi::BoundsResult {
        number,
        members,
        moves,
        bytes,
    } = ffi::bounds(ends, packed);
    Refusal::test(number).map(|()| Bounds { members, moves, bytes })
}

/// Puts calls, each a code and an argument ([`Call`](crate::Call)), to the set that the expression denotes over the lists, and
/// writes a reply ([`Reply::from_row`](crate::Reply::from_row)) for each.
///
/// The floor begins at the bookmark. A code above 3 is replied to as unknown, and changes nothing.
///
/// # Errors
/// 7, 10, 11, each over all lists before the next; of the expression 1 to 5 and 18 as in [`unpack_expression`]; 12; 13. The replies
/// are then as they were.
// As many arguments as in C.
#[allow(clippy::too_many_arguments)]
pub fn run(
    numbers: &[u32],
    ends: &[u32],
    word: u32,
    packed: &[u8],
    bookmark: u64,
    codes: &[u8],
    arguments: &[u32],
    replies: &mut [u64],
) -> Result<RunResult, Refusal> {
    let ffi::RunResult {
        number,
        moves,
        places,
        bookmark,
    } = ffi::run(numbers, ends, word, packed, bookmark, codes, arguments, replies);
    Refusal::test(number).map(|()| RunResult { moves, places, bookmark })
}

/// Adds a number to a list or removes it, and keeps a row of the expression's members current.
///
/// The first `count` elements of `members` are the expression's members over the lists, ascending, before and after; only that
/// number may have come or gone. The later numbers of the lists move by one place, and the ends from that list's on by one. The rows
/// behind the new last end and the new count hold what they held.
///
/// Adding takes a place behind the last end; a new member takes one behind the old ones, and can come by removing too, from a
/// list that is subtracted. It draws all members to compare them with the row, so it takes about as long as a [`run`] that does.
///
/// ```
/// use zwailmoor::{update, Change, ALL_DELIVERED};
///
/// // team, partners, held, withdrawn, and a free place; "(team or partners) and held, but not withdrawn"
/// let mut numbers = [101, 104, 107, 110, 102, 104, 108, 101, 102, 104, 107, 108, 104, 107, 0];
/// let mut ends = [4, 7, 12, 14];
/// let packed = [0x73, 0x10, 0x00, 0x41, 0x03];
/// let (mut members, mut count) = ([101, 102, 108, 0], 3);
///
/// // 102 is withdrawn, and 104 no longer.
/// update(&mut numbers, &mut ends, ALL_DELIVERED, &packed, 3, Change::Add(102), &mut members, &mut count)?;
/// assert_eq!(members[..count], [101, 108]);
/// update(&mut numbers, &mut ends, ALL_DELIVERED, &packed, 3, Change::Remove(104), &mut members, &mut count)?;
/// assert_eq!(members[..count], [101, 104, 108]);
/// assert_eq!((&numbers[12..14], ends), (&[102, 107][..], [4, 7, 12, 14]));
/// # Ok::<(), zwailmoor::Refusal>(())
/// ```
///
/// # Errors
/// 7, 10, 11, each over all lists before the next; of the expression 1 to 5 and 18 as in [`unpack_expression`]; 4 for the list, then
/// 18 for it; 17; 15; 16; 6 for either row. All rows and the count are then as they were.
// Nearly as many arguments as in C.
#[allow(clippy::too_many_arguments)]
pub fn update(
    numbers: &mut [u32],
    ends: &mut [u32],
    word: u32,
    packed: &[u8],
    list: usize,
    change: Change,
    members: &mut [u32],
    count: &mut usize,
) -> Result<(), Refusal> {
    let (number, add) = match change {
        Change::Add(number) => (number, 1),
        Change::Remove(number) => (number, 0),
    };
    Refusal::test(ffi::update(numbers, ends, word, packed, list, number, add, members, count))
}
