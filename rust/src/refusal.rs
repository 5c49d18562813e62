//! What is wrong with an input, by number.

use std::error::Error;
use std::fmt;

/// Why a call refused its input. All lent rows, and a lent count, are then as they were.
///
/// Where several reasons apply, the one that is tested first is given; each call says its order.
///
/// More may come, so match with a wildcard arm:
///
/// ```
/// use zwailmoor::{unpack_expression, Refusal, ALL_DELIVERED};
///
/// let advice = match unpack_expression(&[0x40, 0x01], 2, ALL_DELIVERED, &mut [0; 2]) {
///     Ok(nodes) => format!("{nodes} nodes"),
///     Err(Refusal::RowTooShort) => "lend a longer row".to_string(),
///     Err(refusal) => format!("refused {}: {refusal}", refusal.number()),
/// };
/// assert_eq!(advice, "lend a longer row");
/// ```
#[derive(Debug, Clone, Copy, PartialEq, Eq, Hash)]
#[non_exhaustive]
#[repr(u32)]
pub enum Refusal {
    /// The bytes or the row end too early.
    EndsEarly = 1,
    /// The expression has more than 48 nodes.
    TooManyNodes = 2,
    /// The expression is deeper than 12.
    TooDeep = 3,
    /// The expression or the change names a list that is not there.
    NoSuchList = 4,
    /// Something is left over behind the end, or a fill bit is 1.
    LeftOver = 5,
    /// A lent row is too short for the result.
    RowTooShort = 6,
    /// There are no lists, or more than 32.
    NumberOfLists = 7,
    /// A delivered number would pass 4,294,967,295.
    GapPassesTop = 8,
    /// A delivered list is not packed in the least width.
    WidthNotLeast = 9,
    /// An end falls or passes the row, or a list has more than 65,535 numbers, or has any and was not delivered.
    BadEnds = 10,
    /// A list does not ascend, or holds a number twice.
    NotAscending = 11,
    /// The bookmark is above 4,294,967,296.
    BadBookmark = 12,
    /// Codes and arguments differ in length, or the replies' row is shorter than the codes.
    LengthsDiffer = 13,
    /// A byte of an expression's row stands for no node.
    UnknownByte = 14,
    /// The number to add is in the list, or the number to remove is not.
    NoChange = 15,
    /// The list to add to has 65,535 numbers.
    ListFull = 16,
    /// The kept row or its count is not that of the expression's members.
    RowNotCurrent = 17,
    /// The expression or the change names a list that was not delivered.
    ListNotDelivered = 18,
    /// A list was not delivered, which the old form of a delivery cannot say.
    DeliveryIncomplete = 19,
    /// The two deliveries to join have differing numbers of lists.
    ListCountsDiffer = 20,
    /// A joined list would have more than 65,535 numbers.
    JoinedListTooLong = 21,
}

use Refusal::*;

/// All variants of an enum, in an array. Its match has no wildcard arm, so that it does not compile where one is left out.
macro_rules! every {
    ($enum:ident: $($variant:ident $(($argument:expr))?),* $(,)?) => {{
        const _: fn($enum) = |value| match value {
            $($enum::$variant { .. } => (),)*
        };
        [$($enum::$variant $(($argument))?),*]
    }};
}
#[cfg(test)]
pub(crate) use every;

impl Refusal {
    /// Every refusal, by number.
    pub const ALL: &'static [Refusal] = &every![Refusal:
        EndsEarly,
        TooManyNodes,
        TooDeep,
        NoSuchList,
        LeftOver,
        RowTooShort,
        NumberOfLists,
        GapPassesTop,
        WidthNotLeast,
        BadEnds,
        NotAscending,
        BadBookmark,
        LengthsDiffer,
        UnknownByte,
        NoChange,
        ListFull,
        RowNotCurrent,
        ListNotDelivered,
        DeliveryIncomplete,
        ListCountsDiffer,
        JoinedListTooLong,
    ];

    /// The refusal's number, as it is in C.
    pub fn number(self) -> u32 {
        self as u32
    }

    /// `Ok` for number 0, else the refusal.
    ///
    /// # Panics
    /// If the number stands for nothing: then the archive linked is not the one this package was written for.
    pub(crate) fn test(number: u32) -> Result<(), Refusal> {
        if number == 0 {
            return Ok(());
        }
        match Self::ALL.iter().find(|refusal| refusal.number() == number) {
            Some(refusal) => Err(*refusal),
            None => panic!("the engine handed back {number}, which stands for nothing: the linked archive is another"),
        }
    }
}

impl fmt::Display for Refusal {
    fn fmt(&self, f: &mut fmt::Formatter<'_>) -> fmt::Result {
        f.write_str(match self {
            EndsEarly => "the bytes or the row end too early",
            TooManyNodes => "the expression has more than 48 nodes",
            TooDeep => "the expression is deeper than 12",
            NoSuchList => "the expression or the change names a list that is not there",
            LeftOver => "something is left over behind the end, or a fill bit is 1",
            RowTooShort => "a lent row is too short for the result",
            NumberOfLists => "there are no lists, or more than 32",
            GapPassesTop => "a delivered number would pass 4,294,967,295",
            WidthNotLeast => "a delivered list is not packed in the least width",
            BadEnds => "an end falls or passes the row, or a list has more than 65,535 numbers, or has any and was not delivered",
            NotAscending => "a list does not ascend, or holds a number twice",
            BadBookmark => "the bookmark is above 4,294,967,296",
            LengthsDiffer => "codes and arguments differ in length, or the replies' row is shorter than the codes",
            UnknownByte => "a byte of the expression's row stands for no node",
            NoChange => "the number to add is in the list, or the number to remove is not",
            ListFull => "the list to add to has 65,535 numbers",
            RowNotCurrent => "the kept row or its count is not that of the expression's members",
            ListNotDelivered => "the expression or the change names a list that was not delivered",
            DeliveryIncomplete => "a list was not delivered, which the old form of a delivery cannot say",
            ListCountsDiffer => "the two deliveries to join have differing numbers of lists",
            JoinedListTooLong => "a joined list would have more than 65,535 numbers",
        })
    }
}

impl Error for Refusal {}
