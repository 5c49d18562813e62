//! What is asked in a run, and what is replied.

/// One call of a run. In the rows of a run it is a code and an argument.
///
/// More may come, so match with a wildcard arm.
#[derive(Debug, Clone, Copy, PartialEq, Eq, Hash)]
#[non_exhaustive]
pub enum Call {
    /// The least member not below the floor.
    Next,
    /// Raise the floor to this number if it is lower, then as next.
    AtOrPast(u32),
    /// Raise the floor to this number plus 1 if it is lower, then as next.
    Past(u32),
    /// Whether this number is a member not below the floor; then raise the floor to it if it is lower.
    Check(u32),
}

impl Call {
    /// The call's code, 0 to 3.
    pub fn code(self) -> u8 {
        match self {
            Call::Next => 0,
            Call::AtOrPast(_) => 1,
            Call::Past(_) => 2,
            Call::Check(_) => 3,
        }
    }

    /// The call's argument; next ignores it, and has 0.
    pub fn argument(self) -> u32 {
        match self {
            Call::Next => 0,
            Call::AtOrPast(number) | Call::Past(number) | Call::Check(number) => number,
        }
    }
}

/// What one call of a run is replied.
///
/// More may come, so match with a wildcard arm:
///
/// ```
/// use zwailmoor::{run, Call, Reply, RunResult, ALL_DELIVERED};
///
/// let (codes, arguments) = ([Call::Next, Call::Check(8)].map(Call::code), [0, 8]);
/// let mut replies = [0; 2];
/// let RunResult { bookmark, .. } = run(&[5, 8], &[2], ALL_DELIVERED, &[0x00], 0, &codes, &arguments, &mut replies)?;
///
/// let words = replies.map(|element| match Reply::from_row(element) {
///     Some(Reply::Member(number)) => format!("member {number}"),
///     Some(Reply::Yes) => "yes".to_string(),
///     other => format!("{other:?}"),
/// });
/// assert_eq!((words, bookmark), (["member 5".to_string(), "yes".to_string()], 8));
/// # Ok::<(), zwailmoor::Refusal>(())
/// ```
#[derive(Debug, Clone, Copy, PartialEq, Eq, Hash)]
#[non_exhaustive]
pub enum Reply {
    /// The member drawn.
    Member(u32),
    /// No member is left.
    Finished,
    /// The number checked is a member, and was not below the floor.
    Yes,
    /// It is none, or it was below the floor.
    No,
    /// The code stands for no call.
    Unknown,
}

const NO: u64 = 1 << 32;
const YES: u64 = NO + 1;
const FINISHED: u64 = NO + 2;
const UNKNOWN: u64 = NO + 3;

impl Reply {
    /// A reply out of a run's row; `None` for a number that no run writes.
    pub fn from_row(element: u64) -> Option<Reply> {
        match element {
            NO => Some(Reply::No),
            YES => Some(Reply::Yes),
            FINISHED => Some(Reply::Finished),
            UNKNOWN => Some(Reply::Unknown),
            _ => u32::try_from(element).ok().map(Reply::Member),
        }
    }
}
