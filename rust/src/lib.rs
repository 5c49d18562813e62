//! Safe calls to Zwailmoor, a proved list set engine.
//!
//! Up to 32 ascending lists of numbers are lent as all numbers in one row, one end for each list, and a word that says which of them
//! were delivered ([`ALL_DELIVERED`]). An expression combines them by union, intersection and difference; one that names a list
//! which was not delivered is refused. A [`run`] draws members of the result in order, or checks them, and hands back a
//! bookmark from which a later run goes on; [`members`] is all of them as an iterator. [`bounds`] says from the lists' lengths alone
//! how much room a run can take. [`update`] changes a list by one number, and keeps a row of members current. [`join_deliveries`]
//! makes a full delivery and a daily one into one.
//!
//! An expression may be regrouped, anywhere inside and any number of times: the members of a union or an intersection in another
//! order; a union within a union opened out, and the same for intersections; a − (b ∪ c) as (a − b) − c; a ∩ (b ∪ c) as
//! (a ∩ b) ∪ (a ∩ c); and each of these back. As long as it is accepted, over the same lists every list of calls from the same
//! bookmark gets equal replies and an equal last bookmark. Moves and places may differ.
//!
//! No call allocates (only [`members`] does), keeps a slice or has state. Every call takes any values; what is wrong comes back as
//! a [`Refusal`], and all lent rows, and a lent count, are then as they were. On success, elements behind those written hold what they held.
//!
//! # "(team or partners) and held, but not withdrawn"
//!
//! ```
//! use zwailmoor::ALL_DELIVERED;
//!
//! // team, partners, held, withdrawn
//! let numbers = [101, 104, 107, 110, 102, 104, 108, 101, 102, 104, 107, 108, 104, 107];
//! let ends = [4, 7, 12, 14];
//!
//! // A difference of (an intersection of two: a union of two, lists 0 and 1; list 2) and list 3.
//! let row = [64, 194, 130, 0, 1, 2, 3];
//! let mut packed = [0; 41];
//! let length = zwailmoor::pack_expression(&row, ends.len(), ALL_DELIVERED, &mut packed)?;
//! let packed = &packed[..length];
//!
//! let mut members = zwailmoor::members(&numbers, &ends, ALL_DELIVERED, packed, 0, 100)?;
//! assert_eq!(members.next(), Some(101));
//!
//! // Broken off here, and taken up again later.
//! let bookmark = members.bookmark();
//! assert_eq!(bookmark, 102);
//! let rest: Vec<u32> = zwailmoor::members(&numbers, &ends, ALL_DELIVERED, packed, bookmark, 100)?.collect();
//! assert_eq!(rest, [102, 108]);
//!
//! // Regrouped, "(team and held, or partners and held) but not withdrawn" goes on from that bookmark too.
//! let row = [64, 130, 194, 0, 2, 194, 1, 2, 3];
//! let mut regrouped = [0; 41];
//! let length = zwailmoor::pack_expression(&row, ends.len(), ALL_DELIVERED, &mut regrouped)?;
//! let same = zwailmoor::members(&numbers, &ends, ALL_DELIVERED, &regrouped[..length], bookmark, 100)?;
//! assert!(same.eq([102, 108]));
//!
//! // Had the withdrawn list not come, nobody could be shown. The bit of list 3 is 0, and its numbers are not there.
//! let without = zwailmoor::members(&numbers[..12], &[4, 7, 12, 12], !(1 << 28), packed, 0, 100);
//! assert_eq!(without.err(), Some(zwailmoor::Refusal::ListNotDelivered));
//! # Ok::<(), zwailmoor::Refusal>(())
//! ```

#![deny(missing_docs)]
#![deny(unsafe_code)]

mod call;
mod calls;
#[allow(unsafe_code)]
mod ffi;
mod members;
mod refusal;

pub use call::{Call, Reply};
pub use calls::{
    bounds, decode_delivery, downgrade_delivery, encode_delivery, join_deliveries, list_part, pack_expression, run,
    unpack_expression, update, upgrade_delivery, Bounds, Change, DecodeResult, RunResult, ALL_DELIVERED,
};
pub use members::{members, Members};
pub use refusal::Refusal;

#[cfg(test)]
mod tests;
