//! The engine and a second evaluator, made apart, on the same inputs: good ones, ones at a limit and damaged ones. Everything
//! that is sent back is compared, and every element of every lent row.
//!
//! ZWAILMOOR_SEED and ZWAILMOOR_CASES (in decimal) change the seed and how many cases each call is given.

mod bounds;
mod deliveries;
mod evaluator;
mod expressions;
mod inputs;
mod joins;
mod moves;
mod random;
mod regroupings;
mod rows;
mod runs;
mod tally;
mod updates;

// The C calls themselves: the wrapper does not show what a refusal leaves in the other parts of the result.
#[path = "../../src/ffi.rs"]
mod ffi;

/// The package has no refusal that no call here has to meet.
#[test]
fn every_refusal_belongs_to_a_call() {
    let calls = [
        expressions::UNPACK_REFUSALS,
        expressions::PACK_REFUSALS,
        deliveries::DECODE_REFUSALS,
        deliveries::ENCODE_REFUSALS,
        moves::UPGRADE_REFUSALS,
        moves::DOWNGRADE_REFUSALS,
        joins::REFUSALS,
        bounds::REFUSALS,
        runs::REFUSALS,
        updates::REFUSALS,
    ];
    let mut met = calls.concat();
    met.sort();
    met.dedup();
    let all = zwailmoor::Refusal::ALL.iter().map(|refusal| refusal.number() as usize);
    assert_eq!(met, all.collect::<Vec<_>>());
}
