//! The engine of an earlier landing: the archive of ZWAILMOOR_BEFORE_DIR, its functions renamed by `build.rs`.

use super::same_steps::RunResult;

mod c {
    #[repr(C)]
    pub struct RunResult {
        pub number: u32,
        pub moves: u32,
        pub places: [u16; 48],
        pub bookmark: u64,
    }

    #[link(name = "zwailmoor_before", kind = "static")]
    extern "C" {
        pub fn before_zwailmoor_run(
            numbers: *const u32,
            numbers_length: usize,
            ends: *const u32,
            ends_length: usize,
            word: u32,
            packed: *const u8,
            packed_length: usize,
            bookmark: u64,
            codes: *const u8,
            codes_length: usize,
            arguments: *const u32,
            arguments_length: usize,
            replies: *mut u64,
            replies_length: usize,
        ) -> RunResult;
    }
}

/// A run, or the number of its refusal.
// As many arguments as the engine's call.
#[allow(clippy::too_many_arguments)]
pub fn run(
    numbers: &[u32],
    ends: &[u32],
    word: u32,
    packed: &[u8],
    bookmark: u64,
    codes: &[u8],
    arguments: &[u32],
    replies: &mut [u64],
) -> Result<RunResult, u32> {
    // SAFETY: all pairs are slices, and `replies`, the one written, is `&mut`; those that are only read may overlap.
    let result = unsafe {
        c::before_zwailmoor_run(
            numbers.as_ptr(),
            numbers.len(),
            ends.as_ptr(),
            ends.len(),
            word,
            packed.as_ptr(),
            packed.len(),
            bookmark,
            codes.as_ptr(),
            codes.len(),
            arguments.as_ptr(),
            arguments.len(),
            replies.as_mut_ptr(),
            replies.len(),
        )
    };
    if result.number != 0 {
        return Err(result.number);
    }
    Ok(RunResult {
        moves: result.moves,
        places: result.places,
        bookmark: result.bookmark,
    })
}
