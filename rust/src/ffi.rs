//! The engine's eleven C calls, and the only `unsafe` of this package.
//!
//! Each function here lends slices for one call. What the engine asks of its caller (`include/zwailmoor.h`) a slice is by its
//! type: its pointer is aligned and never null, also where it is empty; it has as many elements as it says; and a `&mut` slice
//! overlaps no other slice; a `&mut` count is as good. The engine keeps no pointer, and takes every value. In C a slice is two
//! arguments, pointer and length. They must be declared so: Rust's own `&[T]` in an `extern "C"` signature is passed otherwise
//! once registers run out.

/// What reading or writing one row hands back.
#[repr(C)]
#[derive(Debug, Clone, Copy, PartialEq, Eq)]
pub struct WriteResult {
    pub number: u32,
    pub count: usize,
}

/// What reading a delivery hands back.
#[repr(C)]
#[derive(Debug, Clone, Copy, PartialEq, Eq)]
pub struct DecodeResult {
    pub number: u32,
    pub word: u32,
    pub lists: usize,
    pub numbers: usize,
}

/// Where one list stands.
#[repr(C)]
#[derive(Debug, Clone, Copy, PartialEq, Eq)]
pub struct Span {
    pub start: usize,
    pub size: usize,
}

/// What a run hands back.
#[repr(C)]
#[derive(Debug, Clone, Copy, PartialEq, Eq)]
pub struct RunResult {
    pub number: u32,
    pub moves: u32,
    pub places: [u16; 48],
    pub bookmark: u64,
}

/// How large it can get.
#[repr(C)]
#[derive(Debug, Clone, Copy, PartialEq, Eq)]
pub struct BoundsResult {
    pub number: u32,
    pub members: u32,
    pub moves: u32,
    pub bytes: usize,
}

extern "C" {
    fn zwailmoor_unpack_expression(
        packed: *const u8,
        packed_length: usize,
        lists: usize,
        word: u32,
        row: *mut u8,
        row_length: usize,
    ) -> WriteResult;
    fn zwailmoor_pack_expression(
        row: *const u8,
        row_length: usize,
        lists: usize,
        word: u32,
        packed: *mut u8,
        packed_length: usize,
    ) -> WriteResult;
    fn zwailmoor_decode_delivery(
        delivery: *const u8,
        delivery_length: usize,
        numbers: *mut u32,
        numbers_length: usize,
        ends: *mut u32,
        ends_length: usize,
    ) -> DecodeResult;
    fn zwailmoor_encode_delivery(
        numbers: *const u32,
        numbers_length: usize,
        ends: *const u32,
        ends_length: usize,
        word: u32,
        delivery: *mut u8,
        delivery_length: usize,
    ) -> WriteResult;
    fn zwailmoor_upgrade_delivery(old: *const u8, old_length: usize, delivery: *mut u8, delivery_length: usize) -> WriteResult;
    fn zwailmoor_downgrade_delivery(delivery: *const u8, delivery_length: usize, old: *mut u8, old_length: usize) -> WriteResult;
    fn zwailmoor_join_deliveries(
        full: *const u8,
        full_length: usize,
        daily: *const u8,
        daily_length: usize,
        joined: *mut u8,
        joined_length: usize,
    ) -> WriteResult;
    fn zwailmoor_list_span(
        numbers: *const u32,
        numbers_length: usize,
        ends: *const u32,
        ends_length: usize,
        word: u32,
        list: usize,
    ) -> Span;
    fn zwailmoor_bounds(ends: *const u32, ends_length: usize, packed: *const u8, packed_length: usize) -> BoundsResult;
    fn zwailmoor_run(
        numbers: *const u32,
        numbers_length: usize,
        ends: *const u32,
        ends_length: usize,
        word: u32,
        packed: *const u8,
        packed_length: usize,
        bookmark: u64,
        codes: *const u8,
        codes_length: usize,
        arguments: *const u32,
        arguments_length: usize,
        replies: *mut u64,
        replies_length: usize,
    ) -> RunResult;
    fn zwailmoor_update(
        numbers: *mut u32,
        numbers_length: usize,
        ends: *mut u32,
        ends_length: usize,
        word: u32,
        packed: *const u8,
        packed_length: usize,
        list: usize,
        number: u32,
        add: u8,
        members: *mut u32,
        members_length: usize,
        count: *mut usize,
    ) -> u32;
}

pub fn unpack_expression(packed: &[u8], lists: usize, word: u32, row: &mut [u8]) -> WriteResult {
    // SAFETY: both pairs are slices, and `row`, the one written, is `&mut`.
    unsafe { zwailmoor_unpack_expression(packed.as_ptr(), packed.len(), lists, word, row.as_mut_ptr(), row.len()) }
}

pub fn pack_expression(row: &[u8], lists: usize, word: u32, packed: &mut [u8]) -> WriteResult {
    // SAFETY: both pairs are slices, and `packed`, the one written, is `&mut`.
    unsafe { zwailmoor_pack_expression(row.as_ptr(), row.len(), lists, word, packed.as_mut_ptr(), packed.len()) }
}

pub fn decode_delivery(delivery: &[u8], numbers: &mut [u32], ends: &mut [u32]) -> DecodeResult {
    // SAFETY: all pairs are slices, and the two that are written are `&mut`, so apart from each other.
    unsafe {
        zwailmoor_decode_delivery(
            delivery.as_ptr(),
            delivery.len(),
            numbers.as_mut_ptr(),
            numbers.len(),
            ends.as_mut_ptr(),
            ends.len(),
        )
    }
}

pub fn encode_delivery(numbers: &[u32], ends: &[u32], word: u32, delivery: &mut [u8]) -> WriteResult {
    // SAFETY: all pairs are slices, and `delivery`, the one written, is `&mut`; those that are only read may overlap.
    unsafe {
        zwailmoor_encode_delivery(
            numbers.as_ptr(),
            numbers.len(),
            ends.as_ptr(),
            ends.len(),
            word,
            delivery.as_mut_ptr(),
            delivery.len(),
        )
    }
}

pub fn upgrade_delivery(old: &[u8], delivery: &mut [u8]) -> WriteResult {
    // SAFETY: both pairs are slices, and `delivery`, the one written, is `&mut`.
    unsafe { zwailmoor_upgrade_delivery(old.as_ptr(), old.len(), delivery.as_mut_ptr(), delivery.len()) }
}

pub fn downgrade_delivery(delivery: &[u8], old: &mut [u8]) -> WriteResult {
    // SAFETY: both pairs are slices, and `old`, the one written, is `&mut`.
    unsafe { zwailmoor_downgrade_delivery(delivery.as_ptr(), delivery.len(), old.as_mut_ptr(), old.len()) }
}

pub fn join_deliveries(full: &[u8], daily: &[u8], joined: &mut [u8]) -> WriteResult {
    // SAFETY: all pairs are slices, and `joined`, the one written, is `&mut`; those that are only read may overlap.
    unsafe {
        zwailmoor_join_deliveries(
            full.as_ptr(),
            full.len(),
            daily.as_ptr(),
            daily.len(),
            joined.as_mut_ptr(),
            joined.len(),
        )
    }
}

pub fn list_span(numbers: &[u32], ends: &[u32], word: u32, list: usize) -> Span {
    // SAFETY: both pairs are slices, and nothing is written.
    unsafe { zwailmoor_list_span(numbers.as_ptr(), numbers.len(), ends.as_ptr(), ends.len(), word, list) }
}

pub fn bounds(ends: &[u32], packed: &[u8]) -> BoundsResult {
    // SAFETY: both pairs are slices, and nothing is written.
    unsafe { zwailmoor_bounds(ends.as_ptr(), ends.len(), packed.as_ptr(), packed.len()) }
}

// As many arguments as in C.
#[allow(clippy::too_many_arguments)]
pub fn run(
    numbers: &[u32],
    ends: &[u32],
    word: u32,
    packed: &[u8],
    bookmark: u64,
    codes: &[u8],
    arguments: &[u32],
    replies: &mut [u64],
) -> RunResult {
    // SAFETY: all pairs are slices, and `replies`, the one written, is `&mut`; those that are only read may overlap.
    unsafe {
        zwailmoor_run(
            numbers.as_ptr(),
            numbers.len(),
            ends.as_ptr(),
            ends.len(),
            word,
            packed.as_ptr(),
            packed.len(),
            bookmark,
            codes.as_ptr(),
            codes.len(),
            arguments.as_ptr(),
            arguments.len(),
            replies.as_mut_ptr(),
            replies.len(),
        )
    }
}

// As many arguments as in C.
#[allow(clippy::too_many_arguments)]
pub fn update(
    numbers: &mut [u32],
    ends: &mut [u32],
    word: u32,
    packed: &[u8],
    list: usize,
    number: u32,
    add: u8,
    members: &mut [u32],
    count: &mut usize,
) -> u32 {
    // SAFETY: all pairs are slices, and the three that are written and `count` are `&mut`, so apart from each other.
    unsafe {
        zwailmoor_update(
            numbers.as_mut_ptr(),
            numbers.len(),
            ends.as_mut_ptr(),
            ends.len(),
            word,
            packed.as_ptr(),
            packed.len(),
            list,
            number,
            add,
            members.as_mut_ptr(),
            members.len(),
            count,
        )
    }
}
