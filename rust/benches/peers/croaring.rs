//! CRoaring, the compressed bitmaps in C: only the functions used here are declared.

use crate::inputs::Tree;
use std::marker::PhantomData;

mod c {
    #[repr(C)]
    pub struct Bitmap {
        _opaque: [u8; 0],
    }

    #[link(name = "roaring")]
    extern "C" {
        pub fn roaring_bitmap_of_ptr(count: usize, values: *const u32) -> *mut Bitmap;
        pub fn roaring_bitmap_copy(a: *const Bitmap) -> *mut Bitmap;
        pub fn roaring_bitmap_or_many_heap(count: u32, bitmaps: *const *const Bitmap) -> *mut Bitmap;
        pub fn roaring_bitmap_and(a: *const Bitmap, b: *const Bitmap) -> *mut Bitmap;
        pub fn roaring_bitmap_andnot(a: *const Bitmap, b: *const Bitmap) -> *mut Bitmap;
        pub fn roaring_bitmap_contains(a: *const Bitmap, value: u32) -> bool;
        pub fn roaring_bitmap_get_cardinality(a: *const Bitmap) -> u64;
        pub fn roaring_bitmap_to_uint32_array(a: *const Bitmap, values: *mut u32);
        pub fn roaring_bitmap_free(a: *const Bitmap);
    }
}

/// A bitmap that is freed when it is dropped.
pub struct Bitmap(*mut c::Bitmap);

impl Drop for Bitmap {
    fn drop(&mut self) {
        // SAFETY: every Bitmap owns the pointer that the library handed out, and frees it once.
        unsafe { c::roaring_bitmap_free(self.0) }
    }
}

/// Either a prepared bitmap that is lent, or one made on the way.
enum Operand<'a> {
    Lent(*mut c::Bitmap, PhantomData<&'a Bitmap>),
    Made(Bitmap),
}

impl Operand<'_> {
    fn raw(&self) -> *const c::Bitmap {
        match self {
            Operand::Lent(raw, _) => *raw,
            Operand::Made(bitmap) => bitmap.0,
        }
    }
}

/// Takes over a pointer that the library has just made.
fn owned(raw: *mut c::Bitmap) -> Bitmap {
    assert!(!raw.is_null(), "CRoaring is out of memory");
    Bitmap(raw)
}

pub fn build(lists: &[Vec<u32>]) -> Vec<Bitmap> {
    // SAFETY: pointer and length are those of one slice, which is only read.
    let bitmap = |list: &Vec<u32>| owned(unsafe { c::roaring_bitmap_of_ptr(list.len(), list.as_ptr()) });
    lists.iter().map(bitmap).collect()
}

// SAFETY of the operators below: every operand is a live bitmap, lent or owned, and is only read.
fn evaluate<'a>(tree: &Tree, bitmaps: &'a [Bitmap]) -> Operand<'a> {
    match tree {
        Tree::List(number) => Operand::Lent(bitmaps[usize::from(*number)].0, PhantomData),
        Tree::Difference(pair) => {
            let (a, b) = (evaluate(&pair[0], bitmaps), evaluate(&pair[1], bitmaps));
            Operand::Made(owned(unsafe { c::roaring_bitmap_andnot(a.raw(), b.raw()) }))
        }
        // Of the library's three ways to unite many, the one that was fastest on narrow and on wide gaps.
        Tree::Union(nodes) => {
            let operands: Vec<Operand> = nodes.iter().map(|node| evaluate(node, bitmaps)).collect();
            let raw: Vec<*const c::Bitmap> = operands.iter().map(Operand::raw).collect();
            Operand::Made(owned(unsafe {
                c::roaring_bitmap_or_many_heap(raw.len() as u32, raw.as_ptr())
            }))
        }
        Tree::Intersection(nodes) => nodes
            .iter()
            .map(|node| evaluate(node, bitmaps))
            .reduce(|a, b| Operand::Made(owned(unsafe { c::roaring_bitmap_and(a.raw(), b.raw()) })))
            .expect("an intersection has 1 to 8 members"),
    }
}

/// The bitmap of an expression.
pub fn bitmap(tree: &Tree, bitmaps: &[Bitmap]) -> Bitmap {
    match evaluate(tree, bitmaps) {
        Operand::Made(bitmap) => bitmap,
        // SAFETY: the lent bitmap is alive.
        Operand::Lent(raw, _) => owned(unsafe { c::roaring_bitmap_copy(raw) }),
    }
}

/// All members of an expression, ascending, into a row that is long enough; how many.
pub fn members(tree: &Tree, bitmaps: &[Bitmap], row: &mut [u32]) -> usize {
    let result = evaluate(tree, bitmaps);
    // SAFETY: the bitmap is alive, and the row's length is tested before it is written.
    unsafe {
        let count = c::roaring_bitmap_get_cardinality(result.raw()) as usize;
        assert!(count <= row.len());
        c::roaring_bitmap_to_uint32_array(result.raw(), row.as_mut_ptr());
        count
    }
}

impl Bitmap {
    pub fn contains(&self, d: u32) -> bool {
        // SAFETY: the bitmap is alive.
        unsafe { c::roaring_bitmap_contains(self.0, d) }
    }
}

/// Whether one number is a member, by looking it up in the bitmaps of the leaves.
pub fn contains(tree: &Tree, bitmaps: &[Bitmap], d: u32) -> bool {
    match tree {
        Tree::List(number) => bitmaps[usize::from(*number)].contains(d),
        Tree::Difference(pair) => contains(&pair[0], bitmaps, d) && !contains(&pair[1], bitmaps, d),
        Tree::Union(nodes) => nodes.iter().any(|node| contains(node, bitmaps, d)),
        Tree::Intersection(nodes) => nodes.iter().all(|node| contains(node, bitmaps, d)),
    }
}
