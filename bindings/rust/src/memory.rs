//! The memory functions that the library requires, over `std::alloc`. Each block has its layout in front of it.

use std::alloc::{alloc, dealloc, realloc, Layout};

/// What precedes a block: the size of both. It is as long as the greatest alignment.
const HEAD: usize = 16;

/// `struct nd_block` of `nd.h`.
#[repr(C)]
pub struct Block {
    ok: bool,
    p: *mut u8,
}

/// A refused request.
const REFUSED: Block = Block { ok: false, p: std::ptr::NonNull::<u8>::dangling().as_ptr() };

/// Returns the layout of a block of `size` bytes and what precedes it.
fn layout_of(size: usize, align: usize) -> Option<Layout> {
    if align > HEAD {
        return None;
    }
    Layout::from_size_align(size.checked_add(HEAD)?, HEAD).ok()
}

/// Returns the block at whose beginning its own size is written.
///
/// # Safety
/// `at` is null, or a block of `layout` that is the caller's.
unsafe fn block_of(at: *mut u8, layout: Layout) -> Block {
    if at.is_null() {
        return REFUSED;
    }
    unsafe {
        at.cast::<usize>().write(layout.size());
        Block { ok: true, p: at.add(HEAD) }
    }
}

/// Returns the beginning of a block and its layout.
///
/// # Safety
/// `p` is a block that one of these functions returned.
unsafe fn head_of(p: *mut u8) -> (*mut u8, Layout) {
    unsafe {
        let at = p.sub(HEAD);
        (at, Layout::from_size_align_unchecked(at.cast::<usize>().read(), HEAD))
    }
}

#[no_mangle]
extern "C" fn nd_alloc(size: usize, align: usize) -> Block {
    match layout_of(size, align) {
        Some(layout) => unsafe { block_of(alloc(layout), layout) },
        None => REFUSED,
    }
}

/// # Safety
/// `p` is a block that one of these functions returned and that was not given back.
#[no_mangle]
unsafe extern "C" fn nd_realloc(p: *mut u8, _kept: usize, size: usize, align: usize) -> Block {
    let Some(layout) = layout_of(size, align) else {
        return REFUSED;
    };
    unsafe {
        let (at, old) = head_of(p);
        block_of(realloc(at, old, layout.size()), layout)
    }
}

/// # Safety
/// `p` is a block that one of these functions returned and that was not given back.
#[no_mangle]
unsafe extern "C" fn nd_free(p: *mut u8) {
    unsafe {
        let (at, layout) = head_of(p);
        dealloc(at, layout);
    }
}

#[cfg(test)]
mod tests {
    use super::*;

    /// Returns true if a block is aligned as `nd.h` says: to `align`, and to each power of two up to 16 that divides its size.
    fn is_aligned(block: &Block, size: usize, align: usize) -> bool {
        (block.p as usize).trailing_zeros() >= size.trailing_zeros().min(4).max(align.trailing_zeros())
    }

    /// Returns true if the first bytes of a block are `0xa5`.
    unsafe fn is_kept(block: &Block, kept: usize) -> bool {
        unsafe { std::slice::from_raw_parts(block.p, kept) }.iter().all(|&byte| byte == 0xa5)
    }

    #[test]
    fn blocks_are_aligned_and_keep_their_bytes() {
        for size in [0, 1, 2, 7, 8, 24, 48, 4096] {
            for (other, align) in [(0, 1), (1, 2), (size, 4), (2 * size + 16, 8), (10_000, 16)] {
                let block = nd_alloc(size, align);
                assert!(block.ok && is_aligned(&block, size, align));
                unsafe {
                    block.p.write_bytes(0xa5, size);
                    let moved = nd_realloc(block.p, size.min(other), other, align);
                    assert!(moved.ok && is_aligned(&moved, other, align) && is_kept(&moved, size.min(other)));
                    nd_free(moved.p);
                }
            }
        }
    }

    #[test]
    fn a_request_that_is_refused_leaves_the_block() {
        let most = isize::MAX as usize;
        for (size, align) in [(usize::MAX, 1), (usize::MAX - HEAD, 1), (most, 1), (8, 32)] {
            let refused = nd_alloc(size, align);
            assert!(!refused.ok && !refused.p.is_null());
            let block = nd_alloc(8, 8);
            unsafe {
                block.p.write_bytes(0xa5, 8);
                let refused = nd_realloc(block.p, 8, size, align);
                assert!(!refused.ok && !refused.p.is_null() && is_kept(&block, 8));
                nd_free(block.p);
            }
        }
    }
}
