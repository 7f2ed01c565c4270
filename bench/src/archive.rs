//! The archive's calls as safe functions.

use judge::records::{Answer, Choices};

#[derive(Clone, Copy)]
pub struct Archive {
    pub write_back: fn(&[u8], &mut [u8]) -> Answer,
    pub layout_blocks: fn(&[u8], Choices, &mut [u8]) -> Answer,
}

#[cfg(archive)]
pub fn linked() -> Option<Archive> {
    unsafe extern "C" {
        fn layout_write_back(
            input: *const u8,
            input_len: usize,
            out: *mut u8,
            out_len: usize,
        ) -> Answer;
        fn layout_blocks(
            input: *const u8,
            input_len: usize,
            forward: bool,
            reorder: bool,
            out: *mut u8,
            out_len: usize,
        ) -> Answer;
    }
    // A slice's pointer is never null, and a lent slice overlaps no other.
    Some(Archive {
        write_back: |input, out| unsafe {
            layout_write_back(input.as_ptr(), input.len(), out.as_mut_ptr(), out.len())
        },
        layout_blocks: |input, Choices { forward, reorder }, out| unsafe {
            let (from, to) = (input.as_ptr(), out.as_mut_ptr());
            layout_blocks(from, input.len(), forward, reorder, to, out.len())
        },
    })
}

#[cfg(not(archive))]
pub fn linked() -> Option<Archive> {
    None
}
