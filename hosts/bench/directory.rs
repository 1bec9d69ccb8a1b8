//! The bench call of `libbench.a` for Rust hosts. Nothing checks the declaration below
//! against the library: it says what `hosts/c/directory.h` says.

pub mod fenced;
pub mod guarded;

use second::bench::Asked;

#[link(name = "bench", kind = "static")]
extern "C" {
    fn directory_step(
        operation: u32,
        read_set: u32,
        write_set: u32,
        name: u32,
        value: u32,
        image_in: *const u8,
        image_in_len: usize,
        image_out: *mut u8,
        image_out_len: usize,
        answer: *mut u8,
        answer_len: usize,
    ) -> u32;
}

/// The call in the form of `second::bench::step`. It asks nothing of its arguments but
/// that the slices do not overlap, which Rust's own rules give.
#[inline]
pub fn step(asked: Asked, image_in: &[u8], image_out: &mut [u8], answer: &mut [u8]) -> u32 {
    let in_len = image_in.len();
    let (out, out_len) = (image_out.as_mut_ptr(), image_out.len());
    let (answer, answer_len) = (answer.as_mut_ptr(), answer.len());
    // SAFETY: each pointer comes with its own slice's length and is used during the call only.
    unsafe {
        raw(
            asked,
            (image_in.as_ptr(), in_len),
            (out, out_len),
            (answer, answer_len),
        )
    }
}

/// The call on pointers and lengths; a length of 0 goes with any pointer.
unsafe fn raw(
    asked: Asked,
    image_in: (*const u8, usize),
    image_out: (*mut u8, usize),
    answer: (*mut u8, usize),
) -> u32 {
    directory_step(
        asked.op,
        asked.read_set,
        asked.write_set,
        asked.name,
        asked.value,
        image_in.0,
        image_in.1,
        image_out.0,
        image_out.1,
        answer.0,
        answer.1,
    )
}
