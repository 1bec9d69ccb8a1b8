//! The bench call with every lent buffer inside a larger array, whose other bytes are
//! looked at after the call; and once more with NULL where a buffer is empty.

use std::ptr;

use second::bench::Asked;

/// Bytes before and after each buffer.
const GUARD: usize = 96;

/// A buffer with guard bytes on both sides.
struct Lent {
    bytes: Vec<u8>,
    length: usize,
}

impl Lent {
    fn new(buffer: &[u8]) -> Lent {
        // No two neighbouring guard bytes are alike, so that a copy of some is seen too.
        let guard = |from: usize| (from..from + GUARD).map(|at| (at as u8).wrapping_mul(37) ^ 0x5c);
        let mut bytes: Vec<u8> = guard(0).collect();
        bytes.extend_from_slice(buffer);
        bytes.extend(guard(buffer.len()));
        let length = buffer.len();
        Lent { bytes, length }
    }

    /// The pointer to the buffer, NULL instead where the buffer is empty and `null` says so.
    fn pointer(&mut self, null: bool) -> *mut u8 {
        if null && self.length == 0 {
            return ptr::null_mut();
        }
        self.bytes[GUARD..].as_mut_ptr()
    }

    /// The buffer after the call; `before` is what was lent.
    fn buffer(&self, before: &[u8], whose: &str, asked: Asked) -> &[u8] {
        let end = GUARD + self.length;
        let fresh = Lent::new(before).bytes;
        let same = self.bytes[..GUARD] == fresh[..GUARD] && self.bytes[end..] == fresh[end..];
        assert!(same, "a byte around {whose} has changed: {asked:?}");
        &self.bytes[GUARD..end]
    }
}

/// The call in the form of `second::bench::step`. Panics where a byte outside the buffers
/// or one of image in has changed, or where NULL makes a difference.
pub fn step(asked: Asked, image_in: &[u8], image_out: &mut [u8], answer: &mut [u8]) -> u32 {
    let mut given = None;
    let some_empty = image_in.is_empty() || image_out.is_empty() || answer.is_empty();
    for null in [false, true] {
        if null && !some_empty {
            break;
        }
        let this = guarded(asked, image_in, image_out, answer, null);
        let first = given.get_or_insert_with(|| this.clone());
        assert!(
            *first == this,
            "NULL with length 0 makes a difference to {asked:?}"
        );
    }
    let (result, out, numbers) = given.expect("one call at least");
    image_out.copy_from_slice(&out);
    answer.copy_from_slice(&numbers);
    result
}

/// What one call gives: its result, image out and the answer.
fn guarded(
    asked: Asked,
    image_in: &[u8],
    image_out: &[u8],
    answer: &[u8],
    null: bool,
) -> (u32, Vec<u8>, Vec<u8>) {
    let (mut input, mut out) = (Lent::new(image_in), Lent::new(image_out));
    let mut numbers = Lent::new(answer);
    // SAFETY: each buffer is an array of its own, of the length that is given with it.
    let result = unsafe {
        crate::raw(
            asked,
            (input.pointer(null), input.length),
            (out.pointer(null), out.length),
            (numbers.pointer(null), numbers.length),
        )
    };
    let unchanged = input.bytes == Lent::new(image_in).bytes;
    assert!(
        unchanged,
        "image in or a byte around it has changed: {asked:?}"
    );
    let out = out.buffer(image_out, "image out", asked).to_vec();
    let numbers = numbers.buffer(answer, "the answer", asked).to_vec();
    (result, out, numbers)
}
