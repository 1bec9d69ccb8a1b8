//! The bench call with every buffer at the end of the memory that it may touch: the page
//! behind it cannot be read or written, so that a read past an end stops the program.

use std::ptr;

use second::bench::Asked;

const PAGE: usize = 4096;
/// Pages that hold any buffer of the comparison.
const PAGES: usize = 3;

extern "C" {
    fn mmap(at: *mut u8, length: usize, access: i32, kind: i32, file: i32, from: i64) -> *mut u8;
    fn mprotect(at: *mut u8, length: usize, access: i32) -> i32;
    fn munmap(at: *mut u8, length: usize) -> i32;
}

/// Linux: no access; reading and writing; private memory of no file.
const NONE: i32 = 0;
const READ_WRITE: i32 = 1 | 2;
const PRIVATE_ANONYMOUS: i32 = 0x02 | 0x20;

/// Some pages, and one behind them that must not be touched.
struct Fence(*mut u8);

impl Fence {
    fn new() -> Fence {
        let length = (PAGES + 1) * PAGE;
        // SAFETY: new memory, wherever the system puts it; its last page is then closed.
        unsafe {
            let start = mmap(
                ptr::null_mut(),
                length,
                READ_WRITE,
                PRIVATE_ANONYMOUS,
                -1,
                0,
            );
            assert!(start as isize != -1, "the system has some pages left");
            assert_eq!(mprotect(start.add(PAGES * PAGE), PAGE, NONE), 0);
            Fence(start)
        }
    }

    /// A copy of the bytes that ends where the closed page starts.
    fn put(&self, bytes: &[u8]) -> (*mut u8, usize) {
        assert!(bytes.len() <= PAGES * PAGE);
        // SAFETY: the bytes fit into the open pages, as just tested.
        unsafe {
            let start = self.0.add(PAGES * PAGE - bytes.len());
            ptr::copy_nonoverlapping(bytes.as_ptr(), start, bytes.len());
            (start, bytes.len())
        }
    }
}

impl Drop for Fence {
    fn drop(&mut self) {
        // SAFETY: these pages are this fence's alone, and no pointer into them is left.
        unsafe { munmap(self.0, (PAGES + 1) * PAGE) };
    }
}

thread_local! {
    static FENCES: [Fence; 3] = [Fence::new(), Fence::new(), Fence::new()];
}

/// The call in the form of `second::bench::step`.
pub fn step(asked: Asked, image_in: &[u8], image_out: &mut [u8], answer: &mut [u8]) -> u32 {
    FENCES.with(|[first, second, third]| {
        let input = first.put(image_in);
        let (out, numbers) = (second.put(image_out), third.put(answer));
        // SAFETY: three buffers in memory of their own, each with its length; the slices are
        // filled from buffers of their own lengths.
        unsafe {
            let result = crate::raw(asked, (input.0, input.1), out, numbers);
            ptr::copy_nonoverlapping(out.0, image_out.as_mut_ptr(), out.1);
            ptr::copy_nonoverlapping(numbers.0, answer.as_mut_ptr(), numbers.1);
            result
        }
    })
}
