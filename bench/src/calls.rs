//! The proved calls of crates/bench, which are no public ones, as safe functions. Nothing checks these declarations against that crate.

#[link(name = "bench", kind = "static")]
extern "C" {
    fn bench_checks(image: *const u8, length: usize) -> bool;
    fn bench_read(filter: *const u8, length: usize) -> u8;
    fn bench_read_message(message: *const u8, length: usize) -> u8;
    fn bench_names(source: *const u8, length: usize, lengths: *const [u8; 8], out: *mut u8, room: usize) -> usize;
}

/// Whether the checks of an image's blocks are right.
pub fn checks(image: &[u8]) -> bool {
    unsafe { bench_checks(image.as_ptr(), image.len()) }
}

/// The number that reading a filter gives: taken apart and its values judged in one call, as a ping has it.
pub fn read(filter: &[u8]) -> u8 {
    unsafe { bench_read(filter.as_ptr(), filter.len()) }
}

/// The number that reading a mailslot message gives.
pub fn read_message(message: &[u8]) -> u8 {
    unsafe { bench_read_message(message.as_ptr(), message.len()) }
}

/// How far apart the texts of names lie in their source.
pub const TEXT_STEP: usize = 32;

/// Plans eight names as those of an EX reply, 24 octets after its front, and writes them; 0 where they don't fit.
pub fn write_names(source: &[u8], lengths: &[u8; 8], out: &mut [u8]) -> usize {
    unsafe { bench_names(source.as_ptr(), source.len(), lengths, out.as_mut_ptr(), out.len()) }
}
