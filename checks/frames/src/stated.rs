// What the machine code does not say, and is stated here: the stack of C's functions, and how deep the search calls itself.

/// Bytes below the stack pointer that a function may use without moving it (x86-64 ABI, "red zone").
pub const RED_ZONE: u64 = 128;

/// C's functions that the library calls, and the bytes of stack allowed for each. The first call may go through the dynamic linker, which looks the
/// function up and saves the vector registers meanwhile: 1,591 bytes were measured so (glibc 2.36, AVX2), and 63 bytes for a later call.
const OUTSIDE: [(&str, u64); 2] = [("memcpy", 8192), ("memset", 8192)];

/// Functions that call themselves, and how many of their frames are on the stack at most.
/// `branch` goes through a space of at most 64 vectors (its array has 64), and each call inside another has at least one vector fewer, since
/// it is made only where a pivot was taken out; a space of no vectors makes none. So there are 65 at most, of 64, 63, .. 0 vectors.
const RECURSIONS: [(&str, u64); 1] = [("search_branching::branch", 65)];

fn looked_up(list: &[(&str, u64)], name: &str) -> Option<u64> {
    list.iter()
        .find(|(known, _)| *known == name)
        .map(|(_, n)| *n)
}

/// The bytes allowed for a function of C's.
pub fn outside(name: &str) -> Option<u64> {
    looked_up(&OUTSIDE, name)
}

/// The most frames of a function that calls itself.
pub fn frames_of(name: &str) -> Option<u64> {
    looked_up(&RECURSIONS, name)
}
