//! The C boundary of the static library (include/nuldopa.h) as functions on slices, and nothing else: whoever uses it gets
//! the numbers as they come.
use super::Game;

/// What a call returns; the fields are those of `struct nuldopa_answer`.
#[derive(Clone, Copy, PartialEq, Eq, Debug)]
#[repr(C)]
pub struct Answer {
    /// 0, or the number of the refusal; then all else is 0.
    pub refusal: u32,
    /// The kind of the certificate: 16 EQUAL, 17 DIFFER, 18 FOLLOWS, 19 FALLS SHORT.
    pub verdict: u32,
    /// Positions reached; 0 from the checker.
    pub positions: u32,
    pub rounds: u32,
    /// Bytes of the certificate; 0 from the checker.
    pub length: usize,
}

// Each buffer is a pointer and a length: task, table and certificate; task and proposed certificate.
#[link(name = "exports", kind = "static")]
extern "C" {
    fn nuldopa_compare(_: *const u8, _: usize, _: *mut u8, _: usize, _: *mut u8, _: usize) -> Answer;
    fn nuldopa_compare_one_way(_: *const u8, _: usize, _: *mut u8, _: usize, _: *mut u8, _: usize) -> Answer;
    fn nuldopa_check(_: *const u8, _: usize, _: *const u8, _: usize) -> Answer;
    fn nuldopa_check_one_way(_: *const u8, _: usize, _: *const u8, _: usize) -> Answer;
}

pub fn compare(game: Game, task: &[u8], table: &mut [u8], certificate: &mut [u8]) -> Answer {
    let compare = match game {
        Game::Equality => nuldopa_compare,
        Game::OneWay => nuldopa_compare_one_way,
    };
    // The pointers and lengths are those of slices, so they are valid, and those that are written overlap nothing.
    unsafe {
        compare(
            task.as_ptr(),
            task.len(),
            table.as_mut_ptr(),
            table.len(),
            certificate.as_mut_ptr(),
            certificate.len(),
        )
    }
}

pub fn check(game: Game, task: &[u8], certificate: &[u8]) -> Answer {
    let check = match game {
        Game::Equality => nuldopa_check,
        Game::OneWay => nuldopa_check_one_way,
    };
    // The pointers and lengths are those of slices, so they are valid.
    unsafe { check(task.as_ptr(), task.len(), certificate.as_ptr(), certificate.len()) }
}
