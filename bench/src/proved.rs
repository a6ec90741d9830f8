//! The proved code, by its C interface.

use crate::request::{Reply, Request};

extern "C" {
    fn sathkeif_play(
        first: u32,
        requests: *const Request,
        request_count: usize,
        replies: *mut Reply,
        reply_count: usize,
    ) -> usize;
    fn sathkeif_judge(
        requests: *const Request,
        request_count: usize,
        numbers: *mut u32,
        number_count: usize,
    ) -> Reply;
}

/// Makes the requests on a new hub over 64 items, and answers how many it took.
pub fn play(first: u32, requests: &[Request], replies: &mut [Reply]) -> usize {
    unsafe {
        sathkeif_play(
            first,
            requests.as_ptr(),
            requests.len(),
            replies.as_mut_ptr(),
            replies.len(),
        )
    }
}

/// Judges the acts of the requests.
pub fn judge(requests: &[Request], numbers: &mut [u32]) -> Reply {
    unsafe {
        sathkeif_judge(
            requests.as_ptr(),
            requests.len(),
            numbers.as_mut_ptr(),
            numbers.len(),
        )
    }
}
