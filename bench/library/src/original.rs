//! The proved engine, behind the rows.

use crate::rows::{Answer, Call, Setup, Timing};

extern "C" {
    fn bench_run(
        setup: *const Setup,
        image: *mut u8,
        image_length: usize,
        data: *mut u8,
        data_length: usize,
        calls: *const Call,
        calls_length: usize,
        answers: *mut Answer,
        answers_length: usize,
    ) -> u8;

    fn bench_time(
        setup: *const Setup,
        image: *mut u8,
        image_length: usize,
        timing: *const Timing,
        count: *mut u64,
    ) -> u8;
}

/// Answers the calls, and changes image and data as they do.
pub fn run(setup: &Setup, image: &mut [u8], data: &mut [u8], calls: &[Call]) -> Vec<Answer> {
    // No call is answered this number, so a row that is left unfilled shows.
    let mut answers = vec![Answer::of_number(254); calls.len()];
    // SAFETY: the library reads and writes the given slices within their lengths, and keeps none of them.
    let status = unsafe {
        bench_run(
            setup,
            image.as_mut_ptr(),
            image.len(),
            data.as_mut_ptr(),
            data.len(),
            calls.as_ptr(),
            calls.len(),
            answers.as_mut_ptr(),
            answers.len(),
        )
    };
    assert_eq!(status, 0, "the library does the work");
    answers
}

/// Does what is to be timed, and gives the count.
pub fn time(setup: &Setup, image: &mut [u8], timing: &Timing) -> u64 {
    let mut count = 0;
    // SAFETY: as above.
    let status = unsafe { bench_time(setup, image.as_mut_ptr(), image.len(), timing, &mut count) };
    assert_eq!(status, 0, "the library does what is to be timed");
    count
}
