//! The static library of the proved layer, over a `Table` or a `LargeTable`.

use crate::scenarios::{Names, Steps, Times};

// In the library a slice crosses as a pointer and then a length, and a `Global` as nothing.
unsafe extern "C" {
    fn measured_services(
        is_large: bool,
        standing: *const u8,
        standing_len: usize,
        sample: *const u8,
        sample_len: usize,
        others: *const u8,
        others_len: usize,
        times: *mut Times,
    ) -> u64;

    fn measured_standing(is_large: bool, standing: *const u8, standing_len: usize) -> u64;

    fn measured_commands(
        is_large: bool,
        text: *const u8,
        text_len: usize,
        steps: *const u8,
        steps_len: usize,
        form: *const u8,
        form_len: usize,
        times: *mut u64,
        times_len: usize,
    ) -> u64;

    fn measured_lines(
        is_large: bool,
        input: *const u8,
        input_len: usize,
        output: *mut u8,
        output_len: usize,
        time: *mut u64,
    ) -> usize;

    fn measured_decode(form: *const u8, form_len: usize, count: u64, sum: *mut u64) -> u64;

    fn measured_encode(
        form: *const u8,
        form_len: usize,
        count: u64,
        output: *mut u8,
        output_len: usize,
    ) -> u64;
}

// In each of these the declaration fits the export, each pointer goes with the length of its slice,
// what is written to is nobody else's during the call, and the export has no `requires`.

/// The services' scenario by the proved layer: the times of its parts, and a sum of the answers.
pub fn services<const IS_LARGE: bool>(names: &Names) -> (Times, u64) {
    let mut times = Times::default();
    // SAFETY: as above.
    let sum = unsafe {
        measured_services(
            IS_LARGE,
            names.standing.as_ptr(),
            names.standing.len(),
            names.sample.as_ptr(),
            names.sample.len(),
            names.others.as_ptr(),
            names.others.len(),
            &mut times,
        )
    };
    (times, sum)
}

/// Lets a service stand for each name, and gives a sum of the answers.
pub fn standing<const IS_LARGE: bool>(names: &[u8]) -> u64 {
    // SAFETY: as above.
    unsafe { measured_standing(IS_LARGE, names.as_ptr(), names.len()) }
}

/// Carries out chunks of commands, adds their times, and gives a sum of the replies.
pub fn commands<const IS_LARGE: bool>(text: &[u8], steps: &Steps, times: &mut [u64]) -> u64 {
    // SAFETY: as above.
    unsafe {
        measured_commands(
            IS_LARGE,
            text.as_ptr(),
            text.len(),
            steps.records.as_ptr(),
            steps.records.len(),
            steps.form.as_ptr(),
            steps.form.len(),
            times.as_mut_ptr(),
            times.len(),
        )
    }
}

/// Answers lines: the time, and the replies, for which there is so much room.
pub fn lines<const IS_LARGE: bool>(input: &[u8], room: usize) -> (u64, Vec<u8>) {
    let (mut text, mut time) = (vec![0; room], 0);
    // SAFETY: as above.
    let used = unsafe {
        measured_lines(
            IS_LARGE,
            input.as_ptr(),
            input.len(),
            text.as_mut_ptr(),
            text.len(),
            &mut time,
        )
    };
    text.truncate(used);
    (time, text)
}

/// Reads a form so many times: the time, and a sum of what was read.
pub fn decode(form: &[u8], count: u64) -> (u64, u64) {
    let mut sum = 0;
    // SAFETY: as above.
    let time = unsafe { measured_decode(form.as_ptr(), form.len(), count, &mut sum) };
    (time, sum)
}

/// Writes what a form says so many times: the time, and the last form.
pub fn encode(form: &[u8], count: u64) -> (u64, Vec<u8>) {
    let mut output = vec![0; form.len()];
    // SAFETY: as above.
    let time = unsafe {
        measured_encode(
            form.as_ptr(),
            form.len(),
            count,
            output.as_mut_ptr(),
            output.len(),
        )
    };
    (time, output)
}
