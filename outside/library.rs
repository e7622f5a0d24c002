//! The proved library, as a Rust program calls it. docs/library.md says what each function does.
#![allow(dead_code)]

use crate::model::Answer;

#[repr(C)]
#[derive(Clone, Copy, Default)]
pub struct Frame {
    rule: u16,
    next: u8,
}

unsafe extern "C" {
    fn fekhtovi_check(
        table: *const u8,
        table_length: usize,
        blanks: u8,
        bars: *const u16,
        bars_length: usize,
        text: *const u8,
        text_length: usize,
        form: u8,
        guide: *const u8,
        guide_length: usize,
        frames: *mut Frame,
        frames_length: usize,
    ) -> Answer;

    fn fekhtovi_replay(script: *const u8, script_length: usize, answers: *mut u8, answers_length: usize) -> usize;
}

pub fn check(table: &[u8], blanks: u8, bars: &[u16], text: &[u8], form: u8, guide: &[u8], frames: &mut [Frame]) -> Answer {
    unsafe {
        fekhtovi_check(
            table.as_ptr(),
            table.len(),
            blanks,
            bars.as_ptr(),
            bars.len(),
            text.as_ptr(),
            text.len(),
            form,
            guide.as_ptr(),
            guide.len(),
            frames.as_mut_ptr(),
            frames.len(),
        )
    }
}

pub fn replay(script: &[u8], answers: &mut [u8]) -> usize {
    unsafe { fekhtovi_replay(script.as_ptr(), script.len(), answers.as_mut_ptr(), answers.len()) }
}
