//! The product's functions as C sees them.

use crate::table::Record;
use std::ptr::{null, null_mut};

/// What connecting answers, and the check of a plan.
#[repr(C)]
#[derive(Clone, Copy, Debug, PartialEq, Eq)]
pub struct Answer {
    pub number: u8,
    pub sheet: u8,
    pub state: u8,
    pub offset: u16,
    pub situations: u16,
    pub states: u16,
    pub rounds: u16,
    pub length: u32,
}

/// What stepping answers.
#[repr(C)]
#[derive(Clone, Copy, Debug, PartialEq, Eq)]
pub struct Stepped {
    pub number: u8,
    pub state: u16,
}

/// What the client check answers. Yes is the byte 1, no the byte 0; any other would be the product's fault.
#[repr(C)]
#[derive(Clone, Copy, Debug, PartialEq, Eq)]
pub struct Compliance {
    pub number: u8,
    pub sheet: u8,
    pub state: u8,
    pub offset: u16,
    pub yes: u8,
}

/// What converting a choosing sheet answers, and a text.
#[repr(C)]
#[derive(Clone, Copy, Debug, PartialEq, Eq)]
pub struct SheetAnswer {
    pub number: u8,
    pub sheet: u8,
    pub state: u8,
    pub length: u16,
}

/// What is at fault in a plan that the check refuses as unsound.
#[repr(C)]
#[derive(Clone, Copy, Debug, PartialEq, Eq)]
pub struct Fault {
    pub condition: u8,
    pub code: u8,
    pub ready: u16,
    pub state: u16,
    pub counts: [u8; 14],
    pub old_state: u8,
    pub new_state: u8,
}

/// A part of one of two sheets: the number of that sheet, where the part begins there, and how many bytes it has.
#[repr(C)]
#[derive(Clone, Copy, Debug, PartialEq, Eq)]
pub struct Part {
    pub sheet: u8,
    pub offset: u16,
    pub length: u16,
}

/// Why there is no such row, all 0 if there is one.
#[repr(C)]
#[derive(Clone, Copy, Debug, PartialEq, Eq)]
pub struct RowAnswer {
    pub number: u8,
    pub sheet: u8,
    pub state: u8,
    pub offset: u16,
}

#[rustfmt::skip]
extern "C" {
    pub fn adapter_connect(
        k: u8,
        old: *const u8, old_length: usize,
        new: *const u8, new_length: usize,
        work: *mut Record, work_length: usize,
        plan: *mut u8, plan_length: usize,
    ) -> Answer;

    pub fn adapter_connect_mode(
        mode: u8, k: u8,
        old: *const u8, old_length: usize,
        new: *const u8, new_length: usize,
        work: *mut Record, work_length: usize,
        plan: *mut u8, plan_length: usize,
    ) -> Answer;

    pub fn adapter_step(plan: *const u8, plan_length: usize, state: u16, code: u8) -> Stepped;

    pub fn adapter_complies(
        client: *const u8, client_length: usize,
        service: *const u8, service_length: usize,
    ) -> Compliance;

    pub fn adapter_from_choosing(
        choosing: *const u8, choosing_length: usize,
        sheet: *mut u8, sheet_length: usize,
    ) -> SheetAnswer;

    pub fn adapter_from_text(
        text: *const u8, text_length: usize,
        sheet: *mut u8, sheet_length: usize,
    ) -> SheetAnswer;

    pub fn adapter_text_fault(text: *const u8, text_length: usize) -> u16;

    pub fn adapter_check_plan(
        mode: u8,
        old: *const u8, old_length: usize,
        new: *const u8, new_length: usize,
        plan: *const u8, plan_length: usize,
        work: *mut Record, work_length: usize,
    ) -> Answer;

    pub fn adapter_plan_fault(
        mode: u8,
        old: *const u8, old_length: usize,
        new: *const u8, new_length: usize,
        plan: *const u8, plan_length: usize,
        work: *mut Record, work_length: usize,
    ) -> Fault;

    pub fn adapter_row(
        first: *const u8, first_length: usize,
        second: *const u8, second_length: usize,
        sheet: u8, state: u8,
    ) -> Part;

    pub fn adapter_row_refusal(
        first: *const u8, first_length: usize,
        second: *const u8, second_length: usize,
        sheet: u8, state: u8,
    ) -> RowAnswer;
}

/// A slice as a pointer and a length. With `as_null`, the pointer of a slice without elements is null.
pub fn passed<T>(slice: &[T], as_null: bool) -> (*const T, usize) {
    let pointer = if as_null && slice.is_empty() { null() } else { slice.as_ptr() };
    (pointer, slice.len())
}

/// The same for a slice that is written to.
pub fn lent<T>(slice: &mut [T], as_null: bool) -> (*mut T, usize) {
    let pointer = if as_null && slice.is_empty() { null_mut() } else { slice.as_mut_ptr() };
    (pointer, slice.len())
}
