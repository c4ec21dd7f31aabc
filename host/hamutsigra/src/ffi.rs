//! The C boundary: the functions of `include/hamutsigra.h`, called with slices.
//!
//! Why these calls are safe. The library reads and writes exactly the parts lent
//! to it. Each part here is a slice, handed over as its start and its length: it
//! is there for the whole call, its start is not null even where it is empty, and
//! the parts written are lent mutably, so that none overlaps another. The numbers
//! need no care: every one of them has an answer. Nothing is kept after a call.

#![deny(unsafe_op_in_unsafe_fn)]

use crate::{Shape, TableEntry};

extern "C" {
    fn hamutsigra_format(
        data: *mut u8,
        data_len: usize,
        spare: *mut u8,
        spare_len: usize,
        pages: usize,
        logical: usize,
        logs: usize,
        cut: usize,
    ) -> u64;

    fn hamutsigra_power_up(
        data: *mut u8,
        data_len: usize,
        spare: *mut u8,
        spare_len: usize,
        table: *mut u16,
        table_len: usize,
        pages: usize,
        logical: usize,
        logs: usize,
        cut: usize,
    ) -> u64;

    fn hamutsigra_read(
        data: *const u8,
        data_len: usize,
        spare: *const u8,
        spare_len: usize,
        page: *mut u8,
        page_len: usize,
        pages: usize,
        logical: usize,
        logs: usize,
        number: usize,
    ) -> u64;

    fn hamutsigra_write(
        data: *mut u8,
        data_len: usize,
        spare: *mut u8,
        spare_len: usize,
        page: *const u8,
        page_len: usize,
        pages: usize,
        logical: usize,
        logs: usize,
        number: usize,
        cut: usize,
    ) -> u64;

    fn hamutsigra_block_write(
        data: *mut u8,
        data_len: usize,
        spare: *mut u8,
        spare_len: usize,
        block: *const u8,
        block_len: usize,
        pages: usize,
        logical: usize,
        logs: usize,
        number: usize,
        cut: usize,
    ) -> u64;

    fn hamutsigra_lend(
        data: *const u8,
        data_len: usize,
        spare: *const u8,
        spare_len: usize,
        pages: usize,
        logical: usize,
        logs: usize,
        number: usize,
    ) -> u64;
}

/// The table of power-up as the pairs of numbers that it is.
pub fn numbers(table: &mut [TableEntry]) -> &mut [[u16; 2]] {
    // SAFETY: a TableEntry is a pair of numbers and nothing else (`repr(transparent)`),
    // and any two numbers are one.
    unsafe { core::slice::from_raw_parts_mut(table.as_mut_ptr().cast(), table.len()) }
}

pub fn format(data: &mut [u8], spare: &mut [u8], shape: Shape, cut: usize) -> u64 {
    // SAFETY: slices, as the head of this file says.
    unsafe {
        hamutsigra_format(
            data.as_mut_ptr(),
            data.len(),
            spare.as_mut_ptr(),
            spare.len(),
            shape.pages,
            shape.logical,
            shape.logs,
            cut,
        )
    }
}

pub fn power_up(
    data: &mut [u8],
    spare: &mut [u8],
    table: &mut [u16],
    shape: Shape,
    cut: usize,
) -> u64 {
    // SAFETY: slices, as the head of this file says; a u16 is a uint16_t.
    unsafe {
        hamutsigra_power_up(
            data.as_mut_ptr(),
            data.len(),
            spare.as_mut_ptr(),
            spare.len(),
            table.as_mut_ptr(),
            table.len(),
            shape.pages,
            shape.logical,
            shape.logs,
            cut,
        )
    }
}

pub fn read(data: &[u8], spare: &[u8], page: &mut [u8], shape: Shape, number: usize) -> u64 {
    // SAFETY: slices, as the head of this file says.
    unsafe {
        hamutsigra_read(
            data.as_ptr(),
            data.len(),
            spare.as_ptr(),
            spare.len(),
            page.as_mut_ptr(),
            page.len(),
            shape.pages,
            shape.logical,
            shape.logs,
            number,
        )
    }
}

/// What is written: by write or by block write, which take the same parts.
#[derive(Clone, Copy)]
pub enum Written {
    Page,
    Block,
}

pub fn write(
    written: Written,
    data: &mut [u8],
    spare: &mut [u8],
    bytes: &[u8],
    shape: Shape,
    number: usize,
    cut: usize,
) -> u64 {
    let write = match written {
        Written::Page => hamutsigra_write,
        Written::Block => hamutsigra_block_write,
    };
    // SAFETY: slices, as the head of this file says.
    unsafe {
        write(
            data.as_mut_ptr(),
            data.len(),
            spare.as_mut_ptr(),
            spare.len(),
            bytes.as_ptr(),
            bytes.len(),
            shape.pages,
            shape.logical,
            shape.logs,
            number,
            cut,
        )
    }
}

pub fn lend(data: &[u8], spare: &[u8], shape: Shape, number: usize) -> u64 {
    // SAFETY: slices, as the head of this file says.
    unsafe {
        hamutsigra_lend(
            data.as_ptr(),
            data.len(),
            spare.as_ptr(),
            spare.len(),
            shape.pages,
            shape.logical,
            shape.logs,
            number,
        )
    }
}
