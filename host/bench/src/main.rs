//! `bench`: the time of the proved commands beside those of ordinary Rust, on cards of
//! 64 blocks of 32 pages.
//!
//! All that stand in one row do the same, or the same part of it, on the same image, in
//! turn, many times over; the least time of each counts, since other work on the machine
//! can only add to it.

#![forbid(unsafe_code)]

mod card;
mod command;
mod measure;
mod scan;
mod tables;

fn main() {
    println!("64 blocks of 32 pages, L {}, K {}; least times in microseconds", card::L, card::K);
    for print in
        [tables::commands::print, tables::look::print, tables::erased::print, tables::parts::print]
    {
        println!();
        print();
    }
}
