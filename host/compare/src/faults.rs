//! The copies of the second program with a fault planted in each: see `build.rs`.

// Of a copy the commands are used, and not what is there to look at a card.
#![allow(dead_code, unused_imports)]

include!(concat!(env!("OUT_DIR"), "/faults.rs"));
