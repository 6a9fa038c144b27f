//! EXP, LOG, sheets, their merge and doubles as one would write them in Rust and in C with nothing proved:
//! the measure for the product. 64-bit arithmetic, static tables, the same answers bit for bit.

pub mod c;
pub mod doubles;
pub mod engines;
pub mod merge;
pub mod sheet;

mod tables {
    include!(concat!(env!("OUT_DIR"), "/tables.rs"));
}
