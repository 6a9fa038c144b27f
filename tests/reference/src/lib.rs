//! A second implementation of paper 01 and of the requests of 02, written for comparison:
//! plain i128 arithmetic, tables computed at first use, nothing shared with the product.
//! "01" and "02" in a comment are those papers, "000", "001" and "004" their source documents.

pub mod answer;
pub mod closeness;
pub mod damage;
pub mod doubles;
pub mod edges;
pub mod exponential;
pub mod figure;
pub mod fixed;
pub mod logarithm;
pub mod merge;
pub mod outline;
pub mod point;
pub mod register;
pub mod samples;
pub mod sheet;
pub mod tables;
pub mod width;
