//! Record streams and sealed files: damaged in each way, read and written through every function, at any place, and over
//! readers and writers that fail.

mod damage;
mod random;
mod records;
mod seeks;
mod support;
mod writing;
