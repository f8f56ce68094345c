//! A second program for lines and units, written from docs/ alone, to be
//! compared with the first byte for byte.

pub mod chance;
mod choice;
mod codes;
mod device;
mod events;
#[cfg(test)]
mod hostile;
mod law;
mod layout;
pub mod linerun;
mod lines;
mod sending;
pub mod stream;
mod text;
mod unit;
pub mod unitrun;
