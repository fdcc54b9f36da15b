//! Document 02 (iii), sentence by sentence.

mod files;
mod joined;
mod lent;
mod refusals;
mod rows;
