//! The water analysis judge a second time, written from documents 01 and 02 (i)
//! to (vii) and the settled readings of their open points alone.
//!
//! The modules follow the sections of document 01. Every algorithm is the most
//! literal one: whole numbers and exact fractions, nothing tabulated beyond
//! the tables that document 01 prints itself. Where words stand, how many there
//! are and how far values reach is in `numbers` alone.

pub mod activity;
pub mod batch;
pub mod big;
pub mod charts;
pub mod checks;
pub mod docket;
pub mod finer;
pub mod hydrogen;
pub mod ions;
pub mod join;
pub mod listing;
pub mod numbers;
pub mod ranges;
pub mod readings;
pub mod record;
pub mod refusals;
pub mod sample_number;

pub mod cases;
pub mod file;
pub mod follow;
pub mod lent;
pub mod replay;
pub mod store;
pub mod words;
