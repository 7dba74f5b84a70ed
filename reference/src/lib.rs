//! A second examiner of relaxed queues and stacks, written from docs/.
//!
//! Each rule is done in the most direct way that the pages allow, so that where another examiner
//! answers something else, one of the two, or a page, is wrong.

#![forbid(unsafe_code)]

pub mod bytes;
pub mod cases;
pub mod docket;
pub mod generate;
pub mod giving;
pub mod hash;
pub mod holder;
pub mod item;
pub mod kind;
pub mod operation;
pub mod record;
pub mod refusal;
pub mod report;
pub mod sheet;
pub mod trace;
