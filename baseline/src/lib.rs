//! An independent program of document 01 ("What to build and its rules"), to be compared with the proved one.
//!
//! It is written from the document alone: ordinary Rust with mutable state, its own reader, core and listing.
//! What the document leaves open is decided here, and said again at its place:
//!
//! - a page's slot lies in the store by domain, then by page (`monitor/memory.rs`; no listing shows it);
//! - a domain stays Live when its last context leaves (`leave`), and its pages stay as they are;
//! - uncloak keeps the page's mapping (`uncloak`), and map and unmap keep its place;
//! - a frame that uncloak or end has zeroed names none, as soundness then asks (`forget`);
//! - a trace that ends after its header has an empty listing (`listing`);
//! - exit status 0 whenever the listing was written, a refused header's too; 1 on an error of the system (`bin/baseline.rs`).

#![forbid(unsafe_code)]

pub mod answer;
pub mod event;
pub mod form;
pub mod generator;
pub mod listing;
pub mod monitor;
pub mod random;
pub mod reader;
pub mod records;
pub mod setup;
pub mod writer;
