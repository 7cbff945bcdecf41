//! A collector core for Media over QUIC Transport, written from documents
//! 01 (the scope and its rules) and 004 (the layouts and close codes) alone,
//! save that `numbers` and `calls` follow `include/moq.h`, and `explain`
//! docs/EXPLAIN.md.
//!
//! In the comments, a sentence after `01:` or `004:` is the document's own.

#![forbid(unsafe_code)]
#![warn(missing_docs)]

pub mod announce;
pub mod answer;
pub mod body;
pub mod calls;
pub mod cases;
pub mod explain;
pub mod fetch;
pub mod fields;
pub mod generate;
pub mod header;
pub mod hex;
pub mod integer;
pub mod ledger;
pub mod message;
pub mod numbers;
pub mod report;
pub mod rewrite;
pub mod script;
pub mod setup;
pub mod sink;
pub mod subscribe;
pub mod track;
