//! Document 01, and 02 as far as it has landed, in their simplest form, written from the documents and the RFCs alone. The tests hold the library and the program to it.
pub mod between;
pub mod breaker;
pub mod bytes;
pub mod compound;
pub mod converter;
pub mod feeds;
pub mod forms;
pub mod labels;
pub mod refusal;
pub mod report;
pub mod salvage;
pub mod sdp;
pub mod source;
pub mod streams;
pub mod table;
pub mod trace;
pub mod truth;
