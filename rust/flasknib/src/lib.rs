//! Flasknib: ECN counting of RTP sources, ECN reports (RFC 6679), a compound RTCP reader, a sender's circuit breaker (RFC 8083), the SDP
//! attribute ecn-capable-rtp, and the traces and tables of a link test.
//!
//! Every count and every verdict is a call of the proved library. A state is a value that owns its words, and a refusal is the error
//! [`Refused`], with the [`Refusal`] that it is.
//!
//! ```no_run
//! let mut source = flasknib::Source::default();
//! source.arrive(17, flasknib::Mark::Ce)?;
//! let packet = source.feedback(9, 1)?;
//! assert_eq!(packet.len(), 32);
//! # Ok::<(), flasknib::Refused>(())
//! ```
//!
//! [`header`] has the functions of flasknib.h as they stand, over slices.
#![deny(unsafe_code, missing_docs)]

mod attribute;
mod blocks;
mod breaker;
mod feed;
mod forms;
mod refusals;
mod reports;
mod source;
mod sources;
mod streams;
mod trace;

#[allow(unsafe_code, missing_docs)]
#[rustfmt::skip]
pub mod header;

pub use attribute::{answer, read_attribute, Attribute, Ect, Method, Mode};
pub use blocks::{read_block, read_own, record_at, space_label, write_arrivals, write_label, write_records, Block, Form, Kind, Record};
pub use breaker::{Answer, Breaker, Reason, Sending, Settings};
pub use feed::{head_line, refused_line, Feed};
pub use forms::Forms;
pub use header::{lost_since, since16, since32, Refusal};
pub use refusals::{Refused, Result};
pub use reports::{ecn_between, read_compound, Between, Compound, Feedback, Profile, ReportBlock, Summary};
pub use source::{Arrival, Counted, Mark, Source};
pub use sources::Sources;
pub use streams::Streams;
pub use trace::{rows, salvage, Error, Row, Run, Salvaged};
