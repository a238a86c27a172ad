//! The card, the limits and the calls of document 01, in its order, with the requests of document 02.
//!
//! Its mark is called a tag here and its serial a nonce. Below `limits` every depth is 1 to 16 and every card has the length of
//! its depth.

mod calls;
pub mod journal;
pub mod layout;
mod limits;
pub mod messages;
pub mod paths;
pub mod ranges;
mod words;

pub use calls::{check, format, plan, put_tag, read, recover, wipe, write, write_journalled};
pub use words::{Anchor, Answer, BlockIndex, Counted, Node, Nonce, Plan, Planned, Refusal};

#[cfg(test)]
mod counts;
#[cfg(test)]
mod errors;
#[cfg(test)]
mod journals;
#[cfg(test)]
mod reserved;
#[cfg(test)]
mod rows;
#[cfg(test)]
mod splits;
#[cfg(test)]
mod wipes;
