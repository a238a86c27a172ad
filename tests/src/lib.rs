//! What the tests share: the archives as calls, random numbers, cards and lists of calls, and how a difference is shown.

pub mod call;
pub mod cards;
pub mod counted;
pub mod guarded;
pub mod journals;
pub mod limits;
pub mod list;
pub mod log;
pub mod media;
pub mod plans;
pub mod proved;
pub mod random;
pub mod run;
pub mod split;
pub mod spoil;
pub mod support;
pub mod tally;
pub mod world;
