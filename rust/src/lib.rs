//! The catalogue desk's second program: the keeper of the fitment table once more, in plain Rust, written from document 01.
//!
//! - `layout`: the medium byte for byte, the head and the rows.
//! - `state`: the state and when it is sound.
//! - `second`: every call with every refusal.
//! - `fault`: ways to go wrong, each to be switched on alone.
//! - `keeper`: the calls in the shape of the C boundary, over the second program or the proved library.
//! - `listing`: the listing's text.
//! - `counter`, `why`, `month`: the tools over recovered media, for tickets 1, 3 and 13; `tool`: what they share.
//! - `desk`, `event`, `draw`, `rng`, `spoil`, `directed`, `ledger`, `play`, `hits`: the comparison of two keepers.
//! - `counting`: the comparison of two counters.
//! - `corpus`: media of random histories, for comparing the tools.
//! - `bench`, `plot`: the measurements and their drawing.

pub mod bench;
pub mod corpus;
pub mod counter;
pub mod counting;
pub mod desk;
pub mod directed;
pub mod draw;
pub mod event;
pub mod fault;
pub mod hits;
pub mod keeper;
pub mod layout;
pub mod ledger;
#[cfg(feature = "library")]
pub mod library;
pub mod listing;
pub mod month;
pub mod play;
pub mod plot;
pub mod rng;
pub mod second;
pub mod spoil;
pub mod state;
pub mod tool;
pub mod why;
