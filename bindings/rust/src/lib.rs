//! Vanilla Doom's network play for an engine that has a world of its own.
//!
//! A [`Session`] is one player of a netgame of two to four: its lobby, and then its part in the game. It opens no
//! socket and reads no clock. It is given what comes, and the time, and returns what is to be sent. Maps, monsters and
//! physics stay yours. A tic is 1/35 second, or as long as the rate of the terms says.
//!
//! Two players in one process:
//!
//! ```
//! use zirmegat::{Address, Command, Host, Join, Key, Name, Run, Session, Terms, DATAGRAM_SIZE};
//!
//! fn send_all(players: &mut [Session; 2], places: &[Address; 2], me: usize, now: u32) {
//!     let mut bytes = [0; DATAGRAM_SIZE];
//!     // an engine sends the bytes by UDP
//!     while let Some((_to, datagram)) = players[me].transmit(&mut bytes) {
//!         players[1 - me].receive(&places[me], datagram, now);
//!         send_all(players, places, 1 - me, now); // a reply goes before the next datagram comes
//!     }
//! }
//!
//! # fn main() -> Result<(), zirmegat::Error> {
//! // the key comes from a file, and random bytes from the system
//! let key = Some(Key([7; 32]));
//! let places = [Address([1; 32]), Address([2; 32])];
//! let host = Host { terms: Terms::default(), key, random: [1; 32], name: Name::from("Ann") };
//! let join = Join {
//!     host: places[0],
//!     key,
//!     random: [2; 32],
//!     identity: [0; 16],
//!     name: Name::from("Bob"),
//!     seat: None,
//!     players: None,
//! };
//! let mut players = [Session::host(&host)?, Session::join(&join, 0)?];
//! let mut worlds = [[0i16; 4]; 2];
//! for now in (0..10_000).step_by(10) {
//!     for me in 0..2 {
//!         let player = &mut players[me];
//!         player.poll(now)?;
//!         while player.wants_input(now) {
//!             player.give(&Command { forward: 25 + 25 * me as i8, ..Command::default() }, now)?;
//!         }
//!         while let Run::Ran(row) = player.run(&worlds[me]) {
//!             for (at, command) in worlds[me].iter_mut().zip(row.commands) {
//!                 *at = at.wrapping_add(command.map_or(0, |command| command.forward.into()));
//!             }
//!         }
//!         send_all(&mut players, &places, me, now);
//!     }
//! }
//! assert!(worlds[0][1] > 0 && worlds[0] == worlds[1]);
//! # Ok(())
//! # }
//! ```
//!
//! What the caller owes:
//!
//! - [`Session::run`] is given the marks of the caller's own world. That world began with the terms of the state, and
//!   was stepped by every row that was returned, and by nothing else. Its marks follow from its state alone.
//! - No call is made from a signal handler, or from a forked child of a process with threads.
//!
//! The crate opens nothing, never waits, and prints nothing. A [`Session`], [`Demo`] or [`parts::Node`] may pass to
//! another thread, but only one thread at a time uses it: they are `Send`, and not `Sync`.
//!
//! [`parts`] has links and locksteps, for those who have a lobby or a transport of their own.
//!
//! A later library may return codes that this crate has no name for. Each enum that is made from a code holds such a
//! code in its variant `Unknown`. So no unknown code is taken for a known one, and none makes the program panic.
//!
//! The library below this crate is proved, except for what docs/PROMISES.md lists as trusted. The crate itself is not
//! proved. It passes references as pointers, and turns numbers into enums.

#![deny(missing_docs)]
#![deny(unsafe_op_in_unsafe_fn)]
#![deny(clippy::undocumented_unsafe_blocks)]
// the library's numbers of players and seats fit a byte, and each call says in its text which errors it has
#![allow(clippy::cast_possible_truncation, clippy::missing_errors_doc)]

mod demo;
mod packet;
pub mod parts;
mod session;
mod status;
mod values;

pub use demo::{upgrade, Demo, Facts, Start};
pub use session::{
    Event, Host, Join, Player, Policy, Seat, Session, Stage, Standing, State, Terms, DATAGRAM_SIZE,
};
pub use status::{Error, Over};
pub use values::{Address, Command, Key, Keys, Line, Name, Row, Run, Settings};

/// Returns the version of the library that is linked: 65,536 times the first number, plus the second.
#[must_use]
pub fn version() -> u32 {
    // SAFETY: the call requires nothing.
    unsafe { zirmegat_sys::zmg_version() }
}
