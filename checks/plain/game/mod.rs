//! The netgame in plain Rust, as docs/PROTOCOL.md tells it: what the yardsticks of docs/SPEED.md share. It uses
//! nothing of the crates that are compared with it.

pub mod command;
pub mod demo;
pub mod packet;
pub mod seat;
pub mod settings;

pub const MAX_PLAYERS: usize = 4;
pub const VERSION: u8 = 111;
/// How many of its last commands and marks a node keeps of each player (BACKUPTICS).
pub const KEPT: u32 = 12;
pub const RING: usize = KEPT as usize;
/// How many commands may wait to be run.
pub const AHEAD: u32 = 5;
/// For how many packets further requests are ignored (RESENDCOUNT).
pub const PAUSE: u8 = 10;
/// How far from a node's newest tic the tics of a packet may lie.
pub const NEAR: u32 = 64;
/// How many tics a game that somebody has left may run.
pub const TIC_LIMIT: u32 = 2_097_150;
