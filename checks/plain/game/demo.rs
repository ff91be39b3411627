//! Recording a demo.

use super::command::Command;
use super::settings::Settings;
use super::{MAX_PLAYERS, VERSION};
use std::collections::TryReserveError;

pub const HEADER_SIZE: u32 = 13;
pub const MOVE_SIZE: u32 = 5;
/// The end of a demo, and the forward that no command in one can have.
pub const MARKER: u8 = 0x80;

/// The demo so far. Its memory is reserved at the beginning, so that it never grows.
pub struct Demo {
    pub bytes: Vec<u8>,
    /// How many tics fit between the header and the marker.
    pub tics: u32,
    closed: bool,
}

impl Demo {
    pub fn new(limit: u32, players: u8) -> Result<Demo, TryReserveError> {
        let mut bytes = Vec::new();
        bytes.try_reserve_exact(limit as usize)?;
        Ok(Demo { bytes, tics: (limit - HEADER_SIZE - 1) / (MOVE_SIZE * u32::from(players)), closed: false })
    }

    /// Writes the header.
    pub fn begin(&mut self, settings: &Settings, view: usize, players: usize) {
        let &Settings { skill, deathmatch, no_monsters, respawn, episode, map } = settings;
        let (fast, view) = (0, view as u8);
        self.bytes.extend_from_slice(&[
            VERSION, skill, episode, map, deathmatch, respawn, fast, no_monsters, view,
        ]);
        self.bytes.extend((0..MAX_PLAYERS).map(|player| u8::from(player < players)));
    }

    /// Writes the move of a command.
    pub fn push(&mut self, command: &Command) {
        let &Command { forward, side, turn, buttons, .. } = command;
        let [turn0, turn1] = turn.to_le_bytes();
        self.bytes.extend_from_slice(&[forward as u8, side as u8, turn0, turn1, buttons]);
    }

    /// Writes the marker, once.
    pub fn close(&mut self) {
        if !self.closed {
            self.closed = true;
            self.bytes.push(MARKER);
        }
    }
}
