//! What a node keeps of each player.

use super::command::{COMMAND_SIZE, Command};
use super::packet::{Packet, RETRANSMIT, expand};
use super::{KEPT, PAUSE, RING};

/// What a node keeps of a player.
#[derive(Clone, Copy, Default)]
pub struct Seat {
    /// The last commands, by the tic.
    pub commands: [Command; RING],
    /// The marks that the next twelve commands are to have, by the tic.
    pub marks: [i16; RING],
    /// How many commands came.
    pub count: u32,
    /// The tic after the last command, where it is known.
    pub end: Option<u32>,
    /// The first tic of the next packet to this player.
    pub resend: u32,
    /// For how many packets of this player requests are ignored.
    pub pause: u8,
    /// Whether commands of this player are missing.
    pub want: bool,
    /// Whether this player was heard while gathering.
    pub heard: bool,
}

impl Seat {
    /// Whether the player has no part in this tic any more.
    pub fn is_gone(&self, tic: u32) -> bool {
        self.end.is_some_and(|end| end <= tic)
    }

    /// Whether the command at this place has another mark than it is to have.
    pub fn is_off(&self, at: usize) -> bool {
        self.commands[at].mark != self.marks[at]
    }

    /// Whether a packet that ends here is at odds with what is known of the player's last command.
    pub fn is_strange_end(&self, end: u32, exit: bool) -> bool {
        let past = self.end.is_some_and(|known| end > known || exit && end < known);
        past || exit && end < self.count
    }

    /// The first tic of the next packet to this player, where every packet repeats `extra` commands: one that
    /// went too long ago is given up.
    pub fn first_sent(&self, made: u32, extra: u32) -> u32 {
        if self.resend + KEPT < made { made - extra } else { self.resend }
    }

    /// Takes the commands of a packet that starts at `start`, as far as they are new.
    pub fn take(&mut self, start: u32, commands: &[[u8; COMMAND_SIZE]]) {
        let fresh = &commands[(self.count - start) as usize..];
        for (&bytes, tic) in fresh.iter().zip(self.count..) {
            self.commands[place(tic)] = Command::from_bytes(bytes);
        }
        self.count = start + commands.len() as u32;
    }

    /// Sends commands again where the packet asks for it and requests are not ignored.
    pub fn meet_request(&mut self, made: u32, packet: &Packet) {
        let heard = packet.has(RETRANSMIT) && self.pause == 0;
        let asked = if heard { expand(made, packet.ask) } else { None };
        match asked {
            Some(tic) if tic <= made && made <= tic + KEPT => (self.resend, self.pause) = (tic, PAUSE),
            _ => self.pause = self.pause.saturating_sub(1),
        }
    }
}

/// The place of a tic in a ring.
pub fn place(tic: u32) -> usize {
    tic as usize % RING
}
