//! The packets of 1997 as fields, with no node.

use crate::status::codes;
use zirmegat_sys as sys;

/// The sender has left, and its commands end with these.
pub const EXIT: u8 = sys::ZMG_FLAG_EXIT as u8;
/// The sender asks for the commands from [`ask`](Packet::ask) on again.
pub const RETRANSMIT: u8 = sys::ZMG_FLAG_RETRANSMIT as u8;
/// The packet has player 0's settings.
pub const SETUP: u8 = sys::ZMG_FLAG_SETUP as u8;
/// The packet ends a game. No node sends or obeys it.
pub const KILL: u8 = sys::ZMG_FLAG_KILL as u8;

/// A command as a packet has it.
#[derive(Clone, Copy, Debug, Default, PartialEq, Eq)]
pub struct SentCommand {
    /// As in a [`Command`](crate::Command).
    pub turn: i16,
    /// The consistency mark of the player's own world twelve tics before, 0 below tic 12.
    pub mark: i16,
    /// As in a [`Command`](crate::Command).
    pub forward: i8,
    /// As in a [`Command`](crate::Command).
    pub side: i8,
    /// As in a [`Command`](crate::Command).
    pub chat: u8,
    /// As in a [`Command`](crate::Command).
    pub buttons: u8,
}

/// The fields of a packet. A set-up packet has the settings in `ask` and `start`, and the version in `player`.
#[derive(Clone, Debug, Default, PartialEq, Eq)]
pub struct Packet {
    /// The bits of [`EXIT`], [`RETRANSMIT`], [`SETUP`] and [`KILL`].
    pub flags: u8,
    /// The low byte of the tic from which commands are asked for again.
    pub ask: u8,
    /// The low byte of the tic of the first command.
    pub start: u8,
    /// The sender's number.
    pub player: u8,
    /// One command for each tic from `start` on, at most 12.
    pub commands: Vec<SentCommand>,
}

codes! {
    /// Why bytes are not a packet: the first of these that holds.
    PacketError {
        /// Fewer than 8 bytes.
        Short = ZMG_DROP_SHORT, "it has fewer than 8 bytes";
        /// It announces more than twelve commands.
        Many = ZMG_DROP_MANY, "it announces more than twelve commands";
        /// Its length does not match the commands that it announces.
        Length = ZMG_DROP_LENGTH, "its length does not match its commands";
        /// Its sum is wrong.
        Sum = ZMG_DROP_SUM, "its sum is wrong";
    }
}

impl std::error::Error for PacketError {}

impl Packet {
    /// Reads a datagram.
    pub fn decode(bytes: &[u8]) -> Result<Packet, PacketError> {
        // SAFETY: zeros are a packet.
        let mut raw: sys::zmg_packet = unsafe { std::mem::zeroed() };
        // SAFETY: the pointers are of live values, and the length is that of the bytes.
        match unsafe { sys::zmg_packet_decode(bytes.as_ptr(), bytes.len(), &mut raw) } {
            0 => Ok(Packet::of(&raw)),
            code => Err(PacketError::of(code)),
        }
    }

    /// Returns the bytes of the datagram, at most 104; None if `flags` is above 15, or if there are more than 12
    /// commands.
    #[must_use]
    pub fn encode(&self) -> Option<Vec<u8>> {
        let raw = self.raw()?;
        let mut bytes = vec![0; crate::parts::PACKET_SIZE];
        // SAFETY: the pointers are of live values, and the room is that of the vector.
        let length = unsafe { sys::zmg_packet_encode(&raw, bytes.as_mut_ptr(), bytes.len()) };
        bytes.truncate(length);
        (length > 0).then_some(bytes)
    }

    /// None if there are too many commands.
    fn raw(&self) -> Option<sys::zmg_packet> {
        // SAFETY: zeros are a packet.
        let mut raw: sys::zmg_packet = unsafe { std::mem::zeroed() };
        raw.flags = self.flags;
        raw.ask = self.ask;
        raw.start = self.start;
        raw.player = self.player;
        raw.count = self.commands.len().try_into().ok()?;
        let places = raw.commands.get_mut(..self.commands.len())?;
        for (place, command) in places.iter_mut().zip(&self.commands) {
            place.turn = command.turn;
            place.mark = command.mark;
            place.forward = command.forward;
            place.side = command.side;
            place.chat = command.chat;
            place.buttons = command.buttons;
        }
        Some(raw)
    }

    fn of(raw: &sys::zmg_packet) -> Packet {
        let sent = |command: &sys::zmg_sent_command| SentCommand {
            turn: command.turn,
            mark: command.mark,
            forward: command.forward,
            side: command.side,
            chat: command.chat,
            buttons: command.buttons,
        };
        Packet {
            flags: raw.flags,
            ask: raw.ask,
            start: raw.start,
            player: raw.player,
            commands: raw.commands[..usize::from(raw.count).min(raw.commands.len())]
                .iter()
                .map(sent)
                .collect(),
        }
    }
}
