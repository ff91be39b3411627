//! Datagrams, and the tics that their low bytes stand for.

use super::command::COMMAND_SIZE;
use super::{NEAR, RING};

pub const HEAD_SIZE: usize = 8;
pub const PACKET_SIZE: usize = HEAD_SIZE + COMMAND_SIZE * RING;
pub const SUM_SEED: u32 = 0x123_4567;
pub const SUM_MASK: u32 = 0x0fff_ffff;
pub const FLAGS_SHIFT: u32 = 28;

/// The flags of a packet.
pub const KILL: u8 = 1;
pub const SETUP: u8 = 2;
pub const RETRANSMIT: u8 = 4;
pub const EXIT: u8 = 8;

/// Why bytes are no packet.
#[derive(Clone, Copy)]
pub enum NoPacket {
    Short,
    Many,
    Length,
    Sum,
}

/// A datagram whose length and sum are right. Its commands are still bytes.
pub struct Packet<'a> {
    flags: u8,
    pub ask: u8,
    pub start: u8,
    pub player: u8,
    pub commands: &'a [[u8; COMMAND_SIZE]],
}

impl<'a> Packet<'a> {
    /// Tests the length and the sum of a datagram.
    pub fn parse(bytes: &'a [u8]) -> Result<Packet<'a>, NoPacket> {
        let Some((head, body)) = bytes.split_first_chunk::<HEAD_SIZE>() else {
            return Err(NoPacket::Short);
        };
        let &[_, _, _, _, ask, start, player, count] = head;
        let count = usize::from(count);
        if count > RING {
            return Err(NoPacket::Many);
        }
        if body.len() != COMMAND_SIZE * count {
            return Err(NoPacket::Length);
        }
        let (sum_word, summed) = bytes.split_at(4);
        let word = u32::from_le_bytes(sum_word.try_into().unwrap());
        if word & SUM_MASK != checksum(summed) {
            return Err(NoPacket::Sum);
        }
        let (commands, _) = body.as_chunks();
        Ok(Packet { flags: (word >> FLAGS_SHIFT) as u8, ask, start, player, commands })
    }

    /// Whether the packet has any of these flags.
    pub fn has(&self, flags: u8) -> bool {
        self.flags & flags != 0
    }
}

/// The sum of a datagram's bytes behind the checksum word: each word counts as often as its place says.
fn checksum(bytes: &[u8]) -> u32 {
    let (words, _) = bytes.as_chunks();
    let mut sum = SUM_SEED;
    for (&word, factor) in words.iter().zip(1..) {
        sum = sum.wrapping_add(u32::from_le_bytes(word).wrapping_mul(factor));
    }
    sum & SUM_MASK
}

/// Writes the checksum word of a datagram that is complete but for it.
pub fn seal(datagram: &mut [u8], flags: u8) {
    let word = checksum(&datagram[4..]) | u32::from(flags) << FLAGS_SHIFT;
    datagram[..4].copy_from_slice(&word.to_le_bytes());
}

/// The tic near `made` that has this low byte, or None where it would be below 0.
pub fn expand(made: u32, low: u8) -> Option<u32> {
    let tic = made & !255 | u32::from(low);
    if tic > made + NEAR {
        tic.checked_sub(256)
    } else if tic + NEAR < made {
        Some(tic + 256)
    } else {
        Some(tic)
    }
}
