//! The structs and codes of zirmegat.h and zirmegat_parts.h, as far as a lockstep has them.

use crate::game::{AHEAD, KEPT, MAX_PLAYERS, VERSION};
use crate::game::command::Command;
use crate::game::packet::{NoPacket, expand};
use crate::game::settings::{OutOfRange, Settings};

#[repr(u32)]
#[derive(Clone, Copy)]
pub enum Status {
    Ok = 0,
    Size = 2,
    Memory = 3,
    NotNow = 5,
    Players = 8,
    Window = 9,
    Limit = 11,
    Skill = 14,
    Deathmatch = 15,
    Episode = 16,
    Map = 17,
    Me = 24,
    Full = 25,
}

impl From<OutOfRange> for Status {
    fn from(setting: OutOfRange) -> Status {
        match setting {
            OutOfRange::Skill => Status::Skill,
            OutOfRange::Deathmatch => Status::Deathmatch,
            OutOfRange::Episode => Status::Episode,
            OutOfRange::Map => Status::Map,
        }
    }
}

#[repr(C)]
pub struct Config {
    pub size: usize,
    pub limit: u32,
    pub players: u8,
    pub me: u8,
    pub window: u8,
    pub extra: u8,
    pub settings: Settings,
    pub secret: [u8; 32],
    pub game: [u8; 16],
}

impl Config {
    /// The settings, or why there is no node, of which these know the window of 1997 alone. The settings of other
    /// players than 0 are not read.
    pub fn check(&self) -> Result<Settings, Status> {
        if self.size != size_of::<Config>() {
            return Err(Status::Size);
        }
        let mut settings = Settings::default();
        if self.me == 0 {
            settings = self.settings;
            settings.no_monsters = u8::from(settings.no_monsters != 0);
            settings.respawn = u8::from(settings.respawn != 0);
            settings.check()?;
        }
        if u32::from(self.window) != AHEAD {
            return Err(Status::Window);
        }
        if !(2..=4).contains(&self.players) {
            return Err(Status::Players);
        }
        if self.me >= self.players {
            return Err(Status::Me);
        }
        if !(1024..=16_777_216).contains(&self.limit) {
            return Err(Status::Limit);
        }
        Ok(settings)
    }
}

/// The end of a player that is not known.
pub const NO_END: u32 = u32::MAX;

#[repr(C)]
pub struct Aim {
    pub asks: u32,
    pub ask: u32,
    pub start: u32,
    pub flags: u8,
    pub count: u8,
}

impl Aim {
    pub fn new(ask: Option<u32>, start: u32, flags: u8, count: u8) -> Aim {
        Aim { asks: u32::from(ask.is_some()), ask: ask.unwrap_or(0), start, flags, count }
    }
}

#[repr(u32)]
#[derive(Clone, Copy)]
pub enum HeardCode {
    Dropped = 0,
    Started = 1,
    Taken = 2,
    Stale = 3,
    Gap = 4,
    Left = 5,
    Noted = 6,
}

#[repr(C)]
pub struct Heard {
    pub code: HeardCode,
    pub number: u32,
}

impl Heard {
    pub const fn new(code: HeardCode) -> Heard {
        Heard { code, number: 0 }
    }
}

/// Why a datagram was dropped.
#[repr(u32)]
#[derive(Clone, Copy)]
pub enum DropFault {
    Short = 1,
    Many = 2,
    Length = 3,
    Sum = 4,
    Stranger = 5,
    OutOfPlace = 6,
    Version = 7,
    Range = 8,
    Kill = 9,
    Tic = 10,
    Command = 11,
    Overrun = 12,
    NotPlaying = 13,
    End = 14,
}

impl From<NoPacket> for DropFault {
    fn from(fault: NoPacket) -> DropFault {
        match fault {
            NoPacket::Short => DropFault::Short,
            NoPacket::Many => DropFault::Many,
            NoPacket::Length => DropFault::Length,
            NoPacket::Sum => DropFault::Sum,
        }
    }
}

/// The settings that a set-up packet tells, by the two bytes that tell them and its version.
pub fn settings_told(listens: bool, from: usize, bytes: [u8; 2], version: u8) -> Result<Settings, DropFault> {
    if !listens || from != 0 {
        return Err(DropFault::OutOfPlace);
    }
    if version != VERSION {
        return Err(DropFault::Version);
    }
    let settings = Settings::from_bytes(bytes);
    settings.check().map_err(|_| DropFault::Range)?;
    Ok(settings)
}

/// The tic of a packet's first command, by the byte of it that the packet carries.
#[inline(always)]
pub fn first_tic(made: u32, start: u8, stops: bool) -> Result<u32, DropFault> {
    let tic = expand(made, start).ok_or(DropFault::Tic)?;
    if stops { Err(DropFault::Command) } else { Ok(tic) }
}

/// The tics of a packet's first command and after its last, at a node that plays.
#[inline(always)]
pub fn tics(made: u32, ran: u32, start: u8, count: u32, stops: bool) -> Result<(u32, u32), DropFault> {
    let start = first_tic(made, start, stops)?;
    let end = start + count;
    if end > ran + KEPT { Err(DropFault::Overrun) } else { Ok((start, end)) }
}

impl From<DropFault> for Heard {
    fn from(fault: DropFault) -> Heard {
        Heard { code: HeardCode::Dropped, number: fault as u32 }
    }
}

/// A command with its fields in the order of the header.
#[repr(C)]
#[derive(Clone, Copy, Default)]
pub struct CommandFields {
    pub turn: i16,
    pub forward: i8,
    pub side: i8,
    pub chat: u8,
    pub buttons: u8,
}

impl Command {
    /// The command that a caller gives, with the node's own mark. A forward of -128 would end a demo.
    pub fn from_given(given: &CommandFields, mark: i16) -> Command {
        let &CommandFields { turn, forward, side, chat, buttons } = given;
        Command { forward: forward.max(-127), side, turn, mark, chat, buttons }
    }

    pub fn to_fields(self) -> CommandFields {
        let Command { forward, side, turn, chat, buttons, .. } = self;
        CommandFields { turn, forward, side, chat, buttons }
    }
}

#[repr(u32)]
#[derive(Clone, Copy, PartialEq, Eq)]
pub enum RunCode {
    NotPlaying = 0,
    Ran = 1,
    Waiting = 2,
    DemoFull = 3,
    Inconsistent = 4,
}

#[repr(C)]
#[derive(Default)]
pub struct Row {
    pub tic: u32,
    pub was: i16,
    pub should: i16,
    pub player: u8,
    pub present: [u8; MAX_PLAYERS],
    pub commands: [CommandFields; MAX_PLAYERS],
}

impl Row {
    pub fn waiting(player: usize) -> Row {
        Row { player: player as u8, ..Row::default() }
    }

    pub fn inconsistent(player: usize, was: i16, should: i16) -> Row {
        Row { was, should, ..Row::waiting(player) }
    }
}

/// Where a node stands, and why it has ended.
#[derive(Default)]
pub struct Standing {
    pub phase: u32,
    pub cause: u32,
    pub was: i16,
    pub should: i16,
    pub player: u8,
}

#[repr(C)]
#[derive(Default)]
pub struct State {
    pub demo_length: usize,
    pub phase: u32,
    pub cause: u32,
    pub was: i16,
    pub should: i16,
    pub player: u32,
    pub me: u32,
    pub players: u32,
    pub made: u32,
    pub ran: u32,
    pub can_give: u32,
    pub knows_settings: u32,
    pub of_links: [u32; 5],
    pub settings: Settings,
}

#[repr(C)]
pub struct Player {
    pub got: u32,
    pub end: u32,
    pub of_links: [u32; 8],
}
