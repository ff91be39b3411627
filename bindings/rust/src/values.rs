//! Keys, names, addresses, settings, commands and rows.

use crate::status::{check, Error};
use std::ffi::c_char;
use std::fmt;
use std::net::{IpAddr, Ipv6Addr, SocketAddr};
use std::str::FromStr;
use zirmegat_sys as sys;

/// 32 secret bytes that those share who may join a game. All zeros are refused. Its text is that of `netgame key`: 64
/// hexadecimal digits and a line end.
#[derive(Clone, Copy, PartialEq, Eq)]
pub struct Key(pub [u8; 32]);

impl Key {
    /// Reads a key's text, whose digits may be of either case: [`Error::Text`], or [`Error::Key`] of zeros.
    pub fn from_text(text: &[u8]) -> Result<Key, Error> {
        let mut key = sys::zmg_key { bytes: [0; 32] };
        // SAFETY: the pointers are of live values, and the length is the text's own.
        check(unsafe { sys::zmg_key_from_text(&mut key, text.as_ptr().cast(), text.len()) })?;
        Ok(Key(key.bytes))
    }

    /// Returns the key's text, in lower case, with its line end.
    #[must_use]
    pub fn to_text(&self) -> String {
        let mut text = [0u8; sys::ZMG_KEY_TEXT_SIZE];
        // SAFETY: the pointers are of live values, and the text has its room.
        unsafe { sys::zmg_key_to_text(&sys::zmg_key { bytes: self.0 }, text.as_mut_ptr().cast()) };
        text.iter().map(|&letter| char::from(letter)).collect()
    }
}

impl FromStr for Key {
    type Err = Error;
    fn from_str(text: &str) -> Result<Key, Error> {
        Key::from_text(text.as_bytes())
    }
}

impl fmt::Debug for Key {
    fn fmt(&self, f: &mut fmt::Formatter<'_>) -> fmt::Result {
        f.write_str("Key(..)")
    }
}

/// Where a datagram comes from or goes to. The bytes are the caller's own, filled up with zeros: they are compared,
/// handed to the other players by the host, and never read. All players pack them the same way. For UDP: the 16 bytes
/// of an IPv6 address, or `::ffff:a.b.c.d` for one of IPv4, then the port, its high byte first.
#[derive(Clone, Copy, Debug, Default, PartialEq, Eq, Hash)]
pub struct Address(pub [u8; 32]);

impl From<SocketAddr> for Address {
    fn from(at: SocketAddr) -> Address {
        let ip = match at.ip() {
            IpAddr::V4(ip) => ip.to_ipv6_mapped(),
            IpAddr::V6(ip) => ip,
        };
        let mut bytes = [0; 32];
        bytes[..16].copy_from_slice(&ip.octets());
        bytes[16..18].copy_from_slice(&at.port().to_be_bytes());
        Address(bytes)
    }
}

impl From<Address> for SocketAddr {
    fn from(at: Address) -> SocketAddr {
        let mut octets = [0; 16];
        octets.copy_from_slice(&at.0[..16]);
        SocketAddr::new(
            Ipv6Addr::from(octets).to_canonical(),
            u16::from_be_bytes([at.0[16], at.0[17]]),
        )
    }
}

/// What a player is called: UTF-8 of at most 16 bytes.
#[derive(Clone, Copy, Debug, Default, PartialEq, Eq, Hash)]
pub struct Name([u8; 16]);

impl From<&str> for Name {
    /// A longer name is cut off behind a whole character.
    fn from(text: &str) -> Name {
        let mut most = text.len().min(16);
        while !text.is_char_boundary(most) {
            most -= 1;
        }
        let mut bytes = [0; 16];
        bytes[..most].copy_from_slice(&text.as_bytes()[..most]);
        Name(bytes)
    }
}

impl Name {
    pub(crate) fn of(raw: sys::zmg_name) -> Name {
        Name(raw.text.map(|letter| letter.to_ne_bytes()[0]))
    }

    pub(crate) fn raw(&self) -> sys::zmg_name {
        sys::zmg_name {
            text: self.0.map(|letter| c_char::from_ne_bytes([letter])),
        }
    }
}

impl fmt::Display for Name {
    fn fmt(&self, f: &mut fmt::Formatter<'_>) -> fmt::Result {
        let end = self.0.iter().position(|&b| b == 0).unwrap_or(16);
        f.write_str(&String::from_utf8_lossy(&self.0[..end]))
    }
}

/// The choice of game. Monsters are never fast.
#[derive(Clone, Copy, Debug, PartialEq, Eq)]
pub struct Settings {
    /// 0 to 4, 0 the easiest.
    pub skill: u8,
    /// 0 for cooperative play, 1, or 2 for deathmatch 2.0.
    pub deathmatch: u8,
    /// Whether there are no monsters.
    pub no_monsters: bool,
    /// Whether monsters come back.
    pub respawn: bool,
    /// 1 to 3.
    pub episode: u8,
    /// 1 to 32.
    pub map: u8,
}

impl Default for Settings {
    /// The first map at skill 2 in cooperative play.
    fn default() -> Settings {
        Settings {
            skill: 2,
            deathmatch: 0,
            no_monsters: false,
            respawn: false,
            episode: 1,
            map: 1,
        }
    }
}

impl Settings {
    pub(crate) fn of(raw: sys::zmg_settings) -> Settings {
        Settings {
            skill: raw.skill,
            deathmatch: raw.deathmatch,
            no_monsters: raw.no_monsters != 0,
            respawn: raw.respawn != 0,
            episode: raw.episode,
            map: raw.map,
        }
    }

    pub(crate) fn raw(self) -> sys::zmg_settings {
        sys::zmg_settings {
            skill: self.skill,
            deathmatch: self.deathmatch,
            no_monsters: self.no_monsters.into(),
            respawn: self.respawn.into(),
            episode: self.episode,
            map: self.map,
        }
    }
}

/// A tic command.
#[derive(Clone, Copy, Debug, Default, PartialEq, Eq, Hash)]
pub struct Command {
    /// To the left, in 65,536ths of a full turn.
    pub turn: i16,
    /// In units of 2048 in a world of 16 fractional bits. -128 counts as -127, since -128 would end a demo.
    pub forward: i8,
    /// To the right, in the same units.
    pub side: i8,
    /// A letter of chat, which the library carries and does not read.
    pub chat: u8,
    /// Bit 0 is attack, bit 1 use, bit 2 a change to the weapon in bits 3 to 5; other players' commands may set any.
    pub buttons: u8,
}

impl Command {
    /// Returns the command that vanilla Doom makes of these keys. `hold` counts for how many commands a turn key was
    /// down: 0 at first, and then as it was left.
    pub fn from_keys(hold: &mut u8, keys: Keys) -> Command {
        let mut raw = Command::default().raw();
        // SAFETY: the pointers are of live values.
        unsafe { sys::zmg_command_from_keys(hold, keys.0, &mut raw) };
        Command::of(raw)
    }

    pub(crate) fn of(raw: sys::zmg_command) -> Command {
        Command {
            turn: raw.turn,
            forward: raw.forward,
            side: raw.side,
            chat: raw.chat,
            buttons: raw.buttons,
        }
    }

    pub(crate) fn raw(self) -> sys::zmg_command {
        sys::zmg_command {
            turn: self.turn,
            forward: self.forward,
            side: self.side,
            chat: self.chat,
            buttons: self.buttons,
        }
    }
}

/// The keys that are down, a bit for each: `Keys(Keys::FORWARD.0 | Keys::SPEED.0)`. Bits from 18 on are ignored.
#[derive(Clone, Copy, Debug, Default, PartialEq, Eq)]
pub struct Keys(pub u32);

#[allow(missing_docs)]
impl Keys {
    pub const FORWARD: Keys = Keys(sys::ZMG_KEY_FORWARD);
    pub const BACK: Keys = Keys(sys::ZMG_KEY_BACK);
    pub const LEFT: Keys = Keys(sys::ZMG_KEY_LEFT);
    pub const RIGHT: Keys = Keys(sys::ZMG_KEY_RIGHT);
    pub const STRAFE_LEFT: Keys = Keys(sys::ZMG_KEY_STRAFE_LEFT);
    pub const STRAFE_RIGHT: Keys = Keys(sys::ZMG_KEY_STRAFE_RIGHT);
    pub const STRAFE: Keys = Keys(sys::ZMG_KEY_STRAFE);
    pub const SPEED: Keys = Keys(sys::ZMG_KEY_SPEED);
    pub const ATTACK: Keys = Keys(sys::ZMG_KEY_ATTACK);
    pub const USE: Keys = Keys(sys::ZMG_KEY_USE);

    /// The key for a weapon, 1 to 8; none for another number.
    #[must_use]
    pub fn weapon(number: u32) -> Keys {
        match number {
            1..=8 => Keys(sys::ZMG_KEY_WEAPON(number)),
            _ => Keys(0),
        }
    }
}

impl std::ops::BitOr for Keys {
    type Output = Keys;
    fn bitor(self, other: Keys) -> Keys {
        Keys(self.0 | other.0)
    }
}

/// A tic that was run, by whose commands the world is stepped.
#[derive(Clone, Copy, Debug, Default, PartialEq, Eq)]
pub struct Row {
    /// Counted from 0.
    pub tic: u32,
    /// The whole command of each player who has one in the tic.
    pub commands: [Option<Command>; 4],
}

impl Row {
    pub(crate) fn of(raw: &sys::zmg_row) -> Row {
        Row {
            tic: raw.tic,
            commands: std::array::from_fn(|p| {
                (raw.present[p] != 0).then(|| Command::of(raw.commands[p]))
            }),
        }
    }
}

/// What came of a run.
#[derive(Clone, Copy, Debug, PartialEq, Eq)]
#[non_exhaustive]
pub enum Run {
    /// There is no game here, or not any more.
    NotPlaying,
    /// This tic was run: step the world by it.
    Ran(Row),
    /// The command of this player is missing, the lowest such player.
    Waiting(u8),
    /// The demo is full. This run ended the game here.
    DemoFull,
    /// The worlds differ, since twelve tics before or longer. This run ended the game here.
    Inconsistent {
        /// Whose mark differs.
        player: u8,
        /// Its mark.
        was: i16,
        /// The mark here.
        should: i16,
    },
    /// No tic is run before the next tick.
    Held,
    /// A code that this crate has no name for.
    Unknown(u32),
}

impl Run {
    pub(crate) fn of(code: sys::zmg_run, raw: &sys::zmg_row) -> Run {
        match code {
            sys::ZMG_RUN_NOT_PLAYING => Run::NotPlaying,
            sys::ZMG_RUN_RAN => Run::Ran(Row::of(raw)),
            sys::ZMG_RUN_WAITING => Run::Waiting(raw.player),
            sys::ZMG_RUN_DEMO_FULL => Run::DemoFull,
            sys::ZMG_RUN_INCONSISTENT => Run::Inconsistent {
                player: raw.player,
                was: raw.was,
                should: raw.should,
            },
            sys::ZMG_RUN_HELD => Run::Held,
            code => Run::Unknown(code),
        }
    }
}

/// What is known of the line to another player. Counts stop at the largest number.
#[derive(Clone, Copy, Debug, Default, PartialEq, Eq)]
pub struct Line {
    /// How many of its datagrams came, copies and too old ones not counted.
    pub came: u32,
    /// How many of the numbers between the first that came and the newest did not come within 64.
    pub lost: u32,
    /// How many copies came, less than 64 behind the newest.
    pub repeated: u32,
    /// How many came 64 or more behind the newest.
    pub too_old: u32,
    /// How many of the last datagrams to it did not come there, or came after newer ones.
    pub missing_there: u8,
    /// How many commands this player was ahead of it, at this player's last tick.
    pub lead: i8,
    /// How many it was ahead of this player, at its own last tick.
    pub lead_there: i8,
}

impl Line {
    pub(crate) fn of(raw: sys::zmg_line) -> Line {
        Line {
            came: raw.came,
            lost: raw.lost,
            repeated: raw.repeated,
            too_old: raw.too_old,
            missing_there: raw.missing_there,
            lead: raw.lead,
            lead_there: raw.lead_there,
        }
    }
}

/// A tic that is known, if it is.
pub(crate) fn end(raw: u32) -> Option<u32> {
    (raw != sys::ZMG_NO_END).then_some(raw)
}
