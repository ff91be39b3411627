//! Why a call failed, and why a session is over.

use std::fmt;
use zirmegat_sys as sys;

/// Defines an enum of codes, each with its number and its text, and with `Unknown` for those of a later library.
macro_rules! codes {
    ($(#[$doc:meta])* $name:ident { $($(#[$about:meta])* $variant:ident = $code:ident, $text:literal;)* }) => {
        $(#[$doc])*
        #[derive(Clone, Copy, Debug, PartialEq, Eq, Hash)]
        #[non_exhaustive]
        pub enum $name {
            $($(#[$about])* $variant,)*
            /// A number that this crate has no name for.
            Unknown(u32),
        }

        impl $name {
            pub(crate) fn of(code: u32) -> $name {
                match code {
                    $(zirmegat_sys::$code => $name::$variant,)*
                    _ => $name::Unknown(code),
                }
            }
        }

        impl std::fmt::Display for $name {
            fn fmt(&self, f: &mut std::fmt::Formatter<'_>) -> std::fmt::Result {
                match self {
                    $($name::$variant => f.write_str($text),)*
                    $name::Unknown(code) => write!(f, "unknown: {code}"),
                }
            }
        }
    };
}
pub(crate) use codes;

codes! {
    /// Why a call failed. It has changed nothing, unless its own comment says so.
    Error {
        /// The archive that is linked does not know a record of this crate.
        Size = ZMG_ERR_SIZE, "the library does not know a struct of this size";
        /// There is no memory.
        Memory = ZMG_ERR_MEMORY, "there is no memory";
        /// There is too little room for what is to be written.
        Room = ZMG_ERR_ROOM, "there is too little room";
        /// The call is not possible at this moment.
        NotNow = ZMG_ERR_NOT_NOW, "this is not possible now";
        /// All bytes of the key are 0.
        Key = ZMG_ERR_KEY, "the key was never set";
        /// All random bytes are 0.
        Random = ZMG_ERR_RANDOM, "the random bytes were never set";
        /// Not two to four players.
        Players = ZMG_ERR_PLAYERS, "a game has two to four players";
        /// Not 1 to 12 commands.
        Window = ZMG_ERR_WINDOW, "the window is one to twelve commands";
        /// Not 1 to 35 tics a second.
        Rate = ZMG_ERR_RATE, "one to 35 tics a second are played";
        /// Not 1,024 to 16,777,216 bytes.
        Limit = ZMG_ERR_LIMIT, "a demo has 1,024 to 16,777,216 bytes";
        /// Fewer than three seconds.
        Policy = ZMG_ERR_POLICY, "nobody is given up, and no game ends, in fewer than three seconds";
        /// A seat above 3.
        Seat = ZMG_ERR_SEAT, "there are seats 1 to 3 for those who join";
        /// The skill is out of range.
        Skill = ZMG_ERR_SKILL, "this skill is not possible";
        /// The deathmatch is out of range.
        Deathmatch = ZMG_ERR_DEATHMATCH, "this deathmatch is not possible";
        /// The episode is out of range.
        Episode = ZMG_ERR_EPISODE, "episodes 1 to 3 are possible";
        /// The map is out of range.
        Map = ZMG_ERR_MAP, "maps 1 to 32 are possible";
        /// Not the text of a key.
        Text = ZMG_ERR_TEXT, "a key is 64 hexadecimal digits and a line end";
        /// Fewer than 13 bytes: not a demo.
        DemoShort = ZMG_ERR_DEMO_SHORT, "a demo has 13 bytes at least";
        /// Neither 109 nor 111: not a demo.
        DemoVersion = ZMG_ERR_DEMO_VERSION, "demos of version 109 and 111 are read";
        /// No seat is taken: not a demo.
        DemoPlayers = ZMG_ERR_DEMO_PLAYERS, "the demo has no player";
        /// No end marker: not a demo.
        DemoMarker = ZMG_ERR_DEMO_MARKER, "the demo has no end";
        /// The demo has no such tic.
        Tic = ZMG_ERR_TIC, "the demo has no such tic";
        /// The number of the player is not below the number of players.
        Me = ZMG_ERR_ME, "the game has no such player";
        /// As many commands wait to be run as the window allows.
        Full = ZMG_ERR_FULL, "the window is full";
    }
}

impl std::error::Error for Error {}

/// What a call's status says.
pub(crate) fn check(status: sys::zmg_status) -> Result<(), Error> {
    match status {
        sys::ZMG_OK => Ok(()),
        code => Err(Error::of(code)),
    }
}

/// Why a session is over.
#[derive(Clone, Copy, Debug, PartialEq, Eq, Hash)]
#[non_exhaustive]
pub enum Over {
    /// The player left.
    Left,
    /// The demo is full.
    Full,
    /// The worlds of this and that player differ.
    Inconsistent(u8),
    /// The others have given this player up.
    GivenUp,
    /// All others are given up.
    Alone,
    /// That player vanished, under [`Policy::End`](crate::Policy::End).
    Lost(u8),
    /// The game has begun without this player.
    Begun,
    /// The game has that many players: not as many as it must have, or it has no such seat.
    Players(u8),
    /// The host has another engine or other files.
    Identity,
    /// The host has turned this player away.
    Kicked,
    /// The host has another key, or none. Nobody vouches for this and the next.
    OtherKey,
    /// The host has that version of the lobby's datagrams.
    Version(u32),
    /// A status that this crate has no name for.
    Unknown(u32),
}

impl Over {
    /// None for a session that is not over.
    pub(crate) fn of(why: sys::zmg_status, number: u32) -> Option<Over> {
        Some(match why {
            sys::ZMG_OK => return None,
            sys::ZMG_OVER_LEFT => Over::Left,
            sys::ZMG_OVER_FULL => Over::Full,
            sys::ZMG_OVER_INCONSISTENT => Over::Inconsistent(number as u8),
            sys::ZMG_OVER_GIVEN_UP => Over::GivenUp,
            sys::ZMG_OVER_ALONE => Over::Alone,
            sys::ZMG_OVER_LOST => Over::Lost(number as u8),
            sys::ZMG_OVER_BEGUN => Over::Begun,
            sys::ZMG_OVER_PLAYERS => Over::Players(number as u8),
            sys::ZMG_OVER_IDENTITY => Over::Identity,
            sys::ZMG_OVER_KICKED => Over::Kicked,
            sys::ZMG_OVER_OTHER_KEY => Over::OtherKey,
            sys::ZMG_OVER_VERSION => Over::Version(number),
            code => Over::Unknown(code),
        })
    }
}

impl fmt::Display for Over {
    fn fmt(&self, f: &mut fmt::Formatter<'_>) -> fmt::Result {
        match self {
            Over::Left => f.write_str("this player left"),
            Over::Full => f.write_str("the demo is full"),
            Over::Inconsistent(player) => write!(f, "the world of player {player} differs"),
            Over::GivenUp => f.write_str("the others have given this player up"),
            Over::Alone => f.write_str("nobody else is left"),
            Over::Lost(player) => write!(f, "player {player} has vanished"),
            Over::Begun => f.write_str("the game has begun"),
            Over::Players(players) => write!(f, "the game has {players} players"),
            Over::Identity => f.write_str("the host has another version or other files"),
            Over::Kicked => f.write_str("the host has turned this player away"),
            Over::OtherKey => f.write_str("the host has another key, or none"),
            Over::Version(version) => write!(f, "the host has version {version} of the lobby"),
            Over::Unknown(code) => write!(f, "unknown: {code}"),
        }
    }
}
