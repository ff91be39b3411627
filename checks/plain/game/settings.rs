//! The choice of a game.

/// The settings, with 0 or 1 for no and yes, in the order of zirmegat.h.
#[repr(C)]
#[derive(Clone, Copy, Default, PartialEq)]
pub struct Settings {
    pub skill: u8,
    pub deathmatch: u8,
    pub no_monsters: u8,
    pub respawn: u8,
    pub episode: u8,
    pub map: u8,
}

/// The first setting that is out of range.
#[derive(Clone, Copy)]
pub enum OutOfRange {
    Skill,
    Deathmatch,
    Episode,
    Map,
}

impl Settings {
    pub fn check(&self) -> Result<(), OutOfRange> {
        if self.skill > 4 {
            Err(OutOfRange::Skill)
        } else if self.deathmatch > 2 {
            Err(OutOfRange::Deathmatch)
        } else if !(1..=3).contains(&self.episode) {
            Err(OutOfRange::Episode)
        } else if !(1..=32).contains(&self.map) {
            Err(OutOfRange::Map)
        } else {
            Ok(())
        }
    }

    /// The ask and start bytes of a set-up packet.
    pub fn to_bytes(self) -> [u8; 2] {
        let ask = self.skill | self.respawn << 4 | self.no_monsters << 5 | self.deathmatch << 6;
        [ask, self.map | self.episode << 6]
    }

    pub fn from_bytes([ask, start]: [u8; 2]) -> Settings {
        Settings {
            skill: ask & 15,
            deathmatch: ask >> 6,
            no_monsters: ask >> 5 & 1,
            respawn: ask >> 4 & 1,
            episode: start >> 6,
            map: start & 63,
        }
    }
}
