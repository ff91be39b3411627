//! Demos.

use crate::status::{check, Error};
use crate::values::Row;
use std::mem::{size_of, zeroed};
use std::ptr::{self, NonNull};
use zirmegat_sys as sys;

/// How a game started, as a demo's header has it.
#[derive(Clone, Copy, Debug, Default, PartialEq, Eq)]
#[allow(missing_docs)]
pub struct Start {
    pub skill: u8,
    pub episode: u8,
    pub map: u8,
    pub deathmatch: u8,
    pub respawn: u8,
    pub fast: u8,
    pub no_monsters: u8,
}

/// What a demo has beside its rows.
#[derive(Clone, Copy, Debug, PartialEq, Eq)]
pub struct Facts {
    /// How many whole tics it has.
    pub tics: usize,
    /// How many commands lie between them and the marker.
    pub cut: usize,
    /// How many bytes follow the marker.
    pub after: usize,
    /// 109, as Doom 1.9 records, or 111, whose turns have both bytes.
    pub version: u8,
    /// The player whose view it shows.
    pub view: u8,
    /// How the game started.
    pub start: Start,
    /// Which seats have a player.
    pub present: [bool; 4],
}

/// A demo that was read.
pub struct Demo {
    raw: NonNull<sys::zmg_demo>,
}

// SAFETY: a handle is bound to no thread.
unsafe impl Send for Demo {}

impl Drop for Demo {
    fn drop(&mut self) {
        // SAFETY: the handle is this demo's own, and is not used again.
        unsafe { sys::zmg_demo_free(self.raw.as_ptr()) }
    }
}

impl std::fmt::Debug for Demo {
    fn fmt(&self, f: &mut std::fmt::Formatter<'_>) -> std::fmt::Result {
        f.debug_tuple("Demo").field(&self.facts()).finish()
    }
}

impl Demo {
    /// Reads a demo, of which a copy is kept: the first of [`Error::DemoShort`] to [`Error::DemoMarker`] that holds, or
    /// [`Error::Memory`].
    pub fn read(bytes: &[u8]) -> Result<Demo, Error> {
        let mut raw = ptr::null_mut();
        // SAFETY: the pointers are of live values, and the length is the bytes' own.
        check(unsafe { sys::zmg_demo_read(&mut raw, bytes.as_ptr(), bytes.len()) })?;
        NonNull::new(raw)
            .map(|raw| Demo { raw })
            .ok_or(Error::Memory)
    }

    /// Returns what it has beside its rows.
    #[must_use]
    pub fn facts(&self) -> Facts {
        // SAFETY: zeros are facts.
        let mut raw: sys::zmg_demo_facts = unsafe { zeroed() };
        // SAFETY: the handle is a demo's, and the pointer is of a live value of that size.
        unsafe {
            sys::zmg_demo_tell(
                self.raw.as_ptr(),
                &mut raw,
                size_of::<sys::zmg_demo_facts>(),
            )
        };
        Facts {
            tics: raw.tics,
            cut: raw.cut,
            after: raw.after,
            version: raw.version,
            view: raw.view,
            start: Start {
                skill: raw.start.skill,
                episode: raw.start.episode,
                map: raw.start.map,
                deathmatch: raw.start.deathmatch,
                respawn: raw.start.respawn,
                fast: raw.start.fast,
                no_monsters: raw.start.no_monsters,
            },
            present: raw.present.map(|there| there != 0),
        }
    }

    /// Returns the row of a tic, counted from 0, whose commands have no chat.
    #[must_use]
    pub fn row(&self, tic: usize) -> Option<Row> {
        // SAFETY: zeros are a row.
        let mut row = unsafe { zeroed() };
        // SAFETY: the handle is a demo's, and the pointer is of a live value.
        let status = unsafe { sys::zmg_demo_row(self.raw.as_ptr(), tic, &mut row) };
        (status == sys::ZMG_OK).then(|| Row::of(&row))
    }

    /// Returns the rows, from tic 0 on.
    pub fn rows(&self) -> impl Iterator<Item = Row> + '_ {
        (0..).map_while(|tic| self.row(tic))
    }
}

/// Writes a demo anew as version 111: the same start, view, players and whole tics. `limit` is how many bytes it may
/// have. The first of these that holds: the bytes are not a demo ([`Error::DemoShort`] to [`Error::DemoMarker`]);
/// [`Error::Memory`]; [`Error::Limit`], not 1,024 to 16,777,216; [`Error::Room`], the new demo has more bytes.
pub fn upgrade(bytes: &[u8], limit: usize) -> Result<Vec<u8>, Error> {
    // one byte more than any limit is refused like any more
    let mut out = vec![0; limit.min(16_777_217)];
    let mut written = 0;
    // SAFETY: the pointers are of live values, and the lengths are their own.
    check(unsafe {
        sys::zmg_demo_upgrade(
            bytes.as_ptr(),
            bytes.len(),
            out.as_mut_ptr(),
            out.len(),
            &mut written,
        )
    })?;
    out.truncate(written);
    Ok(out)
}
