//! A session: one player of a netgame, its lobby, and then its part in the game.

use crate::status::{check, Error, Over};
use crate::values::{end, Address, Command, Key, Line, Name, Run, Settings};
use std::mem::{size_of, zeroed};
use std::ptr::{self, NonNull};
use zirmegat_sys as sys;

/// The room that a datagram needs.
pub const DATAGRAM_SIZE: usize = sys::ZMG_DATAGRAM_SIZE;

/// What becomes of a player who vanishes. Who has the lowest number of those who are neither given up nor have left
/// leads. A player whose engine does not call for so long has vanished too: while it loads a level, let it poll, give
/// and send on, or choose more seconds.
#[derive(Clone, Copy, Debug, PartialEq, Eq)]
pub enum Policy {
    /// The others wait, until the one of them that leads calls [`Session::give_up`]; if it is the leader who vanishes,
    /// until each of them has done so.
    Wait,
    /// After so many seconds, three at least, it is given up, and they play on. Of two who vanish together the second
    /// is given up so many seconds after the first.
    GiveUp(u8),
    /// After so many seconds, three at least, the game ends.
    End(u8),
}

/// What is the same at all players: the host chooses, and the others are told with their seat. The default: two
/// players, a window of 12, 35 tics a second, a demo of 16 MiB, [`Settings::default`], [`Policy::Wait`], zeros
/// for the rest.
#[derive(Clone, Debug, PartialEq, Eq)]
pub struct Terms {
    /// 2 to 4.
    pub players: u8,
    /// How many commands a player may be ahead of the tics that it ran: 1 to 12.
    pub window: u8,
    /// How many tics a second are played: 1 to 35.
    pub rate: u8,
    /// How many bytes the demo may have: 1,024 to 16,777,216. A tic takes 5 for each player.
    pub limit: u32,
    /// What is played.
    pub settings: Settings,
    /// What becomes of a player who vanishes.
    pub policy: Policy,
    /// A digest of what must be the same: the engine's version, its files. A joiner with another one gets no seat.
    pub identity: [u8; 16],
    /// What the host's engine tells the others.
    pub own: [u8; 256],
}

impl Default for Terms {
    fn default() -> Terms {
        Terms::of(&sys::zmg_host_config::init().terms)
    }
}

impl Terms {
    fn of(raw: &sys::zmg_terms) -> Terms {
        Terms {
            players: raw.players,
            window: raw.window,
            rate: raw.rate,
            limit: raw.limit,
            settings: Settings::of(raw.settings),
            policy: match raw.policy {
                sys::ZMG_POLICY_GIVE_UP => Policy::GiveUp(raw.seconds),
                sys::ZMG_POLICY_END => Policy::End(raw.seconds),
                _ => Policy::Wait,
            },
            identity: raw.identity.bytes,
            own: raw.own,
        }
    }

    fn raw(&self) -> sys::zmg_terms {
        let (policy, seconds) = match self.policy {
            Policy::Wait => (sys::ZMG_POLICY_WAIT, 0),
            Policy::GiveUp(seconds) => (sys::ZMG_POLICY_GIVE_UP, seconds),
            Policy::End(seconds) => (sys::ZMG_POLICY_END, seconds),
        };
        sys::zmg_terms {
            limit: self.limit,
            policy,
            seconds,
            players: self.players,
            window: self.window,
            rate: self.rate,
            settings: self.settings.raw(),
            identity: sys::zmg_identity {
                bytes: self.identity,
            },
            own: self.own,
        }
    }
}

/// Who hosts.
#[derive(Clone, Debug)]
pub struct Host {
    /// What is played, and how.
    pub terms: Terms,
    /// Without one anybody who can send to the host may join, send as anybody and end the game.
    pub key: Option<Key>,
    /// From the system's generator, drawn anew for each session and told to nobody.
    pub random: [u8; 32],
    /// What the host is called.
    pub name: Name,
}

/// Who joins.
#[derive(Clone, Debug)]
pub struct Join {
    /// Where the host is.
    pub host: Address,
    /// As the host's.
    pub key: Option<Key>,
    /// From the system's generator, drawn anew for each session and told to nobody.
    pub random: [u8; 32],
    /// As in [`Terms::identity`].
    pub identity: [u8; 16],
    /// What the player is called.
    pub name: Name,
    /// The seat that it wants, 1 to 3, or any.
    pub seat: Option<u8>,
    /// How many players the game must have, or any number.
    pub players: Option<u8>,
}

/// What has happened.
#[derive(Clone, Copy, Debug, PartialEq, Eq)]
#[non_exhaustive]
pub enum Event {
    /// A joiner has this seat.
    Seated(u8),
    /// It may lose its seat. [`Event::Over`] follows, or it calls again.
    Unseated,
    /// The game has begun: begin the world by the state's terms.
    Began,
    /// This player has left, and all its commands are here. It may still be given up. Where all others have
    /// left, the session plays on alone until its player quits.
    Left(u8),
    /// This player is given up.
    GivenUp(u8),
    /// The last event: write the demo, and drop the session.
    Over(Over),
    /// An event that this crate has no name for.
    Unknown(u32),
}

/// Where a session stands.
#[derive(Clone, Copy, Debug, PartialEq, Eq)]
#[non_exhaustive]
pub enum Stage {
    /// A host, until its game begins.
    Hosting,
    /// A joiner that has not been answered, or not by a seat.
    Calling,
    /// A joiner for whom no seat is free yet.
    Waiting,
    /// A joiner that has a seat.
    Seated,
    /// In the game.
    Playing,
    /// Its game has ended, and others may still need its commands.
    Leaving,
    /// It is over.
    Over,
    /// A stage that this crate has no name for.
    Unknown(u32),
}

/// What is known of a session.
#[derive(Clone, Debug, PartialEq, Eq)]
pub struct State {
    /// Where it stands.
    pub stage: Stage,
    /// Why it is over, or will be once it has left.
    pub over: Option<Over>,
    /// How many commands it made.
    pub made: u32,
    /// How many tics it ran.
    pub ran: u32,
    /// How many of its commands are not yet acknowledged for certain by every player.
    pub unacknowledged: u32,
    /// Whether nobody needs anything of it any more.
    pub may_leave: bool,
    /// With [`Over::Inconsistent`] the player's mark, and the mark here.
    pub marks: (i16, i16),
    /// The number of its player, 0 until that has a seat.
    pub me: u8,
    /// Once they are known.
    pub terms: Option<Terms>,
}

/// A seat in the lobby, as it was told last; once the game has begun it means nothing any more.
#[derive(Clone, Copy, Debug, PartialEq, Eq)]
#[non_exhaustive]
pub enum Seat {
    /// The game has no such seat, or it is not known yet.
    None,
    /// Nobody has it.
    Free,
    /// Its holder is there.
    There,
    /// Its holder was not heard by the host for two seconds.
    Silent,
    /// A code that this crate has no name for.
    Unknown(u32),
}

/// A player in the game.
#[derive(Clone, Copy, Debug, PartialEq, Eq)]
#[non_exhaustive]
pub enum Standing {
    /// The game has no such player, or has not begun.
    None,
    /// It plays.
    Plays,
    /// It has left.
    Left,
    /// It is given up.
    GivenUp,
    /// A code that this crate has no name for.
    Unknown(u32),
}

/// What is known of a player.
#[derive(Clone, Copy, Debug, PartialEq, Eq)]
pub struct Player {
    /// Its seat in the lobby.
    pub seat: Seat,
    /// Where it is, if that is known.
    pub address: Option<Address>,
    /// What it is called; empty of the host's own seat, at the host.
    pub name: Name,
    /// Whether it plays.
    pub standing: Standing,
    /// For how many milliseconds the game has waited for its command or its report of who is given up, or 0.
    pub awaited: u32,
    /// For how many milliseconds nothing new of it came, by any way; of the own player it means nothing.
    pub silent: u32,
    /// How many of its commands are here.
    pub got: u32,
    /// The tic after its last one, if it is known.
    pub end: Option<u32>,
    /// The line to it; zeros of the own player and before the game.
    pub line: Line,
}

/// One player of a netgame. `now` is in milliseconds of the player's own clock, which never goes back, counted from
/// the making of the session.
pub struct Session {
    raw: NonNull<sys::zmg_session>,
}

// SAFETY: a handle is bound to no thread; `&mut` orders the calls.
unsafe impl Send for Session {}

impl Drop for Session {
    fn drop(&mut self) {
        // SAFETY: the handle is this session's own, and is not used again.
        unsafe { sys::zmg_session_free(self.raw.as_ptr()) }
    }
}

impl std::fmt::Debug for Session {
    fn fmt(&self, f: &mut std::fmt::Formatter<'_>) -> std::fmt::Result {
        f.debug_tuple("Session").field(&self.state()).finish()
    }
}

impl Session {
    /// Makes the session of who hosts: [`Error::Key`], [`Error::Random`], a fault of the terms, or [`Error::Memory`].
    pub fn host(host: &Host) -> Result<Session, Error> {
        let mut config = sys::zmg_host_config::init();
        config.terms = host.terms.raw();
        config.keyless = host.key.is_none().into();
        config.key.bytes = host.key.map_or([0; 32], |key| key.0);
        config.random.bytes = host.random;
        config.name = host.name.raw();
        let mut raw = ptr::null_mut();
        // SAFETY: the pointers are of live values.
        check(unsafe { sys::zmg_session_host(&mut raw, &config) })?;
        NonNull::new(raw)
            .map(|raw| Session { raw })
            .ok_or(Error::Memory)
    }

    /// Makes the session of who joins, with the same errors; [`Error::Seat`] of a seat above 3, [`Error::Players`] of
    /// an impossible number.
    pub fn join(join: &Join, now: u32) -> Result<Session, Error> {
        let mut config = sys::zmg_join_config::init();
        config.host.bytes = join.host.0;
        config.keyless = join.key.is_none().into();
        config.key.bytes = join.key.map_or([0; 32], |key| key.0);
        config.random.bytes = join.random;
        config.identity.bytes = join.identity;
        config.name = join.name.raw();
        config.seat = join.seat.unwrap_or(0);
        config.players = join.players.unwrap_or(0);
        let mut raw = ptr::null_mut();
        // SAFETY: the pointers are of live values.
        check(unsafe { sys::zmg_session_join(&mut raw, &config, now) })?;
        NonNull::new(raw)
            .map(|raw| Session { raw })
            .ok_or(Error::Memory)
    }

    /// Takes in any bytes that came from an address. Send what [`transmit`](Session::transmit) returns before the next
    /// one: a reply, or a datagram that goes on to another player, takes the place of one that was not sent.
    pub fn receive(&mut self, from: &Address, bytes: &[u8], now: u32) {
        let from = sys::zmg_address { bytes: from.0 };
        // SAFETY: the handle is a session's, and the pointers are of live values.
        unsafe {
            sys::zmg_session_receive(self.raw.as_ptr(), &from, bytes.as_ptr(), bytes.len(), now)
        };
    }

    /// Does what is due. [`Error::Memory`]: there is none for the player's part in the game that has begun; nothing is
    /// lost, and the next call tries again. The others wait for a player who has no part in the game.
    pub fn poll(&mut self, now: u32) -> Result<(), Error> {
        // SAFETY: the handle is a session's.
        check(unsafe { sys::zmg_session_poll(self.raw.as_ptr(), now) })
    }

    /// Returns after how many milliseconds [`poll`](Session::poll) has something to do or a tick is due; none if the
    /// session waits for datagrams alone.
    #[must_use]
    pub fn wait(&self, now: u32) -> Option<u32> {
        // SAFETY: the handle is a session's.
        let wait = unsafe { sys::zmg_session_wait(self.raw.as_ptr(), now) };
        (wait != sys::ZMG_WAIT_NONE).then_some(wait)
    }

    /// Writes the next datagram to the front of `out`, and returns where it goes to and its bytes, if there is one.
    pub fn transmit<'a>(
        &mut self,
        out: &'a mut [u8; DATAGRAM_SIZE],
    ) -> Option<(Address, &'a [u8])> {
        let mut to = sys::zmg_address { bytes: [0; 32] };
        // SAFETY: the handle is a session's, and the pointers are of live values with that room.
        let length = unsafe {
            sys::zmg_session_transmit(self.raw.as_ptr(), &mut to, out.as_mut_ptr(), out.len())
        };
        (length > 0).then(|| (Address(to.bytes), &out[..length]))
    }

    /// Takes the next event, each thing once.
    pub fn event(&mut self) -> Option<Event> {
        let mut raw = sys::zmg_event {
            kind: 0,
            player: 0,
            why: 0,
            number: 0,
        };
        // SAFETY: the handle is a session's, and the pointer is of a live value.
        Some(
            match unsafe { sys::zmg_session_event(self.raw.as_ptr(), &mut raw) } {
                sys::ZMG_EVENT_NONE => return None,
                sys::ZMG_EVENT_SEATED => Event::Seated(raw.player as u8),
                sys::ZMG_EVENT_UNSEATED => Event::Unseated,
                sys::ZMG_EVENT_BEGAN => Event::Began,
                sys::ZMG_EVENT_LEFT => Event::Left(raw.player as u8),
                sys::ZMG_EVENT_GIVEN_UP => Event::GivenUp(raw.player as u8),
                sys::ZMG_EVENT_OVER => {
                    Event::Over(Over::of(raw.why, raw.number).unwrap_or(Over::Unknown(0)))
                }
                kind => Event::Unknown(kind),
            },
        )
    }

    /// Returns whether a tick is due, for which the player gives a command. After a pause there may be several.
    #[must_use]
    pub fn wants_input(&self, now: u32) -> bool {
        // SAFETY: the handle is a session's.
        unsafe { sys::zmg_session_wants_input(self.raw.as_ptr(), now) }
    }

    /// Takes the command of the tick that is due. [`Error::NotNow`]: none is. If as many commands wait to be run as the
    /// window allows, it is owed: a run makes it as soon as there is room, unless a later one takes its place.
    pub fn give(&mut self, command: &Command, now: u32) -> Result<(), Error> {
        // SAFETY: the handle is a session's, and the pointer is of a live value.
        check(unsafe { sys::zmg_session_give(self.raw.as_ptr(), &command.raw(), now) })
    }

    /// Runs the next tic, if it can, by each player's mark in the caller's world as it stands; any number for a seat
    /// without a player. With [`Run::Ran`] the world is stepped by the row. Call it until it does not run, and send
    /// then: a run may make the command that is owed.
    pub fn run(&mut self, marks: &[i16; 4]) -> Run {
        // SAFETY: zeros are a row.
        let mut row = unsafe { zeroed() };
        // SAFETY: the handle is a session's, and the pointers are of live values.
        let code = unsafe { sys::zmg_session_run(self.raw.as_ptr(), marks.as_ptr(), &mut row) };
        Run::of(code, &row)
    }

    /// The player leaves the game. Go on with the loop until [`Event::Over`], ten seconds at most, so that the
    /// others learn where its commands end. It does nothing before the game, or after its end: in the lobby
    /// drop the session.
    pub fn quit(&mut self, now: u32) {
        // SAFETY: the handle is a session's.
        unsafe { sys::zmg_session_quit(self.raw.as_ptr(), now) };
    }

    /// Gives up another player, for good. [`Error::NotNow`]: it may not. The game must have stood still for
    /// three seconds. The leader ([`Policy`]) may then give up any other player; the others may give up nobody
    /// but the leader.
    pub fn give_up(&mut self, player: u8, now: u32) -> Result<(), Error> {
        // SAFETY: the handle is a session's.
        check(unsafe { sys::zmg_session_give_up(self.raw.as_ptr(), player, now) })
    }

    /// Turns away who holds a seat, 1 to 3, if this is the host and the game has not begun; else does nothing.
    pub fn kick(&mut self, seat: u8) {
        // SAFETY: the handle is a session's.
        unsafe { sys::zmg_session_kick(self.raw.as_ptr(), seat) };
    }

    /// Returns what is known of the session.
    #[must_use]
    pub fn state(&self) -> State {
        // SAFETY: zeros are a state.
        let mut raw: sys::zmg_state = unsafe { zeroed() };
        // SAFETY: the handle is a session's, and the pointer is of a live value of that size.
        unsafe { sys::zmg_session_state(self.raw.as_ptr(), &mut raw, size_of::<sys::zmg_state>()) };
        State {
            stage: match raw.stage {
                sys::ZMG_STAGE_HOSTING => Stage::Hosting,
                sys::ZMG_STAGE_CALLING => Stage::Calling,
                sys::ZMG_STAGE_WAITING => Stage::Waiting,
                sys::ZMG_STAGE_SEATED => Stage::Seated,
                sys::ZMG_STAGE_PLAYING => Stage::Playing,
                sys::ZMG_STAGE_LEAVING => Stage::Leaving,
                sys::ZMG_STAGE_OVER => Stage::Over,
                code => Stage::Unknown(code),
            },
            over: Over::of(raw.why, raw.number),
            made: raw.made,
            ran: raw.ran,
            unacknowledged: raw.unacknowledged,
            may_leave: raw.may_leave != 0,
            marks: (raw.was, raw.should),
            me: raw.me as u8,
            terms: (raw.terms.players != 0).then(|| Terms::of(&raw.terms)),
        }
    }

    /// Returns what is known of a player.
    #[must_use]
    pub fn player(&self, player: u8, now: u32) -> Player {
        // SAFETY: zeros are a player.
        let mut raw: sys::zmg_player = unsafe { zeroed() };
        let size = size_of::<sys::zmg_player>();
        // SAFETY: the handle is a session's, and the pointer is of a live value of that size.
        unsafe { sys::zmg_session_player(self.raw.as_ptr(), player, now, &mut raw, size) };
        Player {
            seat: match raw.seat {
                sys::ZMG_SEAT_NONE => Seat::None,
                sys::ZMG_SEAT_FREE => Seat::Free,
                sys::ZMG_SEAT_THERE => Seat::There,
                sys::ZMG_SEAT_SILENT => Seat::Silent,
                code => Seat::Unknown(code),
            },
            address: (raw.has_address != 0).then_some(Address(raw.address.bytes)),
            name: Name::of(raw.name),
            standing: match raw.standing {
                sys::ZMG_STANDING_NONE => Standing::None,
                sys::ZMG_STANDING_PLAYS => Standing::Plays,
                sys::ZMG_STANDING_LEFT => Standing::Left,
                sys::ZMG_STANDING_GIVEN_UP => Standing::GivenUp,
                code => Standing::Unknown(code),
            },
            awaited: raw.awaited,
            silent: raw.silent,
            got: raw.got,
            end: end(raw.end),
            line: Line::of(raw.line),
        }
    }

    /// Copies the demo from this byte on, as many bytes as there is room for, and returns how many. It ends at
    /// the first tic without some player, and is complete once the game has ended here.
    pub fn demo_from(&self, from: usize, out: &mut [u8]) -> usize {
        // SAFETY: the handle is a session's, and the pointer is of a live value with that room.
        unsafe { sys::zmg_session_demo(self.raw.as_ptr(), from, out.as_mut_ptr(), out.len()) }
    }

    /// Returns the demo so far; nothing before the game.
    #[must_use]
    pub fn demo(&self) -> Vec<u8> {
        whole(|from, out| self.demo_from(from, out))
    }
}

/// All bytes of what is copied piece by piece.
pub(crate) fn whole(copy: impl Fn(usize, &mut [u8]) -> usize) -> Vec<u8> {
    let mut bytes = Vec::new();
    let mut piece = [0; 4096];
    loop {
        match copy(bytes.len(), &mut piece) {
            0 => return bytes,
            length => bytes.extend_from_slice(&piece[..length]),
        }
    }
}
