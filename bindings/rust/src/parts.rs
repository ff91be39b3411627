//! Links and locksteps: the parts of a session, for an engine that has a lobby, a transport or a pace of its own. The
//! comments of `zirmegat_parts.h` hold here.

use crate::session::whole;
use crate::status::{check, codes, Error};
use crate::values::{end, Command, Key, Line, Run, Settings};
use std::marker::PhantomData;
use std::mem::{size_of, zeroed};
use std::ptr::{self, NonNull};
use zirmegat_sys as sys;

pub use crate::packet::{Packet, PacketError, SentCommand, EXIT, KILL, RETRANSMIT, SETUP};

/// The window of the 1997 source.
pub const WINDOW_1997: u8 = sys::ZMG_WINDOW_1997 as u8;

/// The room that a lockstep's packet needs.
pub const PACKET_SIZE: usize = sys::ZMG_PACKET_SIZE;

/// The player of a node, and its game. All but `me` is the same at all players of links; of locksteps `limit`,
/// `players`, `window` and `extra` are.
#[derive(Clone, Copy, Debug)]
pub struct Config {
    /// How many bytes the demo may have: 1,024 to 16,777,216.
    pub limit: u32,
    /// 2 to 4.
    pub players: u8,
    /// The number of this player, 0 to `players` - 1.
    pub me: u8,
    /// How many commands a player may be ahead of the tics that it ran: 1 to 12.
    pub window: u8,
    /// Whether each packet of a lockstep repeats the last command.
    pub extra: bool,
    /// Those of a link's game. Of locksteps player 0 has them, and sends them to the others.
    pub settings: Settings,
}

impl Config {
    /// Returns the configuration of a player in the window of 1997, on the first map at skill 2.
    #[must_use]
    pub fn new(players: u8, me: u8) -> Config {
        let raw = sys::zmg_node_config::init();
        Config {
            limit: raw.limit,
            players,
            me,
            window: raw.window,
            extra: false,
            settings: Settings::of(raw.settings),
        }
    }

    fn raw(&self) -> sys::zmg_node_config {
        let mut raw = sys::zmg_node_config::init();
        raw.limit = self.limit;
        raw.players = self.players;
        raw.me = self.me;
        raw.window = self.window;
        raw.extra = self.extra.into();
        raw.settings = self.settings.raw();
        raw
    }
}

/// A link, which is for an untrusted network. `Node<Link>` has its calls.
#[derive(Debug)]
pub enum Link {}

/// A lockstep, which has the packets of the 1997 source. `Node<Lockstep>` has its calls.
#[derive(Debug)]
pub enum Lockstep {}

/// One player's part of a game: a [`Link`] or a [`Lockstep`].
pub struct Node<K> {
    raw: NonNull<sys::zmg_node>,
    kind: PhantomData<K>,
}

// SAFETY: a handle is bound to no thread; `&mut` orders the calls.
unsafe impl<K> Send for Node<K> {}

impl<K> Drop for Node<K> {
    fn drop(&mut self) {
        // SAFETY: the handle is this node's own, and is not used again.
        unsafe { sys::zmg_node_free(self.raw.as_ptr()) }
    }
}

impl<K> std::fmt::Debug for Node<K> {
    fn fmt(&self, f: &mut std::fmt::Formatter<'_>) -> std::fmt::Result {
        f.debug_tuple("Node").field(&self.state()).finish()
    }
}

/// Where a node stands.
#[derive(Clone, Copy, Debug, PartialEq, Eq)]
#[non_exhaustive]
pub enum Phase {
    /// A lockstep that waits for player 0's settings.
    Listening,
    /// Player 0's lockstep, which waits to hear from every other.
    Gathering,
    /// It plays.
    Playing,
    /// It has ended.
    Ended,
    /// A code that this crate has no name for.
    Unknown(u32),
}

/// Why a node has ended, or another player has left.
#[derive(Clone, Copy, Debug, PartialEq, Eq)]
#[non_exhaustive]
pub enum Cause {
    /// It left by [`Node::quit`].
    Quit,
    /// The demo had no room for the next tic; or 2,097,150 tics were run in a game that somebody has left.
    Full,
    /// The worlds differ.
    Inconsistent,
    /// A code that this crate has no name for.
    Unknown(u32),
}

fn cause(code: sys::zmg_cause) -> Option<Cause> {
    match code {
        sys::ZMG_CAUSE_NONE => None,
        sys::ZMG_CAUSE_QUIT => Some(Cause::Quit),
        sys::ZMG_CAUSE_FULL => Some(Cause::Full),
        sys::ZMG_CAUSE_INCONSISTENT => Some(Cause::Inconsistent),
        code => Some(Cause::Unknown(code)),
    }
}

/// What is known of a node; `unacknowledged` and what follows it of a link alone.
#[derive(Clone, Copy, Debug, PartialEq, Eq)]
pub struct State {
    /// Where it stands.
    pub phase: Phase,
    /// Why it has ended.
    pub cause: Option<Cause>,
    /// With [`Cause::Inconsistent`] the player, its mark, and the mark here.
    pub differs: (u8, i16, i16),
    /// The number of its player.
    pub me: u8,
    /// How many players the game has.
    pub players: u8,
    /// How many commands it made.
    pub made: u32,
    /// How many tics it ran.
    pub ran: u32,
    /// Whether [`Node::give`] would make a command now.
    pub can_give: bool,
    /// The settings, once they are known.
    pub settings: Option<Settings>,
    /// How many bytes the demo has so far.
    pub demo_length: usize,
    /// How many of its commands are not yet acknowledged for certain by every player who needs them.
    pub unacknowledged: u32,
    /// How often bytes came that were not a datagram to this player in this game.
    pub refused: u32,
    /// Whether no other player needs anything more from this one.
    pub may_leave: bool,
    /// The lowest player whose report of who is given up is missing; ask while somebody is given up.
    pub undecided: Option<u8>,
}

/// What is known of a player; `left` and what follows it at a link alone.
#[derive(Clone, Copy, Debug, PartialEq, Eq)]
pub struct Player {
    /// How many commands of the player are here.
    pub got: u32,
    /// The tic after its last one, if it is known.
    pub end: Option<u32>,
    /// Why it has left, as its datagrams told with all of its commands and its end.
    pub left: Option<Cause>,
    /// Whether it is given up by [`Node::give_up`].
    pub given_up: bool,
    /// For each player whether the newest report of this one names it as given up.
    pub reports: [bool; 4],
    /// Whether no datagram should go to the player at this tick.
    pub is_resting: bool,
    /// Whether to give it one more, half a tick after the tick's own.
    pub wants_second: bool,
    /// The line to it.
    pub line: Line,
}

/// Of both kinds.
impl<K> Node<K> {
    fn made(
        new: unsafe extern "C" fn(
            *mut *mut sys::zmg_node,
            *const sys::zmg_node_config,
        ) -> sys::zmg_status,
        config: &sys::zmg_node_config,
    ) -> Result<Node<K>, Error> {
        let mut raw = ptr::null_mut();
        // SAFETY: the pointers are of live values.
        check(unsafe { new(&mut raw, config) })?;
        let kind = PhantomData;
        NonNull::new(raw)
            .map(|raw| Node { raw, kind })
            .ok_or(Error::Memory)
    }

    /// Takes the command for the next tic. [`Error::Full`]: as many wait to be run as the window allows; a link then
    /// owes it. [`Error::NotNow`]: the node does not play.
    pub fn give(&mut self, command: &Command) -> Result<(), Error> {
        // SAFETY: the handle is a node's, and the pointer is of a live value.
        check(unsafe { sys::zmg_node_give(self.raw.as_ptr(), &command.raw()) })
    }

    /// Runs the next tic, if it can, as [`Session::run`](crate::Session::run) does; it is never [`Run::Held`].
    pub fn run(&mut self, marks: &[i16; 4]) -> Run {
        // SAFETY: zeros are a row.
        let mut row = unsafe { zeroed() };
        // SAFETY: the handle is a node's, and the pointers are of live values.
        let code = unsafe { sys::zmg_node_run(self.raw.as_ptr(), marks.as_ptr(), &mut row) };
        Run::of(code, &row)
    }

    /// Ends the node. [`Error::NotNow`]: it had ended before.
    pub fn quit(&mut self) -> Result<(), Error> {
        // SAFETY: the handle is a node's.
        check(unsafe { sys::zmg_node_quit(self.raw.as_ptr()) })
    }

    /// Returns what is known of the node.
    #[must_use]
    pub fn state(&self) -> State {
        // SAFETY: zeros are a state.
        let mut raw: sys::zmg_node_state = unsafe { zeroed() };
        let size = size_of::<sys::zmg_node_state>();
        // SAFETY: the handle is a node's, and the pointer is of a live value of that size.
        unsafe { sys::zmg_node_state_get(self.raw.as_ptr(), &mut raw, size) };
        State {
            phase: match raw.phase {
                sys::ZMG_PHASE_LISTENING => Phase::Listening,
                sys::ZMG_PHASE_GATHERING => Phase::Gathering,
                sys::ZMG_PHASE_PLAYING => Phase::Playing,
                sys::ZMG_PHASE_ENDED => Phase::Ended,
                code => Phase::Unknown(code),
            },
            cause: cause(raw.cause),
            differs: (raw.player as u8, raw.was, raw.should),
            me: raw.me as u8,
            players: raw.players as u8,
            made: raw.made,
            ran: raw.ran,
            can_give: raw.can_give != 0,
            settings: (raw.knows_settings != 0).then(|| Settings::of(raw.settings)),
            demo_length: raw.demo_length,
            unacknowledged: raw.unacknowledged,
            refused: raw.refused,
            may_leave: raw.may_leave != 0,
            undecided: (raw.is_undecided != 0).then_some(raw.undecided as u8),
        }
    }

    /// Returns what is known of a player.
    #[must_use]
    pub fn player(&self, player: u8) -> Player {
        // SAFETY: zeros are a player.
        let mut raw: sys::zmg_node_player = unsafe { zeroed() };
        let size = size_of::<sys::zmg_node_player>();
        // SAFETY: the handle is a node's, and the pointer is of a live value of that size.
        unsafe { sys::zmg_node_player_get(self.raw.as_ptr(), player, &mut raw, size) };
        Player {
            got: raw.got,
            end: end(raw.end),
            left: cause(raw.left),
            given_up: raw.given_up != 0,
            reports: raw.reports.map(|named| named != 0),
            is_resting: raw.is_resting != 0,
            wants_second: raw.wants_second != 0,
            line: Line::of(raw.line),
        }
    }

    /// Copies the demo from this byte on, as many bytes as there is room for, and returns how many.
    pub fn demo_from(&self, from: usize, out: &mut [u8]) -> usize {
        // SAFETY: the handle is a node's, and the pointer is of a live value with that room.
        unsafe { sys::zmg_node_demo(self.raw.as_ptr(), from, out.as_mut_ptr(), out.len()) }
    }

    /// Returns the demo so far.
    #[must_use]
    pub fn demo(&self) -> Vec<u8> {
        whole(|from, out| self.demo_from(from, out))
    }
}

/// The full tic numbers of a packet, which itself carries only their low bytes.
#[derive(Clone, Copy, Debug, PartialEq, Eq)]
pub struct Aim {
    /// The first tic whose command is asked for again.
    pub ask: Option<u32>,
    /// The tic of the first command; 0 for set-up.
    pub start: u32,
    /// As in a [`Packet`].
    pub flags: u8,
    /// How many commands.
    pub count: u8,
}

codes! {
    /// Why a lockstep dropped a datagram.
    Dropped {
        /// Fewer than 8 bytes.
        Short = ZMG_DROP_SHORT, "it has fewer than 8 bytes";
        /// It announces more than twelve commands.
        Many = ZMG_DROP_MANY, "it announces more than twelve commands";
        /// Its length does not match the commands that it announces.
        Length = ZMG_DROP_LENGTH, "its length is another";
        /// Its sum is wrong.
        Sum = ZMG_DROP_SUM, "its sum is wrong";
        /// The sender is not another player of the game, or is not the player that it names.
        Stranger = ZMG_DROP_STRANGER, "its sender is another";
        /// Settings that are not from player 0, or that come once the game runs.
        OutOfPlace = ZMG_DROP_OUT_OF_PLACE, "its settings are out of place";
        /// The sender plays another version.
        Version = ZMG_DROP_VERSION, "its sender plays another version";
        /// Settings out of range.
        Range = ZMG_DROP_RANGE, "its settings are out of range";
        /// A KILL packet, which no node obeys.
        Kill = ZMG_DROP_KILL, "it would end the game";
        /// Its start is a tic below 0.
        Tic = ZMG_DROP_TIC, "its start is below 0";
        /// A command that would end a demo.
        Command = ZMG_DROP_COMMAND, "a command would end a demo";
        /// More tics ahead than the node keeps commands.
        Overrun = ZMG_DROP_OVERRUN, "it is too far ahead";
        /// The game has not started here, or this node has ended.
        NotPlaying = ZMG_DROP_NOT_PLAYING, "there is no game here";
        /// It contradicts the sender's end.
        End = ZMG_DROP_END, "it contradicts its sender's end";
    }
}

/// What became of a datagram at a lockstep.
#[derive(Clone, Copy, Debug, PartialEq, Eq)]
#[non_exhaustive]
pub enum Heard {
    /// It changed nothing.
    Dropped(Dropped),
    /// The game starts: begin your world.
    Started,
    /// So many commands were new, and are kept.
    Taken(u32),
    /// No command was new.
    Stale,
    /// Commands before its first are missing, and are asked for; the sender may have left.
    Gap,
    /// The sender has left, and all its commands are here.
    Left,
    /// The sender was heard, but not yet all others; or this node has ended.
    Noted,
    /// A code that this crate has no name for.
    Unknown(u32),
}

impl Node<Lockstep> {
    /// Makes a lockstep: the first fault of the config, or [`Error::Memory`].
    pub fn lockstep(config: &Config) -> Result<Node<Lockstep>, Error> {
        Node::made(sys::zmg_lockstep_new, &config.raw())
    }

    /// Writes the next packet to a player to the front of `out`, and returns its bytes, if there is one.
    pub fn packet<'a>(&mut self, to: u8, out: &'a mut [u8; PACKET_SIZE]) -> Option<&'a [u8]> {
        // SAFETY: the handle is a node's, and the pointer is of a live value with that room.
        let length =
            unsafe { sys::zmg_lockstep_packet(self.raw.as_ptr(), to, out.as_mut_ptr(), out.len()) };
        (length > 0).then(|| &out[..length])
    }

    /// Returns the numbers of the packet that [`packet`](Node::packet) would write now, if there is one.
    #[must_use]
    pub fn aim(&self, to: u8) -> Option<Aim> {
        // SAFETY: zeros are an aim.
        let mut raw: sys::zmg_aim = unsafe { zeroed() };
        // SAFETY: the handle is a node's, and the pointer is of a live value.
        let status = unsafe { sys::zmg_lockstep_aim(self.raw.as_ptr(), to, &mut raw) };
        (status == sys::ZMG_OK).then(|| Aim {
            ask: (raw.asks != 0).then_some(raw.ask),
            start: raw.start,
            flags: raw.flags,
            count: raw.count,
        })
    }

    /// Takes in a datagram from a player. It is up to the transport to know who sent it, and to pass in none that is
    /// old: the comment of `zmg_lockstep_receive` has the rules.
    pub fn receive(&mut self, from: u8, bytes: &[u8]) -> Heard {
        let mut raw = sys::zmg_heard { code: 0, number: 0 };
        let node = self.raw.as_ptr();
        // SAFETY: the handle is a node's, and the pointers are of live values.
        match unsafe {
            sys::zmg_lockstep_receive(node, from, bytes.as_ptr(), bytes.len(), &mut raw)
        } {
            sys::ZMG_HEARD_DROPPED => Heard::Dropped(Dropped::of(raw.number)),
            sys::ZMG_HEARD_STARTED => Heard::Started,
            sys::ZMG_HEARD_TAKEN => Heard::Taken(raw.number),
            sys::ZMG_HEARD_STALE => Heard::Stale,
            sys::ZMG_HEARD_GAP => Heard::Gap,
            sys::ZMG_HEARD_LEFT => Heard::Left,
            sys::ZMG_HEARD_NOTED => Heard::Noted,
            code => Heard::Unknown(code),
        }
    }
}

codes! {
    /// Why bytes are not a datagram of a link's game: the first of these that holds.
    Unopened {
        /// Fewer than 62 bytes.
        Short = ZMG_UNOPENED_SHORT, "it has fewer than 62 bytes";
        /// More than a datagram has.
        Long = ZMG_UNOPENED_LONG, "it has more than 1,200 bytes";
        /// Another suite, or not a sealed datagram at all.
        Suite = ZMG_UNOPENED_SUITE, "it is not a sealed datagram";
        /// Sealed, but not a link's datagram.
        Kind = ZMG_UNOPENED_KIND, "it is not a link's datagram";
        /// Another game's number.
        Game = ZMG_UNOPENED_GAME, "it is of another game";
        /// To another player.
        Receiver = ZMG_UNOPENED_RECEIVER, "it is to another player";
        /// Altered or forged, or the secrets or numbers differ.
        Tag = ZMG_UNOPENED_TAG, "it is altered or forged, or the secrets differ";
        /// Its content has a form that no link writes.
        Form = ZMG_UNOPENED_FORM, "its content has no form that is known";
    }
}

/// What a link made of bytes.
#[derive(Clone, Copy, Debug, PartialEq, Eq)]
#[non_exhaustive]
pub enum Received {
    /// Not a datagram to this player in this game.
    Unopened(Unopened),
    /// A datagram of this player, which was taken in.
    Heard(u8),
    /// Sealed in this game, under a number that is not another player's.
    Stranger(u8),
    /// Sealed in this game by this player, who is given up.
    GivenUp(u8),
    /// Sealed in this game by this player, who tells that it has given up this one.
    Excluded(u8),
    /// A code that this crate has no name for.
    Unknown(u32),
}

codes! {
    /// Why an end cannot be taken.
    Unsettled {
        /// The number is not another player's.
        NotAPlayer = ZMG_UNSETTLED_NOT_A_PLAYER, "it is not another player";
        /// The link has ended.
        NotPlaying = ZMG_UNSETTLED_NOT_PLAYING, "the link has ended";
        /// A command before the end is missing, and no report has it.
        Gap = ZMG_UNSETTLED_GAP, "a command before the end is missing";
        /// The end lies before the last command that is there.
        Behind = ZMG_UNSETTLED_BEHIND, "the end lies before a command that is here";
        /// There is no room for the commands yet.
        Overrun = ZMG_UNSETTLED_OVERRUN, "there is no room for the commands yet";
        /// A missing command would end a demo.
        Stopper = ZMG_UNSETTLED_STOPPER, "a missing command would end a demo";
        /// An earlier end is known, or all tics before another one were run.
        OtherEnd = ZMG_UNSETTLED_OTHER_END, "another end is known";
    }
}

/// What came of a give-up.
#[derive(Clone, Copy, Debug, PartialEq, Eq)]
#[non_exhaustive]
pub enum GivenUp {
    /// The link has ended.
    NotPlaying,
    /// The player is given up; reports are missing.
    Waiting,
    /// The player is given up, and where the commands of all who are given up end is known.
    Decided,
    /// The player is given up, and all reports are there; but the end of this player, who need not be the one just given
    /// up, cannot be taken: some report is false.
    Untaken(u8, Unsettled),
    /// The player was given up before.
    Already,
    /// The number is not another player's.
    NotAPlayer,
    /// A code that this crate has no name for.
    Unknown(u32),
}

impl Node<Link> {
    /// Makes a link under a secret, for the game of a number: [`Error::Key`], a secret of zeros; the first fault of the
    /// config; or [`Error::Memory`]. A link plays at once, and its world begins at once.
    pub fn link(config: &Config, secret: &Key, game: &[u8; 16]) -> Result<Node<Link>, Error> {
        let mut raw = config.raw();
        raw.secret.bytes = secret.0;
        raw.game.bytes = *game;
        Node::made(sys::zmg_link_new, &raw)
    }

    /// Writes the current datagram to a player to the front of `out`, and returns its bytes, if there is one.
    pub fn datagram<'a>(
        &mut self,
        to: u8,
        out: &'a mut [u8; crate::DATAGRAM_SIZE],
    ) -> Option<&'a [u8]> {
        // SAFETY: the handle is a node's, and the pointer is of a live value with that room.
        let length =
            unsafe { sys::zmg_link_datagram(self.raw.as_ptr(), to, out.as_mut_ptr(), out.len()) };
        (length > 0).then(|| &out[..length])
    }

    /// Takes in any bytes, whoever sent them and whenever they come.
    pub fn receive(&mut self, bytes: &[u8]) -> Received {
        // SAFETY: zeros are what was received.
        let mut raw: sys::zmg_received = unsafe { zeroed() };
        let node = self.raw.as_ptr();
        // SAFETY: the handle is a node's, and the pointers are of live values.
        let code = unsafe { sys::zmg_link_receive(node, bytes.as_ptr(), bytes.len(), &mut raw) };
        let player = raw.player as u8;
        match code {
            sys::ZMG_RECEIVED_UNOPENED => Received::Unopened(Unopened::of(raw.reason)),
            sys::ZMG_RECEIVED_HEARD => Received::Heard(player),
            sys::ZMG_RECEIVED_STRANGER => Received::Stranger(player),
            sys::ZMG_RECEIVED_GIVEN_UP => Received::GivenUp(player),
            sys::ZMG_RECEIVED_EXCLUDED => Received::Excluded(player),
            code => Received::Unknown(code),
        }
    }

    /// Call it once a tick, after [`give`](Node::give). Returns by how many 32nds of a tick the next tick comes later
    /// than one tick after this one, or sooner if it is below 0: -9 to 41.
    pub fn tick(&mut self) -> i32 {
        let mut later = 0;
        // SAFETY: the handle is a node's, and the pointer is of a live value.
        unsafe { sys::zmg_link_tick(self.raw.as_ptr(), &mut later) };
        later
    }

    /// Makes the command that is owed, and the datagrams with it should go at once. [`Error::Full`]: there is still no
    /// room. [`Error::NotNow`]: none is owed, or the link has ended.
    pub fn catch_up(&mut self) -> Result<(), Error> {
        // SAFETY: the handle is a node's.
        check(unsafe { sys::zmg_link_catch_up(self.raw.as_ptr()) })
    }

    /// Gives up a player who vanished, for good, so that the others play on. All who play on must give it up.
    pub fn give_up(&mut self, player: u8) -> GivenUp {
        // SAFETY: zeros are what came of it.
        let mut raw: sys::zmg_given_up = unsafe { zeroed() };
        // SAFETY: the handle is a node's, and the pointer is of a live value.
        match unsafe { sys::zmg_link_give_up(self.raw.as_ptr(), player, &mut raw) } {
            sys::ZMG_GIVE_UP_NOT_PLAYING => GivenUp::NotPlaying,
            sys::ZMG_GIVE_UP_WAITING => GivenUp::Waiting,
            sys::ZMG_GIVE_UP_DECIDED => GivenUp::Decided,
            sys::ZMG_GIVE_UP_UNTAKEN => {
                GivenUp::Untaken(raw.player as u8, Unsettled::of(raw.reason))
            }
            sys::ZMG_GIVE_UP_ALREADY => GivenUp::Already,
            sys::ZMG_GIVE_UP_NOT_A_PLAYER => GivenUp::NotAPlayer,
            code => GivenUp::Unknown(code),
        }
    }
}
