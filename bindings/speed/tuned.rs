//! The node calls of zirmegat.h in Rust, tuned by hand to the last instruction: docs/SPEED.md tells how far
//! that goes beyond plain.rs.
//!
//! A command is kept as its eight wire bytes in one u64; rings and marks are tables of 16 places, so that a
//! place is a mask; a datagram is written straight into the caller's room and read straight from the caller's
//! bytes; the demo goes into memory that was reserved when the node was made. No call but zmg_lockstep_new takes
//! memory.
#![deny(unsafe_op_in_unsafe_fn)]

mod calls;
#[allow(dead_code)] // its commands, packets, rings and moves of a demo are its own
#[path = "../../checks/plain/game/mod.rs"]
mod game;
#[allow(dead_code)] // and so are the conversions of commands
mod header;

use game::command::SLOW_TURNS;
use game::demo::{Demo, MARKER, MOVE_SIZE};
use game::packet::{
    EXIT, FLAGS_SHIFT, KILL, NoPacket, PACKET_SIZE, RETRANSMIT, SETUP, SUM_MASK, SUM_SEED, expand,
};
use game::settings::Settings;
use game::{AHEAD, KEPT, MAX_PLAYERS, PAUSE, TIC_LIMIT, VERSION};
use header::{
    Aim, CommandFields, Config, DropFault, Heard, HeardCode, Row, RunCode, Standing, Status, first_tic,
    settings_told, tics,
};

const PLACES: usize = 16; // a power of two above the twelve that the game keeps
const NEVER: u32 = u32::MAX;
const MOVE: usize = MOVE_SIZE as usize;

// ---- A command --------------------------------------------------------------------------------------------

/// A tic command as its wire bytes: forward, side, turn (2), mark (2), chat, buttons, the first lowest.
#[derive(Clone, Copy)]
struct Command(u64);

impl Command {
    #[inline(always)]
    fn new(forward: i32, side: i32, turn: i32, mark: i16, buttons: u32) -> Command {
        let low = (forward as u8 as u32) | (side as u8 as u32) << 8 | (turn as u32) << 16;
        let high = (mark as u16 as u32) | buttons << 24;
        Command(low as u64 | (high as u64) << 32)
    }

    #[inline(always)]
    fn mark(self) -> i16 {
        (self.0 >> 32) as i16
    }

    #[inline(always)]
    fn buttons(self) -> u8 {
        (self.0 >> 56) as u8
    }

    /// The command that a caller gives. A forward of -128 would end a demo.
    fn given(c: &CommandFields, mark: i16) -> Command {
        let high = c.chat as u64 | (c.buttons as u64) << 8;
        let plain = Command::new(c.forward.max(-127) as i32, c.side as i32, c.turn as i32, mark, 0);
        Command(plain.0 | high << 48)
    }

    #[inline(always)]
    fn fields(self) -> CommandFields {
        CommandFields {
            turn: (self.0 >> 16) as i16,
            forward: self.0 as i8,
            side: (self.0 >> 8) as i8,
            chat: (self.0 >> 48) as u8,
            buttons: self.buttons(),
        }
    }

    #[inline(always)]
    fn is_stop(self) -> bool {
        self.0 as u8 == MARKER
    }

    /// What it adds to a sum, as the words at `factor` and `factor + 1`.
    #[inline(always)]
    fn sum(self, factor: u32) -> u32 {
        (self.0 as u32)
            .wrapping_mul(factor)
            .wrapping_add(((self.0 >> 32) as u32).wrapping_mul(factor + 1))
    }
}

/// The command of these keys, at this turn hold.
#[inline(always)]
fn command(keys: u32, hold: u8, mark: i16) -> Command {
    let bit = |n: u32| (keys >> n & 1) as i32;
    let (forward, back, left, right) = (bit(0), bit(1), bit(2), bit(3));
    let (strafe_left, strafe_right, strafe, speed) = (bit(4), bit(5), bit(6), bit(7));
    let ahead = (forward - back) * (25 + 25 * speed);
    let side = (strafe * (right - left) + strafe_right - strafe_left) * (24 + 16 * speed);
    let turn = if hold < SLOW_TURNS { 320 } else { 640 << speed };
    let weapons = keys >> 10 & 0xff;
    let weapon = if weapons != 0 { 4 + 8 * weapons.trailing_zeros() } else { 0 };
    Command::new(
        ahead,
        side.clamp(-50, 50),
        (1 - strafe) * (left - right) * turn,
        mark,
        (keys >> 8 & 3) + weapon,
    )
}

/// A datagram whose length and sum are right.
struct Opened<'a> {
    flags: u8,
    /// Its first eight bytes.
    head: u64,
    /// Whether a command would end a demo.
    stop: bool,
    body: &'a [[u8; 8]],
}

#[inline(always)]
fn open(bytes: &[u8]) -> Result<Opened<'_>, NoPacket> {
    let (head, body) = split(bytes)?;
    let (sum, stop) = tally(head, body);
    if (sum ^ head as u32) & SUM_MASK != 0 {
        return Err(NoPacket::Sum);
    }
    Ok(Opened { flags: (head as u32 >> FLAGS_SHIFT) as u8, head, stop, body })
}

/// The first eight bytes of a datagram and its commands, or why it is none.
#[inline(always)]
fn split(bytes: &[u8]) -> Result<(u64, &[[u8; 8]]), NoPacket> {
    let Some((head, body)) = bytes.split_first_chunk::<8>() else {
        return Err(NoPacket::Short);
    };
    let head = u64::from_le_bytes(*head);
    let count = (head >> 56) as usize;
    if count > KEPT as usize {
        return Err(NoPacket::Many);
    }
    if body.len() != 8 * count {
        return Err(NoPacket::Length);
    }
    Ok((head, body.as_chunks::<8>().0))
}

/// The sum of a datagram's words, and whether a command would end a demo. A word counts as often as its place
/// says: from the last on, each is in the sum of all that were met, once for each place from its own down to
/// the first.
#[inline(always)]
fn tally(head: u64, body: &[[u8; 8]]) -> (u32, bool) {
    let (mut met, mut sum, mut stop) = (0u32, SUM_SEED, false);
    for bytes in body.iter().rev() {
        let command = Command(u64::from_le_bytes(*bytes));
        met = met.wrapping_add((command.0 >> 32) as u32);
        sum = sum.wrapping_add(met);
        met = met.wrapping_add(command.0 as u32);
        sum = sum.wrapping_add(met);
        stop |= command.is_stop();
    }
    (sum.wrapping_add(met).wrapping_add((head >> 32) as u32), stop)
}

// ---- A node -----------------------------------------------------------------------------------------------

#[derive(Clone, Copy, PartialEq, Eq)]
enum Phase {
    Listening = 1,
    Gathering = 2,
    Playing = 3,
    Ended = 4,
}

/// A node. What it keeps of each player stands in tables by the player, so that what a call reads is close
/// together.
pub struct Node {
    phase: Phase,
    players: u8,
    me: u8,
    /// How many commands each packet repeats.
    lag: u8,
    played: bool,
    known: bool,
    ran: u32,
    /// How many commands came of each.
    count: [u32; 4],
    /// The tic after the last command of each, or NEVER.
    end: [u32; 4],
    /// The first tic of the next packet to each.
    resend: [u32; 4],
    /// Whether commands of it are missing.
    want: [bool; 4],
    /// For how many packets its requests are ignored.
    pause: [u8; 4],
    demo: Demo,
    /// The last commands, by the tic.
    commands: [[Command; PLACES]; 4],
    /// The marks that the commands of coming tics are to have, by the tic.
    marks: [[i16; PLACES]; 4],
    heard: u8,
    settings: Settings,
    cause: u32,
    was: i16,
    should: i16,
    off: u8,
}

/// The table's row of a player, who is below 4.
#[inline(always)]
fn of(player: u8) -> usize {
    player as usize % 4
}

#[inline(always)]
fn place(tic: u32) -> usize {
    tic as usize % PLACES
}

fn dropped(fault: impl Into<DropFault>) -> Heard {
    Heard::from(fault.into())
}

/// The command of these keys, after so many with a turn key down.
fn fields_of_keys(keys: u32, hold: u8) -> CommandFields {
    command(keys, hold, 0).fields()
}

impl Node {
    fn new(config: &Config) -> Result<Node, Status> {
        let settings = config.check()?;
        let demo = Demo::new(config.limit, config.players).map_err(|_| Status::Memory)?;
        Ok(Node {
            phase: if config.me == 0 { Phase::Gathering } else { Phase::Listening },
            players: config.players,
            me: config.me,
            lag: (config.extra != 0) as u8,
            played: false,
            heard: 0,
            ran: 0,
            count: [0; 4],
            end: [NEVER; 4],
            resend: [0; 4],
            want: [false; 4],
            pause: [0; 4],
            demo,
            commands: [[Command(0); PLACES]; 4],
            marks: [[0; PLACES]; 4],
            settings,
            known: config.me == 0,
            cause: 0,
            was: 0,
            should: 0,
            off: 0,
        })
    }

    #[inline(always)]
    fn made(&self) -> u32 {
        self.count[of(self.me)]
    }

    #[inline(always)]
    fn put(&mut self, player: usize, tic: u32, command: Command) {
        self.commands[player][place(tic)] = command;
    }

    #[cold]
    fn meet(&mut self, from: usize, made: u32, low: u8) -> bool {
        match expand(made, low) {
            Some(tic) if self.pause[from] == 0 && tic <= made && made.saturating_sub(KEPT) <= tic => {
                self.resend[from] = tic;
                self.pause[from] = PAUSE;
                true
            }
            _ => false,
        }
    }

    fn can_give(&self) -> bool {
        self.phase == Phase::Playing && self.made() - self.ran < AHEAD
    }

    #[inline(always)]
    fn give(&mut self, given: &CommandFields) -> Status {
        if self.phase != Phase::Playing {
            return Status::NotNow;
        }
        let me = of(self.me);
        let tic = self.count[me];
        if tic - self.ran >= AHEAD {
            return Status::Full;
        }
        self.put(me, tic, Command::given(given, self.marks[me][place(tic)]));
        self.count[me] = tic + 1;
        Status::Ok
    }

    /// The first tic of the next packet to a player.
    #[inline(always)]
    fn first_sent(&self, made: u32, resend: u32) -> u32 {
        if resend < made.saturating_sub(KEPT) {
            made - self.lag as u32
        } else {
            resend
        }
    }

    #[inline(always)]
    fn packet(&mut self, to: u8, out: &mut [u8; PACKET_SIZE]) -> usize {
        if to == self.me || to >= self.players {
            return 0;
        }
        let (me, to) = (of(self.me), of(to));
        let (mut flags, mut ask) = (0, 0);
        if self.phase == Phase::Playing {
            if self.want[to] {
                (flags, ask) = (RETRANSMIT, self.count[to] & 255);
            }
        } else if self.phase == Phase::Ended && self.played {
            flags = EXIT;
        } else if self.phase == Phase::Gathering {
            return self.set_up(out);
        } else {
            return 0;
        }
        let made = self.count[me];
        let start = self.first_sent(made, self.resend[to]);
        self.resend[to] = made.saturating_sub(self.lag as u32);
        let count = (made - start) as usize;
        let word = ask | (start & 255) << 8 | (self.me as u32) << 16 | (count as u32) << 24;
        let mut sum = SUM_SEED.wrapping_add(word);
        let commands = &self.commands[me];
        let (head, room) = out.split_first_chunk_mut::<8>().unwrap();
        let (room, _) = room.as_chunks_mut::<8>();
        for (factor, (tic, room)) in (start..made).zip(room).enumerate() {
            let command = commands[place(tic)];
            *room = command.0.to_le_bytes();
            sum = sum.wrapping_add(command.sum(2 + 2 * factor as u32));
        }
        let first = (flags as u32) << FLAGS_SHIFT | sum & SUM_MASK;
        *head = (first as u64 | (word as u64) << 32).to_le_bytes();
        8 + 8 * count
    }

    #[cold]
    fn set_up(&self, out: &mut [u8; PACKET_SIZE]) -> usize {
        let [ask, start] = self.settings.to_bytes();
        let word = u32::from_le_bytes([ask, start, VERSION, 0]);
        let sum = SUM_SEED.wrapping_add(word) & SUM_MASK;
        let first = (SETUP as u32) << FLAGS_SHIFT | sum;
        out[..8].copy_from_slice(&(first as u64 | (word as u64) << 32).to_le_bytes());
        8
    }

    fn aim(&self, to: u8) -> Option<Aim> {
        if to == self.me || to >= self.players {
            return None;
        }
        let made = self.made();
        let to = of(to);
        let ask = self.want[to] && self.phase == Phase::Playing;
        let flags = match self.phase {
            Phase::Playing if ask => RETRANSMIT,
            Phase::Playing => 0,
            Phase::Ended if self.played => EXIT,
            Phase::Gathering => return Some(Aim::new(None, 0, SETUP, 0)),
            _ => return None,
        };
        let start = self.first_sent(made, self.resend[to]);
        Some(Aim::new(ask.then(|| self.count[to]), start, flags, (made - start) as u8))
    }

    #[inline(always)]
    fn receive(&mut self, from: u8, bytes: &[u8]) -> Heard {
        if self.phase != Phase::Playing {
            return self.receive_idle(from, bytes);
        }
        if from >= self.players || from == self.me {
            return dropped(DropFault::Stranger);
        }
        let Opened { flags, head, stop, body } = match open(bytes) {
            Ok(opened) => opened,
            Err(fault) => return dropped(fault),
        };
        if flags & SETUP != 0 {
            return dropped(DropFault::OutOfPlace);
        }
        if (head >> 48) as u8 != from {
            return dropped(DropFault::Stranger);
        }
        if flags & KILL != 0 {
            return dropped(DropFault::Kill);
        }
        self.take(from, flags, head, stop, body)
    }

    /// Hears a datagram while it does not play.
    #[cold]
    fn receive_idle(&mut self, from: u8, bytes: &[u8]) -> Heard {
        if self.phase == Phase::Ended && !self.played {
            return dropped(DropFault::NotPlaying);
        }
        if from >= self.players || from == self.me {
            return dropped(DropFault::Stranger);
        }
        let Opened { flags, head, stop, .. } = match open(bytes) {
            Ok(opened) => opened,
            Err(fault) => return dropped(fault),
        };
        if flags & SETUP != 0 {
            return self.hear_set_up(from, head);
        }
        if self.phase == Phase::Listening {
            return dropped(DropFault::NotPlaying);
        }
        if (head >> 48) as u8 != from {
            return dropped(DropFault::Stranger);
        }
        if flags & KILL != 0 {
            return dropped(DropFault::Kill);
        }
        if self.phase == Phase::Gathering {
            self.gather(from)
        } else {
            self.answer(of(from), flags, head, stop)
        }
    }

    #[inline(always)]
    fn take(&mut self, from: u8, flags: u8, head: u64, stop: bool, body: &[[u8; 8]]) -> Heard {
        let from = of(from);
        let made = self.made();
        let (start, end) = match tics(made, self.ran, (head >> 40) as u8, body.len() as u32, stop) {
            Ok(tics) => tics,
            Err(fault) => return dropped(fault),
        };
        let got = self.count[from];
        let known = self.end[from];
        let exit = flags & EXIT != 0;
        if known < end || exit && (end < got || known != NEVER && end != known) {
            return dropped(DropFault::End);
        }
        if flags & RETRANSMIT == 0 || !self.meet(from, made, (head >> 32) as u8) {
            self.pause[from] = self.pause[from].saturating_sub(1);
        }
        if exit {
            self.end[from] = end;
        }
        if end <= got {
            return Heard::new(if exit { HeardCode::Left } else { HeardCode::Stale });
        }
        if start > got {
            self.want[from] = true;
            return Heard::new(HeardCode::Gap);
        }
        self.want[from] = false;
        let ring = &mut self.commands[from];
        let mut at = place(got);
        for bytes in &body[(got - start) as usize..] {
            ring[at] = Command(u64::from_le_bytes(*bytes));
            at = (at + 1) % PLACES;
        }
        self.count[from] = end;
        if exit { Heard::new(HeardCode::Left) } else { Heard { code: HeardCode::Taken, number: end - got } }
    }

    #[cold]
    fn answer(&mut self, from: usize, flags: u8, head: u64, stop: bool) -> Heard {
        if flags & EXIT != 0 {
            return dropped(DropFault::NotPlaying);
        }
        let made = self.made();
        if let Err(fault) = first_tic(made, (head >> 40) as u8, stop) {
            return dropped(fault);
        }
        if flags & RETRANSMIT == 0 || !self.meet(from, made, (head >> 32) as u8) {
            self.pause[from] = self.pause[from].saturating_sub(1);
        }
        Heard::new(HeardCode::Noted)
    }

    #[cold]
    fn hear_set_up(&mut self, from: u8, head: u64) -> Heard {
        let [_, _, _, _, ask, start, version, _] = head.to_le_bytes();
        let listens = self.phase == Phase::Listening;
        match settings_told(listens, usize::from(from), [ask, start], version) {
            Ok(settings) => self.settings = settings,
            Err(fault) => return dropped(fault),
        }
        self.start();
        Heard::new(HeardCode::Started)
    }

    #[cold]
    fn gather(&mut self, from: u8) -> Heard {
        self.heard |= 1 << from;
        if self.heard != (1 << self.players) - 2 {
            return Heard::new(HeardCode::Noted);
        }
        self.start();
        Heard::new(HeardCode::Started)
    }

    fn start(&mut self) {
        self.phase = Phase::Playing;
        self.played = true;
        self.known = true;
        self.demo.begin(&self.settings, self.me as usize, self.players as usize);
    }

    #[inline(always)]
    fn run(&mut self, marks: &[i16; MAX_PLAYERS], row: &mut Row) -> RunCode {
        *row = Row::default();
        if self.phase != Phase::Playing {
            return RunCode::NotPlaying;
        }
        let tic = self.ran;
        let players = self.players.min(4) as usize;
        let (mut whole, mut same) = (true, true);
        for p in 0..players {
            if tic >= self.end[p] {
                whole = false;
            } else if tic >= self.count[p] {
                row.player = p as u8;
                return RunCode::Waiting;
            } else {
                same &= self.commands[p][place(tic)].mark() == self.marks[p][place(tic)];
            }
        }
        if !same && tic > KEPT {
            return self.differ(row);
        }
        if !whole {
            return self.run_part(marks, row);
        }
        if tic == self.demo.tics {
            self.finish(2);
            return RunCode::DemoFull;
        }
        row.tic = tic;
        let length = self.demo.bytes.len();
        // the capacity leaves room for this row and the marker
        let mut at = unsafe { self.demo.bytes.as_mut_ptr().add(length) };
        for p in 0..players {
            let command = self.commands[p][place(tic)];
            row.commands[p] = command.fields();
            row.present[p] = 1;
            self.marks[p][place(tic + KEPT)] = marks[p];
            unsafe {
                at.cast::<[u8; 4]>().write((command.0 as u32).to_le_bytes());
                at.add(4).write(command.buttons());
                at = at.add(MOVE);
            }
        }
        unsafe { self.demo.bytes.set_len(length + MOVE * players) };
        self.ran = tic + 1;
        RunCode::Ran
    }

    /// Runs a tic that some player has no part in.
    #[cold]
    fn run_part(&mut self, marks: &[i16; MAX_PLAYERS], row: &mut Row) -> RunCode {
        let tic = self.ran;
        if tic == TIC_LIMIT {
            self.finish(2);
            return RunCode::DemoFull;
        }
        row.tic = tic;
        for p in 0..self.players.min(4) as usize {
            if tic < self.end[p] {
                row.commands[p] = self.commands[p][place(tic)].fields();
                row.present[p] = 1;
                self.marks[p][place(tic + KEPT)] = marks[p];
            }
        }
        self.demo.close();
        self.ran = tic + 1;
        RunCode::Ran
    }

    /// Ends for the lowest player whose mark is off.
    #[cold]
    fn differ(&mut self, row: &mut Row) -> RunCode {
        let tic = self.ran;
        for p in 0..self.players.min(4) as usize {
            let (was, should) = (self.commands[p][place(tic)].mark(), self.marks[p][place(tic)]);
            if tic < self.end[p] && was != should {
                self.finish(3);
                (self.off, self.was, self.should) = (p as u8, was, should);
                *row = Row::inconsistent(p, was, should);
                return RunCode::Inconsistent;
            }
        }
        RunCode::NotPlaying
    }

    #[cold]
    fn finish(&mut self, cause: u32) {
        self.phase = Phase::Ended;
        self.cause = cause;
        self.demo.close();
    }

    fn quit(&mut self) -> bool {
        match self.phase {
            Phase::Ended => return false,
            Phase::Playing => self.finish(1),
            _ => (self.phase, self.cause) = (Phase::Ended, 1),
        }
        true
    }

    fn standing(&self) -> Standing {
        let &Node { phase, cause, was, should, off: player, .. } = self;
        Standing { phase: phase as u32, cause, was, should, player }
    }

    fn got(&self, player: u8) -> Option<u32> {
        (player < self.players).then(|| self.count[of(player)])
    }

    fn settings(&self) -> Option<Settings> {
        self.known.then_some(self.settings)
    }

    fn end(&self, player: u8) -> Option<u32> {
        if player >= self.players {
            return None;
        }
        let end = if player == self.me {
            if self.phase == Phase::Ended && self.played { self.made() } else { NEVER }
        } else {
            self.end[of(player)]
        };
        (end != NEVER).then_some(end)
    }
}
