//! The node calls of zirmegat.h as plain Rust, without tricks: one player's part in a game of two to four, as
//! docs/PROTOCOL.md tells it. It is written as one would write it for production, with ordinary types and
//! checked indexing, and optimised in the ordinary ways: datagrams are written straight into the caller's
//! room and read straight from the caller's bytes, a run writes its moves straight into the caller's row, and
//! all memory is taken when a node is made.
#![deny(unsafe_op_in_unsafe_fn)]

mod calls;
#[path = "../../checks/plain/game/mod.rs"]
mod game;
mod header;

use game::command::{COMMAND_SIZE, Command};
use game::demo::{Demo, MARKER};
use game::packet::{EXIT, HEAD_SIZE, KILL, PACKET_SIZE, Packet, RETRANSMIT, SETUP, seal};
use game::seat::{Seat, place};
use game::settings::Settings;
use game::{AHEAD, KEPT, MAX_PLAYERS, TIC_LIMIT, VERSION};
use header::{
    Aim, CommandFields, Config, DropFault, Heard, HeardCode, Row, RunCode, Standing, Status, first_tic,
    settings_told, tics,
};

#[derive(Clone, Copy, PartialEq, Eq)]
enum Phase {
    /// Waits for player 0's settings.
    Listening,
    /// Player 0, which waits to hear every other.
    Gathering,
    Playing,
    /// Has ended without having played.
    Cancelled,
    /// Has played and ended.
    Ended,
}

/// Why a node has ended.
#[derive(Clone, Copy)]
enum Cause {
    Quit,
    Full,
    Inconsistent { player: u8, was: i16, should: i16 },
}

/// What a node sends next.
enum Outgoing {
    SetUp(Settings),
    Commands { flags: u8, ask: Option<u32>, start: u32 },
}

/// One player's part in a game of two to four.
pub struct Node {
    phase: Phase,
    cause: Option<Cause>,
    players: usize,
    me: usize,
    /// How many commands each packet repeats.
    extra: u32,
    /// How many tics were run.
    ran: u32,
    seats: [Seat; MAX_PLAYERS],
    settings: Option<Settings>,
    demo: Demo,
}

/// Whether a command of the packet would end a demo.
fn has_marker(packet: &Packet) -> bool {
    packet.commands.iter().any(|command| command[0] == MARKER)
}

/// The command of these keys, after so many with a turn key down.
fn fields_of_keys(keys: u32, hold: u8) -> CommandFields {
    Command::from_keys(keys, hold, 0).to_fields()
}

impl Node {
    fn new(config: &Config) -> Result<Node, Status> {
        let settings = config.check()?;
        Ok(Node {
            phase: if config.me == 0 { Phase::Gathering } else { Phase::Listening },
            cause: None,
            players: usize::from(config.players),
            me: usize::from(config.me),
            extra: u32::from(config.extra != 0),
            ran: 0,
            seats: [Seat::default(); MAX_PLAYERS],
            settings: (config.me == 0).then_some(settings),
            demo: Demo::new(config.limit, config.players).map_err(|_| Status::Memory)?,
        })
    }

    /// How many commands were built.
    fn made(&self) -> u32 {
        self.seats[self.me].count
    }

    fn is_peer(&self, player: usize) -> bool {
        player < self.players && player != self.me
    }

    /// Whether a command would be made now.
    fn can_give(&self) -> bool {
        self.phase == Phase::Playing && self.made() - self.ran < AHEAD
    }

    /// Takes the next own command from the caller.
    fn give(&mut self, given: &CommandFields) -> Status {
        if self.phase != Phase::Playing {
            return Status::NotNow;
        }
        if !self.can_give() {
            return Status::Full;
        }
        let me = &mut self.seats[self.me];
        let tic = me.count;
        let at = place(tic);
        me.commands[at] = Command::from_given(given, me.marks[at]);
        me.count = tic + 1;
        Status::Ok
    }

    /// What the next packet to a player has, where there is one.
    fn outgoing(&self, to: usize) -> Option<Outgoing> {
        if !self.is_peer(to) {
            return None;
        }
        let seat = &self.seats[to];
        let (flags, ask) = match self.phase {
            Phase::Playing if seat.want => (RETRANSMIT, Some(seat.count)),
            Phase::Playing => (0, None),
            Phase::Ended => (EXIT, None),
            Phase::Gathering => return self.settings.map(Outgoing::SetUp),
            Phase::Listening | Phase::Cancelled => return None,
        };
        let made = self.made();
        let start = seat.first_sent(made, self.extra);
        Some(Outgoing::Commands { flags, ask, start })
    }

    fn aim(&self, to: u8) -> Option<Aim> {
        Some(match self.outgoing(usize::from(to))? {
            Outgoing::SetUp(_) => Aim::new(None, 0, SETUP, 0),
            Outgoing::Commands { flags, ask, start } => {
                Aim::new(ask, start, flags, (self.made() - start) as u8)
            }
        })
    }

    /// Writes the next packet to a player and answers its length, 0 for none.
    fn packet(&mut self, to: u8, out: &mut [u8; PACKET_SIZE]) -> usize {
        let to = usize::from(to);
        match self.outgoing(to) {
            None => 0,
            Some(Outgoing::SetUp(settings)) => {
                let [ask, start] = settings.to_bytes();
                out[4..HEAD_SIZE].copy_from_slice(&[ask, start, VERSION, 0]);
                seal(&mut out[..HEAD_SIZE], SETUP);
                HEAD_SIZE
            }
            Some(Outgoing::Commands { flags, ask, start }) => {
                let made = self.made();
                self.seats[to].resend = made.saturating_sub(self.extra);
                self.write_commands(flags, ask.unwrap_or(0), start, out)
            }
        }
    }

    /// Writes a packet of the own commands from `start` on and answers its length.
    fn write_commands(&self, flags: u8, ask: u32, start: u32, out: &mut [u8; PACKET_SIZE]) -> usize {
        let me = &self.seats[self.me];
        let count = (me.count - start) as usize;
        out[4..HEAD_SIZE].copy_from_slice(&[ask as u8, start as u8, self.me as u8, count as u8]);
        let (room, _) = out[HEAD_SIZE..].as_chunks_mut();
        for (room, tic) in room.iter_mut().zip(start..me.count) {
            *room = me.commands[place(tic)].to_bytes();
        }
        let length = HEAD_SIZE + COMMAND_SIZE * count;
        seal(&mut out[..length], flags);
        length
    }

    /// Hears a datagram: the tests of docs/PROTOCOL.md in their order.
    fn receive(&mut self, from: u8, bytes: &[u8]) -> Heard {
        self.hear(usize::from(from), bytes).unwrap_or_else(Heard::from)
    }

    fn hear(&mut self, from: usize, bytes: &[u8]) -> Result<Heard, DropFault> {
        if self.phase == Phase::Cancelled {
            return Err(DropFault::NotPlaying);
        }
        if !self.is_peer(from) {
            return Err(DropFault::Stranger);
        }
        let packet = Packet::parse(bytes)?;
        if packet.has(SETUP) {
            return self.set_up(from, &packet);
        }
        if self.phase == Phase::Listening {
            return Err(DropFault::NotPlaying);
        }
        if usize::from(packet.player) != from {
            return Err(DropFault::Stranger);
        }
        if packet.has(KILL) {
            return Err(DropFault::Kill);
        }
        match self.phase {
            Phase::Gathering => Ok(self.gather(from)),
            Phase::Playing => self.take(from, &packet),
            Phase::Ended => self.answer(from, &packet),
            Phase::Listening | Phase::Cancelled => Err(DropFault::NotPlaying),
        }
    }

    /// Hears the settings.
    fn set_up(&mut self, from: usize, packet: &Packet) -> Result<Heard, DropFault> {
        let listens = self.phase == Phase::Listening;
        let settings = settings_told(listens, from, [packet.ask, packet.start], packet.player)?;
        self.start(settings);
        Ok(Heard::new(HeardCode::Started))
    }

    /// Notes that a player was heard, and starts once all were.
    fn gather(&mut self, from: usize) -> Heard {
        self.seats[from].heard = true;
        let all = self.seats[1..self.players].iter().all(|seat| seat.heard);
        match self.settings {
            Some(settings) if all => {
                self.start(settings);
                Heard::new(HeardCode::Started)
            }
            _ => Heard::new(HeardCode::Noted),
        }
    }

    /// Begins the game.
    fn start(&mut self, settings: Settings) {
        self.phase = Phase::Playing;
        self.settings = Some(settings);
        self.demo.begin(&settings, self.me, self.players);
    }

    /// Hears a packet once this node has ended: those who play on may still ask for commands.
    fn answer(&mut self, from: usize, packet: &Packet) -> Result<Heard, DropFault> {
        if packet.has(EXIT) {
            return Err(DropFault::NotPlaying);
        }
        let made = self.made();
        first_tic(made, packet.start, has_marker(packet))?;
        self.seats[from].meet_request(made, packet);
        Ok(Heard::new(HeardCode::Noted))
    }

    /// Takes the commands of a packet.
    fn take(&mut self, from: usize, packet: &Packet) -> Result<Heard, DropFault> {
        let made = self.made();
        let count = packet.commands.len() as u32;
        let (start, end) = tics(made, self.ran, packet.start, count, has_marker(packet))?;
        let exit = packet.has(EXIT);
        if self.seats[from].is_strange_end(end, exit) {
            return Err(DropFault::End);
        }
        let seat = &mut self.seats[from];
        seat.meet_request(made, packet);
        if exit {
            seat.end = Some(end);
        }
        let got = seat.count;
        if end <= got {
            return Ok(Heard::new(if exit { HeardCode::Left } else { HeardCode::Stale }));
        }
        if start > got {
            seat.want = true;
            return Ok(Heard::new(HeardCode::Gap));
        }
        seat.want = false;
        seat.take(start, packet.commands);
        if exit {
            return Ok(Heard::new(HeardCode::Left));
        }
        Ok(Heard { code: HeardCode::Taken, number: end - got })
    }

    /// Runs the next tic, if all commands for it are here and their marks are right.
    fn run(&mut self, marks: &[i16; MAX_PLAYERS], row: &mut Row) -> RunCode {
        *row = Row::default();
        if self.phase != Phase::Playing {
            return RunCode::NotPlaying;
        }
        let tic = self.ran;
        let at = place(tic);
        let (mut whole, mut same) = (true, true);
        for (player, seat) in self.seats[..self.players].iter().enumerate() {
            if seat.is_gone(tic) {
                whole = false;
            } else if seat.count <= tic {
                *row = Row::waiting(player);
                return RunCode::Waiting;
            } else if seat.is_off(at) {
                same = false;
            }
        }
        if !same && tic > KEPT {
            return self.differ(row);
        }
        let most = if whole { self.demo.tics } else { TIC_LIMIT };
        if tic == most {
            self.finish(Cause::Full);
            return RunCode::DemoFull;
        }
        self.step(whole, marks, row);
        RunCode::Ran
    }

    /// Fills in the row of the next tic, which is `whole` where nobody is gone from it.
    fn step(&mut self, whole: bool, marks: &[i16; MAX_PLAYERS], row: &mut Row) {
        let tic = self.ran;
        let at = place(tic);
        if !whole {
            self.demo.close();
        }
        row.tic = tic;
        for (player, seat) in self.seats[..self.players].iter_mut().enumerate() {
            if seat.is_gone(tic) {
                continue;
            }
            let command = seat.commands[at];
            row.commands[player] = command.to_fields();
            row.present[player] = 1;
            seat.marks[at] = marks[player];
            if whole {
                self.demo.push(&command);
            }
        }
        self.ran = tic + 1;
    }

    /// Ends for the lowest player whose mark is off.
    fn differ(&mut self, row: &mut Row) -> RunCode {
        let at = place(self.ran);
        let is_off = |seat: &Seat| !seat.is_gone(self.ran) && seat.is_off(at);
        let player = self.seats[..self.players].iter().position(is_off).unwrap();
        let seat = &self.seats[player];
        let (was, should) = (seat.commands[at].mark, seat.marks[at]);
        *row = Row::inconsistent(player, was, should);
        self.finish(Cause::Inconsistent { player: player as u8, was, should });
        RunCode::Inconsistent
    }

    /// Ends a node that plays.
    fn finish(&mut self, cause: Cause) {
        self.phase = Phase::Ended;
        self.cause = Some(cause);
        self.demo.close();
    }

    /// Ends the node, and answers whether it had not ended.
    fn quit(&mut self) -> bool {
        match self.phase {
            Phase::Cancelled | Phase::Ended => return false,
            Phase::Playing => self.finish(Cause::Quit),
            Phase::Listening | Phase::Gathering => {
                self.phase = Phase::Cancelled;
                self.cause = Some(Cause::Quit);
            }
        }
        true
    }

    fn standing(&self) -> Standing {
        let phase = match self.phase {
            Phase::Listening => 1,
            Phase::Gathering => 2,
            Phase::Playing => 3,
            Phase::Cancelled | Phase::Ended => 4,
        };
        let standing = Standing { phase, ..Standing::default() };
        match self.cause {
            None => standing,
            Some(Cause::Quit) => Standing { cause: 1, ..standing },
            Some(Cause::Full) => Standing { cause: 2, ..standing },
            Some(Cause::Inconsistent { player, was, should }) => {
                Standing { phase, cause: 3, was, should, player }
            }
        }
    }

    /// How many commands there are of a player.
    fn got(&self, player: u8) -> Option<u32> {
        self.seats[..self.players].get(usize::from(player)).map(|seat| seat.count)
    }

    /// The tic after a player's last command, where it is known.
    fn end(&self, player: u8) -> Option<u32> {
        if usize::from(player) == self.me {
            return (self.phase == Phase::Ended).then(|| self.made());
        }
        self.seats[..self.players].get(usize::from(player)).and_then(|seat| seat.end)
    }

    fn settings(&self) -> Option<Settings> {
        self.settings
    }
}
