//! Does what `netgame storm` does, in plain Rust: the yardstick of docs/SPEED.md. Two to four nodes with
//! Walks send each other datagrams and record demos, as docs/PROTOCOL.md tells it, by events drawn from a
//! seed. All packets stay, one behind the other in one buffer, since any may be delivered again. In a storm
//! nobody quits or stops, so neither stands here, and no answer is made that nobody prints. Of the options of
//! `netgame storm` it has all but `--calm`, `--trace`, `--script` and `--help`.

mod game;
mod walk;

use game::command::{Command, SLOW_TURNS, TURN_KEYS};
use game::demo::{Demo, MARKER};
use game::packet::{EXIT, KILL, PACKET_SIZE, Packet, RETRANSMIT, SETUP, expand, seal};
use game::seat::{Seat, place};
use game::settings::Settings;
use game::{AHEAD, KEPT, MAX_PLAYERS, NEAR, TIC_LIMIT, VERSION};
use std::array;
use std::collections::TryReserveError;
use std::env;
use std::io::{self, Write};
use std::ops::RangeInclusive;
use std::process::ExitCode;
use walk::Spot;

const USAGE: &str = "usage: storm [--players 2..4] [--skill 0..4] [--episode 1..3] [--map 1..32]
    [--deathmatch 0..2] [--respawn] [--nomonsters] [--extra] [--limit 1024..16777216]
    [--seed 0..4294967295] [--count 1..1000000]";

/// From how many of the newest packets one is drawn for delivery.
const DRAWN: usize = 32;

/// Player 0 gathers the others, who listen. A node ends when its demo is full, or when the mark of a player
/// is off.
#[derive(Clone, Copy, PartialEq)]
enum Phase {
    Listening,
    Gathering(Settings),
    Playing,
    Full,
    Inconsistent(usize),
}

/// A packet that was sent. Its bytes stand in the game's buffer.
struct Flight {
    at: u32,
    /// The exact tics that it starts at and asks for, of which it has the low bytes; the same where it asks
    /// for none.
    start: u32,
    ask: u32,
    length: u8,
    from: u8,
    to: u8,
    setup: bool,
}

/// One player's part in a game.
struct Node {
    phase: Phase,
    players: usize,
    me: usize,
    /// How many commands each packet repeats.
    extra: u32,
    /// For how many builds in succession a turn key was down, at most SLOW_TURNS.
    hold: u8,
    /// How many tics were run.
    ran: u32,
    seats: [Seat; MAX_PLAYERS],
    /// Where the players of its Walk stand.
    spots: [Spot; MAX_PLAYERS],
    demo: Demo,
}

impl Node {
    fn new(options: &Options, me: usize) -> Result<Node, TryReserveError> {
        let &Options { players, settings, extra, limit, .. } = options;
        let phase = if me == 0 { Phase::Gathering(settings) } else { Phase::Listening };
        let (seats, spots) = ([Seat::default(); MAX_PLAYERS], array::from_fn(Spot::of));
        let demo = Demo::new(limit, players as u8)?;
        Ok(Node { phase, players, me, extra: u32::from(extra), hold: 0, ran: 0, seats, spots, demo })
    }

    /// How many commands were built.
    fn made(&self) -> u32 {
        self.seats[self.me].count
    }

    fn start(&mut self, settings: Settings) {
        self.phase = Phase::Playing;
        self.demo.begin(&settings, self.me, self.players);
    }

    /// The line of where the node stands.
    fn line(&self) -> String {
        let phase = match self.phase {
            Phase::Listening => "listening".to_owned(),
            Phase::Gathering(_) => "gathering".to_owned(),
            Phase::Playing => "playing".to_owned(),
            Phase::Full => "ended full".to_owned(),
            Phase::Inconsistent(player) => format!("ended inconsistent {player}"),
        };
        let got: String = self.seats[..self.players].iter().map(|seat| format!(" {}", seat.count)).collect();
        let (made, demo) = (self.made(), self.demo.bytes.len());
        format!("node {} {phase} made {made} ran {} got{got} demo {demo}\n", self.me, self.ran)
    }

    fn finish(&mut self, phase: Phase) {
        self.phase = phase;
        self.demo.close();
    }

    /// Builds the next own command, unless five wait to be run.
    fn build(&mut self, keys: u32) {
        let me = &mut self.seats[self.me];
        if self.phase != Phase::Playing || me.count - self.ran >= AHEAD {
            return;
        }
        self.hold = if keys & TURN_KEYS != 0 { SLOW_TURNS.min(self.hold + 1) } else { 0 };
        let at = place(me.count);
        me.commands[at] = Command::from_keys(keys, self.hold, me.marks[at]);
        me.count += 1;
    }

    /// Writes the next packet to a player at the end of `bytes`, if there is one.
    fn packet(&mut self, to: usize, bytes: &mut Vec<u8>) -> Option<Flight> {
        let at = bytes.len();
        let seat = &self.seats[to];
        let (flags, ask) = match self.phase {
            Phase::Listening => return None,
            Phase::Gathering(_) => (SETUP, None),
            Phase::Playing if seat.want => (RETRANSMIT, Some(seat.count)),
            Phase::Playing => (0, None),
            Phase::Full | Phase::Inconsistent(_) => (EXIT, None),
        };
        let made = self.made();
        let start = seat.first_sent(made, self.extra);
        if let Phase::Gathering(settings) = self.phase {
            let [ask, start] = settings.to_bytes();
            bytes.extend_from_slice(&[0, 0, 0, 0, ask, start, VERSION, 0]);
        } else {
            let (ask, count) = (ask.unwrap_or(0) as u8, (made - start) as u8);
            bytes.extend_from_slice(&[0, 0, 0, 0, ask, start as u8, self.me as u8, count]);
            for tic in start..made {
                bytes.extend_from_slice(&self.seats[self.me].commands[place(tic)].to_bytes());
            }
            self.seats[to].resend = made.saturating_sub(self.extra);
        }
        seal(&mut bytes[at..], flags);
        let (at, length, from, to) = (at as u32, (bytes.len() - at) as u8, self.me as u8, to as u8);
        Some(Flight { at, start, ask: ask.unwrap_or(start), length, from, to, setup: flags == SETUP })
    }

    /// Hears a datagram. One that is out of place changes nothing.
    fn receive(&mut self, from: usize, bytes: &[u8]) {
        let Ok(packet) = Packet::parse(bytes) else { return };
        let from_peer = usize::from(packet.player) == from && !packet.has(SETUP | KILL);
        match self.phase {
            Phase::Listening if packet.has(SETUP) && packet.player == VERSION && from == 0 => {
                let settings = Settings::from_bytes([packet.ask, packet.start]);
                if settings.check().is_ok() {
                    self.start(settings);
                }
            }
            Phase::Gathering(settings) if from_peer => {
                self.seats[from].heard = true;
                if self.seats[1..self.players].iter().all(|seat| seat.heard) {
                    self.start(settings);
                }
            }
            Phase::Playing | Phase::Full | Phase::Inconsistent(_) if from_peer => self.take(from, &packet),
            _ => {}
        }
    }

    /// Takes the commands of a packet. A node that has ended only meets requests.
    fn take(&mut self, from: usize, packet: &Packet) {
        let made = self.made();
        let seat = &mut self.seats[from];
        let (playing, exit) = (self.phase == Phase::Playing, packet.has(EXIT));
        let Some(start) = expand(made, packet.start) else { return };
        if packet.commands.iter().any(|command| command[0] == MARKER) {
            return;
        }
        let end = start + packet.commands.len() as u32;
        if playing && (end > self.ran + KEPT || seat.is_strange_end(end, exit)) || !playing && exit {
            return;
        }
        seat.meet_request(made, packet);
        if exit {
            seat.end = Some(end);
        }
        if !playing || end <= seat.count {
            return;
        }
        seat.want = start > seat.count;
        if !seat.want {
            seat.take(start, packet.commands);
        }
    }

    /// Runs the next tic, if all commands for it are here and their marks are right.
    fn run(&mut self) {
        if self.phase != Phase::Playing {
            return;
        }
        let tic = self.ran;
        let at = place(tic);
        let mut whole = true;
        let mut off = None;
        for (player, seat) in self.seats[..self.players].iter().enumerate() {
            if seat.is_gone(tic) {
                whole = false;
            } else if seat.count <= tic {
                return;
            } else if off.is_none() && seat.is_off(at) {
                off = Some(player);
            }
        }
        if let Some(player) = off.filter(|_| tic > KEPT) {
            return self.finish(Phase::Inconsistent(player));
        }
        if tic == if whole { self.demo.tics } else { TIC_LIMIT } {
            return self.finish(Phase::Full);
        }
        if !whole {
            self.demo.close();
        }
        for (seat, spot) in self.seats[..self.players].iter_mut().zip(&mut self.spots) {
            if seat.is_gone(tic) {
                continue;
            }
            let command = &seat.commands[at];
            if whole {
                self.demo.push(command);
            }
            seat.marks[at] = spot.mark();
            let &Command { forward, side, turn, buttons, .. } = command;
            spot.step(forward, side, turn, buttons);
        }
        self.ran += 1;
    }
}

/// All nodes, and all packets that any of them sent.
struct Game {
    nodes: Vec<Node>,
    bytes: Vec<u8>,
    flights: Vec<Flight>,
}

impl Game {
    fn new(options: &Options) -> Result<Game, TryReserveError> {
        let nodes = (0..options.players).map(|me| Node::new(options, me)).collect::<Result<_, _>>()?;
        Ok(Game { nodes, bytes: Vec::new(), flights: Vec::new() })
    }

    /// Asks a node for a packet to another, if there is room for one.
    fn send(&mut self, from: usize, to: usize) -> Result<(), TryReserveError> {
        self.bytes.try_reserve(PACKET_SIZE)?;
        self.flights.try_reserve(1)?;
        self.flights.extend(self.nodes[from].packet(to, &mut self.bytes));
        Ok(())
    }

    /// Delivers one of the newest packets, if there is one and its receiver can tell its tics from their
    /// low bytes. Answers whether it did.
    fn deliver(&mut self, word: u32) -> bool {
        let newest = self.flights.len().min(DRAWN);
        let Some(back) = (word as usize).checked_rem(newest) else { return false };
        let flight = &self.flights[self.flights.len() - 1 - back];
        let node = &mut self.nodes[usize::from(flight.to)];
        let made = node.made();
        let near = made.abs_diff(flight.start) <= NEAR && made.abs_diff(flight.ask) <= NEAR;
        if flight.setup || near {
            let at = flight.at as usize;
            node.receive(usize::from(flight.from), &self.bytes[at..at + usize::from(flight.length)]);
        }
        flight.setup || near
    }
}

/// PCG with 64 bits of state and 32 of output (XSH RR), in its stream 54.
struct Pcg(u64);

impl Pcg {
    const STEP: u64 = 54 << 1 | 1;

    fn new(seed: u64) -> Pcg {
        let mut pcg = Pcg(seed.wrapping_add(Pcg::STEP));
        pcg.next();
        pcg
    }

    fn next(&mut self) -> u32 {
        let old = self.0;
        self.0 = old.wrapping_mul(6_364_136_223_846_793_005).wrapping_add(Pcg::STEP);
        ((((old >> 18) ^ old) >> 27) as u32).rotate_right((old >> 59) as u32)
    }
}

/// Plays a storm, and answers the lines of where it ended.
fn storm(options: &Options) -> Result<String, TryReserveError> {
    let mut game = Game::new(options)?;
    let mut words = Pcg::new(options.seed.into());
    let players = options.players;
    let mut refused = 0;
    for _ in 0..options.count {
        let (a, b, c) = (words.next(), words.next(), words.next());
        let node = b as usize % players;
        match a % 16 {
            0..=4 => game.nodes[node].build(c),
            5..=8 => {
                let to = (node + 1 + c as usize % (players - 1)) % players;
                refused += u32::from(game.send(node, to).is_err());
            }
            9..=13 if game.deliver(c) => {}
            _ => game.nodes[node].run(),
        }
    }
    let nodes: String = game.nodes.iter().map(Node::line).collect();
    let (done, flights) = (options.count - refused, game.flights.len());
    Ok(format!("{nodes}events {done} refused {refused} flights {flights}\n"))
}

/// What the command line chooses.
struct Options {
    players: usize,
    settings: Settings,
    extra: bool,
    limit: u32,
    seed: u32,
    count: u32,
}

impl Options {
    /// Reads the words of a command line; `storm`, as `netgame` has it before them, is passed over.
    fn read(words: &[String]) -> Option<Options> {
        let (skill, episode, map, deathmatch) = (2, 1, 1, 0);
        let settings = Settings { skill, episode, map, deathmatch, respawn: 0, no_monsters: 0 };
        let mut options =
            Options { players: 2, settings, extra: false, limit: 131_072, seed: 1, count: 1000 };
        let mut names = Vec::new();
        let mut rest = words.iter().map(String::as_str).peekable();
        rest.next_if_eq(&"storm");
        while let Some(word) = rest.next() {
            let (name, value) =
                word.split_once('=').map_or((word, None), |(name, value)| (name, Some(value)));
            let mut number = |range: RangeInclusive<u32>| {
                let number = value.or_else(|| rest.next())?.parse().ok()?;
                range.contains(&number).then_some(number)
            };
            match name {
                "--players" => options.players = number(2..=4)? as usize,
                "--skill" => options.settings.skill = number(0..=4)? as u8,
                "--episode" => options.settings.episode = number(1..=3)? as u8,
                "--map" => options.settings.map = number(1..=32)? as u8,
                "--deathmatch" => options.settings.deathmatch = number(0..=2)? as u8,
                "--limit" => options.limit = number(1024..=16_777_216)?,
                "--seed" => options.seed = number(0..=u32::MAX)?,
                "--count" => options.count = number(1..=1_000_000)?,
                "--respawn" if value.is_none() => options.settings.respawn = 1,
                "--nomonsters" if value.is_none() => options.settings.no_monsters = 1,
                "--extra" if value.is_none() => options.extra = true,
                _ => return None,
            }
            if names.contains(&name) {
                return None;
            }
            names.push(name);
        }
        Some(options)
    }
}

fn main() -> ExitCode {
    let words: Vec<_> = env::args_os().skip(1).map(|word| word.to_string_lossy().into_owned()).collect();
    let Some(options) = Options::read(&words) else {
        eprintln!("{USAGE}");
        return ExitCode::from(2);
    };
    let lines = storm(&options);
    let text = lines.as_deref().unwrap_or("out of memory\n");
    let written = io::stdout().write_all(text.as_bytes()).is_ok();
    ExitCode::from(if lines.is_ok() && written { 0 } else { 3 })
}
