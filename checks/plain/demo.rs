//! Does what `netgame demo` does, in plain Rust: the yardstick of docs/SPEED.md. It reads in pieces of
//! 64 KiB and steps straight from the bytes, with a loop for each number of players and each version.

mod walk;

use std::fmt::Write as _;
use std::io::{self, ErrorKind, Read, Write};
use std::process::ExitCode;
use walk::Spot;

const PIECE: usize = 65_536;
const MOST_BYTES: usize = 33_554_432;
const HEADER: usize = 13;
const END: u8 = 0x80;
/// Plays whole tics of N players with commands of SIZE bytes, up to the marker or the last of them: how
/// many were played, and whether the marker is in the next.
fn play<const N: usize, const SIZE: usize>(bytes: &[u8], spots: &mut [Spot; 4]) -> (usize, bool) {
    let mut at = [Spot::default(); N];
    at.copy_from_slice(&spots[..N]);
    let mut tics = 0;
    let mut marked = false;
    for row in bytes.chunks_exact(N * SIZE) {
        if row.chunks_exact(SIZE).any(|command| command[0] == END) {
            marked = true;
            break;
        }
        for (spot, command) in at.iter_mut().zip(row.chunks_exact(SIZE)) {
            let turn = match SIZE {
                4 => i16::from_le_bytes([0, command[2]]),
                _ => i16::from_le_bytes([command[2], command[3]]),
            };
            spot.step(command[0] as i8, command[1] as i8, turn, command[SIZE - 1]);
        }
        tics += 1;
    }
    spots[..N].copy_from_slice(&at);
    (tics, marked)
}

type Play = fn(&[u8], &mut [Spot; 4]) -> (usize, bool);

/// A demo whose header was read, as far as it was played.
struct Demo {
    header: [u8; HEADER],
    players: Vec<usize>,
    spots: [Spot; 4],
    size: usize,
    play: Play,
    tics: usize,
    cut: usize,
    /// How many bytes follow the marker, once it was met.
    after: Option<usize>,
}

impl Demo {
    fn new(header: [u8; HEADER]) -> Result<Demo, &'static str> {
        let size = match header[0] {
            109 => 4,
            111 => 5,
            _ => return Err("version"),
        };
        let players: Vec<usize> = (0..4).filter(|&player| header[9 + player] != 0).collect();
        let play: Play = match (players.len(), size) {
            (0, _) => return Err("no players"),
            (1, 4) => play::<1, 4>,
            (2, 4) => play::<2, 4>,
            (3, 4) => play::<3, 4>,
            (4, 4) => play::<4, 4>,
            (1, _) => play::<1, 5>,
            (2, _) => play::<2, 5>,
            (3, _) => play::<3, 5>,
            _ => play::<4, 5>,
        };
        let mut spots = [Spot::default(); 4];
        for (spot, &player) in spots.iter_mut().zip(&players) {
            *spot = Spot::of(player);
        }
        Ok(Demo { header, players, spots, size, play, tics: 0, cut: 0, after: None })
    }

    /// Plays what these bytes have in whole tics, and returns how many bytes were used.
    fn push(&mut self, bytes: &[u8]) -> usize {
        if let Some(after) = &mut self.after {
            *after += bytes.len();
            return bytes.len();
        }
        let (tics, marked) = (self.play)(bytes, &mut self.spots);
        self.tics += tics;
        let used = tics * self.players.len() * self.size;
        if marked {
            self.seek(&bytes[used..]);
            return bytes.len();
        }
        used
    }

    /// Looks for the marker in bytes that begin with a tic, and are not a whole one or have the marker in it.
    fn seek(&mut self, bytes: &[u8]) {
        if let Some(command) = bytes.iter().step_by(self.size).position(|&byte| byte == END) {
            self.cut = command;
            self.after = Some(bytes.len() - command * self.size - 1);
        }
    }

    fn lines(&self) -> Option<String> {
        let mut text = String::new();
        let names =
            ["version", "skill", "episode", "map", "deathmatch", "respawn", "fast", "nomonsters", "view"];
        for (name, value) in names.iter().zip(self.header) {
            write!(text, "{name} {value} ").ok()?;
        }
        text.push_str("players");
        for player in &self.players {
            write!(text, " {player}").ok()?;
        }
        writeln!(text, "\ntics {} cut {} after {}", self.tics, self.cut, self.after?).ok()?;
        for (player, spot) in self.players.iter().zip(self.spots) {
            let (Spot { x, y, angle }, mark) = (spot, spot.mark());
            writeln!(text, "player {player} x {x} y {y} angle {angle} mark {mark}").ok()?;
        }
        Some(text)
    }
}

/// Reads once into the room, at least one byte unless the input has ended.
fn read(input: &mut impl Read, room: &mut [u8]) -> io::Result<usize> {
    loop {
        match input.read(room) {
            Err(error) if error.kind() == ErrorKind::Interrupted => {}
            other => return other,
        }
    }
}

/// Reads and plays the whole input: the lines, or why there are none.
fn run(input: &mut impl Read) -> io::Result<Result<String, &'static str>> {
    let mut room = vec![0; PIECE + 20];
    let (mut kept, mut total) = (0, 0);
    let mut demo = None;
    loop {
        let length = read(input, &mut room[kept..kept + PIECE])?;
        total += length;
        if length == 0 || total > MOST_BYTES {
            break;
        }
        let mut bytes = &room[..kept + length];
        if demo.is_none() && bytes.len() >= HEADER {
            let (header, rest) = bytes.split_at(HEADER);
            bytes = rest;
            demo = Some(Demo::new(header.try_into().unwrap_or([0; HEADER])));
        }
        let used = match &mut demo {
            Some(Ok(demo)) => demo.push(bytes),
            Some(Err(_)) => bytes.len(),
            None => 0,
        };
        let end = kept + length;
        kept = bytes.len() - used;
        room.copy_within(end - kept..end, 0);
    }
    if total > MOST_BYTES {
        return Ok(Err("too long"));
    }
    let mut demo = match demo {
        None => return Ok(Err("short")),
        Some(Err(fault)) => return Ok(Err(fault)),
        Some(Ok(demo)) => demo,
    };
    if demo.after.is_none() {
        demo.seek(&room[..kept]);
    }
    Ok(demo.lines().ok_or("no marker"))
}

fn main() -> io::Result<ExitCode> {
    let (text, status) = match run(&mut io::stdin().lock())? {
        Ok(text) => (text, 0),
        Err(fault) => (format!("demo: {fault}\n"), 1),
    };
    io::stdout().write_all(text.as_bytes())?;
    Ok(ExitCode::from(status))
}
