//! The calls of zirmegat_parts.h on locksteps over the `Node` of the library that includes them, and its
//! `fields_of_keys`.

use crate::game::MAX_PLAYERS;
use crate::game::command::{SLOW_TURNS, TURN_KEYS};
use crate::header::{Aim, CommandFields, Config, Heard, HeardCode, NO_END, Player, Row, RunCode, State, Status};
use crate::{Node, fields_of_keys};
use std::{ptr, slice};

#[unsafe(no_mangle)]
pub extern "C" fn zmg_lockstep_new(out: &mut *mut Node, config: &Config) -> Status {
    *out = ptr::null_mut();
    match Node::new(config) {
        Ok(node) => {
            *out = Box::into_raw(Box::new(node));
            Status::Ok
        }
        Err(fault) => fault,
    }
}

/// # Safety
/// The node was made here, or is NULL.
#[unsafe(no_mangle)]
pub unsafe extern "C" fn zmg_node_free(node: *mut Node) {
    if !node.is_null() {
        drop(unsafe { Box::from_raw(node) });
    }
}

#[unsafe(no_mangle)]
pub extern "C" fn zmg_command_from_keys(hold: &mut u8, keys: u32, command: &mut CommandFields) {
    *hold = if keys & TURN_KEYS != 0 { SLOW_TURNS.min(hold.saturating_add(1)) } else { 0 };
    *command = fields_of_keys(keys, *hold);
}

#[unsafe(no_mangle)]
pub extern "C" fn zmg_node_give(node: &mut Node, command: &CommandFields) -> Status {
    node.give(command)
}

/// # Safety
/// `out` has `room` bytes.
#[unsafe(no_mangle)]
pub unsafe extern "C" fn zmg_lockstep_packet(node: &mut Node, to: u8, out: *mut u8, room: usize) -> usize {
    let out = unsafe { slice::from_raw_parts_mut(out, room) };
    match out.first_chunk_mut() {
        Some(out) => node.packet(to, out),
        None => 0,
    }
}

#[unsafe(no_mangle)]
pub extern "C" fn zmg_lockstep_aim(node: &Node, to: u8, aim: &mut Aim) -> Status {
    match node.aim(to) {
        Some(found) => {
            *aim = found;
            Status::Ok
        }
        None => Status::NotNow,
    }
}

/// # Safety
/// `bytes` has `length` bytes.
#[unsafe(no_mangle)]
pub unsafe extern "C" fn zmg_lockstep_receive(
    node: &mut Node,
    from: u8,
    bytes: *const u8,
    length: usize,
    heard: &mut Heard,
) -> HeardCode {
    *heard = node.receive(from, unsafe { slice::from_raw_parts(bytes, length) });
    heard.code
}

#[unsafe(no_mangle)]
pub extern "C" fn zmg_node_run(node: &mut Node, marks: &[i16; MAX_PLAYERS], row: &mut Row) -> RunCode {
    node.run(marks, row)
}

#[unsafe(no_mangle)]
pub extern "C" fn zmg_node_quit(node: &mut Node) -> Status {
    if node.quit() { Status::Ok } else { Status::NotNow }
}

#[unsafe(no_mangle)]
pub extern "C" fn zmg_node_state_get(node: &Node, state: &mut State, size: usize) -> Status {
    if size < size_of::<State>() {
        return Status::Size;
    }
    let standing = node.standing();
    let settings = node.settings();
    *state = State {
        demo_length: node.demo.bytes.len(),
        phase: standing.phase,
        cause: standing.cause,
        was: standing.was,
        should: standing.should,
        player: standing.player.into(),
        me: node.me as u32,
        players: node.players as u32,
        made: node.made(),
        ran: node.ran,
        can_give: node.can_give().into(),
        knows_settings: settings.is_some().into(),
        of_links: [0; 5],
        settings: settings.unwrap_or_default(),
    };
    Status::Ok
}

#[unsafe(no_mangle)]
pub extern "C" fn zmg_node_player_get(node: &Node, player: u8, out: &mut Player, size: usize) -> Status {
    if size < size_of::<Player>() {
        return Status::Size;
    }
    let (got, end) = (node.got(player).unwrap_or(0), node.end(player).unwrap_or(NO_END));
    *out = Player { got, end, of_links: [0; 8] };
    Status::Ok
}

/// # Safety
/// `out` has `room` bytes.
#[unsafe(no_mangle)]
pub unsafe extern "C" fn zmg_node_demo(node: &Node, from: usize, out: *mut u8, room: usize) -> usize {
    let out = unsafe { slice::from_raw_parts_mut(out, room) };
    let rest = node.demo.bytes.get(from..).unwrap_or_default();
    let count = rest.len().min(room);
    out[..count].copy_from_slice(&rest[..count]);
    count
}
