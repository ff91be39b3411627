//! The calls, records and numbers of `zirmegat.h` and `zirmegat_parts.h`, as they are in C, where each has its comment.
//! The crate `zirmegat` is what an engine in Rust wants.

#![allow(non_camel_case_types, non_snake_case)]
// a window is below 13
#![allow(clippy::cast_possible_truncation)]

use std::marker::PhantomData;
use std::mem;
use std::os::raw::{c_char, c_uint};

// What zirmegat.h declares, in its order.

pub const ZMG_VERSION: u32 = 65536;
pub type zmg_status = c_uint;
pub const ZMG_OK: zmg_status = 0;
pub const ZMG_ERR_HANDLE: zmg_status = 1;
pub const ZMG_ERR_SIZE: zmg_status = 2;
pub const ZMG_ERR_MEMORY: zmg_status = 3;
pub const ZMG_ERR_ROOM: zmg_status = 4;
pub const ZMG_ERR_NOT_NOW: zmg_status = 5;
pub const ZMG_ERR_KEY: zmg_status = 6;
pub const ZMG_ERR_RANDOM: zmg_status = 7;
pub const ZMG_ERR_PLAYERS: zmg_status = 8;
pub const ZMG_ERR_WINDOW: zmg_status = 9;
pub const ZMG_ERR_RATE: zmg_status = 10;
pub const ZMG_ERR_LIMIT: zmg_status = 11;
pub const ZMG_ERR_POLICY: zmg_status = 12;
pub const ZMG_ERR_SEAT: zmg_status = 13;
pub const ZMG_ERR_SKILL: zmg_status = 14;
pub const ZMG_ERR_DEATHMATCH: zmg_status = 15;
pub const ZMG_ERR_EPISODE: zmg_status = 16;
pub const ZMG_ERR_MAP: zmg_status = 17;
pub const ZMG_ERR_TEXT: zmg_status = 18;
pub const ZMG_ERR_DEMO_SHORT: zmg_status = 19;
pub const ZMG_ERR_DEMO_VERSION: zmg_status = 20;
pub const ZMG_ERR_DEMO_PLAYERS: zmg_status = 21;
pub const ZMG_ERR_DEMO_MARKER: zmg_status = 22;
pub const ZMG_ERR_TIC: zmg_status = 23;
pub const ZMG_ERR_ME: zmg_status = 24;
pub const ZMG_ERR_FULL: zmg_status = 25;
pub const ZMG_OVER_LEFT: zmg_status = 65;
pub const ZMG_OVER_FULL: zmg_status = 66;
pub const ZMG_OVER_INCONSISTENT: zmg_status = 67;
pub const ZMG_OVER_GIVEN_UP: zmg_status = 68;
pub const ZMG_OVER_ALONE: zmg_status = 69;
pub const ZMG_OVER_LOST: zmg_status = 70;
pub const ZMG_OVER_BEGUN: zmg_status = 81;
pub const ZMG_OVER_PLAYERS: zmg_status = 82;
pub const ZMG_OVER_IDENTITY: zmg_status = 83;
pub const ZMG_OVER_KICKED: zmg_status = 84;
pub const ZMG_OVER_OTHER_KEY: zmg_status = 96;
pub const ZMG_OVER_VERSION: zmg_status = 97;
#[repr(C)]
#[derive(Clone, Copy, Debug)]
pub struct zmg_key {
    pub bytes: [u8; 32],
}

#[repr(C)]
#[derive(Clone, Copy, Debug)]
pub struct zmg_random {
    pub bytes: [u8; 32],
}

#[repr(C)]
#[derive(Clone, Copy, Debug)]
pub struct zmg_identity {
    pub bytes: [u8; 16],
}

#[repr(C)]
#[derive(Clone, Copy, Debug)]
pub struct zmg_name {
    pub text: [c_char; 16],
}

#[repr(C)]
#[derive(Clone, Copy, Debug)]
pub struct zmg_address {
    pub bytes: [u8; 32],
}

pub const ZMG_KEY_TEXT_SIZE: usize = 65;
#[repr(C)]
#[derive(Clone, Copy, Debug)]
pub struct zmg_settings {
    pub skill: u8,
    pub deathmatch: u8,
    pub no_monsters: u8,
    pub respawn: u8,
    pub episode: u8,
    pub map: u8,
}

pub type zmg_policy = c_uint;
pub const ZMG_POLICY_WAIT: zmg_policy = 1;
pub const ZMG_POLICY_GIVE_UP: zmg_policy = 2;
pub const ZMG_POLICY_END: zmg_policy = 3;
#[repr(C)]
#[derive(Clone, Copy, Debug)]
pub struct zmg_terms {
    pub limit: u32,
    pub policy: zmg_policy,
    pub seconds: u8,
    pub players: u8,
    pub window: u8,
    pub rate: u8,
    pub settings: zmg_settings,
    pub identity: zmg_identity,
    pub own: [u8; 256],
}

#[repr(C)]
#[derive(Clone, Copy, Debug)]
pub struct zmg_host_config {
    pub size: usize,
    pub terms: zmg_terms,
    pub key: zmg_key,
    pub random: zmg_random,
    pub name: zmg_name,
    pub keyless: u8,
}

#[repr(C)]
#[derive(Clone, Copy, Debug)]
pub struct zmg_join_config {
    pub size: usize,
    pub key: zmg_key,
    pub random: zmg_random,
    pub host: zmg_address,
    pub identity: zmg_identity,
    pub name: zmg_name,
    pub keyless: u8,
    pub seat: u8,
    pub players: u8,
}

/// Opaque: a call that makes one wrote the pointer.
#[repr(C)]
pub struct zmg_session {
    _private: [u8; 0],
    _not_shared: PhantomData<*mut u8>,
}

pub const ZMG_WAIT_NONE: u32 = u32::MAX;
pub const ZMG_DATAGRAM_SIZE: usize = 1200;
pub type zmg_event_kind = c_uint;
pub const ZMG_EVENT_NONE: zmg_event_kind = 0;
pub const ZMG_EVENT_SEATED: zmg_event_kind = 1;
pub const ZMG_EVENT_UNSEATED: zmg_event_kind = 2;
pub const ZMG_EVENT_BEGAN: zmg_event_kind = 3;
pub const ZMG_EVENT_LEFT: zmg_event_kind = 4;
pub const ZMG_EVENT_GIVEN_UP: zmg_event_kind = 5;
pub const ZMG_EVENT_OVER: zmg_event_kind = 6;
#[repr(C)]
#[derive(Clone, Copy, Debug)]
pub struct zmg_event {
    pub kind: zmg_event_kind,
    pub player: u32,
    pub why: zmg_status,
    pub number: u32,
}

#[repr(C)]
#[derive(Clone, Copy, Debug)]
pub struct zmg_command {
    pub turn: i16,
    pub forward: i8,
    pub side: i8,
    pub chat: u8,
    pub buttons: u8,
}

pub type zmg_run = c_uint;
pub const ZMG_RUN_NOT_PLAYING: zmg_run = 0;
pub const ZMG_RUN_RAN: zmg_run = 1;
pub const ZMG_RUN_WAITING: zmg_run = 2;
pub const ZMG_RUN_DEMO_FULL: zmg_run = 3;
pub const ZMG_RUN_INCONSISTENT: zmg_run = 4;
pub const ZMG_RUN_HELD: zmg_run = 5;
#[repr(C)]
#[derive(Clone, Copy, Debug)]
pub struct zmg_row {
    pub tic: u32,
    pub was: i16,
    pub should: i16,
    pub player: u8,
    pub present: [u8; 4],
    pub commands: [zmg_command; 4],
}

pub type zmg_stage = c_uint;
pub const ZMG_STAGE_NONE: zmg_stage = 0;
pub const ZMG_STAGE_HOSTING: zmg_stage = 1;
pub const ZMG_STAGE_CALLING: zmg_stage = 2;
pub const ZMG_STAGE_WAITING: zmg_stage = 3;
pub const ZMG_STAGE_SEATED: zmg_stage = 4;
pub const ZMG_STAGE_PLAYING: zmg_stage = 5;
pub const ZMG_STAGE_LEAVING: zmg_stage = 6;
pub const ZMG_STAGE_OVER: zmg_stage = 7;
#[repr(C)]
#[derive(Clone, Copy, Debug)]
pub struct zmg_state {
    pub stage: zmg_stage,
    pub why: zmg_status,
    pub number: u32,
    pub made: u32,
    pub ran: u32,
    pub unacknowledged: u32,
    pub may_leave: u32,
    pub was: i16,
    pub should: i16,
    pub me: u32,
    pub terms: zmg_terms,
}

pub type zmg_seat = c_uint;
pub const ZMG_SEAT_NONE: zmg_seat = 0;
pub const ZMG_SEAT_FREE: zmg_seat = 1;
pub const ZMG_SEAT_THERE: zmg_seat = 2;
pub const ZMG_SEAT_SILENT: zmg_seat = 3;
pub type zmg_standing = c_uint;
pub const ZMG_STANDING_NONE: zmg_standing = 0;
pub const ZMG_STANDING_PLAYS: zmg_standing = 1;
pub const ZMG_STANDING_LEFT: zmg_standing = 2;
pub const ZMG_STANDING_GIVEN_UP: zmg_standing = 3;
#[repr(C)]
#[derive(Clone, Copy, Debug)]
pub struct zmg_line {
    pub came: u32,
    pub lost: u32,
    pub repeated: u32,
    pub too_old: u32,
    pub missing_there: u8,
    pub lead: i8,
    pub lead_there: i8,
}

pub const ZMG_NO_END: u32 = u32::MAX;
#[repr(C)]
#[derive(Clone, Copy, Debug)]
pub struct zmg_player {
    pub seat: zmg_seat,
    pub has_address: u32,
    pub address: zmg_address,
    pub name: zmg_name,
    pub standing: zmg_standing,
    pub awaited: u32,
    pub silent: u32,
    pub got: u32,
    pub end: u32,
    pub line: zmg_line,
}

/// Opaque: a call that makes one wrote the pointer.
#[repr(C)]
pub struct zmg_demo {
    _private: [u8; 0],
    _not_shared: PhantomData<*mut u8>,
}

#[repr(C)]
#[derive(Clone, Copy, Debug)]
pub struct zmg_start {
    pub skill: u8,
    pub episode: u8,
    pub map: u8,
    pub deathmatch: u8,
    pub respawn: u8,
    pub fast: u8,
    pub no_monsters: u8,
}

#[repr(C)]
#[derive(Clone, Copy, Debug)]
pub struct zmg_demo_facts {
    pub tics: usize,
    pub cut: usize,
    pub after: usize,
    pub version: u8,
    pub view: u8,
    pub start: zmg_start,
    pub present: [u8; 4],
}

#[link(name = "zirmegat", kind = "static")]
extern "C" {
    pub fn zmg_version() -> u32;
    pub fn zmg_key_from_text(key: *mut zmg_key, text: *const c_char, length: usize) -> zmg_status;
    pub fn zmg_key_to_text(key: *const zmg_key, text: *mut c_char);
    pub fn zmg_session_host(
        out: *mut *mut zmg_session,
        config: *const zmg_host_config,
    ) -> zmg_status;
    pub fn zmg_session_join(
        out: *mut *mut zmg_session,
        config: *const zmg_join_config,
        now: u32,
    ) -> zmg_status;
    pub fn zmg_session_free(session: *mut zmg_session);
    pub fn zmg_session_receive(
        session: *mut zmg_session,
        from: *const zmg_address,
        bytes: *const u8,
        length: usize,
        now: u32,
    ) -> zmg_status;
    pub fn zmg_session_poll(session: *mut zmg_session, now: u32) -> zmg_status;
    pub fn zmg_session_wait(session: *const zmg_session, now: u32) -> u32;
    pub fn zmg_session_transmit(
        session: *mut zmg_session,
        to: *mut zmg_address,
        out: *mut u8,
        room: usize,
    ) -> usize;
    pub fn zmg_session_event(session: *mut zmg_session, event: *mut zmg_event) -> zmg_event_kind;
    pub fn zmg_command_from_keys(hold: *mut u8, keys: u32, command: *mut zmg_command);
    pub fn zmg_session_wants_input(session: *const zmg_session, now: u32) -> bool;
    pub fn zmg_session_give(
        session: *mut zmg_session,
        command: *const zmg_command,
        now: u32,
    ) -> zmg_status;
    pub fn zmg_session_run(
        session: *mut zmg_session,
        marks: *const i16,
        row: *mut zmg_row,
    ) -> zmg_run;
    pub fn zmg_session_quit(session: *mut zmg_session, now: u32) -> zmg_status;
    pub fn zmg_session_give_up(session: *mut zmg_session, player: u8, now: u32) -> zmg_status;
    pub fn zmg_session_kick(session: *mut zmg_session, seat: u8) -> zmg_status;
    pub fn zmg_session_state(
        session: *const zmg_session,
        state: *mut zmg_state,
        size: usize,
    ) -> zmg_status;
    pub fn zmg_session_player(
        session: *const zmg_session,
        player: u8,
        now: u32,
        out: *mut zmg_player,
        size: usize,
    ) -> zmg_status;
    pub fn zmg_session_demo(
        session: *const zmg_session,
        from: usize,
        out: *mut u8,
        room: usize,
    ) -> usize;
    pub fn zmg_demo_read(out: *mut *mut zmg_demo, bytes: *const u8, length: usize) -> zmg_status;
    pub fn zmg_demo_free(demo: *mut zmg_demo);
    pub fn zmg_demo_tell(
        demo: *const zmg_demo,
        facts: *mut zmg_demo_facts,
        size: usize,
    ) -> zmg_status;
    pub fn zmg_demo_row(demo: *const zmg_demo, tic: usize, row: *mut zmg_row) -> zmg_status;
    pub fn zmg_demo_upgrade(
        bytes: *const u8,
        length: usize,
        out: *mut u8,
        room: usize,
        written: *mut usize,
    ) -> zmg_status;
}

// What zirmegat_parts.h declares, in its order.

/// Opaque: a call that makes one wrote the pointer.
#[repr(C)]
pub struct zmg_node {
    _private: [u8; 0],
    _not_shared: PhantomData<*mut u8>,
}

#[repr(C)]
#[derive(Clone, Copy, Debug)]
pub struct zmg_game_number {
    pub bytes: [u8; 16],
}

#[repr(C)]
#[derive(Clone, Copy, Debug)]
pub struct zmg_node_config {
    pub size: usize,
    pub limit: u32,
    pub players: u8,
    pub me: u8,
    pub window: u8,
    pub extra: u8,
    pub settings: zmg_settings,
    pub secret: zmg_key,
    pub game: zmg_game_number,
}

pub const ZMG_WINDOW_1997: u32 = 5;
pub type zmg_phase = c_uint;
pub const ZMG_PHASE_NONE: zmg_phase = 0;
pub const ZMG_PHASE_LISTENING: zmg_phase = 1;
pub const ZMG_PHASE_GATHERING: zmg_phase = 2;
pub const ZMG_PHASE_PLAYING: zmg_phase = 3;
pub const ZMG_PHASE_ENDED: zmg_phase = 4;
pub type zmg_cause = c_uint;
pub const ZMG_CAUSE_NONE: zmg_cause = 0;
pub const ZMG_CAUSE_QUIT: zmg_cause = 1;
pub const ZMG_CAUSE_FULL: zmg_cause = 2;
pub const ZMG_CAUSE_INCONSISTENT: zmg_cause = 3;
#[repr(C)]
#[derive(Clone, Copy, Debug)]
pub struct zmg_node_state {
    pub demo_length: usize,
    pub phase: zmg_phase,
    pub cause: zmg_cause,
    pub was: i16,
    pub should: i16,
    pub player: u32,
    pub me: u32,
    pub players: u32,
    pub made: u32,
    pub ran: u32,
    pub can_give: u32,
    pub knows_settings: u32,
    pub unacknowledged: u32,
    pub refused: u32,
    pub may_leave: u32,
    pub is_undecided: u32,
    pub undecided: u32,
    pub settings: zmg_settings,
}

#[repr(C)]
#[derive(Clone, Copy, Debug)]
pub struct zmg_node_player {
    pub got: u32,
    pub end: u32,
    pub left: zmg_cause,
    pub given_up: u8,
    pub is_resting: u8,
    pub wants_second: u8,
    pub reports: [u8; 4],
    pub line: zmg_line,
}

pub const ZMG_PACKET_SIZE: usize = 104;
#[repr(C)]
#[derive(Clone, Copy, Debug)]
pub struct zmg_aim {
    pub asks: u32,
    pub ask: u32,
    pub start: u32,
    pub flags: u8,
    pub count: u8,
}

pub type zmg_heard_code = c_uint;
pub const ZMG_HEARD_DROPPED: zmg_heard_code = 0;
pub const ZMG_HEARD_STARTED: zmg_heard_code = 1;
pub const ZMG_HEARD_TAKEN: zmg_heard_code = 2;
pub const ZMG_HEARD_STALE: zmg_heard_code = 3;
pub const ZMG_HEARD_GAP: zmg_heard_code = 4;
pub const ZMG_HEARD_LEFT: zmg_heard_code = 5;
pub const ZMG_HEARD_NOTED: zmg_heard_code = 6;
#[repr(C)]
#[derive(Clone, Copy, Debug)]
pub struct zmg_heard {
    pub code: zmg_heard_code,
    pub number: u32,
}

pub type zmg_drop = c_uint;
pub const ZMG_DROP_SHORT: zmg_drop = 1;
pub const ZMG_DROP_MANY: zmg_drop = 2;
pub const ZMG_DROP_LENGTH: zmg_drop = 3;
pub const ZMG_DROP_SUM: zmg_drop = 4;
pub const ZMG_DROP_STRANGER: zmg_drop = 5;
pub const ZMG_DROP_OUT_OF_PLACE: zmg_drop = 6;
pub const ZMG_DROP_VERSION: zmg_drop = 7;
pub const ZMG_DROP_RANGE: zmg_drop = 8;
pub const ZMG_DROP_KILL: zmg_drop = 9;
pub const ZMG_DROP_TIC: zmg_drop = 10;
pub const ZMG_DROP_COMMAND: zmg_drop = 11;
pub const ZMG_DROP_OVERRUN: zmg_drop = 12;
pub const ZMG_DROP_NOT_PLAYING: zmg_drop = 13;
pub const ZMG_DROP_END: zmg_drop = 14;
pub type zmg_received_code = c_uint;
pub const ZMG_RECEIVED_UNOPENED: zmg_received_code = 0;
pub const ZMG_RECEIVED_HEARD: zmg_received_code = 1;
pub const ZMG_RECEIVED_STRANGER: zmg_received_code = 2;
pub const ZMG_RECEIVED_GIVEN_UP: zmg_received_code = 3;
pub const ZMG_RECEIVED_EXCLUDED: zmg_received_code = 4;
pub type zmg_unopened = c_uint;
pub const ZMG_UNOPENED_HANDLE: zmg_unopened = 0;
pub const ZMG_UNOPENED_SHORT: zmg_unopened = 1;
pub const ZMG_UNOPENED_LONG: zmg_unopened = 2;
pub const ZMG_UNOPENED_SUITE: zmg_unopened = 3;
pub const ZMG_UNOPENED_KIND: zmg_unopened = 4;
pub const ZMG_UNOPENED_GAME: zmg_unopened = 5;
pub const ZMG_UNOPENED_RECEIVER: zmg_unopened = 6;
pub const ZMG_UNOPENED_TAG: zmg_unopened = 7;
pub const ZMG_UNOPENED_FORM: zmg_unopened = 8;
#[repr(C)]
#[derive(Clone, Copy, Debug)]
pub struct zmg_received {
    pub code: zmg_received_code,
    pub reason: zmg_unopened,
    pub player: u32,
}

pub type zmg_give_up_code = c_uint;
pub const ZMG_GIVE_UP_NOT_PLAYING: zmg_give_up_code = 0;
pub const ZMG_GIVE_UP_WAITING: zmg_give_up_code = 1;
pub const ZMG_GIVE_UP_DECIDED: zmg_give_up_code = 2;
pub const ZMG_GIVE_UP_UNTAKEN: zmg_give_up_code = 3;
pub const ZMG_GIVE_UP_ALREADY: zmg_give_up_code = 4;
pub const ZMG_GIVE_UP_NOT_A_PLAYER: zmg_give_up_code = 5;
pub type zmg_unsettled = c_uint;
pub const ZMG_UNSETTLED_NOT: zmg_unsettled = 0;
pub const ZMG_UNSETTLED_NOT_A_PLAYER: zmg_unsettled = 1;
pub const ZMG_UNSETTLED_NOT_PLAYING: zmg_unsettled = 2;
pub const ZMG_UNSETTLED_GAP: zmg_unsettled = 3;
pub const ZMG_UNSETTLED_BEHIND: zmg_unsettled = 4;
pub const ZMG_UNSETTLED_OVERRUN: zmg_unsettled = 5;
pub const ZMG_UNSETTLED_STOPPER: zmg_unsettled = 6;
pub const ZMG_UNSETTLED_OTHER_END: zmg_unsettled = 7;
#[repr(C)]
#[derive(Clone, Copy, Debug)]
pub struct zmg_given_up {
    pub code: zmg_give_up_code,
    pub reason: zmg_unsettled,
    pub player: u32,
}

pub const ZMG_FLAG_KILL: u32 = 1;
pub const ZMG_FLAG_SETUP: u32 = 2;
pub const ZMG_FLAG_RETRANSMIT: u32 = 4;
pub const ZMG_FLAG_EXIT: u32 = 8;
pub const ZMG_MOST_COMMANDS: usize = 12;
#[repr(C)]
#[derive(Clone, Copy, Debug)]
pub struct zmg_sent_command {
    pub turn: i16,
    pub mark: i16,
    pub forward: i8,
    pub side: i8,
    pub chat: u8,
    pub buttons: u8,
}

#[repr(C)]
#[derive(Clone, Copy, Debug)]
pub struct zmg_packet {
    pub flags: u8,
    pub ask: u8,
    pub start: u8,
    pub player: u8,
    pub count: u8,
    pub commands: [zmg_sent_command; ZMG_MOST_COMMANDS],
}

#[link(name = "zirmegat", kind = "static")]
extern "C" {
    pub fn zmg_lockstep_new(out: *mut *mut zmg_node, config: *const zmg_node_config) -> zmg_status;
    pub fn zmg_link_new(out: *mut *mut zmg_node, config: *const zmg_node_config) -> zmg_status;
    pub fn zmg_node_free(node: *mut zmg_node);
    pub fn zmg_node_give(node: *mut zmg_node, command: *const zmg_command) -> zmg_status;
    pub fn zmg_node_run(node: *mut zmg_node, marks: *const i16, row: *mut zmg_row) -> zmg_run;
    pub fn zmg_node_quit(node: *mut zmg_node) -> zmg_status;
    pub fn zmg_node_state_get(
        node: *const zmg_node,
        state: *mut zmg_node_state,
        size: usize,
    ) -> zmg_status;
    pub fn zmg_node_player_get(
        node: *const zmg_node,
        player: u8,
        out: *mut zmg_node_player,
        size: usize,
    ) -> zmg_status;
    pub fn zmg_node_demo(node: *const zmg_node, from: usize, out: *mut u8, room: usize) -> usize;
    pub fn zmg_lockstep_packet(node: *mut zmg_node, to: u8, out: *mut u8, room: usize) -> usize;
    pub fn zmg_lockstep_aim(node: *const zmg_node, to: u8, aim: *mut zmg_aim) -> zmg_status;
    pub fn zmg_lockstep_receive(
        node: *mut zmg_node,
        from: u8,
        bytes: *const u8,
        length: usize,
        heard: *mut zmg_heard,
    ) -> zmg_heard_code;
    pub fn zmg_link_datagram(node: *mut zmg_node, to: u8, out: *mut u8, room: usize) -> usize;
    pub fn zmg_link_receive(
        node: *mut zmg_node,
        bytes: *const u8,
        length: usize,
        received: *mut zmg_received,
    ) -> zmg_received_code;
    pub fn zmg_link_tick(node: *mut zmg_node, later: *mut i32) -> zmg_status;
    pub fn zmg_link_catch_up(node: *mut zmg_node) -> zmg_status;
    pub fn zmg_link_give_up(
        node: *mut zmg_node,
        player: u8,
        given_up: *mut zmg_given_up,
    ) -> zmg_give_up_code;
    pub fn zmg_packet_decode(bytes: *const u8, length: usize, packet: *mut zmg_packet) -> u32;
    pub fn zmg_packet_encode(packet: *const zmg_packet, out: *mut u8, room: usize) -> usize;
}

pub const ZMG_KEY_FORWARD: u32 = 1 << 0;
pub const ZMG_KEY_BACK: u32 = 1 << 1;
pub const ZMG_KEY_LEFT: u32 = 1 << 2;
pub const ZMG_KEY_RIGHT: u32 = 1 << 3;
pub const ZMG_KEY_STRAFE_LEFT: u32 = 1 << 4;
pub const ZMG_KEY_STRAFE_RIGHT: u32 = 1 << 5;
pub const ZMG_KEY_STRAFE: u32 = 1 << 6;
pub const ZMG_KEY_SPEED: u32 = 1 << 7;
pub const ZMG_KEY_ATTACK: u32 = 1 << 8;
pub const ZMG_KEY_USE: u32 = 1 << 9;
/// The bit of the key for a weapon, `n` from 1 to 8.
#[must_use]
pub const fn ZMG_KEY_WEAPON(n: u32) -> u32 {
    1 << (9 + n)
}

impl zmg_host_config {
    /// What `zmg_host_config_init` fills in: `key`, unless the game is keyless, and `random` are to be set.
    #[must_use]
    pub fn init() -> zmg_host_config {
        // SAFETY: zeros are a value of each field.
        let mut config: zmg_host_config = unsafe { mem::zeroed() };
        config.size = mem::size_of::<zmg_host_config>();
        config.terms.limit = 16_777_216;
        config.terms.policy = ZMG_POLICY_WAIT;
        config.terms.players = 2;
        config.terms.window = 12;
        config.terms.rate = 35;
        config.terms.settings.skill = 2;
        config.terms.settings.episode = 1;
        config.terms.settings.map = 1;
        config
    }
}

impl zmg_join_config {
    /// What `zmg_join_config_init` fills in: `key`, unless the game is keyless, `random` and `host` are to be set.
    #[must_use]
    pub fn init() -> zmg_join_config {
        // SAFETY: zeros are a value of each field.
        let mut config: zmg_join_config = unsafe { mem::zeroed() };
        config.size = mem::size_of::<zmg_join_config>();
        config
    }
}

impl zmg_node_config {
    /// What `zmg_node_config_init` fills in: a link's `secret` and `game` are to be set.
    #[must_use]
    pub fn init() -> zmg_node_config {
        // SAFETY: zeros are a value of each field.
        let mut config: zmg_node_config = unsafe { mem::zeroed() };
        config.size = mem::size_of::<zmg_node_config>();
        config.limit = 16_777_216;
        config.players = 2;
        config.window = ZMG_WINDOW_1997 as u8;
        config.settings.skill = 2;
        config.settings.episode = 1;
        config.settings.map = 1;
        config
    }
}
