//! Tic commands: from keys, and to and from bytes.

pub const COMMAND_SIZE: usize = 8;
/// From how many builds in succession on turns are fast (SLOWTURNTICS).
pub const SLOW_TURNS: u8 = 6;

/// The bits of keys.
const KEY_FORWARD: u32 = 1 << 0;
const KEY_BACK: u32 = 1 << 1;
const KEY_LEFT: u32 = 1 << 2;
const KEY_RIGHT: u32 = 1 << 3;
const KEY_STRAFE_LEFT: u32 = 1 << 4;
const KEY_STRAFE_RIGHT: u32 = 1 << 5;
const KEY_STRAFE: u32 = 1 << 6;
const KEY_SPEED: u32 = 1 << 7;
const KEY_ATTACK: u32 = 1 << 8;
const KEY_USE: u32 = 1 << 9;
const WEAPONS_SHIFT: u32 = 10;
const WEAPONS_MASK: u32 = 0xff;
pub const TURN_KEYS: u32 = KEY_LEFT | KEY_RIGHT;

/// The bits of a command's buttons.
const BUTTON_ATTACK: u8 = 1;
const BUTTON_USE: u8 = 2;
const BUTTON_CHANGE: u8 = 4;
const BUTTON_WEAPON_SHIFT: u32 = 3;

/// What a player asks for in one tic. The fields stand as on the wire.
#[repr(C)]
#[derive(Clone, Copy, Default)]
pub struct Command {
    pub forward: i8,
    pub side: i8,
    pub turn: i16,
    pub mark: i16,
    pub chat: u8,
    pub buttons: u8,
}

impl Command {
    /// The command of these keys; `hold` is for how many builds in succession a turn key was down.
    pub fn from_keys(keys: u32, hold: u8, mark: i16) -> Command {
        let down = |key: u32| keys & key != 0;
        let axis = |plus: u32, minus: u32| i32::from(down(plus)) - i32::from(down(minus));
        let (walk, sidle, fast_turn) = if down(KEY_SPEED) { (50, 40, 1280) } else { (25, 24, 640) };
        let mut side = axis(KEY_STRAFE_RIGHT, KEY_STRAFE_LEFT) * sidle;
        let mut turn = 0;
        if down(KEY_STRAFE) {
            side += axis(KEY_RIGHT, KEY_LEFT) * sidle;
        } else {
            turn = axis(KEY_LEFT, KEY_RIGHT) * if hold < SLOW_TURNS { 320 } else { fast_turn };
        }
        Command {
            forward: (axis(KEY_FORWARD, KEY_BACK) * walk) as i8,
            side: side.clamp(-50, 50) as i8,
            turn: turn as i16,
            mark,
            chat: 0,
            buttons: buttons(keys),
        }
    }

    pub fn from_bytes(bytes: [u8; COMMAND_SIZE]) -> Command {
        let [forward, side, turn0, turn1, mark0, mark1, chat, buttons] = bytes;
        Command {
            forward: forward as i8,
            side: side as i8,
            turn: i16::from_le_bytes([turn0, turn1]),
            mark: i16::from_le_bytes([mark0, mark1]),
            chat,
            buttons,
        }
    }

    pub fn to_bytes(self) -> [u8; COMMAND_SIZE] {
        let [turn0, turn1] = self.turn.to_le_bytes();
        let [mark0, mark1] = self.mark.to_le_bytes();
        [self.forward as u8, self.side as u8, turn0, turn1, mark0, mark1, self.chat, self.buttons]
    }
}

/// The buttons of these keys; of the weapons the lowest counts.
fn buttons(keys: u32) -> u8 {
    let mut buttons = 0;
    if keys & KEY_ATTACK != 0 {
        buttons |= BUTTON_ATTACK;
    }
    if keys & KEY_USE != 0 {
        buttons |= BUTTON_USE;
    }
    let weapons = keys >> WEAPONS_SHIFT & WEAPONS_MASK;
    if weapons != 0 {
        buttons |= BUTTON_CHANGE | (weapons.trailing_zeros() as u8) << BUTTON_WEAPON_SHIFT;
    }
    buttons
}
