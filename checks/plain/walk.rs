//! The world Walk: where one of its players stands.

/// Where forward goes in each quadrant, times 2048. It is a table and no branch, since the quadrants of random
/// moves cannot be foreseen.
const AXES: [(i32, i32); 4] = [(2048, 0), (0, 2048), (-2048, 0), (0, -2048)];

#[derive(Clone, Copy, Default)]
pub struct Spot {
    pub x: i32,
    pub y: i32,
    pub angle: u16,
}

impl Spot {
    /// Where a player begins.
    pub fn of(player: usize) -> Spot {
        Spot { x: player as i32 * 4_194_304, ..Spot::default() }
    }

    pub fn step(&mut self, forward: i8, side: i8, turn: i16, buttons: u8) {
        let (forward, side) = (i32::from(forward), i32::from(side));
        self.angle = self.angle.wrapping_add_signed(turn);
        let (cos, sin) = AXES[usize::from(self.angle >> 14)];
        let (x, y) = (forward * cos + side * sin, forward * sin - side * cos);
        self.x = self.x.wrapping_add(x).wrapping_add(i32::from(buttons));
        self.y = self.y.wrapping_add(y);
    }

    pub fn mark(&self) -> i16 {
        self.x as i16
    }
}
