//! Where the racks of a cabinet stand in a picture.

use crate::code::numbers::Numbers;
use crate::drawing::frame::{EDGE, INNER, TOP};

/// Racks in a row of the picture.
const MOST_IN_ROW: usize = 12;

/// A rack's name above its trays.
pub const NAME: usize = 28;
pub const GAP: usize = 4;

/// Where the racks stand.
pub struct Grid {
    in_row: usize,
    rows: usize,
    pub left: usize,
    step: usize,
    pub rack_width: usize,
    pub rack_height: usize,
    pub tray_height: usize,
    /// From one row of racks to the next.
    row_gap: usize,
}

impl Grid {
    /// The racks of a layout, with so much room below each row.
    pub fn new(numbers: &Numbers, row_gap: usize) -> Grid {
        let rows = numbers.racks.div_ceil(MOST_IN_ROW);
        let in_row = numbers.racks.div_ceil(rows);
        let step = (INNER / in_row).min(208);
        let tray_height = match numbers.size {
            1 => 40,
            2..=5 => 32,
            _ => 18,
        };
        Grid {
            in_row,
            rows,
            left: EDGE + (INNER - step * in_row) / 2,
            step,
            rack_width: step - step / 7,
            rack_height: NAME + numbers.size * (tray_height + GAP) + GAP,
            tray_height,
            row_gap,
        }
    }

    pub fn row(&self, rack: usize) -> usize {
        rack / self.in_row
    }

    /// A rack's upper left corner.
    pub fn corner(&self, rack: usize) -> [usize; 2] {
        let x = self.left + (rack % self.in_row) * self.step + (self.step - self.rack_width) / 2;
        [x, TOP + self.row(rack) * (self.rack_height + self.row_gap)]
    }

    /// The middle of a rack's lower side.
    pub fn foot(&self, rack: usize) -> [usize; 2] {
        let [x, y] = self.corner(rack);
        [x + self.rack_width / 2, y + self.rack_height]
    }

    /// Where the racks of a row end.
    pub fn row_end(&self, row: usize) -> usize {
        TOP + row * (self.rack_height + self.row_gap) + self.rack_height
    }

    /// Where the room below the last row ends.
    pub fn bottom(&self) -> usize {
        TOP + self.rows * (self.rack_height + self.row_gap)
    }
}
