//! Cells, groups and places.

use super::moves::Way;

/// A board whose side is known to be 1 to 8.
#[derive(Clone, Copy, Debug, PartialEq, Eq)]
pub struct Board {
    pub side: usize,
}

impl Board {
    /// N: the places of a group, and the groups.
    pub fn places(self) -> usize {
        self.side * self.side
    }

    pub fn cells(self) -> usize {
        self.places() * self.places()
    }

    pub fn cell(self, group: usize, place: usize) -> usize {
        group * self.places() + place
    }

    pub fn group(self, cell: usize) -> usize {
        cell / self.places()
    }

    pub fn place(self, cell: usize) -> usize {
        cell % self.places()
    }

    /// The row of a place in its group, or of a group on the board.
    pub fn row(self, place: usize) -> usize {
        place / self.side
    }

    pub fn column(self, place: usize) -> usize {
        place % self.side
    }

    pub fn place_at(self, row: usize, column: usize) -> usize {
        row * self.side + column
    }

    /// Where a swap takes a cell: (G, P) to (P, G).
    pub fn partner(self, cell: usize) -> usize {
        self.cell(self.place(cell), self.group(cell))
    }

    /// Whether a record at `place` has to go that way to come nearer to `heading`.
    pub fn lies(self, heading: usize, way: Way, place: usize) -> bool {
        match way {
            Way::Right => self.column(heading) > self.column(place),
            Way::Left => self.column(heading) < self.column(place),
            Way::Down => self.row(heading) > self.row(place),
            Way::Up => self.row(heading) < self.row(place),
        }
    }

    /// The next place that way. Only asked where a heading lies that way, so there is one.
    pub fn onward(self, place: usize, way: Way) -> usize {
        let (row, column) = (self.row(place), self.column(place));
        match way {
            Way::Right => self.place_at(row, column + 1),
            Way::Left => self.place_at(row, column - 1),
            Way::Down => self.place_at(row + 1, column),
            Way::Up => self.place_at(row - 1, column),
        }
    }
}

#[cfg(test)]
mod tests {
    use super::*;

    #[test]
    fn a_swap_of_side_8_follows_the_link_list() {
        let board = Board { side: 8 };
        for cell in 0..4096 {
            assert_eq!(board.partner(cell), (cell % 64) * 64 + cell / 64);
        }
    }

    #[test]
    fn a_swap_taken_twice_is_none_and_cells_with_equal_halves_stay() {
        for side in 1..=8 {
            let board = Board { side };
            for cell in 0..board.cells() {
                assert_eq!(board.partner(board.partner(cell)), cell);
                assert_eq!(board.partner(cell) == cell, board.group(cell) == board.place(cell));
            }
        }
    }

    #[test]
    fn onward_changes_one_of_row_and_column() {
        let board = Board { side: 3 };
        assert_eq!(board.onward(4, Way::Right), 5);
        assert_eq!(board.onward(4, Way::Left), 3);
        assert_eq!(board.onward(4, Way::Up), 1);
        assert_eq!(board.onward(4, Way::Down), 7);
    }
}
