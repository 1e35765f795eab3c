//! Moves, and the move list of every operation: the table of the scope, and the change requests' corrections to it.

use super::board::Board;

#[derive(Clone, Copy, Debug, PartialEq, Eq)]
pub enum Way {
    Right,
    Left,
    Up,
    Down,
}

#[derive(Clone, Copy, Debug, PartialEq, Eq)]
pub enum Move {
    Swap,
    Electronic(Way),
}

pub const SWAP: Move = Move::Swap;
pub const RIGHT: Move = Move::Electronic(Way::Right);
pub const LEFT: Move = Move::Electronic(Way::Left);
pub const UP: Move = Move::Electronic(Way::Up);
pub const DOWN: Move = Move::Electronic(Way::Down);

impl Move {
    /// The byte of a log.
    pub fn code(self) -> u8 {
        match self {
            SWAP => 0,
            RIGHT => 1,
            LEFT => 2,
            UP => 3,
            DOWN => 4,
        }
    }

    pub fn kind(self) -> &'static str {
        match self {
            SWAP => "O",
            _ => "E",
        }
    }

    pub fn way(self) -> &'static str {
        match self {
            SWAP => "swap",
            RIGHT => "right",
            LEFT => "left",
            UP => "up",
            DOWN => "down",
        }
    }
}

/// Which coordinate a shift changes.
#[derive(Clone, Copy, Debug, PartialEq, Eq)]
pub enum Line {
    MeshRow,
    MeshColumn,
    GroupRow,
    GroupColumn,
}

/// What a shift does at the edge.
#[derive(Clone, Copy, Debug, PartialEq, Eq)]
pub enum Edge {
    ZeroFill,
    Circular,
}

fn list(runs: &[(Move, usize)]) -> Vec<Move> {
    runs.iter().flat_map(|&(step, times)| vec![step; times]).collect()
}

/// Runs of side − 1 moves each, a swap being one.
fn whole_runs(board: Board, steps: &[Move]) -> Vec<Move> {
    let times = |step| if step == SWAP { 1 } else { board.side - 1 };
    list(&steps.iter().map(|&step| (step, times(step))).collect::<Vec<_>>())
}

pub fn broadcast(board: Board, cell: usize) -> Vec<Move> {
    let far = board.side - 1;
    let (a, b) = (board.row(board.place(cell)), board.column(board.place(cell)));
    let (c, d) = (board.row(board.group(cell)), board.column(board.group(cell)));
    let in_group = [(LEFT, b), (RIGHT, far - b), (UP, a), (DOWN, far - a)];
    let among_groups = [(LEFT, d), (RIGHT, far - d), (UP, c), (DOWN, far - c)];
    [list(&in_group), vec![SWAP], list(&among_groups)].concat()
}

pub fn data_sum(board: Board) -> Vec<Move> {
    whole_runs(board, &[RIGHT, LEFT, DOWN, UP, SWAP, RIGHT, LEFT, DOWN, UP])
}

/// Of prefix sum and of rank.
pub fn prefix_sum(board: Board) -> Vec<Move> {
    whole_runs(board, &[RIGHT, DOWN, SWAP, RIGHT, DOWN, LEFT, SWAP, UP, LEFT])
}

pub fn concentrate(board: Board) -> Vec<Move> {
    whole_runs(board, &[RIGHT, LEFT, UP, DOWN, SWAP, RIGHT, LEFT, UP, SWAP])
}

pub fn distribute(board: Board) -> Vec<Move> {
    whole_runs(board, &[SWAP, DOWN, RIGHT, LEFT, SWAP, UP, DOWN, RIGHT, LEFT])
}

/// A shift by `by`, −side < by < side.
pub fn shift(board: Board, line: Line, edge: Edge, by: i32) -> Vec<Move> {
    let (forth, back) = match line {
        Line::MeshRow | Line::GroupRow => (RIGHT, LEFT),
        Line::MeshColumn | Line::GroupColumn => (DOWN, UP),
    };
    let on_mesh = match edge {
        Edge::ZeroFill if by >= 0 => list(&[(forth, by as usize)]),
        Edge::ZeroFill => list(&[(back, -by as usize)]),
        // request 2: "a circular shift by 0 has no electronic move"
        Edge::Circular if by == 0 => Vec::new(),
        Edge::Circular => {
            let ahead = by.rem_euclid(board.side as i32) as usize;
            list(&[(forth, ahead), (back, board.side - ahead)])
        }
    };
    match line {
        Line::MeshRow | Line::MeshColumn => on_mesh,
        Line::GroupRow | Line::GroupColumn => [vec![SWAP], on_mesh, vec![SWAP]].concat(),
    }
}

/// How many of the moves are electronic, and how many swaps.
pub fn counts(moves: &[Move]) -> (usize, usize) {
    let swaps = moves.iter().filter(|&&step| step == SWAP).count();
    (moves.len() - swaps, swaps)
}

#[cfg(test)]
mod tests {
    use super::*;

    #[test]
    fn counts_are_those_below_the_table() {
        for side in 1..=8 {
            let board = Board { side };
            for cell in 0..board.cells() {
                assert_eq!(counts(&broadcast(board, cell)), (4 * (side - 1), 1));
            }
            assert_eq!(counts(&data_sum(board)), (8 * (side - 1), 1));
            assert_eq!(counts(&prefix_sum(board)), (7 * (side - 1), 2));
            assert_eq!(counts(&concentrate(board)), (7 * (side - 1), 2));
            assert_eq!(counts(&distribute(board)), (7 * (side - 1), 2));
        }
    }

    #[test]
    fn a_circular_shift_costs_side_moves_and_by_nothing_none() {
        for side in 1..=8i32 {
            let board = Board { side: side as usize };
            for by in 1 - side..side {
                let electronic = if by == 0 { 0 } else { side as usize };
                let mesh = shift(board, Line::MeshRow, Edge::Circular, by);
                assert_eq!(counts(&mesh), (electronic, 0));
                let group = shift(board, Line::GroupColumn, Edge::Circular, by);
                assert_eq!(counts(&group), (electronic, 2));
            }
        }
    }

    #[test]
    fn a_broadcast_list_is_read_off_place_and_group() {
        // place 5 is at (1, 2) and group 6 at (2, 0)
        let moves = broadcast(Board { side: 3 }, 6 * 9 + 5);
        assert_eq!(moves, [LEFT, LEFT, UP, DOWN, SWAP, RIGHT, RIGHT, UP, UP]);
    }

    #[test]
    fn zero_fill_shifts_take_as_many_moves_as_the_distance() {
        let board = Board { side: 4 };
        assert_eq!(shift(board, Line::MeshRow, Edge::ZeroFill, 2), [RIGHT, RIGHT]);
        assert_eq!(shift(board, Line::MeshColumn, Edge::ZeroFill, -3), [UP, UP, UP]);
        assert_eq!(shift(board, Line::GroupRow, Edge::ZeroFill, -1), [SWAP, LEFT, SWAP]);
        assert_eq!(shift(board, Line::GroupColumn, Edge::ZeroFill, 0), [SWAP, SWAP]);
    }

    #[test]
    fn circular_shifts_go_round_or_not_at_all() {
        let board = Board { side: 4 };
        assert_eq!(shift(board, Line::MeshColumn, Edge::Circular, -1), [DOWN, DOWN, DOWN, UP]);
        assert_eq!(shift(board, Line::GroupRow, Edge::Circular, 1), [SWAP, RIGHT, LEFT, LEFT, LEFT, SWAP]);
        assert_eq!(shift(board, Line::MeshRow, Edge::Circular, 0), []);
        assert_eq!(shift(board, Line::GroupColumn, Edge::Circular, 0), [SWAP, SWAP]);
    }
}
