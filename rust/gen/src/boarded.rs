//! Counters of what distances of the arrow board met (document 02, T-08).

use crate::boards::{Board, FULL, IN_RANGE};
use crate::boards::{GRADIENT_BOUNDS, RETARDATION_BOUNDS, SPEED_BOUNDS};
use crate::bytes::ByteSets;
use crate::coverage::sums;
use engine::board::{PRINTED_FOR, PRINTED_GRADIENTS, PRINTED_SPEEDS};
use engine::BoardDistance;

/// A distance has fewer tens than this.
const TENS: usize = 282;

/// How often.
#[derive(Clone)]
pub(crate) struct BoardCounts {
    /// By where speed, retardation and gradient are.
    pub(crate) places: [[[u64; 3]; 3]; 3],
    /// By bound of speed, retardation and gradient.
    pub(crate) bounds: [[[u64; 4]; 4]; 4],
    /// A fall, level, a rise.
    pub(crate) slopes: [u64; 3],
    /// The printed cells.
    pub(crate) cells: [[u64; 7]; 5],
    /// Each exact distance of a full 10 m.
    pub(crate) full: [u64; FULL.len()],
    /// Less than a metre, a millimetre, a thousandth of one below a full 10 m; then above one.
    pub(crate) near: [[u64; 3]; 2],
    /// By tens of metres.
    pub(crate) tens: [u64; TENS],
    /// Which speeds came, which retardations, which gradients, with the others in range.
    values: [ByteSets; 3],
    /// Which inputs in range came.
    inputs: ByteSets,
}

impl Default for BoardCounts {
    fn default() -> BoardCounts {
        BoardCounts {
            places: [[[0; 3]; 3]; 3],
            bounds: [[[0; 4]; 4]; 4],
            slopes: [0; 3],
            cells: [[0; 7]; 5],
            full: [0; FULL.len()],
            near: [[0; 3]; 2],
            tens: [0; TENS],
            values: [(); 3].map(|_| ByteSets::new(256)),
            inputs: ByteSets::new(IN_RANGE.div_ceil(256)),
        }
    }
}

/// The exact distance as one fraction: over, under.
fn exact(board: Board) -> (i64, i64) {
    let [v, d, h]: [i64; 3] = [
        board.speed.into(),
        board.retardation.into(),
        board.gradient.into(),
    ];
    let slowing = 100 * d + 981 * h;
    (625_000 * v * v + 135 * v * slowing, 162 * slowing)
}

/// The place among the inputs in range.
fn index(board: Board) -> usize {
    let (v, d) = (board.speed - 1, board.retardation - 500);
    let h = (board.gradient + 30) as usize;
    (usize::from(v) * 1001 + usize::from(d)) * 61 + h
}

impl BoardCounts {
    pub(crate) fn board(&mut self, board: Board, answer: BoardDistance) {
        let places @ [v, d, h] = board.places();
        self.places[v][d][h] += 1;
        self.bound(board);
        let bits = [board.speed, board.retardation, board.gradient as u16];
        for (i, value) in bits.into_iter().enumerate() {
            if (0..3).all(|other| other == i || places[other] == 1) {
                let [low, high] = value.to_le_bytes();
                self.values[i].mark(high.into(), low);
            }
        }
        if places == [1; 3] {
            self.taken(board, answer.distance);
        }
    }

    fn bound(&mut self, board: Board) {
        let v = SPEED_BOUNDS.iter().position(|b| *b == board.speed);
        let Some(v) = v else { return };
        let mut bounds = RETARDATION_BOUNDS.iter();
        let d = bounds.position(|b| *b == board.retardation);
        let h = GRADIENT_BOUNDS.iter().position(|b| *b == board.gradient);
        if let (Some(d), Some(h)) = (d, h) {
            self.bounds[v][d][h] += 1;
        }
    }

    fn taken(&mut self, board: Board, distance: u16) {
        let index = index(board);
        self.inputs.mark(index / 256, (index % 256) as u8);
        self.slopes[(board.gradient.signum() + 1) as usize] += 1;
        if let Some(count) = self.tens.get_mut(usize::from(distance / 10)) {
            *count += 1;
        }
        if board.retardation == PRINTED_FOR {
            self.cell(board);
        }
        let (over, under) = exact(board);
        let below = i64::from(distance) * under - over;
        if below == 0 {
            self.exact(board);
        }
        self.near(0, below, under);
        self.near(1, 10 * under - below, under);
    }

    fn cell(&mut self, board: Board) {
        let row = PRINTED_SPEEDS.iter().position(|v| *v == board.speed);
        let column = PRINTED_GRADIENTS.iter().position(|h| *h == board.gradient);
        if let (Some(row), Some(column)) = (row, column) {
            self.cells[row][column] += 1;
        }
    }

    fn exact(&mut self, board: Board) {
        if let Some(i) = FULL.iter().position(|full| *full == board) {
            self.full[i] += 1;
        }
    }

    /// So far from a full 10 m, `under` standing for a metre.
    fn near(&mut self, side: usize, far: i64, under: i64) {
        if far <= 0 || far >= under {
            return;
        }
        for (count, part) in self.near[side].iter_mut().zip([1, 1000, 1_000_000]) {
            *count += u64::from(far * part < under);
        }
    }

    /// How many speeds came, how many retardations, how many gradients.
    pub(crate) fn values(&self) -> [u64; 3] {
        [0, 1, 2].map(|i| self.values[i].count())
    }

    /// How many inputs in range came.
    pub(crate) fn inputs(&self) -> u64 {
        self.inputs.count()
    }

    pub(crate) fn add(&mut self, other: &BoardCounts) {
        let places = self.places.as_flattened_mut().as_flattened_mut();
        sums(places, other.places.as_flattened().as_flattened());
        let bounds = self.bounds.as_flattened_mut().as_flattened_mut();
        sums(bounds, other.bounds.as_flattened().as_flattened());
        sums(&mut self.slopes, &other.slopes);
        sums(self.cells.as_flattened_mut(), other.cells.as_flattened());
        sums(&mut self.full, &other.full);
        sums(self.near.as_flattened_mut(), other.near.as_flattened());
        sums(&mut self.tens, &other.tens);
        for (values, other) in self.values.iter_mut().zip(&other.values) {
            values.add(other);
        }
        self.inputs.add(&other.inputs);
    }
}
