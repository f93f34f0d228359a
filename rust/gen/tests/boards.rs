//! Inputs for the distance of the arrow board: seeded ones and the grids (document 02, T-08).

use engine::board_distance;
use gen::{board, board_edges, board_grid, Board, Coverage, Rng, FULL, IN_RANGE, NEAR_FULL};

/// Most are in range; of the others each number is met.
#[test]
fn seeded_boards() {
    let mut numbers = [0; 22];
    let (mut full, mut hash) = (0, 0u64);
    for index in 0..20_000 {
        let input = board(&mut Rng::of_case(1, index));
        let Board {
            speed,
            retardation,
            gradient,
        } = input;
        let answer = board_distance(speed, retardation, gradient);
        numbers[usize::from(answer.number)] += 1;
        full += u32::from(FULL.contains(&input));
        for number in [speed, retardation, gradient as u16] {
            hash = hash.wrapping_mul(31).wrapping_add(u64::from(number));
        }
    }
    assert!((13_000..17_000).contains(&numbers[0]), "{numbers:?}");
    assert!(numbers[19..].iter().all(|n| *n > 500), "{numbers:?}");
    assert!(full > 50, "{full}");
    assert_eq!(hash, SAME);
}
const SAME: u64 = 2208083689973946344;

/// Edges each with each, and 35 cells, 33 full ones and 15 near ones with their neighbours.
const EDGES: usize = 14 * 14 * 17 + (35 + 33 + 15) * 7;

/// What an engine answers to these, and the goals that they leave.
fn left(boards: impl Iterator<Item = Board>) -> (usize, Vec<String>) {
    let mut seen = Coverage::new();
    let mut count = 0;
    for input in boards {
        count += 1;
        let answer = board_distance(input.speed, input.retardation, input.gradient);
        seen.board(input, answer);
    }
    let left = seen.missing().into_iter();
    (
        count,
        left.filter(|goal| goal.starts_with("board")).collect(),
    )
}

/// The grids alone, without a seeded input.
#[test]
fn the_grids_meet_everything() {
    let (count, left) = left(board_edges().chain(board_grid()));
    assert_eq!(count, EDGES + 27 * 65_536 + IN_RANGE);
    assert!(left.is_empty(), "{left:?}");
}

/// One input fewer is missed, and so is one value.
#[test]
fn what_is_left_out_is_missed() {
    let all = || board_edges().chain(board_grid());
    let gone = Board::new(61, 871, 6);
    let goals = left(all().filter(|input| *input != gone)).1;
    assert_eq!(goals, ["board, inputs in range 7327319 of 7327320"]);
    let goals = left(all().filter(|input| input.gradient != -30_000)).1;
    assert_eq!(goals, ["board, values gradient 65535 of 65536"]);
}

/// The edges, without the rest of the grid: each number, bound and cell is met by them.
#[test]
fn the_edges_come_first() {
    let (count, left) = left(board_edges());
    assert_eq!(count, EDGES);
    let groups = ["board, values", "board, inputs", "board, distances"];
    let others = left
        .iter()
        .filter(|g| !groups.iter().any(|s| g.starts_with(s)));
    assert_eq!(others.collect::<Vec<_>>(), Vec::<&String>::new());
}

/// The lists are whole: by the formula cleared to one fraction, over all inputs in range.
#[test]
fn full_and_near() {
    let (mut full, mut near) = (vec![], vec![]);
    for input in board_grid().skip(27 * 65_536) {
        let [v, d, h] = [
            i64::from(input.speed),
            input.retardation.into(),
            input.gradient.into(),
        ];
        let a = 100 * d + 981 * h;
        let (over, ten) = (625_000 * v * v + 135 * v * a, 1620 * a);
        // A hundredth of a millimetre is a millionth of 10 m.
        match over % ten {
            0 => full.push(input),
            past if past.min(ten - past) * 1_000_000 < ten => near.push(input),
            _ => {}
        }
    }
    assert_eq!(full, FULL);
    assert_eq!(near, NEAR_FULL);
}
