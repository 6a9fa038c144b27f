//! The tables of 01 and the constants of 02, E5. A logarithm is found by Newton's method on the
//! exponential, so no series of logarithm or arctangent is shared with `make_tables.py`.

use crate::fixed::{Complex, Fixed};
use crate::point::{point, Digit, Point};
use crate::width::{Width, WIDTHS};
use std::sync::OnceLock;

pub struct Tables {
    /// [n - 1][dx + 1][dy + 1]
    steps: Vec<[[Point; 3]; 3]>,
    /// [(X - 17)/2][(Y + 31)/2]
    reciprocal_logs: Vec<Vec<Point>>,
    /// ln(1 + i): by its parts the units nearest ½·ln 2 and π/4.
    pub log_of_one_plus_i: Point,
    pub log_of_two: Point,
}

pub fn tables(width: Width) -> &'static Tables {
    static TABLES: [OnceLock<Tables>; WIDTHS.len()] = [const { OnceLock::new() }; WIDTHS.len()];
    let place = WIDTHS.iter().position(|&w| w == width).expect("a width that has tables");
    TABLES[place].get_or_init(|| Tables::compute(width))
}

impl Tables {
    fn compute(width: Width) -> Tables {
        let entry = |n: u32, dx: i128, dy: i128| logarithm(point((1 << n) + dx, dy), n, width);
        let steps = (1..=width.max_steps() as u32)
            .map(|n| [-1, 0, 1].map(|dx| [-1, 0, 1].map(|dy| entry(n, dx, dy))))
            .collect();
        let reciprocal_logs = cell_xs()
            .map(|cx| cell_ys().map(|cy| logarithm(reciprocal(cx, cy), 6, width)).collect())
            .collect();
        let [log_of_one_plus_i, log_of_two] =
            [(1, 1), (2, 0)].map(|(x, y)| logarithm(point(x, y), 0, width));
        Tables { steps, reciprocal_logs, log_of_one_plus_i, log_of_two }
    }

    /// ln(1 + digit/2^n)
    pub fn step(&self, n: u32, digit: Digit) -> Point {
        self.steps[n as usize - 1][(digit.x + 1) as usize][(digit.y + 1) as usize]
    }

    /// The logarithm of the reciprocal of the cell with centre (X + iY)/32.
    pub fn reciprocal_log(&self, cell_x: i128, cell_y: i128) -> Point {
        self.reciprocal_logs[((cell_x - 17) / 2) as usize][((cell_y + 31) / 2) as usize]
    }
}

/// X of the cells.
pub fn cell_xs() -> impl Iterator<Item = i128> {
    (17..=31).step_by(2)
}

/// Y of the cells.
pub fn cell_ys() -> impl Iterator<Item = i128> {
    (-31..=31).step_by(2)
}

/// The "seat" of 01 times 64: a + ib, each part floor(value + 1/2).
pub fn reciprocal(cell_x: i128, cell_y: i128) -> Point {
    let s = cell_x * cell_x + cell_y * cell_y;
    let rounded = |v: i128| (2 * v + s).div_euclid(2 * s);
    point(rounded(2048 * cell_x), rounded(-2048 * cell_y))
}

/// ln(z / 2^bits), each part as the nearest unit.
pub fn logarithm(z: Point, bits: u32, width: Width) -> Point {
    let log = newton_logarithm(Complex::ratio(z.x, z.y, bits), (z.y as f64).atan2(z.x as f64));
    point(log.re.nearest(width.fraction_bits), log.im.nearest(width.fraction_bits))
}

/// From l = ln(z) + e, l + z·exp(-l) - 1 = ln(z) + e²/2 + ...: three rounds take the 50
/// bits of a double past 300.
fn newton_logarithm(z: Complex, angle: f64) -> Complex {
    let first = z.norm().to_f64().ln() / 2.0;
    let mut log = Complex { re: Fixed::from_f64(first), im: Fixed::from_f64(angle) };
    let mut change = Complex::ONE;
    for _ in 0..4 {
        // 80 terms: 1.5^80/80! is below 2^-340.
        change = z * (-log).exponential(80) - Complex::ONE;
        log = log + change;
    }
    // The last change bounds what is left, and certifies the value whatever came before.
    assert!(change.larger_part() < Fixed::ratio(1, 290), "not converged");
    log
}
