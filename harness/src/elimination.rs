//! The exact bends in floats: 004's rows and 004's elimination (PTRI) for closed courses, the usual elimination without corners (Thomas)
//! for open ones (W11). The rows have 004's form here, divided through by g and h.

use crate::model::{Course, Kind};

/// Solves for sigma, the bend s(i) at each waypoint of one axis.
pub fn bends(course: &Course, axis: usize) -> Vec<f64> {
    let n = course.n;
    let h: Vec<f64> = course.legs.iter().map(|leg| *leg as f64).collect();
    // 004's Delta
    let delta: Vec<f64> = (0..h.len()).map(|i| (course.points[(i + 1) % n][axis] - course.points[i][axis]) as f64 / h[i]).collect();
    match course.kind {
        Kind::Closed => {
            let before = |i: usize| (i + n - 1) % n;
            let a = (0..n).map(|i| 2.0 * (h[before(i)] + h[i])).collect();
            let y = (0..n).map(|i| delta[i] - delta[before(i)]).collect();
            ptri(a, &h, h[n - 1], y)
        }
        Kind::Free | Kind::Held => {
            // rows: below(i) * s(i-1) + a(i) * s(i) + above(i) * s(i+1) = y(i)
            let mut below = vec![0.0; n];
            let mut a = vec![1.0; n];
            let mut above = vec![0.0; n];
            let mut y = vec![0.0; n];
            for i in 1..n - 1 {
                below[i] = h[i - 1];
                a[i] = 2.0 * (h[i - 1] + h[i]);
                above[i] = h[i];
                y[i] = delta[i] - delta[i - 1];
            }
            if course.kind == Kind::Held {
                a[0] = 2.0 * h[0];
                above[0] = h[0];
                y[0] = delta[0] - course.slopes[0][axis] as f64;
                below[n - 1] = h[n - 2];
                a[n - 1] = 2.0 * h[n - 2];
                y[n - 1] = course.slopes[1][axis] as f64 - delta[n - 2];
            }
            thomas(&below, a, &above, y)
        }
    }
}

/// Elimination of three diagonals.
fn thomas(below: &[f64], mut a: Vec<f64>, above: &[f64], mut y: Vec<f64>) -> Vec<f64> {
    let n = a.len();
    for i in 1..n {
        let r = below[i] / a[i - 1];
        a[i] -= r * above[i - 1];
        y[i] -= r * y[i - 1];
    }
    y[n - 1] /= a[n - 1];
    for i in (0..n - 1).rev() {
        y[i] = (y[i] - above[i] * y[i + 1]) / a[i];
    }
    y
}

/// 004's PTRI (appendix): the symmetric system with diagonal a, b beside it and c in the corners.
fn ptri(mut a: Vec<f64>, b: &[f64], c: f64, mut y: Vec<f64>) -> Vec<f64> {
    let n = a.len();
    let mut v = vec![0.0; n];
    v[0] = c;
    v[n - 2] = b[n - 2];
    for i in 0..n - 2 {
        let r = b[i] / a[i];
        a[i + 1] -= r * b[i];
        y[i + 1] -= r * y[i];
        let r = v[i] / a[i];
        v[i + 1] -= r * b[i];
        a[n - 1] -= r * v[i];
        y[n - 1] -= r * y[i];
    }
    let r = v[n - 2] / a[n - 2];
    a[n - 1] -= r * v[n - 2];
    y[n - 1] -= r * y[n - 2];
    y[n - 1] /= a[n - 1];
    y[n - 2] = (y[n - 2] - v[n - 2] * y[n - 1]) / a[n - 2];
    for i in (0..n - 2).rev() {
        y[i] = (y[i] - v[i] * y[n - 1] - b[i] * y[i + 1]) / a[i];
    }
    y
}

/// 004's interpolation function on a leg: w v(i+1) + (1-w) v(i) + h² [(w³ - w) s(i+1) + ((1-w)³ - (1-w)) s(i)].
pub fn place(course: &Course, axis: usize, bends: &[f64], leg: usize, offset: i128) -> f64 {
    let end = (leg + 1) % course.n;
    let (v, next) = (course.points[leg][axis] as f64, course.points[end][axis] as f64);
    let h = course.legs[leg] as f64;
    let w = offset as f64 / h;
    let rest = 1.0 - w;
    w * next + rest * v + h * h * ((w * w * w - w) * bends[end] + (rest * rest * rest - rest) * bends[leg])
}
