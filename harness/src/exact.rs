//! The exact spline of small courses in whole numbers of any size, and D3 held against it: E1 to E4 are tested one by one, so that
//! nothing here rests on the rows by which it was found.

use crate::model::Course;
use std::cmp::Ordering;
use std::ops::{Add, Mul, Neg, Sub};

/// A whole number of any size: its sign, and its size in digits of 32 bits, the lowest first, none of them a leading 0.
#[derive(Clone, PartialEq, Eq, Debug)]
pub struct Whole {
    negative: bool,
    size: Vec<u32>,
}

fn trimmed(negative: bool, mut size: Vec<u32>) -> Whole {
    while size.last() == Some(&0) {
        size.pop();
    }
    Whole { negative: negative && !size.is_empty(), size }
}

fn compare_sizes(a: &[u32], b: &[u32]) -> Ordering {
    a.len().cmp(&b.len()).then_with(|| a.iter().rev().cmp(b.iter().rev()))
}

fn add_sizes(a: &[u32], b: &[u32]) -> Vec<u32> {
    let mut carry = 0;
    let mut sum: Vec<u32> = (0..a.len().max(b.len()))
        .map(|i| {
            carry += u64::from(*a.get(i).unwrap_or(&0)) + u64::from(*b.get(i).unwrap_or(&0));
            let digit = carry as u32;
            carry >>= 32;
            digit
        })
        .collect();
    sum.push(carry as u32);
    sum
}

/// a - b where a is not smaller.
fn take_sizes(a: &[u32], b: &[u32]) -> Vec<u32> {
    let mut borrow = 0;
    (0..a.len())
        .map(|i| {
            let digit = i64::from(a[i]) - i64::from(*b.get(i).unwrap_or(&0)) - borrow;
            borrow = i64::from(digit < 0);
            digit as u32
        })
        .collect()
}

impl From<i128> for Whole {
    fn from(number: i128) -> Whole {
        let size = number.unsigned_abs();
        trimmed(number < 0, (0..4).map(|i| (size >> (32 * i)) as u32).collect())
    }
}

impl Add for &Whole {
    type Output = Whole;
    fn add(self, other: &Whole) -> Whole {
        if self.negative == other.negative {
            return trimmed(self.negative, add_sizes(&self.size, &other.size));
        }
        match compare_sizes(&self.size, &other.size) {
            Ordering::Less => trimmed(other.negative, take_sizes(&other.size, &self.size)),
            _ => trimmed(self.negative, take_sizes(&self.size, &other.size)),
        }
    }
}

impl Neg for &Whole {
    type Output = Whole;
    fn neg(self) -> Whole {
        trimmed(!self.negative, self.size.clone())
    }
}

impl Sub for &Whole {
    type Output = Whole;
    fn sub(self, other: &Whole) -> Whole {
        self + &-other
    }
}

impl Mul for &Whole {
    type Output = Whole;
    fn mul(self, other: &Whole) -> Whole {
        let mut product = vec![0; self.size.len() + other.size.len()];
        for (i, a) in self.size.iter().enumerate() {
            let mut carry = 0;
            for (j, b) in other.size.iter().enumerate() {
                carry += u64::from(product[i + j]) + u64::from(*a) * u64::from(*b);
                product[i + j] = carry as u32;
                carry >>= 32;
            }
            product[i + other.size.len()] = carry as u32;
        }
        trimmed(self.negative != other.negative, product)
    }
}

impl Whole {
    fn times(&self, factor: i128) -> Whole {
        self * &Whole::from(factor)
    }

    /// Whether a * |self| <= b * other, for an other that is not negative.
    fn within(&self, a: i128, b: i128, other: &Whole) -> bool {
        compare_sizes(&self.times(a).size, &other.times(b).size) != Ordering::Greater
    }

    /// |self| / other, nearly.
    fn over(&self, other: &Whole) -> f64 {
        let shift = self.size.len().max(other.size.len()).saturating_sub(4);
        let top =
            |number: &Whole| number.size.iter().skip(shift).rev().fold(0.0, |value, digit| value * 4_294_967_296.0 + f64::from(*digit));
        top(self) / top(other)
    }
}

/// The exact spline on one axis: on each leg (k0 + k1 u + k2 u² + k3 u³) / denominator.
pub struct Spline {
    denominator: Whole,
    legs: Vec<[Whole; 4]>,
    /// The rows' solution, over a denominator of its own: 65,536 times the exact bend is 65,536 * bends / bends_over.
    bends: Vec<Whole>,
    bends_over: Whole,
}

/// A solution of dense dominant rows: the last unknown is eliminated, the rest solved, the last one worked out.
fn solved(mut rows: Vec<Vec<Whole>>, mut right: Vec<Whole>) -> (Whole, Vec<Whole>) {
    let (Some(last), Some(last_right)) = (rows.pop(), right.pop()) else {
        return (Whole::from(1), vec![]);
    };
    let n = rows.len();
    let pivot = &last[n];
    let reduced = rows.iter().map(|row| (0..n).map(|j| &(pivot * &row[j]) - &(&row[n] * &last[j])).collect()).collect();
    let reduced_right = (0..n).map(|i| &(pivot * &right[i]) - &(&rows[i][n] * &last_right)).collect();
    let (denominator, rest) = solved(reduced, reduced_right);
    let mut x: Vec<Whole> = rest.iter().map(|x| pivot * x).collect();
    x.push((0..n).fold(&denominator * &last_right, |sum, j| &sum - &(&last[j] * &rest[j])));
    (&denominator * pivot, x)
}

impl Spline {
    /// The spline on one axis, found by the rows R2 to R5.
    pub fn of(course: &Course, axis: usize) -> Spline {
        let n = course.n;
        let mut rows = vec![vec![0; n]; n];
        let mut right = vec![Whole::from(0); n];
        for i in 0..n {
            match course.row(axis, i) {
                None => rows[i][i] = 1,
                Some(row) => {
                    let (before, after) = course.around(i);
                    rows[i][before] += row.before;
                    rows[i][i] += row.middle;
                    rows[i][after] += row.after;
                    right[i] = row.right.into();
                }
            }
        }
        let rows = rows.into_iter().map(|row| row.into_iter().map(Whole::from).collect()).collect();
        let (over, x) = solved(rows, right);
        // every leg divides their product
        let product: i128 = course.legs.iter().product();
        let legs = (0..course.legs.len())
            .map(|i| {
                let (s, t) = (&x[i], &x[(i + 1) % n]);
                let h = course.legs[i];
                let (v, w) = (course.points[i][axis], course.points[(i + 1) % n][axis]);
                [
                    over.times(product).times(v),
                    &over.times(product / h).times(w - v) - &(&s.times(2) + t).times(h).times(product),
                    s.times(3).times(product),
                    (t - s).times(product / h),
                ]
            })
            .collect();
        Spline { denominator: over.times(product), legs, bends: x, bends_over: over }
    }

    /// The value times the denominator at an offset of a leg.
    fn value(&self, leg: usize, u: i128) -> Whole {
        let [k0, k1, k2, k3] = &self.legs[leg];
        k0 + &(k1 + &(k2 + &k3.times(u)).times(u)).times(u)
    }

    fn first_derivative(&self, leg: usize, u: i128) -> Whole {
        let [_, k1, k2, k3] = &self.legs[leg];
        k1 + &(&k2.times(2) + &k3.times(3 * u)).times(u)
    }

    fn second_derivative(&self, leg: usize, u: i128) -> Whole {
        let [_, _, k2, k3] = &self.legs[leg];
        &k2.times(2) + &k3.times(6 * u)
    }

    /// E1 to E4, without a look at the rows.
    pub fn is_exact(&self, course: &Course, axis: usize) -> bool {
        let legs = &course.legs;
        let last = legs.len() - 1;
        let at = |i: usize| self.denominator.times(course.points[i % course.n][axis]);
        let meets = (0..=last).all(|i| self.value(i, 0) == at(i) && self.value(i, legs[i]) == at(i + 1));
        let agrees = (0..=last).filter(|i| *i < last || course.closed()).all(|i| {
            let next = (i + 1) % legs.len();
            self.first_derivative(i, legs[i]) == self.first_derivative(next, 0)
                && self.second_derivative(i, legs[i]) == self.second_derivative(next, 0)
        });
        let slope = |end: usize| self.denominator.times(course.slopes[end][axis]);
        let none = Whole::from(0);
        let ends = match course.kind {
            crate::model::Kind::Free => self.second_derivative(0, 0) == none && self.second_derivative(last, legs[last]) == none,
            crate::model::Kind::Held => self.first_derivative(0, 0) == slope(0) && self.first_derivative(last, legs[last]) == slope(1),
            crate::model::Kind::Closed => true,
        };
        meets && agrees && ends && none != self.denominator && !self.denominator.negative
    }

    /// How far a place is off, and whether it is near (C3).
    pub fn distance(&self, leg: usize, u: i128, place: i64) -> (f64, bool) {
        self.distance_of(leg, u, [place.into(), 1], 3)
    }

    /// How far a fraction, numerator and denominator, is off, and whether that is within so many halves.
    pub fn distance_of(&self, leg: usize, u: i128, [numerator, over]: [i128; 2], halves: i128) -> (f64, bool) {
        let denominator = self.denominator.times(over);
        let off = &self.denominator.times(numerator) - &self.value(leg, u).times(over);
        (off.over(&denominator), off.within(2, halves, &denominator))
    }

    /// How far a bend number is off, and whether that is within L6.
    pub fn bend_distance(&self, i: usize, z: i64) -> (f64, bool) {
        let off = &self.bends_over.times(z.into()) - &self.bends[i].times(65_536);
        (off.over(&self.bends_over), off.within(8, 9, &self.bends_over))
    }
}
