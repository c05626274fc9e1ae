//! The same calls as `measured`, in plain Rust without contracts.

#[path = "../polygons/plain.rs"]
#[allow(dead_code)]
mod polygons;

use polygons::{Draws, Frame, Points, Poly, Pt, frame_numbers, frame_poly, hull, push_crossing, trace};
use std::time::Instant;

const TICKS: i64 = 100;
/// The greatest acceleration and speed.
const A: i64 = 8;
const V: i64 = 20_000;
/// The width of a slot, and how many slots there are along x and along y.
const WIDTH: i64 = 1_000_000;
const SLOTS: i64 = 128;
const PIECES: usize = 200;

// ---- clips and children

/// The part of a polygon where x of the turned points is at most c. Turning twice is no turn.
fn clip(poly: Poly, turn: impl Fn(Pt) -> Pt, c: i64) -> Option<Poly> {
    let corners = poly.list();
    if corners.iter().all(|p| turn(*p).x <= c) {
        return Some(poly);
    }
    if corners.iter().all(|p| turn(*p).x > c) {
        return None;
    }
    let mut points: Points<64> = Points::new();
    let mut from = turn(corners[corners.len() - 1]);
    for to in corners {
        let to = turn(*to);
        if from.x <= c {
            points.push(from);
        }
        if from.x < c && c < to.x {
            push_crossing(&mut points, from, to, c);
        } else if to.x < c && c < from.x {
            push_crossing(&mut points, to, from, c);
        }
        from = to;
    }
    for p in &mut points.items[..points.len] {
        *p = turn(*p);
    }
    Some(hull(points.list()))
}

fn clip_x_max(poly: Poly, c: i64) -> Option<Poly> {
    clip(poly, |p| p, c)
}

fn clip_x_min(poly: Poly, c: i64) -> Option<Poly> {
    clip(poly, |p| Pt { x: -p.x, y: p.y }, -c)
}

fn clip_v_max(poly: Poly, c: i64) -> Option<Poly> {
    clip(poly, |p| Pt { x: p.y, y: p.x }, c)
}

fn clip_v_min(poly: Poly, c: i64) -> Option<Poly> {
    clip(poly, |p| Pt { x: -p.y, y: -p.x }, -c)
}

fn child_numbers(p: &Poly, a: i64, k: i64) -> Frame {
    let mut led: Poly = Points::new();
    for corner in p.list() {
        led.push(Pt {
            x: corner.x + k * corner.y,
            y: corner.y,
        });
    }
    let (speed, place, double) = (k * a, (k * k * a + k) / 2, a * (k * k / 2) + k);
    let mut numbers = frame_numbers(&led, k);
    for (number, growth) in numbers.iter_mut().zip([speed, place, double, place].repeat(2)) {
        *number += growth;
    }
    numbers
}

fn child(p: &Poly, lo: i64, hi: i64) -> Option<Poly> {
    let frame = frame_poly(&child_numbers(p, A, TICKS), TICKS);
    let slow = clip_v_min(clip_v_max(frame, V)?, -V)?;
    clip_x_min(clip_x_max(slow, hi)?, lo)
}

// ---- cells

struct Cells {
    cells: Vec<Option<(Frame, Frame)>>,
    rows: Vec<Option<Frame>>,
}

fn slot_numbers(p: &Poly, slot: i64) -> Option<Frame> {
    let (low, high) = (slot * WIDTH, slot * WIDTH + WIDTH - 1);
    let mut part = *p;
    if part.list().iter().any(|p| p.x > high) {
        part = clip_x_max(part, high)?;
    }
    if part.list()[0].x < low {
        part = clip_x_min(part, low)?;
    }
    Some(frame_numbers(&part, TICKS))
}

fn slots_of(p: &Poly) -> std::ops::RangeInclusive<i64> {
    let greatest = p.list().iter().map(|p| p.x).max().unwrap();
    p.list()[0].x.div_euclid(WIDTH)..=greatest.div_euclid(WIDTH)
}

fn join(old: &mut Frame, new: &Frame) {
    for (old, new) in old.iter_mut().zip(new) {
        *old = (*old).max(*new);
    }
}

impl Cells {
    fn add(&mut self, x: &Poly, y: &Poly) {
        let rows = slots_of(y);
        let first = *rows.start();
        let count = (rows.end() - first + 1) as usize;
        for (row, slot) in rows.enumerate() {
            self.rows[row] = slot_numbers(y, slot);
        }
        for col in slots_of(x) {
            let Some(numbers) = slot_numbers(x, col) else {
                continue;
            };
            let at = (col * SLOTS + first) as usize;
            for (cell, row) in self.cells[at..at + count].iter_mut().zip(&self.rows) {
                match (cell, row) {
                    (Some((x, y)), Some(row)) => {
                        join(x, &numbers);
                        join(y, row);
                    }
                    (cell, Some(row)) => *cell = Some((numbers, *row)),
                    _ => {}
                }
            }
        }
    }

    fn merged(&self, col: i64, row: i64) -> Option<(Poly, Poly)> {
        let (x, y) = self.cells[(col * SLOTS + row) as usize]?;
        Some((frame_poly(&x, TICKS), frame_poly(&y, TICKS)))
    }
}

/// A step: all pairs of the polygons, and the sets of all cells.
fn step(cells: &mut Cells, polygons: &[Poly]) -> i64 {
    cells.cells.fill(None);
    for x in polygons {
        for y in polygons {
            cells.add(x, y);
        }
    }
    let mut sum: i64 = 0;
    for col in 0..SLOTS {
        for row in 0..SLOTS {
            if let Some((x, y)) = cells.merged(col, row) {
                sum = sum.wrapping_add(trace(&x)).wrapping_add(trace(&y));
            }
        }
    }
    sum
}

// ---- free runs

type Octagon = [i64; 8];

fn octagon_at(p: Pt, r: u64) -> Octagon {
    let (axis, diagonal) = (r as i64, (2 * r * r).isqrt() as i64);
    let (sum, difference) = (p.x + p.y, p.x - p.y);
    [
        p.x + axis,
        sum + diagonal,
        p.y + axis,
        diagonal - difference,
        axis - p.x,
        diagonal - sum,
        axis - p.y,
        difference + diagonal,
    ]
}

fn run(n: &Octagon, low: i64, high: i64) -> Option<(i64, i64)> {
    if low < -n[6] || high > n[2] {
        return None;
    }
    let first = (-n[4]).max(high - n[3]).max(-n[5] - low);
    let last = n[0].min(n[1] - high).min(n[7] + low);
    (first <= last).then_some((first, last))
}

/// The free runs of a row.
fn row_runs(pieces: &[Octagon], row: i64, spans: &mut Vec<(i64, i64)>, free: &mut Vec<(i64, i64)>) {
    let (low, high) = (row * WIDTH, row * WIDTH + WIDTH - 1);
    spans.clear();
    spans.extend(pieces.iter().filter_map(|n| run(n, low, high)));
    spans.sort_unstable();
    free.clear();
    let (mut at, end) = (0, SLOTS * WIDTH);
    let mut next = 0;
    while at < end {
        match spans.get(next) {
            Some((first, last)) if *first <= at => {
                at = at.max(last + 1);
                next += 1;
            }
            span => {
                let border = (at.div_euclid(WIDTH) + 1) * WIDTH;
                let to = span.map_or(border, |(first, _)| border.min(*first));
                free.push((at, to - 1));
                at = to;
            }
        }
    }
}

// ---- samples and calls

/// A polygon about a place, by a slot and a third wide.
fn sample(draws: &mut Draws, middle: i64) -> Poly {
    let mut points: Points<8> = Points::new();
    for _ in 0..8 {
        let p = draws.point(670_000);
        points.push(Pt {
            x: p.x + middle,
            y: p.y,
        });
    }
    hull(points.list())
}

fn main() {
    let words: Vec<String> = std::env::args().collect();
    let count: usize = words[2].parse().unwrap();
    let mut draws = Draws { state: 1 };
    let polygons: Vec<Poly> = (1..SLOTS).map(|slot| sample(&mut draws, slot * WIDTH)).collect();
    let pieces: Vec<Octagon> = (0..PIECES)
        .map(|_| {
            let (x, y) = (draws.within(64_000_000), draws.within(64_000_000));
            let r = draws.within(4_000_000).unsigned_abs();
            octagon_at(Pt { x: x + 64_000_000, y: y + 64_000_000 }, r)
        })
        .collect();
    let mut cells = Cells {
        cells: vec![None; (SLOTS * SLOTS) as usize],
        rows: vec![None; (SLOTS * SLOTS) as usize],
    };
    let (mut spans, mut free) = (Vec::with_capacity(PIECES), Vec::with_capacity(PIECES + SLOTS as usize));
    let start = Instant::now();
    let mut sum: i64 = 0;
    for i in 0..count {
        match words[1].as_str() {
            "child" => {
                let slot = i % polygons.len();
                let middle = (slot as i64 + 1) * WIDTH;
                if let Some(p) = child(&polygons[slot], middle - 2 * WIDTH, middle + 2 * WIDTH) {
                    sum = sum.wrapping_add(trace(&p));
                }
            }
            "merge" => sum = sum.wrapping_add(step(&mut cells, &polygons)),
            "runs" => {
                for row in 0..SLOTS {
                    row_runs(&pieces, row, &mut spans, &mut free);
                    for (first, last) in &free {
                        sum = sum.wrapping_mul(31).wrapping_add(*first).wrapping_add(*last);
                    }
                }
            }
            _ => panic!("no such call"),
        }
    }
    println!("{sum} {}", start.elapsed().as_nanos());
}
