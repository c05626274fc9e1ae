//! The same calls as `measured`, in plain Rust without contracts. `bench/steps` uses its polygons too.

use std::time::Instant;

#[derive(Clone, Copy, PartialEq, Eq, PartialOrd, Ord)]
pub struct Pt {
    pub x: i64,
    pub y: i64,
}

const NONE: Pt = Pt { x: 0, y: 0 };

/// A list of points on the stack.
#[derive(Clone, Copy)]
pub struct Points<const N: usize> {
    pub items: [Pt; N],
    pub len: usize,
}

impl<const N: usize> Points<N> {
    pub fn new() -> Self {
        Points {
            items: [NONE; N],
            len: 0,
        }
    }

    pub fn push(&mut self, p: Pt) {
        self.items[self.len] = p;
        self.len += 1;
    }

    pub fn list(&self) -> &[Pt] {
        &self.items[..self.len]
    }
}

pub type Poly = Points<20>;

fn cross(a: Pt, b: Pt, c: Pt) -> i128 {
    i128::from(b.x - a.x) * i128::from(c.y - a.y) - i128::from(b.y - a.y) * i128::from(c.x - a.x)
}

/// One side of a hull of points in order.
fn chain(points: impl Iterator<Item = Pt>) -> Points<64> {
    let mut chain: Points<64> = Points::new();
    for p in points {
        while chain.len >= 2 && cross(chain.items[chain.len - 2], chain.items[chain.len - 1], p) <= 0
        {
            chain.len -= 1;
        }
        chain.push(p);
    }
    chain
}

pub fn hull(points: &[Pt]) -> Poly {
    let mut sorted: Points<64> = Points::new();
    for p in points {
        sorted.push(*p);
    }
    sorted.items[..points.len()].sort_unstable();
    let mut distinct: Points<64> = Points::new();
    for p in sorted.list() {
        if distinct.len == 0 || distinct.items[distinct.len - 1] != *p {
            distinct.push(*p);
        }
    }
    let mut poly = Poly::new();
    if distinct.len == 1 {
        poly.push(distinct.items[0]);
        return poly;
    }
    let there = chain(distinct.list().iter().copied());
    let back = chain(distinct.list().iter().rev().copied());
    for p in &there.list()[..there.len - 1] {
        poly.push(*p);
    }
    for p in &back.list()[..back.len - 1] {
        poly.push(*p);
    }
    poly
}

fn contains(poly: &Poly, p: Pt) -> bool {
    match poly.list() {
        [only] => *only == p,
        [a, b] => {
            cross(*a, *b, p) == 0
                && p.x >= a.x.min(b.x)
                && p.x <= a.x.max(b.x)
                && p.y >= a.y.min(b.y)
                && p.y <= a.y.max(b.y)
        }
        corners => {
            let mut from = corners[corners.len() - 1];
            for to in corners {
                if cross(from, *to, p) < 0 {
                    return false;
                }
                from = *to;
            }
            true
        }
    }
}

pub fn support(poly: &Poly, nx: i64, ny: i64) -> i64 {
    poly.list().iter().map(|p| nx * p.x + ny * p.y).max().unwrap()
}

/// The whole points next to where the way from a to b, which rises in x, crosses x = c.
pub fn push_crossing(points: &mut Points<64>, a: Pt, b: Pt, c: i64) {
    let rise = i128::from(b.y - a.y) * i128::from(c - a.x);
    let width = i128::from(b.x - a.x);
    let below = rise.div_euclid(width);
    let above = if rise.rem_euclid(width) == 0 {
        below
    } else {
        below + 1
    };
    points.push(Pt {
        x: c,
        y: a.y + below as i64,
    });
    points.push(Pt {
        x: c,
        y: a.y + above as i64,
    });
}

fn clip_x_max(poly: &Poly, c: i64) -> Option<Poly> {
    let corners = poly.list();
    if corners.iter().all(|p| p.x <= c) {
        return Some(*poly);
    }
    if corners.iter().all(|p| p.x > c) {
        return None;
    }
    let mut points: Points<64> = Points::new();
    let mut from = corners[corners.len() - 1];
    for to in corners {
        if from.x <= c {
            points.push(from);
        }
        if from.x < c && c < to.x {
            push_crossing(&mut points, from, *to, c);
        } else if to.x < c && c < from.x {
            push_crossing(&mut points, *to, from, c);
        }
        from = *to;
    }
    Some(hull(points.list()))
}

pub type Frame = [i64; 8];

pub fn frame_numbers(p: &Poly, k: i64) -> Frame {
    [
        support(p, 0, 1),
        support(p, 1, 0),
        support(p, 2, -k),
        support(p, 1, -k),
        support(p, 0, -1),
        support(p, -1, 0),
        support(p, -2, k),
        support(p, -1, k),
    ]
}

fn rounded(points: &mut Points<12>, k: i64, position: i64, over: i64) {
    let below = over.div_euclid(k);
    let above = if over.rem_euclid(k) == 0 {
        below
    } else {
        below + 1
    };
    points.push(Pt {
        x: position,
        y: below,
    });
    points.push(Pt {
        x: position,
        y: above,
    });
}

pub fn frame_poly(f: &Frame, k: i64) -> Poly {
    let mut points: Points<12> = Points::new();
    points.push(Pt { x: f[1], y: f[0] });
    rounded(&mut points, k, f[1], 2 * f[1] - f[2]);
    rounded(&mut points, k, f[2] - f[3], f[2] - 2 * f[3]);
    points.push(Pt {
        x: f[3] - k * f[4],
        y: -f[4],
    });
    points.push(Pt { x: -f[5], y: -f[4] });
    rounded(&mut points, k, -f[5], f[6] - 2 * f[5]);
    rounded(&mut points, k, f[7] - f[6], 2 * f[7] - f[6]);
    points.push(Pt {
        x: k * f[0] - f[7],
        y: f[0],
    });
    hull(points.list())
}

const TICKS: i64 = 100;

pub struct Draws {
    pub state: u64,
}

impl Draws {
    pub fn within(&mut self, size: u32) -> i64 {
        self.state = self
            .state
            .wrapping_mul(6_364_136_223_846_793_005)
            .wrapping_add(1_442_695_040_888_963_407);
        let choices = 2 * u64::from(size) + 1;
        (self.state / 0x2_0000_0000 % choices) as i64 - i64::from(size)
    }

    pub fn point(&mut self, size: u32) -> Pt {
        let x = self.within(size);
        let y = self.within(size.min(30_000));
        Pt { x, y }
    }
}

struct Sample {
    points: [Pt; 12],
    poly: Poly,
    probe: Pt,
    frame: Frame,
}

fn sample(draws: &mut Draws, size: u32) -> Sample {
    let mut points = [NONE; 12];
    for p in &mut points {
        *p = draws.point(size);
    }
    let poly = hull(&points);
    let probe = draws.point(size);
    let frame = frame_numbers(&poly, TICKS);
    Sample {
        points,
        poly,
        probe,
        frame,
    }
}

pub fn trace(p: &Poly) -> i64 {
    let corners = p.list();
    let first = corners[0];
    let last = corners[corners.len() - 1];
    (corners.len() as i64)
        .wrapping_add(first.x)
        .wrapping_add(first.y)
        .wrapping_add(last.x)
        .wrapping_add(last.y)
}

fn call(name: &str, s: &Sample) -> i64 {
    match name {
        "hull" => trace(&hull(&s.points)),
        "contains" => contains(&s.poly, s.probe).into(),
        "clip" => clip_x_max(&s.poly, s.probe.x).map_or(0, |p| trace(&p)),
        "frame" => trace(&frame_poly(&s.frame, TICKS)),
        _ => panic!("no such call"),
    }
}

fn main() {
    let words: Vec<String> = std::env::args().collect();
    let count: usize = words[2].parse().unwrap();
    let mut draws = Draws { state: 1 };
    let samples: Vec<Sample> = (0..64)
        .map(|i| sample(&mut draws, if i % 2 == 0 { 1_000_000_000 } else { 20 }))
        .collect();
    let start = Instant::now();
    let mut sum: i64 = 0;
    for i in 0..count {
        sum = sum.wrapping_add(call(&words[1], &samples[i % 64]));
    }
    println!("{sum} {}", start.elapsed().as_nanos());
}
