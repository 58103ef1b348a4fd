//! The groups on what the engine finds by a guess and a test of it, the offset
//! of a map point and the root. The model knows no guess: it takes all of the
//! document's halvings.

use crate::cases::{good_sheet_with, Random, I64_ENDS, LEAST_N};
use crate::engine;
use crate::groups::{narrow, pair, Compared};
use crate::model::{self, cosine, sides, sine, t_of, Answer, Sheet, MAP_LIMIT, ONE};
use crate::tally::{Features, Group, Outcome, Tally};

const MOST_V: i128 = 805_306_368;
const MOST_WIDTH: i128 = 60_000_000;
const MOST_RADIUS: i128 = 268_435_456;

/// The cone constants at which the engine's margin changes, and their
/// neighbours: 1/8, 1/4 and 1.
const CONE_CONSTANTS: [(&str, i128); 7] = [
    ("n = 1/8", LEAST_N),
    ("n next to 1/8", LEAST_N + 1),
    ("n just below 1/4", ONE / 4 - 1),
    ("n = 1/4", ONE / 4),
    ("n just above 1/4", ONE / 4 + 1),
    ("n next to 1", ONE - 1),
    ("n = 1", ONE),
];

/// Counts each name whose case it is.
fn count_all<const N: usize>(features: &mut Features, names: &[&'static str; N], is: [bool; N]) {
    for (name, is) in names.iter().zip(is) {
        if is {
            features.count(name, true);
        }
    }
}

/// The point at offset d and radius r, as globe to map gives it, moved by up
/// to `spread` in x and in v.
fn near(random: &mut Random, n: i128, d: i128, r: i128, spread: i128) -> (i128, i128) {
    let t = t_of(n, d);
    let x = r * sine(t) / ONE + random.range(-spread, spread);
    let v = r * cosine(t) / ONE + random.range(-spread, spread);
    (x, v.max(1))
}

// ---- 11: the offset of a map point

/// Makes a point of a kind, by x and v, on the cone n out to w.
type PointKind = fn(&mut Random, i128, i128) -> (i128, i128);

fn on_the_sheet(random: &mut Random, n: i128, w: i128) -> (i128, i128) {
    let (d, r) = (random.range(-w, w), random.range(1_000_000, MOST_RADIUS));
    let spread = random.pick(&[1, 3, 6]);
    near(random, n, d, r, spread)
}

fn from_globe(random: &mut Random, n: i128, w: i128) -> (i128, i128) {
    let (d, r) = (random.range(-w, w), random.range(1_000_000, MOST_RADIUS));
    near(random, n, d, r, 0)
}

fn at_an_edge(random: &mut Random, n: i128, w: i128) -> (i128, i128) {
    let d = random.pick(&[-1, 1]) * (w - random.range(0, w.min(50)));
    let r = random.range(1_000_000, MOST_RADIUS);
    let spread = random.pick(&[0, 1, 3]);
    near(random, n, d, r, spread)
}

fn at_the_meridian(random: &mut Random, n: i128, w: i128) -> (i128, i128) {
    if random.once_in(2) {
        return (random.range(-3, 3), random.range(1, MOST_V));
    }
    let d = random.range(-w.min(1_000), w.min(1_000));
    let r = random.range(1_000_000, MOST_RADIUS);
    let spread = random.pick(&[0, 1, 3]);
    near(random, n, d, r, spread)
}

fn at_the_apex(random: &mut Random, n: i128, w: i128) -> (i128, i128) {
    let d = random.range(-w, w);
    let r = (random.range(1, 10_000) >> random.index(14)).max(1);
    let spread = random.pick(&[0, 0, 1]);
    near(random, n, d, r, spread)
}

fn anywhere(random: &mut Random, _: i128, _: i128) -> (i128, i128) {
    let x = random.range(-MAP_LIMIT, MAP_LIMIT) >> random.index(30);
    let v = random.range(1, MOST_V) >> random.index(30);
    (x, v.max(1))
}

/// On the line of a small offset, or next to it: there sine(d) is t and
/// cosine(d) is ONE, and x × ONE = v × t.
fn on_a_line(random: &mut Random, n: i128, w: i128) -> (i128, i128) {
    let t = t_of(n, random.range(1, w.min(1_700)));
    let step = ONE >> t.trailing_zeros().min(30);
    let v = step * random.range(1, (MOST_V / step).max(1));
    let x = random.pick(&[-1, 1]) * (v * t / ONE) + random.pick(&[0, 0, -1, 1]);
    (x, v.min(MOST_V))
}

const POINT_KINDS: [PointKind; 7] = [
    on_the_sheet,
    from_globe,
    at_an_edge,
    at_the_meridian,
    at_the_apex,
    anywhere,
    on_a_line,
];

const WIDTHS: [&str; 6] = [
    "w = 1",
    "w = 2",
    "w = 3",
    "w from 4 to 1,000",
    "w in between",
    "w = 60,000,000",
];

fn width(random: &mut Random, kind: usize) -> i128 {
    match kind {
        0..=2 => kind as i128 + 1,
        3 => random.range(4, 1_000),
        4 => random.range(1_001, MOST_WIDTH - 1),
        _ => MOST_WIDTH,
    }
}

const POINTS: [&str; 9] = [
    "on the sheet",
    "left of it",
    "right of it",
    "within 50 units of a side edge",
    "within 1,000 units of the meridian",
    "x of size up to 3",
    "radius up to 100",
    "radius up to 10,000",
    "on the line of its offset",
];

/// What the interface answers: the offset in the ranges that it takes, else 12.
fn offset(n: i128, x: i128, v: i128, w: i128) -> Answer<i128> {
    if n <= ONE
        && x.abs() <= MAP_LIMIT
        && (1..=MOST_V).contains(&v)
        && (1..=MOST_WIDTH).contains(&w)
    {
        Ok(model::offset_of_point(n, x, v, w))
    } else {
        Err(12)
    }
}

/// Compares the offset of a point and answers it.
fn compare_offset(t: &mut Tally, n: i128, x: i128, v: i128, w: i128) -> Result<i128, String> {
    let (number, d) = match offset(n, x, v, w) {
        Ok(d) => (0, d),
        Err(number) => (number, 0),
    };
    let got = engine::offset(n as u32, narrow(x), narrow(v), w as u32);
    let input = || format!("n {n} x {x} v {v} w {w}");
    t.same(number, (number, narrow(d)), got, input)?;
    Ok(d)
}

pub fn offsets() -> Compared {
    let group = Group::new("11 offset of a map point");
    let mut random = Random::new(11);
    let mut t = Tally::new("offset");
    let cones = CONE_CONSTANTS.map(|(name, _)| name);
    let others = ["n in between", "n below 1/8"];
    let mut features = Features::new(&[&cones[..], &others, &WIDTHS, &POINTS].concat());

    for round in 0..9 * 6 * 2_000 {
        let (name, n) = match round % 9 {
            7 => (others[0], random.range(LEAST_N + 2, ONE - 2)),
            8 => (others[1], random.range(0, LEAST_N - 1) >> random.index(28)),
            at => CONE_CONSTANTS[at],
        };
        let kind = round / 9 % 6;
        let w = width(&mut random, kind);
        features.count(name, true);
        features.count(WIDTHS[kind], true);
        for point in POINT_KINDS {
            let (x, v) = point(&mut random, n, w);
            let d = compare_offset(&mut t, n, x, v, w)?;
            let (left, left_edge) = sides(n, x, v, -w);
            let (right, right_edge) = sides(n, x, v, w);
            let on_sheet = left >= left_edge && right <= right_edge;
            let (at_point, at_offset) = sides(n, x, v, d);
            let wide = on_sheet && w > 10_000;
            let squared = x * x + v * v;
            let is = [
                on_sheet,
                left < left_edge,
                right > right_edge,
                wide && (d + w <= 50 || w - d <= 50),
                wide && d.abs() <= 1_000,
                on_sheet && x.abs() <= 3,
                on_sheet && squared <= 100 * 100,
                on_sheet && squared <= 10_000 * 10_000,
                on_sheet && at_point == at_offset && x != 0,
            ];
            count_all(&mut features, &POINTS, is);
        }
    }

    // Points near an offset from which the sine rises by just the engine's least rise
    let (n, x, v, w) = (298_261_619, 43_041_744, 622_827_817, 14_231_713);
    for aside in -300..=300 {
        compare_offset(&mut t, n, x + aside, v, w)?;
    }

    // The ranges: each number at its limits and past them
    let [least, _, greatest, _] = I64_ENDS;
    let cones = [0, 1, LEAST_N, ONE, ONE + 1, 1 << 31, u32::MAX as i128];
    let widths = [0, 1, MOST_WIDTH, MOST_WIDTH + 1, 1 << 31, u32::MAX as i128];
    let beside = [
        0,
        1,
        -1,
        MAP_LIMIT,
        -MAP_LIMIT,
        MAP_LIMIT + 1,
        -MAP_LIMIT - 1,
        1 << 32,
        least,
        greatest,
    ];
    let below = [0, 1, -1, MOST_V, MOST_V + 1, (1 << 32) + 1, least, greatest];
    for n in cones {
        for x in beside {
            for v in below {
                for w in widths {
                    compare_offset(&mut t, n, x, v, w)?;
                }
            }
        }
    }
    group.finish(&[(&t, &[0, 12])], &features)
}

// ---- 12: map to globe where the cone constant is at a limit

const POSITIONS: [&str; 6] = [
    "within 50 units of a side edge",
    "at the north or south edge",
    "within 1,000 units of the meridian",
    "x of size up to 3",
    "radius up to 1,000,100",
    "on the line of its offset",
];

/// A point of the sheet, mostly near an edge, the meridian or the apex: x, y.
fn point_of(random: &mut Random, s: &Sheet) -> (i128, i128) {
    let d = match random.index(4) {
        0 => random.pick(&[-1, 1]) * (s.w - random.range(0, s.w.min(50))),
        1 => random.range(-s.w.min(1_000), s.w.min(1_000)),
        _ => random.range(-s.w, s.w),
    };
    let (least, greatest) = (s.g - s.fn_, s.g - s.fs);
    let r = match random.index(4) {
        0 => least + random.range(-2, 100),
        1 => greatest + random.range(-100, 2),
        _ => random.range(least, greatest),
    };
    let spread = random.pick(&[0, 0, 1, 3]);
    let (x, v) = near(random, s.n, d, r, spread);
    let x = if random.once_in(8) {
        random.range(-3, 3)
    } else {
        x
    };
    (x, s.g - s.f0 - v)
}

/// A point of the sheet on the line of a small offset, if one is found: x, y.
fn point_on_a_line(random: &mut Random, s: &Sheet) -> Option<(i128, i128)> {
    for _ in 0..30 {
        let t = t_of(s.n, random.range(1, s.w.min(1_700)));
        let step = ONE >> t.trailing_zeros();
        let (least, greatest) = ((s.g - s.fn_ + step - 1) / step, (s.g - s.fs) / step);
        if least <= greatest {
            let v = step * random.range(least, greatest);
            let x = random.pick(&[-1, 1]) * (v * t / ONE);
            return Some((x, s.g - s.f0 - v));
        }
    }
    None
}

pub fn map_to_globe() -> Compared {
    let group = Group::new("12 map to globe, cone constant at a limit");
    let mut random = Random::new(12);
    let mut t = Tally::new("inverse");
    let cones = CONE_CONSTANTS.map(|(name, _)| name);
    let mut features = Features::new(&[&cones[..], &["n in between"], &POSITIONS].concat());

    for round in 0..8 * 1_500 {
        let (name, n) = match round % 8 {
            7 => ("n in between", random.range(LEAST_N + 2, ONE - 2)),
            at => CONE_CONSTANTS[at],
        };
        let s = good_sheet_with(&mut random, n);
        let mut points: Vec<_> = (0..20).map(|_| point_of(&mut random, &s)).collect();
        points.extend(point_on_a_line(&mut random, &s));
        for (x, y) in points {
            let answer = model::inverse(&s, x, y);
            let expected = pair(answer);
            let got = engine::inverse(&s, narrow(x), narrow(y));
            t.same(expected.0, expected, got, || format!("{s:?} x {x} y {y}"))?;
            if let Ok([latitude, longitude]) = answer {
                let d = model::offset(&s, longitude);
                let (at_point, at_offset) = sides(s.n, x, s.g - s.f0 - y, d);
                let wide = s.w > 10_000;
                let is = [
                    wide && s.w - d.abs() <= 50,
                    latitude == s.fs || latitude == s.fn_,
                    wide && d.abs() <= 1_000,
                    x.abs() <= 3,
                    s.g - latitude <= 1_000_100,
                    at_point == at_offset && x != 0,
                ];
                features.count(name, true);
                count_all(&mut features, &POSITIONS, is);
            }
        }
    }
    group.finish(&[(&t, &[0, 11])], &features)
}

// ---- 13: the root

const NUMBERS: [&str; 7] = [
    "squares",
    "the last that is rounded down",
    "the first that is rounded up",
    "up to 2^20",
    "up to 2^40",
    "up to 2^60",
    "2^60",
];

fn compare_root(t: &mut Tally, features: &mut Features, q: i128) -> Outcome {
    let answer = model::offered_root(q);
    let expected = match answer {
        Ok(r) => (0, narrow(r)),
        Err(number) => (number, 0),
    };
    let got = engine::root(narrow(q));
    t.same(expected.0, expected, got, || format!("{q}"))?;
    if let Ok(r) = answer {
        let over = q - r * r;
        let is = [
            over == 0,
            over == r,
            over == 1 - r,
            q <= 1 << 20,
            1 << 20 < q && q <= 1 << 40,
            1 << 40 < q,
            q == 1 << 60,
        ];
        count_all(features, &NUMBERS, is);
    }
    Ok(())
}

pub fn roots() -> Compared {
    let group = Group::new("13 root");
    let mut random = Random::new(13);
    let mut t = Tally::new("root");
    let mut features = Features::new(&NUMBERS);
    for q in -100..=100_000 {
        compare_root(&mut t, &mut features, q)?;
    }
    for q in (1 << 60) - 50_000..=(1 << 60) + 100 {
        compare_root(&mut t, &mut features, q)?;
    }
    for i in 0..110_000 {
        // Squares, and where the rounding changes: s² - s, s² + s
        let s = if i < 10_000 {
            (1 << 30) - i
        } else {
            (random.range(1, 1 << 30) >> random.index(30)).max(1)
        };
        for off in [-s, 1 - s, -1, 0, 1, s, s + 1] {
            compare_root(&mut t, &mut features, s * s + off)?;
        }
    }
    for _ in 0..250_000 {
        let q = random.range(1, 1 << 60) >> random.index(60);
        compare_root(&mut t, &mut features, q)?;
    }
    group.finish(&[(&t, &[0, 12])], &features)
}
