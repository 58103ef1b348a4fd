//! What the groups are run on: random and extreme sheets, positions, map
//! points, tables and files, from fixed seeds.

use crate::model::{
    self, cosine, end_record, file_of, forward, place_record, sheet_record, shifted, sine, Place,
    Sheet, MAP_LIMIT, ONE,
};
use std::f64::consts::PI;

/// The splitmix64 generator.
pub struct Random(u64);

impl Random {
    pub fn new(seed: u64) -> Random {
        Random(seed)
    }

    pub fn next(&mut self) -> u64 {
        self.0 = self.0.wrapping_add(0x9e37_79b9_7f4a_7c15);
        let z = (self.0 ^ (self.0 >> 30)).wrapping_mul(0xbf58_476d_1ce4_e5b9);
        let z = (z ^ (z >> 27)).wrapping_mul(0x94d0_49bb_1331_11eb);
        z ^ (z >> 31)
    }

    /// A number from `low` to `high`, both included.
    pub fn range(&mut self, low: i128, high: i128) -> i128 {
        assert!(low <= high);
        low + i128::from(self.next()) % (high - low + 1)
    }

    pub fn index(&mut self, count: usize) -> usize {
        self.range(0, count as i128 - 1) as usize
    }

    pub fn pick<T: Copy>(&mut self, choices: &[T]) -> T {
        choices[self.index(choices.len())]
    }

    /// True once in so many times.
    pub fn once_in(&mut self, times: usize) -> bool {
        self.index(times) == 0
    }

    /// A number of random length in bits, either sign.
    pub fn any_i64(&mut self) -> i64 {
        let number = self.next() >> self.index(64);
        if self.once_in(2) {
            number as i64
        } else {
            (number as i64).wrapping_neg()
        }
    }
}

pub const I64_ENDS: [i128; 4] = [
    i64::MIN as i128,
    i64::MIN as i128 + 1,
    i64::MAX as i128,
    i64::MAX as i128 - 1,
];

// ---- Sheets

/// Sheet A of the document.
pub const A: Sheet = Sheet {
    f1: 30_000_000,
    f2: 30_000_000,
    f0: 30_000_000,
    m0: 10_000_000,
    fs: 20_000_000,
    fn_: 40_000_000,
    w: 60_000_000,
    n: 536_870_912,
    g: 129_239_201,
};

pub const LEAST_N: i128 = 134_217_728;

/// Units of radius in one radian.
const RADIAN: f64 = 180_000_000.0 / PI;

fn to_radians(a: i128) -> f64 {
    a as f64 / RADIAN
}

/// Snyder's cone constant for two parallels, or for one.
fn snyder_n(f1: i128, f2: i128) -> f64 {
    let (p, q) = (to_radians(f1), to_radians(f2));
    if f1 == f2 {
        p.sin()
    } else {
        // cos p - cos q, without loss where the two are close
        2.0 * ((p + q) / 2.0).sin() * ((q - p) / 2.0).sin() / (q - p)
    }
}

/// Snyder's radius constant for a cone constant (in ONEths).
fn snyder_g(f1: i128, n: i128) -> i128 {
    let cone = n as f64 / ONE as f64;
    (to_radians(f1).cos() / cone * RADIAN).round() as i128 + f1
}

/// By how much n can be off before the constants disagree.
fn slack_of_n(f1: i128, f2: i128) -> i128 {
    if f1 == f2 {
        32
    } else {
        ((32.0 / to_radians(f2 - f1)) as i128).min(ONE)
    }
}

/// By how much g can be off before the constants disagree.
fn slack_of_g(n: i128) -> i128 {
    32 * ONE / n / 18 + 1
}

fn candidate(random: &mut Random) -> Sheet {
    let f1 = match random.index(8) {
        0 => random.pick(&[80_000_000, 79_999_999, 54_200_000, 12_100_000, 5_000_000]),
        1 => random.range(5_000_000, 20_000_000),
        _ => random.range(5_000_000, 80_000_000),
    };
    let f2 = match random.index(8) {
        0 | 1 => f1,
        2 => f1 + 1,
        3 => f1 + random.range(2, 6),
        4 => f1 + random.range(2, 1_000),
        5 => 80_000_000,
        _ => random.range(f1, 80_000_000),
    }
    .min(80_000_000);
    let nominal = (snyder_n(f1, f2) * ONE as f64).round() as i128;
    let slack = slack_of_n(f1, f2);
    let n = match random.index(6) {
        0 => nominal,
        1 => nominal - slack + random.range(-1, 1),
        2 => nominal + slack + random.range(-1, 1),
        3 if f1 < f2 && f2 - f1 < 10 => random.pick(&[ONE, ONE - 1, LEAST_N, LEAST_N + 1]),
        _ => random.range(nominal - slack, nominal + slack),
    }
    .clamp(LEAST_N, ONE);
    candidate_on(random, f1, f2, n)
}

/// A sheet with these parallels and this cone constant; it may break a limit.
fn candidate_on(random: &mut Random, f1: i128, f2: i128, n: i128) -> Sheet {
    let g = snyder_g(f1, n)
        + match random.index(3) {
            0 => 0,
            _ => random.range(-slack_of_g(n), slack_of_g(n)),
        };
    let fs = match random.index(5) {
        0 => 0,
        1 => f1,
        2 => (g - 268_435_456).clamp(0, f1),
        _ => random.range((g - 268_435_456).clamp(0, f1), f1),
    };
    let highest = (g - 1_000_000).clamp(f2, 90_000_000);
    let fn_ = match random.index(5) {
        0 => f2,
        1 | 2 => highest,
        _ => random.range(f2, highest),
    };
    let f0 = match random.index(4) {
        0 => fs,
        1 => fn_,
        _ => random.range(fs, fn_),
    };
    let m0 = match random.index(6) {
        0 => -180_000_000,
        1 => 179_999_999,
        2 => shifted(180_000_000 + random.range(-60_000_000, 60_000_000)),
        3 => random.range(-2, 2),
        _ => random.range(-180_000_000, 179_999_999),
    };
    let w = match random.index(6) {
        0 => 1,
        1 => random.range(2, 100),
        2 => 60_000_000,
        _ => random.range(1, 60_000_000),
    };
    Sheet {
        f1,
        f2,
        f0,
        m0,
        fs,
        fn_,
        w,
        n,
        g,
    }
}

/// A sheet that passes the sheet checks, often an extreme one.
pub fn good_sheet(random: &mut Random) -> Sheet {
    loop {
        let s = candidate(random);
        if model::check(&s).is_ok() {
            return s;
        }
    }
}

/// A sheet that passes the sheet checks with this cone constant. Its parallels
/// are so near each other that they agree with any.
pub fn good_sheet_with(random: &mut Random, n: i128) -> Sheet {
    loop {
        let f1 = random.range(5_000_000, 79_999_999);
        let s = candidate_on(random, f1, f1 + 1, n);
        if model::check(&s).is_ok() {
            return s;
        }
    }
}

/// The sheets that a good one gives with a limit reached or just broken.
pub fn limit_sheets(s: &Sheet) -> Vec<Sheet> {
    let mut sheets = Vec::new();
    let mut with = |change: &dyn Fn(&mut Sheet, i128), values: &[i128]| {
        for &value in values {
            for off in [-1, 0, 1] {
                let mut changed = *s;
                change(&mut changed, value + off);
                sheets.push(changed);
            }
        }
    };
    with(
        &|s, value| s.f1 = value,
        &[5_000_000, s.f2, s.fs, 80_000_000],
    );
    with(&|s, value| s.f2 = value, &[80_000_000, s.f1, s.fn_]);
    with(&|s, value| s.f0 = value, &[s.fs, s.fn_, 0, 90_000_000]);
    with(&|s, value| s.m0 = value, &[-180_000_000, 180_000_000]);
    with(
        &|s, value| s.fs = value,
        &[0, s.f1, s.f0, s.g - 268_435_456],
    );
    with(
        &|s, value| s.fn_ = value,
        &[90_000_000, s.f2, s.f0, s.g - 1_000_000],
    );
    with(&|s, value| s.w = value, &[1, 60_000_000]);
    with(&|s, value| s.n = value, &[LEAST_N, ONE]);
    with(
        &|s, value| s.g = value,
        &[s.fn_ + 1_000_000, s.fs + 268_435_456],
    );
    // Two at once, so that one limit is broken alone.
    with(
        &|s, value| {
            s.f1 = value;
            s.fs = s.fs.min(value);
            s.f0 = s.f0.max(s.fs);
        },
        &[5_000_000],
    );
    with(
        &|s, value| {
            s.f2 = value;
            s.fn_ = s.fn_.max(value);
        },
        &[80_000_000],
    );
    with(
        &|s, value| {
            s.fs = value;
            s.f0 = value;
        },
        &[0],
    );
    with(
        &|s, value| {
            s.fn_ = value;
            s.g = s.g.max(value + 1_000_000);
        },
        &[90_000_000],
    );
    // Unsigned numbers at their ends, and others seen as signed.
    with(&|s, value| s.w = value, &[0, 1 << 31, u32::MAX as i128]);
    with(&|s, value| s.n = value, &[0, 1 << 31, u32::MAX as i128]);
    for end in [i32::MIN as i128, i32::MAX as i128] {
        with(&|s, value| s.f1 = value, &[end]);
        with(&|s, value| s.f2 = value, &[end]);
        with(&|s, value| s.f0 = value, &[end]);
        with(&|s, value| s.m0 = value, &[end]);
        with(&|s, value| s.fs = value, &[end]);
        with(&|s, value| s.fn_ = value, &[end]);
        with(&|s, value| s.g = value, &[end]);
    }
    sheets.retain(fits);
    sheets
}

/// Whether the nine numbers have their widths.
fn fits(s: &Sheet) -> bool {
    s.numbers().iter().enumerate().all(|(i, &number)| match i {
        6 | 7 => u32::try_from(number).is_ok(),
        _ => i32::try_from(number).is_ok(),
    })
}

/// Sheets with n, and then g, on both sides of where the constants cease to
/// agree.
pub fn constants_sheets(s: &Sheet) -> Vec<Sheet> {
    let mut sheets = Vec::new();
    for sign in [-1, 1] {
        let off = 32 * sign;
        // n at the edge, g to fit it
        let n = if s.f1 == s.f2 {
            sine(model::angle(s.f1)) + off
        } else {
            let aim = cosine(model::angle(s.f1)) - cosine(model::angle(s.f2)) + off;
            aim * ONE / model::angle(s.f2 - s.f1)
        };
        let step = if s.f1 == s.f2 {
            1
        } else {
            (ONE / model::angle(s.f2 - s.f1) / 2).max(1)
        };
        for k in -5..=5 {
            let n = n + k * step;
            if n > 0 {
                let g = snyder_g(s.f1, n);
                sheets.push(Sheet { n, g, ..*s });
            }
        }
        // g at the edge
        let aim = cosine(model::angle(s.f1)) + off;
        let g = s.f1 + (aim * ONE / s.n) * ONE / 20_122_276_272;
        for k in -3..=3 {
            sheets.push(Sheet { g: g + k, ..*s });
        }
    }
    sheets.retain(fits);
    sheets
}

/// Nine numbers of any size that fits their widths.
pub fn any_sheet(random: &mut Random) -> Sheet {
    let numbers = std::array::from_fn(|i| match i {
        6 | 7 => i128::from((random.next() >> 32) as u32 >> random.index(32)),
        _ => i128::from((random.next() >> 32) as i32 >> random.index(32)),
    });
    Sheet::from_numbers(numbers)
}

/// A good sheet with one of its numbers changed, or more; it may still be good.
pub fn changed_sheet(random: &mut Random) -> Sheet {
    let s = good_sheet(random);
    let choices = if random.once_in(2) {
        limit_sheets(&s)
    } else {
        constants_sheets(&s)
    };
    random.pick(&choices)
}

// ---- Positions and map points

/// A position on the sheet, its edges and corners among them.
pub fn position_on(random: &mut Random, s: &Sheet) -> (i128, i128) {
    let latitude = match random.index(6) {
        0 => s.fs,
        1 => s.fn_,
        2 => random.pick(&[s.f0, s.f1, s.f2]),
        _ => random.range(s.fs, s.fn_),
    };
    let d = match random.index(6) {
        0 => -s.w,
        1 => s.w,
        2 => random.range(-1, 1),
        _ => random.range(-s.w, s.w),
    };
    let longitude = shifted(s.m0 + d);
    // 180 degrees have two names.
    if longitude == -180_000_000 && random.once_in(2) {
        (latitude, 180_000_000)
    } else {
        (latitude, longitude)
    }
}

/// A position on the sheet, around its edges, or anywhere.
pub fn position(random: &mut Random, s: &Sheet) -> (i128, i128) {
    let (mut latitude, mut longitude) = position_on(random, s);
    if random.once_in(3) {
        latitude = match random.index(7) {
            0 => s.fs - 1,
            1 => s.fn_ + 1,
            2 => random.pick(&[-90_000_000, 90_000_000]),
            3 => random.pick(&[-90_000_001, 90_000_001]),
            4 => random.pick(&I64_ENDS),
            5 => random.any_i64().into(),
            _ => random.range(-90_000_000, 90_000_000),
        };
    }
    if random.once_in(3) {
        longitude = match random.index(8) {
            0 => shifted(s.m0 - s.w - 1),
            1 => shifted(s.m0 + s.w + 1),
            2 => random.pick(&[-180_000_000, 180_000_000]),
            3 => random.pick(&[-180_000_001, 180_000_001]),
            4 => random.pick(&I64_ENDS),
            5 => random.any_i64().into(),
            6 => longitude + random.pick(&[-360_000_000, 360_000_000]),
            _ => random.range(-180_000_000, 180_000_000),
        };
    }
    (latitude, longitude)
}

/// A point exactly on the line of a small offset d: there sine(d) is t and
/// cosine(d) is ONE, and x × ONE = v × t.
pub fn point_on_line(random: &mut Random, s: &Sheet) -> Option<(i128, i128)> {
    let d = s.w.min(1_700) * random.pick(&[-1, 1]);
    let t = s.n * model::angle(d) / ONE;
    let step = ONE >> t.trailing_zeros();
    let (least, greatest) = ((s.g - s.fn_ + step - 1) / step, (s.g - s.fs) / step);
    if least > greatest {
        return None;
    }
    let v = step * random.range(least, greatest);
    Some((v * t / ONE, s.g - s.f0 - v))
}

/// A map point on the sheet, around its edges, at the apex, or anywhere.
pub fn map_point(random: &mut Random, s: &Sheet) -> (i128, i128) {
    let r0 = s.g - s.f0;
    match random.index(10) {
        0 => (
            random.range(-3, 3),
            r0 + random.pick(&[-2, -1, 0, 1, 2, 1_000_000]),
        ),
        1 => {
            let mut side = || match random.index(6) {
                0 => MAP_LIMIT,
                1 => -MAP_LIMIT,
                2 => MAP_LIMIT + 1,
                3 => -MAP_LIMIT - 1,
                4 => random.pick(&I64_ENDS),
                _ => random.range(-MAP_LIMIT, MAP_LIMIT),
            };
            (side(), side())
        }
        2 => (
            random.range(-MAP_LIMIT, MAP_LIMIT),
            random.range(-MAP_LIMIT, MAP_LIMIT),
        ),
        3 => {
            // Around the north and the south edge, by radius.
            let r = random.pick(&[s.g - s.fn_, s.g - s.fs]) + random.range(-1, 1);
            (random.range(-2, 2), r0 - r)
        }
        _ => {
            let (latitude, longitude) = position_on(random, s);
            let [x, y] = forward(s, latitude, longitude).unwrap_or([0, 0]);
            let spread = random.pick(&[0, 1, 3, 1_000]);
            (
                x + random.range(-spread, spread),
                y + random.range(-spread, spread),
            )
        }
    }
}

// ---- Tables and files

fn name(random: &mut Random) -> [u8; 16] {
    let length = random.pick(&[1, 1, 2, 5, 8, 15, 16, 16]);
    let mut name = [0; 16];
    for byte in &mut name[..length] {
        *byte = match random.index(8) {
            0 => 32,
            1 => 126,
            _ => random.range(32, 126) as u8,
        };
    }
    name
}

fn rising_ids(random: &mut Random, count: usize) -> Vec<u32> {
    let mut ids: Vec<u32> = Vec::new();
    let mut id = random.pick(&[0, 0, 1, 7, 1 << 30]);
    while ids.len() < count {
        ids.push(id);
        id += 1 + random.pick(&[0, 0, 1, 1_000, 1_000_000]);
    }
    if count > 0 && random.once_in(8) {
        ids[count - 1] = u32::MAX;
    }
    ids
}

/// The place at a position of a good sheet.
fn place_on(random: &mut Random, s: &Sheet, id: u32, position: (i128, i128)) -> Place {
    let (latitude, longitude) = position;
    let [x, y] = forward(s, latitude, longitude).expect("a position on a good sheet");
    Place {
        id,
        latitude: latitude as i32,
        longitude: longitude as i32,
        x: x as i32,
        y: y as i32,
        name: name(random),
    }
}

/// Places at these positions of a good sheet, with rising ids.
pub fn places_on(random: &mut Random, s: &Sheet, positions: &[(i128, i128)]) -> Vec<Place> {
    let ids = rising_ids(random, positions.len());
    ids.into_iter()
        .zip(positions)
        .map(|(id, &position)| place_on(random, s, id, position))
        .collect()
}

/// Places on the sheet with rising ids.
pub fn good_places(random: &mut Random, s: &Sheet, count: usize) -> Vec<Place> {
    let ids = rising_ids(random, count);
    ids.into_iter()
        .map(|id| {
            let position = position_on(random, s);
            place_on(random, s, id, position)
        })
        .collect()
}

/// Places on the sheet, each off one of so many spots by no more than `spread`
/// units of latitude and of longitude.
pub fn crowded_places(
    random: &mut Random,
    s: &Sheet,
    count: usize,
    spots: usize,
    spread: i128,
) -> Vec<Place> {
    let spots: Vec<_> = (0..spots).map(|_| position_on(random, s)).collect();
    let positions: Vec<_> = (0..count)
        .map(|_| {
            let (latitude, longitude) = random.pick(&spots);
            let latitude = latitude + random.range(-spread, spread);
            let d = model::offset(s, longitude) + random.range(-spread, spread);
            let longitude = shifted(s.m0 + d.clamp(-s.w, s.w));
            (latitude.clamp(s.fs, s.fn_), longitude)
        })
        .collect();
    places_on(random, s, &positions)
}

/// A position of a good sheet whose map point is exactly x, y.
pub fn position_at(s: &Sheet, x: i128, y: i128) -> Option<(i128, i128)> {
    let [latitude, longitude] = model::inverse(s, x, y).ok()?;
    let beside = (-3..=3).flat_map(|north| (-3..=3).map(move |east| (north, east)));
    beside
        .map(|(north, east)| (latitude + north, shifted(longitude + east)))
        .find(|&(latitude, longitude)| forward(s, latitude, longitude) == Ok([x, y]))
}

/// Places of any content, as a table's filling.
pub fn any_place(random: &mut Random) -> Place {
    Place {
        id: random.next() as u32,
        latitude: random.next() as i32,
        longitude: random.next() as i32,
        x: random.next() as i32,
        y: random.next() as i32,
        name: std::array::from_fn(|_| random.next() as u8),
    }
}

/// A place with a fault of one kind, mostly.
pub fn damage_place(random: &mut Random, s: &Sheet, place: &mut Place) {
    match random.index(12) {
        0 => place.id = random.pick(&[0, 1, place.id.wrapping_sub(1), place.id / 2]),
        1 => place.x = place.x.wrapping_add(random.pick(&[-1, 1, 2, -2])),
        2 => place.y = place.y.wrapping_add(random.pick(&[-1, 1, 2, -2])),
        3 => {
            // Its own x, y no longer
            place.latitude = random.range(s.fs, s.fn_.max(s.fs)) as i32;
        }
        4 => place.latitude = random.pick(&[s.fs - 1, s.fn_ + 1, 90_000_001, -90_000_001]) as i32,
        5 => {
            let beside = shifted(s.m0 + random.pick(&[-s.w - 1, s.w + 1]));
            place.longitude = random.pick(&[beside, 180_000_001, -180_000_001]) as i32;
        }
        6 => {
            let other = place.longitude as i128 + random.pick(&[-360_000_000, 360_000_000]);
            place.longitude = other as i32;
        }
        7 => place.name = [0; 16],
        8 => {
            let i = random.index(16);
            place.name[i] = random.pick(&[31, 127, 128, 255, 10, 1]);
        }
        9 => {
            // A zero within, or a byte after a zero
            place.name = *b"Mill\0\0\0\0\0\0\0\0\0\0\0\0";
            let i = random.pick(&[0, 2, 5, 15]);
            place.name[i] = if i < 4 { 0 } else { b'a' };
        }
        10 => {
            let any = any_place(random);
            match random.index(4) {
                0 => place.x = any.x,
                1 => place.y = any.y,
                2 => place.latitude = any.latitude,
                _ => place.longitude = any.longitude,
            }
        }
        _ => *place = any_place(random),
    }
}

/// A table of good places with faults in it.
pub fn damage_table(random: &mut Random, s: &Sheet, table: &mut Vec<Place>) {
    if table.is_empty() {
        return;
    }
    let i = random.index(table.len());
    let j = random.index(table.len());
    match random.index(6) {
        0 => table.swap(i, j),
        1 => table.insert(i, table[i]),
        2 if i > 0 => table[i].id = table[i - 1].id,
        3 => {
            // Several faults in one place: which comes first?
            for _ in 0..3 {
                damage_place(random, s, &mut table[i]);
            }
        }
        _ => damage_place(random, s, &mut table[i]),
    }
}

/// The records of a file, each with its kind byte, so that they can be
/// damaged one by one.
fn records_of(s: &Sheet, places: &[Place]) -> Vec<Vec<u8>> {
    let mut records = vec![sheet_record(s)];
    records.extend(places.iter().map(place_record));
    records.push(end_record(places.len() as u32));
    records
}

/// A file of a good sheet and so many places, damaged in one to three ways.
pub fn damaged_file(random: &mut Random, count: usize) -> Vec<u8> {
    let mut s = good_sheet(random);
    let mut places = good_places(random, &s, count);
    let mut ways = random.pick(&[1, 1, 1, 2, 3]);
    // Damage of numbers, before there are bytes
    while ways > 0 && random.once_in(2) {
        ways -= 1;
        match random.index(8) {
            0 => s = changed_sheet(random),
            1 => s = good_sheet(random),
            _ => damage_table(random, &s, &mut places),
        }
    }
    let mut records = records_of(&s, &places);
    if ways > 0 && random.once_in(2) {
        ways -= 1;
        let i = random.index(records.len());
        let j = random.index(records.len());
        match random.index(6) {
            0 => records.swap(i, j),
            1 => drop(records.remove(i)),
            2 => {
                let twice = records[i].clone();
                records.insert(j, twice);
            }
            3 => records[i][0] = random.pick(&[0, 1, 2, 3, 4, 255]),
            4 => {
                let off = random.pick(&[-1, 1, 256, 1 << 24]);
                let last = records.len() - 1;
                records[last] = end_record((count as u32).wrapping_add(off as u32));
            }
            _ => {
                let field = 1 + 4 * random.index((records[i].len() - 1) / 4);
                let old = u32::from_le_bytes(records[i][field..field + 4].try_into().unwrap());
                let any = random.next() as u32;
                let new = random.pick(&[
                    old.wrapping_add(1),
                    old.wrapping_sub(1),
                    0,
                    u32::MAX,
                    1 << 31,
                    i32::MAX as u32,
                    any,
                ]);
                records[i][field..field + 4].copy_from_slice(&new.to_le_bytes());
            }
        }
    }
    let mut file: Vec<u8> = records.concat();
    while ways > 0 {
        ways -= 1;
        let at = random.index(file.len().max(1));
        match random.index(6) {
            0 if !file.is_empty() => file[at] ^= 1 << random.index(8),
            1 if !file.is_empty() => file[at] = random.next() as u8,
            2 => file.truncate(at),
            3 => file.extend((0..random.range(1, 40)).map(|i| i as u8)),
            4 if !file.is_empty() => drop(file.remove(at)),
            _ => file.insert(at, random.next() as u8),
        }
    }
    file
}

pub fn good_file(random: &mut Random, count: usize) -> Vec<u8> {
    let s = good_sheet(random);
    let places = good_places(random, &s, count);
    file_of(&s, &places)
}
