//! The groups that hold the engine's library against the model.

use crate::cases::*;
use crate::engine::{self, PlaceAnswer, ReadAnswer, StepAnswer};
use crate::exact::Exact;
use crate::model::{self, Answer, Place, Record, Refusal, Sheet, State, MAP_LIMIT, ONE};
use crate::tally::{Features, Group, Outcome, Tally};

/// How much was compared.
pub type Compared = Result<u64, String>;

pub fn narrow(number: i128) -> i64 {
    i64::try_from(number).expect("a number of 64 bits")
}

fn narrowed<const N: usize>(numbers: [i128; N]) -> [i64; N] {
    numbers.map(narrow)
}

/// An answer of two numbers as the interface gives it.
pub fn pair(answer: Answer<[i128; 2]>) -> (u64, [i64; 2]) {
    match answer {
        Ok(numbers) => (0, narrowed(numbers)),
        Err(number) => (number, [0, 0]),
    }
}

/// An answer of one number as the interface gives it.
pub fn single(answer: Answer<usize>) -> (u64, u64) {
    match answer {
        Ok(number) => (0, number as u64),
        Err(number) => (number, 0),
    }
}

fn place_numbers(p: &Place) -> [i64; 5] {
    [
        p.id.into(),
        p.latitude.into(),
        p.longitude.into(),
        p.x.into(),
        p.y.into(),
    ]
}

const NO_FEATURES: &[&str] = &[];

// ---- 0: the document's own cases, on the model

/// The model gives what the document says in its examples.
pub fn examples() -> Compared {
    let group = Group::new("0 the document's cases on the model");
    let mut t = Tally::new("cases");
    let mut case = |number: u64, expected: &str, got: String| {
        t.same(number, expected.to_string(), got, String::new)
    };
    let show = |answer: Answer<[i128; 2]>| format!("{answer:?}");
    case(0, "18", model::angle(1).to_string())?;
    case(0, "-18", model::angle(-1).to_string())?;
    case(0, "1124419808", model::angle(60_000_000).to_string())?;
    case(0, "3373259426", model::angle(180_000_000).to_string())?;
    case(0, "0", model::sine(0).to_string())?;
    case(0, "1073741824", model::cosine(0).to_string())?;
    case(0, "536870911", model::sine(562_209_904).to_string())?;
    case(0, "-536870911", model::sine(-562_209_904).to_string())?;
    case(0, "929887697", model::cosine(562_209_904).to_string())?;
    case(0, "1", model::root(2).to_string())?;
    case(0, "2", model::root(3).to_string())?;
    let forward = |latitude, longitude| show(model::forward(&A, latitude, longitude));
    case(0, "Ok([0, 1000000])", forward(31_000_000, 10_000_000))?;
    let back = show(model::inverse(&A, 0, 1_000_000));
    case(0, "Ok([31000000, 10000000])", back)?;
    let east = forward(30_000_000, 70_000_000);
    case(0, "Ok([49619600, 13295532])", east)?;
    case(11, "Err(11)", forward(30_000_000, 70_000_001))?;
    case(12, "Err(12)", forward(90_000_001, 10_000_000))?;
    let check = |s: Sheet| format!("{:?}", model::check(&s));
    let wide = Sheet { w: 60_000_001, ..A };
    case(4, "Err(4)", check(wide))?;
    let n = |n| Sheet { n, ..A };
    case(0, "Ok(())", check(n(536_870_922)))?;
    case(5, "Err(5)", check(n(536_870_944)))?;

    let (sheet, mill) = (A, [mill()]);
    let mut file = [0; 79];
    let length = format!("{:?}", model::write(&sheet, &mill, &mut file));
    case(0, "Ok(79)", length)?;
    let short = format!("{:?}", model::write(&sheet, &mill, &mut [0; 78]));
    case(10, "Err(10)", short)?;
    let listed = "places 1\n7 31000000 10000000 0 1000000\n";
    case(0, listed, model::lister(&file))?;
    for cut in 0..79 {
        let first = model::lister(&file[..cut]);
        case(1, "refused 1 at ", first[..13].to_string())?;
    }
    case(1, "refused 1 at 0\n", model::lister(&[]))?;
    let tapped = model::tap(&file, b"0 1000000");
    case(0, "31000000 10000000 7\n", tapped)?;

    group.finish(
        &[(&t, &[0, 1, 4, 5, 10, 11, 12])],
        &Features::new(NO_FEATURES),
    )
}

/// The place of cases 11 and 12.
pub fn mill() -> Place {
    Place {
        id: 7,
        latitude: 31_000_000,
        longitude: 10_000_000,
        x: 0,
        y: 1_000_000,
        name: *b"Mill\0\0\0\0\0\0\0\0\0\0\0\0",
    }
}

// ---- 1: angle, sine, cosine, root

pub fn steps_on_one_number() -> Compared {
    type ModelStep = fn(i128) -> Answer<i128>;
    const MODEL: [ModelStep; 4] = [
        model::offered_angle,
        model::offered_sine,
        model::offered_cosine,
        model::offered_root,
    ];
    const LIMITS: [i128; 4] = [360_000_000, 1_610_612_736, 1_610_612_736, 1 << 60];

    let group = Group::new("1 angle, sine, cosine, root");
    let mut random = Random::new(1);
    let mut tallies = ["angle", "sine", "cosine", "root"].map(Tally::new);
    for (i, &(name, step)) in engine::STEPS.iter().enumerate() {
        let mut numbers: Vec<i128> = I64_ENDS.to_vec();
        numbers.extend(-3_000..=3_000);
        let of_cases = [60_000_000, 180_000_000, 562_209_904, -562_209_904];
        let limits = [LIMITS[i], -LIMITS[i], 1 << 62, 1 << 32, ONE];
        for edge in of_cases.into_iter().chain(limits) {
            numbers.extend(edge - 100..=edge + 100);
        }
        numbers.extend((0..20_000).map(|_| i128::from(random.any_i64())));
        numbers.extend((0..100_000).map(|_| random.range(-LIMITS[i], LIMITS[i])));
        if name == "root" {
            for _ in 0..30_000 {
                // Squares, and where the rounding changes: r² - r, r² + r
                let r = random.range(1, 1 << 30) >> random.index(30);
                let q = r * r + random.pick(&[0, r, -r, r + 1, 1 - r]);
                numbers.extend(q - 1..=q + 1);
            }
        }
        for number in numbers {
            let expected = match MODEL[i](number) {
                Ok(value) => (0, narrow(value)),
                Err(refusal) => (refusal, 0),
            };
            let got = engine::one_number(step, narrow(number));
            tallies[i].same(expected.0, expected, got, || format!("{number}"))?;
        }
    }
    let needed: &[u64] = &[0, 12];
    let tallies: Vec<_> = tallies.iter().map(|tally| (tally, needed)).collect();
    group.finish(&tallies, &Features::new(NO_FEATURES))
}

// ---- 2: the sheet checks

const SHEET_FEATURES: &[&str] = &[
    "one parallel",
    "parallels 1 unit apart",
    "parallels 2 to 6 units apart",
    "n = ONE",
    "n least",
    "g - fn least",
    "g - fs greatest",
    "south edge at 0",
    "pole",
    "across 180",
    "m0 = -180,000,000",
    "m0 = 179,999,999",
    "w = 1",
    "w = 60,000,000",
];

fn count_sheet(features: &mut Features, s: &Sheet) {
    let apart = s.f2 - s.f1;
    let across = s.m0 - s.w < -180_000_000 || s.m0 + s.w >= 180_000_000;
    let is = [
        apart == 0,
        apart == 1,
        (2..=6).contains(&apart),
        s.n == ONE,
        s.n == 134_217_728,
        s.g - s.fn_ == 1_000_000,
        s.g - s.fs == 268_435_456,
        s.fs == 0,
        s.fn_ == 90_000_000,
        across,
        s.m0 == -180_000_000,
        s.m0 == 179_999_999,
        s.w == 1,
        s.w == 60_000_000,
    ];
    for (name, is) in SHEET_FEATURES.iter().zip(is) {
        features.count(name, is);
    }
}

pub fn sheet_checks() -> Compared {
    let group = Group::new("2 sheet checks");
    let mut random = Random::new(2);
    let mut t = Tally::new("check");
    let mut compare = |s: &Sheet| {
        let expected = model::check(s).err().unwrap_or(0);
        t.same(expected, expected, engine::check(s), || format!("{s:?}"))?;
        Ok::<u64, String>(expected)
    };
    let differences = [
        "cone constant 32 off",
        "cone constant 33 off",
        "radius constant 32 off",
        "radius constant 33 off",
    ];
    let names = [SHEET_FEATURES, &differences].concat();
    let mut features = Features::new(&names);
    compare(&Sheet { w: 60_000_001, ..A })?;
    for n in 536_870_912 - 60..536_870_912 + 60 {
        compare(&Sheet { n, ..A })?;
    }
    for _ in 0..20_000 {
        let s = good_sheet(&mut random);
        compare(&s)?;
        count_sheet(&mut features, &s);
        for s in limit_sheets(&s) {
            compare(&s)?;
        }
        for s in constants_sheets(&s) {
            if compare(&s)? != 4 {
                let cone = model::cone_difference(&s).abs();
                let radius = model::radius_difference(&s).abs();
                features.count(differences[0], cone == 32 && radius <= 32);
                features.count(differences[1], cone == 33 && radius <= 32);
                features.count(differences[2], radius == 32 && cone <= 32);
                features.count(differences[3], radius == 33 && cone <= 32);
            }
        }
        for _ in 0..10 {
            compare(&any_sheet(&mut random))?;
        }
        // Off by chance
        let mut numbers = s.numbers();
        let i = random.index(9);
        numbers[i] += random.range(-100, 100);
        if numbers[6] >= 0 {
            compare(&Sheet::from_numbers(numbers))?;
        }
    }
    group.finish(&[(&t, &[0, 4, 5])], &features)
}

// ---- 3: globe to map and back

struct Projections {
    forward: Tally,
    inverse: Tally,
    on_sheet: Tally,
}

impl Projections {
    fn forward(&mut self, s: &Sheet, latitude: i128, longitude: i128) -> Outcome {
        let expected = pair(model::forward(s, latitude, longitude));
        let got = engine::forward(s, narrow(latitude), narrow(longitude));
        let input = || format!("{s:?} latitude {latitude} longitude {longitude}");
        self.forward.same(expected.0, expected, got, input)?;
        // What an offset is, is open where m0 is not within its limits.
        if (-180_000_000..180_000_000).contains(&s.m0) {
            let expected = model::on_sheet(s, latitude, longitude);
            let got = engine::on_sheet(s, narrow(latitude), narrow(longitude));
            let number = if expected { 0 } else { 11 };
            self.on_sheet.same(number, expected, got, input)?;
        }
        Ok(())
    }

    fn inverse(&mut self, s: &Sheet, x: i128, y: i128) -> Outcome {
        let expected = pair(model::inverse(s, x, y));
        let got = engine::inverse(s, narrow(x), narrow(y));
        let input = || format!("{s:?} x {x} y {y}");
        self.inverse.same(expected.0, expected, got, input)
    }
}

pub fn globe_and_map() -> Compared {
    let group = Group::new("3 globe and map");
    let mut random = Random::new(3);
    let mut p = Projections {
        forward: Tally::new("forward"),
        inverse: Tally::new("inverse"),
        on_sheet: Tally::new("on_sheet"),
    };
    let on_edge = "points exactly on a side edge";
    let mut features = Features::new(&[SHEET_FEATURES, &[on_edge]].concat());

    // Cases 7 to 10 by name
    p.forward(&A, 31_000_000, 10_000_000)?;
    p.inverse(&A, 0, 1_000_000)?;
    p.forward(&A, 30_000_000, 70_000_000)?;
    p.forward(&A, 30_000_000, 70_000_001)?;
    p.forward(&A, 90_000_001, 10_000_000)?;
    for n in [536_870_922, 536_870_944] {
        p.forward(&Sheet { n, ..A }, 30_000_000, 10_000_000)?;
    }

    for _ in 0..20_000 {
        let s = good_sheet(&mut random);
        count_sheet(&mut features, &s);
        for latitude in [s.fs - 1, s.fs, s.fn_, s.fn_ + 1] {
            for d in [-s.w - 1, -s.w, 0, s.w, s.w + 1] {
                p.forward(&s, latitude, model::shifted(s.m0 + d))?;
            }
        }
        for longitude in [-180_000_001, -180_000_000, 180_000_000, 180_000_001] {
            p.forward(&s, s.f0, longitude)?;
        }
        for _ in 0..40 {
            let (latitude, longitude) = position(&mut random, &s);
            p.forward(&s, latitude, longitude)?;
        }
        for _ in 0..25 {
            let (x, y) = map_point(&mut random, &s);
            p.inverse(&s, x, y)?;
        }
        if let Some((x, y)) = point_on_line(&mut random, &s) {
            features.count(on_edge, s.w <= 1_700);
            for x in x - 1..=x + 1 {
                p.inverse(&s, x, y)?;
            }
        }
    }
    // The order of refusals: what is asked of a sheet that is refused
    for _ in 0..30_000 {
        let s = match random.index(4) {
            0 => any_sheet(&mut random),
            _ => changed_sheet(&mut random),
        };
        let near = good_sheet(&mut random);
        let (latitude, longitude) = position(&mut random, &near);
        p.forward(&s, latitude, longitude)?;
        let (x, y) = map_point(&mut random, &near);
        p.inverse(&s, x, y)?;
    }
    group.finish(
        &[
            (&p.forward, &[0, 4, 5, 11, 12]),
            (&p.inverse, &[0, 4, 5, 11, 12]),
            (&p.on_sheet, &[0, 11]),
        ],
        &features,
    )
}

// ---- 4: the exact value, and the way back

pub fn exact_values() -> Compared {
    let group = Group::new("4 exact values and the way back");
    let mut random = Random::new(4);
    let exact = Exact::new();
    let mut forward = Tally::new("x and y under 3 units off the exact");
    let mut moved = Tally::new("moved by 6 units, and seen");
    let mut back = Tally::new("back within 16 units");
    let names = ["positions 1 unit and more off", "points not hit exactly"];
    let mut features = Features::new(&names);
    let (mut two_units, mut farthest) = (0, 0);

    forward.holds(0, exact.known_values_hold(), || {
        "the exact sine and cosine of 60 degrees".to_string()
    })?;
    for _ in 0..10_000 {
        let s = good_sheet(&mut random);
        let (latitude, longitude) = position_on(&mut random, &s);
        let (refusal, xy) = engine::forward(&s, narrow(latitude), narrow(longitude));
        let input = || format!("{s:?} latitude {latitude} longitude {longitude} gives {xy:?}");
        let off = exact.units_off(&s, latitude, longitude, xy.map(i128::from));
        features.count(names[0], off[0].max(off[1]) >= 1);
        two_units += u64::from(off[0].max(off[1]) >= 2);
        let holds = refusal == 0 && off[0] < 3 && off[1] < 3;
        forward.holds(0, holds, input)?;
        // The check sees what is off.
        for [dx, dy] in [[6, 0], [-6, 0], [0, 6], [0, -6]] {
            let wrong = [xy[0] + dx, xy[1] + dy].map(i128::from);
            let off = exact.units_off(&s, latitude, longitude, wrong);
            moved.holds(0, off[0].max(off[1]) >= 3, input)?;
        }
    }

    for _ in 0..8_000 {
        let s = good_sheet(&mut random);
        for _ in 0..25 {
            let (x, y) = map_point(&mut random, &s);
            let (x, y) = (narrow(x), narrow(y));
            let (refusal, [latitude, longitude]) = engine::inverse(&s, x, y);
            let input = || format!("{s:?} x {x} y {y}");
            if refusal != 0 {
                back.holds(refusal, refusal == 11 || refusal == 12, input)?;
                continue;
            }
            let on_sheet = engine::on_sheet(&s, latitude, longitude)
                && model::on_sheet(&s, latitude.into(), longitude.into());
            let (refusal, [x2, y2]) = engine::forward(&s, latitude, longitude);
            let (dx, dy) = ((x2 - x).abs(), (y2 - y).abs());
            let squared = dx * dx + dy * dy;
            farthest = farthest.max(squared);
            features.count(names[1], squared > 0);
            let near = refusal == 0 && dx <= 16 && dy <= 16 && squared <= 16 * 16;
            back.holds(0, on_sheet && near, input)?;
        }
    }
    let total = group.finish(
        &[(&forward, &[0]), (&moved, &[0]), (&back, &[0, 11, 12])],
        &features,
    )?;
    println!("  positions 2 units and more off: {two_units}");
    println!("  the farthest that came back: {farthest} squared units");
    Ok(total)
}

// ---- 5: the step

fn expected_step(bytes: &[u8], state: &State) -> (StepAnswer, Option<State>) {
    let answer = model::step(bytes, state);
    let next = match &answer {
        Ok((_, next)) => *next,
        Err(_) => *state,
    };
    let mut a = StepAnswer {
        refusal: 0,
        record: [0; 3],
        sheet: [0; 9],
        place: [0; 5],
        name: [0; 16],
        next: [
            next.at,
            next.sheet_read.into(),
            next.count,
            next.last_id.into(),
            next.room,
        ],
        next_sheet: narrowed(next.sheet.numbers()),
    };
    match answer {
        Err((number, offset)) => {
            a.refusal = number;
            a.record[0] = offset;
            return (a, None);
        }
        Ok((Record::Sheet(sheet), _)) => {
            a.record[1] = 1;
            a.sheet = narrowed(sheet.numbers());
        }
        Ok((Record::Place(place), _)) => {
            a.record[1] = 2;
            a.place = place_numbers(&place);
            a.name = place.name;
        }
        Ok((Record::End(count), _)) => {
            a.record[1] = 3;
            a.record[2] = count.into();
            return (a, None);
        }
    }
    (a, Some(next))
}

/// One step of both; the state to go on from, unless it was the last.
fn compare_step(t: &mut Tally, bytes: &[u8], state: &State) -> Result<Option<State>, String> {
    let (expected, next) = expected_step(bytes, state);
    let got = engine::step(bytes, state);
    t.same(expected.refusal, expected, got, || {
        format!("{state:?} {bytes:?}")
    })?;
    Ok(next)
}

/// The steps of a whole file, to the end or a refusal.
fn compare_chain(t: &mut Tally, bytes: &[u8], room: u64) -> Outcome {
    let mut state = State {
        room,
        ..State::default()
    };
    while let Some(next) = compare_step(t, bytes, &state)? {
        state = next;
    }
    Ok(())
}

fn made_up_state(random: &mut Random, bytes: &[u8]) -> State {
    let record = 37 * random.index(bytes.len() / 37 + 1) as u64;
    let sheet = match random.index(8) {
        0 => any_sheet(random),
        1 => changed_sheet(random),
        2 => good_sheet(random),
        3 => Sheet::default(),
        // The file's own
        _ => match model::step(bytes, &State::default()) {
            Ok((Record::Sheet(sheet), _)) => sheet,
            _ => A,
        },
    };
    let few = random.index(8) as u64;
    State {
        at: match random.index(8) {
            0 => random.index(bytes.len() + 40) as u64,
            1 => random.pick(&[
                bytes.len() as u64,
                u64::MAX,
                u64::MAX - 36,
                1 << 63,
                1 << 32,
            ]),
            2 => 0,
            3 => (bytes.len() as u64).saturating_sub(5),
            _ => record,
        },
        sheet_read: !random.once_in(4),
        sheet,
        count: match random.index(6) {
            0 => random.pick(&[999, 1_000, 1_001, u64::MAX, u64::MAX - 1, 1 << 32]),
            1 => 0,
            // A count of more than 32 bits is not the end's.
            2 => (1 << 32) + few,
            _ => few,
        },
        last_id: random.pick(&[0, 1, 7, 100, 1 << 30, u32::MAX, u32::MAX - 1]),
        room: match random.index(4) {
            0 => few,
            1 => random.pick(&[0, 1, 999, 1_000, 1_001, 1 << 32]),
            _ => random.pick(&[1_000, u64::MAX]),
        },
    }
}

pub fn steps() -> Compared {
    let group = Group::new("5 steps");
    let mut random = Random::new(5);
    let mut chains = Tally::new("steps in chains");
    let mut made_up = Tally::new("steps from made-up states");
    for round in 0..30_000 {
        let count = random.index(6);
        let bytes = match round % 5 {
            0 => good_file(&mut random, count),
            _ => damaged_file(&mut random, count),
        };
        for room in (0..=count as u64 + 1).chain([1_000, u64::MAX]) {
            compare_chain(&mut chains, &bytes, room)?;
        }
        for _ in 0..20 {
            let state = made_up_state(&mut random, &bytes);
            compare_step(&mut made_up, &bytes, &state)?;
        }
    }
    for count in [999, 1_000, 1_001] {
        let bytes = good_file(&mut random, count);
        for room in [998, 999, 1_000, 1_001, u64::MAX] {
            compare_chain(&mut chains, &bytes, room)?;
        }
    }
    let all: &[u64] = &[0, 1, 2, 3, 4, 5, 6, 7, 8, 9, 10, 14];
    group.finish(
        &[(&chains, all), (&made_up, all)],
        &Features::new(NO_FEATURES),
    )
}

// ---- 6: reading

fn expected_read(answer: &Result<(Sheet, Vec<Place>), Refusal>) -> ReadAnswer {
    match answer {
        Err((number, offset)) => (*number, [*offset, 0], [0; 9]),
        Ok((sheet, places)) => (0, [0, places.len() as u64], narrowed(sheet.numbers())),
    }
}

struct Reading {
    read: Tally,
    read_through: Tally,
    run: Tally,
    filling: Vec<Place>,
}

impl Reading {
    /// All three ways of reading, with so much room.
    fn compare(&mut self, bytes: &[u8], room: u64) -> Outcome {
        let answer = model::read(bytes, room);
        let expected = expected_read(&answer);
        let input = || format!("room {room} {bytes:?}");
        if room <= self.filling.len() as u64 {
            let mut table = self.filling[..room as usize].to_vec();
            let mut expected_table = table.clone();
            if let Ok((_, places)) = &answer {
                expected_table[..places.len()].copy_from_slice(places);
            }
            let got = engine::read(bytes, &mut table);
            self.read
                .same(expected.0, (expected, expected_table), (got, table), input)?;
        }
        let got = engine::read_through(bytes, room);
        self.read_through.same(expected.0, expected, got, input)?;
        let got = engine::run(bytes, room);
        self.run.same(expected.0, expected, got, input)
    }

    fn every_room(&mut self, bytes: &[u8], count: usize) -> Outcome {
        for room in 0..=count as u64 + 2 {
            self.compare(bytes, room)?;
        }
        self.compare(bytes, u64::MAX)
    }
}

pub fn reading() -> Compared {
    let group = Group::new("6 reading");
    let mut random = Random::new(6);
    let mut r = Reading {
        read: Tally::new("read"),
        read_through: Tally::new("read_through"),
        run: Tally::new("run"),
        filling: (0..2_000).map(|_| any_place(&mut random)).collect(),
    };
    let names = ["good files", "files cut", "files of 999 to 1,001 places"];
    let mut features = Features::new(&names);

    // Case 11
    let file = model::file_of(&A, &[mill()]);
    for cut in 0..=file.len() {
        r.every_room(&file[..cut], 1)?;
    }
    for round in 0..40_000 {
        let count = random.index(7);
        let bytes = match round % 5 {
            0 => good_file(&mut random, count),
            _ => damaged_file(&mut random, count),
        };
        features.count(names[0], round % 5 == 0);
        r.every_room(&bytes, count)?;
    }
    // Cut at every byte, with less, enough and more room
    for _ in 0..30 {
        for count in 0..5 {
            let bytes = good_file(&mut random, count);
            for cut in 0..=bytes.len() {
                features.count(names[1], true);
                for room in [count.saturating_sub(1), count, 1_000] {
                    r.compare(&bytes[..cut], room as u64)?;
                }
            }
        }
    }
    // Longer than its end
    for count in [0, 1, 3] {
        for more in [1, 2, 5, 36, 37, 38, 1_000, 100_000] {
            for byte in [0, 1, 2, 3, 255] {
                let mut bytes = good_file(&mut random, count);
                bytes.extend(vec![byte; more]);
                r.every_room(&bytes, count)?;
            }
        }
    }
    // Rubbish
    for _ in 0..2_000 {
        let mut bytes: Vec<u8> = (0..random.index(120))
            .map(|_| random.next() as u8)
            .collect();
        if let Some(first) = bytes.first_mut() {
            *first = random.pick(&[0, 1, 1, 1, 2, 3, 4, 255]);
        }
        r.every_room(&bytes, 1)?;
    }
    // Full atlases
    for count in [999, 1_000, 1_001] {
        features.count(names[2], true);
        let bytes = good_file(&mut random, count);
        for room in [0, 1, 500, 998, 999, 1_000, 1_001, 1_500, 2_000, u64::MAX] {
            r.compare(&bytes, room)?;
        }
        // Wrong near the end, the earlier places right
        for _ in 0..60 {
            let mut damaged = bytes.clone();
            let at = bytes.len() - 1 - random.index(120);
            match random.index(4) {
                0 => damaged.truncate(at),
                1 => damaged[at] ^= 1 << random.index(8),
                2 => damaged[at] = random.next() as u8,
                _ => damaged.extend(vec![0; random.pick(&[1, 2, 50, 100_000])]),
            }
            r.compare(&damaged, random.pick(&[998, 999, 1_000, 1_001, 2_000]))?;
        }
    }
    let full = good_file(&mut random, 1_000);
    for room in 0..=1_002 {
        if room % 7 == 0 || !(20..=980).contains(&room) {
            r.compare(&full, room)?;
        }
    }
    let all: &[u64] = &[0, 1, 2, 3, 4, 5, 6, 7, 8, 9, 10, 14];
    group.finish(
        &[(&r.read, all), (&r.read_through, all), (&r.run, all)],
        &features,
    )
}

// ---- 7: writing

/// Writes into a buffer of this length on both sides; the buffer after.
fn compare_write(
    t: &mut Tally,
    s: &Sheet,
    table: &[Place],
    length: usize,
) -> Result<(u64, Vec<u8>), String> {
    let filling: Vec<u8> = (0..length).map(|i| (i * 89 + 37) as u8).collect();
    let mut expected_buffer = filling.clone();
    let expected = single(model::write(s, table, &mut expected_buffer));
    let mut buffer = filling;
    let got = engine::write(s, table, &mut buffer);
    t.same(
        expected.0,
        (expected, &expected_buffer),
        (got, &buffer),
        || format!("{s:?} {table:?} buffer of {length}"),
    )?;
    Ok((got.0, buffer))
}

pub fn writing() -> Compared {
    let group = Group::new("7 writing");
    let mut random = Random::new(7);
    let mut write = Tally::new("write");
    let mut read_back = Tally::new("read back");
    let mut write_again = Tally::new("read and written again");
    let names = ["tables of over 1,000 places", "short buffers"];
    let mut features = Features::new(&names);

    // Case 11
    for length in [0, 78, 79, 81] {
        compare_write(&mut write, &A, &[mill()], length)?;
    }
    // Every length around the file's
    for round in 0..60 {
        let s = good_sheet(&mut random);
        let count = if round < 2 { 0 } else { random.index(5) };
        let table = good_places(&mut random, &s, count);
        let file = 42 + 37 * count;
        for length in 0..=file + 40 {
            features.count(names[1], length < file);
            compare_write(&mut write, &s, &table, length)?;
        }
        compare_write(&mut write, &s, &table, 100_000)?;
    }
    // Tables with faults, sheets that are refused
    for round in 0..40_000 {
        let s = match round % 10 {
            0 => changed_sheet(&mut random),
            _ => good_sheet(&mut random),
        };
        let count = random.index(6);
        let mut table = if model::check(&s).is_ok() {
            good_places(&mut random, &s, count)
        } else {
            vec![mill(); count]
        };
        for _ in 0..random.pick(&[0, 1, 1, 1, 2]) {
            damage_table(&mut random, &s, &mut table);
        }
        let file = 42 + 37 * table.len();
        for length in [0, file - 1, file, file + 1 + random.index(200)] {
            let (refusal, buffer) = compare_write(&mut write, &s, &table, length)?;
            if refusal != 0 {
                continue;
            }
            // It reads back the same, and what was read writes the same.
            let mut room = vec![mill(); table.len()];
            let answer = engine::read(&buffer[..file], &mut room);
            let sheet = narrowed(s.numbers());
            let expected = (0, [0, table.len() as u64], sheet);
            let input = || format!("{s:?} {table:?}");
            read_back.same(0, (expected, &table), (answer, &room), input)?;
            let mut again = vec![0xee; file];
            let read_sheet = Sheet::from_numbers(answer.2.map(i128::from));
            let length = engine::write(&read_sheet, &room, &mut again);
            let expected = ((0, file as u64), &buffer[..file]);
            write_again.same(0, expected, (length, &again[..]), input)?;
        }
    }
    // Full tables
    for count in [999, 1_000, 1_001, 1_500] {
        let s = good_sheet(&mut random);
        let table = good_places(&mut random, &s, count);
        features.count(names[0], count > 1_000);
        let file = 42 + 37 * count;
        for length in [0, 36, 37, 38, file - 37, file - 1, file, file + 1, 2 * file] {
            compare_write(&mut write, &s, &table, length)?;
        }
        // Above 1,000 places 10 comes before a place's fault; a sheet's fault
        // before 10.
        for _ in 0..40 {
            let mut faulty = table.clone();
            damage_table(&mut random, &s, &mut faulty);
            compare_write(&mut write, &s, &faulty, file + 37)?;
            compare_write(&mut write, &changed_sheet(&mut random), &table, file)?;
        }
    }
    let all: &[u64] = &[0, 4, 5, 6, 7, 8, 10, 14];
    group.finish(
        &[(&write, all), (&read_back, &[0]), (&write_again, &[0])],
        &features,
    )
}

// ---- 8: taps

/// A coordinate of a place: near a tap, or anywhere in 32 bits.
fn place_coordinate(random: &mut Random, far: bool, spread: i128) -> i32 {
    if !far {
        return random.range(-spread, spread) as i32;
    }
    match random.index(4) {
        0 => i32::MIN,
        1 => i32::MAX,
        2 => random.next() as i32,
        _ => random.pick(&[MAP_LIMIT, -MAP_LIMIT, 1 << 30, -(1 << 30)]) as i32,
    }
}

fn expected_place(answer: Result<(usize, Place), Refusal>) -> PlaceAnswer {
    match answer {
        Err((number, offset)) => (number, [offset, 0], [0; 5], [0; 16]),
        Ok((position, place)) => (0, [0, position as u64], place_numbers(&place), place.name),
    }
}

struct Taps {
    nearest: Tally,
    usual: Tally,
}

impl Taps {
    fn compare(&mut self, table: &[Place], x: i128, y: i128, reach: i128) -> Outcome {
        let input = || format!("x {x} y {y} reach {reach} {table:?}");
        let expected = single(model::nearest(table, x, y, reach));
        let got = engine::nearest(table, narrow(x), narrow(y), narrow(reach));
        self.nearest.same(expected.0, expected, got, input)?;
        let expected = single(model::nearest(table, x, y, model::USUAL_REACH));
        let got = engine::nearest_in_usual_reach(table, narrow(x), narrow(y));
        self.usual.same(expected.0, expected, got, input)
    }
}

struct FileTaps {
    place_at: Tally,
    nearest_place: Tally,
}

impl FileTaps {
    fn place_at(&mut self, bytes: &[u8], position: usize) -> Outcome {
        let answer = model::place_at(bytes, position).map(|place| (position, place));
        let expected = expected_place(answer);
        let got = engine::place_at(bytes, position);
        let input = || format!("position {position} {bytes:?}");
        self.place_at.same(expected.0, expected, got, input)
    }

    fn nearest_place(&mut self, bytes: &[u8], x: i128, y: i128, reach: i128) -> Outcome {
        let expected = expected_place(model::nearest_place(bytes, x, y, reach));
        let got = engine::nearest_place(bytes, narrow(x), narrow(y), narrow(reach));
        let input = || format!("x {x} y {y} reach {reach} {bytes:?}");
        self.nearest_place.same(expected.0, expected, got, input)
    }
}

pub fn taps() -> Compared {
    let group = Group::new("8 taps");
    let mut random = Random::new(8);
    let mut t = Taps {
        nearest: Tally::new("nearest"),
        usual: Tally::new("nearest in usual reach"),
    };
    let mut f = FileTaps {
        place_at: Tally::new("place_at"),
        nearest_place: Tally::new("nearest_place"),
    };
    let names = [
        "far places",
        "ties in distance",
        "ties in id too",
        "just in reach",
        "just out of reach",
    ];
    let mut features = Features::new(&names);

    for _ in 0..400_000 {
        let spread = random.pick(&[0, 1, 3, 10, 60_000, 1_500_000]);
        let far_table = random.once_in(3);
        let count = random.pick(&[0, 1, 2, 3, 5, 8, 20]);
        let (cx, cy) = match random.index(8) {
            0 => (MAP_LIMIT, -MAP_LIMIT),
            1 => (-MAP_LIMIT, MAP_LIMIT),
            _ => (0, 0),
        };
        let table: Vec<Place> = (0..count)
            .map(|_| {
                let far = far_table && !random.once_in(4);
                features.count(names[0], far);
                let (x, y) = (
                    place_coordinate(&mut random, far, spread),
                    place_coordinate(&mut random, far, spread),
                );
                Place {
                    id: random.pick(&[0, 1, 2, 3, u32::MAX]),
                    x: if far { x } else { x + cx as i32 },
                    y: if far { y } else { y + cy as i32 },
                    ..mill()
                }
            })
            .collect();
        let (mut x, mut y) = (
            cx + random.range(-spread, spread),
            cy + random.range(-spread, spread),
        );
        if random.once_in(20) {
            x = random.pick(&[MAP_LIMIT, -MAP_LIMIT, MAP_LIMIT + 1, -MAP_LIMIT - 1]);
        }
        if random.once_in(20) {
            y = random.pick(&[MAP_LIMIT, -MAP_LIMIT, MAP_LIMIT + 1, -MAP_LIMIT - 1]);
        }
        if random.once_in(50) {
            x = random.pick(&I64_ENDS);
        }
        if random.once_in(50) {
            y = random.pick(&I64_ENDS);
        }
        let in_range = x.abs() <= MAP_LIMIT && y.abs() <= MAP_LIMIT;
        let least = table
            .iter()
            .filter(|_| in_range)
            .map(|place| model::squared_distance(place, x, y))
            .min()
            .unwrap_or(0);
        let reach = match random.index(10) {
            0 => random.pick(&[0, 1, 2, 1_048_575, 1_048_576]),
            1 => random.pick(&[-1, 1_048_577, 1 << 32, I64_ENDS[0], I64_ENDS[2]]),
            2 | 3 => random.range(0, 2 * spread + 2).min(1_048_577),
            // The nearest place exactly in reach, or just out of it
            4..=6 if (1..1 << 40).contains(&least) => model::root(least) + random.range(-1, 1),
            _ => random.range(0, 1_048_576),
        };
        t.compare(&table, x, y, reach)?;
        if let Ok(position) = model::nearest(&table, x, y, reach) {
            let tied: Vec<_> = table
                .iter()
                .filter(|place| model::squared_distance(place, x, y) == least)
                .collect();
            features.count(names[1], tied.len() > 1);
            let id = table[position].id;
            let same_id = tied.iter().filter(|place| place.id == id).count();
            features.count(names[2], same_id > 1);
            features.count(names[3], least == reach * reach);
        }
        let over = least > reach * reach && least <= (reach + 1) * (reach + 1);
        features.count(names[4], count > 0 && over);
    }
    // The usual reach and the greatest, to the unit
    let at = |x, y| [Place { x, y, ..mill() }];
    for off in -3..=3 {
        for (x, y) in [
            (50_000, 0),
            (0, -50_000),
            (30_000, 40_000),
            (-40_000, 30_000),
        ] {
            t.compare(&at(x, y), off, 0, 50_000)?;
            t.compare(&at(x, y), 0, off, 50_000)?;
        }
        t.compare(&at(1_048_576, 0), off, 0, 1_048_576)?;
        t.compare(&at(0, 0), 0, 1_048_576 + off, 1_048_576)?;
    }
    // Far corners alone: their squares pass 63 bits.
    for x in [i32::MIN, -1, 0, i32::MAX] {
        for y in [i32::MIN, -1, 0, i32::MAX] {
            for tap in [MAP_LIMIT, -MAP_LIMIT] {
                for other in [MAP_LIMIT, -MAP_LIMIT] {
                    t.compare(&at(x, y), tap, other, 1_048_576)?;
                    let table = [at(x, y)[0], at(tap as i32, other as i32)[0]];
                    t.compare(&table, tap, other, 1_048_576)?;
                }
            }
        }
    }

    for round in 0..12_000 {
        let count = random.index(6);
        let bytes = match round % 3 {
            0 => damaged_file(&mut random, count),
            _ => good_file(&mut random, count),
        };
        for position in (0..count + 2).chain([1_000, usize::MAX]) {
            f.place_at(&bytes, position)?;
        }
        let places = model::read(&bytes, 1_000).map_or(Vec::new(), |(_, places)| places);
        for _ in 0..6 {
            let near = places.get(random.index(6)).copied().unwrap_or_default();
            let spread = random.pick(&[0, 1, 1_000, 60_000, 1_100_000]);
            let mut x = i128::from(near.x) + random.range(-spread, spread);
            let y = i128::from(near.y) + random.range(-spread, spread);
            if random.once_in(20) {
                x = random.pick(&[MAP_LIMIT, MAP_LIMIT + 1, -MAP_LIMIT - 1, I64_ENDS[0]]);
            }
            let reach = random.pick(&[0, 1, 50_000, 1_048_576, 1_048_577, -1]);
            f.nearest_place(&bytes, x, y, reach)?;
        }
    }
    for count in [999, 1_000, 1_001] {
        let bytes = good_file(&mut random, count);
        for position in [0, 1, 998, 999, 1_000, 1_001] {
            f.place_at(&bytes, position)?;
            f.nearest_place(&bytes, 0, 0, random.pick(&[50_000, 1_048_576]))?;
        }
    }
    let files: &[u64] = &[0, 1, 2, 3, 4, 5, 6, 7, 8, 9, 10, 12, 14];
    let file_taps: &[u64] = &[0, 1, 2, 3, 4, 5, 6, 7, 8, 9, 10, 12, 13, 14];
    group.finish(
        &[
            (&t.nearest, &[0, 12, 13]),
            (&t.usual, &[0, 12, 13]),
            (&f.place_at, files),
            (&f.nearest_place, file_taps),
        ],
        &features,
    )
}
