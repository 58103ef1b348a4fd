//! The group that holds lists of the places within reach of a tap against the
//! model (document 02, E2).

use crate::cases::*;
use crate::engine;
use crate::groups::{mill, narrow, single, Compared};
use crate::model::{self, squared_distance, Place, MAP_LIMIT, MOST_REACH, USUAL_REACH};
use crate::tally::{Features, Group, Outcome, Tally};

#[derive(Clone, Copy, Debug)]
struct Tap {
    x: i128,
    y: i128,
    reach: i128,
}

const FEATURES: [&str; 18] = [
    "empty lists",
    "lists of 100 and more",
    "equal distances",
    "equal ids too",
    "whole places repeated",
    "places at the reach",
    "places a squared unit beyond it",
    "places at -2^31",
    "places at 2^31 - 1",
    "squares of over 63 bits",
    "taps at the limit",
    "reach 0",
    "reach 1",
    "greatest reach",
    "taps a unit beyond the limit",
    "reach -1",
    "reach a unit too great",
    "12 with no room either",
];

/// What of `FEATURES` a tap on a table has.
fn features_of(table: &[Place], tap: Tap) -> [bool; 18] {
    let Tap { x, y, reach } = tap;
    let listed = model::positions_in_reach(table, x, y, reach);
    let (accepted, listed) = (listed.is_ok(), listed.unwrap_or_default());
    let squared = |i: usize| squared_distance(&table[i], x, y);
    // Two that follow each other in the list, at one distance
    let tied = |is: fn(&Place, &Place) -> bool| {
        let mut pairs = listed.windows(2);
        pairs.any(|p| squared(p[0]) == squared(p[1]) && is(&table[p[0]], &table[p[1]]))
    };
    let any = |is: &dyn Fn(usize) -> bool| accepted && (0..table.len()).any(is);
    let at = |end: i32| any(&|i| table[i].x == end || table[i].y == end);
    let farthest = x.abs().max(y.abs());
    let some = !listed.is_empty();
    let near = |place: &Place| squared_distance(place, x, y) <= reach * reach;
    [
        accepted && !table.is_empty() && !some,
        listed.len() >= 100,
        tied(|a, b| a.id != b.id),
        tied(|a, b| a.id == b.id && a != b),
        tied(|a, b| a == b),
        any(&|i| squared(i) == reach * reach),
        any(&|i| squared(i) == reach * reach + 1),
        at(i32::MIN),
        at(i32::MAX),
        any(&|i| squared(i) > i64::MAX.into()),
        some && farthest == MAP_LIMIT,
        some && reach == 0,
        some && reach == 1,
        some && reach == MOST_REACH,
        farthest == MAP_LIMIT + 1,
        reach == -1,
        reach == MOST_REACH + 1,
        farthest <= MAP_LIMIT && reach == MOST_REACH + 1 && table.iter().any(near),
    ]
}

/// Entries after a lent table that are not lent.
const NOT_LENT: usize = 3;

struct Lists {
    lists: Tally,
    nearest: Tally,
    features: Features,
    /// What lent tables hold before a call.
    filling: Vec<Place>,
}

impl Lists {
    /// The list on both sides, with room for so many places: the answer, and
    /// every entry of the table afterwards.
    fn compare_with_room(&mut self, table: &[Place], tap: Tap, room: usize) -> Outcome {
        let Tap { x, y, reach } = tap;
        let mut found = self.filling[..room + NOT_LENT].to_vec();
        let mut expected_found = found.clone();
        let lent = &mut expected_found[..room];
        let expected = single(model::places_in_reach(table, x, y, reach, lent));
        let lent = &mut found[..room];
        let got = engine::places_in_reach(table, narrow(x), narrow(y), narrow(reach), lent);
        let input = || format!("{tap:?} room {room} {table:?}");
        let expected = (expected, expected_found);
        self.lists
            .same(expected.0 .0, expected, (got, found), input)
    }

    /// The list with too little, enough and more room; and the nearest place,
    /// which is the list's first, 13 exactly where the list is empty.
    fn compare(&mut self, table: &[Place], tap: Tap, more: usize) -> Outcome {
        let Tap { x, y, reach } = tap;
        for (name, is) in FEATURES.iter().zip(features_of(table, tap)) {
            self.features.count(name, is);
        }
        let listed = model::positions_in_reach(table, x, y, reach);
        let count = listed.as_ref().map_or(0, Vec::len);
        for room in [0, count.saturating_sub(1), count, count + 1, count + more] {
            self.compare_with_room(table, tap, room)?;
        }
        let first = single(listed.and_then(|listed| listed.first().copied().ok_or(13)));
        let got = engine::nearest(table, narrow(x), narrow(y), narrow(reach));
        let input = || format!("{tap:?} {table:?}");
        self.nearest.same(first.0, first, got, input)
    }
}

/// A place of this id at x, y, otherwise of any content.
fn place(random: &mut Random, id: u32, x: i128, y: i128) -> Place {
    Place {
        id,
        x: x as i32,
        y: y as i32,
        ..any_place(random)
    }
}

fn any_tap(random: &mut Random) -> Tap {
    let (mut x, mut y) = match random.index(4) {
        0 => (0, 0),
        1 => (
            random.pick(&[MAP_LIMIT, -MAP_LIMIT]),
            random.pick(&[MAP_LIMIT, -MAP_LIMIT]),
        ),
        _ => (
            random.range(-MAP_LIMIT, MAP_LIMIT),
            random.range(-MAP_LIMIT, MAP_LIMIT),
        ),
    };
    if random.once_in(16) {
        let out = random.pick(&[MAP_LIMIT + 1, -MAP_LIMIT - 1, I64_ENDS[0], I64_ENDS[2]]);
        match random.once_in(2) {
            true => x = out,
            false => y = out,
        }
    }
    let reach = match random.index(8) {
        0 => random.pick(&[0, 1, MOST_REACH - 1, MOST_REACH]),
        1 if random.once_in(2) => random.pick(&[-1, MOST_REACH + 1, 1 << 32, I64_ENDS[0]]),
        2 => random.range(0, 20),
        3 => USUAL_REACH,
        _ => random.range(0, MOST_REACH),
    };
    Tap { x, y, reach }
}

/// How far from a tap a place is put.
fn distance(random: &mut Random, reach: i128, spread: i128) -> (i128, i128) {
    match random.index(8) {
        0 => (0, 0),
        1 => random.pick(&[(reach, 0), (-reach, 0), (0, reach), (0, -reach)]),
        2 => random.pick(&[(reach, 1), (-1, -reach), (reach + 1, 0), (0, -reach - 1)]),
        // Squares whose low 32 bits are zeros
        3 => (0x10000 * random.range(-16, 16), 0),
        _ => (random.range(-spread, spread), random.range(-spread, spread)),
    }
}

/// A coordinate at the ends of 32 bits, or anywhere.
fn far(random: &mut Random) -> i128 {
    match random.index(4) {
        0 => i32::MIN.into(),
        1 => i32::MAX.into(),
        _ => i128::from(random.next() as i32),
    }
}

/// A table of places around a tap, many of them within its reach.
fn table_around(random: &mut Random, tap: Tap, count: usize) -> Vec<Place> {
    // Taps that are refused may be far from where a place can be.
    let x = tap.x.clamp(-MAP_LIMIT, MAP_LIMIT);
    let y = tap.y.clamp(-MAP_LIMIT, MAP_LIMIT);
    let reach = tap.reach.clamp(0, MOST_REACH);
    let spread = random.pick(&[0, 1, 3, 10, reach / 2, reach, 2 * reach]);
    let (few_ids, some_far) = (random.once_in(2), random.once_in(3));
    let mut table: Vec<Place> = Vec::new();
    while table.len() < count {
        let id = match few_ids {
            true => random.pick(&[0, 1, 2, 3, u32::MAX]),
            false => random.next() as u32,
        };
        let earlier = match table.len() {
            0 => None,
            length => Some(table[random.index(length)]),
        };
        let next = match (random.index(8), earlier) {
            (0, Some(earlier)) => earlier,
            // On the same spot, or as far from the tap on its other side
            (1, Some(earlier)) => place(random, id, earlier.x.into(), earlier.y.into()),
            (2, Some(earlier)) if !some_far => {
                let (dx, dy) = (i128::from(earlier.x) - x, i128::from(earlier.y) - y);
                place(random, id, x - dx, y - dy)
            }
            (3, _) if some_far => {
                let (x, y) = (far(random), far(random));
                place(random, id, x, y)
            }
            _ => {
                let (dx, dy) = distance(random, reach, spread);
                place(random, id, x + dx, y + dy)
            }
        };
        table.push(next);
    }
    table
}

/// Lists that were worked out by hand, on the model and the engine.
fn worked_lists(l: &mut Lists) -> Outcome {
    // Equal distances, then equal ids too; one place is there twice.
    let at = |id, x, y| Place { id, x, y, ..mill() };
    let table = [
        at(5, 3, 4),
        at(3, 0, 5),
        at(9, 0, 0),
        at(3, 5, 0),
        at(1, 0, -6),
        at(9, 0, 0),
    ];
    let lists: [(i128, &[usize]); 4] = [
        (0, &[2, 5]),
        (4, &[2, 5]),
        (5, &[2, 5, 1, 3, 0]),
        (6, &[2, 5, 1, 3, 0, 4]),
    ];
    for (reach, list) in lists {
        let tap = Tap { x: 0, y: 0, reach };
        let listed = model::positions_in_reach(&table, 0, 0, reach);
        let input = || format!("{tap:?} {table:?}");
        l.lists.same(0, Ok(list.to_vec()), listed, input)?;
        l.compare(&table, tap, 2)?;
    }
    Ok(())
}

/// One place at a time, at the reach or a unit beyond it.
fn at_the_reach(l: &mut Lists) -> Outcome {
    for reach in [0, 1, 5, USUAL_REACH, MOST_REACH - 1, MOST_REACH] {
        let tap = Tap { x: 0, y: 0, reach };
        for (dx, dy) in [(reach, 0), (reach, 1), (reach + 1, 0), (reach - 1, 0)] {
            for (x, y) in [(dx, dy), (-dx, dy), (dy, dx), (dy, -dx)] {
                let (x, y) = (x as i32, y as i32);
                l.compare(&[Place { x, y, ..mill() }], tap, 2)?;
            }
        }
    }
    Ok(())
}

/// Full tables and longer ones: on one spot with rising, falling and random
/// ids, and in a row toward the tap and away from it.
fn full_tables(l: &mut Lists, random: &mut Random) -> Outcome {
    let tap = Tap {
        x: -7,
        y: 40_000,
        reach: USUAL_REACH,
    };
    for count in [1_000, 1_001, 1_500, 2_500] {
        let rising: Vec<Place> = (0..count as u32)
            .map(|k| place(random, 3 * k, 11, 9))
            .collect();
        let falling: Vec<Place> = rising.iter().rev().copied().collect();
        let random_ids: Vec<Place> = rising
            .iter()
            .map(|&p| Place {
                id: random.next() as u32,
                ..p
            })
            .collect();
        let away: Vec<Place> = rising
            .iter()
            .enumerate()
            .map(|(k, &p)| Place {
                x: 7 * k as i32,
                ..p
            })
            .collect();
        let toward: Vec<Place> = away.iter().rev().copied().collect();
        for table in [rising, falling, random_ids, away, toward] {
            l.compare(&table, tap, 20)?;
        }
        let mixed = table_around(random, tap, count);
        l.compare(&mixed, tap, 20)?;
    }
    Ok(())
}

pub fn lists() -> Compared {
    let group = Group::new("14 lists of places in reach");
    let mut random = Random::new(14);
    let mut l = Lists {
        lists: Tally::new("lists"),
        nearest: Tally::new("the first is the nearest"),
        features: Features::new(&FEATURES),
        filling: (0..3_000).map(|_| any_place(&mut random)).collect(),
    };
    worked_lists(&mut l)?;
    at_the_reach(&mut l)?;
    full_tables(&mut l, &mut random)?;
    for _ in 0..60_000 {
        let tap = any_tap(&mut random);
        let any = random.index(301);
        let count = random.pick(&[0, 1, 2, 3, 5, 8, 13, 20, 40, any]);
        let table = table_around(&mut random, tap, count);
        let more = random.index(60);
        l.compare(&table, tap, more)?;
    }
    group.finish(
        &[(&l.lists, &[0, 10, 12]), (&l.nearest, &[0, 12, 13])],
        &l.features,
    )
}
