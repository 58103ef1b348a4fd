//! The wrapper on the sample atlas, whose twenty places another program made,
//! and on document 01's examples.

use melgoweth::{usual_reach, Atlas, FileRefusal, Point, Position, Refusal, Sheet};

const SAMPLE: &[u8] = include_bytes!("../../../samples/atlas.bin");

/// Document 01's sheet A.
fn sheet_a() -> Vec<u8> {
    let numbers: [u32; 9] = [
        30000000, 30000000, 30000000, 10000000, 20000000, 40000000, 60000000, 536870912, 129239201,
    ];
    let mut record = vec![1];
    record.extend(numbers.iter().flat_map(|n| n.to_le_bytes()));
    record
}

/// An atlas file of places on sheet A at these positions, with ids 3, 6, 9, ..
fn file_of(positions: &[(i32, i32)]) -> Vec<u8> {
    let mut file = sheet_a();
    let sheet = Sheet::from_record(&file).unwrap();
    for (k, &(latitude, longitude)) in positions.iter().enumerate() {
        let position = Position {
            latitude: latitude.into(),
            longitude: longitude.into(),
        };
        let point = sheet.forward(position).unwrap();
        file.push(2);
        file.extend((3 * k as u32 + 3).to_le_bytes());
        for number in [latitude, longitude, point.x as i32, point.y as i32] {
            file.extend(number.to_le_bytes());
        }
        file.extend(*b"Village\0\0\0\0\0\0\0\0\0");
    }
    file.push(3);
    file.extend((positions.len() as u32).to_le_bytes());
    file
}

/// The indexes of places within reach, by a plain sort.
fn sorted(atlas: &Atlas, x: i64, y: i64, reach: i64) -> Vec<usize> {
    let mut all: Vec<(i64, u32, usize)> = Vec::new();
    for index in 0..atlas.count() {
        let place = atlas.place(index).unwrap();
        let (dx, dy) = (i64::from(place.x) - x, i64::from(place.y) - y);
        all.push((dx * dx + dy * dy, place.id, index));
    }
    all.retain(|&(squared, _, _)| squared <= reach * reach);
    all.sort();
    all.into_iter().map(|(_, _, index)| index).collect()
}

fn refused<T>(number: u32) -> Result<T, Refusal> {
    Err(Refusal { number })
}

#[test]
fn a_file_is_opened() {
    let atlas = Atlas::open(SAMPLE).unwrap();
    assert_eq!(atlas.count(), 20);
    assert_eq!(atlas.sheet().record(), &SAMPLE[..37]);
    let place = atlas.place(0).unwrap();
    assert_eq!(
        (place.id, place.latitude, place.longitude),
        (1, 27717200, 85324000)
    );
    assert_eq!(
        (place.x, place.y, place.name()),
        (1171761, -276340, "Kathmandu")
    );
    assert!(atlas.place(19).is_some());
    assert!(atlas.place(20).is_none());
    assert!(atlas.place(usize::MAX).is_none());
}

#[test]
fn a_damaged_file_is_refused() {
    for length in 0..SAMPLE.len() {
        let FileRefusal { refusal, offset } = Atlas::open(&SAMPLE[..length]).unwrap_err();
        assert_eq!(
            (refusal.number, offset),
            (1, length / 37 * 37),
            "cut at {length}"
        );
        assert_eq!(Atlas::check(&SAMPLE[..length]), refused(1));
    }
    let mut torn = SAMPLE.to_vec();
    torn[37 + 13] ^= 1; // the first place's x
    let refusal = Atlas::open(&torn).unwrap_err();
    assert_eq!(
        refusal.to_string(),
        "refused 8: a place's x, y are not its own, at byte 37"
    );
    assert_eq!(Atlas::check(SAMPLE), Ok(()));
}

#[test]
fn the_nearest_place_is_found() {
    let atlas = Atlas::open(SAMPLE).unwrap();
    assert_eq!(usual_reach(), 50000);
    assert_eq!(atlas.nearest(1200000, -260000, usual_reach()), Ok(0));
    assert_eq!(atlas.nearest(0, 0, usual_reach()), refused(13));
    assert_eq!(atlas.nearest(536870913, 0, 1), refused(12));
    for index in 0..atlas.count() {
        let place = atlas.place(index).unwrap();
        assert_eq!(atlas.nearest(place.x.into(), place.y.into(), 0), Ok(index));
    }
}

/// What `atlas` lists at a tap against a plain sort, and its first against the
/// nearest.
fn check_list(atlas: &Atlas, x: i64, y: i64, reach: i64) -> Vec<usize> {
    let indexes = atlas.indexes_in_reach(x, y, reach).unwrap();
    assert_eq!(
        indexes,
        sorted(atlas, x, y, reach),
        "x {x} y {y} reach {reach}"
    );
    let places: Vec<_> = atlas.places_in_reach(x, y, reach).unwrap().collect();
    let expected: Vec<_> = indexes.iter().map(|&k| atlas.place(k).unwrap()).collect();
    assert_eq!(places, expected);
    let first = indexes.first().copied().ok_or(Refusal { number: 13 });
    assert_eq!(atlas.nearest(x, y, reach), first);
    indexes
}

#[test]
fn places_in_reach_are_listed() {
    let atlas = Atlas::open(SAMPLE).unwrap();
    let list = |x, y, reach| check_list(&atlas, x, y, reach);
    assert_eq!(list(1190000, -300000, 50000), [16, 0, 18]);
    assert_eq!(list(1171761, -276340, 0), [0]);
    assert_eq!(list(0, 0, 50000), []);
    for index in 0..atlas.count() {
        let place = atlas.place(index).unwrap();
        for reach in [0, 36625, 36626, 50000, 100000, 1048576] {
            list(place.x.into(), place.y.into(), reach);
        }
    }
    // The places do not need the atlas, only its file.
    let names = |atlas: Atlas<'static>| atlas.places_in_reach(1190000, -300000, 50000);
    let names: Vec<_> = names(atlas)
        .unwrap()
        .map(|p| p.name().to_string())
        .collect();
    assert_eq!(names, ["Patan", "Kathmandu", "Thimi"]);
    assert_eq!(atlas.indexes_in_reach(-536870913, 0, 1), refused(12));
    assert_eq!(atlas.indexes_in_reach(0, 536870913, 1), refused(12));
    for reach in [-1, 1048577] {
        assert_eq!(atlas.indexes_in_reach(0, 0, reach), refused(12));
        let places = atlas.places_in_reach(0, 0, reach);
        assert_eq!(places.map(Iterator::count), refused(12));
    }
}

#[test]
fn places_at_one_distance_are_listed_by_id() {
    // Three on one spot, and two as far to its west and east
    let spot = (31000000, 10000000);
    let file = file_of(&[
        (31000000, 10001000),
        spot,
        (31002000, 10000000),
        spot,
        (31000000, 9999000),
        spot,
    ]);
    let atlas = Atlas::open(&file).unwrap();
    let list = |reach| check_list(&atlas, 0, 1000000, reach);
    assert_eq!(list(0), [1, 3, 5]);
    assert_eq!(list(856), [1, 3, 5]);
    assert_eq!(list(857), [1, 3, 5, 0, 4]);
    assert_eq!(list(1999), [1, 3, 5, 0, 4]);
    assert_eq!(list(2000), [1, 3, 5, 0, 4, 2]);
    assert_eq!(check_list(&atlas, 0, 1000001, 0), []);
}

#[test]
fn a_list_may_have_every_place_or_none() {
    let full = file_of(&[(31000000, 10000000); 1000]);
    let atlas = Atlas::open(&full).unwrap();
    let all = atlas.indexes_in_reach(0, 1000000, 0).unwrap();
    assert_eq!(all, (0..1000).collect::<Vec<_>>());
    let last = atlas.places_in_reach(0, 1000000, 0).unwrap().last();
    assert_eq!(last.unwrap().id, 3000);
    let empty = file_of(&[]);
    let atlas = Atlas::open(&empty).unwrap();
    assert_eq!(check_list(&atlas, 0, 1000000, 1048576), []);
}

#[test]
fn places_lie_where_the_sheet_puts_them() {
    let atlas = Atlas::open(SAMPLE).unwrap();
    let places: Vec<_> = (0..atlas.count())
        .map(|k| atlas.place(k).unwrap())
        .collect();
    let positions: Vec<_> = places
        .iter()
        .map(|p| Position {
            latitude: p.latitude.into(),
            longitude: p.longitude.into(),
        })
        .collect();
    let points: Vec<_> = places
        .iter()
        .map(|p| {
            Ok(Point {
                x: p.x.into(),
                y: p.y.into(),
            })
        })
        .collect();
    assert_eq!(atlas.sheet().forward_each(&positions), points);
    for (&position, &point) in positions.iter().zip(&points) {
        assert_eq!(atlas.sheet().forward(position), point);
        let back = atlas.sheet().inverse(point.unwrap()).unwrap();
        assert!((back.latitude - position.latitude).abs() <= 2);
        assert!((back.longitude - position.longitude).abs() <= 2);
    }
    let points: Vec<_> = points.into_iter().flatten().collect();
    let back: Vec<_> = points.iter().map(|&p| atlas.sheet().inverse(p)).collect();
    assert_eq!(atlas.sheet().inverse_each(&points), back);
}

#[test]
fn examples_of_document_01() {
    let sheet = Sheet::from_record(&sheet_a()).unwrap();
    let at = |latitude, longitude| {
        sheet.forward(Position {
            latitude,
            longitude,
        })
    };
    assert_eq!(at(31000000, 10000000), Ok(Point { x: 0, y: 1000000 }));
    assert_eq!(
        at(30000000, 70000000),
        Ok(Point {
            x: 49619600,
            y: 13295532
        })
    );
    assert_eq!(at(30000000, 70000001), refused(11));
    assert_eq!(at(90000001, 70000000), refused(12));
    let back = sheet.inverse(Point { x: 0, y: 1000000 });
    assert_eq!(
        back,
        Ok(Position {
            latitude: 31000000,
            longitude: 10000000
        })
    );
    let apex = Point { x: 0, y: 129239201 };
    assert_eq!(sheet.inverse(apex), refused(11));
    let beyond = Point { x: 536870913, y: 5 };
    assert_eq!(
        sheet.inverse_each(&[Point { x: 0, y: 1000000 }, apex, beyond]),
        vec![back, refused(11), refused(12)]
    );
    assert_eq!(sheet.forward_each(&[]), vec![]);
    assert_eq!(sheet.inverse_each(&[]), vec![]);
}

#[test]
fn a_bad_sheet_is_refused() {
    let good = sheet_a();
    let number = |bytes: &[u8]| Sheet::from_record(bytes).unwrap_err().number;
    assert_eq!(number(&good[..36]), 1);
    assert_eq!(number(&[]), 1);
    assert_eq!(number(&[good.clone(), vec![0]].concat()), 3);
    assert_eq!(number(&SAMPLE[37..74]), 2);
    let with = |at: usize, byte: u8| {
        let mut bytes = good.clone();
        bytes[at] = byte;
        number(&bytes)
    };
    assert_eq!(with(25, 1), 4);
    assert_eq!(with(29, 32), 5);
}
