//! Document 01, "The intended build and its rules", in its own words and order,
//! with request E2 of document 02 where it belongs. What they leave open is as
//! `docs/DECISIONS.md` has it.
//!
//! Whole numbers are 128 bits wide, so that nothing can wrap. Division of
//! whole numbers in Rust drops the fraction toward zero: it is the document's
//! "quotient". A refusal is `Err` with its number.

pub type Answer<T> = Result<T, u64>;

// ---- Units and the sheet

pub const ONE: i128 = 1 << 30;

#[derive(Clone, Copy, PartialEq, Eq, Debug, Default)]
pub struct Sheet {
    pub f1: i128,
    pub f2: i128,
    pub f0: i128,
    pub m0: i128,
    pub fs: i128,
    pub fn_: i128,
    pub w: i128,
    pub n: i128,
    pub g: i128,
}

impl Sheet {
    pub fn from_numbers(s: [i128; 9]) -> Sheet {
        let [f1, f2, f0, m0, fs, fn_, w, n, g] = s;
        Sheet {
            f1,
            f2,
            f0,
            m0,
            fs,
            fn_,
            w,
            n,
            g,
        }
    }

    pub fn numbers(&self) -> [i128; 9] {
        [
            self.f1, self.f2, self.f0, self.m0, self.fs, self.fn_, self.w, self.n, self.g,
        ]
    }
}

fn within_limits(s: &Sheet) -> bool {
    (5_000_000 <= s.f1 && s.f1 <= s.f2 && s.f2 <= 80_000_000)
        && (s.fs <= s.f1 && s.f2 <= s.fn_)
        && (0 <= s.fs && s.fs <= s.f0 && s.f0 <= s.fn_ && s.fn_ <= 90_000_000)
        && (-180_000_000 <= s.m0 && s.m0 < 180_000_000)
        && (1 <= s.w && s.w <= 60_000_000)
        && (134_217_728 <= s.n && s.n <= ONE)
        && s.g - s.fn_ >= 1_000_000
        && s.g - s.fs <= 268_435_456
}

/// How far the cone constant is off its parallels.
pub fn cone_difference(s: &Sheet) -> i128 {
    if s.f1 == s.f2 {
        s.n - sine(angle(s.f1))
    } else {
        s.n * angle(s.f2 - s.f1) / ONE - (cosine(angle(s.f1)) - cosine(angle(s.f2)))
    }
}

/// How far the radius constant is off the first parallel.
pub fn radius_difference(s: &Sheet) -> i128 {
    s.n * angle(s.g - s.f1) / ONE - cosine(angle(s.f1))
}

fn constants_agree(s: &Sheet) -> bool {
    cone_difference(s).abs() <= 32 && radius_difference(s).abs() <= 32
}

/// The sheet checks.
pub fn check(s: &Sheet) -> Answer<()> {
    if !within_limits(s) {
        Err(4)
    } else if !constants_agree(s) {
        Err(5)
    } else {
        Ok(())
    }
}

// ---- Angle, sine, cosine, root

const ANGLE_LIMIT: i128 = 360_000_000;
const T_LIMIT: i128 = 1_610_612_736;
const ROOT_LIMIT: i128 = 1 << 60;

const SINE_ROW: [i128; 6] = [6, 20, 42, 72, 110, 156];
const COSINE_ROW: [i128; 6] = [2, 12, 30, 56, 90, 132];

/// Units to radians in ONEths.
pub fn angle(a: i128) -> i128 {
    assert!(a.abs() <= ANGLE_LIMIT, "all uses stay inside");
    a * 20_122_276_272 / ONE
}

fn last_p(row: [i128; 6], t: i128) -> i128 {
    assert!(t.abs() <= T_LIMIT, "all uses stay inside");
    let z = t * t / ONE;
    let mut p = ONE;
    for factor in row.into_iter().rev() {
        p = ONE - z * p / (ONE * factor);
    }
    p
}

pub fn sine(t: i128) -> i128 {
    t * last_p(SINE_ROW, t) / ONE
}

pub fn cosine(t: i128) -> i128 {
    last_p(COSINE_ROW, t)
}

/// The whole number r with (2r - 1)² ≤ 4q < (2r + 1)², found by halving.
pub fn root(q: i128) -> i128 {
    assert!((1..=ROOT_LIMIT).contains(&q), "all uses stay inside");
    // (2 low - 1)² ≤ 4q holds, (2 high - 1)² ≤ 4q does not.
    let (mut low, mut high) = (1, 1 << 31);
    while high - low > 1 {
        let middle = (low + high) / 2;
        if (2 * middle - 1) * (2 * middle - 1) <= 4 * q {
            low = middle;
        } else {
            high = middle;
        }
    }
    assert!(4 * q < (2 * low + 1) * (2 * low + 1));
    low
}

fn offered(inside: bool, step: fn(i128) -> i128, number: i128) -> Answer<i128> {
    if inside {
        Ok(step(number))
    } else {
        Err(12)
    }
}

pub fn offered_angle(a: i128) -> Answer<i128> {
    offered(a.abs() <= ANGLE_LIMIT, angle, a)
}

pub fn offered_sine(t: i128) -> Answer<i128> {
    offered(t.abs() <= T_LIMIT, sine, t)
}

pub fn offered_cosine(t: i128) -> Answer<i128> {
    offered(t.abs() <= T_LIMIT, cosine, t)
}

pub fn offered_root(q: i128) -> Answer<i128> {
    offered((1..=ROOT_LIMIT).contains(&q), root, q)
}

// ---- From globe to map

/// Shifted by 360,000,000 into -180,000,000 up to, not including, 180,000,000.
pub fn shifted(a: i128) -> i128 {
    (a + 180_000_000).rem_euclid(360_000_000) - 180_000_000
}

/// The longitude's offset d from the central meridian.
pub fn offset(s: &Sheet, longitude: i128) -> i128 {
    shifted(longitude - s.m0)
}

pub fn on_sheet(s: &Sheet, latitude: i128, longitude: i128) -> bool {
    let d = offset(s, longitude);
    longitude.abs() <= 180_000_000 && s.fs <= latitude && latitude <= s.fn_ && -s.w <= d && d <= s.w
}

/// The angle at the apex that the offset d gives.
pub fn t_of(n: i128, d: i128) -> i128 {
    n * angle(d) / ONE
}

/// x, y of a latitude and longitude.
pub fn forward(s: &Sheet, latitude: i128, longitude: i128) -> Answer<[i128; 2]> {
    check(s)?;
    if latitude.abs() > 90_000_000 || longitude.abs() > 180_000_000 {
        return Err(12);
    }
    if !on_sheet(s, latitude, longitude) {
        return Err(11);
    }
    let t = t_of(s.n, offset(s, longitude));
    let r = s.g - latitude;
    let r0 = s.g - s.f0;
    Ok([r * sine(t) / ONE, r0 - r * cosine(t) / ONE])
}

// ---- From map to globe

pub const MAP_LIMIT: i128 = 536_870_912;

/// x × cosine(d) and v × sine(d).
pub fn sides(n: i128, x: i128, v: i128, d: i128) -> (i128, i128) {
    let t = t_of(n, d);
    (x * cosine(t), v * sine(t))
}

/// The offset d of a map point: the last lo.
pub fn offset_of_point(n: i128, x: i128, v: i128, w: i128) -> i128 {
    let (mut lo, mut hi) = (-w, w);
    while hi - lo > 1 {
        let mid = lo + (hi - lo) / 2;
        let (at_point, at_mid) = sides(n, x, v, mid);
        if at_point >= at_mid {
            lo = mid;
        } else {
            hi = mid;
        }
    }
    lo
}

/// Latitude and longitude of a map point.
pub fn inverse(s: &Sheet, x: i128, y: i128) -> Answer<[i128; 2]> {
    check(s)?;
    if x.abs() > MAP_LIMIT || y.abs() > MAP_LIMIT {
        return Err(12);
    }
    let r0 = s.g - s.f0;
    let v = r0 - y;
    if v <= 0 {
        return Err(11);
    }
    let r = root(x * x + v * v);
    if r < s.g - s.fn_ || r > s.g - s.fs {
        return Err(11);
    }
    let (left, left_edge) = sides(s.n, x, v, -s.w);
    let (right, right_edge) = sides(s.n, x, v, s.w);
    if left < left_edge || right > right_edge {
        return Err(11);
    }

    let latitude = s.g - r;
    let longitude = shifted(s.m0 + offset_of_point(s.n, x, v, s.w));
    if !on_sheet(s, latitude, longitude) {
        return Err(15);
    }
    Ok([latitude, longitude])
}

// ---- The atlas file

pub const MOST_PLACES: usize = 1_000;

#[repr(C)]
#[derive(Clone, Copy, PartialEq, Eq, Debug, Default)]
pub struct Place {
    pub id: u32,
    pub latitude: i32,
    pub longitude: i32,
    pub x: i32,
    pub y: i32,
    pub name: [u8; 16],
}

/// 1 to 16 bytes of value 32 to 126, then zeros.
fn name_is_right(name: &[u8; 16]) -> bool {
    let length = name.iter().take_while(|&&byte| byte != 0).count();
    length >= 1
        && name[..length].iter().all(|byte| (32..=126).contains(byte))
        && name[length..].iter().all(|&byte| byte == 0)
}

/// What holds of a place on its sheet: 6, 7, 8, 14.
fn check_place(s: &Sheet, last_id: Option<u32>, place: &Place) -> Answer<()> {
    if last_id.is_some_and(|last| place.id <= last) {
        return Err(6);
    }
    let own = forward(s, place.latitude.into(), place.longitude.into()).map_err(|_| 7u64)?;
    if own != [place.x.into(), place.y.into()] {
        return Err(8);
    }
    if !name_is_right(&place.name) {
        return Err(14);
    }
    Ok(())
}

/// A refusal's number and the offset that the file reader adds.
pub type Refusal = (u64, u64);

/// A reader before a record: its position, what it has read, and the room in
/// the caller's table.
#[derive(Clone, Copy, PartialEq, Eq, Debug, Default)]
pub struct State {
    pub at: u64,
    pub sheet_read: bool,
    pub sheet: Sheet,
    pub count: u64,
    pub last_id: u32,
    pub room: u64,
}

#[derive(Clone, Copy, PartialEq, Eq, Debug)]
pub enum Record {
    Sheet(Sheet),
    Place(Place),
    End(u32),
}

fn four(body: &[u8], field: usize) -> [u8; 4] {
    body[4 * field..4 * field + 4].try_into().unwrap()
}

fn signed(body: &[u8], field: usize) -> i32 {
    i32::from_le_bytes(four(body, field))
}

fn unsigned(body: &[u8], field: usize) -> u32 {
    u32::from_le_bytes(four(body, field))
}

fn sheet_from(body: &[u8]) -> Sheet {
    let numbers = std::array::from_fn(|field| match field {
        6 | 7 => unsigned(body, field).into(),
        _ => signed(body, field).into(),
    });
    Sheet::from_numbers(numbers)
}

fn place_from(body: &[u8]) -> Place {
    Place {
        id: unsigned(body, 0),
        latitude: signed(body, 1),
        longitude: signed(body, 2),
        x: signed(body, 3),
        y: signed(body, 4),
        name: body[20..36].try_into().unwrap(),
    }
}

/// One record: what it is and the state past it. After the end, and after a
/// refusal, the reader stays.
pub fn step(bytes: &[u8], state: &State) -> Result<(Record, State), Refusal> {
    let refused = |number: u64| (number, state.at);
    if state.at >= bytes.len() as u64 {
        return Err(refused(1));
    }
    let rest = &bytes[state.at as usize..];
    let kind = rest[0];
    let length = match (kind, state.sheet_read) {
        (1, false) => 36,
        (2, true) => 36,
        (3, true) => 4,
        _ => return Err(refused(2)),
    };
    if kind == 2 && (state.count >= MOST_PLACES as u64 || state.count >= state.room) {
        return Err(refused(10));
    }
    if rest.len() - 1 < length {
        return Err(refused(1));
    }
    let body = &rest[1..1 + length];
    let past = state.at + 1 + length as u64;
    match kind {
        1 => {
            let sheet = sheet_from(body);
            check(&sheet).map_err(refused)?;
            let next = State {
                at: past,
                sheet_read: true,
                sheet,
                ..*state
            };
            Ok((Record::Sheet(sheet), next))
        }
        2 => {
            let place = place_from(body);
            let last_id = (state.count > 0).then_some(state.last_id);
            check_place(&state.sheet, last_id, &place).map_err(refused)?;
            let next = State {
                at: past,
                count: state.count + 1,
                last_id: place.id,
                ..*state
            };
            Ok((Record::Place(place), next))
        }
        _ => {
            let number = unsigned(body, 0);
            if u64::from(number) != state.count {
                return Err(refused(9));
            }
            if past < bytes.len() as u64 {
                return Err((3, past));
            }
            Ok((Record::End(number), *state))
        }
    }
}

/// The whole file: the sheet and the places.
pub fn read(bytes: &[u8], room: u64) -> Result<(Sheet, Vec<Place>), Refusal> {
    let mut places = Vec::new();
    let mut state = State {
        room,
        ..State::default()
    };
    loop {
        let (record, next) = step(bytes, &state)?;
        match record {
            Record::Sheet(_) => {}
            Record::Place(place) => places.push(place),
            Record::End(_) => return Ok((state.sheet, places)),
        }
        state = next;
    }
}

pub fn sheet_record(s: &Sheet) -> Vec<u8> {
    let mut record = vec![1];
    for number in s.numbers() {
        // Signed and unsigned numbers have the same low 32 bits.
        record.extend((number as u32).to_le_bytes());
    }
    record
}

pub fn place_record(place: &Place) -> Vec<u8> {
    let mut record = vec![2];
    record.extend(place.id.to_le_bytes());
    for number in [place.latitude, place.longitude, place.x, place.y] {
        record.extend(number.to_le_bytes());
    }
    record.extend(place.name);
    record
}

pub fn end_record(count: u32) -> Vec<u8> {
    let mut record = vec![3];
    record.extend(count.to_le_bytes());
    record
}

/// The records in a row, whatever they hold.
pub fn file_of(s: &Sheet, table: &[Place]) -> Vec<u8> {
    let mut file = sheet_record(s);
    for place in table {
        file.extend(place_record(place));
    }
    file.extend(end_record(table.len() as u32));
    file
}

/// The writer: the file's length, the file at the buffer's start.
pub fn write(s: &Sheet, table: &[Place], buffer: &mut [u8]) -> Answer<usize> {
    check(s)?;
    if table.len() > MOST_PLACES {
        return Err(10);
    }
    let mut last_id = None;
    for place in table {
        check_place(s, last_id, place)?;
        last_id = Some(place.id);
    }
    let file = file_of(s, table);
    if buffer.len() < file.len() {
        return Err(10);
    }
    buffer[..file.len()].copy_from_slice(&file);
    Ok(file.len())
}

/// The place at a position of a file; 12 if there is no such position.
pub fn place_at(bytes: &[u8], position: usize) -> Result<Place, Refusal> {
    let (_, places) = read(bytes, MOST_PLACES as u64)?;
    places.get(position).copied().ok_or((12, 0))
}

// ---- Taps

pub const MOST_REACH: i128 = 1_048_576;
pub const USUAL_REACH: i128 = 50_000;

pub fn squared_distance(place: &Place, x: i128, y: i128) -> i128 {
    let (dx, dy) = (i128::from(place.x) - x, i128::from(place.y) - y);
    dx * dx + dy * dy
}

/// Whether a tap is in range: 12.
fn check_tap(x: i128, y: i128, reach: i128) -> Answer<()> {
    if x.abs() > MAP_LIMIT || y.abs() > MAP_LIMIT || !(0..=MOST_REACH).contains(&reach) {
        return Err(12);
    }
    Ok(())
}

/// The table position of the nearest place.
pub fn nearest(table: &[Place], x: i128, y: i128, reach: i128) -> Answer<usize> {
    check_tap(x, y, reach)?;
    (0..table.len())
        .filter(|&i| squared_distance(&table[i], x, y) <= reach * reach)
        .min_by_key(|&i| (squared_distance(&table[i], x, y), table[i].id, i))
        .ok_or(13)
}

/// The place of a file that is nearest to a tap, and its position.
pub fn nearest_place(
    bytes: &[u8],
    x: i128,
    y: i128,
    reach: i128,
) -> Result<(usize, Place), Refusal> {
    let (_, places) = read(bytes, MOST_PLACES as u64)?;
    let position = nearest(&places, x, y, reach).map_err(|number| (number, 0))?;
    Ok((position, places[position]))
}

/// The table positions of all places within reach, each once: by squared
/// distance, then id, then table position.
pub fn positions_in_reach(table: &[Place], x: i128, y: i128, reach: i128) -> Answer<Vec<usize>> {
    check_tap(x, y, reach)?;
    let mut positions: Vec<usize> = (0..table.len())
        .filter(|&i| squared_distance(&table[i], x, y) <= reach * reach)
        .collect();
    positions.sort_by_key(|&i| (squared_distance(&table[i], x, y), table[i].id, i));
    Ok(positions)
}

/// The places of this list into a lent table, and their count.
pub fn places_in_reach(
    table: &[Place],
    x: i128,
    y: i128,
    reach: i128,
    found: &mut [Place],
) -> Answer<usize> {
    let positions = positions_in_reach(table, x, y, reach)?;
    if positions.len() > found.len() {
        return Err(10);
    }
    for (entry, &i) in found.iter_mut().zip(&positions) {
        *entry = table[i];
    }
    Ok(positions.len())
}

// ---- Two programs, and the crowding report

/// What the lister prints for this standard input.
pub fn lister(input: &[u8]) -> String {
    match read(input, MOST_PLACES as u64) {
        Err((number, at)) => format!("refused {number} at {at}\n"),
        Ok((_, places)) => {
            let mut text = format!("places {}\n", places.len());
            for p in places {
                text += &format!("{} {} {} {} {}\n", p.id, p.latitude, p.longitude, p.x, p.y);
            }
            text
        }
    }
}

/// How many other places lie within the usual reach of the one at a position.
fn others_near(places: &[Place], position: usize) -> usize {
    let (x, y) = (places[position].x.into(), places[position].y.into());
    let others = places.iter().enumerate().filter(|&(i, _)| i != position);
    others
        .filter(|(_, other)| squared_distance(other, x, y) <= USUAL_REACH * USUAL_REACH)
        .count()
}

/// What the crowding report prints for this standard input.
pub fn crowding(input: &[u8]) -> String {
    match read(input, MOST_PLACES as u64) {
        Err((number, at)) => format!("refused {number} at {at}\n"),
        Ok((_, places)) => {
            let mut text = String::new();
            for (i, p) in places.iter().enumerate() {
                text += &format!("{} {}\n", p.id, others_near(&places, i));
            }
            text
        }
    }
}

/// A decimal whole number, a leading minus allowed.
fn whole_number(bytes: &[u8]) -> Option<i128> {
    let (sign, digits) = match bytes {
        [b'-', digits @ ..] => (-1, digits),
        digits => (1, digits),
    };
    if digits.is_empty() || !digits.iter().all(u8::is_ascii_digit) {
        return None;
    }
    let value = digits
        .iter()
        .fold(0, |value, digit| 10 * value + i128::from(digit - b'0'));
    Some(sign * value)
}

/// x and y of a line of the right form.
fn line_numbers(line: &[u8]) -> Option<(i128, i128)> {
    if line.len() > 24 {
        return None;
    }
    let space = line.iter().position(|&byte| byte == b' ')?;
    Some((
        whole_number(&line[..space])?,
        whole_number(&line[space + 1..])?,
    ))
}

fn tap_answer(s: &Sheet, places: &[Place], line: &[u8]) -> Answer<String> {
    let (x, y) = line_numbers(line).ok_or(12u64)?;
    let [latitude, longitude] = inverse(s, x, y)?;
    let id = match nearest(places, x, y, USUAL_REACH) {
        Ok(position) => places[position].id.to_string(),
        Err(13) => "-".to_string(),
        // Not reached: inverse has the same range.
        Err(number) => return Err(number),
    };
    Ok(format!("{latitude} {longitude} {id}\n"))
}

/// What the tap program prints for this `atlas.bin` and standard input.
pub fn tap(atlas: &[u8], input: &[u8]) -> String {
    let (sheet, places) = match read(atlas, MOST_PLACES as u64) {
        Err((number, at)) => return format!("refused {number} at {at}\n"),
        Ok(read) => read,
    };
    let mut lines: Vec<&[u8]> = input.split(|&byte| byte == b'\n').collect();
    // What follows the last newline is a line only if it has any byte.
    if lines.last().is_some_and(|last| last.is_empty()) {
        lines.pop();
    }
    let mut text = String::new();
    for line in lines {
        match tap_answer(&sheet, &places, line) {
            Ok(answer) => text += &answer,
            Err(number) => text += &format!("refused {number}\n"),
        }
    }
    text
}
