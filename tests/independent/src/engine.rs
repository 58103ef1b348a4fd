//! The engine's test interface. Each function here answers the refusal's
//! number (0 where accepted) and what the engine left in the out arrays,
//! which hold rubbish before the call.

use crate::model::{Place, Sheet, State};

const RUBBISH_I: i64 = -0x5a5a_1234_5a5a_4321;
const RUBBISH_U: u64 = 0xa5a5_1234_a5a5_4321;
const RUBBISH_B: u8 = 0xa5;

/// Declares interface functions that take a sheet after their `before`
/// parameters.
macro_rules! with_sheet {
    ($(fn $name:ident([$($before:ident: $b:ty),*] SHEET $(, $after:ident: $a:ty)*) -> $answer:ty;)*) => {
        extern "C" {
            $(fn $name(
                $($before: $b,)*
                f1: i32, f2: i32, f0: i32, m0: i32, fs: i32, fn_: i32, w: u32, n: u32, g: i32
                $(, $after: $a)*
            ) -> $answer;)*
        }
    };
}

with_sheet! {
    fn melgoweth_test_check([] SHEET) -> u64;
    fn melgoweth_test_on_sheet([] SHEET, latitude: i64, longitude: i64) -> bool;
    fn melgoweth_test_forward([] SHEET, latitude: i64, longitude: i64, out: *mut i64) -> u64;
    fn melgoweth_test_inverse([] SHEET, x: i64, y: i64, out: *mut i64) -> u64;
    fn melgoweth_test_step(
        [bytes: *const u8, length: usize, at: usize, sheet_read: bool] SHEET,
        count: usize, last_id: u32, room: usize,
        record: *mut u64, sheet: *mut i64, place: *mut i64, name: *mut u8,
        next: *mut u64, next_sheet: *mut i64
    ) -> u64;
    fn melgoweth_test_write(
        [] SHEET, table: *const Place, count: usize,
        buffer: *mut u8, length: usize, out: *mut u64
    ) -> u64;
}

extern "C" {
    fn melgoweth_test_angle(a: i64, out: *mut i64) -> u64;
    fn melgoweth_test_sine(t: i64, out: *mut i64) -> u64;
    fn melgoweth_test_cosine(t: i64, out: *mut i64) -> u64;
    fn melgoweth_test_root(q: i64, out: *mut i64) -> u64;
    fn melgoweth_test_offset(n: u32, x: i64, v: i64, w: u32, out: *mut i64) -> u64;
    fn melgoweth_test_read(
        bytes: *const u8,
        length: usize,
        table: *mut Place,
        room: usize,
        numbers: *mut u64,
        sheet: *mut i64,
    ) -> u64;
    fn melgoweth_test_read_through(
        bytes: *const u8,
        length: usize,
        room: usize,
        numbers: *mut u64,
        sheet: *mut i64,
    ) -> u64;
    fn melgoweth_test_run(
        bytes: *const u8,
        length: usize,
        room: usize,
        numbers: *mut u64,
        sheet: *mut i64,
    ) -> u64;
    fn melgoweth_test_nearest(
        table: *const Place,
        count: usize,
        x: i64,
        y: i64,
        reach: i64,
        out: *mut u64,
    ) -> u64;
    fn melgoweth_test_nearest_in_usual_reach(
        table: *const Place,
        count: usize,
        x: i64,
        y: i64,
        out: *mut u64,
    ) -> u64;
    fn melgoweth_test_places_in_reach(
        table: *const Place,
        count: usize,
        x: i64,
        y: i64,
        reach: i64,
        found: *mut Place,
        room: usize,
        out: *mut u64,
    ) -> u64;
    fn melgoweth_test_place_at(
        bytes: *const u8,
        length: usize,
        position: usize,
        numbers: *mut u64,
        place: *mut i64,
        name: *mut u8,
    ) -> u64;
    fn melgoweth_test_nearest_place(
        bytes: *const u8,
        length: usize,
        x: i64,
        y: i64,
        reach: i64,
        numbers: *mut u64,
        place: *mut i64,
        name: *mut u8,
    ) -> u64;
}

/// Calls an interface function with a sheet's nine numbers in their widths.
macro_rules! call {
    ($name:ident([$($before:expr),*] $s:expr $(, $after:expr)*)) => {{
        let s: &Sheet = $s;
        unsafe {
            $name(
                $($before,)*
                signed(s.f1), signed(s.f2), signed(s.f0), signed(s.m0), signed(s.fs),
                signed(s.fn_), unsigned(s.w), unsigned(s.n), signed(s.g)
                $(, $after)*
            )
        }
    }};
}

fn signed(number: i128) -> i32 {
    i32::try_from(number).expect("a signed number of 32 bits")
}

fn unsigned(number: i128) -> u32 {
    u32::try_from(number).expect("an unsigned number of 32 bits")
}

pub type Step = unsafe extern "C" fn(i64, *mut i64) -> u64;

/// The four steps on one number, by name.
pub const STEPS: [(&str, Step); 4] = [
    ("angle", melgoweth_test_angle),
    ("sine", melgoweth_test_sine),
    ("cosine", melgoweth_test_cosine),
    ("root", melgoweth_test_root),
];

pub fn one_number(step: Step, number: i64) -> (u64, i64) {
    let mut out = [RUBBISH_I];
    let refusal = unsafe { step(number, out.as_mut_ptr()) };
    (refusal, out[0])
}

pub fn root(q: i64) -> (u64, i64) {
    one_number(melgoweth_test_root, q)
}

/// The offset of a map point.
pub fn offset(n: u32, x: i64, v: i64, w: u32) -> (u64, i64) {
    let mut out = [RUBBISH_I];
    let refusal = unsafe { melgoweth_test_offset(n, x, v, w, out.as_mut_ptr()) };
    (refusal, out[0])
}

pub fn check(s: &Sheet) -> u64 {
    call!(melgoweth_test_check([] s))
}

pub fn on_sheet(s: &Sheet, latitude: i64, longitude: i64) -> bool {
    call!(melgoweth_test_on_sheet([] s, latitude, longitude))
}

pub fn forward(s: &Sheet, latitude: i64, longitude: i64) -> (u64, [i64; 2]) {
    let mut out = [RUBBISH_I; 2];
    let refusal = call!(melgoweth_test_forward([] s, latitude, longitude, out.as_mut_ptr()));
    (refusal, out)
}

pub fn inverse(s: &Sheet, x: i64, y: i64) -> (u64, [i64; 2]) {
    let mut out = [RUBBISH_I; 2];
    let refusal = call!(melgoweth_test_inverse([] s, x, y, out.as_mut_ptr()));
    (refusal, out)
}

/// The refusal's number, then offset and count, then the sheet.
pub type ReadAnswer = (u64, [u64; 2], [i64; 9]);

pub fn read(bytes: &[u8], table: &mut [Place]) -> ReadAnswer {
    let (mut numbers, mut sheet) = ([RUBBISH_U; 2], [RUBBISH_I; 9]);
    let refusal = unsafe {
        melgoweth_test_read(
            bytes.as_ptr(),
            bytes.len(),
            table.as_mut_ptr(),
            table.len(),
            numbers.as_mut_ptr(),
            sheet.as_mut_ptr(),
        )
    };
    (refusal, numbers, sheet)
}

pub fn read_through(bytes: &[u8], room: u64) -> ReadAnswer {
    let (mut numbers, mut sheet) = ([RUBBISH_U; 2], [RUBBISH_I; 9]);
    let refusal = unsafe {
        melgoweth_test_read_through(
            bytes.as_ptr(),
            bytes.len(),
            room as usize,
            numbers.as_mut_ptr(),
            sheet.as_mut_ptr(),
        )
    };
    (refusal, numbers, sheet)
}

pub fn run(bytes: &[u8], room: u64) -> ReadAnswer {
    let (mut numbers, mut sheet) = ([RUBBISH_U; 2], [RUBBISH_I; 9]);
    let refusal = unsafe {
        melgoweth_test_run(
            bytes.as_ptr(),
            bytes.len(),
            room as usize,
            numbers.as_mut_ptr(),
            sheet.as_mut_ptr(),
        )
    };
    (refusal, numbers, sheet)
}

/// All that a step hands out.
#[derive(Clone, Copy, PartialEq, Eq, Debug)]
pub struct StepAnswer {
    pub refusal: u64,
    pub record: [u64; 3],
    pub sheet: [i64; 9],
    pub place: [i64; 5],
    pub name: [u8; 16],
    pub next: [u64; 5],
    pub next_sheet: [i64; 9],
}

pub fn step(bytes: &[u8], state: &State) -> StepAnswer {
    let mut a = StepAnswer {
        refusal: RUBBISH_U,
        record: [RUBBISH_U; 3],
        sheet: [RUBBISH_I; 9],
        place: [RUBBISH_I; 5],
        name: [RUBBISH_B; 16],
        next: [RUBBISH_U; 5],
        next_sheet: [RUBBISH_I; 9],
    };
    a.refusal = call!(melgoweth_test_step(
        [
            bytes.as_ptr(),
            bytes.len(),
            state.at as usize,
            state.sheet_read
        ] & state.sheet,
        state.count as usize,
        state.last_id,
        state.room as usize,
        a.record.as_mut_ptr(),
        a.sheet.as_mut_ptr(),
        a.place.as_mut_ptr(),
        a.name.as_mut_ptr(),
        a.next.as_mut_ptr(),
        a.next_sheet.as_mut_ptr()
    ));
    a
}

pub fn nearest(table: &[Place], x: i64, y: i64, reach: i64) -> (u64, u64) {
    let mut out = [RUBBISH_U];
    let refusal = unsafe {
        melgoweth_test_nearest(table.as_ptr(), table.len(), x, y, reach, out.as_mut_ptr())
    };
    (refusal, out[0])
}

pub fn nearest_in_usual_reach(table: &[Place], x: i64, y: i64) -> (u64, u64) {
    let mut out = [RUBBISH_U];
    let refusal = unsafe {
        melgoweth_test_nearest_in_usual_reach(table.as_ptr(), table.len(), x, y, out.as_mut_ptr())
    };
    (refusal, out[0])
}

/// The refusal's number and the count; the list is in `found`.
pub fn places_in_reach(
    table: &[Place],
    x: i64,
    y: i64,
    reach: i64,
    found: &mut [Place],
) -> (u64, u64) {
    let mut out = [RUBBISH_U];
    let refusal = unsafe {
        melgoweth_test_places_in_reach(
            table.as_ptr(),
            table.len(),
            x,
            y,
            reach,
            found.as_mut_ptr(),
            found.len(),
            out.as_mut_ptr(),
        )
    };
    (refusal, out[0])
}

pub fn write(s: &Sheet, table: &[Place], buffer: &mut [u8]) -> (u64, u64) {
    let mut out = [RUBBISH_U];
    let refusal = call!(melgoweth_test_write(
        [] s,
        table.as_ptr(),
        table.len(),
        buffer.as_mut_ptr(),
        buffer.len(),
        out.as_mut_ptr()
    ));
    (refusal, out[0])
}

/// The refusal's number, then offset and position, then the place.
pub type PlaceAnswer = (u64, [u64; 2], [i64; 5], [u8; 16]);

pub fn place_at(bytes: &[u8], position: usize) -> PlaceAnswer {
    let (mut numbers, mut place, mut name) = ([RUBBISH_U; 2], [RUBBISH_I; 5], [RUBBISH_B; 16]);
    let refusal = unsafe {
        melgoweth_test_place_at(
            bytes.as_ptr(),
            bytes.len(),
            position,
            numbers.as_mut_ptr(),
            place.as_mut_ptr(),
            name.as_mut_ptr(),
        )
    };
    (refusal, numbers, place, name)
}

pub fn nearest_place(bytes: &[u8], x: i64, y: i64, reach: i64) -> PlaceAnswer {
    let (mut numbers, mut place, mut name) = ([RUBBISH_U; 2], [RUBBISH_I; 5], [RUBBISH_B; 16]);
    let refusal = unsafe {
        melgoweth_test_nearest_place(
            bytes.as_ptr(),
            bytes.len(),
            x,
            y,
            reach,
            numbers.as_mut_ptr(),
            place.as_mut_ptr(),
            name.as_mut_ptr(),
        )
    };
    (refusal, numbers, place, name)
}
