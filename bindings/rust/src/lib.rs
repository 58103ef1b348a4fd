//! Atlas files, and the equidistant conic between globe and map: a safe
//! wrapper of the engine's C interface (include/atlas.h).
//!
//! A unit is a millionth of a degree of arc; latitudes, longitudes and map
//! coordinates are in units.
//!
//! ```no_run
//! let file = std::fs::read("atlas.bin").unwrap();
//! let atlas = melgoweth::Atlas::open(&file).unwrap();
//! let reach = melgoweth::usual_reach();
//! let index = atlas.nearest(1200000, -260000, reach).unwrap();
//! println!("{}", atlas.place(index).unwrap().name());
//! for place in atlas.places_in_reach(1190000, -300000, reach).unwrap() {
//!     println!("{}", place.name());
//! }
//! ```

// SAFETY, of every call: slices go with their own lengths, and out-parameters
// are locals that nothing else refers to; atlas.h asks for no more.
mod ffi;

use std::fmt;

/// Room for the record of any sheet: `ATLAS_SHEET_SIZE` of the header.
const SHEET_SIZE: usize = 37;

/// Why there is no answer. docs/REFUSALS.md says what a technician does.
#[derive(Clone, Copy, PartialEq, Eq, Debug)]
pub struct Refusal {
    pub number: u32,
}

impl fmt::Display for Refusal {
    fn fmt(&self, f: &mut fmt::Formatter) -> fmt::Result {
        let meaning = match self.number {
            1 => "cut short",
            2 => "a kind of record that is unknown, or not due",
            3 => "bytes after the end",
            4 => "a number of the sheet is outside its limits",
            5 => "the sheet's constants do not agree with its parallels",
            6 => "a place's id is not above the last",
            7 => "a place is out of range or off the sheet",
            8 => "a place's x, y are not its own",
            9 => "the end's count differs",
            10 => "no room, or more than 1,000 places",
            11 => "off the sheet",
            12 => "a number out of range",
            13 => "nothing within reach",
            14 => "a place's name",
            15 => "the answer is off its own sheet",
            _ => "unknown",
        };
        write!(f, "refused {}: {meaning}", self.number)
    }
}

impl std::error::Error for Refusal {}

/// Why a file is refused, and at which byte.
#[derive(Clone, Copy, PartialEq, Eq, Debug)]
pub struct FileRefusal {
    pub refusal: Refusal,
    pub offset: usize,
}

impl fmt::Display for FileRefusal {
    fn fmt(&self, f: &mut fmt::Formatter) -> fmt::Result {
        write!(f, "{}, at byte {}", self.refusal, self.offset)
    }
}

impl std::error::Error for FileRefusal {}

fn answer<T>(number: u32, value: T) -> Result<T, Refusal> {
    if number == 0 {
        Ok(value)
    } else {
        Err(Refusal { number })
    }
}

/// The usual reach of a tap.
pub fn usual_reach() -> i64 {
    unsafe { ffi::atlas_usual_reach() }
}

/// A place of an atlas.
#[derive(Clone, Copy, PartialEq, Eq, Debug)]
pub struct Place {
    pub id: u32,
    pub latitude: i32,
    pub longitude: i32,
    pub x: i32,
    pub y: i32,
    name: [u8; 16],
}

impl Place {
    /// Its name: 1 to 16 letters, digits, signs or spaces of ASCII.
    pub fn name(&self) -> &str {
        let end = self
            .name
            .iter()
            .position(|&b| b == 0)
            .unwrap_or(self.name.len());
        std::str::from_utf8(&self.name[..end]).expect("the bytes of a name are ASCII")
    }
}

/// An atlas file that was read through and is good. It is borrowed, so that it
/// stays as it is.
#[derive(Clone, Copy, Debug)]
pub struct Atlas<'a> {
    file: &'a [u8],
    count: usize,
    sheet: Sheet,
}

impl<'a> Atlas<'a> {
    /// Reads a file through; refused at its first fault.
    pub fn open(file: &'a [u8]) -> Result<Self, FileRefusal> {
        let mut count = 0;
        let (mut record, mut length) = ([0; SHEET_SIZE], 0);
        let number = unsafe {
            let number = ffi::atlas_count(file.as_ptr(), file.len(), &mut count);
            if number == 0 {
                ffi::atlas_sheet(
                    file.as_ptr(),
                    file.len(),
                    record.as_mut_ptr(),
                    record.len(),
                    &mut length,
                )
            } else {
                number
            }
        };
        answer(number, ()).map_err(|refusal| FileRefusal {
            refusal,
            offset: unsafe { ffi::atlas_refused_at(file.as_ptr(), file.len()) },
        })?;
        Ok(Atlas {
            file,
            count,
            sheet: Sheet { record, length },
        })
    }

    /// Whether a file is good, without its places and sheet.
    pub fn check(file: &[u8]) -> Result<(), Refusal> {
        answer(unsafe { ffi::atlas_check(file.as_ptr(), file.len()) }, ())
    }

    /// How many places it has.
    pub fn count(&self) -> usize {
        self.count
    }

    pub fn sheet(&self) -> Sheet {
        self.sheet
    }

    /// The place at an index, counted from 0 in the file's order.
    pub fn place(&self, index: usize) -> Option<Place> {
        let mut p = Place {
            id: 0,
            latitude: 0,
            longitude: 0,
            x: 0,
            y: 0,
            name: [0; 16],
        };
        let number = unsafe {
            ffi::atlas_place(
                self.file.as_ptr(),
                self.file.len(),
                index,
                &mut p.id,
                &mut p.latitude,
                &mut p.longitude,
                &mut p.x,
                &mut p.y,
                p.name.as_mut_ptr(),
            )
        };
        answer(number, p).ok()
    }

    /// The index of the place nearest to a map point, no farther than `reach`:
    /// least distance, then lowest id. Refused with 12 or 13.
    pub fn nearest(&self, x: i64, y: i64, reach: i64) -> Result<usize, Refusal> {
        let mut index = 0;
        let number = unsafe {
            ffi::atlas_nearest(self.file.as_ptr(), self.file.len(), x, y, reach, &mut index)
        };
        answer(number, index)
    }

    /// The indexes of all places no farther than `reach` from a map point, by
    /// distance, then id; there may be none. Refused with 12.
    pub fn indexes_in_reach(&self, x: i64, y: i64, reach: i64) -> Result<Vec<usize>, Refusal> {
        // room for all places of the file, so that 10 does not come back
        let (mut indexes, mut count) = (vec![0; self.count], 0);
        let number = unsafe {
            ffi::atlas_places_in_reach(
                self.file.as_ptr(),
                self.file.len(),
                x,
                y,
                reach,
                indexes.as_mut_ptr(),
                indexes.len(),
                &mut count,
            )
        };
        indexes.truncate(count);
        answer(number, indexes)
    }

    /// The places at these indexes, in this order. Each is read when it is
    /// asked for, and the file is read through for it.
    pub fn places_in_reach(
        &self,
        x: i64,
        y: i64,
        reach: i64,
    ) -> Result<impl Iterator<Item = Place> + 'a, Refusal> {
        let atlas = *self;
        let indexes = self.indexes_in_reach(x, y, reach)?.into_iter();
        Ok(indexes.map(move |index| atlas.place(index).expect("an index of the file")))
    }
}

/// A position on the globe.
#[derive(Clone, Copy, PartialEq, Eq, Debug)]
pub struct Position {
    pub latitude: i64,
    pub longitude: i64,
}

/// A point of the map.
#[derive(Clone, Copy, PartialEq, Eq, Debug)]
pub struct Point {
    pub x: i64,
    pub y: i64,
}

/// A sheet that passes its checks, as its record's bytes.
#[derive(Clone, Copy, Debug)]
pub struct Sheet {
    record: [u8; SHEET_SIZE],
    length: usize,
}

/// `atlas_forward_each` or `atlas_inverse_each`.
type EachCall = unsafe extern "C" fn(*const u8, usize, *const i64, usize, *mut i64, usize) -> u32;

impl Sheet {
    /// The sheet whose record the bytes are; refused with 1, 2, 4, 5 or 3.
    pub fn from_record(bytes: &[u8]) -> Result<Self, Refusal> {
        // no position is asked for, so that only the sheet can be refused
        let number = unsafe {
            ffi::atlas_forward_each(
                bytes.as_ptr(),
                bytes.len(),
                [].as_ptr(),
                0,
                [].as_mut_ptr(),
                0,
            )
        };
        answer(number, ())?;
        let mut record = [0; SHEET_SIZE];
        // a library with longer sheets than this wrapper knows: no room
        let part = record
            .get_mut(..bytes.len())
            .ok_or(Refusal { number: 10 })?;
        part.copy_from_slice(bytes);
        Ok(Sheet {
            record,
            length: bytes.len(),
        })
    }

    /// Its record: kind byte and body.
    pub fn record(&self) -> &[u8] {
        &self.record[..self.length]
    }

    /// From globe to map; refused with 12 or 11.
    pub fn forward(&self, position: Position) -> Result<Point, Refusal> {
        let mut p = Point { x: 0, y: 0 };
        let number = unsafe {
            ffi::atlas_forward(
                self.record.as_ptr(),
                self.length,
                position.latitude,
                position.longitude,
                &mut p.x,
                &mut p.y,
            )
        };
        answer(number, p)
    }

    /// The same for many positions; the sheet is checked once.
    pub fn forward_each(&self, positions: &[Position]) -> Vec<Result<Point, Refusal>> {
        let pairs: Vec<i64> = positions
            .iter()
            .flat_map(|p| [p.latitude, p.longitude])
            .collect();
        self.each(ffi::atlas_forward_each, &pairs, |x, y| Point { x, y })
    }

    /// From map to globe; refused with 12 or 11.
    pub fn inverse(&self, point: Point) -> Result<Position, Refusal> {
        let mut p = Position {
            latitude: 0,
            longitude: 0,
        };
        let number = unsafe {
            ffi::atlas_inverse(
                self.record.as_ptr(),
                self.length,
                point.x,
                point.y,
                &mut p.latitude,
                &mut p.longitude,
            )
        };
        answer(number, p)
    }

    /// The same for many points; the sheet is checked once.
    pub fn inverse_each(&self, points: &[Point]) -> Vec<Result<Position, Refusal>> {
        let pairs: Vec<i64> = points.iter().flat_map(|p| [p.x, p.y]).collect();
        self.each(ffi::atlas_inverse_each, &pairs, |latitude, longitude| {
            Position {
                latitude,
                longitude,
            }
        })
    }

    /// What `call` answers to each pair of numbers.
    fn each<T>(
        &self,
        call: EachCall,
        pairs: &[i64],
        value: fn(i64, i64) -> T,
    ) -> Vec<Result<T, Refusal>> {
        let mut answers = vec![0; pairs.len() / 2 * 3];
        let number = unsafe {
            call(
                self.record.as_ptr(),
                self.length,
                pairs.as_ptr(),
                pairs.len(),
                answers.as_mut_ptr(),
                answers.len(),
            )
        };
        assert_eq!(
            number, 0,
            "the sheet is good, the numbers are pairs, and there is room"
        );
        answers
            .chunks_exact(3)
            .map(|a| answer(a[0] as u32, value(a[1], a[2])))
            .collect()
    }
}
