//! The groups that run the programs and compare what they print.

use crate::cases::*;
use crate::groups::{mill, Compared};
use crate::model::{self, end_record, file_of, Place, Sheet, MAP_LIMIT};
use crate::tally::{Features, Group, Outcome, Tally};
use std::fs::{self, File};
use std::io::{self, Read, Seek, Write};
use std::os::unix::fs::symlink;
use std::path::{Path, PathBuf};
use std::process::{Child, ChildStdout, Command, Stdio};
use std::sync::mpsc::{channel, Receiver};
use std::thread;
use std::time::{Duration, Instant};

/// How long a program may take before it counts as hanging.
const PATIENCE: Duration = Duration::from_secs(20);

/// A file accepted, and its refusals.
const FILE_NUMBERS: &[u64] = &[0, 1, 2, 3, 4, 5, 6, 7, 8, 9, 10, 14];

/// A folder of its own, removed in the end.
struct Folder(PathBuf);

impl Folder {
    fn new(name: &str) -> io::Result<Folder> {
        let path = std::env::temp_dir().join(format!("independent-{name}-{}", std::process::id()));
        fs::create_dir(&path)?;
        Ok(Folder(path))
    }

    fn atlas(&self) -> PathBuf {
        self.0.join("atlas.bin")
    }

    /// Takes away what is at `atlas.bin`.
    fn clear(&self) -> io::Result<()> {
        match fs::symlink_metadata(self.atlas()) {
            Ok(found) if found.is_dir() => fs::remove_dir(self.atlas()),
            Ok(_) => fs::remove_file(self.atlas()),
            Err(_) => Ok(()),
        }
    }

    fn put(&self, bytes: &[u8]) -> io::Result<()> {
        self.clear()?;
        fs::write(self.atlas(), bytes)
    }
}

impl Drop for Folder {
    fn drop(&mut self) {
        let _ = fs::remove_dir_all(&self.0);
    }
}

/// How a program gets its standard input.
enum Input<'a> {
    Bytes(&'a [u8]),
    SingleBytes(&'a [u8]),
    /// In pieces of these lengths, in turn
    Pieces(&'a [u8], &'a [usize]),
    /// Not closed after the bytes
    HeldOpen(&'a [u8]),
    FromFile(File),
    Closed,
}

/// Sends on what a program prints, as it comes.
fn listen(mut output: ChildStdout) -> Receiver<Vec<u8>> {
    let (sender, receiver) = channel();
    thread::spawn(move || {
        let mut buffer = [0; 65_536];
        while let Ok(length) = output.read(&mut buffer) {
            if length == 0 || sender.send(buffer[..length].to_vec()).is_err() {
                break;
            }
        }
    });
    receiver
}

/// All that comes until the program closes its output.
fn collect(receiver: &Receiver<Vec<u8>>) -> Result<Vec<u8>, String> {
    let until = Instant::now() + PATIENCE;
    let mut all = Vec::new();
    loop {
        let left = until.saturating_duration_since(Instant::now());
        match receiver.recv_timeout(left) {
            Ok(piece) => all.extend(piece),
            Err(std::sync::mpsc::RecvTimeoutError::Disconnected) => return Ok(all),
            Err(_) => return Err(format!("no end of output; so far {}", shown(&all))),
        }
    }
}

/// Waits for the program to end by itself.
fn ended(child: &mut Child) -> Result<(), String> {
    let until = Instant::now() + PATIENCE;
    loop {
        match child.try_wait() {
            Ok(Some(status)) if status.code().is_some() => return Ok(()),
            Ok(Some(status)) => return Err(format!("ended by {status}")),
            Ok(None) if Instant::now() < until => thread::sleep(Duration::from_micros(200)),
            Ok(None) => return Err("does not end".to_string()),
            Err(error) => return Err(error.to_string()),
        }
    }
}

/// Bytes as text; what is not text becomes a sign that no program prints.
fn text(bytes: &[u8]) -> String {
    String::from_utf8_lossy(bytes).into_owned()
}

/// Bytes as text in quotes, for a report.
fn shown(bytes: &[u8]) -> String {
    format!("{:?}", text(bytes))
}

/// Starts the program in this folder, with no more than a gigabyte to fill.
fn start(
    program: &Path,
    folder: &Path,
    input: Stdio,
    output: Stdio,
    closed: bool,
) -> Result<Child, String> {
    let script = if closed {
        "ulimit -v 1000000; exec \"$0\" <&-"
    } else {
        "ulimit -v 1000000; exec \"$0\""
    };
    Command::new("sh")
        .args(["-c", script])
        .arg(program)
        .current_dir(folder)
        .stdin(input)
        .stdout(output)
        .stderr(Stdio::null())
        .spawn()
        .map_err(|error| format!("{}: {error}", program.display()))
}

/// What the program prints for this input.
fn output(program: &Path, folder: &Path, input: Input) -> Result<Vec<u8>, String> {
    let (source, closed) = match &input {
        Input::FromFile(file) => {
            let file = file.try_clone().map_err(|error| error.to_string())?;
            (Stdio::from(file), false)
        }
        Input::Closed => (Stdio::null(), true),
        _ => (Stdio::piped(), false),
    };
    let mut child = start(program, folder, source, Stdio::piped(), closed)?;
    let receiver = listen(child.stdout.take().expect("a pipe"));
    let pipe = child.stdin.take();
    let pause = Duration::from_micros(50);
    thread::scope(|scope| {
        // The pipe may break when the program ends before its input.
        let feeder = scope.spawn(move || -> io::Result<_> {
            let Some(mut pipe) = pipe else {
                return Ok(None);
            };
            match input {
                Input::Bytes(bytes) => pipe.write_all(bytes)?,
                Input::SingleBytes(bytes) => {
                    for byte in bytes {
                        pipe.write_all(&[*byte])?;
                        thread::sleep(pause);
                    }
                }
                Input::Pieces(mut bytes, lengths) => {
                    for &length in lengths.iter().cycle() {
                        let (piece, rest) = bytes.split_at(length.min(bytes.len()));
                        pipe.write_all(piece)?;
                        thread::sleep(pause);
                        bytes = rest;
                        if bytes.is_empty() {
                            break;
                        }
                    }
                }
                Input::HeldOpen(bytes) => {
                    pipe.write_all(bytes)?;
                    return Ok(Some(pipe));
                }
                Input::FromFile(_) | Input::Closed => {}
            }
            Ok(None)
        });
        let answer = collect(&receiver).and_then(|bytes| ended(&mut child).map(|()| bytes));
        if answer.is_err() {
            let _ = child.kill();
            let _ = child.wait();
        }
        let _ = feeder.join();
        answer
    })
}

/// The refusal's number in a text `refused R`, 0 for another.
fn refusal_in(text: &str) -> u64 {
    let number = text.strip_prefix("refused ").map(|rest| {
        let end = rest.find(|c: char| !c.is_ascii_digit());
        rest[..end.unwrap_or(rest.len())].parse()
    });
    number.map_or(0, |number| number.expect("a number"))
}

// ---- 9 and 15: the lister and the crowding report

/// A program that reads an atlas file on standard input and prints a text.
struct FileProgram<'a> {
    name: &'static str,
    program: &'a Path,
    folder: Folder,
    model: fn(&[u8]) -> String,
    tally: Tally,
}

impl<'a> FileProgram<'a> {
    fn new(
        name: &'static str,
        program: &'a Path,
        model: fn(&[u8]) -> String,
    ) -> Result<Self, String> {
        Ok(FileProgram {
            name,
            program,
            folder: Folder::new(name).map_err(|error| error.to_string())?,
            model,
            tally: Tally::new(name),
        })
    }

    fn compare(&mut self, bytes: &[u8], input: Input) -> Outcome {
        let expected = (self.model)(bytes);
        let got = output(self.program, &self.folder.0, input)
            .map_err(|error| format!("{}: {error}\n  input: {bytes:?}", self.name))?;
        let number = refusal_in(&expected);
        self.tally
            .same(number, expected, text(&got), || format!("{bytes:?}"))
    }

    fn bytes(&mut self, bytes: &[u8]) -> Outcome {
        self.compare(bytes, Input::Bytes(bytes))
    }
}

/// Good, cut, longer and damaged files, and input in pieces, from a file, held
/// open or none.
fn files_of_all_kinds(p: &mut FileProgram, random: &mut Random) -> Outcome {
    let error = |error: io::Error| error.to_string();
    let mill_file = file_of(&A, &[mill()]);
    for cut in 0..=mill_file.len() {
        p.bytes(&mill_file[..cut])?;
    }
    for count in [0, 1, 2, 5, 50, 999, 1_000, 1_001] {
        let bytes = good_file(random, count);
        p.bytes(&bytes)?;
        for more in [1, 2, 37, 5_000, 200_000] {
            let mut longer = bytes.clone();
            longer.extend(vec![2; more]);
            p.bytes(&longer)?;
        }
        p.bytes(&bytes[..bytes.len() - 1])?;
        p.bytes(&bytes[..bytes.len() / 2])?;
        p.compare(&bytes, Input::Pieces(&bytes, &[1, 4_096, 7, 8_192, 37]))?;
        let path = p.folder.0.join("input");
        fs::write(&path, &bytes).map_err(error)?;
        let file = File::open(&path).map_err(error)?;
        p.compare(&bytes, Input::FromFile(file))?;
    }
    for _ in 0..1_200 {
        let count = random.index(6);
        let bytes = damaged_file(random, count);
        p.bytes(&bytes)?;
    }
    for count in [0, 1, 5, 20] {
        let bytes = good_file(random, count);
        p.compare(&bytes, Input::SingleBytes(&bytes))?;
        p.compare(&bytes[..count], Input::SingleBytes(&bytes[..count]))?;
    }
    // 37,043 bytes decide, whether or not more may come.
    let mut long = good_file(random, 1_000);
    long.push(3);
    p.compare(&long, Input::HeldOpen(&long))?;
    // And no more are read, though they are there.
    let path = p.folder.0.join("longer");
    long.resize(200_000, 3);
    fs::write(&path, &long).map_err(error)?;
    let file = File::open(&path).map_err(error)?;
    let mut same = file.try_clone().map_err(error)?;
    p.compare(&long, Input::FromFile(file))?;
    let read = same.stream_position().map_err(error)?;
    p.tally
        .holds(3, read == 37_043, || format!("{read} bytes are read"))?;
    // The least and the largest id, and the least longitude, as text
    let sheet = Sheet {
        m0: -180_000_000,
        ..A
    };
    let mut place = mill();
    place.longitude = -180_000_000;
    for id in [0, 1, 10, 4_294_967_295] {
        place.id = id;
        p.bytes(&file_of(&sheet, &[place]))?;
    }
    // No input at all, a folder as input, endless zeros
    p.compare(&[], Input::Closed)?;
    let here = File::open(&p.folder.0).map_err(error)?;
    p.compare(&[], Input::FromFile(here))?;
    let zeros = File::open("/dev/zero").map_err(error)?;
    p.compare(&[0; 40_000], Input::FromFile(zeros))
}

pub fn lister(program: &Path) -> Compared {
    let group = Group::new("9 lister");
    let mut p = FileProgram::new("lister", program, model::lister)?;
    files_of_all_kinds(&mut p, &mut Random::new(9))?;
    group.finish(&[(&p.tally, FILE_NUMBERS)], &Features::new(&[]))
}

const CROWDING_FEATURES: [&str; 7] = [
    "places alone",
    "places with others near",
    "places with 100 others near and more",
    "places with 999 others near",
    "pairs on one point",
    "pairs exactly in reach",
    "pairs a squared unit out of reach",
];

/// Compares the report of a good file, and counts what is in it.
fn compare_report(
    p: &mut FileProgram,
    features: &mut Features,
    s: &Sheet,
    places: &[Place],
) -> Outcome {
    let reach = model::USUAL_REACH * model::USUAL_REACH;
    for (k, a) in places.iter().enumerate() {
        let squared = |b: &Place| model::squared_distance(b, a.x.into(), a.y.into());
        let near = places.iter().filter(|b| squared(b) <= reach).count() - 1;
        let is = [near == 0, near > 0, near >= 100, near == 999];
        for (name, is) in CROWDING_FEATURES.iter().zip(is) {
            features.count(name, is);
        }
        for b in &places[..k] {
            let apart = [0, reach, reach + 1];
            for (name, apart) in CROWDING_FEATURES[4..].iter().zip(apart) {
                features.count(name, squared(b) == apart);
            }
        }
    }
    p.bytes(&file_of(s, places))
}

/// Reports that were worked out by hand, on the model and the program.
fn worked_reports(p: &mut FileProgram, features: &mut Features) -> Outcome {
    // On the central meridian, where a unit of latitude is one of y
    let north = |id, units| Place {
        id,
        latitude: 31_000_000 + units,
        y: 1_000_000 + units,
        ..mill()
    };
    let one_point = [north(1, 0), north(5, 0), north(4_294_967_295, 0)];
    let row = [
        north(0, 0),
        north(2, 50_000),
        north(3, 100_001),
        north(10, 150_000),
        north(11, 199_999),
        north(12, 250_000),
    ];
    let reports: [(&[Place], &str); 4] = [
        (&[], ""),
        (&[mill()], "7 0\n"),
        (&one_point, "1 2\n5 2\n4294967295 2\n"),
        (&row, "0 1\n2 1\n3 1\n10 2\n11 1\n12 0\n"),
    ];
    for (places, report) in reports {
        let got = model::crowding(&file_of(&A, places));
        p.tally
            .same(0, report.to_string(), got, || format!("{places:?}"))?;
        compare_report(p, features, &A, places)?;
    }
    Ok(())
}

/// A place and others around it, exactly at the usual reach, a squared unit
/// out of it, and a unit off in one coordinate, as far as the sheet has such
/// map points.
fn places_at_the_reach(random: &mut Random, s: &Sheet) -> Vec<Place> {
    let (latitude, longitude) = position_on(random, s);
    let [x, y] = model::forward(s, latitude, longitude).expect("a position on a good sheet");
    let mut positions = vec![(latitude, longitude)];
    for (dx, dy) in [
        (50_000, 0),
        (0, -50_000),
        (30_000, 40_000),
        (-40_000, 30_000),
        (-14_000, -48_000),
        (50_000, 1),
        (-1, 50_000),
        (-30_001, 40_000),
        (0, 50_001),
        (-49_999, 0),
    ] {
        positions.extend(position_at(s, x + dx, y + dy));
    }
    places_on(random, s, &positions)
}

pub fn crowding(program: &Path) -> Compared {
    let group = Group::new("15 crowding");
    let mut random = Random::new(15);
    let mut p = FileProgram::new("crowding", program, model::crowding)?;
    let mut features = Features::new(&CROWDING_FEATURES);
    files_of_all_kinds(&mut p, &mut random)?;

    p.bytes(include_bytes!("../../../samples/atlas.bin"))?;
    worked_reports(&mut p, &mut features)?;
    for _ in 0..100 {
        let s = match random.once_in(2) {
            true => A,
            false => good_sheet(&mut random),
        };
        let places = places_at_the_reach(&mut random, &s);
        compare_report(&mut p, &mut features, &s, &places)?;
    }
    // Crowds on one spot, on a few, and around them
    for (count, spots, spread) in [
        (1_000, 1, 0),
        (999, 1, 0),
        (1_000, 16, 0),
        (1_000, 1, 30_000),
        (1_000, 16, 60_000),
        (1_000, 100, 400_000),
    ] {
        let places = crowded_places(&mut random, &A, count, spots, spread);
        compare_report(&mut p, &mut features, &A, &places)?;
    }
    for _ in 0..300 {
        let s = good_sheet(&mut random);
        let count = random.pick(&[1, 2, 3, 10, 40, 150]);
        let spots = random.pick(&[1, 2, 5, 20]);
        let spread = random.pick(&[0, 1, 1_000, 30_000, 60_000, 200_000]);
        let places = crowded_places(&mut random, &s, count, spots, spread);
        compare_report(&mut p, &mut features, &s, &places)?;
    }
    group.finish(&[(&p.tally, FILE_NUMBERS)], &features)
}

// ---- 10: the tap program

struct Tapping<'a> {
    program: &'a Path,
    folder: &'a Folder,
    runs: Tally,
    lines: Tally,
}

impl Tapping<'_> {
    /// Runs the program on this atlas, which is already in place.
    fn compare(&mut self, atlas: &[u8], bytes: &[u8], input: Input) -> Outcome {
        let expected = model::tap(atlas, bytes);
        let got = output(self.program, &self.folder.0, input)
            .map_err(|error| format!("tap: {error}\n  input: {}", shown(bytes)))?;
        let got = text(&got);
        let expected_lines: Vec<&str> = expected.split_inclusive('\n').collect();
        let got_lines: Vec<&str> = got.split_inclusive('\n').collect();
        let number = match model::read(atlas, 1_000) {
            Ok(_) => 0,
            Err((number, _)) => number,
        };
        if number == 0 {
            let lines: Vec<&[u8]> = bytes.split(|&byte| byte == b'\n').collect();
            for (i, answer) in expected_lines.iter().enumerate() {
                let got = got_lines.get(i).copied().unwrap_or("no answer");
                self.lines.same(refusal_in(answer), *answer, got, || {
                    format!("line {i}: {}, atlas {atlas:?}", shown(lines[i]))
                })?;
            }
        }
        let input = || format!("{}, atlas {atlas:?}", shown(bytes));
        self.runs.same(number, expected_lines, got_lines, input)
    }

    fn put(&self, atlas: &[u8]) -> Outcome {
        self.folder.put(atlas).map_err(|error| error.to_string())
    }

    fn bytes(&mut self, atlas: &[u8], bytes: &[u8]) -> Outcome {
        self.put(atlas)?;
        self.compare(atlas, bytes, Input::Bytes(bytes))
    }
}

/// A decimal number, sometimes with zeros in front or a minus before 0.
fn number_text(random: &mut Random, number: i128) -> String {
    let zeros = "0".repeat(random.pick(&[0, 0, 0, 1, 2, 5]));
    let minus = number < 0 || number == 0 && random.once_in(4);
    let minus = if minus { "-" } else { "" };
    format!("{minus}{zeros}{}", number.abs())
}

/// A line of the right form, of any length up to 24 bytes and over.
fn good_line(random: &mut Random, s: &Sheet, places: &[Place]) -> Vec<u8> {
    let (x, y) = match random.index(6) {
        0 => map_point(random, s),
        1 => (
            random.range(-MAP_LIMIT - 2, MAP_LIMIT + 2),
            random.range(-10, 10),
        ),
        2 => (random.pick(&I64_ENDS), 0),
        3 => (0, i128::from(random.any_i64())),
        _ if !places.is_empty() => {
            // In the usual reach, on its edge, or out of it
            let place = places[random.index(places.len())];
            let (dx, dy) = random.pick(&[
                (0, 0),
                (30_000, 40_000),
                (-40_000, 30_000),
                (50_000, 0),
                (0, -50_000),
                (30_001, 40_000),
                (-30_000, -40_001),
                (0, 50_001),
                (50_001, 0),
            ]);
            (i128::from(place.x) + dx, i128::from(place.y) + dy)
        }
        _ => (0, 0),
    };
    let line = format!("{} {}", number_text(random, x), number_text(random, y));
    line.into_bytes()
}

/// Lines of the right form and of others, a bar between.
const FORMS: [&str; 6] = [
    "| |  |-|- | -|- -|-  1|1|1 | 1| 1 2|1  2|1 2 |1 2 3|+1 2|1 +2|1\t2|1 2\r|\r|--1 2|1 --2",
    "1 -|- 1|1.0 2|0x1 2|1e3 2|1_0 2|1,0 2|a b|1-2 3|1 2-|0 0;|/ 0|: 0|0 /|0 :|0\u{c}0|1\u{b}2",
    "１ 2|1\u{a0}2|\u{feff}0 0|-1 -2|-0 -0|0 0|-0 0|00 00|-00 000|007 -007|0 1000000|00 001000000",
    "536870912 0|536870913 0|-536870912 0|-536870913 0|0 536870912|0 536870913|0 -536870912",
    "0 -536870913|536870913 536870913|4294967296 1000000|9223372036854775807 0",
    "0 9223372036854775808|-9223372036854775808 0|-9223372036854775809 0",
];

/// Numbers that are 0 and 1,000,000 once they have lost their high bits, and
/// lines of 24 and 25 bytes.
const LONG_FORMS: [&str; 4] = [
    "18446744073709551616 0|0 18446744073709551616|-18446744073709551616 0|0 4295967296",
    "0 18446744073710551616|1234567890123456789012 0|0 9999999999999999999999",
    "-999999999999999999999 0|000000000000000 01000000|0000000000000000 01000000",
    "0 0000000000000001000000|0 00000000000000001000000|-0000000000000 001000000",
];

/// Lines of other forms, and lines at the limits.
fn odd_lines() -> Vec<Vec<u8>> {
    let forms = FORMS.iter().chain(&LONG_FORMS);
    let mut lines: Vec<Vec<u8>> = forms
        .flat_map(|row| row.split('|'))
        .map(|line| line.as_bytes().to_vec())
        .collect();
    // Each single byte in the place of the space, of a digit, and at the end
    for byte in (0..=255).filter(|&byte| byte != b'\n') {
        lines.push(vec![b'0', byte, b'0']);
        lines.push(vec![b'0', b' ', byte]);
        lines.push(vec![byte, b' ', b'0']);
        lines.push(vec![b'0', b' ', b'0', byte]);
        lines.push(vec![byte, b'0', b' ', b'0']);
    }
    // 0 and a number that fills the line to this length
    for length in [
        23, 24, 25, 26, 48, 100, 1_023, 1_024, 4_095, 4_096, 4_097, 8_192, 65_536,
    ] {
        let zeros = "0".repeat(length - 2);
        lines.push(format!("0 {zeros}").into_bytes());
        lines.push(format!("{zeros} 0").into_bytes());
        let spaces = " ".repeat(length - 3);
        lines.push(format!("0 0{spaces}").into_bytes());
        lines.push(vec![0; length]);
    }
    lines
}

/// A line of the right form with a byte changed, put in or taken out.
fn damaged_line(random: &mut Random, mut line: Vec<u8>) -> Vec<u8> {
    let byte = random.pick(b" -+0123456789\r\t\0.x");
    let at = random.index(line.len());
    match random.index(3) {
        0 => line[at] = byte,
        1 => line.insert(at, byte),
        _ => drop(line.remove(at)),
    }
    line
}

fn many_lines(random: &mut Random, atlas: &[u8], count: usize) -> Vec<u8> {
    let (sheet, places) = model::read(atlas, 1_000).expect("a good atlas");
    let odd = odd_lines();
    let mut text = Vec::new();
    for _ in 0..count {
        let mut line = good_line(random, &sheet, &places);
        match random.index(8) {
            0 => line = damaged_line(random, line),
            1 => line = odd[random.index(odd.len())].clone(),
            _ => {}
        }
        text.extend(line);
        text.push(b'\n');
    }
    text
}

/// Writes a line, waits for its answer, and only then writes on.
fn conversation(t: &mut Tapping, atlas: &[u8]) -> Outcome {
    t.put(atlas)?;
    let mut child = start(
        t.program,
        &t.folder.0,
        Stdio::piped(),
        Stdio::piped(),
        false,
    )?;
    let receiver = listen(child.stdout.take().expect("a pipe"));
    let mut pipe = child.stdin.take().expect("a pipe");
    let mut talk = || -> Outcome {
        // What is written, and the lines that are then to be answered
        let pieces = [
            ("0 1000000\n", "0 1000000\n"),
            ("0 0\n1 1\n", "0 0\n1 1\n"),
            ("nothing\n", "nothing\n"),
            ("0 10", ""),
            ("00000\n0 ", "0 1000000\n"),
            ("1000000\n\n", "0 1000000\n\n"),
            ("600000000 0\n", "600000000 0\n"),
        ];
        for (piece, input) in pieces {
            let failed = |error: io::Error| format!("tap, in conversation: {error}");
            pipe.write_all(piece.as_bytes()).map_err(failed)?;
            let expected = model::tap(atlas, input.as_bytes());
            let mut got = Vec::new();
            while got.len() < expected.len() {
                let more = receiver.recv_timeout(PATIENCE);
                got.extend(more.map_err(|_| format!("tap: no answer to {input:?} at once"))?);
            }
            let number = refusal_in(&expected);
            t.lines.same(number, expected, text(&got), || {
                format!("{input:?}, in conversation")
            })?;
        }
        Ok(())
    };
    let outcome = talk();
    drop(pipe);
    let end = ended(&mut child);
    if end.is_err() {
        let _ = child.kill();
        let _ = child.wait();
    }
    outcome?;
    end.map_err(|error| format!("tap, after a conversation: {error}"))
}

/// A write that fails ends the program by itself, though more lines may come.
/// (Where the reader of a pipe is gone, the system ends it.)
fn failed_write(t: &mut Tapping, atlas: &[u8]) -> Outcome {
    t.put(atlas)?;
    let full = File::options().write(true).open("/dev/full");
    let full = full.map_err(|error| format!("/dev/full: {error}"))?;
    let mut child = start(t.program, &t.folder.0, Stdio::piped(), full.into(), false)?;
    let mut pipe = child.stdin.take().expect("a pipe");
    let _ = pipe.write_all(b"0 1000000\n");
    let end = ended(&mut child);
    if end.is_err() {
        let _ = child.kill();
        let _ = child.wait();
    }
    t.runs.holds(0, end.is_ok(), || {
        format!("an answer cannot be written; the program: {end:?}")
    })
}

/// An `atlas.bin` that comes through a pipe, in pieces of this length; it is
/// not closed until the program has answered, if `held`.
fn piped_atlas(t: &mut Tapping, atlas: &[u8], piece: usize, held: bool) -> Outcome {
    let failed = |error: io::Error| error.to_string();
    t.folder.clear().map_err(failed)?;
    let path = t.folder.atlas();
    let made = Command::new("mkfifo").arg(&path).status().map_err(failed)?;
    if !made.success() {
        return Err("mkfifo failed".to_string());
    }
    let (answered, wait) = channel::<()>();
    let bytes = atlas.to_vec();
    thread::spawn(move || -> io::Result<()> {
        // Opens once the program does.
        let mut pipe = fs::OpenOptions::new().write(true).open(path)?;
        for piece in bytes.chunks(piece) {
            pipe.write_all(piece)?;
            thread::sleep(Duration::from_micros(50));
        }
        if held {
            let _ = wait.recv();
        }
        Ok(())
    });
    let line = b"0 1000000\n";
    t.compare(atlas, line, Input::Bytes(line))?;
    drop(answered);
    Ok(())
}

pub fn tap(program: &Path) -> Compared {
    let group = Group::new("10 tap");
    let mut random = Random::new(10);
    let error = |error: io::Error| error.to_string();
    let folder = Folder::new("tap").map_err(error)?;
    let mut t = Tapping {
        program,
        folder: &folder,
        runs: Tally::new("runs"),
        lines: Tally::new("lines"),
    };
    let names = ["answers with an id", "answers without"];
    let mut features = Features::new(&names);
    let mill_file = file_of(&A, &[mill()]);

    // Case 12, and all forms of lines
    t.bytes(&mill_file, b"0 1000000")?;
    t.bytes(&mill_file, b"0 1000000\n")?;
    let mut all_odd = odd_lines().join(&b'\n');
    t.bytes(&mill_file, &all_odd)?;
    all_odd.push(b'\n');
    t.bytes(&mill_file, &all_odd)?;
    for line in odd_lines().iter().take(100) {
        t.bytes(&mill_file, line)?;
    }
    // The end of input
    for input in [
        "", "\n", "\n\n", "0 0\n\n", "\n0 0", "0 0\n ", "0 0\n-", "0 0\n0", "0 0\r",
    ] {
        t.bytes(&mill_file, input.as_bytes())?;
    }
    // Lines of a megabyte, and right ones after
    for byte in [b'0', b' ', b'-', 0, b'\r'] {
        let mut input = b"0 1000000\n0 0".to_vec();
        input.extend(vec![byte; 1 << 20]);
        t.bytes(&mill_file, &input)?;
        input.extend(b"\n0 1000000\n");
        t.bytes(&mill_file, &input)?;
    }
    // Long enough a line that its end falls on each place in a buffer
    for length in [511, 1_024, 2_048, 4_096, 8_192, 65_536] {
        for off in -2i32..=2 {
            let mut input = vec![b'7'; (length + off) as usize];
            input.extend(b"\n0 1000000\n12 34");
            t.bytes(&mill_file, &input)?;
        }
    }
    // Many answers to one part of the input: to empty lines, the most there
    // can be; to short lines; to lines with a place near
    for line in ["\n", "0 0\n", "0 1000000\n"] {
        t.bytes(&mill_file, line.repeat(5_000).as_bytes())?;
    }
    // Many lines on many atlases
    for round in 0..60 {
        let count = [0, 1, 2, 5, 100, 1_000][round % 6];
        let atlas = match round % 2 {
            0 => file_of(&A, &good_places(&mut random, &A, count)),
            _ => good_file(&mut random, count),
        };
        let input = many_lines(&mut random, &atlas, 1_000);
        let expected = model::tap(&atlas, &input);
        for line in expected.lines().filter(|line| refusal_in(line) == 0) {
            features.count(names[0], !line.ends_with('-'));
            features.count(names[1], line.ends_with('-'));
        }
        t.bytes(&atlas, &input)?;
        let pieces: Vec<usize> = (0..50).map(|_| 1 + random.index(60)).collect();
        let (first, _) = input.split_at(input.len().min(20_000));
        t.compare(&atlas, first, Input::Pieces(first, &pieces))?;
    }
    t.put(&mill_file)?;
    let single = b"0 1000000\n1 2\n\nx\n0 0000000000000001000000\n0 1";
    t.compare(&mill_file, single, Input::SingleBytes(single))?;
    t.compare(&mill_file, &[], Input::Closed)?;
    let here = File::open(&folder.0).map_err(error)?;
    t.compare(&mill_file, &[], Input::FromFile(here))?;
    conversation(&mut t, &mill_file)?;
    failed_write(&mut t, &mill_file)?;

    // Atlases that are refused
    let line = b"0 1000000\n";
    for cut in 0..mill_file.len() {
        t.bytes(&mill_file[..cut], line)?;
    }
    for _ in 0..400 {
        let count = random.index(6);
        let atlas = damaged_file(&mut random, count);
        t.bytes(&atlas, line)?;
    }
    for count in [999, 1_000, 1_001] {
        let mut atlas = good_file(&mut random, count);
        t.bytes(&atlas, line)?;
        atlas.extend(end_record(0));
        t.bytes(&atlas, line)?;
        atlas.extend(vec![0; 100_000]);
        t.bytes(&atlas, line)?;
    }
    // None, a folder, nothing at a link's end, one that cannot be read, one
    // without end
    folder.clear().map_err(error)?;
    t.compare(&[], line, Input::Bytes(line))?;
    t.compare(&[], line, Input::HeldOpen(line))?;
    t.compare(&[], &[], Input::Closed)?;
    fs::create_dir(folder.atlas()).map_err(error)?;
    t.compare(&[], line, Input::Bytes(line))?;
    let read_as: [(&str, &[u8]); 3] = [
        ("nowhere", &[]),
        ("/proc/self/mem", &[]),
        ("/dev/zero", &[0; 40_000]),
    ];
    for (target, atlas) in read_as {
        folder.clear().map_err(error)?;
        symlink(target, folder.atlas()).map_err(error)?;
        t.compare(atlas, line, Input::Bytes(line))?;
    }
    piped_atlas(&mut t, &mill_file, 1, false)?;
    piped_atlas(&mut t, &good_file(&mut random, 1_000), 1_000, false)?;
    let mut long = good_file(&mut random, 1_000);
    long.push(1);
    piped_atlas(&mut t, &long, 5_000, true)?;
    // After a refused atlas no input is read: its position stays.
    t.put(&mill_file[..78])?;
    let path = folder.0.join("input");
    fs::write(&path, line).map_err(error)?;
    let mut file = File::open(&path).map_err(error)?;
    let copy = file.try_clone().map_err(error)?;
    t.compare(&mill_file[..78], line, Input::FromFile(copy))?;
    let position = file.stream_position().map_err(error)?;
    t.runs
        .same(1, 0, position, || "input read after a refusal".to_string())?;

    group.finish(
        &[(&t.runs, FILE_NUMBERS), (&t.lines, &[0, 11, 12])],
        &features,
    )
}
