//! How long an image takes to become Intel HEX text and back: the proved library, a plain Rust routine, and srec_cat as a process.
use compare::measure::{processor, short, Contender, ROUND, ROUNDS};
use compare::Random;
use std::fs;
use std::hint::black_box;
use std::io;
use std::path::PathBuf;
use std::process::{Command, ExitCode, Stdio};

/// The size of the image.
const SIZE: usize = 131_072;

/// How many characters its text has.
const CHARACTERS: usize = 360_492;

/// A job and those who do it.
struct Row {
    /// What the table calls it.
    name: &'static str,
    /// The proved library.
    proved: Contender,
    /// The plain Rust routine.
    plain: Contender,
    /// srec_cat, if it is there.
    srec_cat: Option<Contender>,
}

fn main() -> ExitCode {
    if cfg!(debug_assertions) {
        eprintln!("hex_bench: a debug build says nothing about speed; run it with --release");
        return ExitCode::from(2);
    }
    let mut random = Random::seeded(1);
    let image: Vec<u8> = (0..SIZE).map(|_| random.byte()).collect();
    let text = oxterin::hex_text(&image).expect("an array of an allowed size");
    let folder = match Folder::new(&image, &text) {
        Ok(folder) => folder,
        Err(error) => {
            eprintln!("hex_bench: the temporary folder: {error}");
            return ExitCode::from(2);
        }
    };
    let version = srec_cat_version();
    print_conditions(version.as_deref());
    let is_there = version.is_some();
    let mut start = is_there.then(|| Contender::new(process(&folder, &["-version"])));
    let mut rows = [
        Row {
            name: "image to text",
            proved: Contender::new(writing(&image, &text, |array, text| oxterin::hex_write(array, text).is_ok())),
            plain: Contender::new(writing(&image, &text, |array, text| plain::write(array, text).is_ok())),
            srec_cat: is_there.then(|| Contender::new(folder.srec_cat(&folder.image, "-binary", "-intel", &text))),
        },
        Row {
            name: "text to image",
            proved: Contender::new(reading(&image, &text, |text, array| oxterin::hex_read(text, array).is_ok())),
            plain: Contender::new(reading(&image, &text, |text, array| plain::read(text, array).is_ok())),
            srec_cat: is_there.then(|| Contender::new(folder.srec_cat(&folder.text, "-intel", "-binary", &image))),
        },
    ];
    for _ in 0..ROUNDS {
        start.iter_mut().for_each(Contender::measure);
        for row in &mut rows {
            row.proved.measure();
            row.plain.measure();
            row.srec_cat.iter_mut().for_each(Contender::measure);
        }
    }
    print_table(&rows, start.as_ref());
    ExitCode::SUCCESS
}

/// Writes the image as text over and over; it has to come out as this text.
fn writing(image: &[u8], text: &[u8], write: fn(&[u8], &mut [u8]) -> bool) -> Box<dyn FnMut(u64)> {
    let image = image.to_vec();
    let mut room = vec![0; CHARACTERS];
    assert!(write(&image, &mut room) && room == text, "the text is another one");
    Box::new(move |times| {
        for _ in 0..times {
            black_box(write(black_box(&image), &mut room));
            black_box(&room);
        }
    })
}

/// Reads the text into an array over and over; it has to come out as this image.
fn reading(image: &[u8], text: &[u8], read: fn(&[u8], &mut [u8]) -> bool) -> Box<dyn FnMut(u64)> {
    let text = text.to_vec();
    let mut array = vec![0; SIZE];
    assert!(read(&text, &mut array) && array == image, "the image is another one");
    Box::new(move |times| {
        for _ in 0..times {
            black_box(read(black_box(&text), &mut array));
            black_box(&array);
        }
    })
}

/// A folder with the image and its text for srec_cat, which goes when it is dropped.
struct Folder {
    /// The folder.
    path: PathBuf,
    /// The image.
    image: String,
    /// Its text.
    text: String,
    /// What srec_cat makes.
    made: String,
}

impl Folder {
    /// A folder of this process alone.
    fn new(image: &[u8], text: &[u8]) -> io::Result<Folder> {
        let path = std::env::temp_dir().join(format!("oxterin-hex-bench-{}", std::process::id()));
        fs::create_dir(&path)?;
        let named = |name: &str| path.join(name).to_string_lossy().into_owned();
        let folder = Folder {
            image: named("image"),
            text: named("text"),
            made: named("made"),
            path,
        };
        fs::write(&folder.image, image)?;
        fs::write(&folder.text, text)?;
        Ok(folder)
    }

    /// srec_cat, a process each time, with records of 16 bytes where it makes text; it has to make this content.
    fn srec_cat(&self, from: &str, form: &str, made_form: &str, content: &[u8]) -> Box<dyn FnMut(u64)> {
        let mut words = vec![from, form, "-o", &self.made, made_form];
        if made_form == "-intel" {
            words.push("-obs=16");
        }
        let mut run = process(self, &words);
        run(1);
        let made = fs::read(&self.made).unwrap_or_default();
        assert!(made == content, "srec_cat makes something else");
        run
    }
}

impl Drop for Folder {
    fn drop(&mut self) {
        let _ = fs::remove_dir_all(&self.path);
    }
}

/// srec_cat with these words, a process each time.
fn process(folder: &Folder, words: &[&str]) -> Box<dyn FnMut(u64)> {
    let words: Vec<String> = words.iter().map(ToString::to_string).collect();
    let path = folder.path.clone();
    Box::new(move |times| {
        for _ in 0..times {
            let ended = Command::new("srec_cat")
                .args(&words)
                .current_dir(&path)
                .stdout(Stdio::null())
                .status();
            assert!(ended.is_ok_and(|status| status.success()), "srec_cat {words:?} fails");
        }
    })
}

/// What srec_cat says of its version, if it is there.
fn srec_cat_version() -> Option<String> {
    let told = Command::new("srec_cat").arg("-version").output().ok()?;
    let told = String::from_utf8_lossy(&told.stdout).into_owned();
    Some(told.lines().next().unwrap_or("srec_cat of unknown version").to_string())
}

/// Says on what and how the times were taken.
fn print_conditions(srec_cat: Option<&str>) {
    println!("Machine: {}, {}", std::env::consts::ARCH, processor());
    println!("Proved library: {}", oxterin::BUILT);
    println!(
        "A pseudo-random image of {} bytes, {} characters of text.",
        short(SIZE as f64),
        short(CHARACTERS as f64)
    );
    println!("Best of {ROUNDS} rounds of about {ROUND:?} each, the contenders in turn, after a warm-up. Buffers and files are not cleared");
    println!("between times. The proved library is called through the safe wrapper; the plain Rust routine is in");
    println!("host/compare/src/bin/hex_bench.rs.");
    match srec_cat {
        Some(version) => {
            println!("{version} is a process each time, which reads and writes files in the temporary folder; its start is that of");
            println!("`srec_cat -version`.");
        }
        None => println!("srec_cat is missing, so it was not measured: install the package srecord."),
    }
    println!();
}

/// A row for each job, with the least times in microseconds.
fn print_table(rows: &[Row], start: Option<&Contender>) {
    println!("| job | proved, us | plain Rust, us | srec_cat, us | of it its start, us | proved / plain Rust | srec_cat / proved |");
    println!("|---|--:|--:|--:|--:|--:|--:|");
    for row in rows {
        let (proved, plain) = (row.proved.best(), row.plain.best());
        let srec_cat = row.srec_cat.as_ref().map(Contender::best);
        let known = |number: Option<f64>| number.map_or("-".to_string(), short);
        println!(
            "| {} | {} | {} | {} | {} | {} | {} |",
            row.name,
            short(proved / 1e3),
            short(plain / 1e3),
            known(srec_cat.map(|srec_cat| srec_cat / 1e3)),
            known(start.map(|start| start.best() / 1e3)),
            short(proved / plain),
            known(srec_cat.map(|srec_cat| srec_cat / proved)),
        );
    }
}

/// The same jobs in plain Rust, as an engineer would write them at first: a loop over rows or lines with the same checks, nothing tuned.
/// The reader works on a copy of the array, so that a refused text changes nothing.
mod plain {
    /// The refusal's number, and the place at which the faulty record begins.
    type Refused = (u64, usize);

    /// Writes an array as text, and says how many characters it has.
    pub fn write(array: &[u8], text: &mut [u8]) -> Result<usize, Refused> {
        let needed = match array.len() {
            65_536 => 180_252,
            131_072 => 360_492,
            _ => return Err((18, 0)),
        };
        if text.len() < needed {
            return Err((17, 0));
        }
        let mut place = 0;
        for (upper, part) in array.chunks(65_536).enumerate() {
            place += put_record(&mut text[place..], 4, 0, &[0, upper as u8]);
            for (row, data) in part.chunks(16).enumerate() {
                place += put_record(&mut text[place..], 0, 16 * row, data);
            }
        }
        place += put_record(&mut text[place..], 1, 0, &[]);
        Ok(place)
    }

    /// Puts a record and its line feed at the beginning of the text, and says how many characters they have.
    fn put_record(text: &mut [u8], kind: u8, offset: usize, data: &[u8]) -> usize {
        let head = [data.len() as u8, (offset >> 8) as u8, offset as u8, kind];
        let mut sum = 0u8;
        let mut place = 1;
        text[0] = b':';
        for &byte in head.iter().chain(data) {
            put_byte(text, place, byte);
            sum = sum.wrapping_add(byte);
            place += 2;
        }
        put_byte(text, place, sum.wrapping_neg());
        text[place + 2] = b'\n';
        place + 3
    }

    /// Puts the two digits of a byte.
    fn put_byte(text: &mut [u8], place: usize, byte: u8) {
        const DIGITS: &[u8; 16] = b"0123456789ABCDEF";
        text[place] = DIGITS[usize::from(byte >> 4)];
        text[place + 1] = DIGITS[usize::from(byte & 0x0F)];
    }

    /// Reads a text into an array.
    pub fn read(text: &[u8], array: &mut [u8]) -> Result<(), Refused> {
        if array.len() != 65_536 && array.len() != 131_072 {
            return Err((18, 0));
        }
        let mut copy = array.to_vec();
        let mut upper = 0;
        let mut place = 0;
        while place < text.len() {
            let (line, next) = line_at(text, place);
            let mut bytes = [0; 260];
            let length = decode(line, &mut bytes).ok_or((12, place))?;
            let (kind, data) = (bytes[3], &bytes[4..4 + length]);
            if (kind == 1 && length != 0) || (kind == 4 && length != 2) {
                return Err((12, place));
            }
            let sum = bytes[..length + 5].iter().fold(0u8, |sum, &byte| sum.wrapping_add(byte));
            if sum != 0 {
                return Err((13, place));
            }
            match kind {
                0 => {
                    let offset = usize::from(bytes[1]) << 8 | usize::from(bytes[2]);
                    let address = upper * 65_536 + offset;
                    let is_inside = offset + length <= 65_536 && address + length <= copy.len();
                    if length > 0 && !is_inside {
                        return Err((15, place));
                    }
                    if length > 0 {
                        copy[address..address + length].copy_from_slice(data);
                    }
                }
                1 if next < text.len() => return Err((16, next)),
                1 => {
                    array.copy_from_slice(&copy);
                    return Ok(());
                }
                4 => upper = usize::from(data[0]) << 8 | usize::from(data[1]),
                _ => return Err((14, place)),
            }
            place = next;
        }
        Err((16, text.len()))
    }

    /// The line that begins at this place, without its ending, and the place behind it.
    fn line_at(text: &[u8], place: usize) -> (&[u8], usize) {
        let rest = &text[place..];
        match rest.iter().position(|&character| character == b'\n') {
            Some(feed) => {
                let line = &rest[..feed];
                (line.strip_suffix(b"\r").unwrap_or(line), place + feed + 1)
            }
            None => (rest, text.len()),
        }
    }

    /// The bytes of a line, if it is a colon and the digit pairs that its length asks for; the length is given back.
    fn decode(line: &[u8], bytes: &mut [u8; 260]) -> Option<usize> {
        let digits = line.strip_prefix(b":")?;
        if digits.len() < 10 || digits.len() > 520 || digits.len() % 2 != 0 {
            return None;
        }
        for (byte, pair) in bytes.iter_mut().zip(digits.chunks(2)) {
            *byte = digit(pair[0])? << 4 | digit(pair[1])?;
        }
        let length = usize::from(bytes[0]);
        (digits.len() == 2 * (length + 5)).then_some(length)
    }

    /// The value of a digit.
    fn digit(character: u8) -> Option<u8> {
        match character {
            b'0'..=b'9' => Some(character - b'0'),
            b'A'..=b'F' => Some(character - b'A' + 10),
            b'a'..=b'f' => Some(character - b'a' + 10),
            _ => None,
        }
    }
}

#[cfg(test)]
mod tests {
    use super::*;
    use compare::hex::{Case, Generator};

    #[test]
    fn the_plain_routine_does_the_same_job() {
        let mut generator = Generator::new(Random::seeded(2), SIZE);
        let [mut array, mut other] = [0; 2].map(|_| vec![0x5A; SIZE + 1]);
        for _ in 0..10_000 {
            let Case { text, array: length } = generator.case();
            let told = oxterin::hex_read(&text, &mut array[..length]);
            let told = told.map_err(|error| (error.refusal.number().into(), error.place));
            assert_eq!(told, plain::read(&text, &mut other[..length]), "{}", text.escape_ascii());
            assert!(array == other);
        }
        for size in [65_535, 65_536, SIZE] {
            for room in [180_251, 180_252, CHARACTERS - 1, CHARACTERS, CHARACTERS + 1] {
                let [mut text, mut same] = [0; 2].map(|_| vec![0; room]);
                let told = oxterin::hex_write(&array[..size], &mut text);
                let told = told.map_err(|error| (error.refusal.number().into(), error.place));
                assert_eq!(told, plain::write(&array[..size], &mut same));
                assert!(text == same);
            }
        }
    }
}
