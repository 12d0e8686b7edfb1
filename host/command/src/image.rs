//! Array images in files: read whole, written whole.
use crate::complaint::{complaint, Complaint};
use crate::hex_fault;
use crate::source::Source;
use crate::whole::{Held, Kind};
use oxterin::{hex_read, hex_text, ImageLength, Size};

/// What is saved here.
const IMAGE: Kind = Kind {
    word: "image",
    such_as: "after.bin",
};

/// The array that an image file holds. A file of HEX text fills an array of this size, 131,072 bytes unless it is given; other files have a
/// size of their own.
pub fn load(path: &str, size: Option<Size>) -> Result<Vec<u8>, Complaint> {
    let source = Source::File(path);
    let bytes = source.read()?;
    if is_hex(path) {
        return of_hex(source, &bytes, size.unwrap_or(Size::Whole));
    }
    match Size::of_bytes(bytes.len()) {
        Some(_) => Ok(bytes),
        None => Err(wrong_length(source, &bytes, size)),
    }
}

/// The array that a HEX text fills, every other byte being FFh.
pub fn of_hex(source: Source<'_>, text: &[u8], size: Size) -> Result<Vec<u8>, Complaint> {
    let mut array = vec![0xFF; size.bytes()];
    match hex_read(text, &mut array) {
        Ok(()) => Ok(array),
        Err(error) => Err(complaint(hex_fault::find(source, text, size, error).to_string())),
    }
}

/// What a file of this name holds if it has the image of this array: HEX text if the name asks for it.
pub fn written(path: &str, array: &[u8]) -> Vec<u8> {
    match is_hex(path) {
        true => hex_text(array).expect("the array of a part has a size of which HEX is written"),
        false => array.to_vec(),
    }
}

/// Whether a file has HEX text, by its name.
fn is_hex(path: &str) -> bool {
    let path = path.to_ascii_lowercase();
    path.ends_with(".hex") || path.ends_with(".ihex")
}

/// The complaint of an image that has the length of no array, where one of this size is wanted, 131,072 bytes unless it is given.
pub fn wrong_length(source: Source<'_>, image: &[u8], size: Option<Size>) -> Complaint {
    let size = size.unwrap_or(Size::Whole);
    let wanted = size.bytes();
    let remedy = match image {
        [] => "name a file that is not empty".to_string(),
        [b':', ..] => {
            let turned = source.turned("oxterin hex from", "bin");
            let option = match size {
                Size::Whole => String::new(),
                _ => format!(" --size {wanted}"),
            };
            format!("it begins as Intel HEX does: turn it into an image first: {turned}{option}")
        }
        _ if image.len() < wanted => format!(
            "fill it up with FFh first: {}",
            source.converted(&format!("-binary -fill 0xFF 0 {wanted}"), "-binary", "bin")
        ),
        _ => format!(
            "if its first {wanted} bytes are meant, take those: {}",
            source.filtered(&format!("head -c {wanted}"), "bin")
        ),
    };
    complaint(format!("{}: {}; {remedy}", source.name(), ImageLength(image.len())))
}

/// Takes hold of the file where an image is to be saved.
pub fn hold(path: &str) -> Result<Held, Complaint> {
    IMAGE.hold(path)
}

/// Saves the image of an array.
pub fn save(held: &mut Held, array: &[u8]) -> Result<(), Complaint> {
    let bytes = written(held.path(), array);
    held.save(&bytes)
}
