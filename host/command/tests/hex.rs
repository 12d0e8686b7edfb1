//! `oxterin hex`, and HEX files of `run`, as their user sees them: what is written where, and what is complained of a faulty text.
mod common;

use common::{complaint, complaint_in, says, word};
use std::fs;
use std::path::{Path, PathBuf};

/// The end record with its line's ending.
const END: &str = ":00000001FF\n";

/// An empty folder for a test's files.
fn folder(name: &str) -> PathBuf {
    common::folder("hex", name)
}

/// An image of which no two blocks of 64 KiB and no two pages are alike.
fn image(bytes: usize) -> Vec<u8> {
    (0..bytes as u32).map(|k| (k.wrapping_mul(0x9E37_79B1) >> 24) as u8).collect()
}

/// A record with its line's ending.
fn record(kind: u8, address: u16, data: &[u8]) -> String {
    let [high, low] = address.to_be_bytes();
    let length = u8::try_from(data.len()).expect("a record's length is a byte");
    let mut bytes = [&[length, high, low, kind], data].concat();
    bytes.push(bytes.iter().fold(0, |sum, byte| sum.wrapping_sub(*byte)));
    let digits: String = bytes.iter().map(|byte| format!("{byte:02X}")).collect();
    format!(":{digits}\n")
}

#[test]
fn an_image_becomes_a_text_and_the_text_the_image() {
    let folder = folder("round");
    let (before, text, after) = (folder.join("before.bin"), folder.join("text.hex"), folder.join("after.bin"));
    for (bytes, characters, size) in [(131_072, 360_492, &[][..]), (65_536, 180_252, &["--size", "65536"])] {
        fs::write(&before, image(bytes)).expect("written");
        assert_eq!(says(&["hex", "to", word(&before), word(&text)], b""), b"");
        let written = fs::read_to_string(&text).expect("a text");
        assert_eq!(written.len(), characters);
        assert!(written.starts_with(":020000040000FA\n:10000000") && written.ends_with(END));
        assert_eq!(says(&[&["hex", "from", word(&text), word(&after)], size].concat(), b""), b"");
        assert_eq!(fs::read(&after).expect("an image"), image(bytes));
    }
    assert_eq!(fs::read_dir(&folder).expect("the folder").count(), 3);
}

#[test]
fn a_dash_is_standard_input_or_output() {
    let folder = folder("dash");
    let file = folder.join("file");
    let text = says(&["hex", "to", "-", "-"], image(131_072));
    assert_eq!(text.len(), 360_492);
    assert_eq!(says(&["hex", "from", "-", "-"], &text), image(131_072));
    assert_eq!(says(&["hex", "from", "-", word(&file)], &text), b"");
    assert_eq!(fs::read(&file).expect("an image"), image(131_072));
    assert_eq!(says(&["hex", "to", word(&file), "-"], b""), text);
    let small = says(&["hex", "to", "-", "-"], image(65_536));
    assert_eq!(says(&["hex", "--size=65,536", "from", "-", "-"], &small), image(65_536));
}

#[test]
fn bytes_that_no_record_names_are_ff_and_later_records_win() {
    let text = ":0400100001020304e2\r\n:020000040001F9\n:01FFFF00CA37\r\n:020000040000FA\n:02001100CAFE25\n:00000001ff";
    let mut wanted = vec![0xFF; 131_072];
    wanted[0x10..0x14].copy_from_slice(&[0x01, 0xCA, 0xFE, 0x04]);
    wanted[0x1_FFFF] = 0xCA;
    assert!(says(&["hex", "from", "-", "-"], text.as_bytes()) == wanted);
    assert_eq!(
        says(&["hex", "from", "-", "-", "--size", "131072"], END.as_bytes()),
        [0xFF; 131_072]
    );
    assert_eq!(says(&["hex", "from", "-", "-", "--size", "65536"], END.as_bytes()), [0xFF; 65_536]);
}

/// What is complained of a text with this name's file and this size of the array, without the file's name.
fn fault(folder: &Path, text: &[u8], size: &str) -> String {
    let (file, out) = (folder.join("fw.hex"), folder.join("out.bin"));
    fs::write(&file, text).expect("written");
    fs::write(&out, "as it was").expect("written");
    let words = complaint(&["hex", "from", word(&file), word(&out), "--size", size], b"");
    assert_eq!(fs::read(&out).expect("there"), b"as it was");
    assert_eq!(fs::read_dir(folder).expect("the folder").count(), 2);
    let words = words.replace(word(&file), "fw.hex");
    words.strip_prefix("fw.hex:").expect("the file is named first").to_string()
}

/// Asserts what is complained of texts behind a good record, on an array of 131,072 bytes.
fn faults(name: &str, cases: &[(&str, &str)]) {
    let folder = folder(name);
    for (text, wanted) in cases {
        let text = record(0, 0x10, b"good") + text;
        assert_eq!(fault(&folder, text.as_bytes(), "131072"), *wanted, "{text}");
    }
}

const ANEW: &str = "the file was damaged or edited by hand: make it anew";

#[test]
fn lines_that_are_no_records_are_named_with_what_they_have() {
    faults(
        "malformed",
        &[
            (
                "\n:00000001FF\n",
                r"2:1: refusal 12: an empty line, and each line is a record; delete it: sed '/^\r*$/d' <fw.hex >new.hex",
            ),
            (
                "\r\n:00000001FF\r\n",
                r"2:1: refusal 12: an empty line, and each line is a record; delete it: sed '/^\r*$/d' <fw.hex >new.hex",
            ),
            (
                "; made by hand\n:00000001FF\n",
                "2:1: refusal 12: the character ; stands where the colon of a record belongs; \
                 delete the line if it is no record (sed 2d <fw.hex >new.hex), or make the file anew",
            ),
            (
                " :00000001FF\n",
                r"2:1: refusal 12: a blank stands where the colon of a record belongs; delete the blanks: tr -d ' \t' <fw.hex >new.hex",
            ),
            (
                ":0O000001FF\n",
                &format!("2:3: refusal 12: the character O is no hexadecimal digit; {ANEW}"),
            ),
            (
                ":00é00001FF\n",
                &format!("2:4: refusal 12: the character U+00E9 is no hexadecimal digit; {ANEW}"),
            ),
            (
                ":00000001F\u{1A}\n",
                &format!("2:11: refusal 12: the byte 1Ah is no hexadecimal digit; {ANEW}"),
            ),
            (
                ":00 0000 01 FF\n",
                r"2:4: refusal 12: a blank is no hexadecimal digit; delete the blanks: tr -d ' \t' <fw.hex >new.hex",
            ),
            (
                ":00\t000001FF\n",
                r"2:4: refusal 12: a tab is no hexadecimal digit; delete the blanks: tr -d ' \t' <fw.hex >new.hex",
            ),
            (
                ":\u{0}000000001FF\n",
                r"2:2: refusal 12: NUL is no hexadecimal digit; save the file as plain ASCII, such as by tr -d '\000' <fw.hex >new.hex",
            ),
            (
                ":00000001FF\r:00000001FF\r",
                r"2:12: refusal 12: CR without LF; end each line with LF or CR LF: tr -s '\r' '\n' <fw.hex >new.hex",
            ),
            (
                ":00000001FF\r",
                r"2:12: refusal 12: CR without LF; end each line with LF or CR LF: tr -s '\r' '\n' <fw.hex >new.hex",
            ),
            (
                ":00000001FF\r\r\n",
                r"2:12: refusal 12: CR without LF; end each line with LF or CR LF: tr -s '\r' '\n' <fw.hex >new.hex",
            ),
            (
                ":0000\r0001FF\n",
                r"2:6: refusal 12: CR without LF stands inside a record; end each line with LF or CR LF: tr -s '\r' '\n' <fw.hex >new.hex",
            ),
            (
                ":0400:00000001FF\n",
                "2:6: refusal 12: the character : stands inside a record; if a record begins there, give it a line of its own",
            ),
            (
                ":10002000000102\n:00000001FF\n",
                &format!("2:16: refusal 12: the line has 15 characters, and its length byte 10 asks for 43; {ANEW}"),
            ),
            (
                ":10002000000102",
                "2:16: refusal 12: the line has 15 characters, and its length byte 10 asks for 43; the file may be cut off: fetch it again",
            ),
            (
                ":0\n:00000001FF\n",
                &format!("2:3: refusal 12: the line ends before its length byte does, and a record has at least 11 characters; {ANEW}"),
            ),
            (
                ":",
                "2:2: refusal 12: the line ends before its length byte does, and a record has at least 11 characters; \
                 the file may be cut off: fetch it again",
            ),
            (
                ":01002000AA3500\n:00000001FF\n",
                &format!("2:14: refusal 12: the line has 15 characters, and its length byte 01 asks for 13; {ANEW}"),
            ),
            (
                ":01002000AA35  \n:00000001FF\n",
                "2:14: refusal 12: the line has 15 characters, and its length byte 01 asks for 13: \
                 a blank stands behind the record; delete the blanks: tr -d ' \\t' <fw.hex >new.hex",
            ),
            (
                ":01002000AA35:00000001FF\n",
                "2:14: refusal 12: the line has 24 characters, and its length byte 01 asks for 13: \
                 the character : stands behind the record; if a record begins there, give it a line of its own",
            ),
            (
                ":02000001AABB98\n",
                "2:2: refusal 12: type 01 (end of file) has no data, and here its length is 02; \
                 if the text ends there, write :00000001FF: sed '2s/.*/:00000001FF/' <fw.hex >new.hex",
            ),
            (
                ":0400000400000001F7\n:00000001FF\n",
                &format!("2:2: refusal 12: type 04 (extended linear address) has two bytes of data, and here its length is 04; {ANEW}"),
            ),
            (
                ":00000004FC\n:00000001FF\n",
                &format!("2:2: refusal 12: type 04 (extended linear address) has two bytes of data, and here its length is 00; {ANEW}"),
            ),
        ],
    );
}

#[test]
fn a_wrong_checksum_is_named_beside_the_right_one() {
    faults(
        "checksum",
        &[
            (
                ":02002000CAFE17\n:00000001FF\n",
                &format!("2:14: refusal 13: the checksum is 17, and the bytes before it give 16; {ANEW}, or write 16 if they are right"),
            ),
            (
                ":00000001fe\n",
                &format!("2:10: refusal 13: the checksum is FE, and the bytes before it give FF; {ANEW}, or write FF if they are right"),
            ),
            (
                ":020000021000ED\n",
                &format!("2:14: refusal 13: the checksum is ED, and the bytes before it give EC; {ANEW}, or write EC if they are right"),
            ),
        ],
    );
}

#[test]
fn types_that_are_not_read_have_their_names() {
    faults(
        "types",
        &[
            (
                &(record(2, 0, &[0x10, 0x00]) + END),
                "2:8: refusal 14: type 02 (extended segment address) is not read; convert the file first: srec_cat fw.hex -intel -o new.hex -intel",
            ),
            (
                &record(3, 0, &[0, 0, 1, 0]),
                "2:8: refusal 14: type 03 (start segment address) is not read; it has no data, so delete the line: sed 2d <fw.hex >new.hex",
            ),
            (
                &record(5, 0, &[0, 0, 1, 0]),
                "2:8: refusal 14: type 05 (start linear address) is not read; it has no data, so delete the line: sed 2d <fw.hex >new.hex",
            ),
            (
                &record(0x2A, 0, &[]),
                "2:8: refusal 14: type 2A is not of Intel HEX, which has 00 to 05; have the file made with types 00, 01 and 04 alone",
            ),
        ],
    );
}

#[test]
fn data_that_does_not_fit_has_its_addresses() {
    faults(
        "outside",
        &[
            (
                &(record(0, 0xFFF8, &[0; 16]) + END),
                "2:4: refusal 15: data at 00FFF8h to 010007h goes past the 64 KiB that begin at 000000h; \
                 split the record first: srec_cat fw.hex -intel -o new.hex -intel -Output_Block_Alignment",
            ),
            (
                &(record(4, 0, &[0, 2]) + &record(0, 0, &[0]) + END),
                "3:4: refusal 15: data at 020000h is outside the array, which has 131072 bytes; \
                 take a file for this part, or drop what is outside first: srec_cat fw.hex -intel -crop 0 131072 -o new.hex -intel",
            ),
            (
                &(record(4, 0, &[0, 1]) + &record(4, 0, &[0xFF, 0xFF]) + &record(0, 0xFFFE, &[0, 0]) + END),
                "4:4: refusal 15: data at FFFFFFFEh to FFFFFFFFh is outside the array, which has 131072 bytes; \
                 take a file for this part, or drop what is outside first: srec_cat fw.hex -intel -crop 0 131072 -o new.hex -intel",
            ),
        ],
    );
    let folder = folder("small");
    let text = record(4, 0, &[0, 1]) + &record(0, 0x20, &[0; 16]) + END;
    assert_eq!(
        fault(&folder, text.as_bytes(), "65536"),
        "2:4: refusal 15: data at 010020h to 01002Fh is outside the array, which has 65536 bytes; give --size 131072"
    );
    let text = record(4, 0, &[0x08, 0]) + &record(0, 0x20, &[0; 16]) + END;
    assert_eq!(
        fault(&folder, text.as_bytes(), "65536"),
        "2:4: refusal 15: data at 08000020h to 0800002Fh is outside the array, which has 65536 bytes; \
         take a file for this part, or move its data down first: srec_cat fw.hex -intel -offset -0x8000000 -o new.hex -intel"
    );
}

#[test]
fn data_is_moved_down_only_if_none_lies_below_it() {
    let folder = folder("below");
    let far = record(4, 0, &[0x08, 0x01]) + &record(0, 0, b"far");
    let outside = "data at 08010000h to 08010002h is outside the array, which has 131072 bytes; take a file for this part";
    let moved = ", or move its data down first: srec_cat fw.hex -intel -offset -0x8010000 -o new.hex -intel";
    let dropped = ", or drop what is outside first: srec_cat fw.hex -intel -crop 0 131072 -o new.hex -intel";
    for (behind, remedy) in [
        (record(4, 0, &[0x08, 0x02]) + &record(0, 0, b"above"), moved),
        (record(4, 0, &[0x08, 0x00]) + &record(0, 0, b""), moved),
        (record(4, 0, &[0x08, 0x00]) + &record(0, 0xFFFF, b"!"), ""),
        (record(4, 0, &[0, 0]) + &record(0, 0x10, b"inside"), dropped),
        (record(2, 0, &[0x10, 0x00]) + &record(0, 0x10, b"inside"), dropped),
        (record(2, 0, &[0xF0, 0x00]) + &record(0, 0x10, b"below"), ""),
    ] {
        let text = far.clone() + &behind + END;
        assert_eq!(
            fault(&folder, text.as_bytes(), "131072"),
            format!("2:4: refusal 15: {outside}{remedy}"),
            "{text}"
        );
    }
}

#[test]
fn a_text_that_is_not_whole_is_said_to_be_so_before_it_is_converted() {
    let segment = record(2, 0, &[0x10, 0x00]) + &record(0, 0, b"data");
    let over = record(0, 0xFFF8, &[0; 16]);
    let far = record(4, 0, &[0, 2]) + &record(0, 0, &[0]);
    let convert = "convert the file: srec_cat fw.hex -intel -o new.hex -intel";
    let split = "split the record: srec_cat fw.hex -intel -o new.hex -intel -Output_Block_Alignment";
    let drop = "drop what is outside: srec_cat fw.hex -intel -crop 0 131072 -o new.hex -intel";
    let kind = "2:8: refusal 14: type 02 (extended segment address) is not read, and";
    let past = "2:4: refusal 15: data at 00FFF8h to 010007h goes past the 64 KiB that begin at 000000h, and";
    let outside = "3:4: refusal 15: data at 020000h is outside the array, which has 131072 bytes, and";
    let cut_off = "the text has no end record, so it may be cut off";
    let behind = |line| format!("line {line} stands behind the end record, where srec_cat does not read");
    let left_out = "line 4, which does not begin with a colon, is left out by srec_cat";
    let (again, see) = ("fetch it again before you", "see what that is before you");
    faults(
        "not-whole",
        &[
            (&segment, &format!("{kind} {cut_off}: {again} {convert}")),
            (&(segment.clone() + ":000000"), &format!("{kind} {cut_off}: {again} {convert}")),
            (
                &(segment.clone() + END + &record(0, 0, b"lost") + END),
                &format!("{kind} {}: {see} {convert}", behind(5)),
            ),
            (&(segment.clone() + END + "\n"), &format!("{kind} {}: {see} {convert}", behind(5))),
            (
                &(segment.clone() + "0100000055AA\n" + END),
                &format!("{kind} {left_out}: {see} {convert}"),
            ),
            (
                &(segment.clone() + "\n:00123401b9\r\n"),
                "2:8: refusal 14: type 02 (extended segment address) is not read; \
                 convert the file first: srec_cat fw.hex -intel -o new.hex -intel",
            ),
            (&over, &format!("{past} {cut_off}: {again} {split}")),
            (&(over.clone() + END + ":"), &format!("{past} {}: {see} {split}", behind(4))),
            (&far, &format!("{outside} {cut_off}: take a file for this part, or {again} {drop}")),
            (
                &(far.clone() + END + END),
                &format!("{outside} {}: take a file for this part, or {see} {drop}", behind(5)),
            ),
        ],
    );
}

#[cfg(unix)]
#[test]
fn a_remedy_names_a_file_that_is_not_there() {
    use std::os::unix::fs::symlink;
    let folder = folder("new");
    let (text, fault) = (record(5, 0, &[0; 4]) + END, "type 05 (start linear address) is not read");
    let names = |name: &str, new: &str| {
        let remedy = format!("it has no data, so delete the line: sed 1d <{name} >{new}");
        assert_eq!(
            complaint_in(&folder, &["hex", "from", name, "-"], b""),
            format!("{name}:1:8: refusal 14: {fault}; {remedy}")
        );
    };
    for file in ["fw.hex", "new.bin"] {
        fs::write(folder.join(file), &text).expect("written");
    }
    names("fw.hex", "new.hex");
    fs::write(folder.join("new.hex"), &text).expect("written");
    names("new.hex", "new2.hex");
    symlink("nowhere", folder.join("new2.hex")).expect("linked");
    names("fw.hex", "new3.hex");
    fs::create_dir(folder.join("new3.hex")).expect("a folder");
    names("fw.hex", "new4.hex");
    fs::write(folder.join("fw.hex"), END.repeat(2)).expect("written");
    let joined = complaint_in(&folder, &["hex", "from", "fw.hex", "-"], b"");
    assert!(joined.contains("two.hex -intel -o new4.hex -intel; else delete it: head -n 1 <fw.hex >new4.hex"));
}

#[test]
fn a_text_ends_with_its_end_record() {
    let cut_off =
        "the text ends without an end record, so the file may be cut off; fetch it again, or add the line :00000001FF if it is whole";
    faults(
        "end",
        &[
            ("", &format!("2:1: refusal 16: {cut_off}")),
            (":020000040000FA", &format!("2:16: refusal 16: {cut_off}")),
            (
                ":00000001FF\n\n",
                "3:1: refusal 16: an empty line stands behind the end record; delete it: head -n 2 <fw.hex >new.hex",
            ),
            (
                ":00000001FF\r\n\u{1A}",
                "3:1: refusal 16: the byte 1Ah stands behind the end record; delete it: head -n 2 <fw.hex >new.hex",
            ),
            (
                ":00000001FF\n:00000001FF\n",
                "3:1: refusal 16: a record stands behind the end record; if two texts were joined, join them by \
                 srec_cat one.hex -intel two.hex -intel -o new.hex -intel; else delete it: head -n 2 <fw.hex >new.hex",
            ),
        ],
    );
    assert_eq!(
        fault(&folder("empty"), b"", "131072"),
        "1:1: refusal 16: the text is empty; name a file that has records"
    );
}

#[test]
fn files_that_are_no_hex_at_all_are_known() {
    let folder = folder("no-hex");
    for (text, wanted) in [
        (
            &b"\xEF\xBB\xBF:00000001FF\n"[..],
            "1:1: refusal 12: a byte order mark; delete it: tail -c +4 <fw.hex >new.hex",
        ),
        (
            b"\xFF\xFE:\0",
            "1:1: refusal 12: a text in UTF-16, and HEX is ASCII; convert it first: iconv -f UTF-16 -t ASCII <fw.hex >new.hex",
        ),
        (
            b"S00600004844521B\n",
            "1:1: refusal 12: a Motorola S-record; convert the file first: srec_cat fw.hex -motorola -o new.hex -intel",
        ),
        (
            &[0xFF; 65_536],
            "1:1: refusal 12: no colon, and as many bytes as an image has; if it is one, make HEX of it first: oxterin hex to fw.hex new.hex",
        ),
        (
            &[b"S1", &[b'0'; 131_070][..]].concat(),
            "1:1: refusal 12: no colon, and as many bytes as an image has; if it is one, make HEX of it first: oxterin hex to fw.hex new.hex",
        ),
        (
            &[&[0xFF, 0xFE], &[0; 65_534][..]].concat(),
            "1:1: refusal 12: no colon, and as many bytes as an image has; if it is one, make HEX of it first: oxterin hex to fw.hex new.hex",
        ),
        (
            b"\x7FELF",
            "1:1: refusal 12: the byte 7Fh stands where the colon of a record belongs; \
             delete the line if it is no record (sed 1d <fw.hex >new.hex), or make the file anew",
        ),
    ] {
        assert_eq!(fault(&folder, text, "131072"), wanted);
    }
}

#[test]
fn a_fault_of_standard_input_is_one_of_its_lines() {
    let text = record(0, 0, b"data") + &record(2, 0, &[0x10, 0x00]) + END;
    assert_eq!(
        complaint(&["hex", "from", "-", "-"], text.as_bytes()),
        "standard input:2:8: refusal 14: type 02 (extended segment address) is not read; convert the file first: srec_cat - -intel -o - -intel"
    );
    let missing = folder("unwritten").join("out.bin");
    complaint(&["hex", "from", "-", word(&missing)], text.as_bytes());
    assert!(!missing.exists());
}

#[test]
fn an_image_of_another_size_is_named_with_its_size_and_a_remedy() {
    let folder = folder("sizes");
    let (file, out) = (folder.join("fw.bin"), folder.join("out.hex"));
    fs::write(&out, "as it was").expect("written");
    let sizes = "an image has 65,536 or 131,072 bytes, and this one has";
    for (bytes, wanted) in [
        (vec![], format!("fw.bin: {sizes} 0; name a file that is not empty")),
        (
            vec![0; 100_000],
            format!("fw.bin: {sizes} 100000; fill it up with FFh first: srec_cat fw.bin -binary -fill 0xFF 0 131072 -o new.bin -binary"),
        ),
        (
            vec![0; 131_073],
            format!("fw.bin: {sizes} 131073; if its first 131072 bytes are meant, take those: head -c 131072 <fw.bin >new.bin"),
        ),
        (
            END.into(),
            format!("fw.bin: {sizes} 12; it begins as Intel HEX does: turn it into an image first: oxterin hex from fw.bin new.bin"),
        ),
    ] {
        fs::write(&file, bytes).expect("written");
        for words in [
            &["hex", "to", word(&file), word(&out)][..],
            &["run", "--image", word(&file), "--save", word(&out)],
        ] {
            assert_eq!(complaint(words, b"").replace(word(&file), "fw.bin"), wanted);
        }
        assert_eq!(fs::read(&out).expect("there"), b"as it was");
    }
    fs::write(&file, image(65_536)).expect("written");
    assert_eq!(
        complaint(&["run", "--image", word(&file), "--size", "131072"], b""),
        "--size 131072: the image has 65536 bytes; leave --size out, or give an image of that size"
    );
    assert!(complaint(&["hex", "to", "-", "-"], b"abc").contains("has 3; fill it up with FFh first: srec_cat - -binary "));
}

#[test]
fn the_remedy_for_an_image_goes_by_the_size_that_is_given() {
    let folder = folder("given-size");
    for (bytes, size, remedy) in [
        (
            vec![0; 1000],
            "65536",
            "srec_cat fw.bin -binary -fill 0xFF 0 65536 -o new.bin -binary",
        ),
        (
            vec![0; 1000],
            "131072",
            "srec_cat fw.bin -binary -fill 0xFF 0 131072 -o new.bin -binary",
        ),
        (
            vec![0; 100_000],
            "65536",
            "if its first 65536 bytes are meant, take those: head -c 65536 <fw.bin >new.bin",
        ),
        (vec![0; 200_000], "131072", "head -c 131072 <fw.bin >new.bin"),
        (END.into(), "65536", "oxterin hex from fw.bin new.bin --size 65536"),
        (END.into(), "131072", "oxterin hex from fw.bin new.bin"),
    ] {
        fs::write(folder.join("fw.bin"), bytes).expect("written");
        let said = complaint_in(&folder, &["run", "--image", "fw.bin", "--size", size], b"");
        assert!(
            said.ends_with(&format!(": {remedy}")) || said.ends_with(&format!("; {remedy}")),
            "{said}"
        );
    }
}

#[cfg(unix)]
#[test]
fn files_are_saved_behind_links_with_their_permissions() {
    use std::os::unix::fs::{symlink, PermissionsExt};
    let folder = folder("links");
    let (file, link) = (folder.join("private"), folder.join("link"));
    fs::write(&file, "old").expect("written");
    fs::set_permissions(&file, fs::Permissions::from_mode(0o600)).expect("set");
    symlink(&file, &link).expect("linked");
    says(&["hex", "from", "-", word(&link)], END.as_bytes());
    assert_eq!(fs::read(&file).expect("saved"), [0xFF; 131_072]);
    says(&["hex", "to", "-", word(&link)], [0xFF; 65_536]);
    assert_eq!(fs::read(&file).expect("saved").len(), 180_252);
    assert_eq!(fs::metadata(&file).expect("there").permissions().mode() & 0o777, 0o600);
    assert!(fs::symlink_metadata(&link).expect("there").is_symlink());
    assert_eq!(fs::read_dir(&folder).expect("the folder").count(), 2);
}

#[cfg(unix)]
#[test]
fn links_to_what_is_not_there_yet_are_followed() {
    use std::os::unix::fs::symlink;
    let folder = folder("dangling");
    let inner = folder.join("inner");
    fs::create_dir(&inner).expect("a folder");
    symlink("inner/link", folder.join("first")).expect("linked");
    symlink("file", inner.join("link")).expect("linked");
    says(&["hex", "from", "-", word(&folder.join("first"))], END.as_bytes());
    assert_eq!(fs::read(inner.join("file")).expect("saved"), [0xFF; 131_072]);
    for link in [folder.join("first"), inner.join("link")] {
        assert!(fs::symlink_metadata(link).expect("there").is_symlink());
    }
    assert_eq!(fs::read_dir(&inner).expect("the folder").count(), 2);
    symlink("circle", folder.join("circle")).expect("linked");
    let said = complaint(&["hex", "from", "-", word(&folder.join("circle"))], END.as_bytes());
    assert!(said.ends_with("circle: a link that leads to itself; name a file"), "{said}");
}

#[test]
fn words_that_name_no_file_are_refused_before_anything_is_read() {
    let folder = folder("no-file");
    fs::write(folder.join("file"), "as it was").expect("written");
    for path in ["", "zz/", "zz/.", "zz/..", "file/", "file/."] {
        for words in [
            &["hex", "from", "no such file", path][..],
            &["hex", "to", "no such file", path],
            &["run", "--save", path],
        ] {
            let said = complaint_in(&folder, words, b"");
            assert_eq!(
                said,
                format!("{path:?} is not the name of a file, so no image is saved there; name a file, such as after.bin")
            );
        }
    }
    assert_eq!(fs::read(folder.join("file")).expect("there"), b"as it was");
    assert_eq!(fs::read_dir(&folder).expect("the folder").count(), 1);
}

#[test]
fn run_takes_and_saves_hex_by_the_names_of_files() {
    let folder = folder("run");
    let frames = b"06\n02 00 12 34 0F\n";
    for (bytes, size, names) in [
        (131_072, &[][..], ["before.hex", "after.ihex"]),
        (65_536, &["--size", "65536"], ["before.IHEX", "after.Hex"]),
    ] {
        let [before, after] = names.map(|name| folder.join(name));
        let mut array = image(bytes);
        fs::write(&before, says(&["hex", "to", "-", "-"], &array)).expect("written");
        says_frames(&[&["run", "--image", word(&before), "--save", word(&after)], size].concat(), frames);
        array[0x1234] &= 0x0F;
        assert_eq!(fs::read(&after).expect("saved"), says(&["hex", "to", "-", "-"], &array));
        let plain = folder.join("after.bin");
        says_frames(&[&["run", "--image", word(&before), "--save", word(&plain)], size].concat(), frames);
        assert_eq!(fs::read(&plain).expect("saved"), array);
        says_frames(&["run", "--image", word(&plain), "--save", word(&after)], frames);
        assert_eq!(fs::read(&after).expect("saved"), says(&["hex", "to", "-", "-"], &array));
    }
}

/// Runs frames, of which nothing is complained.
fn says_frames(words: &[&str], frames: &[u8]) {
    assert!(says(words, frames).starts_with(b"06 > FF ST 12\n02 00 12 34 0F "));
}

#[test]
fn run_refuses_a_faulty_text_and_saves_nothing() {
    let folder = folder("run-refused");
    let (before, after) = (folder.join("before.hex"), folder.join("after.hex"));
    fs::write(&before, record(4, 0, &[0, 1]) + &record(0, 0, b"data") + END).expect("written");
    fs::write(&after, "as it was").expect("written");
    let words = ["run", "--image", word(&before), "--save", word(&after), "--size", "65536"];
    let wanted = "before.hex:2:4: refusal 15: data at 010000h to 010003h is outside the array, which has 65536 bytes; give --size 131072";
    assert!(complaint(&words, b"06\n").ends_with(wanted));
    assert_eq!(fs::read(&after).expect("there"), b"as it was");
    says(&words[..5], b"06\n");
    assert_eq!(fs::read(&after).expect("saved").len(), 360_492);
}

#[test]
fn wrong_words_are_complained_of_with_a_remedy() {
    for (words, remedy) in [
        (&["hex"][..], "hex to IMAGE TEXT, or hex from TEXT IMAGE"),
        (
            &["hex", "into", "a", "b"],
            "hex into: write hex to IMAGE TEXT, or hex from TEXT IMAGE",
        ),
        (&["hex", "to", "a"], "oxterin hex to IMAGE TEXT"),
        (&["hex", "from"], "oxterin hex from TEXT IMAGE"),
        (&["hex", "from", "a", "b", "c"], "c is a third one"),
        (&["hex", "to", "a", "b", "--size", "65536"], "leave it out"),
        (&["hex", "from", "a", "b", "--size", "1024"], "131072 or 65536"),
        (&["hex", "from", "a", "b", "--sise", "1024"], "--help"),
        (&["hex", "from", "no such file", "-"], "no such file: "),
        (&["hex", "from", "-", "no such folder/x"], "a folder that can be written"),
        (&["hex", "from", "-", "/dev/null"], "name a file"),
    ] {
        let complaint = complaint(words, b"");
        assert!(complaint.contains(remedy), "{words:?}: {complaint}");
    }
}

#[test]
fn help_is_printed() {
    for words in [&["hex", "--help"][..], &["hex", "to", "--help"], &["hex", "from", "-h"]] {
        let help = String::from_utf8(says(words, b"")).expect("text");
        for part in [
            "Usage: oxterin hex to IMAGE TEXT",
            "oxterin hex from TEXT IMAGE [--size BYTES]",
            "--size BYTES",
            ".ihex",
        ] {
            assert!(help.contains(part), "{part}");
        }
    }
    for words in [["run", "--help"], ["serve", "--help"]] {
        let help = String::from_utf8(says(&words, b"")).expect("text");
        assert_eq!(help.matches(".ihex").count(), 2, "{help}");
    }
    let help = String::from_utf8(says(&["--help"], b"")).expect("text");
    assert!(help.contains("\n  hex "));
}
