//! `oxterin bill`, and accounts in `oxterin run`, as their user sees them: who is billed for what, in a table, in numbers and on a page.
mod common;

use common::{complaint, files, oxterin, word};
use std::fs;
use std::path::PathBuf;

/// Runs the command, which has to end well and complain of nothing: what it says.
fn says(words: &[&str], input: &str) -> String {
    String::from_utf8(common::says(words, input)).expect("text")
}

/// An empty folder for a test's files.
fn folder(name: &str) -> PathBuf {
    common::folder("bill", name)
}

/// The path of an example.
fn example(name: &str) -> String {
    format!("{}/../../examples/{name}", env!("CARGO_MANIFEST_DIR"))
}

/// The bill of frames as comma-separated values, less the heads.
fn billed(frames: &str) -> String {
    let text = says(&["bill", "--csv"], frames);
    text.strip_prefix("account,total,most,operations\n").expect("the heads").to_string()
}

/// A day of four operations: account 7's chip erase of 1,600,000 ticks, which ends; account 12's 4-KiB erase of 50,000, which ends; account
/// 200's program of 256 bytes, of whose 2,000 ticks 1,999 pass before a reset; and account 7's page erase, which is still running after 6
/// of its 7,000. Between them lie polls, frames that a busy part ignores, and ticks for which it is idle.
fn long_day() -> String {
    let data: String = (0..=255).map(|byte| format!(" {byte:02X}")).collect();
    format!(
        "06 account=7\n\
         31 10 account=7        # the reset is heard from now on\n\
         06 account=7\n\
         C7 account=7 +10\n\
         05 00 account=12 +600000\n\
         05 00 account=12 +600000\n\
         06 account=12 +399999  # one tick too early\n\
         05 00 account=7 +1\n\
         06 account=12 +5\n\
         20 00 10 00 account=12\n\
         05 00 account=12 +50000\n\
         06 account=200\n\
         02 00 20 00{data} account=200\n\
         05 00 00 account=7 @1\n\
         F0 D0 account=12 +1994 @1\n\
         06 account=7\n\
         81 00 20 00 account=7 @3\n\
         05 00 account=3 @3\n"
    )
}

/// The first story: 300 chip erases without a write enable, and 300 polls.
///
/// By hand: no frame sets the latch, so none of the 300 erases begins, no tick is ever busy, and every account's total is 0. There are
/// 2 * 300 = 600 frames, each with 144,000,000 ticks before it and none of its own: 86,400,000,000, which is 24 hours of microseconds. All
/// 300 erases come to nothing for the one cause, and the first stands after four lines of comment, an empty one and one more of comment.
#[test]
fn a_saturday_without_the_latch_costs_nothing_and_changes_nothing() {
    let frames = example("saturday-unlatched.frames");
    let kept = fs::read_to_string(example("saturday-unlatched.bill")).expect("the kept bill");
    assert_eq!(says(&["bill", &frames], ""), kept);
    assert_eq!(says(&["bill", &frames, "--csv"], ""), "account,total,most,operations\n");
    for line in [
        "Of 600 frames, 300 came to nothing.",
        "      7      300   latch clear   line 7, chip erase",
        "Every frame of account 12 was carried out.",
    ] {
        assert_eq!(kept.lines().filter(|there| *there == line).count(), 1, "{line}");
    }
    let text = fs::read_to_string(&frames).expect("the example");
    assert_eq!(text.lines().position(|line| line.starts_with("C7")), Some(6));
    let sent = |begin: &str| text.lines().filter(|line| line.starts_with(begin)).count();
    assert_eq!((sent("C7 account=7 "), sent("05 00 account=12 "), sent("06")), (300, 300, 0));

    let folder = folder("unlatched");
    let (before, after) = (folder.join("before.bin"), folder.join("after.bin"));
    let answers = says(&["run", &frames, "--save", word(&after)], "");
    assert!(fs::read(&after).expect("saved") == vec![0xFF; 131_072]);
    assert_eq!(answers.lines().count(), 600);
    assert!(answers.lines().all(|line| line == "C7 > FF ST 10" || line == "05 00 > FF 10 ST 10"));
    let image: Vec<u8> = (0..131_072u32).map(|k| (k.wrapping_mul(0x9E37_79B1) >> 24) as u8).collect();
    fs::write(&before, &image).expect("written");
    says(&["run", &frames, "--image", word(&before), "--save", word(&after)], "");
    assert!(fs::read(&after).expect("saved") == image);
}

/// The second story: a chip erase every hour for account 7, while account 12 polls.
///
/// By hand: a chip erase takes 1,600,000 ticks, by the typical settings. Behind it come 24 polls with 64,000 ticks before each, 1,536,000
/// in all, and a status read of 40 bytes at 1,000 ticks each: 1,576,000, so 24,000 are left. The second such read lasts 40,000, and of
/// those 24,000 come off. So each erase is billed all of its 1,600,000 ticks and no more; 24 of them are 38,400,000. All are account 7's,
/// though account 12 sent every frame in which they passed.
///
/// An hour has 2 + 24 + 2 + 1 = 29 frames, a day 24 * 29 = 696. Its ticks are 1,536,000 + 80,000 + 3,598,384,000 = 3,600,000,000, and
/// those of a day 86,400,000,000.
#[test]
fn a_saturday_with_the_latch_is_billed_to_the_one_who_began_it() {
    let frames = example("saturday-latched.frames");
    let kept = fs::read_to_string(example("saturday-latched.bill")).expect("the kept bill");
    assert_eq!(says(&["bill", &frames], ""), kept);
    assert_eq!(
        says(&["bill", &frames, "--csv"], ""),
        "account,total,most,operations\n7,38400000,1600000,24\n"
    );
    assert!(
        !kept.contains("nothing") && !kept.contains("aborted"),
        "every frame was carried out"
    );
}

/// The story in docs/SATURDAY.md shows the two kept bills as they are, moved to the right.
#[test]
fn the_story_shows_the_kept_bills() {
    let story = fs::read_to_string(example("../docs/SATURDAY.md")).expect("the story");
    for name in ["saturday-unlatched", "saturday-latched"] {
        let kept = fs::read_to_string(example(&format!("{name}.bill"))).expect("the kept bill");
        let moved: String = kept
            .lines()
            .map(|line| format!("    {line}").trim_end().to_string() + "\n")
            .collect();
        assert!(
            story.contains(&format!("    ./oxterin bill examples/{name}.frames\n\n{moved}\n")),
            "{name}"
        );
    }
}

/// Account 12's frame 06 in line 7 comes a tick before the erase ends and is ignored; line 9's is heard. The program in line 13 loses 3
/// ticks by the read in line 14, 1,994 before the reset and 2 by the reset's own bytes. The page erase begins at the end of its frame, so
/// that of the ticks 12 + 6 only the last 6 are billed.
///
/// Ticks: 10 + 600,000 + 600,000 + 399,999 + 1 = 1,600,010, then 5 + 50,000, then 3 + 1,994 + 2, then 12 + 6: 1,652,032. Busy are
/// 1,600,000 + 50,000 + 1,999 + 6 = 1,652,005, and idle the 10, 5 and 12 others. The bars: 30 for 1,600,006, of which 50,000 make 0.9
/// and 1,999 make 0.04, each at least one mark.
#[test]
fn the_table_has_a_row_for_each_account_and_one_for_all() {
    let expected = "\
account   total ticks   most for one operation   operations
      7     1,600,006                1,600,000            2   ##############################
     12        50,000                   50,000            1   #
    200         1,999                    1,999            1   #
    all     1,652,005                1,600,000            4

Still running: account 7's page erase of line 17, billed so far for 6 of its 7,000 ticks.

frames sent           18
ticks passed   1,652,032
of them busy   1,652,005

Of 18 frames, 1 came to nothing.

account   frames   cause   first
     12        1   busy    line 7, write enable

busy: poll by 05h until bit 0 is 0, then send the frame again; if RSTE is 1, F0h D0h ends the operation early

Every frame of accounts 3, 7 and 200 was carried out.
";
    assert_eq!(says(&["bill"], &long_day()), expected);
}

#[test]
fn the_values_are_numbers_alone() {
    assert_eq!(billed(&long_day()), "7,1600006,1600000,2\n12,50000,50000,1\n200,1999,1999,1\n");
}

#[test]
fn columns_are_aligned_however_long_their_numbers_are() {
    let erases = "06 account=255\nC7 account=255\n05 00 +60000000 account=9\n".repeat(1_000);
    let small = "06 account=9\n02 00 00 00 5A account=9\n05 00 account=255 +12\n";
    let text = says(&["bill", "--set", "chip-erase=60,000,000"], &format!("{erases}{small}"));
    let expected = "\
account      total ticks   most for one operation   operations
      9               12                       12            1   #
    255   60,000,000,000               60,000,000        1,000   ##############################
    all   60,000,000,012               60,000,000        1,001

frames sent             3,003
ticks passed   60,000,000,012
of them busy   60,000,000,012
";
    assert_eq!(text, expected);
}

#[test]
fn ticks_beyond_64_bits_are_still_counted() {
    let frames = "/0 +18446744073709551615\n".repeat(2);
    let text = says(&["bill"], &frames);
    assert!(text.contains("\nticks passed   36,893,488,147,419,103,230\n"), "{text}");
    let erase = format!("06\n81 00 00 00\n{frames}");
    assert_eq!(billed(&erase), "0,7000,7000,1\n");
}

#[test]
fn nothing_begun_is_nothing_billed() {
    for (frames, counts) in [
        ("", "frames sent    0\nticks passed   0\nof them busy   0\n"),
        ("# a comment\n\n", "frames sent    0\nticks passed   0\nof them busy   0\n"),
        ("06 +5\n05 00 @2\n", "frames sent    2\nticks passed   9\nof them busy   0\n"),
    ] {
        let bill = "Nothing was billed to anyone: no frame began an operation.\n\n";
        assert_eq!(says(&["bill"], frames), format!("{bill}{counts}"));
        assert_eq!(billed(frames), "");
    }
}

/// An operation that began with the last frame has a row, though no tick of it has passed.
#[test]
fn an_operation_without_a_tick_is_on_the_bill() {
    assert_eq!(billed("06 account=8\n01 00 account=8\n"), "8,0,0,1\n");
    let text = says(&["bill"], "06 account=8\n01 00 account=8 +9\n");
    let expected = "\
account   total ticks   most for one operation   operations
      8             0                        0            1
    all             0                        0            1

Still running: account 8's status write of line 2, billed so far for 0 of its 20,000 ticks.

frames sent    2
ticks passed   9
of them busy   0
";
    assert_eq!(text, expected);
}

#[test]
fn frames_come_from_a_file_or_from_standard_input() {
    let folder = folder("sources");
    let file = folder.join("day.frames");
    fs::write(&file, long_day()).expect("written");
    let bill = says(&["bill", word(&file)], "");
    assert_eq!(says(&["bill", "-"], &long_day()), bill);
    assert_eq!(says(&["bill"], &long_day()), bill);
    assert_eq!(says(&["bill"], &long_day().replace('\n', "\r\n")), bill);
}

/// Account 7 begins a 4-KiB erase of 50,000 ticks and hands the slot over. All of it is account 7's, whoever polls, sends what is
/// ignored, or says nothing while it runs; what account 12 begins afterwards is account 12's.
#[test]
fn a_slot_that_is_handed_over_while_busy_is_billed_to_the_first() {
    let begun = "06 account=7\n20 00 00 00 account=7\n";
    for meanwhile in [
        "05 00 account=12 +50000\n",
        "05 00 account=12 +49999\n05 00 account=12 +1\n",
        "C7 account=12 +20000\n06 account=12 +20000\n03 00 00 00 00 account=30 +10000\n",
        "05 00 00 00 00 00 account=12 +45000 @1000\n",
        "account=12 +60000\n",
    ] {
        assert_eq!(billed(&format!("{begun}{meanwhile}")), "7,50000,50000,1\n", "{meanwhile}");
    }
    let next = "06 account=12 +50000\n81 00 00 00 account=12\n05 00 account=7 +7000\n";
    assert_eq!(billed(&format!("{begun}{next}")), "7,50000,50000,1\n12,7000,7000,1\n");
}

/// RSTE is set by 31h, so F0h D0h stops the erase. What elapses before that frame and its own ticks are billed; what comes after is not.
/// Without RSTE the frame is ignored, and the erase goes on.
#[test]
fn a_reset_ends_what_is_billed() {
    let erase = "06 account=7\nC7 account=7\n05 00 account=12 +1000\nF0 D0 account=12 +500 @10\n05 00 account=12 +9000\n";
    let heard = format!("06 account=7\n31 10 account=7\n{erase}");
    assert_eq!(billed(&heard), "7,1520,1520,1\n");
    assert_eq!(billed(erase), "7,10520,10520,1\n");
    let again = format!("{heard}06 account=12\nC7 account=12\nF0 D0 account=7 +30\n");
    assert_eq!(billed(&again), "7,1520,1520,1\n12,30,30,1\n");
    let table = says(&["bill"], &heard);
    assert!(!table.contains("Still running"), "{table}");
}

#[test]
fn the_option_says_whose_frames_they_are_where_lines_do_not() {
    let frames = "06\n02 00 00 00 5A\n05 00 +12\n06 account=0\n02 00 00 01 5A account=0\n05 00 +12\n";
    assert_eq!(says(&["bill", "--csv"], frames), "account,total,most,operations\n0,24,12,2\n");
    assert_eq!(
        says(&["bill", "--csv", "--account", "255"], frames),
        "account,total,most,operations\n0,12,12,1\n255,12,12,1\n"
    );
}

/// With WP low and BPL set a status write is aborted. Each byte of the poll takes 4 of the program's 12 ticks.
#[test]
fn a_bill_takes_the_options_of_a_run() {
    let write = "06\n01 00\n";
    assert_eq!(billed(write), "0,0,0,1\n");
    assert_eq!(
        says(&["bill", "--csv", "--bpl", "--wp", "low"], write),
        "account,total,most,operations\n"
    );
    let poll = "06\n02 00 00 00 5A\n05 00\n";
    let words = ["bill", "--csv", "--ticks-per-byte", "4", "--size=65536"];
    assert_eq!(says(&words, poll), "account,total,most,operations\n0,8,8,1\n");
    let words = ["bill", "--csv", "--ticks-per-byte=1000", "--set", "byte-program=7"];
    assert_eq!(says(&words, poll), "account,total,most,operations\n0,7,7,1\n");
}

#[test]
fn a_bad_line_names_its_place_and_there_is_no_bill() {
    let remedy = "after account= comes, with no blank between, whose frame it is, from 0 to 255 (refusal 9), such as account=7";
    for account in ["256", "", "-1", "x", "1,2", "18446744073709551616"] {
        let frames = format!("06 account=255\n05 00 account={account}\n");
        let wanted = format!("standard input, line 2, column 7: account={account}: {remedy}");
        assert_eq!(complaint(&["bill"], &frames), wanted);
        let run = oxterin(&["run"], &frames);
        assert_eq!(String::from_utf8_lossy(&run.stderr), format!("oxterin: {wanted}\n"));
        assert_eq!(run.stdout, b"06 > FF ST 12\n");
    }
    assert_eq!(
        complaint(&["bill"], "06 acount=7\n"),
        "standard input, line 1, column 4: acount=7: of words with = there are wp=low, wp=high and account=, after which comes a number, \
         such as account=7"
    );
    assert_eq!(
        complaint(&["bill"], "06 account=7 account=7\n"),
        "standard input, line 1, column 14: account=7: said twice; leave one out"
    );
}

#[test]
fn a_refused_frame_names_its_place_and_there_is_no_bill() {
    let folder = folder("refused");
    let (frames, page) = (folder.join("day.frames"), folder.join("page.html"));
    fs::write(&frames, "06\n\n81 00 00 00\n05 00 /17 +7000\n").expect("written");
    let wanted = format!(
        "{}, line 4: refusal 4: the bit count does not need exactly that many bytes (2 bytes, 17 bits); so there is no bill",
        word(&frames)
    );
    for words in [
        &["bill", word(&frames)][..],
        &["bill", word(&frames), "--csv", "--html", word(&page)],
    ] {
        assert_eq!(complaint(words, ""), wanted);
    }
    fs::write(&page, "an older page").expect("written");
    assert_eq!(complaint(&["bill", word(&frames), "--html", word(&page)], ""), wanted);
    assert_eq!(fs::read_to_string(&page).expect("there"), "an older page");
    assert_eq!(files(&folder), ["day.frames", "page.html"]);
}

#[test]
fn wrong_words_are_complained_of_with_a_remedy() {
    for (words, remedy) in [
        (&["bill", "no such file"][..], "no such file: "),
        (&["bill", "a", "b"], "bill takes one file, and b is a second one"),
        (&["bill", "--save", "x"], "unknown option --save"),
        (&["bill", "--account"], "wants a value"),
        (
            &["bill", "--account", "256"],
            "--account 256: an account is a number from 0 to 255 (refusal 9)",
        ),
        (&["run", "--account", "x"], "--account x: an account is a number from 0 to 255"),
        (&["bill", "--html", "no such folder/x.html"], "a folder that can be written"),
        (&["bill", "--html", "/dev/null"], "not a plain file, so no page is saved there"),
        (&["bill", "--html", "."], "name a file"),
        (&["bill", "--html", ""], "so no page is saved there; name a file, such as bill.html"),
        (&["bills"], "there are session, run, why, bill, serve, state and hex"),
    ] {
        let complaint = complaint(words, "06\n");
        assert!(complaint.contains(remedy), "{words:?}: {complaint}");
    }
}

#[test]
fn a_page_never_takes_the_place_of_its_frames() {
    let folder = folder("itself");
    let frames = folder.join("day.frames");
    fs::write(&frames, long_day()).expect("written");
    let out = folder.join("..").join("itself").join("day.frames");
    let complaint = complaint(&["bill", word(&frames), "--html", word(&out)], "");
    let wanted = format!(
        "the frames {} and --html {} are the same file; name another for one of them",
        word(&frames),
        word(&out)
    );
    assert_eq!(complaint, wanted);
    assert_eq!(fs::read_to_string(&frames).expect("there"), long_day());
}

#[test]
fn a_page_never_takes_the_place_of_its_image() {
    let folder = folder("image");
    let image = folder.join("image.bin");
    fs::write(&image, [0xA5; 65_536]).expect("written");
    let out = folder.join("..").join("image").join("image.bin");
    let complaint = complaint(&["bill", "--image", word(&image), "--html", word(&out)], long_day());
    let wanted = format!(
        "--image {} and --html {} are the same file; name another for one of them",
        word(&image),
        word(&out)
    );
    assert_eq!(complaint, wanted);
    assert!(fs::read(&image).expect("there") == [0xA5; 65_536]);
    assert_eq!(files(&folder), ["image.bin"]);
}

#[cfg(unix)]
#[test]
fn a_page_that_cannot_be_written_leaves_nothing_behind() {
    use std::os::unix::fs::symlink;
    let folder = folder("unwritable");
    let (circle, below) = (folder.join("circle.html"), folder.join("file/page.html"));
    symlink(&circle, &circle).expect("linked");
    fs::write(folder.join("file"), "old").expect("written");
    for out in [&circle, &below, &folder] {
        complaint(&["bill", "--html", word(out)], long_day());
    }
    assert_eq!(files(&folder), ["circle.html", "file"]);
    assert_eq!(fs::read_to_string(folder.join("file")).expect("there"), "old");
}

/// The page of these frames, in a file of this name.
fn page_of(name: &str, frames: &str) -> String {
    let folder = folder(name);
    let (file, page) = (folder.join(format!("{name}.frames")), folder.join("page.html"));
    fs::write(&file, frames).expect("written");
    let table = says(&["bill", word(&file), "--html", word(&page)], "");
    assert_eq!(table, says(&["bill"], frames), "the table is printed all the same");
    fs::read_to_string(&page).expect("a page")
}

/// A page taken apart: the names of its tags with what stands between them. Every tag that is opened is closed in turn, every attribute is
/// quoted, and every & begins a character that is named.
fn texts(page: &str) -> Vec<(Vec<String>, String)> {
    let mut rest = page.strip_prefix("<!DOCTYPE html>\n").expect("the type of the page");
    let mut open: Vec<String> = Vec::new();
    let mut texts = Vec::new();
    while let Some((text, behind)) = rest.split_once('<') {
        assert!(!text.contains('>'), "a bare > in {text:?}");
        for (at, _) in text.match_indices('&') {
            let known = ["&amp;", "&lt;", "&gt;", "&quot;", "&#39;"];
            assert!(known.iter().any(|name| text[at..].starts_with(name)), "a bare & in {text:?}");
        }
        if !text.trim().is_empty() {
            texts.push((open.clone(), text.to_string()));
        }
        let (tag, after) = behind.split_once('>').expect("a tag ends");
        rest = after;
        if let Some(name) = tag.strip_prefix('/') {
            assert_eq!(open.pop().as_deref(), Some(name), "a tag that is closed was opened last");
            continue;
        }
        let (name, attributes) = tag.split_once(' ').unwrap_or((tag, ""));
        let quotes = attributes.matches('"').count();
        assert_eq!((quotes % 2, quotes / 2), (0, attributes.matches("=\"").count()), "{tag:?}");
        match name {
            "meta" => {}
            "style" => rest = rest.split_once("</style>").expect("the style ends").1,
            _ => open.push(name.to_string()),
        }
    }
    assert_eq!((open.len(), rest), (0, "\n"), "every tag is closed");
    texts
}

/// What a page shows in each row of its tables, cell by cell.
fn rows(page: &str) -> Vec<Vec<String>> {
    let shown = |cell: &str| {
        let pieces = cell.split('<').map(|piece| piece.split_once('>').map_or(piece, |(_, text)| text));
        pieces.collect::<String>().trim().to_string()
    };
    let cells = |row: &str| {
        let row = row.split_once("</tr>").expect("a row ends").0.replace("</th>", "</td>");
        row.split_terminator("</td>").map(shown).collect()
    };
    page.split("<tr>").skip(1).map(cells).collect()
}

#[test]
fn the_page_has_a_row_for_each_account_and_each_operation() {
    let page = page_of("rows", &long_day());
    texts(&page);
    let expected: [&[&str]; 12] = [
        &[
            "Account",
            "Share of the busy ticks",
            "Ticks billed",
            "Most for one operation",
            "Operations",
        ],
        &["7", "96.9 %", "1,600,006", "1,600,000", "2"],
        &["12", "3.0 %", "50,000", "50,000", "1"],
        &["200", "0.1 %", "1,999", "1,999", "1"],
        &["All", "", "1,652,005", "1,600,000", "4"],
        &["Account", "Cause", "Frames", "First line", "First frame", "What to do"],
        &[
            "12",
            "busy",
            "1",
            "7",
            "write enable 06",
            "poll by 05h until bit 0 is 0, then send the frame again; if RSTE is 1, F0h D0h ends the operation early",
        ],
        &[
            "Began at tick",
            "Line",
            "Frame",
            "Account",
            "Ticks billed",
            "Frames sent while it ran",
        ],
        &[
            "10",
            "4",
            "chip erase C7",
            "7",
            "1,600,000 of 1,600,000 finished",
            "account 12: 2 polls, 1 other frame",
        ],
        &[
            "1,600,015",
            "10",
            "4-KiB erase 20 00 10 00",
            "12",
            "50,000 of 50,000 finished",
            "none",
        ],
        &[
            "1,650,015",
            "13",
            "program of 256 bytes 02 00 20 00 00 01 02 03 …\u{a0}(260\u{a0}bytes)",
            "200",
            "1,999 of 2,000 stopped by a reset",
            "account 7: 1 poll account 12: 1 other frame",
        ],
        &[
            "1,652,026",
            "17",
            "page erase 81 00 20 00",
            "7",
            "6 of 7,000 still running",
            "account 3: 1 poll",
        ],
    ];
    assert_eq!(rows(&page), expected);
    for width in ["width:100.00%", "width:3.12%", "width:0.12%"] {
        assert_eq!(page.matches(width).count(), 1, "{width}");
    }
}

#[test]
fn the_page_says_the_bill_in_a_sentence() {
    for (name, frames, sentence) in [
        (
            "several",
            long_day(),
            "3 accounts began 4 operations and are billed 1,652,005 ticks, all for which the part was busy; account 7 is billed the most, \
             1,600,006.",
        ),
        (
            "one",
            "06 account=9\n02 00 00 00 5A account=9\n05 00 +1\n".into(),
            "Account 9 began 1 operation and is billed 1 tick, all for which the part was busy.",
        ),
        (
            "none",
            String::new(),
            "Nothing is billed to anyone, for no frame began an operation.",
        ),
    ] {
        let page = page_of(name, &frames);
        let shown: Vec<String> = texts(&page).into_iter().map(|(_, text)| text).collect();
        assert!(shown.contains(&sentence.to_string()), "{shown:?}");
        assert!(shown.contains(&format!("Bill of {name}.frames")));
        assert_eq!(page.contains("<table"), name != "none");
        let rule = shown.last().expect("the foot of the page");
        assert!(rule.contains("billed to the account whose frame began the operation"), "{rule}");
        assert_eq!(rule.matches(". ").count() + 1, 2, "two sentences");
    }
}

/// What the page of an example says of frames that were not carried out, in the sentence above its rows; nothing if there is none.
fn causes_note(name: &str) -> Option<String> {
    let page = folder(name).join("page.html");
    says(&["bill", &example(&format!("{name}.frames")), "--html", word(&page)], "");
    let page = fs::read_to_string(&page).expect("a page");
    let shown: Vec<String> = texts(&page).into_iter().map(|(_, text)| text).collect();
    let head = shown.iter().position(|text| text == "Frames that were not carried out")?;
    let row = ["7", "latch clear", "300", "7", "chip erase C7", LATCH].map(String::from);
    assert_eq!(rows(&page)[1..], [row]);
    Some(shown[head + 1].clone())
}

/// What to do if the latch is clear.
const LATCH: &str = "send 06h before each program, erase or status write; the latch drops after every one";

#[test]
fn the_page_says_whose_frames_were_not_carried_out_and_why() {
    assert_eq!(
        causes_note("saturday-unlatched").as_deref(),
        Some("Of 600 frames, 300 came to nothing. Every frame of account 12 was carried out.")
    );
    assert_eq!(causes_note("saturday-latched"), None);
}

/// Account 7 finds the latch clear in lines 1 and 4 and too few bytes in line 3, which is aborted. In line 5 account 12 sends 11 bits of a
/// write enable, and in line 6 lets time pass. Account 9 polls. By account, and of one account in the list's order.
#[test]
fn frames_that_were_not_carried_out_are_counted_by_account() {
    let frames =
        "C7 account=7\n06 account=7\n02 00 00 00 account=7\n20 00 00 00 account=7\n06 00 /11 account=12\n+9 account=12\n05 00 account=9\n";
    let expected = "
Of 7 frames, 3 came to nothing, and 1 was aborted.

account   frames   cause          first
      7        2   latch clear    line 1, chip erase
      7        1   incomplete     line 3, program of 0 bytes
     12        1   off boundary   line 5, write enable

latch clear: send 06h before each program, erase or status write; the latch drops after every one
off boundary: clock whole bytes: chip select has to rise after a multiple of 8 bits
incomplete: 02h and 9Bh need 3 address bytes and at least 1 data byte; 81h, 20h, 52h and D8h 3 address bytes; 01h and 31h 1 data byte
aborted: the frame also dropped the latch; send 06h again before the next try

Every frame of account 9 was carried out.
";
    let bill = says(&["bill"], frames);
    assert!(bill.ends_with(&format!("of them busy   0\n{expected}")), "{bill}");
    assert_eq!(billed(frames), "");
    let shown: Vec<String> = texts(&page_of("counted", frames)).into_iter().map(|(_, text)| text).collect();
    let note =
        "Of 7 frames, 3 came to nothing, and 1 was aborted. After an abort: the frame also dropped the latch; send 06h again before the \
                next try. Every frame of account 9 was carried out.";
    assert!(shown.contains(&note.to_string()), "{shown:?}");
}

/// A state does not keep why frames came to nothing: the second bill has those of its own frames, and that of the books alone has none.
#[test]
fn causes_are_those_of_the_frames_read_now() {
    let folder = folder("months");
    let (state, page) = (folder.join("state"), folder.join("page.html"));
    says(&["state", word(&state), "--new"], "");
    let first = says(&["bill", "--state", word(&state), "-"], "C7 account=7\n05 00 account=12\n");
    assert!(first.contains("\nOf 2 frames, 1 came to nothing.\n"), "{first}");
    assert!(!first.contains("earlier"), "{first}");
    let second = says(
        &["bill", "--state", word(&state), "-", "--html", word(&page)],
        "04 account=7\nAB account=12\nAB account=12\n",
    );
    assert!(second.contains("\nframes sent    5\n"), "{second}");
    let expected = "
Of 3 frames, 2 came to nothing.

account   frames   cause           first
     12        2   already awake   line 2, resume

already awake: nothing to do: ABh wakes a part from deep power-down, and this one was awake

Every frame of account 7 was carried out.

Frames of earlier runs are not counted here.
";
    assert!(second.ends_with(expected), "{second}");
    let page = fs::read_to_string(&page).expect("a page");
    assert!(page.contains("Every frame of account 7 was carried out. Frames of earlier runs are not counted here.</p>"));
    let books = says(&["bill", "--state", word(&state)], "");
    assert!(books.ends_with("\nof them busy   0\n"), "{books}");
}

#[test]
fn the_page_needs_nothing_from_elsewhere() {
    let page = page_of("alone", &long_day());
    for word in [
        "<script", "<link", "<img", "http:", "https:", "//", "url(", "@import", "src=", "href=", "onload",
    ] {
        assert!(!page.contains(word), "{word}");
    }
    for word in ["prefers-color-scheme: dark", "@media print", "max-width", "name=\"viewport\""] {
        assert!(page.contains(word), "{word}");
    }
}

/// What a file is called is shown, never obeyed. Its folders are left out.
#[cfg(unix)]
#[test]
fn the_name_of_the_file_is_escaped() {
    let folder = folder("escaped");
    let name = "a&b <script>alert(\"1\")<!-- 'x'\n\u{7}ü.frames";
    let (file, page) = (folder.join(name), folder.join("page.html"));
    fs::write(&file, "06 # <b>&\n81 00 00 00 # </table>\n").expect("written");
    says(&["bill", word(&file), "--html", word(&page)], "");
    let page = fs::read_to_string(&page).expect("a page");
    let shown = "a&amp;b &lt;script&gt;alert(&quot;1&quot;)&lt;!-- &#39;x&#39;\u{fffd}\u{fffd}ü.frames";
    let texts = texts(&page);
    let holds = |tags: &[&str], text: &str| texts.iter().any(|(open, there)| open == tags && there == text);
    assert!(holds(&["html", "head", "title"], &format!("Bill of {shown}")));
    assert!(holds(&["html", "body", "main", "header", "h1", "bdi"], shown));
    assert!(!page.contains("escaped/") && !page.contains("<script") && !page.contains("<b>"));
}

#[test]
fn a_page_goes_beside_the_values_and_replaces_an_older_one() {
    let folder = folder("beside");
    let page = folder.join("page.html");
    fs::write(&page, "an older and longer page".repeat(10_000)).expect("written");
    let words = ["bill", "--csv", "--html", word(&page)];
    assert_eq!(
        says(&words, "06\n81 00 00 00\n05 00 +9\n"),
        "account,total,most,operations\n0,9,9,1\n"
    );
    let text = fs::read_to_string(&page).expect("a page");
    texts(&text);
    assert!(text.contains("<title>Bill of standard input</title>"));
    assert_eq!(files(&folder), ["page.html"]);
}

/// Every operation of a long day is on the page, and the account's row is their sum.
#[test]
fn a_long_page_has_them_all() {
    let folder = folder("long");
    let page = folder.join("page.html");
    says(&["bill", &example("saturday-latched.frames"), "--html", word(&page)], "");
    let page = fs::read_to_string(&page).expect("a page");
    texts(&page);
    let rows = rows(&page);
    let erases: Vec<&Vec<String>> = rows.iter().filter(|row| row.len() == 6 && row[2] == "chip erase C7").collect();
    assert_eq!(erases.len(), 24);
    for (hour, erase) in erases.iter().enumerate() {
        let wanted = ["7", "1,600,000 of 1,600,000 finished", "account 12: 26 polls"];
        assert_eq!(erase[3..], wanted, "hour {hour}");
        assert_eq!(erase[0].replace(',', ""), (hour as u64 * 3_600_000_000).to_string());
    }
    assert!(rows.contains(&["7", "100.0 %", "38,400,000", "1,600,000", "24"].map(String::from).to_vec()));
}

/// What `run --explain` says once an account is named; the rest of its lines is as ever.
#[test]
fn a_run_explains_what_is_billed() {
    let frames = "06 account=7\n20 00 00 00 account=7\n05 00 account=12 +48000\nC7 account=12 +1999\n05 00 account=12 +9\n05 00 +1\n";
    let expected = "06 > FF ST 12 (control, drives nothing, idle)\n\
                    20 00 00 00 > FF FF FF FF ST 11 (begun, drives nothing, busy for 50,000 ticks)\n\
                    05 00 > FF 11 ST 11 (read, drives position 1, busy for 2,000 ticks, 48,000 ticks billed to account 7)\n\
                    C7 > FF ST 11 (nothing: busy for 1 more tick with the 4-KiB erase of line 2, drives nothing, busy for 1 tick, \
                    1,999 ticks billed to account 7)\n\
                    05 00 > FF 10 ST 10 (read, drives position 1, idle, 1 tick billed to account 7)\n\
                    05 00 > FF 10 ST 10 (read, drives position 1, idle)\n";
    let said = says(&["run", "--explain"], frames);
    assert!(said.starts_with(&format!("{expected}\n")), "{said}");
    let plain: String = expected
        .lines()
        .map(|line| format!("{}\n", line.split(" (").next().unwrap_or(line)))
        .collect();
    assert_eq!(says(&["run"], frames), plain);
}

#[test]
fn a_run_says_nothing_of_accounts_until_one_is_named() {
    let frames = "06\n81 00 00 00\n05 00 +10\n";
    let poll = "05 00 > FF 11 ST 11 (read, drives position 1, busy for 6,990 ticks";
    let last = |words: &[&str], frames: &str| says(words, frames).lines().last().expect("a line").to_string();
    assert_eq!(last(&["run", "--explain"], frames), format!("{poll})"));
    assert_eq!(
        last(&["run", "--explain", "--account=0"], frames),
        format!("{poll}, 10 ticks billed to account 0)")
    );
    assert_eq!(
        last(&["run", "--explain"], &frames.replace("+10", "+10 account=12")),
        format!("{poll}, 10 ticks billed to account 0)")
    );
}

#[test]
fn help_lists_the_command() {
    assert!(says(&["--help"], "").contains("\n  bill        "));
    let help = says(&["bill", "--help"], "");
    for word in [
        "Usage: oxterin bill [FILE] [OPTIONS]",
        "account=7",
        "--account N",
        "--csv",
        "--html OUT",
        "--wp",
        "--set",
    ] {
        assert!(help.contains(word), "{word}");
    }
    assert!(says(&["run", "--help"], "").contains("--account N"));
    for help in [help, says(&["run", "--help"], "")] {
        assert!(help.lines().all(|line| line.chars().count() <= 120));
    }
}
