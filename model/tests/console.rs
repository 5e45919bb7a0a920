//! The console against docs/USING.md: what it prints for each sort of line, in each mode.

use model::console::{in_words, of_load, run, success, DONE};
use model::hex::{written, WRITTEN};
use std::fs;
use std::path::PathBuf;

/// The page itself, so that its own texts are what is expected.
const PAGE: &str = include_str!("../../docs/USING.md");

fn said(input: &[u8], words: bool) -> String {
    let mut output = vec![];
    run(input, &mut output, words).unwrap();
    String::from_utf8(output).unwrap()
}

fn answers(input: &str) -> String {
    said(input.as_bytes(), false)
}

const BOOT_STATE_AFTER_THREE_TICKS: &str = "\
clock 3
slot 0: table of 32
  0: table 0, flags ff, root
  1: directory 16, flags ff, positions 0..7, root
  2: process 18, flags 07, root
  3: function 0..65535, root
  4: memory 20000000..20004000, flags 3f, root
  5: endpoint 19, flags 3f, root
slot 16: directory, top, start 00000000, size order 29, number order 3
  0: page 00000000, flags 3f
  1: page 20000000, flags 3f
  2: page 40000000, flags 3f
  3: page 60000000, flags 3f
  4: page 80000000, flags 3f
  5: page a0000000, flags 3f
  6: page c0000000, flags 3f
  7: page e0000000, flags 3f
slot 18: process, table 0, directory 16
slot 19: endpoint, count 0, boot
";

#[test]
fn the_boot_state_shown() {
    let expected = format!("0\n{BOOT_STATE_AFTER_THREE_TICKS}");
    assert_eq!(answers("tick 3\nshow\n"), expected);
    // What came before a boot is gone.
    let input = "18 0x00120000 5 0 0\ntick 9\nboot\ntick 3\nshow\n";
    assert_eq!(answers(input), format!("0\n0\n{expected}"));
}

/// A session that leads to every line of the page's example, which shows a part of the state.
#[test]
fn the_example_shown() {
    let session = "\
# A grant of memory, frozen at once; a directory at slot 64 in the place of page 2.
18 0x08030410 6 4 0x20002000
18 0x00040000 6 0 0
18 0x03060000 0x0004071A 0x20001000 0
18 0x00090000 1 2 0
18 0x000A0000 0x00010007 2 7
tick 3
show
";
    let given = answers(session);
    let (before, shown) = given.split_at(6 * 2);
    assert_eq!(before, "0\n".repeat(6));
    let (_, after) = PAGE.split_once("### What `show` prints").unwrap();
    let example = after.split("```").nth(1).unwrap().trim();
    assert!(example.starts_with("clock 3\n"));
    let mut shown_lines = shown.lines();
    for line in example.lines() {
        assert!(shown_lines.any(|l| l == line), "{line}\nnot in\n{shown}");
    }
    // And what the example has none of: a directory that is not top.
    let child = "slot 64: directory, start 00000000, size order 26, number order 3\n";
    assert!(shown.contains(child));
    assert!(shown.contains("  7: directory 64, flags ff, positions 0..7, root\n"));
}

/// The parent's entry is counted in its own table, also past the first slot, and a new endpoint has
/// no boot mark.
#[test]
fn parents_and_marks_shown() {
    let session = "\
18 0x00010000 0x00040006 0x20000A00 5
18 0x00100000 4 7 0x20000F00
18 0x00030000 0x00060003 7 0x0F
18 0x00030000 0x00060004 0x00060003 0x01
18 0x00120000 0x0684 0 0
18 0x00120000 0x0684 0 0
show
";
    let given = answers(session);
    let expected = [
        "slot 40: table of 5\n  3: endpoint 60, flags 0f, from 0:7\n  4: endpoint 60, flags 01, from 40:3\n",
        "slot 60: endpoint, count 2\n",
    ];
    for part in expected {
        assert!(given.contains(part), "{part}\nnot in\n{given}");
    }
}

/// Every fault once, on the line that the message names; the blank line and the comment count.
#[test]
fn every_fault() {
    let long = "x".repeat(1025);
    let session = format!(
        "{long}\nboot now\n\nshow 1\ntick\ntick 1 2\n# a comment\nstart\n18 0 0 0\n0 0 0 0 0 0\n\
         18 0x140003 0 x 0\n18 0x140003 0 0 4294967296\ntick a\ntick 0x100000000\n\
         save\nsave my state.hex\nload\nload state.hex #\n"
    );
    let expected = "\
? line 1: longer than 1024 bytes
? line 2: boot takes nothing after it
? line 4: show takes nothing after it
? line 5: tick takes one number, as in: tick 8
? line 6: tick takes one number, as in: tick 8
? line 8: begin with boot, tick, show, save, load or the caller's number
? line 9: a call is five numbers, CALLER W0 W1 W2 W3, and here are 4
? line 10: a call is five numbers, CALLER W0 W1 W2 W3, and here are 6
? line 11: word 4 is not a number (decimal, or hex as in 0x1F)
? line 12: word 5 is above 4294967295
? line 13: word 2 is not a number (decimal, or hex as in 0x1F)
? line 14: word 2 is above 4294967295
? line 15: save takes one file name without blanks, as in: save state.hex
? line 16: save takes one file name without blanks, as in: save state.hex
? line 17: load takes one file name without blanks, as in: load state.hex
? line 18: load takes one file name without blanks, as in: load state.hex
";
    assert_eq!(answers(&session), expected);
    // The mode changes nothing here, and no such line changes the state.
    assert_eq!(said(session.as_bytes(), true), expected);
    let and_show = format!("{session}tick 3\nshow\n");
    let shown = answers(&and_show).split_off(expected.len());
    assert_eq!(shown, format!("0\n{BOOT_STATE_AFTER_THREE_TICKS}"));
}

/// The messages are the page's own, where it has no K in them.
#[test]
fn faults_as_the_page_has_them() {
    let cases = [
        ("#".repeat(1025), "more than 1,024 bytes in the line"),
        ("boot boot".into(), "something after `boot`"),
        ("show boot".into(), "something after `show`"),
        ("tick".into(), "`tick` with no word or several after it"),
    ];
    for (line, what) in cases {
        let row = PAGE.lines().find(|row| row.contains(what)).unwrap();
        let message = row.split('`').rev().nth(1).unwrap();
        assert_eq!(answers(&line), format!("? line 1: {message}\n"));
    }
    // These stand on the page as they are.
    for line in ["Tick 8", "save", "load a b", "save ./no/x", "load ./no/x"] {
        let given = answers(line);
        let message = given.strip_prefix("? line 1: ").unwrap().trim_end();
        assert!(PAGE.contains(&format!("`{message}`")), "{message}");
    }
}

/// "The first of these that fits": the length, then the form, then word by word from the left.
#[test]
fn the_first_fault_is_printed() {
    let cases = [
        ("18 x 4294967296 0 0", "word 2 is not a number"),
        ("18 4294967296 x 0 0", "word 2 is above"),
        ("1z 4294967296 x 0 0", "word 1 is not a number"),
        ("9999999999 x 0 0 0", "word 1 is above"),
        ("18 x 4294967296 0", "a call is five numbers"),
        ("tick x x", "tick takes one number"),
        ("boot x", "boot takes nothing"),
        (
            "18",
            "a call is five numbers, CALLER W0 W1 W2 W3, and here are 1",
        ),
        (
            "0x",
            "a call is five numbers, CALLER W0 W1 W2 W3, and here are 1",
        ),
        (
            "18 0x00120000 5 0 0 # send",
            "a call is five numbers, CALLER W0 W1 W2 W3, and here are 7",
        ),
        ("-18 0 0 0 0", "begin with"),
        ("BOOT", "begin with"),
        ("boots", "begin with"),
        ("Save state.hex", "begin with"),
        ("loads state.hex", "begin with"),
        ("save 1 2", "save takes one file name"),
        ("load 1 2", "load takes one file name"),
    ];
    for (line, begins) in cases {
        let given = answers(line);
        assert!(
            given.starts_with(&format!("? line 1: {begins}")),
            "{line}: {given}"
        );
    }
}

#[test]
fn numbers() {
    let good = [
        "18",
        "0x12",
        "0x000000000000000012",
        "000000000000000000018",
    ];
    for caller in good {
        assert_eq!(
            answers(&format!("{caller} 0x140003 0 0 0")),
            "0\n",
            "{caller}"
        );
    }
    // The largest word, in each spelling, is a number: no such caller.
    for caller in [
        "4294967295",
        "0xFFFFFFFF",
        "0xffffffff",
        "0x0FfFfFfFf",
        "04294967295",
    ] {
        assert_eq!(
            answers(&format!("{caller} 0x140003 0 0 0")),
            "-18\n",
            "{caller}"
        );
    }
    let none = [
        "0x",
        "0X1F",
        "12a",
        "1_000",
        "0x1g",
        "0x0x1",
        "1.",
        "99999999999z",
        "0x100000000z",
    ];
    for caller in none {
        let given = answers(&format!("{caller} 0x140003 0 0 0"));
        assert!(
            given.contains(": word 1 is not a number ("),
            "{caller}: {given}"
        );
    }
    for word in ["+5", "-1", "x", "#", "boot"] {
        let given = answers(&format!("18 0x140003 {word} 0 0"));
        assert!(
            given.contains(": word 3 is not a number ("),
            "{word}: {given}"
        );
    }
    let above = [
        "4294967296",
        "0x100000000",
        "99999999999999999999",
        "18446744073709551634",
        "0x10000000000000012",
    ];
    for caller in above {
        let given = answers(&format!("{caller} 0x140003 0 0 0"));
        assert_eq!(given, "? line 1: word 1 is above 4294967295\n", "{caller}");
    }
}

/// The length counts every byte but the newline; 1,024 of them are no fault.
#[test]
fn the_greatest_length() {
    let call = "18 0x140003 0 0 0";
    let at = format!("{call:1024}");
    let above = format!("{call:1025}");
    assert_eq!((at.len(), above.len()), (1024, 1025));
    let too_long = "? line 1: longer than 1024 bytes\n";
    assert_eq!(answers(&format!("{at}\n")), "0\n");
    assert_eq!(answers(&format!("{above}\n")), too_long);
    // The same in the last line without a newline.
    assert_eq!(answers(&at), "0\n");
    assert_eq!(answers(&above), too_long);
    // The carriage return is one of the bytes, though it is not read.
    assert_eq!(answers(&format!("{call:1023}\r\n")), "0\n");
    assert_eq!(answers(&format!("{call:1024}\r\n")), too_long);
    // Comments and blank lines too, and the next line is read as the next.
    for rest in ["", "#"] {
        assert_eq!(answers(&format!("{rest:1024}\n")), "");
        assert_eq!(answers(&format!("{rest:1025}\n")), too_long);
    }
    let two = format!("{above}{above}\n18 x\n");
    let second = "? line 2: a call is five numbers, CALLER W0 W1 W2 W3, and here are 2\n";
    assert_eq!(answers(&two), format!("{too_long}{second}"));
}

/// Spaces and tabs part words, nothing else does.
#[test]
fn bytes_and_ends() {
    assert_eq!(answers("\t 18\t\t0x140003  0 \t0 0\t \n"), "0\n");
    assert_eq!(
        answers("18 0x140003 0 0 0\r\n\r\n \r\ntick 2\r\nboot\r\n"),
        "0\n0\n"
    );
    assert_eq!(answers("tick 1\r"), "0\n");
    assert_eq!(answers(""), "");
    assert_eq!(answers("\n\n"), "");
    assert_eq!(answers("#boot 1\n  \t# x\n#\n"), "");
    // No newline at the end: a line as well.
    assert_eq!(answers("tick 0"), "0\n");
    assert_eq!(
        answers("\n\nx"),
        "? line 3: begin with boot, tick, show, save, load or the caller's number\n"
    );
    // Carriage returns elsewhere are parts of words.
    let word_5 = "? line 1: word 5 is not a number (decimal, or hex as in 0x1F)\n";
    assert_eq!(answers("18 0x140003 0 0 0\r\r\n"), word_5);
    assert_eq!(answers("18 0x140003 0 0 0\r \n"), word_5);
    let beginning = "? line 1: begin with boot, tick, show, save, load or the caller's number\n";
    assert_eq!(answers("boot\r\r\n"), beginning);
    let nothing_else: [&[u8]; 5] = [b"\x0B", b"\x0C", b"\xC2\xA0", b"\0boot", b"\xFF\xFE"];
    for bytes in nothing_else {
        assert_eq!(said(bytes, false), beginning);
    }
    assert_eq!(said(b"18 0x140003 0 0 0\xFF\n", false), word_5);
    assert_eq!(said(b"# \xFF\xFE\0\n", false), "");
}

/// The second column of the page's "Refusals" is what stands behind each refusal: a call's, and
/// behind the line at fault a load's.
#[test]
fn refusals_in_words() {
    let (mut calls, mut loads) = (vec![], vec![]);
    for row in PAGE.lines().filter(|row| row.starts_with("| -")) {
        let mut columns = row.split('|').map(str::trim).skip(1);
        let answer: i32 = columns.next().unwrap().parse().unwrap();
        let meaning = columns.next().unwrap().trim_matches('`');
        match answer {
            -19..=-1 if in_words(answer, DONE) == meaning => calls.push(answer),
            -33..=-30 | -19 if of_load(answer) == meaning => loads.push(answer),
            // Too short an output, which a console does not lend.
            -34 => {}
            _ => panic!("{answer} {meaning}"),
        }
    }
    assert!(calls.into_iter().eq((1..=19).map(|n| -n)));
    loads.sort();
    assert_eq!(loads, [-33, -32, -31, -30, -19]);
}

#[test]
fn answers_in_words() {
    let session = b"\
18 0x00100000 4 6 0x20000500
18 0x00100000 4 6 0x20000500
18 0x00120000 5 0 0
18 0x00120000 5 0 0
18 0x00130000 5 3 0
18 0x00130000 5 2 0
tick 3
tick 0
18 0x00140003 0 0 0
18 0xFFD4FF03 0 0 0
18 0xFFD40003 0 0 0
17 0x00140003 0 0 0
18 0x00150003 0 0 0
";
    let expected = "\
0 done
-6 CAP_EXIST: the place is filled, or the table to delete is not empty
0 done
0 done
2 done: the signals taken
0 done: the signals taken
0 done
0 done
3 done: the clock mod 2^31
-1 CAP_RANGE: a capability number or place is beyond the table, or the entries are not 1 to 64
3 done: the clock mod 2^31
-18 no such caller: it is not the slot of a live process
-17 no such call: the call number is not 1 to 20
";
    assert_eq!(said(session, true), expected);
    let plain: String = expected
        .lines()
        .map(|line| format!("{}\n", line.split(' ').next().unwrap()))
        .collect();
    assert_eq!(said(session, false), plain);
    // Only N[5:0] tells the call.
    assert_eq!(success(0xFFD3_FFFF), "done: the signals taken");
    assert_eq!(success(0x0033_0000), DONE);
}

/// A folder for the files of one test.
fn folder(name: &str) -> PathBuf {
    let folder = std::env::temp_dir().join(format!("model-{name}-{}", std::process::id()));
    let _ = fs::remove_dir_all(&folder);
    fs::create_dir(&folder).unwrap();
    folder
}

/// Each line with `@` for the folder.
fn said_in(folder: &PathBuf, session: &str, words: bool) -> String {
    let named = session.replace('@', &format!("{}/", folder.display()));
    said(named.as_bytes(), words)
}

/// "made or overwritten", and "the state becomes the one that FILE's text gives".
#[test]
fn save_and_load() {
    let folder = folder("save");
    let session = "tick 3\nsave @a.hex\ntick 5\nsave @b.hex\nboot\nload @a.hex\nshow\n";
    let given = said_in(&folder, session, false);
    assert_eq!(
        given,
        format!("0\n0\n0\n0\n0\n{BOOT_STATE_AFTER_THREE_TICKS}")
    );
    let (a, b) = (folder.join("a.hex"), folder.join("b.hex"));
    let text = fs::read(&a).unwrap();
    assert!(text.len() == WRITTEN && text != fs::read(&b).unwrap());
    // Overwritten, a longer file too.
    fs::write(&b, vec![b'x'; 100_000]).unwrap();
    let given = said_in(&folder, "load @a.hex\nsave @b.hex\n", true);
    assert_eq!(
        given,
        "0 done: the state is the file's\n0 done: the state's text is in the file\n"
    );
    assert!(fs::read(&b).unwrap() == text);
    // Blanks and a carriage return around the two words.
    let given = said_in(&folder, " \tload\t @b.hex \r\nsave @c\r\n", false);
    assert_eq!(given, "0\n0\n");
    assert!(fs::read(folder.join("c")).unwrap() == text);
    fs::remove_dir_all(&folder).unwrap();
}

/// "a refused file leaves it": the refusal and the line at fault, in words what they mean.
#[test]
fn refused_files() {
    let folder = folder("load");
    let mut s = [0; model::SIZE];
    model::boot(&mut s);
    let whole = written(&s);
    let changed = |at: usize, to: &[u8]| {
        let mut text = whole.clone();
        text.splice(at..at + to.len(), to.iter().copied());
        text
    };
    let cases: [(Vec<u8>, &str); 7] = [
        (changed(17 + 44, b"x"), "-30 line 3: no record stands here: a character, the line's end, the length or the type is wrong; make the file anew"),
        (whole[..WRITTEN - 1].to_vec(), "-30 line 1094: no record stands here: a character, the line's end, the length or the type is wrong; make the file anew"),
        (changed(13, b"00"), "-31 line 1: the record's sum is wrong: the line was altered; fetch the file again"),
        (whole[16..].to_vec(), "-32 line 1: bytes outside 20000000..20004440 or given twice, or at the end record bytes that no line gave; place the state at 0x20000000"),
        (vec![], "-33 line 1: the file ends here without its end record, or goes on behind it; fetch the file again"),
        ([&whole[..], b"\n"].concat(), "-33 line 1095: the file ends here without its end record, or goes on behind it; fetch the file again"),
        (changed(25, b"09000000FF0000000000000000000000E8"), "-19 no such state: the lines are right, but what they give is not well formed; save a state anew"),
    ];
    for (text, expected) in cases {
        fs::write(folder.join("f"), text).unwrap();
        let given = said_in(&folder, "tick 3\nload @f\nshow\n", true);
        let after = format!("0 done\n{expected}\n{BOOT_STATE_AFTER_THREE_TICKS}");
        assert_eq!(given, after);
        let plain = expected.split(':').next().unwrap();
        let plain = plain.trim_end_matches(" no such state");
        assert_eq!(said_in(&folder, "load @f", false), format!("{plain}\n"));
    }
    fs::remove_dir_all(&folder).unwrap();
}

/// Files that cannot be written or read, and the longest that is.
#[test]
fn files_and_their_troubles() {
    let folder = folder("files");
    let cannot_write =
        "? line 1: cannot write that file: look at its name, its folder and the room there\n";
    let cannot_read = "? line 1: cannot read that file: look at its name and who may read it\n";
    for name in ["@no/x", "@", "@.", "@x\0"] {
        assert_eq!(
            said_in(&folder, &format!("save {name}"), true),
            cannot_write
        );
        assert_eq!(said_in(&folder, &format!("load {name}"), true), cannot_read);
    }
    assert_eq!(said_in(&folder, "load @x", false), cannot_read);
    // "wholly written": there is no room.
    assert_eq!(answers("save /dev/full"), cannot_write);
    fs::write(folder.join("x"), vec![b'\n'; 262_144]).unwrap();
    assert_eq!(said_in(&folder, "load @x", false), "-30 line 1\n");
    fs::write(folder.join("x"), vec![b'\n'; 262_145]).unwrap();
    assert_eq!(
        said_in(&folder, "\nload @x\n", false),
        "? line 2: that file is longer than 262144 bytes, more than a state's text needs\n"
    );
    assert!(
        PAGE.contains("`that file is longer than 262144 bytes, more than a state's text needs`")
    );
    fs::remove_dir_all(&folder).unwrap();
}
