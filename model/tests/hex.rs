//! A state as Intel HEX and back: request 102 of document 02, its phrases in turn.

mod common;
use common::{booted, nc};
use model::hex::{lines_taken, read, record, write, written, WRITTEN};
use model::SIZE;

/// The lines of the boot state's text.
const ALL: usize = 1094;

/// The boot state's text as the bytes of its records: the address record, 1,092 of data, the end
/// record.
fn records() -> Vec<Vec<u8>> {
    cut(&[16])
}

/// The same cut into data records of these lengths, over and over.
fn cut(lengths: &[usize]) -> Vec<Vec<u8>> {
    let s = booted();
    let mut all = vec![record::upper(0x2000)];
    let mut at = 0;
    for length in lengths.iter().cycle() {
        let end = (at + length).min(SIZE);
        all.push(record::bytes(0, at as u16, &s.0[at..end]));
        at = end;
        if at == SIZE {
            break;
        }
    }
    all.push(record::bytes(1, 0, &[]));
    all
}

fn line(bytes: &[u8]) -> Vec<u8> {
    let digits: String = bytes.iter().map(|byte| format!("{byte:02X}")).collect();
    format!(":{digits}\n").into_bytes()
}

fn text(records: &[Vec<u8>]) -> Vec<u8> {
    records.iter().flat_map(|bytes| line(bytes)).collect()
}

/// The answer and the lines taken. A refusal leaves the destination byte for byte; success makes the
/// boot state.
fn answered(text: &[u8]) -> (i32, usize) {
    let before = [0x5A; SIZE];
    let mut s = before;
    let answer = read(text, &mut s);
    assert!(s == if answer == 0 { *booted().0 } else { before });
    (answer, lines_taken(text))
}

/// The boot state's text with other bytes in the place of line `at`, from 0.
fn with_line(at: usize, spelled: &[u8]) -> Vec<u8> {
    let all = records();
    [&text(&all[..at])[..], spelled, &text(&all[at + 1..])].concat()
}

/// The same with the line changed.
fn changed(at: usize, change: impl Fn(&mut Vec<u8>)) -> Vec<u8> {
    let mut spelled = line(&records()[at]);
    change(&mut spelled);
    with_line(at, &spelled)
}

/// The same with the bytes of the record changed and its sum made right again.
fn summed(at: usize, change: impl Fn(&mut Vec<u8>)) -> Vec<u8> {
    let mut bytes = records()[at].clone();
    bytes.pop();
    change(&mut bytes);
    with_line(at, &line(&record::summed(bytes)))
}

#[test]
fn the_text_written() {
    let out = written(&booted().0[..]);
    assert_eq!((out.len(), WRITTEN), (48_076, 48_076));
    assert!(out == text(&records()));
    let lines: Vec<&[u8]> = out.split_inclusive(|&byte| byte == b'\n').collect();
    assert_eq!(lines.len(), ALL);
    assert_eq!(lines[0], b":020000042000DA\n");
    assert_eq!(lines[1], b":1000000001000000FF0000000000000000000000F0\n");
    assert_eq!(&lines[1092][..9], b":10443000");
    assert_eq!(lines[1093], b":00000001FF\n");
    assert!(lines[1..1093].iter().all(|line| line.len() == 44));
    assert!(!out.contains(&b'\r') && !out.iter().any(u8::is_ascii_lowercase));
    assert_eq!(answered(&out), (0, ALL));
}

/// "Reading what we wrote returns the same state; the writer has one output per state."
#[test]
fn there_and_back() {
    let mut b = booted();
    assert_eq!(b.call(nc(16, 0), 4, 6, 0x2000_0500), 0);
    b.ticks(300);
    let out = written(&b.0[..]);
    assert!(out != written(&booted().0[..]));
    let mut s = [0; SIZE];
    assert_eq!((read(&out, &mut s), lines_taken(&out)), (0, ALL));
    assert!(s == *b.0);
}

/// "Writing: −19, then −34 output under 48,076 bytes; bytes past these stay."
#[test]
fn outputs() {
    let s = booted();
    for length in [0, 1, 16, 48_064, 48_075] {
        let mut out = vec![0x5A; length];
        assert_eq!(write(&s.0[..], &mut out), -34);
        assert_eq!(write(&s.0[1..], &mut out), -19);
        assert!(out == vec![0x5A; length]);
    }
    for more in [0, 1, 5000] {
        let mut out = vec![0x5A; WRITTEN + more];
        assert_eq!(write(&[0; SIZE], &mut out), -19);
        assert_eq!(write(&s.0[..SIZE - 1], &mut out), -19);
        assert!(out == vec![0x5A; WRITTEN + more]);
        assert_eq!(write(&s.0[..], &mut out), 0);
        assert!(out[..WRITTEN] == written(&s.0[..]));
        assert!(out[WRITTEN..] == vec![0x5A; more]);
    }
}

/// "accepting either letter case, any data length from 1 to 255 and CR LF", mixed as may be.
#[test]
fn accepted() {
    for lengths in [&[1][..], &[255], &[16], &[32], &[1, 255, 7, 16, 128]] {
        let all = cut(lengths);
        let mut mixed = vec![];
        for (at, bytes) in all.iter().enumerate() {
            let mut spelled = line(bytes);
            for (i, byte) in spelled.iter_mut().enumerate() {
                if i % 3 == at % 3 {
                    byte.make_ascii_lowercase();
                }
            }
            if at % 5 == 2 {
                spelled.insert(spelled.len() - 1, b'\r');
            }
            mixed.extend(spelled);
        }
        assert!(mixed != text(&all));
        assert_eq!(answered(&text(&all)), (0, all.len()));
        assert_eq!(answered(&mixed), (0, all.len()));
        assert_eq!(answered(&text(&all).to_ascii_lowercase()), (0, all.len()));
    }
}

/// Any order of the data, any number of address records, one without data under it too; the
/// address field of types 01 and 04 is not read.
#[test]
fn order_and_address_records() {
    let mut all = records();
    all[1..1093].reverse();
    assert_eq!(answered(&text(&all)), (0, ALL));
    all.insert(500, record::upper(0x2000));
    all.insert(700, record::upper(0x1234));
    all.insert(701, record::upper(0x2000));
    all.insert(1096, record::upper(0xFFFF));
    assert_eq!(answered(&text(&all)), (0, ALL + 4));
    all[0] = record::bytes(4, 0xABCD, &[0x20, 0]);
    all[1097] = record::bytes(1, 0x4440, &[]);
    assert_eq!(answered(&text(&all)), (0, ALL + 4));
}

/// "−30 character": each that is no hex digit, wherever it stands, and whatever the line is.
#[test]
fn characters() {
    let none = b" \t\0\r\x0B\x0C\x1A/:;@G`gxX.-+_\x7F\x80\xA0\xFF";
    for at in [0, 1, 600, 1093] {
        for &byte in none {
            for place in [1, 3, 8, 10] {
                let text = changed(at, |line| line[place] = byte);
                assert_eq!(answered(&text), (-30, at), "{byte:#x} in line {at}");
            }
            let before = changed(at, |line| line.insert(0, byte));
            assert_eq!(answered(&before), (-30, at));
        }
        // The last before the end: a carriage return there belongs to the line's end, a second
        // one does not.
        let last = |byte| changed(at, |line| line.insert(line.len() - 1, byte));
        assert_eq!(answered(&last(b' ')), (-30, at));
        assert_eq!(answered(&last(b'\r')), (0, ALL));
        let two = changed(at, |line| {
            line.pop();
            line.extend(b"\r\r\n");
        });
        assert_eq!(answered(&two), (-30, at));
        let other_end = changed(at, |line| {
            line.pop();
            line.extend(b"\n\r");
        });
        let expected = match at {
            1093 => (-33, ALL),
            _ => (-30, at + 1),
        };
        assert_eq!(answered(&other_end), expected);
    }
    let bom = [b"\xEF\xBB\xBF", &written(&booted().0[..])[..]].concat();
    assert_eq!(answered(&bom), (-30, 0));
}

/// Missing and doubled colons, blank lines.
#[test]
fn colons_and_blank_lines() {
    for at in [0, 1, 600, 1093] {
        let none = changed(at, |line| {
            line.remove(0);
        });
        assert_eq!(answered(&none), (-30, at));
        let two = changed(at, |line| line.insert(0, b':'));
        assert_eq!(answered(&two), (-30, at));
        for blank in [&b"\n"[..], b"\r\n", b" \n", b":\n", b":\r\n", b"\r\r\n"] {
            let text = changed(at, |line| {
                line.splice(..0, blank.iter().copied());
            });
            assert_eq!(answered(&text), (-30, at));
        }
    }
}

/// "line end": the end of the text is none, behind a perfect end record neither.
#[test]
fn line_ends() {
    let whole = written(&booted().0[..]);
    assert_eq!(answered(&whole[..WRITTEN - 1]), (-30, ALL - 1));
    let mut cr = whole.clone();
    cr[WRITTEN - 1] = b'\r';
    assert_eq!(answered(&cr), (-30, ALL - 1));
    // Cut anywhere: inside a line, or behind one.
    for length in 1..16 + 44 {
        let expected = match length {
            16 => (-33, 1),
            1..=15 => (-30, 0),
            _ => (-30, 1),
        };
        assert_eq!(answered(&whole[..length]), expected);
    }
    // Two lines in one.
    let joined = changed(3, |line| {
        line.pop();
    });
    assert_eq!(answered(&joined), (-30, 3));
}

/// "length": odd digits, fewer than five bytes, the length byte; "any data length from 1".
#[test]
fn lengths() {
    for at in [0, 1, 600, 1093] {
        let odd = changed(at, |line| {
            line.remove(2);
        });
        assert_eq!(answered(&odd), (-30, at));
        for length in [0, 1, 15, 17, 255] {
            if usize::from(length) + 5 != records()[at].len() {
                let text = summed(at, |bytes| bytes[0] = length);
                assert_eq!(answered(&text), (-30, at));
            }
        }
        let longer = summed(at, |bytes| bytes.push(0));
        assert_eq!(answered(&longer), (-30, at));
        for few in 0..4 {
            let text = with_line(at, &line(&record::summed(vec![0; few])));
            assert_eq!(answered(&text), (-30, at));
        }
    }
    let cases = [
        record::bytes(0, 0, &[]),
        record::bytes(1, 0, &[0]),
        record::bytes(1, 0, &[0x20, 0]),
        record::bytes(4, 0, &[]),
        record::bytes(4, 0, &[0x20]),
        record::bytes(4, 0, &[0, 0, 0x20, 0]),
    ];
    for bytes in cases {
        assert_eq!(answered(&with_line(1, &line(&bytes))), (-30, 1));
    }
}

/// "type other than 00, 01, 04", whatever else the line holds; a start record too.
#[test]
fn types() {
    for kind in (2..=255).filter(|&kind| kind != 4) {
        for at in [0, 1, 1093] {
            let text = summed(at, |bytes| bytes[3] = kind);
            assert_eq!(answered(&text), (-30, at), "type {kind:02x}");
        }
    }
    let start = with_line(1093, b":0400000520000000D7\n:00000001FF\n");
    assert_eq!(answered(&start), (-30, 1093));
}

/// "−31 record sum", after every −30 of its line and before every −32.
#[test]
fn sums() {
    for at in [0, 1, 600, 1093] {
        for off in [1, 0x10, 0x80, 0xFF] {
            let mut bytes = records()[at].clone();
            let sum = bytes.pop().unwrap().wrapping_add(off);
            bytes.push(sum);
            assert_eq!(answered(&with_line(at, &line(&bytes))), (-31, at));
            // A wrong type or length besides, in the same line.
            for place in [0, 3] {
                let mut worse = bytes.clone();
                worse[place] = 9;
                assert_eq!(answered(&with_line(at, &line(&worse))), (-30, at));
            }
        }
    }
    // Outside and the sum.
    let mut bytes = record::bytes(0, 0x4440, &[1]);
    assert_eq!(answered(&with_line(1, &line(&bytes))), (-32, 1));
    bytes[5] ^= 1;
    assert_eq!(answered(&with_line(1, &line(&bytes))), (-31, 1));
    // A gap and the end record's sum.
    let gap = [line(&record::upper(0x2000)), b":00000001FE\n".to_vec()].concat();
    assert_eq!(answered(&gap), (-31, 1));
}

/// "−32 address overlap": with the same value too, and by one byte.
#[test]
fn overlaps() {
    let s = booted();
    for (address, length) in [(0u16, 16), (15, 1), (0, 1), (15, 2), (8, 16), (0, 255)] {
        let at = usize::from(address);
        let same = record::bytes(0, address, &s.0[at..at + length]);
        let other = record::bytes(0, address, &vec![0x77; length]);
        for bytes in [same, other] {
            let mut all = records();
            all.insert(2, bytes);
            assert_eq!(answered(&text(&all)), (-32, 2));
        }
    }
}

/// "or outside": below, above, across either end, under another upper half, before any address
/// record. A record that passes 0xFFFF has a byte outside whichever way it is read.
#[test]
fn outside() {
    let cases = [
        (0x2000, 0x4440, 1),
        (0x2000, 0x443F, 2),
        (0x2000, 0x4431, 16),
        (0x2000, 0xFFFF, 2),
        (0x2000, 0x8000, 255),
        (0x1FFF, 0xFFFF, 1),
        (0x1FFF, 0xFFFF, 2),
        (0x1FFF, 0xFFF0, 16),
        (0x2001, 0x0000, 1),
        (0x0000, 0x0000, 1),
        (0x0020, 0x0000, 1),
        (0xFFFF, 0xFFFF, 255),
        (0xA000, 0x0000, 1),
    ];
    for (half, address, length) in cases {
        let mut all = records();
        all[0] = record::upper(half);
        all[1] = record::bytes(0, address, &vec![0; length]);
        assert_eq!(answered(&text(&all)), (-32, 1), "{half:x} {address:x}");
    }
    let mut all = records();
    all.swap(0, 1);
    assert_eq!(answered(&text(&all)), (-32, 0));
    all.remove(1);
    assert_eq!(answered(&text(&all)), (-32, 0));
    // The last byte by itself is inside.
    let lengths: Vec<usize> = (0..68).map(|_| 255).chain([131, 1]).collect();
    assert_eq!(answered(&text(&cut(&lengths))), (0, 72));
}

/// "and a gap, judged at the end record".
#[test]
fn gaps() {
    for at in [1, 2, 600, 1092] {
        let mut all = records();
        let bytes = all.remove(at);
        assert_eq!(answered(&text(&all)), (-32, ALL - 2));
        // One byte of it is not enough.
        let address = u16::from_be_bytes([bytes[1], bytes[2]]);
        all.insert(at, record::bytes(0, address, &bytes[4..19]));
        assert_eq!(answered(&text(&all)), (-32, ALL - 1));
        // What comes later fills it.
        all.insert(ALL - 1, record::bytes(0, address + 15, &bytes[19..20]));
        assert_eq!(answered(&text(&all)), (0, ALL + 1));
    }
    assert_eq!(answered(b":00000001FF\n"), (-32, 0));
    assert_eq!(answered(b":020000042000DA\n:00000001FF\n"), (-32, 1));
    // The end record's own line comes before the text behind it.
    assert_eq!(answered(b":00000001FF\n\n"), (-32, 0));
    assert_eq!(answered(b":00000001FF\n:00000001FF\n"), (-32, 0));
}

/// "−33 no end record or text after it", whatever text it is.
#[test]
fn ends() {
    assert_eq!(answered(b""), (-33, 0));
    assert_eq!(answered(b":020000042000DA\n"), (-33, 1));
    assert_eq!(answered(&text(&records()[..ALL - 1])), (-33, ALL - 1));
    let whole = written(&booted().0[..]);
    let behind = [
        &b"\n"[..],
        b"\r\n",
        b" ",
        b"\0",
        b"\x1A",
        b":00000001FF\n",
        b":00000001FE\n",
        b":020000042000DA\n",
        b":1000000001000000FF0000000000000000000000F0\n",
        b"end of file",
    ];
    for behind in behind {
        assert_eq!(answered(&[&whole, behind].concat()), (-33, ALL));
    }
}

/// "the first faulty line decides", and nothing behind it is looked at.
#[test]
fn the_first_faulty_line() {
    let faults: [(&[u8], i32); 4] = [
        (b"\n", -30),
        (b":10000000F1\n", -30),
        (b":0100000000FE\n", -31),
        (b":0100000000FF\n", -32),
    ];
    for (first, answer) in faults {
        for (second, _) in faults {
            let mut text = text(&records()[..5]);
            text.extend(first);
            assert_eq!(answered(&text), (answer, 5));
            text.extend(second);
            assert_eq!(answered(&text), (answer, 5));
            text.extend(b"chance");
            assert_eq!(answered(&text), (answer, 5));
        }
    }
}

/// "−19 first for a destination of another length, last for the state read".
#[test]
fn no_such_state() {
    let whole = written(&booted().0[..]);
    for length in [0, 1, SIZE - 1, SIZE + 1] {
        for text in [&whole[..], b"", b"\n", b":00000001FF\n"] {
            let mut s = vec![0x5A; length];
            assert_eq!(read(text, &mut s), -19);
            assert!(s == vec![0x5A; length]);
        }
    }
    // A kind that there is not, in entry 0; the lines are right, all of them.
    let other = summed(1, |bytes| bytes[4] = 9);
    assert_eq!(answered(&other), (-19, ALL));
    // Text behind the end record comes before it.
    let behind = [&other[..], b"\n"].concat();
    assert_eq!(answered(&behind), (-33, ALL));
}
