use super::*;
use crate::frames;
use crate::generate::dice::Dice;
use crate::generate::{Profile, record};
use crate::reference;

/// The entries of a text that has no wrong line.
fn entries(text: &str) -> Vec<Entry> {
    parse(text.as_bytes()).unwrap_or_else(|errors| panic!("{errors:?}"))
}

/// The errors of a text that has wrong lines.
fn errors(text: &str) -> Vec<String> {
    parse(text.as_bytes()).expect_err("a wrong line")
}

#[test]
fn each_entry_has_its_line() {
    let text = "seed 0x80000000 0x80006000\nacquire 4K\nrelease 0x80000000 4K\nreport\n";
    let expected = [
        Entry::Seed { start: 2_147_483_648, end: 2_147_508_224 },
        Entry::Acquire { code: 1 },
        Entry::Release { base: 2_147_483_648, code: 1 },
        Entry::Report,
    ];
    assert_eq!(entries(text), expected);
    assert_eq!(lines(&expected), text);
    assert_eq!(lines(&[]), "");
}

#[test]
fn the_examples_are_entries() {
    let names: Vec<&str> = entries(&examples()).into_iter().map(Entry::name).collect();
    assert_eq!(names, ["seed", "acquire", "release", "report"]);
    assert_eq!(FORMS.map(|form| form.0), ["seed", "acquire", "release", "report"]);
}

#[test]
fn blanks_and_comments_are_passed_over() {
    let one = [Entry::Acquire { code: 2 }];
    for text in ["acquire 16K", "  acquire\t16K ", "\tacquire \t 16K\t", "acquire 16K#", "acquire 16K # 8K # 4K"] {
        assert_eq!(entries(text), one, "{text}");
    }
    assert_eq!(entries("\n# first\n\nacquire 16K\n\n"), one);
}

#[test]
fn a_text_may_have_no_entry() {
    for text in ["", "\n", "\n\n\n", " \t ", "#", "# report", "\t#\n#\n", "#é€\n"] {
        assert_eq!(entries(text), [], "{text}");
    }
}

#[test]
fn a_line_ends_with_or_without_a_carriage_return() {
    let two = [Entry::Report, Entry::Acquire { code: 3 }];
    let texts = [
        "report\nacquire 2M",
        "report\nacquire 2M\n",
        "report\r\nacquire 2M\r\n",
        "report\r\nacquire 2M\r",
        "report \r\n\r\nacquire 2M # last\r\n",
        "\r\nreport\n\r\nacquire 2M\n",
    ];
    for text in texts {
        assert_eq!(entries(text), two, "{text:?}");
    }
    let expected = [r"line 1: 'report\r' is no entry; there are seed, acquire, release, report"];
    assert_eq!(errors("report\r\r\n"), expected);
    let expected = [r"line 1: 'report\racquire' is no entry; there are seed, acquire, release, report"];
    assert_eq!(errors("report\racquire 2M"), expected);
}

#[test]
fn addresses_are_decimal_or_hexadecimal() {
    let addresses = [
        ("0", 0),
        ("0x0", 0),
        ("007", 7),
        ("0x00000000000000000000a", 10),
        ("4096", 4_096),
        ("0x1000", 4_096),
        ("0xabcdef", 11_259_375),
        ("0xABCdef", 11_259_375),
        ("18446744073709551615", 18_446_744_073_709_551_615),
        ("0xffffffffffffffff", 18_446_744_073_709_551_615),
    ];
    for (word, address) in addresses {
        assert_eq!(entries(&format!("release {word} 1")), [Entry::Release { base: address, code: 1 }], "{word}");
        let expected = [Entry::Seed { start: address, end: 1 }, Entry::Seed { start: 1, end: address }];
        assert_eq!(entries(&format!("seed {word} 1\nseed 1 {word}")), expected, "{word}");
    }
}

#[test]
fn what_is_no_address_is_named() {
    let over = ["18446744073709551616", "0x10000000000000000", "99999999999999999999999"];
    let other = ["0x8000000g", "0x", "x", "-1", "+1", "0x+1", "0x-1", "1_000", "0X10", "ff", "4K", "1.5", "٣"];
    for word in over.into_iter().chain(other) {
        let expected = [format!("line 1: '{word}' is no address from 0 to 2^64 - 1")];
        assert_eq!(errors(&format!("seed {word} 0x1000")), expected);
        assert_eq!(errors(&format!("seed 0x1000 {word}")), expected);
        assert_eq!(errors(&format!("release {word} 4K")), expected);
    }
}

#[test]
fn sizes_have_names_and_codes() {
    let sizes = [
        ("4K", 1),
        ("16K", 2),
        ("2M", 3),
        ("1G", 4),
        ("512G", 5),
        ("128T", 6),
        ("0", 0),
        ("1", 1),
        ("6", 6),
        ("7", 7),
        ("016", 16),
        ("255", 255),
    ];
    for (word, code) in sizes {
        let expected = [Entry::Acquire { code }, Entry::Release { base: 0, code }];
        assert_eq!(entries(&format!("acquire {word}\nrelease 0 {word}")), expected, "{word}");
    }
    let codes = [0, 1, 2, 3, 4, 5, 6, 7, 255].map(|code| Entry::Acquire { code });
    let names = ["0", "4K", "16K", "2M", "1G", "512G", "128T", "7", "255"].map(|name| format!("acquire {name}\n"));
    assert_eq!(lines(&codes), names.concat());
}

#[test]
fn a_sizes_name_is_its_bytes() {
    for (place, name) in SIZES.into_iter().enumerate() {
        let (digits, unit) = name.split_at(name.len() - 1);
        let power = "KMGT".find(unit).expect("a unit") as u32 + 1;
        let bytes = digits.parse::<u64>().expect("digits") * 1_024_u64.pow(power);
        assert_eq!(frames::size(place as u8 + 1), Some(bytes), "{name}");
    }
    assert_eq!(frames::size(SIZES.len() as u8 + 1), None);
}

#[test]
fn what_is_no_size_is_named() {
    for word in ["8K", "4k", "4KiB", "K", "256", "-1", "+1", "0x1", "4096", "18446744073709551617"] {
        let expected =
            [format!("line 1: '{word}' is no size; there are 4K, 16K, 2M, 1G, 512G, 128T and codes 0 to 255")];
        assert_eq!(errors(&format!("acquire {word}")), expected);
        assert_eq!(errors(&format!("release 0x1000 {word}")), expected);
    }
}

#[test]
fn what_is_no_entry_is_named() {
    for word in ["acqire", "Seed", "seed,", "4K", "0x1000", "fresh", "é"] {
        let expected = [format!("line 1: '{word}' is no entry; there are seed, acquire, release, report")];
        assert_eq!(errors(word), expected);
        assert_eq!(errors(&format!("{word} 0 1")), expected);
    }
}

#[test]
fn too_few_and_too_many_words_are_named() {
    let seed = "line 1: seed wants a start and an end, as 'seed 0x80000000 0x80006000'";
    let acquire = "line 1: acquire wants a size, as 'acquire 4K'";
    let release = "line 1: release wants a base and a size, as 'release 0x80000000 4K'";
    let report = "line 1: report wants nothing behind it, as 'report'";
    let wrong = [
        ("seed", seed),
        ("seed 0", seed),
        ("seed 0 # 4096", seed),
        ("seed 0 4096 8192", seed),
        ("acquire", acquire),
        ("acquire 4K 4K", acquire),
        ("release", release),
        ("release 4K", release),
        ("release 0 4K 4K", release),
        ("report 1", report),
    ];
    for (text, error) in wrong {
        assert_eq!(errors(text), [error], "{text}");
    }
}

#[test]
fn what_a_terminal_would_obey_is_spelled_out() {
    let expected = [r"line 1: '\u{1b}[2J\0\u{feff}' is no entry; there are seed, acquire, release, report"];
    assert_eq!(errors("\u{1b}[2J\0\u{feff}"), expected);
}

#[test]
fn every_wrong_line_is_named_in_order() {
    let text = "# wrong\n\nacqire 4K\nreport\nrelease 0x80000000\n\nseed 0x8000000g 0x80006000\r\n\nacquire 8K";
    let expected = [
        "line 3: 'acqire' is no entry; there are seed, acquire, release, report",
        "line 5: release wants a base and a size, as 'release 0x80000000 4K'",
        "line 7: '0x8000000g' is no address from 0 to 2^64 - 1",
        "line 9: '8K' is no size; there are 4K, 16K, 2M, 1G, 512G, 128T and codes 0 to 255",
    ];
    assert_eq!(errors(text), expected);
    assert_eq!(to_bytes(text.as_bytes()), (Vec::new(), expected.map(String::from).to_vec()));
}

#[test]
fn a_line_that_is_no_utf_8_is_named() {
    let text = b"report\n\xff\nreport # \xc3\nacquire 4K\xe2\x82\r\nreprt";
    let expected = [
        "line 2: its bytes are no UTF-8; a journal's text is UTF-8",
        "line 3: its bytes are no UTF-8; a journal's text is UTF-8",
        "line 4: its bytes are no UTF-8; a journal's text is UTF-8",
        "line 5: 'reprt' is no entry; there are seed, acquire, release, report",
    ];
    assert_eq!(to_bytes(text), (Vec::new(), expected.map(String::from).to_vec()));
}

#[test]
fn text_makes_the_bytes_of_document_01() {
    let text = b"report\nacquire 255\nrelease 0x0102030405060708 2M\nseed 1 0xff00000000000000";
    let bytes = [4, 2, 255, 3, 8, 7, 6, 5, 4, 3, 2, 1, 3, 1, 1, 0, 0, 0, 0, 0, 0, 0, 0, 0, 0, 0, 0, 0, 0, 255];
    assert_eq!(to_bytes(text), (bytes.to_vec(), Vec::new()));
    let lines = "report\nacquire 255\nrelease 0x102030405060708 2M\nseed 0x1 0xff00000000000000\n";
    assert_eq!(from_bytes(&bytes), (lines.as_bytes().to_vec(), Vec::new()));
    assert_eq!(to_bytes(b""), (Vec::new(), Vec::new()));
    assert_eq!(from_bytes(b""), (Vec::new(), Vec::new()));
}

#[test]
fn what_ends_the_bytes_early_is_named() {
    let ends: [(&[u8], &str, &str); 6] = [
        (&[9], "", "entry 1 (byte 0): 9 is no kind of entry, so the rest is not read"),
        (&[4, 0, 4], "report\n", "entry 2 (byte 1): 0 is no kind of entry, so the rest is not read"),
        (&[2, 1, 4, 255], "acquire 4K\nreport\n", "entry 3 (byte 3): 255 is no kind of entry, so the rest is not read"),
        (&[2, 1, 2], "acquire 4K\n", "entry 2 (byte 2): its body is cut short"),
        (&[4, 4, 3, 0, 0, 0, 0, 0, 0, 0, 0], "report\nreport\n", "entry 3 (byte 2): its body is cut short"),
        (&[1; 16], "", "entry 1 (byte 0): its body is cut short"),
    ];
    for (bytes, lines, error) in ends {
        assert_eq!(from_bytes(bytes), (lines.as_bytes().to_vec(), vec![error.to_string()]));
    }
}

#[test]
fn generated_journals_come_back() {
    let numbers = |&profile| (1..=5).map(move |number| (profile, number));
    for (profile, number) in Profile::ALL.iter().flat_map(numbers) {
        let journal = record(profile, number, 300, reference::CALLS).1;
        assert_eq!(lines(&journal).lines().count(), 300);
        assert_eq!(entries(&lines(&journal)), journal, "{profile:?} {number}");
    }
}

/// Whatever the bytes are: the text made of them makes the bytes up to what ends them early.
#[test]
fn any_bytes_come_back_as_far_as_they_are_read() {
    let mut dice = Dice::new(1, 0);
    for length in 0..2_000 {
        let bytes: Vec<u8> = (0..length % 100).map(|_| dice.below(6) as u8).collect();
        let (text, ends) = from_bytes(&bytes);
        let (again, wrong) = to_bytes(&text);
        assert_eq!(wrong, [""; 0]);
        assert!(bytes.starts_with(&again) && (again.len() == bytes.len()) == ends.is_empty(), "{bytes:?}");
    }
}

/// Random words of the text form, and bytes among them that have no place there, make no panic.
#[test]
fn any_text_is_read_or_its_wrong_lines_are_named() {
    let words: [&[u8]; 12] =
        [b"seed", b"acquire", b"release", b"report", b"0x10", b"4K", b" ", b"\t", b"\n", b"\r\n", b"#", b"\xff"];
    let mut dice = Dice::new(2, 0);
    for _ in 0..5_000 {
        let text = (0..dice.below(20)).map(|_| dice.pick(&words)).collect::<Vec<_>>().join(&b" "[..]);
        let (bytes, wrong) = to_bytes(&text);
        assert!(wrong.is_empty() || bytes.is_empty(), "{text:?}");
        assert!(wrong.len() <= text.split(|&byte| byte == b'\n').count(), "{text:?}");
    }
}
