//! The console's lines: what is written is read back, and what is malformed is named.

use compare::answer::Answer;
use compare::call::{Call, SHAPES};
use compare::classes::CLASSES;
use compare::mark::Party;
use compare::reader::read;

#[test]
fn calls_are_read_as_they_were_written() {
    for class in &CLASSES {
        let script = class.script(5, 400);
        let read = read(&script.text());
        assert_eq!(read.malformed, None);
        assert_eq!(read.calls, script.calls);
    }
}

#[test]
fn every_op_is_written_by_some_class() {
    let mut seen = vec![false; SHAPES.len()];
    for class in &CLASSES {
        class.script(2, 400).calls.iter().for_each(|call| seen[call.shape()] = true);
    }
    assert!(seen.iter().all(|&seen| seen));
}

#[test]
fn malformed_lines_are_counted_from_one() {
    let malformed = |text: &str| read(text.as_bytes()).malformed;
    assert_eq!(malformed(""), None);
    assert_eq!(malformed("op=length\ntank=0\n"), None);
    assert_eq!(malformed("\n"), Some(1));
    assert_eq!(malformed("op=length"), Some(1));
    assert_eq!(malformed("op=length\n"), Some(2));
    assert_eq!(malformed("op=length\ntank=0"), Some(2));
    assert_eq!(malformed("op=length\ntank=00\n"), Some(2));
    assert_eq!(malformed("op=length\ntank=18446744073709551615\n"), None);
    assert_eq!(malformed("op=length\ntank=18446744073709551616\n"), Some(2));
    assert_eq!(malformed("op=length\ntank=0\nop=length\nat=0\n"), Some(4));
    assert_eq!(malformed(&format!("op=length\n{}\n", "0".repeat(65))), Some(2));
}

#[test]
fn values_are_read_by_their_kind() {
    let text = |kind: &str, value: &str| {
        format!("op=all_value\ntank=0\nstart=0\nend=1\nkey=65535\nkind={kind}\nvalue={value}\n")
    };
    let good = [
        ("null", ""),
        ("bool", "0"),
        ("bool", "1"),
        ("whole", "0"),
        ("whole", "-1"),
        ("whole", "-9223372036854775808"),
        ("whole", "9223372036854775807"),
        ("decimal", "7ff8000000000000"),
    ];
    let bad = [
        ("null", "0"),
        ("bool", ""),
        ("bool", "2"),
        ("bool", "01"),
        ("whole", "-0"),
        ("whole", "00"),
        ("whole", "+1"),
        ("whole", "-9223372036854775809"),
        ("whole", "9223372036854775808"),
        ("decimal", "7FF8000000000000"),
        ("decimal", "7ff800000000000"),
        ("decimal", "7ff80000000000000"),
    ];
    for (kind, value) in good {
        assert_eq!(read(text(kind, value).as_bytes()).malformed, None, "{kind} {value}");
    }
    for (kind, value) in bad {
        assert_eq!(read(text(kind, value).as_bytes()).malformed, Some(7), "{kind} {value}");
    }
    assert_eq!(read(text("real", "0").as_bytes()).malformed, Some(6));
}

#[test]
fn a_body_is_as_long_as_its_line_says() {
    let group = |size: usize, body: &[u8]| {
        [format!("op=settings\nbytes={size}\n").as_bytes(), body].concat()
    };
    let bodies = [vec![], vec![b'\n'; 3], b"op=length\ntank=00\n".to_vec(), vec![255; 131_072]];
    for body in bodies {
        let input = [group(body.len(), &body), b"op=length\ntank=00\n".to_vec()].concat();
        let read = read(&input);
        let newlines = body.iter().filter(|&&byte| byte == b'\n').count() as u64;
        assert_eq!(read.malformed, Some(newlines + 4));
        assert_eq!(read.calls, [Call::Settings { body }]);
    }
    let malformed = |text: &[u8]| read(text).malformed;
    assert_eq!(malformed(&group(0, b"")), None);
    assert_eq!(malformed(&group(1, b"")), Some(3));
    assert_eq!(malformed(&group(3, b"\n\n")), Some(5));
    assert_eq!(malformed(&group(3, b"\n\nx")), None);
    assert_eq!(malformed(&group(131_073, &[b'\n'; 131_073])), Some(2));
    assert_eq!(malformed(b"op=settings\nbytes=03\nabc"), Some(2));
}

#[test]
fn a_hold_key_has_16_bits_and_runs_have_64() {
    let group = |hold: &str, runs: &str| format!("op=plan\ntank=8\nhold={hold}\nruns={runs}\n");
    let malformed = |hold, runs| read(group(hold, runs).as_bytes()).malformed;
    assert_eq!(malformed("65535", "18446744073709551615"), None);
    assert_eq!(malformed("65536", "1"), Some(3));
    assert_eq!(malformed("0", "18446744073709551616"), Some(4));
    assert_eq!(read(b"op=range\nstart=1\nend=0\n").calls, [Call::Range { start: 1, end: 0 }]);
}

#[test]
fn a_letter_is_any_byte_but_a_newline_and_a_place_is_0_to_7() {
    let group = |place: &str, letter: &[u8]| {
        [format!("op=legend\nplace={place}\nkey=65535\nletter=").as_bytes(), letter, b"\n"].concat()
    };
    for byte in (0..=255).filter(|byte| *byte != b'\n') {
        let call = Call::Legend { place: 7, key: u16::MAX, letter: byte };
        assert_eq!(call.text(), group("7", &[byte]));
        assert_eq!(read(&call.text()).calls, [call]);
    }
    assert_eq!(read(&group("8", b"a")).malformed, Some(2));
    assert_eq!(read(&group("00", b"a")).malformed, Some(2));
    assert_eq!(read(&group("0", b"")).malformed, Some(4));
    assert_eq!(read(&group("0", b"\n")).malformed, Some(4));
    assert_eq!(read(&group("0", b"ab")).malformed, Some(4));
    assert_eq!(read(&group("0", "é".as_bytes())).malformed, Some(4));
}

#[test]
fn a_strip_is_written_as_its_96_bytes() {
    let cells: [u8; 96] = std::array::from_fn(|cell| 200 + cell as u8 % 50);
    let bytes = Answer::Strip(cells).bytes();
    assert_eq!(bytes, [b"strip=", &cells[..], b"\n"].concat());
}

#[test]
fn a_counter_has_32_bits_and_a_sign() {
    let group = |cnt: &str| {
        format!(
            "op=annotate\ntank=0\nstart=0\nend=1\nkey=1\nlamport=2\npeer=3\ncnt={cnt}\nflags=132\nkind=null\nvalue=\n"
        )
    };
    for cnt in [0, 1, -1, i32::MAX, i32::MIN] {
        let read = read(group(&cnt.to_string()).as_bytes());
        let [Call::Annotate { mark, .. }] = read.calls[..] else { panic!("an annotate") };
        assert_eq!(mark.content.cnt, cnt);
        assert_eq!(read.calls[0].text(), group(&cnt.to_string()).into_bytes());
        let lines = Answer::Mark(mark).to_string();
        assert_eq!(
            lines,
            format!("key=1\nlamport=2\npeer=3\ncnt={cnt}\nflags=132\nkind=null\nvalue=\n")
        );
    }
    for cnt in ["", "-", "-0", "00", "+1", "2147483648", "-2147483649", "4294967295", "1 "] {
        assert_eq!(read(group(cnt).as_bytes()).malformed, Some(8), "{cnt}");
    }
    let old = group("0").replace("cnt=0\n", "");
    assert_eq!(read(old.as_bytes()).malformed, Some(8));
}

#[test]
fn a_party_is_the_plant_or_the_laboratory() {
    for (party, text) in
        [(Party::Plant, "op=party\nparty=plant\n"), (Party::Lab, "op=party\nparty=lab\n")]
    {
        let call = Call::Party { party };
        assert_eq!(call.text(), text.as_bytes());
        assert_eq!(read(text.as_bytes()).calls, [call]);
    }
    for party in ["", "Plant", "LAB", "lab ", " lab", "labs", "la", "0", "1"] {
        assert_eq!(read(format!("op=party\nparty={party}\n").as_bytes()).malformed, Some(2));
    }
    assert_eq!(read(b"op=party\n").malformed, Some(2));
    assert_eq!(read(b"op=party\nop=length\n").malformed, Some(2));
}
