//! Scripts whose text is not all well formed: damaged lines, numbers just outside their width,
//! texts that end inside a line or a group.

use crate::classes::CLASSES;
use crate::random::Random;
use crate::script::Script;

/// Lines that are malformed wherever they stand, or only where another is wanted.
const LINES: [&str; 72] = [
    "",
    "op",
    "op=",
    "op=Open",
    "op=lengths",
    "op =length",
    " op=length",
    "op=length ",
    "op=length\r",
    "OP=length",
    "tank",
    "tank=",
    "tank=00",
    "tank=01",
    "tank=+1",
    "tank=-1",
    "tank= 1",
    "tank=1 ",
    "tank=0x1",
    "tank=18446744073709551615",
    "tank=18446744073709551616",
    "tank=99999999999999999999",
    "key=65535",
    "key=65536",
    "lamport=4294967295",
    "lamport=4294967296",
    "flags=255",
    "flags=256",
    "cnt=-2147483648",
    "cnt=-0",
    "cnt=2147483647",
    "cnt=2147483648",
    "kind=Null",
    "kind=float",
    "bytes=0",
    "bytes=1",
    "bytes=17",
    "bytes=131072",
    "bytes=131073",
    "number=18446744073709551616",
    "hold=65535",
    "hold=65536",
    "runs=18446744073709551616",
    "place=0",
    "place=7",
    "place=8",
    "place=07",
    "letter=",
    "letter=a",
    "letter==",
    "letter=ab",
    "letter=é",
    "letter=\r",
    "k=18446744073709551616",
    "op=party",
    "op=save",
    "op=save_needed",
    "op=restore",
    "room=18446744073709551616",
    "party=lab",
    "party=plant",
    "party=Lab",
    "value=0",
    "value=2",
    "value=-0",
    "value=-9223372036854775808",
    "value=-9223372036854775809",
    "value=9223372036854775807",
    "value=9223372036854775808",
    "value=7FF0000000000000",
    "value=7ff000000000000",
    "value=7ff00000000000000",
];

pub fn script(seed: u64) -> Script {
    let mut random = Random::new(seed ^ 0x7465_7874);
    let class = &CLASSES[random.below(CLASSES.len() as u64) as usize];
    let calls = 1 + random.below(30) as usize;
    let mut good = class.script(seed, calls);
    good.calls.truncate(1 + random.below(60) as usize);
    let mut text = good.text();
    match random.below(6) {
        0 => text.truncate(random.below(text.len() as u64 + 1) as usize),
        1 => change_byte(&mut random, &mut text),
        2 => change_line(&mut random, &mut text, |_, _| None),
        3 => change_line(&mut random, &mut text, |random, _| Some(random.pick(&LINES).into())),
        4 => change_line(&mut random, &mut text, long),
        _ => change_line(&mut random, &mut text, respell),
    }
    Script::of_text("text", seed, &text)
}

fn change_byte(random: &mut Random, text: &mut Vec<u8>) {
    let at = random.below(text.len() as u64) as usize;
    match random.below(3) {
        0 => text[at] = random.bits() as u8,
        1 => text.insert(at, random.pick(b"\n=0-a \r\0\xff")),
        _ => {
            text.remove(at);
        }
    }
}

/// Puts another line in the place of one, or takes it out; the text goes on after it.
fn change_line(
    random: &mut Random,
    text: &mut Vec<u8>,
    other: impl Fn(&mut Random, &str) -> Option<String>,
) {
    let lines: Vec<&[u8]> = text.split_inclusive(|&byte| byte == b'\n').collect();
    let at = random.below(lines.len() as u64) as usize;
    let line = String::from_utf8_lossy(lines[at]);
    let line = other(random, line.trim_end_matches('\n')).map(|line| line + "\n");
    let (before, after) = (lines[..at].concat(), lines[at + 1..].concat());
    *text = [before, line.unwrap_or_default().into_bytes(), after].concat();
}

/// Around the longest line that is read: 64 bytes are in order for the length, but hold no number.
fn long(random: &mut Random, line: &str) -> Option<String> {
    let size = random.pick(&[63, 64, 65, 66, 200, 5000]);
    Some(format!("{line}{}", "0".repeat(size - line.len().min(size))))
}

/// The same field with another number: some of these are well formed.
fn respell(random: &mut Random, line: &str) -> Option<String> {
    let (name, text) = line.split_once('=')?;
    let other = match random.below(5) {
        0 => format!("0{text}"),
        1 => format!("{text}0"),
        2 => format!("-{text}"),
        3 => random.pick(&["0", "1", "512", "65535", "65536", "4294967296"]).into(),
        _ => text.chars().skip(1).collect(),
    };
    Some(format!("{name}={other}"))
}
