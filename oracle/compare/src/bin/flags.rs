//! Holds what `crates/flags_run` prints against the Rust: all 256 flag bytes, the words for expand
//! types, and calls of the config. The gate holds the proved program to the same file.
//!
//!     flags FILE
//!
//! The calls are made here in the program's order, and each line is printed in its words; those at
//! the end are drawn from the program's own sequence of numbers. Where the rules have refusal 18
//! or 19 the Rust has no answer that could be compared, and is not asked.

use std::fmt::Write;
use std::fs;
use std::process::ExitCode;

use compare::page::first_difference;
use original::{
    set_default, AnchorType, ExpandType, StyleConfig, StyleConfigMap, TextStyleInfoFlag,
};

const TYPES: [ExpandType; 4] =
    [ExpandType::Before, ExpandType::After, ExpandType::Both, ExpandType::None];

const SEVEN: [&str; 7] = ["bold", "italic", "underline", "link", "highlight", "comment", "code"];

const LONG: &str = "xxxxxxxxxxxxxxxxxxxxxxxxxxxxxxxx";
const TOO_LONG: &str = "xxxxxxxxxxxxxxxxxxxxxxxxxxxxxxxxx";

fn main() -> ExitCode {
    let Some(file) = std::env::args().nth(1).filter(|word| !word.starts_with('-')) else {
        eprintln!("flags FILE");
        return ExitCode::from(2);
    };
    let printed = match fs::read_to_string(&file) {
        Ok(text) => text,
        Err(error) => {
            eprintln!("flags: {file}: {error}");
            return ExitCode::from(2);
        }
    };
    let page = page();
    if let Some(difference) = first_difference(&printed, &page.text) {
        println!("{file}, {difference}");
        return ExitCode::FAILURE;
    }
    println!(
        "flags and config: {} lines, {} drawn calls and {} refusals among them; no difference",
        page.text.lines().count(),
        page.drawn,
        page.refused
    );
    ExitCode::SUCCESS
}

/// What the program prints, how many of its calls are drawn, and how many answers are refusals.
#[derive(Default)]
struct Page {
    text: String,
    drawn: usize,
    refused: usize,
}

fn page() -> Page {
    let mut page = Page::default();
    page.flags();
    page.words();
    page.built_in();
    page.odd_names();
    page.colons();
    page.long_names();
    page.defaults();
    page.full();
    page.tables();
    page
}

fn yes(b: bool) -> &'static str {
    if b {
        "yes"
    } else {
        "no"
    }
}

fn hex(flag: TextStyleInfoFlag) -> String {
    format!("0x{:02x}", flag.to_byte())
}

/// A config of the Rust, and how many entries it has.
struct Known {
    map: StyleConfigMap,
    names: Vec<String>,
}

impl Known {
    fn empty() -> Known {
        Known { map: StyleConfigMap::new(), names: Vec::new() }
    }

    fn built_in() -> Known {
        Known {
            map: StyleConfigMap::default_rich_text_config(),
            names: SEVEN.map(String::from).to_vec(),
        }
    }

    /// Document 01's refusal 19 of an insertion.
    fn refuses(&self, name: &str) -> bool {
        let known = self.names.iter().any(|other| other == name);
        name.len() > 32 || name.contains(':') || (!known && self.names.len() == 32)
    }
}

impl Page {
    fn flags(&mut self) {
        for byte in 0..=u8::MAX {
            let flag = TextStyleInfoFlag::from_byte(byte);
            let expand = flag.expand_type();
            let start = flag.prefer_insert_before(AnchorType::Start);
            let end = flag.prefer_insert_before(AnchorType::End);
            write!(self.text, "flag 0x{byte:02x} {expand:?} ").unwrap();
            write!(self.text, "before={} ", yes(flag.expand_before())).unwrap();
            write!(self.text, "after={} ", yes(flag.expand_after())).unwrap();
            write!(self.text, "start={} end={} ", yes(start), yes(end)).unwrap();
            writeln!(self.text, "to_delete={}", hex(flag.to_delete())).unwrap();
        }
    }

    fn words(&mut self) {
        for expand in TYPES {
            let new = hex(TextStyleInfoFlag::new(expand));
            writeln!(self.text, "new {expand:?} = {new}, reversed {:?}", expand.reverse()).unwrap();
        }
        let bold = hex(TextStyleInfoFlag::BOLD);
        let link = hex(TextStyleInfoFlag::LINK);
        let comment = hex(TextStyleInfoFlag::COMMENT);
        writeln!(self.text, "BOLD = {bold}, LINK = {link}, COMMENT = {comment}").unwrap();
        for word in ["before", "after", "both", "none", "Before", "BOTH", "befor", "nones", ""] {
            let named = ExpandType::try_from_str(word);
            let named = named.map_or("none of these".into(), |expand| format!("{expand:?}"));
            writeln!(self.text, "try_from_str \"{word}\" = {named}").unwrap();
        }
    }

    /// The three questions about a name.
    fn ask(&mut self, known: &Known, name: &str) {
        if name.len() > 32 {
            self.refused += 3;
            writeln!(self.text, "\"{name}\" get=19 flag=19 unmark=19").unwrap();
            return;
        }
        let get = known.map.get(&name.into()).map(|config| format!("{:?}", config.expand));
        let flag = known.map.get_style_flag(&name.into()).map(hex);
        let unmark = known.map.get_style_flag_for_unmark(&name.into()).map(hex);
        let or_nothing = |answer: Option<String>| answer.unwrap_or("nothing".into());
        let (get, flag, unmark) = (or_nothing(get), or_nothing(flag), or_nothing(unmark));
        writeln!(self.text, "\"{name}\" get={get} flag={flag} unmark={unmark}").unwrap();
    }

    fn insert(&mut self, known: &mut Known, name: &str, expand: ExpandType) {
        let mut number = 0;
        if known.refuses(name) {
            number = 19;
            self.refused += 1;
        } else if matches!(expand, ExpandType::Before) {
            number = 18;
            self.refused += 1;
        } else {
            known.map.insert(name.into(), StyleConfig::new().expand(expand));
            if !known.names.iter().any(|other| other == name) {
                known.names.push(name.into());
            }
        }
        writeln!(self.text, "insert \"{name}\" {expand:?} = {number}").unwrap();
    }

    fn built_in(&mut self) {
        let known = Known::built_in();
        for name in &known.names {
            self.ask(&known, name);
        }
        for name in ["Bold", "bol", "comment:17", "comment:17:3", ":x", ""] {
            self.ask(&known, name);
        }
    }

    fn odd_names(&mut self) {
        let mut known = Known::built_in();
        self.insert(&mut known, "comment:17", ExpandType::Both);
        self.insert(&mut known, "", ExpandType::Before);
        self.ask(&known, "");
        self.ask(&known, ":x");
        self.insert(&mut known, "comment", ExpandType::Before);
        self.ask(&known, "comment:17");
    }

    /// Each is refused, and the table answers as before.
    fn colons(&mut self) {
        let mut known = Known::built_in();
        for name in [":bold", "bold:", ":"] {
            self.insert(&mut known, name, ExpandType::Both);
        }
        for name in [":bold", "bold:", ":"].into_iter().chain(SEVEN) {
            self.ask(&known, name);
        }
    }

    fn long_names(&mut self) {
        let mut known = Known::built_in();
        self.insert(&mut known, LONG, ExpandType::Both);
        self.ask(&known, LONG);
        self.insert(&mut known, TOO_LONG, ExpandType::Both);
        self.ask(&known, TOO_LONG);
        self.ask(&known, &format!("comment:{}", &LONG[..24]));
        self.ask(&known, &format!("comment:{}", &LONG[..25]));
    }

    fn with_default(&mut self, known: &mut Known, expand: ExpandType) {
        let retired = matches!(expand, ExpandType::Before);
        let number = if retired { 18 } else { 0 };
        writeln!(self.text, "default {expand:?} = {number}").unwrap();
        if retired {
            self.refused += 1;
        } else {
            set_default(&mut known.map, Some(StyleConfig::new().expand(expand)));
        }
    }

    fn without_default(&mut self, known: &mut Known) {
        writeln!(self.text, "no default").unwrap();
        set_default(&mut known.map, None);
    }

    fn defaults(&mut self) {
        let mut known = Known::built_in();
        self.with_default(&mut known, ExpandType::Both);
        self.ask(&known, "bold");
        self.ask(&known, "comment:17");
        self.ask(&known, "other");
        self.with_default(&mut known, ExpandType::Before);
        self.ask(&known, "other:1");
        self.ask(&known, TOO_LONG);
        self.without_default(&mut known);
        self.ask(&known, "other");
    }

    /// A new name into 32 entries, and known ones.
    fn full(&mut self) {
        let mut known = Known::built_in();
        for letter in 'a'..='y' {
            self.insert(&mut known, &letter.to_string(), ExpandType::After);
        }
        self.insert(&mut known, "z", ExpandType::After);
        self.ask(&known, "z");
        for name in known.names.clone() {
            self.ask(&known, &name);
        }
        let calls = [("bold", ExpandType::Both), ("y", ExpandType::None), ("", ExpandType::None)];
        for (name, expand) in calls {
            self.insert(&mut known, name, expand);
            self.ask(&known, name);
        }
    }

    /// 250 drawn calls on each of eight tables.
    fn tables(&mut self) {
        let mut sequence = Sequence(1);
        for _ in 0..4 {
            writeln!(self.text, "empty table").unwrap();
            self.turns(Known::empty(), &mut sequence);
            writeln!(self.text, "built-in table").unwrap();
            self.turns(Known::built_in(), &mut sequence);
        }
    }

    fn turns(&mut self, mut known: Known, sequence: &mut Sequence) {
        for _ in 0..250 {
            let drawn = sequence.call();
            match drawn.what {
                0..=3 => self.insert(&mut known, &drawn.name, drawn.expand),
                4 => self.with_default(&mut known, drawn.expand),
                5 => self.without_default(&mut known),
                _ => self.ask(&known, &drawn.name),
            }
            self.drawn += if drawn.what > 5 { 3 } else { 1 };
        }
    }
}

/// The numbers from which `flags_run` draws.
struct Sequence(u64);

struct Drawn {
    what: u64,
    expand: ExpandType,
    name: String,
}

impl Sequence {
    fn next(&mut self) -> u64 {
        self.0 = (self.0 * 1103515245 + 12345) % (1 << 31);
        self.0 >> 16
    }

    fn call(&mut self) -> Drawn {
        let what = self.next() % 10;
        let expand = TYPES[(self.next() % 4) as usize];
        let class = self.next() % 8;
        let size = self.next();
        let name = match class {
            0 => self.name(8, 1),
            1 | 2 => self.name(8, 2),
            3 => self.name(9, 2),
            6 => self.name(1, 30 + size % 5),
            7 => ["bold", "link", "comment", "comment:17", "bold:"][(size % 5) as usize].into(),
            _ => self.name(9, size % 10),
        };
        Drawn { what, expand, name }
    }

    /// 40 letters are drawn, of which the first are the name.
    fn name(&mut self, letters: u64, length: u64) -> String {
        let drawn: Vec<u64> = (0..40).map(|_| self.next() % letters).collect();
        let letter = |&n: &u64| if n < 8 { (b'a' + n as u8) as char } else { ':' };
        drawn[..length as usize].iter().map(letter).collect()
    }
}
