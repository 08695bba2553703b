//! What the crate says too, beside `include/tickplume.h`, which says it first: the refusals' names, numbers, places
//! and meanings, the limits and the version.

use tickplume::{Refusal, RefusalKind};

/// A file, by its path from the crate's folder.
fn file(path: &str) -> String {
    let path = format!("{}/{path}", env!("CARGO_MANIFEST_DIR"));
    std::fs::read_to_string(&path).unwrap_or_else(|error| panic!("{path}: {error}"))
}

/// The C header.
fn header() -> String {
    file("../include/tickplume.h")
}

/// A refusal as the header lists it.
struct Listed {
    name: String,
    number: u8,
    place: String,
    meaning: String,
}

/// One line of the header's list: `REFUSAL(NAME, NUMBER, "PLACE", "MEANING")`.
fn listed(line: &str) -> Option<Listed> {
    let (name, rest) = line.trim().strip_prefix("REFUSAL(")?.split_once(", ")?;
    let (number, rest) = rest.split_once(", ")?;
    let mut quoted = rest.split('"');
    let (_, place, _, meaning) = (quoted.next()?, quoted.next()?, quoted.next()?, quoted.next()?);
    let number = number.parse().unwrap_or_else(|_| panic!("the number of {line}"));
    Some(Listed { name: name.into(), number, place: place.into(), meaning: meaning.into() })
}

fn list() -> Vec<Listed> {
    let list: Vec<Listed> = header().lines().filter_map(listed).collect();
    assert!(list.len() >= 25, "{} refusals are read off the header", list.len());
    list
}

/// `ENGINES_RANGE` as `EnginesRange`.
fn camel(name: &str) -> String {
    let word = |word: &str| word[..1].to_string() + &word[1..].to_lowercase();
    name.split('_').map(word).collect()
}

#[test]
fn every_refusal_has_the_header_s_words() {
    let list = list();
    for number in 0..=255 {
        let refusal = Refusal { number, place: 3 };
        let kind = refusal.kind();
        let told = (format!("{kind:?}"), refusal.meaning(), kind.place_is().unwrap_or(""));
        match list.iter().find(|one| one.number == number) {
            Some(one) => assert_eq!(told, (camel(&one.name), &*one.meaning, &*one.place), "refusal {number}"),
            None => assert_eq!(kind, RefusalKind::Unlisted, "refusal {number}"),
        }
    }
}

#[test]
fn a_number_that_is_not_listed_has_the_header_s_words() {
    let said = format!("default: return \"{}\";", Refusal { number: 0, place: 0 }.meaning());
    assert!(header().contains(&said), "the header does not say {said}");
}

/// Both ways of printing have number, meaning and place.
#[test]
fn every_refusal_prints_its_words() {
    for one in list() {
        let refusal = Refusal { number: one.number, place: 1_234_567 };
        let place = match &*one.place {
            "" => String::new(),
            needed if needed.ends_with("needed") => format!(" ({needed}: 1234567)"),
            what => format!(" ({what} 1234567)"),
        };
        let words = format!("{}{place}", one.meaning);
        assert_eq!(refusal.to_string(), format!("refused {}: {words}", one.number));
        assert!(format!("{refusal:?}").contains(&format!("{words:?}")), "{refusal:?} without {words}");
        assert!(format!("{refusal:?}").contains(&camel(&one.name)), "{refusal:?} without {}", one.name);
        assert_eq!(refusal.kind().to_string(), one.meaning);
    }
}

#[test]
fn an_unlisted_number_keeps_its_place() {
    let refusal = Refusal { number: 77, place: 5 };
    assert_eq!(refusal.to_string(), "refused 77: a number that this version does not list (place 5)");
}

/// What `#define NAME` gives, without a comment.
fn defined(header: &str, name: &str) -> String {
    let start = format!("#define {name} ");
    let line = header.lines().find_map(|line| line.strip_prefix(&start)).unwrap_or_else(|| panic!("no {name}"));
    let value = line.split("/*").next().unwrap_or(line).trim();
    value.trim_start_matches("UINT64_C(").trim_end_matches(')').trim_matches('"').to_string()
}

/// The limits' names, without what the header puts before them, and the crate's numbers.
const LIMITS: [(&str, u64); 8] = [
    ("MOST_ENGINES", tickplume::MOST_ENGINES as u64),
    ("MOST_DUTIES", tickplume::MOST_DUTIES as u64),
    ("MOST_RUNS", tickplume::MOST_RUNS as u64),
    ("MOST_TICKS", tickplume::MOST_TICKS as u64),
    ("MOST_BLOCKS", tickplume::MOST_BLOCKS),
    ("MOST_BYTES", tickplume::MOST_BYTES as u64),
    ("MOST_SHARE_BLOCKS", tickplume::MOST_SHARE_BLOCKS as u64),
    ("MOST_ALLOTMENTS", tickplume::MOST_ALLOTMENTS as u64),
];

#[test]
fn limits_and_version_are_the_header_s() {
    let header = header();
    for (name, number) in LIMITS {
        assert_eq!(defined(&header, &format!("TICKPLUME_{name}")), number.to_string(), "{name}");
    }
    assert_eq!(defined(&header, "TICKPLUME_STATE"), tickplume::calls::STATE.to_string());
    assert_eq!(defined(&header, "TICKPLUME_VERSION"), env!("CARGO_PKG_VERSION"));
}

/// The README has a line `| what | at most | constant |` for each limit, the number with commas.
#[test]
fn the_readme_s_limits_are_the_crate_s() {
    let readme = file("README.md");
    for (name, number) in LIMITS {
        let end = format!("| `{name}` |");
        let line = readme.lines().find(|line| line.ends_with(&end)).unwrap_or_else(|| panic!("no {name}"));
        let told: String = line.rsplit('|').nth(2).unwrap_or("").chars().filter(char::is_ascii_digit).collect();
        assert_eq!(told, number.to_string(), "{name}");
    }
}
