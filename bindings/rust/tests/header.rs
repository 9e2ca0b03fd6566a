//! The declarations, numbers and version of this crate are those of `solfadrus.h`.

use solfadrus::Refusal;

fn read(path: &str) -> String {
    let path = format!("{}/{path}", env!("CARGO_MANIFEST_DIR"));
    std::fs::read_to_string(&path).unwrap_or_else(|error| panic!("{path}: {error}"))
}

fn header() -> String {
    read("../../include/solfadrus.h")
}

/// The value of `#define NAME value`.
fn defined(line: &str) -> Option<(&str, &str)> {
    let mut words = line.strip_prefix("#define ")?.split_whitespace();
    Some((words.next()?, words.next()?))
}

/// A type or a parameter of C, in Rust.
fn in_rust(c: &str) -> String {
    let c = c.trim();
    for (from, to) in [
        ("const uint8_t *", "*const u8"),
        ("uint8_t *", "*mut u8"),
        ("size_t ", "usize"),
        ("uint32_t ", "u32"),
    ] {
        if let Some(name) = c.strip_prefix(from) {
            return format!("{name}: {to}");
        }
    }
    match c {
        "void" => String::new(),
        "uint32_t" => "u32".to_string(),
        "size_t" => "usize".to_string(),
        _ => panic!("{c} is not known here"),
    }
}

/// The header's declarations, as Rust writes them.
fn of_header() -> Vec<String> {
    let text = header();
    let mut declared = Vec::new();
    for statement in text.split(';') {
        let start = ["\nuint32_t mq_", "\nsize_t mq_"]
            .iter()
            .find_map(|start| statement.find(start));
        let Some(start) = start else { continue };
        let (answer, rest) = statement[start + 1..].split_once(' ').unwrap();
        let (name, parameters) = rest.split_once('(').unwrap();
        let parameters: Vec<String> = parameters
            .trim_end_matches(')')
            .split(',')
            .map(in_rust)
            .collect();
        declared.push(format!(
            "{name}({}) -> {}",
            parameters.join(", "),
            in_rust(answer)
        ));
    }
    declared
}

/// The declarations of this crate, each in one line.
fn of_crate() -> Vec<String> {
    let text = read("src/ffi.rs");
    text.split("pub fn ")
        .skip(1)
        .map(|declared| {
            let declared = declared.split(';').next().unwrap();
            let words: Vec<&str> = declared.split_whitespace().collect();
            words.join(" ").replace("( ", "(").replace(", )", ")")
        })
        .collect()
}

#[test]
fn every_function_is_declared_as_in_the_header() {
    let expected = of_header();
    // Six calls, eleven lengths and the version at least: fewer would mean that the header was not read.
    assert!(expected.len() >= 18, "{expected:#?}");
    assert_eq!(of_crate(), expected);
}

#[test]
fn every_number_has_its_reason() {
    let text = header();
    let mut numbers = 0;
    for (name, number) in text.lines().filter_map(defined) {
        let Some(name) = name.strip_prefix("MQ_REFUSED_") else {
            continue;
        };
        let number: u32 = number.parse().unwrap();
        let reason = Refusal::from_word(number * 65_536).unwrap_err().reason;
        let words: Vec<String> = name.split('_').map(capitalised).collect();
        assert_eq!(format!("{reason:?}"), words.concat());
        numbers += 1;
    }
    assert!(numbers > 0);
    let past = Refusal::from_word((numbers + 1) * 65_536)
        .unwrap_err()
        .reason;
    assert_eq!(format!("{past:?}"), format!("Unpublished({})", numbers + 1));
}

#[test]
fn the_stack_is_the_headers() {
    let text = header();
    let (_, bytes) = text
        .lines()
        .filter_map(defined)
        .find(|(name, _)| *name == "MQ_STACK_BYTES")
        .unwrap();
    assert_eq!(bytes, solfadrus::STACK_BYTES.to_string());
}

/// EQUATION as Equation.
fn capitalised(word: &str) -> String {
    let (first, rest) = word.split_at(1);
    first.to_string() + &rest.to_lowercase()
}

#[test]
fn the_versions_agree() {
    let text = header();
    let part = |name: &str| -> u32 {
        let (_, value) = text
            .lines()
            .filter_map(defined)
            .find(|(defined, _)| *defined == name)
            .unwrap_or_else(|| panic!("{name} is not in the header"));
        value.parse().unwrap()
    };
    let [major, minor, patch] =
        ["MQ_VERSION_MAJOR", "MQ_VERSION_MINOR", "MQ_VERSION_PATCH"].map(part);
    assert_eq!(solfadrus::version(), major * 65_536 + minor * 256 + patch);
    assert_eq!(
        env!("CARGO_PKG_VERSION"),
        format!("{major}.{minor}.{patch}")
    );
}
