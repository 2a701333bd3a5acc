//! include/still.h and this package give the same names to the same numbers.
use still::Fault;

static HEADER: &str = include_str!("../../include/still.h");

// TooDeep as TOO_DEEP
fn spelled(name: &str) -> String {
    let mut words = String::new();
    for letter in name.chars() {
        if letter.is_uppercase() && !words.is_empty() {
            words.push('_');
        }
        words.push(letter.to_ascii_uppercase());
    }
    words
}

fn defines(name: &str, number: usize) {
    assert!(HEADER.contains(&format!("#define STILL_{name} {number}\n")), "{name}");
}

#[test]
fn faults() {
    for fault in Fault::ALL {
        let named = format!("STILL_{} = {}", spelled(&format!("{fault:?}")), fault as u8);
        assert!(HEADER.lines().any(|line| line.split([',', '/']).next().unwrap().trim() == named), "{named}");
    }
}

#[test]
fn faults_by_number() {
    for fault in Fault::ALL {
        assert_eq!(Fault::of(fault as u64), Some(fault));
    }
    assert_eq!((Fault::of(0), Fault::of(u64::MAX)), (None, None));
}

#[test]
fn limits() {
    defines("TABLE_WORDS", still::TABLE_WORDS);
    defines("HEAD_MAX", still::HEAD_MAX);
    defines("MAX_ITEMS", still::MAX_ITEMS);
    defines("MAX_PROPERTIES", still::MAX_PROPERTIES);
    defines("MAX_ASSOCIATIONS", still::MAX_ASSOCIATIONS);
    defines("MAX_TARGETS", still::MAX_TARGETS);
    defines("MAX_EXTENTS", still::MAX_EXTENTS);
    defines("MAX_POINTS", still::MAX_POINTS);
    defines("BODY_MAX", still::BODY_MAX);
}
