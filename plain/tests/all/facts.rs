//! The 229 functions against the paper's table of ranges.

use plain::class::{CLASS, STRING, THROWABLE};
use plain::facts::{
    facts, Facts, Family, PlaceKind, ResultKind, FIRST_FUNCTION, LAST_FUNCTION, WITH_CLASS,
};
use plain::identity::{Wanted, FIELD, METHOD};

const RANGES: [(&str, &str); 39] = [
    ("4, 16-18, 219, 228, 232", "--- -"),
    ("6, 15, 163, 167, 175-182, 229", "--- L"),
    ("5, 20, 25", "o-- L"),
    ("21", "o-- G"),
    ("226", "o-- W"),
    ("22", "g-- -"),
    ("23", "l-- -"),
    ("227", "w-- -"),
    ("19, 26", "--- S"),
    ("7, 8, 33, 94, 113, 144", "r-- I"),
    ("10, 27, 31, 173", "r-- L"),
    (
        "13, 14, 164, 168, 171, 199-216, 220, 221, 230, 231",
        "r-- -",
    ),
    ("217, 218", "r-- S"),
    ("11", "rr- -"),
    ("24", "oo- -"),
    ("32", "or- -"),
    ("9, 12, 28-30, 34-36, 95, 114-116, 145", "ri- L"),
    ("37-63, 96-103, 105-112, 117-143, 146-153, 155-162", "ri- -"),
    ("64-66", "rri L"),
    ("67-93", "rri -"),
    ("104, 154", "rio -"),
    ("172", "ro- L"),
    ("174", "ro- -"),
    ("165, 169, 183-190, 222, 224", "r-- B"),
    ("166, 170, 191-198, 223, 225", "rb- -"),
    ("19, 26", "capacity"),
    (
        "15-17, 19, 20, 22, 23, 166, 170, 191-198, 218, 223, 225, 227, 228",
        "pending",
    ),
    ("222-225", "critical"),
    (
        "9-12, 14, 27-30, 33, 94, 113-162, 172, 215, 216",
        "class-first",
    ),
    ("11, 32, 64-93", "class-second"),
    ("164-166, 168-170, 220, 221, 224, 225", "string-first"),
    ("13", "throwable-first"),
    ("28-30, 34-93", "a method that isn't static"),
    ("114-143", "a static method"),
    ("95-112", "a field that isn't static"),
    ("145-162", "a static field"),
    ("9", "any method"),
    ("12", "any field"),
    ("104-112, 154-162", "writes"),
];

fn numbers(ranges: &str) -> Vec<u32> {
    let range = |range: &str| {
        let (first, last) = range.split_once('-').unwrap_or((range, range));
        first.parse().unwrap()..=last.parse().unwrap()
    };
    ranges.split(", ").flat_map(range).collect()
}

fn functions() -> impl Iterator<Item = (u32, &'static Facts)> {
    (FIRST_FUNCTION..=LAST_FUNCTION).map(|function| (function, facts(function).unwrap()))
}

fn row(facts: &Facts) -> String {
    let (places, result) = facts.letters();
    format!("{places} {result}")
}

#[test]
fn every_function_stands_in_its_range_alone() {
    for (function, facts) in functions() {
        let rows: Vec<&str> = RANGES
            .iter()
            .filter(|(ranges, _)| numbers(ranges).contains(&function))
            .map(|&(_, row)| row)
            .filter(|row| row.len() == 5 && row.contains(' '))
            .collect();
        assert_eq!(rows, [row(facts)], "{function}");
    }
    assert_eq!(functions().count(), 229);
}

#[test]
fn there_is_no_other_function() {
    for function in [0, 3, 233, u32::MAX] {
        assert_eq!(facts(function), None);
    }
}

#[test]
fn capacity_pending_and_critical_marks() {
    let marked = |mark: fn(&Facts) -> bool| -> Vec<u32> {
        let marked = functions().filter(|(_, facts)| mark(facts));
        marked.map(|(function, _)| function).collect()
    };
    let listed = |name| {
        let (ranges, _) = RANGES.iter().find(|(_, row)| *row == name).unwrap();
        numbers(ranges)
    };
    assert_eq!(marked(|facts| facts.uses_capacity), listed("capacity"));
    assert_eq!(marked(|facts| facts.allowed_pending), listed("pending"));
    assert_eq!(marked(|facts| facts.allowed_critical), listed("critical"));
    assert_eq!(listed("pending").len(), 22);
}

#[test]
fn classes_of_places() {
    let with = |place: usize, class: u32| -> Vec<u32> {
        let with = functions().filter(|(_, facts)| facts.classes[place] == Some(class));
        with.map(|(function, _)| function).collect()
    };
    for (name, place, class) in [
        ("class-first", 0, CLASS),
        ("class-second", 1, CLASS),
        ("string-first", 0, STRING),
        ("throwable-first", 0, THROWABLE),
    ] {
        let (ranges, _) = RANGES.iter().find(|(_, row)| *row == name).unwrap();
        assert_eq!(with(place, class), numbers(ranges), "{name}");
    }
    for (function, facts) in functions() {
        assert_eq!(facts.classes[2], None);
        let classes = facts.classes.into_iter().zip(facts.places);
        let mut with_class = classes.filter(|(class, _)| class.is_some());
        assert!(
            with_class.all(|(_, place)| place == PlaceKind::Handle),
            "{function}"
        );
    }
    let places = functions().flat_map(|(_, facts)| facts.classes);
    assert_eq!(places.flatten().count(), 107);
    assert!(WITH_CLASS
        .iter()
        .all(|&function| facts(function).unwrap().classes != [None; 3]));
}

#[test]
fn identities_wanted() {
    let wanting = |is_wished: &dyn Fn(Wanted) -> bool| -> Vec<u32> {
        let wished = functions().filter(|(_, facts)| facts.wanted().is_some_and(is_wished));
        wished.map(|(function, _)| function).collect()
    };
    let listed = |name: &str| {
        let (ranges, _) = RANGES.iter().find(|(_, row)| *row == name).unwrap();
        numbers(ranges)
    };
    for (name, sort, is_static) in [
        ("a method that isn't static", METHOD, Some(false)),
        ("a static method", METHOD, Some(true)),
        ("a field that isn't static", FIELD, Some(false)),
        ("a static field", FIELD, Some(true)),
        ("any method", METHOD, None),
        ("any field", FIELD, None),
    ] {
        let is_such = |wanted: Wanted| (wanted.sort, wanted.is_static) == (sort, is_static);
        assert_eq!(wanting(&is_such), listed(name), "{name}");
    }
    assert_eq!(wanting(&|wanted| wanted.writes), listed("writes"));
    assert_eq!(wanting(&|_| true).len(), 131);
}

#[test]
fn families_in_their_order() {
    let mut pairs = vec![(165, 166), (169, 170)];
    pairs.extend((0..8).map(|k| (183 + k, 191 + k)));
    pairs.extend([(222, 223), (224, 225)]);
    for (number, (get, release)) in (0..).zip(pairs) {
        let family = Family(number);
        assert_eq!(facts(get).unwrap().result, ResultKind::Buffer(family));
        assert_eq!(facts(release).unwrap().places[1], PlaceKind::Buffer(family));
        assert_eq!(family.is_critical(), number >= 10);
    }
}
