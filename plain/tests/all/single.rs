//! The single lines, and what writers are handed, to hold readers and writers to.

use plain::limits::MOST_BYTES;
use plain::line::read;
use plain::random::Random;
use plain::single::{chosen, handed, line};
use std::collections::BTreeMap;

#[test]
fn lines_of_each_letter_and_refusal_come_up() {
    let mut random = Random::new(1);
    let any = (0..20_000).map(|_| line(&mut random)).collect();
    for (lines, least) in [(chosen::lines(), 20), (any, 100)] {
        let mut counts: BTreeMap<u8, u32> = BTreeMap::new();
        for line in &lines {
            let said = match read(line) {
                Ok(event) => event.parts().unwrap().0,
                Err(refusal) => refusal,
            };
            *counts.entry(said).or_default() += 1;
        }
        let said: Vec<u8> = counts.keys().copied().collect();
        assert_eq!(said, b"\x01\x02\x03ACDKMNORXZ", "{counts:?}");
        assert!(counts.values().all(|&count| count >= least), "{counts:?}");
    }
}

#[test]
fn what_is_written_and_what_is_refused_come_up_for_each_letter() {
    let mut random = Random::new(1);
    let any = (0..20_000).map(|_| handed(&mut random)).collect();
    for all in [chosen::handed(), any] {
        let mut counts: BTreeMap<(u8, bool), u32> = BTreeMap::new();
        for handed in all {
            let reply = handed.write(&mut [0; MOST_BYTES + 1]);
            assert!(reply > 0 || reply == -3, "{handed:?}: {reply}");
            *counts.entry((handed.letter(), reply > 0)).or_default() += 1;
        }
        // Z alone is never refused.
        assert_eq!(counts.len(), 19, "{counts:?}");
        let least = |letter| match letter {
            b'Z' => 1,
            b'D' => 5,
            _ => 40,
        };
        let seldom = |(&(letter, _), &count): (&(u8, bool), &u32)| count < least(letter);
        assert!(!counts.iter().any(seldom), "{counts:?}");
    }
}

#[test]
fn all_lines_of_at_most_two_bytes_are_chosen() {
    let mut short: Vec<Vec<u8>> = chosen::lines();
    short.retain(|line| line.len() <= 2);
    short.sort_unstable();
    short.dedup();
    assert_eq!(short.len(), 1 + 256 + 65_536);
}
