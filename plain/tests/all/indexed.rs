//! The indexed judge gives the plain judge's reply to each line, and leaves what it leaves in every slice.

use crate::common::{room, trace, TWO_EQUAL_TURNED};
use plain::big::{big, kind, KINDS};
use plain::judge::Judge;
use plain::make::{make, DENSE, PROFILES};
use plain::random::Random;
use plain::room::{Room, LENT};
use plain::walk::walk;

/// Runs both judges over a trace, past the lines that are refused; how many were accepted.
#[track_caller]
fn follow(trace: &[u8], room: Room) -> usize {
    let mut plain = Judge::new(room);
    let mut indexed = Judge::indexed(room);
    let mut accepted = 0;
    for line in trace.split_inclusive(|&byte| byte == b'\n') {
        let told = String::from_utf8_lossy(line);
        let stepped = plain.step(line);
        assert_eq!(indexed.step(line), stepped, "{told}");
        assert!(indexed.slices() == plain.slices(), "{told}");
        accepted += usize::from(stepped.is_ok());
    }
    assert_eq!(indexed.leaks(), plain.leaks());
    accepted
}

#[test]
fn on_made_traces_damaged_ones_and_full_tables_among_them() {
    let mut accepted = 0;
    for seed in 0..12 {
        for profile in PROFILES.iter().chain(&DENSE) {
            let mut random = Random::new(seed);
            let (fewest, most) = profile.usual_lines;
            let lines = random.between(fewest, most.min(fewest + 300)) as usize;
            let room = Room {
                references: random.pick(&[0, 3, 8, 64, 65, 200, LENT.references]),
                pins: random.pick(&[0, 1, 8, 63, LENT.pins]),
                identities: random.pick(&[0, 1, 2, 7, 30, LENT.identities]),
            };
            let trace = make(profile, seed, lines, room);
            accepted += follow(&trace, room);
        }
    }
    assert!(accepted > 20_000, "{accepted}");
}

#[test]
fn on_the_walk() {
    for made in walk() {
        follow(&made.trace, made.room);
    }
}

#[test]
fn on_big_traces_of_each_kind() {
    let several = ["alive-16", "alive-256", "alive-4096"].map(|name| kind(name).unwrap());
    for kind in KINDS.into_iter().chain(several) {
        let mut trace = Vec::new();
        big(&kind, 20_000, &mut trace).unwrap();
        let accepted = follow(&trace, kind.room);
        assert_eq!(accepted, 20_000, "{}", kind.name);
    }
}

#[test]
fn on_equal_buffers_of_which_the_lowest_row_is_not_the_oldest() {
    let release = ["C 1 100 170 5 8 0 0", "R 1 170 0 0"];
    let again = ["C 1 100 169 5 0 0 0", "R 1 169 8 0"];
    let releases = [release; 3].concat();
    let lines = [
        &TWO_EQUAL_TURNED[..],
        &again,
        &release,
        &again,
        &again,
        &releases,
        &releases,
        &["Z"],
    ];
    let lines = lines.concat();
    assert_eq!(follow(&trace(&lines), room(8, 4)), lines.len());
}
