//! Prints the facts of each function: its number, its places and its result in the paper's letters, its marks, its family, the classes of its places and what is wanted of its identity.
//!
//! The marks: `n` it uses the capacity, `p` it is allowed with an exception pending, `c` inside a critical region.
//! The classes: `c` a class, `s` a string, `t` a throwable.
//! The identity: `m` a method, `f` a field; `i` not static, `s` static, `a` any; `w` it is written.

use plain::facts::{known, FIRST_FUNCTION, LAST_FUNCTION};
use plain::identity::Wanted;

fn main() {
    for function in FIRST_FUNCTION..=LAST_FUNCTION {
        let facts = known(function);
        let (places, result) = facts.letters();
        let marks = [
            ('n', facts.uses_capacity),
            ('p', facts.allowed_pending),
            ('c', facts.allowed_critical),
        ];
        let marks: String = marks
            .iter()
            .filter(|mark| mark.1)
            .map(|mark| mark.0)
            .collect();
        let family = facts.family().map(|family| family.0.to_string());
        let wanted = facts.wanted().map(Wanted::letters);
        let or_none = |text: String| if text.is_empty() { "-".into() } else { text };
        println!(
            "{function}\t{places}\t{result}\t{}\t{}\t{}\t{}",
            or_none(marks),
            or_none(family.unwrap_or_default()),
            facts.class_letters(),
            or_none(wanted.unwrap_or_default())
        );
    }
}
