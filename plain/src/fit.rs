//! How what is stated of an identity fits what a function wants of it: told for what comes up, not for what is judged.

use crate::identity::{Stated, Wanted, FIELD, METHOD};

#[derive(Clone, Copy, Debug, PartialEq, Eq)]
pub enum Fit {
    /// Nothing is stated.
    Unstated,
    /// It is what is wanted, and not final.
    Right,
    /// It is what is wanted, and final; where a field is written it must not be.
    Final,
    /// It is what is wanted, and whether it is final is no flag.
    NoFinal,
    /// It is of the other sort, static or not as is wanted, if it matters.
    Sort,
    /// It is static where it must not be, or the other way round.
    Static,
    /// Both are other ones.
    Both,
    /// Its sort is none.
    NoSort,
    /// Its sort is right, and whether it is static is no flag, and matters.
    NoStatic,
}

impl Fit {
    /// Those from a start where it matters whether the identity is static, and where it does not.
    pub const FLAGGED: [Fit; 6] = [
        Fit::Unstated,
        Fit::Right,
        Fit::Final,
        Fit::Sort,
        Fit::Static,
        Fit::Both,
    ];
    pub const UNFLAGGED: [Fit; 4] = [Fit::Unstated, Fit::Right, Fit::Final, Fit::Sort];
    /// Those over foreign tables alone: where it matters whether the identity is static, and where it is written.
    pub const FOREIGN: [Fit; 3] = [Fit::NoSort, Fit::NoStatic, Fit::NoFinal];

    pub fn of(wanted: Wanted, stated: Option<Stated>) -> Fit {
        let Some(stated) = stated else {
            return Fit::Unstated;
        };
        let is_sort = stated.sort == wanted.sort.into();
        let is_other = [METHOD, FIELD].map(u64::from).contains(&stated.sort);
        let is_static = match wanted.is_static {
            None => Some(true),
            Some(_) if stated.is_static > 1 => None,
            Some(is_static) => Some((stated.is_static == 1) == is_static),
        };
        match (is_sort, is_static) {
            (true, Some(true)) => match stated.is_final {
                0 => Fit::Right,
                1 => Fit::Final,
                _ => Fit::NoFinal,
            },
            (true, Some(false)) => Fit::Static,
            (true, None) => Fit::NoStatic,
            (false, _) if !is_other => Fit::NoSort,
            (false, Some(true)) => Fit::Sort,
            (false, _) => Fit::Both,
        }
    }

    /// The rule that is broken, or 0.
    pub fn rule(self, wanted: Wanted) -> u8 {
        match self {
            Fit::Right | Fit::NoFinal => 0,
            Fit::Final if wanted.writes => 6,
            Fit::Final => 0,
            _ => 5,
        }
    }

    pub fn name(self) -> &'static str {
        match self {
            Fit::Unstated => "unstated",
            Fit::Right => "right",
            Fit::Final => "final",
            Fit::NoFinal => "no final flag",
            Fit::Sort => "another sort",
            Fit::Static => "another flag",
            Fit::Both => "another sort and flag",
            Fit::NoSort => "no sort",
            Fit::NoStatic => "no flag",
        }
    }
}
