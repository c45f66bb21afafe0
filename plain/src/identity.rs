//! Method and field identities: what M states of one, and what a function wants of the one that it is handed.

use crate::limits::Number;

/// The sorts.
pub const METHOD: u32 = 1;
pub const FIELD: u32 = 2;

/// What is stated of an identity, in numbers as a lent table has them.
#[derive(Clone, Copy, Debug, PartialEq, Eq)]
pub struct Stated {
    pub sort: Number,
    pub is_static: Number,
    pub is_final: Number,
}

/// What a function wants of its identity.
#[derive(Clone, Copy, Debug, PartialEq, Eq)]
pub struct Wanted {
    pub sort: u32,
    /// Whether it is to be static; nothing where either is right.
    pub is_static: Option<bool>,
    /// Whether the function writes the field, which must not be final then.
    pub writes: bool,
}

/// What a function with an identity wants of it.
pub const fn wanted(function: u32) -> Wanted {
    let (sort, is_static) = match function {
        28..=30 | 34..=93 => (METHOD, Some(false)),
        114..=143 => (METHOD, Some(true)),
        95..=112 => (FIELD, Some(false)),
        145..=162 => (FIELD, Some(true)),
        9 => (METHOD, None),
        12 => (FIELD, None),
        _ => panic!("no identity"),
    };
    Wanted {
        sort,
        is_static,
        writes: matches!(function, 104..=112 | 154..=162),
    }
}

impl Wanted {
    /// Its sort, `m` method or `f` field, whether it is to be of an instance, static or any, and `w` where the function writes it.
    pub fn letters(self) -> String {
        let sort = if self.sort == METHOD { "m" } else { "f" };
        let flag = match self.is_static {
            None => "a",
            Some(false) => "i",
            Some(true) => "s",
        };
        let writes = if self.writes { "w" } else { "" };
        [sort, flag, writes].concat()
    }

    /// The rule that an identity breaks of which this is stated, or nothing: 5 goes before 6.
    pub fn breach(self, stated: Option<Stated>) -> Option<u8> {
        let Some(stated) = stated.filter(|stated| self.fits(stated)) else {
            return Some(5);
        };
        (self.writes && stated.is_final == 1).then_some(6)
    }

    /// Whether sort and flag are those that are wanted. Any other number in a lent table is neither sort, and neither static nor not.
    fn fits(self, stated: &Stated) -> bool {
        let is_flag = |wanted: bool| stated.is_static == wanted.into();
        stated.sort == self.sort.into() && self.is_static.is_none_or(is_flag)
    }
}
