//! The facts of the 229 JNI functions: the places and result of each, and where it is allowed.

use crate::class::{CLASS, STRING, THROWABLE};
use crate::identity::{wanted, Wanted};
use crate::limits::{Class, Handle};

pub const FIRST_FUNCTION: u32 = 4;
pub const LAST_FUNCTION: u32 = 232;
pub const FUNCTIONS: usize = 229;

pub const PUSH_LOCAL_FRAME: u32 = 19;
pub const POP_LOCAL_FRAME: u32 = 20;
pub const DELETE_GLOBAL_REF: u32 = 22;
pub const DELETE_LOCAL_REF: u32 = 23;
pub const IS_SAME_OBJECT: u32 = 24;
pub const ENSURE_LOCAL_CAPACITY: u32 = 26;
pub const GET_OBJECT_CLASS: u32 = 31;
pub const MONITOR_ENTER: u32 = 217;
pub const MONITOR_EXIT: u32 = 218;
pub const DELETE_WEAK_GLOBAL_REF: u32 = 227;

/// What a handle's remainder by 4 says of it; an identity has remainder 0.
pub const LOCAL: Handle = 1;
pub const GLOBAL: Handle = 2;
pub const WEAK: Handle = 3;

/// The get and the release of each buffer family, in their order; those from `FIRST_CRITICAL` on are critical.
pub const FAMILIES: [(u32, u32); 12] = [
    (165, 166),
    (169, 170),
    (183, 191),
    (184, 192),
    (185, 193),
    (186, 194),
    (187, 195),
    (188, 196),
    (189, 197),
    (190, 198),
    (222, 223),
    (224, 225),
];
pub const FIRST_CRITICAL: usize = 10;

/// A buffer family, 0 to 11.
#[derive(Clone, Copy, Debug, PartialEq, Eq)]
pub struct Family(pub u8);

impl Family {
    /// A critical buffer belongs to the getting thread, any other to no thread.
    pub const fn is_critical(self) -> bool {
        self.0 as usize >= FIRST_CRITICAL
    }

    pub const fn get(self) -> u32 {
        FAMILIES[self.0 as usize].0
    }

    pub const fn release(self) -> u32 {
        FAMILIES[self.0 as usize].1
    }
}

#[derive(Clone, Copy, Debug, PartialEq, Eq)]
pub enum PlaceKind {
    Unused,
    Handle,
    HandleOrNull,
    Local,
    Global,
    Weak,
    Identity(Wanted),
    Buffer(Family),
}

#[derive(Clone, Copy, Debug, PartialEq, Eq)]
pub enum ResultKind {
    Nothing,
    Local,
    Global,
    Weak,
    Identity,
    Buffer(Family),
    Status,
}

#[derive(Clone, Copy, Debug, PartialEq, Eq)]
pub struct Facts {
    pub places: [PlaceKind; 3],
    /// The class that is fixed for each place, if there is one.
    pub classes: [Option<Class>; 3],
    pub result: ResultKind,
    pub uses_capacity: bool,
    pub allowed_pending: bool,
    pub allowed_critical: bool,
}

impl Facts {
    /// The places and the result in the paper's letters.
    pub fn letters(&self) -> (String, char) {
        let place = |kind| match kind {
            PlaceKind::Unused => '-',
            PlaceKind::Handle => 'r',
            PlaceKind::HandleOrNull => 'o',
            PlaceKind::Local => 'l',
            PlaceKind::Global => 'g',
            PlaceKind::Weak => 'w',
            PlaceKind::Identity(_) => 'i',
            PlaceKind::Buffer(_) => 'b',
        };
        let result = match self.result {
            ResultKind::Nothing => '-',
            ResultKind::Local => 'L',
            ResultKind::Global => 'G',
            ResultKind::Weak => 'W',
            ResultKind::Identity => 'I',
            ResultKind::Buffer(_) => 'B',
            ResultKind::Status => 'S',
        };
        (self.places.map(place).iter().collect(), result)
    }

    /// The classes that are fixed for the places: `c` class, `s` string, `t` throwable.
    pub fn class_letters(&self) -> String {
        let letter = |class| match class {
            Some(CLASS) => 'c',
            Some(STRING) => 's',
            Some(THROWABLE) => 't',
            _ => '-',
        };
        self.classes.map(letter).iter().collect()
    }

    /// What is wanted of the identity, if there is a place for one.
    pub fn wanted(&self) -> Option<Wanted> {
        let wanted = |place: PlaceKind| match place {
            PlaceKind::Identity(wanted) => Some(wanted),
            _ => None,
        };
        self.places.into_iter().find_map(wanted)
    }

    /// The family of a get or a release.
    pub fn family(&self) -> Option<Family> {
        match (self.result, self.places[1]) {
            (ResultKind::Buffer(family), _) | (_, PlaceKind::Buffer(family)) => Some(family),
            _ => None,
        }
    }
}

/// The functions with a place for which a class is fixed.
pub const WITH_CLASS: [u32; 106] = {
    let mut functions = [0; 106];
    let (mut count, mut function) = (0, FIRST_FUNCTION);
    while function <= LAST_FUNCTION {
        if let [Some(_), ..] | [_, Some(_), _] = facts_of(function).classes {
            functions[count] = function;
            count += 1;
        }
        function += 1;
    }
    functions
};

/// The functions with a place for an identity.
pub const WITH_IDENTITY: [u32; 131] = {
    let mut functions = [0; 131];
    let (mut count, mut function) = (0, FIRST_FUNCTION);
    while function <= LAST_FUNCTION {
        if let [_, PlaceKind::Identity(_), _] | [_, _, PlaceKind::Identity(_)] =
            facts_of(function).places
        {
            functions[count] = function;
            count += 1;
        }
        function += 1;
    }
    functions
};

/// The facts of a function, if there is one of that number.
pub fn facts(function: u32) -> Option<&'static Facts> {
    TABLE.get(function.checked_sub(FIRST_FUNCTION)? as usize)
}

/// The facts of a function known to be one.
pub fn known(function: u32) -> &'static Facts {
    facts(function).expect("a function from 4 to 232")
}

static TABLE: [Facts; FUNCTIONS] = {
    let mut table = [facts_of(FIRST_FUNCTION); FUNCTIONS];
    let mut function = FIRST_FUNCTION;
    while function <= LAST_FUNCTION {
        table[(function - FIRST_FUNCTION) as usize] = facts_of(function);
        function += 1;
    }
    table
};

const fn facts_of(function: u32) -> Facts {
    let (places, result) = match function {
        4 | 16..=18 | 219 | 228 | 232 => (b"---", b'-'),
        6 | 15 | 163 | 167 | 175..=182 | 229 => (b"---", b'L'),
        5 | 20 | 25 => (b"o--", b'L'),
        21 => (b"o--", b'G'),
        226 => (b"o--", b'W'),
        22 => (b"g--", b'-'),
        23 => (b"l--", b'-'),
        227 => (b"w--", b'-'),
        19 | 26 => (b"---", b'S'),
        7 | 8 | 33 | 94 | 113 | 144 => (b"r--", b'I'),
        10 | 27 | 31 | 173 => (b"r--", b'L'),
        13 | 14 | 164 | 168 | 171 | 199..=216 | 220 | 221 | 230 | 231 => (b"r--", b'-'),
        217 | 218 => (b"r--", b'S'),
        11 => (b"rr-", b'-'),
        24 => (b"oo-", b'-'),
        32 => (b"or-", b'-'),
        9 | 12 | 28..=30 | 34..=36 | 95 | 114..=116 | 145 => (b"ri-", b'L'),
        37..=63 | 96..=103 | 105..=112 | 117..=143 | 146..=153 | 155..=162 => (b"ri-", b'-'),
        64..=66 => (b"rri", b'L'),
        67..=93 => (b"rri", b'-'),
        104 | 154 => (b"rio", b'-'),
        172 => (b"ro-", b'L'),
        174 => (b"ro-", b'-'),
        165 | 169 | 183..=190 | 222 | 224 => (b"r--", b'B'),
        166 | 170 | 191..=198 | 223 | 225 => (b"rb-", b'-'),
        _ => panic!("no such function"),
    };
    Facts {
        places: [
            place_kind(places[0], function),
            place_kind(places[1], function),
            place_kind(places[2], function),
        ],
        classes: [class_of_first(function), class_of_second(function), None],
        result: result_kind(result, function),
        uses_capacity: matches!(function, PUSH_LOCAL_FRAME | ENSURE_LOCAL_CAPACITY),
        allowed_pending: matches!(
            function,
            15..=17 | 19 | 20 | 22 | 23 | 166 | 170 | 191..=198 | 218 | 223 | 225 | 227 | 228
        ),
        allowed_critical: matches!(function, 222..=225),
    }
}

const fn place_kind(letter: u8, function: u32) -> PlaceKind {
    match letter {
        b'-' => PlaceKind::Unused,
        b'r' => PlaceKind::Handle,
        b'o' => PlaceKind::HandleOrNull,
        b'l' => PlaceKind::Local,
        b'g' => PlaceKind::Global,
        b'w' => PlaceKind::Weak,
        b'i' => PlaceKind::Identity(wanted(function)),
        b'b' => PlaceKind::Buffer(family(function)),
        _ => panic!("no such place kind"),
    }
}

const fn class_of_first(function: u32) -> Option<Class> {
    match function {
        9..=12 | 14 | 27..=30 | 33 | 94 | 113..=162 | 172 | 215 | 216 => Some(CLASS),
        164..=166 | 168..=170 | 220 | 221 | 224 | 225 => Some(STRING),
        13 => Some(THROWABLE),
        _ => None,
    }
}

const fn class_of_second(function: u32) -> Option<Class> {
    match function {
        11 | 32 | 64..=93 => Some(CLASS),
        _ => None,
    }
}

const fn result_kind(letter: u8, function: u32) -> ResultKind {
    match letter {
        b'-' => ResultKind::Nothing,
        b'L' => ResultKind::Local,
        b'G' => ResultKind::Global,
        b'W' => ResultKind::Weak,
        b'I' => ResultKind::Identity,
        b'B' => ResultKind::Buffer(family(function)),
        b'S' => ResultKind::Status,
        _ => panic!("no such result kind"),
    }
}

const fn family(function: u32) -> Family {
    let mut family = Family(0);
    while family.get() != function && family.release() != function {
        family = Family(family.0 + 1);
    }
    family
}
