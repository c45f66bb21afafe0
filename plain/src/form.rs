//! The forms of lines: the letter and the fields of each, and the range of each kind of field.

use crate::facts::{FIRST_FUNCTION, LAST_FUNCTION};
use crate::identity::{FIELD, METHOD};
use crate::limits::{Field, Handle, MOST_CLASSES, MOST_HANDLES, THREADS};

/// A kind of field: the least and the greatest number it may be.
#[derive(Clone, Copy, Debug, PartialEq, Eq)]
pub struct Kind(pub Field, pub Field);

impl Kind {
    pub fn holds(self, number: Field) -> bool {
        self.0 <= number && number <= self.1
    }
}

pub const THREAD: Kind = Kind(1, THREADS as Field);
pub const ENV: Kind = Kind(1, Handle::MAX as Field);
pub const FUNCTION: Kind = Kind(FIRST_FUNCTION as Field, LAST_FUNCTION as Field);
/// A handle, an identity or a buffer.
pub const HANDLE: Kind = Kind(0, Handle::MAX as Field);
pub const CAPACITY: Kind = Kind(i32::MIN as Field, i32::MAX as Field);
/// What the function's facts say: a status or what a handle may be.
pub const RESULT: Kind = Kind(CAPACITY.0, HANDLE.1);
pub const PENDING: Kind = Kind(0, 1);
pub const CLASS: Kind = Kind(1, MOST_CLASSES as Field);
/// An identity that is stated: a multiple of 4 in this range.
pub const IDENTITY: Kind = Kind(4, Handle::MAX as Field - 3);
pub const SORT: Kind = Kind(METHOD as Field, FIELD as Field);
pub const FLAG: Kind = Kind(0, 1);

#[derive(Debug)]
pub struct Form {
    pub letter: u8,
    pub fields: &'static [Kind],
    /// The most handles that may follow the fields.
    pub handles: usize,
}

pub static FORMS: [Form; 10] = [
    Form {
        letter: b'N',
        fields: &[THREAD, ENV],
        handles: MOST_HANDLES,
    },
    Form {
        letter: b'X',
        fields: &[THREAD, HANDLE],
        handles: 0,
    },
    Form {
        letter: b'C',
        fields: &[THREAD, ENV, FUNCTION, HANDLE, HANDLE, HANDLE, CAPACITY],
        handles: 0,
    },
    Form {
        letter: b'R',
        fields: &[THREAD, FUNCTION, RESULT, PENDING],
        handles: 0,
    },
    Form {
        letter: b'A',
        fields: &[THREAD, ENV],
        handles: 0,
    },
    Form {
        letter: b'D',
        fields: &[THREAD],
        handles: 0,
    },
    Form {
        letter: b'K',
        fields: &[CLASS, CLASS],
        handles: 0,
    },
    Form {
        letter: b'O',
        fields: &[THREAD, HANDLE, CLASS],
        handles: 0,
    },
    Form {
        letter: b'M',
        fields: &[IDENTITY, SORT, CLASS, FLAG, FLAG],
        handles: 0,
    },
    Form {
        letter: b'Z',
        fields: &[],
        handles: 0,
    },
];

/// The most numbers on a line.
pub const MOST_NUMBERS: usize = {
    let mut most = 0;
    let mut index = 0;
    while index < FORMS.len() {
        if FORMS[index].most() > most {
            most = FORMS[index].most();
        }
        index += 1;
    }
    most
};

/// The form of lines with this letter, if there is one.
pub fn form(letter: u8) -> Option<&'static Form> {
    FORMS.iter().find(|form| form.letter == letter)
}

/// The forms that have fields.
pub fn with_fields() -> Vec<&'static Form> {
    FORMS.iter().filter(|form| form.most() > 0).collect()
}

impl Form {
    /// The letter as a text.
    pub fn name(&'static self) -> &'static str {
        std::str::from_utf8(std::slice::from_ref(&self.letter)).expect("a letter")
    }

    /// The most numbers of such a line.
    pub const fn most(&self) -> usize {
        self.fields.len() + self.handles
    }

    /// The kind of each field, in their order.
    pub fn kinds(&self) -> impl Iterator<Item = Kind> {
        let handles = std::iter::repeat_n(HANDLE, self.handles);
        self.fields.iter().copied().chain(handles)
    }

    /// Whether there may be so many numbers.
    pub fn counts(&self, count: usize) -> bool {
        (self.fields.len()..=self.most()).contains(&count)
    }

    /// Whether each number is in the range of its field; there are as many as there may be.
    pub fn holds(&self, numbers: &[Field]) -> bool {
        let (fields, handles) = numbers.split_at(self.fields.len());
        let mut in_fields = fields.iter().zip(self.fields);
        in_fields.all(|(&number, kind)| kind.holds(number))
            && handles.iter().all(|&handle| HANDLE.holds(handle))
    }
}
