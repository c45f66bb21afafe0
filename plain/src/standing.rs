//! How the class stated of a handle stands to the class that is fixed for a place: told for what comes up, not for what is judged.

use crate::lent::classes::{is_reserved, Classes};
use crate::limits::{Class, Number, MOST_CLASSES};

#[derive(Clone, Copy, Debug, PartialEq, Eq)]
pub enum Standing {
    /// No class is stated.
    Unstated,
    /// It is the fixed class.
    Itself,
    /// It is below the fixed class, by so many supers.
    Below(usize),
    /// It is another reserved class, or below that one by so many supers.
    Under(Class, usize),
    /// Its supers lead to a number that is no class or is not declared.
    Lost,
    /// Its supers lead back to one of them, there being more than there are classes.
    Circle,
}

impl Standing {
    pub fn of(classes: &Classes, stated: Number, fixed: Class) -> Standing {
        if stated == 0 {
            return Standing::Unstated;
        }
        let mut class = stated;
        for supers in 0..=MOST_CLASSES {
            if class == fixed.into() {
                return match supers {
                    0 => Standing::Itself,
                    _ => Standing::Below(supers),
                };
            }
            if let Some(reserved) = Class::try_from(class).ok().filter(|&one| is_reserved(one)) {
                return Standing::Under(reserved, supers);
            }
            match classes.superclass(class) {
                None => return Standing::Lost,
                Some(superclass) => class = superclass,
            }
        }
        Standing::Circle
    }

    /// Whether the place is not condemned for it.
    pub fn is_right(self) -> bool {
        matches!(
            self,
            Standing::Unstated | Standing::Itself | Standing::Below(_)
        )
    }

    pub fn name(self) -> &'static str {
        match self {
            Standing::Unstated => "unstated",
            Standing::Itself => "itself",
            Standing::Below(_) => "below",
            Standing::Under(..) => "another",
            Standing::Lost => "lost",
            Standing::Circle => "circle",
        }
    }
}
