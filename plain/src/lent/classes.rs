//! The lent class table, whatever it holds: at each class the number of its super, or 0 where it is not declared.

use crate::class::{FIRST_DECLARED, OBJECT};
use crate::limits::{Class, Number, MOST_CLASSES};

/// The supers of classes 1 to 4,095, as far as they are lent. Those of reserved classes are not looked at.
pub struct Classes<'a>(&'a mut [Number]);

impl<'a> Classes<'a> {
    /// The class table, and the numbers behind it.
    pub fn split(numbers: &'a mut [Number]) -> (Classes<'a>, &'a mut [Number]) {
        let (supers, behind) = numbers.split_at_mut(numbers.len().min(MOST_CLASSES));
        (Classes(supers), behind)
    }

    /// Refusal 8. All that is asked below is asked of a whole table.
    pub fn is_short(&self) -> bool {
        self.0.len() < MOST_CLASSES
    }

    /// Whether a class is reserved or declared; any number but 0 declares it.
    pub fn is_known(&self, class: Class) -> bool {
        is_reserved(class) || self.0[class as usize - 1] != 0
    }

    pub fn declare(&mut self, class: Class, superclass: Class) {
        self.0[class as usize - 1] = superclass.into();
    }

    /// The super of a class by its number; the root has none, nor has what is no class or is not declared.
    pub fn superclass(&self, class: Number) -> Option<Number> {
        const ROOT: Number = OBJECT as Number;
        const DECLARED: Number = FIRST_DECLARED as Number;
        match class {
            0 | ROOT => None,
            ..DECLARED => Some(ROOT),
            _ => {
                let index = usize::try_from(class - 1).ok()?;
                let superclass = self.0.get(index);
                superclass.copied().filter(|&superclass| superclass != 0)
            }
        }
    }

    /// Whether the class stated in a row is this one or below it. A chain of supers has at most as many classes as there are; a longer
    /// one goes in a circle.
    pub fn is_within(&self, stated: Number, other: Class) -> bool {
        let mut class = stated;
        for _ in 0..=MOST_CLASSES {
            if class == other.into() {
                return true;
            }
            match self.superclass(class) {
                Some(superclass) => class = superclass,
                None => return false,
            }
        }
        false
    }
}

pub fn is_reserved(class: Class) -> bool {
    (OBJECT..FIRST_DECLARED).contains(&class)
}
