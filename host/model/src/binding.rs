//! The library's exported functions, and the one place in this crate where they are called.

use crate::calls::{Birth, Number};
use crate::geometry::Geometry;
use crate::library::Library;
use crate::model::Model;
use crate::sys;
use std::rc::Rc;

// The library: the source compiled by rustc, unless the archive is asked for (see build.rs).
#[cfg(not(genie_archive))]
extern crate genie_source as _;

/// Which of the two is linked.
pub const LINKED: &str =
    if cfg!(genie_archive) { "the archive made by Rattle" } else { "the source compiled by rustc" };

/// The library under test.
pub fn linked() -> Rc<dyn Library> {
    Rc::new(Linked)
}

/// The model, and the linked library: hand-written cases run on each.
pub fn libraries() -> Vec<Rc<dyn Library>> {
    vec![Rc::new(Model), linked()]
}

struct Linked;

macro_rules! method {
    ($call:ident $export:ident p[$($p:tt)*] n $n:tt m $m:tt c[$($c:tt)*] $($rest:tt)*) => {
        fn $call(&self, $($p)*) -> Number {
            // SAFETY: every slice is lent with its own length and every outgoing number is a reference, so no pointer is
            // null, none overlaps another that is written, and all outlive the call.
            unsafe { sys::$export($($c)*) }
        }
    };
}
macro_rules! methods {
    ($($rows:tt)*) => {
        impl Library for Linked {
            fn title(&self) -> &'static str {
                LINKED
            }
            spread! { method $($rows)* }
        }
    };
}
exports!(methods);
