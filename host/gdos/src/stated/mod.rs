//! Where a geometry is stated: by options, in the environment, in a file beside the image; and what is done where it is
//! not.

mod sidecar;
mod source;
mod unclear;

pub use sidecar::Sidecar;
pub use source::{find, find_for_change, searched, Found, Source};
pub use unclear::{none_fits, not_stated};
