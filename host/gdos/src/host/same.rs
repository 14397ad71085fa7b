//! Whether two names lead to one file.

use std::fs;
use std::os::unix::fs::MetadataExt;
use std::path::Path;

/// Whether two names lead to one file of the host, by links of either kind or as they are; not if either leads to none.
pub fn same_file(one: &Path, other: &Path) -> bool {
    let identity = |path: &Path| fs::metadata(path).map(|data| (data.dev(), data.ino()));
    matches!((identity(one), identity(other)), (Ok(one), Ok(other)) if one == other)
}
