use super::faults::found;
use super::Reading;
use crate::Geometry;

/// The reading that is gone by where the image tells no length of the directory that is allowed: that under which most files
/// are untouched by any fault; of these the one with the fewest faults; of these the shortest, since what stands behind a
/// directory taken too short stays as it is. The geometry must fit.
pub(crate) fn presumed(image: &[u8], g: Geometry) -> Option<Reading<'_>> {
    let fitting = Reading::LENGTHS.into_iter().filter_map(|above| Reading::sectors_of(image, g, above));
    let judged = fitting.map(|sectors| {
        let reading = Reading::with_length(image, g, sectors);
        let faults = found(&reading);
        let untouched = reading.files().filter(|file| faults.iter().all(|fault| !fault.touches.contains(file))).count();
        (core::cmp::Reverse(untouched), faults.len(), sectors, reading)
    });
    judged.min_by_key(|&(untouched, faults, sectors, _)| (untouched, faults, sectors)).map(|(.., reading)| reading)
}
