//! The examples, run.

#[path = "../examples/list.rs"]
mod list;
#[path = "../examples/make_disk.rs"]
mod make_disk;

#[test]
fn a_disk_is_made_and_listed() {
    let image = make_disk::disk().unwrap();
    let listed = "PULS01/DAT       600 bytes  1983-10-09\n28 granules free, 14 in the longest stretch\n";
    assert_eq!(list::list(&image, None).unwrap(), listed);
    assert_eq!(list::list(&image, Some("sample")).unwrap(), listed);
    assert!(list::list(&image, Some("floppy")).is_err() && list::list(&image[1..], None).is_err());
    let series = list::list(include_bytes!("../../../examples/series.img"), None).unwrap();
    assert!(
        series.starts_with("EICH01/DAT") && series.ends_with("25 granules free, 14 in the longest stretch\n"),
        "{series}"
    );
}
