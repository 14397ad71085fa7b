//! The listing in one call, on the model and on the linked library: row i is what `list` tells of number + i, the rest of the table
//! stays as it stood, and a table that holds no row is refused.

use genie_model::binding::libraries;
use genie_model::calls::{ACCEPTED, RANGE, ROW_BYTES};
use genie_model::disks::random_disk;
use genie_model::random::Random;

#[test]
fn each_row_is_what_list_tells() {
    let mut random = Random::new(31);
    let mut most = 0;
    for disk in (0..40).map(|_| random_disk(&mut random)) {
        for library in libraries() {
            let title = library.title();
            let (mut files, mut free) = (0, 0);
            assert_eq!(library.count(&disk.image, &disk.g, &mut files, &mut free, &mut 0), ACCEPTED, "{title}");
            for number in [0, 1, files / 2, files, files + 3] {
                for rows in [1, 2, files, files + 1] {
                    let mut table = vec![7; ROW_BYTES * rows.max(1) + 13];
                    let mut told = 9;
                    let answer = library.list_from(&disk.image, &disk.g, number, &mut table, &mut told, &mut 0);
                    assert_eq!(
                        (answer, told),
                        (ACCEPTED, files.saturating_sub(number).min(rows.max(1))),
                        "{title}"
                    );
                    for (i, row) in table[..ROW_BYTES * told].chunks(ROW_BYTES).enumerate() {
                        let (mut name, mut size, mut granules, mut more) = ([0; 11], 0, 0, 0);
                        let one = library.list(
                            &disk.image,
                            &disk.g,
                            number + i,
                            &mut name,
                            &mut size,
                            &mut granules,
                            &mut more,
                            &mut 0,
                        );
                        assert_eq!((one, more), (ACCEPTED, 1), "{title}");
                        let (mut slot, mut compared) = (0, 0);
                        let found =
                            library.look_up(&disk.image, &disk.g, &name, &mut slot, &mut compared, &mut 0, &mut 0);
                        assert_eq!(found, ACCEPTED, "{title}");
                        let mut wanted = name.to_vec();
                        wanted.push(slot as u8);
                        wanted.extend((size as u32).to_le_bytes());
                        wanted.extend((granules as u16).to_le_bytes());
                        wanted.extend([0, 0]);
                        assert_eq!(row, wanted, "{title}: file {} of {files}", number + i);
                    }
                    assert!(table[ROW_BYTES * told..].iter().all(|&byte| byte == 7), "{title}");
                    most = most.max(told);
                }
            }
        }
    }
    assert!(most > 2, "no disk had three files");
}

#[test]
fn a_table_that_holds_no_row() {
    let mut random = Random::new(32);
    let disk = random_disk(&mut random);
    for library in libraries() {
        for number in [0, 300] {
            for length in [0, 1, ROW_BYTES - 1] {
                let mut table = vec![7; length];
                let mut told = 9;
                let answer = library.list_from(&disk.image, &disk.g, number, &mut table, &mut told, &mut 0);
                assert_eq!((answer, told), (RANGE, 0), "{}", library.title());
                assert_eq!(table, vec![7; length], "{}", library.title());
            }
        }
        // What the check finds goes before it.
        let mut damaged = disk.image.clone();
        damaged[(disk.g.start + 1) * 256 + 0x1F] ^= 0x55;
        let (mut found, mut slot) = (0, 0);
        let checked = library.check(&damaged, &disk.g, &mut found);
        let mut told = 9;
        let answer = library.list_from(&damaged, &disk.g, 0, &mut [], &mut told, &mut slot);
        assert!(checked != ACCEPTED, "{}", library.title());
        assert_eq!((answer, told, slot), (checked, 0, found), "{}", library.title());
    }
}
