//! Archives as tar writes and reads them, in memory: regular files with names, sizes and times.
//!
//! What is written is ustar (POSIX.1-1988), which every tar reads. Read are also GNU's long names and POSIX.1-2001's extended
//! headers, as far as they state names, sizes and times. A folder holds nothing and is passed over; a link, a device or a file
//! with holes is refused, since a disk cannot hold it.

/// A file of an archive.
#[derive(Clone, Debug, PartialEq, Eq)]
pub struct Member {
    /// Its name with its folders, as it stands there.
    pub name: String,
    pub bytes: Vec<u8>,
    /// Seconds since 1970 began, in UTC.
    pub time: u64,
}

const BLOCK: usize = 512;

/// Places in a header: from, length.
type Field = (usize, usize);
const NAME: Field = (0, 100);
const MODE: Field = (100, 8);
const SIZE: Field = (124, 12);
const TIME: Field = (136, 12);
const SUM: Field = (148, 8);
const KIND: usize = 156;
const MAGIC: Field = (257, 6);
const PREFIX: Field = (345, 155);

/// The archive of these files. Their names have at most 100 bytes, as all names of a disk.
pub fn write(members: &[Member]) -> Vec<u8> {
    let mut archive = Vec::new();
    for member in members {
        let mut header = [0; BLOCK];
        set(&mut header, NAME, member.name.as_bytes());
        set(&mut header, MODE, b"0000644\0");
        // User and group 0, and the numbers of no device.
        for at in [108, 116, 329, 337] {
            set(&mut header, (at, 8), b"0000000\0");
        }
        set(&mut header, SIZE, format!("{:011o}\0", member.bytes.len()).as_bytes());
        set(&mut header, TIME, format!("{:011o}\0", member.time).as_bytes());
        header[KIND] = b'0';
        set(&mut header, MAGIC, b"ustar\0");
        set(&mut header, (263, 2), b"00");
        let sum = format!("{:06o}\0 ", sum(&header));
        set(&mut header, SUM, sum.as_bytes());
        archive.extend(header);
        archive.extend(&member.bytes);
        archive.resize(archive.len() + padding(member.bytes.len()), 0);
    }
    archive.resize(archive.len() + 2 * BLOCK, 0);
    archive
}

fn set(header: &mut [u8; BLOCK], (from, length): Field, bytes: &[u8]) {
    let length = bytes.len().min(length);
    header[from..from + length].copy_from_slice(&bytes[..length]);
}

/// Bytes behind a content up to the next block.
fn padding(length: usize) -> usize {
    (BLOCK - length % BLOCK) % BLOCK
}

/// The sum of a header's bytes, its own field taken as blanks.
fn sum(header: &[u8]) -> u64 {
    let own = SUM.0..SUM.0 + SUM.1;
    header.iter().enumerate().map(|(at, &byte)| u64::from(if own.contains(&at) { b' ' } else { byte })).sum()
}

/// What extended headers state of the files behind them.
#[derive(Clone, Default)]
struct Stated {
    name: Option<String>,
    size: Option<u64>,
    time: Option<u64>,
}

/// The regular files of an archive, in its order; or what is wrong, with its place.
pub fn read(archive: &[u8]) -> Result<Vec<Member>, String> {
    let mut members = Vec::new();
    let mut at = 0;
    // Of all files behind it, and of the next one only.
    let (mut global, mut next) = (Stated::default(), Stated::default());
    loop {
        let wrong = |what: &str| format!("at byte {at}: {what}");
        let header = match archive.get(at..at + BLOCK) {
            Some(header) => header,
            None if at == 0 => return Err("it is no tar archive: it has fewer than 512 bytes".to_string()),
            None => return Err(wrong("the archive breaks off: its end mark is missing")),
        };
        if header.iter().all(|&byte| byte == 0) {
            return Ok(members);
        }
        if number(field(header, SUM)) != Some(sum(header)) {
            let what = if at == 0 { "it is no tar archive: " } else { "" };
            return Err(wrong(&format!("{what}a header's sum is wrong")));
        }
        let kind = header[KIND];
        let stated = match kind {
            b'x' | b'g' | b'L' | b'K' => Stated::default(),
            _ => merged(&global, std::mem::take(&mut next)),
        };
        let size = stated.size.or_else(|| number(field(header, SIZE)));
        let size = size.and_then(|size| usize::try_from(size).ok()).ok_or_else(|| wrong("a size is no number"))?;
        let content = (at + BLOCK).checked_add(size).and_then(|end| archive.get(at + BLOCK..end));
        let name = stated.name.unwrap_or_else(|| named(header));
        match kind {
            b'0' | 0 | b'7' if name.ends_with('/') => {}
            b'0' | 0 | b'7' => {
                let bytes = content.ok_or_else(|| wrong(&format!("the archive breaks off within {name}")))?;
                let time = stated.time.or_else(|| number(field(header, TIME))).unwrap_or(0);
                members.push(Member { name, bytes: bytes.to_vec(), time });
            }
            // A folder has no content, whatever its size says.
            b'5' => {
                at += BLOCK;
                continue;
            }
            b'x' | b'g' => {
                let records = content.ok_or_else(|| wrong("the archive breaks off within a header"))?;
                let stated = extended(records).ok_or_else(|| wrong("an extended header is malformed"))?;
                match kind {
                    b'g' => global = merged(&global, stated),
                    _ => next = stated,
                }
            }
            b'L' => {
                let name = content.ok_or_else(|| wrong("the archive breaks off within a name"))?;
                next.name = Some(text(name));
            }
            b'1' | b'2' => return Err(wrong(&format!("{name} is a link, and a disk has none"))),
            b'S' => return Err(wrong(&format!("{name} is kept with holes, which are not read here"))),
            b'K' => return Err(wrong("a link's name, and a disk has no links")),
            b'3' | b'4' | b'6' => return Err(wrong(&format!("{name} is no regular file"))),
            _ => return Err(wrong(&format!("{name} is of a kind that is not known here"))),
        }
        at += BLOCK + size + padding(size);
    }
}

fn merged(global: &Stated, next: Stated) -> Stated {
    Stated {
        name: next.name.or_else(|| global.name.clone()),
        size: next.size.or(global.size),
        time: next.time.or(global.time),
    }
}

fn field(header: &[u8], (from, length): Field) -> &[u8] {
    &header[from..from + length]
}

/// Bytes up to a zero as text.
fn text(bytes: &[u8]) -> String {
    let end = bytes.iter().position(|&byte| byte == 0).unwrap_or(bytes.len());
    String::from_utf8_lossy(&bytes[..end]).into_owned()
}

/// The name in a header, with what ustar puts before it.
fn named(header: &[u8]) -> String {
    let name = text(field(header, NAME));
    match field(header, MAGIC) == b"ustar\0" && header[PREFIX.0] != 0 {
        true => format!("{}/{name}", text(field(header, PREFIX))),
        false => name,
    }
}

/// A number in a header: octal digits, blanks around them; or, as GNU has large ones, bytes behind one with its highest bit set.
fn number(bytes: &[u8]) -> Option<u64> {
    match bytes {
        [0x80, rest @ ..] => {
            rest.iter().try_fold(0u64, |number, &byte| number.checked_mul(256)?.checked_add(byte.into()))
        }
        _ => {
            let text = text(bytes);
            match text.trim_matches(' ') {
                "" => Some(0),
                digits if digits.bytes().all(|byte| byte.is_ascii_digit()) => u64::from_str_radix(digits, 8).ok(),
                _ => None,
            }
        }
    }
}

/// The records of an extended header, `LENGTH KEY=VALUE` and a line feed each.
fn extended(mut records: &[u8]) -> Option<Stated> {
    let mut stated = Stated::default();
    while !records.is_empty() {
        let blank = records.iter().position(|&byte| byte == b' ')?;
        let length: usize = std::str::from_utf8(&records[..blank]).ok()?.parse().ok()?;
        let record = records.get(blank + 1..length)?.strip_suffix(b"\n")?;
        let equals = record.iter().position(|&byte| byte == b'=')?;
        let (key, value) = (&record[..equals], String::from_utf8_lossy(&record[equals + 1..]).into_owned());
        match key {
            b"path" => stated.name = Some(value),
            b"size" => stated.size = Some(value.parse().ok()?),
            // Parts of a second are left out, and what is before 1970 is its beginning.
            b"mtime" => {
                let whole = value.split('.').next().unwrap_or_default();
                stated.time = Some(whole.parse::<i64>().ok()?.max(0) as u64);
            }
            b"GNU.sparse.major" | b"GNU.sparse.map" => return None,
            _ => {}
        }
        records = &records[length..];
    }
    Some(stated)
}

#[cfg(test)]
mod tests {
    use super::*;

    fn member(name: &str, length: usize, time: u64) -> Member {
        Member { name: name.to_string(), bytes: (0..length).map(|i| (i * 7) as u8).collect(), time }
    }

    #[test]
    fn what_is_written_is_read() {
        let members: Vec<_> =
            [0, 1, 511, 512, 513, 70_000].iter().map(|&n| member(&format!("A{n}.DAT"), n, 434_548_800)).collect();
        assert_eq!(read(&write(&members)), Ok(members));
        assert_eq!(read(&write(&[])), Ok(Vec::new()));
        assert_eq!(write(&[]).len(), 1024);
    }

    #[test]
    fn a_header_by_its_bytes() {
        let archive = write(&[member("PULS01.DAT", 3, 434_548_800)]);
        assert_eq!(archive.len(), 512 + 512 + 1024);
        assert_eq!(&archive[..11], b"PULS01.DAT\0");
        assert_eq!(&archive[124..148], b"00000000003\x0003171530100\0".as_slice());
        assert_eq!(&archive[257..265], b"ustar\x0000");
        let sum: u32 =
            archive[..148].iter().chain(&archive[156..512]).map(|&byte| u32::from(byte)).sum::<u32>() + 8 * 32;
        assert_eq!(&archive[148..156], format!("{sum:06o}\0 ").as_bytes());
    }

    /// A block of this kind before a file's own.
    fn before(kind: u8, content: &[u8], file: &Member) -> Vec<u8> {
        let mut archive = write(&[Member { name: "header".into(), bytes: content.to_vec(), time: 0 }]);
        archive.truncate(archive.len() - 1024);
        archive[KIND] = kind;
        let sum = format!("{:06o}\0 ", sum(&archive[..BLOCK]));
        archive[SUM.0..SUM.0 + 8].copy_from_slice(sum.as_bytes());
        archive.extend(write(std::slice::from_ref(file)));
        archive
    }

    #[test]
    fn headers_of_other_tars() {
        let file = member("short", 5, 9);
        let long = "folder/".repeat(30) + "puls01.dat";
        let named = |archive: &[u8]| read(archive).unwrap().into_iter().map(|m| (m.name, m.time)).collect::<Vec<_>>();
        assert_eq!(named(&before(b'L', (long.clone() + "\0").as_bytes(), &file)), [(long, 9)]);
        let records = b"20 path=a/leer.dat\n19 mtime=434548800.5\n";
        assert_eq!(read(&before(b'x', records, &file)).unwrap_err(), "at byte 0: an extended header is malformed");
        let records = b"19 path=a/leer.dat\n21 mtime=434548800.5\n12 comment=\n";
        assert_eq!(named(&before(b'x', records, &file)), [("a/leer.dat".to_string(), 434_548_800)]);
        assert_eq!(named(&before(b'g', b"11 mtime=7\n", &file)), [("short".to_string(), 7)]);
        assert_eq!(named(&before(b'5', b"", &file)), [("short".to_string(), 9)]);
        for (kind, told) in [(b'1', "is a link"), (b'2', "is a link"), (b'3', "no regular file"), (b'S', "with holes")]
        {
            assert!(read(&before(kind, b"", &file)).unwrap_err().contains(told));
        }
    }

    #[test]
    fn what_is_no_archive() {
        let archive = write(&[member("A", 600, 0), member("B", 1, 0)]);
        assert!(read(b"").unwrap_err().contains("no tar archive"));
        assert!(read(&[b'x'; 1024]).unwrap_err().contains("no tar archive"));
        assert_eq!(read(&archive[..700]).unwrap_err(), "at byte 0: the archive breaks off within A");
        let broken = read(&archive[..512 + 1024]).unwrap_err();
        assert_eq!(broken, "at byte 1536: the archive breaks off: its end mark is missing");
        for at in [0, 130, 150, 300] {
            let mut damaged = archive.clone();
            damaged[1536 + at] ^= 1;
            assert_eq!(read(&damaged).unwrap_err(), "at byte 1536: a header's sum is wrong");
        }
    }

    #[test]
    fn any_bytes_get_an_answer() {
        let archive = write(&[member("A", 600, 0), member("B", 1, 0)]);
        let mut state = 1u32;
        let mut next = |below: usize| {
            state = state.wrapping_mul(1_664_525).wrapping_add(1_013_904_223);
            (state >> 8) as usize % below
        };
        for _ in 0..20_000 {
            let mut archive = archive.clone();
            for _ in 0..1 + next(4) {
                let at = next(archive.len());
                archive[at] = next(256) as u8;
            }
            let at = [0, 1536][next(2)];
            let sum = format!("{:06o}\0 ", sum(&archive[at..at + BLOCK]));
            archive[at + SUM.0..at + SUM.0 + 8].copy_from_slice(sum.as_bytes());
            let _ = read(&archive[..next(archive.len() + 1)]);
        }
    }
}
