//! `gdos` for a page in the browser: one call, which takes words and files and gives back what the command wrote.
//!
//! What goes in and out is a list of byte strings, each behind its length, four bytes, low byte first ([`packed`], [`unpacked`]).
//! In go the number of words as text, the words, then a name and its bytes for each file. Out come the exit status as text, standard
//! output, standard error, then a name and its bytes for each file that was written. Nothing is kept from one call to the next.

#[cfg(not(unix))]
mod exports;

/// The parts of a message as one string of bytes.
pub fn packed<P: AsRef<[u8]>>(parts: &[P]) -> Vec<u8> {
    let mut all = Vec::new();
    for part in parts.iter().map(AsRef::as_ref) {
        // A part is in memory whose addresses have 32 bits, where this is used.
        all.extend((part.len() as u32).to_le_bytes());
        all.extend(part);
    }
    all
}

/// The parts again; none if the bytes do not end where a part does.
pub fn unpacked(mut all: &[u8]) -> Option<Vec<&[u8]>> {
    let mut parts = Vec::new();
    while !all.is_empty() {
        let length = u32::from_le_bytes(all.get(..4)?.try_into().ok()?) as usize;
        let end = length.checked_add(4)?;
        parts.push(all.get(4..end)?);
        all = &all[end..];
    }
    Some(parts)
}

/// A question: the words of a command, and the files that it is lent.
#[derive(Debug, PartialEq, Eq)]
pub struct Asked {
    /// The words, the command first.
    pub words: Vec<String>,
    /// Names and bytes.
    pub files: Vec<(String, Vec<u8>)>,
}

/// The question that these bytes are, if they are one.
pub fn asked(bytes: &[u8]) -> Option<Asked> {
    let parts = unpacked(bytes)?;
    let text = |part: &[u8]| String::from_utf8(part.to_vec()).ok();
    let (count, rest) = parts.split_first()?;
    let count: usize = text(count)?.parse().ok()?;
    let words: Option<Vec<String>> = rest.get(..count)?.iter().map(|word| text(word)).collect();
    let files = rest[count..].chunks(2).map(|file| match file {
        [name, bytes] => Some((text(name)?, bytes.to_vec())),
        _ => None,
    });
    Some(Asked { words: words?, files: files.collect::<Option<_>>()? })
}

#[cfg(test)]
mod tests {
    use super::*;

    #[test]
    fn parts_come_back() {
        for parts in [&[][..], &[&b""[..]], &[b"a", b"", b"\x00\xff"], &[&[7; 300]]] {
            assert_eq!(unpacked(&packed(parts)).unwrap(), parts);
        }
        for broken in [&[1][..], &[1, 0, 0, 0], &[0, 0, 0, 0, 1], &[255, 255, 255, 255, 1]] {
            assert_eq!(unpacked(broken), None, "{broken:?}");
        }
    }

    #[test]
    fn questions() {
        let question = packed(&[&b"2"[..], b"ls", b"disk.img", b"disk.img", b"\x00\xff"]);
        let words = vec!["ls".to_string(), "disk.img".to_string()];
        let files = vec![("disk.img".to_string(), vec![0, 255])];
        assert_eq!(asked(&question), Some(Asked { words, files }));
        for none in [&[&b""[..]][..], &[b"x"], &[b"2", b"ls"], &[b"1", b"ls", b"disk.img"], &[b"1", b"\xff"]] {
            assert_eq!(asked(&packed(none)), None, "{none:?}");
        }
        assert_eq!(asked(&[]), None);
    }
}
