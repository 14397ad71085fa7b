//! What goes wrong, as people and programs are told it.

use crate::fault;
use crate::json::Json;
use genie_dos::{BadName, Disk, Explained, Refusal};
use std::fmt;
#[cfg(unix)]
use std::io;
use std::path::Path;

/// Why a command did not do what it was asked.
#[derive(Debug)]
pub enum Failure {
    /// The library refused. Exit status 1.
    Refused(Box<Refused>),
    /// The library refused the image under every geometry that could be its own, for not being consistent. Exit status 1.
    NoGeometry {
        image: String,
        detail: String,
        /// The fault under the only known kind of disk that has the image's length.
        fault: Option<Box<Explained>>,
    },
    /// The geometry is to be stated. Exit status 2.
    Unclear { message: String, ranking: Ranking },
    /// Wrong usage, or the host's files are not as they should be. Exit status 2.
    Wrong(String),
}

/// A refusal with all that is known about it.
#[derive(Debug)]
pub struct Refused {
    refusal: Refusal,
    image: String,
    file: Option<String>,
    detail: Option<String>,
    /// How many runs a growth wants and how many there is room for, where slots are wanting.
    runs: Option<(usize, usize)>,
    /// What is wrong with the file's name, if it is none.
    bad_name: Option<BadName>,
    /// What is wrong with the disk and where, if it is not consistent.
    fault: Option<Explained>,
    /// Where the geometry is from: for programs, and for people unless they stated it on the command line.
    source: Option<(&'static str, Option<String>)>,
    /// What the search found, if the geometry was searched.
    ranking: Ranking,
}

/// What a search found: lines for people, a list for programs.
#[derive(Debug, Default)]
pub struct Ranking {
    pub lines: Vec<String>,
    pub json: Vec<Json>,
}

impl Ranking {
    fn members(&self) -> Option<(&'static str, Json)> {
        (!self.json.is_empty()).then(|| ("ranking", Json::List(self.json.clone())))
    }
}

impl Failure {
    fn refused(refusal: Refusal, image: &str) -> Refused {
        Refused {
            refusal,
            image: image.to_string(),
            file: None,
            detail: None,
            runs: None,
            bad_name: None,
            fault: None,
            source: None,
            ranking: Ranking::default(),
        }
    }

    /// The image as a whole was refused.
    pub fn image(image: &str) -> impl Fn(Refusal) -> Failure + '_ {
        move |refusal| Failure::Refused(Box::new(Failure::refused(refusal, image)))
    }

    /// The disk as a whole was refused: what is wrong with it is told in words.
    pub fn disk<'a, B: AsRef<[u8]>>(image: &'a str, disk: &'a Disk<B>) -> impl Fn(Refusal) -> Failure + 'a {
        move |refusal| {
            let fault = refusal.fault().map(|fault| disk.explain(fault));
            Failure::Refused(Box::new(Refused { fault, ..Failure::refused(refusal, image) }))
        }
    }

    /// A call on a file of the image was refused.
    pub fn file<'a>(image: &'a str, file: &'a str) -> impl Fn(Refusal) -> Failure + 'a {
        move |refusal| {
            let file = Some(file.to_string());
            Failure::Refused(Box::new(Refused { file, ..Failure::refused(refusal, image) }))
        }
    }

    /// The host's system did not do it.
    #[cfg(unix)]
    pub fn io<'a>(what: &'a str, path: &'a Path) -> impl Fn(io::Error) -> Failure + 'a {
        move |error| Failure::Wrong(format!("cannot {what} {}: {error}", path.display()))
    }

    /// A file of the host is where one is to be written.
    pub fn there_already(path: &Path) -> Failure {
        Failure::Wrong(format!("{} is there already; --force overwrites it", path.display()))
    }

    fn refused_with(mut self, change: impl FnOnce(&mut Refused)) -> Failure {
        if let Failure::Refused(refused) = &mut self {
            change(refused);
        }
        self
    }

    /// Adds what the number alone does not tell.
    pub fn because(self, why: impl fmt::Display) -> Failure {
        self.refused_with(|refused| refused.detail = Some(why.to_string()))
    }

    /// Adds, for programs, how many runs a growth wants and how many there is room for.
    pub fn in_runs(self, needed: usize, room: usize) -> Failure {
        self.refused_with(|refused| refused.runs = Some((needed, room)))
    }

    /// Adds what is wrong with the file's name, as it was typed.
    pub fn bad_name(self, wrong: BadName) -> Failure {
        self.refused_with(|refused| refused.bad_name = Some(wrong)).because(wrong)
    }

    /// Adds where the geometry is from, for programs and for people.
    pub fn by(self, word: &'static str, told: Option<String>) -> Failure {
        self.refused_with(|refused| refused.source = Some((word, told)))
    }

    /// Adds what the search found.
    pub fn ranked(self, ranking: Ranking) -> Failure {
        self.refused_with(|refused| refused.ranking = ranking)
    }

    /// The same without what the search found, for who tells that anyway.
    pub fn brief(self) -> Failure {
        self.ranked(Ranking::default())
    }

    /// The exit status that it leads to.
    pub fn status(&self) -> u8 {
        match self {
            Failure::Refused(_) | Failure::NoGeometry { .. } => 1,
            Failure::Unclear { .. } | Failure::Wrong(_) => 2,
        }
    }

    /// For `--json`.
    pub fn json(&self) -> Json {
        match self {
            Failure::Refused(refused) => refused.json(),
            Failure::NoGeometry { image, detail, fault } => {
                let number = fault.as_ref().map(|fault| fault.fault.kind.number());
                let meaning =
                    fault.as_ref().map_or(NOT_CONSISTENT, |fault| Refusal::Inconsistent(fault.fault).meaning());
                let members = vec![
                    ("number", number.into()),
                    ("meaning", meaning.into()),
                    ("image", image.as_str().into()),
                    ("file", Json::Null),
                    ("detail", detail.as_str().into()),
                    ("fault", fault.as_deref().map(fault::json).into()),
                ];
                Json::object([("refused", Json::Object(members))])
            }
            Failure::Unclear { message, ranking } => {
                let mut members = vec![("error", message.as_str().into())];
                members.extend(ranking.members());
                Json::Object(members)
            }
            Failure::Wrong(message) => Json::object([("error", message.as_str().into())]),
        }
    }
}

impl Refused {
    /// What is wrong with the name, and the column of the text as typed where it is.
    fn bad_byte(&self) -> Option<(BadName, usize)> {
        let typed = self.file.as_deref()?;
        self.bad_name.map(|bad| (bad, bad.offset(typed)))
    }

    fn json(&self) -> Json {
        let mut members = vec![
            ("number", self.refusal.number().into()),
            ("meaning", self.refusal.meaning().into()),
            ("image", self.image.as_str().into()),
            ("file", self.file.as_deref().into()),
            ("detail", self.detail.as_deref().into()),
            ("fault", self.fault.as_ref().map(fault::json).into()),
        ];
        members.extend(
            self.runs.iter().flat_map(|&(needed, room)| [("runs_needed", needed.into()), ("runs_left", room.into())]),
        );
        if let Some((bad, column)) = self.bad_byte() {
            members.extend([("place", bad.place().into()), ("column", column.into())]);
        }
        members.extend(self.source.as_ref().map(|(word, _)| ("geometry_from", (*word).into())));
        members.extend(self.ranking.members());
        Json::object([("refused", Json::Object(members))])
    }
}

/// What a disk is that no one number can be told of.
const NOT_CONSISTENT: &str = "disk not consistent";

impl From<String> for Failure {
    fn from(message: String) -> Failure {
        Failure::Wrong(message)
    }
}

/// `refused: 5 (wrong password code): PULS01/DAT on disk.img`. What a search found stands in lines of its own, and so does a name
/// that is none, with a mark under what is wrong first.
impl fmt::Display for Failure {
    fn fmt(&self, f: &mut fmt::Formatter<'_>) -> fmt::Result {
        let lines = match self {
            Failure::Refused(refused) => {
                write!(f, "{refused}")?;
                &refused.ranking.lines
            }
            Failure::NoGeometry { image, detail, .. } => {
                return write!(f, "refused: {NOT_CONSISTENT}: {image}: {detail}");
            }
            Failure::Unclear { message, ranking } => {
                f.write_str(message)?;
                &ranking.lines
            }
            Failure::Wrong(message) => return f.write_str(message),
        };
        lines.iter().try_for_each(|line| write!(f, "\n{line}"))
    }
}

impl fmt::Display for Refused {
    fn fmt(&self, f: &mut fmt::Formatter<'_>) -> fmt::Result {
        let Refused { refusal, image, file, detail, bad_name, fault, source, .. } = self;
        match (fault, bad_name) {
            (None, None) => write!(f, "refused: {refusal}: ")?,
            // The fault's slot and the bad byte's place are told below.
            _ => write!(f, "refused: {} ({}): ", refusal.number(), refusal.meaning())?,
        }
        if let Some(file) = file {
            write!(f, "{file} on ")?;
        }
        write!(f, "{image}")?;
        fault.as_ref().map_or(Ok(()), |fault| write!(f, ": {fault}"))?;
        detail.as_ref().map_or(Ok(()), |detail| write!(f, ": {detail}"))?;
        let told = source.as_ref().and_then(|(_, told)| told.as_ref());
        told.map_or(Ok(()), |told| write!(f, " (the geometry is from {told})"))?;
        let typed = file.as_ref().filter(|typed| !typed.is_empty());
        if let (Some(typed), Some((_, column))) = (typed, self.bad_byte()) {
            // What could move the mark stands behind it.
            let typed: String = typed.chars().map(|c| if c.is_control() { '\u{fffd}' } else { c }).collect();
            write!(f, "\n    {typed}\n    {:column$}^", "")?;
        }
        Ok(())
    }
}

#[cfg(test)]
mod tests {
    use super::*;
    use genie_dos::{Fault, FaultKind, Geometry};

    #[test]
    fn faults_are_told_in_words() {
        let mut image = Disk::blank(Geometry::new(16, 2, 80, 0x4296), 10, &[0]).unwrap().into_image();
        image[81 * 256 + 0x25] = 0xa2;
        let disk = Disk::new(image, Geometry::new(16, 2, 80, 0x4296));
        let hit = Refusal::Inconsistent(Fault::at(FaultKind::HitAgainstEntry, 0x25));
        assert_eq!(disk.check(), Err(hit));
        let refused = Failure::disk("disk.img", &disk)(hit);
        assert_eq!(
            refused.to_string(),
            "refused: 22 (disk not consistent: HIT against entry): disk.img: slot 25H, directory sector 7, byte 32, \
             image byte 22304: the entry is not in use, but its HIT byte (image byte 20773) is A2H"
        );
        assert_eq!(
            refused.json().to_string(),
            concat!(
                r#"{"refused":{"number":22,"meaning":"disk not consistent: HIT against entry","image":"disk.img","#,
                r#""file":null,"detail":null,"fault":{"number":22,"kind":"HIT against entry","slot":37,"sector":7,"#,
                r#""byte":32,"image_byte":22304,"name":null,"#,
                r#""message":"the entry is not in use, but its HIT byte (image byte 20773) is A2H"}}}"#
            )
        );
        // Where there is no disk to look at, kind and slot are told all the same.
        let refused = Failure::file("disk.img", "A")(hit);
        assert_eq!(
            refused.to_string(),
            "refused: 22 (disk not consistent: HIT against entry; slot 25H): A on disk.img"
        );
        // Another refusal of a disk has no fault.
        let refused = Failure::disk("disk.img", &disk)(Refusal::Geometry);
        assert_eq!(refused.to_string(), "refused: 1 (geometry or image length not allowed): disk.img");
    }

    #[test]
    fn a_bad_name_is_shown_with_a_mark() {
        let refused = |typed: &str| {
            let wrong = typed.parse::<genie_dos::Name>().unwrap_err();
            Failure::file("disk.img", typed)(Refusal::Name { place: wrong.place() }).bad_name(wrong)
        };
        assert_eq!(
            refused("puls01/d~t").to_string(),
            "refused: 3 (name not well formed): puls01/d~t on disk.img: '~' (byte 9) is none that a name can have\n    \
             puls01/d~t\n            ^"
        );
        assert_eq!(
            refused("puls01/d~t").json().to_string(),
            concat!(
                r#"{"refused":{"number":3,"meaning":"name not well formed","image":"disk.img","file":"puls01/d~t","#,
                r#""detail":"'~' (byte 9) is none that a name can have","fault":null,"place":9,"column":8}}"#
            )
        );
        assert!(refused("abcdefghi").to_string().ends_with("8 characters\n    abcdefghi\n            ^"));
        assert!(refused("abcdefghi").json().to_string().ends_with(r#""place":null,"column":8}}"#));
        assert!(refused("").to_string().ends_with("(byte 0 is a blank)"));
        assert!(refused("A\u{1b}[2J").to_string().ends_with("have\n    A\u{fffd}[2J\n     ^"));
    }

    #[test]
    fn messages_tell_number_meaning_and_file() {
        let refused = Failure::file("disk.img", "PULS01/DAT")(Refusal::Password);
        assert_eq!(refused.to_string(), "refused: 5 (wrong password code): PULS01/DAT on disk.img");
        assert_eq!(refused.status(), 1);
        let refused = Failure::image("disk.img")(Refusal::NoSpace).because("and why");
        assert_eq!(refused.to_string(), "refused: 9 (too few granules free): disk.img: and why");
        assert_eq!(
            refused.json().to_string(),
            r#"{"refused":{"number":9,"meaning":"too few granules free","image":"disk.img","file":null,"detail":"and why","fault":null}}"#
        );
        let none = Failure::NoGeometry { image: "disk.img".into(), detail: "under none".into(), fault: None };
        assert_eq!(
            (none.to_string().as_str(), none.status()),
            ("refused: disk not consistent: disk.img: under none", 1)
        );
        assert_eq!(
            none.json().to_string(),
            concat!(
                r#"{"refused":{"number":null,"meaning":"disk not consistent","image":"disk.img","file":null,"#,
                r#""detail":"under none","fault":null}}"#
            )
        );
        let refused = Failure::image("disk.img")(Refusal::Geometry).by("file", Some("disk.img.gdos".into()));
        assert_eq!(
            refused.to_string(),
            "refused: 1 (geometry or image length not allowed): disk.img (the geometry is from disk.img.gdos)"
        );
        assert!(refused.json().to_string().ends_with(r#""fault":null,"geometry_from":"file"}}"#));
        let ranking = || Ranking { lines: vec!["  1. a".into(), "  2. b".into()], json: vec![Json::Null, Json::Null] };
        let unclear = Failure::Unclear { message: "say it".into(), ranking: ranking() };
        assert_eq!((unclear.to_string().as_str(), unclear.status()), ("say it\n  1. a\n  2. b", 2));
        assert_eq!(unclear.json().to_string(), r#"{"error":"say it","ranking":[null,null]}"#);
        let refused = Failure::image("disk.img")(Refusal::Geometry).ranked(ranking());
        assert!(refused.to_string().ends_with("disk.img\n  1. a\n  2. b"));
        assert!(refused.json().to_string().ends_with(r#""fault":null,"ranking":[null,null]}}"#));
        let wrong = Failure::from("no".to_string());
        assert_eq!((wrong.to_string().as_str(), wrong.status()), ("no", 2));
    }
}
