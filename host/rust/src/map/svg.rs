use super::cell::{Cell, Holds, Map, MappedFile};
use alloc::string::{String, ToString};
use alloc::vec::Vec;
use core::fmt::Write;

/// How a [`Map`] is to be drawn.
#[derive(Clone, Copy, Debug, Default)]
#[non_exhaustive]
pub struct Drawing<'a> {
    /// The picture's title, as the image's name. It is escaped.
    pub title: &'a str,
    /// What the ids in it begin with, so that several pictures stand in one page: letters, digits and dashes.
    pub id: &'a str,
    /// For a file of its own, which must name SVG's namespace; a picture within an HTML page needs none.
    pub standalone: bool,
    /// The slot of a file whose way across the disk is drawn; the others are faint.
    pub way: Option<u8>,
}

impl<'a> Drawing<'a> {
    /// A picture with this title, for a file of its own; no way is drawn.
    pub const fn new(title: &'a str) -> Drawing<'a> {
        Drawing { title, id: "", standalone: true, way: None }
    }

    /// The same within a page, where its ids begin so.
    pub const fn within_page(self, id: &'a str) -> Drawing<'a> {
        Drawing { id, standalone: false, ..self }
    }

    /// The same with the way of the file in this slot, if there is one.
    pub const fn with_way(self, way: Option<u8>) -> Drawing<'a> {
        Drawing { way, ..self }
    }
}

/// Sizes in pixels. A row is as wide as a printed page can show with text that can be read.
const CELL: (usize, usize) = (32, 24);
const GAP: usize = 10;
const MARGIN: usize = 10;
const WIDTH: usize = 760;
/// Title and summary.
const HEAD: usize = 40;
/// A row of blocks has their numbers above it.
const ROW: usize = CELL.1 + 20;
const LEGEND_ROW: usize = CELL.1 + 6;
const LEGEND_COLUMNS: usize = 3;

/// Light colours, of which two neighbours differ also where there is no red and green.
const COLOURS: [&str; 12] = [
    "#aed6f1", "#fdebb3", "#d7bde2", "#b9e4c9", "#f9cfb0", "#d5d8dc", "#a9dfe6", "#f5c6d6", "#e2e8a8", "#c5cae9",
    "#e6ceb5", "#cdeac0",
];
const INK: &str = "#111111";
const FAINT: &str = "#8a8a8a";
const FAULT: &str = "#b00020";

/// Text for XML and HTML, in an element or in an attribute's quotes. Characters that XML cannot have become U+FFFD.
///
/// ```
/// assert_eq!(genie_dos::markup_text("a<b> & \"c\"'s\u{1b}"), "a&lt;b&gt; &amp; &quot;c&quot;&#39;s\u{fffd}");
/// ```
pub fn markup_text(text: &str) -> String {
    let mut escaped = String::with_capacity(text.len());
    for c in text.chars() {
        match c {
            '&' => escaped += "&amp;",
            '<' => escaped += "&lt;",
            '>' => escaped += "&gt;",
            '"' => escaped += "&quot;",
            '\'' => escaped += "&#39;",
            '\n' | '\t' => escaped.push(c),
            '\0'..='\x1f' | '\x7f'..='\u{9f}' | '\u{fffe}' | '\u{ffff}' => escaped.push('\u{fffd}'),
            c => escaped.push(c),
        }
    }
    escaped
}

/// Where a picture's parts stand.
struct Layout {
    /// Blocks side by side.
    across: usize,
    rows: usize,
    units: usize,
}

impl Layout {
    fn of(map: &Map) -> Layout {
        let units = map.geometry.units;
        let across = ((WIDTH - 2 * MARGIN + GAP) / (units * CELL.0 + GAP)).clamp(1, map.geometry.blocks);
        Layout { across, rows: (map.geometry.blocks + across - 1) / across, units }
    }

    /// The upper left corner of a block's cells.
    fn block(&self, block: usize) -> (usize, usize) {
        let (row, column) = (block / self.across, block % self.across);
        (MARGIN + column * (self.units * CELL.0 + GAP), MARGIN + HEAD + row * ROW + 14)
    }

    fn cell(&self, cell: &Cell) -> (usize, usize) {
        let (x, y) = self.block(cell.block);
        (x + cell.unit * CELL.0, y)
    }

    /// Where the legend begins.
    fn legend(&self) -> usize {
        MARGIN + HEAD + self.rows * ROW + 12
    }
}

impl Map {
    /// The picture as SVG.
    ///
    /// ```
    /// use genie_dos::{Disk, Drawing, Geometry};
    ///
    /// let map = Disk::blank(Geometry::new(16, 2, 80, 0x4296), 10, &[0])?.map()?;
    /// let svg = map.svg(&Drawing::new("disk.img"));
    /// assert!(svg.contains(r#"data-granule="16" data-holds="directory""#));
    /// # Ok::<(), genie_dos::Refusal>(())
    /// ```
    pub fn svg(&self, drawing: &Drawing) -> String {
        let layout = Layout::of(self);
        let mut legend = String::new();
        let mut height = layout.legend();
        let id: String = drawing.id.chars().filter(|c| c.is_ascii_alphanumeric() || *c == '-').collect();
        let id = if id.is_empty() { "map".to_string() } else { id };
        for lines in [self.meanings(), self.tags(drawing)] {
            // Down the columns, as lists are read.
            let rows = (lines.len() + LEGEND_COLUMNS - 1) / LEGEND_COLUMNS;
            for (number, line) in lines.iter().enumerate() {
                let width = (WIDTH - 2 * MARGIN) / LEGEND_COLUMNS;
                legend += &line.drawn(&id, MARGIN + number / rows * width, height + number % rows * LEGEND_ROW, width);
            }
            height += rows * LEGEND_ROW + MARGIN;
        }
        let namespace = if drawing.standalone { " xmlns=\"http://www.w3.org/2000/svg\"" } else { "" };
        let title = markup_text(drawing.title);
        let summary = markup_text(&self.summary());
        let mut svg = format!(
            "<svg{namespace} class=\"map\" role=\"img\" aria-labelledby=\"{id}-title {id}-desc\" viewBox=\"0 0 {WIDTH} {height}\" \
             width=\"{WIDTH}\" height=\"{height}\" font-family=\"DejaVu Sans, Verdana, sans-serif\" font-size=\"11\" \
             text-anchor=\"middle\" fill=\"{INK}\">\n\
             <title id=\"{id}-title\">{title}</title>\n<desc id=\"{id}-desc\">{summary}</desc>\n"
        );
        svg += &patterns(&id);
        svg += &format!("<rect width=\"{WIDTH}\" height=\"{height}\" fill=\"#ffffff\"/>\n");
        svg += &format!(
            "<text x=\"{MARGIN}\" y=\"{}\" text-anchor=\"start\" font-size=\"14\" font-weight=\"bold\"{}>{title}</text>\n",
            MARGIN + 13,
            squeezed(drawing.title, 9, WIDTH - 2 * MARGIN)
        );
        svg += &format!(
            "<text x=\"{MARGIN}\" y=\"{}\" text-anchor=\"start\"{}>{summary}</text>\n",
            MARGIN + 32,
            squeezed(&summary, 6, WIDTH - 2 * MARGIN)
        );
        for block in 0..self.geometry.blocks {
            let (x, y) = layout.block(block);
            let middle = x + layout.units * CELL.0 / 2;
            let _ =
                writeln!(svg, "<text x=\"{middle}\" y=\"{}\" font-size=\"9\" fill=\"#444444\">{block}</text>", y - 4);
        }
        for cell in &self.cells {
            svg += &self.drawn(&id, drawing, &layout, cell);
        }
        if let Some(file) = drawing.way.and_then(|slot| self.file(slot)) {
            svg += &self.way(&id, &layout, file);
        }
        svg + &legend + "</svg>\n"
    }

    /// A cell with what stands in it, and its sentence as a title.
    fn drawn(&self, id: &str, drawing: &Drawing, layout: &Layout, cell: &Cell) -> String {
        let (x, y) = layout.cell(cell);
        let numbers: Vec<String> = cell
            .faults
            .iter()
            .filter_map(|&place| self.faults.get(place))
            .map(|fault| fault.told.fault.kind.number().to_string())
            .collect();
        let fault = match numbers.is_empty() {
            true => String::new(),
            false => format!(" data-fault=\"{}\"", numbers.join(" ")),
        };
        let faint = drawing.way.map_or(false, |slot| cell.parts.iter().all(|part| part.file != Some(slot)));
        let swatch = Swatch { label: self.label(cell), look: self.look(cell), marked: !numbers.is_empty(), faint };
        format!(
            "<g class=\"cell\" data-granule=\"{}\" data-holds=\"{}\"{fault}><title>{}</title>{}</g>\n",
            cell.granule,
            cell.holds.word(),
            markup_text(&self.words(cell)),
            swatch.drawn(id, x, y)
        )
    }

    fn look(&self, cell: &Cell) -> Look {
        let file = cell.parts.first().and_then(|part| part.file);
        match cell.holds {
            Holds::Free => Look::Plain("#ffffff"),
            Holds::Reserved => Look::Pattern("reserved"),
            Holds::Directory => Look::Dark,
            Holds::File => Look::Plain(self.colour(file)),
            Holds::Shared => Look::Pattern("shared"),
            Holds::Nobody => Look::Pattern("nobody"),
        }
    }

    fn colour(&self, file: Option<u8>) -> &'static str {
        let place = self.files.iter().position(|mapped| Some(mapped.slot) == file);
        COLOURS[place.unwrap_or_default() % COLOURS.len()]
    }

    /// A line along a file's cells, in its own order, at their feet.
    fn way(&self, id: &str, layout: &Layout, file: &MappedFile) -> String {
        let granules = file.runs.iter().flat_map(|run| run.first..run.first + run.granules);
        let points: Vec<String> = granules
            .filter_map(|granule| self.cells.get(granule))
            .map(|cell| {
                let (x, y) = layout.cell(cell);
                format!("{},{}", x + CELL.0 / 2, y + CELL.1 - 3)
            })
            .collect();
        let (x, y) = match points.first().and_then(|first| first.split_once(',')) {
            Some(place) => place,
            None => return String::new(),
        };
        format!(
            "<g class=\"way\" fill=\"none\" stroke=\"#0b3d91\"><circle cx=\"{x}\" cy=\"{y}\" r=\"2.5\" fill=\"#0b3d91\"/>\
             <polyline points=\"{}\" stroke-width=\"1.4\" marker-end=\"url(#{id}-end)\"/></g>\n",
            points.join(" ")
        )
    }

    /// What the cells mean.
    fn meanings(&self) -> Vec<Line> {
        let kinds = [
            (Holds::Free, ".", Look::Plain("#ffffff"), "free"),
            (Holds::Reserved, "#", Look::Pattern("reserved"), "reserved: taken, in no run"),
            (Holds::Directory, "DIR", Look::Dark, "directory"),
            (Holds::Shared, "A*B", Look::Pattern("shared"), "shared: in two runs or more"),
            (Holds::Nobody, "?1", Look::Pattern("nobody"), "taken by nobody: in no chain"),
        ];
        let mut lines = Vec::new();
        for (holds, label, look, text) in kinds {
            // The first three are always told, so that their absence is told too.
            let always = matches!(holds, Holds::Free | Holds::Reserved | Holds::Directory);
            if always || self.counted(holds) > 0 {
                let text = format!("{text} ({})", self.counted(holds));
                lines.push(Line { swatch: Swatch { label: label.into(), look, marked: false, faint: false }, text });
            }
        }
        let swatch =
            |label: &str, marked| Swatch { label: label.into(), look: Look::Plain("#ffffff"), marked, faint: false };
        if !self.files.is_empty() {
            lines.push(Line { swatch: swatch("A1", false), text: "run 1 of file A".to_string() });
        }
        if !self.faults.is_empty() {
            lines.push(Line {
                swatch: swatch("", true),
                text: format!("marked by a fault ({} in all)", self.faults.len()),
            });
        }
        lines
    }

    /// Which file each tag is.
    fn tags(&self, drawing: &Drawing) -> Vec<Line> {
        let line = |file: &MappedFile| {
            let granules: usize = file.runs.iter().map(|run| run.granules).sum();
            let text =
                format!("{} (slot {:02X}H), {granules} in {} run", file.name.shown(), file.slot, file.runs.len());
            let text = if file.runs.len() == 1 { text } else { text + "s" };
            let faint = drawing.way.map_or(false, |slot| slot != file.slot);
            let look = Look::Plain(self.colour(Some(file.slot)));
            Line { swatch: Swatch { label: file.tag.clone(), look, marked: file.touched, faint }, text }
        };
        self.files.iter().map(line).collect()
    }
}

/// How a cell is filled.
#[derive(Clone, Copy)]
enum Look {
    Plain(&'static str),
    Dark,
    Pattern(&'static str),
}

/// A cell as it is drawn, on the map or in the legend.
#[derive(Clone)]
struct Swatch {
    label: String,
    look: Look,
    marked: bool,
    faint: bool,
}

impl Swatch {
    fn drawn(&self, id: &str, x: usize, y: usize) -> String {
        let (width, height) = CELL;
        let (fill, ink) = match (self.look, self.faint) {
            (_, true) => ("#f7f7f7".to_string(), FAINT),
            (Look::Plain(colour), _) => (colour.to_string(), INK),
            (Look::Dark, _) => ("#37474f".to_string(), "#ffffff"),
            (Look::Pattern(name), _) => (format!("url(#{id}-{name})"), INK),
        };
        let mut svg = format!(
            "<rect x=\"{x}\" y=\"{y}\" width=\"{width}\" height=\"{height}\" fill=\"{fill}\" stroke=\"#666666\" stroke-width=\"0.6\"/>"
        );
        if !self.label.is_empty() {
            let squeezed = squeezed(&self.label, 8, width - 4);
            let _ = write!(
                svg,
                "<text x=\"{}\" y=\"{}\" fill=\"{ink}\"{squeezed}>{}</text>",
                x + width / 2,
                y + height - 7,
                markup_text(&self.label)
            );
        }
        if self.marked {
            let _ = write!(
                svg,
                "<rect x=\"{}\" y=\"{}\" width=\"{}\" height=\"{}\" fill=\"none\" stroke=\"{FAULT}\" stroke-width=\"2\"/>\
                 <path d=\"M{} {y}h11v11z\" fill=\"{FAULT}\"/>\
                 <text x=\"{}\" y=\"{}\" font-size=\"9\" font-weight=\"bold\" fill=\"#ffffff\">!</text>",
                x + 1,
                y + 1,
                width - 2,
                height - 2,
                x + width - 11,
                x + width - 3,
                y + 8
            );
        }
        svg
    }
}

/// A line of the legend.
struct Line {
    swatch: Swatch,
    text: String,
}

impl Line {
    fn drawn(&self, id: &str, x: usize, y: usize, width: usize) -> String {
        let squeezed = squeezed(&self.text, 6, width - CELL.0 - 14);
        format!(
            "<g class=\"legend\">{}<text x=\"{}\" y=\"{}\" text-anchor=\"start\" xml:space=\"preserve\"{squeezed}>{}</text></g>\n",
            self.swatch.drawn(id, x, y),
            x + CELL.0 + 6,
            y + CELL.1 - 8,
            markup_text(&self.text)
        )
    }
}

/// The attributes that squeeze a text into a width; none where it fits, at so many pixels a character.
fn squeezed(text: &str, pixels: usize, room: usize) -> String {
    match text.chars().count() * pixels > room {
        true => format!(" textLength=\"{room}\" lengthAdjust=\"spacingAndGlyphs\""),
        false => String::new(),
    }
}

/// Hatchings, so that what is no file's is told without colour, and the arrow's head.
fn patterns(id: &str) -> String {
    let hatched = |name: &str, ground: &str, lines: &str, path: &str| {
        format!(
            "<pattern id=\"{id}-{name}\" width=\"6\" height=\"6\" patternUnits=\"userSpaceOnUse\">\
             <rect width=\"6\" height=\"6\" fill=\"{ground}\"/><path d=\"{path}\" stroke=\"{lines}\" stroke-width=\"1\"/></pattern>"
        )
    };
    let rising = "M-1 1l2 -2M0 6l6 -6M5 7l2 -2";
    let falling = "M-1 5l2 2M0 0l6 6M5 -1l2 2";
    format!(
        "<defs>{}{}{}<marker id=\"{id}-end\" viewBox=\"0 0 8 8\" refX=\"5\" refY=\"4\" markerWidth=\"7\" markerHeight=\"7\" \
         orient=\"auto\">\
         <path d=\"M0 0l8 4l-8 4z\" fill=\"#0b3d91\"/></marker></defs>\n",
        hatched("reserved", "#f2f2f2", "#b5b5b5", rising),
        hatched("shared", "#ffffff", "#e08a8a", &format!("{rising}{falling}")),
        hatched("nobody", "#ffffff", "#b58ae0", falling),
    )
}
