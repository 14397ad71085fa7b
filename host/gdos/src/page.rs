//! A page of HTML for people: one file, no script, nothing from elsewhere, to be printed too. It is written as XML, so that a strict
//! reader takes it. Every text is escaped here.

use genie_dos::markup_text;

/// Colours that print; tables whose rows are not torn.
const STYLE: &str = "\
body { font: 11pt/1.45 'DejaVu Sans', Verdana, sans-serif; color: #111; background: #fff }
body { max-width: 50em; margin: 2em auto; padding: 0 1em }
h1 { font-size: 1.5em; margin: 0 0 .3em; overflow-wrap: anywhere }
h2 { font-size: 1.15em; margin: 1.6em 0 .5em; border-bottom: 1px solid #999 }
table { border-collapse: collapse; width: 100%; font-size: .92em }
th, td { text-align: left; vertical-align: top; padding: .25em .8em .25em 0; border-bottom: 1px solid #ddd; overflow-wrap: break-word }
th, td.number, td.code { white-space: nowrap }
td.number, th.number { text-align: right }
td.code { font-family: 'DejaVu Sans Mono', monospace; white-space: pre }
.verdict { font-weight: bold; border: 2px solid; padding: .5em .8em; border-radius: .3em }
.good { border-color: #1b6e3c }
.bad { border-color: #b00020 }
li { margin-bottom: .4em; overflow-wrap: anywhere }
svg { max-width: 100%; height: auto }
footer { margin-top: 2em; font-size: .85em; color: #444 }
@page { margin: 15mm }
@media print { body { margin: 0; max-width: none } h2 { break-after: avoid } tr, li { break-inside: avoid } }
";

/// A page as it grows.
pub struct Page {
    body: String,
}

/// How a table's column is set.
#[derive(Clone, Copy, PartialEq, Eq)]
pub enum Column {
    Text,
    Number,
    /// Letters of one width, as names of the disk have.
    Code,
}

impl Page {
    pub fn new(heading: &str) -> Page {
        Page { body: format!("<h1>{}</h1>\n", markup_text(heading)) }
    }

    /// The sentence that matters most.
    pub fn verdict(&mut self, good: bool, text: &str) {
        let class = if good { "good" } else { "bad" };
        self.body += &format!("<p class=\"verdict {class}\">{}</p>\n", markup_text(text));
    }

    pub fn heading(&mut self, text: &str) {
        self.body += &format!("<h2>{}</h2>\n", markup_text(text));
    }

    pub fn paragraph(&mut self, text: &str) {
        self.body += &format!("<p>{}</p>\n", markup_text(text));
    }

    pub fn list(&mut self, items: &[String]) {
        self.body += "<ul>\n";
        for item in items {
            self.body += &format!("<li>{}</li>\n", markup_text(item));
        }
        self.body += "</ul>\n";
    }

    /// Terms and what they are, in two columns.
    pub fn terms(&mut self, rows: &[(&str, String)]) {
        self.body += "<table>\n";
        for (term, text) in rows {
            self.body +=
                &format!("<tr><th scope=\"row\">{}</th><td>{}</td></tr>\n", markup_text(term), markup_text(text));
        }
        self.body += "</table>\n";
    }

    pub fn table(&mut self, columns: &[(&str, Column)], rows: &[Vec<String>]) {
        let class = |column: Column| match column {
            Column::Text => "",
            Column::Number => " class=\"number\"",
            Column::Code => " class=\"code\"",
        };
        self.body += "<table>\n<thead><tr>";
        for (title, column) in columns {
            let class = if *column == Column::Number { class(*column) } else { "" };
            self.body += &format!("<th scope=\"col\"{class}>{}</th>", markup_text(title));
        }
        self.body += "</tr></thead>\n<tbody>\n";
        for row in rows {
            self.body += "<tr>";
            for (text, (_, column)) in row.iter().zip(columns) {
                self.body += &format!("<td{}>{}</td>", class(*column), markup_text(text));
            }
            self.body += "</tr>\n";
        }
        self.body += "</tbody>\n</table>\n";
    }

    /// A picture, which is markup itself.
    pub fn picture(&mut self, svg: &str) {
        self.body += &format!("<figure style=\"margin: 0\">\n{svg}</figure>\n");
    }

    pub fn finished(&self, title: &str, footer: &str) -> String {
        format!(
            "<!DOCTYPE html>\n<html lang=\"en\">\n<head>\n<meta charset=\"utf-8\"/>\n\
             <meta name=\"viewport\" content=\"width=device-width, initial-scale=1\"/>\n\
             <title>{}</title>\n<style>\n{STYLE}</style>\n</head>\n<body>\n<main>\n{}</main>\n\
             <footer>{}</footer>\n</body>\n</html>\n",
            markup_text(title),
            self.body,
            markup_text(footer)
        )
    }
}
