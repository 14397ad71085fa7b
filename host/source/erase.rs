//! Leaves the contracts out of a file of Rattle. What is left is Rust, line by line as it stands in the file.
//!
//! Six kinds of lines are left out, whole lines only: `ghost use` items; `requires` clauses; `ensures` clauses; the ghost
//! fields of a struct; what is said to the prover, the attributes `tactic` and `cycle` and the statement `prove!`; and
//! `#[unsafe(no_mangle)]`, which goes to the shim of its function. An empty line takes the place of each, so that a line
//! has its number in both files. Nothing is changed and nothing is added. Whatever is not known here is an error that
//! names file and line.

use std::fmt::Write;

/// A file without its contracts.
pub struct Erased {
    /// The file, with an empty line for each that is left out.
    pub left: String,
    /// The lines left out, by their number from 0, without the line feed.
    pub left_out: Vec<(usize, String)>,
    /// The functions marked `#[unsafe(no_mangle)]`.
    pub exports: Vec<Export>,
}

/// An exported function: its name, its parameters with their types, and what it answers, each type without blanks.
pub struct Export {
    pub name: String,
    pub parameters: Vec<(String, String)>,
    pub answer: String,
    /// Where it stands, for an error.
    pub place: String,
}

/// Leaves the contracts out of the text of the file that `path` names.
pub fn erase(path: &str, text: &str) -> Result<Erased, String> {
    let mut file = File { path, text, at: 0, lines: text.split('\n').map(|_| true).collect(), exports: Vec::new() };
    file.items(None)?;
    let (mut left, mut left_out) = (Vec::new(), Vec::new());
    for (number, line) in text.split('\n').enumerate() {
        left.push(if file.lines[number] { line } else { "" });
        if !file.lines[number] {
            left_out.push((number, line.to_string()));
        }
    }
    Ok(Erased { left: left.join("\n"), left_out, exports: file.exports })
}

/// A token of what is left: where it starts, and its text. The text of a string is the string.
#[derive(Clone, Copy)]
struct Token<'a> {
    from: usize,
    text: &'a str,
}

struct File<'a> {
    path: &'a str,
    text: &'a str,
    at: usize,
    /// Whether a line stays.
    lines: Vec<bool>,
    exports: Vec<Export>,
}

/// Which attributes stand before an item.
#[derive(Default)]
struct Marked {
    exported: bool,
    /// For the prover or the compiler, of a function.
    told: bool,
    derived: bool,
}

/// Words of Rattle or of Rust that no code here is known to need: what they mean was not looked at.
const UNKNOWN: &[&str] = &[
    "ghost",
    "requires",
    "ensures",
    "unsafe",
    "std",
    "core",
    "crate",
    "super",
    "static",
    "mod",
    "macro_rules",
    "extern",
    "dyn",
    "trait",
    "async",
    "await",
    "f32",
    "f64",
    "u128",
    "i128",
    "where",
];

fn is_word(character: char) -> bool {
    character.is_ascii_alphanumeric() || character == '_'
}

impl<'a> File<'a> {
    fn line_of(&self, at: usize) -> usize {
        self.text[..at].bytes().filter(|&byte| byte == b'\n').count()
    }

    fn place(&self, at: usize) -> String {
        format!("{}:{}", self.path, self.line_of(at) + 1)
    }

    fn unknown<T>(&self, at: usize, what: &str) -> Result<T, String> {
        Err(format!("{}: {what}", self.place(at)))
    }

    /// The next token, or none at the file's end. Comments stay and are passed over.
    fn next(&mut self) -> Result<Option<Token<'a>>, String> {
        loop {
            let rest = &self.text[self.at..];
            let first = match rest.chars().next() {
                None => return Ok(None),
                Some(first) => first,
            };
            let length = if first == ' ' || first == '\n' {
                self.at += 1;
                continue;
            } else if rest.starts_with("//") {
                self.at += rest.find('\n').unwrap_or(rest.len());
                continue;
            } else if rest.starts_with("/*") {
                return self.unknown(self.at, "a comment of this form is not known");
            } else if rest.starts_with("b\"") || rest.starts_with("b'") || first == '"' {
                self.quoted(rest)?
            } else if is_word(first) {
                rest.find(|c| !is_word(c)).unwrap_or(rest.len())
            } else if first == '\'' {
                self.label(rest)?
            } else if first.is_ascii_punctuation() && !"'$@\\`~".contains(first) {
                1
            } else {
                return self.unknown(self.at, &format!("the character {first:?} is not known here"));
            };
            let token = Token { from: self.at, text: &rest[..length] };
            self.at += length;
            return Ok(Some(token));
        }
    }

    /// How long the string or byte at the start of `rest` is. It ends on its line and has no quote of its own kind in it.
    fn quoted(&self, rest: &str) -> Result<usize, String> {
        let open = rest.find(['"', '\'']).expect("it starts with one");
        let quote = &rest[open..open + 1];
        let inner = &rest[open + 1..];
        let line = &inner[..inner.find('\n').unwrap_or(inner.len())];
        match line.find(quote) {
            Some(end) if !line[..end].contains('\\') && line[..end].is_ascii() => Ok(open + 1 + end + 1),
            _ => self.unknown(self.at, "a string or byte of this form is not known"),
        }
    }

    /// How long the lifetime or label at the start of `rest` is.
    fn label(&self, rest: &str) -> Result<usize, String> {
        let end = 1 + rest[1..].find(|c| !is_word(c)).unwrap_or(rest.len() - 1);
        if end == 1 || rest[end..].starts_with('\'') {
            return self.unknown(self.at, "a quote of this form is not known");
        }
        Ok(end)
    }

    fn expect(&mut self) -> Result<Token<'a>, String> {
        match self.next()? {
            Some(token) => Ok(token),
            None => self.unknown(self.at, "the file ends within an item"),
        }
    }

    fn expect_text(&mut self, text: &str) -> Result<Token<'a>, String> {
        let token = self.expect()?;
        if token.text == text {
            return Ok(token);
        }
        self.unknown(token.from, &format!("`{text}` is expected, and `{}` is not known here", token.text))
    }

    fn expect_name(&mut self) -> Result<Token<'a>, String> {
        let token = self.expect()?;
        if token.text.starts_with(|c: char| c.is_ascii_alphabetic() || c == '_') && !UNKNOWN.contains(&token.text) {
            return Ok(token);
        }
        self.unknown(token.from, &format!("a name is expected, and `{}` is not known here", token.text))
    }

    /// Leaves out the lines from one place up to another. Nothing else may stand on them.
    fn leave_out(&mut self, from: usize, to: usize) -> Result<(), String> {
        let before = self.text[..from].rfind('\n').map_or(0, |at| at + 1);
        let after = self.text[to..].find('\n').map_or(self.text.len(), |at| to + at);
        if !self.text[before..from].trim().is_empty() || !self.text[to..after].trim().is_empty() {
            return self.unknown(from, "something stands on a line beside what is left out");
        }
        for line in self.line_of(from)..self.line_of(to) + 1 {
            self.lines[line] = false;
        }
        Ok(())
    }

    /// The items of a file, or of an `impl` whose brace opened at that place.
    fn items(&mut self, inner: Option<usize>) -> Result<(), String> {
        loop {
            let token = match (self.next()?, inner) {
                (Some(token), _) => token,
                (None, None) => return Ok(()),
                (None, Some(from)) => return self.unknown(from, "this `impl` is not closed"),
            };
            if inner.is_some() && token.text == "}" {
                return Ok(());
            }
            if token.text == "#" && inner.is_none() && self.text[self.at..].starts_with('!') {
                self.whole_file(token)?;
                continue;
            }
            let (mut marked, mut start) = (Marked::default(), token);
            while start.text == "#" {
                self.attribute(start, &mut marked)?;
                start = self.expect()?;
            }
            let plain = !marked.exported && !marked.told && !marked.derived;
            let word = if start.text == "pub" { self.expect()? } else { start };
            match word.text {
                "ghost" if word.from == token.from && inner.is_none() => self.ghost_use(word)?,
                "use" | "const" | "type" if plain => drop(self.through(word, ";")?),
                "struct" | "enum" if !marked.exported && !marked.told && inner.is_none() => self.declared(word)?,
                "impl" if word.from == token.from && inner.is_none() => {
                    self.lifetimes()?;
                    self.expect_name()?;
                    self.lifetimes()?;
                    let brace = self.expect_text("{")?;
                    self.items(Some(brace.from))?;
                }
                "extern" if marked.exported && !marked.derived && start.text == "pub" && inner.is_none() => {
                    self.expect_text("\"C\"")?;
                    self.expect_text("fn")?;
                    self.function(true)?;
                }
                "fn" if !marked.exported && !marked.derived => self.function(false)?,
                other => return self.unknown(word.from, &format!("an item that starts with `{other}` is not known")),
            }
        }
    }

    /// `#![tactic(..)]`, from its `#` on: what the prover tries in this file.
    fn whole_file(&mut self, from: Token) -> Result<(), String> {
        self.expect_text("!")?;
        self.expect_text("[")?;
        self.expect_text("tactic")?;
        self.bracketed(from)
    }

    /// `#[..]`, from its `#` on. A derive stays, and so does `#[inline]` of a function.
    fn attribute(&mut self, from: Token, marked: &mut Marked) -> Result<(), String> {
        let open = self.expect_text("[")?;
        let word = self.expect()?;
        match word.text {
            "unsafe" => {
                for text in ["(", "no_mangle", ")"] {
                    self.expect_text(text)?;
                }
                let end = self.expect_text("]")?;
                self.leave_out(from.from, end.from + 1)?;
                marked.exported = true;
            }
            "tactic" | "cycle" => {
                self.bracketed(from)?;
                marked.told = true;
            }
            "derive" => {
                for token in self.through(open, "]")? {
                    if !["(", ",", ")", "Clone", "Copy", "PartialEq", "Eq"].contains(&token.text) {
                        return self.unknown(token.from, &format!("a derive of `{}` is not known", token.text));
                    }
                }
                marked.derived = true;
            }
            "inline" => {
                self.expect_text("]")?;
                marked.told = true;
            }
            other => return self.unknown(word.from, &format!("the attribute `{other}` is not known")),
        }
        Ok(())
    }

    /// Leaves out an attribute, behind its word: what stands in it, in brackets, is not Rust.
    fn bracketed(&mut self, from: Token) -> Result<(), String> {
        let mut depth = 1;
        for (at, character) in self.text[self.at..].char_indices() {
            match character {
                '[' | '(' | '{' => depth += 1,
                ']' | ')' | '}' => depth -= 1,
                '"' => return self.unknown(self.at + at, "a string in an attribute is not known"),
                _ => {}
            }
            if depth == 0 {
                self.at += at + 1;
                return self.leave_out(from.from, self.at);
            }
        }
        self.unknown(from.from, "this attribute is not closed")
    }

    /// `ghost use ...;`, whose tree is not Rust.
    fn ghost_use(&mut self, ghost: Token) -> Result<(), String> {
        self.expect_text("use")?;
        let rest = &self.text[self.at..];
        match rest.find([';', '\n']) {
            Some(end) if rest[end..].starts_with(';') => self.at += end + 1,
            _ => return self.unknown(ghost.from, "a `ghost use` that does not end on its line is not known"),
        }
        self.leave_out(ghost.from, self.at)
    }

    /// `struct` or `enum`, behind that word: fields or variants of plain data.
    fn declared(&mut self, word: Token) -> Result<(), String> {
        self.expect_name()?;
        self.lifetimes()?;
        let open = self.expect()?;
        match open.text {
            "{" if word.text == "struct" => self.fields()?,
            "{" => drop(self.through(open, "}")?),
            "(" => {
                self.through(open, ")")?;
                self.expect_text(";")?;
            }
            other => return self.unknown(open.from, &format!("`{other}` behind a type's name is not known")),
        }
        Ok(())
    }

    /// The fields of a struct, behind its brace. Each ends with a comma.
    fn fields(&mut self) -> Result<(), String> {
        loop {
            let start = self.expect()?;
            if start.text == "}" {
                return Ok(());
            }
            let word = if start.text == "pub" { self.expect()? } else { start };
            if word.text == "ghost" {
                self.expect_name()?;
                self.expect_text(":")?;
                let brace = self.expect()?;
                self.braced(brace)?;
                let end = self.expect_text(",")?;
                self.leave_out(start.from, end.from + 1)?;
            } else {
                self.at = start.from;
                self.through(start, ",")?;
            }
        }
    }

    /// The lifetimes right behind a name or `impl`, if there are any.
    fn lifetimes(&mut self) -> Result<(), String> {
        if self.text[self.at..].starts_with('<') {
            let open = self.expect()?;
            for token in self.through(open, ">")? {
                if token.text != "," && !token.text.starts_with('\'') {
                    return self.unknown(token.from, &format!("`{}` is not known among lifetimes", token.text));
                }
            }
        }
        Ok(())
    }

    /// Passes over what is left, with its brackets in pairs, through a token that closes or ends it. Its tokens are
    /// handed back without that one.
    fn through(&mut self, from: Token, end: &str) -> Result<Vec<Token<'a>>, String> {
        let (mut tokens, mut open) = (Vec::new(), Vec::new());
        loop {
            let token = match self.next()? {
                Some(token) => token,
                None => return self.unknown(from.from, &format!("no `{end}` ends what starts here")),
            };
            if open.is_empty() && token.text == end {
                return Ok(tokens);
            }
            match token.text {
                "(" => open.push(")"),
                "[" => open.push("]"),
                "{" => open.push("}"),
                "prove" if self.text[self.at..].starts_with('!') => {
                    self.proved(token)?;
                    continue;
                }
                ")" | "]" | "}" if open.pop() != Some(token.text) => {
                    return self.unknown(token.from, &format!("`{}` closes nothing", token.text));
                }
                // Rattle's std has what core has under this name.
                "std" if self.text[self.at..].starts_with("::cmp::") => {}
                word if word == "#" || UNKNOWN.contains(&word) => {
                    return self.unknown(token.from, &format!("`{word}` is not known here"));
                }
                _ => {}
            }
            tokens.push(token);
        }
    }

    /// `prove!(..);`, a statement that is proved and does nothing.
    fn proved(&mut self, from: Token) -> Result<(), String> {
        self.expect_text("!")?;
        let open = self.expect_text("(")?;
        self.through(open, ")")?;
        let end = self.expect_text(";")?;
        self.leave_out(from.from, end.from + 1)
    }

    /// A function from its name on: parameters, answer, clauses, body.
    fn function(&mut self, exported: bool) -> Result<(), String> {
        let name = self.expect_name()?;
        self.lifetimes()?;
        let open = self.expect_text("(")?;
        let parameters = self.through(open, ")")?;
        let mut answer = String::new();
        let mut token = self.expect()?;
        if token.text == "-" {
            self.expect_text(">")?;
            token = self.expect()?;
            let mut last = "";
            while !["requires", "ensures", "{"].contains(&token.text) {
                // Within brackets it stands before an array's length.
                let ends = token.text == ";" && answer.matches('[').count() == answer.matches(']').count();
                // A second word is no part of a type: perhaps a clause of another kind.
                let second = last.ends_with(is_word) && token.text.starts_with(is_word);
                if ends || second && last != "mut" && !last.starts_with('\'') || UNKNOWN.contains(&token.text) {
                    return self.unknown(token.from, &format!("`{}` is not known here", token.text));
                }
                answer += token.text;
                last = token.text;
                token = self.expect()?;
            }
        }
        while ["requires", "ensures"].contains(&token.text) {
            self.clause(token)?;
            token = self.expect()?;
        }
        if token.text != "{" {
            return self
                .unknown(token.from, &format!("`{}` is not known between a signature and its body", token.text));
        }
        self.through(token, "}")?;
        if exported {
            let (name, place) = (name.text.to_string(), self.place(name.from));
            let parameters = self.parameters(&parameters)?;
            self.exports.push(Export { name, parameters, answer, place });
        }
        Ok(())
    }

    /// A clause, with a name or without.
    fn clause(&mut self, word: Token) -> Result<(), String> {
        let mut brace = self.expect()?;
        if brace.text.starts_with(|c: char| c.is_ascii_alphabetic()) {
            brace = self.expect()?;
        }
        self.braced(brace)?;
        self.leave_out(word.from, self.at)
    }

    /// Passes over a text in braces, behind the first, that is not Rust. Braces stand in pairs in it, and no comment or
    /// string, where they might not.
    fn braced(&mut self, brace: Token) -> Result<(), String> {
        if brace.text != "{" {
            return self.unknown(brace.from, &format!("`{}` is not known before a text in braces", brace.text));
        }
        let mut depth = 0;
        for (at, character) in self.text[brace.from..].char_indices() {
            match character {
                '{' => depth += 1,
                '}' => depth -= 1,
                '"' => return self.unknown(brace.from + at, "a string in such a text is not known"),
                '-' if self.text[brace.from + at..].starts_with("--") => {
                    return self.unknown(brace.from + at, "a comment in such a text is not known");
                }
                _ => {}
            }
            if depth == 0 {
                self.at = brace.from + at + 1;
                return Ok(());
            }
        }
        self.unknown(brace.from, "this text in braces is not closed")
    }

    /// The names and types of an export's parameters.
    fn parameters(&self, tokens: &[Token]) -> Result<Vec<(String, String)>, String> {
        let mut all = Vec::new();
        for parameter in tokens.split(|token| token.text == ",") {
            if parameter.is_empty() {
                continue;
            }
            let colon = match parameter.iter().position(|token| token.text == ":") {
                Some(colon) => colon,
                None => return self.unknown(parameter[0].from, "a parameter without a type is not known"),
            };
            let text = |tokens: &[Token]| tokens.iter().fold(String::new(), |text, token| text + token.text);
            all.push((text(&parameter[..colon]), text(&parameter[colon + 1..])));
        }
        Ok(all)
    }
}

/// The shim of an export, under the same name for C: it makes slices of pointers and lengths, and calls it.
pub fn shim(module: &str, export: &Export) -> Result<String, String> {
    let (mut taken, mut given) = (Vec::new(), Vec::new());
    for (name, kind) in &export.parameters {
        let number = |kind: &str| ["u8", "u16", "u32", "u64", "usize", "bool"].contains(&kind);
        match kind.as_str() {
            "&[u8]" => {
                taken.push(format!("{name}: *const u8, {name}_len: usize"));
                given.push(format!("core::slice::from_raw_parts({name}, {name}_len)"));
            }
            "&mut[u8]" => {
                taken.push(format!("{name}: *mut u8, {name}_len: usize"));
                given.push(format!("core::slice::from_raw_parts_mut({name}, {name}_len)"));
            }
            out if out.starts_with("&mut") && number(&out[4..]) => {
                taken.push(format!("{name}: *mut {}", &out[4..]));
                given.push(format!("&mut *{name}"));
            }
            plain if number(plain) => {
                taken.push(format!("{name}: {plain}"));
                given.push(name.clone());
            }
            other => return Err(format!("{}: no C type is known for {name}: {other}", export.place)),
        }
    }
    let answer = match export.answer.as_str() {
        "u8" | "u16" | "u32" | "u64" | "usize" | "bool" => &export.answer,
        other => return Err(format!("{}: no C type is known for the answer {other:?}", export.place)),
    };
    let mut text = String::new();
    writeln!(text, "#[no_mangle]").unwrap();
    writeln!(text, "pub unsafe extern \"C\" fn {}({}) -> {answer} {{", export.name, taken.join(", ")).unwrap();
    writeln!(text, "    {module}::{}({})", export.name, given.join(", ")).unwrap();
    writeln!(text, "}}").unwrap();
    Ok(text)
}

/// A line of crates.txt: a crate, and the crates that it uses.
pub struct Listed {
    pub name: String,
    pub uses: Vec<String>,
    /// Where it stands, for an error.
    pub place: String,
}

/// The crates that `top` stands on, `top` last, each with the crates that its line names.
pub fn stands_on(path: &str, text: &str, top: &str) -> Result<Vec<Listed>, String> {
    let mut listed = Vec::new();
    for (number, line) in text.lines().enumerate() {
        let line = line.split('#').next().unwrap_or("").trim();
        if line.is_empty() {
            continue;
        }
        let place = format!("{path}:{}", number + 1);
        let (name, uses) = match line.split_once(':') {
            Some((name, uses)) => {
                (name.trim().trim_end_matches(" staticlib"), uses.split_whitespace().map(str::to_string).collect())
            }
            None => {
                return Err(format!("{place}: a line is `NAME: CRATE CRATE ..` or `NAME staticlib: CRATE CRATE ..`"))
            }
        };
        if name.is_empty() || !name.chars().all(is_word) || listed.iter().any(|old: &Listed| old.name == name) {
            return Err(format!("{place}: the name {name:?} is none, or stands twice"));
        }
        listed.push(Listed { name: name.to_string(), uses, place });
    }
    let mut order = Vec::new();
    visit(path, &listed, top, &mut Vec::new(), &mut order)?;
    Ok(order
        .into_iter()
        .map(|at: usize| Listed {
            name: listed[at].name.clone(),
            uses: listed[at].uses.clone(),
            place: listed[at].place.clone(),
        })
        .collect())
}

fn visit(
    path: &str,
    listed: &[Listed],
    name: &str,
    above: &mut Vec<usize>,
    order: &mut Vec<usize>,
) -> Result<(), String> {
    let from = above.last().map_or(path, |&at| &listed[at].place);
    let at = match listed.iter().position(|line| line.name == name) {
        Some(at) => at,
        None => return Err(format!("{from}: `{name}` has no line of its own, and no other crate is known")),
    };
    if above.contains(&at) {
        return Err(format!("{from}: `{name}` stands on itself"));
    }
    if order.contains(&at) {
        return Ok(());
    }
    above.push(at);
    for used in &listed[at].uses {
        visit(path, listed, used, above, order)?;
    }
    above.pop();
    order.push(at);
    Ok(())
}
