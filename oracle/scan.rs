//! Finds items and statements in Rust text by kind and name. It knows comments, strings, brackets and how items
//! begin and end, and nothing else of the language. build.rs uses it.

/// Where a token begins and ends, in bytes. Comments and blanks are no tokens.
#[derive(Clone, Copy)]
pub struct Token {
    pub from: usize,
    pub to: usize,
}

/// Operators that are one token. Angle brackets never are part of one, but for arrows and comparisons.
const OPERATORS: &[&str] = &["..=", "::", "->", "=>", "==", "!=", "<=", ">=", "&&", "||", "+=", "-=", ".."];

fn in_word(byte: u8) -> bool {
    byte.is_ascii_alphanumeric() || byte == b'_' || byte >= 0x80
}

pub fn tokens(text: &str) -> Vec<Token> {
    let s = text.as_bytes();
    let mut tokens = vec![];
    let mut at = 0;
    while at < s.len() {
        let rest = &s[at..];
        let from = at;
        if rest.starts_with(b"//") {
            at += rest.iter().position(|b| *b == b'\n').unwrap_or(rest.len());
            continue;
        }
        if rest.starts_with(b"/*") {
            at = behind_block_comment(s, at);
            continue;
        }
        if rest[0].is_ascii_whitespace() {
            at += 1;
            continue;
        }
        at = behind_quoted(s, at);
        if at == from && in_word(s[at]) {
            at += rest.iter().position(|b| !in_word(*b)).unwrap_or(rest.len());
        } else if at == from {
            let operator = OPERATORS.iter().find(|o| rest.starts_with(o.as_bytes()));
            at += operator.map_or(1, |o| o.len());
        }
        at = at.min(s.len());
        tokens.push(Token { from, to: at });
    }
    tokens
}

/// The end of the string, character or lifetime that begins at `at`; `at` itself where none begins.
fn behind_quoted(s: &[u8], at: usize) -> usize {
    // b, r, br and number signs before a string.
    let mut open = at;
    if s[open] == b'b' {
        open += 1;
    }
    let raw = s.get(open) == Some(&b'r');
    if raw {
        open += 1;
        let signs = s[open..].iter().take_while(|b| **b == b'#').count();
        if s.get(open + signs) == Some(&b'"') {
            let mut close = vec![b'"'];
            close.resize(1 + signs, b'#');
            let body = open + signs + 1;
            let length = s[body..].windows(close.len()).position(|w| w == close);
            return length.map_or(s.len(), |l| body + l + close.len());
        }
        return at;
    }
    match s.get(open) {
        Some(b'"') => behind(s, open + 1, b'"'),
        Some(b'\'') if s.get(open + 1) == Some(&b'\\') => behind(s, open + 1, b'\''),
        Some(b'\'') => {
            // A character of one to four bytes and a quote; anything else is a lifetime.
            let width = match s.get(open + 1) {
                Some(0xF0..) => 4,
                Some(0xE0..) => 3,
                Some(0xC0..) => 2,
                _ => 1,
            };
            if s.get(open + 1 + width) == Some(&b'\'') {
                return open + width + 2;
            }
            open + 1 + s[open + 1..].iter().take_while(|b| in_word(**b)).count()
        }
        _ => at,
    }
}

/// Behind the next `quote` that no backslash escapes.
fn behind(s: &[u8], mut at: usize, quote: u8) -> usize {
    while at < s.len() && s[at] != quote {
        at += if s[at] == b'\\' { 2 } else { 1 };
    }
    at + 1
}

fn behind_block_comment(s: &[u8], mut at: usize) -> usize {
    let mut depth = 0;
    while at < s.len() {
        if s[at..].starts_with(b"/*") {
            depth += 1;
            at += 2;
        } else if s[at..].starts_with(b"*/") {
            depth -= 1;
            at += 2;
            if depth == 0 {
                break;
            }
        } else {
            at += 1;
        }
    }
    at
}

/// An item, by the numbers of its tokens.
#[derive(Clone)]
pub struct Item {
    /// Kind and name: `struct X`, `fn x`, `const X`, `trait X`, `impl X`, `impl T for X`. Paths are left off before
    /// a name, and an impl's own parameters and those of X; the trait's stay, without blanks.
    pub name: String,
    /// Behind the attributes.
    pub first: usize,
    /// The brace that opens its body.
    pub open: Option<usize>,
    pub last: usize,
}

/// A text and its tokens.
pub struct Text {
    pub text: String,
    pub tokens: Vec<Token>,
    /// For an opening bracket the number of the token that closes it.
    partner: Vec<usize>,
}

impl Text {
    pub fn new(text: String) -> Result<Text, String> {
        let tokens = tokens(&text);
        let mut partner = vec![0; tokens.len()];
        let mut open = vec![];
        for (i, token) in tokens.iter().enumerate() {
            match &text[token.from..token.to] {
                "(" | "[" | "{" => open.push(i),
                ")" | "]" | "}" => match open.pop() {
                    Some(at) => partner[at] = i,
                    None => return Err("a bracket closes that was not opened".to_string()),
                },
                _ => {}
            }
        }
        match open.is_empty() {
            true => Ok(Text { text, tokens, partner }),
            false => Err("a bracket is not closed".to_string()),
        }
    }

    /// The token's text; nothing behind the last one.
    pub fn token(&self, number: usize) -> &str {
        self.tokens.get(number).map_or("", |t| &self.text[t.from..t.to])
    }

    /// Behind the bracket that opens at `at`, or behind the token where none does.
    fn next(&self, at: usize) -> usize {
        match self.token(at) {
            "(" | "[" | "{" => self.partner[at] + 1,
            _ => at + 1,
        }
    }

    /// The items among the tokens `from..to`, outside of brackets.
    fn items(&self, from: usize, to: usize) -> Vec<Item> {
        let mut items = vec![];
        let mut at = from;
        while at < to {
            if self.token(at) == "#" {
                at += if self.token(at + 1) == "!" { 2 } else { 1 };
                at = self.next(at);
                continue;
            }
            let name = self.name(at);
            // These end at a semicolon alone; the others at a closing brace too.
            let value = ["const ", "static ", "type ", "use "].iter().any(|kind| name.starts_with(kind));
            let (first, mut open, mut last) = (at, None, at);
            while at < to {
                let brace = self.token(at) == "{" && !value;
                if brace {
                    open = Some(at);
                }
                let ends = brace || self.token(at) == ";";
                at = self.next(at);
                last = at - 1;
                if ends {
                    break;
                }
            }
            items.push(Item { name, first, open, last });
        }
        items
    }

    fn name(&self, mut at: usize) -> String {
        if self.token(at) == "pub" {
            at += 1;
            if self.token(at) == "(" {
                at = self.next(at);
            }
        }
        while ["async", "unsafe"].contains(&self.token(at))
            || self.token(at) == "const" && self.token(at + 1) == "fn"
        {
            at += 1;
        }
        match self.token(at) {
            "impl" => self.impl_name(at + 1),
            kind => format!("{kind} {}", self.token(at + 1)),
        }
    }

    fn impl_name(&self, mut at: usize) -> String {
        // The parts before and behind `for`, each without what stands before the last `::` outside of `<>`.
        let (mut parts, mut depth) = (vec![String::new()], 0);
        let parameters = self.token(at) == "<";
        let mut skipping = parameters;
        while !["{", "where", ""].contains(&self.token(at)) {
            let token = self.token(at);
            depth += i32::from(token == "<") - i32::from(token == ">");
            let last = parts.last_mut().expect("one part");
            match token {
                _ if skipping => skipping = depth > 0,
                "for" if depth == 0 => parts.push(String::new()),
                "::" if depth == 0 => last.clear(),
                _ => last.push_str(token),
            }
            at += 1;
        }
        let own = parts.pop().expect("one part");
        let own = own.split('<').next().expect("a first part");
        match parts.pop() {
            Some(of) => format!("impl {of} for {own}"),
            None => format!("impl {own}"),
        }
    }

    /// The only item of this name. `A / B` is the member B of an item A.
    pub fn find(&self, name: &str) -> Result<Item, String> {
        let (outer, inner) = match name.split_once(" / ") {
            Some((outer, inner)) => (outer, Some(inner)),
            None => (name, None),
        };
        let mut found = self.items(0, self.tokens.len());
        found.retain(|item| item.name == outer);
        if let Some(inner) = inner {
            found = found.iter().flat_map(|item| self.members(item)).collect();
            found.retain(|item| item.name == inner);
        }
        match <[Item; 1]>::try_from(found) {
            Ok([item]) => Ok(item),
            Err(found) => Err(format!("the item `{name}` is there {} times, not once", found.len())),
        }
    }

    pub fn members(&self, item: &Item) -> Vec<Item> {
        item.open.map_or(vec![], |open| self.items(open + 1, self.partner[open]))
    }

    /// One of the `of` statements `let NAME` in an item, at any depth: its first and last token. `which` is from 0.
    pub fn binding(
        &self,
        item: &Item,
        name: &str,
        which: usize,
        of: usize,
    ) -> Result<(usize, usize), String> {
        let binds = |i: &usize| {
            let place = if self.token(i + 1) == "mut" { i + 2 } else { i + 1 };
            self.token(*i) == "let" && self.token(place) == name
        };
        let found: Vec<usize> = (item.first..item.last).filter(binds).collect();
        if found.len() != of {
            let place = &item.name;
            return Err(format!("`let {name}` is there {} times in `{place}`, not {of}", found.len()));
        }
        let first = found[which];
        Ok((first, self.ahead(first, ";")?))
    }

    /// The first such token from `at` on, what stands in brackets passed over.
    pub fn ahead(&self, from: usize, token: &str) -> Result<usize, String> {
        let mut at = from;
        while at < self.tokens.len() && self.token(at) != token {
            at = self.next(at);
        }
        let line = self.tokens.get(from).map_or(0, |t| self.line(t.from));
        if at < self.tokens.len() {
            Ok(at)
        } else {
            Err(format!("there is no `{token}` behind line {line}"))
        }
    }

    /// The token that closes the bracket.
    pub fn close(&self, open: usize) -> usize {
        self.partner[open]
    }

    pub fn line(&self, at: usize) -> usize {
        self.text[..at].matches('\n').count() + 1
    }

    /// Where the line of a token begins, or that of the first comment or attribute right above it.
    pub fn with_attributes(&self, token: usize) -> usize {
        let line_start = |at: usize| self.text[..at].rfind('\n').map_or(0, |end| end + 1);
        let mut at = line_start(self.tokens[token].from);
        while at > 0 {
            let above = line_start(at - 1);
            let line = self.text[above..at].trim();
            let comment = line.starts_with("//") && !line.starts_with("//!");
            let attribute = line.starts_with("#[") && line.ends_with(']');
            if !comment && !attribute {
                break;
            }
            at = above;
        }
        at
    }
}
