// A second program for rule books: reads book lines, answers each with
// `ok` or `refused N`, and prints the book at `====` and at the end.
//
// A line is cut into a vector of tokens first (the cutting never fails: what
// is no part becomes a token that is allowed nowhere). The tokens are read by
// precedence climbing into trees; names are resolved, units checked, steps
// counted and needs gathered by walking those trees.
use std::io::{Read, Write};

type Unit = (i32, i32);

const BAD_BYTES: u8 = 1;
const NO_SUCH_PART: u8 = 2;
const TOO_DEEP: u8 = 3;
const BAD_NUMBER: u8 = 4;
const UNKNOWN_NAME: u8 = 5;
const NAME_IN_USE: u8 = 6;
const UNITS_DIFFER: u8 = 7;
const EXPONENT: u8 = 8;
const TOO_MANY: u8 = 9;

const OTHER_RESERVED: [&str; 8] = ["entry", "line", "rule", "root", "min", "max", "form", "close"];

fn unit_of_word(w: &str) -> Option<Unit> {
    Some(match w {
        "one" => (0, 0),
        "in" => (1, 0),
        "in2" => (2, 0),
        "kip" => (0, 1),
        "kipin" => (1, 1),
        "ksi" => (-2, 1),
        _ => return None,
    })
}

fn is_name(w: &str) -> bool {
    w.len() <= 16 && unit_of_word(w).is_none() && !OTHER_RESERVED.contains(&w)
}

// ---------------------------------------------------------------- tokens

#[derive(Clone, Debug, PartialEq)]
enum Token {
    Word(String),
    Number(u32, Unit), // count of thousandths, unit
    BadNumber,
    Mark(u8), // one of + - * / ( ) , = :
    AtMost,   // <=
    Junk,     // begins no part
    End,
}

fn run_of(bytes: &[u8], from: usize, test: fn(&u8) -> bool) -> usize {
    bytes[from..].iter().take_while(|b| test(b)).count()
}

fn tokens_of(bytes: &[u8]) -> Vec<Token> {
    let mut out = Vec::new();
    let mut at = 0;
    while at < bytes.len() {
        let b = bytes[at];
        if b == b' ' {
            at += 1;
        } else if b.is_ascii_alphabetic() {
            let n = run_of(bytes, at, u8::is_ascii_alphanumeric);
            out.push(Token::Word(String::from_utf8(bytes[at..at + n].to_vec()).unwrap()));
            at += n;
        } else if b.is_ascii_digit() {
            let whole = run_of(bytes, at, u8::is_ascii_digit);
            let whole_digits = &bytes[at..at + whole];
            at += whole;
            let mut point = false;
            let mut after: &[u8] = &[];
            if at < bytes.len() && bytes[at] == b'.' {
                point = true;
                at += 1;
                let n = run_of(bytes, at, u8::is_ascii_digit);
                after = &bytes[at..at + n];
                at += n;
            }
            if whole > 6 || after.len() > 3 || (point && after.is_empty()) {
                out.push(Token::BadNumber);
                continue;
            }
            let mut text = String::from_utf8(whole_digits.to_vec()).unwrap();
            text.push_str(std::str::from_utf8(after).unwrap());
            for _ in after.len()..3 {
                text.push('0');
            }
            let count: u32 = text.parse().unwrap();
            // a unit word straight after the number belongs to it
            let mut unit = (0, 0);
            if at < bytes.len() && bytes[at].is_ascii_alphabetic() {
                let n = run_of(bytes, at, u8::is_ascii_alphanumeric);
                if let Some(u) = unit_of_word(std::str::from_utf8(&bytes[at..at + n]).unwrap()) {
                    unit = u;
                    at += n;
                }
            }
            out.push(Token::Number(count, unit));
        } else if b == b'<' && bytes.get(at + 1) == Some(&b'=') {
            out.push(Token::AtMost);
            at += 2;
        } else if b"+-*/(),=:".contains(&b) {
            out.push(Token::Mark(b));
            at += 1;
        } else {
            out.push(Token::Junk);
            at += 1;
        }
    }
    out.push(Token::End);
    out
}

// ----------------------------------------------------------------- trees

#[derive(Clone, Copy, Debug, PartialEq)]
enum Sign {
    Plus,
    Minus,
    Times,
    Over,
    Min,
    Max,
}

impl Sign {
    fn text(self) -> &'static str {
        match self {
            Sign::Plus => "+",
            Sign::Minus => "-",
            Sign::Times => "*",
            Sign::Over => "/",
            Sign::Min => "min",
            Sign::Max => "max",
        }
    }
}

/// A formula; `N` is what stands at a name.
#[derive(Clone, Debug)]
enum Tree<N> {
    Number(u32, Unit),
    Name(N),
    Join(Sign, Box<Tree<N>>, Box<Tree<N>>),
}

#[derive(Clone, Copy, Debug)]
enum Known {
    Entry(usize),
    Line(usize),
}

enum Read1 {
    Blank,
    Entry(String, Unit),
    Line(String, Tree<String>),
    Rule(String, Tree<String>, Tree<String>, bool),
}

struct Reader {
    tokens: Vec<Token>,
    next: usize,
    open: usize,
}

type Res<T> = Result<T, u8>;

impl Reader {
    fn peek(&self) -> &Token {
        &self.tokens[self.next]
    }

    fn want(&mut self, t: Token) -> Res<()> {
        if *self.peek() == t {
            if t != Token::End {
                self.next += 1;
            }
            Ok(())
        } else {
            Err(NO_SUCH_PART)
        }
    }

    fn want_name(&mut self) -> Res<String> {
        match self.peek().clone() {
            Token::Word(w) if is_name(&w) => {
                self.next += 1;
                Ok(w)
            }
            _ => Err(NO_SUCH_PART),
        }
    }

    fn open_paren(&mut self) -> Res<()> {
        self.want(Token::Mark(b'('))?;
        if self.open == 16 {
            return Err(TOO_DEEP);
        }
        self.open += 1;
        Ok(())
    }

    fn close_paren(&mut self) -> Res<()> {
        self.want(Token::Mark(b')'))?;
        self.open -= 1;
        Ok(())
    }

    fn operand(&mut self) -> Res<Tree<String>> {
        match self.peek().clone() {
            Token::Number(count, unit) => {
                self.next += 1;
                Ok(Tree::Number(count, unit))
            }
            Token::BadNumber => Err(BAD_NUMBER),
            Token::Mark(b'(') => {
                self.open_paren()?;
                let inner = self.climb(1)?;
                self.close_paren()?;
                Ok(inner)
            }
            Token::Word(w) if w == "min" || w == "max" => {
                let sign = if w == "min" { Sign::Min } else { Sign::Max };
                self.next += 1;
                self.open_paren()?;
                let first = self.climb(1)?;
                self.want(Token::Mark(b','))?;
                let second = self.climb(1)?;
                self.close_paren()?;
                Ok(Tree::Join(sign, Box::new(first), Box::new(second)))
            }
            _ => self.want_name().map(Tree::Name),
        }
    }

    /// Reads operands joined by signs of rank `least` or more.
    fn climb(&mut self, least: u8) -> Res<Tree<String>> {
        let mut left = self.operand()?;
        loop {
            let (sign, rank) = match self.peek() {
                Token::Mark(b'+') => (Sign::Plus, 1),
                Token::Mark(b'-') => (Sign::Minus, 1),
                Token::Mark(b'*') => (Sign::Times, 2),
                Token::Mark(b'/') => (Sign::Over, 2),
                _ => return Ok(left),
            };
            if rank < least {
                return Ok(left);
            }
            self.next += 1;
            let right = self.climb(rank + 1)?;
            left = Tree::Join(sign, Box::new(left), Box::new(right));
        }
    }

    fn whole_line(&mut self) -> Res<Read1> {
        let head = match self.peek().clone() {
            Token::End => return Ok(Read1::Blank),
            Token::Word(w) => w,
            _ => return Err(NO_SUCH_PART),
        };
        self.next += 1;
        let read = match head.as_str() {
            "entry" => {
                let name = self.want_name()?;
                let unit = match self.peek() {
                    Token::Word(w) => unit_of_word(w).ok_or(NO_SUCH_PART)?,
                    _ => return Err(NO_SUCH_PART),
                };
                self.next += 1;
                Read1::Entry(name, unit)
            }
            "line" => {
                let name = self.want_name()?;
                self.want(Token::Mark(b'='))?;
                Read1::Line(name, self.climb(1)?)
            }
            "rule" => {
                let name = self.want_name()?;
                self.want(Token::Mark(b':'))?;
                let left = self.climb(1)?;
                self.want(Token::AtMost)?;
                if *self.peek() == Token::Word("root".to_string()) {
                    self.next += 1;
                    self.open_paren()?;
                    let right = self.climb(1)?;
                    self.close_paren()?;
                    Read1::Rule(name, left, right, true)
                } else {
                    let right = self.climb(1)?;
                    Read1::Rule(name, left, right, false)
                }
            }
            _ => return Err(NO_SUCH_PART),
        };
        self.want(Token::End)?;
        Ok(read)
    }
}

// ------------------------------------------------------------------ book

struct Entry {
    name: String,
    unit: Unit,
}

struct Line {
    name: String,
    unit: Unit,
    formula: Tree<Known>,
}

struct Rule {
    name: String,
    unit: Unit,
    root: bool,
    left: Tree<Known>,
    right: Tree<Known>,
}

#[derive(Default)]
struct Book {
    entries: Vec<Entry>,
    lines: Vec<Line>,
    rules: Vec<Rule>,
}

fn in_reach(e: i32) -> bool {
    (-12..=12).contains(&e)
}

fn size<N>(t: &Tree<N>) -> usize {
    match t {
        Tree::Number(..) | Tree::Name(_) => 1,
        Tree::Join(_, a, b) => size(a) + size(b) + 1,
    }
}

impl Book {
    fn in_use(&self, name: &str) -> bool {
        self.entries.iter().any(|e| e.name == name)
            || self.lines.iter().any(|l| l.name == name)
            || self.rules.iter().any(|r| r.name == name)
    }

    fn free_name(&self, name: &str) -> Res<()> {
        if self.in_use(name) {
            Err(NAME_IN_USE)
        } else {
            Ok(())
        }
    }

    fn known(&self, name: &str) -> Option<Known> {
        if let Some(i) = self.entries.iter().position(|e| e.name == name) {
            return Some(Known::Entry(i));
        }
        self.lines.iter().position(|l| l.name == name).map(Known::Line)
    }

    fn resolve(&self, t: &Tree<String>) -> Res<Tree<Known>> {
        Ok(match t {
            Tree::Number(c, u) => Tree::Number(*c, *u),
            Tree::Name(n) => Tree::Name(self.known(n).ok_or(UNKNOWN_NAME)?),
            Tree::Join(s, a, b) => {
                let a = self.resolve(a)?;
                let b = self.resolve(b)?;
                Tree::Join(*s, Box::new(a), Box::new(b))
            }
        })
    }

    fn unit(&self, t: &Tree<Known>) -> Res<Unit> {
        match t {
            Tree::Number(_, u) => Ok(*u),
            Tree::Name(Known::Entry(i)) => Ok(self.entries[*i].unit),
            Tree::Name(Known::Line(i)) => Ok(self.lines[*i].unit),
            Tree::Join(s, a, b) => {
                let (ai, ak) = self.unit(a)?;
                let (bi, bk) = self.unit(b)?;
                let (i, k) = match s {
                    Sign::Times => (ai + bi, ak + bk),
                    Sign::Over => (ai - bi, ak - bk),
                    _ => {
                        if (ai, ak) != (bi, bk) {
                            return Err(UNITS_DIFFER);
                        }
                        (ai, ak)
                    }
                };
                if in_reach(i) && in_reach(k) {
                    Ok((i, k))
                } else {
                    Err(EXPONENT)
                }
            }
        }
    }

    fn steps(&self) -> usize {
        let of_lines: usize = self.lines.iter().map(|l| size(&l.formula)).sum();
        let of_rules: usize = self.rules.iter().map(|r| size(&r.left) + size(&r.right)).sum();
        of_lines + of_rules
    }

    fn add(&mut self, bytes: &[u8]) -> Res<()> {
        if bytes.len() > 120 || bytes.iter().any(|b| !(0x20..=0x7e).contains(b)) {
            return Err(BAD_BYTES);
        }
        let mut reader = Reader { tokens: tokens_of(bytes), next: 0, open: 0 };
        match reader.whole_line()? {
            Read1::Blank => {}
            Read1::Entry(name, unit) => {
                self.free_name(&name)?;
                if self.entries.len() == 64 {
                    return Err(TOO_MANY);
                }
                self.entries.push(Entry { name, unit });
            }
            Read1::Line(name, formula) => {
                self.free_name(&name)?;
                let formula = self.resolve(&formula)?;
                let unit = self.unit(&formula)?;
                if self.lines.len() == 64 || self.steps() + size(&formula) > 1024 {
                    return Err(TOO_MANY);
                }
                self.lines.push(Line { name, unit, formula });
            }
            Read1::Rule(name, left, right, root) => {
                self.free_name(&name)?;
                let left = self.resolve(&left)?;
                let right = self.resolve(&right)?;
                let unit = self.unit(&left)?;
                let other = self.unit(&right)?;
                let wanted = if root { (unit.0 * 2, unit.1 * 2) } else { unit };
                if wanted != other {
                    return Err(UNITS_DIFFER);
                }
                if self.rules.len() == 64 || self.steps() + size(&left) + size(&right) > 1024 {
                    return Err(TOO_MANY);
                }
                self.rules.push(Rule { name, unit, root, left, right });
            }
        }
        Ok(())
    }

    /// Marks all entries and lines that a formula needs, walking into the
    /// formulas of the lines that it names.
    fn gather(&self, t: &Tree<Known>, entries: &mut [bool; 64], lines: &mut [bool; 64]) {
        match t {
            Tree::Number(..) => {}
            Tree::Name(Known::Entry(i)) => entries[*i] = true,
            Tree::Name(Known::Line(i)) => {
                if !lines[*i] {
                    lines[*i] = true;
                    self.gather(&self.lines[*i].formula, entries, lines);
                }
            }
            Tree::Join(_, a, b) => {
                self.gather(a, entries, lines);
                self.gather(b, entries, lines);
            }
        }
    }

    fn needs(&self, formulas: &[&Tree<Known>]) -> ([bool; 64], [bool; 64]) {
        let (mut entries, mut lines) = ([false; 64], [false; 64]);
        for f in formulas {
            self.gather(f, &mut entries, &mut lines);
        }
        (entries, lines)
    }

    fn print(&self, out: &mut dyn Write) -> std::io::Result<()> {
        let line_needs: Vec<_> = self.lines.iter().map(|l| self.needs(&[&l.formula])).collect();
        let rule_needs: Vec<_> =
            self.rules.iter().map(|r| self.needs(&[&r.left, &r.right])).collect();
        writeln!(
            out,
            "book {} {} {} {}",
            self.entries.len(),
            self.lines.len(),
            self.rules.len(),
            self.steps()
        )?;
        for (i, e) in self.entries.iter().enumerate() {
            let on_lines: Vec<bool> = line_needs.iter().map(|n| n.0[i]).collect();
            let on_rules: Vec<bool> = rule_needs.iter().map(|n| n.0[i]).collect();
            writeln!(
                out,
                "entry {} {} {} {} lines={} rules={}",
                i,
                e.name,
                e.unit.0,
                e.unit.1,
                hex(&on_lines),
                hex(&on_rules)
            )?;
        }
        for (i, l) in self.lines.iter().enumerate() {
            writeln!(
                out,
                "line {} {} {} {} entries={} lines={} : {}",
                i,
                l.name,
                l.unit.0,
                l.unit.1,
                hex(&line_needs[i].0),
                hex(&line_needs[i].1),
                steps_text(&l.formula)
            )?;
        }
        for (i, r) in self.rules.iter().enumerate() {
            writeln!(
                out,
                "rule {} {} {} {} {} entries={} lines={} : {} <= {}",
                i,
                r.name,
                r.unit.0,
                r.unit.1,
                if r.root { "root" } else { "plain" },
                hex(&rule_needs[i].0),
                hex(&rule_needs[i].1),
                steps_text(&r.left),
                steps_text(&r.right)
            )?;
        }
        Ok(())
    }
}

fn hex(bits: &[bool]) -> String {
    let mut word = 0u64;
    for (i, b) in bits.iter().enumerate() {
        if *b {
            word |= 1u64 << i;
        }
    }
    format!("{:016x}", word)
}

fn steps_text(t: &Tree<Known>) -> String {
    match t {
        Tree::Number(c, u) => format!("{}@{},{}", c, u.0, u.1),
        Tree::Name(Known::Entry(i)) => format!("e{}", i),
        Tree::Name(Known::Line(i)) => format!("l{}", i),
        Tree::Join(s, a, b) => format!("{} {} {}", steps_text(a), steps_text(b), s.text()),
    }
}

fn main() -> std::io::Result<()> {
    let mut input = Vec::new();
    std::io::stdin().lock().read_to_end(&mut input)?;
    let mut pieces: Vec<&[u8]> = input.split(|b| *b == 0x0a).collect();
    if pieces.last().map_or(false, |p| p.is_empty()) {
        pieces.pop();
    }
    let stdout = std::io::stdout();
    let mut out = std::io::BufWriter::new(stdout.lock());
    let mut draft = Book::default();
    for piece in pieces {
        if piece == b"====" {
            draft.print(&mut out)?;
            draft = Book::default();
            continue;
        }
        match draft.add(piece) {
            Ok(()) => writeln!(out, "ok")?,
            Err(n) => writeln!(out, "refused {}", n)?,
        }
    }
    draft.print(&mut out)?;
    out.flush()
}
