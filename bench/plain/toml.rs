//! As much TOML as plant files have, in the place of the kit's `toml`: comments, tables, arrays of tables, dotted and quoted
//! keys, inline tables, arrays, texts, numbers, dates and times, true and false. It takes a few texts that TOML refuses, as a
//! table that is opened twice.
#![allow(warnings)]

use kit::alloc::{AllocError, Global};
use kit::string::String as Text;
use kit::vec::Vec as List;
use std::collections::BTreeMap;

/// A table. The second part says whether its keys can still be added to: not where it was written inline.
#[derive(Debug, Default)]
pub struct Table(BTreeMap<Text, Value>, bool);

#[derive(Debug)]
pub enum Value {
    String(Text),
    Integer(i64),
    Float(f64),
    Boolean(bool),
    Datetime(Datetime),
    Array(List<Value>),
    Table(Table),
}

#[derive(Clone, Copy, Debug, PartialEq, Eq, PartialOrd, Ord)]
pub struct Datetime {
    pub date: Option<Date>,
    pub time: Option<Time>,
    pub offset: Option<Offset>,
}

#[derive(Clone, Copy, Debug, PartialEq, Eq, PartialOrd, Ord)]
pub struct Date {
    pub year: u16,
    pub month: u8,
    pub day: u8,
}

#[derive(Clone, Copy, Debug, PartialEq, Eq, PartialOrd, Ord)]
pub struct Time {
    pub hour: u8,
    pub minute: u8,
    pub second: Option<u8>,
    pub nanosecond: Option<u32>,
}

#[derive(Clone, Copy, Debug, PartialEq, Eq, PartialOrd, Ord)]
pub enum Offset {
    Z,
    Custom { minutes: i16 },
}

pub mod value {
    pub use crate::{Date, Datetime, Offset, Table, Time, Value};
    pub type Array = kit::vec::Vec<Value>;
}

impl From<Datetime> for Value {
    fn from(moment: Datetime) -> Value {
        Value::Datetime(moment)
    }
}

pub struct Error;

impl Error {
    pub fn is_memory(&self) -> bool {
        false
    }
}

pub mod ser {
    pub enum Error {
        OutOfMemory,
        DateInvalid,
    }
}

impl Table {
    pub fn new(_alloc: Global) -> Table {
        Table::default()
    }

    pub fn get(&self, key: &str) -> Option<&Value> {
        self.0.get(key)
    }

    pub fn insert(&mut self, key: Text, value: Value) -> Result<Option<Value>, AllocError> {
        Ok(self.0.insert(key, value))
    }

    pub fn keys(&self) -> impl Iterator<Item = &Text> {
        self.0.keys()
    }
}

impl Value {
    pub fn string(_alloc: Global, text: &str) -> Result<Value, AllocError> {
        Ok(Value::String(Text::of_rust(text.into())))
    }

    pub fn as_integer(&self) -> Option<i64> {
        match self {
            Value::Integer(number) => Some(*number),
            _ => None,
        }
    }

    pub fn as_str(&self) -> Option<&str> {
        match self {
            Value::String(text) => Some(text.as_str()),
            _ => None,
        }
    }

    pub fn as_datetime(&self) -> Option<&Datetime> {
        match self {
            Value::Datetime(moment) => Some(moment),
            _ => None,
        }
    }

    pub fn as_array(&self) -> Option<&List<Value>> {
        match self {
            Value::Array(items) => Some(items),
            _ => None,
        }
    }

    pub fn as_table(&self) -> Option<&Table> {
        match self {
            Value::Table(table) => Some(table),
            _ => None,
        }
    }
}

// Reading

struct Reader<'a> {
    rest: &'a str,
}

pub fn table_from_str(_alloc: Global, text: &str) -> Result<Table, Error> {
    let mut top = Table::default();
    let mut path: Vec<String> = Vec::new();
    let mut reader = Reader { rest: text };
    loop {
        reader.skip(true);
        if reader.rest.is_empty() {
            return Ok(top);
        }
        if reader.takes("[[") {
            path = reader.keys()?;
            reader.needs("]]")?;
            let (last, above) = path.split_last().ok_or(Error)?;
            let table = walk(&mut top, above)?;
            let place = table.0.entry(Text::of_rust(last.clone()));
            match place.or_insert_with(|| Value::Array(empty())) {
                Value::Array(items) if items.iter().all(is_open) => {
                    items.push(Value::Table(Table::default())).map_err(|_| Error)?
                }
                _ => return Err(Error),
            }
        } else if reader.takes("[") {
            path = reader.keys()?;
            reader.needs("]")?;
            walk(&mut top, &path)?;
        } else {
            reader.member(walk(&mut top, &path)?)?;
        }
        reader.skip(false);
        if !reader.rest.is_empty() && !reader.takes("\n") && !reader.takes("\r\n") {
            return Err(Error);
        }
    }
}

/// Whether a value is a table that was not written inline.
fn is_open(value: &Value) -> bool {
    matches!(value, Value::Table(table) if !table.1)
}

fn empty() -> List<Value> {
    List::new(Global)
}

/// The table that a path leads to, which is made where it is not there; of an array of tables the last one.
fn walk<'a>(mut table: &'a mut Table, path: &[String]) -> Result<&'a mut Table, Error> {
    for key in path {
        let place = table.0.entry(Text::of_rust(key.clone()));
        table = match place.or_insert_with(|| Value::Table(Table::default())) {
            Value::Table(next) => next,
            Value::Array(items) => match items.as_mut_slice().last_mut() {
                Some(Value::Table(next)) => next,
                _ => return Err(Error),
            },
            _ => return Err(Error),
        };
        if table.1 {
            return Err(Error);
        }
    }
    Ok(table)
}

impl<'a> Reader<'a> {
    fn takes(&mut self, word: &str) -> bool {
        match self.rest.strip_prefix(word) {
            Some(rest) => {
                self.rest = rest;
                true
            }
            None => false,
        }
    }

    fn needs(&mut self, word: &str) -> Result<(), Error> {
        self.skip(false);
        if self.takes(word) { Ok(()) } else { Err(Error) }
    }

    /// Passes over blanks and comments, and over ends of lines where these may stand.
    fn skip(&mut self, lines: bool) {
        loop {
            let blanks: &[char] = if lines { &[' ', '\t', '\r', '\n'] } else { &[' ', '\t'] };
            self.rest = self.rest.trim_start_matches(blanks);
            if !self.rest.starts_with('#') {
                return;
            }
            let end = self.rest.find('\n').unwrap_or(self.rest.len());
            let end = if self.rest[..end].ends_with('\r') { end - 1 } else { end };
            self.rest = &self.rest[end..];
        }
    }

    fn keys(&mut self) -> Result<Vec<String>, Error> {
        let mut keys = Vec::new();
        loop {
            self.skip(false);
            keys.push(self.key()?);
            self.skip(false);
            if !self.takes(".") {
                return Ok(keys);
            }
        }
    }

    fn key(&mut self) -> Result<String, Error> {
        if self.rest.starts_with(['"', '\'']) {
            return self.text();
        }
        let word = self.word(|c| c.is_ascii_alphanumeric() || c == '_' || c == '-');
        if word.is_empty() { Err(Error) } else { Ok(word.into()) }
    }

    fn word(&mut self, holds: fn(char) -> bool) -> &'a str {
        let end = self.rest.find(|c| !holds(c)).unwrap_or(self.rest.len());
        let (word, rest) = self.rest.split_at(end);
        self.rest = rest;
        word
    }

    /// A key with its value, put into a table.
    fn member(&mut self, table: &mut Table) -> Result<(), Error> {
        let keys = self.keys()?;
        self.needs("=")?;
        self.skip(false);
        let value = self.value()?;
        let (last, above) = keys.split_last().ok_or(Error)?;
        let table = walk(table, above)?;
        match table.0.insert(Text::of_rust(last.clone()), value) {
            None => Ok(()),
            Some(_) => Err(Error),
        }
    }

    fn value(&mut self) -> Result<Value, Error> {
        if self.rest.starts_with(['"', '\'']) {
            return Ok(Value::String(Text::of_rust(self.text()?)));
        }
        if self.takes("[") {
            return self.array();
        }
        if self.takes("{") {
            return self.inline();
        }
        let word = self.number();
        if word.len() > 4 && word.is_ascii() && (word.as_bytes()[4] == b'-' || word.as_bytes()[2] == b':') {
            return moment(word).map(Value::Datetime).ok_or(Error);
        }
        match word {
            "true" => Ok(Value::Boolean(true)),
            "false" => Ok(Value::Boolean(false)),
            _ => match (whole(word), word.parse()) {
                (Ok(number), _) => Ok(Value::Integer(number)),
                (_, Ok(number)) if word.contains(['.', 'e', 'E']) => Ok(Value::Float(number)),
                _ => Err(Error),
            },
        }
    }

    /// The letters of a number, of a date or of a word; between a date and a time may stand a blank.
    fn number(&mut self) -> &'a str {
        let (whole, holds) = (self.rest, |c: char| c.is_ascii_alphanumeric() || "+-_.:".contains(c));
        let mut long = self.word(holds).len();
        let mut next = self.rest.bytes();
        if long == 10 && whole.as_bytes()[4] == b'-' && next.next() == Some(b' ') && next.next().is_some_and(|c| c.is_ascii_digit()) {
            self.rest = &self.rest[1..];
            long += 1 + self.word(holds).len();
        }
        &whole[..long]
    }

    fn array(&mut self) -> Result<Value, Error> {
        let mut items = empty();
        loop {
            self.skip(true);
            if self.takes("]") {
                return Ok(Value::Array(items));
            }
            items.push(self.value()?).map_err(|_| Error)?;
            self.skip(true);
            if !self.takes(",") && !self.rest.starts_with(']') {
                return Err(Error);
            }
        }
    }

    fn inline(&mut self) -> Result<Value, Error> {
        let mut table = Table::default();
        self.skip(false);
        while !self.takes("}") {
            self.member(&mut table)?;
            self.skip(false);
            if !self.takes(",") && !self.rest.starts_with('}') {
                return Err(Error);
            }
            self.skip(false);
        }
        table.1 = true;
        Ok(Value::Table(table))
    }

    /// A text in quotes of either kind, once or three times.
    fn text(&mut self) -> Result<String, Error> {
        let quote = if self.rest.starts_with('"') { "\"" } else { "'" };
        let is_long = self.takes(&quote.repeat(3));
        let close = if is_long { quote.repeat(3) } else { quote.into() };
        if is_long {
            let _ = self.takes("\n") || self.takes("\r\n");
        } else {
            self.takes(quote);
        }
        let mut text = String::new();
        loop {
            if self.takes(&close) {
                while is_long && self.takes(quote) {
                    text.push_str(quote);
                }
                return Ok(text);
            }
            let c = self.rest.chars().next().ok_or(Error)?;
            self.rest = &self.rest[c.len_utf8()..];
            match c {
                '\\' if quote == "\"" => self.escaped(&mut text, is_long)?,
                '\n' if is_long => text.push(c),
                '\t' => text.push(c),
                c if c.is_ascii_control() => return Err(Error),
                c => text.push(c),
            }
        }
    }

    /// What stands behind a backslash.
    fn escaped(&mut self, text: &mut String, is_long: bool) -> Result<(), Error> {
        let c = self.rest.chars().next().ok_or(Error)?;
        self.rest = &self.rest[c.len_utf8()..];
        let long = match c {
            'x' => 2,
            'u' => 4,
            'U' => 8,
            _ => 0,
        };
        if long > 0 {
            let digits = self.rest.get(..long).ok_or(Error)?;
            let code = if digits.contains('+') { Err(Error) } else { u32::from_str_radix(digits, 16).map_err(|_| Error) };
            text.push(code.ok().and_then(char::from_u32).ok_or(Error)?);
            self.rest = &self.rest[long..];
            return Ok(());
        }
        match c {
            'n' => text.push('\n'),
            't' => text.push('\t'),
            'r' => text.push('\r'),
            'b' => text.push('\x08'),
            'f' => text.push('\x0C'),
            'e' => text.push('\x1B'),
            c @ ('"' | '\\') => text.push(c),
            '\n' if is_long => self.rest = self.rest.trim_start_matches([' ', '\t', '\r', '\n']),
            _ => return Err(Error),
        }
        Ok(())
    }
}

/// The date, the time or both of a text.
fn moment(text: &str) -> Option<Datetime> {
    let mut rest = text;
    if text.as_bytes()[2] == b':' {
        let time = time(&mut rest)?;
        return rest.is_empty().then_some(Datetime { date: None, time: Some(time), offset: None });
    }
    let date = Some(date(&mut rest)?);
    let Some(behind) = rest.strip_prefix(['T', 't', ' ']) else {
        return rest.is_empty().then_some(Datetime { date, time: None, offset: None });
    };
    rest = behind;
    let time = Some(time(&mut rest)?);
    let offset = if rest.is_empty() { None } else { Some(offset(rest)?) };
    Some(Datetime { date, time, offset })
}

fn two_digits(rest: &mut &str) -> Option<u8> {
    let digits = rest.get(..2).filter(|two| two.bytes().all(|c| c.is_ascii_digit()))?;
    *rest = &rest[2..];
    digits.parse().ok()
}

fn behind(rest: &mut &str, mark: char) -> Option<u8> {
    *rest = rest.strip_prefix(mark)?;
    two_digits(rest)
}

fn date(rest: &mut &str) -> Option<Date> {
    let year = 100 * u16::from(two_digits(rest)?) + u16::from(two_digits(rest)?);
    let (month, day) = (behind(rest, '-')?, behind(rest, '-')?);
    let is_leap_year = year % 4 == 0 && (year % 100 != 0 || year % 400 == 0);
    let days = match month {
        2 if is_leap_year => 29,
        2 => 28,
        4 | 6 | 9 | 11 => 30,
        _ => 31,
    };
    ((1..=12).contains(&month) && (1..=days).contains(&day)).then_some(Date { year, month, day })
}

fn time(rest: &mut &str) -> Option<Time> {
    let (hour, minute) = (two_digits(rest)?, behind(rest, ':')?);
    let second = if rest.starts_with(':') { Some(behind(rest, ':')?) } else { None };
    let mut nanosecond = None;
    if let (Some(_), Some(digits)) = (second, rest.strip_prefix('.')) {
        let long = digits.bytes().take_while(|c| c.is_ascii_digit()).count();
        let nine: String = digits[..long].chars().chain("000000000".chars()).take(9).collect();
        nanosecond = if long > 0 { Some(nine.parse().ok()?) } else { return None };
        *rest = &digits[long..];
    }
    (hour < 24 && minute < 60 && second.unwrap_or(0) <= 60).then_some(Time { hour, minute, second, nanosecond })
}

fn offset(text: &str) -> Option<Offset> {
    if text == "Z" || text == "z" {
        return Some(Offset::Z);
    }
    let (sign, mut rest) = if text.starts_with('-') { (-1, &text[1..]) } else { (1, text.strip_prefix('+')?) };
    let (hours, minutes) = (two_digits(&mut rest)?, behind(&mut rest, ':')?);
    let minutes = (hours < 24 && minutes < 60 && rest.is_empty()).then_some(60 * i16::from(hours) + i16::from(minutes))?;
    Some(Offset::Custom { minutes: sign * minutes })
}

/// A whole number: in tens with a sign, or in sixteens, eights or twos, with low lines between its figures.
fn whole(word: &str) -> Result<i64, Error> {
    for (head, base) in [("0x", 16), ("0o", 8), ("0b", 2)] {
        if let Some(figures) = word.strip_prefix(head) {
            let is_whole = !figures.starts_with(['+', '-', '_']) && !figures.ends_with('_') && !figures.contains("__");
            let number = i64::from_str_radix(&figures.replace('_', ""), base).map_err(|_| Error);
            return if is_whole { number } else { Err(Error) };
        }
    }
    let figures = word.trim_start_matches(['+', '-']);
    let is_long = figures.len() > 1 && figures.starts_with('0');
    if word.len() > figures.len() + 1 || figures.is_empty() || is_long || figures.starts_with('_') || figures.ends_with('_') {
        return Err(Error);
    }
    word.replace('_', "").parse().map_err(|_| Error)
}

// Writing

pub fn table_to_string(_alloc: Global, table: &Table) -> Result<Text, ser::Error> {
    let mut text = String::new();
    put_table(&mut text, "", table);
    Ok(Text::of_rust(text))
}

fn is_tables(value: &Value) -> bool {
    match value {
        Value::Table(_) => true,
        Value::Array(items) => !items.is_empty() && items.iter().all(|item| matches!(item, Value::Table(_))),
        _ => false,
    }
}

fn put_table(text: &mut String, path: &str, table: &Table) {
    for (key, value) in &table.0 {
        if !is_tables(value) {
            text.push_str(&format!("{key} = "));
            put_value(text, value);
            text.push('\n');
        }
    }
    for (key, value) in &table.0 {
        let path = if path.is_empty() { key.to_string() } else { format!("{path}.{key}") };
        match value {
            Value::Array(items) if is_tables(value) => {
                for item in items.as_slice() {
                    put_head(text, &format!("[[{path}]]\n"));
                    put_table(text, &path, item.as_table().unwrap());
                }
            }
            Value::Table(table) => {
                put_head(text, &format!("[{path}]\n"));
                put_table(text, &path, table);
            }
            _ => (),
        }
    }
}

fn put_head(text: &mut String, head: &str) {
    if !text.is_empty() {
        text.push('\n');
    }
    text.push_str(head);
}

fn put_value(text: &mut String, value: &Value) {
    match value {
        Value::String(word) => put_text(text, word.as_str()),
        Value::Datetime(moment) => put_moment(text, moment),
        Value::Integer(number) => text.push_str(&number.to_string()),
        Value::Float(number) => text.push_str(&format!("{number:?}")),
        Value::Boolean(truth) => text.push_str(&truth.to_string()),
        Value::Array(items) => {
            text.push('[');
            for (place, item) in items.iter().enumerate() {
                text.push_str(if place > 0 { ", " } else { "" });
                put_value(text, item);
            }
            text.push(']');
        }
        Value::Table(_) => unreachable!(),
    }
}

/// A text in the first form that needs no escape, or else within double quotes; all texts are of one line.
fn put_text(text: &mut String, word: &str) {
    let (slash, double, single) = (word.contains('\\'), word.contains('"'), word.contains('\''));
    if !word.contains(|c: char| c.is_ascii_control()) {
        if !slash && !double {
            return text.push_str(&format!("\"{word}\""));
        } else if !single {
            return text.push_str(&format!("'{word}'"));
        } else if !slash && !word.contains("\"\"\"") {
            return text.push_str(&format!("\"\"\"{word}\"\"\""));
        } else if !word.contains("'''") {
            return text.push_str(&format!("'''{word}'''"));
        }
    }
    text.push('"');
    for c in word.chars() {
        match c {
            '"' | '\\' => text.extend(['\\', c]),
            '\t' => text.push_str("\\t"),
            c if c.is_ascii_control() => text.push_str(&format!("\\u00{:02X}", c as u32)),
            c => text.push(c),
        }
    }
    text.push('"');
}

/// A date and a time without an offset.
fn put_moment(text: &mut String, moment: &Datetime) {
    if let Some(date) = moment.date {
        text.push_str(&format!("{:04}-{:02}-{:02}", date.year, date.month, date.day));
    }
    if let Some(time) = moment.time {
        let second = time.second.unwrap_or(0);
        text.push_str(&format!("T{:02}:{:02}:{second:02}", time.hour, time.minute));
    }
}
