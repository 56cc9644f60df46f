//! Parses an executable document again and again into a tree of std's types, and prints megabytes a second, the best.
//! It is what one would write by hand for speed alone: no limit on depth, no distinct refusals, names copied as `String`,
//! lines and columns in characters for the first token of each node. `bench/parse.sh` builds it.
#![allow(dead_code)]

use std::time::{Duration, Instant};

#[derive(Clone, Copy)]
struct Spot {
    line: u32,
    column: u32,
}

enum Definition {
    Operation(Operation),
    Fragment(Fragment),
}

struct Operation {
    kind: Kind,
    name: Option<String>,
    variables: Vec<Variable>,
    directives: Vec<Directive>,
    selections: Vec<Selection>,
    spot: Spot,
}

enum Kind {
    Query,
    Mutation,
    Subscription,
}

struct Variable {
    name: String,
    kind: Type,
    default: Option<Value>,
    directives: Vec<Directive>,
    spot: Spot,
}

enum Type {
    Named(String, Spot),
    List(Box<Type>),
    NonNull(Box<Type>),
}

struct Fragment {
    name: String,
    condition: String,
    directives: Vec<Directive>,
    selections: Vec<Selection>,
    spot: Spot,
}

enum Selection {
    Field(Field),
    Spread(String, Vec<Directive>, Spot),
    Inline(Option<String>, Vec<Directive>, Vec<Selection>, Spot),
}

struct Field {
    alias: Option<String>,
    name: String,
    arguments: Vec<Argument>,
    directives: Vec<Directive>,
    selections: Vec<Selection>,
    spot: Spot,
}

struct Directive {
    name: String,
    arguments: Vec<Argument>,
    spot: Spot,
}

struct Argument {
    name: String,
    value: Value,
    spot: Spot,
}

enum Value {
    Variable(String, Spot),
    Int(String, Spot),
    Text(String, Spot),
    Word(String, Spot),
    List(Vec<Value>, Spot),
    Object(Vec<Argument>, Spot),
}

#[derive(Clone, Copy)]
enum Token<'a> {
    End,
    Punctuator(u8),
    Name(&'a str),
    Int(&'a str),
    Quoted(&'a str),
}

struct Parser<'a> {
    text: &'a str,
    at: usize,
    line: u32,
    column: u32,
    /// The byte up to which `column` is counted.
    counted: usize,
    token: Token<'a>,
    spot: Spot,
}

type Parsed<T> = Result<T, Spot>;

impl<'a> Parser<'a> {
    fn new(text: &'a str) -> Parsed<Self> {
        let spot = Spot { line: 1, column: 1 };
        let mut parser = Parser { text, at: 0, line: 1, column: 1, counted: 0, token: Token::End, spot };
        parser.advance()?;
        Ok(parser)
    }

    fn next_line(&mut self) {
        self.at += 1;
        self.line += 1;
        self.column = 1;
        self.counted = self.at;
    }

    fn blanks(&mut self) {
        let bytes = self.text.as_bytes();
        while let Some(&byte) = bytes.get(self.at) {
            match byte {
                b'\n' => self.next_line(),
                b'\r' if bytes.get(self.at + 1) != Some(&b'\n') => self.next_line(),
                b' ' | b'\t' | b',' | b'\r' => self.at += 1,
                0xEF if bytes[self.at..].starts_with(b"\xEF\xBB\xBF") => self.at += 3,
                b'#' => {
                    while bytes.get(self.at).is_some_and(|&b| b != b'\n' && b != b'\r') {
                        self.at += 1;
                    }
                }
                _ => break,
            }
        }
    }

    fn end_of(&self, from: usize, belongs: impl Fn(u8) -> bool) -> usize {
        let rest = &self.text.as_bytes()[from..];
        from + rest.iter().position(|&byte| !belongs(byte)).unwrap_or(rest.len())
    }

    fn advance(&mut self) -> Parsed<()> {
        self.blanks();
        self.column += self.text[self.counted..self.at].chars().count() as u32;
        self.counted = self.at;
        self.spot = Spot { line: self.line, column: self.column };
        let Some(&byte) = self.text.as_bytes().get(self.at) else {
            self.token = Token::End;
            return Ok(());
        };
        let start = self.at;
        self.token = match byte {
            b'_' | b'A'..=b'Z' | b'a'..=b'z' => {
                self.at = self.end_of(start, |b| b == b'_' || b.is_ascii_alphanumeric());
                Token::Name(&self.text[start..self.at])
            }
            b'!' | b'$' | b'&' | b'(' | b')' | b':' | b'=' | b'@' | b'[' | b']' | b'{' | b'|' | b'}' => {
                self.at += 1;
                Token::Punctuator(byte)
            }
            b'.' if self.text[start..].starts_with("...") => {
                self.at += 3;
                Token::Punctuator(b'.')
            }
            b'-' | b'0'..=b'9' => {
                self.at = self.end_of(start + 1, |b| b.is_ascii_digit());
                Token::Int(&self.text[start..self.at])
            }
            b'"' => {
                let mut end = start + 1;
                loop {
                    match self.text.as_bytes().get(end) {
                        Some(b'"') => break,
                        Some(b'\\') => end += 2,
                        Some(b'\n' | b'\r') | None => return Err(self.spot),
                        Some(_) => end += 1,
                    }
                }
                self.at = end + 1;
                Token::Quoted(&self.text[start + 1..end])
            }
            _ => return Err(self.spot),
        };
        Ok(())
    }

    fn is(&self, punctuator: u8) -> bool {
        matches!(self.token, Token::Punctuator(byte) if byte == punctuator)
    }

    fn is_word(&self, word: &str) -> bool {
        matches!(self.token, Token::Name(name) if name == word)
    }

    fn take(&mut self, punctuator: u8) -> Parsed<bool> {
        let is = self.is(punctuator);
        if is {
            self.advance()?;
        }
        Ok(is)
    }

    fn want(&mut self, punctuator: u8) -> Parsed<()> {
        if self.take(punctuator)? { Ok(()) } else { Err(self.spot) }
    }

    fn name(&mut self) -> Parsed<String> {
        let Token::Name(name) = self.token else { return Err(self.spot) };
        self.advance()?;
        Ok(name.to_owned())
    }

    fn document(&mut self) -> Parsed<Vec<Definition>> {
        let mut definitions = Vec::new();
        while !matches!(self.token, Token::End) {
            definitions.push(self.definition()?);
        }
        Ok(definitions)
    }

    fn definition(&mut self) -> Parsed<Definition> {
        if self.is_word("fragment") {
            return Ok(Definition::Fragment(self.fragment()?));
        }
        let spot = self.spot;
        if self.is(b'{') {
            let selections = self.selections()?;
            let operation = Operation { kind: Kind::Query, name: None, variables: Vec::new(), directives: Vec::new(), selections, spot };
            return Ok(Definition::Operation(operation));
        }
        let kind = match self.token {
            Token::Name("query") => Kind::Query,
            Token::Name("mutation") => Kind::Mutation,
            Token::Name("subscription") => Kind::Subscription,
            _ => return Err(spot),
        };
        self.advance()?;
        let name = if matches!(self.token, Token::Name(_)) { Some(self.name()?) } else { None };
        let variables = if self.is(b'(') { self.variables()? } else { Vec::new() };
        let directives = self.directives()?;
        let selections = self.selections()?;
        Ok(Definition::Operation(Operation { kind, name, variables, directives, selections, spot }))
    }

    fn fragment(&mut self) -> Parsed<Fragment> {
        self.advance()?;
        let spot = self.spot;
        let name = self.name()?;
        if !self.is_word("on") {
            return Err(self.spot);
        }
        self.advance()?;
        let condition = self.name()?;
        let directives = self.directives()?;
        let selections = self.selections()?;
        Ok(Fragment { name, condition, directives, selections, spot })
    }

    fn variables(&mut self) -> Parsed<Vec<Variable>> {
        self.want(b'(')?;
        let mut variables = Vec::new();
        loop {
            let spot = self.spot;
            self.want(b'$')?;
            let name = self.name()?;
            self.want(b':')?;
            let kind = self.type_in_use()?;
            let default = if self.take(b'=')? { Some(self.value()?) } else { None };
            let directives = self.directives()?;
            variables.push(Variable { name, kind, default, directives, spot });
            if self.take(b')')? {
                return Ok(variables);
            }
        }
    }

    fn type_in_use(&mut self) -> Parsed<Type> {
        let spot = self.spot;
        let inner = if self.take(b'[')? {
            let inner = self.type_in_use()?;
            self.want(b']')?;
            Type::List(Box::new(inner))
        } else {
            Type::Named(self.name()?, spot)
        };
        Ok(if self.take(b'!')? { Type::NonNull(Box::new(inner)) } else { inner })
    }

    fn selections(&mut self) -> Parsed<Vec<Selection>> {
        self.want(b'{')?;
        let mut selections = Vec::new();
        loop {
            selections.push(self.selection()?);
            if self.take(b'}')? {
                return Ok(selections);
            }
        }
    }

    fn selection(&mut self) -> Parsed<Selection> {
        if !self.is(b'.') {
            return Ok(Selection::Field(self.field()?));
        }
        let dots = self.spot;
        self.advance()?;
        let spot = self.spot;
        match self.token {
            Token::Name("on") => {
                self.advance()?;
                let spot = self.spot;
                let condition = self.name()?;
                Ok(Selection::Inline(Some(condition), self.directives()?, self.selections()?, spot))
            }
            Token::Name(_) => Ok(Selection::Spread(self.name()?, self.directives()?, spot)),
            _ => Ok(Selection::Inline(None, self.directives()?, self.selections()?, dots)),
        }
    }

    fn field(&mut self) -> Parsed<Field> {
        let spot = self.spot;
        let first = self.name()?;
        let (alias, name) = if self.take(b':')? { (Some(first), self.name()?) } else { (None, first) };
        let arguments = self.arguments()?;
        let directives = self.directives()?;
        let selections = if self.is(b'{') { self.selections()? } else { Vec::new() };
        Ok(Field { alias, name, arguments, directives, selections, spot })
    }

    fn arguments(&mut self) -> Parsed<Vec<Argument>> {
        let mut arguments = Vec::new();
        if self.take(b'(')? {
            loop {
                arguments.push(self.argument()?);
                if self.take(b')')? {
                    break;
                }
            }
        }
        Ok(arguments)
    }

    fn argument(&mut self) -> Parsed<Argument> {
        let spot = self.spot;
        let name = self.name()?;
        self.want(b':')?;
        Ok(Argument { name, value: self.value()?, spot })
    }

    fn directives(&mut self) -> Parsed<Vec<Directive>> {
        let mut directives = Vec::new();
        while self.is(b'@') {
            let spot = self.spot;
            self.advance()?;
            let name = self.name()?;
            directives.push(Directive { name, arguments: self.arguments()?, spot });
        }
        Ok(directives)
    }

    fn value(&mut self) -> Parsed<Value> {
        let spot = self.spot;
        let token = self.token;
        self.advance()?;
        match token {
            Token::Punctuator(b'$') => Ok(Value::Variable(self.name()?, spot)),
            Token::Int(text) => Ok(Value::Int(text.to_owned(), spot)),
            Token::Quoted(text) => Ok(Value::Text(unescaped(text), spot)),
            Token::Name(word) => Ok(Value::Word(word.to_owned(), spot)),
            Token::Punctuator(b'[') => {
                let mut values = Vec::new();
                while !self.take(b']')? {
                    values.push(self.value()?);
                }
                Ok(Value::List(values, spot))
            }
            Token::Punctuator(b'{') => {
                let mut fields = Vec::new();
                while !self.take(b'}')? {
                    fields.push(self.argument()?);
                }
                Ok(Value::Object(fields, spot))
            }
            _ => Err(spot),
        }
    }
}

fn unescaped(text: &str) -> String {
    if !text.contains('\\') {
        return text.to_owned();
    }
    let mut chars = text.chars();
    let mut value = String::with_capacity(text.len());
    while let Some(c) = chars.next() {
        if c != '\\' {
            value.push(c);
            continue;
        }
        match chars.next() {
            Some('b') => value.push('\u{8}'),
            Some('f') => value.push('\u{c}'),
            Some('n') => value.push('\n'),
            Some('r') => value.push('\r'),
            Some('t') => value.push('\t'),
            Some('u') => {
                let digits: String = chars.by_ref().take(4).collect();
                value.extend(u32::from_str_radix(&digits, 16).ok().and_then(char::from_u32));
            }
            Some(other) => value.push(other),
            None => {}
        }
    }
    value
}

fn main() -> Result<(), Box<dyn std::error::Error>> {
    let path = std::env::args().nth(1).ok_or("usage: rust_tree DOCUMENT")?;
    let text = std::fs::read_to_string(path)?;
    let until = Instant::now() + Duration::from_secs(1);
    let mut best = Duration::MAX;
    while Instant::now() < until {
        let start = Instant::now();
        let parsed = Parser::new(&text).and_then(|mut parser| parser.document());
        let document = parsed.map_err(|spot| format!("{}:{}", spot.line, spot.column))?;
        std::hint::black_box(&document);
        drop(document);
        best = best.min(start.elapsed());
    }
    println!("{:.2}", text.len() as f64 / best.as_secs_f64() / 1e6);
    Ok(())
}
