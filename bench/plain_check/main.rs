//! What `obl0 check` does before the opening, in plain Rust, with nothing proved of it: it scans a module, makes its tree, and checks that by the
//! rules of docs/LANGUAGE.md into a tree with places and words in the place of names: plain_check MODULE. It says `ok`, or the first fault on
//! standard error with status 1. A module's body is checked and not run, and no code is made.

#![allow(dead_code)]

use std::collections::HashMap;
use std::env;
use std::fs;
use std::hint::black_box;
use std::process::ExitCode;

use Sign::*;

const MOST_BYTES: usize = 65_536;
const MOST_WORDS: u32 = 4_096;
const MOST_FRAME: u32 = 1_024;
const MOST_NESTED: u32 = 100;

struct Fault(&'static str, usize);

type Done<T> = Result<T, Fault>;

// ---- tokens ----

#[derive(Clone, Copy, PartialEq, Eq)]
enum Sign {
    Module, Begin, End, Const, Type, Var, Procedure, Array, Of, Record, If, Then, Elsif, Else, While, Do, Repeat, Until, Div, Mod, Or,
    Becomes, Colon, AtMost, Less, AtLeast, Greater, Equal, Unequal, Plus, Minus, Times, And, Not, Dot, Comma, Semicolon, Open, Close, OpenIndex, CloseIndex,
}

#[derive(Clone, Copy, PartialEq, Eq)]
enum Token<'a> {
    Name(&'a str),
    Number(i32),
    /// A keyword or a symbol.
    Sign(Sign),
    End,
}

/// The tokens of a text, each with its place.
fn scanned(text: &str) -> Done<Vec<(Token<'_>, usize)>> {
    let bytes = text.as_bytes();
    let mut tokens = Vec::new();
    let mut at = 0;
    while at < bytes.len() {
        let rest = &bytes[at..];
        match rest[0] {
            b' ' | b'\t' | b'\r' | b'\n' => at += 1,
            b'(' if rest.get(1) == Some(&b'*') => at = comment_end(bytes, at)?,
            first if first.is_ascii_alphabetic() => {
                let length = rest.iter().take_while(|byte| byte.is_ascii_alphanumeric()).count();
                tokens.push((word(&text[at..at + length], at)?, at));
                at += length;
            }
            first if first.is_ascii_digit() => {
                let length = rest.iter().take_while(|byte| byte.is_ascii_digit()).count();
                tokens.push((Token::Number(text[at..at + length].parse().map_err(|_| Fault("S2", at))?), at));
                at += length;
            }
            _ => {
                let (symbol, length) = symbol(rest).ok_or(Fault("S1", at))?;
                tokens.push((Token::Sign(symbol), at));
                at += length;
            }
        }
    }
    tokens.push((Token::End, bytes.len()));
    Ok(tokens)
}

fn comment_end(bytes: &[u8], begin: usize) -> Done<usize> {
    let (mut open, mut at) = (1, begin + 2);
    while open > 0 {
        match bytes.get(at..at + 2) {
            Some(b"(*") => (open, at) = (open + 1, at + 2),
            Some(b"*)") => (open, at) = (open - 1, at + 2),
            Some(_) => at += 1,
            None => return Err(Fault("S3", begin)),
        }
    }
    Ok(at)
}

fn symbol(rest: &[u8]) -> Option<(Sign, usize)> {
    Some(match rest {
        [b':', b'=', ..] => (Becomes, 2),
        [b'<', b'=', ..] => (AtMost, 2),
        [b'>', b'=', ..] => (AtLeast, 2),
        [b':', ..] => (Colon, 1),
        [b'<', ..] => (Less, 1),
        [b'>', ..] => (Greater, 1),
        [b'=', ..] => (Equal, 1),
        [b'#', ..] => (Unequal, 1),
        [b'+', ..] => (Plus, 1),
        [b'-', ..] => (Minus, 1),
        [b'*', ..] => (Times, 1),
        [b'&', ..] => (And, 1),
        [b'~', ..] => (Not, 1),
        [b'.', ..] => (Dot, 1),
        [b',', ..] => (Comma, 1),
        [b';', ..] => (Semicolon, 1),
        [b'(', ..] => (Open, 1),
        [b')', ..] => (Close, 1),
        [b'[', ..] => (OpenIndex, 1),
        [b']', ..] => (CloseIndex, 1),
        _ => return None,
    })
}

fn word(word: &str, at: usize) -> Done<Token<'_>> {
    Ok(Token::Sign(match word {
        "MODULE" => Module,
        "BEGIN" => Begin,
        "END" => End,
        "CONST" => Const,
        "TYPE" => Type,
        "VAR" => Var,
        "PROCEDURE" => Procedure,
        "ARRAY" => Array,
        "OF" => Of,
        "RECORD" => Record,
        "IF" => If,
        "THEN" => Then,
        "ELSIF" => Elsif,
        "ELSE" => Else,
        "WHILE" => While,
        "DO" => Do,
        "REPEAT" => Repeat,
        "UNTIL" => Until,
        "DIV" => Div,
        "MOD" => Mod,
        "OR" => Or,
        _ if word.len() > 64 => return Err(Fault("S4", at)),
        _ => return Ok(Token::Name(word)),
    }))
}

// ---- the tree ----

#[derive(Clone, Copy)]
struct Named<'a> {
    name: &'a str,
    at: usize,
}

struct Declarations<'a> {
    constants: Vec<(Named<'a>, Expression<'a>)>,
    types: Vec<(Named<'a>, TypeText<'a>)>,
    variables: Vec<(Vec<Named<'a>>, TypeText<'a>)>,
    procedures: Vec<Procedure<'a>>,
}

struct Procedure<'a> {
    name: Named<'a>,
    is_exported: bool,
    sections: Vec<Section<'a>>,
    inner: Declarations<'a>,
    body: Vec<Statement<'a>>,
}

struct Section<'a> {
    is_var: bool,
    names: Vec<Named<'a>>,
    of: TypeText<'a>,
}

enum TypeText<'a> {
    Name(Named<'a>),
    Array { at: usize, length: Expression<'a>, of: Box<TypeText<'a>> },
    Record { at: usize, fields: Vec<(Vec<Named<'a>>, TypeText<'a>)> },
}

impl TypeText<'_> {
    fn at(&self) -> usize {
        match self {
            TypeText::Name(Named { at, .. }) | TypeText::Array { at, .. } | TypeText::Record { at, .. } => *at,
        }
    }
}

enum Statement<'a> {
    Assign { target: Designator<'a>, value: Expression<'a> },
    Call { procedure: Named<'a>, actuals: Vec<Expression<'a>> },
    If { branches: Vec<(Expression<'a>, Vec<Statement<'a>>)>, otherwise: Vec<Statement<'a>> },
    While { condition: Expression<'a>, body: Vec<Statement<'a>> },
    Repeat { body: Vec<Statement<'a>>, condition: Expression<'a> },
}

struct Designator<'a> {
    name: Named<'a>,
    selectors: Vec<(usize, Selector<'a>)>,
}

enum Selector<'a> {
    Field(Named<'a>),
    Index(Expression<'a>),
}

struct Expression<'a> {
    at: usize,
    kind: Kind<'a>,
}

enum Kind<'a> {
    ValueOf(Designator<'a>),
    Number(i32),
    Within(Box<Expression<'a>>),
    Negation(Box<Expression<'a>>),
    Signed { sign: Sign, of: Box<Expression<'a>> },
    Joined { left: Box<Expression<'a>>, operator: Sign, place: usize, right: Box<Expression<'a>> },
}

// ---- parsing ----

struct Parser<'a> {
    tokens: Vec<(Token<'a>, usize)>,
    next: usize,
    nested: u32,
}

const RELATIONS: &[Sign] = &[Equal, Unequal, Less, AtMost, Greater, AtLeast];
const SUMS: &[Sign] = &[Plus, Minus, Or];
const PRODUCTS: &[Sign] = &[Times, Div, Mod, And];

impl<'a> Parser<'a> {
    fn token(&self) -> Token<'a> {
        self.tokens[self.next].0
    }

    fn at(&self) -> usize {
        self.tokens[self.next].1
    }

    fn refused<T>(&self) -> Done<T> {
        Err(Fault("P1", self.at()))
    }

    /// Whether this sign comes next, which is taken then.
    fn takes(&mut self, sign: Sign) -> bool {
        let found = self.token() == Token::Sign(sign);
        self.next += usize::from(found);
        found
    }

    fn must(&mut self, sign: Sign) -> Done<()> {
        if self.takes(sign) { Ok(()) } else { self.refused() }
    }

    fn one_of(&mut self, signs: &[Sign]) -> Option<Sign> {
        match self.token() {
            Token::Sign(sign) if signs.contains(&sign) => {
                self.next += 1;
                Some(sign)
            }
            _ => None,
        }
    }

    fn name(&mut self) -> Done<Named<'a>> {
        let at = self.at();
        match self.token() {
            Token::Name(name) => {
                self.next += 1;
                Ok(Named { name, at })
            }
            _ => self.refused(),
        }
    }

    /// The name of a module or a procedure again.
    fn name_again(&mut self, name: Named<'a>) -> Done<()> {
        let again = self.name()?;
        if again.name == name.name { Ok(()) } else { Err(Fault("P3", again.at)) }
    }

    /// A construct within those that are open.
    fn within<T>(&mut self, at: usize, part: impl FnOnce(&mut Self) -> Done<T>) -> Done<T> {
        if self.nested == MOST_NESTED {
            return Err(Fault("P2", at));
        }
        self.nested += 1;
        let found = part(self)?;
        self.nested -= 1;
        Ok(found)
    }

    fn module(&mut self) -> Done<(Declarations<'a>, Vec<Statement<'a>>)> {
        self.must(Module)?;
        let name = self.name()?;
        self.must(Semicolon)?;
        let declarations = self.declarations()?;
        let body = self.body(name)?;
        self.must(Dot)?;
        if self.token() == Token::End { Ok((declarations, body)) } else { self.refused() }
    }

    fn body(&mut self, name: Named<'a>) -> Done<Vec<Statement<'a>>> {
        let body = if self.takes(Begin) { self.statements()? } else { Vec::new() };
        self.must(End)?;
        self.name_again(name)?;
        Ok(body)
    }

    fn declarations(&mut self) -> Done<Declarations<'a>> {
        let mut found = Declarations { constants: Vec::new(), types: Vec::new(), variables: Vec::new(), procedures: Vec::new() };
        if self.takes(Const) {
            while let Token::Name(_) = self.token() {
                let name = self.name()?;
                self.must(Equal)?;
                found.constants.push((name, self.expression()?));
                self.must(Semicolon)?;
            }
        }
        if self.takes(Type) {
            while let Token::Name(_) = self.token() {
                let name = self.name()?;
                self.must(Equal)?;
                found.types.push((name, self.type_text()?));
                self.must(Semicolon)?;
            }
        }
        if self.takes(Var) {
            while let Token::Name(_) = self.token() {
                found.variables.push(self.names_of_type()?);
                self.must(Semicolon)?;
            }
        }
        while self.token() == Token::Sign(Procedure) {
            let procedure = self.within(self.at(), Self::procedure)?;
            found.procedures.push(procedure);
            self.must(Semicolon)?;
        }
        Ok(found)
    }

    fn names_of_type(&mut self) -> Done<(Vec<Named<'a>>, TypeText<'a>)> {
        let mut names = vec![self.name()?];
        while self.takes(Comma) {
            names.push(self.name()?);
        }
        self.must(Colon)?;
        Ok((names, self.type_text()?))
    }

    fn procedure(&mut self) -> Done<Procedure<'a>> {
        self.must(Procedure)?;
        let name = self.name()?;
        let is_exported = self.takes(Times);
        let mut sections = Vec::new();
        if self.takes(Open) && !self.takes(Close) {
            loop {
                let is_var = self.takes(Var);
                let (names, of) = self.names_of_type()?;
                sections.push(Section { is_var, names, of });
                if !self.takes(Semicolon) {
                    break;
                }
            }
            self.must(Close)?;
        }
        self.must(Semicolon)?;
        let inner = self.declarations()?;
        let body = self.body(name)?;
        Ok(Procedure { name, is_exported, sections, inner, body })
    }

    fn type_text(&mut self) -> Done<TypeText<'a>> {
        let at = self.at();
        match self.token() {
            Token::Name(_) => Ok(TypeText::Name(self.name()?)),
            Token::Sign(Array) => self.within(at, |parser| {
                parser.next += 1;
                let length = parser.expression()?;
                parser.must(Of)?;
                Ok(TypeText::Array { at, length, of: Box::new(parser.type_text()?) })
            }),
            Token::Sign(Record) => self.within(at, |parser| {
                parser.next += 1;
                let mut fields = Vec::new();
                loop {
                    if let Token::Name(_) = parser.token() {
                        fields.push(parser.names_of_type()?);
                    }
                    if !parser.takes(Semicolon) {
                        break;
                    }
                }
                parser.must(End)?;
                Ok(TypeText::Record { at, fields })
            }),
            _ => self.refused(),
        }
    }

    fn statements(&mut self) -> Done<Vec<Statement<'a>>> {
        let mut found = Vec::new();
        loop {
            found.extend(self.statement()?);
            if !self.takes(Semicolon) {
                return Ok(found);
            }
        }
    }

    fn statement(&mut self) -> Done<Option<Statement<'a>>> {
        let at = self.at();
        Ok(Some(match self.token() {
            Token::Name(_) => self.assignment_or_call()?,
            Token::Sign(If) => self.within(at, Self::alternatives)?,
            Token::Sign(While) => self.within(at, |parser| {
                parser.next += 1;
                let condition = parser.expression()?;
                parser.must(Do)?;
                let body = parser.statements()?;
                parser.must(End)?;
                Ok(Statement::While { condition, body })
            })?,
            Token::Sign(Repeat) => self.within(at, |parser| {
                parser.next += 1;
                let body = parser.statements()?;
                parser.must(Until)?;
                Ok(Statement::Repeat { body, condition: parser.expression()? })
            })?,
            _ => return Ok(None),
        }))
    }

    fn assignment_or_call(&mut self) -> Done<Statement<'a>> {
        let target = self.designator()?;
        if self.takes(Becomes) {
            return Ok(Statement::Assign { target, value: self.expression()? });
        }
        if !target.selectors.is_empty() {
            return self.refused();
        }
        let mut actuals = Vec::new();
        if self.takes(Open) && !self.takes(Close) {
            actuals.push(self.expression()?);
            while self.takes(Comma) {
                actuals.push(self.expression()?);
            }
            self.must(Close)?;
        }
        Ok(Statement::Call { procedure: target.name, actuals })
    }

    fn alternatives(&mut self) -> Done<Statement<'a>> {
        let mut branches = Vec::new();
        while self.takes(If) || self.takes(Elsif) {
            let condition = self.expression()?;
            self.must(Then)?;
            branches.push((condition, self.statements()?));
            if self.token() != Token::Sign(Elsif) {
                break;
            }
        }
        let otherwise = if self.takes(Else) { self.statements()? } else { Vec::new() };
        self.must(End)?;
        Ok(Statement::If { branches, otherwise })
    }

    fn designator(&mut self) -> Done<Designator<'a>> {
        let name = self.name()?;
        let mut selectors = Vec::new();
        loop {
            let at = self.at();
            if self.takes(Dot) {
                selectors.push((at, Selector::Field(self.name()?)));
            } else if self.token() == Token::Sign(OpenIndex) {
                selectors.push((at, Selector::Index(self.within(at, |parser| {
                    parser.next += 1;
                    let index = parser.expression()?;
                    parser.must(CloseIndex)?;
                    Ok(index)
                })?)));
            } else {
                return Ok(Designator { name, selectors });
            }
        }
    }

    fn expression(&mut self) -> Done<Expression<'a>> {
        let left = self.sum()?;
        let place = self.at();
        match self.one_of(RELATIONS) {
            Some(operator) => Ok(joined(left, operator, place, self.sum()?)),
            None => Ok(left),
        }
    }

    fn sum(&mut self) -> Done<Expression<'a>> {
        let at = self.at();
        let sign = self.one_of(&[Plus, Minus]);
        let mut left = self.product()?;
        if let Some(sign) = sign {
            left = Expression { at, kind: Kind::Signed { sign, of: Box::new(left) } };
        }
        loop {
            let place = self.at();
            let Some(operator) = self.one_of(SUMS) else { return Ok(left) };
            left = joined(left, operator, place, self.product()?);
        }
    }

    fn product(&mut self) -> Done<Expression<'a>> {
        let mut left = self.factor()?;
        loop {
            let place = self.at();
            let Some(operator) = self.one_of(PRODUCTS) else { return Ok(left) };
            left = joined(left, operator, place, self.factor()?);
        }
    }

    fn factor(&mut self) -> Done<Expression<'a>> {
        let at = self.at();
        let kind = match self.token() {
            Token::Name(_) => Kind::ValueOf(self.designator()?),
            Token::Number(number) => {
                self.next += 1;
                Kind::Number(number)
            }
            Token::Sign(Open) => self.within(at, |parser| {
                parser.next += 1;
                let inner = parser.expression()?;
                parser.must(Close)?;
                Ok(Kind::Within(Box::new(inner)))
            })?,
            Token::Sign(Not) => self.within(at, |parser| {
                parser.next += 1;
                Ok(Kind::Negation(Box::new(parser.factor()?)))
            })?,
            _ => return self.refused(),
        };
        Ok(Expression { at, kind })
    }
}

fn joined<'a>(left: Expression<'a>, operator: Sign, place: usize, right: Expression<'a>) -> Expression<'a> {
    Expression { at: left.at, kind: Kind::Joined { left: Box::new(left), operator, place, right: Box::new(right) } }
}

// ---- types and names ----

type TypeId = u32;

const INTEGER: TypeId = 0;
const BOOLEAN: TypeId = 1;

enum Shape<'a> {
    Scalar,
    Array { length: u32, of: TypeId },
    Record { fields: HashMap<&'a str, (u32, TypeId)> },
}

struct Type<'a> {
    shape: Shape<'a>,
    words: u32,
    depth: u32,
}

#[derive(Clone, Copy, PartialEq, Eq)]
enum Value {
    Int(i32),
    Bool(bool),
}

impl Value {
    fn of(self) -> TypeId {
        match self {
            Value::Int(_) => INTEGER,
            Value::Bool(_) => BOOLEAN,
        }
    }
}

#[derive(Clone, Copy)]
enum Entry {
    Constant(Value),
    Type(TypeId),
    /// The depth of its procedure, 0 for the module, its word there, its type, and whether that word is a place.
    Variable { owner: u32, word: u32, of: TypeId, is_place: bool },
    Procedure(usize),
}

struct Heading {
    parameters: Vec<(bool, TypeId)>,
}

// ---- the tree with places ----

enum Code {
    Store { place: Place, value: Box<Checked> },
    Call { procedure: usize, actuals: Vec<Actual> },
    If { branches: Vec<(Checked, Vec<Code>)>, otherwise: Vec<Code> },
    While { condition: Checked, body: Vec<Code> },
    Repeat { body: Vec<Code>, condition: Checked },
}

enum Actual {
    Value(Checked),
    Place(Place),
}

struct Place {
    is_own: bool,
    is_place: bool,
    word: u32,
    parts: Vec<Part>,
}

enum Part {
    Offset(u32),
    Element { length: u32, words: u32, index: Checked },
}

enum Checked {
    Constant(Value),
    ValueOf(Place),
    Negation(Box<Checked>),
    Signed { sign: Sign, at: usize, of: Box<Checked> },
    Joined { left: Box<Checked>, operator: Sign, place: usize, right: Box<Checked> },
}

// ---- the rules ----

struct Checker<'a> {
    types: Vec<Type<'a>>,
    scopes: Vec<HashMap<&'a str, Entry>>,
    headings: Vec<Heading>,
    bodies: Vec<Vec<Code>>,
    /// The words of the module and of each procedure around.
    frames: Vec<u32>,
    exports: u32,
}

impl<'a> Checker<'a> {
    fn new() -> Checker<'a> {
        let scalar = || Type { shape: Shape::Scalar, words: 1, depth: 0 };
        let known = [
            ("INTEGER", Entry::Type(INTEGER)),
            ("BOOLEAN", Entry::Type(BOOLEAN)),
            ("TRUE", Entry::Constant(Value::Bool(true))),
            ("FALSE", Entry::Constant(Value::Bool(false))),
        ];
        Checker { types: vec![scalar(), scalar()], scopes: vec![HashMap::from(known)], headings: Vec::new(), bodies: Vec::new(), frames: Vec::new(), exports: 0 }
    }

    fn declare(&mut self, name: Named<'a>, entry: Entry) -> Done<()> {
        match self.scopes.last_mut().expect("a scope").insert(name.name, entry) {
            None => Ok(()),
            Some(_) => Err(Fault("C2", name.at)),
        }
    }

    fn entry(&self, name: Named<'a>) -> Done<Entry> {
        self.scopes.iter().rev().find_map(|scope| scope.get(name.name)).copied().ok_or(Fault("C1", name.at))
    }

    fn declarations(&mut self, declared: &Declarations<'a>) -> Done<()> {
        for (name, value) in &declared.constants {
            let value = self.constant(value)?;
            self.declare(*name, Entry::Constant(value))?;
        }
        for (name, text) in &declared.types {
            let of = self.type_of(text)?;
            self.declare(*name, Entry::Type(of))?;
        }
        for (names, text) in &declared.variables {
            let of = self.type_of(text)?;
            for name in names {
                self.variable(*name, of, false)?;
            }
        }
        declared.procedures.iter().try_for_each(|procedure| self.procedure(procedure))
    }

    fn variable(&mut self, name: Named<'a>, of: TypeId, is_place: bool) -> Done<()> {
        let owner = self.frames.len() as u32 - 1;
        let words = if is_place { 1 } else { self.types[of as usize].words };
        let frame = self.frames.last_mut().expect("a frame");
        let word = *frame;
        *frame += words;
        let most = if owner == 0 { MOST_WORDS } else { MOST_FRAME };
        let is_over = *frame > most;
        self.declare(name, Entry::Variable { owner, word, of, is_place })?;
        if is_over { Err(Fault("C9", name.at)) } else { Ok(()) }
    }

    fn type_of(&mut self, text: &TypeText<'a>) -> Done<TypeId> {
        let found = match text {
            TypeText::Name(name) => match self.entry(*name)? {
                Entry::Type(of) => return Ok(of),
                _ => return Err(Fault("C3", name.at)),
            },
            TypeText::Array { length, of, .. } => self.array_of(length, of)?,
            TypeText::Record { fields, .. } => self.record_of(fields)?,
        };
        if found.words > MOST_WORDS || found.depth > MOST_NESTED {
            return Err(Fault("C9", text.at()));
        }
        self.types.push(found);
        Ok(self.types.len() as u32 - 1)
    }

    fn array_of(&mut self, length: &Expression<'a>, of: &TypeText<'a>) -> Done<Type<'a>> {
        let count = match self.constant(length)? {
            Value::Bool(_) => return Err(Fault("C4", length.at)),
            Value::Int(count @ 1..=4096) => count as u32,
            Value::Int(_) => return Err(Fault("C6", length.at)),
        };
        let of = self.type_of(of)?;
        let inner = &self.types[of as usize];
        Ok(Type { words: count * inner.words, depth: inner.depth + 1, shape: Shape::Array { length: count, of } })
    }

    fn record_of(&mut self, sections: &[(Vec<Named<'a>>, TypeText<'a>)]) -> Done<Type<'a>> {
        let (mut fields, mut words, mut depth) = (HashMap::new(), 0, 0);
        for (names, text) in sections {
            let of = self.type_of(text)?;
            let inner = &self.types[of as usize];
            for name in names {
                if fields.insert(name.name, (words, of)).is_some() {
                    return Err(Fault("C2", name.at));
                }
                words = (words + inner.words).min(MOST_WORDS + 1);
            }
            depth = depth.max(inner.depth);
        }
        Ok(Type { words: words.max(1), depth: depth + 1, shape: Shape::Record { fields } })
    }

    fn procedure(&mut self, procedure: &Procedure<'a>) -> Done<()> {
        let name = procedure.name;
        let number = self.headings.len();
        self.declare(name, Entry::Procedure(number))?;
        if procedure.is_exported {
            self.exported(name)?;
        }
        self.headings.push(Heading { parameters: Vec::new() });
        self.bodies.push(Vec::new());
        self.scopes.push(HashMap::new());
        self.frames.push(0);
        self.parameters(number, &procedure.sections)?;
        let has_structure = self.headings[number].parameters.iter().any(|(_, of)| *of > BOOLEAN);
        if procedure.is_exported && has_structure {
            return Err(Fault("C10", name.at));
        }
        self.declarations(&procedure.inner)?;
        self.bodies[number] = self.statements(&procedure.body)?;
        self.frames.pop();
        self.scopes.pop();
        Ok(())
    }

    fn exported(&mut self, name: Named<'a>) -> Done<()> {
        self.exports += 1;
        match (self.frames.len(), self.exports) {
            (2.., _) => Err(Fault("C10", name.at)),
            (_, 65..) => Err(Fault("C9", name.at)),
            _ => Ok(()),
        }
    }

    fn parameters(&mut self, number: usize, sections: &[Section<'a>]) -> Done<()> {
        for section in sections {
            let TypeText::Name(_) = section.of else { return Err(Fault("C3", section.of.at())) };
            let of = self.type_of(&section.of)?;
            if !section.is_var && of > BOOLEAN {
                return Err(Fault("C4", section.of.at()));
            }
            for name in &section.names {
                self.variable(*name, of, section.is_var)?;
                let parameters = &mut self.headings[number].parameters;
                parameters.push((section.is_var, of));
                if parameters.len() > 8 {
                    return Err(Fault("C9", name.at));
                }
            }
        }
        Ok(())
    }

    fn statements(&mut self, statements: &[Statement<'a>]) -> Done<Vec<Code>> {
        statements.iter().map(|statement| self.statement(statement)).collect()
    }

    fn statement(&mut self, statement: &Statement<'a>) -> Done<Code> {
        Ok(match statement {
            Statement::Assign { target, value } => {
                let (place, of) = self.place(target)?;
                if of > BOOLEAN {
                    return Err(Fault("C4", target.name.at));
                }
                Code::Store { place, value: Box::new(self.expected(value, of)?) }
            }
            Statement::Call { procedure, actuals } => self.call(*procedure, actuals)?,
            Statement::If { branches, otherwise } => {
                let branch = |(condition, body): &(Expression<'a>, Vec<Statement<'a>>)| Ok((self.expected(condition, BOOLEAN)?, self.statements(body)?));
                Code::If { branches: branches.iter().map(branch).collect::<Done<_>>()?, otherwise: self.statements(otherwise)? }
            }
            Statement::While { condition, body } => Code::While { condition: self.expected(condition, BOOLEAN)?, body: self.statements(body)? },
            Statement::Repeat { body, condition } => Code::Repeat { body: self.statements(body)?, condition: self.expected(condition, BOOLEAN)? },
        })
    }

    fn call(&mut self, name: Named<'a>, actuals: &[Expression<'a>]) -> Done<Code> {
        let Entry::Procedure(procedure) = self.entry(name)? else { return Err(Fault("C3", name.at)) };
        if self.headings[procedure].parameters.len() != actuals.len() {
            return Err(Fault("C7", name.at));
        }
        let mut found = Vec::with_capacity(actuals.len());
        for (place, actual) in actuals.iter().enumerate() {
            let (is_var, of) = self.headings[procedure].parameters[place];
            found.push(if is_var { self.actual_place(actual, of)? } else { Actual::Value(self.expected(actual, of)?) });
        }
        Ok(Code::Call { procedure, actuals: found })
    }

    fn actual_place(&mut self, actual: &Expression<'a>, of: TypeId) -> Done<Actual> {
        let Kind::ValueOf(designator) = &actual.kind else { return Err(Fault("C7", actual.at)) };
        if let Entry::Constant(_) = self.entry(designator.name)? {
            return Err(Fault("C7", actual.at));
        }
        let (place, found) = self.place(designator)?;
        if found == of { Ok(Actual::Place(place)) } else { Err(Fault("C4", actual.at)) }
    }

    /// The place of a designator, and its type.
    fn place(&mut self, designator: &Designator<'a>) -> Done<(Place, TypeId)> {
        let name = designator.name;
        let Entry::Variable { owner, word, mut of, is_place } = self.entry(name)? else { return Err(Fault("C3", name.at)) };
        if owner > 0 && owner as usize + 1 != self.frames.len() {
            return Err(Fault("C8", name.at));
        }
        let mut parts = Vec::with_capacity(designator.selectors.len());
        for (at, selector) in &designator.selectors {
            let (part, inner) = match (&self.types[of as usize].shape, selector) {
                (Shape::Record { fields }, Selector::Field(name)) => {
                    let (offset, of) = *fields.get(name.name).ok_or(Fault("C1", name.at))?;
                    (Part::Offset(offset), of)
                }
                (Shape::Array { length, of }, Selector::Index(index)) => {
                    let (length, of) = (*length, *of);
                    let words = self.types[of as usize].words;
                    (Part::Element { length, words, index: self.expected(index, INTEGER)? }, of)
                }
                _ => return Err(Fault("C3", *at)),
            };
            parts.push(part);
            of = inner;
        }
        Ok((Place { is_own: owner > 0, is_place, word, parts }, of))
    }

    /// An expression that has to be of a type.
    fn expected(&mut self, expression: &Expression<'a>, of: TypeId) -> Done<Checked> {
        match self.expression(expression)? {
            (checked, found) if found == of => Ok(checked),
            _ => Err(Fault("C4", expression.at)),
        }
    }

    fn expression(&mut self, expression: &Expression<'a>) -> Done<(Checked, TypeId)> {
        Ok(match &expression.kind {
            Kind::Number(number) => (Checked::Constant(Value::Int(*number)), INTEGER),
            Kind::Within(inner) => self.expression(inner)?,
            Kind::ValueOf(designator) => {
                if let (Entry::Constant(value), true) = (self.entry(designator.name)?, designator.selectors.is_empty()) {
                    return Ok((Checked::Constant(value), value.of()));
                }
                let (place, of) = self.place(designator)?;
                if of > BOOLEAN {
                    return Err(Fault("C4", expression.at));
                }
                (Checked::ValueOf(place), of)
            }
            Kind::Negation(inner) => match self.expression(inner)? {
                (checked, BOOLEAN) => (Checked::Negation(Box::new(checked)), BOOLEAN),
                _ => return Err(Fault("C4", expression.at)),
            },
            Kind::Signed { sign, of } => match self.expression(of)? {
                (checked, INTEGER) => (Checked::Signed { sign: *sign, at: expression.at, of: Box::new(checked) }, INTEGER),
                _ => return Err(Fault("C4", expression.at)),
            },
            Kind::Joined { left, operator, place, right } => {
                let (left, right) = (self.expression(left)?, self.expression(right)?);
                let of = joined_type(*operator, left.1, right.1).ok_or(Fault("C4", *place))?;
                (Checked::Joined { left: Box::new(left.0), operator: *operator, place: *place, right: Box::new(right.0) }, of)
            }
        })
    }

    fn constant(&mut self, expression: &Expression<'a>) -> Done<Value> {
        variable_free(expression, self)?;
        computed(&self.expression(expression)?.0)
    }
}

/// The type that an operator gives of two types, where it takes them.
fn joined_type(operator: Sign, left: TypeId, right: TypeId) -> Option<TypeId> {
    let (takes, gives) = match operator {
        And | Or => (BOOLEAN, BOOLEAN),
        Equal | Unequal => (left, BOOLEAN),
        Less | AtMost | Greater | AtLeast => (INTEGER, BOOLEAN),
        _ => (INTEGER, INTEGER),
    };
    (left == takes && right == takes).then_some(gives)
}

/// The first variable of a constant is its fault.
fn variable_free<'a>(expression: &Expression<'a>, checker: &Checker<'a>) -> Done<()> {
    match &expression.kind {
        Kind::Number(_) => Ok(()),
        Kind::ValueOf(designator) => match checker.entry(designator.name)? {
            Entry::Variable { .. } => Err(Fault("C5", designator.name.at)),
            _ => Ok(()),
        },
        Kind::Within(inner) | Kind::Negation(inner) | Kind::Signed { of: inner, .. } => variable_free(inner, checker),
        Kind::Joined { left, right, .. } => variable_free(left, checker).and_then(|()| variable_free(right, checker)),
    }
}

/// The value of a constant.
fn computed(checked: &Checked) -> Done<Value> {
    Ok(match checked {
        Checked::Constant(value) => *value,
        Checked::ValueOf(_) => unreachable!("a constant has no variable"),
        Checked::Negation(inner) => Value::Bool(computed(inner)? == Value::Bool(false)),
        Checked::Signed { sign, at, of } => match computed(of)? {
            Value::Int(number) if *sign == Minus => Value::Int(number.checked_neg().ok_or(Fault("C5", *at))?),
            value => value,
        },
        Checked::Joined { left, operator, place, right } => match (computed(left)?, operator) {
            (Value::Bool(false), And) => Value::Bool(false),
            (Value::Bool(true), Or) => Value::Bool(true),
            (left, _) => applied(*operator, left, computed(right)?).ok_or(Fault("C5", *place))?,
        },
    })
}

fn applied(operator: Sign, left: Value, right: Value) -> Option<Value> {
    let (x, y) = match (left, right) {
        (Value::Int(x), Value::Int(y)) => (x, y),
        _ => return Some(if matches!(operator, And | Or) { right } else { Value::Bool((left == right) == (operator == Equal)) }),
    };
    Some(match operator {
        Plus => Value::Int(x.checked_add(y)?),
        Minus => Value::Int(x.checked_sub(y)?),
        Times => Value::Int(x.checked_mul(y)?),
        Div if y > 0 => Value::Int(x.div_euclid(y)),
        Mod if y > 0 => Value::Int(x.rem_euclid(y)),
        Equal => Value::Bool(x == y),
        Unequal => Value::Bool(x != y),
        Less => Value::Bool(x < y),
        AtMost => Value::Bool(x <= y),
        Greater => Value::Bool(x > y),
        AtLeast => Value::Bool(x >= y),
        _ => return None,
    })
}

fn checked(text: &[u8]) -> Done<()> {
    if text.len() > MOST_BYTES {
        return Err(Fault("S5", MOST_BYTES));
    }
    let text = std::str::from_utf8(text).map_err(|fault| Fault("S1", fault.valid_up_to()))?;
    let mut parser = Parser { tokens: scanned(text)?, next: 0, nested: 0 };
    let (declarations, body) = parser.module()?;
    let mut checker = Checker::new();
    checker.scopes.push(HashMap::new());
    checker.frames.push(0);
    checker.declarations(&declarations)?;
    let opening = checker.statements(&body)?;
    black_box((&opening, &checker.bodies));
    Ok(())
}

fn main() -> ExitCode {
    let name = env::args().nth(1).expect("the word is: MODULE");
    match checked(&fs::read(name).expect("a file")) {
        Ok(()) => println!("ok"),
        Err(Fault(fault, place)) => {
            eprintln!("{fault} at {place}");
            return ExitCode::FAILURE;
        }
    }
    ExitCode::SUCCESS
}
