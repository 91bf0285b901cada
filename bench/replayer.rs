//! Replays in plain Rust, to compare with: `replayer TEXT CHOICES STEPS` does what `dcc replay` does with these words.
//!
//! It takes the texts of docs/GOTO_TEXT.md by the same forms and the same rules, and gives the same reports, refusals and
//! statuses. An instruction or an expression that no bench has is answered by `not in this program` and status 2, and
//! choices are refused without a reason. `rustc --edition 2024 -O` compiles it.

use std::borrow::Cow;
use std::collections::HashMap;
use std::io::{Write, stdout};
use std::process::{ExitCode, exit};
use std::{env, fs, iter, mem, str};

const TEXT_LIMIT: usize = 134_217_728;
const CHOICES_LIMIT: usize = 67_108_864;
const NAMES_LIMIT: usize = 32_767;
const OBJECTS_LIMIT: usize = 65_535;
const SIZE_LIMIT: u64 = 16_777_216;
const DEPTH_LIMIT: usize = 1_024;
const HEIGHT_LIMIT: u32 = 1_024;

/// An enum whose variants stand as words in a text.
macro_rules! words {
    ($name:ident: $($variant:ident $word:literal)*) => {
        #[derive(Clone, Copy, PartialEq)]
        enum $name {
            $($variant,)*
        }

        impl $name {
            fn of(word: &[u8]) -> Option<$name> {
                match word {
                    $($word => Some($name::$variant),)*
                    _ => None,
                }
            }
        }
    };
}

words! { Kind:
    Bool b"bool" S8 b"s8" U8 b"u8" S16 b"s16" U16 b"u16" S32 b"s32" U32 b"u32" S64 b"s64" U64 b"u64" Ptr b"ptr"
}

words! { Operator:
    Add b"add" Sub b"sub" Mul b"mul" Div b"div" Rem b"rem" Shl b"shl" Shr b"shr" And b"and" Or b"or" Xor b"xor"
    Lt b"lt" Le b"le" Gt b"gt" Ge b"ge" Eq b"eq" Ne b"ne"
}

impl Kind {
    fn bits(self) -> u32 {
        match self {
            Kind::Bool => 1,
            Kind::S8 | Kind::U8 => 8,
            Kind::S16 | Kind::U16 => 16,
            Kind::S32 | Kind::U32 => 32,
            Kind::S64 | Kind::U64 | Kind::Ptr => 64,
        }
    }

    fn size(self) -> usize {
        self.bits().div_ceil(8) as usize
    }

    /// The number as a value of the kind.
    fn convert(self, z: i128) -> i128 {
        match self {
            Kind::Bool => (z != 0) as i128,
            Kind::S8 => z as i8 as i128,
            Kind::U8 => z as u8 as i128,
            Kind::S16 => z as i16 as i128,
            Kind::U16 => z as u16 as i128,
            Kind::S32 => z as i32 as i128,
            Kind::U32 => z as u32 as i128,
            Kind::S64 => z as i64 as i128,
            Kind::U64 | Kind::Ptr => z as u64 as i128,
        }
    }

    /// What an operator gives: an unsigned result wraps, and a signed one has to fit.
    fn settle(self, z: i128) -> Option<i128> {
        match self {
            Kind::S8 | Kind::S16 | Kind::S32 | Kind::S64 => (self.convert(z) == z).then_some(z),
            Kind::Bool => Some(z & 1),
            _ => Some(self.convert(z)),
        }
    }
}

impl Operator {
    fn is_equality(self) -> bool {
        matches!(self, Operator::Eq | Operator::Ne)
    }

    fn compares(self) -> bool {
        self.is_equality() || matches!(self, Operator::Lt | Operator::Le | Operator::Gt | Operator::Ge)
    }

    /// What the operator makes of two numbers, which are converted to the kind, but for the count of a shift.
    fn apply(self, kind: Kind, a: i128, b: i128) -> Option<i128> {
        let a = kind.convert(a);
        if matches!(self, Operator::Shl | Operator::Shr) {
            let count = u32::try_from(b).ok().filter(|count| *count < kind.bits())?;
            return match self {
                Operator::Shr => Some(a >> count),
                _ if a < 0 => None,
                _ => kind.settle(a << count),
            };
        }
        let b = kind.convert(b);
        match self {
            Operator::Add => kind.settle(a + b),
            Operator::Sub => kind.settle(a - b),
            Operator::Mul => kind.settle(a.wrapping_mul(b)),
            Operator::Div => kind.settle(a.checked_div(b)?),
            Operator::Rem => kind.settle(a.checked_div(b)?).map(|_| a % b),
            Operator::And => Some(a & b),
            Operator::Or => Some(a | b),
            Operator::Xor => Some(a ^ b),
            Operator::Lt => Some((a < b) as i128),
            Operator::Le => Some((a <= b) as i128),
            Operator::Gt => Some((a > b) as i128),
            Operator::Ge => Some((a >= b) as i128),
            Operator::Eq => Some((a == b) as i128),
            Operator::Ne => Some((a != b) as i128),
            Operator::Shl | Operator::Shr => None,
        }
    }
}

enum Term {
    Constant(Kind, i128),
    Register(u64),
    Object(u64),
    Load(Kind, Box<Term>),
    Convert(Kind, Kind, Box<Term>),
    Binary(Operator, Kind, Box<Term>, Box<Term>),
    Both(Box<Term>, Box<Term>),
    Moved(u64, Box<Term>, Box<Term>),
}

enum Instr {
    Set(u64, Term),
    Draw(u64, Kind),
    Store(Kind, Term, Term),
    Init(Kind, Term, Term),
    Local(u64, u64),
    Trap,
    Goto(u64),
    IfNot(Term, u64),
    /// The number of the function, where its name is listed.
    Call(Option<u64>, Option<usize>, Vec<Term>),
    Return(Option<Term>),
    Assert(Vec<u8>, Term),
    Check(Vec<u8>, Term),
    Assume(Term),
    Require(Term),
    Push,
    Pop,
    /// Its tag is for `inside` alone.
    Range(Term, Term, Term),
    Covers(Vec<u8>, Term, Term),
    Seen,
    Statics,
    OutsideObjects,
}

struct Function {
    name: Vec<u8>,
    result: Option<Kind>,
    params: Vec<Kind>,
    body: Option<usize>,
}

struct Body {
    name: Vec<u8>,
    registers: u64,
    code: Vec<Instr>,
}

#[derive(Default)]
struct Program {
    functions: Vec<Function>,
    sizes: Vec<u64>,
    bodies: Vec<Body>,
}

/// Functions and variables: the number of each by its name, from 0 in their order.
type Names<'t> = HashMap<&'t [u8], usize>;

/// Ends the program at what it doesn't have.
fn absent() -> ! {
    eprintln!("not in this program");
    exit(2)
}

fn is_plain(digits: &[u8]) -> bool {
    !digits.is_empty() && (digits.len() == 1 || digits[0] != b'0')
}

/// The number below 2^64 that the word spells.
fn number_of(word: &[u8]) -> Option<u64> {
    if !is_plain(word) {
        return None;
    }
    word.iter().try_fold(0u64, |number, byte| {
        let digit = byte.wrapping_sub(b'0');
        if digit > 9 { None } else { number.checked_mul(10)?.checked_add(digit as u64) }
    })
}

/// The number from -2^127 to 2^127 - 1 that the word spells.
fn constant_of(word: &[u8]) -> Option<i128> {
    let digits = word.strip_prefix(b"-").unwrap_or(word);
    let is_negative = digits.len() < word.len();
    match number_of(digits) {
        Some(magnitude) if is_negative => (magnitude != 0).then_some(-(magnitude as i128)),
        Some(magnitude) => Some(magnitude as i128),
        None if is_plain(digits) && digits.iter().all(u8::is_ascii_digit) => str::from_utf8(word).ok()?.parse().ok(),
        None => None,
    }
}

fn is_word_byte(byte: &u8) -> bool {
    byte.is_ascii_alphanumeric() || *byte == b'_'
}

fn is_name(word: &[u8]) -> bool {
    !word.is_empty() && !word[0].is_ascii_digit() && word.iter().all(is_word_byte)
}

fn is_check_name(word: &[u8]) -> bool {
    !word.is_empty() && word.iter().all(|byte| is_word_byte(byte) || *byte == b'.')
}

enum Line<'t> {
    Version,
    Function(&'t [u8], Option<Kind>, Vec<Kind>),
    Static(&'t [u8], u64),
    Body(&'t [u8], u64, u64),
    Instruction(Instr),
    End,
}

/// What is left of a text. A call gives none where the bytes in front aren't of the form.
struct Reader<'t> {
    rest: &'t [u8],
}

impl<'t> Reader<'t> {
    fn take(&mut self, byte: u8) -> Option<()> {
        let (first, rest) = self.rest.split_first()?;
        if *first != byte {
            return None;
        }
        self.rest = rest;
        Some(())
    }

    fn is_at_blank(&self) -> bool {
        self.rest.first() == Some(&b' ')
    }

    /// The word in front, which may be empty.
    fn first_word(&mut self) -> &'t [u8] {
        let end = self.rest.iter().position(|byte| matches!(byte, b' ' | b')' | b'\n')).unwrap_or(self.rest.len());
        let (word, rest) = self.rest.split_at(end);
        self.rest = rest;
        word
    }

    /// The word behind a blank.
    fn word(&mut self) -> Option<&'t [u8]> {
        self.take(b' ')?;
        Some(self.first_word())
    }

    fn number(&mut self) -> Option<u64> {
        number_of(self.word()?)
    }

    fn kind(&mut self) -> Option<Kind> {
        Kind::of(self.word()?)
    }

    fn name(&mut self) -> Option<&'t [u8]> {
        self.word().filter(|word| is_name(word))
    }

    fn check(&mut self) -> Option<Vec<u8>> {
        self.word().filter(|word| is_check_name(word)).map(<[u8]>::to_vec)
    }

    /// The expression of at most that height.
    fn term_within(&mut self, height: u32) -> Option<Term> {
        if height == 0 {
            return None;
        }
        self.take(b'(')?;
        let part = |reader: &mut Self| {
            reader.take(b' ')?;
            reader.term_within(height - 1).map(Box::new)
        };
        let term = match self.first_word() {
            b"reg" => Term::Register(self.number()?),
            b"obj" => Term::Object(self.number()?),
            b"load" => Term::Load(self.kind()?, part(self)?),
            b"conv" => Term::Convert(self.kind()?, self.kind()?, part(self)?),
            b"and2" => Term::Both(part(self)?, part(self)?),
            b"at" => Term::Moved(self.number()?, part(self)?, part(self)?),
            b"neg" | b"not" | b"or2" | b"if" | b"var" | b"diff" | b"start" | b"size" | b"offset" | b"ok" => absent(),
            b"freeable" | b"freed" | b"fresh" | b"new" | b"inrange" | b"forall" | b"exists" => absent(),
            word => match Operator::of(word) {
                Some(operator) => Term::Binary(operator, self.kind()?, part(self)?, part(self)?),
                None => Term::Constant(Kind::of(word)?, constant_of(self.word()?)?),
            },
        };
        self.take(b')')?;
        Some(term)
    }

    fn term(&mut self) -> Option<Term> {
        self.take(b' ')?;
        self.term_within(HEIGHT_LIMIT)
    }

    /// As many as stand there, each behind a blank.
    fn many<T>(&mut self, one: impl Fn(&mut Self) -> Option<T>) -> Option<Vec<T>> {
        let mut all = Vec::new();
        while self.is_at_blank() {
            all.push(one(self)?);
        }
        Some(all)
    }

    fn instruction(&mut self, word: &[u8], names: &Names) -> Option<Instr> {
        Some(match word {
            b"set" => Instr::Set(self.number()?, self.term()?),
            b"draw" => Instr::Draw(self.number()?, self.kind()?),
            b"store" => Instr::Store(self.kind()?, self.term()?, self.term()?),
            b"init" => Instr::Init(self.kind()?, self.term()?, self.term()?),
            b"local" => {
                let local = Instr::Local(self.number()?, self.number()?);
                match self.word()? {
                    b"zero" => local,
                    b"chosen" => absent(),
                    _ => return None,
                }
            }
            b"trap" => Instr::Trap,
            b"goto" => Instr::Goto(self.number()?),
            b"ifnot" => Instr::IfNot(self.term()?, self.number()?),
            b"call" => {
                let register = match self.word()? {
                    b"-" => None,
                    word => Some(number_of(word)?),
                };
                Instr::Call(register, names.get(self.name()?).copied(), self.many(Self::term)?)
            }
            b"return" if self.is_at_blank() => Instr::Return(Some(self.term()?)),
            b"return" => Instr::Return(None),
            b"assert" => Instr::Assert(self.check()?, self.term()?),
            b"check" => Instr::Check(self.check()?, self.term()?),
            b"assume" => Instr::Assume(self.term()?),
            b"require" => Instr::Require(self.term()?),
            b"push" => Instr::Push,
            b"pop" => Instr::Pop,
            b"range" => {
                self.number()?;
                Instr::Range(self.term()?, self.term()?, self.term()?)
            }
            b"covers" => Instr::Covers(self.check()?, self.term()?, self.term()?),
            b"seen" => Instr::Seen,
            b"statics" => Instr::Statics,
            b"objects" => match self.word()? {
                b"4" => Instr::OutsideObjects,
                b"3" => absent(),
                _ => return None,
            },
            b"keep" | b"copy" | b"fill" | b"probe" | b"kill" | b"alloc" | b"free" | b"callp" | b"target" => absent(),
            b"mayfree" | b"inside" | b"havoc" | b"frees" => absent(),
            _ => return None,
        })
    }

    fn line(&mut self, names: &Names) -> Option<Line<'t>> {
        let line = match self.first_word() {
            b"dcc" if self.word()? == b"1" => Line::Version,
            b"function" => {
                let name = self.name()?;
                let result = match self.word()? {
                    b"void" => None,
                    word => Some(Kind::of(word)?),
                };
                Line::Function(name, result, self.many(Self::kind)?)
            }
            b"static" => Line::Static(self.name()?, self.number()?),
            b"body" => {
                let name = self.word().filter(|word| is_name(word) || *word == b".start")?;
                Line::Body(name, self.number()?, self.number()?)
            }
            b"end" => Line::End,
            word => Line::Instruction(self.instruction(word, names)?),
        };
        self.take(b'\n')?;
        Some(line)
    }
}

fn is_size(size: u64) -> bool {
    (1..=SIZE_LIMIT).contains(&size)
}

/// What the rules for instructions ask of the body that they stand in.
struct Scope<'p> {
    functions: &'p [Function],
    function: Option<&'p Function>,
    objects: u64,
    body: &'p Body,
}

impl Scope<'_> {
    fn has(&self, register: u64) -> bool {
        register < self.body.registers
    }

    fn allows_place(&self, place: u64) -> bool {
        place < self.body.code.len() as u64
    }

    fn allows(&self, term: &Term) -> bool {
        match term {
            Term::Constant(kind, z) => kind.convert(*z) == *z,
            Term::Register(register) => self.has(*register),
            Term::Object(number) => *number <= self.objects,
            Term::Load(_, a) | Term::Convert(_, _, a) => self.allows(a),
            Term::Binary(operator, Kind::Ptr, ..) if !operator.compares() => false,
            Term::Moved(size, ..) if !is_size(*size) => false,
            Term::Binary(_, _, a, b) | Term::Both(a, b) | Term::Moved(_, a, b) => self.allows(a) && self.allows(b),
        }
    }

    fn allows_call(&self, register: Option<u64>, function: Option<usize>, arguments: &[Term]) -> bool {
        let Some(function) = function.and_then(|number| self.functions.get(number)) else {
            return false;
        };
        arguments.len() == function.params.len()
            && register.is_none_or(|register| function.result.is_some() && self.has(register))
            && arguments.iter().all(|argument| self.allows(argument))
    }

    fn allows_instr(&self, instr: &Instr) -> bool {
        match instr {
            Instr::Set(register, a) => self.has(*register) && self.allows(a),
            Instr::Draw(register, _) => self.has(*register),
            Instr::Store(_, a, b) | Instr::Init(_, a, b) | Instr::Covers(_, a, b) => self.allows(a) && self.allows(b),
            Instr::Local(register, size) => self.has(*register) && is_size(*size),
            Instr::Goto(place) => self.allows_place(*place),
            Instr::IfNot(a, place) => self.allows(a) && self.allows_place(*place),
            Instr::Call(register, function, arguments) => self.allows_call(*register, *function, arguments),
            Instr::Return(value) => {
                self.function.is_none_or(|function| function.result.is_some() == value.is_some())
                    && value.as_ref().is_none_or(|value| self.allows(value))
            }
            Instr::Assert(_, a) | Instr::Check(_, a) | Instr::Assume(a) | Instr::Require(a) => self.allows(a),
            Instr::Range(a, b, c) => self.allows(a) && self.allows(b) && self.allows(c),
            _ => true,
        }
    }

    /// The place of the first instruction that breaks a rule. The last one has to leave the body.
    fn first_broken(&self) -> Option<usize> {
        let code = &self.body.code;
        code.iter().enumerate().position(|(place, instr)| {
            let leaves = matches!(instr, Instr::Return(_) | Instr::Goto(_) | Instr::Trap);
            !leaves && place + 1 == code.len() || !self.allows_instr(instr)
        })
    }
}

#[derive(Clone, Copy, PartialEq)]
enum Sort {
    Version,
    Function,
    Static,
    Body,
    Instruction,
    End,
}

/// What the lines so far make.
#[derive(Default)]
struct Scan<'t> {
    program: Program,
    names: Names<'t>,
    /// The sort of the last line.
    before: Option<Sort>,
    /// The number of the last body's function, which is behind all functions for the start.
    last: Option<usize>,
    lines: usize,
}

impl<'t> Scan<'t> {
    /// One more name of a function or a variable, if it may be one.
    fn name(&mut self, name: &'t [u8]) -> bool {
        let number = self.names.len();
        number < NAMES_LIMIT && self.names.insert(name, number).is_none()
    }

    /// Begins a body, if it may begin.
    fn open(&mut self, name: &'t [u8], params: u64, registers: u64) -> bool {
        let count = self.program.functions.len();
        let number = match self.names.get(name) {
            Some(number) if *number < count => *number,
            _ if name == b".start" => count,
            _ => return false,
        };
        let function = self.program.functions.get_mut(number);
        if self.last.is_some_and(|last| last >= number)
            || params != function.as_ref().map_or(0, |function| function.params.len() as u64)
            || params > registers
        {
            return false;
        }
        if let Some(function) = function {
            function.body = Some(self.program.bodies.len());
        }
        self.last = Some(number);
        self.program.bodies.push(Body { name: name.to_vec(), registers, code: Vec::new() });
        true
    }

    /// Judges the instructions of the last body, which are the last lines. An error is the line of the first that breaks a
    /// rule.
    fn close(&self) -> Result<(), usize> {
        let (Some(Sort::Instruction), Some(body), Some(last)) = (self.before, self.program.bodies.last(), self.last)
        else {
            return Ok(());
        };
        let functions = &self.program.functions;
        let scope = Scope { functions, function: functions.get(last), objects: self.names.len() as u64, body };
        scope.first_broken().map_or(Ok(()), |place| Err(self.lines - body.code.len() + 1 + place))
    }

    /// Whether a line may stand behind the last one.
    fn may_follow(&self, sort: Sort) -> bool {
        match self.before {
            None => sort == Sort::Version,
            Some(Sort::Version | Sort::Function) => matches!(sort, Sort::Function | Sort::Static | Sort::Body),
            Some(Sort::Static) => matches!(sort, Sort::Static | Sort::Body),
            Some(Sort::Body) => sort == Sort::Instruction,
            Some(Sort::Instruction) => matches!(sort, Sort::Instruction | Sort::End),
            Some(Sort::End) => sort == Sort::Body,
        }
    }

    /// Adds one more line. An error is the number of the first line that breaks a rule.
    fn add(&mut self, line: Line<'t>) -> Result<(), usize> {
        let sort = match line {
            Line::Version => Sort::Version,
            Line::Function(..) => Sort::Function,
            Line::Static(..) => Sort::Static,
            Line::Body(..) => Sort::Body,
            Line::Instruction(_) => Sort::Instruction,
            Line::End => Sort::End,
        };
        if sort != Sort::Instruction {
            self.close()?;
        }
        self.lines += 1;
        if !self.may_follow(sort) {
            return Err(self.lines);
        }
        self.before = Some(sort);
        let keeps = match line {
            Line::Version | Line::End => true,
            Line::Function(name, result, params) => {
                self.program.functions.push(Function { name: name.to_vec(), result, params, body: None });
                self.name(name)
            }
            Line::Static(name, size) => {
                self.program.sizes.push(size);
                self.name(name) && is_size(size)
            }
            Line::Body(name, params, registers) => self.open(name, params, registers),
            Line::Instruction(instr) => self.program.bodies.last_mut().map(|body| body.code.push(instr)).is_some(),
        };
        if keeps { Ok(()) } else { Err(self.lines) }
    }

    /// The program, if nothing is missing.
    fn end(self) -> Result<Program, usize> {
        self.close()?;
        if self.before == Some(Sort::End) && self.last == Some(self.program.functions.len()) {
            Ok(self.program)
        } else {
            Err(self.lines + 1)
        }
    }
}

/// Why there is no report: the status, and the line that says it.
type Refusal = (u8, String);

/// The program of a text. A line without a form is told before any line that breaks a rule.
fn scan(text: &[u8]) -> Result<Program, Refusal> {
    let mut reader = Reader { rest: text };
    let mut scan = Scan::default();
    let mut kept = Ok(());
    let mut lines = 0;
    while !reader.rest.is_empty() {
        lines += 1;
        let line = reader.line(&scan.names).ok_or_else(|| (4, format!("text line {lines}")))?;
        kept = kept.and_then(|()| scan.add(line));
    }
    kept.and_then(|()| scan.end()).map_err(|line| (4, format!("text shape {line}")))
}

/// No instruction and no expression of this program asks what else an object is.
struct Object {
    live: bool,
    bytes: Vec<u8>,
}

fn object_number(pointer: u64) -> u64 {
    pointer >> 48
}

fn offset(pointer: u64) -> u64 {
    pointer & ((1 << 48) - 1)
}

fn start_of(object: u64) -> i128 {
    (object as i128) << 48
}

struct Memory {
    objects: Vec<Object>,
}

impl Memory {
    /// The live object that a pointer is into.
    fn object(&self, pointer: u64) -> Option<&Object> {
        self.objects.get((object_number(pointer) as usize).wrapping_sub(1)).filter(|object| object.live)
    }

    fn bytes(&self, pointer: u64, len: u64) -> Option<&[u8]> {
        let from = offset(pointer) as usize;
        self.object(pointer)?.bytes.get(from..from.checked_add(len as usize)?)
    }

    fn is_inside(&self, pointer: u64, len: u64) -> bool {
        self.bytes(pointer, len).is_some()
    }

    fn load(&self, pointer: u64, kind: Kind) -> Option<i128> {
        let bytes = self.bytes(pointer, kind.size() as u64)?;
        let mut whole = [0; 8];
        whole[..bytes.len()].copy_from_slice(bytes);
        Some(kind.convert(u64::from_le_bytes(whole) as i128))
    }

    fn store(&mut self, pointer: u64, kind: Kind, value: i128) -> Option<()> {
        let (from, len) = (offset(pointer) as usize, kind.size());
        let object = self.objects.get_mut((object_number(pointer) as usize).wrapping_sub(1))?;
        let bytes = object.bytes.get_mut(from..from + len).filter(|_| object.live)?;
        bytes.copy_from_slice(&kind.convert(value).to_le_bytes()[..len]);
        Some(())
    }

    /// The pointer, moved within its live object, its end included.
    fn moved(&self, size: u64, pointer: u64, count: i128) -> Option<i128> {
        let room = self.object(pointer).filter(|_| self.is_inside(pointer, 0))?.bytes.len();
        let bytes = count.checked_mul(size as i128)?;
        let place = bytes.checked_add(offset(pointer) as i128)?;
        (0..=room as i128).contains(&place).then_some(pointer as i128 + bytes)
    }

    fn are_together(&self, p: u64, q: u64) -> bool {
        object_number(p) == object_number(q) && self.is_inside(p, 0) && self.is_inside(q, 0)
    }

    fn push(&mut self, live: bool, bytes: Vec<u8>) {
        self.objects.push(Object { live, bytes });
    }
}

struct Range {
    object: u64,
    from: u64,
    len: u64,
}

struct WriteSet {
    mark: u64,
    ranges: Vec<Range>,
}

impl WriteSet {
    fn allows(&self, object: u64, from: u64, len: u64) -> bool {
        let has = |range: &Range| range.object == object && range.from <= from && from + len <= range.from + range.len;
        self.mark < object || self.ranges.iter().any(has)
    }
}

/// The registers of a body, up to the highest one that was written. The others hold 0.
struct Registers {
    written: Vec<Option<i128>>,
}

impl Registers {
    fn held(&self, register: u64) -> Option<i128> {
        self.written.get(register as usize).copied().unwrap_or(Some(0))
    }

    fn put(&mut self, register: u64, value: i128) {
        let register = register as usize;
        if register >= self.written.len() {
            self.written.resize(register + 1, Some(0));
        }
        self.written[register] = Some(value);
    }
}

struct Frame {
    body: usize,
    place: usize,
    registers: Registers,
    locals: Vec<u64>,
    result: Option<u64>,
}

/// How a run ended, as the report says it.
type End = Cow<'static, str>;

/// An end with the name of a function.
fn named(word: &str, name: &[u8]) -> End {
    format!("{word} {}", String::from_utf8_lossy(name)).into()
}

#[derive(Default)]
struct Counts {
    draws: u128,
    creates: u128,
    kills: u128,
    writes: u128,
    frees: u128,
    checks: u128,
    calls: u128,
    returns: u128,
}

fn tell(count: &mut u128) {
    *count = count.saturating_add(1);
}

struct Machine<'p> {
    program: &'p Program,
    choices: &'p [u64],
    body: usize,
    place: usize,
    frames: Vec<Frame>,
    registers: Registers,
    locals: Vec<u64>,
    memory: Memory,
    sets: Vec<WriteSet>,
    used: usize,
    counts: Counts,
    failed: Vec<&'p [u8]>,
}

impl<'p> Machine<'p> {
    fn new(program: &'p Program, choices: &'p [u64]) -> Machine<'p> {
        let mut memory = Memory { objects: Vec::new() };
        program.functions.iter().for_each(|_| memory.push(true, Vec::new()));
        program.sizes.iter().for_each(|size| memory.push(true, vec![0; *size as usize]));
        Machine {
            program,
            choices,
            body: program.bodies.len() - 1,
            place: 0,
            frames: Vec::new(),
            registers: Registers { written: Vec::new() },
            locals: Vec::new(),
            memory,
            sets: Vec::new(),
            used: 0,
            counts: Counts::default(),
            failed: Vec::new(),
        }
    }

    fn check(&mut self, name: &'p [u8], held: bool) {
        if !held {
            self.failed.push(name);
        }
        tell(&mut self.counts.checks);
    }

    fn draw(&mut self, modulus: u128) -> Result<u64, End> {
        let number = *self.choices.get(self.used).ok_or("choices-ended")?;
        self.used += 1;
        tell(&mut self.counts.draws);
        Ok((number as u128 % modulus) as u64)
    }

    fn draw_bytes(&mut self, count: u64) -> Result<Vec<u8>, End> {
        iter::repeat_with(|| self.draw(256).map(|byte| byte as u8)).take(count as usize).collect()
    }

    fn draw_outside(&mut self) -> Result<(), End> {
        let count = self.draw((OBJECTS_LIMIT + 1 - self.memory.objects.len()) as u128)?;
        for _ in 0..count {
            let sort = self.draw(4)?;
            let size = if sort < 2 { 0 } else { self.draw(SIZE_LIMIT as u128 + 1)? };
            tell(&mut self.counts.creates);
            let bytes = self.draw_bytes(size)?;
            self.memory.push(sort >= 2, bytes);
        }
        Ok(())
    }

    /// The value of an expression, where it has one.
    fn value(&self, term: &Term) -> Option<i128> {
        match term {
            Term::Constant(_, z) => Some(*z),
            Term::Register(register) => self.registers.held(*register),
            Term::Object(number) => Some(start_of(*number)),
            Term::Load(kind, a) => self.memory.load(self.value(a)? as u64, *kind),
            Term::Convert(to, from, a) => Some(to.convert(from.convert(self.value(a)?))),
            Term::Binary(operator, kind, a, b) => {
                let (a, b) = (self.value(a)?, self.value(b)?);
                if *kind == Kind::Ptr && !operator.is_equality() && !self.memory.are_together(a as u64, b as u64) {
                    return None;
                }
                operator.apply(*kind, a, b)
            }
            Term::Both(a, b) => Some((self.value(a)? != 0 && self.value(b)? != 0) as i128),
            Term::Moved(size, a, b) => self.memory.moved(*size, self.value(a)? as u64, self.value(b)?),
        }
    }

    fn holds(&self, term: &Term) -> bool {
        self.value(term).is_some_and(|z| z != 0)
    }

    fn undefined(&self) -> End {
        named("undefined", &self.program.bodies[self.body].name)
    }

    /// The value of an expression, without which the run ends.
    fn needed(&self, term: &Term) -> Result<i128, End> {
        self.value(term).ok_or_else(|| self.undefined())
    }

    fn store(&mut self, kind: Kind, a: &Term, b: &Term) -> Result<(), End> {
        let pointer = self.needed(a)? as u64;
        let value = self.needed(b)?;
        self.memory.store(pointer, kind, value).ok_or_else(|| self.undefined())
    }

    fn local(&mut self, register: u64, size: u64) -> Result<(), End> {
        if self.memory.objects.len() == OBJECTS_LIMIT {
            return Err("limit objects".into());
        }
        tell(&mut self.counts.creates);
        self.memory.push(true, vec![0; size as usize]);
        let number = self.memory.objects.len() as u64;
        self.locals.push(number);
        self.registers.put(register, start_of(number));
        Ok(())
    }

    fn add_range(&mut self, pointer: u64, len: u64) {
        // A function has no bytes.
        if let Some(set) = self.sets.last_mut()
            && len > 0
            && self.memory.is_inside(pointer, len)
        {
            set.ranges.push(Range { object: object_number(pointer), from: offset(pointer), len });
        }
    }

    fn is_covered(&self, pointer: u64, len: u64) -> bool {
        len == 0
            || !self.memory.is_inside(pointer, len)
            || self.sets.last().is_some_and(|set| set.allows(object_number(pointer), offset(pointer), len))
    }

    fn call(&mut self, result: Option<u64>, function: &'p Function, arguments: &[Term]) -> Result<(), End> {
        let written = arguments.iter().map(|argument| self.needed(argument).map(Some)).collect::<Result<_, _>>()?;
        if self.frames.len() >= DEPTH_LIMIT {
            return Err("limit depth".into());
        }
        tell(&mut self.counts.calls);
        let body = function.body.ok_or_else(|| named("nobody", &function.name))?;
        self.frames.push(Frame {
            body: self.body,
            place: self.place,
            registers: mem::replace(&mut self.registers, Registers { written }),
            locals: mem::take(&mut self.locals),
            result,
        });
        self.body = body;
        self.place = 0;
        Ok(())
    }

    fn leave(&mut self, value: Option<i128>) -> Result<(), End> {
        while let Some(object) = self.locals.pop() {
            let object = &mut self.memory.objects[object as usize - 1];
            object.live = false;
            object.bytes = Vec::new();
            tell(&mut self.counts.kills);
        }
        let Some(frame) = self.frames.pop() else {
            return Err(value.map_or("returned".into(), |value| format!("returned {value}").into()));
        };
        tell(&mut self.counts.returns);
        self.body = frame.body;
        self.place = frame.place;
        self.registers = frame.registers;
        self.locals = frame.locals;
        if let (Some(register), Some(value)) = (frame.result, value) {
            self.registers.put(register, value);
        }
        Ok(())
    }

    fn step(&mut self) -> Result<(), End> {
        let program = self.program;
        let instr = &program.bodies[self.body].code[self.place];
        self.place += 1;
        match instr {
            Instr::Set(register, a) => {
                let value = self.needed(a)?;
                self.registers.put(*register, value);
            }
            Instr::Draw(register, kind) => {
                let number = self.draw(1 << kind.bits())?;
                self.registers.put(*register, kind.convert(number as i128));
            }
            Instr::Store(kind, a, b) => {
                self.store(*kind, a, b)?;
                tell(&mut self.counts.writes);
            }
            Instr::Init(kind, a, b) => self.store(*kind, a, b)?,
            Instr::Local(register, size) => self.local(*register, *size)?,
            Instr::Trap => return Err(self.undefined()),
            Instr::Goto(place) => self.place = *place as usize,
            Instr::IfNot(a, place) => {
                if self.needed(a)? == 0 {
                    self.place = *place as usize;
                }
            }
            Instr::Call(result, function, arguments) => {
                let function = function.expect("the rules ask for a function that is listed");
                self.call(*result, &program.functions[function], arguments)?;
            }
            Instr::Return(value) => {
                let value = value.as_ref().map(|a| self.needed(a)).transpose()?;
                self.leave(value)?;
            }
            Instr::Assert(name, a) => {
                let held = self.needed(a)? != 0;
                self.check(name, held);
            }
            Instr::Check(name, a) => self.check(name, self.holds(a)),
            Instr::Assume(a) => {
                if self.needed(a)? == 0 {
                    return Err("blocked".into());
                }
            }
            Instr::Require(a) => {
                if !self.holds(a) {
                    return Err("blocked".into());
                }
            }
            Instr::Push => self.sets.push(WriteSet { mark: self.memory.objects.len() as u64, ranges: Vec::new() }),
            Instr::Pop => drop(self.sets.pop()),
            Instr::Range(condition, a, b) => {
                if let (true, Some(place), Some(len)) = (self.holds(condition), self.value(a), self.value(b)) {
                    self.add_range(place as u64, len as u64);
                }
            }
            Instr::Covers(name, a, b) => {
                let held = match (self.value(a), self.value(b)) {
                    (Some(place), Some(len)) => self.is_covered(place as u64, len as u64),
                    _ => true,
                };
                self.check(name, held);
            }
            // No expression of this program sees an object.
            Instr::Seen => (),
            Instr::Statics => {
                for (at, size) in program.sizes.iter().enumerate() {
                    self.memory.objects[program.functions.len() + at].bytes = self.draw_bytes(*size)?;
                }
            }
            Instr::OutsideObjects => self.draw_outside()?,
        }
        Ok(())
    }

    fn run(&mut self, steps: u64) -> End {
        for _ in 0..steps {
            if let Err(end) = self.step() {
                return end;
            }
        }
        "cut".into()
    }

    fn report(&self, end: End) -> String {
        let Counts { draws, creates, kills, writes, frees, checks, calls, returns } = &self.counts;
        let events = format!("{draws} {creates} {kills} {writes} {frees} {checks} {calls} {returns}");
        let failed: String = self.failed.iter().map(|name| String::from_utf8_lossy(name) + "\n").collect();
        format!("end {end}\nused {}\nevents {events}\nfailed {}\n{failed}", self.used, self.failed.len())
    }
}

/// The numbers of a JSON array of unsigned numbers.
fn read_choices(text: &str) -> Option<Vec<u64>> {
    let members = text.trim().strip_prefix('[')?.strip_suffix(']')?.trim();
    let numbers = members.split(',').filter(|_| !members.is_empty());
    numbers.map(|number| number.trim().parse().ok()).collect()
}

fn read(path: &str, limit: usize) -> Result<Vec<u8>, Refusal> {
    let bytes = fs::read(path).map_err(|_| (6, "read fault".to_string()))?;
    if bytes.len() > limit { Err((9, "too long".to_string())) } else { Ok(bytes) }
}

fn replay(words: &[String]) -> Result<u8, Refusal> {
    let usage = || (2, "usage".to_string());
    let [text, choices, steps] = words else {
        return Err(usage());
    };
    let steps = number_of(steps.as_bytes()).ok_or_else(usage)?;
    let program = scan(&read(text, TEXT_LIMIT)?)?;
    let choices = String::from_utf8(read(choices, CHOICES_LIMIT)?).ok();
    let choices = choices.and_then(|text| read_choices(&text)).ok_or_else(|| (5, "choices".to_string()))?;
    let mut machine = Machine::new(&program, &choices);
    let end = machine.run(steps);
    stdout().write_all(machine.report(end).as_bytes()).map_err(|_| (7, "write fault".to_string()))?;
    Ok(if machine.failed.is_empty() { 0 } else { 10 })
}

fn main() -> ExitCode {
    let words: Vec<String> = env::args().skip(1).collect();
    ExitCode::from(replay(&words).unwrap_or_else(|(status, line)| {
        eprintln!("dcc: {line}");
        status
    }))
}
