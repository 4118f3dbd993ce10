//! A plain parser of the same grammar, by hand, in Rust: what `measure.sh` compares `parse_formula` with. It reads the
//! lines of standard input as `parse_bench.txt` does, and prints the same lines.
use std::hint::black_box;
use std::io::Read;
use std::time::Instant;

const ROUNDS: u64 = 2000;
const MOST_BYTES: usize = 1024;
const MOST_LEVELS: usize = 64;

#[allow(dead_code)]
enum Term {
    Number(u64),
    Name(Vec<u8>),
    Text(Vec<u8>),
    Var(Vec<u8>),
    Sub(Box<Term>, Vec<u8>),
}

#[allow(dead_code)]
enum Formula {
    True,
    False,
    Atom(Vec<u8>, Vec<Term>),
    Test(u8, Term, Term),
    And(Box<Formula>, Box<Formula>),
    Or(Box<Formula>, Box<Formula>),
    Implies(Box<Formula>, Box<Formula>),
    Forall(Vec<u8>, Box<Formula>),
    Exists(Vec<u8>, Box<Formula>),
    Says(Term, Box<Formula>),
    SpeaksFor(Term, Term),
    SpeaksForOn(Term, Term, Vec<Vec<u8>>),
}

#[derive(Clone, Copy, PartialEq)]
enum Token<'a> {
    Word(&'a [u8]),
    Name(&'a [u8]),
    Number(u64),
    Var(&'a [u8]),
    Text(&'a [u8]),
    Sign(&'a [u8]),
    End,
}

struct Parser<'a> {
    text: &'a [u8],
    place: usize,
    token: Token<'a>,
    after: usize,
}

type Parsed<T> = Result<T, usize>;

fn is_word_byte(byte: u8) -> bool {
    byte.is_ascii_alphanumeric() || byte == b'_'
}

fn is_reserved(word: &[u8]) -> bool {
    matches!(
        word,
        b"says" | b"speaksfor" | b"on" | b"and" | b"or" | b"not" | b"forall" | b"exists" | b"true" | b"false"
    )
}

impl<'a> Parser<'a> {
    fn new(text: &'a [u8]) -> Parsed<Self> {
        let mut parser = Parser { text, place: 0, token: Token::End, after: 0 };
        parser.advance()?;
        Ok(parser)
    }

    fn run(&self, from: usize) -> usize {
        self.text[from..].iter().take_while(|byte| is_word_byte(**byte)).count()
    }

    fn advance(&mut self) -> Parsed<()> {
        let text = self.text;
        let mut place = self.after;
        while place < text.len() && (text[place] == b' ' || text[place] == b'\t') {
            place += 1;
        }
        self.place = place;
        let Some(&first) = text.get(place) else {
            self.token = Token::End;
            self.after = place;
            return Ok(());
        };
        let (token, length) = match first {
            b'a'..=b'z' | b'A'..=b'Z' => {
                let length = self.run(place);
                let word = &text[place..place + length];
                if is_reserved(word) {
                    (Token::Word(word), length)
                } else if length <= 64 {
                    (Token::Name(word), length)
                } else {
                    return Err(place);
                }
            }
            b'0'..=b'9' => {
                let length = self.run(place);
                let run = &text[place..place + length];
                if run.iter().any(|byte| !byte.is_ascii_digit()) || (run[0] == b'0' && length > 1) {
                    return Err(place);
                }
                let number = std::str::from_utf8(run).map_err(|_| place)?.parse().map_err(|_| place)?;
                (Token::Number(number), length)
            }
            b'?' => {
                let length = self.run(place + 1);
                let word = &text[place + 1..place + 1 + length];
                if length == 0 || length > 64 || !word[0].is_ascii_alphabetic() || is_reserved(word) {
                    return Err(place);
                }
                (Token::Var(word), length + 1)
            }
            b'"' => {
                let length = text[place + 1..].iter().take_while(|byte| **byte != b'"').count();
                let inner = &text[place + 1..place + 1 + length];
                let fine = |byte: &u8| (0x20..=0x7e).contains(byte) && *byte != b';' && *byte != b'\\';
                if place + 1 + length == text.len() || length > 256 || !inner.iter().all(fine) {
                    return Err(place);
                }
                (Token::Text(inner), length + 2)
            }
            b'(' | b')' | b',' | b'.' | b':' => (Token::Sign(&text[place..place + 1]), 1),
            b'<' if text.get(place + 1) == Some(&b'=') => (Token::Sign(&text[place..place + 2]), 2),
            b'=' if text.get(place + 1) == Some(&b'>') => (Token::Sign(&text[place..place + 2]), 2),
            b'<' | b'=' => (Token::Sign(&text[place..place + 1]), 1),
            _ => return Err(place),
        };
        self.token = token;
        self.after = place + length;
        Ok(())
    }

    fn is_sign(&self, sign: &[u8]) -> bool {
        matches!(self.token, Token::Sign(other) if other == sign)
    }

    fn is_word(&self, word: &[u8]) -> bool {
        matches!(self.token, Token::Word(other) if other == word)
    }

    fn sign(&mut self, sign: &[u8]) -> Parsed<()> {
        if self.is_sign(sign) { self.advance() } else { Err(self.place) }
    }

    fn deeper(&self, levels: usize) -> Parsed<usize> {
        levels.checked_sub(1).ok_or(self.place)
    }

    fn name(&mut self) -> Parsed<Vec<u8>> {
        let Token::Name(name) = self.token else { return Err(self.place) };
        self.advance()?;
        Ok(name.to_vec())
    }

    fn term(&mut self) -> Parsed<Term> {
        let mut term = match self.token {
            Token::Number(number) => Term::Number(number),
            Token::Name(name) => Term::Name(name.to_vec()),
            Token::Text(text) => Term::Text(text.to_vec()),
            Token::Var(name) => Term::Var(name.to_vec()),
            _ => return Err(self.place),
        };
        self.advance()?;
        while self.is_sign(b".") {
            self.advance()?;
            term = Term::Sub(Box::new(term), self.name()?);
        }
        Ok(term)
    }

    fn formula(&mut self, levels: usize) -> Parsed<Formula> {
        let universal = self.is_word(b"forall");
        if universal || self.is_word(b"exists") {
            let levels = self.deeper(levels)?;
            self.advance()?;
            let Token::Var(variable) = self.token else { return Err(self.place) };
            self.advance()?;
            self.sign(b":")?;
            let body = Box::new(self.formula(levels)?);
            return Ok(if universal {
                Formula::Forall(variable.to_vec(), body)
            } else {
                Formula::Exists(variable.to_vec(), body)
            });
        }
        let left = self.disjunction(levels)?;
        if !self.is_sign(b"=>") {
            return Ok(left);
        }
        let levels = self.deeper(levels)?;
        self.advance()?;
        let right = self.formula(levels)?;
        Ok(Formula::Implies(Box::new(left), Box::new(right)))
    }

    fn disjunction(&mut self, levels: usize) -> Parsed<Formula> {
        let mut left = self.conjunction(levels)?;
        while self.is_word(b"or") {
            self.advance()?;
            let right = self.conjunction(levels)?;
            left = Formula::Or(Box::new(left), Box::new(right));
        }
        Ok(left)
    }

    fn conjunction(&mut self, levels: usize) -> Parsed<Formula> {
        let mut left = self.unary(levels)?;
        while self.is_word(b"and") {
            self.advance()?;
            let right = self.unary(levels)?;
            left = Formula::And(Box::new(left), Box::new(right));
        }
        Ok(left)
    }

    fn unary(&mut self, levels: usize) -> Parsed<Formula> {
        match self.token {
            Token::Word(b"true") => self.advance().map(|()| Formula::True),
            Token::Word(b"false") => self.advance().map(|()| Formula::False),
            Token::Word(b"not") => {
                let levels = self.deeper(levels)?;
                self.advance()?;
                let negated = self.unary(levels)?;
                Ok(Formula::Implies(Box::new(negated), Box::new(Formula::False)))
            }
            Token::Sign(b"(") => {
                let levels = self.deeper(levels)?;
                self.advance()?;
                let formula = self.formula(levels)?;
                self.sign(b")")?;
                Ok(formula)
            }
            _ => self.statement(levels),
        }
    }

    fn statement(&mut self, levels: usize) -> Parsed<Formula> {
        let term = self.term()?;
        if let Term::Name(name) = &term {
            if self.is_sign(b"(") {
                self.deeper(levels)?;
                self.advance()?;
                let mut args = vec![self.term()?];
                while self.is_sign(b",") && args.len() < 8 {
                    self.advance()?;
                    args.push(self.term()?);
                }
                self.sign(b")")?;
                return Ok(Formula::Atom(name.clone(), args));
            }
        }
        match self.token {
            Token::Word(b"says") => {
                let levels = self.deeper(levels)?;
                self.advance()?;
                Ok(Formula::Says(term, Box::new(self.unary(levels)?)))
            }
            Token::Word(b"speaksfor") => {
                self.advance()?;
                let principal = self.term()?;
                if !self.is_word(b"on") {
                    return Ok(Formula::SpeaksFor(term, principal));
                }
                self.advance()?;
                Ok(Formula::SpeaksForOn(term, principal, self.scope(levels)?))
            }
            Token::Sign(sign @ (b"=" | b"<" | b"<=")) => {
                self.advance()?;
                Ok(Formula::Test(sign.len() as u8 + sign[0], term, self.term()?))
            }
            _ => match term {
                Term::Name(name) => Ok(Formula::Atom(name, Vec::new())),
                _ => Err(self.place),
            },
        }
    }

    fn scope(&mut self, levels: usize) -> Parsed<Vec<Vec<u8>>> {
        if !self.is_sign(b"(") {
            return Ok(vec![self.name()?]);
        }
        self.deeper(levels)?;
        self.advance()?;
        let mut names = vec![self.name()?];
        while self.is_sign(b",") && names.len() < 8 {
            self.advance()?;
            names.push(self.name()?);
        }
        self.sign(b")")?;
        Ok(names)
    }
}

fn parse_formula(text: &[u8]) -> Parsed<Formula> {
    if text.len() > MOST_BYTES {
        return Err(0);
    }
    let mut parser = Parser::new(text)?;
    let formula = parser.formula(MOST_LEVELS)?;
    if parser.token == Token::End { Ok(formula) } else { Err(parser.place) }
}

fn main() -> std::io::Result<()> {
    let mut text = String::new();
    std::io::stdin().read_to_string(&mut text)?;
    for line in text.lines() {
        let start = Instant::now();
        let mut read = 0u64;
        for _ in 0..ROUNDS {
            if black_box(parse_formula(black_box(line.as_bytes()))).is_ok() {
                read += 1;
            }
        }
        println!("parsed {} bytes {read} times in {} ns", line.len(), start.elapsed().as_nanos());
    }
    Ok(())
}
