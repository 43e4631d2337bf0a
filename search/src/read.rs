//! The reader of networks, and of templates: the same texts with letters in them.
//!
//! What it takes is held to the grammar by the proved program, which reads each file first: here it is enough that no text is taken for
//! another one, and that none makes the reader fail.
use crate::memo::{kept, Memo};
use crate::term::{int, put, Follows, Op, Term, ANY_NUMBER, FORMS};
use std::cell::RefCell;

/// The most bytes of a file.
pub const MOST_BYTES: usize = 1 << 20;

/// The most parentheses that are open at once.
pub const MOST_OPEN: usize = 600;

/// The letter of such a number.
const NUMBER_LETTER: char = 'q';

/// Shorter ways to write expressions and networks: their words, their parameters, and what they mean. Those in capitals are read in sides of
/// laws alone; those with a letter are written before it there, as in `LEFT(g)`.
const SHORTER: &[(&str, &str, &str)] = &[
    ("gate", "Tab", "(if b a (none T))"),
    ("tag", "Tab", "(on a (none T) (event (then (fst x) b)))"),
    ("attach", "Tab", "(on a (none T) (event (pair (snd x) (then (fst x) b))))"),
    ("lMerge", "ab", "(on a b (event (snd x)))"),
    ("identity", "", "(arr x)"),
    ("constant", "c", "(arr (then unit c))"),
    ("second", "f", "(>>> (arr SWAP) (>>> (first f) (arr SWAP)))"),
    ("***", "fg", "(>>> (first f) (second g))"),
    ("&&&", "fg", "(>>> (arr (pair x x)) (*** f g))"),
    ("never", "T", "(arr (none T))"),
    ("now", "c", "(after 0 c)"),
    ("edge", "", "(>>> (&&& identity (iPre true)) (arr (if (and (fst x) (not (snd x))) (event unit) (none Unit))))"),
    ("accumHoldBy", "gz", "(>>> (accumBy g z) (hold z))"),
    ("SWAP", "", "(pair (snd x) (fst x))"),
    ("ASSOC", "", "(pair (fst (fst x)) (pair (snd (fst x)) (snd x)))"),
    ("UNASSOC", "", "(pair (pair (fst x) (fst (snd x))) (snd (snd x)))"),
    ("CROSS", "", "(pair (pair (fst (fst x)) (snd x)) (snd (fst x)))"),
    ("HELD", "", "(on (fst x) (pair (snd x) (snd x)) (pair (snd x) (snd x)))"),
    ("HELD_ACCUM", "g", "(on (fst x) (pair (snd x) (snd x)) (then (pair (snd (fst x)) (snd x)) (then g (pair x x))))"),
    ("LEFT", "g", "(pair (then (fst x) g) (snd x))"),
    ("RIGHT", "g", "(pair (fst x) (then (snd x) g))"),
    ("MAP", "g", "(on x (none T) (event (then (snd x) g)))"),
    ("ACCUM", "g", "(on (fst x) (pair (none T) (snd x)) (then (pair (snd (fst x)) (snd x)) (then g (pair (event x) x))))"),
];

/// What letters stand for.
pub type Letters = Vec<(char, Term)>;

/// Why a text isn't a network: the first byte that doesn't fit.
pub type Fault = usize;

struct Reader<'t> {
    text: &'t [u8],
    at: usize,
    open: usize,
    /// Whether letters and words in capitals are read.
    is_template: bool,
}

/// The input type and the network of a file.
pub fn read_file(text: &[u8]) -> Result<(Term, Term), Fault> {
    let mut reader = Reader { text, at: 0, open: 0, is_template: false };
    if text.len() > MOST_BYTES || reader.word()? != "yampa" || !matches!(reader.word()?, "1" | "2") || reader.word()? != "input" {
        return Err(0);
    }
    let (input, net) = (reader.tree()?, reader.tree()?);
    let is_whole = reader.next().is_none() && input.op.is_type() && net.op.is_net();
    Some((input, net)).filter(|_| is_whole).ok_or(reader.at)
}

/// The pattern of a template; panics where it is none, since templates stand in this program's text.
pub fn template(text: &'static str) -> Term {
    thread_local! {
        static READ: RefCell<Memo<&'static str, Term>> = RefCell::default();
    }
    let read = || {
        let mut reader = Reader { text: text.as_bytes(), at: 0, open: 0, is_template: true };
        let found = reader.tree().ok().filter(|_| reader.next().is_none());
        found.unwrap_or_else(|| panic!("template {} at {}", text, reader.at))
    };
    kept(&READ, text, || true, read)
}

/// The tree of a template with what stands for its letters: `of("(>>> f (arr x))", &[('f', f)])`.
pub fn of(text: &'static str, letters: &[(char, Term)]) -> Term {
    filled(template(text), letters)
}

/// A pattern with what stands for its letters; other letters stay.
pub fn filled(pattern: Term, letters: &[(char, Term)]) -> Term {
    if pattern.op == Op::Letter {
        return meant(pattern.number, letters).unwrap_or(pattern);
    }
    if !pattern.has_letter {
        return pattern;
    }
    let kids: Vec<Term> = pattern.kids.iter().map(|kid| filled(kid, letters)).collect();
    let ty = pattern.ty.map(|ty| filled(ty, letters));
    let number = match pattern.number {
        ANY_NUMBER => meant(i64::from(u32::from(NUMBER_LETTER)), letters).map_or(ANY_NUMBER, |n| n.number),
        number => number,
    };
    put(pattern.op, number, ty, &kids)
}

fn meant(letter: i64, letters: &[(char, Term)]) -> Option<Term> {
    letters.iter().find(|(name, _)| i64::from(u32::from(*name)) == letter).map(|(_, term)| *term)
}

/// Whether a term is one of a pattern; what its letters stand for is added.
pub fn fits(pattern: Term, term: Term, letters: &mut Letters) -> bool {
    if pattern.op == Op::Letter {
        return stands_for(pattern.number, term, letters);
    }
    if !pattern.has_letter {
        return pattern == term;
    }
    let is_like = pattern.op == term.op && pattern.kids.len() == term.kids.len() && pattern.ty.is_some() == term.ty.is_some();
    let mut is_letter = || pattern.number == ANY_NUMBER && stands_for(i64::from(u32::from(NUMBER_LETTER)), int(term.number), letters);
    let has_number = is_like && (pattern.number == term.number || is_letter());
    let mut parts = pattern.kids.iter().chain(&pattern.ty).zip(term.kids.iter().chain(&term.ty));
    has_number && parts.all(|(part, other)| fits(part, other, letters))
}

fn stands_for(letter: i64, term: Term, letters: &mut Letters) -> bool {
    match meant(letter, letters) {
        Some(found) => found == term,
        None => {
            letters.extend(u32::try_from(letter).ok().and_then(char::from_u32).map(|name| (name, term)));
            true
        }
    }
}

fn is_blank(byte: u8) -> bool {
    matches!(byte, b' ' | b'\t' | b'\n' | b'\r')
}

impl<'t> Reader<'t> {
    /// Goes on past blanks and comments.
    fn skip_blanks(&mut self) {
        while let Some(&byte) = self.text.get(self.at) {
            if byte == b';' {
                while self.text.get(self.at).map_or(false, |&b| b != b'\n') {
                    self.at += 1;
                }
            } else if is_blank(byte) {
                self.at += 1;
            } else {
                return;
            }
        }
    }

    /// The next byte that is no blank.
    fn next(&mut self) -> Option<u8> {
        self.skip_blanks();
        self.text.get(self.at).copied()
    }

    /// The next word.
    fn word(&mut self) -> Result<&'t str, Fault> {
        self.skip_blanks();
        let from = self.at;
        while self.text.get(self.at).map_or(false, |&b| !is_blank(b) && !matches!(b, b'(' | b')' | b';')) {
            self.at += 1;
        }
        match std::str::from_utf8(&self.text[from..self.at]) {
            Ok(word) if !word.is_empty() => Ok(word),
            _ => Err(from),
        }
    }

    /// Goes on past a bracket, behind which so many are open.
    fn bracket(&mut self, bracket: u8, open: usize) -> Result<(), Fault> {
        if self.next() != Some(bracket) || open > MOST_OPEN {
            return Err(self.at);
        }
        self.at += 1;
        self.open = open;
        Ok(())
    }

    /// A tree.
    fn tree(&mut self) -> Result<Term, Fault> {
        let is_open = self.next() == Some(b'(');
        if is_open {
            self.bracket(b'(', self.open + 1)?;
        }
        let from = self.at;
        let word = self.word()?;
        let form = FORMS.iter().find(|form| form.0 == word && (is_open || form.2 == Follows::Children(0)));
        let found = match form {
            Some(&(_, op, follows, _)) => self.parts(op, follows)?,
            None if !is_open && word.starts_with(|c: char| c == '-' || c.is_ascii_digit()) => number(word).map(int).ok_or(from)?,
            None => self.meaning(word).ok_or(from)??,
        };
        if is_open {
            self.bracket(b')', self.open - 1)?;
        }
        Ok(found)
    }

    /// What a word means that is no form's: in a template a letter, or a word in capitals; or a shorter way, whose parts stand behind it.
    fn meaning(&mut self, word: &str) -> Option<Result<Term, Fault>> {
        let mut all = word.chars();
        if let (true, Some(name), None) = (self.is_template, all.next(), all.next()) {
            return Some(Ok(put(Op::Letter, i64::from(u32::from(name)), None, &[])));
        }
        let is_read = self.is_template || !word.starts_with(|c: char| c.is_ascii_uppercase());
        let &(_, parameters, text) = SHORTER.iter().find(|short| is_read && short.0 == word)?;
        let parts: Result<Letters, Fault> = parameters.chars().map(|name| self.tree().map(|part| (name, part))).collect();
        Some(parts.map(|letters| filled(template(text), &letters)))
    }

    /// The parts of a form, behind its word.
    fn parts(&mut self, op: Op, follows: Follows) -> Result<Term, Fault> {
        let (mut own, mut ty, mut kids) = (0, None, vec![]);
        let count = match follows {
            Follows::Children(count) => count,
            Follows::Number(count) => {
                own = self.own_number()?;
                count
            }
            Follows::Type | Follows::Elements => {
                ty = Some(self.tree()?);
                0
            }
            Follows::Members => 0,
            Follows::Column(before, behind) => {
                self.kids(before, &mut kids)?;
                self.column(&mut kids)?;
                behind
            }
        };
        self.kids(count, &mut kids)?;
        if matches!(follows, Follows::Members | Follows::Elements) {
            self.more_kids(&mut kids)?;
        }
        let are_of_kind = kids.iter().all(|kid| kid.op.is_type() == op.is_type()) && ty.map_or(true, |ty| ty.op.is_type());
        Some(put(op, own, ty, &kids)).filter(|_| self.is_template || are_of_kind).ok_or(self.at)
    }

    fn own_number(&mut self) -> Result<i64, Fault> {
        self.skip_blanks();
        let from = self.at;
        let word = self.word()?;
        if self.is_template && word.chars().eq([NUMBER_LETTER]) {
            return Ok(ANY_NUMBER);
        }
        number(word).filter(|&n| n >= 0).ok_or(from)
    }

    /// So many further children of a form.
    fn kids(&mut self, count: usize, kids: &mut Vec<Term>) -> Result<(), Fault> {
        (0..count).try_for_each(|_| self.tree().map(|kid| kids.push(kid)))
    }

    /// All children that are left of a form.
    fn more_kids(&mut self, kids: &mut Vec<Term>) -> Result<(), Fault> {
        while self.next() != Some(b')') {
            kids.push(self.tree()?);
        }
        Ok(())
    }

    /// The members of `(col ..)`.
    fn column(&mut self, kids: &mut Vec<Term>) -> Result<(), Fault> {
        self.bracket(b'(', self.open + 1)?;
        let from = self.at;
        if self.word()? != "col" {
            return Err(from);
        }
        self.more_kids(kids)?;
        self.bracket(b')', self.open - 1)
    }
}

/// The number that a word spells.
fn number(word: &str) -> Option<i64> {
    let digits = word.strip_prefix('-').unwrap_or(word);
    let is_spelt = digits.bytes().all(|b| b.is_ascii_digit()) && (word == "0" || !digits.starts_with('0'));
    word.parse().ok().filter(|_| is_spelt)
}
