//! The moves of networks: a table, in the order in which they are tried.
//!
//! A move looks at stages that stand behind one another. Where they are of its form it takes the steps of its script, each at a place of what
//! there is then. A move is made only where the result costs less, so no row tells when it pays.
use crate::acts::{self, Rewriting};
use crate::chain::{front, head, last, length};
use crate::cost::is_cell;
use crate::draft::{Draft, Path};
use crate::exprs::{as_late, as_left, as_map, as_right};
use crate::laws::{self, Law};
use crate::read::{fits, template, Letters};
use crate::sharing::{made_once, members_in};
use crate::term::{Op, Term};

/// A place in what a move looks at.
type At = &'static [u32];

/// What a move does next.
#[derive(Clone, Copy)]
pub enum Act {
    /// Takes a law forward.
    Ahead(Law, At),
    /// Takes the first of these laws forward that fits.
    Any(&'static [Law], At),
    /// Takes a law backward, of which what stands there tells the left side.
    Back(Law, At),
    /// Clears up an expression.
    Clear(At),
    /// Rewrites the expression of an `arr`.
    Rewrite(Rewriting, At),
    /// Makes a `first` of an `arr` one `arr`, where it is one.
    Open(At),
    /// Does something that depends on how many stages or members there are.
    By(fn(&mut Draft) -> Option<()>),
}

/// The networks that a move builds of parts, which are rewritten too, before its cost is told.
#[derive(Clone, Copy, PartialEq, Eq)]
pub enum Built {
    /// None.
    Nothing,
    /// Those at these places.
    Inside(&'static [At]),
    /// All members.
    Members,
}

impl Built {
    /// Where they stand in what is made.
    pub fn places(self, made: Term) -> Vec<Path> {
        match self {
            Built::Nothing => vec![],
            Built::Inside(places) => places.iter().map(|place| place.to_vec()).collect(),
            Built::Members => (0..made.kids.len() as u32).map(|k| vec![k]).collect(),
        }
    }
}

/// A move: the stages that it looks at as a template, its script, and what it builds.
#[derive(Clone, Copy)]
pub struct Move {
    form: &'static str,
    script: &'static [Act],
    /// What is to be rewritten in what it makes.
    pub built: Built,
}

use Act::{Ahead, Any, Back, By, Clear, Open, Rewrite};
use Built::{Inside, Members, Nothing};

/// A move.
const fn row(form: &'static str, script: &'static [Act], built: Built) -> Move {
    Move { form, script, built }
}

/// The form of a move along as many cells as there are.
const CELLS: &str = "(>>> (arr e) ..)";

/// The moves in their order; before each stands what it makes of what.
pub const MOVES: &[Move] = &[
    // (arr x) >>> f => f
    row("(>>> (arr x) f)", &[Ahead(laws::IDENTITY_FRONT, &[])], Nothing),
    // f >>> (arr x) => f
    row("(>>> f (arr x))", &[Ahead(laws::IDENTITY_BACK, &[])], Nothing),
    // f >>> time => time, also `after` and `repeatedly`
    row("(>>> f g)", &[Ahead(laws::SOURCE, &[])], Nothing),
    // f >>> (arr 5) => (arr 5)
    row("(>>> f (arr e))", &[Rewrite(acts::deaf, &[1]), Ahead(laws::CONSTANT, &[]), Clear(&[0])], Nothing),
    // (first (arr e)) => (arr LEFT(e))
    row("(first (arr e))", &[Ahead(laws::FIRST_ARR, &[]), Clear(&[0])], Nothing),
    // (arr e) >>> (arr g) => (arr (then e g))
    row("(>>> (arr e) (arr g))", FUSED, Nothing),
    // (arr (then e g)) => (arr e) >>> (arr g)
    row("(arr (then e g))", &[By(acts::split)], Nothing),
    // (arr (pair (neg x) (neg x))) => (arr (neg x)) >>> (arr (pair x x)), also where more is used of the input
    row("(arr e)", &[Rewrite(made_once, &[]), Back(laws::FUSE, &[])], Nothing),
    // (arr e) >>> (first (arr g)) => (arr (then e LEFT(g)))
    row("(>>> (arr e) (first (arr g)))", &[Ahead(laws::FIRST_ARR, &[1]), Ahead(laws::FUSE, &[]), Clear(&[0])], Nothing),
    // (first (arr e)) >>> (arr g) => (arr (then LEFT(e) g))
    row("(>>> (first (arr e)) (arr g))", &[Ahead(laws::FIRST_ARR, &[0]), Ahead(laws::FUSE, &[]), Clear(&[0])], Nothing),
    // (kSwitch f (arr (none T)) t) => f, (kSwitch f e (old k)) => f, (switch (arr (pair e v)) (arr e)) => (arr e), also `dSwitch`
    row("f", &[Any(NO_SWITCH, &[])], Nothing),
    // (switch (f >>> (arr (pair e (none T)))) t) => f >>> (arr e), also `dSwitch`
    row("f", &[By(acts::part_never), Any(&[laws::SWITCH_NEVER, laws::D_SWITCH_NEVER], &[])], Nothing),
    // (pSwitch r (col f ..) (arr (none T)) t) => (parB ((arr r0) >>> f) ..)
    row("f", &[Ahead(laws::P_SWITCH_NEVER, &[])], Members),
    // (arr (pair e (none T))) >>> (rSwitch f t) => (arr e) >>> f, also `drSwitch`, and of `rpSwitchB` its members
    row("(>>> (arr (pair e (none T))) f)", &[Any(NEVER_AGAIN, &[])], Nothing),
    // (--> c (--> d f)) => (--> c f), (--> c (iPre d)) => (iPre c), (--> (event c) (arr (none T))) => (after 0 c)
    row("(--> c f)", &[Any(&[laws::INITIAL_TWICE, laws::INITIAL_CELL, laws::INITIAL_EVENT], &[])], Nothing),
    // (--> c (f >>> (iPre d))) => f >>> (iPre c), also where the last stage is another `-->`
    row("(--> c f)", &[By(acts::initial_last), Any(&[laws::INITIAL_TWICE, laws::INITIAL_CELL], &[1])], Nothing),
    // (--> c f) >>> (arr e) => (--> (then c e) (f >>> (arr e)))
    row("(>>> (--> c f) (arr e))", INITIAL_OUT, Inside(&[&[1]])),
    // (arr e) >>> (>-- c ((arr g) >>> f)) => (arr (then e g)) >>> (>-- (then c g) f)
    row("(>>> (arr e) (>-- c (>>> (arr g) f)))", INITIAL_IN, Nothing),
    // (arr k) >>> (iPre k) => (arr k), also `delay`
    row("(>>> (arr e) f)", &[Rewrite(acts::deaf, &[0]), By(acts::known_cell), Ahead(laws::CONSTANT, &[]), Clear(&[0])], Nothing),
    // (arr 1) >>> integral => time
    row("(>>> (arr e) integral)", &[Rewrite(acts::deaf, &[0]), Ahead(laws::INTEGRAL_ONE, &[])], Nothing),
    // (accumBy g z) >>> (hold z) => (loopPre z (arr HELD_ACCUM(g)))
    row("(>>> (accumBy g z) (hold z))", &[Ahead(laws::HELD_ACCUM, &[]), Clear(&[1, 0])], Nothing),
    // (>-- c (arr e)) => (--> (then c e) (arr e))
    row("(>-- c (arr e))", &[Ahead(laws::INITIAL_ARR, &[]), Clear(&[0])], Nothing),
    // (arr (event e)) >>> (hold c) => (arr e)
    row("(>>> (arr (event e)) (hold c))", &[Ahead(laws::HOLD_EVENT, &[])], Nothing),
    // (arr (none T)) >>> (hold c) => (arr c)
    row("(>>> (arr (none T)) (hold c))", &[Ahead(laws::HOLD_NONE, &[]), Clear(&[0])], Nothing),
    // (after n c) >>> (arr MAP(e)) => (after n (then c e)), also `repeatedly`
    row("(>>> f (arr e))", &[Rewrite(as_map, &[1]), Any(&[laws::AFTER_MAP, laws::REPEATEDLY_MAP], &[]), Clear(&[0])], Nothing),
    // (arr MAP(e)) >>> (accumBy g c) => (accumBy (then RIGHT(e) g) c)
    row("(>>> (arr e) (accumBy g c))", &[Rewrite(as_map, &[0]), Ahead(laws::ACCUM_MAP, &[]), Clear(&[0])], Nothing),
    // (parB f g) >>> (arr (nth x 0 d)) => f
    row("(>>> f (arr (nth x e d)))", &[Ahead(laws::MEMBER, &[])], Nothing),
    // (parB f g) >>> (arr (then (nth x 0 d) e)) => f >>> (arr e)
    row("(>>> f (arr e))", &[By(acts::one_heard), Back(laws::FUSE, &[1]), Back(laws::NEST, &[]), Ahead(laws::MEMBER, &[0])], Nothing),
    // (parB f g h) >>> (arr (add (nth x 0 d) (nth x 2 d))) => (parB f h) >>> (arr (add (nth x 0 d) (nth x 1 d)))
    row("(>>> f (arr e))", &[By(acts::some_heard)], Inside(&[&[0]])),
    // (parB (arr e) (arr g)) => (arr (list T e g))
    row("f", &[By(acts::members_as_arr)], Nothing),
    // (parB (f >>> g) (f >>> h)) => f >>> (parB g h)
    row("f", &[By(acts::members_front)], Nothing),
    // (arr e) >>> (parB f g) => (parB ((arr e) >>> f) ((arr e) >>> g))
    row("(>>> (arr e) f)", &[By(members_in)], Members),
    // (first f) >>> (arr (fst x)) => (arr (fst x)) >>> f
    row("(>>> (first f) (arr (fst x)))", &[Ahead(laws::FIRST_HEARD, &[])], Nothing),
    // (first f) >>> (arr (then (fst x) e)) => (arr (fst x)) >>> f >>> (arr e)
    row("(>>> (first f) (arr e))", HEARD, Nothing),
    // (first f) >>> (arr (then (snd x) e)) => (arr (then (snd x) e))
    row("(>>> (first f) (arr e))", UNHEARD, Nothing),
    // (first (iPre c)) >>> (arr SWAP) >>> (first (iPre d)) >>> (arr SWAP) => (iPre (pair c d))
    row("(>>> (first (iPre c)) (>>> (arr SWAP) (>>> (first (iPre d)) (arr SWAP))))", &[Back(laws::CELL_PAIR, &[])], Nothing),
    // (first (delay q c)) >>> (arr SWAP) >>> (first (delay q d)) >>> (arr SWAP) => (delay q (pair c d))
    row("(>>> (first (delay q c)) (>>> (arr SWAP) (>>> (first (delay q d)) (arr SWAP))))", &[Back(laws::DELAY_PAIR, &[])], Nothing),
    // (first f) >>> (first g) => (first (f >>> g))
    row("(>>> (first f) (first g))", &[Back(laws::FIRST_CHAIN, &[])], Inside(&[&[0]])),
    // (loopPre c (first f)) => f
    row("(loopPre c (first f))", &[Ahead(laws::LOOP_UNHEARD, &[])], Nothing),
    // (loopPre c (arr LEFT(e))) => (arr e)
    row("(loopPre c (arr e))", &[Rewrite(as_left, &[1]), Back(laws::FIRST_ARR, &[1]), Ahead(laws::LOOP_UNHEARD, &[])], Nothing),
    // (loopPre c ((first f) >>> g)) => f >>> (loopPre c g)
    row("(loopPre c (>>> (first f) g))", &[Back(laws::LOOP_IN, &[])], Nothing),
    // (loopPre c (loopPre d f)) => (loopPre (pair c d) ((arr UNASSOC) >>> f >>> (arr ASSOC)))
    row("(loopPre c (loopPre d f))", &[Ahead(laws::LOOP_INNER, &[]), Clear(&[0])], Inside(&[&[1]])),
    // (loopPre c f) >>> g => (loopPre c (f >>> (first g)))
    row("(>>> (loopPre c f) g)", &[Ahead(laws::LOOP_OUT, &[]), Open(&[1, 1])], Inside(&[&[1]])),
    // f >>> (loopPre c g) => (loopPre c ((first f) >>> g))
    row("(>>> f (loopPre c g))", &[Ahead(laws::LOOP_IN, &[]), Open(&[1, 0])], Inside(&[&[1]])),
    // (arr e) >>> (iPre c) >>> .. >>> (arr g) => (arr (then e g)) >>> (iPre (then c g)) >>> ..
    row(CELLS, &[By(acts::pass), Ahead(laws::FUSE_FRONT, &[]), Clear(&[0, 0])], Nothing),
    // (arr e) >>> (first ((arr g) >>> f)) => (arr (then e LEFT(g))) >>> (first f)
    row("(>>> (arr e) (first (>>> (arr g) f)))", FRONT_OF_FIRST, Inside(&[&[1, 0]])),
    // (first (f >>> (arr g))) >>> (arr e) => (first f) >>> (arr (then LEFT(g) e))
    row("(>>> (first (>>> f g)) (arr e))", END_OF_FIRST, Inside(&[&[0, 0]])),
    // (arr e) >>> (first f) >>> (arr RIGHT(g)) => (arr (then e RIGHT(g))) >>> (first f)
    row(ARR_FIRST_ARR, &[Rewrite(as_right, &[1, 1]), Ahead(laws::EXCHANGE, &[1]), Ahead(laws::FUSE_FRONT, &[]), Clear(&[0, 0])], Nothing),
    // (arr RIGHT(e)) >>> (first f) >>> (arr g) => (first f) >>> (arr (then RIGHT(e) g))
    row(ARR_FIRST_ARR, RIGHT_BEHIND, Nothing),
    // (arr (pair a b)) >>> (first f) >>> (arr g) => (arr (pair a x)) >>> (first f) >>> (arr (then RIGHT(b) g))
    row(ARR_FIRST_ARR, LATE_BEFORE_ARR, Nothing),
    // (arr e) >>> (first (first f)) >>> (arr g) => (arr (then e ASSOC)) >>> (first f) >>> (arr (then UNASSOC g))
    row("(>>> (arr e) (>>> (first (first f)) (arr g)))", NESTED_BETWEEN, Nothing),
    // (arr e) >>> (switch f t) => (switch ((arr e) >>> f) ((arr e) >>> t)), also `dSwitch`
    row("(>>> (arr e) f)", &[Any(SWITCH_IN, &[])], Inside(&[&[0], &[1]])),
    // (arr LEFT(e)) >>> (rSwitch f t) => (rSwitch ((arr e) >>> f) ((arr e) >>> t)), also `drSwitch`
    row("(>>> (arr e) f)", &[Rewrite(as_left, &[0]), Any(&[laws::R_SWITCH_IN, laws::DR_SWITCH_IN], &[])], Inside(&[&[0], &[1]])),
    // (switch f t) >>> (arr e) => (switch (f >>> (arr LEFT(e))) (t >>> (arr e))), also the others
    row("(>>> f (arr e))", &[Any(SWITCH_OUT, &[])], Inside(&[&[0], &[1]])),
    // (first (switch f t)) >>> (arr e): the `arr` goes into the switch, the `first` too
    row("(>>> (first f) (arr e))", &[Any(SWITCH_FIRST, &[0]), Any(SWITCH_OUT, &[])], Inside(&[&[0], &[1]])),
    // (arr LEFT(e)) >>> (first f) => (first ((arr e) >>> f))
    row("(>>> (arr e) (first f))", &[Rewrite(as_left, &[0]), Back(laws::FIRST_ARR, &[0]), Back(laws::FIRST_CHAIN, &[])], Inside(&[&[0]])),
    // (first f) >>> (arr LEFT(e)) => (first (f >>> (arr e)))
    row("(>>> (first f) (arr e))", &[Rewrite(as_left, &[1]), Back(laws::FIRST_ARR, &[1]), Back(laws::FIRST_CHAIN, &[])], Inside(&[&[0]])),
];

const ARR_FIRST_ARR: &str = "(>>> (arr e) (>>> (first f) (arr g)))";

const NO_SWITCH: &[Law] = &[laws::K_SWITCH_NEVER, laws::K_SWITCH_RESUMED, laws::SWITCH_SAME, laws::D_SWITCH_SAME];
const NEVER_AGAIN: &[Law] = &[laws::R_SWITCH_NEVER, laws::DR_SWITCH_NEVER, laws::RP_SWITCH_NEVER];
const SWITCH_IN: &[Law] = &[laws::SWITCH_IN, laws::D_SWITCH_IN];
const SWITCH_OUT: &[Law] = &[laws::SWITCH_OUT, laws::D_SWITCH_OUT, laws::R_SWITCH_OUT, laws::DR_SWITCH_OUT];
const SWITCH_FIRST: &[Law] = &[laws::SWITCH_FIRST, laws::D_SWITCH_FIRST];

const INITIAL_OUT: &[Act] =
    &[Ahead(laws::INITIAL_BETWEEN, &[]), Ahead(laws::INITIAL_ARR, &[1]), Clear(&[1, 0]), Back(laws::INITIAL_LAST, &[])];

const INITIAL_IN: &[Act] = &[
    Ahead(laws::INITIAL_FIRST, &[1]),
    Ahead(laws::INITIAL_ARR, &[1, 0]),
    Clear(&[1, 0, 0]),
    Ahead(laws::INITIAL_BETWEEN, &[1]),
    Ahead(laws::FUSE_FRONT, &[]),
    Clear(&[0, 0]),
];

/// One `arr` of two, parted again where that costs less.
const FUSED: &[Act] = &[Ahead(laws::FUSE, &[]), Clear(&[0]), By(acts::split)];

const HEARD: &[Act] = &[Rewrite(acts::behind_first, &[1]), Back(laws::FUSE, &[1]), Back(laws::NEST, &[]), Ahead(laws::FIRST_HEARD, &[0])];

const UNHEARD: &[Act] = &[
    Rewrite(acts::deaf_to_left, &[1]),
    Back(laws::FUSE, &[1]),
    Back(laws::NEST, &[]),
    Back(laws::FIRST_ARR, &[0, 1]),
    Back(laws::FIRST_CHAIN, &[0]),
    Ahead(laws::CONSTANT, &[0, 0]),
    Ahead(laws::FIRST_ARR, &[0]),
    Ahead(laws::FUSE, &[]),
    Clear(&[0]),
];

const FRONT_OF_FIRST: &[Act] =
    &[Ahead(laws::FIRST_CHAIN, &[1]), Ahead(laws::FIRST_ARR, &[1, 0]), Ahead(laws::FUSE_FRONT, &[]), Clear(&[0, 0])];

const END_OF_FIRST: &[Act] = &[
    By(acts::gather_first),
    Ahead(laws::FIRST_CHAIN, &[0]),
    Ahead(laws::NEST, &[]),
    Ahead(laws::FIRST_ARR, &[1, 0]),
    Ahead(laws::FUSE, &[1]),
    Clear(&[1, 0]),
];

const RIGHT_BEHIND: &[Act] = &[
    Rewrite(as_right, &[0]),
    Back(laws::NEST, &[]),
    Back(laws::EXCHANGE, &[0]),
    Ahead(laws::NEST, &[]),
    Ahead(laws::FUSE, &[1]),
    Clear(&[1, 0]),
];

const LATE_BEFORE_ARR: &[Act] = &[
    Rewrite(as_late, &[0]),
    Back(laws::FUSE, &[0]),
    Ahead(laws::NEST, &[]),
    Back(laws::NEST, &[1]),
    Back(laws::EXCHANGE, &[1, 0]),
    Ahead(laws::NEST, &[1]),
    Ahead(laws::FUSE, &[1, 1]),
    Clear(&[1, 1, 0]),
];

const NESTED_BETWEEN: &[Act] = &[
    Rewrite(acts::behind_assoc, &[1, 1]),
    Back(laws::FUSE, &[1, 1]),
    Back(laws::NEST, &[1]),
    Ahead(laws::FIRST_TWICE, &[1, 0]),
    Ahead(laws::NEST, &[1]),
    Ahead(laws::FUSE_FRONT, &[]),
    Clear(&[0, 0]),
    Clear(&[1, 1, 0]),
];

impl Move {
    /// The form of the stages that it looks at; nothing where that is an `arr`, then as many cells as there are, then an `arr`.
    pub fn form(&self) -> Option<Term> {
        Some(self.form).filter(|&form| form != CELLS).map(template)
    }

    /// Makes it.
    pub fn make(&self, w: &mut Draft) -> Option<()> {
        self.script.iter().try_for_each(|act| act.take(w))
    }
}

/// The first stages of those that are there, where they are of this form; the windows are those here.
pub fn window(form: Option<Term>, here: Term, windows: &[Option<Term>]) -> Option<Term> {
    if let Some(form) = form {
        return windows[length(form)].filter(|stages| fits(form, stages, &mut Letters::new()));
    }
    let cells = cells_behind(here);
    front(here, cells + 2).filter(|stages| cells > 0 && head(stages).op == Op::Arr && last(stages).op == Op::Arr)
}

/// The most stages of a form.
pub const WIDEST: usize = 4;

/// The first stages here: of each number up to the most, from none on.
pub fn windows(here: Term) -> Vec<Option<Term>> {
    (0..=WIDEST).map(|count| front(here, count)).collect()
}

impl Act {
    /// Takes it.
    pub fn take(self, w: &mut Draft) -> Option<()> {
        match self {
            Ahead(law, at) => w.forward(law, at),
            Any(laws, at) => laws.iter().find_map(|&law| w.forward(law, at)),
            Back(law, at) => w.back(law, at),
            Clear(at) => w.clear(at),
            Rewrite(rewriting, at) => w.rewrite(rewriting, at),
            Open(at) => acts::open(w, at),
            By(does) => does(w),
        }
    }
}

/// How many cells stand behind the first stage.
pub fn cells_behind(here: Term) -> usize {
    let mut found = here;
    let mut count = 0;
    while found.op == Op::Seq && is_cell(head(found.kids[1])) {
        found = found.kids[1];
        count += 1;
    }
    count
}
