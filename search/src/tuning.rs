//! What the searches are tuned by: what parts of networks cost, and how much is tried.
//!
//! Costs are instructions of a sample, about, as they were counted by callgrind on small networks (`bench/improving` shows what comes of
//! them).

/// A path, a literal, a parameter, no event.
pub const LEAF: u64 = 12;
/// One of the first two `fst` or `snd` of a path.
pub const PATH_STEP: u64 = 3;
/// Another one.
pub const LONG_PATH_STEP: u64 = 18;
/// `fst` or `snd` of what is no path.
pub const PART_OF_MADE: u64 = 60;
/// Arithmetic and `less`, beside their operands.
pub const ARITHMETIC: u64 = 15;
/// `equal`, beside its operands.
pub const EQUAL: u64 = 90;
/// An operand that is a path, a literal or a parameter.
pub const SIMPLE_OPERAND: u64 = 8;
/// An operand that is arithmetic, beside what it costs itself.
pub const COMPUTED_OPERAND: u64 = 45;
/// Another operand, beside what it costs itself: a value is made to be looked at.
pub const MADE_OPERAND: u64 = 165;
/// `and`, `or`, `not`.
pub const LOGIC: u64 = 25;
/// `if`, beside its condition and half of its branches.
pub const CHOICE: u64 = 12;
/// `pair` or `event`.
pub const MADE: u64 = 60;
/// A part of a pair that is itself a pair or an event.
pub const MADE_IN_PAIR: u64 = 40;
/// `list`.
pub const LIST: u64 = 150;
/// An element of a list.
pub const ELEMENT: u64 = 30;
/// `then` behind a path.
pub const THEN_OF_PATH: u64 = 100;
/// `then` behind what is no path.
pub const THEN: u64 = 190;
/// `on`.
pub const ON: u64 = 60;
/// Three times what an event adds to `on`, where there is one at every third sample.
pub const ON_EVENTS: u64 = 300;
/// `on` of what is no path.
pub const ON_MADE: u64 = 60;
/// `nth`.
pub const NTH: u64 = 30;
/// `len`.
pub const LEN: u64 = 20;
/// A list that is looked into and is no path.
pub const MADE_LIST: u64 = 100;
/// A quarter of a pair, event or list that is made where none stood.
pub const FRESH_QUARTER: u64 = 55;
/// How many quarters a pair, an event or a list is.
pub const QUARTERS: u64 = 4;

/// An `arr`, beside its expression.
pub const ARR: u64 = 45;
/// The root of an expression that has a closure of its own.
pub const SHAPED_ROOT: u64 = 20;
/// A whole comparison with a literal.
pub const COMPARISON: u64 = 15;
/// The root of a sum, a difference or a product.
pub const ARITHMETIC_ROOT: u64 = 85;
/// Another root.
pub const ROOT: u64 = 165;
/// A value that holds the whole input, which another part takes apart.
pub const HELD_INPUT: u64 = 140;
/// `>>>` behind a stage.
pub const STAGE: u64 = 45;
/// `>>>` behind a chain.
pub const STAGE_BEHIND_CHAIN: u64 = 90;
/// Lists that an `arr` hands on to the next one: the program shares them, but C copies them.
pub const LISTS_COPIED: u64 = 1_600;
/// `first`.
pub const FIRST: u64 = 200;
/// `loopPre`.
pub const LOOP: u64 = 275;
/// `loopPre` in which another one stands, which takes the memory of its pair.
pub const LOOP_ROUND_LOOP: u64 = 220;
/// `parB` or `kSwitch`.
pub const MEMBERS: u64 = 200;
/// A member, beside what it costs itself.
pub const MEMBER: u64 = 30;
/// `switch`, `rSwitch` and those that are delayed.
pub const SWITCH: u64 = 150;
/// `pSwitch` or `rpSwitchB`.
pub const COLLECTION: u64 = 300;
/// `delay`.
pub const DELAY: u64 = 300;
/// Another cell, `-->` or `>--`.
pub const CELL: u64 = 90;
/// A frozen network.
pub const FROZEN: u64 = 60;

/// What a larger expression has to save.
pub const GROWTH_MARGIN: u64 = 90;
/// What a part costs at least that is shared.
pub const LEAST_SHARED: u64 = 60;
/// What is left at most of the cost of an expression of which parts are handed on beside the input.
pub const MOST_LEFT: (u64, u64) = (3, 4);
/// How many parts that are computed more than once are looked at.
pub const MOST_REPEATED: usize = 24;
/// Of how many ways to hand some on the cheapest is taken that isn't too many bytes of steps.
pub const MOST_SHARINGS: usize = 3;
/// How many bytes of steps that may take.
pub const MOST_SHARING_BYTES: usize = 500_000;
/// What each state beyond two costs more than is estimated, where loops are made one.
pub const STATE: u64 = 250;
/// One loop in place of others has to save one part in so many.
pub const LEAST_SAVED: u64 = 8;

/// The greatest size of an expression that an `if` or `on` is taken out of.
pub const MOST_LIFTED: u64 = 200;
/// Where the product of two sizes passes this, one expression isn't carried into the other: what comes of it could be too large.
pub const MOST_PRODUCT: u64 = 100_000;
/// Where the sum of two heights passes this, it isn't either; nor are terms put in order, or products multiplied out, where that gets higher.
pub const MOST_SUM: u32 = 240;
/// How deep `then` is carried inwards.
pub const MOST_CARRIED: u32 = 1_000;
/// How many different parts of an expression are counted, to be shared.
pub const MOST_PARTS: usize = 200;
/// How many steps one expression may take.
pub const MOST_EXPRESSION_STEPS: usize = 9_000;
/// How many expressions a check may go over, for the steps of one: it goes over all of it for each.
pub const MOST_CHECKED: u64 = 130_000_000;
/// The greatest height of a difference that becomes a sum: each one in it makes the sum higher by one.
pub const MOST_DIFFERENCE: u32 = 100;
/// The most terms that a product may become.
pub const MOST_TERMS: u32 = 64;
/// The greatest size of all these together.
pub const MOST_TERMS_SIZE: u64 = 10_000;

/// How much work `improve` may take: expressions rewritten, and moves tried.
pub const MOST_IMPROVING: u64 = 10_000_000;
/// The most nodes of a network that is searched twice.
pub const MOST_TWICE: u64 = 5_000;
/// How much work normal forms may take beside that.
pub const MOST_FORMING: u64 = 1_000_000;
/// How deep moves are made in what moves build.
pub const MOST_BUILT: u32 = 3;
/// How often what moves build is improved.
pub const MOST_TRIES: u32 = 3_000;
/// How many places of a chain are looked at.
pub const MOST_PLACES: u32 = 100_000;
/// The most steps that laws of `optimise` take.
pub const MOST_OPTIMISED: usize = 1_000;
/// The most stages of a chain that are made one loop.
pub const MOST_JOINED_STAGES: usize = 8;
/// The most networks that are made one loop.
pub const MOST_JOINED_NETS: u32 = 40;
/// How much work joining loops may take, beside a quarter of that before.
pub const FEW_JOINING: u64 = 100_000;
/// What is found for a network is kept, for others that are the same, where it has so few steps.
pub const MOST_KEPT: usize = 200;
/// What it takes to try a move.
pub const MOVE: u64 = 2;
/// How much higher than it is a network may get where it is improved: with as much room or more, the same is found.
pub const ROOM: usize = 40;

// certify

/// How many nodes each of the searches for a certificate visits.
pub const MOST_WORK: u64 = 5_000_000;
/// The same, between what others of these searches lead to.
pub const MOST_BETWEEN: u64 = 1_000_000;
/// Where so few steps were found, it isn't looked at what `optimise` makes of both.
pub const FEW_STEPS: usize = 10;
/// Where so few steps were found, it isn't looked for what costs less than both, or for steps that bring them nearer.
pub const MANY_STEPS: usize = 60;
/// Where so few steps were found, it isn't looked for normal forms, or for loops made one.
pub const VERY_MANY_STEPS: usize = 200;
/// How many steps are looked back at, where steps that lead nowhere are left out.
pub const MOST_LOOKS_BACK: u64 = 10_000_000;
/// How many nodes are visited, about, where two trees are compared or a law is tried.
pub const LOOK: u64 = 30;
/// How deep it is looked into two trees that differ.
pub const MOST_DEPTH: usize = 1_000;
/// How much is tried where two differ, beside what is tried at their parts: so many steps there; with the greatest number, normal forms.
pub const MOST_EFFORT: u32 = 4;
/// The most pairs of stages that are compared.
pub const MOST_STAGE_PAIRS: usize = 400_000;
/// Two chains of which one has more stages, and that are searched twice, are made the same by what costs less, not by normal forms.
pub const MANY_STAGES: u32 = 100;
/// The most nodes of a network, once for each step from it, where laws of networks are taken again.
pub const MOST_TAKEN_AGAIN: u64 = 2_000_000;
/// How many nodes are visited where steps are looked for that bring two networks nearer.
pub const MOST_CLIMBING: u64 = 15_000_000;
/// The same, by all laws.
pub const FEW_CLIMBING: u64 = 3_000_000;
/// How many pairs of networks are kept then, by the product of the sizes of the two; of larger ones none are.
pub const WIDTHS: [(u64, usize); 4] = [(60_000, 20), (250_000, 8), (1_500_000, 4), (6_000_000, 2)];
/// A node that only one of them has weighs as much as so many steps that have to be undone.
pub const UNDONE: u64 = 2;
/// Of how many pairs of trees it is kept how far they are from one another.
pub const MOST_APART: usize = 1_000_000;
/// How many rounds may bring nothing nearer then.
pub const MOST_IDLE: u32 = 25;
/// In a network of so few nodes steps are tried at all places then.
pub const FEW_NODES: u64 = 200;
/// The most nodes of two networks of which that is tried.
pub const MOST_SINGLE_SIZE: u64 = 1_500;
/// The most steps of that.
pub const MOST_SINGLE_STEPS: usize = 25_000;
/// The most reductions of such a network.
pub const MOST_REDUCTIONS: usize = 400;
/// The most members that are made boxes behind one another.
pub const MOST_BESIDE: usize = 8;
