//! The proved library against plain Rust: first that both give the same in every call, then how long each takes.

mod plain;

use plain::Ask;
use std::fmt::{Arguments, Debug};
use std::hint::black_box;
use std::time::{Duration, Instant};

const CHANNELS: u64 = 1;
const GROUPS: u64 = 2;
const TREE: u64 = 3;
const IMAGE: usize = 2064;
const MOST_LINKS: usize = 256;

// ---------------------------------------------------------------------------------------------------------------------
// The two implementations, called alike
// ---------------------------------------------------------------------------------------------------------------------

/// With no margin.
fn asks(kind: u64, parameter: u64) -> Ask {
    Ask { kind, parameter, margin: 0 }
}

/// Calls through pointers: neither implementation can be inlined into the measurement.
struct Library {
    begin: fn(&mut [u8], u64) -> u64,
    add: fn(&mut [u8], u64, u64, u16) -> u64,
    remove: fn(&mut [u8], u64, u64) -> u64,
    bits: fn(&[u8], Ask) -> Result<i64, u64>,
    penalty: fn(&[u8], Ask) -> Result<i64, u64>,
    constant: fn(&[u8], Ask) -> Result<i64, u64>,
    row: fn(&[u8], Ask, u64, &mut [i64]) -> u64,
    energy: fn(&[u8], Ask, &[u8]) -> Result<i64, u64>,
    code: fn(&[u8], Ask, &[u8], &mut [u8]) -> u64,
    decode: fn(&[u8], Ask, &[u8], &mut [u8]) -> Result<(u64, u64), u64>,
}

static OURS: Library = Library {
    begin: ours::begin,
    add: ours::add,
    remove: ours::remove,
    bits: ours::bits,
    penalty: ours::penalty,
    constant: ours::constant,
    row: ours::row,
    energy: ours::energy,
    code: ours::code,
    decode: ours::decode,
};

static RUST: Library = Library {
    begin: plain::begin,
    add: plain::add,
    remove: plain::remove,
    bits: plain::bits,
    penalty: plain::penalty,
    constant: plain::constant,
    row: plain::row,
    energy: plain::energy,
    code: plain::code,
    decode: plain::decode,
};

/// include/meterplan.h, and its calls over slices.
mod ours {
    use super::Ask;

    #[repr(C)]
    struct Number {
        refusal: u64,
        value: i64,
    }

    #[repr(C)]
    struct Decoded {
        refusal: u64,
        weight: u64,
        repaired: u64,
    }

    #[rustfmt::skip]
    extern "C" {
        fn meterplan_begin(image: *mut u8, image_len: usize, meters: u64) -> u64;
        fn meterplan_add(image: *mut u8, image_len: usize, u: u64, v: u64, weight: u16) -> u64;
        fn meterplan_remove(image: *mut u8, image_len: usize, u: u64, v: u64) -> u64;
        fn meterplan_bits(image: *const u8, image_len: usize, ask: Ask) -> Number;
        fn meterplan_penalty(image: *const u8, image_len: usize, ask: Ask) -> Number;
        fn meterplan_constant(image: *const u8, image_len: usize, ask: Ask) -> Number;
        fn meterplan_row(image: *const u8, image_len: usize, ask: Ask, i: u64,
                         out: *mut i64, out_len: usize) -> u64;
        fn meterplan_energy(image: *const u8, image_len: usize, ask: Ask,
                            bits: *const u8, bits_len: usize) -> Number;
        fn meterplan_code(image: *const u8, image_len: usize, ask: Ask,
                          plan: *const u8, plan_len: usize, bits: *mut u8, bits_len: usize) -> u64;
        fn meterplan_decode(image: *const u8, image_len: usize, ask: Ask,
                            bits: *const u8, bits_len: usize, plan: *mut u8, plan_len: usize) -> Decoded;
    }

    /// "A refused call alters nothing, and gives 0 for all its other values."
    fn answer<T: Default + PartialEq + std::fmt::Debug>(refusal: u64, value: T) -> Result<T, u64> {
        if refusal == 0 {
            return Ok(value);
        }
        super::same(format_args!("ours, values beside refusal {refusal}"), value, T::default());
        Err(refusal)
    }

    // Safe: every pointer comes from a slice with its length, and what may be altered is borrowed alone.

    pub fn begin(image: &mut [u8], meters: u64) -> u64 {
        unsafe { meterplan_begin(image.as_mut_ptr(), image.len(), meters) }
    }

    pub fn add(image: &mut [u8], u: u64, v: u64, weight: u16) -> u64 {
        unsafe { meterplan_add(image.as_mut_ptr(), image.len(), u, v, weight) }
    }

    pub fn remove(image: &mut [u8], u: u64, v: u64) -> u64 {
        unsafe { meterplan_remove(image.as_mut_ptr(), image.len(), u, v) }
    }

    pub fn bits(image: &[u8], ask: Ask) -> Result<i64, u64> {
        let number = unsafe { meterplan_bits(image.as_ptr(), image.len(), ask) };
        answer(number.refusal, number.value)
    }

    pub fn penalty(image: &[u8], ask: Ask) -> Result<i64, u64> {
        let number = unsafe { meterplan_penalty(image.as_ptr(), image.len(), ask) };
        answer(number.refusal, number.value)
    }

    pub fn constant(image: &[u8], ask: Ask) -> Result<i64, u64> {
        let number = unsafe { meterplan_constant(image.as_ptr(), image.len(), ask) };
        answer(number.refusal, number.value)
    }

    pub fn row(image: &[u8], ask: Ask, i: u64, out: &mut [i64]) -> u64 {
        unsafe { meterplan_row(image.as_ptr(), image.len(), ask, i, out.as_mut_ptr(), out.len()) }
    }

    pub fn energy(image: &[u8], ask: Ask, bits: &[u8]) -> Result<i64, u64> {
        let number = unsafe { meterplan_energy(image.as_ptr(), image.len(), ask, bits.as_ptr(), bits.len()) };
        answer(number.refusal, number.value)
    }

    pub fn code(image: &[u8], ask: Ask, plan: &[u8], bits: &mut [u8]) -> u64 {
        let (lent, out) = ((plan.as_ptr(), plan.len()), (bits.as_mut_ptr(), bits.len()));
        unsafe { meterplan_code(image.as_ptr(), image.len(), ask, lent.0, lent.1, out.0, out.1) }
    }

    pub fn decode(image: &[u8], ask: Ask, bits: &[u8], plan: &mut [u8]) -> Result<(u64, u64), u64> {
        let (lent, out) = ((bits.as_ptr(), bits.len()), (plan.as_mut_ptr(), plan.len()));
        let decoded = unsafe { meterplan_decode(image.as_ptr(), image.len(), ask, lent.0, lent.1, out.0, out.1) };
        answer(decoded.refusal, (decoded.weight, decoded.repaired))
    }
}

// ---------------------------------------------------------------------------------------------------------------------
// Comparing
// ---------------------------------------------------------------------------------------------------------------------

trait Answer: Copy + PartialEq + Debug {
    fn refused(self) -> bool;
}

impl Answer for u64 {
    fn refused(self) -> bool {
        self != 0
    }
}

impl<T: Copy + PartialEq + Debug> Answer for Result<T, u64> {
    fn refused(self) -> bool {
        self.is_err()
    }
}

fn differ(what: Arguments, ours: impl Debug, rust: impl Debug) -> ! {
    println!("DIFFERENCE: {what}: {ours:?}, not {rust:?}");
    std::process::exit(1);
}

fn same<T: PartialEq + Debug>(what: Arguments, ours: T, rust: T) {
    if ours != rust {
        differ(what, ours, rust);
    }
}

fn same_slice<T: PartialEq + Debug>(what: Arguments, ours: &[T], rust: &[T]) {
    if let Some(at) = ours.iter().zip(rust).position(|(x, y)| x != y) {
        differ(format_args!("{what}, place {at}"), &ours[at], &rust[at]);
    }
}

/// A call of both that alters nothing.
fn asked<A: Answer>(what: Arguments, call: impl Fn(&Library) -> A) -> A {
    let answer = call(&RUST);
    same(what, call(&OURS), answer);
    answer
}

/// A call of both that may alter what is lent: equally, and not at all if refused.
fn lent<T, A>(what: Arguments, lent: &mut [T], call: impl Fn(&Library, &mut [T]) -> A) -> A
where
    T: Copy + PartialEq + Debug,
    A: Answer,
{
    let before = lent.to_vec();
    let mut ours = before.clone();
    let answer = call(&RUST, lent);
    same(what, call(&OURS, &mut ours), answer);
    same_slice(format_args!("{what}, lent to both"), &ours, lent);
    if answer.refused() {
        same_slice(format_args!("{what}, lent to ours though refused"), &ours, &before);
    }
    answer
}

// ---------------------------------------------------------------------------------------------------------------------
// Inputs
// ---------------------------------------------------------------------------------------------------------------------

struct Random(u32);

impl Random {
    fn next(&mut self) -> u32 {
        self.0 = self.0.wrapping_mul(1664525).wrapping_add(1013904223);
        self.0
    }

    /// By the upper bits; the lower ones of such a generator have short periods.
    fn below(&mut self, limit: usize) -> usize {
        ((u64::from(self.next()) * limit as u64) >> 32) as usize
    }

    fn from(&mut self, first: u64, last: u64) -> u64 {
        first + self.below((last - first + 1) as usize) as u64
    }

    fn one_in(&mut self, n: usize) -> bool {
        self.below(n) == 0
    }

    fn byte(&mut self) -> u8 {
        self.below(256) as u8
    }

    fn weight(&mut self) -> u16 {
        match self.below(8) {
            0 => 65535,
            1 => 1,
            _ => self.from(1, 65535) as u16,
        }
    }

    fn margin(&mut self) -> u64 {
        match self.below(8) {
            0 => 1_000_000,
            1 => 1_000_001,
            2 => self.from(1, 1_000_000),
            3 => self.from(1, 9),
            _ => 0,
        }
    }

    fn shuffle<T>(&mut self, items: &mut [T]) {
        for last in (1..items.len()).rev() {
            items.swap(last, self.below(last + 1));
        }
    }

    /// Each bit set with a chance of 1 in `n`.
    fn bits(&mut self, length: usize, n: usize) -> Vec<u8> {
        (0..length).map(|_| u8::from(self.one_in(n))).collect()
    }
}

/// A site image, made by both through the calls, and its links as the image has them in its chain.
#[derive(Clone)]
struct Survey {
    meters: u64,
    links: Vec<(u64, u64, u16)>,
    image: Vec<u8>,
}

impl Survey {
    fn new(meters: u64) -> Survey {
        let mut image = vec![0xA5; IMAGE];
        let answer = lent(format_args!("begin {meters}"), &mut image, |library, image| (library.begin)(image, meters));
        assert_eq!(answer, 0);
        Survey { meters, links: Vec::new(), image }
    }

    /// What both answer; the links are kept in step when it is 0.
    fn add(&mut self, u: u64, v: u64, weight: u16) -> u64 {
        let what = format_args!("add {u}-{v} weight {weight} to {} links", self.links.len());
        let answer = lent(what, &mut self.image, |library, image| (library.add)(image, u, v, weight));
        if answer == 0 {
            self.links.push((u.min(v), u.max(v), weight));
            self.links.sort_unstable();
        }
        answer
    }

    fn remove(&mut self, u: u64, v: u64) -> u64 {
        let what = format_args!("remove {u}-{v} from {} links", self.links.len());
        let answer = lent(what, &mut self.image, |library, image| (library.remove)(image, u, v));
        if answer == 0 {
            self.links.retain(|link| (link.0, link.1) != (u.min(v), u.max(v)));
        }
        answer
    }

    /// A site of that many links: first a path or a star or what lies between, so that trees exist, then any.
    fn random(meters: u64, links: usize, random: &mut Random) -> Survey {
        let mut survey = Survey::new(meters);
        let links = links.min((meters * (meters - 1) / 2) as usize);
        for meter in 2..=meters.min(links as u64 + 1) {
            let other = random.from(1, meter - 1);
            survey.add(meter, other, random.weight());
        }
        while survey.links.len() < links {
            let (u, v) = (random.from(1, meters), random.from(1, meters));
            survey.add(u, v, random.weight());
        }
        survey
    }

    fn bits(&self, ask: Ask) -> Result<usize, u64> {
        let what = format_args!("bits, {ask:?}");
        asked(what, |library| (library.bits)(&self.image, ask)).map(|bits| bits as usize)
    }

    /// Parents found breadth first from a meter, nobody with more than `limit` neighbours; a meter not reached stays
    /// without a parent, and then it is no plan.
    fn parents(&self, root: u64, limit: usize) -> Vec<u8> {
        let mut parents = vec![0; self.meters as usize];
        let mut queue = vec![root];
        let mut at = 0;
        while at < queue.len() {
            let meter = queue[at];
            let mut free = limit - usize::from(meter != root);
            for &(u, v, _) in &self.links {
                let other = if u == meter { v } else { u };
                if (u == meter || v == meter) && free > 0 && !queue.contains(&other) {
                    parents[other as usize - 1] = meter as u8;
                    queue.push(other);
                    free -= 1;
                }
            }
            at += 1;
        }
        parents
    }

    /// Bytes that are mostly a plan, if there is one.
    fn plan(&self, ask: Ask, random: &mut Random) -> Vec<u8> {
        let meters = self.meters as usize;
        let choices = ask.parameter.clamp(1, 255) as usize;
        match ask.kind {
            CHANNELS => (0..meters).map(|_| 1 + random.below(choices) as u8).collect(),
            GROUPS => {
                let mut plan: Vec<u8> = (0..meters).map(|meter| 1 + (meter % choices) as u8).collect();
                random.shuffle(&mut plan);
                plan
            }
            _ => self.parents(random.from(1, self.meters), choices),
        }
    }

    /// The bits that a tree would set whose meters all had one neighbour: all but a code where there is no plan.
    fn near_code(&self, parents: &[u8], limit: usize) -> Vec<u8> {
        let meters = self.meters as usize;
        let deepest = meters / 2;
        let arcs_at = meters * (deepest + 1);
        let counts_at = arcs_at + 2 * self.links.len() * deepest;
        let mut bits = vec![0; counts_at + meters * limit];
        for meter in 0..meters {
            let depth = depth(parents, meter).min(deepest);
            bits[meter * (deepest + 1) + depth] = 1;
            bits[counts_at + meter * limit] = 1;
            let parent = u64::from(parents[meter]);
            let child = meter as u64 + 1;
            let ends = (parent.min(child), parent.max(child));
            if let Some(link) = self.links.iter().position(|link| (link.0, link.1) == ends) {
                let arc = 2 * link + usize::from(child < parent);
                bits[arcs_at + arc * deepest + depth - 1] = 1;
            }
        }
        bits
    }
}

fn depth(parents: &[u8], meter: usize) -> usize {
    match parents[meter] {
        0 => 0,
        parent => 1 + depth(parents, usize::from(parent) - 1),
    }
}

/// Bits of channels: meters with none, with one and with several set, a third each.
fn channel_mix(meters: usize, n: usize, random: &mut Random) -> Vec<u8> {
    let mut bits = vec![0; meters * n];
    for meter in bits.chunks_exact_mut(n) {
        let set = [0, 1, 1 + random.below(n)][random.below(3)];
        for _ in 0..set {
            meter[random.below(n)] = 1;
        }
    }
    bits
}

// ---------------------------------------------------------------------------------------------------------------------
// That both give the same
// ---------------------------------------------------------------------------------------------------------------------

/// What is lent, and what is asked for; said when something differs.
#[derive(Clone, Copy)]
struct Problem<'a> {
    image: &'a [u8],
    ask: Ask,
}

impl Problem<'_> {
    fn numbers(&self) -> Result<i64, u64> {
        let &Problem { image, ask } = self;
        let what = |name| format!("{name}, {ask:?}");
        asked(format_args!("{}", what("penalty")), |library| (library.penalty)(image, ask)).ok();
        asked(format_args!("{}", what("constant")), |library| (library.constant)(image, ask)).ok();
        asked(format_args!("{}", what("bits")), |library| (library.bits)(image, ask))
    }

    /// The row and three places after it, or as many fewer as `short` says.
    fn row(&self, i: u64, bits: usize, short: usize) -> u64 {
        let &Problem { image, ask } = self;
        let length = bits.saturating_sub(i as usize);
        let mut out = vec![-0x5A5A_5A5A_5A5A; (length + 3).saturating_sub(short)];
        let what = format_args!("row {i}, {ask:?}, lent {}", out.len());
        let answer = lent(what, &mut out, |library, out| (library.row)(image, ask, i, out));
        if answer == 0 {
            same(format_args!("{what}, rest"), out[length..].iter().all(|&rest| rest == -0x5A5A_5A5A_5A5A), true);
        }
        answer
    }

    fn energy(&self, bits: &[u8]) -> Result<i64, u64> {
        let &Problem { image, ask } = self;
        let what = format_args!("energy, {ask:?}, {} bits", bits.len());
        asked(what, |library| (library.energy)(image, ask, bits))
    }

    fn code(&self, plan: &[u8], bits: usize) -> Result<Vec<u8>, u64> {
        let &Problem { image, ask } = self;
        let mut code = vec![0xA5; bits];
        let what = format_args!("code, {ask:?}, plan {plan:?}");
        match lent(what, &mut code, |library, code| (library.code)(image, ask, plan, code)) {
            0 => Ok(code),
            refusal => Err(refusal),
        }
    }

    fn decode(&self, bits: &[u8], meters: usize) -> Result<Vec<u8>, u64> {
        let &Problem { image, ask } = self;
        let mut plan = vec![0xA5; meters];
        let what = format_args!("decode, {ask:?}, {} bits", bits.len());
        lent(what, &mut plan, |library, plan| (library.decode)(image, ask, bits, plan)).map(|_| plan)
    }
}

/// The numbers that a call may be refused by.
const REFUSALS: [usize; 13] = [1, 2, 3, 4, 5, 6, 7, 8, 9, 10, 11, 12, 18];

/// How often something that should happen did; a check that never met it has checked nothing.
#[derive(Default)]
struct Tally {
    calls: [u64; REFUSALS[REFUSALS.len() - 1] + 1],
}

impl Tally {
    fn note<T>(&mut self, answer: Result<T, u64>) -> Result<T, u64> {
        self.calls[answer.as_ref().err().map_or(0, |&refusal| refusal as usize)] += 1;
        answer
    }

    fn note_number(&mut self, answer: u64) {
        self.calls[answer as usize] += 1;
    }
}

/// One plan and its code, also spoilt by one byte, and what comes of them.
fn check_plan(survey: &Survey, problem: Problem, random: &mut Random, tally: &mut Tally) {
    let bits = survey.bits(problem.ask).expect("accepted");
    let mut plan = survey.plan(problem.ask, random);
    if let Ok(mut code) = tally.note(problem.code(&plan, bits)) {
        tally.note(problem.energy(&code)).ok();
        let back = tally.note(problem.decode(&code, plan.len()));
        same(format_args!("plan of a code, {:?}", problem.ask), back, Ok(plan.clone()));
        let at = random.below(bits);
        code[at] ^= 1;
        tally.note(problem.energy(&code)).ok();
        tally.note(problem.decode(&code, plan.len())).ok();
        let other = random.below(bits);
        code[other] ^= 1;
        tally.note(problem.decode(&code, plan.len())).ok();
    }
    let at = random.below(plan.len());
    plan[at] = if random.one_in(4) { random.byte() } else { random.below(plan.len() + 2) as u8 };
    if let Ok(code) = tally.note(problem.code(&plan, bits)) {
        tally.note(problem.decode(&code, plan.len())).ok();
    }
}

fn check_assignment(survey: &Survey, problem: Problem, random: &mut Random, tally: &mut Tally) {
    let length = survey.bits(problem.ask).expect("accepted");
    let density = [1, 2, 3, 16, 200][random.below(5)];
    let mut bits = match problem.ask.kind {
        CHANNELS if random.one_in(2) => channel_mix(survey.meters as usize, problem.ask.parameter as usize, random),
        _ => random.bits(length, density),
    };
    let meters = survey.meters as usize;
    tally.note(problem.energy(&bits)).ok();
    tally.note(problem.decode(&bits, meters)).ok();
    tally.note(problem.decode(&bits, meters + 1 - 2 * random.below(2))).ok();
    let at = random.below(length);
    bits[at] = random.byte();
    tally.note(problem.energy(&bits)).ok();
    tally.note(problem.decode(&bits, meters)).ok();
    tally.note(problem.decode(&bits, meters - 1)).ok();
    bits.resize(length + 1 - 2 * random.below(2), 0);
    tally.note(problem.energy(&bits)).ok();
    tally.note(problem.decode(&bits, meters)).ok();
}

/// All rows, refused ones, and that many assignments and plans.
fn check_problem(survey: &Survey, ask: Ask, tries: usize, random: &mut Random, tally: &mut Tally) {
    let problem = Problem { image: &survey.image, ask };
    let Ok(bits) = tally.note(problem.numbers()) else {
        every_call(survey, problem, random, tally);
        return;
    };
    let bits = bits as usize;
    for i in 0..bits as u64 {
        tally.note_number(problem.row(i, bits, 0));
    }
    for i in [0, bits as u64 / 2, bits as u64 - 1] {
        tally.note_number(problem.row(i, bits, 3));
        tally.note_number(problem.row(i, bits, 4));
        tally.note_number(problem.row(i, bits, usize::MAX));
    }
    for i in [bits as u64, bits as u64 + 1, 1 << 32, u64::MAX] {
        tally.note_number(problem.row(i, bits, 0));
        tally.note_number(problem.row(i, bits, usize::MAX));
    }
    for _ in 0..tries {
        check_assignment(survey, problem, random, tally);
        check_plan(survey, problem, random, tally);
    }
}

/// Every call once, with an image and an ask that may be anything; the survey tells what may fit.
fn every_call(survey: &Survey, problem: Problem, random: &mut Random, tally: &mut Tally) {
    let Problem { image, ask } = problem;
    let meters = survey.meters as usize;
    let bits = tally.note(problem.numbers()).map_or(64 + random.below(8), |bits| bits as usize);
    let meters = if random.one_in(8) { random.below(49) } else { meters };
    tally.note_number(problem.row(random.below(bits + 1) as u64, bits, random.below(5)));
    let density = [2, 8, 64][random.below(3)];
    let assignment = random.bits(bits, density);
    tally.note(problem.energy(&assignment)).ok();
    tally.note(problem.decode(&assignment, meters)).ok();
    tally.note(problem.code(&survey.plan(ask, random), bits)).ok();
    let (u, v, weight) = (random.from(0, 50), random.from(0, 50), random.weight());
    for mut altered in [image.to_vec(), image.to_vec()] {
        let what = format_args!("add {u}-{v} to a spoilt image");
        tally.note_number(lent(what, &mut altered, |library, image| (library.add)(image, u, v, weight)));
        let what = format_args!("remove {u}-{v} from a spoilt image");
        tally.note_number(lent(what, &mut altered, |library, image| (library.remove)(image, u, v)));
        let what = format_args!("begin {u} over a spoilt image");
        tally.note_number(lent(what, &mut altered, |library, image| (library.begin)(image, u)));
    }
}

fn random_ask(random: &mut Random) -> Ask {
    let ask = match random.below(3) {
        0 => asks(CHANNELS, random.from(1, 16)),
        1 => asks(GROUPS, random.from(2, 16)),
        _ => asks(TREE, random.from(1, 47)),
    };
    Ask { margin: random.margin(), ..ask }
}

/// A single byte altered: often in the header and often to a small number, where a chain may go on.
fn spoil_byte(image: &mut [u8], random: &mut Random) {
    let at = if random.one_in(3) { random.below(16) } else { random.below(IMAGE) };
    image[at] = if random.one_in(2) { random.byte() } else { random.below(4) as u8 };
}

/// A field of one record copied to another, often the next of its chain: links twice, chains that meet or go in rings.
fn spoil_field(image: &mut [u8], random: &mut Random) {
    let at = |record: usize| 8 + 8 * record;
    let among = if random.one_in(2) { 8 } else { 256 };
    let first = 1 + random.below(among);
    let next = usize::from(image[at(first) + 4]) + 256 * usize::from(image[at(first) + 5]);
    let second = if next == 0 || random.one_in(3) { 1 + random.below(256) } else { next };
    let field = 2 * random.below(4);
    image.copy_within(at(first) + field..at(first) + field + 2, at(second) + field);
}

fn spoil(image: &mut [u8], random: &mut Random) {
    match random.below(8) {
        0 => spoil_field(image, random),
        1 => {
            spoil_byte(image, random);
            spoil_byte(image, random);
        }
        _ => spoil_byte(image, random),
    }
}

fn check_spoilt_images(random: &mut Random, tally: &mut Tally) {
    for (meters, links) in [(1, 0), (2, 1), (5, 7), (9, 20), (24, 255), (24, 256), (48, 100), (48, 256)] {
        for _ in 0..8 {
            let survey = Survey::random(meters, links, random);
            for _ in 0..100 {
                let mut image = survey.image.clone();
                spoil(&mut image, random);
                let ask = random_ask(random);
                every_call(&survey, Problem { image: &image, ask }, random, tally);
            }
        }
    }
}

/// Images of other lengths, kinds, parameters and margins at and outside their limits.
fn check_refusals(random: &mut Random, tally: &mut Tally) {
    let one = Survey::random(1, 0, random);
    let some = Survey::random(7, 12, random);
    let full = Survey::random(48, MOST_LINKS, random);
    let numbers = [0, 1, 2, 3, 4, 16, 17, 46, 47, 48, 255, 256, 257, 1 << 32, (1 << 32) + 2, u64::MAX];
    for survey in [&one, &some, &full] {
        for kind in numbers {
            for parameter in numbers {
                every_call(survey, Problem { image: &survey.image, ask: asks(kind, parameter) }, random, tally);
            }
        }
        for kind in 0..=4 {
            for margin in [1, 999_999, 1_000_000, 1_000_001, 1 << 32, u64::MAX] {
                let ask = Ask { margin, ..asks(kind, 2) };
                every_call(survey, Problem { image: &survey.image, ask }, random, tally);
            }
        }
        for length in [0, 1, 16, IMAGE - 1, IMAGE + 1, 2 * IMAGE] {
            let mut image = survey.image.clone();
            image.resize(length, 0);
            let ask = random_ask(random);
            every_call(survey, Problem { image: &image, ask }, random, tally);
        }
    }
    for meters in numbers {
        let mut image = vec![0xA5; IMAGE];
        let answer = lent(format_args!("begin {meters}"), &mut image, |library, image| (library.begin)(image, meters));
        tally.note_number(answer);
    }
}

/// Random edits of one site, now mostly adding, now mostly removing, so that it fills and empties; one in eight is
/// refused for its ends or weight.
fn check_edits(meters: u64, edits: usize, random: &mut Random, tally: &mut Tally) {
    let mut survey = Survey::new(meters);
    for edit in 0..edits {
        let (mut u, mut v, mut weight) = (random.from(1, meters), random.from(1, meters), random.weight());
        match random.below(24) {
            0 => u = [0, meters + 1, 256 + v, 1 << 32, u64::MAX][random.below(5)],
            1 => v = u,
            2 => weight = 0,
            _ => {}
        }
        let adding = edit / 700 % 2 == 0;
        let answer = if random.one_in(8) != adding { survey.add(u, v, weight) } else { survey.remove(u, v) };
        tally.note_number(answer);
        if edit % 50 == 0 {
            let ask = random_ask(random);
            every_call(&survey, Problem { image: &survey.image, ask }, random, tally);
        }
    }
}

fn check_small_sites(random: &mut Random, tally: &mut Tally) {
    for _ in 0..150 {
        let meters = random.from(1, 12);
        let survey = Survey::random(meters, random.below(20), random);
        let ask = random_ask(random);
        check_problem(&survey, ask, 4, random, tally);
        let ask = Ask { margin: random.margin(), ..asks(random.from(1, 3), random.from(1, 4)) };
        check_problem(&survey, ask, 8, random, tally);
    }
}

/// One of the four problems that are measured, with assignments and a plan.
struct Case {
    name: &'static str,
    survey: Survey,
    ask: Ask,
    bits: usize,
    random: Vec<u8>,
    plan: Vec<u8>,
    /// The plan's code; where no plan exists, all but one.
    coded: Vec<u8>,
}

impl Case {
    /// Trees get one bit in 50, others one in 4.
    fn new(name: &'static str, survey: Survey, ask: Ask, random: &mut Random) -> Case {
        let bits = survey.bits(ask).expect("accepted");
        let assignment = random.bits(bits, if ask.kind == TREE { 50 } else { 4 });
        let mut plan = survey.plan(ask, random);
        let mut coded = vec![0; bits];
        if (RUST.code)(&survey.image, ask, &plan, &mut coded) != 0 {
            assert_eq!((ask.kind, ask.parameter), (TREE, 1), "only the tree with d = 1 is without a plan");
            plan = survey.parents(1, 47);
            coded = survey.near_code(&plan, 1);
        }
        Case { name, survey, ask, bits, random: assignment, plan, coded }
    }

    fn problem(&self) -> Problem<'_> {
        Problem { image: &self.survey.image, ask: self.ask }
    }

    /// Whether the tree's limit lets no plan be.
    fn planless(&self) -> bool {
        self.ask.kind == TREE && self.ask.parameter == 1
    }

    fn check(&self, random: &mut Random, tally: &mut Tally) {
        check_problem(&self.survey, self.ask, 300, random, tally);
        for bits in [&self.random, &self.coded] {
            tally.note(self.problem().energy(bits)).ok();
            tally.note(self.problem().decode(bits, self.plan.len())).ok();
        }
        tally.note(self.problem().code(&self.plan, self.bits)).ok();
    }
}

fn cases(random: &mut Random) -> Vec<Case> {
    let full = Survey::random(48, MOST_LINKS, random);
    let wide = Survey::random(48, 144, random);
    let dense = Survey::random(24, 200, random);
    vec![
        Case::new("channels 48x16, 256 links", full.clone(), asks(CHANNELS, 16), random),
        Case::new("groups 48x16, 256 links", full, asks(GROUPS, 16), random),
        Case::new("tree 48, 144 links, d=1", wide, asks(TREE, 1), random),
        Case::new("tree 24, 200 links, d=12", dense, asks(TREE, 12), random),
    ]
}

fn check(cases: &[Case], random: &mut Random) {
    let start = Instant::now();
    let mut tally = Tally::default();
    for case in cases {
        case.check(random, &mut tally);
    }
    check_small_sites(random, &mut tally);
    check_spoilt_images(random, &mut tally);
    check_refusals(random, &mut tally);
    for meters in [3, 12, 24, 48] {
        check_edits(meters, 2800, random, &mut tally);
    }
    let refused = REFUSALS.map(|number| tally.calls[number]);
    println!("same in {} calls answered and in those refused by {REFUSALS:?}: {refused:?}", tally.calls[0]);
    same(format_args!("whether a refusal was never met"), refused.contains(&0), false);
    println!("checked in {:.1} s\n", start.elapsed().as_secs_f64());
}

// ---------------------------------------------------------------------------------------------------------------------
// How long each takes
// ---------------------------------------------------------------------------------------------------------------------

const ROUNDS: usize = 31;
const LEAST_SAMPLE: Duration = Duration::from_millis(2);

fn sample(library: &Library, repeats: u32, work: &mut impl FnMut(&Library)) -> Duration {
    let start = Instant::now();
    for _ in 0..repeats {
        work(black_box(library));
    }
    start.elapsed()
}

/// The best of several samples of each, taken in turn, so that both meet the same machine.
fn measure(name: &str, mut work: impl FnMut(&Library)) {
    let mut repeats = 1;
    while sample(&OURS, repeats, &mut work).min(sample(&RUST, repeats, &mut work)) < LEAST_SAMPLE {
        repeats *= 2;
    }
    let (mut ours, mut rust) = (Duration::MAX, Duration::MAX);
    for _ in 0..ROUNDS {
        ours = ours.min(sample(&OURS, repeats, &mut work));
        rust = rust.min(sample(&RUST, repeats, &mut work));
    }
    let each = |best: Duration| best.as_secs_f64() / f64::from(repeats);
    let (ours, rust) = (each(ours), each(rust));
    let (unit, factor) = if ours.max(rust) >= 1e-3 { ("ms", 1e3) } else { ("µs", 1e6) };
    let [shown, beside] = [ours, rust].map(|seconds| format!("{:.3} {unit}", seconds * factor));
    println!("{name:<58} {shown:>11} {beside:>11} {:>6.2}", ours / rust);
}

fn measure_table(case: &Case) {
    let Problem { image, ask } = case.problem();
    let mut out = vec![0; case.bits];
    measure(&format!("table, {} ({} bits)", case.name, case.bits), |library| {
        let image = black_box(image);
        let bits = (library.bits)(image, ask).unwrap_or(0);
        let _ = black_box((library.constant)(image, ask));
        for i in 0..black_box(bits) as u64 {
            black_box((library.row)(image, ask, i, black_box(&mut out)));
        }
    });
}

fn measure_energy(case: &Case) {
    let Problem { image, ask } = case.problem();
    let code = if case.planless() { "all but a code" } else { "a plan's code" };
    for (what, bits) in [("random bits", &case.random), (code, &case.coded)] {
        measure(&format!("energy, {}, {what}", case.name), |library| {
            let _ = black_box((library.energy)(black_box(image), ask, black_box(bits)));
        });
    }
}

fn measure_decode(case: &Case, random: &mut Random) {
    let Problem { image, ask } = case.problem();
    let (what, bits) = match ask.kind {
        CHANNELS => ("none, one, several", channel_mix(48, 16, random)),
        _ if case.planless() => ("random bits, refused 12", case.random.clone()),
        _ => ("a plan's code", case.coded.clone()),
    };
    let mut plan = vec![0; case.plan.len()];
    case.problem().decode(&bits, plan.len()).ok();
    measure(&format!("decode, {}, {what}", case.name), |library| {
        let _ = black_box((library.decode)(black_box(image), ask, black_box(&bits), black_box(&mut plan)));
    });
}

fn measure_code(case: &Case) {
    let Problem { image, ask } = case.problem();
    let mut bits = vec![0; case.bits];
    let what = if case.planless() { "no plan, refused 12" } else { "a plan" };
    measure(&format!("code, {}, {what}", case.name), |library| {
        let plan = black_box(&case.plan);
        black_box((library.code)(black_box(image), ask, plan, black_box(&mut bits)));
    });
}

/// A link that is not there and would come to that place of the chain, as nearly as there is one.
fn absent_link(survey: &Survey, place: usize) -> (u64, u64) {
    let pairs = (1..survey.meters).flat_map(|u| (u + 1..=survey.meters).map(move |v| (u, v)));
    let absent = pairs.filter(|&(u, v)| !survey.links.iter().any(|link| (link.0, link.1) == (u, v)));
    let before = |pair| survey.links.iter().filter(|link| (link.0, link.1) < pair).count();
    absent.min_by_key(|&pair| before(pair).abs_diff(place)).expect("fewer links than pairs")
}

fn measure_edits(random: &mut Random) {
    let mut survey = Survey::random(48, 254, random);
    for (what, place) in [("front", 0), ("middle", 127), ("end", 254)] {
        let (u, v) = absent_link(&survey, place);
        let before = survey.image.clone();
        assert_eq!((survey.add(u, v, 7), survey.remove(u, v)), (0, 0));
        let mut image = survey.image.clone();
        measure(&format!("add and remove, 254 links, {what} of the chain"), |library| {
            black_box((library.add)(black_box(&mut image), u, v, 7));
            black_box((library.remove)(black_box(&mut image), u, v));
        });
        same_slice(format_args!("image after adding and removing"), &image, &before);
    }
}

fn main() {
    let mut random = Random(1);
    let cases = cases(&mut random);
    check(&cases, &mut random);
    // Anew, so that what is measured does not depend on how much was checked.
    let mut random = Random(2);
    println!("{:<58} {:>11} {:>11} {:>6}", "best of each, taken in turn", "ours", "Rust", "ratio");
    cases.iter().for_each(measure_table);
    cases.iter().for_each(measure_energy);
    cases.iter().for_each(|case| measure_decode(case, &mut random));
    cases.iter().for_each(measure_code);
    measure_edits(&mut random);
}
