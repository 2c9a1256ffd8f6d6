//! The calls of include/meterplan.h in plain Rust, for comparison with the proved library.
//!
//! Written from the user's contract alone, quoted below as 01, and the requests after it, 02. Every call is stateless: it checks all that it is lent,
//! answers, and forgets. Inside, meters, channels and groups count from 0.

#![forbid(unsafe_code)]

const IMAGE: usize = 2064;
const HEADER: usize = 16;
const RECORDS: usize = 256;
const MOST_METERS: usize = 48;
const MOST_CHANNELS: usize = 16;
const MOST_DEPTH: usize = MOST_METERS / 2;
const MOST_BITS: usize = 8192;
const MOST_MARGIN: u64 = 1_000_000;

/// Two-byte fields of the header.
const FIRST_LINK: usize = 2;
const FIRST_FREE: usize = 4;
const COUNT: usize = 6;

/// The numbers of 01, "Returned on refusal", and those that 02 adds.
const BAD_IMAGE: u64 = 1;
const BAD_ENDS: u64 = 2;
const BAD_WEIGHT: u64 = 3;
const PRESENT: u64 = 4;
const ABSENT: u64 = 5;
const FULL: u64 = 6;
const BAD_KIND: u64 = 7;
const TOO_MANY_BITS: u64 = 8;
const BAD_LENGTH: u64 = 9;
const BAD_ROW: u64 = 10;
const BAD_VALUE: u64 = 11;
const NO_PLAN: u64 = 12;
const BAD_MARGIN: u64 = 18;

// ---------------------------------------------------------------------------------------------------------------------
// The site image
// ---------------------------------------------------------------------------------------------------------------------

#[derive(Clone, Copy)]
struct Link {
    u: u8,
    v: u8,
    weight: u16,
    /// Where it lies: 1 to 256, as the chains name it.
    record: u16,
}

impl Link {
    fn ends(&self) -> (usize, usize) {
        (usize::from(self.u), usize::from(self.v))
    }

    fn weight(&self) -> i64 {
        i64::from(self.weight)
    }
}

/// Where a call keeps the links it has read: on its stack, so that nothing is allocated for them.
type Room = [Link; RECORDS];

const ROOM: Room = [Link { u: 0, v: 0, weight: 0, record: 0 }; RECORDS];

/// What an image says, once every rule has been seen to hold. The links are in chain order.
struct Site<'a> {
    meters: usize,
    links: &'a [Link],
    first_free: u16,
}

fn get(image: &[u8], at: usize) -> u16 {
    u16::from_le_bytes([image[at], image[at + 1]])
}

fn put(image: &mut [u8], at: usize, value: u16) {
    image[at..at + 2].copy_from_slice(&value.to_le_bytes());
}

fn record_at(record: u16) -> usize {
    HEADER + (usize::from(record) - 1) * 8
}

fn next_field(record: u16) -> usize {
    record_at(record) + 4
}

/// Zero names no record, nor does anything above 256.
fn record(records: &[[u8; 8]], number: u16) -> Option<&[u8; 8]> {
    records.get(usize::from(number).checked_sub(1)?)
}

fn read_site<'a>(image: &[u8], room: &'a mut Room) -> Result<Site<'a>, u64> {
    if image.len() != IMAGE {
        return Err(BAD_IMAGE);
    }
    let (header, rest) = image.split_at(HEADER);
    let (records, _) = rest.as_chunks::<8>();
    let meters = header[0];
    let zeros = header[1] == 0 && header[8..].iter().all(|&b| b == 0);
    if !zeros || !(1..=MOST_METERS).contains(&usize::from(meters)) {
        return Err(BAD_IMAGE);
    }
    let count = usize::from(get(header, COUNT));
    let first_free = get(header, FIRST_FREE);
    let links = read_links(records, get(header, FIRST_LINK), meters, room).ok_or(BAD_IMAGE)?;
    if links.len() != count || !free_chain_holds(records, first_free, RECORDS - count) {
        return Err(BAD_IMAGE);
    }
    Ok(Site { meters: usize::from(meters), links, first_free })
}

/// "The link chain rises strictly by u, then by v": so no record can come twice, and the walk ends.
fn read_links<'a>(records: &[[u8; 8]], first: u16, meters: u8, room: &'a mut Room) -> Option<&'a [Link]> {
    let mut count = 0;
    let mut last = 0;
    let mut next = first;
    while next != 0 {
        let &[u, v, w0, w1, n0, n1, z0, z1] = record(records, next)?;
        let weight = u16::from_le_bytes([w0, w1]);
        let holds = 1 <= u && u < v && v <= meters && weight != 0 && z0 == 0 && z1 == 0;
        // As one number, so that the order takes one comparison.
        let ends = u16::from_be_bytes([u, v]);
        if !holds || ends <= last {
            return None;
        }
        *room.get_mut(count)? = Link { u: u - 1, v: v - 1, weight, record: next };
        count += 1;
        last = ends;
        next = u16::from_le_bytes([n0, n1]);
    }
    Some(&room[..count])
}

/// "The free chain has exactly the other records, each zero but for next." A chain that ends after `count` records has
/// none twice, and none of them is a link's, whose u is not zero; so being that many, they are all the others.
fn free_chain_holds(records: &[[u8; 8]], first: u16, count: usize) -> bool {
    let mut next = first;
    for _ in 0..count {
        let Some(&[u, v, w0, w1, n0, n1, z0, z1]) = record(records, next) else {
            return false;
        };
        if [u, v, w0, w1, z0, z1] != [0; 6] {
            return false;
        }
        next = u16::from_le_bytes([n0, n1]);
    }
    next == 0
}

impl Site<'_> {
    /// "The ends may be given either way round."
    fn ends(&self, a: u64, b: u64) -> Result<(u8, u8), u64> {
        let meters = 1..=self.meters as u64;
        if !meters.contains(&a) || !meters.contains(&b) || a == b {
            return Err(BAD_ENDS);
        }
        Ok((a.min(b) as u8 - 1, a.max(b) as u8 - 1))
    }

    /// The link's place in the chain, or as an error the place it would have.
    fn find(&self, u: u8, v: u8) -> Result<usize, usize> {
        self.links.binary_search_by_key(&(u, v), |link| (link.u, link.v))
    }

    /// The field that names the link at this place of the chain.
    fn naming_field(&self, place: usize) -> usize {
        match place.checked_sub(1) {
            None => FIRST_LINK,
            Some(before) => next_field(self.links[before].record),
        }
    }

    fn total_weight(&self) -> i64 {
        self.links.iter().map(Link::weight).sum()
    }

    fn greatest_weight_at_a_meter(&self) -> i64 {
        let mut sums = [0; MOST_METERS];
        for link in self.links {
            let (u, v) = link.ends();
            sums[u] += link.weight();
            sums[v] += link.weight();
        }
        sums.into_iter().max().unwrap_or(0)
    }

    fn weight_at(&self, meter: usize) -> i64 {
        let at = |link: &&Link| link.ends().0 == meter || link.ends().1 == meter;
        self.links.iter().filter(at).map(Link::weight).sum()
    }
}

/// The number that a call returns: 0 when nothing was refused.
fn number(answer: Result<(), u64>) -> u64 {
    answer.err().unwrap_or(0)
}

pub fn begin(image: &mut [u8], meters: u64) -> u64 {
    if image.len() != IMAGE {
        return BAD_IMAGE;
    }
    if !(1..=MOST_METERS as u64).contains(&meters) {
        return BAD_KIND;
    }
    image.fill(0);
    image[0] = meters as u8;
    put(image, FIRST_FREE, 1);
    for record in 1..RECORDS as u16 {
        put(image, next_field(record), record + 1);
    }
    0
}

pub fn add(image: &mut [u8], u: u64, v: u64, weight: u16) -> u64 {
    number(try_add(image, u, v, weight))
}

fn try_add(image: &mut [u8], u: u64, v: u64, weight: u16) -> Result<(), u64> {
    let mut room = ROOM;
    let site = read_site(image, &mut room)?;
    let (u, v) = site.ends(u, v)?;
    if weight == 0 {
        return Err(BAD_WEIGHT);
    }
    let Err(place) = site.find(u, v) else {
        return Err(PRESENT);
    };
    if site.links.len() == RECORDS {
        return Err(FULL);
    }
    let record = site.first_free;
    let next = site.links.get(place).map_or(0, |link| link.record);
    let next_free = get(image, next_field(record));
    put(image, FIRST_FREE, next_free);
    put(image, site.naming_field(place), record);
    put(image, COUNT, site.links.len() as u16 + 1);
    let [w0, w1] = weight.to_le_bytes();
    image[record_at(record)..][..4].copy_from_slice(&[u + 1, v + 1, w0, w1]);
    put(image, next_field(record), next);
    Ok(())
}

pub fn remove(image: &mut [u8], u: u64, v: u64) -> u64 {
    number(try_remove(image, u, v))
}

fn try_remove(image: &mut [u8], u: u64, v: u64) -> Result<(), u64> {
    let mut room = ROOM;
    let site = read_site(image, &mut room)?;
    let (u, v) = site.ends(u, v)?;
    let place = site.find(u, v).map_err(|_| ABSENT)?;
    let record = site.links[place].record;
    let next = get(image, next_field(record));
    put(image, site.naming_field(place), next);
    put(image, FIRST_FREE, record);
    put(image, COUNT, site.links.len() as u16 - 1);
    image[record_at(record)..][..4].fill(0);
    put(image, next_field(record), site.first_free);
    Ok(())
}

// ---------------------------------------------------------------------------------------------------------------------
// Problems: an accepted image and a kind with its parameter
// ---------------------------------------------------------------------------------------------------------------------

/// What is asked for. Its fields lie as in C, so that the same can be asked of both.
#[repr(C)]
#[derive(Clone, Copy, Debug)]
pub struct Ask {
    pub kind: u64,
    pub parameter: u64,
    pub margin: u64,
}

enum Kind {
    /// With the number of channels.
    Channels(usize),
    /// With the number of groups.
    Groups(usize),
    Tree(Shape),
}

/// Where a tree's bits lie: depths of meters, then depths of arcs, then numbers of neighbours.
#[derive(Clone, Copy)]
struct Shape {
    /// D: "N/2 rounded down".
    depth: usize,
    /// d.
    limit: usize,
    arcs_at: usize,
    counts_at: usize,
    bits: usize,
}

impl Shape {
    fn new(site: &Site, limit: usize) -> Shape {
        let depth = site.meters / 2;
        let arcs_at = site.meters * (depth + 1);
        let counts_at = arcs_at + 2 * site.links.len() * depth;
        Shape { depth, limit, arcs_at, counts_at, bits: counts_at + site.meters * limit }
    }

    fn depth_bit(&self, meter: usize, depth: usize) -> usize {
        meter * (self.depth + 1) + depth
    }

    /// Arc 2k goes up in number over link k, arc 2k + 1 down.
    fn arc_bit(&self, arc: usize, depth: usize) -> usize {
        self.arcs_at + arc * self.depth + depth - 1
    }

    fn count_bit(&self, meter: usize, neighbours: usize) -> usize {
        self.counts_at + meter * self.limit + neighbours - 1
    }
}

struct Problem<'a> {
    site: Site<'a>,
    kind: Kind,
    /// A, the margin included.
    penalty: i64,
    bits: usize,
}

fn read_problem<'a>(image: &[u8], ask: Ask, room: &'a mut Room) -> Result<Problem<'a>, u64> {
    let site = read_site(image, room)?;
    let (kind, penalty, bits) = match (ask.kind, ask.parameter as usize) {
        _ if ask.parameter > MOST_METERS as u64 => return Err(BAD_KIND),
        (1, n @ 1..=MOST_CHANNELS) => (Kind::Channels(n), 1 + site.greatest_weight_at_a_meter(), site.meters * n),
        (2, m @ 2..=MOST_CHANNELS) => (Kind::Groups(m), 1 + 2 * site.total_weight(), site.meters * m),
        (3, d @ 1..=47) if site.meters >= 2 => {
            let shape = Shape::new(&site, d);
            (Kind::Tree(shape), 1 + site.total_weight(), shape.bits)
        }
        _ => return Err(BAD_KIND),
    };
    // "18 margin too large, after 7"
    if ask.margin > MOST_MARGIN {
        return Err(BAD_MARGIN);
    }
    let penalty = penalty + ask.margin as i64;
    if bits > MOST_BITS {
        return Err(TOO_MANY_BITS);
    }
    Ok(Problem { site, kind, penalty, bits })
}

pub fn bits(image: &[u8], ask: Ask) -> Result<i64, u64> {
    let mut room = ROOM;
    Ok(read_problem(image, ask, &mut room)?.bits as i64)
}

pub fn penalty(image: &[u8], ask: Ask) -> Result<i64, u64> {
    let mut room = ROOM;
    Ok(read_problem(image, ask, &mut room)?.penalty)
}

/// The energy of all-zero bits: A for each square whose sum starts at 1.
pub fn constant(image: &[u8], ask: Ask) -> Result<i64, u64> {
    let mut room = ROOM;
    let problem = read_problem(image, ask, &mut room)?;
    let meters = problem.site.meters as i64;
    let squares = match problem.kind {
        Kind::Channels(_) | Kind::Groups(_) => meters,
        Kind::Tree(_) => 1 + 2 * meters,
    };
    Ok(problem.penalty * squares)
}

// ---------------------------------------------------------------------------------------------------------------------
// Rows
// ---------------------------------------------------------------------------------------------------------------------

pub fn row(image: &[u8], ask: Ask, i: u64, out: &mut [i64]) -> u64 {
    number(try_row(image, ask, i, out))
}

/// "Of several, the lowest number is given, except that 10 precedes 9."
fn try_row(image: &[u8], ask: Ask, i: u64, out: &mut [i64]) -> Result<(), u64> {
    let mut room = ROOM;
    let problem = read_problem(image, ask, &mut room)?;
    if i >= problem.bits as u64 {
        return Err(BAD_ROW);
    }
    let i = i as usize;
    let row = out.get_mut(..problem.bits - i).ok_or(BAD_LENGTH)?;
    match &problem.kind {
        Kind::Channels(n) => channels_row(&problem, *n, i, row),
        Kind::Groups(m) => groups_row(&problem, *m, i, row),
        Kind::Tree(shape) => tree_row(&problem, shape, i, row),
    }
    Ok(())
}

/// A·(1 - Σx)² gives -A to each bit of a meter and 2A to each pair of them.
fn channels_row(problem: &Problem, n: usize, i: usize, row: &mut [i64]) {
    let (meter, channel) = (i / n, i % n);
    row.fill(0);
    row[0] = -problem.penalty;
    row[1..n - channel].fill(2 * problem.penalty);
    for link in problem.site.links {
        let (u, v) = link.ends();
        if u == meter {
            row[(v - u) * n] = link.weight();
        }
    }
}

/// The squares of size differences come to (m - 1)·Σ size² - 2·Σ products of two sizes. So every pair of bits in
/// different groups has -2A; at one meter that meets the 2A of (1 - Σx)², and nothing is left.
fn groups_row(problem: &Problem, m: usize, i: usize, row: &mut [i64]) {
    let (meter, group) = (i / m, i % m);
    let a = problem.penalty;
    let others = m as i64 - 1;
    row.fill(-2 * a);
    row[0] = (others - 1) * a + problem.site.weight_at(meter);
    row[1..m - group].fill(0);
    for same_group in row.iter_mut().step_by(m).skip(1) {
        *same_group = 2 * others * a;
    }
    for link in problem.site.links {
        let (u, v) = link.ends();
        if u == meter {
            row[(v - u) * m] -= 2 * link.weight();
        }
    }
}

fn tree_row(problem: &Problem, shape: &Shape, i: usize, row: &mut [i64]) {
    row.fill(0);
    if i < shape.arcs_at {
        depth_row(problem, shape, i, row);
    } else if i < shape.counts_at {
        arc_row(problem, shape, i, row);
    } else {
        count_row(problem, shape, i, row);
    }
}

/// Pairs with other depths of the meter, with other roots, with arcs into the meter at this depth (-2A of the square,
/// -A of the arc's own term) and with arcs out of it one deeper.
fn depth_row(problem: &Problem, shape: &Shape, i: usize, row: &mut [i64]) {
    let a = problem.penalty;
    let (meter, depth) = (i / (shape.depth + 1), i % (shape.depth + 1));
    row[1..=shape.depth - depth].fill(2 * a);
    if depth == 0 {
        row[0] = -2 * a;
        for other in meter + 1..problem.site.meters {
            row[shape.depth_bit(other, 0) - i] = 2 * a;
        }
    }
    for (k, link) in problem.site.links.iter().enumerate() {
        let (u, v) = link.ends();
        for (arc, from, to) in [(2 * k, u, v), (2 * k + 1, v, u)] {
            if to == meter && depth >= 1 {
                row[shape.arc_bit(arc, depth) - i] = -3 * a;
            }
            if from == meter && depth < shape.depth {
                row[shape.arc_bit(arc, depth + 1) - i] = -a;
            }
        }
    }
}

/// An arc bit alone: A for the square of arcs into its head, A for the neighbour sum of either end, 2A for its own
/// term. Two arc bits: 2A for each end they share, and 2A if they go into one meter at one depth.
fn arc_row(problem: &Problem, shape: &Shape, i: usize, row: &mut [i64]) {
    let a = problem.penalty;
    let (arc, depth) = ((i - shape.arcs_at) / shape.depth, (i - shape.arcs_at) % shape.depth + 1);
    let (k, down) = (arc / 2, arc % 2 == 1);
    let link = problem.site.links[k];
    let (u, v) = link.ends();
    let head = if down { u } else { v };
    row[0] = 5 * a + link.weight();
    row[1..shape.arc_bit(2 * k + 2, 1) - i].fill(4 * a);
    for (k, other) in problem.site.links.iter().enumerate().skip(k + 1) {
        let (x, y) = other.ends();
        if x == u || x == v || y == u || y == v {
            row[shape.arc_bit(2 * k, 1) - i..shape.arc_bit(2 * k + 2, 1) - i].fill(2 * a);
            if y == head {
                row[shape.arc_bit(2 * k, depth) - i] += 2 * a;
            } else if x == head {
                row[shape.arc_bit(2 * k + 1, depth) - i] += 2 * a;
            }
        }
    }
    for end in [u, v] {
        for j in 1..=shape.limit {
            row[shape.count_bit(end, j) - i] = -2 * a * j as i64;
        }
    }
}

/// A·(1 - Σy)² and A·(Σ j·y - arcs)²: pairs with the arcs stand in the arcs' rows.
fn count_row(problem: &Problem, shape: &Shape, i: usize, row: &mut [i64]) {
    let a = problem.penalty;
    let j = (i - shape.counts_at) % shape.limit + 1;
    row[0] = a * (j * j - 1) as i64;
    for k in j + 1..=shape.limit {
        row[k - j] = a * (2 + 2 * j * k) as i64;
    }
}

// ---------------------------------------------------------------------------------------------------------------------
// Energies
// ---------------------------------------------------------------------------------------------------------------------

pub fn energy(image: &[u8], ask: Ask, bits: &[u8]) -> Result<i64, u64> {
    let mut room = ROOM;
    let problem = read_problem(image, ask, &mut room)?;
    check_bits(&problem, bits)?;
    Ok(match &problem.kind {
        Kind::Channels(n) => channels_energy(&problem, *n, bits),
        Kind::Groups(m) => groups_energy(&problem, *m, bits),
        Kind::Tree(shape) => tree_energy(&problem, shape, bits),
    })
}

/// All bytes are 0 or 1 just when all of them or'ed together are; this reads faster than a search for a bad one.
fn check_bits(problem: &Problem, bits: &[u8]) -> Result<(), u64> {
    if bits.len() != problem.bits {
        return Err(BAD_LENGTH);
    }
    if bits.iter().fold(0, |or, bit| or | bit) > 1 {
        return Err(BAD_VALUE);
    }
    Ok(())
}

/// Bits of one meter, of one arc: few enough (at most 48) to be counted in a byte.
fn ones(bits: &[u8]) -> i64 {
    i64::from(bits.iter().sum::<u8>())
}

fn square(x: i64) -> i64 {
    x * x
}

/// The sum over meters of (1 - bits set at it)², with `width` bits for each.
fn unsettled(bits: &[u8], width: usize) -> i64 {
    bits.chunks_exact(width).map(|meter| square(1 - ones(meter))).sum()
}

fn channels_energy(problem: &Problem, n: usize, bits: &[u8]) -> i64 {
    let clash = |link: &Link| {
        let (u, v) = link.ends();
        let both = bits[u * n..][..n].iter().zip(&bits[v * n..][..n]).map(|(x, y)| x & y);
        link.weight() * i64::from(both.sum::<u8>())
    };
    problem.penalty * unsettled(bits, n) + problem.site.links.iter().map(clash).sum::<i64>()
}

fn groups_energy(problem: &Problem, m: usize, bits: &[u8]) -> i64 {
    let mut sizes = [0i64; MOST_CHANNELS];
    for meter in bits.chunks_exact(m) {
        for (size, &bit) in sizes.iter_mut().zip(meter) {
            *size += i64::from(bit);
        }
    }
    let mut uneven = 0;
    for (g, size) in sizes[..m].iter().enumerate() {
        uneven += sizes[..g].iter().map(|other| square(size - other)).sum::<i64>();
    }
    let cut = |link: &Link| {
        let (u, v) = link.ends();
        let one = bits[u * m..][..m].iter().zip(&bits[v * m..][..m]).map(|(x, y)| x ^ y);
        link.weight() * i64::from(one.sum::<u8>())
    };
    problem.penalty * (unsettled(bits, m) + uneven) + problem.site.links.iter().map(cut).sum::<i64>()
}

/// What the arcs add up to, gathered in one pass over them.
struct ArcSums {
    /// Arcs into a meter at a depth from 1 on; a meter has at most 47 links.
    into: [[u8; MOST_DEPTH]; MOST_METERS],
    /// Arc bits in or out of a meter.
    touching: [i64; MOST_METERS],
    /// The sum of bit·(2 - [u at i-1] - [v at i]).
    loose: i64,
    weight: i64,
}

fn arc_sums(problem: &Problem, shape: &Shape, bits: &[u8]) -> ArcSums {
    let mut sums = ArcSums { into: [[0; MOST_DEPTH]; MOST_METERS], touching: [0; MOST_METERS], loose: 0, weight: 0 };
    let mut arcs = bits[shape.arcs_at..shape.counts_at].chunks_exact(shape.depth);
    for link in problem.site.links {
        let (u, v) = link.ends();
        for (from, to) in [(u, v), (v, u)] {
            let arc = arcs.next().expect("two arcs for each link");
            let above = &bits[shape.depth_bit(from, 0)..][..shape.depth];
            let below = &bits[shape.depth_bit(to, 1)..][..shape.depth];
            for (into, bit) in sums.into[to].iter_mut().zip(arc) {
                *into += bit;
            }
            // At most 2 for each of at most 24 depths: a byte holds the sum.
            let loose = arc.iter().zip(above).zip(below).map(|((bit, x), y)| bit * (2 - x - y));
            sums.loose += i64::from(loose.sum::<u8>());
            let set = ones(arc);
            sums.touching[from] += set;
            sums.touching[to] += set;
            sums.weight += set * link.weight();
        }
    }
    sums
}

fn tree_energy(problem: &Problem, shape: &Shape, bits: &[u8]) -> i64 {
    let arcs = arc_sums(problem, shape, bits);
    let (depths, counts) = (&bits[..shape.arcs_at], &bits[shape.counts_at..]);
    let mut roots = 0;
    let mut broken = unsettled(depths, shape.depth + 1) + unsettled(counts, shape.limit) + arcs.loose;
    for (meter, depths) in depths.chunks_exact(shape.depth + 1).enumerate() {
        roots += i64::from(depths[0]);
        for (&bit, &into) in depths[1..].iter().zip(&arcs.into[meter]) {
            broken += square(i64::from(bit) - i64::from(into));
        }
    }
    for (counts, touching) in counts.chunks_exact(shape.limit).zip(arcs.touching) {
        let neighbours: i64 = (1..).zip(counts).map(|(j, &bit)| j * i64::from(bit)).sum();
        broken += square(neighbours - touching);
    }
    problem.penalty * (broken + square(1 - roots)) + arcs.weight
}

// ---------------------------------------------------------------------------------------------------------------------
// Plans and their codes
// ---------------------------------------------------------------------------------------------------------------------

pub fn code(image: &[u8], ask: Ask, plan: &[u8], bits: &mut [u8]) -> u64 {
    number(try_code(image, ask, plan, bits))
}

fn try_code(image: &[u8], ask: Ask, plan: &[u8], bits: &mut [u8]) -> Result<(), u64> {
    let mut room = ROOM;
    let problem = read_problem(image, ask, &mut room)?;
    if plan.len() != problem.site.meters || bits.len() != problem.bits {
        return Err(BAD_LENGTH);
    }
    match &problem.kind {
        Kind::Channels(n) if all_within(plan, *n) => code_choices(plan, *n, bits),
        Kind::Groups(m) if is_equal_split(plan, *m) => code_choices(plan, *m, bits),
        Kind::Tree(shape) => {
            let tree = read_tree(&problem.site, shape, plan).ok_or(NO_PLAN)?;
            bits.fill(0);
            for bit in tree.code {
                bits[bit] = 1;
            }
        }
        _ => return Err(NO_PLAN),
    }
    Ok(())
}

fn all_within(plan: &[u8], most: usize) -> bool {
    plan.iter().all(|&choice| (1..=most).contains(&usize::from(choice)))
}

/// "1..m each, all groups equally large"
fn is_equal_split(plan: &[u8], m: usize) -> bool {
    if !all_within(plan, m) {
        return false;
    }
    let mut sizes = [0; MOST_CHANNELS];
    for &group in plan {
        sizes[usize::from(group) - 1] += 1;
    }
    sizes[..m].iter().all(|&size| size * m == plan.len())
}

fn code_choices(plan: &[u8], width: usize, bits: &mut [u8]) {
    bits.fill(0);
    for (bits, &choice) in bits.chunks_exact_mut(width).zip(plan) {
        bits[usize::from(choice) - 1] = 1;
    }
}

/// A tree plan's code, as the bits set, and its weight.
struct Tree {
    code: Vec<usize>,
    weight: i64,
}

/// "Each meter's parent, 0 for the single root; parents are linked neighbours, nobody has more than d neighbours in the
/// tree, and no depth exceeds D."
fn read_tree(site: &Site, shape: &Shape, plan: &[u8]) -> Option<Tree> {
    let mut arc_from_parent = [None; MOST_METERS];
    let mut neighbours = [0; MOST_METERS];
    let mut weight = 0;
    for (k, link) in site.links.iter().enumerate() {
        let (u, v) = link.ends();
        for (arc, from, to) in [(2 * k, u, v), (2 * k + 1, v, u)] {
            if usize::from(plan[to]) == from + 1 {
                arc_from_parent[to] = Some(arc);
                neighbours[from] += 1;
                neighbours[to] += 1;
                weight += link.weight();
            }
        }
    }
    let mut roots = 0;
    let mut code = Vec::with_capacity(3 * plan.len());
    for meter in 0..plan.len() {
        let depth = depth_of(plan, meter, shape.depth)?;
        match arc_from_parent[meter] {
            Some(arc) => code.push(shape.arc_bit(arc, depth)),
            None if depth == 0 => roots += 1,
            None => return None,
        }
        if neighbours[meter] == 0 || neighbours[meter] > shape.limit {
            return None;
        }
        code.push(shape.depth_bit(meter, depth));
        code.push(shape.count_bit(meter, neighbours[meter]));
    }
    (roots == 1).then_some(Tree { code, weight })
}

/// Up the parents to the root, in at most `most` steps; so a ring is no plan either.
fn depth_of(plan: &[u8], meter: usize, most: usize) -> Option<usize> {
    let mut at = meter;
    for depth in 0..=most {
        match usize::from(*plan.get(at)?) {
            0 => return Some(depth),
            parent => at = parent - 1,
        }
    }
    None
}

pub fn decode(image: &[u8], ask: Ask, bits: &[u8], plan: &mut [u8]) -> Result<(u64, u64), u64> {
    let mut room = ROOM;
    let problem = read_problem(image, ask, &mut room)?;
    if plan.len() != problem.site.meters {
        return Err(BAD_LENGTH);
    }
    check_bits(&problem, bits)?;
    let mut found = [0; MOST_METERS];
    let found = &mut found[..plan.len()];
    let (weight, repaired) = match &problem.kind {
        Kind::Channels(n) => mend_channels(&problem.site, *n, bits, found),
        Kind::Groups(m) => (decode_groups(&problem.site, *m, bits, found).ok_or(NO_PLAN)?, 0),
        Kind::Tree(shape) => (decode_tree(&problem.site, shape, bits, found).ok_or(NO_PLAN)?, 0),
    };
    plan.copy_from_slice(found);
    Ok((weight as u64, repaired))
}

/// "Channels are read meter by meter upward." The links are in order of their lower end, so those to a meter's higher
/// neighbours come together, and what its lower ones bear has been noted when they were settled.
fn mend_channels(site: &Site, n: usize, bits: &[u8], plan: &mut [u8]) -> (i64, u64) {
    let mut costs = [[0u32; MOST_CHANNELS]; MOST_METERS];
    let mut links = site.links;
    let (mut clash, mut repaired) = (0, 0);
    for (meter, bits_here) in bits.chunks_exact(n).enumerate() {
        let (higher, rest) = links.split_at(links.partition_point(|link| link.ends().0 == meter));
        links = rest;
        let channel = match bits_here.iter().position(|&bit| bit == 1) {
            Some(lowest) => lowest,
            None => least_cost(costs[meter], higher, bits, n),
        };
        repaired += u64::from(ones(bits_here) != 1);
        clash += i64::from(costs[meter][channel]);
        plan[meter] = channel as u8 + 1;
        for link in higher {
            costs[link.ends().1][channel] += u32::from(link.weight);
        }
    }
    (clash, repaired)
}

/// "The channel with the least total weight of links to neighbours bearing it, ties to the lowest channel": to what the
/// lower ones cost come the higher ones, with "the bits as they came".
fn least_cost(mut costs: [u32; MOST_CHANNELS], higher: &[Link], bits: &[u8], n: usize) -> usize {
    for link in higher {
        for (cost, &bit) in costs.iter_mut().zip(&bits[link.ends().1 * n..][..n]) {
            *cost += u32::from(link.weight) * u32::from(bit);
        }
    }
    (0..n).min_by_key(|&channel| costs[channel]).unwrap_or(0)
}

fn decode_groups(site: &Site, m: usize, bits: &[u8], plan: &mut [u8]) -> Option<i64> {
    for (group, bits) in plan.iter_mut().zip(bits.chunks_exact(m)) {
        if ones(bits) != 1 {
            return None;
        }
        *group = bits.iter().position(|&bit| bit == 1)? as u8 + 1;
    }
    let cut = |link: &&Link| plan[link.ends().0] != plan[link.ends().1];
    is_equal_split(plan, m).then(|| site.links.iter().filter(cut).map(Link::weight).sum())
}

/// Arcs say who is whose parent; the bits are then compared with the code of that plan. Being as many as its bits, and
/// holding them all, they are its code.
fn decode_tree(site: &Site, shape: &Shape, bits: &[u8], plan: &mut [u8]) -> Option<i64> {
    let set: usize = bits.iter().map(|&bit| usize::from(bit)).sum();
    if set != 3 * site.meters - 1 {
        return None;
    }
    let arcs = bits[shape.arcs_at..shape.counts_at].iter().enumerate();
    for (at, _) in arcs.filter(|(_, &bit)| bit == 1) {
        let arc = at / shape.depth;
        let (u, v) = site.links[arc / 2].ends();
        let (from, to) = if arc % 2 == 0 { (u, v) } else { (v, u) };
        plan[to] = from as u8 + 1;
    }
    let tree = read_tree(site, shape, plan)?;
    tree.code.iter().all(|&bit| bits[bit] == 1).then_some(tree.weight)
}
