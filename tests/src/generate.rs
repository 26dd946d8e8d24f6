//! Seeded drawing of problems, whole and damaged, and of settings.

use crate::sheet::{Sheet, MAX_BYTES, MAX_LINES, MAX_SETS, MAX_TERMS};
use std::collections::BTreeSet;

/// xorshift64*.
pub struct Rng(u64);

impl Rng {
    pub fn new(seed: u64) -> Rng {
        let mixed = (seed ^ 0x5DEE_CE66_D1CE_4E5B).wrapping_mul(0x9E37_79B9_7F4A_7C15);
        let mut rng = Rng(mixed | 1);
        for _ in 0..8 {
            rng.next();
        }
        rng
    }

    pub fn next(&mut self) -> u64 {
        self.0 ^= self.0 >> 12;
        self.0 ^= self.0 << 25;
        self.0 ^= self.0 >> 27;
        self.0.wrapping_mul(0x2545_F491_4F6C_DD1D)
    }

    pub fn below(&mut self, n: usize) -> usize {
        ((self.next() >> 33) % n as u64) as usize
    }

    pub fn between(&mut self, low: usize, high: usize) -> usize {
        low + self.below(high - low + 1)
    }

    pub fn percent(&mut self, chance: usize) -> bool {
        self.below(100) < chance
    }

    pub fn pick<'a, T>(&mut self, from: &'a [T]) -> &'a T {
        &from[self.below(from.len())]
    }

    pub fn shuffle<T>(&mut self, all: &mut [T]) {
        for last in (1..all.len()).rev() {
            all.swap(last, self.below(last + 1));
        }
    }

    pub fn fill(&mut self, bytes: &mut [u8]) {
        for chunk in bytes.chunks_mut(8) {
            let word = self.next().to_le_bytes();
            chunk.copy_from_slice(&word[..chunk.len()]);
        }
    }
}

/// A sheet in parts, before it is bytes.
#[derive(Clone, Default)]
pub struct Draft {
    pub constants: Vec<i16>,
    pub names: Vec<u8>,
    pub sets: Vec<u8>,
    pub lines: Vec<Vec<u8>>,
}

impl Draft {
    pub fn bytes(&self) -> Vec<u8> {
        let mut bytes = vec![self.constants.len() as u8];
        for constant in &self.constants {
            bytes.extend(constant.to_le_bytes());
        }
        bytes.push(self.names.len() as u8);
        bytes.extend(&self.names);
        bytes.push(self.sets.len() as u8);
        bytes.extend(&self.sets);
        bytes.push(self.lines.len() as u8);
        for line in &self.lines {
            bytes.extend(line);
        }
        bytes
    }

    /// Terms a line can name.
    fn nameable(&self) -> usize {
        self.constants.len() + self.names.len()
    }

    fn terms(&self) -> usize {
        self.nameable() + self.lines.iter().filter(|line| line[0] == 6).count()
    }
}

/// A setting in parts, before it is bytes.
#[derive(Clone)]
pub struct Plan {
    pub values: Vec<i16>,
    pub sets: Vec<BTreeSet<i16>>,
}

impl Plan {
    pub fn bytes(&self) -> Vec<u8> {
        let mut bytes = vec![self.values.len() as u8];
        for value in &self.values {
            bytes.extend(value.to_le_bytes());
        }
        for set in &self.sets {
            bytes.push(set.len() as u8);
            for member in set {
                bytes.extend(member.to_le_bytes());
            }
        }
        bytes
    }

    fn value(&self, draft: &Draft, t: usize) -> i16 {
        match draft.constants.get(t) {
            Some(&constant) => constant,
            None => self.values[t - draft.constants.len()],
        }
    }

    /// The worked setting of a form record.
    pub fn worked(sheet: &Sheet, record: &[u8]) -> Plan {
        let value = |t: usize| {
            let head = record[3 * t] as usize;
            if head < sheet.constants() {
                sheet.constant(head) as i16
            } else {
                (32_001 + head) as i16
            }
        };
        let named = sheet.constants()..sheet.constants() + sheet.names.len();
        Plan {
            values: named.map(value).collect(),
            sets: (0..sheet.sets.len())
                .map(|s| {
                    let inside = |&t: &usize| record[3 * t + 1] >> s & 1 == 1;
                    (0..sheet.terms).filter(inside).map(value).collect()
                })
                .collect(),
        }
    }
}

pub struct Drawn {
    pub draft: Draft,
    /// The setting the lines were drawn around; it need not meet them all.
    pub plan: Plan,
}

struct Size {
    constants: usize,
    names: usize,
    sets: usize,
    lines: usize,
    /// How often each kind 1 to 12 is drawn; place 0 is not used.
    weights: [usize; 13],
    /// Of a hundred lines, how many need not be true of the plan.
    noise: usize,
}

const EVEN: [usize; 13] = [0, 8, 5, 4, 5, 3, 4, 8, 4, 4, 4, 8, 4];

fn draw_size(rng: &mut Rng) -> Size {
    let noise = match rng.below(20) {
        0..=15 => 0,
        16 | 17 => 8,
        18 => 25,
        _ => 100,
    };
    let mut size = Size { constants: 0, names: 0, sets: 0, lines: 0, weights: EVEN, noise };
    let mut set = |constants, names, sets, lines| {
        size.constants = constants;
        size.names = names;
        size.sets = sets;
        size.lines = lines;
    };
    match rng.below(24) / 2 {
        // Small.
        0..=2 => set(rng.below(4), rng.below(4), rng.between(1, 3), rng.between(1, 8)),
        // Middling.
        3 | 4 => set(rng.below(8), rng.between(1, 8), rng.between(2, 5), rng.between(4, 18)),
        // T near or at 64, all the sets, many lines.
        5 => {
            let names = rng.below(27);
            let left = MAX_TERMS - names - rng.below(7);
            set(left, names, rng.between(5, 8), rng.between(12, 48));
        }
        // 48 lines.
        6 => set(rng.below(12), rng.between(1, 10), rng.between(2, 8), MAX_LINES),
        // No constants.
        7 => set(0, rng.between(1, 8), rng.between(1, 6), rng.between(3, 20)),
        // No names.
        8 => set(rng.between(1, 10), 0, rng.between(1, 8), rng.between(2, 20)),
        // No sets: only kinds 3 and 4.
        9 if rng.percent(40) => {
            set(rng.below(6), rng.between(1, 12), 0, rng.between(1, 20));
            size.noise = *rng.pick(&[0, 100]);
        }
        // Lists and intervals.
        9 | 10 => {
            set(rng.between(1, 12), rng.between(2, 8), rng.between(1, 4), rng.between(3, 14));
            size.weights = [0, 8, 2, 2, 4, 1, 1, 2, 1, 1, 2, 10, 10];
        }
        // Witnesses and unions.
        _ => {
            set(rng.below(5), rng.below(6), rng.between(2, 8), rng.between(4, 16));
            size.weights = [0, 6, 4, 1, 2, 1, 8, 10, 2, 2, 2, 2, 1];
        }
    }
    if rng.percent(10) {
        size.weights = std::array::from_fn(|_| rng.below(6));
        size.weights[1 + rng.below(12)] += 2;
    }
    size
}

fn draw_constants(rng: &mut Rng, count: usize) -> Vec<i16> {
    let mut all = BTreeSet::new();
    let style = rng.below(6);
    let mut next = match style {
        0 => -32_000,
        1 => 32_001 - count as i32,
        2 => -(rng.below(4) as i32),
        _ => rng.between(0, 60_000) as i32 - 30_000,
    };
    while all.len() < count {
        match style {
            // A run, at either end of the range or about 0.
            0..=2 => {
                all.insert(next);
                next += 1;
            }
            // Runs with gaps.
            3 => {
                all.insert(next.min(32_000));
                next += if rng.percent(75) { 1 } else { rng.between(2, 40) as i32 };
                if next > 32_000 {
                    next = -32_000;
                }
            }
            // Both ends.
            4 => {
                let off = rng.below(count + 2) as i32;
                all.insert(if rng.percent(50) { -32_000 + off } else { 32_000 - off });
            }
            // Anywhere.
            _ => {
                all.insert(rng.between(0, 64_000) as i32 - 32_000);
            }
        }
    }
    all.into_iter().map(|constant| constant as i16).collect()
}

fn draw_letters(rng: &mut Rng, count: usize, first: u8) -> Vec<u8> {
    let mut letters: Vec<u8> = (first..first + 26).collect();
    if rng.percent(60) {
        rng.shuffle(&mut letters);
    }
    letters.truncate(count);
    letters.sort_unstable();
    letters
}

/// The longest interval i to j that starts at constant `i`, every whole
/// number of it a constant.
fn run_end(draft: &Draft, i: usize) -> usize {
    let mut j = i;
    while draft.constants.get(j + 1) == Some(&(draft.constants[j] + 1)) {
        j += 1;
    }
    j
}

fn draw_plan(rng: &mut Rng, draft: &Draft, sets: usize) -> Plan {
    let mut values: Vec<i16> = Vec::new();
    for at in 0..draft.names.len() {
        let value = match rng.below(10) {
            0..=3 if !draft.constants.is_empty() => *rng.pick(&draft.constants),
            4 | 5 if at > 0 => *rng.pick(&values),
            6 => *rng.pick(&[i16::MIN, i16::MAX, -32_001, 32_001, -1, 0]),
            _ => rng.next() as i16,
        };
        values.push(value);
    }
    let mut plan = Plan { values, sets: Vec::new() };
    let mut domain: Vec<i16> = draft.constants.iter().chain(&plan.values).copied().collect();
    domain.push(rng.next() as i16);
    domain.push(rng.next() as i16);
    for at in 0..sets {
        let earlier = &plan.sets;
        let set: BTreeSet<i16> = match rng.below(12) {
            0 => BTreeSet::new(),
            1 if at > 0 => rng.pick(earlier).clone(),
            2..=4 if at > 0 => rng.pick(earlier) | rng.pick(earlier),
            5 if at > 0 => rng.pick(earlier) & rng.pick(earlier),
            6 if at > 0 => {
                let whole: BTreeSet<i16> = domain.iter().copied().collect();
                &whole - rng.pick(earlier)
            }
            7 if !draft.constants.is_empty() => {
                let i = rng.below(draft.constants.len());
                let j = rng.between(i, run_end(draft, i));
                draft.constants[i..=j].iter().copied().collect()
            }
            8 | 9 if draft.nameable() > 0 => {
                let count = rng.between(1, 4);
                (0..count).map(|_| plan.value(draft, rng.below(draft.nameable()))).collect()
            }
            _ => {
                let share = *rng.pick(&[10, 30, 60]);
                domain.iter().copied().filter(|_| rng.percent(share)).collect()
            }
        };
        plan.sets.push(set);
    }
    plan
}

/// A well formed line of a kind, true or not.
fn any_line(rng: &mut Rng, draft: &Draft, kind: u8) -> Option<Vec<u8>> {
    let (terms, sets, constants) = (draft.nameable(), draft.sets.len(), draft.constants.len());
    let wants_term = matches!(kind, 1..=4);
    let wants_set = !matches!(kind, 3 | 4);
    if wants_term && terms == 0 || wants_set && sets == 0 || kind == 12 && constants == 0 {
        return None;
    }
    let mut line = vec![kind];
    match kind {
        1 | 2 => line.extend([rng.below(terms) as u8, rng.below(sets) as u8]),
        3 | 4 => line.extend([rng.below(terms) as u8, rng.below(terms) as u8]),
        7 | 10 => line.extend((0..3).map(|_| rng.below(sets) as u8)),
        11 => {
            let count = if terms == 0 { 0 } else { rng.below(5) };
            line.extend([rng.below(sets) as u8, count as u8]);
            line.extend((0..count).map(|_| rng.below(terms) as u8));
        }
        12 => {
            let i = rng.below(constants);
            let j = if i > 0 && rng.percent(20) {
                rng.below(i)
            } else {
                rng.between(i, run_end(draft, i))
            };
            line.extend([rng.below(sets) as u8, i as u8, j as u8]);
        }
        _ => line.extend((0..2).map(|_| rng.below(sets) as u8)),
    }
    Some(line)
}

/// A line of a kind that is true of the plan, if one is found.
fn true_line(rng: &mut Rng, draft: &Draft, plan: &Plan, kind: u8) -> Option<Vec<u8>> {
    let value = |t: usize| plan.value(draft, t);
    let sets = plan.sets.len();
    match kind {
        1..=4 => {
            for _ in 0..30 {
                let line = any_line(rng, draft, kind)?;
                let (t, x) = (line[1] as usize, line[2] as usize);
                let holds = match kind {
                    1 => plan.sets[x].contains(&value(t)),
                    2 => !plan.sets[x].contains(&value(t)),
                    3 => value(t) == value(x),
                    _ => value(t) != value(x),
                };
                if holds {
                    return Some(line);
                }
            }
            None
        }
        5..=10 => {
            let mut fitting = Vec::new();
            for (a, in_a) in plan.sets.iter().enumerate() {
                for (b, in_b) in plan.sets.iter().enumerate() {
                    let line = [kind, a as u8, b as u8];
                    match kind {
                        5 if in_a == in_b => fitting.push(line.to_vec()),
                        6 if in_a != in_b => fitting.push(line.to_vec()),
                        8 if in_a.is_disjoint(in_b) => fitting.push(line.to_vec()),
                        9 if in_a.is_subset(in_b) => fitting.push(line.to_vec()),
                        7 | 10 => {
                            let made = if kind == 7 { in_a | in_b } else { in_a & in_b };
                            for c in (0..sets).filter(|&c| plan.sets[c] == made) {
                                fitting.push(vec![kind, a as u8, b as u8, c as u8]);
                            }
                        }
                        _ => {}
                    }
                }
            }
            if fitting.is_empty() {
                return None;
            }
            // Lines with distinct sets say more.
            let apart = |line: &Vec<u8>| line[1] != line[2] && (line.len() < 4 || line[1] != line[3] && line[2] != line[3]);
            let telling: Vec<_> = fitting.iter().filter(|line| apart(line)).cloned().collect();
            if !telling.is_empty() && rng.percent(80) {
                return Some(rng.pick(&telling).clone());
            }
            Some(rng.pick(&fitting).clone())
        }
        11 => {
            let mut order: Vec<usize> = (0..sets).collect();
            rng.shuffle(&mut order);
            for a in order {
                let mut entries = Vec::new();
                let all_named = plan.sets[a].iter().all(|member| {
                    // Names rather than constants, so that more is open.
                    let of: Vec<usize> =
                        (0..draft.nameable()).filter(|&t| value(t) == *member).collect();
                    let names: Vec<usize> =
                        of.iter().copied().filter(|&t| t >= draft.constants.len()).collect();
                    let from = if names.is_empty() || rng.percent(30) { &of } else { &names };
                    if !from.is_empty() {
                        entries.push(*rng.pick(from) as u8);
                    }
                    !from.is_empty()
                });
                if all_named {
                    if !entries.is_empty() {
                        for _ in 0..rng.below(3) {
                            entries.push(*rng.pick(&entries.clone()));
                        }
                    }
                    rng.shuffle(&mut entries);
                    let mut line = vec![11, a as u8, entries.len() as u8];
                    line.extend(entries);
                    return Some(line);
                }
            }
            None
        }
        _ => {
            let mut fitting = Vec::new();
            for (a, set) in plan.sets.iter().enumerate() {
                for i in 0..draft.constants.len() {
                    if set.is_empty() {
                        if i > 0 {
                            fitting.push(vec![12, a as u8, i as u8, rng.below(i) as u8]);
                        }
                        continue;
                    }
                    let j = i + set.len() - 1;
                    if j <= run_end(draft, i)
                        && draft.constants[i..=j].iter().all(|constant| set.contains(constant))
                    {
                        fitting.push(vec![12, a as u8, i as u8, j as u8]);
                    }
                }
            }
            if fitting.is_empty() {
                None
            } else {
                Some(rng.pick(&fitting).clone())
            }
        }
    }
}

fn draw_kind(rng: &mut Rng, weights: &[usize; 13]) -> u8 {
    let sum: usize = weights[1..].iter().sum();
    let mut left = rng.below(sum.max(1));
    for kind in 1..=12 {
        if left < weights[kind] {
            return kind as u8;
        }
        left -= weights[kind];
    }
    1
}

fn draw_mixed(rng: &mut Rng) -> Drawn {
    let size = draw_size(rng);
    let mut draft = Draft {
        constants: draw_constants(rng, size.constants),
        names: draw_letters(rng, size.names, b'a'),
        sets: draw_letters(rng, size.sets, b'A'),
        lines: Vec::new(),
    };
    let plan = draw_plan(rng, &draft, size.sets);
    let mut tries = 0;
    while draft.lines.len() < size.lines && tries < 3 * size.lines {
        tries += 1;
        let kind = draw_kind(rng, &size.weights);
        if kind == 6 && draft.terms() == MAX_TERMS {
            continue;
        }
        let line = if rng.percent(size.noise) {
            any_line(rng, &draft, kind)
        } else {
            true_line(rng, &draft, &plan, kind)
        };
        draft.lines.extend(line);
    }
    if rng.percent(95) {
        open_up(rng, &mut draft, &plan);
    }
    Drawn { draft, plan }
}

/// Adds lines, true of the plan, that most often call for a split.
fn open_up(rng: &mut Rng, draft: &mut Draft, plan: &Plan) {
    draft.lines.truncate(MAX_LINES - 2);
    let kind = *rng.pick(&[6, 7, 7, 11, 11, 12]);
    let Some(line) = true_line(rng, draft, plan, kind) else {
        if draft.terms() < MAX_TERMS {
            draft.lines.extend(true_line(rng, draft, plan, 6));
        }
        return;
    };
    if kind == 6 && draft.terms() == MAX_TERMS {
        return;
    }
    // Some name that is in the union, or in the list.
    let a = line[if kind == 7 { 3 } else { 1 }];
    let from = draft.constants.len();
    let inside: Vec<usize> = (from..draft.nameable())
        .filter(|&t| plan.sets[a as usize].contains(&plan.value(draft, t)))
        .filter(|&t| kind != 11 || !line[3..].contains(&(t as u8)))
        .collect();
    let at = rng.below(draft.lines.len() + 1);
    draft.lines.insert(at, line);
    if !inside.is_empty() {
        draft.lines.push(vec![1, *rng.pick(&inside) as u8, a]);
    }
    if draft.terms() < MAX_TERMS && kind != 6 && (inside.is_empty() || rng.percent(60)) {
        draft.lines.truncate(MAX_LINES - 1);
        draft.lines.extend(true_line(rng, draft, plan, 6));
    }
}

/// Facts about one class that come from its members, and so meet only when
/// the last link between them is made; with a link left out at times.
fn draw_chain(rng: &mut Rng) -> Drawn {
    let links = rng.between(1, 7);
    let constants = *rng.pick(&[0, 0, 1, 2, 2]);
    let mut draft = Draft {
        constants: draw_constants(rng, constants),
        names: draw_letters(rng, links + 1, b'a'),
        sets: draw_letters(rng, 4, b'A'),
        lines: Vec::new(),
    };
    let name = |at: usize| (constants + at) as u8;
    let mut chain: Vec<u8> = (0..=links).map(name).collect();
    rng.shuffle(&mut chain);
    let left_out = if rng.percent(35) { rng.below(links) } else { links };
    for (at, pair) in chain.windows(2).enumerate() {
        if at == left_out {
            continue;
        }
        let (t, u) = if rng.percent(50) { (pair[0], pair[1]) } else { (pair[1], pair[0]) };
        if rng.percent(25) {
            // Linked by a list of one: D = {t}, u in D.
            draft.lines.push(vec![11, 3, 1, t]);
            draft.lines.push(vec![1, u, 3]);
        } else {
            draft.lines.push(vec![3, t, u]);
        }
    }
    let (first, last) = (chain[0], chain[links]);
    match rng.below(11) {
        0 | 6 => draft.lines.extend([vec![1, first, 0], vec![2, last, 0]]),
        7 | 8 => draft.lines.extend([vec![2, first, 0], vec![1, last, 0]]),
        // out of D, which lists the other.
        9 => draft.lines.extend([vec![2, first, 3], vec![11, 3, 1, last]]),
        // in the union of A and B, but in neither.
        4 | 5 => {
            let middle = *rng.pick(&chain);
            draft.lines.extend([vec![1, first, 2], vec![2, last, 1], vec![2, middle, 0], vec![7, 0, 1, 2]]);
        }
        1 => draft.lines.push(vec![4, last, first]),
        2 if constants == 2 => draft.lines.extend([vec![3, first, 0], vec![3, 1, last]]),
        // in A, A within B, B apart from C, in C.
        3 => draft.lines.extend([vec![1, first, 0], vec![9, 0, 1], vec![8, 1, 2], vec![1, last, 2]]),
        // in A and in B, which meet in C; some other member is out of C.
        _ => {
            let middle = *rng.pick(&chain);
            draft.lines.extend([vec![1, first, 0], vec![1, last, 1], vec![10, 0, 1, 2], vec![2, middle, 2]]);
        }
    }
    if rng.percent(50) {
        draft.lines.push(vec![7, 0, 1, 2]);
        draft.lines.push(vec![1, *rng.pick(&chain), 2]);
    }
    if rng.percent(30) {
        draft.lines.push(vec![6, rng.below(4) as u8, rng.below(4) as u8]);
    }
    match rng.below(3) {
        0 => rng.shuffle(&mut draft.lines),
        // Facts first, links last.
        1 => draft.lines.reverse(),
        _ => {}
    }
    if rng.percent(25) {
        draft.sets.clear();
        draft.lines.retain(|line| matches!(line[0], 3 | 4));
        if constants == 2 {
            draft.lines.extend([vec![3, first, 0], vec![3, 1, last]]);
        }
    }
    let plan = draw_plan(rng, &draft, draft.sets.len());
    Drawn { draft, plan }
}

/// Names that stand on few places, most of them apart.
fn draw_places(rng: &mut Rng) -> Drawn {
    let places = rng.between(1, 5);
    let names = rng.between(2, 6);
    let mut draft = Draft {
        constants: draw_constants(rng, places),
        names: draw_letters(rng, names, b'a'),
        sets: draw_letters(rng, 2, b'A'),
        lines: Vec::new(),
    };
    if rng.percent(40) && run_end(&draft, 0) == places - 1 {
        draft.lines.push(vec![12, 0, 0, places as u8 - 1]);
    } else {
        let mut list = vec![11, 0, places as u8];
        list.extend(0..places as u8);
        rng.shuffle(&mut list[3..]);
        draft.lines.push(list);
    }
    let keep = *rng.pick(&[50, 80, 100]);
    for t in 0..names {
        draft.lines.push(vec![1, (places + t) as u8, 0]);
        for u in 0..t {
            if rng.percent(keep) {
                draft.lines.push(vec![4, (places + t) as u8, (places + u) as u8]);
            }
        }
    }
    if rng.percent(40) {
        // Some places are marked, and some names stand on such a one.
        for t in 0..places + names {
            if rng.percent(if t < places { 60 } else { 20 }) {
                draft.lines.push(vec![1 + rng.below(2) as u8, t as u8, 1]);
            }
        }
    }
    if rng.percent(50) {
        rng.shuffle(&mut draft.lines);
    }
    let plan = draw_plan(rng, &draft, 2);
    Drawn { draft, plan }
}

/// Names that a list says are among its entries, with facts of both that meet
/// when rule 20 joins them. Then several rules apply at once.
fn draw_meeting(rng: &mut Rng) -> Drawn {
    let (constants, entries, inside) = (rng.below(4), rng.between(1, 3), rng.between(1, 2));
    let mut draft = Draft {
        constants: draw_constants(rng, constants),
        names: draw_letters(rng, entries + inside, b'a'),
        sets: draw_letters(rng, 8, b'A'),
        lines: Vec::new(),
    };
    // Names are numbered from here; their order says which head stays.
    let mut names: Vec<u8> = (constants..constants + entries + inside).map(|t| t as u8).collect();
    rng.shuffle(&mut names);
    let (listed, members) = names.split_at(entries);
    let mut plan = Plan { values: vec![0; entries + inside], sets: Vec::new() };
    for &t in listed {
        let taken = constants > 0 && rng.percent(30);
        plan.values[t as usize - constants] =
            if taken { *rng.pick(&draft.constants) } else { rng.next() as i16 };
    }
    let mut list: Vec<u8> = listed.to_vec();
    list.extend((0..constants as u8).filter(|_| rng.percent(25)));
    rng.shuffle(&mut list);
    for &t in members {
        plan.values[t as usize - constants] = plan.value(&draft, *rng.pick(&list) as usize);
    }
    let mut domain: Vec<i16> = draft.constants.iter().chain(&plan.values).copied().collect();
    domain.push(rng.next() as i16);
    let drawn: Vec<BTreeSet<i16>> =
        (0..3).map(|_| domain.iter().copied().filter(|_| rng.percent(50)).collect()).collect();
    let [a, b, e] = [&drawn[0], &drawn[1], &drawn[2]];
    let of_list = list.iter().map(|&t| plan.value(&draft, t as usize)).collect();
    // A, B, their intersection and union, E, the union of B and E, the
    // intersection of A and E, the list.
    plan.sets = vec![a.clone(), b.clone(), a & b, a | b, e.clone(), b | e, a & e, of_list];
    let mut lines = vec![vec![10, 0, 1, 2], vec![7, 0, 1, 3], vec![7, 1, 4, 5], vec![10, 0, 4, 6]];
    rng.shuffle(&mut lines);
    lines.truncate(rng.between(2, 4));
    // Each side most often knows what the other does not.
    for (at, &t) in names.iter().enumerate() {
        let telling: &[u8] = if at < entries { &[0, 3, 5] } else { &[1, 4] };
        for set in 0..7 {
            if rng.percent(if telling.contains(&set) { 75 } else { 8 }) {
                let holds = plan.sets[set as usize].contains(&plan.value(&draft, t as usize));
                lines.push(vec![if holds { 1 } else { 2 }, t, set]);
            }
        }
    }
    if rng.percent(30) {
        lines.push(vec![4, *rng.pick(members), *rng.pick(listed)]);
    }
    let mut line = vec![11, 7, list.len() as u8];
    line.extend(&list);
    lines.extend(members.iter().map(|&t| vec![1, t, 7]));
    if rng.percent(50) {
        rng.shuffle(&mut lines);
    }
    // The list goes first of all splits, or anywhere.
    let at = if rng.percent(70) { 0 } else { rng.below(lines.len() + 1) };
    lines.insert(at, line);
    draft.lines = lines;
    Drawn { draft, plan }
}

/// Unions of unions, with names in them of which little else is known.
fn draw_unions(rng: &mut Rng) -> Drawn {
    let (constants, names, sets) = (rng.below(3), rng.between(1, 4), rng.between(3, 8));
    let mut draft = Draft {
        constants: draw_constants(rng, constants),
        names: draw_letters(rng, names, b'a'),
        sets: draw_letters(rng, sets, b'A'),
        lines: Vec::new(),
    };
    let mut plan = draw_plan(rng, &draft, 2);
    let domain: Vec<i16> = draft.constants.iter().chain(&plan.values).copied().collect();
    for set in &mut plan.sets {
        set.extend(domain.iter().filter(|_| rng.percent(50)));
    }
    while plan.sets.len() < sets {
        if rng.percent(25) {
            plan.sets.push(domain.iter().copied().filter(|_| rng.percent(40)).collect());
            continue;
        }
        let (a, b, c) = (rng.below(plan.sets.len()), rng.below(plan.sets.len()), plan.sets.len());
        plan.sets.push(&plan.sets[a] | &plan.sets[b]);
        draft.lines.push(vec![7, a as u8, b as u8, c as u8]);
    }
    // The later sets are the unions.
    for t in 0..draft.nameable() {
        let of: Vec<usize> = (2..sets).filter(|&s| plan.sets[s].contains(&plan.value(&draft, t))).collect();
        if !of.is_empty() && rng.percent(80) {
            draft.lines.push(vec![1, t as u8, *rng.pick(&of) as u8]);
        }
    }
    for _ in 0..rng.below(4) {
        let kind = *rng.pick(&[2, 3, 4, 6, 8, 9, 10]);
        draft.lines.extend(true_line(rng, &draft, &plan, kind));
    }
    rng.shuffle(&mut draft.lines);
    Drawn { draft, plan }
}

/// A problem with hardly anything in it, or nothing.
fn draw_bare(rng: &mut Rng) -> Drawn {
    let count = rng.below(3);
    let mut draft = Draft { constants: draw_constants(rng, count), ..Draft::default() };
    let count = *rng.pick(&[0, 0, 1, 26]);
    draft.names = draw_letters(rng, count, b'a');
    let count = *rng.pick(&[0, 0, 1, 8]);
    draft.sets = draw_letters(rng, count, b'A');
    let plan = draw_plan(rng, &draft, count);
    for _ in 0..rng.below(3) {
        let kind = 1 + rng.below(12) as u8;
        draft.lines.extend(any_line(rng, &draft, kind));
    }
    Drawn { draft, plan }
}

/// A sheet of very many bytes: lists that say the same entries over and over.
/// Often of exactly 4,096.
fn draw_long(rng: &mut Rng) -> Drawn {
    let mut drawn = draw_mixed(rng);
    let draft = &mut drawn.draft;
    draft.lines.truncate(20);
    while draft.lines.len() < MAX_LINES {
        let room = MAX_BYTES - draft.bytes().len();
        if room < 3 || draft.sets.is_empty() {
            break;
        }
        let Some(mut line) = true_line(rng, draft, &drawn.plan, 11) else { break };
        if line.len() > room || line.len() > 258 {
            break;
        }
        let entries = line[3..].to_vec();
        if entries.is_empty() {
            draft.lines.push(line);
            if rng.percent(20) {
                break;
            }
            continue;
        }
        let mut wanted = if rng.percent(80) { 255 } else { rng.between(entries.len(), 255) };
        wanted = wanted.min(room - 3);
        while line.len() - 3 < wanted {
            line.push(*rng.pick(&entries));
        }
        line[2] = wanted as u8;
        draft.lines.push(line);
    }
    drawn
}

/// As large as a problem can be: 64 terms, 8 sets, 48 constraints, 4,096 bytes.
fn draw_full(rng: &mut Rng) -> Drawn {
    let witnesses = rng.below(9);
    let mut draft = Draft {
        constants: draw_constants(rng, MAX_TERMS - 26 - witnesses),
        names: draw_letters(rng, 26, b'a'),
        sets: draw_letters(rng, MAX_SETS, b'A'),
        lines: Vec::new(),
    };
    let mut plan = draw_plan(rng, &draft, MAX_SETS);
    // One set at least that a list can say.
    let few: Vec<i16> = (0..3).map(|_| plan.value(&draft, rng.below(draft.nameable()))).collect();
    plan.sets[0] = few.into_iter().collect();
    let lists = rng.between(18, 26);
    while draft.lines.len() < MAX_LINES - lists {
        let kind = if draft.terms() < MAX_TERMS { 6 } else { *rng.pick(&[1, 1, 2, 2, 3, 4, 5, 7, 8, 9, 10, 12]) };
        let line = true_line(rng, &draft, &plan, kind).or_else(|| any_line(rng, &draft, kind));
        draft.lines.extend(line);
    }
    for left in (1..=lists).rev() {
        let room = MAX_BYTES - draft.bytes().len();
        let Some(mut line) = true_line(rng, &draft, &plan, 11) else { unreachable!("set 0 can be listed") };
        if line[2] == 0 {
            // An empty set's list cannot be made longer: list set 0.
            let entries = (0..draft.nameable()).filter(|&t| plan.sets[0].contains(&plan.value(&draft, t)));
            line = vec![11, 0, 0];
            line.extend(entries.map(|t| t as u8));
        }
        let entries = line[3..].to_vec();
        line.resize_with(room / left, || *rng.pick(&entries));
        line[2] = (line.len() - 3) as u8;
        draft.lines.push(line);
    }
    if rng.percent(50) {
        rng.shuffle(&mut draft.lines);
    }
    Drawn { draft, plan }
}

/// A well formed problem: it passes questions 1 to 11.
pub fn draw(rng: &mut Rng) -> Drawn {
    match rng.below(40) {
        0..=3 => draw_chain(rng),
        4 | 5 => draw_places(rng),
        6 if rng.percent(30) => draw_full(rng),
        6 => draw_long(rng),
        7..=13 => draw_meeting(rng),
        14..=19 => draw_unions(rng),
        20 => draw_bare(rng),
        _ => draw_mixed(rng),
    }
}

/// The problem with one constraint put in the place of constraint `at` that is
/// not true of the plan, of the kind if one is found; else none.
pub fn untrue_at(rng: &mut Rng, drawn: &Drawn, at: usize, kind: u8) -> Option<Draft> {
    let mut draft = drawn.draft.clone();
    for _ in 0..20 {
        draft.lines[at] = any_line(rng, &draft, kind)?;
        let alone = Draft { lines: vec![draft.lines[at].clone()], ..draft.clone() };
        if crate::check::check(&alone.bytes(), &drawn.plan.bytes()) == crate::answer::fails(0) {
            return (draft.terms() <= MAX_TERMS).then_some(draft);
        }
    }
    None
}

/// A problem with a fault meant to be refused by `number`, 1 to 11 (where the
/// draft has what it takes; else with another fault, or none).
pub fn damage(rng: &mut Rng, draft: &Draft, number: u8) -> Vec<u8> {
    let mut d = draft.clone();
    damage_parts(rng, &mut d, number);
    let mut bytes = d.bytes();
    damage_bytes(rng, &d, &mut bytes, number, usize::MAX);
    bytes
}

/// A problem with two faults, often close together: the question asked first
/// refuses it.
pub fn damage_twice(rng: &mut Rng, draft: &Draft, numbers: [u8; 2]) -> Vec<u8> {
    let mut d = draft.clone();
    for number in numbers {
        damage_parts(rng, &mut d, number);
    }
    if rng.percent(50) {
        // The last line is the one at fault, if one is.
        if let Some(at) = d.lines.iter().position(|line| faulty(&d, line)) {
            let line = d.lines.remove(at);
            d.lines.push(line);
        }
    }
    let mut bytes = d.bytes();
    let last = d.lines.last().map_or(1, |line| line.len());
    for number in numbers {
        damage_bytes(rng, &d, &mut bytes, number, last);
    }
    bytes
}

/// A problem whose last line has operands that are at, below or past their
/// limits, each by itself, and is often cut off: many faults in one line.
pub fn damage_line(rng: &mut Rng, draft: &Draft) -> Vec<u8> {
    let mut d = draft.clone();
    d.lines.truncate(MAX_LINES - 1);
    let (constants, terms, sets) = (d.constants.len(), d.nameable(), d.sets.len());
    let mut operand = |limits: &[usize]| -> u8 {
        let limit = *rng.pick(limits);
        match rng.below(8) {
            0 => limit as u8,
            1 => (limit + 1).min(255) as u8,
            2 => 255,
            3 => 0,
            4 | 5 => limit.saturating_sub(1) as u8,
            _ => rng.below(limit.max(1)) as u8,
        }
    };
    let kind = operand(&[13, 12, 14, 13]);
    let mut line = vec![kind];
    match kind {
        1 | 2 => line.extend([operand(&[terms]), operand(&[sets])]),
        3 | 4 => line.extend([operand(&[terms]), operand(&[terms])]),
        7 | 10 => line.extend((0..3).map(|_| operand(&[sets]))),
        11 => {
            let count = operand(&[1, 3, 6]) % 12;
            line.extend([operand(&[sets]), count]);
            line.extend((0..count).map(|_| operand(&[terms])));
        }
        12 => line.extend([operand(&[sets]), operand(&[constants, terms]), operand(&[constants, terms])]),
        _ => line.extend((0..2).map(|_| operand(&[sets]))),
    }
    let length = line.len();
    d.lines.push(line);
    let mut bytes = d.bytes();
    if rng.percent(35) {
        bytes.truncate(bytes.len() - rng.between(1, length));
    } else if rng.percent(15) {
        bytes.push(rng.next() as u8);
    }
    bytes
}

fn faulty(draft: &Draft, line: &[u8]) -> bool {
    let mut alone = draft.clone();
    alone.lines = vec![line.to_vec()];
    matches!(Sheet::read(&alone.bytes()), Err(7..=9))
}

/// The faults that are put in the bytes: 1, 2, 6 and 10. A cut takes at most
/// `cut` bytes.
fn damage_bytes(rng: &mut Rng, d: &Draft, bytes: &mut Vec<u8>, number: u8, cut: usize) {
    match number {
        1 => {
            let length = *rng.pick(&[MAX_BYTES + 1, MAX_BYTES + 1, MAX_BYTES + 2, 9000]);
            bytes.resize(length.max(bytes.len()), rng.next() as u8);
        }
        2 => {
            let most = bytes.len().min(cut);
            bytes.truncate(bytes.len() - 1 - rng.below(most));
        }
        6 => {
            let at = 3 + 2 * d.constants.len() + d.names.len() + d.sets.len();
            if let Some(count) = bytes.get_mut(at) {
                *count = *rng.pick(&[49, 50, 255]);
            }
        }
        10 => {
            let count = rng.between(1, 5);
            bytes.extend((0..count).map(|_| rng.next() as u8));
        }
        _ => {}
    }
}

/// The faults that are put in the parts: 3, 4, 5, 7, 8, 9 and 11.
fn damage_parts(rng: &mut Rng, d: &mut Draft, number: u8) {
    match number {
        3 => {
            let n = d.constants.len();
            match rng.below(4) {
                0 if n > 1 => {
                    let at = rng.below(n - 1);
                    d.constants.swap(at, at + 1);
                }
                1 if n > 0 => {
                    let at = rng.below(n);
                    d.constants.insert(at, d.constants[at]);
                }
                2 => d.constants.insert(0, *rng.pick(&[-32_001, -32_768])),
                _ => d.constants.push(*rng.pick(&[32_001, 32_767])),
            }
        }
        4 => match rng.below(3) {
            0 if !d.names.is_empty() => d.names.push(d.names[d.names.len() - 1]),
            1 if d.names.len() > 1 => d.names.swap(0, 1),
            _ => {
                let byte = *rng.pick(b"A`{\x00\xFF\xE1Z");
                let at = rng.below(d.names.len() + 1);
                d.names.insert(at, byte);
            }
        },
        5 => match rng.below(4) {
            0 if !d.sets.is_empty() => d.sets.push(d.sets[d.sets.len() - 1]),
            1 if d.sets.len() > 1 => d.sets.swap(0, 1),
            2 => d.sets = draw_letters(rng, MAX_SETS + 1, b'A'),
            _ => {
                let byte = *rng.pick(b"a@[\x00\xFF\xC1z");
                let at = rng.below(d.sets.len() + 1);
                d.sets.insert(at, byte);
            }
        },
        7 => {
            if d.lines.is_empty() {
                d.lines.push(vec![0]);
            }
            let at = rng.below(d.lines.len());
            d.lines[at][0] = *rng.pick(&[0, 13, 14, 255]);
        }
        8 => {
            let (terms, sets) = (d.nameable() as u8, d.sets.len() as u8);
            if d.lines.is_empty() || rng.percent(20) {
                d.lines.truncate(MAX_LINES - 1);
                // A witness is a term, but not one a line can name.
                d.lines.push(vec![3, terms, terms]);
            }
            let at = rng.below(d.lines.len());
            let line = &mut d.lines[at];
            let past = rng.below(2) as u8 * rng.below(20) as u8;
            match line[0] {
                1 | 2 if rng.percent(50) => line[1] = terms + past,
                1 | 2 => line[2] = sets + past,
                3 | 4 => line[1 + rng.below(2)] = terms + past,
                5 | 6 | 8 | 9 => line[1 + rng.below(2)] = sets + past,
                7 | 10 => line[1 + rng.below(3)] = sets + past,
                11 if line.len() > 3 && rng.percent(70) => {
                    let entry = rng.between(3, line.len() - 1);
                    line[entry] = terms + past;
                }
                12 if rng.percent(70) => line[2 + rng.below(2)] = terms + past,
                // (A line that fault 7 put there may be of one byte.)
                _ => line.iter_mut().skip(1).take(1).for_each(|byte| *byte = sets + past),
            }
        }
        9 => {
            if d.sets.is_empty() {
                d.sets.push(b'K');
            }
            if d.names.is_empty() && rng.percent(50) {
                d.names.push(b'q');
                // Lines keep their meaning: constants come first.
            }
            d.lines.truncate(MAX_LINES - 1);
            let (n, terms) = (d.constants.len(), d.nameable());
            let a = rng.below(d.sets.len()) as u8;
            let gap = (0..n).find(|&i| run_end(d, i) + 1 < n);
            let line = if let (Some(i), true) = (gap, rng.percent(60)) {
                let j = rng.between(run_end(d, i) + 1, n - 1);
                vec![12, a, i as u8, j as u8]
            } else if terms > n {
                let name = rng.between(n, terms - 1) as u8;
                if n > 0 && rng.percent(60) {
                    let other = rng.below(n) as u8;
                    if rng.percent(50) { vec![12, a, name, other] } else { vec![12, a, other, name] }
                } else {
                    vec![12, a, name, name]
                }
            } else {
                vec![12, a, 0, 0]
            };
            let at = rng.below(d.lines.len() + 1);
            d.lines.insert(at, line);
        }
        11 => {
            // T of 65 or more, of constants or of witnesses.
            if !d.sets.is_empty() && rng.percent(50) {
                while d.lines.len() < MAX_LINES && d.terms() <= MAX_TERMS {
                    d.lines.push(vec![6, 0, rng.below(d.sets.len()) as u8]);
                }
            }
            let wanted = if rng.percent(50) { MAX_TERMS + 1 } else { rng.between(66, 300) };
            let low = d.constants.last().copied().unwrap_or(-1) as i32;
            let mut next = low.min(31_000) + 1;
            while d.terms() < wanted && d.constants.len() < 255 && next <= 32_000 {
                if d.constants.last().is_none_or(|&last| (last as i32) < next) {
                    d.constants.push(next as i16);
                }
                next += 1;
            }
            if d.terms() <= MAX_TERMS {
                // The constants stand at the end of the range: start anew. The
                // lines would name other terms, and may fail other questions.
                d.constants = (0..66).collect();
                d.lines.retain(|line| line[0] != 12);
            }
        }
        _ => {}
    }
}

/// A few bytes changed, taken out, put in or cut off, anywhere.
pub fn scratch(rng: &mut Rng, bytes: &mut Vec<u8>) {
    for _ in 0..rng.between(1, 3) {
        if bytes.is_empty() {
            return;
        }
        let at = rng.below(bytes.len());
        match rng.below(8) {
            0 => {
                bytes.remove(at);
            }
            1 => bytes.insert(at, rng.next() as u8),
            2 => bytes.truncate(at),
            3 => bytes.push(rng.below(14) as u8),
            4 => bytes[at] = bytes[at].wrapping_add(1),
            5 => bytes[at] = bytes[at].wrapping_sub(1),
            6 => bytes[at] ^= 1 << rng.below(8),
            _ => bytes[at] = rng.next() as u8,
        }
    }
}

/// A well formed setting near a given one: most often it fails some line.
pub fn near(rng: &mut Rng, sheet: &Sheet, plan: &Plan) -> Plan {
    let mut near = plan.clone();
    let mut known: Vec<i16> = near.values.clone();
    known.extend((0..sheet.constants()).map(|t| sheet.constant(t) as i16));
    known.extend(near.sets.iter().flatten());
    known.extend([0, i16::MIN, i16::MAX, rng.next() as i16]);
    for _ in 0..rng.between(1, 2) {
        let value = *rng.pick(&known);
        if !near.sets.is_empty() && (near.values.is_empty() || rng.percent(60)) {
            let at = rng.below(near.sets.len());
            if !near.sets[at].remove(&value) && near.sets[at].len() < 255 {
                near.sets[at].insert(value);
            }
        } else if !near.values.is_empty() {
            let at = rng.below(near.values.len());
            near.values[at] = value;
        }
    }
    near
}

/// A setting with a set as large as its count byte can say.
pub fn wide(rng: &mut Rng, plan: &Plan) -> Plan {
    let mut wide = plan.clone();
    if !wide.sets.is_empty() {
        let at = rng.below(wide.sets.len());
        while wide.sets[at].len() < 255 {
            wide.sets[at].insert(rng.next() as i16);
        }
    }
    wide
}

pub const WAYS: usize = 8;

/// A setting made malformed in one of `WAYS` ways, and true; where there is
/// not what it takes, one cut short or made longer, and false.
pub fn malform(rng: &mut Rng, plan: &Plan, way: usize) -> (Vec<u8>, bool) {
    let mut bytes = plan.bytes();
    // Where the count byte of each set stands.
    let mut counts = Vec::new();
    let mut at = 1 + 2 * plan.values.len();
    for set in &plan.sets {
        counts.push((at, set.len()));
        at += 1 + 2 * set.len();
    }
    let pairs: Vec<usize> = counts
        .iter()
        .flat_map(|&(at, count)| (1..count).map(move |member| at + 1 + 2 * member))
        .collect();
    match way {
        0 => bytes.truncate(rng.below(bytes.len())),
        1 => bytes.extend((0..rng.between(1, 3)).map(|_| rng.below(3) as u8).collect::<Vec<_>>()),
        2 => bytes[0] = bytes[0].wrapping_add(1),
        3 => bytes[0] = bytes[0].wrapping_sub(1),
        // A member twice, or two in falling order.
        4 if !pairs.is_empty() => {
            let at = *rng.pick(&pairs);
            bytes.copy_within(at - 2..at, at);
        }
        5 if !pairs.is_empty() => {
            let at = *rng.pick(&pairs);
            bytes.swap(at - 2, at);
            bytes.swap(at - 1, at + 1);
        }
        // The last set's count says one more, or one less, than follow.
        6 if !counts.is_empty() => {
            let (at, _) = counts[counts.len() - 1];
            bytes[at] = bytes[at].wrapping_add(1);
        }
        7 if counts.last().is_some_and(|&(_, count)| count > 0) => {
            let (at, _) = counts[counts.len() - 1];
            bytes[at] -= 1;
        }
        _ => {
            if rng.percent(50) {
                bytes.pop();
            } else {
                bytes.push(0);
            }
            return (bytes, false);
        }
    }
    (bytes, true)
}
