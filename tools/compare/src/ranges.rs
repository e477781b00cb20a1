//! `AmbientRange`, `EqShape`, a band's gain and plans.
use crate::case::{Case, Run, Tally, fewer, hex};
use crate::inputs::values;
use crate::lent::{MOST_VALUES, Told, Values, told_difference};
use common::choice::Choice;
use common::frames;
use original::mdr::payload::{AmbientRange, EqShape};

#[derive(Clone, Copy, Debug)]
pub enum Call {
    Admits { level: i32 },
    Within { low: u8, high: u8 },
}

#[derive(Clone, Debug)]
pub struct Range {
    call: Call,
    min: u8,
    max: u8,
    step: u8,
    values: usize,
}

impl Case for Range {
    fn difference(&self, tally: &mut Tally) -> Option<String> {
        let (min, max, step) = (self.min, self.max, self.step);
        let range = AmbientRange { voice: false, min, max, step };
        match self.call {
            Call::Admits { level } => {
                // 22 where the Rust panics.
                let panics = step == 0 && (i32::from(min)..=i32::from(max)).contains(&level);
                let expected = if panics { Told::refused(22) } else { Told::accepted(&[range.admits(level).into()]) };
                tally.add("admits", expected.status);
                let mut values = Values::new(self.values);
                let status = ours::admits(min, max, step, level, values.lend());
                told_difference(&expected, status, &values)
            }
            Call::Within { low, high } => {
                tally.add("within", 0);
                let expected = match range.within(low, high) {
                    None => vec![0],
                    Some(w) => vec![1, w.min.into(), w.max.into(), w.step.into()],
                };
                let mut values = Values::new(self.values);
                let status = ours::within(min, max, step, low, high, values.lend());
                told_difference(&Told::accepted(&expected), status, &values)
            }
        }
    }

    fn smaller(&self) -> Vec<Range> {
        let mut all = Vec::new();
        if self.min > 0 {
            all.push(Range { min: self.min - 1, ..self.clone() });
        }
        if self.max > 0 {
            all.push(Range { max: self.max - 1, ..self.clone() });
        }
        if self.step > 0 {
            all.push(Range { step: self.step - 1, ..self.clone() });
        }
        let calls = match self.call {
            Call::Admits { level } => vec![Call::Admits { level: level / 2 }, Call::Admits { level: level - level.signum() }],
            Call::Within { low, high } => {
                vec![Call::Within { low: low.saturating_sub(1), high }, Call::Within { low, high: high.saturating_sub(1) }]
            }
        };
        let numbers = |call: Call| match call {
            Call::Admits { level } => u64::from(level.unsigned_abs()),
            Call::Within { low, high } => u64::from(low) + u64::from(high),
        };
        let fewer = calls.into_iter().filter(|&call| numbers(call) < numbers(self.call));
        all.extend(fewer.map(|call| Range { call, ..self.clone() }));
        if self.values != MOST_VALUES {
            all.push(Range { values: MOST_VALUES, ..self.clone() });
        }
        all
    }

    fn shown(&self) -> String {
        format!("{:?}, min {}, max {}, step {}, values {}", self.call, self.min, self.max, self.step, self.values)
    }
}

/// A range that is narrowed to two pairs of bounds: min, max, step, and low and high of each pair.
#[derive(Clone, Debug)]
pub struct Twice([u8; 7]);

/// What `within` leaves, by our side: min, max and step.
fn narrowed(left: Option<[u8; 3]>, (low, high): (u8, u8)) -> Option<[u8; 3]> {
    let [min, max, step] = left?;
    let mut values = [0; 4];
    ours::within(min, max, step, low, high, &mut values);
    (values[0] == 1).then(|| [1, 2, 3].map(|i| values[i] as u8))
}

/// Whether what is left admits a level, by our side: a 0, a 1 or the refusal.
fn admitted(left: Option<[u8; 3]>, level: i32) -> u8 {
    let Some([min, max, step]) = left else { return 0 };
    let mut values = [0; 1];
    let status = ours::admits(min, max, step, level, &mut values);
    if status == 0 { values[0] as u8 } else { status }
}

impl Case for Twice {
    fn difference(&self, tally: &mut Tally) -> Option<String> {
        let [min, max, step, low, high, then_low, then_high] = self.0;
        let (by, then) = ((low, high), (then_low, then_high));
        let range = AmbientRange { voice: false, min, max, step };
        let expected = range.within(low, high).and_then(|r| r.within(then_low, then_high)).map(|r| [r.min, r.max, r.step]);
        tally.add("within_twice", if expected.is_some() { 0 } else { b'N' });
        let whole = Some([min, max, step]);
        let got = [
            narrowed(narrowed(whole, by), then),
            narrowed(narrowed(whole, then), by),
            narrowed(whole, (low.max(then_low), high.min(then_high))),
        ];
        if got != [expected; 3] {
            return Some(format!("expected: {expected:?}\nours, in each order and at once: {got:?}"));
        }
        // By 02, for a step above 0: what was admitted before and lies in both pairs, and none only where nothing does.
        let lies = |(low, high): (u8, u8), level: i32| (i32::from(low)..=i32::from(high)).contains(&level);
        let kept = |level: i32| lies(by, level) && lies(then, level) && range.admits(level);
        let levels = -1..=256;
        if step > 0 && expected.is_none() && levels.clone().any(kept) {
            return Some("none is left of a range with such a level".into());
        }
        let wrong = levels.clone().find(|&level| step > 0 && admitted(got[0], level) != u8::from(kept(level)));
        wrong.map(|level| format!("level {level}, expected: {}\nours:     {}", u8::from(kept(level)), admitted(got[0], level)))
    }

    fn smaller(&self) -> Vec<Twice> {
        (0..7).filter(|&i| self.0[i] > 0).map(|i| Twice(std::array::from_fn(|j| self.0[j] - u8::from(i == j)))).collect()
    }

    fn shown(&self) -> String {
        format!("{self:?}")
    }
}

/// A number of steps, and a step.
#[derive(Clone, Debug)]
pub struct Steps {
    count: usize,
    step: u8,
}

impl Case for Steps {
    fn difference(&self, tally: &mut Tally) -> Option<String> {
        tally.add("eq_shape", 0);
        tally.add("eq_bias", 0);
        tally.add("gain", 0);
        let shape = EqShape::of(self.count);
        let place = match shape {
            EqShape::ClearBassAndFive => 0,
            EqShape::TenBands => 1,
            EqShape::Unknown => 2,
        };
        // A gain is 01's own: the step less the bias.
        let expected = (place, shape.bias(), i32::from(self.step) - shape.bias());
        let got = (ours::eq_shape(self.count), ours::eq_bias(self.count), ours::gain(self.count, self.step));
        (expected != got).then(|| format!("shape, bias and gain expected: {expected:?}\nours:     {got:?}"))
    }

    fn smaller(&self) -> Vec<Steps> {
        let mut all = Vec::new();
        if self.count > 0 {
            all.push(Steps { count: self.count / 2, ..*self });
            all.push(Steps { count: self.count - 1, ..*self });
        }
        if self.step > 0 {
            all.push(Steps { step: self.step - 1, ..*self });
        }
        all
    }

    fn shown(&self) -> String {
        format!("{self:?}")
    }
}

/// Whether a plan is one: the rule of 01 and 02.
#[derive(Clone, Debug)]
pub struct Plan {
    bytes: Vec<u8>,
}

pub fn is_plan(bytes: &[u8]) -> bool {
    bytes.len() == 512 && bytes.iter().all(|&b| b <= 8)
}

impl Case for Plan {
    fn difference(&self, tally: &mut Tally) -> Option<String> {
        let (expected, got) = (is_plan(&self.bytes), ours::plan_fine(&self.bytes));
        tally.add("plan_fine", if expected { 0 } else { 5 });
        (expected != got).then(|| format!("expected: {expected}\nours:     {got}"))
    }

    fn smaller(&self) -> Vec<Plan> {
        fewer(&self.bytes).into_iter().map(|bytes| Plan { bytes }).collect()
    }

    fn shown(&self) -> String {
        format!("a plan of {} bytes [{}]", self.bytes.len(), hex(&self.bytes))
    }
}

/// The house plan, which has no input.
#[derive(Clone)]
struct House;

impl Case for House {
    fn difference(&self, tally: &mut Tally) -> Option<String> {
        tally.add("house_plan", 0);
        let mut plan = [0xFF; 512];
        ours::house_plan(&mut plan);
        (plan[..] != frames::house_plan()).then(|| format!("ours:     {}", hex(&plan)))
    }

    fn smaller(&self) -> Vec<House> {
        vec![]
    }

    fn shown(&self) -> String {
        "the house plan".into()
    }
}

const ENDS: [u8; 12] = [0, 1, 2, 3, 5, 9, 20, 127, 128, 200, 254, 255];

pub fn exhaustive(run: &mut Run) {
    let levels: Vec<i32> = (-2..30).chain([126, 127, 128, 129, 253, 254, 255, 256, 257, i32::MIN, -256, i32::MAX]).collect();
    for min in ENDS {
        for max in ENDS {
            for step in ENDS {
                let range = |call| Range { call, min, max, step, values: MOST_VALUES };
                for &level in &levels {
                    run.case(&range(Call::Admits { level }));
                }
                for low in ENDS {
                    for high in ENDS {
                        run.case(&range(Call::Within { low, high }));
                    }
                }
            }
        }
    }
    for ends in tuples::<2>(5) {
        for step in 0..=5 {
            for [low, high, then_low, then_high] in tuples::<4>(5) {
                run.case(&Twice([ends[0], ends[1], step, low, high, then_low, then_high]));
            }
        }
    }
    for count in (0..=20).chain([255, 256, 262, 266, usize::MAX]) {
        for step in 0..=255 {
            run.case(&Steps { count, step });
        }
    }
    run.case(&House);
    for n in (0..=4).chain(500..=520).chain([1_024]) {
        for entry in [0, 7, 8, 9, 255] {
            run.case(&Plan { bytes: vec![entry; n] });
        }
    }
    for at in 0..512 {
        for entry in [1, 7, 8, 9, 10, 128, 255] {
            let mut bytes = frames::house_plan();
            bytes[at] = entry;
            run.case(&Plan { bytes });
        }
    }
}

/// All of `N` numbers below `n`.
fn tuples<const N: usize>(n: u8) -> impl Iterator<Item = [u8; N]> {
    let n = u32::from(n);
    (0..n.pow(N as u32)).map(move |k| std::array::from_fn(|i| (k / n.pow(i as u32) % n) as u8))
}

pub fn random(run: &mut Run, c: &mut Choice) {
    let level = if c.one_in(20) { c.number() as i32 } else { c.below(300) as i32 - 20 };
    let call = if c.one_in(2) { Call::Admits { level } } else { Call::Within { low: c.byte(), high: c.byte() } };
    let step = if c.one_in(2) { c.below(12) as u8 } else { c.byte() };
    run.case(&Range { call, min: c.byte(), max: c.byte(), step, values: values(c) });
    let mut twice = [(); 7].map(|()| c.byte());
    if c.one_in(2) {
        twice[2] = c.below(12) as u8;
    }
    // Most pairs that are chosen so leave nothing.
    if !c.one_in(4) {
        for at in [0, 3, 5] {
            twice[at..at + 2].sort();
        }
    }
    run.case(&Twice(twice));
    if c.one_in(8) {
        let n = if c.one_in(4) { c.between(505, 520) } else { 512 };
        let mut bytes: Vec<u8> = (0..n).map(|_| c.below(9) as u8).collect();
        if c.one_in(2) {
            let at = c.below(n);
            bytes[at] = c.byte();
        }
        run.case(&Plan { bytes });
        run.case(&Steps { count: c.below(300), step: c.byte() });
    }
}
