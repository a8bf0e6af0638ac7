//! Every call on a shape of either sort: what it is handed, and what it has to answer.

use super::estimates::Seen;
use super::grid::grid;
use super::readings::{Limit, Names, Reading, RIGHT};
use super::turns::{as_rates, back_of, forward_of, loaded, narrow, rates_of, table_of_set, wide};
use super::{Eights, Lists, Shape};
use crate::model::estimates::UNIT;
use crate::model::{
    axis as check_axis, bits as check_bits, is_forward, rates::all_rates, within, Refused, MOST_POINTS,
};

/// One call.
#[derive(Clone, Debug, PartialEq, Eq)]
pub enum Call {
    Count,
    Number(Lists),
    Point(u64),
    Successor(Lists),
    Parent { of: Lists, axis: u32, side: u32 },
    Load(Vec<i64>),
    Adopt(Vec<i64>),
    Turn { back: bool, bits: u8, table: Vec<i64>, axis: u32 },
    Unload { bits: u8, table: Vec<i64> },
    ToCoefficients(Vec<i64>),
    ToRates(Vec<i64>),
    Run { bits: u8, table: Vec<i64>, directions: Vec<u8>, axes: Vec<u32>, numbers: Vec<u32>, places: Vec<u64> },
    Estimate { bits: u8, table: Vec<i64>, coordinates: Vec<u32> },
    Margin { bits: u8, table: Vec<i64>, coordinates: Vec<u32> },
}

/// What a call that succeeds writes, each output that it has.
#[derive(Clone, Debug, PartialEq, Eq, Default)]
pub struct Written {
    /// Outputs of one number each, in their order.
    pub numbers: Vec<i64>,
    pub point: Option<Eights>,
    pub table: Option<Vec<i64>>,
    pub bits: Option<u8>,
    /// Of a run, the numbers and the places of the refusals.
    pub answers: Option<(Vec<u32>, Vec<u64>)>,
}

pub type Answer = Result<Written, Refused>;

fn number(n: u64) -> Written {
    Written { numbers: vec![n as i64], ..Written::default() }
}

/// A point, or that there is none.
fn point_or_none(point: Option<Eights>) -> Written {
    Written { numbers: vec![i64::from(point.is_none())], point, ..Written::default() }
}

fn table(values: &[i128]) -> Written {
    Written { table: Some(narrow(values)), ..Written::default() }
}

impl Call {
    pub fn kind(&self, shape: Shape) -> &'static str {
        let (plain, bordered) = match self {
            Call::Count => ("count", "bordered count"),
            Call::Number(_) => ("number", "bordered number"),
            Call::Point(_) => ("point", "bordered point"),
            Call::Successor(_) => ("successor", "bordered successor"),
            Call::Parent { .. } => ("parent", "bordered parent"),
            Call::Load(_) => ("load", "bordered load"),
            Call::Adopt(_) => ("adopt", "bordered adopt"),
            Call::Turn { back: false, .. } => ("forward", "bordered forward"),
            Call::Turn { back: true, .. } => ("back", "bordered back"),
            Call::Unload { .. } => ("unload", "bordered unload"),
            Call::ToCoefficients(_) => ("whole forward", "bordered whole forward"),
            Call::ToRates(_) => ("whole back", "bordered whole back"),
            Call::Run { .. } => ("run", "bordered run"),
            Call::Estimate { .. } => ("estimate", "bordered estimate"),
            Call::Margin { .. } => ("margin", "bordered margin"),
        };
        if shape.flagged() {
            bordered
        } else {
            plain
        }
    }

    /// Whether a reading that is wrong in one thing answers otherwise than this. Of the limit that shows before contents are
    /// looked at: what comes after 19 and 3 is read as it should be.
    pub fn differs(&self, shape: Shape, answer: &Answer, reading: &Reading) -> bool {
        if reading.limit != RIGHT.limit {
            return self.refused_for_size(shape, reading) != self.refused_for_size(shape, &RIGHT);
        }
        self.concerned(shape, answer, reading) && self.answer_by(shape, reading).is_some_and(|other| other != *answer)
    }

    /// Whether a reading can answer otherwise; of the flag and the number of axes small cases.
    fn concerned(&self, shape: Shape, answer: &Answer, reading: &Reading) -> bool {
        if reading.flag != RIGHT.flag {
            return reading.of(shape) != RIGHT.of(shape) && self.places() <= 30;
        }
        if reading.most_axes != RIGHT.most_axes {
            return matches!(self, Call::Count) && shape.flagged() && shape.level <= 2;
        }
        let named = matches!(self, Call::Number(_) | Call::Successor(_) | Call::Parent { .. });
        if reading.names != RIGHT.names {
            return named && matches!(answer, Ok(_) | Err((7 | 9, _)));
        }
        // what is refused for another reason than contents is refused by the others too
        if !shape.flagged() || !matches!(answer, Ok(_) | Err((10, _))) {
            return false;
        }
        let (order, beside) = (reading.order != RIGHT.order, reading.beside != RIGHT.beside);
        let (weight, unit) = (reading.weight != RIGHT.weight, reading.unit != RIGHT.unit);
        match self {
            Call::Count | Call::Number(_) | Call::Point(_) | Call::Successor(_) => order,
            Call::Parent { .. } | Call::Turn { .. } | Call::Run { .. } => order || beside,
            Call::ToCoefficients(_) | Call::ToRates(_) => order || beside || unit,
            Call::Load(_) => unit,
            Call::Adopt(_) | Call::Unload { .. } => false,
            Call::Estimate { .. } => order || weight,
            Call::Margin { .. } => order || weight || reading.counted != RIGHT.counted,
        }
    }

    /// How many places the table has that the call is handed.
    pub fn places(&self) -> usize {
        match self {
            Call::Load(t) | Call::Adopt(t) | Call::ToCoefficients(t) | Call::ToRates(t) => t.len(),
            Call::Turn { table, .. } | Call::Unload { table, .. } | Call::Run { table, .. } => table.len(),
            Call::Estimate { table, .. } | Call::Margin { table, .. } => table.len(),
            _ => 0,
        }
    }

    pub fn answer(&self, shape: Shape) -> Answer {
        self.answer_by(shape, &RIGHT).expect("the right reading answers every call")
    }

    /// The answer by a reading; none where a wrong one has none, as its turns leave halves or its back turns go in circles.
    fn answer_by(&self, shape: Shape, reading: &Reading) -> Option<Answer> {
        if reading.circles() && matches!(self, Call::Turn { back: true, .. } | Call::ToRates(_) | Call::Run { .. }) {
            return None;
        }
        let shape = reading.of(shape);
        if let Err(why) = self.refused_before_contents(shape, reading) {
            return Some(Err(why));
        }
        let grid = || grid(shape, reading);
        Some(Ok(match self {
            Call::Count => number(count(shape, reading)),
            Call::Number(lists) => number(number_of(shape, lists, reading).ok()? as u64),
            Call::Point(n) => Written { point: Some(grid().lists(*n as usize)), ..Written::default() },
            Call::Successor(lists) => {
                let (grid, next) = (grid(), number_of(shape, lists, reading).ok()? + 1);
                point_or_none((next < grid.order.len()).then(|| grid.lists(next)))
            }
            Call::Parent { of, axis, side } => {
                let (grid, p) = (grid(), number_of(shape, of, reading).ok()?);
                let beside = grid.near()[*axis as usize - 1][p][usize::from(*side != 0)];
                point_or_none(beside.map(|q| grid.lists(q as usize)))
            }
            Call::Load(rates) => {
                let values = loaded(shape, &grid(), rates, reading);
                Written { bits: Some(0), ..table(&values) }
            }
            Call::Adopt(_) => Written { bits: Some(shape.all_bits()), ..Written::default() },
            Call::Turn { back, bits, table, axis } => match turned(shape, *back, *bits, table, *axis, reading) {
                Ok((after, bits)) => Written { table: Some(after), bits: Some(bits), ..Written::default() },
                Err(why) => return Some(Err(why)),
            },
            Call::Unload { table: values, .. } => match as_rates(shape.axes, &wide(values)) {
                Some(rates) => Written { table: Some(rates), ..Written::default() },
                None => return Some(Err((10, 0))),
            },
            Call::ToCoefficients(rates) => table(&table_of_set(shape, &grid(), rates, 1..=shape.axes, reading)?),
            Call::ToRates(coefficients) => match rates_of(shape, &grid(), coefficients, reading) {
                Some(rates) => Written { table: Some(rates), ..Written::default() },
                None => return Some(Err((10, 0))),
            },
            Call::Run { bits, table, directions, axes, .. } => run(shape, *bits, table, directions, axes, reading),
            Call::Estimate { table, coordinates, .. } => {
                Written { numbers: vec![Seen::new(shape, coordinates, reading).estimate(table)], ..Written::default() }
            }
            Call::Margin { table, coordinates, .. } => {
                let seen = Seen::new(shape, coordinates, reading);
                let found = seen.reached(table).with_margin(seen.estimate(table));
                let numbers = vec![found.estimate, found.absolute_sum as i64, found.margin as i64];
                Written { numbers, ..Written::default() }
            }
        }))
    }

    /// The set that it is handed.
    pub fn bits(&self) -> Option<u8> {
        match self {
            Call::Turn { bits, .. }
            | Call::Unload { bits, .. }
            | Call::Run { bits, .. }
            | Call::Estimate { bits, .. }
            | Call::Margin { bits, .. } => Some(*bits),
            _ => None,
        }
    }

    /// Whether it is handed no table but names a point or its number.
    pub fn is_of_points(&self) -> bool {
        matches!(self, Call::Number(_) | Call::Point(_) | Call::Successor(_) | Call::Parent { .. })
    }

    /// Refusal 19.
    fn too_large(&self, shape: Shape, reading: &Reading) -> Result<(), Refused> {
        let points = u128::from(count(shape, reading));
        let passes = match reading.limit {
            Limit::BorderedAlone if !shape.flagged() => true,
            Limit::UnborderedAlone if shape.flagged() => true,
            Limit::NotOfCounts if *self == Call::Count => true,
            Limit::NotOfPoints if self.is_of_points() => true,
            Limit::InnerPoints => crate::model::grid::count(shape.axes, shape.level) <= MOST_POINTS,
            Limit::Below31745 => points < 31_745,
            Limit::To65536 => points <= 65_536,
            Limit::In16Bits => points % 65_536 <= MOST_POINTS,
            _ => points <= MOST_POINTS,
        };
        if passes {
            Ok(())
        } else {
            Err((19, 0))
        }
    }

    /// Refusals 1, 2, 14, 19 and 3, the first that holds.
    fn refused_for_size(&self, shape: Shape, reading: &Reading) -> Result<(), Refused> {
        reading.check(shape)?;
        let too_large = self.too_large(shape, reading);
        if reading.limit == Limit::BeforeBits {
            too_large?;
        }
        if let Some(bits) = self.bits() {
            check_bits(shape.axes, bits)?;
        }
        if reading.limit != Limit::AfterPlaces {
            too_large?;
        }
        let without_table = *self == Call::Count || self.is_of_points();
        if !without_table && self.places() as u64 != count(shape, reading) {
            return Err((3, 0));
        }
        too_large
    }

    /// Every refusal but 10 of turns, of unload and of coefficients to rates, the first that holds in the papers' order.
    fn refused_before_contents(&self, shape: Shape, reading: &Reading) -> Result<(), Refused> {
        self.refused_for_size(shape, reading)?;
        let first = |with: bool, bits: u8| (1..=shape.axes).find(|&t| is_forward(bits, t) == with);
        match self {
            Call::Count | Call::Turn { .. } => Ok(()),
            Call::Number(lists) | Call::Successor(lists) => number_of(shape, lists, reading).map(|_| ()),
            Call::Point(n) if *n >= count(shape, reading) => Err((6, 0)),
            Call::Point(_) => Ok(()),
            Call::Parent { of, axis, .. } => {
                check_axis(shape.axes, *axis)?;
                number_of(shape, of, reading).map(|_| ())
            }
            Call::Load(rates) | Call::ToCoefficients(rates) => all_rates(rates),
            Call::Adopt(table) => past_limit(table),
            Call::Unload { bits, .. } => first(true, *bits).map_or(Ok(()), |t| Err((18, u64::from(t)))),
            Call::ToRates(_) => Ok(()),
            Call::Run { directions, axes, numbers, places, .. } => {
                let one = [axes.len(), numbers.len(), places.len()].iter().all(|&n| n == directions.len());
                if one {
                    Ok(())
                } else {
                    Err((7, 0))
                }
            }
            Call::Estimate { bits, table, coordinates } | Call::Margin { bits, table, coordinates } => {
                if let Some(t) = first(false, *bits) {
                    return Err((17, u64::from(t)));
                }
                if coordinates.len() != shape.axes as usize {
                    return Err((7, 0));
                }
                if let Some(t) = coordinates.iter().position(|&x| i128::from(x) > UNIT) {
                    return Err((8, t as u64 + 1));
                }
                past_limit(table)
            }
        }
    }
}

/// N of a shape that is none of refusals 1 and 2.
pub fn count(shape: Shape, reading: &Reading) -> u64 {
    if shape.flagged() {
        grid(shape, reading).order.len() as u64
    } else {
        crate::model::grid::count(shape.axes, shape.level) as u64
    }
}

fn past_limit(table: &[i64]) -> Result<(), Refused> {
    if table.iter().all(|&v| within(i128::from(v))) {
        Ok(())
    } else {
        Err((10, 0))
    }
}

/// The number of the point that these lists name, of a shape that is not refused: refusals 7 and 9. The coordinates that they
/// say are looked for among the points.
fn number_of(shape: Shape, lists: &Lists, reading: &Reading) -> Result<usize, Refused> {
    let (axes, read) = (shape.axes as usize, reading.names);
    if lists.levels.len() != axes || lists.indices.len() != axes {
        return Err((7, 0));
    }
    let unlooked = !shape.flagged() && matches!(read, Names::NotLookedAt | Names::LengthWithTheFlag);
    if lists.marks.len() != axes && !unlooked {
        return Err((if read == Names::LengthIsNine { 9 } else { 7 }, 0));
    }
    let (mut at, mut borders) = ([0; 8], 0);
    for t in 0..axes {
        let mark = match (lists.marks.get(t), read) {
            (None, _) => 0,
            (Some(_), Names::NotLookedAt) if !shape.flagged() => 0,
            (Some(&mark), Names::LargeForUpper) => mark.min(2),
            (Some(&mark), Names::InEightBits) => mark % 256,
            (Some(&mark), _) => mark,
        };
        at[t] = match (mark, lists.levels[t], lists.indices[t]) {
            (0, level @ 0..=8, index) if index % 2 == 1 && index < 2u32.pow(level + 1) => {
                (index * (512 / 2u32.pow(level + 1))) as u16
            }
            (1..=2, level, index) if shape.flagged() => {
                if level != 0 && read != Names::AnyLevel || index != 1 && read != Names::AnyIndex {
                    return Err((9, 0));
                }
                borders += 1;
                [0, 512][mark as usize - 1]
            }
            _ => return Err((9, 0)),
        };
    }
    let sum = (0..axes).filter(|&t| at[t] != 0 && at[t] != 512).map(|t| lists.levels[t]).sum::<u32>();
    if read == Names::LevelsLessBorders && borders > 0 && sum + borders > shape.level {
        return Err((9, 0));
    }
    grid(shape, reading).number.get(&at).copied().ok_or((9, 0))
}

/// A turn on a state and a table that are none of refusals 1, 2, 14, 19 and 3.
fn turned(
    shape: Shape,
    back: bool,
    bits: u8,
    table: &[i64],
    axis: u32,
    reading: &Reading,
) -> Result<(Vec<i64>, u8), Refused> {
    check_axis(shape.axes, axis)?;
    if is_forward(bits, axis) != back {
        return Err((if back { 16 } else { 15 }, u64::from(axis)));
    }
    let (grid, t) = (grid(shape, reading), axis as usize - 1);
    let after = if back { back_of(&grid, &wide(table), t) } else { forward_of(&grid, &wide(table), t) };
    let bit = 2u8.pow(axis - 1);
    let set = if back { bits - bit } else { bits + bit };
    after.map(|values| (narrow(&values), set)).ok_or((10, 0))
}

fn run(shape: Shape, bits: u8, table: &[i64], directions: &[u8], axes: &[u32], reading: &Reading) -> Written {
    let (mut bits, mut table) = (bits, table.to_vec());
    let (mut numbers, mut places) = (vec![], vec![]);
    for (&direction, &axis) in directions.iter().zip(axes) {
        let (number, place) = match turned(shape, direction != 0, bits, &table, axis, reading) {
            Ok(after) => {
                (table, bits) = after;
                (0, 0)
            }
            Err(refused) => refused,
        };
        numbers.push(number);
        places.push(place);
    }
    Written { table: Some(table), bits: Some(bits), answers: Some((numbers, places)), ..Written::default() }
}

/// Demand 3: what a list of turns does to a table that was just loaded from these rates, from the directions and axes alone.
pub fn demand3(shape: Shape, rates: &[i64], directions: &[u8], axes: &[u32]) -> Written {
    let mut set = std::collections::BTreeSet::new();
    let mut answers = (vec![], vec![]);
    for (&direction, &axis) in directions.iter().zip(axes) {
        let number = match direction {
            _ if axis < 1 || axis > shape.axes => 5,
            0 if !set.insert(axis) => 15,
            1.. if !set.remove(&axis) => 16,
            _ => 0,
        };
        answers.0.push(number);
        answers.1.push(if number == 0 { 0 } else { u64::from(axis) });
    }
    let values = table_of_set(shape, &grid(shape, &RIGHT), rates, set.iter().copied(), &RIGHT);
    let bits = set.iter().map(|&t| 2u8.pow(t - 1)).sum();
    let written = table(&values.expect("every half in the table of a set is whole"));
    Written { bits: Some(bits), answers: Some(answers), ..written }
}
