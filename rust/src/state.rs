//! States: which axes of a table are forward, and the calls that go on from there.

use crate::{boundary, Refusal, Shape, Turn};

/// What has to be kept beside a table between two calls: its shape and one bit for each axis that is forward, bit t − 1 for
/// axis t. docs/MANUAL.md, section 8.
///
/// Both fields may be saved and handed in again later, with the table, by whoever stopped between two turns. A state that no
/// call has answered may also be made of any two values; the calls refuse one with a bit above its axes, with 14.
#[derive(Clone, Copy, Debug, PartialEq, Eq, Hash)]
pub struct State {
    /// The table's shape.
    pub shape: Shape,
    /// The forward axes, one bit each.
    pub bits: u8,
}

impl State {
    /// The state of a table of this shape with these axes forward, as saved.
    pub const fn saved(shape: Shape, bits: u8) -> State {
        State { shape, bits }
    }

    /// Whether this axis, 1 to d, is forward.
    pub fn is_forward(self, axis: u32) -> bool {
        (1..=8).contains(&axis) && self.bits >> (axis - 1) & 1 == 1
    }

    /// Forward on one axis: each value becomes itself minus half the sum of its two parents' values, 0 where there is no
    /// parent. Points on the border of the axis keep their values. Section 8.
    /// Refused with 1, 2, 14, 19, 3, 5, 15, 10.
    pub fn forward(&mut self, table: &mut [i64], axis: u32) -> Result<(), Refusal> {
        let mut place = 0;
        let number = boundary::forward(
            self.shape.axes,
            self.shape.level,
            self.shape.border.into(),
            &mut self.bits,
            table,
            axis,
            &mut place,
        );
        Refusal::checked(number, place)
    }

    /// Back on one axis: the table becomes the one that a forward turn takes to the present one. Section 8.
    /// Refused with 1, 2, 14, 19, 3, 5, 16, 10.
    pub fn back(&mut self, table: &mut [i64], axis: u32) -> Result<(), Refusal> {
        let mut place = 0;
        let number = boundary::back(
            self.shape.axes,
            self.shape.level,
            self.shape.border.into(),
            &mut self.bits,
            table,
            axis,
            &mut place,
        );
        Refusal::checked(number, place)
    }

    /// One turn, in either direction.
    pub fn turn(&mut self, table: &mut [i64], turn: Turn) -> Result<(), Refusal> {
        match turn {
            Turn::Forward(axis) => self.forward(table, axis),
            Turn::Back(axis) => self.back(table, axis),
        }
    }

    /// A list of turns, one after the other: what each of them answered. A refused turn does not end the run.
    /// Section 10.
    ///
    /// The rest of a list may be handed in later, with the table and this state. Refused with 1, 2, 14, 19, 3.
    pub fn run(&mut self, table: &mut [i64], turns: &[Turn]) -> Result<Vec<Result<(), Refusal>>, Refusal> {
        let directions: Vec<u8> = turns.iter().map(|t| t.direction()).collect();
        let axes: Vec<u32> = turns.iter().map(|t| t.axis()).collect();
        let mut numbers = vec![0; turns.len()];
        let mut places = vec![0; turns.len()];
        self.run_lists(table, &directions, &axes, &mut numbers, &mut places)?;
        Ok(numbers.iter().zip(&places).map(|(&number, &place)| Refusal::checked(number, place)).collect())
    }

    /// The same with lent lists and without allocation: direction 0 is forward and every other back; `numbers` and `places`
    /// get each turn's refusal, 0 and 0 where it was carried out. Section 10. Refused with 1, 2, 14, 19, 3, and with 7 where
    /// the four lists differ in length.
    pub fn run_lists(
        &mut self,
        table: &mut [i64],
        directions: &[u8],
        axes: &[u32],
        numbers: &mut [u32],
        places: &mut [u64],
    ) -> Result<(), Refusal> {
        let mut place = 0;
        let number = boundary::run(
            self.shape.axes,
            self.shape.level,
            self.shape.border.into(),
            &mut self.bits,
            table,
            directions,
            axes,
            numbers,
            places,
            &mut place,
        );
        Refusal::checked(number, place)
    }

    /// A table with no axis forward becomes rates, each value divided by 2^d; there is no state afterwards. Section 9.
    /// Refused with 1, 2, 14, 19, 3, 18, 10.
    pub fn unload(self, table: &mut [i64]) -> Result<(), Refusal> {
        let mut place = 0;
        let number =
            boundary::unload(self.shape.axes, self.shape.level, self.shape.border.into(), self.bits, table, &mut place);
        Refusal::checked(number, place)
    }

    /// The estimate at these coordinates, one for each axis, each from 0 to 1,048,576 ([`UNIT`](crate::UNIT)), in units of
    /// 1/2^d of a rate; from a table that is forward on every axis. Its last division is to the nearest whole number, halves
    /// away from zero; the joint weights before it are rounded down.
    /// Section 11. Refused with 1, 2, 14, 19, 3, 17, 7, 8, 10.
    pub fn estimate(self, table: &[i64], coordinates: &[u32]) -> Result<i64, Refusal> {
        let (mut estimate, mut place) = (0, 0);
        let number = boundary::estimate(
            self.shape.axes,
            self.shape.level,
            self.shape.border.into(),
            self.bits,
            table,
            coordinates,
            &mut estimate,
            &mut place,
        );
        Refusal::checked(number, place).map(|()| estimate)
    }

    /// The same estimate, and how far rounding can have moved it from the surface's exact value. Section 11. Refused with 1, 2,
    /// 14, 19, 3, 17, 7, 8, 10.
    pub fn estimate_with_margin(self, table: &[i64], coordinates: &[u32]) -> Result<Estimated, Refusal> {
        let mut place = 0;
        let mut answer = Estimated { estimate: 0, absolute_sum: 0, margin: 0 };
        let number = boundary::estimate_with_margin(
            self.shape.axes,
            self.shape.level,
            self.shape.border.into(),
            self.bits,
            table,
            coordinates,
            &mut answer.estimate,
            &mut answer.absolute_sum,
            &mut answer.margin,
            &mut place,
        );
        Refusal::checked(number, place).map(|()| answer)
    }
}

/// An estimate with its margin, in the table's unit: divide each of the three by 2^d to have rates. docs/MANUAL.md, section 11.
#[derive(Clone, Copy, Debug, PartialEq, Eq, Hash)]
pub struct Estimated {
    /// The estimate.
    pub estimate: i64,
    /// S: the sum of the absolute coefficients of the points whose weight there is above zero on each axis.
    pub absolute_sum: u64,
    /// The exact value of the surface differs from the estimate by at most this: 1/2 + (d − 1) × S / 1,048,576, rounded up.
    /// It is about the library's rounding alone, not about how far the surface is from the truth.
    pub margin: u64,
}
