//! Shapes: their points, and the calls that start from a shape.

use crate::{boundary, Point, Refusal, Side, State};

/// A number of axes, 1 to 8, a top level, 0 to 8, and whether its tables have values on the border; with them there are 1 to
/// 4 axes. Any two numbers make a `Shape` of either sort; each call refuses the ones that are none, with 1 or 2,
/// and those of more than 32,768 points, with 19.
/// docs/MANUAL.md, section 1.
///
/// ```
/// use numolefays::{Shape, INSIDE, LOWER_BORDER, UNIT};
///
/// // one axis: the rates at 1/2, 1/4 and 3/4, then at 0 and at 1
/// let shape = Shape::with_border(1, 1);
/// let mut table = [3, 5, 7, 1, 9];
/// assert_eq!(shape.number_of(&[LOWER_BORDER], &[0], &[1])?, 3);
/// assert_eq!(shape.number_of(&[INSIDE], &[1], &[1])?, 1);
///
/// shape.rates_to_coefficients(&mut table)?; // in units of 1/2 from here on
/// assert_eq!(table, [-4, 6, 2, 2, 18]);
/// let state = shape.adopt(&table)?;
/// assert_eq!(state.estimate(&table, &[0])?, 2); // the rate at 0, 1, times 2
/// assert_eq!(state.estimate(&table, &[UNIT / 4])?, 10);
/// # Ok::<(), numolefays::Refusal>(())
/// ```
#[derive(Clone, Copy, Debug, PartialEq, Eq, Hash)]
pub struct Shape {
    /// The number of axes, d.
    pub axes: u32,
    /// The top level, n.
    pub level: u32,
    /// Whether there are values on the border; without them the surface is 0 there.
    pub border: bool,
}

impl Shape {
    /// The shape of so many axes and this top level, with a zero border.
    pub const fn new(axes: u32, level: u32) -> Shape {
        Shape { axes, level, border: false }
    }

    /// The same with values on the border.
    pub const fn with_border(axes: u32, level: u32) -> Shape {
        Shape { axes, level, border: true }
    }

    /// How many points a table of this shape has, N. Section 3. Refused with 1, 2, 19.
    pub fn points(self) -> Result<u64, Refusal> {
        let (mut points, mut place) = (0, 0);
        let number = boundary::count(self.axes, self.level, self.border.into(), &mut points, &mut place);
        Refusal::checked(number, place).map(|()| points)
    }

    /// The number of the point with these marks, levels and indices, one each for every axis. Section 4. Refused with 1, 2,
    /// 19, 7, 9.
    pub fn number_of(self, marks: &[u32], levels: &[u32], indices: &[u32]) -> Result<u64, Refusal> {
        let (mut found, mut place) = (0, 0);
        let number = boundary::number_of_point(
            self.axes,
            self.level,
            self.border.into(),
            marks,
            levels,
            indices,
            &mut found,
            &mut place,
        );
        Refusal::checked(number, place).map(|()| found)
    }

    /// The point of a number, 0 to N − 1. Section 4. Refused with 1, 2, 19, 6.
    pub fn point(self, number: u64) -> Result<Point, Refusal> {
        let mut point = Point::blank(self.axes);
        let mut place = 0;
        let refused = boundary::point_of_number(
            self.axes,
            self.level,
            self.border.into(),
            number,
            &mut point.all_marks,
            &mut point.all_levels,
            &mut point.all_indices,
            &mut place,
        );
        Refusal::checked(refused, place).map(|()| point)
    }

    /// The point numbered one higher, or `None` after the last. Section 5. Refused with 1, 2, 19, 7, 9.
    pub fn successor(self, marks: &[u32], levels: &[u32], indices: &[u32]) -> Result<Option<Point>, Refusal> {
        let mut next = Point::blank(self.axes);
        let (mut end, mut place) = (0, 0);
        let number = boundary::successor(
            self.axes,
            self.level,
            self.border.into(),
            marks,
            levels,
            indices,
            &mut next.all_marks,
            &mut next.all_levels,
            &mut next.all_indices,
            &mut end,
            &mut place,
        );
        Refusal::checked(number, place).map(|()| if end == 0 { Some(next) } else { None })
    }

    /// The parent of a point on an axis. Where the neighbour on that side is the border, it is the point there if the shape has
    /// values on the border, else `None`. A point on the border of the axis has none. Section 6. Refused with 1, 2, 19, 5, 7, 9.
    pub fn parent(
        self,
        marks: &[u32],
        levels: &[u32],
        indices: &[u32],
        axis: u32,
        side: Side,
    ) -> Result<Option<Point>, Refusal> {
        let mut parent = Point::blank(self.axes);
        let (mut none, mut place) = (0, 0);
        let number = boundary::parent(
            self.axes,
            self.level,
            self.border.into(),
            marks,
            levels,
            indices,
            axis,
            side.number(),
            &mut parent.all_marks,
            &mut parent.all_levels,
            &mut parent.all_indices,
            &mut none,
            &mut place,
        );
        Refusal::checked(number, place).map(|()| if none == 0 { Some(parent) } else { None })
    }

    /// Rates become a loaded table, each rate times 2^d; no axis is forward. Section 9. Refused with 1, 2, 19, 3, 4.
    pub fn load(self, table: &mut [i64]) -> Result<State, Refusal> {
        let (mut forward, mut place) = (0, 0);
        let number = boundary::load(self.axes, self.level, self.border.into(), table, &mut forward, &mut place);
        Refusal::checked(number, place).map(|()| State { shape: self, bits: forward })
    }

    /// Takes a table of coefficients as it is; all axes are forward. Any numbers within the content limit pass: hand in
    /// coefficients only, and keep the state beside a table that is turned on some axes. Section 9. Refused with 1, 2, 19, 3, 10.
    pub fn adopt(self, table: &[i64]) -> Result<State, Refusal> {
        let (mut forward, mut place) = (0, 0);
        let number = boundary::adopt(self.axes, self.level, self.border.into(), table, &mut forward, &mut place);
        Refusal::checked(number, place).map(|()| State { shape: self, bits: forward })
    }

    /// Rates become their coefficients, whole. Section 9. Refused with 1, 2, 19, 3, 4.
    pub fn rates_to_coefficients(self, table: &mut [i64]) -> Result<(), Refusal> {
        let mut place = 0;
        let number = boundary::rates_to_coefficients(self.axes, self.level, self.border.into(), table, &mut place);
        Refusal::checked(number, place)
    }

    /// Coefficients become the rates that have them, whole. Section 9. Refused with 1, 2, 19, 3, 10.
    pub fn coefficients_to_rates(self, table: &mut [i64]) -> Result<(), Refusal> {
        let mut place = 0;
        let number = boundary::coefficients_to_rates(self.axes, self.level, self.border.into(), table, &mut place);
        Refusal::checked(number, place)
    }
}
