//! Why a call was refused.

use crate::UNIT;
use std::fmt;

/// Why a call was refused: a case for each number of docs/MANUAL.md, section 14, with its place where it names one.
#[derive(Clone, Copy, Debug, PartialEq, Eq, Hash)]
pub enum Refusal {
    /// 1: the number of axes is outside 1 to 8, with values on the border outside 1 to 4, or a list of top levels is not 1 to 8
    /// long.
    Axes,
    /// 2: the top level, or one of a list of them, is above 8.
    Level,
    /// 3: the table has not exactly as many places as the shape or the component grid has points (the reader: fewer), or the
    /// output buffer is shorter than the file that is written.
    TableLength,
    /// 4: a rate is out of range; the smallest such point number, on a component grid the smallest such position in its
    /// layout.
    Rate(u64),
    /// 5: the axis is outside 1 to d; the axis as it was given.
    Axis(u32),
    /// 6: there is no point of this number.
    PointNumber,
    /// 7: a list is not as long as there are axes, or the lists of a run differ in length.
    ListLength,
    /// 8: a coordinate is above 1,048,576; the first such axis.
    Coordinate(u32),
    /// 9: the marks, levels and indices name no point of the shape.
    NoPoint,
    /// 10: the contents do not allow the call.
    Contents,
    /// 11: the file ends inside or before a number.
    FileEnds,
    /// 12: a filed number has more than 5 bytes or is too large.
    FiledNumber,
    /// 13: there are bytes after the last rate.
    BytesLeft,
    /// 14: the state has a bit set above axis d.
    StrayBit,
    /// 15: forward on an axis that is already forward; the axis.
    AlreadyForward(u32),
    /// 16: back on an axis that is not forward; the axis.
    NotForward(u32),
    /// 17: an estimate while an axis is not forward; the first such axis.
    StillSampled(u32),
    /// 18: unload while an axis is forward; the first such axis.
    StillForward(u32),
    /// 19: the shape or the component grid has more than 32,768 points.
    TooManyPoints,
    /// 20: the account is one that no calls leave, from an empty one on, or an opening would take the common points above 49,152.
    Allowance,
    /// 21: opening under a tag that is open, or closing one that is not.
    Tag,
    /// 22: the office is outside 1 to 4, or the tag above 7.
    NoSlot,
    /// A number that this crate does not know, from an archive that is newer than it.
    Unknown {
        /// The refusal's number.
        number: u32,
        /// The refusal's place.
        place: u64,
    },
}

impl Refusal {
    /// The refusal of this number and place, as the boundary reports them.
    pub fn from_number(number: u32, place: u64) -> Refusal {
        let axis = place as u32;
        let known = match number {
            1 => Refusal::Axes,
            2 => Refusal::Level,
            3 => Refusal::TableLength,
            4 => Refusal::Rate(place),
            5 => Refusal::Axis(axis),
            6 => Refusal::PointNumber,
            7 => Refusal::ListLength,
            8 => Refusal::Coordinate(axis),
            9 => Refusal::NoPoint,
            10 => Refusal::Contents,
            11 => Refusal::FileEnds,
            12 => Refusal::FiledNumber,
            13 => Refusal::BytesLeft,
            14 => Refusal::StrayBit,
            15 => Refusal::AlreadyForward(axis),
            16 => Refusal::NotForward(axis),
            17 => Refusal::StillSampled(axis),
            18 => Refusal::StillForward(axis),
            19 => Refusal::TooManyPoints,
            20 => Refusal::Allowance,
            21 => Refusal::Tag,
            22 => Refusal::NoSlot,
            _ => return Refusal::Unknown { number, place },
        };
        // a place that the case cannot hold is not dropped in silence
        if known.place() == place {
            known
        } else {
            Refusal::Unknown { number, place }
        }
    }

    /// `Ok` where the boundary answered 0, else the refusal.
    pub(crate) fn checked(number: u32, place: u64) -> Result<(), Refusal> {
        if number == 0 {
            Ok(())
        } else {
            Err(Refusal::from_number(number, place))
        }
    }

    /// The number of the refusal.
    pub fn number(self) -> u32 {
        match self {
            Refusal::Axes => 1,
            Refusal::Level => 2,
            Refusal::TableLength => 3,
            Refusal::Rate(_) => 4,
            Refusal::Axis(_) => 5,
            Refusal::PointNumber => 6,
            Refusal::ListLength => 7,
            Refusal::Coordinate(_) => 8,
            Refusal::NoPoint => 9,
            Refusal::Contents => 10,
            Refusal::FileEnds => 11,
            Refusal::FiledNumber => 12,
            Refusal::BytesLeft => 13,
            Refusal::StrayBit => 14,
            Refusal::AlreadyForward(_) => 15,
            Refusal::NotForward(_) => 16,
            Refusal::StillSampled(_) => 17,
            Refusal::StillForward(_) => 18,
            Refusal::TooManyPoints => 19,
            Refusal::Allowance => 20,
            Refusal::Tag => 21,
            Refusal::NoSlot => 22,
            Refusal::Unknown { number, .. } => number,
        }
    }

    /// The place of the refusal: 0 unless its case holds one.
    pub fn place(self) -> u64 {
        match self {
            Refusal::Rate(point) => point,
            Refusal::Axis(axis)
            | Refusal::Coordinate(axis)
            | Refusal::AlreadyForward(axis)
            | Refusal::NotForward(axis)
            | Refusal::StillSampled(axis)
            | Refusal::StillForward(axis) => u64::from(axis),
            Refusal::Unknown { place, .. } => place,
            _ => 0,
        }
    }
}

impl fmt::Display for Refusal {
    fn fmt(&self, f: &mut fmt::Formatter<'_>) -> fmt::Result {
        write!(f, "refused {}: ", self.number())?;
        match self {
            Refusal::Axes => write!(f, "the number of axes is outside 1 to 8, or 1 to 4 with values on the border"),
            Refusal::Level => write!(f, "a top level is above 8"),
            Refusal::TableLength => write!(f, "the table has the wrong number of places, or the output buffer too few"),
            Refusal::Rate(point) => write!(f, "the rate of point {point} is out of range"),
            Refusal::Axis(axis) => write!(f, "there is no axis {axis}"),
            Refusal::PointNumber => write!(f, "there is no point of this number"),
            Refusal::ListLength => write!(f, "a list has the wrong length"),
            Refusal::Coordinate(axis) => write!(f, "the coordinate on axis {axis} is above {UNIT}"),
            Refusal::NoPoint => write!(f, "the marks, levels and indices name no point"),
            Refusal::Contents => write!(f, "the contents do not allow the call"),
            Refusal::FileEnds => write!(f, "the file ends too early"),
            Refusal::FiledNumber => write!(f, "a filed number is too long or too large"),
            Refusal::BytesLeft => write!(f, "there are bytes after the last rate"),
            Refusal::StrayBit => write!(f, "the state has a bit above its axes"),
            Refusal::AlreadyForward(axis) => write!(f, "axis {axis} is already forward"),
            Refusal::NotForward(axis) => write!(f, "axis {axis} is not forward"),
            Refusal::StillSampled(axis) => write!(f, "axis {axis} is not forward yet"),
            Refusal::StillForward(axis) => write!(f, "axis {axis} is still forward"),
            Refusal::TooManyPoints => write!(f, "the shape or the component grid has more than 32768 points"),
            Refusal::Allowance => write!(f, "no calls lead to this account, or too few common points are free"),
            Refusal::Tag => write!(f, "the tag is open already, or is not open"),
            Refusal::NoSlot => write!(f, "there is no such office or tag"),
            Refusal::Unknown { place, .. } => {
                write!(f, "a refusal that this crate does not know, place {place}")
            }
        }
    }
}

impl std::error::Error for Refusal {}
