//! The request as it is to be read, and wrong readings of it, which the same code can follow.

use super::Shape;
use crate::model::Refused;

/// In what order the points stand.
#[derive(Clone, Copy, PartialEq, Eq, Hash)]
pub enum Order {
    /// By the number of border axes, then by marks from the last axis, then document 01's order over the inner axes.
    Right,
    MarksFromFirst,
    UpperFirst,
    MarksAlone,
    MoreBordersFirst,
    /// By marks from the last axis, the larger first.
    MarksBackward,
    /// By level sum and levels before marks, as if one table.
    LevelsFirst,
    /// Document 01's order with the inner axes taken from the last to the first.
    InnerBackward,
    /// The faces of one border axis and more hold the table of a top level less for each.
    SmallerFaces,
}

/// What stands beside a point on an axis.
#[derive(Clone, Copy, PartialEq, Eq, Hash)]
pub enum Beside {
    Right,
    /// An inner point of level 0 has nothing beside it.
    NothingAtMiddle,
    /// A border point is taken for the inner point of level 0 and index 1, as its lists say: both borders are beside it.
    BordersAtBorder,
    /// A border point has the middle point beside it.
    MiddleAtBorder,
    /// Lower and upper border are exchanged.
    Exchanged,
    /// Both from the lower border.
    LowerTwice,
    /// The borders are as in document 01.
    NoBorders,
    /// Where the point is itself on the border of another axis, its border neighbour is as in document 01.
    NoBordersOfFaces,
    /// The border neighbour is looked for with the point's other marks left out, at the middle of those axes.
    OtherMarksDropped,
    /// The border neighbour is looked for at the middle of the inner axes.
    OtherLevelsDropped,
}

/// What a border point weighs on its axis.
#[derive(Clone, Copy, PartialEq, Eq)]
pub enum Weight {
    Right,
    Exchanged,
    /// As much as the inner point of its level and index.
    AsInner,
    /// The whole unit.
    Whole,
    Nothing,
    /// The joint weight takes the border axes before the inner ones.
    BordersFirst,
    /// The same after them.
    BordersLast,
}

/// Which points S counts.
#[derive(Clone, Copy, PartialEq, Eq)]
pub enum Counted {
    Right,
    InnerPoints,
    /// Those whose weight is above zero on each of their inner axes.
    ByInnerAxes,
}

/// By what a rate is loaded.
#[derive(Clone, Copy, PartialEq, Eq)]
pub enum Unit {
    /// 2^d.
    Right,
    /// 2 to the number of the point's inner axes.
    InnerAxes,
}

/// What marks, levels and indices name, and when they are of the wrong length.
#[derive(Clone, Copy, PartialEq, Eq)]
pub enum Names {
    Right,
    /// A border axis has any level, or any index.
    AnyLevel,
    AnyIndex,
    /// A mark above 2 is taken for the upper border, or in 8 bits.
    LargeForUpper,
    InEightBits,
    /// Without the flag marks are not looked at.
    NotLookedAt,
    /// Marks of the wrong length are refused with 9, or not looked at without the flag.
    LengthIsNine,
    LengthWithTheFlag,
    /// With border axes the levels sum to as many less.
    LevelsLessBorders,
}

/// Which flags say yes.
#[derive(Clone, Copy, PartialEq, Eq)]
pub enum Flag {
    Right,
    OneAlone,
    LowestBit,
    HighestBitIsNo,
}

/// Which tables are too large, and when that is looked at. That one of exactly 32,768 points is not, no call shows: N is odd
/// for every shape of either sort.
#[derive(Clone, Copy, PartialEq, Eq)]
pub enum Limit {
    Right,
    /// Before 14, or after 3.
    BeforeBits,
    AfterPlaces,
    /// Of tables with border values alone, or of those without.
    BorderedAlone,
    UnborderedAlone,
    /// With the flag, by the inner points alone.
    InnerPoints,
    /// The count answers for every shape, or so do the calls that name a point.
    NotOfCounts,
    NotOfPoints,
    /// The largest table there was is too large.
    Below31745,
    To65536,
    /// By what 16 bits hold of N.
    In16Bits,
}

#[derive(Clone, Copy)]
pub struct Reading {
    pub name: &'static str,
    pub order: Order,
    pub beside: Beside,
    pub weight: Weight,
    pub counted: Counted,
    pub unit: Unit,
    pub names: Names,
    pub flag: Flag,
    /// The most axes with the flag.
    pub most_axes: u32,
    pub limit: Limit,
}

impl Reading {
    /// A shape as it is read: with 1 or 0 for the flag.
    pub fn of(&self, shape: Shape) -> Shape {
        let yes = match self.flag {
            Flag::Right => shape.border != 0,
            Flag::OneAlone => shape.border == 1,
            Flag::LowestBit => shape.border % 2 == 1,
            Flag::HighestBitIsNo => shape.border != 0 && shape.border < 128,
        };
        Shape { border: u8::from(yes), ..shape }
    }

    /// Refusals 1 and 2 of a shape as it is read.
    pub fn check(&self, shape: Shape) -> Result<(), Refused> {
        let most = if shape.flagged() { self.most_axes } else { 8 };
        if shape.axes < 1 || shape.axes > most {
            return Err((1, 0));
        }
        if shape.level > 8 {
            return Err((2, 0));
        }
        Ok(())
    }

    /// Whether a border point has something beside it that has the border point beside it.
    pub fn circles(&self) -> bool {
        matches!(self.beside, Beside::BordersAtBorder | Beside::MiddleAtBorder)
    }
}

pub const RIGHT: Reading = Reading {
    name: "right",
    order: Order::Right,
    beside: Beside::Right,
    weight: Weight::Right,
    counted: Counted::Right,
    unit: Unit::Right,
    names: Names::Right,
    flag: Flag::Right,
    most_axes: 4,
    limit: Limit::Right,
};

const fn order(name: &'static str, order: Order) -> Reading {
    Reading { name, order, ..RIGHT }
}

const fn beside(name: &'static str, beside: Beside) -> Reading {
    Reading { name, beside, ..RIGHT }
}

const fn weight(name: &'static str, weight: Weight) -> Reading {
    Reading { name, weight, ..RIGHT }
}

const fn counted(name: &'static str, counted: Counted) -> Reading {
    Reading { name, counted, ..RIGHT }
}

const fn names(name: &'static str, names: Names) -> Reading {
    Reading { name, names, ..RIGHT }
}

const fn limit(name: &'static str, limit: Limit) -> Reading {
    Reading { name, limit, ..RIGHT }
}

pub const WRONG: [Reading; 49] = [
    order("faces by marks compared from the first axis", Order::MarksFromFirst),
    order("upper border before lower", Order::UpperFirst),
    order("faces by marks alone", Order::MarksAlone),
    order("faces with more border axes first", Order::MoreBordersFirst),
    order("larger marks first", Order::MarksBackward),
    order("points by level sum and levels before marks", Order::LevelsFirst),
    order("inner axes of a face from the last to the first", Order::InnerBackward),
    order("a top level less for each border axis", Order::SmallerFaces),
    beside("an inner point of level 0 left unmoved", Beside::NothingAtMiddle),
    beside("a border point moved on its own axis", Beside::BordersAtBorder),
    beside("a border point moved by the middle point", Beside::MiddleAtBorder),
    beside("the border neighbour read from the opposite face", Beside::Exchanged),
    beside("both border neighbours read from the lower face", Beside::LowerTwice),
    beside("the border still zero", Beside::NoBorders),
    beside("the border of a face still zero", Beside::NoBordersOfFaces),
    beside("the border neighbour read with the other marks dropped", Beside::OtherMarksDropped),
    beside("the border neighbour read at the middle of the other axes", Beside::OtherLevelsDropped),
    weight("weights of lower and upper border exchanged", Weight::Exchanged),
    weight("border points weighed as inner points of level 0", Weight::AsInner),
    weight("border points of the whole weight on their axis", Weight::Whole),
    weight("border points of no weight", Weight::Nothing),
    weight("joint weights over the border axes first", Weight::BordersFirst),
    weight("joint weights over the inner axes first", Weight::BordersLast),
    counted("S over inner points alone", Counted::InnerPoints),
    counted("S over points with a weight above zero on each inner axis", Counted::ByInnerAxes),
    Reading { name: "rates of a face times 2 to its inner axes", unit: Unit::InnerAxes, ..RIGHT },
    names("a border axis of any level", Names::AnyLevel),
    names("a border axis of any index", Names::AnyIndex),
    names("marks above 2 for the upper border", Names::LargeForUpper),
    names("marks in 8 bits", Names::InEightBits),
    names("marks not looked at without the flag", Names::NotLookedAt),
    names("marks of the wrong length refused with 9", Names::LengthIsNine),
    names("the length of marks not looked at without the flag", Names::LengthWithTheFlag),
    names("levels of a face summing to one less for each border axis", Names::LevelsLessBorders),
    Reading { name: "no flag but 1", flag: Flag::OneAlone, ..RIGHT },
    Reading { name: "flags by their lowest bit", flag: Flag::LowestBit, ..RIGHT },
    Reading { name: "flags above 127 for no", flag: Flag::HighestBitIsNo, ..RIGHT },
    Reading { name: "five axes with the flag", most_axes: 5, ..RIGHT },
    Reading { name: "three axes at most with the flag", most_axes: 3, ..RIGHT },
    limit("19 before 14", Limit::BeforeBits),
    limit("19 after 3", Limit::AfterPlaces),
    limit("19 for shapes with the flag alone", Limit::BorderedAlone),
    limit("19 for shapes without the flag alone", Limit::UnborderedAlone),
    limit("19 by the inner points alone", Limit::InnerPoints),
    limit("a count for every shape", Limit::NotOfCounts),
    limit("no 19 where points are named or numbered", Limit::NotOfPoints),
    limit("31,745 points refused with 19", Limit::Below31745),
    limit("up to 65,536 points not refused with 19", Limit::To65536),
    limit("19 by the number of points in 16 bits", Limit::In16Bits),
];
