//! One turn of a run.

/// One turn of a run: a direction and an axis, 1 to d.
#[derive(Clone, Copy, Debug, PartialEq, Eq, Hash)]
pub enum Turn {
    /// Forward on this axis.
    Forward(u32),
    /// Back on this axis.
    Back(u32),
}

impl Turn {
    /// As the boundary takes it: 0 is forward, 1 is back.
    pub fn direction(self) -> u8 {
        match self {
            Turn::Forward(_) => 0,
            Turn::Back(_) => 1,
        }
    }

    /// The axis.
    pub fn axis(self) -> u32 {
        match self {
            Turn::Forward(axis) | Turn::Back(axis) => axis,
        }
    }
}
