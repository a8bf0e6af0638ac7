//! Household rates on a sparse grid, turned axis by axis into hierarchical coefficients and back, in one lent buffer, with
//! estimates between the samples. This crate is the safe Rust face of a library whose every function is proved to meet its
//! contract; it adds types and no logic. The repository's docs/MANUAL.md explains every word; "section" below is one of it.
//!
//! A table is a slice of `i64`, one place for each point of its [`Shape`], in the order of the point numbers; that of a
//! component grid is laid out by coordinate ([`component_coefficients`]). On its border the surface is zero ([`Shape::new`]) or
//! has points and values of its own ([`Shape::with_border`]); component grids, house files and accounts have a zero border. The
//! library allocates nothing and keeps nothing between calls: a [`State`] says which axes are forward, and whoever holds the table
//! holds the state beside it. An [`Account`] says which tables four offices have open under one allowance of points. Calls on
//! different tables and accounts may run at the same time in different threads. Of this crate only [`house_file`] and
//! [`rewritten_house_file`] allocate, the `Vec` that they answer.
//!
//! There are no preconditions on values: whatever numbers, lists and slices a call is handed, it either succeeds or answers a
//! [`Refusal`], and after a refusal the table, the state, the account and every other buffer hold what they held. What C asks of its
//! callers beside this, right pointers and lengths, Rust's slices and references are by their types.
//!
//! ```
//! use numolefays::{Shape, UNIT};
//!
//! let shape = Shape::new(2, 1);
//! let mut table = [4, 3, 5, 2, 6]; // rates, in point order
//! let mut state = shape.load(&mut table)?; // in units of 1/4 from here on
//! state.forward(&mut table, 1)?;
//! state.forward(&mut table, 2)?;
//! assert_eq!(table, [16, 4, 12, 0, 16]); // the coefficients
//! assert_eq!(state.estimate(&table, &[UNIT / 2, UNIT / 2])?, 16); // the rate at the middle point, 4, times 4
//! # Ok::<(), numolefays::Refusal>(())
//! ```

#![deny(unsafe_code)]
#![warn(missing_docs)]

mod account;
pub mod boundary;
mod component;
mod house_file;
mod point;
mod refusal;
mod shape;
mod state;
mod turn;

pub use account::{Account, Usage};
pub use component::component_coefficients;
pub use house_file::{
    house_file, house_file_shape, read_house_file, rewrite_house_file, rewritten_house_file, write_house_file,
};
pub use point::{Point, Side, INSIDE, LOWER_BORDER, UPPER_BORDER};
pub use refusal::Refusal;
pub use shape::Shape;
pub use state::{Estimated, State};
pub use turn::Turn;

/// The most axes, and the highest top level, that a shape may have; not both at once, since it has at most 32,768 points.
pub const MOST: u32 = 8;

/// The most axes that a shape with values on the border may have.
pub const MOST_WITH_BORDER: u32 = 4;

/// A coordinate of this is 1; coordinates run from 0 to this.
pub const UNIT: u32 = 1_048_576;
