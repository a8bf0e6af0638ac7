//! Each call, once through the boundary with every output and buffer compared, and once through the safe wrapper; what is
//! in `writes` through the boundary alone.

pub mod account_misreadings;
pub mod accounts;
pub mod border;
pub mod bordered;
pub mod components;
pub mod edges;
pub mod estimates;
pub mod exhaustive;
pub mod faults;
pub mod files;
pub mod finer;
pub mod lists;
pub mod margin_misreadings;
pub mod margins;
pub mod misreadings;
pub mod orders;
pub mod points;
pub mod rates;
pub mod rounding;
pub mod runs;
pub mod threads;
pub mod turns;
pub mod walks;
pub mod worked;
pub mod writes;

use crate::model::Refused;
use numolefays::Refusal;

/// The number and place that a call has to answer: 0 and 0 where it succeeds.
pub fn answer<T>(want: &Result<T, Refused>) -> (u32, u64) {
    match want {
        Ok(_) => (0, 0),
        Err(refused) => *refused,
    }
}

/// The same as the wrapper says it.
pub fn refusal(refused: Refused) -> Refusal {
    let r = Refusal::from_number(refused.0, refused.1);
    assert_eq!((r.number(), r.place()), refused, "the wrapper keeps number and place");
    assert!(!matches!(r, Refusal::Unknown { .. }), "the wrapper knows every refusal");
    r
}

/// A list, cut where it is long.
pub fn short<T: std::fmt::Debug>(list: &[T]) -> String {
    if list.len() <= 60 {
        return format!("{list:?}");
    }
    format!("{:?} .. ({} places)", &list[..60], list.len())
}
