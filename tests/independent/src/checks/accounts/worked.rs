//! Accounts that were reckoned by hand, from counts in document 01: 511 points at (1, 8), 6,401 at (8, 4), 31,745 at (8, 5).

use super::contents::bytes_of;
use super::Desk;
use crate::model::account::{Account, Call, Out, Usage};

const EMPTY: [u8; 32] = [0; 32];

fn open(office: u32, tag: u32, axes: u32, level: u32) -> Call {
    Call::Open { office, tag, axes, level }
}

fn close(office: u32, tag: u32) -> Call {
    Call::Close { office, tag }
}

/// A call, what it is answered with, and the points open by office and common afterwards.
type Step = (Call, u32, [u64; 4], u64);

fn steps() -> Vec<Step> {
    vec![
        (open(1, 0, 8, 5), 0, [31_745, 0, 0, 0], 27_649),
        (open(2, 7, 8, 4), 0, [31_745, 6_401, 0, 0], 29_954),
        (open(3, 0, 8, 4), 0, [31_745, 6_401, 6_401, 0], 32_259),
        (open(3, 1, 8, 4), 0, [31_745, 6_401, 12_802, 0], 38_660),
        (open(3, 2, 8, 4), 0, [31_745, 6_401, 19_203, 0], 45_061),
        (open(3, 3, 8, 4), 20, [31_745, 6_401, 19_203, 0], 45_061),
        (open(3, 2, 8, 4), 21, [31_745, 6_401, 19_203, 0], 45_061),
        (open(3, 8, 8, 4), 22, [31_745, 6_401, 19_203, 0], 45_061),
        (open(5, 3, 8, 4), 22, [31_745, 6_401, 19_203, 0], 45_061),
        (open(5, 8, 8, 6), 19, [31_745, 6_401, 19_203, 0], 45_061),
        (open(5, 8, 8, 9), 2, [31_745, 6_401, 19_203, 0], 45_061),
        (open(5, 8, 9, 9), 1, [31_745, 6_401, 19_203, 0], 45_061),
        (close(3, 3), 21, [31_745, 6_401, 19_203, 0], 45_061),
        (close(3, 8), 22, [31_745, 6_401, 19_203, 0], 45_061),
        (close(0, 8), 22, [31_745, 6_401, 19_203, 0], 45_061),
        // an office within its own
        (open(4, 3, 1, 8), 0, [31_745, 6_401, 19_203, 511], 45_061),
        (open(4, 4, 8, 4), 0, [31_745, 6_401, 19_203, 6_912], 47_877),
        (open(4, 5, 1, 8), 0, [31_745, 6_401, 19_203, 7_423], 48_388),
        (open(4, 6, 1, 8), 0, [31_745, 6_401, 19_203, 7_934], 48_899),
        (open(4, 7, 1, 8), 20, [31_745, 6_401, 19_203, 7_934], 48_899),
        // what is closed is free to all
        (close(2, 7), 0, [31_745, 0, 19_203, 7_934], 46_594),
        (open(4, 7, 1, 8), 0, [31_745, 0, 19_203, 8_445], 47_105),
        (close(1, 0), 0, [0, 0, 19_203, 8_445], 19_456),
        (open(2, 7, 8, 5), 0, [0, 31_745, 19_203, 8_445], 47_105),
        (close(2, 7), 0, [0, 0, 19_203, 8_445], 19_456),
        (close(2, 7), 21, [0, 0, 19_203, 8_445], 19_456),
    ]
}

pub fn worked(desk: &mut Desk) {
    let mut bytes = desk.call(&[0xff; 32], &Call::Empty).left;
    let say = || "the worked account".to_string();
    desk.report.same("empty account", "worked", &EMPTY, &bytes, &say);
    for (call, number, by_office, common_used) in steps() {
        let made = desk.call(&bytes, &call);
        let kind = call.kind();
        let say = || format!("the worked account, {call:?}");
        desk.report.same(kind, "worked", &number, &made.number, &say);
        bytes = made.left;
        let usage = Usage { by_office, in_all: by_office.iter().sum(), common_used, common_free: 49_152 - common_used };
        let found = desk.call(&bytes, &Call::Usage).out;
        desk.report.same("usage", "worked", &Out::Usage(usage), &found, &say);
    }
    // 16 times 8 and 4, under tags 0 to 2 of office 3; 16 and 8, and 16 times 8 and 4, under tags 3 to 7 of office 4
    let mut want = EMPTY;
    want[16..19].fill(132);
    want[27..32].copy_from_slice(&[24, 132, 24, 24, 24]);
    desk.report.same("close table", "worked bytes", &want, &bytes, &say);
    for (tag, found) in [(0, Some((8, 4))), (2, Some((8, 4))), (3, None), (7, None)] {
        let under = desk.call(&bytes, &Call::Under { office: 3, tag }).out;
        desk.report.same("table under", "worked", &Out::Under(found), &under, &say);
    }
    // sixteen tables of one point
    let small = Account { open: (1..=4).flat_map(|o| (0..4).map(move |t| ((o, t), (1, 0)))).collect() };
    let found = desk.call(&bytes_of(&small), &Call::Usage).out;
    let want = Usage { by_office: [4; 4], in_all: 16, common_used: 0, common_free: 49_152 };
    desk.report.same("usage", "worked", &Out::Usage(want), &found, &say);
}
