//! Totals over a list of differences: counts by sign, the least, the greatest and the exact sum.

use super::{is_outside, FARTHEST, OUTSIDE};
use crate::faults::Fault;

/// More differences than this in a list are refused.
pub const MOST_DIFFERENCES: usize = 9_000;
/// The number for that.
pub const TOO_MANY: u8 = 35;

/// What a list of differences comes to. With none, and with a number, all totals are 0.
#[derive(Clone, Copy, PartialEq, Eq, Debug)]
pub struct Totals {
    /// 0, 34 or 35.
    pub number: u8,
    pub early: u32,
    pub on_time: u32,
    pub late: u32,
    pub least: i64,
    pub greatest: i64,
    pub sum: i64,
}

impl Totals {
    pub const NONE: Totals =
        Totals { number: 0, early: 0, on_time: 0, late: 0, least: 0, greatest: 0, sum: 0 };
}

/// The totals of a list.
pub fn totals(list: &[i64], fault: Fault) -> Totals {
    let number = number(list, fault);
    let counted = counted(list, number, fault);
    match number {
        0 => totals_of(&counted, fault),
        _ if keeps_totals(number, fault) => Totals { number, ..totals_of(&counted, fault) },
        _ => Totals { number, ..Totals::NONE },
    }
}

/// 34 where some difference lies outside, else 35 where there are too many, else 0.
fn number(list: &[i64], fault: Fault) -> u8 {
    let most = match fault {
        Fault::Totals9000Refused => MOST_DIFFERENCES - 1,
        Fault::Totals9001Taken => MOST_DIFFERENCES + 1,
        Fault::TotalsManyTaken | Fault::TotalsManyCutOff => usize::MAX,
        Fault::TotalsMostOf8192 => 8192,
        _ => MOST_DIFFERENCES,
    };
    let outside = looked_at(list, fault).iter().any(|one| refuses(*one, fault));
    let exact: i128 = list.iter().map(|one| i128::from(*one)).sum();
    let far = fault == Fault::TotalsSumLimited && exact.unsigned_abs() > FARTHEST as u128;
    let too_many = list.len() > most;
    match fault {
        Fault::TotalsManyFirst if too_many => TOO_MANY,
        Fault::TotalsOutsideIsMany if outside => TOO_MANY,
        Fault::TotalsEmptyRefused if list.is_empty() => TOO_MANY,
        _ if outside || far => OUTSIDE,
        _ if too_many => TOO_MANY,
        _ => 0,
    }
}

/// What is looked at for 34: the whole list.
fn looked_at(list: &[i64], fault: Fault) -> &[i64] {
    let (count, most) = (list.len(), MOST_DIFFERENCES);
    match fault {
        Fault::TotalsOutsideOfFirst9000 => &list[..count.min(most)],
        Fault::TotalsOutsideNotOfLast => &list[..count.saturating_sub(1)],
        Fault::TotalsOutsideNotOfFirst => &list[count.min(1)..],
        Fault::TotalsOutsideLeftOut => &[],
        _ => list,
    }
}

fn refuses(one: i64, fault: Fault) -> bool {
    match fault {
        Fault::TotalsUpperEdgeRefused => one == FARTHEST || is_outside(one),
        Fault::TotalsLowerEdgeRefused => one == -FARTHEST || is_outside(one),
        Fault::TotalsOneMoreTaken => one != FARTHEST + 1 && is_outside(one),
        Fault::TotalsOneLessTaken => one != -FARTHEST - 1 && is_outside(one),
        Fault::TotalsEarlyNotLimited => one > FARTHEST,
        Fault::TotalsLateNotLimited => one < -FARTHEST,
        Fault::TotalsLowestTaken => one.wrapping_abs() > FARTHEST,
        _ => is_outside(one),
    }
}

/// Whether only faulty totals are given beside a number.
fn keeps_totals(number: u8, fault: Fault) -> bool {
    match fault {
        Fault::TotalsWith34 | Fault::TotalsUpTo34 => number == OUTSIDE,
        Fault::TotalsWith35 => number == TOO_MANY,
        _ => false,
    }
}

/// What is counted: the whole list.
fn counted(list: &[i64], number: u8, fault: Fault) -> Vec<i64> {
    let mut counted = list.to_vec();
    match fault {
        Fault::TotalsUpTo34 if number == OUTSIDE => {
            let first = list.iter().position(|one| is_outside(*one));
            counted.truncate(first.unwrap_or(list.len()));
        }
        Fault::TotalsOutsideLeftOut => counted.retain(|one| !is_outside(*one)),
        Fault::TotalsManyCutOff => counted.truncate(MOST_DIFFERENCES),
        Fault::TotalsWithoutLast => counted.truncate(list.len().saturating_sub(1)),
        Fault::TotalsEqualOnce => {
            counted.sort_unstable();
            counted.dedup();
        }
        Fault::TotalsNeighboursOnce => counted.dedup(),
        _ => {}
    }
    counted
}

fn totals_of(list: &[i64], fault: Fault) -> Totals {
    let count = |fits: &dyn Fn(i64) -> bool| list.iter().filter(|one| fits(**one)).count() as u32;
    let near = if fault == Fault::TotalsTickIsOnTime { 3 } else { 0 };
    let [mut early, mut on_time, mut late] = [
        count(&|one| one < -near),
        count(&|one| (-near..=near).contains(&one)),
        count(&|one| one > near),
    ];
    match fault {
        Fault::Totals0IsLate => (on_time, late) = (0, late + on_time),
        Fault::Totals0IsEarly => (on_time, early) = (0, early + on_time),
        Fault::Totals0NotCounted => on_time = 0,
        Fault::TotalsSignsSwapped => (early, late) = (late, early),
        Fault::TotalsCountsOf8Bits => {
            [early, on_time, late] = [early, on_time, late].map(|n| n % 256)
        }
        _ => {}
    }
    let [least, greatest] = edges(list, fault);
    Totals { number: 0, early, on_time, late, least, greatest, sum: sum(list, fault) }
}

/// The least and the greatest; 0 with none.
fn edges(list: &[i64], fault: Fault) -> [i64; 2] {
    let mut sorted = list.to_vec();
    match fault {
        Fault::TotalsBySize => sorted.sort_unstable_by_key(|one| one.unsigned_abs()),
        Fault::TotalsNotSorted => {}
        Fault::TotalsUnsignedOrder => sorted.sort_unstable_by_key(|one| *one as u64),
        _ => sorted.sort_unstable(),
    }
    let (Some(least), Some(greatest)) = (sorted.first(), sorted.last()) else {
        return match fault {
            Fault::TotalsLeastOfNone => [FARTHEST, 0],
            Fault::TotalsGreatestOfNone => [0, -FARTHEST],
            _ => [0, 0],
        };
    };
    match fault {
        Fault::TotalsLeastFrom0 => [*least.min(&0), *greatest],
        Fault::TotalsGreatestFrom0 => [*least, *greatest.max(&0)],
        Fault::TotalsEdgesSwapped => [*greatest, *least],
        Fault::TotalsLeastOfSizes => [least.abs().min(greatest.abs()), *greatest],
        _ => [*least, *greatest],
    }
}

/// The exact sum; 9,000 differences are at most 9 * 10^18.
fn sum(list: &[i64], fault: Fault) -> i64 {
    let exact: i128 = list.iter().map(|one| i128::from(*one)).sum();
    let sizes: i128 = list.iter().map(|one| i128::from(one.unsigned_abs())).sum();
    let doubles: f64 = list.iter().map(|one| *one as f64).sum();
    match fault {
        Fault::TotalsSumOf32Bits => i64::from(exact as i32),
        Fault::TotalsSumOfDoubles => doubles as i64,
        Fault::TotalsSumFrom1 => exact as i64 + 1,
        Fault::TotalsSumOfSizes => sizes as i64,
        Fault::TotalsSumClamped => exact.clamp(-i128::from(FARTHEST), i128::from(FARTHEST)) as i64,
        Fault::TotalsMean => (exact / (list.len().max(1) as i128)) as i64,
        Fault::TotalsSumOf63Bits => (exact as i64) << 1 >> 1,
        // Only a faulty list has a sum that 64 bits don't hold.
        _ => exact as i64,
    }
}
