//! The rule of a lent table, from document 01's table of rows: a plain test, row by row.

use image::raw::Strings;
use oracle::Row;

const SMALL: u32 = 1 << 24;

/// Whether a number is a name's.
pub fn name(strings: &Strings<'_>, n: u32) -> bool {
    strings.is_name.get(n as usize).copied().unwrap_or(false)
}

/// Whether a word is the module's scope or a name's.
pub fn scope(strings: &Strings<'_>, w: u32) -> bool {
    w == 0 || name(strings, w - 1)
}

/// Whether a field row could hold this type.
pub fn field_type(strings: &Strings<'_>, head: u32, arg: u32) -> bool {
    match head {
        40..=43 => arg == 0,
        44 => arg < SMALL,
        45 => name(strings, arg),
        _ => false,
    }
}

fn constant(strings: &Strings<'_>, kind: u32, low: u32, high: u32) -> bool {
    let bits = u64::from(high) << 32 | u64::from(low);
    match kind {
        24 | 25 => (-2_147_483_648..=2_147_483_648).contains(&(bits as i64)),
        26 | 27 => f64::from_bits(bits).is_finite(),
        28 => (low as usize) < strings.all.len() && high == 0,
        _ => false,
    }
}

fn right(strings: &Strings<'_>, row: &Row) -> bool {
    let [first, one, two, three, four, five] = *row;
    let payload = first & (SMALL - 1);
    let named = name(strings, payload);
    let scoped = |w| scope(strings, w);
    let typed = |head, arg| field_type(strings, head, arg);
    let typed_or_none = |head, arg| (head == 0 && arg == 0) || typed(head, arg);
    match first >> 24 {
        128 => one == 0 && scoped(two) && [three, four, five] == [0; 3],
        129 => named && one == 0 && scoped(two) && [three, four, five] == [0; 3],
        130 => named && one == 0 && two <= 65_535 && three < SMALL && [four, five] == [0; 2],
        131 => named && one < SMALL && name(strings, two) && three <= 65_535 && typed(four, five),
        132 => named && one == 0 && constant(strings, two, three, four) && five == 0,
        133 => named && scoped(one) && two < SMALL && three < SMALL && four <= 1 && five == 0,
        134 => named && scoped(one) && typed(two, three) && [four, five] == [0; 2],
        135 => named && one == 0 && two <= 1 && three < SMALL && typed_or_none(four, five),
        136 => {
            named && one < SMALL && name(strings, two) && three <= 3 && typed_or_none(four, five)
        }
        137 => named && one <= 1 && [two, three, four, five] == [0; 4],
        138 | 139 => {
            named && scoped(one) && (1..=3).contains(&two) && [three, four, five] == [0; 3]
        }
        140 | 141 => named && [one, two, three, four, five] == [0; 5],
        142 => named && scoped(one) && [two, three, four, five] == [0; 4],
        143 => payload == 0 && one == 0 && two < SMALL && [three, four, five] == [0; 3],
        _ => false,
    }
}

/// The rows of a lent buffer, where it meets the rule: right rows that rise, then zeros to the end.
pub fn table(strings: &Strings<'_>, words: &[u32]) -> Option<Vec<Row>> {
    let all: Vec<Row> = words
        .chunks_exact(6)
        .map(|c| c.try_into().expect("six words"))
        .collect();
    let count = all.iter().position(|r| r[0] == 0).unwrap_or(all.len());
    let rows = &all[..count];
    let zeros = words[6 * count..].iter().all(|w| *w == 0);
    let rising = rows.windows(2).all(|w| w[0][..2] < w[1][..2]);
    (zeros && rising && rows.iter().all(|r| right(strings, r))).then(|| rows.to_vec())
}
