//! Each keeper's calls, one function a kind: callgrind counts them apart, by their names.

use crate::drive::counts::KINDS;
use crate::event::{Answer, Part, Request};
use crate::keeper::Keeper;
use crate::linked::c_port::Lent;
use crate::tables::Sizes;

/// A subject's call of one kind: the tables as it is lent them, and the values.
pub type Made<T> = fn(&mut T, &[u32; 4]) -> Answer;

/// A page look's answer, with the start of its part as the result.
fn start(part: Part) -> Answer {
    Answer { refusal: part.refusal, result: part.start as u32 }
}

macro_rules! calls {
    ($subject:literal, $tables:ty, $format:expr, $restart:expr, $apply:expr, $look:expr) => {
        [
            calls!(request $subject, "create", $tables, 0x01, $apply),
            calls!(request $subject, "delete", $tables, 0x02, $apply),
            calls!(request $subject, "activate", $tables, 0x03, $apply),
            calls!(request $subject, "deactivate", $tables, 0x04, $apply),
            calls!(request $subject, "fault", $tables, 0x05, $apply),
            calls!(request $subject, "read", $tables, 0x06, $apply),
            calls!(request $subject, "write", $tables, 0x07, $apply),
            calls!(request $subject, "claim", $tables, 0x08, $apply),
            calls!(request $subject, "wire", $tables, 0x09, $apply),
            calls!(request $subject, "unwire", $tables, 0x0A, $apply),
            calls!(request $subject, "truncate", $tables, 0x0B, $apply),
            calls!(request $subject, "update", $tables, 0x0C, $apply),
            calls!(request $subject, "page_done", $tables, 0x0D, $apply),
            calls!(request $subject, "map_done", $tables, 0x0E, $apply),
            calls!(request $subject, "limit", $tables, 0x0F, $apply),
            calls!(request $subject, "join", $tables, 18, $apply),
            calls!(request $subject, "turn", $tables, 19, $apply),
            calls!(one $subject, "format", $tables, |tables, _| {
                $format(tables, &[0; Sizes::MOST.accounts][..tables.sizes.accounts])
            }),
            calls!(one $subject, "restart", $tables, |tables, _| $restart(tables)),
            calls!(one $subject, "page_look", $tables, |tables, values| start($look(tables, values[0], values[1]))),
            calls!(one $subject, "refused", $tables, |tables, _| {
                let words = std::mem::take(&mut tables.sizes.words);
                let answer = $apply(tables, Request { kind: 0x0F, first: 0, second: 0, third: 0, fourth: 0 });
                tables.sizes.words = words;
                answer
            }),
        ]
    };
    (request $subject:literal, $kind:literal, $tables:ty, $number:literal, $apply:expr) => {
        calls!(one $subject, $kind, $tables, |tables, &[first, second, third, fourth]| {
            $apply(tables, Request { kind: $number, first, second, third, fourth })
        })
    };
    (one $subject:literal, $kind:literal, $tables:ty, |$own:pat_param, $values:pat_param| $made:expr) => {{
        #[export_name = concat!("bench_", $subject, "_", $kind)]
        #[inline(never)]
        fn made($own: &mut $tables, $values: &[u32; 4]) -> Answer {
            $made
        }
        made
    }};
}

pub const REFERENCE: [Made<Keeper>; KINDS.len() + 1] =
    calls!("reference", Keeper, Keeper::format, Keeper::restart, Keeper::apply, Keeper::page_look);

pub fn c_port<'a>() -> [Made<Lent<'a>>; KINDS.len() + 1] {
    calls!("C", Lent<'_>, Lent::format, Lent::restart, Lent::apply, Lent::page_look)
}

#[cfg(keeper)]
pub const KEEPER: [Made<Keeper>; KINDS.len() + 1] = {
    use crate::linked::proved::{apply, format, page_look, restart};
    calls!("keeper", Keeper, format, restart, apply, page_look)
};
