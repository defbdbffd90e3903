//! Wrong libraries for rehearsals, and wrong readings.

use crate::answer::{refusal, Answer};
use crate::arguments::{Arguments, MOST_SPANS};
use crate::call::{Faults, Misreadings};
use crate::faults::job::{report, spans, with_spans};
use crate::faults::table::refused;
use crate::lent::{Lent, Run, Span, REPORT};

pub const VALUES: Faults = &[
    ("an accepted value not in the total", untotalled),
    ("only the last accepted value in the total", last_total),
    ("the total of all values' own bytes", own_bytes),
    ("refused values in the total", refused_in_total),
    ("a refused value not counted", uncounted),
    ("11 counted at 10", misplaced),
    ("places one later", shifted),
    ("the total in the first answer word", told_total),
    ("a cut character passes", cut_passes),
    ("a cut character refuses all", cut_refuses),
    ("empty values not counted", uncounted_empty),
    ("equal values counted once", counted_once),
    ("the rest of the text read with each value", read_on),
    ("one limit for all values", one_limit),
    ("ended at the first refused value", ended_early),
];

pub const OUTSIDE: Faults = &[
    ("31 with the index of the last span", last_index),
    ("31 with the index from 1", index_from_1),
    ("31 with the last that leaves", last_that_leaves),
    ("31 with the span's start", start_told),
    ("a wrapped sum accepted", wrapped),
    ("an empty span at the end refused", refused_at_end),
    (
        "a start past the end accepted where the length is 0",
        accepted_past,
    ),
    ("65,536 spans refused", refused_most),
    ("65,537 spans accepted", accepted_more),
    ("more than 65,536 spans told by their number", told_number),
    ("a span that leaves before too many", leaves_first),
    ("spans before the table", before_table),
    ("spans before the settings", before_settings),
    ("spans before the text's bytes", before_bytes),
    ("a span that leaves counted under 20", counted_outside),
];

/// The real call on one span alone; its report.
unsafe fn alone(lent: &Lent, real: Run, span: Span) -> (u32, Vec<u64>) {
    let mut report = vec![0; REPORT];
    let mut answer = [0; 2];
    let lent = Lent {
        report: report.as_mut_ptr(),
        answer: answer.as_mut_ptr(),
        ..*lent
    };
    let number = with_spans(&lent, real, &[span]);
    (number, report)
}

/// After a success, changes the report by what each value adds to it.
unsafe fn by_value(lent: &Lent, real: Run, change: impl Fn(Span, &[u64], &mut [u64])) -> u32 {
    let number = real(lent);
    if number == 0 {
        for &span in spans(lent) {
            change(span, &alone(lent, real, span).1, report(lent));
        }
    }
    number
}

unsafe fn untotalled(lent: &Lent, real: Run) -> u32 {
    let number = real(lent);
    if number == 0 {
        report(lent)[REPORT - 1] = 0;
    }
    number
}

unsafe fn last_total(lent: &Lent, real: Run) -> u32 {
    by_value(lent, real, |_, one, report| {
        if one[0] == 1 {
            report[REPORT - 1] = one[REPORT - 1];
        }
    })
}

unsafe fn own_bytes(lent: &Lent, real: Run) -> u32 {
    by_value(lent, real, |span, one, report| {
        let total = &mut report[REPORT - 1];
        *total = *total - one[REPORT - 1] + one[0] * span.length;
    })
}

unsafe fn refused_in_total(lent: &Lent, real: Run) -> u32 {
    by_value(lent, real, |span, one, report| {
        report[REPORT - 1] += (1 - one[0]) * span.length;
    })
}

unsafe fn uncounted(lent: &Lent, real: Run) -> u32 {
    let number = real(lent);
    if number == 0 {
        report(lent)[1..REPORT - 1].fill(0);
    }
    number
}

unsafe fn misplaced(lent: &Lent, real: Run) -> u32 {
    let number = real(lent);
    if number == 0 {
        report(lent)[10] += report(lent)[11];
        report(lent)[11] = 0;
    }
    number
}

unsafe fn shifted(lent: &Lent, real: Run) -> u32 {
    let number = real(lent);
    if number == 0 {
        report(lent)[1..REPORT - 1].rotate_right(1);
    }
    number
}

unsafe fn told_total(lent: &Lent, real: Run) -> u32 {
    let number = real(lent);
    if number == 0 {
        *lent.answer = report(lent)[REPORT - 1];
    }
    number
}

unsafe fn cut_passes(lent: &Lent, real: Run) -> u32 {
    by_value(lent, real, |span, one, report| {
        if one[5] == 1 {
            report[5] -= 1;
            report[0] += 1;
            report[REPORT - 1] += span.length;
        }
    })
}

/// By 5, before anything is written.
unsafe fn cut_refuses(lent: &Lent, real: Run) -> u32 {
    for &span in spans(lent).iter().take(100) {
        let (number, one) = alone(lent, real, span);
        if number == 0 && one[5] == 1 {
            return refused(lent, 5, span.start as usize);
        }
    }
    real(lent)
}

unsafe fn uncounted_empty(lent: &Lent, real: Run) -> u32 {
    by_value(lent, real, |span, one, report| {
        report[0] -= one[0] * u64::from(span.length == 0);
    })
}

unsafe fn counted_once(lent: &Lent, real: Run) -> u32 {
    let mut once: Vec<Span> = vec![];
    for span in spans(lent).iter().take(100) {
        if !once.contains(span) {
            once.push(*span);
        }
    }
    with_spans(lent, real, &once)
}

/// Each span goes on to the end of the text.
unsafe fn read_on(lent: &Lent, real: Run) -> u32 {
    let end = lent.text_length as u64;
    let longer = |span: &Span| match end.checked_sub(span.start) {
        Some(rest) if rest >= span.length => Span {
            length: rest,
            ..*span
        },
        _ => *span,
    };
    with_spans(
        lent,
        real,
        &spans(lent).iter().map(longer).collect::<Vec<_>>(),
    )
}

/// What is left of it after the openings of the values before; those that have one opening each tell enough.
unsafe fn one_limit(lent: &Lent, real: Run) -> u32 {
    let mut opened = 0;
    let number = real(lent);
    if number != 0 {
        return number;
    }
    let mut changed = vec![0; REPORT];
    for &span in spans(lent) {
        let limit = lent.limit.saturating_sub(opened);
        let (_, one) = alone(&Lent { limit, ..*lent }, real, span);
        let (_, closed) = alone(&Lent { limit: 0, ..*lent }, real, span);
        opened += u64::from(one[0] == 1 && closed[17] == 1);
        changed
            .iter_mut()
            .zip(one)
            .for_each(|(word, more)| *word += more);
    }
    report(lent).copy_from_slice(&changed);
    number
}

unsafe fn ended_early(lent: &Lent, real: Run) -> u32 {
    let number = real(lent);
    if number != 0 {
        return number;
    }
    let is_refused = |span: &&Span| alone(lent, real, **span).1[0] == 0;
    let first = spans(lent).iter().position(|span| is_refused(&span));
    match first {
        Some(index) => with_spans(lent, real, &spans(lent)[..index + 1]),
        None => number,
    }
}

unsafe fn last_index(lent: &Lent, real: Run) -> u32 {
    match real(lent) {
        31 if lent.span_count <= MOST_SPANS => refused(lent, 31, lent.span_count - 1),
        number => number,
    }
}

unsafe fn index_from_1(lent: &Lent, real: Run) -> u32 {
    let number = real(lent);
    *lent.answer += u64::from(number == 31 && lent.span_count <= MOST_SPANS);
    number
}

fn leaves(lent: &Lent, span: &Span) -> bool {
    u128::from(span.start) + u128::from(span.length) > lent.text_length as u128
}

unsafe fn last_that_leaves(lent: &Lent, real: Run) -> u32 {
    let last = spans(lent).iter().rposition(|span| leaves(lent, span));
    match (real(lent), last) {
        (31, Some(last)) if lent.span_count <= MOST_SPANS => refused(lent, 31, last),
        (number, _) => number,
    }
}

unsafe fn start_told(lent: &Lent, real: Run) -> u32 {
    match real(lent) {
        31 if lent.span_count <= MOST_SPANS => {
            let start = spans(lent)[*lent.answer as usize].start;
            refused(lent, 31, start as usize)
        }
        number => number,
    }
}

/// The sum of such a span is taken for its end: the value is read as if it were empty.
unsafe fn wrapped(lent: &Lent, real: Run) -> u32 {
    let shortened = |span: &Span| match span.start.wrapping_add(span.length) {
        end if end < span.start && end <= lent.text_length as u64 => Span {
            start: end,
            length: 0,
        },
        _ => *span,
    };
    with_spans(
        lent,
        real,
        &spans(lent).iter().map(shortened).collect::<Vec<_>>(),
    )
}

unsafe fn refused_at_end(lent: &Lent, real: Run) -> u32 {
    let end = Span {
        start: lent.text_length as u64,
        length: 0,
    };
    // One more byte leaves.
    let longer = |span: &Span| match *span == end {
        true => Span { length: 1, ..end },
        false => *span,
    };
    with_spans(
        lent,
        real,
        &spans(lent).iter().map(longer).collect::<Vec<_>>(),
    )
}

unsafe fn accepted_past(lent: &Lent, real: Run) -> u32 {
    let inside = |span: &Span| match span.length {
        0 => Span::default(),
        _ => *span,
    };
    with_spans(
        lent,
        real,
        &spans(lent).iter().map(inside).collect::<Vec<_>>(),
    )
}

unsafe fn refused_most(lent: &Lent, real: Run) -> u32 {
    match lent.span_count {
        MOST_SPANS => with_spans(lent, real, &[spans(lent), &[Span::default()]].concat()),
        _ => real(lent),
    }
}

unsafe fn accepted_more(lent: &Lent, real: Run) -> u32 {
    match lent.span_count {
        count if count == MOST_SPANS + 1 => with_spans(lent, real, &spans(lent)[1..]),
        _ => real(lent),
    }
}

unsafe fn told_number(lent: &Lent, real: Run) -> u32 {
    match real(lent) {
        31 if lent.span_count > MOST_SPANS => refused(lent, 31, lent.span_count),
        number => number,
    }
}

unsafe fn leaves_first(lent: &Lent, real: Run) -> u32 {
    let first = spans(lent).iter().position(|span| leaves(lent, span));
    match (real(lent), first) {
        (31, Some(first)) => refused(lent, 31, first),
        (number, _) => number,
    }
}

/// 31 in the place of these numbers, where a span leaves.
unsafe fn before(lent: &Lent, real: Run, numbers: std::ops::RangeInclusive<u32>) -> u32 {
    let first = spans(lent).iter().position(|span| leaves(lent, span));
    match (real(lent), first) {
        (number, Some(first)) if numbers.contains(&number) => refused(lent, 31, first),
        (number, _) => number,
    }
}

unsafe fn before_table(lent: &Lent, real: Run) -> u32 {
    before(lent, real, 6..=9)
}

unsafe fn before_settings(lent: &Lent, real: Run) -> u32 {
    before(lent, real, 2..=4)
}

unsafe fn before_bytes(lent: &Lent, real: Run) -> u32 {
    before(lent, real, 5..=5)
}

/// As if it were a cursor: the others are counted.
unsafe fn counted_outside(lent: &Lent, real: Run) -> u32 {
    let (inside, outside): (Vec<Span>, Vec<Span>) =
        spans(lent).iter().partition(|span| !leaves(lent, span));
    let number = with_spans(lent, real, &inside);
    if number == 0 {
        report(lent)[20] += outside.len() as u64;
    }
    number
}

/// The documents' rows have to catch each.
pub const READINGS: Misreadings = &[
    ("the total in the answer", |arguments, real| {
        let mut answer = real(arguments);
        answer.first += answer.report.last().copied().unwrap_or(0);
        answer
    }),
    ("a cut character passes", |arguments, real| {
        let mut answer = real(arguments);
        if answer.number == 0 {
            answer.report[0] += answer.report[5];
            answer.report[5] = 0;
        }
        answer
    }),
    ("an empty span at the end outside", |arguments, real| {
        let end = arguments.text.len() as u64;
        let first = |span: &Span| span.start == end;
        match arguments.spans.iter().position(first) {
            Some(index) if real(arguments).number == 0 => refusal(31, index as u64),
            _ => real(arguments),
        }
    }),
    ("a wrapped sum inside", |arguments, real| {
        let is_wrapped = |span: &&Span| span.start.checked_add(span.length).is_none();
        let spans: Vec<Span> = arguments
            .spans
            .iter()
            .map(|span| match is_wrapped(&span) {
                true => Span::default(),
                false => *span,
            })
            .collect();
        with(arguments, &spans, real)
    }),
    ("the last that leaves", |arguments, real| {
        let answer = real(arguments);
        match answer.number {
            31 => refusal(31, arguments.spans.len() as u64 - 1),
            _ => answer,
        }
    }),
    ("spans before the table", |arguments, real| {
        let mut answer = real(arguments);
        if matches!(answer.number, 6..=9) && arguments.values().is_none() {
            answer = refusal(31, 0);
        }
        answer
    }),
    ("empty values not counted", |arguments, real| {
        let spans: Vec<Span> = arguments.spans.to_vec();
        let filled: Vec<Span> = spans.into_iter().filter(|span| span.length > 0).collect();
        with(arguments, &filled, real)
    }),
    ("the limit for all values", |arguments, real| {
        let answer = real(arguments);
        match answer.number == 0 && arguments.limit == 1 && answer.report[0] > 1 {
            true => {
                let mut answer = answer;
                answer.report[17] += answer.report[0] - 1;
                answer.report[0] = 1;
                answer
            }
            false => answer,
        }
    }),
    ("the strict rule", |arguments, real| {
        let mut answer = real(arguments);
        if answer.number == 0 && arguments.text.contains(&1) {
            answer.report[26] += 1;
            answer.report[0] -= 1;
        }
        answer
    }),
];

fn with(arguments: &Arguments, spans: &[Span], real: crate::call::Expected) -> Answer {
    real(&Arguments {
        spans,
        ..*arguments
    })
}
