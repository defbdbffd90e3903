//! Wrong libraries for calls with spans and a report.

use crate::arguments::MOST_SPANS_LENT;
use crate::call::Faults;
use crate::lent::{self, Lent, Run, Span};

pub const SPANS: Faults = &[
    ("the last span's last byte changed", changed_spans::<-1>),
    ("the byte after the spans changed", changed_spans::<0>),
    ("the last span not read", unread_last),
    ("the first span not read", unread_first),
    ("the first span read again for each", first_for_each),
    ("starts' high halves not read", halved_starts),
    ("lengths' high halves not read", halved_lengths),
];

pub const REPORT: Faults = &[
    (
        "the report's first word written on a refusal",
        on_refusal::<0>,
    ),
    (
        "the report's last word written on a refusal",
        on_refusal::<{ lent::REPORT - 1 }>,
    ),
    ("the report cleared on a refusal", cleared),
    ("words that are 0 not written", unwritten_zeros),
    ("added to what the report held", added),
    ("the report's last byte changed", changed_byte::<231>),
    ("the byte after the report changed", changed_byte::<232>),
    ("the byte before the report changed", changed_byte::<-1>),
];

/// The spans: such even where the pointer is NULL.
pub unsafe fn spans(lent: &Lent) -> &[Span] {
    match lent.span_count {
        0 => &[],
        count => std::slice::from_raw_parts(lent.spans, count),
    }
}

/// The real call on other spans.
pub unsafe fn with_spans(lent: &Lent, real: Run, spans: &[Span]) -> u32 {
    real(&Lent {
        spans: spans.as_ptr(),
        span_count: spans.len(),
        ..*lent
    })
}

pub unsafe fn report(lent: &Lent) -> &mut [u64] {
    std::slice::from_raw_parts_mut(lent.report, lent::REPORT)
}

unsafe fn changed_spans<const OFFSET: isize>(lent: &Lent, real: Run) -> u32 {
    let number = real(lent);
    if (1..=MOST_SPANS_LENT).contains(&lent.span_count) {
        let end = lent.spans.add(lent.span_count).cast::<u8>().cast_mut();
        *end.offset(OFFSET) ^= 1;
    }
    number
}

unsafe fn unread_last(lent: &Lent, real: Run) -> u32 {
    let spans = spans(lent);
    with_spans(lent, real, &spans[..spans.len().saturating_sub(1)])
}

unsafe fn unread_first(lent: &Lent, real: Run) -> u32 {
    let spans = spans(lent);
    with_spans(lent, real, &spans[spans.len().min(1)..])
}

unsafe fn first_for_each(lent: &Lent, real: Run) -> u32 {
    let spans = spans(lent);
    let first = spans.first().copied().unwrap_or_default();
    with_spans(lent, real, &vec![first; spans.len()])
}

unsafe fn halved_starts(lent: &Lent, real: Run) -> u32 {
    let halved = |span: &Span| Span {
        start: u64::from(span.start as u32),
        ..*span
    };
    with_spans(
        lent,
        real,
        &spans(lent).iter().map(halved).collect::<Vec<_>>(),
    )
}

unsafe fn halved_lengths(lent: &Lent, real: Run) -> u32 {
    let halved = |span: &Span| Span {
        length: u64::from(span.length as u32),
        ..*span
    };
    with_spans(
        lent,
        real,
        &spans(lent).iter().map(halved).collect::<Vec<_>>(),
    )
}

unsafe fn on_refusal<const PLACE: usize>(lent: &Lent, real: Run) -> u32 {
    let number = real(lent);
    if number != 0 {
        report(lent)[PLACE] = 0;
    }
    number
}

/// Before anything is checked.
unsafe fn cleared(lent: &Lent, real: Run) -> u32 {
    report(lent).fill(0);
    real(lent)
}

unsafe fn unwritten_zeros(lent: &Lent, real: Run) -> u32 {
    let before = report(lent).to_vec();
    let number = real(lent);
    for (word, before) in report(lent).iter_mut().zip(before) {
        if *word == 0 {
            *word = before;
        }
    }
    number
}

unsafe fn added(lent: &Lent, real: Run) -> u32 {
    let before = report(lent).to_vec();
    let number = real(lent);
    if number == 0 {
        for (word, before) in report(lent).iter_mut().zip(before) {
            *word = word.wrapping_add(before);
        }
    }
    number
}

unsafe fn changed_byte<const OFFSET: isize>(lent: &Lent, real: Run) -> u32 {
    let number = real(lent);
    *lent.report.cast::<u8>().offset(OFFSET) ^= 1;
    number
}
