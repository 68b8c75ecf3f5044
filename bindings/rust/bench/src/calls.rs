//! The calls that are measured, and for each who answers it: the archive, and the Rust beside it.

use plain::valuation::{Group, Totals, TABLE_NUMBERS};
use plain::Refusal;

use crate::one_projection::{self, MOST_REPORT_BYTES};
use crate::rival;
use crate::tuned::{self, Order, Projections, Tuning};

/// What is asked. Check and Totals take the book alone, Report the setting too, Group all three.
#[derive(Clone, Copy)]
pub struct Question<'a> {
    pub book: &'a [u8],
    pub setting: usize,
    /// product group 1 to 5
    pub group: usize,
}

/// What a call may write to.
#[derive(Clone, PartialEq)]
pub struct Buffers {
    pub table: [u64; TABLE_NUMBERS],
    pub text: [u8; MOST_REPORT_BYTES],
}

impl Buffers {
    /// Filled with what no call writes.
    pub fn new() -> Buffers {
        Buffers {
            table: [u64::MAX; TABLE_NUMBERS],
            text: [u8::MAX; MOST_REPORT_BYTES],
        }
    }
}

#[derive(Clone, Copy, PartialEq)]
pub enum Figures {
    N(u64),
    Group(Group),
    ReportLength(usize),
    Totals(Totals),
}

pub type Answer = Result<Figures, Refusal>;

/// Who answers a call.
pub struct Row {
    pub name: &'static str,
    pub answer: fn(Question, &mut Buffers) -> Answer,
}

pub struct Call {
    pub takes: Takes,
    /// the archive first, the plain Rust last
    pub rows: &'static [Row],
}

/// What a call takes beside the book.
#[derive(Clone, Copy)]
pub enum Takes {
    Nothing,
    Setting,
    SettingAndGroup,
}

pub const CALLS: [Call; 4] = [TOTALS, GROUP, REPORT, CHECK];

const TOTALS: Call = Call {
    takes: Takes::Nothing,
    rows: TOTALS_ROWS,
};
const GROUP: Call = Call {
    takes: Takes::SettingAndGroup,
    rows: GROUP_ROWS,
};
const REPORT: Call = Call {
    takes: Takes::Setting,
    rows: REPORT_ROWS,
};
const CHECK: Call = Call {
    takes: Takes::Nothing,
    rows: CHECK_ROWS,
};

/// A call as it is measured: in the base setting, and Group for one product group.
pub struct Measured {
    pub name: &'static str,
    pub call: Call,
    pub group: usize,
    /// what the archive's time over that of any Rust row is at most to be: on the dense book, and
    /// on that of the small insurer
    pub goals: [Option<f64>; 2],
}

impl Measured {
    pub fn question<'a>(&self, book: &'a [u8]) -> Question<'a> {
        Question {
            book,
            setting: 0,
            group: self.group,
        }
    }
}

pub const MEASURED_TOTALS: Measured = Measured {
    name: "Totals",
    call: TOTALS,
    group: 0,
    goals: [Some(1.06), Some(1.0)],
};

pub const MEASURED: [Measured; 5] = [
    MEASURED_TOTALS,
    Measured {
        name: "Group PG1",
        call: GROUP,
        group: 1,
        goals: [Some(1.1), Some(1.1)],
    },
    Measured {
        name: "Group PG2",
        call: GROUP,
        group: 2,
        goals: [Some(1.1), Some(1.1)],
    },
    Measured {
        name: "Report",
        call: REPORT,
        group: 0,
        goals: [Some(1.1), Some(1.1)],
    },
    Measured {
        name: "Check",
        call: CHECK,
        group: 0,
        goals: [None, None],
    },
];

// Among the rows of a call.
pub const ARCHIVE: usize = 0;
// Among those of Totals.
pub const TUNED_EIGHT: usize = 1;
pub const TUNED_FIVE: usize = 2;

const TOTALS_ROWS: &[Row] = &[
    Row {
        name: "the archive",
        answer: |question, _| archive_totals(question.book),
    },
    Row {
        name: "tuned Rust, 64 bits, eight projections",
        answer: |question, _| tuned_totals(question.book, Projections::Eight, Order::CellByCell),
    },
    Row {
        name: "the same, five projections",
        answer: |question, _| tuned_totals(question.book, Projections::Five, Order::CellByCell),
    },
    Row {
        name: "the same, five, all cells year by year",
        answer: |question, _| tuned_totals(question.book, Projections::Five, Order::YearByYear),
    },
    Row {
        name: "its ideas in Rust",
        answer: |question, _| rival::totals(question.book).map(Figures::Totals),
    },
    Row {
        name: "plain Rust, 128 bits",
        answer: |question, _| plain::valuation::totals(question.book).map(Figures::Totals),
    },
];

const GROUP_ROWS: &[Row] = &[
    Row {
        name: "the archive",
        answer: archive_group,
    },
    Row {
        name: "its ideas in Rust, one projection",
        answer: |Question {
                     book,
                     setting,
                     group,
                 },
                 buffers| {
            one_projection::group(book, setting, group, &mut buffers.table).map(Figures::Group)
        },
    },
    Row {
        name: "plain Rust, 128 bits",
        answer: |Question {
                     book,
                     setting,
                     group,
                 },
                 buffers| {
            plain::valuation::group(book, setting, group, &mut buffers.table).map(Figures::Group)
        },
    },
];

const REPORT_ROWS: &[Row] = &[
    Row {
        name: "the archive",
        answer: archive_report,
    },
    Row {
        name: "its ideas in Rust, one projection",
        answer: |question, buffers| {
            one_projection::report(question.book, question.setting, &mut buffers.text)
                .map(Figures::ReportLength)
        },
    },
    Row {
        name: "plain Rust, 128 bits, from Group",
        answer: |question, buffers| {
            plain::report::report(question.book, question.setting, &mut buffers.text)
                .map(Figures::ReportLength)
        },
    },
];

const CHECK_ROWS: &[Row] = &[
    Row {
        name: "the archive",
        answer: archive_check,
    },
    Row {
        name: "plain Rust",
        answer: |question, _| plain::check::check(question.book).map(Figures::N),
    },
];

fn refusal_of(refusal: xaropinto::Refusal) -> Refusal {
    (refusal.number, refusal.place)
}

fn archive_check(question: Question, _: &mut Buffers) -> Answer {
    let reply = xaropinto::check(question.book).map_err(refusal_of)?;
    Ok(Figures::N(reply.n))
}

fn archive_group(question: Question, buffers: &mut Buffers) -> Answer {
    let Question {
        book,
        setting,
        group,
    } = question;
    let reply = xaropinto::group(book, setting, group, &mut buffers.table).map_err(refusal_of)?;
    Ok(Figures::Group(Group {
        liability: reply.liability,
        n: reply.n,
    }))
}

fn archive_report(question: Question, buffers: &mut Buffers) -> Answer {
    let length = xaropinto::report(question.book, question.setting, &mut buffers.text)
        .map_err(refusal_of)?;
    Ok(Figures::ReportLength(length))
}

fn archive_totals(book: &[u8]) -> Answer {
    let reply = xaropinto::totals(book).map_err(refusal_of)?;
    Ok(Figures::Totals(Totals {
        n: reply.n,
        totals: reply.totals,
        differences: reply.differences,
    }))
}

fn tuned_totals(book: &[u8], projections: Projections, order: Order) -> Answer {
    tuned::totals(book, Tuning { projections, order }).map(Figures::Totals)
}
