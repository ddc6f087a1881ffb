//! The judge itself: calls in, a proved verdict out.
use super::ffi;
use std::error::Error;
use std::ffi::{CStr, c_char};
use std::fmt::{self, Display, Formatter};
use std::io::{self, Write};

/// How many choices a search may take back, unless the caller has a reason for another number.
pub const TRIES: u64 = 1_000_000;
/// How many calls can be judged at a time.
pub const MAX_CALLS: usize = 16_777_215;
/// The greatest item.
pub const MAX_ITEM: u32 = 16_777_215;

/// What a call was to do.
#[derive(Clone, Copy, Debug, PartialEq, Eq)]
pub enum Op {
    /// Put an item into the queue: an enqueue.
    Put = 0,
    /// Take an item out: a dequeue.
    Get = 1,
}

/// What a call returned. A put returns `Done` or `Full`, a get `Got` or `Empty`, and both may return the others.
#[derive(Clone, Copy, Debug, PartialEq, Eq)]
pub enum Answer {
    /// The call has not returned.
    Unfinished = 0,
    /// The item is in the queue.
    Done = 1,
    /// The queue was full.
    Full = 2,
    /// An item was taken.
    Got = 3,
    /// The queue was empty.
    Empty = 4,
    /// The call gave up because of others, and changed nothing.
    Busy = 5,
    /// The queue can never again take such a call, and nothing was changed.
    Worn = 6,
}

/// One call of a log.
///
/// Times are of one clock for all threads. A call that ended at a time below another's `first` came before it; all
/// others overlap.
#[derive(Clone, Copy, Debug, PartialEq, Eq)]
pub struct Call {
    /// 0 to 63. A thread's calls do not overlap: each begins after the time at which the one before ended.
    pub thread: u32,
    /// What it was to do.
    pub op: Op,
    /// The item of a put, 1 to [`MAX_ITEM`], or the item that a get got. In other calls it is not read.
    pub item: u64,
    /// When it began.
    pub first: u64,
    /// When it ended. In an unfinished call it is not read.
    pub last: u64,
    /// What it returned.
    pub answer: Answer,
}

impl Call {
    fn to_c(self) -> ffi::Call {
        ffi::Call {
            first: self.first,
            last: self.last,
            item: self.item,
            thread: self.thread,
            op: self.op as u8,
            answer: self.answer as u8,
        }
    }

    /// The line of the call in CSV.
    fn line(&self) -> String {
        let op = if self.op == Op::Put { "enq" } else { "deq" };
        let (item, last, answer) = (self.item, self.last, answer_word(self.answer));
        let item = match (self.op, self.answer) {
            (Op::Put, _) | (_, Answer::Got) => item.to_string(),
            _ => String::new(),
        };
        let last = match self.answer {
            Answer::Unfinished => String::new(),
            _ => last.to_string(),
        };
        format!("{},{op},{item},{},{last},{answer}", self.thread, self.first)
    }
}

fn answer_word(answer: Answer) -> &'static str {
    match answer {
        Answer::Unfinished => "",
        Answer::Done => "done",
        Answer::Full => "full",
        Answer::Got => "got",
        Answer::Empty => "empty",
        Answer::Busy => "busy",
        Answer::Worn => "worn",
    }
}

/// Writes the calls as the log in CSV that the program `kfifo judge` reads: call i stands in line i + 2.
///
/// # Errors
///
/// Where `out` cannot be written.
///
/// ```
/// use kfifo::judge::{Answer, Call, Op, write_csv};
///
/// let call = Call { thread: 0, op: Op::Put, item: 1, first: 10, last: 20, answer: Answer::Done };
/// let mut csv = Vec::new();
/// write_csv(&[call], &mut csv)?;
/// assert_eq!(csv, b"thread,op,item,first,last,answer\n0,enq,1,10,20,done\n");
/// # Ok::<(), std::io::Error>(())
/// ```
pub fn write_csv(calls: &[Call], mut out: impl Write) -> io::Result<()> {
    writeln!(out, "thread,op,item,first,last,answer")?;
    for call in calls {
        writeln!(out, "{}", call.line())?;
    }
    out.flush()
}

/// What the judge says of a log. Each text is what the program `kfifo judge` prints of it.
#[derive(Clone, Debug, PartialEq, Eq)]
pub enum Verdict {
    /// The calls have a legal order. This is proved.
    Legal {
        /// The lines of the verdict.
        text: String,
        /// How many calls there are, and how many items are left at their end.
        counts: Counts,
    },
    /// The calls have no legal order. This is proved, and the reason says why.
    NoOrder {
        /// The lines of the verdict, with one for each call that the reason names.
        text: String,
        /// How many calls there are, and how many items are left at their end.
        counts: Counts,
        /// The same as data.
        reason: Reason,
    },
    /// Neither an order nor a reason against each was found.
    Undecided {
        /// Why the search stopped.
        text: String,
        /// How many calls there are, and how many items are left at their end.
        counts: Counts,
        /// After how many tries the search gave up: how many choices it took back.
        tries: u64,
    },
}

/// How many calls a verdict is about.
#[derive(Clone, Copy, Debug, Default, PartialEq, Eq)]
pub struct Counts {
    /// How many calls were judged.
    pub calls: usize,
    /// How many items are left at their end: finished puts less gets.
    pub left: usize,
}

/// Why calls have no legal order.
#[derive(Clone, Debug, PartialEq, Eq)]
pub struct Reason {
    /// The number of the kind of its evidence, 1 to 7, as `docs/JUDGE.md` has it.
    pub evidence: u32,
    /// The name of that kind, as `too young`.
    pub evidence_name: &'static str,
    /// What it says of the queue, as `item 2 came out, and item 1, which went in before, had not`.
    pub headline: String,
    /// The calls that it rests on, in the order of the text.
    pub named: Vec<NamedCall>,
    /// The bounds of the least k, where the text says them: it is no less than the first, and no greater than the
    /// second, if that was found.
    pub least: Option<(usize, Option<u32>)>,
}

/// A call that a reason names.
#[derive(Clone, Copy, Debug, PartialEq, Eq)]
pub struct NamedCall {
    /// Its number, from 0, in ascending order of first time.
    pub number: usize,
    /// The line of the log that it stands in, from 1; 0 of a record.
    pub line: u64,
    /// The call. Its item is 0 where it is a get that found nothing, its last time where it is unfinished.
    pub call: Call,
}

/// Why a log has no verdict. It is never the fault of the queue that was logged.
#[derive(Clone, Debug, PartialEq, Eq)]
pub enum Fault {
    /// The log cannot be judged, as where the calls of a thread overlap.
    Log {
        /// The number of the fault, 1 to 8, as `docs/JUDGE.md` has it; 0 where it has none.
        number: u32,
        /// The line of the log, from 1; 0 where it has none. For calls it is the line in their CSV.
        place: u64,
        /// The line that says which.
        text: String,
    },
    /// k is not 1 to 64.
    BadCall,
    /// An allocation failed.
    OutOfMemory,
}

impl Display for Fault {
    fn fmt(&self, f: &mut Formatter<'_>) -> fmt::Result {
        match self {
            Fault::Log { text, .. } => f.write_str(text.trim_end()),
            Fault::BadCall => f.write_str("k is not 1 to 64"),
            Fault::OutOfMemory => f.write_str("an allocation failed"),
        }
    }
}

impl Error for Fault {}

/// Between which bounds the least k lies for which a log has a legal order.
#[derive(Clone, Debug, PartialEq, Eq)]
pub enum Least {
    /// The least k is in these bounds.
    Between {
        /// It is no less. This is proved.
        at_least: u32,
        /// It is no greater, 1 to 64; none where no order was found.
        at_most: Option<u32>,
    },
    /// No k has an order: the text says why.
    NoK {
        /// The reason, with the calls that it names.
        text: String,
    },
}

/// Which calls a picture shows.
#[derive(Clone, Copy, Debug, PartialEq, Eq)]
pub enum Part {
    /// All of them, 4,096 at most.
    All = 0,
    /// Those that the evidence against this k names, marked, and those near them.
    Evidence = 1,
}

/// What a picture is made of.
#[derive(Clone, Copy, Debug, PartialEq, Eq)]
pub enum Style {
    /// An SVG document.
    Svg = 0,
    /// Lines of characters for a terminal.
    Text = 1,
}

/// A text of a report: a null pointer leads to none.
///
/// # Safety
///
/// Another leads to that many bytes.
unsafe fn owned(text: *const c_char, length: usize) -> String {
    if text.is_null() {
        return String::new();
    }
    // SAFETY: the caller says so.
    let bytes = unsafe { std::slice::from_raw_parts(text.cast::<u8>(), length) };
    String::from_utf8_lossy(bytes).into_owned()
}

/// The text of a report.
fn text_of(report: &ffi::Report) -> String {
    // SAFETY: the library says that the text has that many bytes, and they live as long as the report.
    unsafe { owned(report.text, report.length) }
}

/// The calls that a report names.
fn named_in(report: &ffi::Report) -> Vec<NamedCall> {
    if report.named.is_null() {
        return Vec::new();
    }
    // SAFETY: as in `text_of`.
    let named = unsafe { std::slice::from_raw_parts(report.named, report.named_count) };
    named.iter().map(NamedCall::of).collect()
}

/// The reason of a report that has one.
fn reason_of(report: &ffi::Report) -> Reason {
    // SAFETY: the library takes any number, and returns a text of its own that ends in a 0.
    let name = unsafe { CStr::from_ptr(ffi::kfifo_judge_evidence_name(report.evidence)) };
    Reason {
        evidence: report.evidence,
        evidence_name: name.to_str().unwrap_or_default(),
        // SAFETY: as in `text_of`.
        headline: unsafe { owned(report.headline, report.headline_length) },
        named: named_in(report),
        least: (report.at_least > 0).then(|| {
            (
                report.at_least,
                (report.at_most > 0).then_some(report.at_most),
            )
        }),
    }
}

impl NamedCall {
    fn of(named: &ffi::Named) -> NamedCall {
        let of = &named.call;
        let call = Call {
            thread: of.thread,
            op: if of.op == Op::Put as u8 {
                Op::Put
            } else {
                Op::Get
            },
            item: of.item,
            first: of.first,
            last: of.last,
            answer: answer_of(of.answer),
        };
        NamedCall {
            number: named.number,
            line: named.line,
            call,
        }
    }
}

/// The answer with this number.
fn answer_of(number: u8) -> Answer {
    match number {
        1 => Answer::Done,
        2 => Answer::Full,
        3 => Answer::Got,
        4 => Answer::Empty,
        5 => Answer::Busy,
        6 => Answer::Worn,
        _ => Answer::Unfinished,
    }
}

/// The fault that a status stands for, where it is none of a verdict.
fn fault_of(status: u32, report: &ffi::Report) -> Fault {
    match status {
        ffi::FAULT => Fault::Log {
            number: report.fault,
            place: report.place,
            text: text_of(report),
        },
        ffi::NO_MEMORY => Fault::OutOfMemory,
        _ => Fault::BadCall,
    }
}

fn verdict_of(status: u32, report: &ffi::Report) -> Result<Verdict, Fault> {
    let text = text_of(report);
    let counts = Counts {
        calls: report.calls,
        left: report.left,
    };
    match status {
        ffi::LEGAL => Ok(Verdict::Legal { text, counts }),
        ffi::NO_ORDER => {
            let reason = reason_of(report);
            Ok(Verdict::NoOrder {
                text,
                counts,
                reason,
            })
        }
        ffi::UNDECIDED => {
            let tries = report.tries;
            Ok(Verdict::Undecided {
                text,
                counts,
                tries,
            })
        }
        _ => Err(fault_of(status, report)),
    }
}

fn to_c(calls: &[Call]) -> Vec<ffi::Call> {
    calls.iter().map(|call| call.to_c()).collect()
}

/// Judges calls, in any order and [`MAX_CALLS`] at most, for a queue whose gets may give any of its k oldest items.
///
/// k is 1 to 64, and `tries` should be [`TRIES`]. The verdict is proved.
///
/// # Errors
///
/// Where k is out of range, the calls are no log or memory ran out: there is no verdict then.
///
/// ```
/// use kfifo::judge::{Answer, Call, Op, TRIES, Verdict, judge};
///
/// let done = |item, first| Call { thread: 0, op: Op::Put, item, first, last: first + 5, answer: Answer::Done };
/// let got = |item, first| Call { thread: 1, op: Op::Get, item, first, last: first + 5, answer: Answer::Got };
/// let calls = [done(1, 10), done(2, 20), got(2, 30), got(1, 40)];
///
/// let verdict = judge(&calls, 1, TRIES)?;
/// let Verdict::NoOrder { text, reason, .. } = verdict else { panic!("item 2 overtook item 1") };
/// assert!(text.contains("call 2 got item 2, while 1 older item was there: calls 0"));
/// assert_eq!(reason.headline, "item 2 came out, and item 1, which went in before, had not");
/// assert_eq!((reason.named[0].call, reason.named[1].call), (calls[2], calls[0]));
/// assert!(matches!(judge(&calls, 2, TRIES)?, Verdict::Legal { .. }));
/// # Ok::<(), kfifo::judge::Fault>(())
/// ```
pub fn judge(calls: &[Call], k: u32, tries: u64) -> Result<Verdict, Fault> {
    let calls = to_c(calls);
    let mut report = ffi::Report::empty();
    // SAFETY: there are that many calls, and the report is this function's own.
    let status =
        unsafe { ffi::kfifo_judge_calls(calls.as_ptr(), calls.len(), k, tries, &mut report) };
    verdict_of(status, &report)
}

/// As [`judge`], of a text: a log in CSV or a record in JSON.
///
/// # Errors
///
/// As of [`judge`]; a text that is neither has a fault too.
///
/// ```no_run
/// let text = std::fs::read("log.csv")?;
/// println!("{:?}", kfifo::judge::judge_text(&text, 1, kfifo::judge::TRIES)?);
/// # Ok::<(), Box<dyn std::error::Error>>(())
/// ```
pub fn judge_text(text: &[u8], k: u32, tries: u64) -> Result<Verdict, Fault> {
    let mut report = ffi::Report::empty();
    let start = text.as_ptr().cast();
    // SAFETY: the text has that many bytes, and the report is this function's own.
    let status = unsafe { ffi::kfifo_judge_text(start, text.len(), k, tries, &mut report) };
    verdict_of(status, &report)
}

/// Between which bounds the least k lies for which these calls have a legal order.
///
/// # Errors
///
/// Where the calls are no log, or memory ran out.
///
/// ```
/// use kfifo::judge::{Least, TRIES, least};
///
/// assert_eq!(least(&[], TRIES)?, Least::Between { at_least: 1, at_most: Some(1) });
/// # Ok::<(), kfifo::judge::Fault>(())
/// ```
pub fn least(calls: &[Call], tries: u64) -> Result<Least, Fault> {
    let calls = to_c(calls);
    let mut report = ffi::Report::empty();
    // SAFETY: as in `judge`.
    let status = unsafe { ffi::kfifo_least_calls(calls.as_ptr(), calls.len(), tries, &mut report) };
    match status {
        ffi::LEGAL => Ok(Least::Between {
            at_least: u32::try_from(report.at_least).unwrap_or(u32::MAX),
            at_most: (report.at_most > 0).then_some(report.at_most),
        }),
        ffi::NO_ORDER => Ok(Least::NoK {
            text: text_of(&report),
        }),
        _ => Err(fault_of(status, &report)),
    }
}

/// Draws calls, and returns the picture: all of them, or the part that rules out this k.
///
/// # Errors
///
/// As of [`judge`]; and where over 4,096 calls would be drawn.
///
/// ```
/// use kfifo::judge::{Answer, Call, Op, Part, Style, draw};
///
/// let call = Call { thread: 0, op: Op::Put, item: 1, first: 10, last: 20, answer: Answer::Done };
/// assert!(draw(&[call], 1, Part::All, Style::Svg)?.contains("<svg"));
/// # Ok::<(), kfifo::judge::Fault>(())
/// ```
pub fn draw(calls: &[Call], k: u32, part: Part, style: Style) -> Result<String, Fault> {
    let calls = to_c(calls);
    let mut report = ffi::Report::empty();
    let (part, style) = (part as u32, style as u32);
    // SAFETY: as in `judge`.
    let status =
        unsafe { ffi::kfifo_draw_calls(calls.as_ptr(), calls.len(), k, part, style, &mut report) };
    match status {
        ffi::DRAWN => Ok(text_of(&report)),
        _ => Err(fault_of(status, &report)),
    }
}
