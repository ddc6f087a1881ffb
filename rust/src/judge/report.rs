//! What came of a check.
use super::options::Options;
use super::verdict::{Call, Part, Reason, Style, draw, write_csv};
use std::fmt::{self, Display, Formatter};
use std::fs::{self, File};
use std::io::{self, BufWriter};
use std::path::{Path, PathBuf};
use std::process;
use std::sync::atomic::{AtomicU32, Ordering};

/// Below this share of overlapping calls the report says that there are few.
const FEW: f64 = 0.2;

/// How a check ended.
#[derive(Clone, Debug, PartialEq, Eq)]
pub enum Outcome {
    /// No round had a fault.
    Passed,
    /// A round has no legal order. This is proved.
    NoOrder {
        /// What the judge says of it, with a line for each call that the reason names.
        text: String,
        /// The reason.
        reason: Reason,
    },
    /// A round has no verdict, and [`Options::undecided_fails`] is set; or no round has one.
    Undecided {
        /// Why the search stopped; empty where no round has a verdict.
        text: String,
    },
    /// A call did not return.
    Hang {
        /// A line for each thread that was in a call: in which one, and for how long.
        threads: Vec<String>,
    },
    /// A call panicked.
    Panicked {
        /// The thread.
        thread: usize,
        /// The message of the panic.
        message: String,
    },
    /// No get took an item in any round, so the check says nothing of the queue.
    NothingTaken,
    /// A log cannot be judged. That is the fault of the check or of its functions, never of the queue.
    Fault {
        /// Which fault it is.
        text: String,
    },
}

/// What came of a check, and how much was looked at. As a text it says all of it.
#[derive(Clone, Debug)]
pub struct Report {
    /// How it ended.
    pub outcome: Outcome,
    /// The name of the queue, from the options.
    pub name: String,
    /// The k of the options.
    pub k: u32,
    /// How many rounds were judged.
    pub rounds: u64,
    /// How many calls these had in all.
    pub calls: u64,
    /// How many gets took an item.
    pub taken: u64,
    /// The share of calls that overlapped one of another thread, 0 to 1, over a sample of rounds.
    pub overlapping: f64,
    /// How many rounds had neither an order nor a reason against each.
    pub undecided: u64,
    /// After how many tries the search gave up in these rounds at most.
    pub tries: u64,
    /// Where k is over 1: the greatest lower and the greatest upper bound of the least k, over a sample of rounds. The
    /// upper one is none where some round had none.
    pub least: Option<(u32, Option<u32>)>,
    /// What the designs were drawn by.
    pub seed: u64,
    /// The round that failed, from 1, and its design.
    pub failed_round: Option<String>,
    /// The log of the round that failed, in CSV.
    pub log: Option<PathBuf>,
    /// The picture of the calls that rule out an order, or of all calls of a round that did not end.
    pub picture: Option<PathBuf>,
    /// The files that could not be written, each with the reason.
    pub unwritten: Vec<String>,
}

impl Report {
    pub(super) fn new(options: &Options, seed: u64) -> Report {
        Report {
            outcome: Outcome::Passed,
            name: options.name.clone(),
            k: options.k,
            rounds: 0,
            calls: 0,
            taken: 0,
            overlapping: 0.0,
            undecided: 0,
            tries: 0,
            least: None,
            seed,
            failed_round: None,
            log: None,
            picture: None,
            unwritten: Vec::new(),
        }
    }

    /// Whether no fault was found.
    pub fn has_passed(&self) -> bool {
        self.outcome == Outcome::Passed
    }

    /// How much was looked at, and after how many tries the search gave up in the undecided rounds, at most.
    pub(super) fn counts(&self) -> String {
        let (rounds, calls, undecided) = (self.rounds, self.calls, self.undecided);
        let share = 100.0 * self.overlapping;
        let tried = match undecided {
            0 => String::new(),
            _ => format!(" after at most {} tries each", self.tries),
        };
        format!(
            "{rounds} rounds, {calls} calls, {share:.0} % overlapping, {undecided} undecided{tried}"
        )
    }

    /// The part of the calls of the round that failed of which there is a picture.
    fn drawn_part(&self) -> Option<Part> {
        match self.outcome {
            Outcome::NoOrder { .. } => Some(Part::Evidence),
            Outcome::Hang { .. } | Outcome::Panicked { .. } => Some(Part::All),
            _ => None,
        }
    }

    /// Writes the log of the round that failed, and the picture where there is one. Of too many calls there is none.
    pub(super) fn write_files(&mut self, options: &Options, calls: &[Call]) {
        static FILES: AtomicU32 = AtomicU32::new(0);
        let number = FILES.fetch_add(1, Ordering::Relaxed);
        let folder = options.folder.clone().unwrap_or_else(std::env::temp_dir);
        let stem = format!("kfifo-{}-{}-{number}", options.name, process::id());
        let log = folder.join(format!("{stem}.csv"));
        match write_log(&folder, &log, calls) {
            Ok(()) => self.log = Some(log),
            Err(error) => self.unwritten.push(format!("{}: {error}", log.display())),
        }
        let part = self.drawn_part();
        let Some(Ok(svg)) = part.map(|part| draw(calls, options.k, part, Style::Svg)) else {
            return;
        };
        let picture = folder.join(format!("{stem}.svg"));
        match fs::write(&picture, svg) {
            Ok(()) => self.picture = Some(picture),
            Err(error) => self
                .unwritten
                .push(format!("{}: {error}", picture.display())),
        }
    }

    /// What was found, in a line.
    fn head(&self) -> String {
        match &self.outcome {
            Outcome::Passed => String::from("no fault found"),
            Outcome::NoOrder { reason, .. } => format!("no legal order: {}", reason.headline),
            Outcome::Undecided { text } if text.is_empty() => {
                String::from("no round has a verdict")
            }
            Outcome::Undecided { .. } => String::from("a round is undecided"),
            Outcome::Hang { .. } => String::from("a call did not return"),
            Outcome::Panicked { .. } => String::from("a call failed"),
            Outcome::NothingTaken => String::from("no get took an item, so nothing was tested"),
            Outcome::Fault { .. } => String::from(
                "a log cannot be judged: the check or its functions are wrong, not the queue",
            ),
        }
    }

    /// The lines that say more of it.
    fn details(&self) -> String {
        match &self.outcome {
            Outcome::NoOrder { text, .. }
            | Outcome::Undecided { text }
            | Outcome::Fault { text } => text.trim_end().to_string(),
            Outcome::Hang { threads } => threads.join("\n"),
            Outcome::Panicked { thread, message } => format!("thread {thread}: {message}"),
            Outcome::Passed | Outcome::NothingTaken => String::new(),
        }
    }

    /// The lines between the first and the last one.
    fn lines(&self) -> Vec<String> {
        let mut lines: Vec<String> = self.failed_round.iter().cloned().collect();
        if self.failed_round.is_none() && self.overlapping < FEW {
            let why = "so few faults could show: try more processors or more seconds";
            lines.push(format!("few calls overlapped, {why}"));
        }
        lines.extend(Some(self.details()).filter(|it| !it.is_empty()));
        lines.extend(self.log.iter().map(|it| format!("log: {}", it.display())));
        lines.extend(self.unwritten.iter().map(|it| format!("not written: {it}")));
        lines.extend(
            self.picture
                .iter()
                .map(|it| format!("picture: {}", it.display())),
        );
        lines
    }
}

fn write_log(folder: &Path, path: &Path, calls: &[Call]) -> io::Result<()> {
    fs::create_dir_all(folder)?;
    write_csv(calls, BufWriter::new(File::create(path)?))
}

impl Display for Report {
    fn fmt(&self, f: &mut Formatter<'_>) -> fmt::Result {
        writeln!(
            f,
            "kfifo check of {} for k = {}: {}",
            self.name,
            self.k,
            self.head()
        )?;
        for line in self.lines() {
            writeln!(f, "{line}")?;
        }
        write!(f, "{}, seed {}", self.counts(), self.seed)?;
        if let Some((at_least, at_most)) = self.least {
            let at_most = at_most.map_or_else(|| String::from("unknown"), |most| most.to_string());
            let bounds = format!("at least {at_least} and at most {at_most}");
            write!(f, "; of a sample the least k is {bounds}")?;
        }
        Ok(())
    }
}
