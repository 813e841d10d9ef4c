//! `windows`: the least cost of every stretch of a long record, from the proved moving window.
use crate::cause;
use crate::check::counted;
use crate::costs::{self, whole_number, Answered, Unanswered};
use crate::failure::{usage, Failure};
use crate::given::{Given, Words};
use crate::outline::in_line;
use crate::plan::MAX_WINDOW;
use crate::progress::Progress;
use crate::stretches::Costs;
use shared::options::Args;
use std::sync::Mutex;
use yeldaski::Refusal;

/// A section of the record has as many stretches as need about so many layers of the search: few enough that the line on a terminal moves and threads end
/// together, and enough that what a call does beside its layers does not count.
const LAYERS: usize = 4096;

/// A moving window over a plan and its record.
struct Task<'a> {
    given: Given<'a>,
    w: usize,
    jobs: usize,
}

pub fn act(args: &Args) -> Result<u8, Failure> {
    let words = Words::of(args, "windows", "windows PLAN RECORD --window W")?;
    let w = whole_number(args, "windows", "window", [1, MAX_WINDOW])?.ok_or_else(|| {
        let why = format!("say with --window how many readings a stretch has, 1 to {MAX_WINDOW}");
        usage(format!("windows: {why}\nTry 'yeldaski help windows'."))
    })?;
    let jobs = args.number("jobs", 1, 256, 1).map_err(|why| usage(format!("windows: {why}")))?;
    let task = Task {
        given: Given::read(args, words)?,
        w,
        jobs: jobs as usize,
    };
    costs::act(args, &task.given, |_| ("window", Some(w)), |readings| task.costs(readings))
}

impl Task<'_> {
    fn costs(&self, readings: Vec<i16>) -> Result<Answered<Costs>, Unanswered> {
        let (file, w) = (&self.given.file, self.w);
        // Lent no room for costs, the library says what it would refuse in a call over the whole record; 15 is that nothing else is wrong.
        match yeldaski::windows(file, &readings, w, &mut self.workspace(), &mut []) {
            Err(refusal) if refusal != Refusal(15) => return Err(self.refused(&readings, refusal)),
            _ => {}
        }
        let mut costs = vec![0; readings.len() + 1 - w];
        self.fill(&readings, &mut costs).map_err(|refusal| self.refused(&readings, refusal))?;
        Ok(Answered {
            costs: Costs { window: w, costs },
            notes: self.given.far_off(readings).into_iter().collect(),
        })
    }

    fn workspace(&self) -> Vec<u64> {
        vec![0; self.given.plan.work_words()]
    }

    /// Fills the costs section by section. The readings of neighbouring sections overlap by one less than the window, so every stretch lies in one, and
    /// its cost is that of a search over it alone. The only refusal left is 16, which all stretches have or none has.
    fn fill(&self, readings: &[i16], costs: &mut [u64]) -> Result<(), Refusal> {
        let progress = Progress::new(costs.len());
        let size = (LAYERS / self.w).max(1);
        let count = costs.len().div_ceil(size);
        let sections = Mutex::new(costs.chunks_mut(size).enumerate());
        let next = || sections.lock().expect("no thread panics").next();
        let work = || {
            let mut workspace = self.workspace();
            while let Some((index, section)) = next() {
                let first = index * size;
                let stretches = section.len();
                let read = &readings[first..first + stretches + self.w - 1];
                if let Err(refusal) = yeldaski::windows(&self.given.file, read, self.w, &mut workspace, section) {
                    // The other threads find nothing more to do.
                    while next().is_some() {}
                    return Err(refusal);
                }
                progress.step_by(stretches);
            }
            Ok(())
        };
        let outcome = std::thread::scope(|scope| {
            let others: Vec<_> = (1..self.jobs.min(count)).map(|_| scope.spawn(work)).collect();
            let own = work();
            others
                .into_iter()
                .map(|thread| thread.join().expect("no thread panics"))
                .fold(own, Result::and)
        });
        progress.end();
        outcome
    }

    /// A refusal with the file that it is about, its cause and what can be done.
    fn refused(&self, readings: &[i16], refusal: Refusal) -> Unanswered {
        let place = if refusal.0 == 18 {
            self.label_place()
        } else {
            in_line(self.given.record_name())
        };
        let sentence = match refusal.0 {
            16 => self.no_segmentation(&readings[..self.w]),
            _ => cause::of_windows(readings.len(), self.w, refusal),
        };
        Unanswered::refused(&place, sentence, refusal)
    }

    /// The place that a refusal because of labels is about.
    fn label_place(&self) -> String {
        let name = &self.given.name;
        match self.given.text.as_ref().and_then(|text| text.labels.first()) {
            Some((line, _)) => format!("{name}:{line}"),
            None => name.clone(),
        }
    }

    /// What leaves no segmentation of the first stretch leaves none of any other.
    fn no_segmentation(&self, stretch: &[i16]) -> String {
        let cause = cause::words(&self.given.file_with(stretch), Refusal(16));
        format!("stretches of {}: {cause}", counted(stretch.len(), "reading"))
    }
}
