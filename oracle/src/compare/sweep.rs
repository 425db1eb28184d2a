//! Many journals, and what they come to.

use super::{Differing, Job, REFUSALS, Run, compare_generated, compare_tightly};
use crate::generate::Profile;
use crate::store::Calls;
use crate::threads::on_threads;

/// How many entries journals have, by their number. Five lengths, as the generator turns on numbers by 2, 3 and 4.
const LENGTHS: [usize; 5] = [150, 600, 50, 1_200, 300];

/// How many entries a journal may have to be run again on pools that are just full.
const TIGHT_LENGTH: usize = 150;

impl Job {
    /// Whether the journal is run again on pools that are just full. Only short ones are, to save time.
    fn is_tight(self) -> bool {
        self.length <= TIGHT_LENGTH
    }
}

/// What the journals of a profile come to.
#[derive(Clone, Copy, Debug, PartialEq, Eq)]
pub struct Tally {
    pub profile: Profile,
    pub journals: u64,
    /// How many of them end with everything given back.
    pub emptied: u64,
    /// How many of them are run again on pools that are just full.
    pub tight: u64,
    pub total: Run,
}

/// A journal on which judges differ.
#[derive(Clone, Debug)]
pub struct Found {
    pub job: Job,
    pub differing: Differing,
}

/// Journals of all given profiles, numbers from one on, that have so many entries in all.
pub fn plan(profiles: &[Profile], number: u64, entries: u64) -> Vec<Job> {
    let mut jobs = Vec::new();
    let mut left = entries as usize;
    let mut next = number;
    while left > 0 {
        for &profile in profiles {
            let length = LENGTHS[(next % LENGTHS.len() as u64) as usize].min(left);
            if length > 0 {
                jobs.push(Job { profile, number: next, length });
            }
            left -= length;
        }
        next = next.wrapping_add(1);
    }
    jobs
}

/// Compares all judges on the journals. Of several differences it gives that of the first journal, so that the same
/// plan gives the same one whatever the threads do.
pub fn sweep(candidate: Option<Calls>, jobs: &[Job]) -> Result<Vec<Tally>, Box<Found>> {
    let work = |&job: &Job| {
        let compare = if job.is_tight() { compare_tightly } else { compare_generated };
        compare(candidate, job)
    };
    let runs = on_threads(jobs, work).map_err(|(place, differing)| Box::new(Found { job: jobs[place], differing }))?;
    Ok(tally(jobs, &runs))
}

/// What journals come to, by profile.
pub fn tally(jobs: &[Job], runs: &[Run]) -> Vec<Tally> {
    let mut tallies = Vec::new();
    for (&job, &run) in jobs.iter().zip(runs) {
        add(&mut tallies, job, run);
    }
    tallies
}

fn add(tallies: &mut Vec<Tally>, job: Job, run: Run) {
    let profile = job.profile;
    let known = tallies.iter().position(|tally| tally.profile == profile);
    let index = known.unwrap_or(tallies.len());
    if known.is_none() {
        tallies.push(Tally { profile, journals: 0, emptied: 0, tight: 0, total: Run::default() });
    }
    let tally = &mut tallies[index];
    tally.journals += 1;
    tally.emptied += u64::from(run.emptied);
    tally.tight += u64::from(run.tight);
    tally.total.entries += run.entries;
    tally.total.given_back += run.given_back;
    tally.total.used = tally.total.used.max(run.used);
    for refusal in 0..REFUSALS {
        tally.total.refusals[refusal] += run.refusals[refusal];
    }
}

/// A line for each profile: journals, how many of them end with everything given back, how many are run again on
/// pools that are just full, entries, releases that give everything back, how often each refusal is answered, and the
/// largest used count.
pub fn table(tallies: &[Tally]) -> String {
    let columns = ["journals", "emptied", "tight", "entries", "releases"];
    let mut text = format!("{:15}", "profile");
    text += &columns.map(|column| format!(" {column:>8}")).concat();
    text += " |";
    for refusal in 0..=9 {
        text += &format!(" {:>7}", format!("no. {refusal}"));
    }
    text += &format!(" | {:>6}\n", "used");
    for Tally { profile, journals, emptied, tight, total } in tallies {
        let counts = [*journals, *emptied, *tight, total.entries, total.given_back];
        text += &format!("{:15}", profile.name());
        text += &counts.map(|count| format!(" {count:>8}")).concat();
        text += " |";
        for count in &total.refusals[..=9] {
            text += &format!(" {count:>7}");
        }
        text += &format!(" | {:>6}\n", total.used);
    }
    text
}
