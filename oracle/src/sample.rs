//! The fixed sample: journals and what they must print, for a check of a program without the judges.

use crate::compare::{Agreed, Job, agree, random_journals};
use crate::explain::explain;
use crate::generate::Profile;
use crate::journal::{DOCUMENT, encode};
use crate::reference;
use crate::threads::on_threads;
use std::path::Path;

/// How many entries the journals of a profile have.
const LENGTHS: [usize; 4] = [50, 100, 200, 400];

/// The long journal: its bytes are more than a pipe holds.
const LONG: Job = Job { profile: Profile::Season, number: 5, length: 13_000 };

/// How many random byte strings there are of each length.
const RANDOM: u64 = 2;

/// A file of the sample: its name and its bytes.
pub type File = (String, Vec<u8>);

/// Writes the sample into a folder, and gives how much it is.
pub fn write(folder: &str) -> Result<String, String> {
    let files = files()?;
    std::fs::create_dir_all(folder).map_err(|error| format!("{folder} cannot be made: {error}"))?;
    for (name, bytes) in &files {
        let path = Path::new(folder).join(name);
        std::fs::write(&path, bytes).map_err(|error| format!("{} cannot be written: {error}", path.display()))?;
    }
    let bytes: usize = files.iter().map(|file| file.1.len()).sum();
    Ok(format!("{} files of {bytes} bytes\n", files.len()))
}

/// All files of the sample.
pub fn files() -> Result<Vec<File>, String> {
    let jobs = jobs();
    let journals = on_threads(&jobs, |(name, job)| agree(*job).map(|agreed| journal_files(name, &agreed)));
    let mut files = journals.map_err(|(place, differing)| explain(&jobs[place].0, &differing))?.concat();
    let document = encode(&DOCUMENT);
    files.extend(packed_files("cuts", &document, (0..=document.len()).map(|length| (0, length))));
    let random = random_journals(1, RANDOM);
    let mut next = 0;
    let behind_each_other = random.iter().map(|bytes| {
        let first = next;
        next += bytes.len();
        (first, bytes.len())
    });
    files.extend(packed_files("random", &random.concat(), behind_each_other));
    Ok(files)
}

/// The generated journals, each with its name.
fn jobs() -> Vec<(String, Job)> {
    let named = |profile: Profile, number: u64, length: usize| {
        (format!("{}-{number}", profile.name()), Job { profile, number, length })
    };
    let of_one = |&profile: &Profile| (1..).zip(LENGTHS).map(move |(number, length)| named(profile, number, length));
    let mut jobs: Vec<(String, Job)> = Profile::ALL.iter().flat_map(of_one).collect();
    jobs.push(("long".to_string(), LONG));
    jobs
}

/// A journal, the lines that a program must print for it, and what the original says.
fn journal_files(name: &str, agreed: &Agreed) -> Vec<File> {
    let file = |end: &str, bytes: &[u8]| (format!("{name}.{end}"), bytes.to_vec());
    let Agreed { entries, lines, original, .. } = agreed;
    vec![file("journal", &encode(entries)), file("lines", lines.as_bytes()), file("original", original.as_bytes())]
}

/// Bytes of which parts are journals, and for each part, given as the place of its first byte and its length, a heading
/// and the lines that a program must print for it.
fn packed_files(name: &str, bytes: &[u8], parts: impl Iterator<Item = (usize, usize)>) -> [File; 2] {
    let mut lines = String::new();
    for (first, length) in parts {
        lines += &format!("bytes {first} {length}\n");
        lines += &reference::replay(&bytes[first..first + length]);
    }
    [(format!("{name}.bytes"), bytes.to_vec()), (format!("{name}.lines"), lines.into_bytes())]
}
