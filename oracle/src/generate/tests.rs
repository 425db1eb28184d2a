use super::room::Room;
use super::*;
use crate::frames::Range;
use crate::store::State;
use std::cell::RefCell;
use std::collections::BTreeMap;

/// What happened in some journals: entries by name and refusal, and the most used words.
#[derive(Debug, Default)]
struct Tally {
    counts: BTreeMap<(&'static str, u64), u64>,
    most_used: u64,
}

impl Tally {
    fn entries(&self, name: &str) -> u64 {
        self.counts.iter().filter(|((each, _), _)| *each == name).map(|(_, count)| count).sum()
    }

    fn refused(&self, refusal: u64) -> u64 {
        self.counts.iter().filter(|((_, each), _)| *each == refusal).map(|(_, count)| count).sum()
    }

    fn succeeded(&self, name: &'static str) -> u64 {
        self.counts.get(&(name, 0)).copied().unwrap_or(0)
    }
}

/// Runs a journal on the frames alone, or with the pool's room too.
fn journal(profile: Profile, number: u64, length: usize, with_room: bool, tally: &mut Tally) -> Vec<Entry> {
    let generator = Generator::new(profile, number);
    let words = if with_room { generator.pool_words() } else { 1 << 40 };
    run(generator, words, length, tally)
}

/// Runs so many entries of a generator on the frames and so many words of room.
fn run(mut generator: Generator, words: usize, length: usize, tally: &mut Tally) -> Vec<Entry> {
    let mut room = Room::new(words);
    let mut entries = Vec::new();
    for _ in 0..length {
        let entry = generator.next();
        let answer = room.answer(entry);
        assert!(room.frames.consistent());
        generator.answered(entry, &answer);
        *tally.counts.entry((entry.name(), answer.refusal)).or_default() += 1;
        entries.push(entry);
    }
    let Generator { profile, number, ledger, .. } = generator;
    assert_eq!(held_frames(&ledger), room.frames.held(), "{profile:?} {number}");
    tally.most_used = tally.most_used.max(room.used());
    entries
}

/// The ledger's held pages as frame ranges that do not touch.
fn held_frames(ledger: &Ledger) -> Vec<Range> {
    let mut pages = ledger.held.clone();
    pages.sort_by_key(|page| page.base);
    let mut ranges: Vec<Range> = Vec::new();
    for page in pages {
        let range = Range::between(page.base, page.end());
        match ranges.last_mut() {
            Some(last) if last.end == range.first => last.end = range.end,
            _ => ranges.push(range),
        }
    }
    ranges
}

fn tally(profile: Profile, length: usize, with_room: bool) -> Tally {
    let mut tally = Tally::default();
    for number in 0..20 {
        journal(profile, number, length, with_room, &mut tally);
    }
    tally
}

#[test]
fn names_lead_back_to_profiles() {
    for &profile in Profile::ALL {
        assert_eq!(Profile::from_name(profile.name()), Some(profile));
    }
    assert_eq!(Profile::from_name("none"), None);
}

#[test]
fn the_same_number_gives_the_same_journal() {
    for &profile in Profile::ALL {
        let mut seen = Vec::new();
        for number in 0..20 {
            let entries = journal(profile, number, 300, true, &mut Tally::default());
            assert_eq!(entries, journal(profile, number, 300, true, &mut Tally::default()));
            assert!(!seen.contains(&entries), "{profile:?} {number}");
            seen.push(entries);
        }
    }
}

#[test]
fn promised_refusals_occur_and_acquires_succeed() {
    for &profile in Profile::ALL {
        for with_room in [true, false] {
            let tally = tally(profile, 300, with_room);
            for &refusal in profile.promises() {
                let known = with_room || refusal != 9;
                assert!(!known || tally.refused(refusal) > 0, "{profile:?} never has {refusal}");
            }
            let (successes, all) = (tally.succeeded("acquire"), tally.entries("acquire"));
            assert!(profile == Profile::Limits || successes * 10 >= all * 3, "{profile:?}: {successes} of {all}");
        }
    }
}

#[test]
fn pools_stay_small() {
    for &profile in Profile::ALL {
        let tally = tally(profile, 300, true);
        assert!(profile == Profile::DryPools || tally.refused(9) == 0, "{profile:?}");
        assert!(tally.most_used <= 6_000, "{profile:?}: {}", tally.most_used);
    }
}

#[test]
fn long_journals_go_on() {
    for &profile in Profile::ALL {
        let mut tally = Tally::default();
        for number in 0..4 {
            journal(profile, number, 3_000, true, &mut tally);
        }
        assert!(profile == Profile::DryPools || tally.refused(9) == 0, "{profile:?}");
        assert!(tally.succeeded("acquire") > 0 && tally.succeeded("release") > 0, "{profile:?} {tally:?}");
    }
}

#[test]
#[ignore = "takes half a minute"]
fn many_journals_go_on() {
    for &profile in Profile::ALL {
        let mut tally = Tally::default();
        for number in 100..1_100u64 {
            journal(profile, number.wrapping_mul(0x9e37_79b9_7f4a_7c15), 400, true, &mut tally);
        }
        assert!(profile == Profile::DryPools || tally.refused(9) == 0, "{profile:?}");
        println!("{} {}", profile.name(), tally.most_used);
    }
}

/// Each kind of wrong entry, with the refusals that it may get once there is a region.
fn wrong_entries(generator: &mut Generator) -> [(Entry, &'static [u64]); 7] {
    [
        (generator.wrong_code(), &[1]),
        (generator.wrong_alignment(), &[2]),
        (generator.wrong_end(), &[3]),
        (generator.wrong_region(), &[4, 5]),
        (generator.wrong_unseeded(), &[6]),
        (generator.wrong_free(), &[6, 7]),
        (generator.wrong_size(), &[8]),
    ]
}

#[test]
fn wrong_entries_get_their_refusals() {
    for number in 0..40 {
        let mut generator = Generator::new(Profile::Refusals, number);
        let mut room = Room::new(generator.pool_words());
        for _ in 0..200 {
            let entry = generator.next();
            let answer = room.answer(entry);
            generator.answered(entry, &answer);
            if generator.ledger.regions.is_empty() {
                continue;
            }
            for (wrong, allowed) in wrong_entries(&mut generator.clone()) {
                let refusal = room.frames.judge(wrong).refusal;
                assert!(allowed.contains(&refusal), "{wrong:?} gets {refusal}, not {allowed:?}");
            }
        }
    }
}

#[test]
fn dry_pools_have_all_lengths() {
    let words: Vec<usize> = (0..400).map(|number| Generator::new(Profile::DryPools, number).pool_words()).collect();
    assert!(words.iter().all(|words| (1..=4_000).contains(words)));
    for limits in [(1, 257), (258, 770), (771, 1_283), (1_284, 1_412), (1_413, 1_417), (1_418, 4_000)] {
        assert!(words.iter().any(|&words| limits.0 <= words && words <= limits.1), "{limits:?}");
    }
}

#[test]
fn a_long_pool_runs_dry_too() {
    let mut tally = Tally::default();
    for number in 0..20 {
        let generator = Generator::on_pool(Profile::DryPools, number, JOURNAL_POOL);
        assert_eq!(generator.pool_words(), JOURNAL_POOL);
        run(generator, JOURNAL_POOL, 300, &mut tally);
    }
    for name in ["seed", "acquire", "release"] {
        let nines = tally.counts.get(&(name, 9)).copied().unwrap_or(0);
        assert!(nines >= 20, "{name}: {nines}, {tally:?}");
    }
}

#[test]
fn a_given_pool_of_the_profiles_own_length_changes_nothing() {
    for &profile in Profile::ALL.iter().filter(|&&profile| profile != Profile::DryPools) {
        let (mut own, mut given) = (Generator::new(profile, 3), Generator::on_pool(profile, 3, JOURNAL_POOL));
        for _ in 0..50 {
            assert_eq!(own.next(), given.next());
        }
    }
}

thread_local! {
    static ROOM: RefCell<Room> = RefCell::new(Room::default());
}

fn tell(entry: Entry) -> Answer {
    ROOM.with(|room| room.borrow_mut().answer(entry))
}

/// Calls whose state and pool are shadows of the store kept aside.
fn shadow_calls() -> Calls {
    Calls {
        fresh: |pool| {
            ROOM.with(|room| *room.borrow_mut() = Room::new(pool.len()));
            Answer { refusal: 0, state: State { used: 1, ..State::default() }, results: vec![] }
        },
        seed: |_, _, start, end| tell(Entry::Seed { start, end }),
        acquire: |_, _, code| tell(Entry::Acquire { code: code as u8 }),
        release: |_, _, base, code| tell(Entry::Release { base, code: code as u8 }),
        report: |_, _| tell(Entry::Report),
        check: |_, _| true,
    }
}

#[test]
fn a_recorded_journal_is_the_journal() {
    for &profile in Profile::ALL {
        for number in 0..5 {
            let (words, entries, _) = record(profile, number, 200, shadow_calls());
            assert_eq!(words, Generator::new(profile, number).pool_words());
            assert_eq!(entries, journal(profile, number, 200, true, &mut Tally::default()));
        }
    }
}

#[test]
fn wild_answers_do_no_harm() {
    for &profile in Profile::ALL {
        for number in 0..10 {
            let mut generator = Generator::new(profile, number);
            for step in 0..300u64 {
                let entry = generator.next();
                let base = [0, u64::MAX, 1 << 47, (1 << 47) - 4_096, step * 4_096][step as usize % 5];
                let results = if step % 7 == 0 { vec![] } else { vec![base, u64::MAX, 9, u64::MAX] };
                let answer = Answer { refusal: u64::from(step % 3 == 2), state: State::default(), results };
                generator.answered(entry, &answer);
            }
        }
    }
}

#[test]
fn room_agrees_with_the_printed_numbers() {
    let base = 1 << 31;
    let whole = Entry::Seed { start: base, end: base + 16_384 };
    assert_eq!(Room::new(1_412).answer(whole).refusal, 9);
    assert_eq!(Room::new(1_413).answer(whole).refusal, 0);
    let mut room = Room::new(JOURNAL_POOL);
    assert_eq!(room.answer(Entry::Seed { start: base, end: base + 24_576 }).state.used, 1_418);
    assert_eq!(room.answer(Entry::Acquire { code: 1 }).state.used, 1_423);
    assert_eq!(room.answer(Entry::Report).results, [24_576, 20_480, 1, 1_423]);
}

#[test]
fn the_lowest_frame_may_lack_room_where_a_higher_one_has_it() {
    let base = 1 << 31;
    let mut room = Room::new(1_418);
    assert_eq!(room.answer(Entry::Seed { start: base, end: base + 20_480 }).state.used, 1_418);
    assert_eq!(room.answer(Entry::Acquire { code: 1 }).refusal, 9);
    assert_eq!(room.answer(Entry::Acquire { code: 2 }).results, [base, 6]);
    assert_eq!(room.answer(Entry::Acquire { code: 1 }).results, [base + 16_384, 8]);
    assert_eq!(room.answer(Entry::Release { base, code: 1 }).refusal, 9);
}

/// What a profile is for: acquires over two regions, releases of parts and of joined pages, and entries after which
/// the largest free page is larger by two codes or more.
#[derive(Debug, Default)]
struct Features {
    straddles: u64,
    parts: u64,
    joins: u64,
    cascades: u64,
}

impl Features {
    fn note(&mut self, before: &Generator, rise: u64, entry: Entry, answer: &Answer) {
        if answer.refusal != 0 {
            return;
        }
        self.cascades += u64::from(rise >= 2);
        match entry {
            Entry::Acquire { code } => {
                let page = Page { base: answer.results[0], code };
                let inside = |&(start, end): &(u64, u64)| page.shared(start, end) == page.bytes();
                self.straddles += u64::from(!before.ledger.regions.iter().any(inside));
            }
            Entry::Release { base, code } => {
                let block = Page { base, code };
                let held = &before.ledger.held;
                let part = held.iter().any(|page| page.code > code && page.shared(base, block.end()) > 0);
                self.parts += u64::from(part);
                self.joins += u64::from(!part && !held.contains(&block));
            }
            _ => {}
        }
    }
}

fn features(profile: Profile) -> Features {
    let mut features = Features::default();
    for number in 0..20 {
        let mut generator = Generator::new(profile, number);
        let mut room = Room::new(generator.pool_words());
        for _ in 0..300 {
            let entry = generator.next();
            let largest = room.frames.judge(Entry::Report).results[2];
            let answer = room.answer(entry);
            let rise = room.frames.judge(Entry::Report).results[2].saturating_sub(largest);
            features.note(&generator, rise, entry, &answer);
            generator.answered(entry, &answer);
        }
    }
    features
}

#[test]
fn profiles_do_what_they_are_for() {
    let touching = features(Profile::Touching);
    assert!(touching.straddles >= 100, "{touching:?}");
    let cascades = features(Profile::Cascades);
    assert!(cascades.cascades >= 100 && cascades.joins >= 20, "{cascades:?}");
    let parts = features(Profile::PartsAndJoins);
    assert!(parts.parts >= 100 && parts.joins >= 100, "{parts:?}");
}

/// Prints the table of refusals by profile; shown with `--nocapture`.
#[test]
fn table_of_refusals() {
    for &profile in Profile::ALL {
        let tally = tally(profile, 300, true);
        let rates: Vec<String> = (0..=9).map(|number| format!("{:5.1}", tally.refused(number) as f64 / 60.0)).collect();
        let acquired = tally.succeeded("acquire") * 100 / tally.entries("acquire").max(1);
        println!("{:16}{} | acquires {acquired:3} % | used {}", profile.name(), rates.join(""), tally.most_used);
    }
}
