use super::*;
use crate::calls::answers;
use crate::reference;
use crate::store::Calls;
use crate::walk;

/// The lines of a list that hold verdicts, and those that hold names.
fn lines(printed: &[u8]) -> (Vec<&str>, Vec<&str>) {
    let text = std::str::from_utf8(printed).expect("names are ASCII");
    text.lines().partition(|line| line.bytes().all(|byte| byte == b'0' || byte == b'1'))
}

/// All base stores and damaged ones as a list.
fn written() -> Writer {
    let mut writer = Writer::default();
    write(&mut writer);
    writer
}

#[test]
fn the_list_is_large_and_its_bytes_are_few() {
    let writer = written();
    assert!(writer.damaged >= 37_000, "{}", writer.damaged);
    assert!(writer.calls >= 3 * writer.damaged, "{}", writer.calls);
    assert!(writer.bytes.len() < 400_000, "{}", writer.bytes.len());
    assert_eq!(writer.bytes, written().bytes);
}

#[test]
fn every_kind_that_fits_occurs_often() {
    let writer = written();
    for (place, (name, _)) in KINDS.iter().enumerate() {
        let count = writer.kinds.get(&place).copied().unwrap_or(0);
        assert!(count >= 20 || *name == "pool at or above its limit", "{name}: {count}");
    }
}

#[test]
fn base_stores_come_from_all_profiles_and_are_small() {
    let stores = journal_stores();
    assert!(stores.len() >= 40);
    for profile in Profile::ALL {
        let named = format!("journal {} ", profile.name());
        assert_eq!(stores.iter().filter(|(name, _)| name.starts_with(&named)).count(), FROM_ONE_PROFILE);
    }
    assert!(stores.iter().all(|(name, store)| name.len() <= 64 && store.pool.len() <= 3_000));
}

#[test]
fn the_document_has_1423_words() {
    let store = document();
    assert_eq!((store.state.used, store.pool.len()), (1_423, 1_423));
}

#[test]
fn both_judges_print_the_same_and_both_verdicts_occur_often() {
    let writer = written();
    let printed = answers(&writer.bytes, reference::CALLS);
    assert!(printed == answers(&writer.bytes, Calls { check: walk::sound, ..reference::CALLS }));
    let (digits, others) = lines(&printed);
    let names: Vec<&str> = others.into_iter().filter(|line| !line.contains(" calls, digest ")).collect();
    let count = |digit: char| digits.iter().map(|line| line.matches(digit).count() as u64).sum::<u64>();
    assert_eq!(names.len(), 1 + POOLS.len() + journal_stores().len());
    assert_eq!(count('0') + count('1'), writer.damaged + names.len() as u64);
    assert!(count('1') >= 3_000 && count('0') >= 20_000, "{} sound, {} unsound", count('1'), count('0'));
    assert!(digits.iter().all(|line| line.len() <= 64));
}

#[test]
fn a_difference_read_again_gives_the_damaged_store() {
    for (number, (name, mut base)) in journal_stores().into_iter().enumerate().step_by(7) {
        append_spare(&mut base, number);
        let mut writer = Writer::default();
        writer.base(&name, &base);
        let mut expected = String::from("1");
        for kind in 0..KINDS.len() {
            let mut store = base.clone();
            if store.damage((kind, 3)) && writer.damaged(&store, &[kind], MOST_CHANGES) {
                expected += if walk::sound(store.state, &store.pool) { "1" } else { "0" };
            }
        }
        let read = answers(&writer.bytes, reference::CALLS);
        assert_eq!(lines(&read).0.concat(), expected, "{name}");
    }
}
