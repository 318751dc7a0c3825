//! Names in words, versions, and the record of zeros.
use super::*;
use std::sync::Mutex;

const PAGE_OF_ALL_CALLS: &str = include_str!("../../../../docs/calls/README.md");

/// The cells of the rows that begin so, of all tables of docs/calls/README.md.
fn rows(first: fn(&str) -> bool) -> Vec<Vec<&'static str>> {
    let rows = PAGE_OF_ALL_CALLS.lines().filter(|line| line.starts_with('|'));
    let rows = rows.map(|line| line.trim_matches('|').split('|').map(|cell| cell.trim().trim_matches('`')).collect());
    rows.filter(|cells: &Vec<&str>| first(cells[0])).collect()
}

#[test]
fn names_and_meanings_of_codes() {
    let codes = rows(|cell| cell.starts_with("E_"));
    assert_eq!(codes.len(), 12);
    for cells in codes {
        let code = cells[1].parse().unwrap();
        assert_eq!([code_name(code), code_meaning(code)], [cells[0], cells[2]]);
    }
    for code in [NO_CODE, -1, -52, i32::MAX, i32::MIN] {
        assert_eq!([code_name(code), code_meaning(code)], ["no code of the kernel"; 2]);
    }
}

#[test]
fn names_of_calls() {
    let calls: Vec<Vec<&str>> = rows(|cell| cell.parse::<u32>().is_ok()).into_iter().filter(|cells| cells[2].contains(".md#")).collect();
    assert_eq!(calls.len(), CALL_NAMES.len());
    for cells in calls {
        let number = cells[0].parse().unwrap();
        assert_eq!((call_name(number), CALL_NAMES[number as usize]), (cells[1], cells[1]));
    }
    assert_eq!([24, 255, 256, 279, u32::MAX].map(call_name), ["no call"; 5]);
}

#[test]
fn names_of_waits() {
    let names = ["no wait", "to send to a data queue", "to receive from a data queue", "to receive from a mailbox"];
    assert_eq!([NO_WAIT, SENDING, RECEIVING, AT_MAILBOX].map(wait_name), names);
    assert_eq!([4, 255].map(wait_name), ["no kind of wait"; 2]);
}

#[test]
fn names_of_causes() {
    let causes = [SysCause::NotSound, SysCause::NoCaller, SysCause::CallerCannotCall].map(|cause| cause.to_string());
    assert_eq!(causes, ["the record isn't sound", "the caller is no defined task", "the caller waits or is suspended"]);
}

/// The archives are those of this version, and the crate's own version is the same.
#[test]
fn versions() {
    assert!(library_fits());
    let [major, minor, patch] = [VERSION / 10_000, VERSION / 100 % 100, VERSION % 100];
    assert_eq!(VERSION_TEXT, format!("{major}.{minor}.{patch}"));
    let line = format!("version = \"{VERSION_TEXT}\"");
    assert!(include_str!("../../Cargo.toml").lines().any(|found| found == line), "{line}");
}

// Neither is Copy: were one of them, both implementations would fit, and `_` could stand for either.
trait NotCopy<T> {
    const NOT_COPY: () = ();
}
struct OfCopy;
impl<T> NotCopy<()> for T {}
impl<T: Copy> NotCopy<OfCopy> for T {}
const _: () = <Record as NotCopy<_>>::NOT_COPY;
const _: () = <Replay as NotCopy<_>>::NOT_COPY;

/// Every byte of a record or a replay belongs to a field, so that it may be read.
fn bytes_in<T>(content: &T) -> &[u8] {
    // SAFETY: the bytes are those of the content, all of them initialised, and borrowed as long as it is.
    unsafe { std::slice::from_raw_parts(std::ptr::from_ref(content).cast(), size_of::<T>()) }
}

#[test]
fn the_record_of_zeros() {
    assert_eq!((Record::EMPTY, Replay::EMPTY), (Record::empty(), Replay::empty()));
    assert!(bytes_in(&Record::EMPTY).iter().all(|byte| *byte == 0) && bytes_in(&Replay::EMPTY).iter().all(|byte| *byte == 0));
    assert!(Record::EMPTY.is_sound());
    assert_eq!((Record::EMPTY.waiting(), Record::EMPTY.runnable(), Record::EMPTY.sys_cause(0)), (0, 0, None));
    assert_eq!(Replay::EMPTY.end(), zeros(E_OK));
}

/// A static record is used as it stands; the calls do what they do from the record that the library makes.
#[test]
fn a_static_record() {
    static RECORD: Mutex<Record> = Mutex::new(Record::EMPTY);
    let (mut record, mut twin, mut noise) = (RECORD.lock().unwrap(), Record::empty(), noise());
    for _ in 0..2000 {
        let call = noise.call();
        assert_eq!((record.host_call(call), &*record), (twin.host_call(call), &twin), "{call:?}");
    }
}
