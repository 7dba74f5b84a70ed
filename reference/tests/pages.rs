//! The examples that stand on the pages in docs/.

use std::error::Error;

use reference::cases::{answer, Case, Cases};
use reference::docket::{Buffers, Docket};
use reference::hash::Hash;
use reference::item::{Item, ItemType, Lane};
use reference::kind::Kind;
use reference::operation::{Method, Operation};
use reference::refusal::Refusal;
use reference::report::examine;
use reference::sheet::Sheet;
use reference::trace::{read, write, Writing};

/// The dump of docs/TRACE.md.
const DUMP: &str = "
    10 00 00 03 00 01 00 00  00 00 00 00 00 07 00 01 00 00 00 00 00 00 00 01  00 00 00 00 00 00 00 02
    00 00 00 00 00 09 00 02  00 00 00 00 00 00 00 03 00 00 00 00 00 00 00 04  40 00 00 00 00 09 00 01
    00 00 00 00 00 00 00 05  00 00 00 00 00 00 00 06 00 00 00 01 00 02";

/// What any test of these answers.
type Outcome = Result<(), Box<dyn Error>>;

/// The bytes of the dump.
fn dump() -> Result<Vec<u8>, Box<dyn Error>> {
    Ok(DUMP.split_whitespace().map(|byte| u8::from_str_radix(byte, 16)).collect::<Result<_, _>>()?)
}

/// A refusal as an error that a test can end with.
fn failed(refusal: Refusal) -> String {
    refusal.to_string()
}

/// The answer to a case.
fn answered(letter: u8, body: &[u8]) -> String {
    answer(&Case { letter, body })
}

#[test]
fn the_dump_is_certified() -> Outcome {
    let report = examine(&dump()?);
    let text = "step 0 op 0 rank 0 at 1\nstep 1 op 1 rank 0 at 3\nstep 2 op 2 rank 1 at 5\n\
                late 0 1\nlate 1 0\ncertified k 1 total 1 max 1 step 2\n";
    assert_eq!(report.text, text);
    assert!(report.certified);
    Ok(())
}

#[test]
fn the_dump_is_refused_when_it_is_changed() -> Outcome {
    let trace = dump()?;
    let changed = |at: usize, byte: u8| {
        let mut trace = trace.clone();
        trace[at] = byte;
        examine(&trace).text
    };
    assert_eq!(changed(5, 0), "refused docket 35 place 2 detail 1\n");
    assert_eq!(changed(37, 7), "refused sheet 22 place 1 detail 0\n");
    assert_eq!(examine(&trace[..85]).text, "refused frame 7 place 0 detail 0\n");
    Ok(())
}

#[test]
fn the_dump_is_written_back() -> Outcome {
    let trace = dump()?;
    let mut sheet = Sheet::over(3);
    let reading = read(&trace, ItemType::Ticket, &mut sheet).map_err(failed)?;
    let mut memory = vec![0xa5; trace.len() + 2];
    let writing = Writing { item_type: ItemType::Ticket, kind: 0, k: reading.k, order: &reading.order };
    write(&sheet, writing, &mut memory).map_err(failed)?;
    assert_eq!(memory, [trace, vec![0xa5, 0xa5]].concat());
    Ok(())
}

#[test]
fn stamps_have_the_numbers_of_the_table() -> Outcome {
    let stamp = |number| ItemType::Stamp.unpack(number);
    let lane = |number| Lane::try_from(number).map_err(failed);
    assert_eq!(stamp(0x0000000005).map_err(failed)?, Item::Serial(5));
    assert_eq!(stamp(0x4000000000).map_err(failed)?, Item::Counted(lane(0)?, 0));
    assert_eq!(stamp(0x7f00000005).map_err(failed)?, Item::Counted(lane(63)?, 5));
    for none in [0x0100000005, 0x8000000005, 0xc000000005, 1 << 40, 1 << 40 | 5, u64::MAX] {
        assert!(stamp(none).is_err(), "{none:x}");
    }
    assert!(Lane::try_from(64).is_err());
    assert_eq!(Item::Counted(lane(63)?, 5).pack(), (1 << 38) + (63 << 32) + 5);
    Ok(())
}

/// A sheet of operations on tickets: each an add or not, the ticket, the start and the end.
fn sheet_of(operations: &[(bool, u32, u64, u64)]) -> Result<Sheet, String> {
    let mut sheet = Sheet::over(operations.len());
    for &(adds, ticket, start, end) in operations {
        let item = Item::Ticket(ticket);
        let method = if adds { Method::Add(item) } else { Method::Take(item) };
        sheet.enter(Operation { method, thread: 0, start, end }).map_err(failed)?;
    }
    Ok(sheet)
}

#[test]
fn the_docket_answers_as_its_page_says() -> Outcome {
    let sheet = sheet_of(&[(true, 1, 0, 10), (true, 2, 5, 15), (true, 3, 20, 30), (false, 3, 40, 50)])?;
    let mut docket = Docket::open(&sheet, Kind::Queue, 2);
    let line = |refusal: Result<_, Refusal>| refusal.err().map(failed).unwrap_or_default();
    assert_eq!(line(docket.place(2)), "refused docket 33 place 0 detail 0");
    assert_eq!(docket.run(&[1, 0, 2]), (3, None));
    assert_eq!(docket.held(), [1, 0, 2]);
    assert_eq!(docket.place(3), Ok(2));
    assert_eq!(docket.held(), [1, 0]);
    let mut buffers = Buffers::new(5, 4, 4);
    docket.certify(&mut buffers).map_err(failed)?;
    assert_eq!(buffers.ranks, [0, 0, 0, 2, u16::MAX]);
    assert_eq!(buffers.instants, [5, 5, 20, 40]);
    assert_eq!(buffers.lateness, [1, 1, 0, 0]);
    assert_eq!(docket.lift(), Ok(3));
    assert_eq!(docket.held(), [1, 0, 2]);
    let refused = docket.certify(&mut buffers).err().map(failed);
    assert_eq!(refused.as_deref(), Some("refused docket 37 place 3 detail 3"));
    assert_eq!(buffers.lateness, [1, 1, 0, 0]);
    Ok(())
}

#[test]
fn holders_give_in_their_turn() {
    let calls = [4, 0, 7, 4, 0, 8, 4, 0, 9, 2, 0, 7, 2, 0, 9, 3, 0, 0, 5, 0, 8, 1, 3, 0, 2, 2, 0, 8, 4, 4, 0];
    let said = |kind: u8| answered(b'H', &[&[kind], &calls[..]].concat());
    assert_eq!(said(0), "holder done done done 0 2 7 done 2 !44 !43 !40");
    assert_eq!(said(1), "holder done done done 2 0 9 done 2 !44 !43 !40");
    assert_eq!(said(2), said(0));
    assert_eq!(said(255), said(0));
}

#[test]
fn cases_are_answered_where_they_are_whole() -> Outcome {
    let mut file = vec![b'I', 0, 0, 0, 9, 1, 0, 0, 0, 0x40, 0, 0, 0, 5];
    file.extend([b'x', 0, 0, 0, 0, b'H', 0, 0, 0, 0, b'H', 0, 0, 0, 1, 0, b'T', 0, 0, 0, 2, 1]);
    let answers: Vec<String> = Cases::of(&file).map(|case| answer(&case)).collect();
    assert_eq!(answers, ["item 274877906949", "no case", "no case", "holder"]);
    assert_eq!(answered(b'I', &[2, 1, 1, 1, 1, 1, 1, 1, 63]), "item 63");
    assert_eq!(answered(b'I', &[2, 0, 0, 0, 0, 0, 0, 0, 64]), "item refused item 12 place 0 detail 0");
    assert_eq!(answered(b'I', &[3, 0, 0, 0, 0, 0, 0, 0, 1]), "no case");
    let empty = b"certified k 65535 total 0 max 0 step 0\n";
    let said = format!("trace 39 {} certified k 65535 total 0 max 0 step 0", Hash::of(empty));
    assert_eq!(answered(b'T', &[0x12, 0, 0, 0, 255, 255, 0, 0]), said);
    Ok(())
}
