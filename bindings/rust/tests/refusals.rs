//! Every refusal, and what each call leaves in lent memory.

use giqapsun::boundary::{giqapsun_best, giqapsun_best_by_calendar, giqapsun_better, giqapsun_read};
use giqapsun::boundary::{giqapsun_write, Choice, Plan};
use giqapsun::{
    best, best_by_calendar, better, check, compare, read, write, Case, Refusal, FILE_MOST, HOURS, ON,
    PRICE_LEAST, PRICE_MOST, WORK,
};

const CASE_7: &[u8] = include_bytes!("../../../cases/case7.case");
const SECOND_CASE_7: &[u8] = include_bytes!("../../../cases/old/form2/case7.case");
const OLD_CASE_7: &[u8] = include_bytes!("../../../cases/old/case7.case");

/// Case 7 with a change.
fn changed(change: impl FnOnce(&mut Case)) -> Case {
    let mut case = read(CASE_7).unwrap();
    change(&mut case);
    case
}

/// Examples of each refusal of a record.
fn refused_cases() -> Vec<(u32, Case)> {
    vec![
        (2, changed(|case| case.hours = 0)),
        (2, changed(|case| case.hours = HOURS + 1)),
        (2, changed(|case| case.rises = usize::MAX)),
        (2, Case::default()),
        (3, changed(|case| case.minimum = 5)),
        (4, changed(|case| case.rampup = 0)),
        (4, changed(|case| case.minup = 25)),
        (4, changed(|case| case.mindown = 0)),
        (5, changed(|case| case.variable = 1_000_001)),
        (5, changed(|case| case.variable = -1)),
        (5, changed(|case| case.fixed = i32::MIN)),
        (5, changed(|case| case.startcost = 100_000_001)),
        (5, changed(|case| case.stopcost = -1)),
        (6, changed(|case| case.rise[0] = 2)),
        (7, changed(|case| case.initial = 1)),
        (7, changed(|case| case.upstage = 1)),
        (7, changed(|case| case.downstage = 2)),
        // the order of the tests within the record
        (6, changed(|case| (case.rise[0], case.upstage) = (2, 1))),
        (7, changed(|case| (case.orders[2], case.downstage) = (3, 2))),
        (8, changed(|case| case.orders[2] = 3)),
        (13, changed(|case| case.prices[0] = PRICE_LEAST - 1)),
        (13, changed(|case| case.prices[2] = PRICE_MOST + 1)),
        (13, changed(|case| case.prices[1] = i32::MIN)),
        (13, changed(|case| case.prices[1] = i32::MAX)),
        // the order of the tests
        (8, changed(|case| (case.orders[2], case.prices[0]) = (3, PRICE_MOST + 1))),
        (5, changed(|case| (case.variable, case.prices[0]) = (-1, PRICE_MOST + 1))),
    ]
}

/// The case with 24 hours in place of its three; one of another number of hours as it is.
fn of_24_hours(mut case: Case) -> Case {
    if case.hours == 3 {
        case.hours = 24;
    }
    case
}

/// A file with other bytes at an offset.
fn file_with(file: &[u8], offset: usize, bytes: &[u8]) -> Vec<u8> {
    let mut file = file.to_vec();
    file[offset..offset + bytes.len()].copy_from_slice(bytes);
    file
}

/// Examples of each refusal of a file of form 3.
fn refused_files() -> Vec<(u32, Vec<u8>)> {
    let with = |offset, bytes: &[u8]| file_with(CASE_7, offset, bytes);
    vec![
        (1, Vec::new()),
        (1, CASE_7[..15].to_vec()),
        (1, CASE_7[..19].to_vec()),
        (1, CASE_7[..78].to_vec()),
        (1, [CASE_7, &[0]].concat()),
        (1, with(0, &[16])),
        (1, with(0, &[18])),
        (1, with(16, &[76])),
        (2, with(14, &[14, 0, 76, 0, 3])),
        // a form section of three bytes and one of none, whatever they hold
        (2, [&with(18, &[3])[..], &[0]].concat()),
        (2, with(18, &[0])[..77].to_vec()),
        // the unit of form 2 has other lengths
        (2, with(77, &[2])),
        (12, with(77, &[1])),
        (12, with(77, &[4])),
        (12, with(77, &[3, 1])),
        // an unknown form is measured by the lengths of form 3, and refused before the record is
        (2, with(14, &[9, 0, 71, 0, 2, 0])[..73].to_vec()),
        (12, file_with(&with(77, &[4]), 20, &[1])),
        (3, with(20, &[1])),
        (4, with(24, &[0])),
        (5, with(32, &1_000_001u32.to_le_bytes())),
        (5, with(36, &0x8000_0000u32.to_le_bytes())),
        (5, with(44, &u32::MAX.to_le_bytes())),
        (6, with(54, &[2])),
        (7, with(48, &[1])),
        (7, with(52, &[1])),
        (7, with(53, &[2])),
        (7, with(52, &[1, 2])),
        (8, with(66, &[3])),
        (13, with(62, &(PRICE_LEAST - 1).to_le_bytes())),
        (13, with(72, &(PRICE_MOST + 1).to_le_bytes())),
        (8, file_with(&with(62, &(PRICE_MOST + 1).to_le_bytes()), 76, &[3])),
    ]
}

/// Examples of each refusal of a file of form 2.
fn refused_second_files() -> Vec<(u32, Vec<u8>)> {
    let with = |offset, bytes: &[u8]| file_with(SECOND_CASE_7, offset, bytes);
    vec![
        (1, SECOND_CASE_7[..76].to_vec()),
        (1, [SECOND_CASE_7, &[0]].concat()),
        // the number of another form, of which the unit has other lengths
        (2, with(75, &[3])),
        (2, with(75, &[1])),
        (3, with(20, &[1])),
        (4, with(24, &[0])),
        (5, with(36, &0x8000_0000u32.to_le_bytes())),
        (6, with(52, &[2])),
        (7, with(48, &[1])),
        (8, with(64, &[3])),
        (13, with(60, &(PRICE_LEAST - 1).to_le_bytes())),
    ]
}

/// Examples of each refusal of a file of the old form.
fn refused_old_files() -> Vec<(u32, Vec<u8>)> {
    let with = |offset, bytes: &[u8]| file_with(OLD_CASE_7, offset, bytes);
    vec![
        (1, OLD_CASE_7[..15].to_vec()),
        (1, OLD_CASE_7[..64].to_vec()),
        (1, [OLD_CASE_7, &[0]].concat()),
        (1, with(0, &[20])),
        (1, with(0, &[20])[..16].to_vec()),
        (2, with(14, &[4])[..60].to_vec()),
        (3, with(16, &[1])),
        (4, with(20, &[0])),
        (5, with(28, &1_000_001u32.to_le_bytes())),
        (5, with(28, &0x8000_0000u32.to_le_bytes())),
        (6, with(48, &[2])),
        (7, with(44, &[1])),
        (8, with(58, &[3])),
    ]
}

#[test]
fn of_a_file() {
    for (number, file) in [refused_files(), refused_second_files(), refused_old_files()].concat() {
        assert_eq!(read(&file), Err(Refusal::from_number(number).unwrap()), "{file:?}");
        // SAFETY: pointer and length of one slice.
        let reading = unsafe { giqapsun_read(file.as_ptr(), file.len()) };
        assert_eq!((reading.number, reading.c), (number, Case::default()));
    }
}

/// The least and the most of every price and cost are accepted.
#[test]
fn limits() {
    for case in [
        changed(|case| case.prices[..3].fill(PRICE_LEAST)),
        changed(|case| case.prices[..3].fill(PRICE_MOST)),
        changed(|case| (case.variable, case.fixed, case.startcost, case.stopcost) = (0, 0, 0, 0)),
        changed(|case| case.variable = 1_000_000),
        changed(|case| (case.fixed, case.startcost, case.stopcost) = (100_000_000, 100_000_000, 100_000_000)),
    ] {
        assert_eq!(read(&write(&case).unwrap()), Ok(case));
        assert!(best(&case).is_ok());
    }
}

#[test]
fn of_a_record() {
    for (number, case) in refused_cases() {
        let refusal = Refusal::from_number(number).unwrap();
        assert_eq!(write(&case), Err(refusal));
        assert_eq!(check(&case, &[2, 1, 0]), Err(refusal));
        assert_eq!(best(&case), Err(refusal));
        assert_eq!(best_by_calendar(&of_24_hours(case), &[], &[], 0, 24), Err(refusal));
        // lists that pass, and lists of wrong lengths: the case is tested first
        for list in [&[2, 1, 0][..], &[2, 1], &[]] {
            refused_pair(&case, list, &[2, 1, 0], refusal);
            refused_pair(&case, &[2, 1, 0], list, refusal);
        }
    }
}

/// The comparison of two lists is refused, with which and profit 0 and the empty part of the first list.
fn refused_pair(case: &Case, first: &[u16], second: &[u16], refusal: Refusal) {
    assert_eq!(compare(case, first, second), Err(refusal));
    let part = better(case, first, second);
    assert_eq!((part.as_ptr(), part.len()), (first.as_ptr(), 0));
    // SAFETY: pointers and lengths of two slices.
    let choice =
        unsafe { giqapsun_better(*case, first.as_ptr(), first.len(), second.as_ptr(), second.len()) };
    assert_eq!(choice, Choice { number: refusal.number(), which: 0, profit: 0 });
}

#[test]
fn of_a_list() {
    let case = read(CASE_7).unwrap();
    assert_eq!(check(&case, &[]), Err(Refusal::ListLength));
    assert_eq!(check(&case, &[2, 1]), Err(Refusal::ListLength));
    assert_eq!(check(&case, &[2, 1, 0, 0]), Err(Refusal::ListLength));
}

#[test]
fn of_two_lists() {
    let case = read(CASE_7).unwrap();
    let lists = [&[2, 1, 0][..], &[0, 0, 0], &[], &[2, 1], &[2, 1, 0, 0]];
    for first in lists {
        for second in lists {
            if first.len() != 3 || second.len() != 3 {
                refused_pair(&case, first, second, Refusal::ListLength);
            }
        }
    }
    refused_pair(&case, &[0; HOURS + 1], &[0; HOURS], Refusal::ListLength);
}

#[test]
fn writing_keeps_to_its_bytes() {
    let case = read(CASE_7).unwrap();
    for length in [0, CASE_7.len() - 1, CASE_7.len(), FILE_MOST] {
        let mut bytes = [0xa5; FILE_MOST];
        // SAFETY: at most FILE_MOST bytes of the array are lent.
        let written = unsafe { giqapsun_write(case, bytes.as_mut_ptr(), length) };
        if length < CASE_7.len() {
            assert_eq!((written.number, written.length), (10, 0));
            assert_eq!(bytes, [0xa5; FILE_MOST]);
        } else {
            assert_eq!((written.number, written.length), (0, CASE_7.len()));
            assert_eq!(&bytes[..CASE_7.len()], CASE_7);
            assert_eq!(bytes[CASE_7.len()..], [0xa5; FILE_MOST][CASE_7.len()..]);
        }
    }
}

/// Lends a search so many numbers and outputs, all filled with noise, and tests what is left in them.
fn lend_to(
    search: impl FnOnce(&mut [i64], &mut [u16]) -> Plan,
    (numbers, outputs): (usize, usize),
    (number, profit): (u32, i64),
    list: &[u16],
) {
    let mut work = vec![-7i64; WORK + 3];
    let mut room = [60_000u16; HOURS + 2];
    let plan = search(&mut work[..numbers], &mut room[..outputs]);
    assert_eq!((plan.number, plan.profit), (number, profit));
    let zeroed = if number == 0 || number == 11 { WORK } else { 0 };
    assert!(work[..zeroed].iter().all(|&number| number == 0));
    assert!(work[zeroed..].iter().all(|&number| number == -7));
    assert_eq!(&room[..list.len()], list);
    assert!(room[list.len()..].iter().all(|&output| output == 60_000));
}

/// The same for the best list of a case.
fn lend(case: Case, numbers: usize, outputs: usize, number: u32, profit: i64, list: &[u16]) {
    let search = |work: &mut [i64], room: &mut [u16]| {
        // SAFETY: pointers and lengths of two slices.
        unsafe { giqapsun_best(case, work.as_mut_ptr(), work.len(), room.as_mut_ptr(), room.len()) }
    };
    lend_to(search, (numbers, outputs), (number, profit), list);
}

/// The same for the best list by a calendar, on the 24 hours from hour 2,400 of the year.
fn lend_by_calendar(
    (case, on, off): (Case, &[u16], &[u16]),
    lent: (usize, usize),
    answer: (u32, i64),
    list: &[u16],
) {
    let search = |work: &mut [i64], room: &mut [u16]| {
        // SAFETY: pointers and lengths of four slices.
        unsafe {
            giqapsun_best_by_calendar(
                case,
                on.as_ptr(),
                on.len(),
                off.as_ptr(),
                off.len(),
                2400,
                24,
                work.as_mut_ptr(),
                work.len(),
                room.as_mut_ptr(),
                room.len(),
            )
        }
    };
    lend_to(search, lent, answer, list);
}

#[test]
fn searching_by_calendar_keeps_to_its_memory() {
    let case = of_24_hours(changed(|_| {}));
    let off = [2403, 21];
    // at a price of 5 in three hours and of 0 after them the unit stops as in case 7, and cannot sooner
    let (planned, mut list) = ((case, &[][..], &off[..]), [0; 24]);
    list[..3].copy_from_slice(&[2, 1, 0]);
    lend_by_calendar(planned, (WORK, 24), (0, -53), &list);
    lend_by_calendar(planned, (WORK + 3, HOURS + 2), (0, -53), &list);
    lend_by_calendar(planned, (WORK - 1, 24), (10, 0), &[]);
    lend_by_calendar(planned, (WORK, 23), (10, 0), &[]);
    lend_by_calendar(planned, (0, 0), (10, 0), &[]);
    lend_by_calendar((case, &[], &[2400, 1]), (WORK, 24), (11, 0), &[]);
    lend_by_calendar((case, &[], &[2400, 1]), (WORK, 23), (10, 0), &[]);
    lend_by_calendar((case, &[2400], &[]), (WORK, HOURS), (14, 0), &[]);
    lend_by_calendar((case, &off, &off), (WORK, HOURS), (15, 0), &[]);
    for (number, refused) in refused_cases() {
        lend_by_calendar((of_24_hours(refused), &[], &off), (WORK, HOURS), (number, 0), &[]);
        lend_by_calendar((refused, &[2400, 2, 2401], &off), (0, 0), (14, 0), &[]);
    }
}

#[test]
fn searching_keeps_to_its_memory() {
    let case = read(CASE_7).unwrap();
    lend(case, WORK, 3, 0, -53, &[2, 1, 0]);
    lend(case, WORK + 3, HOURS + 2, 0, -53, &[2, 1, 0]);
    lend(case, WORK - 1, 3, 10, 0, &[]);
    lend(case, WORK, 2, 10, 0, &[]);
    lend(case, 0, 0, 10, 0, &[]);
    let none = changed(|case| {
        case.initial = 0;
        case.elapsed = 1;
        case.mindown = 2;
        case.orders[0] = ON;
    });
    lend(none, WORK, 3, 11, 0, &[]);
    for (number, refused) in refused_cases() {
        lend(refused, WORK, HOURS, number, 0, &[]);
    }
}

#[test]
fn numbers() {
    assert_eq!(Refusal::from_number(0), None);
    assert_eq!(Refusal::from_number(17), Some(Refusal::Unknown(17)));
    assert_eq!(Refusal::Unknown(17).number(), 17);
    assert_eq!(Refusal::ALL.map(Refusal::number), [14, 15, 16, 1, 2, 12, 3, 4, 5, 6, 7, 8, 13, 9, 10, 11]);
    for refusal in Refusal::ALL {
        assert_eq!(Refusal::from_number(refusal.number()), Some(refusal));
    }
    let error: Box<dyn std::error::Error> = Box::new(Refusal::Orders);
    assert_eq!(error.to_string(), "refused 8: an order byte above 2");
}
