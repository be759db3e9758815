//! The byte at fault in a sheet, which all that read sheets say, and the rows of one of two sheets (document 02, request
//! 6/13).

mod made;

use baseline::{complies, row, row_refusal, Checker, Mode, Part, Refusal};
use made::{connect_in, refusal, sheet, State, A, B, END};

const SEND_A: u16 = A << 7;

/// A service over two names: 0 to 6 a row with two ready sets and two successors, 7 to 9 the end, 10 to 13 a row with !a,
/// 14 to 19 the index, 20 to 25 the trailer.
const THREE: [u8; 26] = [2, 1, 0, 3, 0, 1, 2, 1, 0, 0, 1, 0x80, 0, 0, 0, 0, 7, 0, 10, 0, 14, 0, 3, 2, 0, 0xC5];

#[test]
fn three_rows_as_they_are_written() {
    assert_eq!(sheet(2, 0, &[(&[A, A | B], &[1, 2]), END, (&[SEND_A], &[0])]), THREE);
}

/// Bytes at some places changed.
fn changed(changes: &[(usize, u8)]) -> Vec<u8> {
    let mut sheet = THREE.to_vec();
    for (place, byte) in changes {
        sheet[*place] = *byte;
    }
    sheet
}

/// Number, state and offset for a sheet, as everything that reads sheets gives them: connecting in each mode, the check
/// of a plan, the client check, and the row entry, of the sheet in each place.
fn fault_of(faulty: &[u8]) -> (u8, u8, u16) {
    let whole = THREE;
    let client = sheet(2, 1, &[END]);
    let found = |first: &[u8], second: &[u8], client: &[u8]| -> Vec<Refusal> {
        let connected = [Mode::Paper, Mode::Settled].map(|mode| connect_in(mode, 0, first, second, 0, &mut []));
        let checked = Checker::new().check(Mode::Paper, first, second, &[], 0);
        let mut found = vec![complies(client, second).0];
        for answer in connected.into_iter().chain([checked]) {
            let carried = refusal(answer.number, answer.sheet, answer.state, answer.offset);
            assert_eq!(answer, carried.into());
            found.push(carried);
        }
        found
    };
    let mut firsts = found(faulty, &whole, faulty);
    let mut seconds = found(&whole, faulty, &client);
    firsts.extend([row_refusal(faulty, &[], 1, 0), row_refusal(faulty, &whole, 1, 255)]);
    seconds.extend([row_refusal(&[], faulty, 2, 0), row_refusal(&whole, faulty, 2, 255)]);
    let Refusal { number, state, offset, .. } = firsts[0];
    assert!(firsts.iter().all(|one| *one == refusal(number, 1, state, offset)), "{firsts:?}");
    assert!(seconds.iter().all(|one| *one == refusal(number, 2, state, offset)), "{seconds:?}");
    (number, state, offset)
}

#[test]
fn entries_at_fault() {
    for (changes, state, offset) in [
        (&[(14, 1)][..], 0, 14),
        (&[(15, 1)], 0, 14),
        (&[(16, 8)], 1, 16),
        (&[(17, 1)], 1, 16),
        (&[(18, 255), (19, 255)], 2, 18),
        (&[(16, 8), (18, 11)], 1, 16),
    ] {
        assert_eq!(fault_of(&changed(changes)), (4, state, offset), "{changes:?}");
    }
}

/// The trailer without the last row, or with a part of it: the first byte missing is where the index begins. The entry of
/// state 0, if it is wrong, stands there too.
#[test]
fn bytes_missing() {
    let cut = |left: usize| {
        let mut cut = [&THREE[..left], &THREE[14..]].concat();
        cut[left + 6] = left as u8;
        cut
    };
    assert_eq!(fault_of(&cut(13)), (4, 2, 13));
    assert_eq!(fault_of(&cut(12)), (4, 2, 12));
    assert_eq!(fault_of(&cut(11)), (4, 2, 11));
    assert_eq!(fault_of(&cut(10)), (4, 2, 10));
    assert_eq!(fault_of(&cut(9)), (4, 1, 9));
    assert_eq!(fault_of(&cut(6)), (4, 0, 6));
    assert_eq!(fault_of(&cut(3)), (4, 0, 3));
    assert_eq!(fault_of(&cut(0)), (4, 0, 0));
    // Where no byte is missing but the count says more: two masks in what was the last row.
    assert_eq!(fault_of(&changed(&[(10, 2)])), (4, 2, 14));
}

#[test]
fn bytes_left_over() {
    for more in 1..4 {
        let mut long = [&THREE[..14], &[0; 3][..more], &THREE[14..]].concat();
        long[20 + more] += more as u8;
        assert_eq!(fault_of(&long), (4, 2, 14));
    }
    // The last row without its action: its successor is left over.
    assert_eq!(fault_of(&changed(&[(11, 0)])), (4, 2, 13));
}

#[test]
fn counts_and_masks_at_fault() {
    for (changes, number, state, offset) in [
        (&[(0, 0)][..], 5, 0, 0),
        (&[(0, 9)], 5, 0, 0),
        (&[(7, 0)], 5, 1, 7),
        (&[(3, 1)], 5, 0, 3),
        (&[(3, 0)], 5, 0, 3),
        (&[(1, 4)], 6, 0, 1),
        (&[(4, 0x80)], 6, 0, 3),
        (&[(2, 0x40)], 6, 0, 1),
        (&[(3, 1), (4, 0x40)], 6, 0, 3),
        (&[(1, 7), (4, 0x80)], 6, 0, 1),
        (&[(9, 0x80), (12, 0x80)], 6, 1, 8),
    ] {
        assert_eq!(fault_of(&changed(changes)), (number, state, offset), "{changes:?}");
    }
    let rows = |masks: &[u16]| sheet(1, 0, &[END, (masks, &[]), END]);
    for (masks, number, offset) in [
        (&[0, 1, 0x80, 0x80][..], 5, 10),
        (&[0x80, 1, 0], 5, 6),
        (&[0x80, 1, 0, 0x8000], 6, 10),
        (&[0, 0x81, 1, 2, 4], 6, 10),
        (&[0, 1, 0x80, 0x81, 0, 0, 0, 0], 5, 12),
        (&[0, 1, 0x80, 0x81, 0, 0, 0, 0x4000], 6, 18),
    ] {
        assert_eq!(fault_of(&rows(masks)), (number, 1, offset), "{masks:?}");
    }
}

#[test]
fn successors_at_fault() {
    for (changes, state, offset) in [
        (&[(5, 3)][..], 0, 5),
        (&[(6, 3)], 0, 6),
        (&[(5, 255), (6, 3)], 0, 5),
        (&[(13, 64)], 2, 13),
        (&[(6, 3), (13, 64)], 0, 6),
    ] {
        assert_eq!(fault_of(&changed(changes)), (7, state, offset), "{changes:?}");
    }
}

#[test]
fn other_refusals_carry_no_offset() {
    assert_eq!(fault_of(&[]), (1, 0, 0));
    assert_eq!(fault_of(&changed(&[(25, 0xC6)])), (2, 0, 0));
    assert_eq!(fault_of(&changed(&[(20, 15)])), (3, 0, 0));
    let (service, client, other) = (THREE.to_vec(), changed(&[(24, 1)]), sheet(3, 0, &[END]));
    for (first, second, due) in [
        (&client, &service, refusal(8, 1, 0, 0)),
        (&service, &client, refusal(8, 2, 0, 0)),
        (&service, &other, refusal(9, 0, 0, 0)),
        (&service, &service, refusal(11, 0, 0, 0)),
    ] {
        assert_eq!(connect_in(Mode::Paper, 0, first, second, 0, &mut []), due.into());
    }
}

/// The first sheet and the second, in this order: refusal, part and bytes for a sheet number and a state.
fn shown(first: &[u8], second: &[u8], sheet: u8, state: u8) -> (Refusal, Part, Vec<u8>) {
    let part = row(first, second, sheet, state);
    (row_refusal(first, second, sheet, state), part, part.of(first, second).to_vec())
}

#[test]
fn rows_of_either_sheet() {
    let one = sheet(7, 1, &[(&[1 << 14], &[])]);
    for (state, offset, length) in [(0, 0, 7), (1, 7, 3), (2, 10, 4)] {
        let bytes = THREE[offset..offset + length].to_vec();
        for (first, second, sheet) in [(&THREE[..], &one[..], 1), (&one, &THREE, 2), (&THREE, &[], 1), (&[], &THREE, 2)]
        {
            let part = Part { sheet, offset: offset as u16, length: length as u16 };
            assert_eq!(shown(first, second, sheet, state), (Refusal::default(), part, bytes.clone()));
        }
    }
    let part = Part { sheet: 1, offset: 0, length: 3 };
    assert_eq!(shown(&one, &THREE, 1, 0), (Refusal::default(), part, vec![1, 0, 0x40]));
}

/// Wrong sheet number, broken sheet, no such state, in this order; each with an empty part of the first sheet.
#[test]
fn rows_refused() {
    let broken = changed(&[(13, 3)]);
    for (first, second, sheet, state, due) in [
        (&THREE[..], &THREE[..], 0, 0, refusal(8, 0, 0, 0)),
        (&broken, &broken, 3, 9, refusal(8, 0, 0, 0)),
        (&[], &[], 255, 255, refusal(8, 0, 0, 0)),
        (&broken, &THREE, 1, 9, refusal(7, 1, 2, 13)),
        (&THREE, &broken, 2, 0, refusal(7, 2, 2, 13)),
        (&[], &THREE, 1, 0, refusal(1, 1, 0, 0)),
        (&THREE, &[], 2, 0, refusal(1, 2, 0, 0)),
        (&THREE, &broken, 1, 3, refusal(15, 0, 0, 0)),
        (&broken, &THREE, 2, 255, refusal(15, 0, 0, 0)),
    ] {
        let nothing = Part { sheet: 1, offset: 0, length: 0 };
        assert_eq!(shown(first, second, sheet, state), (due, nothing, vec![]), "sheet {sheet}, state {state}");
    }
}

/// 64 states of 31 bytes: the longest rows, in the longest sheet.
#[test]
fn the_last_row_of_a_full_sheet() {
    let state: State = (&[1, 2, 3, 4, 5, 6, 7, 0x3FFF], &[63; 14]);
    let full = sheet(7, 0, &[state; 64]);
    assert_eq!(full.len(), 2118);
    let part = Part { sheet: 2, offset: 63 * 31, length: 31 };
    assert_eq!(shown(&[], &full, 2, 63), (Refusal::default(), part, full[63 * 31..64 * 31].to_vec()));
    assert_eq!(row_refusal(&[], &full, 2, 64), refusal(15, 0, 0, 0));
}
