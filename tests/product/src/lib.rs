//! The functions of the product's static library, behind safe ones. Nothing else knows how a slice passes to
//! C, or how the work table is lent.

mod foreign;
mod table;

pub use foreign::{Answer, Compliance, Fault, Part, RowAnswer, SheetAnswer, Stepped};
pub use table::{Lent, Record, Table};

use foreign::{lent, passed};

/// Steps a plan. With `null`, a plan without bytes passes as a null pointer.
pub fn step(plan: &[u8], state: u16, code: u8, null: bool) -> Stepped {
    let (bytes, length) = passed(plan, null);
    // The pointer is that of a slice, passed with its length, or null with length 0.
    unsafe { foreign::adapter_step(bytes, length, state, code) }
}

/// Checks a client against a service. With `null`, sheets without bytes pass as null pointers.
pub fn complies(client: &[u8], service: &[u8], null: bool) -> Compliance {
    let ((client, client_length), (service, service_length)) = (passed(client, null), passed(service, null));
    // Each pointer is that of a slice, passed with its length, or null with length 0.
    unsafe { foreign::adapter_complies(client, client_length, service, service_length) }
}

/// Converts a choosing sheet. With `null`, slices without bytes pass as null pointers.
pub fn from_choosing(choosing: &[u8], sheet: &mut [u8], null: bool) -> SheetAnswer {
    let ((choosing, choosing_length), (sheet, sheet_length)) = (passed(choosing, null), lent(sheet, null));
    // Each pointer is that of a slice, passed with its length, or null with length 0; the two slices do not overlap.
    unsafe { foreign::adapter_from_choosing(choosing, choosing_length, sheet, sheet_length) }
}

/// Converts a text. With `null`, slices without bytes pass as null pointers.
pub fn from_text(text: &[u8], sheet: &mut [u8], null: bool) -> SheetAnswer {
    let ((text, text_length), (sheet, sheet_length)) = (passed(text, null), lent(sheet, null));
    // As for a choosing sheet.
    unsafe { foreign::adapter_from_text(text, text_length, sheet, sheet_length) }
}

/// Says where a text is at fault. With `null`, a text without bytes passes as a null pointer.
pub fn text_fault(text: &[u8], null: bool) -> u16 {
    let (text, length) = passed(text, null);
    // The pointer is that of a slice, passed with its length, or null with length 0.
    unsafe { foreign::adapter_text_fault(text, length) }
}

/// Finds the row of a state of the sheet with this number. With `null`, sheets without bytes pass as null pointers.
pub fn row(first: &[u8], second: &[u8], sheet: u8, state: u8, null: bool) -> Part {
    let ((first, first_length), (second, second_length)) = (passed(first, null), passed(second, null));
    // Each pointer is that of a slice, passed with its length, or null with length 0.
    unsafe { foreign::adapter_row(first, first_length, second, second_length, sheet, state) }
}

/// Says why there is no such row, for the same arguments.
pub fn row_refusal(first: &[u8], second: &[u8], sheet: u8, state: u8, null: bool) -> RowAnswer {
    let ((first, first_length), (second, second_length)) = (passed(first, null), passed(second, null));
    // As for the row.
    unsafe { foreign::adapter_row_refusal(first, first_length, second, second_length, sheet, state) }
}

#[cfg(test)]
mod tests {
    use super::*;

    /// M1's new contract, but for n: the sheet, and where it goes.
    #[test]
    fn a_text_is_converted_where_it_may_be() {
        let sheet = [1, 3, 0, 1, 1, 1, 0, 0, 0, 0, 5, 0, 8, 0, 2, 7, 0, 0xC5];
        let mut lent = [0xEE; 20];
        assert_eq!(from_text(b"a + b", &mut lent, false), SheetAnswer { number: 0, sheet: 0, state: 0, length: 18 });
        assert_eq!((&lent[..18], &lent[18..]), (&sheet[..], &[0xEE; 2][..]));
        let mut lent = [0xEE; 17];
        assert_eq!(from_text(b"a + b", &mut lent, false), SheetAnswer { number: 13, sheet: 0, state: 0, length: 0 });
        assert_eq!((lent, text_fault(b"a + b", false)), ([0xEE; 17], 0));
    }

    #[test]
    fn nothing_is_lent_and_nothing_read() {
        for null in [false, true] {
            assert_eq!(from_text(&[], &mut [], null), SheetAnswer { number: 22, sheet: 0, state: 0, length: 0 });
            assert_eq!(text_fault(&[], null), 0);
        }
        assert_eq!(from_text(&[b' '; 257], &mut [], true), SheetAnswer { number: 1, sheet: 1, state: 0, length: 0 });
        assert_eq!([b" ".as_slice(), b" a.X", b"a+q"].map(|text| text_fault(text, false)), [1, 3, 2]);
    }
}
