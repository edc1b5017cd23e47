//! The model with the longest table.

#[path = "../../plain/tests/models/longest.rs"]
mod longest;

use futonkestrel::{raw, read_model, read_table, translate, translate_to_vec, Refusal};
use harness::records::table_records;
use longest::longest_model;

const LENGTH: usize = 174_485;
/// Rules, clauses, atoms and updates.
const RECORDS: [usize; 4] = [352, 3_360, 9_904, 4_528];

#[test]
fn the_longest_table() {
    let model = longest_model();
    assert_eq!((model.len(), read_model(&model)), (7_123, Ok(())));
    let table = translate_to_vec(&model).expect("the model is accepted");
    assert_eq!((table.len(), read_table(&table)), (LENGTH, Ok(())));
    let wanted = plain::translate::translate(&model, LENGTH).expect("as here");
    assert!(table == wanted, "the bytes of the plain model");
}

#[test]
fn the_size_of_the_longest_table() {
    let model = longest_model();
    let mut told = [usize::MAX; 7];
    assert_eq!(raw::table_size(&model, &mut told), 0);
    let [start, end, bytes, records @ ..] = told;
    assert_eq!((start, end, bytes, records), (0, 0, LENGTH, RECORDS));
    let mut output = vec![0; bytes];
    assert_eq!(translate(&model, &mut output), Ok(LENGTH));
    assert_eq!(table_records(&output), RECORDS);
}

#[test]
fn the_longest_table_needs_its_room() {
    let model = longest_model();
    let mut output = vec![0xA5; LENGTH - 1];
    let refusal = Refusal {
        number: 8,
        start: model.len(),
        end: model.len(),
    };
    assert_eq!(translate(&model, &mut output), Err(refusal));
    assert!(output.iter().all(|&byte| byte == 0xA5));
}
