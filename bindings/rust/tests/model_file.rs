//! Model files: document 01's example, round trips by bits, and every refusal of a file.

use geopotential::{Coefficients, Refusal, TideSystem, model_file};

/// A field whose numbers have strange bits.
fn strange() -> Coefficients {
    let bits = [0x7ff0_0000_0000_0001, 0xfff4_dead_beef_0001, 0x7ff8_0000_0000_0000, 1, 1 << 63, 0x7ff0_0000_0000_0000];
    let mut bytes = vec![1];
    bytes.extend(f64::from_bits(0x7ffc_0123_4567_89ab).to_le_bytes());
    bytes.extend((-0.0f64).to_le_bytes());
    bytes.extend([1, 1, 0]);
    for pair in bits.chunks(2) {
        bytes.push(2);
        pair.iter().for_each(|word: &u64| bytes.extend(word.to_le_bytes()));
    }
    bytes.push(3);
    model_file::read(&bytes).unwrap()
}

#[test]
fn the_example_of_document_01() {
    let mut field = Coefficients::zeros(1.0, 1.0, 0);
    field.set(0, 0, 1.0, 0.0);
    let one = 1f64.to_le_bytes();
    let due = [&[1][..], &one, &one, &[3, 0, 0], &[2], &one, &[0; 8], &[3]].concat();
    assert_eq!((due.len(), model_file::write(&field)), (38, Ok(due.clone())));
    assert_eq!(model_file::read(&due), Ok(field));
}

#[test]
fn all_bits_survive() {
    let field = strange();
    let bytes = model_file::write(&field).unwrap();
    assert_eq!(bytes.len(), 21 + 17 * 3);
    let words: Vec<u64> =
        bytes[20..71].chunks(17).flat_map(|pair| [1, 9].map(|at| u64::from_le_bytes(pair[at..at + 8].try_into().unwrap()))).collect();
    assert_eq!(words, [0x7ff0_0000_0000_0001, 0xfff4_dead_beef_0001, 0x7ff8_0000_0000_0000, 1, 1 << 63, 0x7ff0_0000_0000_0000]);
    assert_eq!((field.gm.to_bits(), field.radius.to_bits()), (0x7ffc_0123_4567_89ab, 1 << 63));
    assert_eq!((field.tide_system, field.max_degree()), (TideSystem::ZeroTide, 1));
    let again = model_file::read(&bytes).unwrap();
    assert_eq!(model_file::write(&again.clone()), Ok(bytes));
}

#[test]
fn tide_systems_survive() {
    for tide_system in [TideSystem::TideFree, TideSystem::ZeroTide, TideSystem::MeanTide, TideSystem::Unknown] {
        let mut field = Coefficients::zeros(1.0, 2.0, 3);
        field.tide_system = tide_system;
        assert_eq!(model_file::read(&model_file::write(&field).unwrap()), Ok(field));
    }
}

#[test]
fn dates_survive() {
    for days in [0, 1, -1, 8840, i32::MAX, i32::MIN] {
        let mut field = Coefficients::zeros(1.0, 2.0, 1);
        field.date = Some(days);
        let bytes = model_file::write(&field).unwrap();
        assert_eq!((bytes[0], bytes.len()), (4, 25 + 17 * 3));
        assert_eq!(bytes[20..24], days.to_le_bytes());
        assert_eq!(model_file::read(&bytes), Ok(field.clone()));
        assert_eq!((field.truncated(0).date, field.rescaled(2.0, 1.0).date), (Some(days), Some(days)));
        // A month and its copy without a date differ.
        let mut undated = field.clone();
        undated.date = None;
        assert_ne!(undated, field);
        assert_eq!(model_file::write(&undated).unwrap()[1..20], bytes[1..20]);
    }
}

#[test]
fn dated_heads_that_end_early() {
    let mut field = Coefficients::zeros(1.0, 2.0, 0);
    field.date = Some(-1);
    let mut bytes = model_file::write(&field).unwrap();
    // A head of kind 4 has 24 bytes, also where its tide system is none.
    bytes[17] = 4;
    for cut in 1..24 {
        assert_eq!(model_file::read(&bytes[..cut]), Err(Refusal::Short));
    }
    assert_eq!(model_file::read(&bytes[..24]), Err(Refusal::Tide));
}

#[test]
fn damaged_files() {
    let bytes = model_file::write(&Coefficients::zeros(1.0, 2.0, 2)).unwrap();
    for cut in 0..bytes.len() {
        assert_eq!(model_file::read(&bytes[..cut]), Err(Refusal::Short));
    }
    assert_eq!(model_file::read(&[&bytes[..], &[3]].concat()), Err(Refusal::After));
    let changed = |at: usize, byte: u8| {
        let mut bytes = bytes.clone();
        bytes[at] = byte;
        model_file::read(&bytes)
    };
    assert_eq!(changed(0, 2), Err(Refusal::Kind));
    assert_eq!(changed(20, 3), Err(Refusal::Kind));
    assert_eq!(changed(122, 2), Err(Refusal::Kind));
    assert_eq!(changed(17, 4), Err(Refusal::Tide));
    assert_eq!(changed(19, 0xff), Err(Refusal::Size));
    // The head claims another degree than the records have.
    assert_eq!(changed(18, 3), Err(Refusal::Kind));
    assert_eq!(changed(18, 1), Err(Refusal::Kind));
    assert!(changed(17, 2).is_ok());
}
