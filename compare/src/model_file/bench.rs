//! Times of the crate `model_file` beside the plain reader and writer of `format.rs`, which keep their memory from call to call.

use super::format::{self, HEAD_WORDS, Model, file};
use super::{model, ours};
use crate::cases::Cases;
use crate::timing::{race_bytes, repeat};

/// 2024-03-15.
const DATE: i32 = 8840;

pub fn bench() {
    for (nmax, calls, date) in [(96, 100, None), (2700, 1, None), (2700, 1, Some(DATE))] {
        let model = model(&mut Cases::new(1, 1), nmax, date);
        let kind = if date.is_some() { "dated, " } else { "" };
        reading(&format!("model_read, {kind}N = {nmax}, GB/s"), calls, &model);
        writing(&format!("model_write, {kind}N = {nmax}, GB/s"), calls, &model);
    }
}

fn reading(name: &str, calls: usize, model: &Model) {
    let (bytes, count) = (file(model), model.c.len());
    let (mut c, mut s, mut head) = (vec![1; count], vec![1; count], [1; HEAD_WORDS]);
    let mut plain = Model { c: vec![1; count], s: vec![1; count], ..Model::default() };
    let ours = || repeat(calls, || ours::read(&bytes, &mut c, &mut s, &mut head));
    let rust = || repeat(calls, || format::read(std::hint::black_box(&bytes), &mut plain).err().unwrap_or(0));
    race_bytes(name, calls * bytes.len(), ours, rust);
}

fn writing(name: &str, calls: usize, model: &Model) {
    let (head, length) = (model.words(), file(model).len());
    let (mut out, mut plain) = (vec![1u8; length], vec![1u8; length]);
    let ours = || repeat(calls, || ours::write(&head, &model.c, &model.s, &mut out));
    let rust = || {
        repeat(calls, || {
            format::write(std::hint::black_box(model), &mut plain);
            0
        })
    };
    race_bytes(name, calls * length, ours, rust);
}
