//! Laying out and putting back: between array memory and stream memory, by each array's order.

use crate::file::{Array, File};

/// The indices of an array's items, in their order.
fn indices(array: &Array) -> impl Iterator<Item = usize> + '_ {
    (0..array.count as i64).map(|item| (array.first + array.step * item) as usize)
}

/// Input array memory to input stream memory.
pub fn lay_out(file: &File, arrays: &[i32]) -> Vec<i32> {
    let mut start = 0;
    let mut items = Vec::new();
    for array in file.arrays.iter().filter(|array| array.input) {
        items.extend(indices(array).map(|index| arrays[start + index]));
        start += array.length;
    }
    items
}

/// Output stream memory to output array memory; cells that no item goes to are 0.
pub fn put_back(file: &File, streams: &[i32]) -> Vec<i32> {
    let mut items = streams.iter();
    let mut memory = Vec::new();
    for array in file.arrays.iter().filter(|array| !array.input) {
        let mut cells = vec![0; array.length];
        for (index, item) in indices(array).zip(items.by_ref()) {
            cells[index] = *item;
        }
        memory.append(&mut cells);
    }
    memory
}
