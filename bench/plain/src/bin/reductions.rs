//! Reduces one chart many times over: the rounds in two bytes, the higher first, and then the chart.
use std::hint::black_box;
use std::io::{self, Read, Write};

use plain::reduction::reduce;
use plain::row::Row;

const ROW_BYTES: usize = 18;

fn main() -> io::Result<()> {
    let mut input = Vec::new();
    io::stdin().read_to_end(&mut input)?;
    let Some((&[high, low], chart)) = input.split_first_chunk() else {
        return Ok(());
    };
    let (rows, _) = chart.as_chunks::<ROW_BYTES>();
    let rows: Vec<Row> = rows.iter().map(Row::from_bytes).collect();
    let mut stuck = Vec::new();
    for _ in 0..u16::from_be_bytes([high, low]) {
        stuck = reduce(black_box(&rows));
    }
    let marks: Vec<u8> = stuck.into_iter().map(u8::from).collect();
    io::stdout().write_all(&marks)
}
