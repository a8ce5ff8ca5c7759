//! What `qemu-img map --output=json` said of a sample, as samples/make stores it in NAME.map.

use serde_json::Value;

/// A run of bytes of the disk.
#[derive(Debug)]
pub struct Run {
    pub start: u64,
    pub length: u64,
    /// The layer, counted from the top one down.
    pub depth: u64,
    pub present: bool,
    pub zero: bool,
    pub data: bool,
    /// Its place in the layer's file; packed data has none.
    pub offset: Option<u64>,
}

impl Run {
    fn of(object: &Value) -> Run {
        let number = |key| object.get(key).and_then(Value::as_u64);
        let truth = |key: &str| object[key].as_bool().unwrap();
        Run {
            start: number("start").unwrap(),
            length: number("length").unwrap(),
            depth: number("depth").unwrap(),
            present: truth("present"),
            zero: truth("zero"),
            data: truth("data"),
            offset: number("offset"),
        }
    }
}

/// The runs, which follow each other without a gap.
pub fn runs(text: &str) -> Vec<Run> {
    let list: Vec<Value> = serde_json::from_str(text).unwrap();
    let runs: Vec<Run> = list.iter().map(Run::of).collect();
    let mut end = 0;
    for run in &runs {
        assert_eq!(run.start, end);
        end += run.length;
    }
    runs
}
