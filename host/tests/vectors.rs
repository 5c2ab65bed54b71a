//! Inputs and outputs that others worked out from the documents, in vectors: the independent implementation gives the
//! same bytes, or for document 01 alone the same refusals. The proved program is held to them by the gate's tests/vectors.

use host::program::{LISTED, REFUSED};
use host::record::{Interval, INTERVAL};
use std::fs;
use std::path::Path;

/// For each input of a folder `same` is asked of what the program writes and of the folder's output.
fn hold(folder: &str, mut same: impl FnMut(&[u8], &[u8]) -> bool) {
    let path = Path::new(env!("CARGO_MANIFEST_DIR")).join("../vectors");
    let files = fs::read_dir(path.join(folder)).expect(folder);
    let mut inputs = 0;
    for file in files.map(|file| file.unwrap().path()) {
        if file.extension().is_some_and(|suffix| suffix == "in") {
            let input = fs::read(&file).unwrap();
            let expected = fs::read(file.with_extension("out")).unwrap();
            let written = host::program(&input);
            assert!(same(&written, &expected), "{}", file.display());
            inputs += 1;
        }
    }
    assert!(inputs > 0, "{folder} has inputs");
}

/// Each job's closing record: a refused one's whole, and of a list only that there is one.
fn closings(output: &[u8]) -> Vec<Interval> {
    let records = output
        .chunks(INTERVAL)
        .map(|b| Interval::decode(b).unwrap());
    records
        .filter(|record| record.flags >= REFUSED)
        .map(|closing| match closing.flags {
            LISTED => Interval {
                first: 0,
                last: 0,
                ..closing
            },
            _ => closing,
        })
        .collect()
}

#[test]
fn every_vector_after_wish_6() {
    hold("after-wish-6", |written, expected| written == expected);
}

/// By wishes 1, 2 and 5 any list may have moved. But a job that was refused is refused alike, and a job that was not still
/// has a list.
#[test]
fn every_vector_of_the_base() {
    let [mut lists, mut refusals] = [0; 2];
    hold("base", |written, expected| {
        let expected = closings(expected);
        let listed = expected.iter().filter(|closing| closing.flags == LISTED);
        lists += listed.count();
        refusals += expected.len();
        closings(written) == expected
    });
    refusals -= lists;
    assert!(lists > 100 && refusals > 100, "{lists}, {refusals}");
}
