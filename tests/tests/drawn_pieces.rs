//! A piece that is drawn has a record, and its layers are the record's: the command's own function, called with records that are not the report's.

#![allow(dead_code)]

#[path = "../../command/src/files.rs"]
mod files;
#[path = "../../include/antenna.rs"]
mod library;
#[path = "../../command/src/net.rs"]
mod net;
#[path = "../../command/src/pieces.rs"]
mod pieces;
#[path = "../../command/src/draw/stretches.rs"]
mod stretches;
#[path = "../../command/src/text.rs"]
mod text;
#[path = "../../command/src/words.rs"]
mod words;

use antenna_tests::root;
use library::RECORD_BYTES;
use net::Net;
use pieces::Piece;

const STAGE: u32 = 3;
const JUMPERS: [(usize, usize); 3] = [(5, 10), (5, 20), (9, 30)];

fn sample() -> Net {
    let file = root().join("examples/nets/features.net");
    match Net::load(file.to_str().unwrap()) {
        Ok(net) => net,
        Err(refusal) => panic!("{}", refusal.message),
    }
}

fn records(net: &Net) -> Vec<Vec<u8>> {
    let list: Vec<u8> = JUMPERS
        .iter()
        .flat_map(|&(wire, t)| [wire as u8, t as u8, 0])
        .collect();
    let mut out = vec![0; 3072];
    let answer = library::report(STAGE, 30, 0, &net.file, &list, &mut out);
    assert_eq!(answer.number, library::DONE);
    out.truncate(RECORD_BYTES * answer.count as usize);
    out.chunks(RECORD_BYTES).map(<[u8]>::to_vec).collect()
}

fn drawn(net: &Net, records: &[Vec<u8>]) -> Result<usize, String> {
    let pieces: Vec<Piece> = records.iter().map(|r| Piece::of_record(r)).collect();
    stretches::stretches(net, STAGE, &JUMPERS, &pieces).map(|stretches| stretches.len())
}

#[test]
fn records_of_drawn_pieces() {
    let net = sample();
    let records = records(&net);
    // a stretch for each present wire, and one more for each jumper
    let present = (1..net.nodes.len())
        .filter(|&i| net.present(STAGE, i))
        .count();
    assert_eq!(drawn(&net, &records), Ok(present + JUMPERS.len()));
    for k in 0..records.len() {
        let mut fewer = records.clone();
        let left_out = fewer.remove(k);
        let name = (left_out[0], u16::from_le_bytes([left_out[1], left_out[2]]));
        let told = format!("the report has no piece {} {}", name.0, name.1);
        assert_eq!(drawn(&net, &fewer), Err(told));
        if left_out[8] != 0 {
            let mut other = records.clone();
            other[k][8] &= other[k][8] - 1;
            assert!(drawn(&net, &other)
                .unwrap_err()
                .starts_with("the report has no layer "));
        }
    }
}
