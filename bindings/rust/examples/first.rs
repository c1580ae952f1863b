//! The program of the repository's README.

use commonware_proved::{CommitteeBuf, FaultModel};

fn main() {
    let two = CommitteeBuf::from_keys_dedup(&[[2; 32], [1; 32]]);
    println!("{:?}", two.map(|it| it.as_view().quorum(FaultModel::N3F1)));
}
