//! Whether the linked library is of the sources that are there. Cargo notices a changed source by
//! its time alone, which a copy of an older one keeps; this test looks at all of them.

use std::path::Path;
use std::process::Command;

#[test]
fn the_library_is_of_the_sources_that_are_there() {
    let krate = Path::new(env!("CARGO_MANIFEST_DIR"));
    let script = krate.join("../sources");
    if !script.is_file() || !krate.join("../../crates/commonware_c").is_dir() {
        return;
    }
    let output = Command::new(&script).output().expect("the script is run");
    assert!(output.status.success(), "{output:?}");
    let now = String::from_utf8(output.stdout).expect("a text");
    assert_eq!(now.trim(), env!("COMMONWARE_SOURCES"));
}
