"""A small crate for tests."""
import contextlib
import pathlib
import tempfile

SOURCE = """pub struct Pair(u32, u32);

impl Pair {
    /// The first.
    #[inline]
    pub fn first(&self) -> u32 {
        let first = self.0;
        first
    }

    pub fn sum(&self) -> Option<u32>
        ensures { True }
    {
        self.0.checked_add(self.1)
    }
}

impl Clone for Pair {
    fn clone(&self) -> Pair {
        Pair(self.0, self.1)
    }
}
"""
EDITS = """file: src/pairs/pair.rt

[first_is_the_second]
function: small::pairs::pair::Pair::first
old: let first = self.0;
new: let first = self.1;

[first_is_none]
function: small::pairs::pair::Pair::first
old: first = self.0
new: first = 0
"""


@contextlib.contextmanager
def crate(edits=EDITS):
    """A folder of a crate with a source, and the mutations of it."""
    with tempfile.TemporaryDirectory() as room:
        folder = pathlib.Path(room, "small")
        (folder / "src/pairs").mkdir(parents=True)
        (folder / "wrong-bodies").mkdir()
        (folder / "src/pairs/pair.rt").write_text(SOURCE)
        (folder / "wrong-bodies/pairs_pair.edits").write_text(edits)
        yield folder
