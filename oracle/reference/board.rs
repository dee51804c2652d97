// The reference's board.rs as it stands, and one call more that reads an end.
include!(concat!(env!("REFERENCE"), "/board.rs"));

impl Board {
    pub fn end(&self, pad: usize) -> i32 {
        self.another_end[pad as i32]
    }
}
