//! "When the bench says no": how a call goes through the rows that it tests.

/// The first row that holds is the answer. A row is its number and whether it holds.
pub fn tested(rows: &[(u32, bool)]) -> Result<(), u32> {
    match rows.iter().find(|(_, holds)| *holds) {
        Some((number, _)) => Err(*number),
        None => Ok(()),
    }
}
