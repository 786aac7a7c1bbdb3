//! Names of variables: all VAR rows of a table with one name, 0 aside, are one variable.

use crate::row::{Ref, Row};

/// The first of the rows `earlier` that has the name of the row behind them; none where that row has
/// no name or is itself the first.
pub fn first_of_name(earlier: &[Row], row: Row) -> Option<Ref> {
    let name = row.name()?;
    earlier.iter().position(|row| row.name() == Some(name))
}
