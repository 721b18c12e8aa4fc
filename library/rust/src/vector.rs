//! Vectors whose allocation may fail.

use crate::error::Error;

/// A vector without elements, with room for `count` of them.
pub(crate) fn vector_for<T>(count: usize) -> Result<Vec<T>, Error> {
    let mut made = Vec::new();
    made.try_reserve_exact(count).map_err(|_| Error::Memory)?;
    Ok(made)
}

/// A vector of `count` default values.
pub(crate) fn vector_of<T: Clone + Default>(count: usize) -> Result<Vec<T>, Error> {
    let mut made = vector_for(count)?;
    made.resize(count, T::default());
    Ok(made)
}
