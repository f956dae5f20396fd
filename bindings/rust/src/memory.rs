//! Memory that is asked for, and may not be had.

use crate::HdrError;
use std::mem::size_of;

/// So many zeros, or that there is no memory for them.
pub fn zeros<T: Clone + Default>(count: usize) -> Result<Vec<T>, HdrError> {
    let mut list = Vec::new();
    let wanted = count.saturating_mul(size_of::<T>());
    list.try_reserve_exact(count)
        .map_err(|_| HdrError::NoMemory { wanted })?;
    list.resize(count, T::default());
    Ok(list)
}
