//! The sweep of fields, and questions 12 and 13.

use crate::float::{pi, smaller};

/// The values of a sweep that fit the lent room, or the refusal's number.
pub fn sweep(estimate: f32, error: Option<f32>, step: f32, room: usize) -> Result<Vec<f32>, u32> {
    let valid = estimate > 0.0 && estimate < pi() && step.is_finite() && step > 0.0 && error.is_none_or(f32::is_finite);
    if !valid {
        return Err(12);
    }
    let mut values = vec![estimate];
    let most = smaller(error.unwrap_or(0.0), pi());
    let mut offset = step;
    while most > 0.0 && offset <= most && estimate + offset < pi() && values.len() <= room {
        values.push(estimate + offset);
        if estimate - offset > 0.0 {
            values.push(estimate - offset);
        }
        if offset + step <= offset {
            break;
        }
        offset += step;
    }
    if values.len() > room {
        Err(13)
    } else {
        Ok(values)
    }
}
