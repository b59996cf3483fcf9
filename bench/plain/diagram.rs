//! The speed-distance diagram of a train.

use crate::line::Line;
use crate::run::write_run;
use crate::study::MOST_POINTS;
use crate::Refusal;

const POINT_SIZE: usize = 25;

/// Writes position, speed, arrival and dot of each point, and gives the count of bytes.
pub fn diagram(file: &[u8], k: u64, bytes: &mut [u8]) -> Result<u64, Refusal> {
    let line = Line::open(file)?;
    let train = line.train(k)?;
    let bytes = bytes.get_mut(..POINT_SIZE * line.points).ok_or(11u64)?;
    let mut speeds = [0; MOST_POINTS];
    let mut times = [0; MOST_POINTS];
    write_run(&line, &train, &mut speeds, &mut times)?;
    for (i, point) in bytes.chunks_exact_mut(POINT_SIZE).enumerate() {
        let root = speeds[i].isqrt();
        point[..8].copy_from_slice(&((i * line.step) as f64).to_le_bytes());
        point[8..16].copy_from_slice(&f64::from(root).to_le_bytes());
        point[16..24].copy_from_slice(&(times[i] as f64).to_le_bytes());
        point[24] = u8::from(root * root == speeds[i]);
    }
    Ok(bytes.len() as u64)
}
