//! How the gated CCSO offsets are added from Rust: a row of luma with a step, and a target that is raised before the step and lowered after it.

use bihargesh::{apply_edge_gated, Ccso, Refusal};

const WIDTH: usize = 16;

fn main() -> Result<(), Refusal> {
    let luma: Vec<u16> = (0..WIDTH).map(|k| if k < WIDTH / 2 { 100 } else { 130 }).collect();
    let mut target = luma.clone();
    // one band: place 4 * (class of the first tap) + (class of the second)
    let mut offsets = [0i8; 16];
    offsets[4 + 2] = 3;
    offsets[1] = -3;
    let settings = Ccso {
        width: WIDTH as i32,
        height: 1,
        depth: 8,
        scale: 2,
        lo: -9,
        hi: 9,
        within: 1,
        above: 2,
        dx0: -3,
        dx1: 3,
        ..Ccso::default()
    };
    apply_edge_gated(&luma, &mut target, &[1], &offsets, settings)?;
    println!("Rust, CCSO: {target:?}");
    assert_eq!((target[4], target[5], target[8], target[11]), (100, 106, 124, 130));
    Ok(())
}
