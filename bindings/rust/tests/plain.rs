//! The plain engine beside the scheduled one on many random planes: the same answer, counts and plane, refusals included.

mod drawn;

use bihargesh::{deblock_plane, deblock_plane_plain, Reason, Refusal};
use drawn::{Case, Random};

#[test]
fn as_the_scheduled_one() {
    let mut r = Random(20_261_116);
    let (mut accepted, mut changed, mut refused) = (0, 0, [0; 14]);
    for _ in 0..3000 {
        let mut case = Case::drawn(&mut r);
        if r.below(4) == 0 {
            case.damage(&mut r);
        }
        let scheduled = case.run(deblock_plane);
        assert_eq!(case.run(deblock_plane_plain), scheduled);
        match scheduled.0 {
            Ok(counts) => (accepted, changed) = (accepted + 1, changed + counts.changed),
            Err(Refusal { reason, .. }) => refused[reason.number() as usize] += 1,
        }
    }
    println!("Rust, both engines: {accepted} planes accepted, {changed} samples changed; refused by 1..8: {:?}", &refused[1..9]);
    assert!(accepted > 1000 && changed > 10_000, "too little was filtered");
    for reason in [Reason::Depth, Reason::Size, Reason::Length, Reason::Setting, Reason::Cell, Reason::Room, Reason::Sample] {
        assert!(refused[reason.number() as usize] > 0, "no plane was refused: {reason}");
    }
}
