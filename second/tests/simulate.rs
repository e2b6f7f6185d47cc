//! The simulator with a fixed seed, over all shapes of crews; and that its crews really get into the corners.

use second::crew::Shape;
use second::explore::{explore, Tiny};
use second::simulate::{simulate, Report, Settings};
use second::store::Second;

fn run(seed: u64, steps: u64, shape: Option<Shape>) -> Report {
    let settings = Settings { seed, steps, shape, longest: 2000 };
    simulate(&Second, &settings).unwrap_or_else(|violation| panic!("{violation}"))
}

#[test]
fn all_crews_with_a_fixed_seed() {
    let report = run(20_260_701, 120_000, None);
    assert!(report.steps >= 120_000 && report.crews >= 50, "{report}");
    // The corners: every limit is reached, and none passed.
    assert_eq!(report.ahead, 60, "{report}");
    assert_eq!(report.versions, 8, "{report}");
    assert_eq!(report.full, [64, 60, 60], "{report}");
    assert!(report.reply_points > 40, "{report}");
    assert!(report.repeated > 1000 && report.late > 1000 && report.covered > 1000, "{report}");
    // Every answer that a crew can meet is met, and no other.
    let met = |call: &str| -> Vec<u32> {
        report.answers.keys().filter(|(name, _)| *name == call).map(|(_, answer)| *answer).collect()
    };
    assert_eq!(met("start"), [0]);
    assert_eq!(met("read"), [0]);
    assert_eq!(met("write"), [0, 5, 8, 12, 13, 14, 15]);
    assert_eq!(met("delete"), [0, 5, 8, 12, 14, 15]);
    assert_eq!(met("take_in"), [0, 5, 6, 12, 13]);
    assert_eq!(met("ask"), [0, 5, 6]);
    assert_eq!(met("reply"), [0, 6]);
    assert_eq!(met("repair"), [0, 5, 6, 12, 13]);
    assert_eq!(met("strip_pass"), [0]);
}

#[test]
fn each_shape_with_a_fixed_seed() {
    for (_, shape) in Shape::ALL {
        run(7, 6_000, Some(shape));
    }
}

#[test]
fn a_seed_gives_one_run() {
    let twice = [run(3, 5_000, None), run(3, 5_000, None)].map(|report| report.to_string());
    assert_eq!(twice[0], twice[1]);
}

/// Every run of four steps of the tiny crews; longer ones by hand.
#[test]
fn all_short_runs_of_tiny_crews() {
    for name in ["pair", "trio", "chain"] {
        let explored = explore(&Tiny::named(name).unwrap(), 4).unwrap_or_else(|violation| panic!("{violation}"));
        assert!(explored.steps > 20_000, "{name} {explored:?}");
    }
}
