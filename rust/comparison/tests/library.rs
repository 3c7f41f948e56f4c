//! The proved library against the model, comparison by comparison.

use comparison::given::requests;
use comparison::rng::Rng;
use comparison::subject::{Library, Subject, Twin, CUT};
use comparison::suite::named;
use model::shape::Shape;

/// A test for each comparison, so that a difference is told by its name.
macro_rules! library {
    ($($test:ident: $name:literal),* $(,)?) => {
        $(
            #[test]
            fn $test() {
                named($name).run(&Library).accept();
            }
        )*

        #[test]
        fn every_comparison_is_made() {
            let names = [$($name),*];
            assert!(comparison::suite::ALL.iter().map(|one| one.name).eq(names));
        }
    };
}

library! {
    rows: "rows",
    short_series: "short series",
    long_series: "long series",
    cuts_of_any_changes: "cuts of any changes",
    cuts_of_changes_near_each_other: "cuts of changes near each other",
    cuts_that_leave_a_table_unwanted: "cuts that leave a table unwanted",
    lives: "lives",
    pools: "pools",
    tidyings: "tidyings",
    listings: "listings",
    slots: "slots",
    gates: "gates",
    steps: "steps",
    lent_shapes: "lent shapes",
    lengths: "lengths",
    regions: "regions",
    changes_by_callers: "changes by callers",
    reaches: "reaches",
}

/// All comparisons on the cases of other seeds, by hand: `SEEDS=20 cargo test --release -- --ignored soak`.
#[test]
#[ignore = "takes as long as it is told to"]
fn soak() {
    let seeds = std::env::var("SEEDS").ok().and_then(|seeds| seeds.parse().ok()).unwrap_or(3);
    for seed in 1000..1000 + seeds {
        for comparison in comparison::suite::ALL {
            if let Some(difference) = comparison.run_from(&Library, seed).difference {
                panic!("{} from seed {seed}: {}", comparison.name, difference.0);
            }
        }
    }
}

/// The paper leaves open which words a cut has reached; the library fixes them by its order of stores, which is also
/// the twin's.
#[test]
fn cuts_reach_the_words_of_the_fixed_order() {
    let shape = Shape::new(2, 3, 5);
    let mut rng = Rng::new(31);
    let mut pool = shape.fresh();
    let mut cuts = 0;
    for _ in 0..60 {
        let request = requests::near(&mut rng, shape.domains);
        let mut after = pool.clone();
        let mut stores = [0];
        Twin.change(&mut after, &shape.words(), request, u32::MAX, &mut stores);
        for allowance in (0..stores[0]).step_by(1 + stores[0] as usize / 40) {
            let (mut one, mut other) = (pool.clone(), pool.clone());
            let numbers = (
                Library.change(&mut one, &shape.words(), request, allowance, &mut []),
                Twin.change(&mut other, &shape.words(), request, allowance, &mut []),
            );
            assert_eq!(numbers, (CUT, CUT), "{request:x?} with allowance {allowance}");
            assert!(one == other, "{request:x?} with allowance {allowance} reaches other words");
            cuts += 1;
        }
        pool = after;
    }
    println!("{cuts} cuts");
    assert!(cuts > 500);
}
