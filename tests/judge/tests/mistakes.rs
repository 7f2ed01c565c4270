//! Whether the files tried would show a rule that is got wrong.

use judge::cases::{self, Call};
use judge::generate;
use judge::listing;
use judge::model::{self, Mistake};
use judge::reading;
use judge::records::Choices;

/// How many graphs are tried, and how many must show each mistake.
const GRAPHS: u64 = 20_000;
const LEAST: usize = 100;

#[test]
fn a_mistake_would_hardly_show_on_the_files_tried() {
    let mut shown = [0; Mistake::ALL.len()];
    for seed in 0..GRAPHS {
        let graph = generate::graph(seed);
        if graph.blocks.len() > 24 {
            continue;
        }
        for choices in Choices::ALL {
            let right = model::lay(&graph, choices, None);
            let counts = shown.iter_mut().zip(Mistake::ALL);
            for (count, mistake) in counts.filter(|(count, _)| **count < LEAST) {
                *count += usize::from(model::lay(&graph, choices, Some(mistake)) != right);
            }
        }
    }
    for (count, mistake) in shown.iter().zip(Mistake::ALL) {
        assert!(*count >= LEAST, "only {count} layouts show {mistake:?}");
    }
}

#[test]
fn a_mistake_would_not_show_on_the_stored_vectors() {
    let text = include_str!("../../vectors/layouts.txt");
    let stored = cases::read(text).expect("the vectors are of their form");
    for mistake in Mistake::ALL {
        let shows = stored.iter().any(|case| {
            case.runs.iter().any(|run| {
                let Call::Layout(choices) = run.call else { return false };
                let lay = |graph: &_| model::lay(graph, choices, Some(mistake));
                reading::answer(&case.input, run.lent, lay) != (run.answer, run.output.clone())
            })
        });
        assert!(shows, "{mistake:?} shows on no stored layout");
    }
}

#[test]
fn a_mistake_would_not_show_on_the_stored_listings() {
    let text = include_str!("../../vectors/listings.txt");
    let stored = cases::read(text).expect("the listings are of their form");
    for mistake in Mistake::ALL {
        let lay = |graph: &_, choices| model::lay(graph, choices, Some(mistake));
        let shows = stored.iter().any(|case| listing::printed(&case.input, lay) != case.listing);
        assert!(shows, "{mistake:?} shows on no stored listing");
    }
}
