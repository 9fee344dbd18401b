//! The longer run: all trials again and again with new seeds, `difftest SECONDS [SEED]`.

use std::time::{Duration, Instant};

use difftest::{chosen, front_trials, held_trials, ticket_trials, trials, Entries, Tally, Trial};
use gen::books::AT_THE_LIMITS;
use gen::Chance;

/// A trial by name.
type Named = (&'static str, fn(&mut Trial, &mut Chance));

const TRIALS: [Named; 41] = [
    ("generated books", |trial, chance| trials::generated_books(trial, chance, 1_000)),
    ("sheets", |trial, chance| trials::sheets(trial, chance, &trials::SHEETS, 1_000)),
    ("sheets, shared words", |trial, chance| trials::sheets(trial, chance, &trials::SHARED_SHEETS, 1_000)),
    ("damaged books", |trial, chance| trials::damaged_books(trial, chance, 1_000)),
    ("every byte", |trial, chance| trials::every_byte(trial, chance, 4)),
    ("wrong lengths", |trial, chance| trials::wrong_lengths(trial, chance, 4)),
    ("records out of place", |trial, chance| trials::records_out_of_place(trial, chance, 500)),
    ("comparisons", |trial, chance| trials::comparisons(trial, chance, &trials::COMPARED, 300, 120)),
    ("comparisons, shared words", |trial, chance| trials::comparisons(trial, chance, &trials::SHARED, 300, 120)),
    ("long comparisons", |trial, chance| trials::comparisons(trial, chance, &trials::COMPARED, 10, 1_500)),
    ("long comparisons, shared words", |trial, chance| trials::comparisons(trial, chance, &trials::SHARED, 10, 1_500)),
    ("rounds", |trial, chance| trials::rounds(trial, chance, &trials::COMPARED, 400)),
    ("rounds, shared words", |trial, chance| trials::rounds(trial, chance, &trials::SHARED, 400)),
    ("rounds make comparisons", |trial, chance| trials::rounds_make_comparisons(trial, chance, &trials::COMPARED, 200)),
    ("rounds make comparisons, shared words", |trial, chance| trials::rounds_make_comparisons(trial, chance, &trials::SHARED, 200)),
    ("other ways to write a family", |trial, chance| trials::other_ways(trial, chance, &trials::SHARED, 200)),
    ("limits", |trial, chance| trials::limits(trial, chance, AT_THE_LIMITS)),
    ("programs", |trial, chance| trials::programs(trial, chance, 1_000)),
    ("chains", |trial, chance| trials::chains(trial, chance, &trials::SMALL, 40, 700)),
    ("chains, shared words", |trial, chance| trials::chains(trial, chance, &trials::SHARED_SMALL, 40, 800)),
    ("classes", |trial, chance| trials::classes(trial, chance, &trials::CLASSES, 1_000)),
    ("classes, shared words", |trial, chance| trials::classes(trial, chance, &trials::SHARED_CLASSES, 1_000)),
    ("least words", |trial, chance| trials::least_words(trial, chance, &trials::RANKED, 500)),
    ("least words, shared words", |trial, chance| trials::least_words(trial, chance, &trials::SHARED_CLASSES, 500)),
    ("least of all words", |trial, chance| {
        trials::least_of_all_words(trial, chance, &trials::SMALL, 40, 1_000);
        trials::least_of_all_words(trial, chance, &trials::SHARED_SMALL, 40, 1_000);
    }),
    ("least of joined words", |trial, chance| {
        trials::least_of_joined_words(trial, chance, &trials::RANKED, 40, 200, 2_000);
        trials::least_of_joined_words(trial, chance, &trials::SHARED, 40, 200, 2_000);
    }),
    ("least at the limits", trials::least_at_the_limits),
    ("every piece and all short words", |trial, chance| {
        front_trials::every_piece(trial, chance, &trials::SMALL, 40, 600);
        front_trials::every_piece(trial, chance, &trials::SHARED_SMALL, 40, 600);
    }),
    ("fronts", |trial, chance| {
        front_trials::fronts(trial, chance, &trials::RANKED, 300);
        front_trials::fronts(trial, chance, &trials::SHARED_CLASSES, 300);
    }),
    ("fronts of joined words", |trial, chance| {
        front_trials::fronts_of_joined_words(trial, chance, &trials::RANKED, 40, 200, 2_000);
        front_trials::fronts_of_joined_words(trial, chance, &trials::SHARED, 40, 200, 2_000);
    }),
    ("fronts at the limits", front_trials::fronts_at_the_limits),
    ("held books loaded", |trial, chance| held_trials::loadings(trial, chance, 1_000)),
    ("held books changed", |trial, chance| held_trials::held(trial, chance, &held_trials::STORIES, 16, 300)),
    ("held books changed, at the limits", |trial, chance| held_trials::held(trial, chance, &held_trials::FULL, 4, 30)),
    ("held books altered", |trial, chance| held_trials::altered(trial, chance, 9, 300)),
    ("tickets posted", |trial, chance| ticket_trials::posted(trial, chance, &held_trials::STORIES, 16, 300)),
    ("tickets posted, at the limits", |trial, chance| ticket_trials::posted(trial, chance, &held_trials::FULL, 4, 30)),
    ("tickets altered", |trial, chance| ticket_trials::altered(trial, chance, 6)),
    ("tickets made up", |trial, chance| ticket_trials::made_up(trial, chance, 30, 300)),
    ("tickets in buffers of all sizes", |trial, chance| ticket_trials::rooms(trial, chance, 30)),
    ("books worn", |trial, chance| ticket_trials::worn(trial, chance, 30)),
];

fn main() {
    let mut arguments = std::env::args().skip(1);
    let mut number = |otherwise: u64| arguments.next().map_or(otherwise, |text| text.parse().expect("difftest SECONDS [SEED]"));
    let (seconds, mut seed) = (number(60), number(1_000));
    let entries = chosen();
    let end = Instant::now() + Duration::from_secs(seconds);
    let mut sum = Tally::default();
    println!("tried: {}", entries.name());
    let mut trial = Trial::new(&entries);
    trials::most_rounds(&mut trial, 4_096);
    trials::longest_next(&mut trial);
    trials::heavy_programs(&mut trial);
    trials::two_letters(&mut trial, 9, 9);
    trials::least_of_two_letters(&mut trial, &mut Chance::new(seed), 9, 11);
    front_trials::every_piece_of_two_letters(&mut trial, &mut Chance::new(seed), 9, 10);
    held_trials::altered_at_the_limits(&mut trial);
    ticket_trials::sixty_thousand(&mut trial);
    sum.add(&trial.tally);
    while Instant::now() < end {
        for (name, run) in TRIALS {
            let began = Instant::now();
            let mut trial = Trial::new(&entries);
            println!("seed {seed}: {name}");
            run(&mut trial, &mut Chance::new(seed));
            println!("    {:.1} s, {}", began.elapsed().as_secs_f64(), trial.tally);
            sum.add(&trial.tally);
            seed += 1;
        }
    }
    println!("all agree: {sum}");
}
