//! The fixed part of the differential tests: fixed seeds and sizes, some tens of seconds.

use difftest::tally::Numbers;
use difftest::{chosen, front_trials, held_trials, ticket_trials, trials, Tally, Trial};
use gen::books::AT_THE_LIMITS;
use gen::Chance;

/// Runs a trial with a fixed seed and gives what it met.
fn tried(seed: u64, run: impl FnOnce(&mut Trial, &mut Chance)) -> Tally {
    let entries = chosen();
    let mut trial = Trial::new(&entries);
    run(&mut trial, &mut Chance::new(seed));
    println!("{}", trial.tally);
    trial.tally
}

#[test]
fn generated_books() {
    let tally = tried(1, |trial, chance| trials::generated_books(trial, chance, 4_000));
    assert!(tally.accepted > 2_000);
    assert!([8, 12].iter().all(|&number| tally.refused[number] > 100));
    assert!(tally.shared.books > 200 && tally.shared.families > 200);
}

#[test]
fn sheets() {
    let tally = tried(23, |trial, chance| trials::sheets(trial, chance, &trials::SHEETS, 5_000));
    assert!(tally.accepted > 1_500);
    assert!([8, 12].iter().all(|&number| tally.refused[number] > 1_000));
    assert!(tally.numbers.iter().all(|&met| met > 1_000));
}

#[test]
fn damaged_books() {
    let tally = tried(2, |trial, chance| trials::damaged_books(trial, chance, 6_000));
    assert!([1, 2, 3, 4, 5, 8, 10].iter().all(|&number| tally.refused[number] > 20));
}

#[test]
fn every_byte_cut_off_and_changed() {
    tried(3, |trial, chance| trials::every_byte(trial, chance, 12));
}

#[test]
fn wrong_lengths() {
    tried(4, |trial, chance| trials::wrong_lengths(trial, chance, 12));
}

#[test]
fn records_out_of_place() {
    let tally = tried(5, |trial, chance| trials::records_out_of_place(trial, chance, 1_000));
    assert!([1, 2, 3, 6].iter().all(|&number| tally.refused[number] > 20));
}

#[test]
fn comparisons() {
    let tally = tried(6, |trial, chance| trials::comparisons(trial, chance, &trials::COMPARED, 1_500, 120));
    assert!(tally.same > 2_000 && tally.different > 2_000 && tally.refused[10] > 100 && tally.refused[11] > 2_000);
}

#[test]
fn rounds() {
    let tally = tried(7, |trial, chance| trials::rounds(trial, chance, &trials::COMPARED, 1_500));
    assert!((1..=8).all(|row| tally.rows[row] > 20));
    assert!(tally.refused[10] > 100 && tally.refused[12] > 100);
}

#[test]
fn rounds_make_comparisons() {
    tried(8, |trial, chance| trials::rounds_make_comparisons(trial, chance, &trials::COMPARED, 500));
}

#[test]
fn limits() {
    let tally = tried(9, |trial, chance| trials::limits(trial, chance, AT_THE_LIMITS));
    assert!(tally.refused[9] > 10);
    tried(10, |trial, _| trials::longest_next(trial));
    tried(11, |trial, _| trials::most_rounds(trial, 256));
}

#[test]
fn programs() {
    let tally = tried(12, |trial, chance| trials::programs(trial, chance, 3_000));
    assert!(tally.refused[12] > 100);
    tried(13, |trial, _| trials::heavy_programs(trial));
}

#[test]
fn chains() {
    let tally = tried(14, |trial, chance| trials::chains(trial, chance, &trials::SMALL, 400, 260));
    assert!(tally.searched > 1_000_000);
}

#[test]
fn two_letters() {
    tried(16, |trial, _| trials::two_letters(trial, 8, 8));
}

#[test]
fn classes() {
    let tally = tried(15, |trial, chance| trials::classes(trial, chance, &trials::CLASSES, 2_000));
    assert!(tally.same > 1_000 && tally.different > 100);
}

#[test]
fn least_words() {
    let tally = tried(17, |trial, chance| trials::least_words(trial, chance, &trials::RANKED, 500));
    assert!(tally.least.iter().all(|&met| met > 500) && tally.refused[10] > 100 && tally.refused[14] > 2_000);
}

#[test]
fn least_of_all_words() {
    let tally = tried(18, |trial, chance| trials::least_of_all_words(trial, chance, &trials::SMALL, 60, 800));
    assert!(tally.least.iter().all(|&met| met > 100) && tally.searched > 10_000);
    tried(19, |trial, chance| trials::least_of_two_letters(trial, chance, 8, 9));
}

#[test]
fn least_of_joined_words() {
    let tally = tried(20, |trial, chance| trials::least_of_joined_words(trial, chance, &trials::RANKED, 100, 120, 1_000));
    assert!(tally.same > 200 && tally.different > 50);
    tried(21, |trial, chance| trials::least_of_joined_words(trial, chance, &trials::RANKED, 5, 400, 5_000));
}

#[test]
fn least_at_the_limits() {
    let tally = tried(22, trials::least_at_the_limits);
    assert!(tally.refused[9] > 2 && tally.refused[14] > 5);
}

/// What relations that share a word bring was met often, each kind of it.
fn shared_words_were_met(tally: &Tally, books: u64, families: u64) {
    assert!(tally.shared.books > books && tally.shared.families > families && tally.shared.members == 33, "{}", tally.shared);
}

#[test]
fn sheets_where_words_are_shared() {
    let tally = tried(24, |trial, chance| trials::sheets(trial, chance, &trials::SHARED_SHEETS, 4_000));
    shared_words_were_met(&tally, 1_000, 500);
    assert!(tally.refused[8] > 1_000 && tally.shared.loose_words > 500 && tally.shared.loose_behind > 500, "{}", tally.shared);
}

#[test]
fn comparisons_where_words_are_shared() {
    let tally = tried(25, |trial, chance| trials::comparisons(trial, chance, &trials::SHARED, 1_500, 120));
    shared_words_were_met(&tally, 1_000, 500);
    assert!(tally.same > 2_000 && tally.different > 2_000 && tally.refused[11] > 2_000);
}

#[test]
fn rounds_where_words_are_shared() {
    let tally = tried(26, |trial, chance| trials::rounds(trial, chance, &trials::SHARED, 1_500));
    shared_words_were_met(&tally, 1_000, 500);
    assert!((1..=8).all(|row| tally.rows[row] > 20));
    assert!(tally.shared.third_tails > 500 && tally.shared.later_tails > 100 && tally.shared.third_marks > 200, "{}", tally.shared);
}

#[test]
fn rounds_make_comparisons_where_words_are_shared() {
    let tally = tried(27, |trial, chance| trials::rounds_make_comparisons(trial, chance, &trials::SHARED, 1_500));
    shared_words_were_met(&tally, 1_000, 500);
    assert!(tally.shared.third_tails > 500 && tally.shared.later_tails > 100 && tally.shared.third_marks > 20, "{}", tally.shared);
}

#[test]
fn other_ways_to_write_a_family() {
    let tally = tried(28, |trial, chance| trials::other_ways(trial, chance, &trials::SHARED, 600));
    shared_words_were_met(&tally, 500, 300);
}

#[test]
fn chains_where_words_are_shared() {
    let tally = tried(29, |trial, chance| trials::chains(trial, chance, &trials::SHARED_SMALL, 150, 800));
    assert!(tally.searched > 1_000_000 && tally.shared.books > 100 && tally.shared.families > 60, "{}", tally.shared);
}

#[test]
fn classes_where_words_are_shared() {
    let tally = tried(30, |trial, chance| trials::classes(trial, chance, &trials::SHARED_CLASSES, 2_000));
    shared_words_were_met(&tally, 1_000, 500);
    assert!(tally.same > 1_000 && tally.different > 100);
}

#[test]
fn least_words_where_words_are_shared() {
    let tally = tried(31, |trial, chance| trials::least_words(trial, chance, &trials::SHARED_CLASSES, 500));
    assert!(tally.least.iter().all(|&met| met > 500) && tally.refused[14] > 2_000);
    let tally = tried(32, |trial, chance| trials::least_of_all_words(trial, chance, &trials::SHARED_SMALL, 60, 800));
    assert!(tally.searched > 10_000 && tally.shared.families > 20, "{}", tally.shared);
    let tally = tried(33, |trial, chance| trials::least_of_joined_words(trial, chance, &trials::SHARED, 100, 120, 1_000));
    assert!(tally.same > 200 && tally.different > 50 && tally.shared.families > 50, "{}", tally.shared);
}

/// The numbers of refusals that were met fewer than `least` times.
fn seldom(refused: &Numbers, numbers: &[usize], least: u64) -> Vec<usize> {
    numbers.iter().copied().filter(|&number| refused[number] < least).collect()
}

#[test]
fn every_piece_and_all_short_words() {
    let tally = tried(46, |trial, chance| front_trials::every_piece(trial, chance, &trials::SMALL, 60, 400));
    assert!(tally.searched > 10_000 && tally.fronts.left[1..].iter().all(|&met| met > 500) && tally.fronts.refused[19] > 1_000, "{tally}");
    let tally = tried(47, |trial, chance| front_trials::every_piece(trial, chance, &trials::SHARED_SMALL, 60, 400));
    assert!(tally.fronts.left[1..].iter().all(|&met| met > 500) && tally.fronts.refused[19] > 1_000 && tally.shared.families > 20, "{tally}");
    let tally = tried(48, |trial, chance| front_trials::every_piece_of_two_letters(trial, chance, 8, 9));
    assert!(tally.fronts.left.iter().all(|&met| met > 500) && tally.fronts.refused[19] > 10_000 && tally.fronts.nothing > 200, "{tally}");
}

/// Each kind of front was met often, and each refusal.
fn fronts_were_met(tally: &Tally) {
    let fronts = &tally.fronts;
    assert!(fronts.left.iter().all(|&met| met > 500) && fronts.longer > 50 && fronts.nothing > 100, "{fronts}");
    assert_eq!(seldom(&fronts.refused, &[9, 10, 14, 18, 19], 500), [], "{fronts}");
    assert!(fronts.given.iter().chain(&fronts.narrow).chain(&fronts.no_pieces).all(|&met| met > 200) && fronts.long > 100, "{fronts}");
}

#[test]
fn fronts() {
    fronts_were_met(&tried(49, |trial, chance| front_trials::fronts(trial, chance, &trials::RANKED, 600)));
}

#[test]
fn fronts_where_words_are_shared() {
    let tally = tried(50, |trial, chance| front_trials::fronts(trial, chance, &trials::SHARED_CLASSES, 600));
    fronts_were_met(&tally);
    assert!(tally.shared.families > 200, "{}", tally.shared);
}

#[test]
fn fronts_of_joined_words() {
    for (seed, kinds) in [(51, &trials::RANKED[..]), (52, &trials::SHARED)] {
        let tally = tried(seed, |trial, chance| front_trials::fronts_of_joined_words(trial, chance, kinds, 100, 120, 1_000));
        assert!(tally.fronts.left.iter().all(|&met| met > 50) && tally.fronts.refused[19] > 20 && tally.same > 100, "{tally}");
    }
}

#[test]
fn fronts_at_the_limits() {
    let fronts = tried(53, front_trials::fronts_at_the_limits).fronts;
    assert!(fronts.left[1..].iter().all(|&met| met > 10) && fronts.long > 0, "{fronts}");
    assert_eq!(seldom(&fronts.refused, &[9, 14, 18, 19], 3), [], "{fronts}");
}

#[test]
fn held_books_loaded() {
    let held = tried(34, |trial, chance| held_trials::loadings(trial, chance, 3_000)).held;
    assert!(held.loaded > 500, "{held}");
    assert_eq!(seldom(&held.refused_loadings, &[1, 2, 3, 4, 5, 6, 8, 12], 20), [], "{held}");
}

#[test]
fn held_books_changed() {
    let held = tried(35, |trial, chance| held_trials::held(trial, chance, &held_trials::STORIES, 64, 300)).held;
    assert!(held.added > 2_000 && held.withdrawn > 2_000, "{held}");
    assert_eq!(seldom(&held.refused_additions, &[1, 2, 3, 4, 5, 6, 8, 12], 50), [], "{held}");
    assert_eq!(seldom(&held.refused_withdrawals, &[12, 15], 50), [], "{held}");
    assert!(held.loose_sides.iter().all(|&met| met > 50), "{held}");
    assert!(held.filled > 100 && held.refused_additions[6] > held.filled && held.bridges > 100, "{held}");
    assert!(held.withdrawn_places.iter().all(|&met| met > 20), "{held}");
    assert!(held.rooms.iter().all(|&met| met > 50), "{held}");
}

#[test]
fn held_books_at_the_limits() {
    let held = tried(36, |trial, chance| held_trials::held(trial, chance, &held_trials::FULL, 8, 30)).held;
    assert!(held.added > 20 && held.withdrawn > 20 && held.filled > 5 && held.refused_additions[6] > 5, "{held}");
    tried(37, |trial, _| held_trials::altered_at_the_limits(trial));
}

#[test]
fn held_books_altered() {
    let held = tried(38, |trial, chance| held_trials::altered(trial, chance, 30, 300)).held;
    assert!(held.added > 500 && held.withdrawn > 500 && held.worn > 20, "{held}");
    assert_eq!(seldom(&held.refused_finds, &[1, 2, 3, 4, 5, 6, 12], 50), [], "{held}");
    assert_eq!(seldom(&held.refused_additions, &[5, 8, 12, 17], 20), [], "{held}");
    assert_eq!(seldom(&held.refused_withdrawals, &[8, 12, 15, 17], 20), [], "{held}");
}

#[test]
fn tickets_posted() {
    let tickets = tried(39, |trial, chance| ticket_trials::posted(trial, chance, &held_trials::STORIES, 48, 300)).tickets;
    assert!(tickets.proposed.iter().chain(&tickets.posted).all(|&met| met > 200), "{tickets}");
    assert_eq!(seldom(&tickets.refused_proposals, &[1, 2, 3, 4, 5, 6, 8, 12, 15], 50), [], "{tickets}");
    assert_eq!(seldom(&tickets.refused_postings, &[1, 2, 3, 6, 8, 12, 15, 16], 10), [], "{tickets}");
    assert!(tickets.rooms.iter().all(|&met| met > 50) && tickets.short_sheets > 20, "{tickets}");
    let tickets = tried(40, |trial, chance| ticket_trials::posted(trial, chance, &held_trials::FULL, 8, 40)).tickets;
    assert!(tickets.posted.iter().all(|&met| met > 10), "{tickets}");
}

#[test]
fn tickets_altered() {
    let tickets = tried(41, |trial, chance| ticket_trials::altered(trial, chance, 12)).tickets;
    assert!(tickets.posted.iter().all(|&met| met > 500) && tickets.odd_kinds > 50 && tickets.cut_off > 20, "{tickets}");
    assert_eq!(seldom(&tickets.refused_postings, &[1, 2, 3, 5, 8, 15, 16], 50), [], "{tickets}");
}

#[test]
fn tickets_made_up() {
    let tickets = tried(42, |trial, chance| ticket_trials::made_up(trial, chance, 60, 300)).tickets;
    assert!(tickets.posted.iter().all(|&met| met > 300) && tickets.odd_kinds > 100 && tickets.cut_off > 20, "{tickets}");
    assert_eq!(seldom(&tickets.refused_postings, &[1, 2, 3, 4, 5, 12, 15, 16, 17], 50), [], "{tickets}");
}

#[test]
fn tickets_in_buffers_of_all_sizes() {
    let tickets = tried(43, |trial, chance| ticket_trials::rooms(trial, chance, 60)).tickets;
    assert!(tickets.rooms.iter().all(|&met| met > 50) && tickets.narrow.iter().all(|&met| met > 50), "{tickets}");
}

#[test]
fn books_worn() {
    let tally = tried(44, |trial, chance| ticket_trials::worn(trial, chance, 40));
    assert!(tally.tickets.worn.iter().all(|&met| met > 20) && tally.held.worn > 20, "{tally}");
    assert!(tally.held.refused_additions[17] > 20 && tally.held.refused_withdrawals[17] > 20, "{tally}");
}

#[test]
fn sixty_thousand_changes() {
    let tally = tried(45, |trial, _| ticket_trials::sixty_thousand(trial));
    assert_eq!(tally.held.added + tally.held.withdrawn + tally.tickets.posted.iter().sum::<u64>(), 60_002, "{tally}");
}
