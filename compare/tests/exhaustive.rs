//! The second implementation against the scope's sentences tried out one by one, on small inputs.

use compare::generate::{count_candidates, random_log, random_settings, random_valid_list, Random};
use compare::model::{judge, reduce, search, End, Place, Settings, Verdict};

/// The codes of a set in ascending order. Vectors compare as the scope orders sets.
fn codes(set: u16) -> Vec<u8> {
    (0..16).filter(|code| set >> code & 1 == 1).collect()
}

/// All candidates in the scope's order, by sorting.
fn candidates(settings: Settings) -> Vec<Place> {
    let sets = |most: u8| {
        let all = 1..1u32 << settings.activities;
        all.map(|set| set as u16)
            .filter(move |set| set.count_ones() <= u32::from(most))
    };
    let mut places: Vec<Place> = sets(settings.outputs)
        .flat_map(|outputs| sets(settings.inputs).map(move |inputs| Place { inputs, outputs }))
        .collect();
    places.sort_by_key(|place| (codes(place.outputs), codes(place.inputs)));
    places
}

#[test]
fn a_complete_search_finds_exactly_the_fitting_candidates() {
    let mut random = Random::new(5);
    for _ in 0..300 {
        let settings = random_settings(&mut random, 500);
        let text = random_log(&mut random, settings.activities, 8);
        let fits = |place: &Place| {
            let (activities, threshold) = (settings.activities, settings.threshold);
            judge(activities, threshold, &text, *place).unwrap().verdict == Verdict::Fitting
        };
        let places = candidates(settings);
        assert_eq!(places.len() as u64, count_candidates(settings));
        let expected: Vec<u32> = places.into_iter().filter(fits).map(Place::word).collect();
        let mut found = [0; 500];
        let room = random.between(0, 500);
        let run = search(settings, &text, 500, &mut vec![0; room], &mut found).unwrap();
        assert_eq!(run.end, End::Complete);
        assert_eq!(found[..run.found], expected);
    }
}

/// Whether two or more of the parts, sharing nothing, make up the word. Tries every choice.
fn is_union(word: u32, parts: &[u32]) -> bool {
    (0..1u32 << parts.len()).any(|choice| {
        let chosen: Vec<u32> = (0..parts.len())
            .filter(|&part| choice >> part & 1 == 1)
            .map(|part| parts[part])
            .collect();
        let union = chosen.iter().fold(0, |union, part| union | part);
        let bits: u32 = chosen.iter().map(|part| part.count_ones()).sum();
        chosen.len() >= 2 && union == word && bits == union.count_ones()
    })
}

#[test]
fn reduction_drops_exactly_the_unions() {
    let mut random = Random::new(6);
    for _ in 0..2000 {
        let activities = random.between(2, 6) as u8;
        let length = random.between(0, 9);
        let words = random_valid_list(&mut random, activities, length);
        let kept = words.iter().filter(|&&word| !is_union(word, &words));
        let expected: Vec<u32> = kept.copied().collect();
        let mut buffer = [0; 9];
        let count = reduce(&words, &mut buffer).unwrap();
        assert_eq!(buffer[..count], expected);
    }
}
