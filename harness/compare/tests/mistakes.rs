//! Every deliberate mistake is found among what the generator makes.

#[test]
fn every_mistake_is_found() {
    let search = compare::mistakes::search(1, 20_000, 1);
    println!("{search}");
    assert_eq!(search.difference(), None);
    assert_eq!(search.not_found(), []);
}
