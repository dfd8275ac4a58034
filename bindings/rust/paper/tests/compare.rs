//! The two plain versions, written by different methods, agree.
#[test]
fn hand_is_the_letter() {
    let calls = paper::trial::compare(&paper::trial::Hand, 600);
    println!("{calls} calls compared");
    assert!(calls > 100_000);
}
