//! The example station writes what it should.

#[allow(dead_code)]
#[path = "../examples/station.rs"]
mod station;

#[test]
fn the_station_writes_its_lines() {
    let mut lines = Vec::new();
    station::run(&mut lines).expect("the station runs to its end");
    let lines = String::from_utf8(lines).expect("the lines are UTF-8");
    let wanted = include_str!("../examples/station.out");
    for (number, (line, wanted)) in lines.lines().zip(wanted.lines()).enumerate() {
        assert_eq!(line, wanted, "line {}", number + 1);
    }
    assert_eq!(lines.lines().count(), wanted.lines().count());
}
