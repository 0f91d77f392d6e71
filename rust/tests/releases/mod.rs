use std::path::Path;
use std::process::Command;

/// A random script of the oracle's gen.py for which the original decides: its seats are given negotiated capabilities
/// alone (tests/negotiation.py), and its releases are taken out.
pub fn random_script(oracle: &Path, seed: u32, profile: &str) -> String {
    let made = Command::new("../tests/negotiation.py")
        .arg(oracle)
        .args([&seed.to_string(), "400", "--profile", profile])
        .env("PYTHONHASHSEED", "0")
        .output()
        .expect("it can be run");
    assert!(made.status.success(), "seed {seed}, {profile}");
    without_releases(&String::from_utf8(made.stdout).expect("a script is ASCII"))
}

/// A script without the releases of seats and interfaces in its sessions: tests/releases.py says why these are not
/// compared.
fn without_releases(script: &str) -> String {
    let mut running = false;
    let kept = script.lines().filter(|line| {
        running = (running || *line == "handshake.finish") && !line.starts_with("start ");
        let verb = line.split(' ').next().unwrap_or("");
        !(running && verb.ends_with(".release") && verb != "device.release")
    });
    kept.fold(String::new(), |script, line| script + line + "\n")
}
