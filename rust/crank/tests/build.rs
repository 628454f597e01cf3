//! Where the proved libraries are missing, the build says what to run.

use std::env;
use std::path::Path;
use std::process::Command;

#[test]
fn missing_libraries() {
    let package = Path::new(env!("CARGO_MANIFEST_DIR"));
    let scratch = env::temp_dir().join(format!("crank-build-{}", std::process::id()));
    let output = Command::new(env!("CARGO"))
        .args(["build", "--offline", "--quiet", "--color", "never"])
        .current_dir(package)
        .env("CAPI_DIR", scratch.join("nothing here"))
        .env("CARGO_TARGET_DIR", &scratch)
        .output()
        .expect("cargo runs");
    let _ = std::fs::remove_dir_all(&scratch);
    let text = String::from_utf8_lossy(&output.stderr);
    assert!(!output.status.success(), "it was built: {text}");
    for name in ["capi", "session", "program"] {
        let line = text
            .lines()
            .find(|line| line.contains(&format!("lib{name}.a is missing")));
        let line = line.unwrap_or_else(|| panic!("nothing on {name}: {text}"));
        assert!(
            line.contains(&format!("run `sh build.sh {name}`")),
            "{line}"
        );
    }
}
