//! The text of --version.

use spatecanter::version;

/// The version of the command, of the library and of its archive, and the toolchain that proved and built it.
pub fn text() -> String {
    let number = version();
    format!(
        "spatecanter {}\nlibrary {}.{}.{}, SHA-256 {}\ntoolchain {}\n",
        env!("CARGO_PKG_VERSION"),
        number / 10_000,
        number / 100 % 100,
        number % 100,
        env!("SPATECANTER_DIGEST"),
        env!("SPATECANTER_TOOLCHAIN"),
    )
}
