"""The version of belt, which is that of the wrapper (bindings/rust/Cargo.toml)."""

VERSION = "0.1.0"
