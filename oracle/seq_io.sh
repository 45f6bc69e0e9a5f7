# Makes the package seq_io of the Rust's own text in target/oracle/seq_io, or says what is missing. Sourced at the repository's root by oracle/run and bench/run.
root=$PWD
source=${SEQ_IO_SOURCE:-$root/../shared/docs/src}
registry=/usr/share/cargo/registry
missing=0

lacks() {
    echo "missing: $1" >&2
    missing=1
}

command -v rt >/dev/null || lacks "rt, the command of the Rattle toolchain, on the PATH"
command -v cargo >/dev/null || lacks "cargo, with a Rust compiler, on the PATH"
for package in memchr serde serde_derive; do
    compgen -G "$registry/$package-[0-9]*" >/dev/null || lacks "the Rust crate $package: apt-get install librust-${package//_/-}-dev"
done
for file in src/lib.rs src/fastq.rs src/policy.rs; do
    [ -f "$source/$file" ] || lacks "$source/$file: the source of seq_io 0.3.4; SEQ_IO_SOURCE names its folder"
done
[ "$missing" -eq 0 ] || exit 2
source=$(cd "$source" && pwd)

# The Rust's own text: links to fastq.rs and policy.rs, and lib.rs without the modules that aren't to be had or compared.
made=$root/target/oracle/seq_io
mkdir -p "$made/src"
ln -sfn "$source/src/fastq.rs" "$made/src/fastq.rs"
ln -sfn "$source/src/policy.rs" "$made/src/policy.rs"
sed '/^pub mod fasta;$/d; /^pub mod parallel;$/d' "$source/src/lib.rs" >"$made/src/lib.rs"
cat >"$made/Cargo.toml" <<TOML
[package]
name = "seq_io"
version = "0.3.4"
edition = "2018"
publish = false

[dependencies]
memchr = "2"
serde = "1"
serde_derive = "1"
buffer_redux = { path = "$root/oracle/buffer_redux" }

[lints.rust]
warnings = "allow"
TOML
