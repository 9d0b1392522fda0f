#!/bin/sh
# Builds the published Rust reader, the comparison and the benchmark, and prints the folder of the programs.
#
#   EN16931_SRC    the published source: a checkout of hupe1980/en16931, revision f9d342604d (required)
#   RULZHAMM_LIB   the folder of librulzhamm.a (target/staticlib, where tools/staticlib puts it)
#   OUT            the build folder (target/oracle)
#
# The crates that the Rust needs come from Debian (run `apt-get update` once before), the currencies
# from Debian's iso-codes. Nothing is installed: packages are unpacked in the build folder.
set -eu
ROOT=$(cd "$(dirname "$0")/.." && pwd)
SRC=${EN16931_SRC:?is not set: name the published source, a checkout of hupe1980/en16931}
RULZHAMM_LIB=$(realpath -m "${RULZHAMM_LIB:-$ROOT/target/staticlib}")
OUT=$(realpath -m "${OUT:-$ROOT/target/oracle}")
CORE=$SRC/crates/en16931/src
FORMATS=$SRC/crates/en16931-formats/src
[ -f "$FORMATS/cii/read.rs" ] || { echo "no crates/en16931-formats/src/cii/read.rs in $SRC" >&2; exit 1; }
[ -f "$RULZHAMM_LIB/librulzhamm.a" ] || { echo "no librulzhamm.a in $RULZHAMM_LIB" >&2; exit 1; }
export RULZHAMM_LIB

# Debian's sources of the crates.
REGISTRY=$OUT/vendor/usr/share/cargo/registry
if [ ! -d "$REGISTRY/rust_decimal-1.23.1" ]; then
    mkdir -p "$OUT/debs"
    (cd "$OUT/debs" && apt-get download -q librust-roxmltree-dev librust-xmlparser-dev \
        librust-rust-decimal-dev librust-arrayvec-dev librust-num-traits-dev librust-autocfg-dev) >&2
    for deb in "$OUT"/debs/*.deb; do dpkg -x "$deb" "$OUT/vendor"; done
fi

WS=$OUT/workspace
rm -rf "$WS"
mkdir -p "$WS/.cargo" "$WS/en16931/src" "$WS/original/src/cii"
cat > "$WS/.cargo/config.toml" <<T
[source.crates-io]
replace-with = "debian"
[source.debian]
directory = "$REGISTRY"
[net]
offline = true
T
cat > "$WS/Cargo.toml" <<T
[workspace]
members = ["en16931", "original", "compare", "bench"]
resolver = "2"
[profile.release]
opt-level = 3
T
DECIMAL='rust_decimal = { version = "1.23", default-features = false, features = ["std"] }'
ROXMLTREE='roxmltree = { version = "0.16", features = ["positions"] }'
cat > "$WS/en16931/Cargo.toml" <<T
[package]
name = "en16931"
version = "0.0.0"
edition = "2024"
[lints.rust]
warnings = "allow"
[dependencies]
$DECIMAL
T
cat > "$WS/original/Cargo.toml" <<T
[package]
name = "original"
version = "0.0.0"
edition = "2024"
[lints.rust]
warnings = "allow"
[features]
cii = []
ubl = []
serde = []
[dependencies]
en16931 = { path = "../en16931" }
$ROXMLTREE
$DECIMAL
T

# The core crate: amount, numeric and date whole; of invoice.rs the types, without the constructors
# and checks that lean on other files.
for f in amount numeric date; do cp "$CORE/$f.rs" "$WS/en16931/src/$f.rs"; done
sed -n '1,8p;10,128p;163,223p;338,615p;625,645p;667,793p;894,1024p' "$CORE/invoice.rs" > "$WS/en16931/src/invoice.rs"
cp "$ROOT/oracle/original/en16931.rs" "$WS/en16931/src/lib.rs"
python3 - > "$WS/en16931/src/currencies.in" <<'P'
import json
codes = json.load(open("/usr/share/iso-codes/json/iso_4217.json"))["4217"]
print(json.dumps(sorted(c["alpha_3"] for c in codes)).replace("[", "&["))
P

# The formats crate: read (with the door appended) and required whole; of xml.rs the reading helpers;
# of report.rs Kind and Entry; of cii/mod.rs the VAT point codes; of cii/write.rs the date format.
cp "$ROOT/oracle/original/lib.rs" "$WS/original/src/lib.rs"
cat "$FORMATS/cii/read.rs" "$ROOT/oracle/original/door.rs" > "$WS/original/src/cii/read.rs"
sed -n '1,97p;123,216p;1074,1114p' "$FORMATS/xml.rs" > "$WS/original/src/xml.rs"
cp "$FORMATS/required.rs" "$WS/original/src/required.rs"
sed -n '1,236p' "$FORMATS/report.rs" > "$WS/original/src/report.rs"
{
    echo 'pub(crate) mod read;'
    echo 'pub(crate) mod write {'
    sed -n '/DATE_FORMAT: &str/p' "$FORMATS/cii/write.rs"
    echo '}'
    sed -n '/^\/\/\/ BT-8, model/,/^\/\/\/ The CII `ram/p' "$FORMATS/cii/mod.rs" | sed '$d'
} > "$WS/original/src/cii/mod.rs"

# Ours, with the numbered lists of docs/.
cp -r "$ROOT/oracle/compare" "$WS/compare"
cp -r "$ROOT/bench" "$WS/bench"
cp "$ROOT"/docs/PATHS.md "$ROOT"/docs/TERMS.md "$ROOT"/docs/MESSAGES.md "$WS/compare/src/"

(cd "$WS" && cargo build -q --release --target-dir "$OUT/target" >&2)
echo "$OUT/target/release"
