# For scripts that compile for WebAssembly (`. tools.sh`): $rustc, one that has the target, or nothing; source_for FOLDER, the proved
# source as Rust for it; and compile FOLDER ARGUMENTS, one crate with every sum tested. It is what cargo does, by hand: Debian's rustc is
# older than the manifests' words.
target=wasm32-unknown-unknown
feature='feature="no-proof-covers-32-bits"'
rustc=
tried=$(mktemp -d)
for candidate in rustc /usr/bin/rustc; do
    # An empty library shows whether standard library and linker are there.
    if echo | "$candidate" --target "$target" --crate-type cdylib --crate-name empty --out-dir "$tried" - 2>/dev/null; then
        rustc=$candidate
        break
    fi
done
rm -rf "$tried"
no_rustc="no rustc with the target $target (Debian: rustc, libstd-rust-dev-wasm32, lld)"
source_for() {
    "$rustc" --edition 2021 -o "$1/build" "$source/build.rs"
    mkdir "$1/source"
    CARGO_MANIFEST_DIR=$source OUT_DIR=$1/source "$1/build" >/dev/null
}
compile() {
    out=$1
    shift
    OUT_DIR=$out/source "$rustc" --edition 2021 --target "$target" -C opt-level=3 -C overflow-checks=yes -C panic=abort \
        --out-dir "$out" "$@"
}
