# The Rust crate grep-searcher from its own sources, and programs of ours over it: for the scripts that build one to source.
# Wants $root, the repository. SIROVANY_RUST may name the folder that holds the crate's src/; the default is the one this project
# was given. `compare/wants rust` looks whether all is there. All is built in target/oracle.

sources=${SIROVANY_RUST:-$root/../shared/docs/src}
out=$root/target/oracle
packages=(
    librust-bstr-dev
    librust-encoding-rs-dev
    librust-encoding-rs-io-dev
    librust-grep-matcher-dev
    librust-log-dev
    librust-memchr-dev
    librust-memmap2-dev
)

# Times are kept, so that the unchanged crate is not compiled again.
assemble_crate() {
    rm -rf "$out/grep-searcher"
    mkdir -p "$out/grep-searcher"
    cp -rp "$sources/src" "$out/grep-searcher/src"
    chmod -R u+w "$out/grep-searcher"
    # `lib.rs` names this module, and only the crate's tests use what is in it.
    [ -e "$out/grep-searcher/src/macros.rs" ] || touch -r "$sources/src/lib.rs" "$out/grep-searcher/src/macros.rs"
    cp -p "$root/compare/oracle/grep-searcher.toml" "$out/grep-searcher/Cargo.toml"
}

# Builds the program of a folder, which has its name, beside the crate, with further words for rustc; leaves target/oracle/NAME.
build_beside() { # NAME FOLDER [WORD ..]
    local name=$1 folder=$2 registry
    shift 2
    registry=$(dpkg -L librust-grep-matcher-dev | sed -n 's,/grep-matcher-[^/]*$,,p' | head -n 1)
    rm -rf "$out/$name-program"
    mkdir -p "$out/$name-program"
    # with new times, since cargo does not see that a library named in the words has changed
    cp -r "$folder/src" "$folder/Cargo.toml" "$out/$name-program/"
    cargo rustc --release --offline --quiet \
        --manifest-path "$out/$name-program/Cargo.toml" --target-dir "$out/build" \
        --config 'source.crates-io.replace-with="debian"' \
        --config "source.debian.directory=\"$registry\"" -- "$@"
    cp "$out/build/release/$(basename "$folder")" "$out/$name"
}
