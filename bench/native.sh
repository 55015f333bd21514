# Builds the repository's Rattle crates for release, for the scripts here to source. Wants $root, the repository.

native=$root/target/native

# Runs a command of rt in a crate, and shows what it says where it fails.
in_crate() { # CRATE RT WORD
    mkdir -p "$native"
    (cd "$root/crates/$1" && "$2" "$3" </dev/null) >"$native/$1.log" 2>&1 || {
        cat "$native/$1.log" >&2
        return 1
    }
}

# Proves a static library, and leaves it as target/native/libNAME.a or in another folder.
build_library() { # NAME [FOLDER [RT]]
    local folder=${2:-$native}
    in_crate "$1" "${3:-rt}" lib || return
    mkdir -p "$folder"
    mv "$root/crates/$1/out/lib$1.a" "$folder/"
}

# Proves a program, and leaves it as target/native/NAME. rt also runs what it has built, here on nothing.
build_program() { # NAME
    in_crate "$1" rt run || return
    cp "$root/crates/$1/out/$1" "$native/"
}

# Links to all that a folder holds, but for some names.
link_all_but() { # FROM TO NAME ..
    local from=$1 to=$2 name but=()
    shift 2
    for name; do
        but+=(! -name "$name")
    done
    mkdir -p "$to"
    find "$from" -mindepth 1 -maxdepth 1 "${but[@]}" -exec ln -s -t "$to" {} +
}

# The kit again, but for a compiler that is told further words. rt takes the kit that it stands in, so it is copied.
link_kit() { # FOLDER WORD ..
    local kit folder=$1
    shift
    kit=$(dirname "$(rt doc)")
    link_all_but "$kit" "$folder" bin toolchain
    link_all_but "$kit/bin" "$folder/bin" rt rtlib.py
    cp "$kit/bin/rt" "$kit/bin/rtlib.py" "$folder/bin/"
    link_all_but "$kit/toolchain" "$folder/toolchain" bin
    link_all_but "$kit/toolchain/bin" "$folder/toolchain/bin" clang
    printf '#!/bin/sh\nexec "%s" "$@" %s\n' "$kit/toolchain/bin/clang" "$*" >"$folder/toolchain/bin/clang"
    chmod +x "$folder/toolchain/bin/clang"
}

# Leaves target/native/apart/libNAME.a, in which each function stands by itself, for a profile. The links are not left in the
# repository, where rt takes none.
build_apart() { # NAME
    local folder
    folder=$(mktemp -d)
    link_kit "$folder" -mllvm -inline-threshold=-100000
    build_library "$1" "$native/apart" "$folder/bin/rt" || {
        rm -rf "$folder"
        return 1
    }
    rm -rf "$folder"
}
