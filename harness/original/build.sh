#!/bin/sh
# Builds the original: the unchanged sources of docs/src with the real datafrog and thin stand-ins.
#
#   CACHE   where everything fetched and built goes (default: harness/target/original)
#   DEBSRC  a folder that already holds Debian's source package rustc 1.63, to fetch nothing
#
# Leaves CACHE/rlib/liboriginal.rlib, CACHE/bin/original (feature prp-spo2 off) and CACHE/bin/original-spo2 (on).
# Does nothing where they are there already, made from the same files by the same compiler.
set -eu
here=$(cd "$(dirname "$0")" && pwd)
sources=$here/../../docs/src/lib/src
CACHE=${CACHE:-$here/../target/original}
orig=rustc_1.63.0+dfsg1.orig.tar.xz
mkdir -p "$CACHE/bin" "$CACHE/src" "$CACHE/rlib" "$CACHE/rlib-spo2"

stamp=$(cd "$here" && { rustc --version; sha256sum build.sh lib.rs main.rs probe.rs ./*.sha256 standins/*.rs; cat "$sources"/*.rs; } | sha256sum)
if [ -f "$CACHE/stamp" ] && [ "$(cat "$CACHE/stamp")" = "$stamp" ]; then exit 0; fi
rm -f "$CACHE/stamp"

# --- datafrog, log and cfg-if: from Debian's source package of rustc (bookworm) ---
if ! [ -f "$CACHE/vendor/datafrog/src/lib.rs" ]; then
    if [ -n "${DEBSRC:-}" ]; then
        tarball=$DEBSRC/$orig
    else
        # The package sources as they are set on this machine, read as deb-src, with lists of their own.
        eval "$(apt-config shell PARTS Dir::Etc::sourceparts/d)"
        apt=$CACHE/apt
        mkdir -p "$apt/parts" "$apt/lists/partial" "$apt/archives/partial" "$apt/download"
        for f in "$PARTS"*.sources; do
            sed 's/^Types:.*/Types: deb-src/' "$f" > "$apt/parts/$(basename "$f")"
        done
        set -- -o Dir::Etc::sourcelist=/dev/null -o Dir::Etc::sourceparts="$apt/parts" \
            -o Dir::State::lists="$apt/lists" -o Dir::Cache="$apt" \
            -o Dir::Cache::archives="$apt/archives" -o APT::Sandbox::User=root
        apt-get "$@" update >&2
        (cd "$apt/download" && apt-get "$@" source --download-only rustc=1.63.0+dfsg1-2 >&2)
        tarball=$apt/download/$orig
    fi
    rm -rf "$CACHE/unpack" "$CACHE/vendor"
    mkdir -p "$CACHE/unpack"
    tar -xJf "$tarball" -C "$CACHE/unpack" rustc-1.63.0-src/vendor/datafrog \
        rustc-1.63.0-src/vendor/log rustc-1.63.0-src/vendor/cfg-if
    mv "$CACHE/unpack/rustc-1.63.0-src/vendor" "$CACHE/vendor"
    rm -rf "$CACHE/unpack"
fi
(cd "$CACHE/vendor" && sha256sum --quiet -c "$here/vendor.sha256")

# --- the four sources, unchanged; the probe stands behind the last line of reasoner.rs ---
(cd "$sources" && sha256sum --quiet -c "$here/sources.sha256")
cp "$sources/common.rs" "$sources/disjoint_sets.rs" "$sources/index.rs" "$CACHE/src/"
cat "$sources/reasoner.rs" "$here/probe.rs" > "$CACHE/src/reasoner.rs"
cmp -n "$(wc -c < "$sources/reasoner.rs")" "$sources/reasoner.rs" "$CACHE/src/reasoner.rs"
cp "$here/lib.rs" "$here/main.rs" "$here/standins/error.rs" "$CACHE/src/"

# --- compile ---
L=$CACHE/rlib
rlib() { # folder name edition file [more]
    d=$1; n=$2; e=$3; f=$4; shift 4
    rustc --crate-type rlib --crate-name "$n" --edition "$e" -C opt-level=3 --cap-lints allow \
        -L "$L" --out-dir "$d" "$f" "$@"
}
lib() { rlib "$L" "$@"; }
lib cfg_if 2018 "$CACHE/vendor/cfg-if/src/lib.rs"
lib log 2015 "$CACHE/vendor/log/src/lib.rs" --extern cfg_if="$L/libcfg_if.rlib" \
    --cfg atomic_cas --cfg has_atomics
lib datafrog 2018 "$CACHE/vendor/datafrog/src/lib.rs"
lib oxrdf 2021 "$here/standins/oxrdf.rs"
lib rio_api 2021 "$here/standins/rio_api.rs"
lib rio_turtle 2021 "$here/standins/rio_turtle.rs" --extern rio_api="$L/librio_api.rlib"
lib quick_xml 2021 "$here/standins/quick_xml.rs"
lib disjoint_sets 2021 "$here/standins/disjoint_sets.rs"
original() { # folder of the library, name of the program [more]
    folder=$1; program=$2; shift 2
    rlib "$folder" original 2021 "$CACHE/src/lib.rs" \
        --extern datafrog="$L/libdatafrog.rlib" --extern log="$L/liblog.rlib" \
        --extern oxrdf="$L/liboxrdf.rlib" --extern rio_api="$L/librio_api.rlib" \
        --extern rio_turtle="$L/librio_turtle.rlib" --extern quick_xml="$L/libquick_xml.rlib" \
        --extern disjoint_sets="$L/libdisjoint_sets.rlib" "$@"
    rustc --crate-name original_program --edition 2021 -C opt-level=3 -L "$L" \
        --extern original="$folder/liboriginal.rlib" --extern oxrdf="$L/liboxrdf.rlib" \
        -o "$CACHE/bin/$program" "$CACHE/src/main.rs"
}
original "$CACHE/rlib" original
original "$CACHE/rlib-spo2" original-spo2 --cfg 'feature="prp-spo2"'
printf '%s\n' "$stamp" > "$CACHE/stamp"
