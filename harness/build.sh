#!/bin/sh
# Builds the harness with plain rustc, no crates from a registry: build.sh PROGRAM...
#
#   PORT    the static library with the port's entry points, or "model" for the model in its place. Unset: the library that
#           `harness/archive edge_c` makes, and where the repository has no crate edge_c_c yet, the model.
#
# A program NAME is programs/NAME.rs or programs/NAME/main.rs, or tablestork-test, the safe crate's own tests. It goes to
# target/bin-port/NAME or target/bin-model/NAME, and its path is printed.
set -eu
here=$(cd "$(dirname "$0")" && pwd)
target=$here/target
L=$target/lib
if [ -z "${PORT:-}" ]; then
    if [ -d "$here/../crates/edge_c_c" ]; then
        PORT=$("$here/archive" edge_c)
    else
        PORT=model
        echo "harness: no crate edge_c_c yet: the model stands in for the port" >&2
    fi
fi
"$here/original/build.sh"

case $PORT in
model) which=model; link=; cfg="--cfg stand_in" ;;
*) which=port; link="-L native=$(cd "$(dirname "$PORT")" && pwd) -l static=$(basename "$PORT" .a | sed 's/^lib//')"; cfg= ;;
esac
out=$target/bin-$which
mkdir -p "$L" "$L/$which" "$out"

# Nothing is made again that is newer than all sources.
fresh() { # made
    [ -e "$1" ] && [ -z "$(find "$here" -path "$target" -prune -o \( -name '*.rs' -o -name '*.sh' \) -newer "$1" -print -quit)" ] &&
        [ "$target/original/stamp" -ot "$1" ] && { [ "$PORT" = model ] || [ "$PORT" -ot "$1" ]; }
}
compile() { # made [rustc's arguments]
    made=$1; shift
    fresh "$made" || rustc --edition 2021 -C opt-level=3 -L "$L" -L "$target/original/rlib" "$@" -o "$made"
}
lib() { # name file [more]
    n=$1; f=$2; shift 2
    compile "$L/lib$n.rlib" --crate-type rlib --crate-name "$n" "$here/$f" "$@"
}
lib model model/lib.rs
lib generate generate/lib.rs --extern model="$L/libmodel.rlib"
lib stand_in stand_in.rs --extern model="$L/libmodel.rlib"
tablestork() { # made, kind of crate
    # shellcheck disable=SC2086
    compile "$1" $2 --crate-name tablestork "$here/tablestork/lib.rs" --extern stand_in="$L/libstand_in.rlib" $cfg $link
}
tablestork "$L/$which/libtablestork.rlib" "--crate-type rlib"
for program in "$@"; do
    if [ "$program" = tablestork-test ]; then
        tablestork "$out/$program" --test
        echo "$out/$program"
        continue
    fi
    source=$here/programs/$program.rs
    [ -f "$source" ] || source=$here/programs/$program/main.rs
    compile "$out/$program" --crate-name "$program" "$source" \
        --extern model="$L/libmodel.rlib" --extern generate="$L/libgenerate.rlib" \
        --extern tablestork="$L/$which/libtablestork.rlib" --extern original="$target/original/rlib/liboriginal.rlib"
    echo "$out/$program"
done
