# Sourced by the scripts beside it. `build NAME CRATE..` makes a program of its own, whose `main.rt` stands on standard input,
# over these crates of the repository, in a folder that is erased at the end; `$program` is then its path.
top=$(cd "$(dirname "$0")/.." && pwd)
work=$(mktemp -d)
trap 'rm -rf "$work"' EXIT

build() {
    name=$1
    shift
    mkdir -p "$work/crates/$name/src"
    cat > "$work/crates/$name/src/main.rt"
    : > "$work/crates.txt"
    for crate in "$@"; do
        mkdir "$work/crates/$crate"
        cp -r "$top/crates/$crate/src" "$work/crates/$crate/"
        for part in specs proofs; do
            if [ -d "$top/crates/$crate/$part" ]; then cp -r "$top/crates/$crate/$part" "$work/crates/$crate/"; fi
        done
        grep "^$crate:" "$top/crates.txt" >> "$work/crates.txt"
    done
    echo "$name: $*" >> "$work/crates.txt"
    cp "$top/HANDLES" "$work/"
    (cd "$work/crates/$name" && rt run -- none > "$work/built" 2>&1) || true
    program="$work/crates/$name/out/$name"
    if [ ! -x "$program" ]; then
        cat "$work/built"
        exit 1
    fi
}
