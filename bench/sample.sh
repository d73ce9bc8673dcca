#!/bin/sh
# Tries the built program over real folders: `list`, `search`, `solve` and a request without a solution on the sample in crates/conda/data, the refutation
# that it prints through `refute`, whole and without its first line, and channels that are missing, cut or too long. It prints what differs from what is
# wanted, and ends with status 1 if something does.
set -u
top=$(cd "$(dirname "$0")/.." && pwd)
work=$(mktemp -d)
trap 'rm -rf "$work"' EXIT
(cd "$top/crates/conda" && rt run -- --version > "$work/built" 2>&1) || { cat "$work/built"; exit 1; }
conda="$top/crates/conda/out/conda"
data="$top/crates/conda/data"
failed=0

# wants STATUS WORD..: the wanted text stands on the standard input
wants() {
    status=$1
    shift
    cat > "$work/wanted"
    "$conda" "$@" > "$work/printed" < "${input:-/dev/null}"
    got=$?
    if [ "$got" != "$status" ] || ! cmp -s "$work/wanted" "$work/printed"; then
        echo "conda $*: status $got, wanted $status"
        diff "$work/wanted" "$work/printed"
        failed=1
    fi
}

wants 0 --root "$data" list -p /e <<'TEXT'
# packages in environment at /e:
a 1.0 0
zlib 1.2.13 h1_0
TEXT
wants 0 search --channels "$data/channels" -c sample 'n*' <<'TEXT'
numpy 1.22.3 py310_0 sample/linux-64
numpy 1.21.5 py39_0 sample/linux-64
TEXT
wants 1 search --channels "$data/channels" -c sample 'numpy>2' <<'TEXT'
no match
TEXT
wants 0 solve --channels "$data/channels" -c sample tool <<'TEXT'
libz 1.2.13 h2_0 sample/linux-64
numpy 1.22.3 py310_0 sample/linux-64
python 3.10.0 h1_0 sample/linux-64
tool 2.1 py_0 sample/noarch
TEXT
"$conda" solve --channels "$data/channels" -c sample python=3.9 'numpy>=1.22' > "$work/report"
sed '1,/^refutation:/d' "$work/report" > "$work/log"
input=$work/log wants 0 refute <<'TEXT'
refuted
TEXT
sed 1d "$work/log" > "$work/cut"
"$conda" refute < "$work/cut" > "$work/printed"
case $(cat "$work/printed") in
    "not refuted: step "*) ;;
    *) echo "a refutation without its first line: $(cat "$work/printed")"; failed=1 ;;
esac
wants 3 search --channels "$data/channels" -c other a <<'TEXT'
missing: other
TEXT
mkdir -p "$work/channels/cut/noarch" "$work/channels/long/linux-64"
printf '{"packages' > "$work/channels/cut/noarch/repodata.json"
truncate -s 268435457 "$work/channels/long/linux-64/repodata.json"
wants 2 search --channels "$work/channels" -c cut a <<'TEXT'
bad repodata cut/noarch/repodata.json: json
TEXT
wants 2 search --channels "$work/channels" -c long a <<'TEXT'
too long: long/linux-64/repodata.json 268435456
TEXT
[ "$failed" = 0 ] && echo "all as wanted"
exit $failed
