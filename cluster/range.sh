#!/usr/bin/env bash
# One range of all inputs, as WORK/plan has it: WORK/ranges/NUMBER, the archive of their records in it.
# usage: range.sh WORK NUMBER
#
# The octets of the range are copied out of each input, `union` joins them, and `select` has to let all of the result
# through. So each piece of an input is an archive of records of its range; and since the pieces of an input are all of
# it, no record was cut, lost or put into another range, whatever the places of the cuts rest on.
#
# The result has its name only when it is whole. Pieces are in TMPDIR (/tmp); SYSLOGBOX names the program.
set -euo pipefail
export LC_ALL=C
program=${SYSLOGBOX:-syslogbox}
work=$1
name=$(printf %05d "$2")
out=$work/ranges/$name

die() {
    echo "range $name: $1" >&2
    exit 1
}

if [[ -e $out ]]; then
    echo "range $name: is there" >&2
    exit 0
fi
room=$(mktemp -d "${TMPDIR:-/tmp}/range.$name.XXXXXX")
part=$(mktemp "$work/ranges/.$name.XXXXXX")
trap 'rm -rf "$room" "$part"' EXIT

failed="union failed; its files are those of $work/plan/$name"
pieces=()
paths=()
sizes=()
{
    IFS=' ' read -r -a conditions
    while IFS= read -r line; do
        path=/${line#*/} # behind three numbers
        IFS=' ' read -r begin count size _ <<< "$line"
        piece=$room/${#pieces[@]}
        if ((count == size)); then
            piece=$path
        else
            dd if="$path" of="$piece" bs=1M status=none \
                iflag=skip_bytes,count_bytes,fullblock skip="$begin" count="$count"
        fi
        pieces+=("$piece")
        paths+=("$path")
        sizes+=("$size")
    done
} < "$work/plan/$name"

if ((${#pieces[@]})); then
    [[ $(stat -L -c %s "${paths[@]}" | paste -sd ' ') == "${sizes[*]}" ]] || die "an input has changed"
fi

# union opens 512 files at most
for ((round = 0; ${#pieces[@]} > 512; round++)); do
    joined=()
    for ((at = 0; at < ${#pieces[@]}; at += 512)); do
        "$program" union "${pieces[@]:at:512}" > "$room/$round.$at" || die "$failed"
        joined+=("$room/$round.$at")
    done
    pieces=("${joined[@]}")
done
if ((${#pieces[@]})); then
    "$program" union "${pieces[@]}" > "$part" || die "$failed"
    passed=$("$program" select "${conditions[@]}" < "$part" | wc -c)
    ((passed == $(stat -c %s "$part"))) || die "an input is cut wrongly; see plan.py --walk"
fi
chmod '=rw' "$part"
sync "$part"
mv -T "$part" "$out"
there=("$work"/ranges/?????)
all=("$work"/plan/?????)
echo "range $name: $(stat -c %s "$out") octets; ${#there[@]} of ${#all[@]} are there" >&2
