#!/bin/sh
# make.sh [SCRATCH]
# Makes the data of this folder and the sample shards of the program `recover` again, byte for byte.
# SCRATCH is a folder for programs and long lists; without it a temporary one is used and removed.
# CRATE_RELEASE and CRATE_CHECKED name the two programs that ask the crate (see README.md); without
# them crate-answers.txt stays as it is.
set -eu
cd "$(dirname "$0")"
shards=../../crates/recover/data/shards
count=8000
export PYTHONDONTWRITEBYTECODE=1

if [ $# -gt 0 ]; then
  mkdir -p "$1"; scratch=$(cd "$1" && pwd)
else
  scratch=$(mktemp -d); trap 'rm -rf "$scratch"' EXIT
fi

# What is needed: a C compiler, python3 and libisal
for need in cc python3; do
  command -v $need >/dev/null || { echo "make.sh: no $need" >&2; exit 1; }
done
if ! echo '#include <isa-l.h>' | cc -E - >/dev/null 2>&1; then
  apt-get update -q && apt-get install -q -y libisal-dev
fi
for program in make_shards make_parity; do
  cc -std=c11 -D_GNU_SOURCE -O1 -Wall -Wextra $program.c -lisal -o "$scratch/$program"
done

# The block, its shards (two are left out) and what a reader should find
python3 make_block.py 1000 > block-1000.bin
rm -rf "$scratch/all"; mkdir -p "$scratch/all"
"$scratch/make_shards" rs 6 3 64 block-1000.bin "$scratch/all"
mkdir -p "$shards"; rm -f "$shards"/shard-*
for i in 0 1 3 4 5 6 8; do cp "$scratch/all/shard-$i" "$shards/"; done
python3 model.py account "$scratch/all" rs 6 3 64 block-1000.bin 2 7 > expected.txt
python3 model.py recover "$shards" rs 6 3 64 1000 | cmp - block-1000.bin

# Other shapes: dealt by make_shards, two or one shards taken away, put together by the model
for shape in "rs 3 2 4 30" "rs 3 2 4 26" "rs 3 2 4 25" "rs 1 2 5 13" "rs 10 4 16 1601" "rs 14 2 1 29" \
  "rs 2 14 33 100" "xor 2 1 8 37" "xor 15 1 3 44" "xor 1 1 1 2"; do
  set -- $shape
  rm -rf "$scratch/one"; mkdir "$scratch/one"
  python3 make_block.py "$5" > "$scratch/block"
  "$scratch/make_shards" "$1" "$2" "$3" "$4" "$scratch/block" "$scratch/one"
  rm "$scratch/one/shard-0"
  [ "$1" = xor ] || rm "$scratch/one/shard-$(($2 == 1 ? 2 : 1))"
  python3 model.py recover "$scratch/one" "$1" "$2" "$3" "$4" "$5" | cmp - "$scratch/block"
done

# Parity by libisal: 3,000 lines, kept are the first 24 (limits) and the first of each shape
"$scratch/make_parity" 3000 > "$scratch/parity.txt"
python3 model.py parity "$scratch/parity.txt"
{
  echo "# Parity made by libisal (make_parity.c): a sample. Bytes are hex, two digits a byte."
  echo "# encode D P CELL*D => PARITY*P    ec_encode_data over gf_gen_cauchy1_matrix"
  echo "# xor D CELL*D => PARITY           xor_gen"
  awk '{ shape = $1 == "xor" ? "xor " $2 : $2 "+" $3 } NR <= 24 || !(shape in seen) { print } { seen[shape] }' \
    "$scratch/parity.txt"
} > ../../crates/replay/data/parity-isal.txt

# The crate's answers
if [ -n "${CRATE_RELEASE:-}" ] && [ -n "${CRATE_CHECKED:-}" ]; then
  python3 ask.py "$CRATE_RELEASE" "$CRATE_CHECKED" $count ../../crates/replay/data/crate-answers.txt
else
  echo "crate-answers.txt is left as it is: CRATE_RELEASE and CRATE_CHECKED are not set"
fi
