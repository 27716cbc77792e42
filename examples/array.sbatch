#!/bin/bash
#SBATCH --job-name=markush
#SBATCH --array=1-4
#SBATCH --cpus-per-task=1
#SBATCH --output=answers_%a
#
# A task searches one shard of a collection: shard_0001.sdf for the first, and so on, each with at most 100,000 records. It
# works on the node's own disk, since a store on a shared one is slow and its locks aren't safe; what it writes is its hits.
#
#     sbatch --array=1-$(ls shard_*.sdf | wc -l) --export=ALL,CLAIM=claim.rgf array.sbatch
#
# A page that ends with `more C` is gone on with until one ends with `end`. A task that fails ends with the program's status
# and leaves no `end`: it can be run again by `sbatch --array=N`.
set -eu
program=${MARKUSH:-markush}
shard=$(printf 'shard_%04d.sdf' "$SLURM_ARRAY_TASK_ID")
scratch=$(mktemp -d "${SLURM_TMPDIR:-${TMPDIR:-/tmp}}/markush.XXXXXX")
trap 'rm -rf -- "$scratch"' EXIT
cp -- "$shard" "$scratch/shard.sdf"
cp -- "$CLAIM" "$scratch/claim"
cd -- "$scratch"
printf '%s\n' 'load shard.sdf' 'query claim claim' | "$program" --store store.db >kept
"$program" --store store.db search claim 10000 >page
while :; do
    sed -n '/^hit /p' page
    more=$(sed -n 's/^more //p' page)
    [ "$more" ] || break
    "$program" --store store.db resume "$more" 10000 >page
done
tail -n 1 page
