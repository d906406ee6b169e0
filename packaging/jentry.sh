#!/bin/sh
# Runs the program with the settings of glibc's allocator with which it is measured.
# The program knows no --help and no --version, so this command answers them itself. bin/release fills in both.
usage() {
  cat <<'END'
@USAGE@
END
}

asked=${1-}
case $asked in check | explain | run | serve) if [ $# -eq 2 ]; then asked=$2; fi ;; esac
case $asked in
  -h | --help) usage; exit 0 ;;
  --version) echo "jentry @VERSION@"; exit 0 ;;
  "") if [ $# -eq 0 ]; then usage >&2; exit 1; fi ;;
esac
here=$0
if [ -L "$here" ]; then here=$(readlink -f "$here"); fi
# A verdict allocates and frees some hundred small blocks. By default glibc caches seven of each size, and all others take a slower path.
export GLIBC_TUNABLES="${GLIBC_TUNABLES-glibc.malloc.tcache_count=200}"
# With glibc these settings keep the memory that a round frees for the next round. Fresh memory for each round costs as much as the calls.
export MALLOC_MMAP_THRESHOLD_="${MALLOC_MMAP_THRESHOLD_-33554432}" MALLOC_TRIM_THRESHOLD_="${MALLOC_TRIM_THRESHOLD_-67108864}"
exec "${here%/*}/../lib/jentry/jentry" "$@"
