#!/usr/bin/env bash
# Measures the reading and judging of large profiles: the proved program, and the ordinary Rust program of bench/plain
# as two yardsticks, once as it is and once with a table of all pairs that it counts while it reads. Prints a table as
# in bench/RESULTS.md.
set -u
. "$(dirname "$0")/common.sh"

# elect looks at no ballot, so that reading and judging alone is measured
printf 'r = elect;\n' >"$room/rule"
yardstick plain && yardstick plain_pairs --cfg pairs_while_reading ||
  echo "bench: no rustc, so there are no yardsticks" >&2
head_of Profile
shape "1,000,000 lines of 10" 1000000 10 , '\n'
shape "20,000 lines of 128" 20000 128 , '\n'
shape "300,000 lines of 3" 300000 3 , '\n'
shape "300,000 lines of 3, ended by CR LF" 300000 3 , '\r\n'
shape "300,000 lines of 3, a space behind each comma" 300000 3 ', ' '\n'
