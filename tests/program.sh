#!/usr/bin/env bash
# Runs the program phrasecheck on every example of document 01 that it can show, on those of version 2 (request 104) and version 3 (request 106), on examples/
# and at the limits of its table and its input, and compares what it prints byte by byte, with the bells' lines (request 108). PHRASECHECK names another program
# than target/bin/phrasecheck, which `tools/build` builds.
set -euo pipefail
cd "$(dirname "$0")/.."
program=${PHRASECHECK:-target/bin/phrasecheck}
if [ ! -x "$program" ]; then
  echo "tests/program.sh: there is no program $program; \`tools/build program\` builds it" >&2
  exit 2
fi
folder=$(mktemp -d)
trap 'rm -rf "$folder"' EXIT
checks=0
failed=0

# ---- Files from hexadecimal ----

# digits: standard input without blanks and remarks.
digits() {
  sed 's/#.*//' | tr -d ' \n'
}

# bytes HEX: the bytes of pairs of hexadecimal digits.
bytes() {
  local hex
  hex=$(digits <<<"$1")
  if [[ ! $hex =~ ^([0-9A-F]{2})*$ ]]; then
    echo "tests/program.sh: not hexadecimal: $1" >&2
    exit 2
  fi
  # shellcheck disable=SC2001,SC2059
  printf "$(sed 's/../\\x&/g' <<<"$hex")"
}

# counted HEX [VERSION]: version, 01 if not given, and count before what the count counts.
counted() {
  local hex
  hex=$(digits <<<"$1")
  printf '%s %08X %s' "${2:-01}" $((${#hex} / 2)) "$hex"
}

# with HEX PLACE BYTE [PLACE BYTE]..: HEX with bytes changed.
with() {
  local hex
  hex=$(digits <<<"$1")
  shift
  while [ $# -ge 2 ]; do
    hex=${hex:0:2*$1}$2${hex:2*$1+2}
    shift 2
  done
  printf '%s' "$hex"
}

# ---- Comparing ----

# compare NAME EXPECTED FOUND: two files.
compare() {
  checks=$((checks + 1))
  if ! cmp -s "$2" "$3"; then
    failed=$((failed + 1))
    printf 'tests/program.sh: FAILED: %s\n--- due\n' "$1"
    head -c 400 "$2"
    printf -- '--- found\n'
    head -c 400 "$3"
    printf -- '---\n'
  fi
}

# prints NAME INPUT EXPECTED: the program, on the file INPUT, prints the file EXPECTED, complains of nothing and does not crash.
# Document 01 names no exit status, so any other is fine.
prints() {
  local status=0
  "$program" <"$2" >"$folder/out" 2>"$folder/err" || status=$?
  if [ "$status" -ge 126 ]; then
    echo "(exit status $status)" >>"$folder/err"
  fi
  compare "$1" "$3" "$folder/out"
  compare "$1: standard error" /dev/null "$folder/err"
}

# shows NAME HEX LINE..: the program prints these lines for these bytes.
shows() {
  local name=$1
  bytes "$2" >"$folder/in"
  shift 2
  printf '%s\n' "$@" >"$folder/due"
  prints "$name" "$folder/in" "$folder/due"
}

# ---- The examples that are kept as files ----

for example in phrase-p etude etude-down etude-heavy clockwork; do
  bytes "$(cat "examples/$example.hex")" >"$folder/in"
  compare "examples/$example.phrase is made of $example.hex" "$folder/in" "examples/$example.phrase"
  prints "examples/$example.phrase" "examples/$example.phrase" "examples/$example.report"
done

# ---- P, and the table of refusals ----

P='01 0000002D 01 02 3C0000020002 01 3E0C00040004 02 02 0D 3C 00000000 00000005 00000007 0D 4A 00000000 00000000 00000006'

shows 'P' "$P" \
  'stroke 0 key C4 bell 0 ends 2..7 response 2..7 due 7' \
  'stroke 1 key D5 bell 1 ends 4..6 response 4..6 due 6' \
  'bell 0 strokes 1 hold 2' 'bell 1 strokes 1 hold 4' \
  'accepted strokes 2 states 4 hold 6'
shows 'row 1' '09' 'refused 1 at 0'
shows 'row 2' '01 00 00' 'refused 2 at 0'
shows 'row 3' '01 00000001 01' 'refused 3 at 6'
shows 'row 4' '01 00000001 00' 'refused 4 at 5'
shows 'row 5' '01 00000002 01 00' 'refused 5 at 6'
shows 'row 6' "$(with "$P" 7 0B)" 'refused 6 at 7'
shows 'row 7' "$(with "$P" 15 FE)" 'refused 7 at 14'
shows 'row 8' "$(with "$P" 21 41)" 'refused 8 at 21'
shows 'row 9' "$(with "$P" 22 0C)" 'refused 9 at 22'
shows 'row 10' "$(with "$P" 37 3E)" 'refused 10 at 36'
shows 'row 11' "$(with "$P" 27 06)" 'refused 11 at 22'
shows 'row 12' "$(with "$P" 4 2E 36 0E) 01" 'refused 12 at 36'
shows 'row 14, M3' "$(with "$P" 35 06)" 'refused 14 stroke 0 ends 6..7'

# A note that breaks more than one of 11, 10 and 12, the first and the last. N is P from the driver count to the stroke count.
N='01 02 3C0000020002 01 3E0C00040004 02 02'
shows 'note 0, 10 and 11' "01 0000002D $N 0D 3D 00000006 00000005 00000007 0D 4A 00000000 00000000 00000006" 'refused 11 at 22'
shows 'note 0, 11 and 12' "01 0000002E $N 0E 3C 00000006 00000005 00000007 00 0D 4A 00000000 00000000 00000006" 'refused 11 at 22'
shows 'note 0, 10 and 12' "01 0000002E $N 0E 3D 00000000 00000005 00000007 00 0D 4A 00000000 00000000 00000006" 'refused 10 at 22'
shows 'note 0, all three' "01 0000002E $N 0E 3D 00000006 00000005 00000007 00 0D 4A 00000000 00000000 00000006" 'refused 11 at 22'
shows 'note 1, 10 and 11' "01 0000002D $N 0D 3C 00000000 00000005 00000007 0D 3E 00000001 00000000 00000006" 'refused 11 at 36'
shows 'note 1, 11 and 12' "01 0000002E $N 0D 3C 00000000 00000005 00000007 0E 4A 00000001 00000000 00000006 01" 'refused 11 at 36'
shows 'note 1, 10 and 12' "01 0000002E $N 0D 3C 00000000 00000005 00000007 0E 3E 00000000 00000000 00000006 01" 'refused 10 at 36'
shows 'note 1, all three' "01 0000002E $N 0D 3C 00000000 00000005 00000007 0E 3E 00000001 00000000 00000006 01" 'refused 11 at 36'
shows 'note 0 12, note 1 11' "01 0000002E $N 0E 3C 00000000 00000005 00000007 00 0D 4A 00000001 00000000 00000006" 'refused 12 at 22'

shows 'the empty file' '' 'refused 2 at 0'
shows 'a count one too large' "$(with "$P" 4 2E)" 'refused 2 at 0'
shows 'bytes remain' "$(with "$P" 4 2E) 00" 'refused 3 at 50'
shows 'due before it is called' "$(with "$P" 27 05 35 04)" 'refused 14 stroke 0 ends 7..7'

# ---- Version 2: P shifted down by four semitones and written as much higher, and the refusals, with the shift between 4 and 5 ----

S='02 0000002E 01 FC 02 3C0000020002 01 3E0C00040004 02 02 0D 40 00000000 00000005 00000007 0D 4E 00000000 00000000 00000006'

shows 'P shifted' "$S" \
  'stroke 0 key C4 bell 0 ends 2..7 response 2..7 due 7' \
  'stroke 1 key D5 bell 1 ends 4..6 response 4..6 due 6' \
  'bell 0 strokes 1 hold 2' 'bell 1 strokes 1 hold 4' \
  'accepted strokes 2 states 4 hold 6'
shows 'version 0' "$(with "$P" 0 00)" 'refused 1 at 0'
shows 'version 4' "$(with "$S" 0 04)" 'refused 1 at 0'
shows 'version 2, row 2' '02 00 00' 'refused 2 at 0'
shows 'version 2, no m' '02 00000000' 'refused 3 at 5'
shows 'version 2, row 4' '02 00000003 00 19 00' 'refused 4 at 5'
shows 'no shift' '02 00000001 01' 'refused 3 at 6'
for shift in 19 E7 7F 80; do
  shows "shift $shift" "$(with "$S" 6 "$shift")" 'refused 19 at 6'
  shows "shift $shift, no bell count" "02 00000002 01 $shift" 'refused 19 at 6'
  shows "shift $shift, no bells" "02 00000003 01 $shift 00" 'refused 19 at 6'
done
shows 'no bell count' '02 00000002 01 00' 'refused 3 at 7'
shows 'version 2, row 5' '02 00000003 01 00 00' 'refused 5 at 7'
shows 'version 2, row 6' "$(with "$S" 8 0B)" 'refused 6 at 8'
shows 'version 2, row 7' "$(with "$S" 16 FE)" 'refused 7 at 15'
shows 'version 2, row 8' "$(with "$S" 22 41)" 'refused 8 at 22'
shows 'version 2, row 9' "$(with "$S" 23 0C)" 'refused 9 at 23'
shows 'version 2, row 10' "$(with "$S" 38 42)" 'refused 10 at 37'
shows 'version 2, row 10, the shift' "$(with "$S" 6 FB)" 'refused 10 at 23'
shows 'version 2, row 11' "$(with "$S" 28 06)" 'refused 11 at 23'
shows 'version 2, row 12' "$(with "$S" 4 2F 37 0E) 01" 'refused 12 at 37'
shows 'version 2, note 0, 10 and 11' "$(with "$S" 24 3C 28 06)" 'refused 11 at 23'
shows 'version 2, note 1, 10 and 11' "$(with "$S" 38 42 42 01)" 'refused 11 at 37'
shows 'version 2, note 1, 10 and 12' "$(with "$S" 4 2F 37 0E 38 42) 01" 'refused 10 at 37'
shows 'version 2, note 1, all three' "$(with "$S" 4 2F 37 0E 38 42 42 01) 01" 'refused 11 at 37'
shows 'version 2, row 14' "$(with "$S" 36 06)" 'refused 14 stroke 0 ends 6..7'
shows 'version 2, bytes remain' "$(with "$S" 4 2F) 00" 'refused 3 at 51'

# ---- Version 3: P shifted, with rests of 7 and 5000, which do not matter, for no bell is struck twice. 8 + 2 * 9 + 1 + 2 * 14 = 55 bytes: bells at 8 and 17,
# their rests at 14 and 23, the stroke count at 26, notes at 27 and 41 ----

R='03 00000032 01 FC 02 3C0000020002 0007 01 3E0C00040004 1388 02 02 0D 40 00000000 00000005 00000007 0D 4E 00000000 00000000 00000006'

shows 'P rested' "$R" \
  'stroke 0 key C4 bell 0 ends 2..7 response 2..7 due 7' \
  'stroke 1 key D5 bell 1 ends 4..6 response 4..6 due 6' \
  'bell 0 strokes 1 hold 2' 'bell 1 strokes 1 hold 4' \
  'accepted strokes 2 states 4 hold 6'
shows 'P rested as version 4' "$(with "$R" 0 04)" 'refused 1 at 0'
shows 'P rested as version 0' "$(with "$R" 0 00)" 'refused 1 at 0'
shows 'version 3, row 2' '03 00 00' 'refused 2 at 0'
shows 'version 3, a count one too large' "$(with "$R" 4 33)" 'refused 2 at 0'
shows 'version 3, no m' '03 00000000' 'refused 3 at 5'
shows 'version 3, row 4' '03 00000003 00 19 00' 'refused 4 at 5'
shows 'version 3, no shift' '03 00000001 01' 'refused 3 at 6'
shows 'version 3, shift 25' "$(with "$R" 6 19)" 'refused 19 at 6'
shows 'version 3, shift -25, no bells' '03 00000003 01 E7 00' 'refused 19 at 6'
shows 'version 3, no bell count' '03 00000002 01 00' 'refused 3 at 7'
shows 'version 3, row 5' '03 00000003 01 00 00' 'refused 5 at 7'
shows 'version 3, 97 bells' '03 00000003 01 00 61' 'refused 5 at 7'
shows 'version 3, cut before the rest' '03 00000009 01 FC 01 3C0000020002' 'refused 3 at 8'
shows 'version 3, cut in the rest' '03 0000000A 01 FC 01 3C0000020002 00' 'refused 3 at 8'
shows 'version 3, cut after the rest' '03 0000000B 01 FC 01 3C0000020002 0007' 'refused 3 at 8'
shows 'version 3, cut after the bell' '03 0000000C 01 FC 01 3C0000020002 0007 01' 'refused 3 at 17'
shows 'version 3, bell 1 cut in the rest' '03 00000013 01 FC 02 3C0000020002 0007 01 3E0C00040004 13' 'refused 3 at 17'
shows 'version 3, row 6' "$(with "$R" 8 0B)" 'refused 6 at 8'
shows 'version 3, row 6, bell 1' "$(with "$R" 17 78)" 'refused 6 at 17'
for rest in '13 89' '14 00' '27 10' '80 00' 'FF FF'; do
  shows "rest $rest of bell 0" "$(with "$R" 14 "${rest% *}" 15 "${rest#* }")" 'refused 6 at 8'
  shows "rest $rest of bell 1" "$(with "$R" 23 "${rest% *}" 24 "${rest#* }")" 'refused 6 at 17'
done
shows 'version 3, row 7' "$(with "$R" 18 FE)" 'refused 7 at 17'
shows 'version 3, row 7, and a rest of 5001' "$(with "$R" 18 FE 24 89)" 'refused 6 at 17'
shows 'version 3, row 7, and a rest of 5127 of bell 0' "$(with "$R" 14 14 18 FE)" 'refused 6 at 8'
shows 'version 3, row 8' "$(with "$R" 26 41)" 'refused 8 at 26'
shows 'version 3, row 9' "$(with "$R" 27 0C)" 'refused 9 at 27'
shows 'version 3, row 10' "$(with "$R" 42 42)" 'refused 10 at 41'
shows 'version 3, row 10, the shift' "$(with "$R" 6 FB)" 'refused 10 at 27'
shows 'version 3, row 11' "$(with "$R" 32 06)" 'refused 11 at 27'
shows 'version 3, row 12' "$(with "$R" 4 33 41 0E) 01" 'refused 12 at 41'
shows 'version 3, note 0, 10 and 11' "$(with "$R" 28 3C 32 06)" 'refused 11 at 27'
shows 'version 3, note 1, 10 and 12' "$(with "$R" 4 33 41 0E 42 42) 01" 'refused 10 at 41'
shows 'version 3, row 14' "$(with "$R" 40 06)" 'refused 14 stroke 0 ends 6..7'
shows 'version 3, bytes remain' "$(with "$R" 4 33) 00" 'refused 3 at 55'

# A version with the bells of another. As version 3, P has a shift of 2 and 60 (3C) bells, the first of key 0; in P shifted the first bell rests for 318 (013E)
# and has rank 12, and the next one has key 0. As version 2, P rested has a first bell of rank 0 (the rest's first byte), and the next one has key 7 (its
# second); as version 1 it has 252 (FC) bells.
shows 'P as version 3' "$(with "$P" 0 03)" 'refused 6 at 8'
shows 'P shifted as version 3' "$(with "$S" 0 03)" 'refused 6 at 17'
shows 'P rested as version 2' "$(with "$R" 0 02)" 'refused 6 at 15'
shows 'P rested as version 1' "$(with "$R" 0 01)" 'refused 5 at 6'
# One bell, without notes. As version 2, the second byte of the rest is the number of strokes: of 7, the first has a length of 1; after none, two bytes remain.
# As version 3, the bell passes the end.
shows 'a bell of nine bytes as version 2' '02 0000000D 01 00 01 3C0000020002 0007 01 00' 'refused 9 at 16'
shows 'a bell of nine bytes as version 2, rest 0' '02 0000000D 01 00 01 3C0000020002 0000 01 00' 'refused 3 at 16'
shows 'a bell of seven bytes as version 3' '03 0000000B 01 00 01 3C0000020002 01 00' 'refused 3 at 8'

# ---- Rests that matter ----

# Two strokes of a bell that holds for 2..3 and rests for 5, on one driver. The first ends at 2..3, so the second is ready at 7..8, and ends at 9..11.
T='03 00000029 01 00 01 3C00 0002 0003 0005 01 02 0D 3C 00000000 00000000 00000003 0D 3C 00000000 00000000 0000000B'
twice=('stroke 0 key C4 bell 0 ends 2..3 response 2..3 due 3' 'stroke 1 key C4 bell 0 ends 9..11 response 9..11 due 11'
  'bell 0 strokes 2 hold 6' 'accepted strokes 2 states 3 hold 6')
shows 'a rest, just in time' "$T" "${twice[@]}"
shows 'a rest, on two drivers' "$(with "$T" 5 02)" "${twice[@]}"
shows 'a rest, its stroke listed too' "$(with "$T" 4 2A 32 0E) 00" "${twice[@]}"
shows 'a rest, a millisecond late' "$(with "$T" 45 0A)" 'refused 14 stroke 1 ends 9..11'
shows 'a rest, a millisecond longer' "$(with "$T" 15 06)" 'refused 14 stroke 1 ends 10..12'
shows 'a rest, a millisecond longer, its stroke listed too' "$(with "$T" 4 2A 15 06 32 0E) 00" 'refused 14 stroke 1 ends 10..12'
shows 'the longest rest' "$(with "$T" 14 13 15 88)" 'refused 14 stroke 1 ends 5004..5006'
shows 'the longest rest, in time' "$(with "$T" 14 13 15 88 44 13 45 8E)" \
  'stroke 0 key C4 bell 0 ends 2..3 response 2..3 due 3' \
  'stroke 1 key C4 bell 0 ends 5004..5006 response 5004..5006 due 5006' \
  'bell 0 strokes 2 hold 6' \
  'accepted strokes 2 states 3 hold 6'
shows 'a rest of 0' "$(with "$T" 15 00)" \
  'stroke 0 key C4 bell 0 ends 2..3 response 2..3 due 3' \
  'stroke 1 key C4 bell 0 ends 4..6 response 4..6 due 11' \
  'bell 0 strokes 2 hold 6' \
  'accepted strokes 2 states 3 hold 6'
# Called at 8..8, when the rest is over in any case, it ends at 10..11; at 7..7, it may have to wait for a millisecond, so it ends at 9..11.
shows 'a rest that is over' "$(with "$T" 37 08 41 08)" \
  'stroke 0 key C4 bell 0 ends 2..3 response 2..3 due 3' \
  'stroke 1 key C4 bell 0 ends 10..11 response 2..3 due 11' \
  'bell 0 strokes 2 hold 6' \
  'accepted strokes 2 states 3 hold 6'
shows 'a rest that is nearly over' "$(with "$T" 37 07 41 07)" \
  'stroke 0 key C4 bell 0 ends 2..3 response 2..3 due 3' \
  'stroke 1 key C4 bell 0 ends 9..11 response 2..4 due 11' \
  'bell 0 strokes 2 hold 6' \
  'accepted strokes 2 states 3 hold 6'

# Two strokes of a bell of rank 1 that holds for 2 and rests for 5, and a lesser stroke, of rank 2, that holds for 3..9. At 2 the second is not ready before 7,
# so the lesser one starts, and ends at 5..11; then the second starts at 7..11. Without the rest the second starts at 2 and the lesser one at 4.
# The lesser stroke may list the first: then both wait for it, but only the second with its rest, so that thigh is 2 + 5 = 7 all the same.
L='03 00000040 01 00 02 3C00 0002 0002 0005 01 3E00 0003 0009 0000 02
  03 0D 3C 00000000 00000000 00000002 0D 3C 00000000 00000000 0000000D 0D 3E 00000000 00000000 0000000B'
lesser=('stroke 0 key C4 bell 0 ends 2..2 response 2..2 due 2' 'stroke 1 key C4 bell 0 ends 9..13 response 9..13 due 13'
  'stroke 2 key D4 bell 1 ends 5..11 response 5..11 due 11' 'bell 0 strokes 2 hold 4' 'bell 1 strokes 1 hold 9' 'accepted strokes 3 states 4 hold 13')
shows 'a lesser stroke between' "$L" "${lesser[@]}"
shows 'a lesser stroke between, which shares a wait' "$(with "$L" 4 41 55 0E) 00" "${lesser[@]}"
shows 'a lesser stroke between, its own bell rests' "$(with "$L" 23 13 24 88)" "${lesser[@]}"
shows 'a lesser stroke between, the second late' "$(with "$L" 54 0C)" 'refused 14 stroke 1 ends 9..13'
shows 'a lesser stroke between, the second late, which shares a wait' "$(with "$L" 4 41 54 0C 55 0E) 00" 'refused 14 stroke 1 ends 9..13'
shows 'a lesser stroke after both, for want of a rest' "$(with "$L" 15 00)" 'refused 14 stroke 2 ends 7..13'
shows 'a lesser stroke after both, in time' "$(with "$L" 15 00 68 0D)" \
  'stroke 0 key C4 bell 0 ends 2..2 response 2..2 due 2' \
  'stroke 1 key C4 bell 0 ends 4..4 response 4..4 due 13' \
  'stroke 2 key D4 bell 1 ends 7..13 response 7..13 due 13' \
  'bell 0 strokes 2 hold 4' 'bell 1 strokes 1 hold 9' \
  'accepted strokes 3 states 4 hold 13'

# The lesser stroke holds for 3 and is called at 0..20. When the first has ended, at 2, the second starts at 7 or the lesser one at 2..6, before 7. After the
# second, the driver is free at 9, and the lesser one starts at 9..20 and ends at 12..23; after the lesser one it is free at 5..9, and the second starts at 7..9
# and ends at 9..11. That is two states in level 2, and two in level 3, for 12..23 and 9..11 do not meet. It may list the first here, too.
E='03 00000040 01 00 02 3C00 0002 0002 0005 01 3E00 0003 0003 0000 02
  03 0D 3C 00000000 00000000 00000002 0D 3C 00000000 00000000 0000000B 0D 3E 00000000 00000014 00000017'
either=('stroke 0 key C4 bell 0 ends 2..2 response 2..2 due 2' 'stroke 1 key C4 bell 0 ends 9..11 response 9..11 due 11'
  'stroke 2 key D4 bell 1 ends 5..23 response 5..23 due 23' 'bell 0 strokes 2 hold 4' 'bell 1 strokes 1 hold 3' 'accepted strokes 3 states 6 hold 7')
shows 'either order' "$E" "${either[@]}"
shows 'either order, which shares a wait' "$(with "$E" 4 41 55 0E) 00" "${either[@]}"
# The second stroke's edges are 9..9 and then 9..11.
shows 'either order, the second late' "$(with "$E" 54 0A)" 'refused 14 stroke 1 ends 9..11'

# Shared the other way: a stroke of rank 1 lists the first, which holds for 2..4, and has no rest of its own; the second, of rank 2, waits for the first and its
# rest of 1. So that wait is left out of what holds the second back: thigh is 0, when the other one is called. That one starts at 2..4 and ends at 5..7, the
# second starts at 5..7. Were it not left out, the second might start at 3, before 4.
G='03 00000041 01 00 02 3C00 0002 0004 0001 02 3E00 0003 0003 0000 01
  03 0D 3C 00000000 00000000 00000004 0D 3C 00000000 00000000 0000000B 0E 3E 00000000 00000000 00000007 00'
greater=('stroke 0 key C4 bell 0 ends 2..4 response 2..4 due 4' 'stroke 1 key C4 bell 0 ends 7..11 response 7..11 due 11'
  'stroke 2 key D4 bell 1 ends 5..7 response 5..7 due 7' 'bell 0 strokes 2 hold 8' 'bell 1 strokes 1 hold 3' 'accepted strokes 3 states 4 hold 11')
shows 'a greater stroke that shares a wait' "$G" "${greater[@]}"
shows 'a greater stroke that shares a wait, no rest' "$(with "$G" 15 00)" "${greater[@]}"
shows 'a greater stroke that shares a wait, its own bell rests' "$(with "$G" 24 09)" "${greater[@]}"
shows 'a greater stroke that shares a wait, a long rest' "$(with "$G" 15 09)" 'refused 14 stroke 1 ends 13..17'

# On two drivers: a bell of rank 1 that holds for 2..3 and rests for 4, twice, and one of rank 2 that holds for 10. That one starts at 0 on the other driver,
# and the second stroke is ready at 6..7.
shows 'a rest beside another driver' '03 00000040 02 00 02 3C00 0002 0003 0004 01 3E00 000A 000A 0000 02
  03 0D 3C 00000000 00000000 00000003 0D 3C 00000000 00000000 0000000A 0D 3E 00000000 00000000 0000000A' \
  'stroke 0 key C4 bell 0 ends 2..3 response 2..3 due 3' \
  'stroke 1 key C4 bell 0 ends 8..10 response 8..10 due 10' \
  'stroke 2 key D4 bell 1 ends 10..10 response 10..10 due 10' \
  'bell 0 strokes 2 hold 6' 'bell 1 strokes 1 hold 10' \
  'accepted strokes 3 states 4 hold 16'

# Row 13 with 16,384 words: on one driver any of K strokes may go first, so level 1 has K states. There is room for 62 with K = 64, for 63 with K = 63. In
# version 3 each bell rests for 5000 after its only stroke.
all_go_first() {
  local bells='' notes='' key shift='' rest=''
  if [ "${2:-01}" = 03 ]; then
    shift=00 rest=1388
  fi
  for ((key = 12; key < 12 + $1; key++)); do
    bells+=$(printf '%02X 00 0001 0001 %s 01 ' "$key" "$rest")
    notes+=$(printf '0D %02X 00000000 00000064 0036EE80 ' "$key")
  done
  counted "$(printf '01 %s %02X %s %02X %s' "$shift" "$1" "$bells" "$1" "$notes")" "${2:-01}"
}
for version in 01 03; do
  shows "version $version, row 13, 64 strokes" "$(all_go_first 64 "$version")" 'refused 13 level 1'
  shows "version $version, row 13, 63 strokes" "$(all_go_first 63 "$version")" 'refused 13 level 2'
done

# All of 16,384 words, and no more. Three bells of one rank, hold 1, whose strokes are called 0..1000, may go in any order that keeps each bell's own, so
# there is a state for each choice of three counts. With 44, 15 and 3 strokes these are 45 * 16 * 4, at most 64 in a level, first where the counts make 18;
# a state takes 128 words, so that 16,384 have room for just 64, and one word less would be 13 at level 18. With 21, 9 and 9 strokes a level has up to
# 100 states of 82 words, 100 first where the counts make 18; that needs 16,400 words. In the first phrase, stroke j of a bell ends at j + 1 at the
# earliest, after those before it on the bell; stroke i of all at 1001 + i at the latest, when all are called at 1000 and go by number.
in_any_order() {
  local bells='' notes='' key=60 count strokes=0 j
  for count in "$@"; do
    bells+=$(printf '%02X 00 0001 0001 01 ' "$key")
    for ((j = 0; j < count; j++)); do
      notes+=$(printf '0D %02X 00000000 000003E8 0036EE80 ' "$key")
    done
    key=$((key + 1))
    strokes=$((strokes + count))
  done
  counted "$(printf '01 %02X %s %02X %s' $# "$bells" "$strokes" "$notes")"
}
lines=()
bell=0
for origin in '44 C4' '15 C#4' '3 D4'; do
  for ((j = 0; j < ${origin% *}; j++)); do
    ends=$((j + 1))..$((1001 + ${#lines[@]}))
    lines+=("stroke ${#lines[@]} key ${origin#* } bell $bell ends $ends response $ends due 3600000")
  done
  bell=$((bell + 1))
done
shows 'all of 16,384 words' "$(in_any_order 44 15 3)" "${lines[@]}" \
  'bell 0 strokes 44 hold 44' 'bell 1 strokes 15 hold 15' 'bell 2 strokes 3 hold 3' \
  'accepted strokes 62 states 2880 hold 62'
shows 'no more than 16,384 words' "$(in_any_order 21 9 9)" 'refused 13 level 18'

# ---- The marked phrases; M2 is P and M3 row 14, M4 needs a table of another size ----

hour=0036EE80 # 3600000

shows 'M1' "$(counted "01 02 3C00 0001 0002 01 3E00 0003 0003 02 02 0D 3C 00000000 00000000 $hour 0D 3E 00000000 00000000 $hour")" \
  'stroke 0 key C4 bell 0 ends 1..2 response 1..2 due 3600000' \
  'stroke 1 key D4 bell 1 ends 4..5 response 4..5 due 3600000' \
  'bell 0 strokes 1 hold 2' 'bell 1 strokes 1 hold 3' \
  'accepted strokes 2 states 3 hold 5'
shows 'M5' "$(counted "02 03 3C00 0002 0002 01 3E00 0005 0005 02 4000 0001 0003 03
    03 0D 3C 00000000 00000000 $hour 0D 3E 00000000 00000000 $hour 0D 40 00000000 00000000 $hour")" \
  'stroke 0 key C4 bell 0 ends 2..2 response 2..2 due 3600000' \
  'stroke 1 key D4 bell 1 ends 5..5 response 5..5 due 3600000' \
  'stroke 2 key E4 bell 2 ends 3..5 response 3..5 due 3600000' \
  'bell 0 strokes 1 hold 2' 'bell 1 strokes 1 hold 5' 'bell 2 strokes 1 hold 3' \
  'accepted strokes 3 states 4 hold 10'
shows 'M6' "$(counted "02 03 3C00 0002 0004 02 3E00 0001 0001 01 4000 0002 0002 03
    03 0D 3C 00000000 00000000 $hour 0E 3E 00000000 00000000 $hour 00 0D 40 00000003 00000003 $hour")" \
  'stroke 0 key C4 bell 0 ends 2..4 response 2..4 due 3600000' \
  'stroke 1 key D4 bell 1 ends 3..5 response 3..5 due 3600000' \
  'stroke 2 key E4 bell 2 ends 5..6 response 2..3 due 3600000' \
  'bell 0 strokes 1 hold 4' 'bell 1 strokes 1 hold 1' 'bell 2 strokes 1 hold 2' \
  'accepted strokes 3 states 5 hold 7'
shows 'M7' "$(counted "01 02 3C00 0001 0001 01 3E00 0001 0001 01 02 0D 3C 00000000 00000000 $hour 0D 3E 00000000 00000000 $hour")" \
  'stroke 0 key C4 bell 0 ends 1..1 response 1..1 due 3600000' \
  'stroke 1 key D4 bell 1 ends 2..2 response 2..2 due 3600000' \
  'bell 0 strokes 1 hold 1' 'bell 1 strokes 1 hold 1' \
  'accepted strokes 2 states 3 hold 2'
shows 'M8' "$(counted '01 01 3C00 0001 0001 01 00')" 'accepted strokes 0 states 1 hold 0'

# ---- The bells' lines: bell 3, which holds for 20..40, is struck before bell 2 (3..5), again between that and bell 0 (1..2), and last, and bell 1 never. Each
# stroke is called when the one before it has long ended, so it ends its bell's hold after its call. Lines rise by bell, and have the longest holds ----

shows 'bells in falling order' "$(counted '01 04 3C00 0001 0002 01 3E00 0007 0008 01 4000 0003 0005 01 4100 0014 0028 01
    05 0D 41 00000000 00000000 00000028 0D 40 00001770 00001770 00001775 0D 41 00002EE0 00002EE0 00002F08
    0D 3C 00004650 00004650 00004652 0D 41 00005DC0 00005DC0 00005DE8')" \
  'stroke 0 key F4 bell 3 ends 20..40 response 20..40 due 40' \
  'stroke 1 key E4 bell 2 ends 6003..6005 response 3..5 due 6005' \
  'stroke 2 key F4 bell 3 ends 12020..12040 response 20..40 due 12040' \
  'stroke 3 key C4 bell 0 ends 18001..18002 response 1..2 due 18002' \
  'stroke 4 key F4 bell 3 ends 24020..24040 response 20..40 due 24040' \
  'bell 0 strokes 1 hold 2' 'bell 2 strokes 1 hold 5' 'bell 3 strokes 3 hold 120' \
  'accepted strokes 5 states 6 hold 127'

# ---- Names: a phrase of one stroke for every key, 12 to 119, as it is written, and shifted there from key 24, 73 or 122 ----

names=(C C# D D# E F F# G G# A A# B)
for ((key = 12; key < 120; key++)); do
  shows "the name of key $key" "$(counted "$(printf '01 01 %02X 00 0001 0001 00 01 0D %02X 00000000 00000000 00000001' "$key" "$key")")" \
    "stroke 0 key ${names[key % 12]}$((key / 12 - 1)) bell 0 ends 1..1 response 1..1 due 1" \
    'bell 0 strokes 1 hold 1' 'accepted strokes 1 states 2 hold 1'
  shift=$((key % 49 - 24))
  shows "the name of key $key, shifted by $shift" "$(counted "$(printf '01 %02X 01 %02X 00 0001 0001 00 01 0D %02X 00000000 00000000 00000001' \
    $((shift & 255)) "$key" $((key - shift)))" 02)" \
    "stroke 0 key ${names[key % 12]}$((key / 12 - 1)) bell 0 ends 1..1 response 1..1 due 1" \
    'bell 0 strokes 1 hold 1' 'accepted strokes 1 states 2 hold 1'
done

# ---- The limit of the input ----

# padded HEX LENGTH: a file of this length, zeros at its end.
padded() {
  bytes "$1" >"$folder/in"
  truncate -s "$2" "$folder/in"
}
echo 'input too long' >"$folder/too-long"
echo 'refused 3 at 50' >"$folder/remain"
echo 'refused 1 at 0' >"$folder/version"

padded "$(with "$P" 3 0F 4 FB)" 4096
prints '4,096 bytes, the count right' "$folder/in" "$folder/remain"
padded '09' 4096
prints '4,096 bytes, another version' "$folder/in" "$folder/version"
padded "$(with "$P" 3 0F 4 FC)" 4097
prints '4,097 bytes, the count right' "$folder/in" "$folder/too-long"
padded '09' 4097
prints '4,097 bytes, another version' "$folder/in" "$folder/too-long"
padded "$P" 1000000
prints '1,000,000 bytes' "$folder/in" "$folder/too-long"

# ---- Input that comes in pieces; as above, the exit status of a refusal is free ----

{
  head -c 20 examples/phrase-p.phrase
  sleep 0.2
  tail -c +21 examples/phrase-p.phrase
} | "$program" >"$folder/out" || true
compare 'P in two pieces' examples/phrase-p.report "$folder/out"
{
  head -c 4096 /dev/zero
  sleep 0.2
  head -c 1 /dev/zero
} | "$program" >"$folder/out" || true
compare '4,097 bytes in two pieces' "$folder/too-long" "$folder/out"

if [ "$failed" -ne 0 ]; then
  echo "tests/program.sh: $failed of $checks checks failed"
  exit 1
fi
echo "tests/program.sh: $checks checks passed"
