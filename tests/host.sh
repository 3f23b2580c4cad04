#!/usr/bin/env bash
# Builds the C side over the proved library and runs it: host/player.c and host/editor.c on files good and bad, tests/host/buffers.c on buffers of all kinds,
# tests/host/edits.c on phrases, tests/host/playings.c on playings, and tests/host/names.c, which provokes every name of the header, all six plainly, with
# gcc's sanitizers and under valgrind, where these are there; tests/host/threads.c; tests/host/stack.c, which measures the stack; tests/host/growth.c; wrong
# headers; the C of README.md; and the header from C++ where g++ is. PHRASE_LIB names another library than target/staticlib/libphrase.a, which
# `tools/build` writes; LDLIBS adds to what is linked. What is left out for want of a tool is said, and also appended to the file that LEFT_OUT names,
# a line each.
set -euo pipefail
cd "$(dirname "$0")/.."
library=$(realpath -m "${PHRASE_LIB:-target/staticlib/libphrase.a}")
if [ ! -f "$library" ]; then
  echo "tests/host.sh: there is no library $library; \`tools/build library\` writes it" >&2
  exit 2
fi
folder=$(mktemp -d)
trap 'rm -rf "$folder"' EXIT
read -ra libraries <<<"${LDLIBS:-}"
checks=0
failed=0

# left_out WHAT WHY: notes what is not tried here.
left_out() {
  echo "tests/host.sh: note: $2"
  if [ -n "${LEFT_OUT:-}" ]; then
    echo "$1" >>"$LEFT_OUT"
  fi
}

# verdict NAME STATUS [LOG]: counts a check; a status other than 0 fails it, and then the log is shown.
verdict() {
  checks=$((checks + 1))
  if [ "$2" -ne 0 ]; then
    failed=$((failed + 1))
    echo "tests/host.sh: FAILED: $1"
    if [ $# -gt 2 ]; then
      head -n 25 "$3"
    fi
  fi
}

# passes NAME COMMAND..: the command ends with status 0.
passes() {
  local name=$1 status=0
  shift
  "$@" >"$folder/log" 2>&1 || status=$?
  verdict "$name" "$status" "$folder/log"
  return "$status"
}

# same NAME EXPECTED FOUND: two files, byte by byte.
same() {
  local status=0
  cmp "$2" "$3" >"$folder/log" 2>&1 || status=1
  if [ "$status" -ne 0 ]; then
    { echo '--- due'; head -c 400 "$2"; echo '--- found'; head -c 400 "$3"; } >>"$folder/log"
  fi
  verdict "$1" "$status" "$folder/log"
}

# build NAME SOURCE OUTPUT [FLAG]..: compiles and links, every warning an error.
build() {
  local name=$1 source=$2 output=$3
  shift 3
  passes "$name" gcc -std=c99 -Wall -Wextra -Wpedantic -Werror "$@" -I host "$source" "$library" "${libraries[@]}" -o "$output"
}

# runs NAME STATUS TEXT COMPLAINT COMMAND..: the command ends with this status, with TEXT on standard output and COMPLAINT on standard error.
runs() {
  local name=$1 due=$2 status=0
  printf '%b' "$3" >"$folder/text"
  printf '%b' "$4" >"$folder/complaint"
  shift 4
  "$@" >"$folder/out" 2>"$folder/err" || status=$?
  [ "$status" -eq "$due" ] || echo "(exit status $status, not $due)" >>"$folder/err"
  same "$name: standard output" "$folder/text" "$folder/out"
  same "$name: standard error" "$folder/complaint" "$folder/err"
}

# ---- Files for the player ----

p=examples/phrase-p.phrase
etude=examples/etude.phrase
down=examples/etude-down.phrase
heavy=examples/etude-heavy.phrase
clockwork=examples/clockwork.phrase
: >"$folder/empty"
{ head -c 35 "$p"; printf '\x06'; tail -c +37 "$p"; } >"$folder/late"
{ head -c 7 "$p"; printf '\x0B'; tail -c +9 "$p"; } >"$folder/bell"
head -c 300000 /dev/zero >"$folder/long"
# A right count, 299995 (000493DB), and bytes that remain.
{ printf '\x01\x00\x04\x93\xDB'; tail -c +6 "$p"; head -c 299950 /dev/zero; } >"$folder/remains"

# P in version 2, shifted down by four semitones and written as much higher; and shifted too far.
{
  printf '\x02\0\0\0\x2E\x01\xFC'; head -c 23 "$p" | tail -c +7; printf '\x40'; head -c 37 "$p" | tail -c +25; printf '\x4E'; tail -c +39 "$p"
} >"$folder/shifted"
{ head -c 6 "$folder/shifted"; printf '\x19'; tail -c +8 "$folder/shifted"; } >"$folder/shift"

# The same in version 3, with rests of 7 and 5000, which do not matter, for no bell is struck twice; and with a rest of 5001.
{
  printf '\x03\0\0\0\x32'; head -c 14 "$folder/shifted" | tail -c +6; printf '\0\x07'
  head -c 21 "$folder/shifted" | tail -c +15; printf '\x13\x88'; tail -c +22 "$folder/shifted"
} >"$folder/rested"
{ head -c 24 "$folder/rested"; printf '\x89'; tail -c +26 "$folder/rested"; } >"$folder/rest"
# Two strokes of a bell that holds for 2..3, due at 3 and 6; and in version 3 the bell rests for 1, so that the second is ready at 3..4, and may be late.
printf '\x01\0\0\0\x26\x01\x01\x3C\0\0\x02\0\x03\x01\x02' >"$folder/twice"
printf '\x03\0\0\0\x29\x01\0\x01\x3C\0\0\x02\0\x03\0\x01\x01\x02' >"$folder/twice-rested"
for file in twice twice-rested; do
  printf '\x0D\x3C\0\0\0\0\0\0\0\0\0\0\0\x03\x0D\x3C\0\0\0\0\0\0\0\0\0\0\0\x06' >>"$folder/$file"
done

# Playings of P: stroke 0 called while stroke 1 holds the driver, and at its latest; stroke 1 held too long. One of the two strokes of one bell. And a phrase
# without strokes, with its playing.
printf '\x01\0\0\0\x0C\0\0\0\x01\0\x02\0\0\0\0\0\x04' >"$folder/playing"
printf '\x01\0\0\0\x0C\0\0\0\x05\0\x02\0\0\0\0\0\x04' >"$folder/playing-late"
printf '\x01\0\0\0\x0C\0\0\0\x05\0\x02\0\0\0\0\0\x05' >"$folder/playing-outside"
printf '\x01\0\0\0\x0C\0\0\0\0\0\x03\0\0\0\0\0\x02' >"$folder/playing-twice"
printf '\x01\0\0\0\x0A\x01\x01\x3C\0\0\x01\0\x01\0\0' >"$folder/silence"
printf '\x01\0\0\0\0' >"$folder/playing-silence"

# made_of FILE: the bytes of a file of hexadecimal digits with remarks.
made_of() {
  # shellcheck disable=SC2059
  printf "$(sed -e 's/#.*//' -e 's/ //g' -e 's/../\\x&/g' "$1" | tr -d '\n')"
}
made_of examples/etude-playing.hex >"$folder/etude-playing"
same 'examples/etude.playing is made of etude-playing.hex' "$folder/etude-playing" examples/etude.playing
made_of examples/clockwork-playing.hex >"$folder/clockwork-playing"
same 'examples/clockwork.playing is made of clockwork-playing.hex' "$folder/clockwork-playing" examples/clockwork.playing
# Nothing of it is uncertain; with stroke 23 due at 2481 (09B1), a millisecond before its end.
{ head -c 403 "$clockwork"; printf '\x00\x00\x09\xB1'; } >"$folder/clockwork-late"

# plays HOW STATUS TEXT VERDICT ARGUMENT..: the player, in `player`, ends so. HOW names the way that it is run.
plays() {
  local how=$1 status=$2 text=$3 verdict=$4
  shift 4
  runs "$how: player $*" "$status" "$text" "$verdict" "${player[@]}" "$@"
}

player_usage='usage: player FILE [WORDS] [--play PLAYING]\n'

# play_all HOW: everything that the player can answer without a playing.
play_all() {
  local text_p text_etude text_down text_heavy text_clockwork f=$folder usage=$player_usage words
  text_p=$(cat examples/phrase-p.report)'\n'
  text_etude=$(cat examples/etude.report)'\n'
  text_down=$(cat examples/etude-down.report)'\n'
  text_heavy=$(cat examples/etude-heavy.report)'\n'
  text_clockwork=$(cat examples/clockwork.report)'\n'
  plays "$1" 0 "$text_p" "player: $p: accepted\n" "$p"
  plays "$1" 0 "$text_etude" "player: examples/etude.phrase: accepted\n" examples/etude.phrase
  plays "$1" 0 "$text_down" "player: $down: accepted\n" "$down"
  plays "$1" 0 "$text_heavy" "player: $heavy: accepted\n" "$heavy"
  plays "$1" 0 "$text_heavy" "player: $heavy: accepted\n" "$heavy" 131072
  # W is 2 + 6 + 48 = 56, so 112 words have room for one state, which is enough where nothing is uncertain.
  for words in 112 113 224 16384; do
    plays "$1" 0 "$text_clockwork" "player: $clockwork: accepted\n" "$clockwork" "$words"
    plays "$1" 1 'refused 14 stroke 23 ends 2482..2482\n' "player: $f/clockwork-late: refused, number 14, stroke 23\n" "$f/clockwork-late" "$words"
  done
  plays "$1" 1 'refused 13 level 0\n' "player: $clockwork: refused, number 13, level 0\n" "$clockwork" 111
  plays "$1" 0 "$text_p" "player: $f/rested: accepted\n" "$f/rested" 32
  plays "$1" 1 'refused 13 level 1\n' "player: $f/rested: refused, number 13, level 1\n" "$f/rested" 31
  plays "$1" 1 'refused 6 at 17\n' "player: $f/rest: refused, number 6, byte 17\n" "$f/rest"
  plays "$1" 1 'refused 14 stroke 1 ends 5..7\n' "player: $f/twice-rested: refused, number 14, stroke 1\n" "$f/twice-rested"
  plays "$1" 0 "$text_p" "player: $f/shifted: accepted\n" "$f/shifted" 32
  plays "$1" 1 'refused 13 level 1\n' "player: $f/shifted: refused, number 13, level 1\n" "$f/shifted" 31
  plays "$1" 1 'refused 19 at 6\n' "player: $f/shift: refused, number 19, byte 6\n" "$f/shift"
  for words in 32 33 16384 100000; do
    plays "$1" 0 "$text_p" "player: $p: accepted\n" "$p" "$words"
  done
  plays "$1" 1 'refused 13 level 1\n' "player: $p: refused, number 13, level 1\n" "$p" 31
  plays "$1" 1 'refused 13 level 0\n' "player: $p: refused, number 13, level 0\n" "$p" 0
  plays "$1" 1 'refused 14 stroke 0 ends 6..7\n' "player: $f/late: refused, number 14, stroke 0\n" "$f/late"
  plays "$1" 1 'refused 6 at 7\n' "player: $f/bell: refused, number 6, byte 7\n" "$f/bell"
  plays "$1" 1 'refused 2 at 0\n' "player: $f/empty: refused, number 2, byte 0\n" "$f/empty"
  plays "$1" 1 'refused 1 at 0\n' "player: $f/long: refused, number 1, byte 0\n" "$f/long"
  plays "$1" 1 'refused 3 at 50\n' "player: $f/remains: refused, number 3, byte 50\n" "$f/remains"
  plays "$1" 2 '' "player: $f/missing: No such file or directory\n" "$f/missing"
  plays "$1" 2 '' "player: $f: Is a directory\n" "$f"
  plays "$1" 2 '' "$usage"
  plays "$1" 2 '' "$usage" "$p" 32 32
  for words in '' -1 3x ' 32' 0x20 99999999999999999999 4611686018427387904; do
    plays "$1" 2 '' "$usage" "$p" "$words"
  done
}

# play_playings HOW: playings that are worked out, also where the check refuses the phrase, wherever the option stands.
play_playings() {
  local f=$folder text_p text_etude text_down text_heavy text_clockwork text_twice late
  text_p=$(cat examples/phrase-p.report)'\nstroke 0 start 4 end 6 reported 2..7\nstroke 1 start 0 end 4 reported 4..6\n'
  text_etude=$(cat examples/etude.report)'\n'$(cat examples/etude.played)'\n'
  text_down=$(cat examples/etude-down.report)'\n'$(cat examples/etude.played)'\n'
  text_heavy=$(cat examples/etude-heavy.report)'\n'$(cat examples/etude-heavy.played)'\n'
  text_clockwork=$(cat examples/clockwork.report)'\n'$(cat examples/clockwork.played)'\n'
  text_twice='stroke 0 key C4 bell 0 ends 2..3 response 2..3 due 3\nstroke 1 key C4 bell 0 ends 4..6 response 4..6 due 6\n'
  text_twice+='bell 0 strokes 2 hold 6\naccepted strokes 2 states 3 hold 6\nstroke 0 start 0 end 3 reported 2..3\nstroke 1 start 3 end 5 reported 4..6\n'
  late='stroke 0 start 5 end 7\nstroke 1 start 0 end 4\n'
  plays "$1" 0 "$text_etude" "player: $etude: accepted\n" "$etude" --play examples/etude.playing
  plays "$1" 0 "$text_etude" "player: $etude: accepted\n" --play examples/etude.playing "$etude" 131072
  plays "$1" 0 "$text_down" "player: $down: accepted\n" "$down" --play examples/etude.playing
  plays "$1" 0 "$text_heavy" "player: $heavy: accepted\n" "$heavy" --play examples/etude.playing
  plays "$1" 0 "$text_clockwork" "player: $clockwork: accepted\n" "$clockwork" 112 --play examples/clockwork.playing
  plays "$1" 1 "refused 14 stroke 23 ends 2482..2482\n$(cut -d' ' -f1-6 examples/clockwork.played)\n" \
    "player: $f/clockwork-late: refused, number 14, stroke 23\n" "$f/clockwork-late" 112 --play examples/clockwork.playing
  plays "$1" 0 "$text_p" "player: $f/shifted: accepted\n" "$f/shifted" --play "$f/playing"
  plays "$1" 0 "$text_p" "player: $f/rested: accepted\n" "$f/rested" --play "$f/playing"
  plays "$1" 0 "$text_twice" "player: $f/twice: accepted\n" "$f/twice" --play "$f/playing-twice"
  plays "$1" 1 'refused 14 stroke 1 ends 5..7\nstroke 0 start 0 end 3\nstroke 1 start 4 end 6\n' \
    "player: $f/twice-rested: refused, number 14, stroke 1\n" "$f/twice-rested" --play "$f/playing-twice"
  plays "$1" 0 "$text_p" "player: $p: accepted\n" "$p" --play "$f/playing"
  plays "$1" 0 "$text_p" "player: $p: accepted\n" "$p" 32 --play "$f/playing"
  plays "$1" 0 "$text_p" "player: $p: accepted\n" "$p" --play "$f/playing" 32
  plays "$1" 0 "$text_p" "player: $p: accepted\n" --play "$f/playing" "$p"
  plays "$1" 0 "$text_p" "player: $p: accepted\n" --play "$f/playing" "$p" 32
  plays "$1" 0 'accepted strokes 0 states 1 hold 0\n' "player: $f/silence: accepted\n" "$f/silence" --play "$f/playing-silence"
  plays "$1" 1 "refused 14 stroke 0 ends 6..7\n$late" "player: $f/late: refused, number 14, stroke 0\n" "$f/late" --play "$f/playing-late"
  plays "$1" 1 "refused 13 level 1\n$late" "player: $p: refused, number 13, level 1\n" "$p" 31 --play "$f/playing-late"
  plays "$1" 1 "refused 13 level 0\n$late" "player: $p: refused, number 13, level 0\n" "$p" --play "$f/playing-late" 0
}

# play_refused HOW: playings that are refused, and those of files that are no phrase, of which the phrase's verdict says all.
play_refused() {
  local f=$folder text_p accepted="player: $p: accepted\n" late="player: $folder/late: refused, number 14, stroke 0\n"
  text_p=$(cat examples/phrase-p.report)'\n'
  plays "$1" 1 "$text_p" "${accepted}player: $f/empty: refused, number 17, byte 0\n" "$p" --play "$f/empty"
  plays "$1" 1 "$text_p" "${accepted}player: $f/long: refused, number 17, byte 0\n" "$p" --play "$f/long"
  plays "$1" 1 "$text_p" "${accepted}player: $p: refused, number 17, byte 0\n" "$p" --play "$p"
  plays "$1" 1 "$text_p" "${accepted}player: examples/etude.playing: refused, number 17, byte 0\n" "$p" --play examples/etude.playing
  plays "$1" 1 "$text_p" "${accepted}player: $f/playing-outside: refused, number 18, stroke 1\n" "$p" --play "$f/playing-outside"
  plays "$1" 1 'refused 14 stroke 0 ends 6..7\n' "${late}player: $f/playing-silence: refused, number 17, byte 0\n" "$f/late" --play "$f/playing-silence"
  plays "$1" 1 'refused 14 stroke 0 ends 6..7\n' "${late}player: $f/playing-outside: refused, number 18, stroke 1\n" "$f/late" --play "$f/playing-outside"
  plays "$1" 1 'refused 6 at 7\n' "player: $f/bell: refused, number 6, byte 7\n" "$f/bell" --play "$f/playing"
  plays "$1" 1 'refused 2 at 0\n' "player: $f/empty: refused, number 2, byte 0\n" "$f/empty" --play "$f/empty"
  plays "$1" 1 'refused 19 at 6\n' "player: $f/shift: refused, number 19, byte 6\n" "$f/shift" --play "$f/playing"
  plays "$1" 1 'refused 19 at 6\n' "player: $f/shift: refused, number 19, byte 6\n" "$f/shift" --play "$f/empty"
  plays "$1" 1 'refused 6 at 17\n' "player: $f/rest: refused, number 6, byte 17\n" "$f/rest" --play "$f/playing"
}

# play_trouble HOW: playings that cannot be read, and wrong usage.
play_trouble() {
  local f=$folder options list
  plays "$1" 2 '' "player: $f/missing: No such file or directory\n" "$p" --play "$f/missing"
  plays "$1" 2 '' "player: $f: Is a directory\n" "$p" --play "$f"
  plays "$1" 2 '' 'player: : No such file or directory\n' "$p" --play ''
  plays "$1" 2 '' "player: $f/missing: No such file or directory\n" "$f/missing" --play "$f/playing"
  for options in --play "--play $p" "$p --play" "$p 32 --play" "$p --play $p --play $p" "$p --play $p 32 32" "$p 32 --play $p 32" "$p --play $p $p" \
    "$p --plays $p" "$p --play=$p" "$p $p --play"; do
    read -ra list <<<"$options"
    plays "$1" 2 '' "$player_usage" "${list[@]}"
  done
}

# ---- Files for the editor, and what it has to make of them ----

# changed FILE [PLACE BYTE]..: the file with some bytes changed, places rising, bytes in hexadecimal.
changed() {
  local file=$1 at=0
  shift
  while [ $# -gt 0 ]; do
    head -c "$1" "$file" | tail -c +$((at + 1))
    printf '%b' "\\x$2"
    at=$(($1 + 1))
    shift 2
  done
  tail -c +$((at + 1)) "$file"
}
# with_rests FILE REST..: a version 1 file as version 3, without a shift and with these rests, four hexadecimal digits for each bell.
with_rests() {
  local file=$1 at=7 rest
  shift
  printf '\x03%b' "$(printf '%08X' $(($(wc -c <"$file") - 4 + 2 * $#)) | sed 's/../\\x&/g')"
  head -c 6 "$file" | tail -c 1
  printf '\0'
  head -c 7 "$file" | tail -c 1
  for rest in "$@"; do
    head -c $((at + 6)) "$file" | tail -c 6
    printf '%b' "\\x${rest:0:2}\\x${rest:2}"
    head -c $((at + 7)) "$file" | tail -c 1
    at=$((at + 7))
  done
  tail -c +$((at + 1)) "$file"
}
# P with a third bell, key 64, which no note strikes.
{ printf '\x01\x00\x00\x00\x34\x01\x03'; head -c 21 "$p" | tail -c 14; printf '\x40\x00\x00\x01\x00\x01\x03'; tail -c +22 "$p"; } >"$folder/third"
changed "$folder/third" 22 FE >"$folder/third-down"
changed "$folder/third" 22 18 >"$folder/third-up"
changed "$p" 35 9D 49 9C >"$folder/later"
changed "$p" 35 06 49 05 >"$folder/sooner"
changed "$p" 33 36 34 EE 35 80 47 36 48 EE 49 7F >"$folder/latest"
changed "$p" 15 05 35 11 37 43 49 10 >"$folder/both"
changed "$etude" 36 FF 107 46 206 46 >"$folder/etude-up"
changed "$down" 37 FF 108 46 207 46 >"$folder/down-up"
changed "$folder/shifted" 36 9D 50 9C >"$folder/shifted-later"
# Bells for C4 and D4 and a note of C4; and version 2 of it: shifted so that the note strikes D4; with no shift; with another, and bell 0 and the note moved.
printf '\x01\0\0\0\x1F\x01\x02\x3C\0\0\x01\0\x01\0\x3E\0\0\x01\0\x01\0\x01\x0D\x3C\0\0\0\0\0\0\0\0\0\0\0\x09' >"$folder/two"
{ printf '\x02\0\0\0\x20\x01\x02'; tail -c +7 "$folder/two"; } >"$folder/two-up"
changed "$folder/two-up" 6 00 >"$folder/two-back"
changed "$folder/two-up" 6 03 9 05 24 3E >"$folder/two-follow"
# One bell and one note, shifted as far as can be, up and down.
printf '\x02\0\0\0\x19\x01\x18\x01\x24\0\0\x01\0\x01\0\x01\x0D\x0C\0\0\0\0\0\0\0\0\0\0\0\x09' >"$folder/far-up"
changed "$folder/far-up" 6 E8 8 5F 17 77 >"$folder/far-down"
changed "$folder/far-down" 9 18 17 8F >"$folder/far-down-up"
# In version 3: third and third-down, whose last bell rests for 40, and third without a rest; both, whose last bell rests for 9; two, whose last bell rests for
# 7, and shifted; P rested without its first rest, and with a second of 1; two strokes of one bell, without a rest, and with one and later due times; the etude,
# whose G4 rests for 40; the etude on heavy bells, whose G4 does not.
with_rests "$folder/third" 0000 0000 0028 >"$folder/third-rested"
changed "$folder/third-rested" 33 00 >"$folder/third-restless"
with_rests "$folder/third-down" 0000 0000 0028 >"$folder/third-down-rested"
with_rests "$folder/both" 0000 0009 >"$folder/both-rested"
with_rests "$folder/two" 0000 0007 >"$folder/two-rested"
changed "$folder/two-rested" 6 02 >"$folder/two-up-rested"
changed "$folder/rested" 15 00 >"$folder/shifted-rested"
changed "$folder/rested" 23 00 24 01 >"$folder/rested-less"
changed "$folder/twice-rested" 15 00 >"$folder/twice-restless"
changed "$folder/twice-rested" 31 04 45 07 >"$folder/twice-later"
with_rests "$etude" 0000 0000 0028 0000 0000 0000 0000 0000 >"$folder/etude-rested"
changed "$heavy" 33 00 >"$folder/heavy-restless"
printf 'kept' >"$folder/kept"
out=$folder/edited

# edits HOW STATUS TEXT COMPLAINT DUE IN OPTION..: the editor, in `editor`, ends so on IN, and OUT, which was `kept` before, is the file DUE then.
edits() {
  local how=$1 status=$2 text=$3 complaint=$4 due=$5 in=$6
  shift 6
  cp "$folder/kept" "$out"
  runs "$how: editor $in OUT $*" "$status" "$text" "$complaint" "${editor[@]}" "$in" "$out" "$@"
  same "$how: editor $in OUT $*: OUT" "$due" "$out"
}

# writes HOW DUE TEXT IN OPTION..: it says TEXT and that the phrase is accepted before and after.
writes() {
  local how=$1 due=$2 text=$3
  shift 3
  edits "$how" 0 "${text}before: accepted\nafter: accepted\n" '' "$due" "$@"
}

# refuses HOW COMPLAINT IN OPTION..: it refuses what it would write, and OUT is kept.
refuses() {
  local how=$1 complaint=$2
  shift 2
  edits "$how" 1 '' "editor: $out: refused, number $complaint\n" "$folder/kept" "$@"
}

# troubles HOW COMPLAINT IN OPTION..: it does not get so far, and OUT is kept.
troubles() {
  local how=$1 complaint=$2
  shift 2
  edits "$how" 2 '' "$complaint\n" "$folder/kept" "$@"
}

# edit_rests HOW: rests that are set, in files of each version, and set to 0, which leaves a version as it is.
edit_rests() {
  local f=$folder text
  writes "$1" "$f/third-rested" 'version: 1 -> 3\nbell 2: rest 0 -> 40\nbytes: 57 -> 64\n' "$f/third" --bell 2 --rest 40
  writes "$1" "$f/third-restless" 'bell 2: rest 40 -> 0\nbytes: 64, 1 changed\n' "$f/third-rested" --rest 0 --bell 2
  writes "$1" "$f/third-rested" 'bell 2: rest 0 -> 40\nbytes: 64, 1 changed\n' "$f/third-restless" --bell 2 --rest 40
  writes "$1" "$f/third" 'bytes: 57, 0 changed\n' "$f/third" --bell 2 --rest 0
  writes "$1" "$f/shifted" 'bytes: 51, 0 changed\n' "$f/shifted" --bell 1 --rest 0
  writes "$1" "$f/shifted-rested" 'version: 2 -> 3\nbell 1: rest 0 -> 5000\nbytes: 51 -> 55\n' "$f/shifted" --bell 1 --rest 5000
  writes "$1" "$f/rested" 'bell 0: rest 0 -> 7\nbytes: 55, 1 changed\n' "$f/shifted-rested" --bell 0 --rest 7
  writes "$1" "$f/rested-less" 'bell 1: rest 5000 -> 1\nbytes: 55, 2 changed\n' "$f/rested" --bell 1 --rest 1
  writes "$1" "$f/two-rested" 'version: 1 -> 3\nbell 1: rest 0 -> 7\nbytes: 36 -> 41\n' "$f/two" --bell 1 --rest 7
  writes "$1" "$f/two-up-rested" 'shift: 0 -> 2\nbytes: 41, 1 changed\n' "$f/two-rested" --shift 2
  writes "$1" "$f/two-up-rested" 'version: 1 -> 3\nshift: 0 -> 2\nbell 1: rest 0 -> 7\nbytes: 36 -> 41\n' "$f/two" --bell 1 --rest 7 --shift 2
  writes "$1" "$f/two-up-rested" 'version: 2 -> 3\nbell 1: rest 0 -> 7\nbytes: 37 -> 41\n' "$f/two-up" --bell 1 --rest 7
  text='version: 1 -> 3\nbell 2: transposition 0 -> -2, sounding key 64 -> 62\nbell 2: rest 0 -> 40\nbytes: 57 -> 64\n'
  writes "$1" "$f/third-down-rested" "$text" "$f/third" --bell 2 --transpose -2 --rest 40
  text='bell 2: transposition -2 -> 0, sounding key 62 -> 64\nbell 2: rest 40 -> 0\nbytes: 64, 2 changed\n'
  writes "$1" "$f/third-restless" "$text" "$f/third-down-rested" --rest 0 --transpose 0 --bell 2
  text='version: 1 -> 3\nbell 1: transposition 12 -> 5, sounding key 74 -> 67\nbell 1: rest 0 -> 9\nnote 1: key 74 -> 67\n'
  writes "$1" "$f/both-rested" "${text}due times: 2 moved by 10\nbytes: 50 -> 55\n" "$p" --due 10 --bell 1 --rest 9 --follow --transpose 5
  text='version: 1 -> 3\nbell 0: rest 0 -> 1\nbytes: 43 -> 46\nbefore: accepted\nafter: refused, number 14, stroke 1\n'
  edits "$1" 0 "$text" '' "$f/twice-rested" "$f/twice" --bell 0 --rest 1
  text='bell 0: rest 1 -> 0\nbytes: 46, 1 changed\nbefore: refused, number 14, stroke 1\nafter: accepted\n'
  edits "$1" 0 "$text" '' "$f/twice-restless" "$f/twice-rested" --bell 0 --rest 0
  writes "$1" "$f/twice-later" 'version: 1 -> 3\nbell 0: rest 0 -> 1\ndue times: 2 moved by 1\nbytes: 43 -> 46\n' "$f/twice" --bell 0 --rest 1 --due 1
  text='version: 1 -> 3\nbell 2: rest 0 -> 40\nbytes: 407 -> 424\nbefore: accepted\nafter: refused, number 14, stroke 19\n'
  edits "$1" 0 "$text" '' "$f/etude-rested" "$etude" --bell 2 --rest 40
  writes "$1" "$heavy" 'bytes: 424, 0 changed\n' "$heavy" --bell 2 --rest 40
  writes "$1" "$f/heavy-restless" 'bell 2: rest 40 -> 0\nbytes: 424, 1 changed\n' "$heavy" --bell 2 --rest 0
}

# edit_all HOW: what is written. Most of it is undone by its opposite. Last a new file, and that file in place.
edit_all() {
  local f=$folder text
  writes "$1" "$f/third-down" 'bell 2: transposition 0 -> -2, sounding key 64 -> 62\nbytes: 57, 1 changed\n' "$f/third" --bell 2 --transpose -2
  writes "$1" "$f/third" 'bell 2: transposition -2 -> 0, sounding key 62 -> 64\nbytes: 57, 1 changed\n' "$f/third-down" --transpose 0 --bell 2
  writes "$1" "$f/third-up" 'bell 2: transposition 0 -> 24, sounding key 64 -> 88\nbytes: 57, 1 changed\n' "$f/third" --bell 2 --transpose 24
  writes "$1" "$f/third" 'bytes: 57, 0 changed\n' "$f/third" --bell 2 --transpose 0
  writes "$1" "$f/later" 'due times: 2 moved by 150\nbytes: 50, 2 changed\n' "$p" --due 150
  writes "$1" "$p" 'due times: 2 moved by -150\nbytes: 50, 2 changed\n' "$f/later" --due -150
  writes "$1" "$f/latest" 'due times: 2 moved by 3599993\nbytes: 50, 6 changed\n' "$p" --due 3599993
  writes "$1" "$p" 'due times: 2 moved by -3599993\nbytes: 50, 6 changed\n' "$f/latest" --due -3599993
  text='due times: 2 moved by -1\nbytes: 50, 2 changed\nbefore: accepted\nafter: refused, number 14, stroke 1\n'
  edits "$1" 0 "$text" '' "$f/sooner" "$p" --due -1
  text='due times: 2 moved by 1\nbytes: 50, 2 changed\nbefore: refused, number 14, stroke 1\nafter: accepted\n'
  edits "$1" 0 "$text" '' "$p" "$f/sooner" --due 1
  text='bell 1: transposition 12 -> 5, sounding key 74 -> 67\nnote 1: key 74 -> 67\ndue times: 2 moved by 10\nbytes: 50, 4 changed\n'
  writes "$1" "$f/both" "$text" "$p" --due 10 --bell 1 --follow --transpose 5
  text='bell 4: transposition -2 -> -1, sounding key 69 -> 70\nnote 3: key 69 -> 70\nnote 10: key 69 -> 70\nbytes: 407, 3 changed\n'
  writes "$1" "$f/etude-up" "$text" "$etude" --bell 4 --transpose -1 --follow
  text='bell 4: transposition -1 -> -2, sounding key 70 -> 69\nnote 3: key 70 -> 69\nnote 10: key 70 -> 69\nbytes: 407, 3 changed\n'
  writes "$1" "$etude" "$text" "$f/etude-up" --bell 4 --transpose -2 --follow
  text='bell 4: transposition -2 -> -1, sounding key 65 -> 66\nnote 3: key 69 -> 70\nnote 10: key 69 -> 70\nbytes: 408, 3 changed\n'
  writes "$1" "$f/down-up" "$text" "$down" --bell 4 --transpose -1 --follow
  text='bell 4: transposition -1 -> -2, sounding key 66 -> 65\nnote 3: key 70 -> 69\nnote 10: key 70 -> 69\nbytes: 408, 3 changed\n'
  writes "$1" "$down" "$text" "$f/down-up" --bell 4 --transpose -2 --follow
  writes "$1" "$f/shifted-later" 'due times: 2 moved by 150\nbytes: 51, 2 changed\n' "$f/shifted" --due 150
  writes "$1" "$f/two-up" 'version: 1 -> 2\nshift: 0 -> 2\nbytes: 36 -> 37\n' "$f/two" --shift 2
  writes "$1" "$f/two" 'bytes: 36, 0 changed\n' "$f/two" --shift 0
  writes "$1" "$f/two-back" 'shift: 2 -> 0\nbytes: 37, 1 changed\n' "$f/two-up" --shift 0
  writes "$1" "$f/two-up" 'shift: 0 -> 2\nbytes: 37, 1 changed\n' "$f/two-back" --shift 2
  writes "$1" "$down" 'bytes: 408, 0 changed\n' "$down" --shift -4
  text='version: 1 -> 2\nshift: 0 -> 3\nbell 0: transposition 0 -> 5, sounding key 60 -> 65\nnote 0: key 60 -> 62\nbytes: 36 -> 37\n'
  writes "$1" "$f/two-follow" "$text" "$f/two" --bell 0 --transpose 5 --follow --shift 3
  text='bell 0: transposition 0 -> 24, sounding key 95 -> 119\nnote 0: key 119 -> 143\nbytes: 30, 2 changed\n'
  writes "$1" "$f/far-down-up" "$text" "$f/far-down" --bell 0 --transpose 24 --follow
  edit_rests "$1"
  rm "$out"
  text='due times: 2 moved by 150\nbytes: 50, 2 changed\nbefore: accepted\nafter: accepted\n'
  runs "$1: editor, a new file" 0 "$text" '' "${editor[@]}" "$p" "$out" --due 150
  same "$1: editor, a new file: OUT" "$f/later" "$out"
  text='due times: 2 moved by -150\nbytes: 50, 2 changed\nbefore: accepted\nafter: accepted\n'
  runs "$1: editor, in place" 0 "$text" '' "${editor[@]}" "$out" "$out" --due -150
  same "$1: editor, in place: OUT" "$p" "$out"
}

out_of_range='the transposition, the key that it sounds for, or the rest is out of range'

# refuse_rests HOW: rests that are refused, and what else is refused in version 3, with bells of nine bytes.
refuse_rests() {
  local f=$folder number
  edits "$1" 1 '' "editor: $f/rest: refused, number 6, byte 17\n" "$f/kept" "$f/rest" --bell 1 --rest 0
  for number in 5001 5002 65535 65536 65537 70536 2147483648 4294967295; do
    refuses "$1" "6, byte 8: bell 0: $out_of_range" "$p" --bell 0 --rest "$number"
    refuses "$1" "6, byte 26: bell 2: $out_of_range" "$f/third" --bell 2 --rest "$number"
    refuses "$1" "6, byte 17: bell 1: $out_of_range" "$f/shifted" --bell 1 --rest "$number"
    refuses "$1" "6, byte 17: bell 1: $out_of_range" "$f/rested" --bell 1 --rest "$number"
    refuses "$1" "6, byte 71: bell 7: $out_of_range" "$heavy" --bell 7 --rest "$number" --due 3600000
    refuses "$1" "6, byte 26: bell 2: $out_of_range" "$f/third" --bell 2 --transpose 10 --rest "$number" # also the key of bell 1
    refuses "$1" '19, byte 6: the shift is out of range' "$f/rested" --bell 0 --rest "$number" --shift 25
  done
  refuses "$1" "6, byte 26: bell 2: $out_of_range" "$f/third" --bell 2 --transpose 25 --rest 40
  refuses "$1" "6, byte 26: bell 2: $out_of_range" "$f/third-rested" --bell 2 --transpose 25 --rest 0
  refuses "$1" '7, byte 26: bell 2: an earlier bell sounds for the same key' "$f/third" --bell 2 --transpose 10 --rest 40
  refuses "$1" '7, byte 26: bell 2: an earlier bell sounds for the same key' "$f/third-rested" --bell 0 --transpose 4
  refuses "$1" '10, byte 36: note 0: no bell sounds for its key any more' "$f/third-rested" --bell 0 --transpose 1
  refuses "$1" '10, byte 50: note 1: no bell sounds for its key any more' "$f/third-rested" --bell 1 --transpose 1
  refuses "$1" '11, byte 36: note 0: the due time is out of range' "$f/third-rested" --due -8
  refuses "$1" '11, byte 50: note 1: the due time is out of range' "$f/third-rested" --due -7
  refuses "$1" '10, byte 123: note 3: no bell sounds for its key any more' "$heavy" --bell 4 --transpose -1
  refuses "$1" '10, byte 123: note 3: no bell sounds for its key any more' "$etude" --bell 4 --transpose -1 --rest 40
  refuses "$1" '10, byte 207: note 9: no bell sounds for its key any more' "$heavy" --bell 7 --transpose 11
  refuses "$1" '10, byte 81: note 0: no bell sounds for its key any more' "$heavy" --shift -4
  refuses "$1" '11, byte 410: note 23: the due time is out of range' "$heavy" --due 3597441
}

# edit_refused HOW: what is refused, in IN or as OUT, which stays as it is, or is not made.
edit_refused() {
  local f=$folder number status=0
  edits "$1" 1 '' "editor: $f/bell: refused, number 6, byte 7\n" "$f/kept" "$f/bell" --due 1
  edits "$1" 1 '' "editor: $f/empty: refused, number 2, byte 0\n" "$f/kept" "$f/empty" --due 1
  edits "$1" 1 '' "editor: $f/long: refused, number 1, byte 0\n" "$f/kept" "$f/long" --due 1
  edits "$1" 1 '' "editor: $f/remains: refused, number 3, byte 50\n" "$f/kept" "$f/remains" --bell 0 --transpose 0
  edits "$1" 1 '' "editor: $f/shift: refused, number 19, byte 6\n" "$f/kept" "$f/shift" --shift 0
  for number in 25 -25 127 -128 128 254 -129 256 2147483647 -2147483648; do
    refuses "$1" "6, byte 21: bell 2: $out_of_range" "$f/third" --bell 2 --transpose "$number"
    refuses "$1" "6, byte 7: bell 0: $out_of_range" "$p" --bell 0 --transpose "$number" --follow
    refuses "$1" "6, byte 15: bell 1: $out_of_range" "$f/shifted" --bell 1 --transpose "$number" --follow
    refuses "$1" "6, byte 17: bell 1: $out_of_range" "$f/rested" --bell 1 --transpose "$number" --follow
    refuses "$1" '19, byte 6: the shift is out of range' "$f/two" --shift "$number"
    refuses "$1" '19, byte 6: the shift is out of range' "$down" --shift "$number" --bell 0 --transpose 25 --follow --due 3600000
  done
  refuses "$1" '7, byte 21: bell 2: an earlier bell sounds for the same key' "$f/third" --bell 2 --transpose 10
  refuses "$1" '7, byte 21: bell 2: an earlier bell sounds for the same key' "$f/third" --bell 0 --transpose 4
  refuses "$1" '10, byte 106: note 3: no bell sounds for its key any more' "$etude" --bell 4 --transpose -1
  refuses "$1" '10, byte 190: note 9: no bell sounds for its key any more' "$etude" --bell 7 --transpose 11
  refuses "$1" '7, byte 15: bell 1: an earlier bell sounds for the same key' "$f/shifted" --bell 1 --transpose -2
  refuses "$1" '10, byte 107: note 3: no bell sounds for its key any more' "$down" --bell 4 --transpose -1
  refuses "$1" '10, byte 79: note 1: no bell sounds for its key any more' "$down" --shift 0 --bell 0 --transpose 4 --follow
  refuses "$1" '10, byte 65: note 0: no bell sounds for its key any more' "$etude" --shift -4
  refuses "$1" '10, byte 23: note 0: no bell sounds for its key any more' "$f/two" --shift -2
  refuses "$1" '10, byte 16: note 0: no bell sounds for its key any more' "$f/far-up" --bell 0 --transpose -24 --follow # its key would be -12
  for number in 3599994 4294967288 4294967289 4294967290 4294967295 -8 -4294967295; do
    refuses "$1" '11, byte 22: note 0: the due time is out of range' "$p" --due "$number"
  done
  refuses "$1" '11, byte 36: note 1: the due time is out of range' "$p" --due -7
  refuses "$1" '11, byte 393: note 23: the due time is out of range' "$etude" --due 3597441
  refuses "$1" '11, byte 37: note 1: the due time is out of range' "$f/shifted" --due -7
  refuses "$1" '11, byte 394: note 23: the due time is out of range' "$down" --due 3597441
  # A due time and a key, both wrong: the time is named.
  refuses "$1" '10, byte 22: note 0: no bell sounds for its key any more' "$p" --bell 0 --transpose 1 --due 3599993
  refuses "$1" '11, byte 22: note 0: the due time is out of range' "$p" --bell 0 --transpose 1 --due 3599994
  refuses "$1" '10, byte 37: note 1: no bell sounds for its key any more' "$f/shifted" --bell 1 --transpose 1 --due -6
  refuses "$1" '11, byte 37: note 1: the due time is out of range' "$f/shifted" --bell 1 --transpose 1 --due -7
  refuse_rests "$1"
  rm "$out"
  runs "$1: editor, no new file" 1 '' "editor: $out: refused, number 11, byte 22: note 0: the due time is out of range\n" "${editor[@]}" "$p" "$out" --due -8
  [ ! -e "$out" ] || status=1
  verdict "$1: editor, no new file: OUT is there" "$status"
}

# edit_trouble HOW: files that cannot be read or written, a bell that is not there, and wrong usage.
edit_trouble() {
  local f=$folder options list usage
  usage='usage: editor IN OUT [--bell N [--transpose SEMITONES [--follow]] [--rest MILLISECONDS]] [--shift SEMITONES] [--due MILLISECONDS]'
  troubles "$1" "editor: $f/missing: No such file or directory" "$f/missing" --due 1
  troubles "$1" "editor: $f: Is a directory" "$f" --due 1
  for options in 2 95 96 4294967295; do
    troubles "$1" "editor: $p: there is no such bell" "$p" --bell "$options" --transpose 0
    troubles "$1" "editor: $p: there is no such bell" "$p" --bell "$options" --rest 40
  done
  runs "$1: editor, OUT a folder" 2 '' "editor: $f: Is a directory\n" "${editor[@]}" "$p" "$f" --due 1
  runs "$1: editor, OUT nowhere" 2 '' "editor: $f/no/where: No such file or directory\n" "${editor[@]}" "$p" "$f/no/where" --due 1
  runs "$1: editor, OUT a full device" 2 '' 'editor: /dev/full: No space left on device\n' "${editor[@]}" "$p" /dev/full --due 1
  for options in '' - -- +1 1x ' 1' 0x1 1.5 4294967296 -4294967296 9223372036854775808 -99999999999999999999; do
    troubles "$1" "$usage" "$p" --due "$options"
    troubles "$1" "$usage" "$p" --bell 0 --rest "$options"
  done
  for options in '' '--bell' '--bell 0' '--transpose 0' '--due' '--follow' '--due 1 --follow' '--due 1 2' '--key 1' '--due 1 --bell 0' '--due 1 --help' \
    '--bell -1 --transpose 0' '--bell 4294967296 --transpose 0' '--bell 0 --transpose 2147483648' '--bell 0 --transpose -2147483649' \
    '--shift' '--shift x' '--shift 1 2' '--shift +1' '--shift 1 --follow' '--shift 1 --bell 0' '--shift 2147483648' '--shift -2147483649' \
    '--rest' '--rest 0' '--rest 1' '--bell 0 --rest' '--bell 0 --rest -1' '--bell 0 --rest 1 2' '--bell 0 --rest 4294967296' '--due 1 --rest 1' \
    '--shift 1 --rest 1' '--transpose 0 --rest 1' '--bell 0 --rest 1 --follow' '--follow --bell 0 --rest 0' '--bell 0 --follow' '--bell 0 --rests 1'; do
    read -ra list <<<"$options"
    troubles "$1" "$usage" "$p" "${list[@]}"
  done
  runs "$1: editor" 2 '' "$usage\n" "${editor[@]}"
  runs "$1: editor IN" 2 '' "$usage\n" "${editor[@]}" "$p"
  runs "$1: editor --due 1" 2 '' "$usage\n" "${editor[@]}" --due 1
  for options in -h --help; do
    passes "$1: editor $options" "${editor[@]}" "$options" || true
    head -n 1 "$folder/log" >"$folder/out"
    printf '%s\n' "$usage" >"$folder/text"
    same "$1: editor $options: its first line" "$folder/text" "$folder/out"
  done
}

# ---- Plainly ----

if build 'host/player.c builds' host/player.c "$folder/player" -O2; then
  player=("$folder/player")
  play_all plain
  play_playings plain
  play_refused plain
  play_trouble plain
  plays plain 2 '' 'player: the table: Cannot allocate memory\n' "$p" 4611686018427387903
  status=0
  "$folder/player" "$p" >/dev/full 2>/dev/null || status=$?
  verdict "player with a full device as its output: exit status $status, not 2" $((status != 2))
fi
if build 'host/editor.c builds' host/editor.c "$folder/editor" -O2; then
  editor=("$folder/editor")
  edit_all plain
  edit_refused plain
  edit_trouble plain
  status=0
  "$folder/editor" "$p" "$out" --due 150 >/dev/full 2>/dev/null || status=$?
  verdict "editor with a full device as its output: exit status $status, not 2" $((status != 2))
fi
counted=0
for test in buffers edits playings names; do
  if build "tests/host/$test.c builds" "tests/host/$test.c" "$folder/$test" -O2; then
    passes "$test" "$folder/$test" || true
    found=$(sed -n "s/^$test: \([0-9]*\) checks passed\$/\1/p" "$folder/log")
    counted=$((counted + ${found:-0}))
  fi
done

if build 'tests/host/threads.c builds' tests/host/threads.c "$folder/threads" -O2 -pthread; then
  passes 'threads' "$folder/threads" || true
fi

# ---- What the library needs of the C library: a host without one gives these two ----

if [ "${#libraries[@]}" -gt 0 ]; then
  echo 'tests/host.sh: note: names from outside not looked at: LDLIBS adds to what is linked'
elif command -v nm >/dev/null; then
  printf 'memcpy\nmemset\n' >"$folder/due"
  nm -u "$library" | sed -n 's/^ *U //p' | sort -u >"$folder/found" || true
  same 'of the C library memcpy and memset only' "$folder/due" "$folder/found"
else
  left_out 'nm' 'no nm: names from outside not looked at'
fi

# ---- The stack, with memcpy and memset bound at the start and at the first call ----

# strokes BELLS: 64 strokes on 8 drivers. Those of one bell are accepted and have a long text; those of eight need a larger table.
strokes() {
  local key note
  printf '\x01\x00\x00\x03\xBB\x08\x08'
  for key in 3C 3D 3E 3F 40 41 42 43; do
    printf '%b' "\\x$key\\x00\\x00\\x01\\x00\\x02\\x01"
  done
  printf '\x40'
  for note in {0..63}; do
    printf '%b' "\\x0D\\x$(printf '%02X' $((60 + note % $1)))\\x00\\x00\\x00\\x00\\x00\\x00\\x03\\xE8\\x00\\x36\\xEE\\x80"
  done
}
# longest: the longest file of version 1. 96 bells, and 64 strokes, each of which waits for the four before it, or for all where these are fewer; 1822 bytes.
longest() {
  local i wait waits
  printf '\x01\x00\x00\x07\x19\x08\x60'
  for ((i = 0; i < 96; i++)); do
    printf '%b' "\\x$(printf '%02X' $((12 + i)))\\x00\\x00\\x01\\x13\\x88\\x$(printf '%02X' "$i")"
  done
  printf '\x40'
  for ((i = 0; i < 64; i++)); do
    waits=$((i < 4 ? i : 4))
    printf '%b' "\\x$(printf '%02X' $((13 + waits)))\\x$(printf '%02X' $((107 - i)))\\x00\\x00\\x00\\x00\\x00\\x00\\x00\\x00\\x00\\x36\\xEE\\x80"
    for ((wait = i - waits; wait < i; wait++)); do
      printf '%b' "\\x$(printf '%02X' "$wait")"
    done
  done
}
strokes 1 >"$folder/one-bell"
strokes 8 >"$folder/eight-bells"
longest >"$folder/longest"
with_rests "$folder/one-bell" 0003 0000 0000 0000 0000 0000 0000 0000 >"$folder/one-bell-rested"
with_rests "$folder/eight-bells" 0001 0002 0003 0004 0005 0006 0007 1388 >"$folder/eight-bells-rested"
mapfile -t rests < <(printf '1388%.0s\n' {1..96})
with_rests "$folder/longest" "${rests[@]}" >"$folder/longest-rested"
bytes=$(wc -c <"$folder/longest-rested")
verdict "the longest file of version 3 has $bytes bytes, not 2015" $((bytes != 2015))
if [ -x "$folder/player" ]; then
  passes 'player on the longest file of version 3' "$folder/player" "$folder/longest-rested" || true
fi
for binding in now lazy; do
  if build "tests/host/stack.c builds, $binding" tests/host/stack.c "$folder/stack-$binding" -O2 -pthread "-Wl,-z,$binding"; then
    passes "the stack, $binding" env -u LD_BIND_NOW "$folder/stack-$binding" "$binding" \
      examples/*.phrase "$folder"/{late,bell,empty,shifted,shift,rested,rest,twice-rested} "$folder"/{one-bell,eight-bells,longest}{,-rested} || true
    grep '^stack: .* KiB$' "$folder/log" || true
  fi
done

# ---- How time grows: the answers and counts, which do not depend on the machine; docs/PERFORMANCE.md has the times of more strokes ----

if build 'tests/host/growth.c builds' tests/host/growth.c "$folder/growth" -O2; then
  passes 'growth' "$folder/growth" 10 || true
fi

# ---- Wrong headers: names.c has to see each number that is one more, or else the header itself; the header has to see each field of a phrase that is wider
# or that stands elsewhere; and no other processor gets it ----

mkdir "$folder/wrong"
names=0
while read -r name number; do
  names=$((names + 1))
  sed -E "s/\\b($name( =)?) $number\\b/\\1 $((number + 1))/" host/phrase.h >"$folder/wrong/phrase.h"
  status=0
  if gcc -std=c99 -I "$folder/wrong" tests/host/names.c "$library" "${libraries[@]}" -o "$folder/wrong/names" >"$folder/log" 2>&1; then
    "$folder/wrong/names" >"$folder/log" 2>&1 || status=$?
  elif grep -q phrase_is_its_words "$folder/log"; then
    status=1
  fi
  verdict "a header with $name $((number + 1)) is seen by names.c: exit status $status, not 1" $((status != 1)) "$folder/log"
done < <(sed -nE 's/^(#define|   ) (PHRASE_[A-Z_]+)( =)? ([0-9]+).*/\2 \4/p' host/phrase.h)
verdict "the header has $names names with numbers, not 27" $((names != 27))

echo '#include "phrase.h"' >"$folder/other.c"
# misfits WHAT: the wrong header does not compile, and it is the struct that is at fault.
misfits() {
  local status=0
  gcc -std=c99 -I "$folder/wrong" -fsyntax-only "$folder/other.c" >"$folder/log" 2>&1 && status=1
  grep -q phrase_is_its_words "$folder/log" || status=1
  verdict "a header with $1 does not compile" "$status" "$folder/log"
}
field='^    (uint32_t|struct phrase_[a-z]+) [a-z_]+(\[[A-Z_]+\])?;'
fields=0
while read -r line; do
  name=$(sed -nE "${line}s/^    ([^;]*);.*/\1/p" host/phrase.h)
  fields=$((fields + 1))
  sed "${line}s/uint32_t\|struct phrase_[a-z]*/uint64_t/" host/phrase.h >"$folder/wrong/phrase.h"
  misfits "a wider $name"
  if sed -n "$((line + 1))p" host/phrase.h | grep -Eq "$field"; then
    sed -e "$line{h;d}" -e "$((line + 1))G" host/phrase.h >"$folder/wrong/phrase.h"
    misfits "$name after the field that follows it"
  fi
done < <(grep -nE "$field" host/phrase.h | cut -d: -f1)
verdict "the structs have $fields fields, not 21" $((fields != 21))
status=0
gcc -std=c99 -U__x86_64__ -I host -fsyntax-only "$folder/other.c" >"$folder/log" 2>&1 && status=1
grep -q '#error "libphrase.a is for x86-64 only"' "$folder/log" || status=1
verdict 'the header refuses other processors' "$status" "$folder/log"

# ---- The C of README.md, as it stands there ----

# block START: the indented lines of README.md from this one to the first closing brace at their margin.
block() {
  sed -n "/^    $1/,/^    }\$/s/^    //p" README.md
}
block '#include <stdio.h>' >"$folder/sample.c"
if build 'the host of README.md builds' "$folder/sample.c" "$folder/sample"; then
  status=0
  "$folder/sample" <"$p" >"$folder/out" || status=$?
  verdict "the host of README.md on P: exit status $status, not 0" "$status"
  same 'the host of README.md on P' examples/phrase-p.report "$folder/out"
  status=0
  "$folder/sample" <"$folder/late" >"$folder/out" || status=$?
  verdict "the host of README.md on a late phrase: exit status $status, not 1" $((status != 1))
fi
block 'static uint64_t check_within' >"$folder/check_within.h"
if build 'the loop of README.md builds' tests/host/within.c "$folder/within" -I "$folder"; then
  passes 'the loop of README.md' "$folder/within" || true
fi

# ---- The Makefile ----

if passes 'host/Makefile builds' make -s -C host PHRASE_LIB="$library" LDLIBS="${LDLIBS:-}" OUT="$folder/made"; then
  player=("$folder/made/player")
  plays made 0 "$(cat examples/phrase-p.report)\n" "player: $p: accepted\n" "$p"
  plays made 1 'refused 14 stroke 0 ends 6..7\nstroke 0 start 5 end 7\nstroke 1 start 0 end 4\n' \
    "player: $folder/late: refused, number 14, stroke 0\n" "$folder/late" --play "$folder/playing-late"
  editor=("$folder/made/editor")
  writes made "$folder/later" 'due times: 2 moved by 150\nbytes: 50, 2 changed\n' "$p" --due 150
  passes 'host/Makefile removes' make -s -C host PHRASE_LIB="$library" OUT="$folder/made" clean || true
  verdict 'host/Makefile leaves what it built' "$(find "$folder/made" -type f | wc -l)"
fi

# ---- With sanitizers, where the compiler has them. They watch the C side; of the library they see what it asks of C's own functions ----

sanitized=(-g -O1 -fsanitize=address -fsanitize=undefined -fno-sanitize-recover=all)
echo 'int main(void) { return 0; }' >"$folder/none.c"
if gcc "${sanitized[@]}" "$folder/none.c" -o "$folder/none" >"$folder/log" 2>&1 && "$folder/none" >"$folder/log" 2>&1; then
  if build 'host/player.c builds with sanitizers' host/player.c "$folder/player-sanitized" "${sanitized[@]}"; then
    player=("$folder/player-sanitized")
    play_all sanitized
    play_playings sanitized
    play_refused sanitized
    play_trouble sanitized
  fi
  if build 'host/editor.c builds with sanitizers' host/editor.c "$folder/editor-sanitized" "${sanitized[@]}"; then
    editor=("$folder/editor-sanitized")
    edit_all sanitized
    edit_refused sanitized
    edit_trouble sanitized
  fi
  for test in buffers edits playings names; do
    if build "tests/host/$test.c builds with sanitizers" "tests/host/$test.c" "$folder/$test-sanitized" "${sanitized[@]}"; then
      passes "$test with sanitizers" "$folder/$test-sanitized" || true
    fi
  done
else
  left_out 'the C tests with sanitizers' 'gcc has no sanitizers here'
fi

# ---- Under valgrind, which watches the library too ----

if command -v valgrind >/dev/null; then
  grind=(valgrind -q --error-exitcode=99 --leak-check=full)
  if [ -x "$folder/player" ]; then
    player=("${grind[@]}" "$folder/player")
    plays valgrind 0 "$(cat examples/phrase-p.report)\n" "player: $p: accepted\n" "$p"
    plays valgrind 0 "$(cat examples/etude.report)\n" "player: examples/etude.phrase: accepted\n" examples/etude.phrase
    plays valgrind 0 "$(cat examples/etude-down.report examples/etude.played)\n" "player: $down: accepted\n" "$down" --play examples/etude.playing
    plays valgrind 0 "$(cat examples/etude-heavy.report examples/etude-heavy.played)\n" "player: $heavy: accepted\n" "$heavy" --play examples/etude.playing
    plays valgrind 1 'refused 19 at 6\n' "player: $folder/shift: refused, number 19, byte 6\n" "$folder/shift" --play "$folder/playing"
    plays valgrind 1 'refused 6 at 17\n' "player: $folder/rest: refused, number 6, byte 17\n" "$folder/rest" --play "$folder/playing"
    plays valgrind 1 'refused 14 stroke 1 ends 5..7\nstroke 0 start 0 end 3\nstroke 1 start 4 end 6\n' \
      "player: $folder/twice-rested: refused, number 14, stroke 1\n" "$folder/twice-rested" --play "$folder/playing-twice"
    plays valgrind 1 'refused 13 level 1\n' "player: $p: refused, number 13, level 1\n" "$p" 31
    plays valgrind 1 'refused 14 stroke 0 ends 6..7\n' "player: $folder/late: refused, number 14, stroke 0\n" "$folder/late"
    plays valgrind 1 'refused 2 at 0\n' "player: $folder/empty: refused, number 2, byte 0\n" "$folder/empty" 0
    plays valgrind 2 '' "player: $folder: Is a directory\n" "$folder"
    plays valgrind 0 "$(cat examples/etude.report examples/etude.played)\n" "player: $etude: accepted\n" --play examples/etude.playing "$etude"
    plays valgrind 0 'accepted strokes 0 states 1 hold 0\n' "player: $folder/silence: accepted\n" "$folder/silence" --play "$folder/playing-silence"
    plays valgrind 1 'refused 13 level 1\nstroke 0 start 5 end 7\nstroke 1 start 0 end 4\n' "player: $p: refused, number 13, level 1\n" \
      "$p" 31 --play "$folder/playing-late"
    plays valgrind 1 "$(cat examples/phrase-p.report)\n" "player: $p: accepted\nplayer: $folder/empty: refused, number 17, byte 0\n" "$p" --play "$folder/empty"
    plays valgrind 2 '' "player: $folder: Is a directory\n" "$p" --play "$folder"
  fi
  if [ -x "$folder/editor" ]; then
    editor=("${grind[@]}" "$folder/editor")
    edit_all valgrind
    edits valgrind 1 '' "editor: $folder/bell: refused, number 6, byte 7\n" "$folder/kept" "$folder/bell" --due 1
    refuses valgrind '10, byte 190: note 9: no bell sounds for its key any more' "$etude" --bell 7 --transpose 11
    refuses valgrind '19, byte 6: the shift is out of range' "$down" --shift 25
    refuses valgrind "6, byte 26: bell 2: $out_of_range" "$heavy" --bell 2 --rest 65537
    troubles valgrind "editor: $p: there is no such bell" "$p" --bell 2 --transpose 0
  fi
  for test in buffers edits playings names; do
    if [ -x "$folder/$test" ]; then
      passes "$test under valgrind" "${grind[@]}" "$folder/$test" || true
    fi
  done
else
  left_out 'the C tests under valgrind' 'there is no valgrind here'
fi

# ---- The header from C++ ----

if command -v g++ >/dev/null; then
  cat >"$folder/host.cpp" <<'END'
#include <algorithm>
#include <vector>

#include "phrase.h"

int main()
{
    const uint8_t file[] = {0x01, 0, 0, 0, 1, 0};
    uint32_t table[4];
    uint8_t text[15];
    uint64_t answer = phrase_check(file, sizeof file);
    bool refused = phrase_refusal(answer) == PHRASE_DRIVERS && phrase_place(answer) == 5;
    bool same = phrase_check_with(file, sizeof file, table, 4) == answer;
    bool written = phrase_report(file, sizeof file, text, 15) == 15 && phrase_report_with(file, sizeof file, table, 4, text, 14) == 0;
    static phrase read; // a struct needs no typedef here
    uint8_t again[50];
    bool unread = phrase_read(file, sizeof file, &read) == answer && phrase_refusal(phrase_write(&read, again, 50)) == PHRASE_VERSION;
    read.version = read.drivers = read.bell_count = 1;
    read.bells[0] = phrase_bell{62, phrase_transposition(-2), 1, 1, 0, 0, 0};
    const uint8_t due[] = {0x01, 0, 0, 0, 10, 1, 1, 62, 254, 0, 1, 0, 1, 0, 0};
    bool edited = phrase_write(&read, again, 50) == sizeof due && std::equal(due, due + sizeof due, again) && phrase_read(due, sizeof due, &read) == 0
                  && read.bells[0].sounding == 60 && phrase_semitones(read.bells[0].transposition) == -2;
    read.version = 2;
    read.shift = phrase_transposition(-4);
    const uint8_t shifted[] = {0x02, 0, 0, 0, 11, 1, 252, 1, 62, 254, 0, 1, 0, 1, 0, 0};
    bool moved = phrase_write(&read, again, 50) == sizeof shifted && std::equal(shifted, shifted + sizeof shifted, again)
                 && phrase_read(shifted, sizeof shifted, &read) == 0 && phrase_semitones(read.shift) == -4 && phrase_check(shifted, sizeof shifted) == 0;
    read.version = 1;
    moved = moved && phrase_refusal(phrase_write(&read, again, 50)) == PHRASE_SHIFT;
    read.version = 3;
    read.bells[0].rest = 5000;
    const uint8_t rested[] = {0x03, 0, 0, 0, 13, 1, 252, 1, 62, 254, 0, 1, 0, 1, 19, 136, 0, 0};
    bool rests = phrase_write(&read, again, 50) == sizeof rested && std::equal(rested, rested + sizeof rested, again)
                 && phrase_read(rested, sizeof rested, &read) == 0 && read.bells[0].rest == 5000 && phrase_check(rested, sizeof rested) == 0;
    read.version = 2;
    rests = rests && phrase_refusal(phrase_write(&read, again, 50)) == PHRASE_BELL_FIELD;
    const uint8_t playing[] = {0x01, 0, 0, 0, 0};
    uint32_t starts[PHRASE_MOST_NOTES], ends[PHRASE_MOST_NOTES];
    bool played = phrase_play(due, sizeof due, playing, sizeof playing, starts, ends) == 0 && std::count(starts, starts + PHRASE_MOST_NOTES, 0u) == 64
                  && std::count(ends, ends + PHRASE_MOST_NOTES, 0u) == 64
                  && phrase_refusal(phrase_play(due, sizeof due, playing, 4, starts, ends)) == PHRASE_PLAYING;
    const std::vector<uint8_t> none;
    bool empty = phrase_check(none.empty() ? file : none.data(), none.size()) == PHRASE_COUNT * UINT64_C(4294967296);
    return refused && same && written && unread && edited && moved && rests && played && empty ? 0 : 1;
}
END
  if passes 'phrase.h builds as C++' g++ -std=c++11 -Wall -Wextra -Wpedantic -Werror -I host "$folder/host.cpp" "$library" "${libraries[@]}" \
    -o "$folder/host"; then
    passes 'the seven calls from C++' "$folder/host" || true
  fi
else
  left_out 'the header from C++' 'there is no g++ here'
fi

if [ "$failed" -ne 0 ]; then
  echo "tests/host.sh: $failed of $checks checks failed"
  exit 1
fi
echo "tests/host.sh: $((checks + counted)) checks passed"
