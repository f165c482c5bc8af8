# What the comparisons share: both emulators' programs, the answers to many images, a difference and its smallest image.
# shellcheck shell=bash disable=SC2154
# shellcheck source=tests/front/alone.sh
. "$root/tests/front/alone.sh"

passed=0
failed=0
kept=$root/target/compare

# What cannot be compared counts as failed.
fail() {
  note "$*"
  echo "$passed passed, $((failed + 1)) failed"
  exit 1
}

# Makes the second emulator, and proved programs, where they are missing or old: prepare [NAME..]
# CARD_BIN, if set, names a folder with other programs in place of the proved ones; they run as they are.
prepare() {
  local name
  need cargo cargo
  second=$root/second/target/release
  cargo build --quiet --release --offline --manifest-path "$root/second/Cargo.toml" --target-dir "$root/second/target" ||
    fail "the second emulator, second/, cannot be built"
  for name in "$@"; do find_program "$name"; done
}

# The two answers to the image on standard input: of_proved NAME [LINES [ROM]], of_second NAME [LINES [ROM]]
of_proved() {
  local name=$1
  shift
  "${runner[@]}" "$folder/$name" "$@"
}

of_second() {
  local name=$1
  shift
  "$second/${name}2" "$@"
}

# Splits a file of many images into files of one image each, header first: $scratch/images/*
split_images() {
  rm -rf "$scratch/images"
  mkdir "$scratch/images"
  csplit -s -z -n 6 -f "$scratch/images/" "$1" '/^# /' '{*}' || fail "$1 cannot be split into its images"
}

# Writes the curated images and the second emulator's answers as the program vectors takes them: write_vectors FOLDER
# $scratch/many has the images too, with their ROMs beside it.
write_vectors() {
  mkdir -p "$1/data"
  {
    "$second/vectors2" roms "$scratch" && "$second/vectors2" roms "$1/data" &&
      "$second/vectors2" >"$1/stdin" && cp "$1/stdin" "$scratch/many" &&
      "$second/answers2" "$scratch/many" >"$scratch/answers" &&
      "$second/differences2" <"$scratch/answers" >"$1/stdout"
  } || fail "the second emulator cannot write its vectors"
}

# Sets $name and $words by a header: words are LINES and, where there is one, the ROM's file.
words_of() {
  local lines rom
  read -r _ name lines rom <<<"$1"
  words=("$lines")
  [ "$rom" = - ] || words+=("$scratch/$rom")
}

# Prints the proved answers to the images of $scratch/images as answers2 prints the second emulator's.
proved_states() {
  local image header words name
  for image in "$scratch"/images/*; do
    {
      IFS= read -r header
      words_of "$header"
      echo "# $name"
      of_proved cardstate "${words[@]}" || fail "cardstate ended with status $?"
    } <"$image"
  done
}

# Compares the whole states after all images of a file in $scratch by cardstate: compare_states FILE
compare_states() {
  local image
  split_images "$1"
  "$second/answers2" "$1" >"$scratch/wanted" || fail "answers2 ended with status $?"
  proved_states >"$scratch/given"
  if cmp -s "$scratch/wanted" "$scratch/given"; then
    passed=$((passed + $(grep -c '^# ' "$scratch/wanted")))
    return
  fi
  for image in "$scratch"/images/*; do compare_one cardstate "$image"; done
}

# Compares the whole states after all images of a file in $scratch by the program vectors; where they differ, one by one: compare_many FILE
compare_many() {
  local image before=$failed
  "$second/answers2" "$1" >"$scratch/answers" || fail "answers2 ended with status $?"
  "$second/differences2" <"$scratch/answers" >"$scratch/wanted" || fail "differences2 ended with status $?"
  (cd "$scratch" && of_proved vectors) <"$1" >"$scratch/given" || fail "vectors ended with status $?"
  if cmp -s "$scratch/wanted" "$scratch/given"; then
    passed=$((passed + $(grep -c '^# ' "$scratch/wanted")))
    return
  fi
  for image in "$scratch"/images/*; do compare_one cardstate "$image"; done
  if [ "$failed" -eq "$before" ]; then
    failed=$((failed + 1))
    echo "FAILED: vectors differs from the second emulator where cardstate does not"
    diff -a "$scratch/given" "$scratch/wanted" | head -n 12
  fi
}

# Compares both answers of one program to one image; the header's words count for cardstate only: compare_one PROGRAM IMAGE
compare_one() {
  local header words name
  {
    IFS= read -r header
    cat >"$scratch/text"
  } <"$2"
  words_of "$header"
  [ "$1" = cardstate ] || words=()
  if differs "$1" "$scratch/text"; then
    failed=$((failed + 1))
    [ "$failed" -gt 5 ] || show "$1"
  else
    passed=$((passed + 1))
  fi
}

# Whether the two answers to a text differ: differs PROGRAM TEXT
differs() {
  of_proved "$1" "${words[@]}" <"$2" >"$scratch/ours" || fail "$1 ended with status $?"
  of_second "$1" "${words[@]}" <"$2" >"$scratch/theirs"
  ! cmp -s "$scratch/ours" "$scratch/theirs"
}

# Drops lines of $scratch/text, the last first, while the answers still differ, until none can go: shrink PROGRAM
shrink() {
  local line before=0 after=1
  while [ "$before" -ne "$after" ]; do
    before=$(wc -c <"$scratch/text")
    for ((line = $(wc -l <"$scratch/text") + 1; line > 0; line--)); do
      sed "${line}d" "$scratch/text" >"$scratch/less"
      cmp -s "$scratch/text" "$scratch/less" || ! differs "$1" "$scratch/less" || mv "$scratch/less" "$scratch/text"
    done
    after=$(wc -c <"$scratch/text")
  done
}

# Prints the smallest image found, and where the answers first differ; keeps the image in target/compare: show PROGRAM
show() {
  shrink "$1"
  differs "$1" "$scratch/text"
  mkdir -p "$kept" && cp "$scratch/text" "$kept/$name.image"
  echo "FAILED: $name: $1 ${words[*]##*/}, kept as target/compare/$name.image"
  cat -v "$scratch/text"
  echo "-- first difference, proved program '<' and second emulator '>'"
  diff -a "$scratch/ours" "$scratch/theirs" | awk '/^[0-9]/ && any++ { exit } { print }' | head -n 12
}

# The last line and the status.
tally() {
  echo "$passed passed, $failed failed"
  [ "$failed" -eq 0 ]
}
