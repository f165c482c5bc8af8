# What takes more than one command: examples, help's own examples, closed pipes, safe answers, the first build.
# shellcheck shell=bash disable=SC2154

scripted() {
  examples
  examples_are_built
  other_linker
  help_can_be_pasted
  help_has_every_beginning
  closed_pipes
  # shellcheck source=tests/front/safe.sh
  . "$tests/safe.sh"
  safe_answers
  # shellcheck source=tests/front/first.sh
  . "$tests/first.sh"
  first_build
}

# Each example gives its answer.
examples() {
  local source name
  for source in examples/*.s; do
    name=$(basename "$source" .s)
    ./card run "examples/$name.image" >"$T/answer" 2>"$T/said"
    hold "example $name" cmp "$T/answer" "examples/$name.answer"
  done
}

# The stored images, and the stored kernel, are what their sources give.
examples_are_built() {
  local file
  mkdir "$T/built"
  examples/build --into "$T/built" 2>"$T/said"
  hold "examples/build" [ $? -eq 0 ]
  for file in examples/*.image; do
    hold "$file is what its source gives" cmp "$file" "$T/built/$(basename "$file")"
  done
  # the bytes of an ELF are the linker's, its image is not
  ./card image front/kernel.elf -o "$T/kernel.stored" 2>"$T/said"
  ./card image "$T/built/kernel.elf" -o "$T/kernel.built" 2>"$T/said"
  hold "front/kernel.elf is what its source gives" cmp "$T/kernel.stored" "$T/kernel.built"
}

# front/user.ld is for ld.lld too, where that is here: the programs give the same answers.
other_linker() {
  local name budget
  if ! command -v ld.lld >/dev/null; then
    echo "ld.lld is not here, so front/user.ld is not tried with it"
    return
  fi
  for name in sweep probe; do
    budget=$(sed -n 's/^03//p' "examples/$name.image")
    ld.lld -T front/user.ld -o "$T/lld.elf" "$T/$name.o" && ./card image "$T/lld.elf" --user --budget "0x$budget" 2>"$T/said" | ./card run - >"$T/answer"
    hold "$name linked by ld.lld" cmp "$T/answer" "examples/$name.answer"
  done
}

# Every line of help that begins with two spaces and a command under 'Try:' runs, page by page.
help_can_be_pasted() {
  local page
  for page in front/help/*.txt; do
    sed -n '/^Try:/,$ s/^  //p' "$page" | grep -v '^\./card test$' | sed "s|/tmp/my|$T/my|g" >"$T/pasted"
    { echo 'set -e -o pipefail' && cat "$T/pasted"; } >"$T/pasted.sh"
    bash "$T/pasted.sh" >"$T/wrote" 2>&1
    hold "examples of $page" [ $? -eq 0 ]
  done
}

# The beginnings of an answer that help lists are those that explain takes, each with a meaning; no other of these numbers is.
help_has_every_beginning() {
  local number tag
  for tag in 0e 0f; do
    for number in 00 01 02 03 04 05 06 07 08 09 0f 10 11 12 13 14 ff; do
      { printf '%s%s00000003\n' "$tag" "$number" && { [ $tag = 0e ] || echo 0122ffffffff80000008; }; } >"$T/answer"
      ! ./card explain "$T/answer" 2>"$T/said" | grep -qE '^(Stop|Refused:) [0-9]+[:,] [a-z]' || echo "$tag$number"
    done
  done >"$T/taken"
  grep -oE '0[ef][0-9a-f]{2}  ' front/help/explain.txt | tr -d ' ' | sort >"$T/listed"
  hold "the beginnings that help explain lists" cmp "$T/taken" "$T/listed"
}

# A reader that goes away makes no noise, and leaves nothing behind.
closed_pipes() {
  local command
  mkdir "$T/room"
  for command in 'run examples/sweep.image' 'state examples/sweep.image' 'list examples/sweep.image' 'help' \
    "image $T/timer.elf" 'explain examples/sweep.answer'; do
    # shellcheck disable=SC2086
    TMPDIR=$T/room ./card $command 2>"$T/said" | true
    # shellcheck disable=SC2086
    (trap '' PIPE && TMPDIR=$T/room ./card $command 2>>"$T/said") | true
    hold "closed pipe: ./card $command" [ -z "$(grep -v -x 'card: Kernel mode: isolation promises nothing of this image' "$T/said")" ]
  done
  hold "temporary files are gone" [ -z "$(ls "$T/room")" ]
}
