# ./card image: an image from linked programs. The proved program cardimage reads the files and places them (docs/LOADER.md); here options
# become frames, and refusals words.
# shellcheck shell=bash disable=SC2154,SC2034
# shellcheck source=front/program.sh
. "$front/program.sh"
# shellcheck source=front/value.sh
. "$front/value.sh"
# shellcheck source=front/refusals.sh
. "$front/refusals.sh"

image_use='./card image PROGRAM.elf [-o IMAGE]; options: ./card help image'

card_image() {
  local given=() files=() copies=() kernel='' user='' output='' budget=10000 registers=() moves=() slots=() command=()
  read_options "$@"
  number_files
  [ "$output" != - ] || output=
  [ -z "$output" ] || check_output
  check_files
  make_scratch
  take_files
  make_settings
  ask image "${user:-kernel}" "${copies[@]}"
  check_image
  remarks >"$scratch/remarks" || no_room
  if [ -z "$output" ]; then emit "$scratch/image"; else keep_output; fi
  say_all <"$scratch/remarks"
}

read_options() {
  while [ $# -gt 0 ]; do
    case $1 in
    --user) user=user ;;
    --budget | --reg | --cp0 | --tlb | --kernel | -o | --output)
      [ $# -ge 2 ] || wrong "$1 wants a word after it; write: $image_use"
      read_option "$1" "$2"
      shift
      ;;
    -?*) wrong "'$(shown "$1")' is no option of image; write: $image_use" ;;
    *)
      [ -n "$1" ] || wrong "the name of the program is empty; write: $image_use"
      given+=("$1")
      ;;
    esac
    shift
  done
}

read_option() {
  [ -n "$2" ] || wrong "the word after $1 is empty; write: $image_use"
  case $1 in
  --budget) budget=$2 ;;
  --reg) registers+=("$2") ;;
  --cp0) moves+=("$2") ;;
  --tlb) slots+=("$2") ;;
  --kernel) kernel=$2 ;;
  *) output=$2 ;;
  esac
}

# Sets $files to the names in the order of cardimage's numbers: with --user the kernel, then the programs; else the one program.
number_files() {
  [ ${#given[@]} -gt 0 ] || wrong "the program is missing; write: $image_use"
  if [ -n "$user" ]; then
    [ ${#given[@]} -le 7 ] || wrong "7 programs are the most, and here are ${#given[@]}; write: $image_use"
    files=("${kernel:-$front/kernel.elf}" "${given[@]}")
  else
    [ -z "$kernel" ] || wrong "--kernel goes with --user; write: ./card image PROGRAM.elf --user --kernel KERNEL.elf"
    [ ${#given[@]} -eq 1 ] || wrong "without --user one program is wanted, and '$(shown "${given[1]}")' is a second; write: $image_use"
    files=("${given[@]}")
  fi
}

check_output() {
  local file
  [ ! -d "$output" ] || wrong "'$(shown "$output")' is a folder; write: -o IMAGE, the name of a file"
  [ -d "$(dirname -- "$output")" ] ||
    wrong "there is no folder '$(shown "$(dirname -- "$output")")' for the image; make it, or write another -o IMAGE"
  for file in "${files[@]}"; do
    [ ! "$output" -ef "$file" ] || wrong "-o names the program itself; write another -o IMAGE"
  done
}

check_files() {
  local file what='a program' input=''
  [ -z "$user" ] || what='a kernel'
  for file in "${files[@]}"; do
    readable "$file" "$what" "$image_use"
    [ "$file" != - ] || [ -z "$input" ] || wrong "only one file can be standard input; write: $image_use"
    [ "$file" != - ] || input=yes
    what='a program'
  done
}

# Copies the files to $copies; cardimage has room for 4,194,304 bytes of them.
take_files() {
  local room=4194304 i bytes total=0 most=0 largest=''
  for i in "${!files[@]}"; do
    copies+=("$scratch/file.$i")
    take_first $((room + 1)) "${files[i]}" "$scratch/file.$i" "'$(shown "${files[i]}")'"
    bytes=$(wc -c <"$scratch/file.$i")
    total=$((total + bytes))
    if [ "$bytes" -gt "$most" ]; then most=$bytes largest=${files[i]}; fi
  done
  [ "$total" -le "$room" ] ||
    fail "over 4,194,304 bytes are too much; '$(shown "$largest")' has the most of them, and mips-linux-gnu-strip -g makes it smaller"
}

# Writes what the options set, as frames, to $scratch/settings: TLB slots, CP0 registers, registers, the budget last.
make_settings() {
  local option
  : >"$scratch/settings" || no_room
  for option in "${slots[@]}"; do slot_option "$option"; done
  for option in "${moves[@]}"; do cp0_option "$option"; done
  for option in "${registers[@]}"; do register_option "$option"; done
  budget_option "$budget"
  [ "$(wc -c <"$scratch/settings")" -le 65536 ] || fail "the options make over 65,536 bytes of frames; give fewer"
}

# Adds one frame, unless the reader would refuse it: add OPTION FRAME
add() {
  local why
  why=$(printf '%s\n' "$2" | awk_with 'hex names frames fault') || wrong "$1: $why; write: ./card help image"
  printf '%s\n' "$2" >>"$scratch/settings" || no_room
}

# Asks cardimage, and leaves its answer in $scratch/ANSWER: ask ANSWER WORDS..
# A refusal ends the command, but for 23, no such symbol, whose status is 1.
ask() {
  local answer=$1 status=0
  shift
  [ ${#command[@]} -gt 0 ] || find_program cardimage
  "${command[@]}" "$@" <"$scratch/settings" >"$scratch/$answer" 2>"$scratch/refusal" &
  wait "$!" || status=$?
  case $status in
  0) ;;
  3) refused "$1" ;;
  *) no_answer cardimage "$status" ;;
  esac
}

# What cardimage gave is a text of frames and nothing else, and whole.
check_image() {
  local other
  other=$(tr -d '0-9a-f\n' <"$scratch/image" | wc -c)
  { [ "$other" = 0 ] && [ -s "$scratch/image" ] && ended "$scratch/image"; } || fail "cardimage gave no whole image"
}

# Prints what is said of a finished image: which program is which, what each reaches, and where nothing is promised.
remarks() {
  local i
  if [ ${#files[@]} -gt 2 ]; then
    for i in "${!given[@]}"; do printf "ASID %d is '%s'\n" $((i + 1)) "$(shown "${given[i]}")" || return; done
  fi
  cp -- "$scratch/image" "$scratch/image.text" && awk_with 'hex names frames fields place reach remarks' "$scratch/image.text"
}

say_all() {
  local line
  while IFS= read -r line; do note "$line"; done
}

# Moves the finished image to its place, so that no half of it is ever there; through a link, to where it leads.
keep_output() {
  local name
  name=$(shown "$output")
  case $output in /*) ;; *) output=./$output ;; esac
  case $output in
  /dev/stdout | /dev/fd/1 | /proc/self/fd/1)
    emit "$scratch/image"
    return
    ;;
  /dev/stderr | /dev/fd/2 | /proc/self/fd/2) output=/dev/fd/9 ;;
  esac
  if [ -e "$output" ] && { [ ! -f "$output" ] || [[ $output == /dev/fd/* || $output == /proc/*/fd/* ]]; }; then # a pipe or a device: nothing to move there
    exec 7>>"$output" || fail "'$name' cannot be written; write another -o IMAGE"
    closed=
    emit "$scratch/image"
    return
  fi
  [ ! -L "$output" ] || output=$(readlink -f -- "$output") || fail "'$name' leads nowhere; write another -o IMAGE"
  half=$(make_temporary -- "${output%/*}/.card.XXXXXX") || {
    half=
    fail "the image cannot be written beside '$name'; write another -o IMAGE"
  }
  { cat -- "$scratch/image" >"$half" && chmod -- "$(printf %o $((0666 & ~0$user_umask)))" "$half" && mv -f -- "$half" "$output"; } ||
    fail "the image cannot be written to '$name'"
  half=
}
