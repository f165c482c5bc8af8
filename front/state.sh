# ./card state: the proved program cardstate on an image, with interrupt lines and a boot ROM.
# shellcheck shell=bash disable=SC2154
# shellcheck source=front/program.sh
. "$front/program.sh"

card_state() {
  local use='./card state IMAGE [LINES [ROM]]' image
  [ $# -ge 1 ] || wrong "the image is missing; write: $use"
  [ $# -le 3 ] || wrong "an image, lines and a ROM are wanted, and here are $# words; write: $use"
  readable "$1" "an image" "$use"
  image=$1
  shift
  if [ $# -ge 1 ]; then
    [[ $1 =~ ^[0-9a-f]{1,2}$ ]] ||
      wrong "LINES are one or two digits of lowercase hexadecimal, 00 to 1f, not '$(shown "$1")'; write: $use"
  fi
  if [ $# -eq 2 ]; then
    [ "$2" != - ] || wrong "the ROM is a file, not '-'; write: $use"
    readable "$2" "a boot ROM" "$use"
  fi
  make_scratch
  if [ $# -eq 2 ]; then
    # one byte more than a ROM may have is enough to be refused
    take_first 4194305 "$2" "$scratch/rom" "the boot ROM"
    set -- "$1" "$scratch/rom"
  fi
  answer_of "$image" cardstate "$@"
}
