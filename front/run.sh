# ./card run: the proved program cardrun on an image.
# shellcheck shell=bash disable=SC2154
# shellcheck source=front/program.sh
. "$front/program.sh"

card_run() {
  local use='./card run IMAGE'
  [ $# -ge 1 ] || wrong "the image is missing; write: $use"
  [ $# -eq 1 ] || wrong "one image is wanted, and here are $# words; write: $use"
  readable "$1" "an image" "$use"
  make_scratch
  answer_of "$1" cardrun
}
