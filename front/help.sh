# ./card help: what there is, and each word with an example.
# shellcheck shell=bash disable=SC2154

card_help() {
  [ $# -le 1 ] || wrong "one word is wanted, and here are $#; write: ./card help image"
  local word=${1:-card}
  try_scratch
  case $word in
  card | run | state | explain | image | list | test | version | help) emit "$front/help/$word.txt" ;;
  *) wrong "there is no help for '$(shown "$word")'; write: ./card help run, or state, explain, image, list, test, version, help" ;;
  esac
}
