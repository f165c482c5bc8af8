# ./card explain: an answer of cardrun or cardstate in words.
# shellcheck shell=bash disable=SC2154

card_explain() {
  local use='./card explain [ANSWER] [--image IMAGE]' answer='' image='' status=0
  while [ $# -gt 0 ]; do
    case $1 in
    --image)
      [ $# -ge 2 ] || wrong "--image wants a file; write: $use"
      image=$2
      [ -n "$image" ] || wrong "the name of the image is empty; write: $use"
      shift 2
      ;;
    -?*) wrong "'$(shown "$1")' is no option of explain; write: $use" ;;
    *)
      [ -z "$answer" ] || wrong "one answer is wanted, and '$(shown "$1")' is a second; write: $use"
      [ -n "$1" ] || wrong "the name of the answer is empty; write: $use"
      answer=$1
      shift
      ;;
    esac
  done
  readable "${answer:=-}" "an answer" "$use"
  [ -z "$image" ] || readable "$image" "an image" "$use"
  [ "$image" != - ] || [ "$answer" != - ] || wrong "the answer and the image cannot both be standard input; write: $use"
  make_scratch
  take "$answer" "$scratch/answer" "the answer"
  ended "$scratch/answer" || fail "the answer's last line has no LF, so it may be cut short; write: ./card run IMAGE | ./card explain"
  { : >"$scratch/image" && : >"$scratch/words"; } || no_room
  [ -z "$image" ] || take "$image" "$scratch/image" "the image"
  explain_in_words "$image" >"$scratch/words" || status=$?
  case $status in
  0) emit "$scratch/words" ;;
  1) fail "$(cat "$scratch/words")" ;;
  *) fail "the words cannot be put together; there may be no room in '$(shown "$temporary")'" ;;
  esac
}

# Prints the words; or, with status 1, why the text is no answer.
explain_in_words() {
  local file lf=''
  for file in answer image; do # NUL has no place in awk, and is no frame's character either
    tr '\000' '?' <"$scratch/$file" >"$scratch/$file.text" || return 3
  done
  ! ended "$scratch/image" || lf=y
  IMAGE=$1 ENDED=$lf awk_with 'hex names frames fields explain' "$scratch/image.text" "$scratch/answer.text"
}
