# What ./card starts: the word's own file, with messages, signals and what is left behind in one place.
# shellcheck shell=bash
set -u
root=$1 closed=${2#closed=}
shift 2
front=$root/front
# shellcheck source=front/say.sh
if ! . "$front/say.sh"; then
  echo "card: front/say.sh cannot be read" >&9
  exit 1
fi
catch_signals

word=${1:-}
[ $# -eq 0 ] || shift
if [ $# -eq 1 ] && [[ $1 == -h || $1 == --help ]] && [[ $word =~ ^[a-z]+$ ]] && [ -e "$front/help/$word.txt" ]; then
  set -- "$word"
  word=help
fi
case $word in
run | state | explain | image | list | test | version | help)
  # shellcheck source=/dev/null
  . "$front/$word.sh" || fail "front/$word.sh, or a file that it uses, cannot be read"
  "card_$word" "$@"
  ;;
-h | --help)
  # shellcheck source=front/help.sh
  . "$front/help.sh"
  card_help "$@"
  ;;
'') wrong "a word is missing; write: ./card run IMAGE, or ./card help for all words" ;;
*) wrong "'$(shown "$word")' is no word of this command; write: ./card help" ;;
esac
