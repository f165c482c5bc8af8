# ./card test: the gate.
# shellcheck shell=bash disable=SC2154

card_test() {
  [ $# -eq 0 ] || wrong "test takes no words; write: ./card test"
  [[ $closed != *1* ]] || fail "standard output is closed"
  trap - HUP INT QUIT TERM PIPE XFSZ EXIT
  umask "$user_umask"
  exec bash -p "$root/.ci/run" >&7 2>&9 7>&- 9>&-
}
