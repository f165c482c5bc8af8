# What every word of ./card uses: messages, temporary files, input files, the MIPS binutils.
# Answers go to descriptor 7 by emit, messages to 9 by note, and nothing else does.
# shellcheck shell=bash disable=SC2154,SC2034

export LC_ALL=C
said='' scratch='' half='' group=''
mips_package=binutils-mips-linux-gnu
user_umask=$(umask)
umask 077

# One line of at most 300 bytes, each of which can be printed.
note() {
  local text="card: $*"
  text=${text//[^ -~]/?}
  [ ${#text} -le 299 ] || text="${text:0:297}.."
  printf '%s\n' "$text" >&9
}

# A name or a text of somebody's, fit to be quoted in a message: printed bytes, 80 of them at most.
shown() {
  local text=${1//[^ -~]/?}
  [ ${#text} -le 80 ] || text="${text:0:50}..${text: -28}"
  printf '%s' "$text"
}

# Wrong use: one line, status 2.
wrong() {
  note "$*"
  said=yes
  exit 2
}

# Right use that cannot be done: one line, status 1.
fail() {
  note "$*"
  said=yes
  exit 1
}

# The signals that would end bash, but for those that mean a fault of its own: HUP INT QUIT TRAP ABRT USR1 USR2 ALRM TERM STKFLT XCPU VTALRM
# PROF IO PWR and the real-time ones.
ending=(1 2 3 5 6 10 12 14 15 16 24 26 27 29 30 {34..64})

# What a reader that goes away or a limit on files would end without a word is an error like any other; a signal ends all, and cleanly.
catch_signals() {
  local signal
  trap 'leave $?' EXIT
  # shellcheck disable=SC2064
  for signal in "${ending[@]}"; do trap "end_by $signal" "$signal"; done
  trap '' PIPE XFSZ
}

end_by() {
  said=yes
  leave $((128 + $1))
  trap - EXIT
  exit $((128 + $1))
}

# The end of the command, whatever ended it: nothing runs on, no file stays, and a status that is not 0 has had its line.
leave() {
  local child
  trap '' "${ending[@]}"
  [ -z "$group" ] || kill -- "-$group"
  for child in $(jobs -p); do kill -KILL "$child" && wait "$child"; done
  [ -z "$scratch" ] || rm -rf -- "$scratch"
  [ -z "$half" ] || rm -f -- "$half"
  [ "$1" -eq 0 ] || [ -n "$said" ] || note "this could not be done, and why is not known"
}

no_room() { fail "there is no room in the temporary folder '$(shown "$temporary")'; TMPDIR may name another"; }

# Stops unless each command is there: need PACKAGE COMMAND..
need() {
  local package=$1 command
  shift
  for command in "$@"; do
    command -v -- "$command" >/dev/null ||
      fail "$command is not on this machine; install Debian's package $package: apt-get install $package"
  done
}

# Makes a file or a folder by mktemp, which no signal can end between the making and the telling: make_temporary WORDS..
make_temporary() { (trap '' "${ending[@]}" && exec mktemp "$@"); }

# Makes the folder $scratch, which is gone when the command ends.
make_scratch() {
  need coreutils mktemp
  need mawk awk
  try_scratch || fail "no temporary folder can be made in '$(shown "$temporary")'; TMPDIR may name another"
}

# The same, or $scratch is empty and the status not 0.
try_scratch() {
  temporary=${TMPDIR:-/tmp}
  case $temporary in /*) ;; *) temporary=$PWD/$temporary ;; esac
  scratch=$(make_temporary -d -- "$temporary/card.XXXXXX") || {
    scratch=
    return 1
  }
}

# Stops unless FILE can be read, where it is not '-': readable FILE WHAT USE
readable() {
  local name
  if [ "$1" = - ]; then
    [[ $closed != *0* ]] || wrong "standard input is closed; write: $3"
    return 0
  fi
  name=$(shown "$1")
  [ -n "$1" ] || wrong "the name of $2 is empty; write: $3"
  [ -e "$1" ] || wrong "there is no file '$name'; write: $3"
  [ ! -d "$1" ] || wrong "'$name' is a folder, not $2; write: $3"
  [ -r "$1" ] || wrong "'$name' may not be read; write: $3"
  ! own_descriptor "$1" || wrong "descriptors 1, 2, 7 and 9 are outputs of ./card's own; write: $3"
}

# Whether a name stands for one of the descriptors that ./card took for itself.
own_descriptor() {
  local folder
  case $1 in
  /dev/stdout | /dev/stderr) return 0 ;;
  */[1279]) folder=$(cd -P -- "${1%/*}" && pwd -P) && [[ $folder =~ ^/proc/[0-9]+(/task/[0-9]+)?/fd$ ]] ;;
  *) return 1 ;;
  esac
}

# Copies FILE, or standard input for '-', whole to COPY: take FILE COPY WHAT
# What has more than 1 MiB is none: an image has 64 KiB at most, an answer 219 KiB.
take() {
  take_first 1048577 "$@"
  [ "$(wc -c <"$2")" -le 1048576 ] || fail "$3 has over 1 MiB, too much to be one"
}

# Copies the first bytes of FILE, or of standard input for '-', which may have no end: take_first BYTES FILE COPY WHAT
# That runs in the background, since bash heeds no signal while it waits for a command before it.
take_first() {
  if [ "$2" = - ]; then
    [ ! -t 0 ] || note "reading $4 from the keyboard; Ctrl-D ends it"
    head -c "$1" <&0 >"$3" &
  else
    head -c "$1" <"$2" >"$3" &
  fi
  wait "$!" || fail "$4 cannot be read, or there is no room for it in '$(shown "$temporary")'"
}

# Whether a text is empty or its last line is ended by LF.
ended() {
  local last
  [ -s "$1" ] || return 0
  last=$(set -o pipefail && tail -c 1 -- "$1" | od -An -tx1) || fail "the end of the text cannot be read"
  [ "${last// /}" = 0a ]
}

# Prints a finished file whole; where that fails, what a file has of it is taken back. A reader that went away is no error worth a line.
emit() {
  local why=${scratch:+$scratch/why} own='' before='' bytes
  [[ $closed != *1* ]] || fail "standard output is closed"
  : >"${why:=/dev/null}" || why=/dev/null
  bytes=$(stat -L -c %s -- "$1") || fail "the answer cannot be read"
  [ ! -f /dev/fd/7 ] || hold_output "$bytes"
  dd "if=$1" bs=64K >&7 2>"$why" &
  if wait "$!"; then
    trap '' "${ending[@]}" # what is left to do is to clear up
    [ -z "$own" ] || exec {own}>&-
    return 0
  fi
  [ -z "$own" ] || take_back
  why=$(<"$why")
  case $why in
  *'Broken pipe'*) said=yes && exit 1 ;;
  *'No space left'* | *'quota'*) fail "the output cannot be written: the disk is full" ;;
  *'File too large'*) fail "the output cannot be written: a file may not be so large here (ulimit -f)" ;;
  *) fail "the output cannot be written" ;;
  esac
}

# Before an answer goes to a file: other ./card are waited for, and it is seen that the file can take all of it: hold_output BYTES
# Leaves a descriptor of our own in $own, where the file can be opened anew, and the file's size in $before.
hold_output() {
  local free limit
  if exec {own}>>/dev/fd/7; then flock -w 10 "$own"; else own=; fi
  before=$(stat -L -c %s /dev/fd/7)
  free=$(stat -f -L -c '%a * %S' /dev/fd/7)
  limit=$(ulimit -f)
  [ "$limit" = unlimited ] || [ $((before + $1)) -le $((limit * 1024)) ] ||
    fail "the output cannot be written: a file may not be so large here (ulimit -f)"
  [[ ! $free =~ ^[0-9]+\ \*\ [0-9]+$ ]] || [ $((free + 0)) -eq 0 ] || [ "$1" -le $((free)) ] || fail "the output cannot be written: the disk is full"
}

# Cuts off what a file has of an answer that could not be written whole, if just that came after what it had before.
take_back() {
  local wrote now
  wrote=$(awk '/ bytes? .*copied/ { print $1 }' "$why")
  now=$(stat -L -c %s /dev/fd/7)
  if [ -n "$wrote" ] && [ "$wrote" -gt 0 ] && [ "$now" -eq $((before + wrote)) ]; then truncate -s "$before" /dev/fd/7; fi
}

# Sets $mips to the prefix of the MIPS binutils, as in ${mips}objdump, or fails: CARD_MIPS names another prefix.
find_mips() {
  local prefix prefixes=(mips-linux-gnu- mips64-linux-gnuabi64- mips64-linux-gnuabin32-)
  [ -z "${CARD_MIPS:-}" ] || prefixes=("$CARD_MIPS")
  for prefix in "${prefixes[@]}"; do
    if command -v "${prefix}objdump" >/dev/null; then
      mips=$prefix
      return 0
    fi
  done
  return 1
}

# Runs awk with files of front/: awk_with 'NAME NAME' [WORDS..]
awk_with() {
  local name names=$1 files=()
  shift
  for name in $names; do files+=(-f "$front/$name.awk"); done
  awk "${files[@]}" "$@"
}
