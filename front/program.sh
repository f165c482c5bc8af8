# The proved programs: whether they are what the sources give, how they are run.
# shellcheck shell=bash disable=SC2154
# shellcheck source=front/build.sh
. "$front/build.sh"

# Prints the answer of a proved program to an image, once it is whole: answer_of IMAGE NAME [ARGUMENTS..]
# One byte more than an image may have is enough to be refused.
answer_of() {
  local image=$1 name=$2 status=0 command
  shift 2
  find_program "$name"
  take_first 65537 "$image" "$scratch/image" "the image"
  "${command[@]}" "$@" <"$scratch/image" >"$scratch/answer" &
  wait "$!" || status=$?
  case $status in
  0)
    { [ -s "$scratch/answer" ] && ended "$scratch/answer"; } || fail "$name gave no whole answer"
    emit "$scratch/answer"
    ;;
  *) no_answer "$name" "$status" ;;
  esac
}

# Ends the command where a proved program ended otherwise than with an answer: no_answer NAME STATUS
no_answer() {
  case $2 in
  1) fail "$1 could not read its input or write its answer; there may be no room in '$(shown "$temporary")'" ;;
  129 | 1[3-8]? | 19[0-2]) fail "$1 was ended by signal $(($2 - 128)), so there is no answer" ;;
  *) fail "$1 ended with status $2, so there is no answer" ;;
  esac
}

# Sets $command to the words that run a proved program, which is built first where it must be: find_program NAME
# CARD_BIN names a folder with other programs of these names; they run as they are.
find_program() {
  if [ -n "${CARD_BIN:-}" ]; then
    folder=$CARD_BIN runner=()
    case $folder in /*) ;; *) folder=$PWD/$folder ;; esac
    [ -x "$folder/$1" ] || fail "CARD_BIN is '$(shown "$CARD_BIN")', and there is no program $1 in it"
  else
    folder=$root/target/bin
    need_kit
    sum_sources
    built "$1" || build "$1"
  fi
  command=("${runner[@]}" "$folder/$1")
}

# Sets $kit to the toolchain's folder and $runner to the words before a program: the kit's loader and C library. Without a toolchain, or on
# a machine that it has nothing for, its status is not 0.
find_kit() {
  kit=${RATTLE_HOME:-}
  if [ -z "$kit" ]; then
    kit=$(command -v rt) && kit=$(readlink -f -- "$kit") || return
    kit=${kit%/*/*}
  fi
  runner=("$kit/toolchain/lib/ld-linux-x86-64.so.2" --library-path "$kit/toolchain/lib")
  [ "$(uname -m)" = x86_64 ] && [ -e "${runner[0]}" ]
}

need_kit() {
  find_kit || [ -z "$kit" ] || fail "the toolchain at '$(shown "$kit")' has nothing for this machine, $(uname -m)"
  [ -n "$kit" ] ||
    fail "rt, the Rattle toolchain's command, is not on the path; install the toolchain, which proves, builds and runs the programs"
}

# Sets $sources to the sum of all files that the programs are proved and built from, whatever their dates.
sum_sources() {
  need coreutils sha256sum
  sources=$(sum_of_files "$root" crates.txt crates) || fail "crates.txt or a file of crates/ cannot be read"
}

# Prints the sum of all files in parts of a folder, those behind links too; nothing else may be there: sum_of_files FOLDER PART..
# What rt keeps in a crate's own folder out/ is left out.
sum_of_files() {
  local sum skipped=(-regextype posix-extended -regex 'crates/[^/]+/out' -type d -prune)
  cd -- "$1" || return
  shift
  sum=$(set -o pipefail && [ -z "$(find -L "$@" "${skipped[@]}" -o ! -type f ! -type d -print -quit)" ] &&
    find -L "$@" "${skipped[@]}" -o -type f -print0 | sort -z | xargs -0 sha256sum -- | sha256sum) && printf '%s' "${sum%% *}"
}

# Prints the sum of a file, nothing where it cannot be read.
sum_of() {
  local sum
  sum=$(sha256sum <"$1") && printf '%s' "${sum%% *}"
}

# Prints what was written down of the last build: recorded KEY
recorded() { sed -n "s/^$1=//p" "$root/target/front/built" 2>/dev/null; }

# Whether the sources and the toolchain are those of the last build.
same_sources() { [ -n "$kit" ] && [ "$(recorded sources)" = "$sources" ] && [ "$(recorded toolchain)" = "$(cat -- "$kit/KIT-ID")" ]; }

# Whether the program NAME stands there as it was built from the sources and by the toolchain as they are now.
built() { same_sources && [ -x "$root/target/bin/$1" ] && [ "$(recorded "$1")" = "$(sum_of "$root/target/bin/$1")" ]; }
