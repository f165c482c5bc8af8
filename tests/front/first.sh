# The first build and what counts as built, with a toolchain that only says what rt says: in a copy of the command, with a path of its own.
# shellcheck shell=bash disable=SC2154,SC2016

first_build() {
  place=$T/first
  stand_in_repository
  stand_in_kit
  hold "first build: a line for each crate" says "card: proving and building cardrun from 8 crates; this takes minutes, the first time only
$lines" run "$T/worked"
  hold "first build: the answer alone is on standard output" writes 'cardrun answers one'
  hold "later runs start at once" says '' run "$T/worked"
  hold "a program gets its words, by the kit's loader" writes 'cardstate answers 01 one' state "$T/worked" 01
  built_by_content
  for name in target/bin/cardrun target/front/built; do
    hold "umask 000: nobody else may write $name" [ -z "$(find "$place/repository/$name" -perm /022)" ]
  done
  version_of_others
  hold "test is the gate" writes 'gate' test
  hold "a machine that the toolchain has nothing for is said" other_machine
  hold "a program that crates.txt does not list is said" unlisted
  hold "another rt in a crate is said" busy
  hold "a failed proof is said" fails_with 'card: word is not proved
card: the library word did not build, so nothing above it was checked
card: cardrun could not be proved and built; target/front/log has all that rt said'
  hold "a missing toolchain is said" missing_toolchain
}

# What is said of the crates; of vectors, rt says nothing, since it stands as it is.
lines='card: 1 of 8: word proved
card: 2 of 8: image proved
card: 3 of 8: cardrun proved
card: 4 of 8: cardstate proved
card: 5 of 8: cardimage proved
card: 7 of 8: vectors_run proved
card: 8 of 8: benchcard_run proved'

stand_in_repository() {
  mkdir -p "$place/repository/crates/"{word/src,cardrun,cardstate,cardimage,vectors_run,benchcard_run} "$place/repository/.ci"
  cp -R card front "$place/repository/"
  echo one >"$place/repository/crates/word/src/lib.rt"
  printf '%s\n' '# crates' word: 'image: word # frames' 'cardrun: image word io' 'cardstate: image' 'cardimage: image' 'vectors: image' \
    'vectors_run: vectors' 'benchcard_run: word' 'tables: word' >"$place/repository/crates.txt"
  printf 'echo gate "$@"\n' >"$place/repository/.ci/run"
  printf 'target/\nout/\n' >"$place/repository/.gitignore"
}

# The stand-ins for rt, which makes a program that names itself and the source, and ends with the program's status, and for the kit's loader.
stand_in_kit() {
  mkdir -p "$place/path" "$place/arm" "$place/kit/"{bin,c,rattle/logic,rlibs/std.rlib,toolchain/lib}
  echo 'kit 1' >"$place/kit/KIT-ID"
  echo 'sum 1' >"$place/kit/rlibs/std.rlib/format"
  cat >"$place/path/rt" <<'RT'
#!/bin/sh
crate=${PWD##*/}
[ "$*" = run ] && [ "$(cd ../../crates && pwd)" = "${PWD%/*}" ] || exit 9
says() { printf '%s\n' 'rt: chose --jobs 2 for word' "fn $1::f: proved" 'library word: modules loaded=2 checked=0' "crate $1: modules loaded=3 checked=1" "$2" >&2; }
if [ -e ../../busy ]; then echo 'rt: waiting for another rt to finish in /a folder/crates/image' >&2; fi
if [ -e ../../refuse ]; then
  says word logic=not-proved
  echo 'rt: the library word did not build, so nothing above it was checked' >&2
  exit 1
fi
if [ "$crate" = cardrun ]; then
  for library in word image; do says "$library" 'logic=proved functions=1'; done
fi
mkdir -p out
says "$crate" 'logic=proved functions=1 axioms=1'
printf '#!/bin/sh\ncat >/dev/null\necho %s answers ${1+"$1 "}%s\n' "${crate%_run}" "$(cat ../word/src/lib.rt)" >"out/$crate"
chmod 755 "out/$crate"
echo "rt: running out/$crate; to give it other input, run that file yourself" >&2
"out/$crate"
[ "$crate" != cardimage ] || exit 2
RT
  printf '#!/bin/sh\n[ "$1 $2" = "--library-path %s" ] || exit 9\nshift 2\nexec "$@"\n' "$place/kit/toolchain/lib" >"$place/kit/toolchain/lib/ld-linux-x86-64.so.2"
  printf '#!/bin/sh\necho aarch64\n' >"$place/arm/uname"
  chmod +x "$place/path/rt" "$place/arm/uname" "$place/kit/toolchain/lib/ld-linux-x86-64.so.2"
}

in_copy() { (umask 000 && exec env -u CARD_BIN RATTLE_HOME="$place/kit" PATH="${before-}$place/path:$PATH" "$place/repository/card" "$@"); }

# says TEXT WORDS..: these words of ./card say exactly TEXT on standard error.
says() {
  local text=$1
  shift
  in_copy "$@" 2>&1 >"$T/wrote" | diff - <([ -z "$text" ] || echo "$text")
}

# writes TEXT [WORDS..]: the last ones, or these words, wrote exactly TEXT.
writes() {
  local text=$1
  shift
  [ $# -eq 0 ] || in_copy "$@" >"$T/wrote" 2>/dev/null
  echo "$text" | diff - "$T/wrote"
}

# A program counts as built by the content of its sources, of the toolchain and of itself, whatever their dates.
built_by_content() {
  local source=$place/repository/crates/word/src/lib.rt kept=$place/repository/crates/word/out
  local anew="card: the sources or the toolchain have changed since cardrun was built; what did is proved and built anew
$lines"
  touch -d '1 minute' "$source"
  hold "a date is no change" says '' run "$T/worked"
  change "$source" 's/one/two/'
  hold "a source changed under its old date is proved again" says "$anew" run "$T/worked"
  hold "a source changed under its old date counts" writes 'cardrun answers two'
  change "$place/repository/crates.txt" 's/frames/lines/'
  hold "crates.txt changed under its old date is proved again" says "$anew" run "$T/worked"
  change "$place/kit/KIT-ID" 's/1/2/'
  hold "another toolchain proves again" says "$anew" run "$T/worked"
  change "$place/repository/target/bin/cardrun" 's/two/six/'
  hold "a program changed under its old date is taken anew" says 'card: cardrun is not the program that was built; it is taken anew from its crate' run "$T/worked"
  hold "a program changed under its old date does not run" writes 'cardrun answers two'
  change "$place/repository/target/bin/cardrun" 's/two/six/'
  change "$place/repository/crates/cardrun/out/cardrun" 's/two/six/'
  hold "a program changed in both places is built anew" says "card: cardrun is not the program that was built; it is built anew
$lines" run "$T/worked"
  hold "a program changed in both places does not run" writes 'cardrun answers two'
  mkdir "$kept" && mkfifo "$kept/pipe" && echo kept >"$kept/lib.rt"
  hold "what rt keeps in a crate's out/ is no source" says '' run "$T/worked"
  mkdir "$place/repository/crates/word/src/out" && echo more >"$place/repository/crates/word/src/out/more.rt"
  hold "another folder of that name has sources" says "$anew" run "$T/worked"
  rm -r "$kept"
  rm -r "$place/repository/crates/word/src" && mkdir -p "$place/repository/crates/word/src" && echo ten >"$source" && touch -d '2001-01-01' "$source"
  hold "a newer release with older dates is proved" says "$anew" run "$T/worked"
  hold "a newer release with older dates runs" writes 'cardrun answers ten'
}

# Changes a file and leaves its date: change FILE SCRIPT
change() {
  cp -p "$1" "$T/dated"
  sed -i "$2" "$1"
  touch -r "$T/dated" "$1"
}

# The version is lines KEY=VALUE, and the same for someone who does not own the folder.
version_of_others() {
  local keys='commit changes sources front toolchain toolchain_sum cardrun cardstate cardimage vectors benchcard '
  (
    cd "$place/repository" && git init -q && git add -A && git -c user.name=x -c user.email=x@x commit -q -m x
  ) >"$T/git" 2>&1 || bad "no repository can be made for version"
  in_copy version >"$T/version" 2>"$T/said"
  hold "version ends well" [ $? -eq 0 -a ! -s "$T/said" ]
  hold "version says which" [ "$(cut -d = -f 1 "$T/version" | tr '\n' ' ')" = "$keys" ]
  hold "version names the commit" grep -q -x "commit=$(git -C "$place/repository" rev-parse HEAD)" "$T/version"
  hold "version sees no change" grep -q -x 'changes=no' "$T/version"
  hold "version sums what runs" grep -q -x "cardrun=$(sha256sum <"$place/repository/target/bin/cardrun" | cut -d ' ' -f 1)" "$T/version"
  echo 'sum 2' >"$place/kit/rlibs/std.rlib/format"
  hold "version sums the toolchain's libraries" toolchain_differs
  echo 'sum 1' >"$place/kit/rlibs/std.rlib/format"
  echo >>"$place/repository/crates/word/src/lib.rt"
  hold "version does not name a program of other sources" writes_line 'cardrun=not built from these sources' version
  hold "version sees a change" writes_line 'changes=yes' version
  (cd "$place/repository" && git checkout -q crates && git update-index --assume-unchanged front/run.sh && echo >>front/run.sh)
  hold "version sees a change that git was told not to see" writes_line 'changes=yes' version
  (cd "$place/repository" && git update-index --no-assume-unchanged front/run.sh && git checkout -q front)
  mkfifo "$place/repository/crates/pipe"
  hold "what is no file is no source" fails_at_once
  rm "$place/repository/crates/pipe"
  [ "$(id -u)" = 0 ] && command -v setpriv >/dev/null || return
  chmod 711 "$T" && chmod -R go+rX "$place"
  (
    unset CARD_BIN
    export TMPDIR=/tmp RATTLE_HOME=$place/kit PATH=$place/path:$PATH
    setpriv --reuid=65534 --regid=65534 --clear-groups "$place/repository/card" version
  ) >"$T/wrote" 2>"$T/said"
  hold "version for someone who is not the owner" cmp "$T/version" "$T/wrote"
}

# Whether version now has another sum of the toolchain than in $T/version, and is otherwise the same.
toolchain_differs() {
  in_copy version >"$T/other" 2>"$T/said"
  [ "$(diff "$T/version" "$T/other" | grep -c '^[<>] toolchain_sum=[0-9a-f]*$')" -eq 2 ] && [ "$(diff "$T/version" "$T/other" | wc -l)" -eq 4 ]
}

fails_at_once() { says "card: crates.txt or a file of crates/ cannot be read" version; }

writes_line() {
  local line=$1
  shift
  in_copy "$@" 2>"$T/said" | grep -q -x "$line"
}

# Programs of an earlier build still stand in the crates' out/.
fails_with() {
  touch "$place/repository/refuse"
  rm -r "$place/repository/target"
  in_copy run "$T/worked" >"$T/wrote" 2>"$T/said"
  [ $? -eq 1 ] && [ ! -s "$T/wrote" ] && tail -n +2 "$T/said" | diff - <(echo "$1")
}

other_machine() {
  before=$place/arm: in_copy run "$T/worked" >"$T/wrote" 2>"$T/said"
  [ $? -eq 1 ] && [ ! -s "$T/wrote" ] && grep -q "^card: the toolchain at '.*' has nothing for this machine, aarch64\$" "$T/said" &&
    before=$place/arm: writes_line 'toolchain=not on this machine' version
}

unlisted() {
  local status
  change "$place/repository/crates.txt" 's/^vectors_run/vectors_ran/'
  in_copy run "$T/worked" >"$T/wrote" 2>"$T/said"
  status=$?
  change "$place/repository/crates.txt" 's/^vectors_ran/vectors_run/'
  [ "$status" -eq 1 ] && [ ! -s "$T/wrote" ] && diff "$T/said" <(echo 'card: crates.txt lists no crate vectors_run, so there is no vectors to build')
}

busy() {
  touch "$place/repository/busy"
  echo >>"$place/repository/crates.txt"
  in_copy run "$T/worked" >"$T/wrote" 2>"$T/said"
  rm "$place/repository/busy"
  [ "$(grep -c -x 'card: another rt works in crates/image; waiting for it' "$T/said")" -eq 5 ] && [ "$(wc -l <"$T/said")" -eq 13 ]
}

missing_toolchain() {
  local bare=$place/bare command
  mkdir "$bare"
  for command in sh bash env readlink uname mktemp rm cat awk; do ln -s "$(command -v "$command")" "$bare/$command"; done
  env -u CARD_BIN -u RATTLE_HOME PATH="$bare" "$place/repository/card" run "$T/worked" >"$T/wrote" 2>"$T/said"
  [ $? -eq 1 ] && [ ! -s "$T/wrote" ] && grep -q '^card: rt, the Rattle toolchain.s command, is not on the path' "$T/said"
}
