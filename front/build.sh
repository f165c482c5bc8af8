# Proves the programs' crates and builds the programs, by `rt run` in the folder of each program's crate: what it links stands in that
# crate's out/, and is taken from there into target/bin.
# shellcheck shell=bash disable=SC2154

programs=(cardrun cardstate cardimage vectors benchcard)

# Prints the crate that is linked as the program NAME.
crate_of() {
  case $1 in
  vectors | benchcard) printf '%s_run' "$1" ;;
  *) printf '%s' "$1" ;;
  esac
}

# Prints the file that rt links of the program NAME.
linked() {
  local crate
  crate=$(crate_of "$1")
  printf '%s' "$root/crates/$crate/out/$crate"
}

# Proves and builds the programs for the sake of NAME, saying how far it is; what was built by which sums is written down last.
build() {
  local name lock new=$root/target/front/built.new
  umask 022
  command -v rt >/dev/null || fail "rt, the Rattle toolchain's command, is not on the path; $1 cannot be built"
  { mkdir -p "$root/target/front" "$root/target/bin" && [ -w "$root/target/bin" ] && exec {lock}>"$root/target/front/lock"; } ||
    fail "the folder target/ cannot be written, and $1 is not there as these sources give it"
  if command -v flock >/dev/null && ! flock -n "$lock"; then
    note "another ./card is building; waiting for it"
    flock "$lock"
  fi
  if ! built "$1"; then
    if same_sources && [ -x "$(linked "$1")" ] && [ "$(recorded "$1")" = "$(sum_of "$(linked "$1")")" ]; then
      note "$1 is not the program that was built; it is taken anew from its crate"
      put "$1"
    else
      prove "$1"
      printf '%s=%s\n' sources "$sources" toolchain "$(cat -- "$kit/KIT-ID")" >"$new"
      for name in "${programs[@]}"; do
        put "$name"
        printf '%s=%s\n' "$name" "$(sum_of "$root/target/bin/$name")" >>"$new"
      done
      mv -f -- "$new" "$root/target/front/built" || fail "the folder target/ cannot be written"
    fi
  fi
  exec {lock}>&-
  umask 077
}

# Proves the programs' crates and links them: prove NAME
# It runs in a process group of its own, so that a signal ends all of it.
prove() {
  local before=$sources name unlisted
  read_crates
  for name in "${programs[@]}"; do
    unlisted=$(crate_of "$name")
    [ -n "${needs[$unlisted]+listed}" ] || fail "crates.txt lists no crate $unlisted, so there is no $name to build"
    reach "$unlisted"
  done
  if same_sources; then
    note "$1 is not the program that was built; it is built anew"
  elif [ -e "$root/target/front/built" ]; then
    note "the sources or the toolchain have changed since $1 was built; what did is proved and built anew"
  else
    note "proving and building $1 from ${#reached[@]} crates; this takes minutes, the first time only"
  fi
  rm -f -- "$root/target/front/built"
  for name in "${programs[@]}"; do
    rm -f -- "$(linked "$name")" || fail "the folder crates/$(crate_of "$name")/out cannot be written"
  done
  set -m
  (run_all </dev/null 2>&1 | tee "$root/target/front/log" | progress "${#reached[@]}") {lock}>&- &
  group=$!
  set +m
  wait "$group"
  group=
  for name in "${programs[@]}"; do
    [ -x "$(linked "$name")" ] || fail "$1 could not be proved and built; target/front/log has all that rt said"
  done
  sum_sources
  [ "$sources" = "$before" ] || fail "the sources changed while $1 was built; run it again"
}

# Has rt prove, link and run each program, on an empty input and in the crate's folder, until one could not be linked. The status is the
# program's own where it ran, so what tells is the file.
run_all() {
  local name file
  # rt ci heeds neither; one would allow C, the other choose the compiler
  unset RT_ALLOW_C RT_BACKEND
  for name in "${programs[@]}"; do
    file=$(linked "$name")
    cd -- "${file%/out/*}" && rt run
    [ -x "$file" ] || return
  done
}

# Takes the program that rt linked as the one that is run: put NAME
put() {
  local new=$root/target/front/$1.new
  { cp -- "$(linked "$1")" "$new" && chmod 755 "$new" && mv -f -- "$new" "$root/target/bin/$1"; } ||
    fail "the folder target/ cannot be written"
}

# Sets $needs to the crates of crates.txt, each with what it is built on, and leaves $reached empty.
read_crates() {
  local line name
  declare -gA needs=() reached=()
  while IFS= read -r line || [ -n "$line" ]; do
    line=${line%%#*}
    [[ $line == *:* ]] || continue
    read -r name _ <<<"${line%%:*}"
    [ -z "$name" ] || needs[$name]=${line#*:}
  done <"$root/crates.txt"
}

# Adds a crate and those below it to $reached: reach NAME
reach() {
  local name
  [ -n "${needs[$1]+listed}" ] && [ -z "${reached[$1]:-}" ] || return 0
  reached[$1]=yes
  for name in ${needs[$1]}; do reach "$name"; done
}

# Turns what rt says into a line for each crate that it proves: progress TOTAL
# Where a crate is proved, those below it are too, of which rt says nothing where they stood as they are.
progress() {
  local line crate=''
  reached=()
  while IFS= read -r line; do
    case $line in
    'crate '*': modules loaded='*)
      crate=${line#crate }
      crate=${crate%%:*}
      ;;
    'logic=proved '*)
      reach "$crate"
      note "${#reached[@]} of $1: $crate proved"
      ;;
    'logic=not-proved'*) note "$crate is not proved" ;;
    'rt: waiting for another rt to finish in '*) note "another rt works in crates/${line##*/}; waiting for it" ;;
    'rt: the library '*' did not build'* | 'rt: mend these first'* | 'rt: crates.txt'*) note "${line#rt: }" ;;
    esac
  done
}
