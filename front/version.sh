# ./card version: which sources, toolchain and programs an answer comes from, a line KEY=VALUE for each.
# shellcheck shell=bash disable=SC2154
# shellcheck source=front/program.sh
. "$front/program.sh"

card_version() {
  [ $# -eq 0 ] || wrong "version takes no words; write: ./card version"
  local name front_sum toolchain='not on this machine' toolchain_sum='not known'
  make_scratch
  sum_sources
  front_sum=$(sum_of_files "$root" card front) || fail "a file of front/ cannot be read"
  if find_kit; then
    toolchain=$(cat -- "$kit/KIT-ID") || fail "the toolchain cannot be read"
    # each library's file `format` has the sums of what the library is made of
    toolchain_sum=$(cd -- "$kit" && sum_of_files . KIT-ID bin c toolchain rattle/logic rlibs/*/format) || fail "the toolchain cannot be read"
  fi
  {
    commit
    printf '%s=%s\n' sources "$sources" front "$front_sum" toolchain "$toolchain" toolchain_sum "$toolchain_sum"
    for name in "${programs[@]}"; do
      if built "$name"; then echo "$name=$(recorded "$name")"; else echo "$name=not built from these sources"; fi
    done
  } >"$scratch/version" || no_room
  emit "$scratch/version"
}

# Prints the commit of this folder, and whether a file differs from it, by an index of our own and no settings but these. Who owns the folder
# plays no part: whoever runs ./card there runs its files anyhow.
commit() {
  local found changed git=(env GIT_CONFIG_GLOBAL=/dev/null GIT_CONFIG_NOSYSTEM=1 "GIT_INDEX_FILE=$scratch/index"
    git -c "safe.directory=$root" -c core.fsmonitor=false -c core.hooksPath=/dev/null -c core.excludesFile=/dev/null
    "--git-dir=$root/.git" "--work-tree=$root" -C "$root")
  if ! found=$("${git[@]}" rev-parse --verify HEAD); then
    printf '%s\n' "commit=not known, since this is no git checkout or git is not here" "changes=not known"
  elif "${git[@]}" read-tree HEAD && changed=$("${git[@]}" status --porcelain --untracked-files=all); then
    printf '%s\n' "commit=$found" "changes=$([ -n "$changed" ] && echo yes || echo no)"
  else
    printf '%s\n' "commit=$found" "changes=not known"
  fi
}
