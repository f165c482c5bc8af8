# Runs the cases of cases.txt ('NAME: COMMAND') and compares output, messages and status with expected/NAME.
# shellcheck shell=bash disable=SC2154

compare_cases() {
  local line name
  while IFS= read -r line; do
    case $line in '' | '#'*) continue ;; esac
    name=${line%%: *}
    outcome "${line#*: }" >"$T/outcome"
    messages_are_fit "$T/said" || bad "$name: a message is long, or cannot be printed"
    if [ "$1" = --write ]; then
      cp "$T/outcome" "$tests/expected/$name"
      ok
    elif [ ! -f "$tests/expected/$name" ]; then
      bad "$name: there is no file expected/$name"
    elif diff "$tests/expected/$name" "$T/outcome" >"$T/difference"; then
      ok
    else
      bad "$name: ${line#*: }"
      head -n 20 "$T/difference"
    fi
  done <"$tests/cases.txt"
}

# Whether each line of a file is a message of ./card or of examples/build: printed bytes, 300 at most with the LF.
messages_are_fit() { awk '!/^(card|examples\/build): / || /[^ -~]/ || length($0) > 299 { bad = 1 } END { exit bad }' "$1"; }

# Prints what a command writes and says and its status, without the names of folders on this machine.
outcome() {
  local status
  bash -c "$1" >"$T/wrote" 2>"$T/said" </dev/null
  status=$?
  {
    cat "$T/wrote"
    [ ! -s "$T/said" ] || echo "--- said"
    cat "$T/said"
    echo "--- status $status"
  } | sed -e "s|$T|TMP|g" -e "s|$root|ROOT|g"
}
