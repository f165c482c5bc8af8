# The values of image options as frames: numbers, symbols of the program, names of registers.
# shellcheck shell=bash disable=SC2154,SC2034

# Sets $right to VALUE as 16 digits: decimal; 0x and hexadecimal, where 8 digits are a word, sign-extended; or a symbol.
value() {
  local digits
  if [[ $1 =~ ^-?[0-9]{1,18}$ ]]; then
    digits=${1#-}
    while [[ $digits == 0?* ]]; do digits=${digits#0}; done # a leading 0 is no octal here
    if [[ $1 == -* ]]; then digits=-$digits; fi
    right=$(printf '%016x' "$digits")
  elif [[ $1 =~ ^0[xX]([0-9a-fA-F]{8})$ ]]; then
    right=$(sign_extend "${BASH_REMATCH[1],,}")
  elif [[ $1 =~ ^0[xX]([0-9a-fA-F]{1,16})$ ]]; then
    digits=0000000000000000${BASH_REMATCH[1],,}
    right=${digits: -16}
  else
    symbol "$1"
  fi
}

# A word of 8 digits as 16.
sign_extend() { case $1 in [89a-f]*) printf 'ffffffff%s' "$1" ;; *) printf '00000000%s' "$1" ;; esac; }

# Sets $right to the value of a symbol of the first program. Where there is none, what is wrong with a file is said first: it may be cut short.
symbol() {
  local found
  ask symbol symbol "$scratch/file.$([ -n "$user" ] && echo 1 || echo 0)" "$1" || {
    echo 0300000000 >"$scratch/settings" || no_room
    ask image "${user:-kernel}" "${copies[@]}"
    return 1
  }
  found=$(<"$scratch/symbol")
  { [ "$(wc -c <"$scratch/symbol")" -eq 9 ] && [[ $found =~ ^[0-9a-f]{8}$ ]]; } || fail "cardimage gave no value of a symbol"
  right=$(sign_extend "$found")
}

# Splits NAME=VALUE into $left and $right (16 digits): halves OPTION WORD
halves() {
  [[ $2 == *?=?* ]] || wrong "$1 wants NAME=VALUE, not '$(shown "$2")'; write: ./card help image"
  left=${2%%=*}
  value "${2#*=}" ||
    wrong "$1: '$(shown "${2#*=}")' is no number (decimal, or 0x and up to 16 digits) and no symbol of the program; write: ./card help image"
}

register_option() {
  local left right place
  halves --reg "$1"
  place=$(awk_with 'hex names number' -v "kind=register" -v "name=${left,,}") ||
    wrong "--reg: '$(shown "$left")' is no register; write one as 8, r8, t0, hi, lo or pc"
  add "--reg $(shown "$1")" "01$place$right"
}

cp0_option() {
  local left right place
  halves --cp0 "$1"
  place=$(awk_with 'hex names number' -v "kind=cp0" -v "name=${left,,}") ||
    wrong "--cp0: '$(shown "$left")' is no CP0 register that the card keeps and lets be written; write a name, as status, or a number, as 12"
  add "--cp0 $(shown "$1")" "04$place$right"
}

slot_option() {
  local word=${1,,} parts part
  [[ $word =~ ^([0-9]{1,2}|0x[0-9a-f]{1,2})(:(0x)?[0-9a-f]{1,8}){4}$ ]] ||
    wrong "--tlb wants SLOT:PAGEMASK:ENTRYHI:ENTRYLO0:ENTRYLO1, a slot from 0 to 47 and four words in hexadecimal, not '$(shown "$1")'"
  IFS=: read -r -a parts < <(printf '%s\n' "$word")
  if [[ $word == 0x* ]]; then word=$((parts[0])); else word=$((10#${parts[0]})); fi
  word=$(printf '05%02x' "$word")
  for part in "${parts[@]:1}"; do word+=$(printf '%08x' "$((16#${part#0x}))"); done
  add "--tlb $(shown "$1")" "$word"
}

budget_option() {
  local digits
  [[ $1 =~ ^([0-9]{1,10}|0[xX][0-9a-fA-F]{1,8})$ ]] || wrong "--budget wants a number of steps, 0 to 4294967295, not '$(shown "$1")'"
  if [[ $1 == 0[xX]* ]]; then digits=$((16#${1:2})); else digits=$((10#$1)); fi
  [ "$digits" -le 4294967295 ] || wrong "--budget wants a number of steps, 0 to 4294967295, not '$(shown "$1")'"
  add "--budget $1" "03$(printf '%08x' "$digits")"
}
