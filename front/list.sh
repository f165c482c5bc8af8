# ./card list: an image for reading, each frame in words, code words disassembled by the MIPS binutils.
# shellcheck shell=bash disable=SC2154,SC2034

card_list() {
  local use='./card list IMAGE' status=0
  [ $# -ge 1 ] || wrong "the image is missing; write: $use"
  [ $# -eq 1 ] || wrong "one image is wanted, and here are $# words; write: $use"
  readable "$1" "an image" "$use"
  make_scratch
  take "$1" "$scratch/image" "the image"
  ended "$scratch/image" ||
    fail "the image's last line, $(($(wc -l <"$scratch/image") + 1)), has no LF, so it may be cut short, and the reader refuses it"
  # NUL has no place in awk
  { tr '\000' '?' <"$scratch/image" >"$scratch/image.text" && : >"$scratch/code"; } || no_room
  if find_mips; then
    disassemble || fail "the code words cannot be disassembled; there may be no room in '$(shown "$temporary")'"
  else
    note "code words are not disassembled: install Debian's package $mips_package: apt-get install $mips_package"
  fi
  awk_with 'hex names frames fields place reach list' -v "size=$(wc -c <"$scratch/image")" \
    "$scratch/image.text" "$scratch/code" >"$scratch/list" || status=$?
  [ "$status" -le 1 ] || fail "the list cannot be put together; there may be no room in '$(shown "$temporary")'"
  emit "$scratch/list"
  said=yes
  exit "$status"
}

# Writes to $scratch/code a line 'LAYER ADDRESS INSTRUCTION' for each word, in 16 layers (place.awk): RAM has 16 pages, each seen at one address.
disassemble() {
  local layer
  for layer in {1..16}; do
    awk_with 'hex names frames fields place srec' -v "layer=$layer" "$scratch/image.text" >"$scratch/code.srec" || return
    [ -s "$scratch/code.srec" ] || return 0
    "${mips}objdump" -D -z -b srec -m mips:4000 -EB -M gpr-names=32,cp0-names=r4000 "$scratch/code.srec" >"$scratch/code.list" &&
      awk -F '\t' -v "layer=$layer" '/^ *[0-9a-f]+:\t/ {
        gsub(/[ :]/, "", $1)
        text = $3
        for (i = 4; i <= NF; i++) text = text " " $i
        print layer, substr("00000000" $1, length($1) + 1), text
      }' "$scratch/code.list" >>"$scratch/code" || return
  done
}
