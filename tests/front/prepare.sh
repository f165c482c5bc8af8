# Files that the cases use, in the folder $T: programs assembled from programs/, images and answers good and bad.
# shellcheck shell=bash disable=SC2154

mips='mips-linux-gnu-'

prepare() {
  # shellcheck source=tests/tools.sh
  . "$root/tests/tools.sh"
  have "${mips}as" binutils-mips-linux-gnu || return 1
  programs && damaged && images
}

# link NAME SOURCE WHERE..
link() {
  local name=$1 source=$2
  shift 2
  "${mips}as" -EB -mips3 -o "$T/$name.o" "$source" && "${mips}ld" -EB "$@" -o "$T/$name.elf" "$T/$name.o"
}

programs() {
  local from=$tests/programs kernel=(-N -Ttext=0x80000000) user=(-T front/user.ld)
  link timer examples/timer.s "${kernel[@]}" &&
    link sweep examples/sweep.s "${user[@]}" &&
    link probe examples/probe.s "${user[@]}" &&
    link 'with spaces' examples/timer.s "${kernel[@]}" &&
    link far examples/sweep.s -Ttext=0x80000000 &&
    link mapped examples/timer.s -N -Ttext=0xc0000000 &&
    link below examples/timer.s -N -Ttext=0 &&
    link kernel "$from/kernel.s" "${kernel[@]}" &&
    link evil "$from/evil.s" "${user[@]}" &&
    link long "$from/long.s" "${kernel[@]}" &&
    link wide "$from/wide.s" "${user[@]}" &&
    link parts "$from/parts.s" "${user[@]}" &&
    link gap examples/sweep.s -Ttext=0x400000 -Tdata=0x401000 &&
    link overlap examples/sweep.s -N -Ttext=0x80000000 --section-start=.data=0xa0000010 &&
    "${mips}as" -EL -mips3 -o "$T/little.o" examples/timer.s &&
    "${mips}ld" -EL -N -Ttext=0x80000000 -o "$T/little.elf" "$T/little.o"
}

# Writes an ELF byte by byte: elf NAME WORDS.. (elf.awk)
elf() { printf '%b' "$(awk -f "$tests/elf.awk" -- "${@:2}")" >"$T/$1.elf"; }

# Programs as no linker makes them, each for one refusal of cardimage.
damaged() {
  local code=segment=1:1000:400000:10:10:5
  elf plain "$code" && elf wide-class class=2 "$code" && elf x86 machine=3 "$code" && elf shared type=3 "$code" &&
    elf header-size phentsize=28 "$code" && elf headers phnum=21 "$code" && elf no-table phoff=100000 "$code" &&
    elf no-bytes "$code" segment=1:1000:401000:11:20:6 && elf more-bytes "$code" segment=1:1000:401000:10:8:6 &&
    elf large "$code" segment=1:1000:401000:10:10001:6 && elf high "$code" segment=1:1000:7fffe000:10:1001:6 &&
    elf both "$code" segment=1:1000:80000180:10:10:5 &&
    elf twice "$code" segment=1:1000:40000c:10:10:6 && elf nothing segment=4:1000:400000:10:10:4 &&
    elf odd-entry entry=400002 "$code" && elf no-entry entry=400010 "$code" &&
    elf no-refill entry=80000000 segment=1:1000:80000180:10:10:5 && elf no-general entry=80000000 segment=1:1000:80000000:10:1000:5 &&
    head -c 4194304 /dev/zero >"$T/four MiB"
}

images() {
  cp examples/peek.image "$T/an image with spaces.image"
  printf '02000000002408000501084821\n0122ffffffff80000000\n0300000002\n' >"$T/worked"
  printf '0122ffffffff80000000\n0300000002' >"$T/no-lf"
  printf '0122ffffffff80000000\r\n0300000002\r\n' >"$T/cr"
  printf '0122ffffffff80000000\n' >"$T/no-budget"
  printf '0300000002\n0122ffffffff80000000\n' >"$T/not-last"
  printf '0122ffffffff80000000\n040c00000000e0000000\n0300000002\n' >"$T/bad-status"
  printf '\000\001\033[1m\n\377' >"$T/garbage"
  : >"$T/empty"
  awk 'BEGIN { for (i = 0; i < 2428; i++) print "02000000000000000000000000"; print "0300000000" }' >"$T/too-long"
  printf '\340\000\000\000\0\0\0\1' >"$T/boot rom"
  printf 'odd' >"$T/odd rom"
  cp "$tests/programs/frames.image" "$T/frames"
  cp "$tests/programs/spaces.image" "$T/spaces"
  awk 'BEGIN {
    for (i = 1; i <= 16; i++)
      printf "05%02x00000000004000%02x%08x00000000\n02%08x2408%04x00000000\n", i, i, (i - 1) * 64 + 2, (i - 1) * 4096, i
    print "0300000000"
  }' >"$T/sixteen"
  # global, large, neither RAM nor below 80000000, two that match one address; then more pages than a line has room for
  printf '%s\n' 050000000000005000000000004700000041 050100006000006000020000010600000402 050200000000804000020000004600000086 \
    050300000000004000010000004200000082 050400006000004000010000010200000000 040a0000000000000007 040c0000000000000010 0300000000 >"$T/reach"
  awk 'BEGIN {
    for (i = 0; i < 47; i++) printf "05%02x00000000%08x%08x%08x\n", i, i * 16384 + 1, i % 16 * 64 + 2, i % 16 * 64 + 6
    print "0300000000"
  }' >"$T/reach-long"
}

# A cardimage that says one thing and ends with a status, in a folder for CARD_BIN: pretend STATUS TEXT, with escapes; what is refused goes to standard error.
pretend() {
  mkdir -p "$T/pretended"
  printf '%b' "$2" >"$T/pretended/text"
  printf '#!/bin/sh\ncat "%s/pretended/text" >&%d\nexit %d\n' "$T" $(($1 == 3 ? 2 : 1)) "$1" >"$T/pretended/cardimage"
  chmod +x "$T/pretended/cardimage"
}
export -f pretend
