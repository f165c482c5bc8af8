# cardimage's refusals (docs/LOADER.md) in words: which file, what is wrong with it, what to do.
# shellcheck shell=bash disable=SC2154

# Ends the command with the words of the refusal in $scratch/refusal, but for 23, no such symbol, whose status is 1: refused WORD
# WORD is what cardimage was asked for. The line is held to its form before a digit of it is used.
refused() {
  local line file
  line=$(<"$scratch/refusal")
  { [ "$(wc -c <"$scratch/refusal")" -eq 15 ] && [[ $line =~ ^0d([0-9a-f]{2})([0-9a-f]{2})([0-9a-f]{8})$ ]]; } ||
    fail "cardimage refused this, and does not say why"
  [ "${BASH_REMATCH[1]}" != 17 ] || return 1 # 23 in hexadecimal
  file=$((16#${BASH_REMATCH[2]}))
  if [ "$1" = symbol ] && [ -n "$user" ]; then file=$((file + 1)); fi
  [ "$file" -lt ${#files[@]} ] || fail "cardimage refused this, and names a file that it was not given"
  fail "$(refusal_words $((16#${BASH_REMATCH[1]})) "$file" "${BASH_REMATCH[3]}")"
}

# Prints the words: refusal_words NUMBER FILE ABOUT, where ABOUT is 8 digits.
refusal_words() {
  local number=$1 about=$3 count=$((16#$3)) name part beneath=yes link='mips-linux-gnu-ld -EB -N -Ttext=0x80000000 -o PROGRAM.elf PROGRAM.o'
  if [ -n "$user" ] && [ "$2" -gt 0 ]; then beneath='' link='mips-linux-gnu-ld -EB -T front/user.ld -o PROGRAM.elf PROGRAM.o'; fi
  name="'$(shown "${files[$2]}")'"
  part="segment $count of $name (as readelf -l counts)"
  case $number in
  1) echo "$name is no ELF file; make one with mips-linux-gnu-as and mips-linux-gnu-ld" ;;
  2) echo "$name is cut short: an ELF begins with 52 bytes, and here are $count; link it anew" ;;
  3) echo "$name is no ELF of 32 bits, as a program of the card is; make it with mips-linux-gnu-as -32 and mips-linux-gnu-ld" ;;
  4) echo "$name is $([ "$count" -eq 1 ] && echo little-endian || echo 'not big-endian'), and the card is big-endian; assemble and link with -EB" ;;
  5) echo "$name is not for MIPS (its machine is $count, and MIPS is 8); make it with mips-linux-gnu-as and mips-linux-gnu-ld" ;;
  6)
    if [ "$count" -eq 1 ]; then echo "$name is not linked yet; write: $link"
    else echo "$name is an ELF of type $count, not a program at a fixed address; write: $link"
    fi
    ;;
  7) echo "$name has program headers of $count bytes, where an ELF of 32 bits has 32; link it anew: $link" ;;
  8) echo "$name has $count program headers, and 32 are the most; let the link script join some" ;;
  9) echo "$name is cut short or damaged: its program headers, from byte $count on, are not all in it; link it anew" ;;
  10) echo "$name is cut short or damaged: the bytes of its segment $count (as readelf -l counts) are not all in it; link it anew" ;;
  11) echo "$part has more bytes in the file than in memory, so it is damaged; link it anew" ;;
  12) echo "$part has over 65,536 bytes, more than the RAM; make it smaller, or let the linker leave no gap in it: $link" ;;
  13)
    if [ -z "$beneath" ]; then echo "$part is not all below 7ffff000, as a User program must be (a kernel is another file: --kernel); write: $link"
    else echo "$part is not all in the RAM, 65,536 bytes from 80000000 (or a0000000) on; link it with -N -Ttext=0x80000000$([ -n "$user" ] || echo ', or use --user')"
    fi
    ;;
  14) echo "$part overlaps one before it$([ -z "$beneath" ] || echo ' (80000000 and a0000000 are the same RAM)'); link them apart" ;;
  15) echo "$name has nothing to load; write code or data into .text or .data" ;;
  16) echo "the entry point of $name, $about, is no multiple of 4 or not in a segment; name the first instruction __start, or link with -e SYMBOL" ;;
  17) echo "the kernel $name has no code at $(vector_words "$about"); write some there, or leave --kernel out" ;;
  18) echo "$name does not fit: the kernel takes $count of the RAM's 16 pages, and the programs with their stacks, a page each, more than the others; make one smaller" ;;
  19) echo "the image's text would have $count bytes, over 65,536 (27 for each 8 bytes that are not zero); make the program smaller" ;;
  20) echo "the reader would refuse the image ($count), by an option; look at --reg, --cp0 and --tlb" ;;
  21) undone_words "$count" ;;
  *) echo "cardimage refused $name by a number that is not known, $number" ;;
  esac
}

vector_words() { if [ "$1" = 00000000 ]; then echo "80000000, the vector for an address that no slot has"; else echo "80000180, the vector for every other exception"; fi; }

# Which option undoes what --user promises: undone_words NUMBER
undone_words() {
  case $1 in
  1) echo "--tlb does not go with --user: the slots are the programs'; leave it out" ;;
  2) echo "an option would change the RAM, which --user does not let it; leave it out" ;;
  3) echo "--cp0 status must leave User mode on with --user: KSU 2, ERL and EXL 0, as in 0x10; a program in Kernel mode goes without --user" ;;
  4) echo "--cp0 status must leave CU0, bit 28, clear with --user: a program that has it can change the slots" ;;
  5) echo "--cp0 entryhi must leave the ASID 1 with --user, which is the first program's: its last two digits are 01" ;;
  6) echo "--reg pc must be an address below 80000000 with --user" ;;
  *) echo "an option undoes what --user promises; leave out --reg, --cp0 and --tlb" ;;
  esac
}
