# Whether an image has a program's sections at their addresses, in pages of the right kind: awk -v asid=N -f stands.awk IMAGE SECTIONS
# ASID 0 is the kernel. Prints what is wrong, and nothing where nothing is.
function value(digits, at, sum) {
  sum = 0
  for (at = 1; at <= length(digits); at++) sum = sum * 16 + index("0123456789abcdef", substr(digits, at, 1)) - 1
  return sum
}

function wrong(what) {
  if (wrongs++ < 5) print what
}

# The half of a slot for a page, where it is valid.
function map(page, half) {
  if (int(half / 2) % 2) entry[page] = half
}

# The byte at an address of the program, two digits.
function byte(address, at, eight) {
  if (asid == 0) at = address - 2147483648
  else if (int(address / 4096) in entry) at = int(entry[int(address / 4096)] / 64) * 4096 + address % 4096
  else return "none"
  eight = int(at / 8)
  return eight in ram ? substr(ram[eight], at % 8 * 2 + 1, 2) : "00"
}

function hold(wanted) {
  if (byte(address) != wanted) wrong(sprintf("%s at %08x: %s, not %s", name, address, byte(address), wanted))
  address++
  compared++
}

FNR == NR && /^02/ { ram[value(substr($0, 3, 8)) / 8] = substr($0, 11, 16) }
FNR == NR && /^05/ {
  hi = value(substr($0, 13, 8))
  if (hi % 256 == asid) {
    map(int(hi / 8192) * 2, value(substr($0, 21, 8)))
    map(int(hi / 8192) * 2 + 1, value(substr($0, 29, 8)))
  }
}
FNR == NR { next }

# bytes NAME ADDRESS SIZE, then the bytes; zeros NAME ADDRESS SIZE; load ADDRESS SIZE W or -
$1 == "bytes" {
  name = $2
  address = value($3)
  end = address + value($4)
  next
}
$1 == "zeros" {
  name = $2
  address = value($3)
  for (left = value($4); left > 0; left--) hold("00")
  next
}
$1 == "load" {
  for (page = int(value($2) / 4096); page * 4096 < value($2) + value($3); page++) {
    own[page] = 1
    if ($4 == "W") writable[page] = 1
  }
  next
}
{
  for (i = 1; i <= NF; i++) hold($i)
  if (address > end) wrong(name " has more bytes than its size")
}

END {
  stack = 524287
  own[stack] = writable[stack] = 1
  for (page in entry) {
    if (!(page in own)) wrong(sprintf("page %05x is mapped, and in no segment", page))
    if (int(entry[page] / 4) % 2 != (page in writable)) wrong(sprintf("page %05x: D is not its segments' W", page))
  }
  if (asid != 0 && !(stack in entry)) wrong("the stack is not mapped")
  if (!compared) wrong("nothing was compared")
}
