# The frames along chains of calls, of `objdump -dr --no-show-raw-insn` of an object.
# The first file has lines `NAME FUNCTION CALLER..`. For each it prints NAME, the bytes of the deepest chain of calls from card::run
# through the function, and the chain with the bytes of each frame. Where the compiler took the function into its caller, the chain ends with
# the first of the callers that there is, or with card::run.
# A frame is the return address, what is pushed and taken, and what a leaf uses below; the C library's functions for memory are their return
# address. What it cannot add up it refuses: a function that calls itself, a call by a pointer, another function outside, another change of the
# stack pointer.

function number(s, i, n) {
  for (i = 1; i <= length(s); i++) n = n * 16 + index("0123456789abcdef", substr(s, i, 1)) - 1
  return n + 0
}

function refuse(what) {
  print "frames: " what
  refused = 1
  exit 1
}

function ended() {
  if (name != "") frame[name] = 8 + 8 * pushed + taken + below
  name = ""
  pushed = taken = below = 0
}

# The deepest chain from f on: its bytes in deep[f], its next function in next_of[f].
function go_down(f, i, to, n, bytes) {
  if (f in deep) return deep[f]
  if (f in busy) refuse(f " calls itself")
  if (f in odd) refuse(f " " odd[f])
  if (!(f in frame) && f !~ /^mem(cpy|move|set|cmp)$/) refuse(f " is not in the object")
  busy[f] = 1
  bytes = own(f)
  n = calls[f]
  for (i = 1; i <= n; i++) {
    to = callee[f, i]
    go_down(to)
    if ((tail[f, i] ? 0 : own(f)) + deep[to] > bytes) {
      bytes = (tail[f, i] ? 0 : own(f)) + deep[to]
      next_of[f] = to
    }
  }
  return deep[f] = bytes
}

function own(f) { return f in frame ? frame[f] : 8 }

# The greatest bytes above TO on a chain from f, -1 where none leads there; the chain in step_to[f].
function go_to(f, to, i, bytes, best) {
  if (f == to) return 0
  if (f in above) return above[f]
  best = -1
  for (i = 1; i <= calls[f]; i++) {
    bytes = go_to(callee[f, i], to)
    if (bytes >= 0 && (tail[f, i] ? 0 : own(f)) + bytes > best) {
      best = (tail[f, i] ? 0 : own(f)) + bytes
      step_to[f] = callee[f, i]
    }
  }
  return above[f] = best
}

function short(f) {
  sub(/.*::/, "", f)
  return f
}

# Shows the chain through a function, with what it calls where it is there itself: show NAME FUNCTION ITSELF
function show(way, to, itself, f, bytes, said) {
  split("", above)
  split("", step_to)
  bytes = go_to(run, to) + (itself ? deep[to] : own(to))
  for (f = run; f != to; f = step_to[f]) said = said " " short(f) " " own(f)
  said = said " " short(f) " " own(f)
  if (itself) for (f = next_of[f]; f != ""; f = next_of[f]) said = said " " short(f) " " own(f)
  print way, bytes said
}

BEGIN { run = "card::runs::run" }
FILENAME == ARGV[1] { ways[++ways_count] = $0; next }
/^[0-9a-f]+ <.*>:$/ {
  ended()
  name = substr($0, index($0, "<") + 1)
  sub(/>:$/, "", name)
  operation = ""
  next
}
/R_X86_64_/ {
  if (operation ~ /^(call|j)/ && $2 ~ /_(PLT32|PC32)$/) {
    to = $3
    sub(/[-+]0x[0-9a-f]+$/, "", to)
    sub(/^\.text\./, "", to)
    calls[name]++
    callee[name, calls[name]] = to
    tail[name, calls[name]] = operation ~ /^j/
  }
  next
}
NF >= 2 { operation = $2 }
operation ~ /^call/ && $3 ~ /^\*/ { odd[name] = "calls by a pointer" }
operation ~ /^call/ && $NF == "<" name ">" { odd[name] = "calls itself" }
operation ~ /^push/ { pushed++ }
/,%rsp$/ {
  if (operation ~ /^sub/ && $3 ~ /^\$0x[0-9a-f]+,%rsp$/) taken += number(substr($3, 4, index($3, ",") - 4))
  else if (operation !~ /^add/ || $3 !~ /^\$0x[0-9a-f]+,/ || $3 ~ /^\$0xffffffff/) odd[name] = "changes the stack pointer by " operation
}
match($0, /-0x[0-9a-f]+\(%rsp\)/) {
  bytes = number(substr($0, RSTART + 3, RLENGTH - 9))
  if (bytes > below) below = bytes
}
END {
  if (refused) exit 1
  ended()
  if (!(run in frame)) refuse("the object has no " run)
  go_down(run)
  for (i = 1; i <= ways_count; i++) {
    count = split(ways[i], words, " ")
    to = run
    for (k = count; k > 1; k--) if (words[k] in deep) to = words[k]
    show(words[1], to, to == words[2])
  }
}
