# Safe answers: whatever the disk, the descriptors, the environment, the limits and the signals are, an answer is whole and right, or
# there is none and one line says so; and nothing stays behind.
# shellcheck shell=bash disable=SC2154,SC2016,SC2119,SC2120

safe_answers() {
  R=$T/room
  mkdir -p "$R"
  export R
  ./card run "$T/worked" >"$T/right"
  ./card state examples/sweep.image >"$T/right.state"
  environment
  temporary_folders
  limits
  full_disks
  inputs
  ended_programs
  first_moments
  any_signal
  places
  messages
}

# Runs a command in bash with $R as the temporary folder; leaves what it wrote and said, and its status.
attempt() {
  TMPDIR=$R timeout 60 bash -c "$1" >"$T/wrote" 2>"$T/said" </dev/null
  status=$?
}

# Whether the last command gave the right answer and said nothing: right [ANSWER]
right() { [ "$status" -eq 0 ] && [ ! -s "$T/said" ] && cmp -s "$T/wrote" "${1:-$T/right}"; }

# Whether the last command wrote nothing, said one line and ended with a status: none [STATUS]
none() {
  [ "$status" -eq "${1:-1}" ] && [ ! -s "$T/wrote" ] && [ "$(wc -l <"$T/said")" -eq 1 ] &&
    grep -q '^card: ' "$T/said" && messages_are_fit "$T/said"
}

nothing_left() { [ -z "$(find "$R" -mindepth 1)" ]; }

# One case: safe NAME VERDICT COMMAND; on a failure what was seen is shown.
safe() {
  local name=$1 verdict=$2
  attempt "$3"
  if $verdict && nothing_left; then
    ok
  else
    bad "$name: $3"
    echo "status $status, left: $(find "$R" -mindepth 1 -printf '%P ')"
    head -c 300 "$T/wrote" "$T/said"
    rm -rf "${R:?}"/*
  fi
}

right_or_none() { right || none; }

# The environment is no input.
environment() {
  local command
  echo 'echo poisoned; exit 0' >"$T/poison"
  safe "BASH_ENV" right 'BASH_ENV=$T/poison ENV=$T/poison ./card run "$T/worked"'
  safe "exported functions" right 'for f in cat head mktemp awk rm wait stat readlink env command sha256sum find exec set; do
    eval "$f() { echo poisoned; }"; export -f "$f"; done; ./card run "$T/worked"'
  for command in SHELLOPTS=xtrace:verbose SHELLOPTS=noexec SHELLOPTS=noglob:nounset:errexit BASHOPTS=failglob:nocasematch IFS=0/a \
    CDPATH=/tmp:/ GREP_OPTIONS=-v POSIXLY_CORRECT=1 LC_ALL=xx_XX.UTF-8 LANG=tr_TR.UTF-8 GLOBIGNORE='*' BASH_COMPAT=3.1 PS4='$(echo x)' \
    AWKPATH=/ root=/ front=/ scratch=/ said=yes closed=012 half=/etc/x group=1 command=x; do
    safe "$command" right "env '$command' ./card run \"\$T/worked\""
  done
  safe "no environment at all" right 'env -i T="$T" TMPDIR="$R" PATH="$PATH" ${CARD_BIN+"CARD_BIN=$CARD_BIN"} ./card run "$T/worked"'
  safe "a path with the mill's folder in it" right 'mkdir -p "$T/mill" && printf "#!/bin/sh\necho poisoned\n" >"$T/mill/head" &&
    chmod +x "$T/mill/head" && here=$PWD && cd "$T/mill" && PATH=.::$PATH "$here/card" run "$T/worked"'
  safe "BASH_ENV and explain" none 'echo | BASH_ENV=$T/poison ./card explain'
  safe "umask 000" right 'umask 000 && ./card run "$T/worked"'
  safe "umask 777" right 'umask 777 && ./card run "$T/worked"'
  for command in '<&-' '2>&-' '<&- 2>&-'; do safe "closed: $command" right "./card run \"\$T/worked\" $command"; done
  for command in '>&-' '<&- >&-' '1</dev/null'; do safe "closed: $command" none "./card run \"\$T/worked\" $command"; done
  for command in help version 'list $T/worked' 'image $T/timer.elf' 'explain examples/peek.answer'; do
    safe "closed output: $command" none "./card $command >&-"
    safe "full output: $command" none "./card $command >/dev/full"
  done
}

# The folder for temporary files may be anything.
temporary_folders() {
  local name
  mkdir -p "$T/tmp"
  : >"$T/tmp/file"
  ln -s "$R" "$T/tmp/link"
  ln -s "$T/tmp/nowhere" "$T/tmp/dangling"
  for name in missing file dangling; do safe "TMPDIR $name" none "TMPDIR=\$T/tmp/$name ./card run \"\$T/worked\""; done
  safe "TMPDIR a link" right 'TMPDIR=$T/tmp/link ./card run "$T/worked"'
  safe "TMPDIR empty" right 'TMPDIR= ./card run "$T/worked"'
  for name in $'a\ttab' '-dash' 'a=b' $'a\nline' "qu'ote" '$(date)' $'\x9b'; do
    mkdir -p -- "$R/$name"
    attempt "cd \"\$R\" && TMPDIR=$(printf %q "$name") \"\$OLDPWD/card\" run \"\$T/worked\" && TMPDIR=$(printf %q "$name") \"\$OLDPWD/card\" list \"\$T/worked\" >/dev/null"
    hold "TMPDIR $(printf %q "$name")" right
    rmdir -- "$R/$name" || bad "TMPDIR $(printf %q "$name"): something is left behind"
  done
  safe "TMPDIR without rights" right_or_none 'mkdir -p "$T/tmp/closed" && chmod 500 "$T/tmp/closed" && TMPDIR=$T/tmp/closed ./card run "$T/worked"'
}

# A limit on files ends nothing without a word. What is said goes through a pipe, since the limit holds for a file of messages too.
limits() {
  local size
  for size in 0 1 4; do
    safe "ulimit -f $size" right_or_none "$(limited "$size" './card run "$T/worked"')"
    safe "ulimit -f $size, state" none "$(limited "$size" './card state examples/sweep.image')"
    safe "ulimit -f $size, image" none "$(limited "$size" './card image "$T/sweep.elf" --user -o "$T/limited"')"
  done
  hold "ulimit -f leaves no half image" [ -z "$(find "$T" -name 'limited*')" ]
}

limited() { echo "{ (ulimit -f $1 && $2) 2>&1 >&3 | cat >&2; } 3>&1; exit \${PIPESTATUS[0]}"; }

# Disks of a few KiB, mounted in a namespace of their own: the whole state after the sweep, 4263 bytes, does not fit.
full_disks() {
  export disk=$T/disk fill='cat /dev/zero >"$disk/all" 2>/dev/null;'
  mkdir -p "$disk"
  if ! bash -c "$(on_disk 4k :)" 2>/dev/null; then
    echo "no disk can be mounted here, so what a full one does is not tried"
    return
  fi
  safe "the output's disk is full" none "$(on_disk 4k './card state examples/sweep.image >"$disk/out"; s=$?; cat "$disk/out"; exit $s')"
  safe "the output's disk is full, with something before" none "$(on_disk 8k 'head -c 5000 /dev/zero >"$disk/out"
    ./card state examples/sweep.image >>"$disk/out"; s=$?; [ "$(wc -c <"$disk/out")" -eq 5000 ] || echo; exit $s')"
  safe "the temporary folder's disk is full" none "$(on_disk 8k 'TMPDIR=$disk ./card state examples/sweep.image')"
  safe "the temporary folder's disk is full at once" none "$(on_disk 4k "$fill"' TMPDIR=$disk ./card run "$T/worked"')"
  safe "explain on a full disk" none "$(on_disk 16k 'TMPDIR=$disk ./card explain "$T/right.state"')"
  safe "list on a full disk" none "$(on_disk 12k 'TMPDIR=$disk ./card list examples/sweep.image')"
  many_append
  safe "explain without room for a file" none "$(on_disk 64k,nr_inodes=3 'TMPDIR=$disk ./card explain "$T/right.state"')"
  safe "image to a full disk" none "$(on_disk 4k "$fill"' ./card image "$T/sweep.elf" --user -o "$disk/x.image"; s=$?; ls "$disk" | grep x; exit $s')"
}

# Several at once append to a file on a disk that has room for two of their answers, and a bit: each answer that was given is there, and
# nothing else.
many_append() {
  local try
  printf '0300000000x\n' >"$T/small"
  ./card run "$T/small" >"$T/right.small"
  export bytes=$((3 + 2 * $(wc -c <"$T/right.small")))
  for try in 1 2 3; do
    attempt "$(on_disk 4k 'head -c $((4096 - bytes)) /dev/zero >"$disk/log"; for i in 1 2 3 4; do ./card run "$T/small" >>"$disk/log" 2>/dev/null & done
      for job in $(jobs -p); do wait "$job" && cat "$T/right.small" >"$T/given.$job"; done; cat "$T"/given.* | cmp - <(tail -c +$((4097 - bytes)) "$disk/log")')"
    rm -f "$T"/given.*
    hold "several append to a disk that becomes full, try $try" [ "$status" -eq 0 ]
  done
}

# A command with a disk of a size at $disk: on_disk SIZE COMMAND
on_disk() { printf 'unshare -rm bash -c %q' "mount -t tmpfs -o size=$1 tmpfs \"\$disk\" && $2"; }

# What cannot be read whole is no input; what has no end is taken as far as it counts.
inputs() {
  local word
  for word in 'run -' 'state -' 'list -' 'explain' 'image -'; do
    safe "a folder as input: $word" none "./card $word <\"\$T\""
    safe "input that would block: $word" none "perl -e 'use Fcntl; \$^F = 99; pipe(R, W); fcntl(R, F_SETFL, O_NONBLOCK); open(STDIN, \"<&R\"); exec @ARGV' ./card $word"
  done
  safe "an answer without its last LF" none 'head -c -1 examples/peek.answer | ./card explain'
  safe "an image without its last LF" none 'head -c -1 "$T/worked" | ./card list -'
  printf '0e0500000000\n' >"$T/too-large"
  attempt './card run /dev/zero'
  hold "an endless image" right "$T/too-large"
}

# A program that is killed, or ends otherwise than with an answer, gives none, whatever it has written.
ended_programs() {
  local end
  mkdir -p "$T/ends"
  for end in 'kill -9 $$' 'kill -SEGV $$' 'exit 1' 'exit 2' 'exit 77'; do
    printf '#!/bin/sh\ncat "%s"\n%s\n' "$T/right" "$end" >"$T/ends/cardrun"
    chmod +x "$T/ends/cardrun"
    safe "a program that ends by: $end" none 'CARD_BIN=$T/ends ./card run "$T/worked"'
    cp "$T/ends/cardrun" "$T/ends/cardimage"
    safe "a cardimage that ends by: $end" none 'CARD_BIN=$T/ends ./card image "$T/timer.elf"'
  done
}

# A signal between the making of the temporary folder and the next line leaves nothing behind.
first_moments() {
  local signal
  mkdir -p "$T/late"
  printf '#!/bin/sh\n%s "$@"\nsleep 0.3\n' "$(command -v mktemp)" >"$T/late/mktemp"
  chmod +x "$T/late/mktemp"
  for signal in HUP INT TERM; do
    PATH=$T/late:$PATH TMPDIR=$R timeout --foreground -s "$signal" 0.15 ./card run "$T/worked" >"$T/wrote" 2>"$T/said"
    hold "$signal in the first moments" nothing_left
    hold "$signal in the first moments says nothing" [ ! -s "$T/said" -a ! -s "$T/wrote" ]
    rm -rf "${R:?}"/*
  done
}

# A signal that ends ./card while it waits for its input, or for a program, leaves no file and no process.
any_signal() {
  local signal id
  mkdir -p "$T/waits"
  printf '#!/bin/sh\nexec sleep 20\n' >"$T/waits/cardrun"
  chmod +x "$T/waits/cardrun"
  mkfifo "$T/waits/fifo"
  echo "$T/waits/" >"$T/waiting"
  for signal in HUP USR1 ALRM TERM PROF IO PWR 34; do
    TMPDIR=$R CARD_BIN=$T/waits ./card run "$T/worked" >"$T/wrote" 2>"$T/said" &
    id=$!
    TMPDIR=$R ./card run "$T/waits/fifo" >>"$T/wrote" 2>>"$T/said" &
    sleep 0.3
    kill -"$signal" "$id" $!
    wait "$id" $!
    hold "$signal while it waits" nothing_left
    hold "$signal while it waits: nothing runs on" [ -z "$(grep -l -s -a -F -f "$T/waiting" /proc/[0-9]*/cmdline)" ]
  done
}

# Where ./card stands, and which names stand for what.
places() {
  local name
  mkdir -p "$T/alone"
  cp card "$T/alone/card"
  safe "card without its files" none '"$T/alone/card" run "$T/worked"'
  for name in /dev/fd/7 /dev/fd//9 /proc/self/fd/7 /dev/stdout /dev/fd/2; do
    safe "an output of ./card's own as input: $name" 'none 2' "./card run $name 7<\"\$T/worked\" 9<\"\$T/worked\" 2>&1 >/dev/null | cat >&2; exit \${PIPESTATUS[0]}"
  done
  safe "another descriptor as input" right './card run /dev/fd/5 5<"$T/worked"'
  safe "a process as input" right './card run <(cat "$T/worked")'
  safe "a program that gives nothing" none 'printf "#!/bin/sh\nexit 0\n" >"$T/ends/cardrun" && CARD_BIN=$T/ends ./card run "$T/worked"'
  ln -s "$T/behind" "$T/through"
  ./card image "$T/timer.elf" -o "$T/through" 2>"$T/said"
  hold "image through a link" [ $? -eq 0 ]
  hold "image through a link is where it leads" [ -L "$T/through" -a -s "$T/behind" ]
}

# What a message quotes is shortened and can be printed.
messages() {
  local odd=$'\x9b31mname\x1b[2J\tx' long word
  long=$(printf 'n%.0s' {1..4000})
  export odd long
  for word in run state list explain image walk help 'explain --image' 'image x -o' 'state examples/peek.image' 'image --budget' 'image --reg' \
    'image "$T/timer.elf" --reg' 'image "$T/timer.elf" --tlb' 'image "$T/timer.elf" --cp0' 'image "$T/timer.elf" --budget'; do
    safe "a name that cannot be printed: $word" 'none 2' "./card $word \"\$odd\""
    safe "a long name: $word" 'none 2' "./card $word \"\$long\""
  done
  safe "an answer that cannot be printed" none 'printf "0f\233\033[2J\n" | ./card explain'
  safe "a long answer" none 'printf "%s\n" "$long" | ./card explain'
  safe "CARD_BIN that cannot be printed" none 'CARD_BIN="/$odd" ./card run "$T/worked"'
  safe "a long CARD_BIN" none 'CARD_BIN="/$long" ./card run "$T/worked"'
  safe "a TMPDIR that cannot be printed" none 'TMPDIR="/$odd" ./card run "$T/worked"'
  safe "a long TMPDIR" none 'TMPDIR="/$long" ./card run "$T/worked"'
}
