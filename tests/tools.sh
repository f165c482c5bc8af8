# What the tests need of Debian's packages, installed where it is missing and this is root.
# shellcheck shell=bash

# Stops short, with a line, where a command is not there and cannot be installed: have COMMAND PACKAGE
have() {
  local said
  if ! command -v "$1" >/dev/null && [ "$(id -u)" = 0 ] && command -v apt-get >/dev/null; then
    said=$({ apt-get update && apt-get install -y --no-install-recommends "$2"; } 2>&1) || printf '%s\n' "$said" | tail -n 3
  fi
  command -v "$1" >/dev/null && return
  echo "FAILED: $1 is missing; install Debian's package $2: apt-get install $2"
  return 1
}
