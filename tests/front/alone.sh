# What a test that runs the proved programs by itself takes from front/: messages, the temporary folder, the programs.
# shellcheck shell=bash disable=SC2034,SC2154
export LC_ALL=C
front=$root/front closed=''
exec 7>&1 9>&2
# shellcheck source=front/say.sh
. "$front/say.sh"
# shellcheck source=front/program.sh
. "$front/program.sh"
umask "$user_umask"
trap 'said=yes; leave $?' EXIT
make_scratch
