# What the bash scripts of this folder share: calls of the built program, and what they must answer.
# A script sources it, and ends with `exit "$failed"`.
set -u
cd "$(dirname "${BASH_SOURCE[0]}")/.."
program=$(bin/build) || exit 1
failed=0
expect() { # NAME STATUS OUTPUT MESSAGES WORDS.. ; the stream is standard input
  local name=$1 status=$2 output=$3 messages=$4
  shift 4
  local seen_output seen_messages seen_status seen_text
  seen_messages=$(mktemp)
  seen_output=$("$program" "$@" 2>"$seen_messages")
  seen_status=$?
  seen_text=$(cat "$seen_messages")
  rm -f "$seen_messages"
  if [ "$seen_status" != "$status" ] || [ "$seen_output" != "$(printf "$output")" ] ||
    [ "$seen_text" != "$(printf "$messages")" ]; then
    echo "${0##*/}: $name: status $seen_status, output '$seen_output', messages '$seen_text'"
    failed=1
  fi
}
refuses() { # NAME MESSAGE WORDS.. ; the status is 1, and any output; the stream is standard input
  local name=$1 message=$2 seen seen_status
  shift 2
  seen=$("$program" "$@" 2>&1 >/dev/null)
  seen_status=$?
  if [ "$seen_status" != 1 ] || [ "$seen" != "$message" ]; then
    echo "${0##*/}: $name: status $seen_status, messages '$seen'"
    failed=1
  fi
}
refuse() { # WORDS.. ; the status is 2, and standard error alone says why
  local seen seen_status messages
  messages=$(mktemp)
  seen=$("$program" "$@" 2>"$messages" </dev/null)
  seen_status=$?
  if [ "$seen_status" != 2 ] || [ -n "$seen" ] || [ ! -s "$messages" ]; then
    echo "${0##*/}: the words '$*': status $seen_status, output '$seen'"
    failed=1
  fi
  rm -f "$messages"
}
