# Cases of a program as it is used, for host/label-test and host/tool-test, which source this. They set `about`, with which each line begins,
# and `room`, a folder of their own. A line for each case, and at the end their counts.
passed=0 failed=0 untried=0
nothing=/dev/null

# Runs a command on this function's standard input, and says in `wrong` what is wrong with its status, its output, byte for byte, and its
# standard error.
wrong=''
compare() { # STATUS FILE-WITH-OUTPUT TEXT-ON-STANDARD-ERROR COMMAND...
  local status=$1 output=$2 said=$3 ended=0
  shift 3
  wrong=''
  "$@" >"$room/out" 2>"$room/err" || ended=$?
  [ "$ended" -eq "$status" ] || wrong="$wrong; exit status $ended, not $status"
  cmp -s "$room/out" "$output" || wrong="$wrong; standard output is $(head -c 200 "$room/out" | tr '\0' '?')"
  [ "$(tr '\0' '?' <"$room/err")" = "$said" ] || wrong="$wrong; standard error is $(head -c 300 "$room/err" | tr '\0' '?')"
}

# A case that holds or does not.
holds() { # WHAT COMMAND...
  local what=$1
  shift
  wrong=''
  "$@" || wrong="; it does not hold: $*"
  verdict "$what"
}

# Says what became of a case, from `wrong`.
verdict() { # WHAT
  if [ -z "$wrong" ]; then
    passed=$((passed + 1))
    echo "$about: ok: $1"
  else
    failed=$((failed + 1))
    echo "$about: FAILED: $1$wrong"
  fi
}

not_tried() { # WHAT WHY
  untried=$((untried + 1))
  echo "$about: not tried, since $2: $1"
}

# A file with these bytes.
bytes() { # NAME HEXADECIMAL...
  local name=$room/$1
  shift
  printf "$(printf '\\x%s' "$@")" >"$name"
  echo "$name"
}

# The words of the reader's refusals stand here, and not only in strip.h, since what is tried is that they come out.
words='the bytes end too early
a bit of 3 to 7 stands in a map byte, or bit 0 in the first one
a field holds the value it has if absent
a count, a place or a field is out of range
bytes follow the last record'

words_of() { # NUMBER
  echo "$words" | sed -n "$1p"
}

# Calls the function with a job for each number from 1 to 5 that the reader refuses by it.
each_refused() { # FUNCTION
  "$1" 1 "no bytes" /dev/null
  "$1" 2 "bit 3" "$(bytes job 00 01 00 00 08)"
  "$1" 3 "length 8" "$(bytes job 00 01 00 00 02 08)"
  "$1" 4 "a place without a mark" "$(bytes job 00 00 00 01)"
  "$1" 5 "a byte behind the empty strip" "$(bytes job 00 00 00 00 00)"
}

# The counts; false if a case failed.
say_counts() {
  echo "$about: $passed cases passed, $failed failed, $untried not tried"
  [ "$failed" -eq 0 ]
}
