# Cuts a trace after restarts, into part1.trace, part2.trace and so on:
#
#   awk -v most=900000000 -f cut-at-restarts.awk big.trace
#
# A part ends with the first restart after `most` bytes. Each part begins with the header. A restart clears all calls, so
# no call goes on in the next part.
BEGIN {
  if (most == "") most = 900000000
  if (name == "") name = "part"
  part = name (++count) ".trace"
}

{
  print > part
  size += length($0) + 1
}

# After a restart nothing is unknown any more.
/^X25 / {
  header = $0
  sub(/ JOIN$/, "", header)
}

# One side asks for a restart (FB); it is over once the other side confirms it (FF) or asks for one too.
/^[0-9]+ [TN] [12]000[Ff][BbFf]/ {
  is_request = $3 ~ /^.000[Ff][Bb]/
  if (asked != "" && asked != $2) is_over = 1
  else if (is_request) asked = $2
}

is_over {
  is_over = 0
  asked = ""
  if (size > most) {
    close(part)
    part = name (++count) ".trace"
    size = 0
    print header > part
  }
}
