# A page that is mapped, where the queue has room for the two descriptors of its unmapping, has none, and has it again.
# By itself the script; with the word `report` what `test` prints.
if [ "${1-}" = report ]; then echo '5 answers as expected'; exit; fi
awk 'BEGIN {
  print "config 1 64 1"
  print "s: space"
  print "b: bind 0 s"
  print "deliver b => started"
  for (n = 0; n < 64; n++) print "map s " n " r"
  print "unmap s 0 48"
  print "map s 63 w => refused 6 Mapped"
  print "unmap s 48 13"
  print "map s 63 w => refused 6 Mapped"
  print "pump 0 => itag 0"
  print "map s 63 w => refused 6 Mapped"
}'
