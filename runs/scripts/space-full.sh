# A space with as many pages as it may have: no page more is mapped, and an answer that would map two is refused.
# By itself the script; with the word `report` what `test` prints.
if [ "${1-}" = report ]; then echo '1035 answers as expected'; exit; fi
awk 'BEGIN {
  print "config 1 4096 1"
  print "s: space"
  for (n = 0; n < 1024; n++) print "map s " 2 * n " w => frame " n
  print "map s 1 w => refused 9 SpaceFull"
  print "unmap s 0 => free 0"
  print "b: bind 0 s"
  print "deliver b => started"
  print "g: fault 0 b 1 r new more => group 0"
  print "h: fault 0 b 3 r g last => group g"
  print "deliver g => queued"
  print "deliver h => queued"
  print "serve 0 => part"
  print "serve 0 => job"
  print "take 0 => job binding b group g pages 2"
  print "answer 0 success => refused 9 SpaceFull"
}'
