# Ten thousand names, of which the first 4096 are of frames; the first, the middle and the last of these are looked up behind all.
# By itself the script; with the word `report` what `test` prints.
if [ "${1-}" = report ]; then echo '5912 answers as expected'; exit; fi
awk 'BEGIN {
  print "config 1 4096 1"
  for (s = 0; s < 4; s++) print "s" s ": space"
  for (n = 0; n < 4096; n++) print "n" n ": map s" int(n / 1024) " " n % 1024 " w"
  for (; n < 9996; n++) print "n" n ": look n" n % 4096 " => mapped"
  for (s = 0; s < 4; s++) print "look n" s * 1365 " => mapped"
  for (s = 0; s < 4; s++) print "unmap s" s " 1023 => free n" s * 1024 + 1023
  for (s = 0; s < 4; s++) print "map s" s " 1023 r => frame n" s * 1024 + 1023
}'
