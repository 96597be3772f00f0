# Sixty thousand lines are wrong, and each is told. By itself the script; with the word `report` what `test` prints.
awk -v report="${1-}" 'BEGIN {
  if (!report) print "config 1 4 1"
  for (n = 2; n <= 60001; n++) print report ? "line " n ": \047x" n "\047: wanted a step" : "x" n
}'
