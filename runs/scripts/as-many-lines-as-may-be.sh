# As many lines as may be, of which the last is the counts.
echo 'config 1 4 1'
head -c 65534 /dev/zero | sed 's/\x00/#\n/g'
echo 'end => free 4 mapped 0 withheld 0'
