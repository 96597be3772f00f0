# One line too many, and no line but the first can be read.
echo 'config 1 4 1'
head -c 65536 /dev/zero | sed 's/\x00/spase\n/g'
