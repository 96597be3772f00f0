# One line too many, which no line feed ends.
echo 'config 1 4 1'
head -c 65535 /dev/zero | sed 's/\x00/#\n/g'
printf '#'
