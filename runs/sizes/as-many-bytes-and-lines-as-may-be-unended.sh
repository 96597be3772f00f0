# The same, with a byte in the place of the last line feed.
echo 'config 1 4 1'
head -c 65534 /dev/zero | sed 's/\x00/#\n/g'
head -c 917495 /dev/zero | tr '\0' '#'
