# As many bytes and lines as may be: a config, and comments.
echo 'config 1 4 1'
head -c 65534 /dev/zero | sed 's/\x00/#\n/g'
head -c 917494 /dev/zero | tr '\0' '#'
echo
