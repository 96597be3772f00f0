# One line too many, all comments behind a config.
echo 'config 1 4 1'
head -c 65536 /dev/zero | sed 's/\x00/#\n/g'
