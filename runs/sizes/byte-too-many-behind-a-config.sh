# One byte too many, in a comment behind a config.
echo 'config 1 4 1'
head -c 1048564 /dev/zero | tr '\0' '#'
