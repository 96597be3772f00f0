# One byte too many, the line feed of a comment, and behind it a line that can't be read.
echo 'config 1 4 1'
head -c 1048563 /dev/zero | tr '\0' '#'
printf '\nspase\n'
