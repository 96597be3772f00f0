# One byte too many, and a line that can't be read.
printf 'config 1 4 1\nspase\n'
head -c 1048558 /dev/zero | tr '\0' '#'
