# A name of 1000 letters, used, and one of 1001, which no line has. By itself the script; with the word `report` what `test` prints.
name=$(head -c 1000 /dev/zero | tr '\0' 'n')
if [ "${1-}" = report ]; then
  echo "line 4: '${name:0:60}..': wanted a space (${name:0:60}..?)"
else
  printf 'config 1 4 1\n%s: space\ndrop %s => gone\ndrop %sx\n' "$name" "$name" "$name"
fi
