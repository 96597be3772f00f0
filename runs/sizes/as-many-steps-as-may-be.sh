# As many lines as may be, all steps: a space, and maps of one of its pages, of which the first is accepted.
if [ "${1-}" = report ]; then
  printf 'space 0\nframe 0\n'
  yes 'refused 6 Mapped' | head -n 65533
  echo 'free 3 mapped 1 withheld 0'
else
  printf 'config 1 4 1\nspace\n'
  yes 'map 0 16 w' | head -n 65534
fi
